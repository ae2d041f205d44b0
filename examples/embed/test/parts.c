/* Each answer code that the functions of kaffe_parts.h can give, and bad use: the call, the answer due, and that nothing has changed. */
#include "../kaffe_parts.h"
#include <inttypes.h>
#include <stdio.h>

static int failures;

static void due(const char *what, uint64_t said, uint64_t wanted) {
    if (said == wanted) return;
    failures++;
    fprintf(stderr, "parts: %s: %" PRIu64 ", and %" PRIu64 " is due\n", what, said, wanted);
}

#define STATUS(call, wanted) due(#call, (call).status, wanted)
/* The call is done, and not refused. */
#define DONE(call) due(#call, done_of(call), 0)
/* The call needs this part besides. */
#define NEEDS(call, part, number) due(#call, needed_of(call), part + 100 * (number))

static uint64_t done_of(kaffe_answer a) { return a.status ? 1000 + a.status : a.fault; }
static uint64_t needed_of(kaffe_answer a) { return a.status != KAFFE_NEEDS || a.what != KAFFE_PART ? 1000 + a.status : a.seg + 100 * (uint64_t)a.at; }

enum { HOST, GUEST, OTHER, PROCESSES };
enum { NODE };
enum { ONE, TWO, HEAPS };
static const char *DECLARED = "kaffe 1\nkernel 4096 2\ntype Node ref ref int\nlimit root 4000\nlimit all root hard 2000\n"
                              "limit low all soft 900\nproc host root\nproc guest all\nproc other low\nshared one\nshared two\n";

/* Requests, by the numbers that count. */
static kaffe_request of(uint32_t call) { return kaffe_asked(call, 0, 0, 0, 0, 0); }
static kaffe_request at(uint32_t call, uint32_t at) { return kaffe_asked(call, at, 0, 0, 0, 0); }

static kaffe_parts *keeping(uint64_t events, uint32_t kept) {
    kaffe_answer why;
    kaffe_rooms rooms = kaffe_rooms_for(100, PROCESSES, HEAPS);
    if (events) rooms.events = events;
    rooms.kept = kept;
    kaffe_parts *p = kaffe_make_parts_with(DECLARED, NODE, 10, &rooms, &why);
    if (p) return p;
    fprintf(stderr, "parts: no host: line %" PRIu32 ", reason %" PRIu32 "\n", why.seg, why.at);
    exit(1);
}

static kaffe_parts *opened(uint64_t events) { return keeping(events, events ? 0 : 100); }

static kaffe_part *guest(kaffe_parts *p, uint32_t pid) { return kaffe_guest_part(p, pid); }
static kaffe_part *heap(kaffe_parts *p, uint32_t id) { return kaffe_shared_part(p, id); }
static kaffe_part *kernel(kaffe_parts *p) { return kaffe_kernel_part(p); }
static kaffe_part *book(kaffe_parts *p) { return kaffe_book_part(p); }

static uint64_t events(kaffe_parts *p) { return kaffe_call_one(book(p), of(KAFFE_ASK_EVENTS)).number; }

static void openings(void) {
    kaffe_answer why;
    due("a bad text", kaffe_make_parts("kaffe 1\nkernel x\n", NODE, 0, 10, &why) == NULL, 1);
    due("its status", why.status, KAFFE_NO_HOST);
    due("its line", why.seg, 2);
    due("a type that is not declared", kaffe_make_parts(DECLARED, 7, 0, 10, &why) == NULL, 1);
    due("its reason", why.at, 2);
    kaffe_part *row = kaffe_part_room(), *part = kaffe_part_room();
    kaffe_rooms rooms = kaffe_rooms_for(10, 0, 0);
    kaffe_split((const uint8_t *)"", 0, NODE, 0, rooms, 1, 10, row);
    STATUS(kaffe_call_one(row, of(KAFFE_ASK_EVENTS)), KAFFE_NO_HOST);
    kaffe_part_take(row, part);
    STATUS(kaffe_call_one(part, of(KAFFE_ASK_EVENTS)), KAFFE_MIXED);
    STATUS(kaffe_call_one(row, of(KAFFE_ASK_EVENTS)), KAFFE_NO_HOST);
    kaffe_part_close(part);
    kaffe_part_close(row);
    kaffe_split((const uint8_t *)DECLARED, strlen(DECLARED), NODE, 0, kaffe_rooms_for(10, PROCESSES, HEAPS), 1, 10, row);
    STATUS(kaffe_call_one(row, of(KAFFE_ASK_EVENTS)), KAFFE_MIXED); /* a row is no part */
    for (int i = 0; i < PROCESSES + HEAPS + 2; i++) {
        kaffe_part_take(row, part);
        const uint32_t question = i < PROCESSES || (i > PROCESSES && i <= PROCESSES + HEAPS) ? KAFFE_ASK_BYTES : i == PROCESSES ? KAFFE_ASK_KERNEL_BYTES : KAFFE_ASK_EVENTS;
        STATUS(kaffe_call_one(part, of(question)), KAFFE_OK);
        kaffe_part_close(part);
    }
    kaffe_part_take(row, part); /* all are taken */
    STATUS(kaffe_call_one(part, of(KAFFE_ASK_EVENTS)), KAFFE_MIXED);
    kaffe_part_close(part);
    kaffe_part_close(row);
    free(part);
    free(row);
}

/* Parts of two hosts, and parts of other kinds than a call is lent. */
static void mixed(void) {
    kaffe_parts *p = opened(0), *q = opened(0);
    const kaffe_request make = at(KAFFE_CALL_NEW, NODE);
    STATUS(kaffe_call_two(guest(p, GUEST), book(q), make), KAFFE_MIXED);
    STATUS(kaffe_call_three(guest(p, GUEST), kernel(p), book(q), make), KAFFE_MIXED);
    STATUS(kaffe_call_three(guest(p, GUEST), kernel(q), book(p), make), KAFFE_MIXED);
    STATUS(kaffe_call_three(guest(p, GUEST), heap(q, ONE), book(p), make), KAFFE_MIXED);
    STATUS(kaffe_call_three(heap(p, ONE), kernel(q), book(p), of(KAFFE_CALL_ABSORB)), KAFFE_MIXED);
    STATUS(kaffe_call_four(guest(p, HOST), guest(q, GUEST), kernel(p), book(p), of(KAFFE_CALL_KILL_BY)), KAFFE_MIXED);
    STATUS(kaffe_call_two(guest(p, GUEST), book(q), of(KAFFE_ASK_CHARGE)), KAFFE_MIXED);
    due("a charge by the book of another host", kaffe_part_charge(guest(p, GUEST), book(q)), 0);
    STATUS(kaffe_call_two(book(p), guest(p, GUEST), make), KAFFE_MIXED);
    STATUS(kaffe_call_two(guest(p, GUEST), kernel(p), make), KAFFE_MIXED);
    STATUS(kaffe_call_three(guest(p, GUEST), book(p), kernel(p), make), KAFFE_MIXED);
    STATUS(kaffe_call_three(kernel(p), heap(p, ONE), book(p), of(KAFFE_CALL_ABSORB)), KAFFE_MIXED);
    STATUS(kaffe_call_four(guest(p, HOST), heap(p, ONE), kernel(p), book(p), of(KAFFE_CALL_KILL_BY)), KAFFE_MIXED);
    due("events of one", events(p), 0);
    due("events of the other", events(q), 0);
    kaffe_free_parts(p);
    kaffe_free_parts(q);
}

/* A request that names no call over the parts that are lent. */
static void no_calls(void) {
    kaffe_parts *p = opened(0);
    STATUS(kaffe_call_one(guest(p, GUEST), of(KAFFE_CALL_COLLECT)), KAFFE_NO_CALL);
    STATUS(kaffe_call_one(kernel(p), of(KAFFE_CALL_NEW)), KAFFE_NO_CALL);
    STATUS(kaffe_call_one(heap(p, ONE), of(KAFFE_ASK_EVENTS)), KAFFE_NO_CALL);
    STATUS(kaffe_call_one(book(p), of(KAFFE_ASK_LIVES)), KAFFE_NO_CALL);
    STATUS(kaffe_call_one(guest(p, GUEST), of(KAFFE_ASK_CHARGE)), KAFFE_NO_CALL);
    STATUS(kaffe_call_one(book(p), of(KAFFE_ASK_CHARGE)), KAFFE_NO_CALL);
    STATUS(kaffe_call_one(guest(p, GUEST), of(KAFFE_CALL_TAKE)), KAFFE_NO_CALL);
    STATUS(kaffe_call_one(kernel(p), of(KAFFE_CALL_TAKE)), KAFFE_NO_CALL);
    STATUS(kaffe_call_one(heap(p, ONE), of(KAFFE_CALL_TAKE)), KAFFE_NO_CALL);
    STATUS(kaffe_call_two(guest(p, GUEST), book(p), of(KAFFE_CALL_TAKE)), KAFFE_NO_CALL);
    STATUS(kaffe_call_two(guest(p, GUEST), book(p), of(KAFFE_ASK_LEFT)), KAFFE_NO_CALL);
    STATUS(kaffe_call_two(guest(p, GUEST), book(p), of(KAFFE_ASK_LIVES)), KAFFE_NO_CALL);
    STATUS(kaffe_call_three(guest(p, GUEST), kernel(p), book(p), of(KAFFE_ASK_CHARGE)), KAFFE_NO_CALL);
    STATUS(kaffe_call_two(guest(p, GUEST), book(p), of(KAFFE_CALL_KILL)), KAFFE_NO_CALL);
    STATUS(kaffe_call_three(guest(p, GUEST), kernel(p), book(p), of(KAFFE_CALL_COLLECT)), KAFFE_NO_CALL);
    STATUS(kaffe_call_three(guest(p, GUEST), heap(p, ONE), book(p), of(KAFFE_CALL_COLLECT)), KAFFE_NO_CALL);
    STATUS(kaffe_call_three(heap(p, ONE), kernel(p), book(p), of(KAFFE_CALL_NEW)), KAFFE_NO_CALL);
    STATUS(kaffe_call_four(guest(p, HOST), guest(p, GUEST), kernel(p), book(p), of(KAFFE_CALL_KILL)), KAFFE_NO_CALL);
    due("events", events(p), 0);
    kaffe_free_parts(p);
}

/* Which part is needed besides, by what the operation touches; and then the call with it is done. */
static void needs(void) {
    kaffe_parts *p = opened(0);
    const kaffe_request make = at(KAFFE_CALL_NEW, NODE), kmake = kaffe_asked(KAFFE_CALL_KNEW, NODE, 0, 1, 0, 0), share = at(KAFFE_CALL_SHARE, TWO);
    NEEDS(kaffe_call_one(guest(p, GUEST), make), KAFFE_NEEDS_BOOK, 0);
    DONE(kaffe_call_two(guest(p, GUEST), book(p), make));
    DONE(kaffe_call_one(guest(p, GUEST), kaffe_asked(KAFFE_CALL_PUT, 2, 0, 0, 0, 7)));
    due("a number", kaffe_call_one(guest(p, GUEST), kaffe_asked(KAFFE_CALL_GET, 2, 0, 0, 0, 0)).number, 7);
    due("events before it is published", events(p), 1);
    DONE(kaffe_call_two(guest(p, GUEST), book(p), of(KAFFE_CALL_PUBLISH)));
    due("events after it is published", events(p), 3);
    NEEDS(kaffe_call_two(guest(p, GUEST), book(p), kmake), KAFFE_NEEDS_KERNEL, 0);
    DONE(kaffe_call_three(guest(p, GUEST), kernel(p), book(p), kmake));
    NEEDS(kaffe_call_three(guest(p, GUEST), kernel(p), book(p), make), KAFFE_NEEDS_BOOK, 0); /* the kernel's part is one too many */
    NEEDS(kaffe_call_two(guest(p, GUEST), book(p), share), KAFFE_NEEDS_SHARED, TWO);
    NEEDS(kaffe_call_three(guest(p, GUEST), heap(p, ONE), book(p), share), KAFFE_NEEDS_SHARED, TWO);
    NEEDS(kaffe_call_three(guest(p, GUEST), kernel(p), book(p), share), KAFFE_NEEDS_SHARED, TWO);
    DONE(kaffe_call_three(guest(p, GUEST), heap(p, TWO), book(p), share));
    NEEDS(kaffe_call_two(guest(p, GUEST), book(p), at(KAFFE_CALL_KILL_BY, OTHER)), KAFFE_NEEDS_TARGET, OTHER);
    DONE(kaffe_call_four(guest(p, GUEST), guest(p, OTHER), kernel(p), book(p), at(KAFFE_CALL_KILL_BY, OTHER)));
    due("whether the target lives", kaffe_call_one(guest(p, OTHER), of(KAFFE_ASK_LIVES)).number, 0);
    due("whether its killer lives", kaffe_call_one(guest(p, GUEST), of(KAFFE_ASK_LIVES)).number, 1);
    STATUS(kaffe_call_two(guest(p, OTHER), book(p), make), KAFFE_ENDED);
    due("events", events(p), 6);
    kaffe_free_parts(p);
}

/* Whole calls, what they free, and orphans. */
static void wholes(void) {
    kaffe_parts *p = opened(0);
    kaffe_answer made = kaffe_call_two(guest(p, GUEST), book(p), at(KAFFE_CALL_NEW, NODE));
    DONE(kaffe_call_one(guest(p, GUEST), of(KAFFE_CALL_CLEAR)));
    kaffe_answer freed = kaffe_call_two(guest(p, GUEST), book(p), of(KAFFE_CALL_COLLECT));
    due("objects that were freed", freed.seg, 1);
    due("their names", kaffe_call_one(book(p), of(KAFFE_ASK_FREED_COUNT)).number, 1);
    due("the name", kaffe_call_one(book(p), of(KAFFE_ASK_FREED_NAME)).serial, made.serial);
    DONE(kaffe_call_three(guest(p, GUEST), heap(p, ONE), book(p), at(KAFFE_CALL_SHARE, ONE)));
    DONE(kaffe_call_three(guest(p, GUEST), heap(p, ONE), book(p), kaffe_asked(KAFFE_CALL_SNEW, ONE, NODE, 0, 0, 0)));
    due("bytes of the shared heap", kaffe_call_one(heap(p, ONE), of(KAFFE_ASK_BYTES)).number, 40);
    STATUS(kaffe_call_three(heap(p, ONE), kernel(p), book(p), of(KAFFE_CALL_ABSORB)), KAFFE_ORPHAN);
    DONE(kaffe_call_three(guest(p, GUEST), kernel(p), book(p), of(KAFFE_CALL_KILL)));
    STATUS(kaffe_call_three(guest(p, GUEST), kernel(p), book(p), of(KAFFE_CALL_KILL)), KAFFE_ENDED);
    STATUS(kaffe_call_three(guest(p, HOST), kernel(p), book(p), of(KAFFE_CALL_KCOLLECT)), KAFFE_ORPHAN);
    due("the orphan", kaffe_call_one(book(p), of(KAFFE_ASK_ORPHAN)).number, ONE);
    DONE(kaffe_call_three(heap(p, ONE), kernel(p), book(p), of(KAFFE_CALL_ABSORB)));
    STATUS(kaffe_call_one(book(p), of(KAFFE_ASK_ORPHAN)), KAFFE_UNKNOWN);
    due("objects that were freed", kaffe_call_three(guest(p, HOST), kernel(p), book(p), of(KAFFE_CALL_KCOLLECT)).seg, 1);
    due("the use of a limit", kaffe_call_one(book(p), at(KAFFE_ASK_USE, 1)).number, 0);
    due("its maximum", kaffe_call_one(book(p), at(KAFFE_ASK_MAX, 1)).number, 2000);
    STATUS(kaffe_call_one(book(p), at(KAFFE_ASK_MAX, 3)), KAFFE_UNKNOWN);
    kaffe_request first = of(KAFFE_ASK_EVENT);
    due("what the first event was asked for", kaffe_call_one(book(p), first).what, KAFFE_ASKED + KAFFE_CALL_NEW);
    first.call = KAFFE_ASK_CAME;
    due("what came of it", kaffe_call_one(book(p), first).serial, made.serial);
    kaffe_free_parts(p);
}

/* What a guest is charged: its own objects and, in full, each shared heap that it shares; nothing once it has ended. */
static void charges(void) {
    kaffe_parts *p = opened(0);
    kaffe_part *one = guest(p, GUEST), *other = guest(p, OTHER);
    due("the charge at first", kaffe_part_charge(one, book(p)), 0);
    DONE(kaffe_call_two(one, book(p), at(KAFFE_CALL_NEW, NODE)));
    due("its object", kaffe_part_charge(one, book(p)), 40);
    DONE(kaffe_call_two(one, book(p), at(KAFFE_CALL_NEW, NODE)));
    due("a second one", kaffe_part_charge(one, book(p)), 80);
    DONE(kaffe_call_three(one, heap(p, TWO), book(p), at(KAFFE_CALL_SHARE, TWO)));
    DONE(kaffe_call_three(one, heap(p, TWO), book(p), kaffe_asked(KAFFE_CALL_SNEW, TWO, NODE, 1, 0, 0)));
    due("and one in a shared heap", kaffe_part_charge(one, book(p)), 120);
    due("who does not share it", kaffe_part_charge(other, book(p)), 0);
    DONE(kaffe_call_three(one, heap(p, TWO), book(p), kaffe_asked(KAFFE_CALL_FREEZE, TWO, 0, 1, 0, 0)));
    DONE(kaffe_call_three(other, heap(p, TWO), book(p), kaffe_asked(KAFFE_CALL_ATTACH, TWO, 0, 0, 0, 0)));
    due("who shares it now", kaffe_part_charge(other, book(p)), 40);
    due("the use of the limit", kaffe_call_one(book(p), at(KAFFE_ASK_USE, 1)).number, 160);
    DONE(kaffe_call_two(one, book(p), of(KAFFE_CALL_COLLECT)));
    due("after a collection", kaffe_part_charge(one, book(p)), 80);
    DONE(kaffe_call_three(one, kernel(p), book(p), of(KAFFE_CALL_KILL)));
    due("after its end", kaffe_part_charge(one, book(p)), 0);
    due("its status", kaffe_call_two(one, book(p), of(KAFFE_ASK_CHARGE)).status, KAFFE_OK);
    due("the other one", kaffe_part_charge(other, book(p)), 40);
    kaffe_free_parts(p);
}

/* The event that is taken out next has this number, and is this call; or there is none. */
static void next(kaffe_parts *p, int there, uint64_t number, uint32_t call) {
    kaffe_event event;
    due("whether an event is taken out", kaffe_part_take_event(book(p), &event), there);
    if (!there) return;
    due("the number of what is taken out", event.number, number);
    due("what it was asked for", event.asked.call, call);
}

/* Events are taken out once each and in order; where some were forgotten the next one is the first that is kept. */
static void takes(void) {
    kaffe_parts *p = keeping(0, 3);
    next(p, 0, 0, 0);
    DONE(kaffe_call_two(guest(p, GUEST), book(p), at(KAFFE_CALL_NEW, NODE)));
    DONE(kaffe_call_two(guest(p, OTHER), book(p), of(KAFFE_CALL_COLLECT)));
    next(p, 1, 0, KAFFE_CALL_NEW);
    next(p, 1, 1, KAFFE_CALL_COLLECT);
    next(p, 1, 2, KAFFE_EVENT_ENDED);
    next(p, 0, 0, 0);
    DONE(kaffe_call_one(guest(p, GUEST), of(KAFFE_CALL_CLEAR)));
    next(p, 0, 0, 0); /* nothing is published yet */
    DONE(kaffe_call_two(guest(p, GUEST), book(p), of(KAFFE_CALL_PUBLISH)));
    next(p, 1, 3, KAFFE_CALL_CLEAR);
    for (int i = 0; i < 5; i++) DONE(kaffe_call_two(guest(p, GUEST), book(p), at(KAFFE_CALL_NEW, NODE))); /* the events 4 to 8, of which 6 to 8 are kept */
    next(p, 1, 6, KAFFE_CALL_NEW);
    kaffe_event event;
    due("an event that was taken out is kept still", kaffe_part_event_at(book(p), 6, &event), 1);
    due("one that is forgotten", kaffe_part_event_at(book(p), 5, &event), 0);
    next(p, 1, 7, KAFFE_CALL_NEW);
    next(p, 1, 8, KAFFE_CALL_NEW);
    next(p, 0, 0, 0);
    kaffe_answer none = kaffe_call_one(book(p), of(KAFFE_CALL_TAKE));
    due("the status where there is none", none.status, KAFFE_OK);
    due("what it tells", none.what, KAFFE_NOTHING);
    kaffe_free_parts(p);
    p = keeping(0, 0);
    DONE(kaffe_call_two(guest(p, GUEST), book(p), at(KAFFE_CALL_NEW, NODE)));
    next(p, 0, 0, 0); /* none is kept */
    kaffe_free_parts(p);
}

/* Where the journal is full each call is answered so, an end too: no event is kept. */
static void full(void) {
    enum { EVENTS = 3 * PROCESSES + HEAPS + 3 };
    kaffe_parts *p = opened(EVENTS);
    for (int i = 0; i < EVENTS; i++) DONE(kaffe_call_two(guest(p, GUEST), book(p), at(KAFFE_CALL_NEW, NODE)));
    STATUS(kaffe_call_two(guest(p, GUEST), book(p), at(KAFFE_CALL_NEW, NODE)), KAFFE_FULL);
    STATUS(kaffe_call_two(guest(p, GUEST), book(p), of(KAFFE_CALL_COLLECT)), KAFFE_FULL);
    STATUS(kaffe_call_three(guest(p, GUEST), kernel(p), book(p), of(KAFFE_CALL_KILL)), KAFFE_FULL);
    due("events", events(p), EVENTS);
    kaffe_free_parts(p);
}

int main(void) {
    openings();
    mixed();
    no_calls();
    needs();
    wholes();
    charges();
    takes();
    full();
    return failures != 0;
}
