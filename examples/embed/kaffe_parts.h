/* kaffe_parts.h: a host in parts, which several threads drive under locks of their own, for hosts in C.

   A host that is split has a part for each process, one for the kernel heap, one for each shared heap, and the book's, which has the
   journal. A call is lent the parts that its event touches, and no others: calls that are lent different parts may be made at once. No
   function takes a lock. Whoever lends a part has it alone for the time of the call, as under a lock of the part; the locks are taken in the
   order: processes by rising number, the kernel's, a shared heap's, the book's. docs/EMBEDDING.md says what a caller owes and what each code
   means.

   Every call answers, and none aborts. A call whose status is not KAFFE_OK has changed nothing. Beside the statuses of kaffe.h there are two;
   and KAFFE_RESERVED is never answered, since no event is kept for the ends of processes. */
#ifndef KAFFE_PARTS_H
#define KAFFE_PARTS_H
#include "kaffe.h"
#ifdef __cplusplus
extern "C" {
#endif

/* A part of a host, or the row of all parts that were not taken yet, in memory that the caller gives. What is in it is the library's own. */
typedef struct kaffe_part kaffe_part;

enum kaffe_part_status {
    KAFFE_MIXED = 17, /* the parts are not of one host, or not of the kinds that the call is lent */
    KAFFE_NEEDS = 18  /* the call needs other parts than it was lent: seg says of which kind, and at its number */
};

/* Which part a call needs beside the process's: the answer's seg, where its status is KAFFE_NEEDS and its what is KAFFE_PART. */
enum kaffe_needed {
    KAFFE_NEEDS_BOOK = 1,   /* the book's alone */
    KAFFE_NEEDS_KERNEL = 2, /* the kernel's, and the book's after it */
    KAFFE_NEEDS_SHARED = 3, /* that of shared heap `at`, and the book's after it */
    KAFFE_NEEDS_TARGET = 4  /* that of process `at`, which the process kills, the kernel's and the book's */
};

enum kaffe_part_what {
    KAFFE_PART = 5 /* seg and at name a part */
};

/* The functions that are linked. The caller gives kaffe_part_size() bytes for a row or a part, aligned as malloc aligns, and has them back
   after kaffe_part_close.

   kaffe_split makes a host of what the text declares, as kaffe_open, and leaves the row of its parts: they know the host by the number, which
   no other host that lives may have, and have room for so many names of what a collection freed. Where there is no host kaffe_call_one of the
   row answers KAFFE_NO_HOST, and why. kaffe_part_take takes the next part out of the row: the processes by rising number, the kernel's, the
   shared heaps by rising number, the book's; after these it leaves an empty place. A row and a part are closed each by itself.

   In the requests of the calls pid counts for nothing, and `at` of a process or shared heap neither where that is a part that is lent.
   kaffe_call_one   a process: an operation inside its heap, or a question. The kernel, a shared heap, the book: a question; the book:
                    KAFFE_CALL_TAKE
   kaffe_call_two   a process and the book: an operation, KAFFE_CALL_COLLECT, KAFFE_CALL_PUBLISH of what the process did inside its heap, and
                    KAFFE_ASK_CHARGE
   kaffe_call_three a process, the kernel, the book: an operation, KAFFE_CALL_KCOLLECT, KAFFE_CALL_KILL of the process; a process, a shared
                    heap, the book: an operation; a shared heap, the kernel, the book: KAFFE_CALL_ABSORB
   kaffe_call_four  a process, the one that it kills, the kernel, the book: KAFFE_CALL_KILL_BY */
size_t kaffe_part_size(void);
void kaffe_split(const uint8_t *text, size_t length, uint32_t type, uint32_t bodies, kaffe_rooms rooms, uint64_t number, uint32_t freed,
                 kaffe_part *row);
void kaffe_part_take(kaffe_part *row, kaffe_part *part);
kaffe_answer kaffe_call_one(kaffe_part *part, kaffe_request request);
kaffe_answer kaffe_call_two(kaffe_part *one, kaffe_part *two, kaffe_request request);
kaffe_answer kaffe_call_three(kaffe_part *one, kaffe_part *two, kaffe_part *three, kaffe_request request);
kaffe_answer kaffe_call_four(kaffe_part *one, kaffe_part *two, kaffe_part *three, kaffe_part *four, kaffe_request request);
void kaffe_part_close(kaffe_part *part);

/* What is asked, with the numbers of kaffe_request that count. */
static inline kaffe_request kaffe_asked(uint32_t call, uint32_t at, uint32_t to, uint8_t reg, uint8_t base, uint64_t number) {
    kaffe_request q = {call, 0, at, to, reg, base, 0, 0, 0, number};
    return q;
}

/* The bytes that the process is charged, by its part and the book's: its heap, and each shared heap that it shares in full. 0 once it has
   ended, and where the parts are not of one host. */
static inline uint64_t kaffe_part_charge(kaffe_part *guest, kaffe_part *book) {
    return kaffe_call_two(guest, book, kaffe_asked(KAFFE_ASK_CHARGE, 0, 0, 0, 0, 0)).number;
}

/* Reads the event of that number, as kaffe_event_at, from the book's part. */
static inline int kaffe_part_event_at(kaffe_part *book, uint64_t number, kaffe_event *event) {
    kaffe_answer asked = kaffe_call_one(book, kaffe_asked(KAFFE_ASK_EVENT, 0, 0, 0, 0, number));
    return kaffe_event_of(number, asked, kaffe_call_one(book, kaffe_asked(KAFFE_ASK_CAME, 0, 0, 0, 0, number)), event);
}

/* Takes out the next event, as kaffe_take, from the book's part: each is given at most once, whichever thread takes it, and in order. */
static inline int kaffe_part_take_event(kaffe_part *book, kaffe_event *event) {
    kaffe_answer a = kaffe_call_one(book, kaffe_asked(KAFFE_CALL_TAKE, 0, 0, 0, 0, 0));
    return a.status == KAFFE_OK && a.what == KAFFE_NUMBER && kaffe_part_event_at(book, a.number, event);
}

/* All parts of a host: the processes, the kernel's, the shared heaps, the book's. */
typedef struct kaffe_parts {
    uint32_t processes, heaps;
    kaffe_part **part;
} kaffe_parts;

static inline kaffe_part *kaffe_guest_part(const kaffe_parts *p, uint32_t pid) { return p->part[pid]; }
static inline kaffe_part *kaffe_kernel_part(const kaffe_parts *p) { return p->part[p->processes]; }
static inline kaffe_part *kaffe_shared_part(const kaffe_parts *p, uint32_t shared) { return p->part[p->processes + 1 + shared]; }
static inline kaffe_part *kaffe_book_part(const kaffe_parts *p) { return p->part[p->processes + 1 + p->heaps]; }

/* Room for a part. No other part lies in a line of a processor's cache with it. */
static inline kaffe_part *kaffe_part_room(void) { return (kaffe_part *)malloc(kaffe_part_size() + 128); }

/* Gives all memory of the parts back. Nobody may be in a call of one. */
static inline void kaffe_free_parts(kaffe_parts *p) {
    for (uint32_t i = 0; i < p->processes + p->heaps + 2; i++) {
        if (!p->part[i]) break;
        kaffe_part_close(p->part[i]);
        free(p->part[i]);
    }
    free(p->part);
    free(p);
}

/* Takes all parts out of the row, and answers whether there was memory for their places. */
static inline int kaffe_take_parts(kaffe_parts *p, kaffe_part *row) {
    for (uint32_t i = 0; i < p->processes + p->heaps + 2; i++) {
        if (!(p->part[i] = kaffe_part_room())) return 0;
        kaffe_part_take(row, p->part[i]);
    }
    return 1;
}

/* The parts of a host in memory of malloc, of what the text declares, with these rooms. NULL where there is none, and then `why` says as that
   of kaffe_make_with. Their number is their address, which no other host has at the same time. */
static inline kaffe_parts *kaffe_make_parts_with(const char *text, uint32_t type, uint32_t bodies, const kaffe_rooms *rooms,
                                                 kaffe_answer *why) {
    kaffe_answer none = {KAFFE_NO_HOST, 0, 1, 0, 0, 0, 0};
    uint32_t processes = kaffe_lines(text, "proc"), heaps = kaffe_lines(text, "shared");
    kaffe_parts *p = (kaffe_parts *)malloc(sizeof *p);
    kaffe_part **part = (kaffe_part **)calloc((size_t)processes + heaps + 2, sizeof *part), *row = kaffe_part_room();
    int made = 0;
    *why = none;
    if (p && part && row) {
        p->processes = processes;
        p->heaps = heaps;
        p->part = part;
        kaffe_split((const uint8_t *)text, strlen(text), type, bodies, *rooms, (uint64_t)(uintptr_t)p, rooms->entries, row);
        kaffe_answer a = kaffe_call_one(row, kaffe_asked(KAFFE_ASK_EVENTS, 0, 0, 0, 0, 0));
        if (a.status == KAFFE_NO_HOST) *why = a;
        made = a.status != KAFFE_NO_HOST && kaffe_take_parts(p, row);
        kaffe_part_close(row);
    }
    free(row);
    if (made) return p;
    if (p && part) {
        p->processes = processes;
        p->heaps = heaps;
        p->part = part;
        kaffe_free_parts(p);
        return NULL;
    }
    free(part);
    free(p);
    return NULL;
}

/* The same with rooms for so many living objects in each heap, as kaffe_make. */
static inline kaffe_parts *kaffe_make_parts(const char *text, uint32_t type, uint32_t bodies, uint32_t objects, kaffe_answer *why) {
    kaffe_rooms rooms = kaffe_rooms_for(objects, kaffe_lines(text, "proc"), kaffe_lines(text, "shared"));
    return kaffe_make_parts_with(text, type, bodies, &rooms, why);
}

#ifdef __cplusplus
}
#endif
#endif
