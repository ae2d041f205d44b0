/* Want of memory at each allocation of the opening in turn, at that one alone and from that one on: no host is made, and all that was taken is
   given back. After the opening a call takes memory only for an object of which the supply has no body, for printing and for larger rooms, and
   where it is refused nothing has changed. Linked with -Wl,--wrap=malloc,--wrap=realloc,--wrap=free. */
#include "../kaffe.h"
#include <stdio.h>

void *__real_malloc(size_t);
void *__real_realloc(void *, size_t);
void __real_free(void *);
void *__wrap_malloc(size_t);
void *__wrap_realloc(void *, size_t);
void __wrap_free(void *);

static long refused_at = -1; /* the allocation that is refused, counted from 0; -1: none */
static int is_alone;         /* whether those after it succeed */
static long taken;           /* how many were asked for */
static long live;            /* how many succeeded and are not yet given back */

static int is_refused(void) {
    long n = taken++;
    return refused_at >= 0 && (is_alone ? n == refused_at : n >= refused_at);
}

void *__wrap_malloc(size_t size) {
    if (is_refused()) return NULL;
    void *p = __real_malloc(size);
    live += p != NULL;
    return p;
}

void *__wrap_realloc(void *old, size_t size) {
    if (is_refused()) return NULL;
    void *p = __real_realloc(old, size);
    live += p != NULL && old == NULL;
    return p;
}

void __wrap_free(void *p) {
    live -= p != NULL;
    __real_free(p);
}

static const char *DECLARED = "kaffe 1\nkernel 4096 4\ntype Node ref ref int\ntype Leaf int\nlimit root 100000\nproc host root\nproc guest root\nshared s\n";

enum { NODE, LEAF };
enum { PROCESSES = 2, SHARED_HEAPS = 1, BODIES = 3, OBJECTS = 50, EVENTS = 200 };
/* The room for the host is an allocation, each body is one, and each process has tables. */
enum { LEAST_ALLOCATIONS = 1 + PROCESSES * BODIES + PROCESSES };

/* A host, of which that allocation is refused; -1: none is. */
static kaffe_host *opened(long n, kaffe_answer *why) {
    taken = 0;
    refused_at = n;
    kaffe_rooms rooms = kaffe_rooms_for(OBJECTS, PROCESSES, SHARED_HEAPS);
    rooms.events = rooms.kept = EVENTS;
    kaffe_host *h = kaffe_make_with(DECLARED, 0, BODIES, &rooms, why);
    refused_at = -1;
    return h;
}

/* Each of so many allocations is refused in turn, and each time no host is made, for want of memory, and nothing is left. */
static int is_each_answered(long allocations) {
    kaffe_answer why;
    for (long n = 0; n < allocations; n++) {
        if (opened(n, &why)) return fprintf(stderr, "nomem: allocation %ld is refused, and there is a host\n", n), 0;
        if (why.status != KAFFE_NO_HOST || why.seg != 0 || why.at != 1) return fprintf(stderr, "nomem: allocation %ld: another answer\n", n), 0;
        if (live != 0) return fprintf(stderr, "nomem: allocation %ld: memory is left\n", n), 0;
    }
    return 1;
}

/* Want of memory at each allocation of the call in turn is answered, and has changed nothing: an object in each kind of heap. */
static int is_object_answered(kaffe_host *h, kaffe_request q) {
    kaffe_answer a;
    uint64_t left = kaffe_left(h), charge = kaffe_charge(h, q.pid), kernel = kaffe_kernel_bytes(h);
    uint64_t done = kaffe_ask(h, KAFFE_ASK_DONE, q.pid, 0).number;
    long n = 0;
    for (;; n++) {
        taken = 0;
        refused_at = n;
        a = kaffe_call(h, q);
        refused_at = -1;
        if (a.status == KAFFE_OK) break;
        if (a.status != KAFFE_NO_MEMORY) return 0;
        if (kaffe_left(h) != left || kaffe_charge(h, q.pid) != charge || kaffe_kernel_bytes(h) != kernel) return 0;
        if (kaffe_ask(h, KAFFE_ASK_DONE, q.pid, 0).number != done) return 0;
    }
    return n > 0 && a.fault == KAFFE_DONE && kaffe_ask(h, KAFFE_ASK_DONE, q.pid, 0).number == done + 1;
}

/* Objects of another type than the supply's, and one of its type where the supply is used up. */
static int are_objects_answered(kaffe_host *h) {
    kaffe_request own = {KAFFE_CALL_NEW, 1, LEAF, 0, 0, 0, 0, 0, 0, 0}, kernel = {KAFFE_CALL_KNEW, 1, LEAF, 0, 0, 0, 0, 0, 0, 0};
    kaffe_request shared = {KAFFE_CALL_SNEW, 1, 0, LEAF, 0, 0, 0, 0, 0, 0}, node = {KAFFE_CALL_NEW, 1, NODE, 0, 0, 0, 0, 0, 0, 0};
    kaffe_share(h, 1, 0);
    if (!is_object_answered(h, own) || !is_object_answered(h, kernel) || !is_object_answered(h, shared)) return 0;
    for (int i = 0; i < BODIES; i++) kaffe_new(h, 1, 0, NODE);
    return is_object_answered(h, node);
}

/* Want of memory at each allocation of printing in turn is answered, and the texts before stay; they go with the host. */
static int is_printing_answered(kaffe_host *h) {
    uint8_t before[4096], after[4096];
    kaffe_answer a = kaffe_print(h);
    if (a.status != KAFFE_OK || a.number > sizeof before) return 0;
    size_t length = (size_t)a.number;
    kaffe_read(h, KAFFE_REPORT, 0, before, length);
    for (is_alone = 0; is_alone < 2; is_alone++) {
        kaffe_clear(h, 0, 3);
        kaffe_publish(h);
        long n = 0;
        for (;; n++) {
            taken = 0;
            refused_at = n;
            a = kaffe_call(h, (kaffe_request){KAFFE_CALL_PRINT, 0, 0, 0, 0, 0, 0, 0, 0, 0});
            refused_at = -1;
            if (a.status == KAFFE_OK) break;
            if (a.status != KAFFE_NO_MEMORY) return 0;
            if (kaffe_read(h, KAFFE_REPORT, 0, after, sizeof after) != length || memcmp(before, after, length) != 0) return 0;
        }
        length = (size_t)a.number;
        if (n == 0 || kaffe_read(h, KAFFE_REPORT, 0, before, sizeof before) != length) return 0;
    }
    return 1;
}

/* As many objects live in the guest's heap as it has room for. */
static int is_full(kaffe_host *h) {
    while (kaffe_new(h, 1, 0, NODE).status == KAFFE_OK) continue;
    return kaffe_new(h, 1, 0, NODE).status == KAFFE_OBJECTS;
}

/* Want of memory at each allocation of larger rooms in turn is answered, and has changed nothing: each room is the old one still. */
static int is_growing_answered(kaffe_host *h, kaffe_rooms rooms) {
    kaffe_answer a;
    uint64_t charge, before;
    if (!is_full(h)) return 0;
    charge = kaffe_charge(h, 1);
    before = kaffe_left(h);
    long n = 0, had = live;
    for (;; n++) {
        taken = 0;
        refused_at = n;
        a = kaffe_grow(h, rooms);
        refused_at = -1;
        if (a.status == KAFFE_OK) break;
        if (a.status != KAFFE_NO_MEMORY || live != had) return 0;
        if (kaffe_left(h) != before || kaffe_charge(h, 1) != charge || kaffe_new(h, 1, 0, NODE).status != KAFFE_OBJECTS) return 0;
    }
    return n > 0 && a.number == rooms.kept && kaffe_left(h) == before + rooms.events - EVENTS && kaffe_new(h, 1, 0, NODE).status == KAFFE_OK;
}

/* Larger rooms in each number, for a host that has kept all its events. */
static int are_rooms_answered(void) {
    kaffe_answer why;
    for (is_alone = 0; is_alone < 2; is_alone++) {
        kaffe_host *h = opened(-1, &why);
        kaffe_rooms rooms = kaffe_rooms_for(2 * OBJECTS, PROCESSES, SHARED_HEAPS);
        rooms.events = rooms.kept = 2 * EVENTS;
        if (!h || !is_growing_answered(h, rooms)) return 0;
        kaffe_free(h);
        if (live != 0) return 0;
    }
    return 1;
}

/* Calls of each kind, of which none takes memory: the supply has a body for each allocation. */
static int is_served(kaffe_host *h) {
    taken = 0;
    refused_at = 0;
    kaffe_new(h, 1, 0, 0);
    kaffe_new(h, 1, 1, 0);
    kaffe_put(h, 1, 0, 2, 7);
    kaffe_store(h, 1, 0, 0, 1);
    kaffe_share(h, 1, 0);
    kaffe_snew(h, 1, 2, 0, 0);
    kaffe_freeze(h, 1, 0, 2);
    kaffe_attach(h, 0, 2, 0);
    kaffe_collect(h, 1);
    kaffe_kill(h, 1);
    kaffe_kcollect(h, 0);
    return taken == 0 && !kaffe_lives(h, 1) && kaffe_charge(h, 0) == 40;
}

int main(void) {
    kaffe_answer why;
    kaffe_host *h = opened(-1, &why);
    long allocations = taken;
    if (!h) return fprintf(stderr, "nomem: no host\n"), 1;
    if (allocations < LEAST_ALLOCATIONS) return fprintf(stderr, "nomem: only %ld allocations are seen\n", allocations), 1;
    if (!is_served(h)) return fprintf(stderr, "nomem: a call takes memory, or is not done\n"), 1;
    kaffe_free(h);
    if (live != 0) return fprintf(stderr, "nomem: memory is left\n"), 1;
    h = opened(-1, &why);
    if (!are_objects_answered(h)) return fprintf(stderr, "nomem: want of memory for an object is not answered\n"), 1;
    if (!is_printing_answered(h)) return fprintf(stderr, "nomem: want of memory for printing is not answered\n"), 1;
    kaffe_free(h);
    if (live != 0) return fprintf(stderr, "nomem: memory for objects or texts is left\n"), 1;
    if (!are_rooms_answered()) return fprintf(stderr, "nomem: want of memory for larger rooms is not answered\n"), 1;
    for (is_alone = 0; is_alone < 2; is_alone++)
        if (!is_each_answered(allocations)) return 1;
    printf("want of memory at each of the %ld allocations of an opening, and at those of an object, of printing and of larger rooms, is answered\n", allocations);
    return 0;
}
