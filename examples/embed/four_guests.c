/* A host of four guests, which up to four threads drive: each part of it is behind a lock of its own, and each call takes those of the parts
   that its event touches.

   four_guests THREADS ROUNDS   has each guest make two objects and then do so many rounds of five operations inside its heap. It prints how
   many events the journal has at the end, which depends on no schedule, and on standard error how long that took. With 0 threads it does
   all by one thread and then by four, and says how many times as fast these are. */
#include "kaffe_parts.h"
#include <inttypes.h>
#include <pthread.h>
#include <stdio.h>
#include <time.h>

enum { GUESTS = 4, NODE = 0, OBJECTS = 1000, BODIES = 10 };
enum { OWN, OTHER, FOUND, DIR }; /* registers */

static const char *DECLARED = "kaffe 1\nkernel 4096 4\ntype Node ref ref int\nlimit root 100000\n"
                              "limit a root hard 10000\nlimit b root hard 10000\nlimit c root hard 10000\nlimit d root hard 10000\n"
                              "proc a a\nproc b b\nproc c c\nproc d d\n";

/* A lock. Nothing that another thread reads or writes lies in a line of a processor's cache with it: a thread that takes it would wait for that. */
typedef struct lock {
    char before[128];
    pthread_mutex_t mutex;
    char behind[128];
} lock;

/* The parts of the host, each with its lock. They are taken in the order: guest, kernel, book. */
typedef struct hall {
    kaffe_parts *parts;
    lock guests[GUESTS], kernel, book;
} hall;

static void take(lock *l) { pthread_mutex_lock(&l->mutex); }
static void give(lock *l) { pthread_mutex_unlock(&l->mutex); }

static kaffe_answer with_book(hall *h, uint32_t pid, kaffe_request q) {
    take(&h->book);
    kaffe_answer a = kaffe_call_two(kaffe_guest_part(h->parts, pid), kaffe_book_part(h->parts), q);
    give(&h->book);
    return a;
}

static kaffe_answer with_kernel(hall *h, uint32_t pid, kaffe_request q) {
    take(&h->kernel);
    take(&h->book);
    kaffe_answer a = kaffe_call_three(kaffe_guest_part(h->parts, pid), kaffe_kernel_part(h->parts), kaffe_book_part(h->parts), q);
    give(&h->book);
    give(&h->kernel);
    return a;
}

/* Does the operation of the guest inside its heap, or with the other parts that it needs. */
static kaffe_answer operate(hall *h, uint32_t pid, kaffe_request q) {
    take(&h->guests[pid]);
    kaffe_answer a = kaffe_call_one(kaffe_guest_part(h->parts, pid), q);
    if (a.status == KAFFE_NEEDS || a.status == KAFFE_FULL) a = with_book(h, pid, q);
    if (a.status == KAFFE_NEEDS && a.seg == KAFFE_NEEDS_KERNEL) a = with_kernel(h, pid, q);
    give(&h->guests[pid]);
    return a;
}

static kaffe_answer collect(hall *h, uint32_t pid) {
    take(&h->guests[pid]);
    kaffe_answer a = with_book(h, pid, kaffe_asked(KAFFE_CALL_COLLECT, 0, 0, 0, 0, 0));
    give(&h->guests[pid]);
    return a;
}

/* Does the operations, and answers whether each was done. */
static int operate_all(hall *h, uint32_t pid, const kaffe_request *asked, size_t count) {
    for (size_t i = 0; i < count; i++) {
        kaffe_answer a = operate(h, pid, asked[i]);
        if (a.status || a.fault) return 0;
    }
    return 1;
}

/* Two objects, of which the first leads to the second; a round inside the heap; and a store of the first into the directory, which is the
   kernel's. */
static int work(hall *h, uint32_t pid, uint32_t rounds) {
    const kaffe_request opening[] = {kaffe_asked(KAFFE_CALL_NEW, NODE, 0, OWN, 0, 0), kaffe_asked(KAFFE_CALL_NEW, NODE, 0, OTHER, 0, 0),
                                     kaffe_asked(KAFFE_CALL_STORE, 0, 0, OTHER, OWN, 0)};
    const kaffe_request round[] = {kaffe_asked(KAFFE_CALL_PUT, 2, 0, 0, OWN, 7), kaffe_asked(KAFFE_CALL_GET, 2, 0, 0, OWN, 0),
                                   kaffe_asked(KAFFE_CALL_STORE, 1, 0, OWN, OTHER, 0), kaffe_asked(KAFFE_CALL_LOAD, 1, 0, FOUND, OTHER, 0),
                                   kaffe_asked(KAFFE_CALL_MOVE, 0, 0, FOUND, OTHER, 0)};
    const kaffe_request last[] = {kaffe_asked(KAFFE_CALL_DIR, 0, 0, DIR, 0, 0), kaffe_asked(KAFFE_CALL_STORE, 0, 0, OWN, DIR, 0)};
    if (!operate_all(h, pid, opening, 3)) return 0;
    for (uint32_t i = 0; i < rounds; i++)
        if (!operate_all(h, pid, round, 5)) return 0;
    return operate_all(h, pid, last, 2) && collect(h, pid).status == KAFFE_OK;
}

/* What one of so many threads does: every guest whose number leaves its own by division. */
typedef struct share {
    hall *host;
    uint32_t first, threads, rounds;
    int done;
} share;

static void *do_share(void *of) {
    share *s = of;
    s->done = 1;
    for (uint32_t pid = s->first; pid < GUESTS; pid += s->threads) s->done &= work(s->host, pid, s->rounds);
    return NULL;
}

/* Has so many threads drive the host, and answers whether all was done. */
static int drive(hall *h, uint32_t threads, uint32_t rounds) {
    pthread_t running[GUESTS];
    share shares[GUESTS];
    int done = 1;
    for (uint32_t t = 0; t < threads; t++) {
        shares[t] = (share){h, t, threads, rounds, 0};
        if (pthread_create(&running[t], NULL, do_share, &shares[t])) exit(1);
    }
    for (uint32_t t = 0; t < threads; t++) {
        pthread_join(running[t], NULL);
        done &= shares[t].done;
    }
    return done;
}

static double now(void) {
    struct timespec t;
    timespec_get(&t, TIME_UTC);
    return (double)t.tv_sec + (double)t.tv_nsec / 1e9;
}

/* Has a host driven by so many threads, answers how many events its journal has then, and says how long it was driven. */
static uint64_t events(uint32_t threads, uint32_t rounds, double *seconds) {
    static hall h;
    kaffe_answer why;
    h.parts = kaffe_make_parts(DECLARED, NODE, BODIES, OBJECTS, &why);
    if (!h.parts) return fprintf(stderr, "line %" PRIu32 ", reason %" PRIu32 "\n", why.seg, why.at), exit(1), 0;
    for (int i = 0; i < GUESTS; i++) pthread_mutex_init(&h.guests[i].mutex, NULL);
    pthread_mutex_init(&h.kernel.mutex, NULL);
    pthread_mutex_init(&h.book.mutex, NULL);
    double began = now();
    if (!drive(&h, threads, rounds)) return fprintf(stderr, "a call was refused\n"), exit(1), 0;
    *seconds = now() - began;
    uint64_t count = kaffe_call_one(kaffe_book_part(h.parts), kaffe_asked(KAFFE_ASK_EVENTS, 0, 0, 0, 0, 0)).number;
    kaffe_free_parts(h.parts);
    return count;
}

int main(int argc, char **argv) {
    unsigned long threads = argc == 3 ? strtoul(argv[1], NULL, 10) : GUESTS + 1, rounds = argc == 3 ? strtoul(argv[2], NULL, 10) : 0;
    if (threads > GUESTS || rounds > 100000000) return fprintf(stderr, "four_guests THREADS ROUNDS, with at most 4 threads\n"), 2;
    double alone, seconds;
    uint64_t count = events(threads ? (uint32_t)threads : 1, (uint32_t)rounds, &alone);
    printf("%" PRIu64 " events\n", count);
    fprintf(stderr, "%lu: %.3f s\n", threads ? threads : 1, alone);
    if (threads) return 0;
    if (events(GUESTS, (uint32_t)rounds, &seconds) != count) return 1;
    fprintf(stderr, "%d: %.3f s, %.2f times as fast\n", GUESTS, seconds, alone / seconds);
    return 0;
}
