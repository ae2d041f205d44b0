/* A host that runs for long: two guests allocate, store and drop objects, and are collected when their heaps have no room for one more. About
   1,000 objects live in each. churn [EVENTS], 100,000,000 where no number is given, prints how far it is, what lives and how much memory was
   taken at most, and ends with status 1 where more was taken after the first hundredth. */
#include "kaffe.h"
#include <inttypes.h>
#include <stdio.h>
#include <sys/resource.h>

enum { HOST, ONE, OTHER };                      /* processes, in order of declaration */
enum { NODE, NODE_BYTES = 40, NEXT = 0, STEP = 2 }; /* the type, its size, and two of its fields */
enum { FIRST, LAST, NEW };                      /* registers of a guest */
enum { LIVING = 1000, ROOM = 1100 };
enum { ALLOWED_KILOBYTES = 128 };               /* what the C library may take for itself on the way */
static const uint64_t MOST_EVENTS = 100000000;
static const unsigned HUNDREDTHS[] = {1, 10, 50, 100};

static const char *DECLARED = "kaffe 1\n"
                              "kernel 4096 4\n"
                              "type Node ref ref int\n"
                              "limit root 1000000\n"
                              "proc host root\n"
                              "proc one root\n"
                              "proc other root\n";

static void need(int is_so, const char *what) {
    if (is_so) return;
    fprintf(stderr, "churn: %s\n", what);
    exit(1);
}

static kaffe_answer done(kaffe_answer a) {
    need(a.status == KAFFE_OK && a.fault == KAFFE_DONE, "a call is not done");
    return a;
}

/* A new node at the end of the guest's list. Where the heap is full it is collected. */
static void append(kaffe_host *h, uint32_t guest, uint64_t step) {
    kaffe_answer made = kaffe_new(h, guest, NEW, NODE);
    if (made.status == KAFFE_OBJECTS) {
        need(done(kaffe_collect(h, guest)).seg == ROOM - LIVING + 1, "a collection frees other objects than those that were dropped");
        made = kaffe_new(h, guest, NEW, NODE);
    }
    done(made);
    done(kaffe_put(h, guest, NEW, STEP, step));
    if (step) done(kaffe_store(h, guest, LAST, NEXT, NEW));
    done(kaffe_move(h, guest, step ? LAST : FIRST, NEW));
    if (!step) done(kaffe_move(h, guest, LAST, NEW));
}

/* One node more, and one less at the front where the list is long enough. */
static void turn(kaffe_host *h, uint32_t guest, uint64_t step) {
    if (step >= LIVING) {
        need(done(kaffe_get(h, guest, FIRST, STEP)).number == step - LIVING, "a node holds another number");
        done(kaffe_load(h, guest, FIRST, FIRST, NEXT));
    }
    append(h, guest, step);
}

static long kilobytes(void) {
    struct rusage use;
    need(getrusage(RUSAGE_SELF, &use) == 0, "getrusage fails");
    return use.ru_maxrss;
}

int main(int count, char **words) {
    uint64_t most = count > 1 ? strtoull(words[1], NULL, 10) : MOST_EVENTS, step = 0;
    kaffe_answer why;
    kaffe_host *h = kaffe_make(DECLARED, NODE, 0, ROOM, &why);
    long first = 0;
    need(h != NULL, "no host");
    printf("%12s %9s %9s %12s\n", "events", "objects", "bytes", "peak in kB");
    for (size_t i = 0; i < sizeof HUNDREDTHS / sizeof HUNDREDTHS[0]; i++) {
        for (; kaffe_ask(h, KAFFE_ASK_EVENTS, 0, 0).number < most / 100 * HUNDREDTHS[i]; step++)
            for (uint32_t guest = ONE; guest <= OTHER; guest++) turn(h, guest, step);
        uint64_t bytes = kaffe_charge(h, ONE) + kaffe_charge(h, OTHER);
        long now = kilobytes();
        printf("%12" PRIu64 " %9" PRIu64 " %9" PRIu64 " %12ld\n", kaffe_ask(h, KAFFE_ASK_EVENTS, 0, 0).number, bytes / NODE_BYTES, bytes, now);
        if (i == 0) first = now;
        need(now <= first + ALLOWED_KILOBYTES, "memory has grown");
    }
    for (uint32_t guest = ONE; guest <= OTHER; guest++) done(kaffe_kill(h, guest));
    need(done(kaffe_kcollect(h, HOST)).seg >= 2 * LIVING, "the objects of the guests are not freed");
    kaffe_free(h);
    return 0;
}
