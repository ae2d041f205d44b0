/* A host that runs two guests with limits, kills the one that is over its budget, and prints what was charged. */
#include "kaffe.h"
#include <inttypes.h>
#include <stdio.h>

enum { HOST, GOOD, GREEDY };      /* processes, in order of declaration */
enum { ROOT, OWN, GUESTS, A, B }; /* limits, in order of declaration */
enum { NODE };                    /* types, in order of declaration */

static const char *DECLARED = "kaffe 1\n"
                              "kernel 4096 4\n"             /* the kernel heap's ceiling in bytes; the directory has 4 fields */
                              "type Node ref ref int\n"     /* 16 + 3 * 8 = 40 bytes */
                              "limit root 10000\n"
                              "limit own root hard 1000\n"  /* hard: reserved from its parent */
                              "limit guests root hard 6000\n"
                              "limit a guests soft 4000\n"  /* soft: together at most what guests has */
                              "limit b guests soft 4000\n"
                              "proc host own\n"
                              "proc good a\n"
                              "proc greedy b\n";

/* One node more in front of the guest's list, which keeps at most `most` nodes. */
static kaffe_answer grow(kaffe_host *h, uint32_t guest, uint64_t step, uint64_t most) {
    if (most && step % most == 0) kaffe_clear(h, guest, 0);
    kaffe_answer made = kaffe_new(h, guest, 1, NODE);
    if (made.status || made.fault) return made;
    kaffe_put(h, guest, 1, 2, step);
    kaffe_store(h, guest, 1, 0, 0);
    return kaffe_move(h, guest, 0, 1);
}

static void charges(kaffe_host *h, const char *when) {
    printf("%-26s good %5" PRIu64 "  greedy %5" PRIu64 "  guests %5" PRIu64 " of %" PRIu64 "  kernel heap %" PRIu64 "\n", when,
           kaffe_charge(h, GOOD), kaffe_charge(h, GREEDY), kaffe_use(h, GUESTS), kaffe_max(h, GUESTS), kaffe_kernel_bytes(h));
}

/* Collects a guest that is refused, and kills it where that frees nothing. */
static void refused(kaffe_host *h, uint32_t guest, uint32_t limit, uint64_t step) {
    kaffe_answer freed = kaffe_collect(h, guest);
    printf("guest %" PRIu32 ": limit %" PRIu32 " full at step %" PRIu64 ", a collection freed %" PRIu32 " objects\n", guest, limit,
           step, freed.seg);
    if (freed.number != 0) return;
    charges(h, "over budget:");
    kaffe_kill(h, guest);
    charges(h, "killed:");
    kaffe_kcollect(h, HOST);
    charges(h, "kernel heap collected:");
}

int main(void) {
    kaffe_answer why;
    kaffe_host *h = kaffe_make(DECLARED, NODE, 2000, 1000, &why);
    if (!h) return fprintf(stderr, "line %" PRIu32 ", reason %" PRIu32 "\n", why.seg, why.at), 1;
    const uint32_t guests[] = {GOOD, GREEDY};
    const uint64_t most[] = {20, 0}; /* good keeps 20 nodes, greedy keeps all */
    for (uint64_t step = 1; step <= 300; step++)
        for (int g = 0; g < 2; g++) {
            if (!kaffe_lives(h, guests[g])) continue;
            kaffe_answer a = grow(h, guests[g], step, most[g]);
            if (a.fault == KAFFE_LIMIT_FULL) refused(h, guests[g], a.at, step);
        }
    charges(h, "at the end:");
    kaffe_free(h);
    return 0;
}
