/* What the tests of answers have in common: a host of four processes, and what an answer has to be. */
#ifndef DUE_H
#define DUE_H
#include "../kaffe.h"
#include <inttypes.h>
#include <stdio.h>

static int failures;

static void due(const char *what, uint64_t said, uint64_t wanted) {
    if (said == wanted) return;
    failures++;
    fprintf(stderr, "due: %s: %" PRIu64 ", and %" PRIu64 " is due\n", what, said, wanted);
}

#define STATUS(call, wanted) due(#call, (call).status, wanted)
#define FAULT(call, wanted) due(#call, fault_of(call), wanted)

/* The fault of an operation that is done, with the limit or shared heap that it names in the higher half. */
static uint64_t fault_of(kaffe_answer a) { return a.status ? 1000 + a.status : a.fault + ((uint64_t)a.at << 32); }
static inline uint64_t named(enum kaffe_fault fault, uint64_t at) { return (uint64_t)fault + (at << 32); }

enum { HOST, GUEST, OTHER, POOR, PROCESSES };
enum { ROOT, ALL, LOW };
enum { NODE, LEAF };
enum { ONE, TWO };
static const char *DECLARED = "kaffe 1\nkernel 150 2\ntype Node ref ref int\ntype Leaf int\nlimit root 2000\nlimit all root hard 800\n"
                              "limit low all soft 90\nproc host root\nproc guest all\nproc other all\nproc poor low\nshared one\nshared two\n";

enum { SHARED_HEAPS = 2, ROOMY = 100 };

static kaffe_host *opened_with(uint32_t bodies, kaffe_rooms rooms) {
    kaffe_answer why;
    kaffe_host *h = kaffe_make_with(DECLARED, NODE, bodies, &rooms, &why);
    if (!h) {
        fprintf(stderr, "due: no host: line %" PRIu32 ", reason %" PRIu32 "\n", why.seg, why.at);
        exit(1);
    }
    return h;
}
#endif
