/* What a call of a host costs.

       calls time            nanoseconds of processor time a call, the least of so many rounds, each on a host of its own
       calls count KIND N    N calls of one kind, for a program that counts instructions; less the same with N = 0
       calls kinds           the names of the kinds
       calls room G S N      the bytes that a host of G guests and S shared heaps takes with room for N objects and as many events

   Compiled with -DLUA for a Lua state, and otherwise for what stands behind kaffe.h. */
#include <inttypes.h>
#include <malloc.h>
#include <stdlib.h>
#include <string.h>
#include <time.h>
#ifdef LUA
#include "guest_lua.h"
#else
#include "guest_kaffe.h"
#endif

enum { CALLS = 100000, ROUNDS = 15, LIVE_TIMED = 10000, LIVE_COUNTED = 1000, COLLECTIONS = 20, SPARE_EVENTS = 1000 };
enum { OBJECT, OTHER, TARGET, GLOBAL }; /* registers */
enum { LEFT, RIGHT, NUMBER };           /* fields */

enum kind { NEW, STORE, LOAD, PUT, GET, STORE_GLOBAL, MOVE, CHARGE, COLLECT, KINDS };
static const char *const NAMES[KINDS] = {"new", "store", "load", "put", "get", "store_global", "move", "charge", "collect"};

/* A list of so many live objects where the kind is a collection; else two objects and one that all guests have. */
static void prepare(guest *g, enum kind kind, int live) {
    if (kind == NEW) return;
    if (kind != COLLECT) {
        guest_new(g, OBJECT);
        guest_new(g, OTHER);
        guest_global(g, GLOBAL);
        return;
    }
    for (int i = 0; i < live; i++) {
        guest_new(g, OTHER);
        if (i > 0) guest_store(g, OTHER, LEFT, OBJECT);
        guest_move(g, OBJECT, OTHER);
    }
}

static void call(guest *g, enum kind kind, uint64_t i) {
    switch (kind) {
    case NEW: guest_new(g, OBJECT); break;
    case STORE: guest_store(g, OBJECT, LEFT, OTHER); break;
    case LOAD: guest_load(g, TARGET, OBJECT, LEFT); break;
    case PUT: guest_put(g, OBJECT, NUMBER, i); break;
    case GET: if (guest_get(g, OBJECT, NUMBER) != 0) exit(1); break;
    case STORE_GLOBAL: guest_store(g, GLOBAL, LEFT, OBJECT); break;
    case MOVE: guest_move(g, TARGET, OBJECT); break;
    case CHARGE: if (guest_charge(g) == 0) exit(1); break;
    case COLLECT: guest_collect(g); break;
    case KINDS: exit(1);
    }
}

static double now(void) {
    struct timespec time;
    clock_gettime(CLOCK_PROCESS_CPUTIME_ID, &time);
    return (double)time.tv_sec * 1e9 + (double)time.tv_nsec;
}

static void calls_of(guest *g, enum kind kind, int count) {
    for (int i = 0; i < count; i++) call(g, kind, (uint64_t)i);
}

static double least(enum kind kind) {
    double best = 1e18;
    int count = kind == COLLECT ? COLLECTIONS : CALLS;
    for (int round = 0; round < ROUNDS; round++) {
        guest *g = guest_open((kind == NEW ? CALLS : LIVE_TIMED) + SPARE_EVENTS, 3 * CALLS + SPARE_EVENTS);
        prepare(g, kind, LIVE_TIMED);
        double start = now();
        switch (kind) { /* a constant in each case, so that the loop has no test of the kind */
        case NEW: calls_of(g, NEW, count); break;
        case STORE: calls_of(g, STORE, count); break;
        case LOAD: calls_of(g, LOAD, count); break;
        case PUT: calls_of(g, PUT, count); break;
        case GET: calls_of(g, GET, count); break;
        case STORE_GLOBAL: calls_of(g, STORE_GLOBAL, count); break;
        case MOVE: calls_of(g, MOVE, count); break;
        case CHARGE: calls_of(g, CHARGE, count); break;
        default: calls_of(g, COLLECT, count); break;
        }
        double took = (now() - start) / count / (kind == COLLECT ? LIVE_TIMED : 1);
        if (took < best) best = took;
        guest_close(g);
    }
    return best;
}

static int count_calls(const char *name, int count) {
    for (enum kind kind = 0; kind < KINDS; kind++) {
        if (strcmp(name, NAMES[kind]) != 0) continue;
        guest *g = guest_open(30000, 60000);
        prepare(g, kind, LIVE_COUNTED);
        calls_of(g, kind, count);
        return 0;
    }
    return 2;
}

#ifndef LUA
static int room(int guests, int heaps, uint32_t objects) {
    static char text[16384];
    size_t used = (size_t)sprintf(text, "kaffe 1\nkernel 4096 8\ntype Node ref ref int\nlimit root 1000000000\n");
    for (int i = 0; i < guests; i++) used += (size_t)sprintf(text + used, "proc g%d root\n", i);
    for (int i = 0; i < heaps; i++) used += (size_t)sprintf(text + used, "shared s%d\n", i);
    struct mallinfo2 before = mallinfo2();
    guest *g = guest_open_text(text, objects, objects);
    struct mallinfo2 after = mallinfo2();
    printf("%zu\n", after.uordblks + after.hblkhd - before.uordblks - before.hblkhd);
    guest_close(g);
    return 0;
}
#endif

int main(int words, char **word) {
    if (words == 2 && strcmp(word[1], "kinds") == 0) {
        for (int kind = 0; kind < KINDS; kind++) puts(NAMES[kind]);
        return 0;
    }
    if (words == 2 && strcmp(word[1], "time") == 0) {
        for (enum kind kind = 0; kind < KINDS; kind++) printf("%s %.2f\n", NAMES[kind], least(kind));
        return 0;
    }
    if (words == 4 && strcmp(word[1], "count") == 0) return count_calls(word[2], atoi(word[3]));
#ifndef LUA
    if (words == 5 && strcmp(word[1], "room") == 0) return room(atoi(word[2]), atoi(word[3]), (uint32_t)atoi(word[4]));
#endif
    fprintf(stderr, "usage: calls time | count KIND N | kinds | room GUESTS HEAPS OBJECTS\n");
    return 2;
}
