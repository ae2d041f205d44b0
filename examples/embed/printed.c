/* A host that prints what it has done: a trace into the first file that is named, and the report of it into the second. `kaffe check` accepts
   the two. It prints in the middle of its life and at the end of it, and the files have what came last. */
#include "kaffe.h"
#include <inttypes.h>
#include <stdio.h>

enum { HOST, GUEST, PROCESSES }; /* processes, in order of declaration */
enum { NODE };                   /* types, in order of declaration */
enum { SHARED_HEAPS = 1, OBJECTS = 100, EVENTS = 1000 };

static const char *DECLARED = "kaffe 1\nkernel 4096 4\ntype Node ref ref int\nlimit root 10000\nlimit guests root soft 400\n"
                              "proc host root\nproc guest guests\nshared table\n";

/* Writes the text that was printed last, by an array of any size. */
static int put(kaffe_host *h, enum kaffe_text text, const char *name) {
    uint8_t some[512];
    FILE *out = fopen(name, "wb");
    if (!out) return 0;
    size_t from = 0;
    for (size_t n; (n = kaffe_read(h, text, from, some, sizeof some)) > 0; from += n)
        if (fwrite(some, 1, n, out) != n) break;
    return fclose(out) == 0;
}

/* One node more in front of the guest's list. Where the limit is full the list is given up. */
static void step(kaffe_host *h, uint64_t number) {
    if (kaffe_new(h, GUEST, 1, NODE).fault == KAFFE_LIMIT_FULL) {
        kaffe_clear(h, GUEST, 0);
        kaffe_collect(h, GUEST);
    }
    kaffe_put(h, GUEST, 1, 2, number);
    kaffe_store(h, GUEST, 1, 0, 0);
    kaffe_move(h, GUEST, 0, 1);
}

static int print(kaffe_host *h, char **names) {
    kaffe_answer a = kaffe_print(h);
    if (a.status) return fprintf(stderr, "not printed: status %" PRIu32 "\n", a.status), 0;
    return put(h, KAFFE_TRACE, names[0]) && put(h, KAFFE_REPORT, names[1]);
}

int main(int count, char **words) {
    if (count != 3) return fprintf(stderr, "usage: printed TRACE REPORT\n"), 2;
    kaffe_rooms rooms = kaffe_rooms_for(OBJECTS, PROCESSES, SHARED_HEAPS);
    rooms.events = rooms.kept = EVENTS; /* only a host that keeps all its events is printed */
    kaffe_answer why;
    kaffe_host *h = kaffe_make_with(DECLARED, NODE, 10, &rooms, &why);
    if (!h) return fprintf(stderr, "line %" PRIu32 ", reason %" PRIu32 "\n", why.seg, why.at), 1;
    for (uint64_t number = 0; number < 20; number++) step(h, number);
    kaffe_share(h, GUEST, 0);
    kaffe_snew(h, GUEST, 2, 0, NODE);
    int done = print(h, words + 1);
    kaffe_kill_by(h, HOST, GUEST);
    kaffe_kcollect(h, HOST);
    done = done && print(h, words + 1);
    kaffe_free(h);
    return done ? 0 : 1;
}
