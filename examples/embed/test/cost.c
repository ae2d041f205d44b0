/* One call, done many times, for valgrind to count: cost CALL TIMES. And a host that is opened and closed:
   cost open PROCESSES SHARED BODIES, then each of its rooms in the order of kaffe_rooms. scripts/embed --cost runs both. */
#include "../kaffe.h"
#include <stdio.h>

enum { HOST, GUEST };
enum { NODE };
enum { NUMBER_FIELD = 2, LIST = 0, LAST = 1, DIRECTORY = 2, OBJECTS = 20000 };

/* What is measured: the instructions of this function and of what it calls are counted. */
__attribute__((noinline)) void measured(kaffe_host *h, kaffe_request q, long times);
void measured(kaffe_host *h, kaffe_request q, long times) {
    for (long i = 0; i < times; i++) kaffe_call(h, q);
}

static const struct {
    const char *name;
    kaffe_request request;
} CALLS[] = {
    {"new", {KAFFE_CALL_NEW, GUEST, NODE, 0, 3, 0, 0, 0, 0, 0}},
    {"make", {KAFFE_CALL_NEW, GUEST, NODE, 0, 3, 0, 0, 0, 0, 0}}, /* where the guest has no supply */
    {"store", {KAFFE_CALL_STORE, GUEST, 1, 0, LIST, LAST, 0, 0, 0, 0}},
    {"load", {KAFFE_CALL_LOAD, GUEST, 0, 0, 3, LIST, 0, 0, 0, 0}},
    {"put", {KAFFE_CALL_PUT, GUEST, NUMBER_FIELD, 0, 0, LIST, 0, 0, 0, 7}},
    {"get", {KAFFE_CALL_GET, GUEST, NUMBER_FIELD, 0, 0, LIST, 0, 0, 0, 0}},
    {"move", {KAFFE_CALL_MOVE, GUEST, 0, 0, 3, LIST, 0, 0, 0, 0}},
    {"store-kernel", {KAFFE_CALL_STORE, GUEST, 0, 0, DIRECTORY, DIRECTORY, 0, 0, 0, 0}},
    {"charge", {KAFFE_ASK_CHARGE, GUEST, 0, 0, 0, 0, 0, 0, 0, 0}},
    {"collect", {KAFFE_CALL_COLLECT, GUEST, 0, 0, 0, 0, 0, 0, 0, 0}}, /* once, of so many living objects, of which one is new */
    {"again", {KAFFE_CALL_COLLECT, GUEST, 0, 0, 0, 0, 0, 0, 0, 0}},   /* once, where nothing has changed since the last collection */
    {"publish", {KAFFE_CALL_NEW, GUEST, NODE, 0, 3, 0, 0, 0, 0, 0}},  /* once, after so many calls that stay inside the heap */
};

static kaffe_host *opened(int processes, int shared, uint32_t bodies, kaffe_rooms rooms) {
    static char text[8192];
    kaffe_answer why;
    int k = sprintf(text, "kaffe 1\nkernel 4096 4\ntype Node ref ref int\nlimit root 1000000000\n");
    for (int i = 0; i < processes; i++) k += sprintf(text + k, "proc p%d root\n", i);
    for (int i = 0; i < shared; i++) k += sprintf(text + k, "shared s%d\n", i);
    kaffe_host *h = kaffe_make_with(text, NODE, bodies, &rooms, &why);
    if (!h) exit(1);
    return h;
}

/* A list of so many living nodes in the guest's heap, and the directory in a register. */
static void fill(kaffe_host *h, long nodes) {
    kaffe_dir(h, GUEST, DIRECTORY);
    for (long i = 0; i < nodes; i++) {
        kaffe_new(h, GUEST, LAST, NODE);
        kaffe_store(h, GUEST, LAST, 0, LIST);
        kaffe_move(h, GUEST, LIST, LAST);
    }
}

/* What comes before the call is measured. Answers how often it is to be done. */
static long prepare(kaffe_host *h, const char *call, long times) {
    int is_collection = strcmp(call, "collect") == 0, is_again = strcmp(call, "again") == 0;
    fill(h, is_collection || is_again ? times : 10);
    if (is_collection || is_again) kaffe_collect(h, GUEST);
    if (is_collection) fill(h, 1);
    if (is_collection || is_again) return 1;
    if (strcmp(call, "publish") != 0) return times;
    for (long i = 0; i < times; i++) kaffe_put(h, GUEST, LIST, NUMBER_FIELD, 7);
    return 1;
}

/* The number in the word. */
static uint32_t number(const char *word) { return (uint32_t)strtoul(word, NULL, 10); }

int main(int count, char **words) {
    if (count == 12 && strcmp(words[1], "open") == 0) {
        kaffe_rooms rooms = {number(words[5]), number(words[6]),  number(words[7]), number(words[8]),
                             number(words[9]), number(words[10]), number(words[11])};
        kaffe_free(opened(atoi(words[2]), atoi(words[3]), number(words[4]), rooms));
        return 0;
    }
    if (count != 3) return 2;
    long times = atol(words[2]);
    for (size_t i = 0; i < sizeof CALLS / sizeof CALLS[0]; i++) {
        if (strcmp(words[1], CALLS[i].name) != 0) continue;
        kaffe_rooms rooms = kaffe_rooms_for(OBJECTS, 2, 1);
        rooms.tail = OBJECTS; /* nothing is published by itself while calls are counted */
        kaffe_host *h = opened(2, 1, strcmp(words[1], "make") == 0 ? 0 : OBJECTS, rooms);
        long often = prepare(h, words[1], times);
        measured(h, CALLS[i].request, often);
        kaffe_free(h);
        return 0;
    }
    return 2;
}
