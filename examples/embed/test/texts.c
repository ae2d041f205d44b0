/* The texts that a host prints, how they are read, and each answer where there is nothing to print. */
#include "due.h"

/* A host that keeps all its events. */
static kaffe_host *keeping(uint32_t events) {
    kaffe_rooms rooms = kaffe_rooms_for(ROOMY, PROCESSES, SHARED_HEAPS);
    rooms.events = rooms.kept = events;
    return opened_with(0, rooms);
}

/* The text that was printed last has so many bytes, and what is read at any place of it are the bytes of that place. */
static void reads(kaffe_host *h, enum kaffe_text text, size_t length, const char *front) {
    static uint8_t all[1 << 16];
    uint8_t some[3] = {1, 2, 3};
    due("the bytes of a text", kaffe_read(h, text, 0, all, sizeof all), length);
    due("the front of it", (uint64_t)memcmp(all, front, strlen(front)), 0);
    due("no more than fit", kaffe_read(h, text, 2, some, 2), 2);
    due("the place of what is read", memcmp(some, all + 2, 2) == 0, 1);
    due("what is behind", some[2], 3);
    due("no more than there are", kaffe_read(h, text, length - 1, some, 3), 1);
    due("the last", some[0], '\n');
    due("what is behind", some[1], all[3]);
    due("behind the last", kaffe_read(h, text, length, some, 3), 0);
    due("far behind it", kaffe_read(h, text, SIZE_MAX, some, 3), 0);
    due("into no room", kaffe_read(h, text, 0, some, 0), 0);
}

/* A host is printed at any moment of its life, and what was printed stays until it is printed again. */
static void prints(void) {
    kaffe_host *h = keeping(100);
    uint8_t byte = 9;
    due("before anything is printed", kaffe_read(h, KAFFE_REPORT, 0, &byte, 1), 0);
    kaffe_answer first = kaffe_print(h);
    due("what the numbers are", first.what, KAFFE_TEXTS);
    reads(h, KAFFE_TRACE, first.seg, "kaffe 2\nkernel 150 2\ntype Node ref ref int\n");
    reads(h, KAFFE_REPORT, (size_t)first.number, "report 1\ngraph\nkernel.1 kernel directory null null\nroots\n");
    due("of no such text", kaffe_read(h, (enum kaffe_text)2, 0, &byte, 1), 0);
    FAULT(kaffe_new(h, GUEST, 0, NODE), KAFFE_DONE);
    FAULT(kaffe_put(h, GUEST, 0, 2, 7), KAFFE_DONE);
    reads(h, KAFFE_TRACE, first.seg, "kaffe 2\n");
    reads(h, KAFFE_REPORT, (size_t)first.number, "report 1\ngraph\n");
    due("the events before it is printed again", kaffe_ask(h, KAFFE_ASK_EVENTS, 0, 0).number, 1);
    uint64_t left = kaffe_left(h), charge = kaffe_charge(h, GUEST);
    kaffe_answer second = kaffe_print(h);
    due("the events after it", kaffe_ask(h, KAFFE_ASK_EVENTS, 0, 0).number, 2);
    due("what is left", kaffe_left(h), left);
    due("the charge", kaffe_charge(h, GUEST), charge);
    due("the trace has two lines more", second.seg, first.seg + strlen("guest new r0 Node\nguest put r0 2 7\n"));
    reads(h, KAFFE_REPORT, (size_t)second.number, "report 1\nguest new r0 Node = guest.1\nguest put r0 2 7 = ok\ngraph\n");
    for (uint32_t pid = 0; pid < PROCESSES; pid++) STATUS(kaffe_kill(h, pid), KAFFE_OK);
    STATUS(kaffe_print(h), KAFFE_OVER);
    reads(h, KAFFE_REPORT, (size_t)second.number, "report 1\nguest new r0 Node = guest.1\n");
    kaffe_free(h);
    /* Without publishing, what is unpublished is not in the texts. */
    h = keeping(100);
    FAULT(kaffe_clear(h, GUEST, 0), KAFFE_DONE);
    due("unpublished", kaffe_request_call(h, KAFFE_CALL_PRINT, 0, 0, 0, 0, 0, 0).number, first.number);
    due("published", kaffe_print(h).number, first.number + strlen("guest drop r0 = ok\n"));
    STATUS(kaffe_publish(h), KAFFE_OK);
    due("published again", kaffe_ask(h, KAFFE_ASK_EVENTS, 0, 0).number, 1);
    kaffe_free(h);
}

enum { MOST_OPERATIONS = 200000, MOST_TRACE_BYTES = 16777216 };
#define LONG "aNameOfThirtyTwoBytes__________"

/* Fewer operations than a trace has, of lines so long that together they are more than a check reads. */
static void long_lines(void) {
    static const char *declared = "kaffe 1\nkernel 32 2\ntype " LONG "t int\nlimit root 100\nproc " LONG "p root\nshared " LONG "s\n";
    enum { LINE = sizeof LONG "p snew r15 " LONG "s " LONG "t", CALLS = MOST_TRACE_BYTES / LINE + 1 };
    kaffe_rooms rooms = {MOST_OPERATIONS, MOST_OPERATIONS, 10, 10, 0, 0, 0};
    kaffe_answer why;
    kaffe_host *h = kaffe_make_with(declared, 0, 0, &rooms, &why);
    due("a host of long names", h != NULL, 1);
    if (!h) return;
    for (int i = 0; i < CALLS; i++) due("an operation", fault_of(kaffe_snew(h, 0, 15, 0, 0)), named(KAFFE_NOT_POPULATING, 0));
    STATUS(kaffe_print(h), KAFFE_TOO_LONG);
    due("nothing is left of it", kaffe_read(h, KAFFE_TRACE, 0, (uint8_t *)&why, 1), 0);
    kaffe_free(h);
}

/* Why a host is not printed, beside that every process has ended. */
static void unprinted(void) {
    kaffe_rooms rooms = {1000, 3, 10, 10, 0, 0, 0};
    kaffe_host *h = opened_with(0, rooms);
    for (int i = 0; i < 3; i++) FAULT(kaffe_clear(h, GUEST, 0), KAFFE_DONE);
    STATUS(kaffe_print(h), KAFFE_OK);
    FAULT(kaffe_clear(h, GUEST, 0), KAFFE_DONE);
    STATUS(kaffe_print(h), KAFFE_FORGOTTEN);
    kaffe_free(h);
    h = keeping(2 * MOST_OPERATIONS);
    for (int i = 0; i <= MOST_OPERATIONS; i++) STATUS(kaffe_clear(h, GUEST, 0), KAFFE_OK);
    STATUS(kaffe_print(h), KAFFE_TOO_MANY);
    kaffe_free(h);
    long_lines();
}

int main(void) {
    prints();
    unprinted();
    if (failures == 0) printf("each text was read as it was printed, and each refusal to print was due\n");
    return failures != 0;
}
