/* Larger rooms for a host that lives: a room is filled, made larger, and the host goes on where it was. Rooms that are not larger are refused, and
   then nothing has changed. */
#include "due.h"

/* Each room as small as it can be, but for events. */
static const kaffe_rooms SMALL = {1000, 0, 1, 1, 0, 0, 0};

/* The host has these rooms, and so many of its last events can be read. */
static void grown(kaffe_host *h, kaffe_rooms rooms, uint64_t kept) {
    kaffe_answer a = kaffe_grow(h, rooms);
    due("the status of larger rooms", a.status, KAFFE_OK);
    due("what they tell", a.what, KAFFE_NUMBER);
    due("how many events can be read", a.number, kept);
}

/* The rooms are refused, and as many events are left as before. */
static void refused(kaffe_host *h, const char *what, kaffe_rooms rooms) {
    uint64_t left = kaffe_left(h);
    due(what, kaffe_grow(h, rooms).status, KAFFE_ROOMS);
    due("what is left then", kaffe_left(h), left);
}

static void objects(void) {
    kaffe_rooms rooms = SMALL;
    kaffe_host *h = opened_with(0, rooms);
    kaffe_name gone[4];
    FAULT(kaffe_new(h, GUEST, 0, NODE), KAFFE_DONE);
    STATUS(kaffe_new(h, GUEST, 0, NODE), KAFFE_OBJECTS);
    rooms.objects = 4;
    grown(h, rooms, 0);
    for (int i = 0; i < 3; i++) FAULT(kaffe_new(h, GUEST, 0, NODE), KAFFE_DONE);
    STATUS(kaffe_new(h, GUEST, 0, NODE), KAFFE_OBJECTS);
    FAULT(kaffe_new(h, OTHER, 0, LEAF), KAFFE_DONE);
    FAULT(kaffe_knew(h, HOST, 0, LEAF), KAFFE_DONE);
    due("the charge", kaffe_charge(h, GUEST), 160);
    FAULT(kaffe_collect(h, GUEST), KAFFE_DONE);
    due("names of what was freed", kaffe_freed(h, gone, 4), 3);
    rooms.objects = 5;
    grown(h, rooms, 0);
    due("the same names", kaffe_freed(h, gone, 4), 3);
    due("the segment of one", gone[0].seg, 1 + GUEST);
    for (int i = 0; i < 4; i++) FAULT(kaffe_new(h, GUEST, 0, NODE), KAFFE_DONE);
    STATUS(kaffe_new(h, GUEST, 0, NODE), KAFFE_OBJECTS);
    due("what is freed then", kaffe_collect(h, GUEST).seg, 4);
    due("its names", kaffe_freed(h, gone, 4), 4);
    rooms.objects = ROOMY;
    grown(h, rooms, 0);
    for (int i = 0; i < 18; i++) FAULT(kaffe_new(h, GUEST, 0, NODE), KAFFE_DONE);
    FAULT(kaffe_new(h, GUEST, 0, NODE), named(KAFFE_LIMIT_FULL, ALL)); /* a larger room is no larger limit */
    kaffe_free(h);
}

static void items(void) {
    kaffe_rooms rooms = SMALL;
    kaffe_host *h = opened_with(0, rooms);
    FAULT(kaffe_new(h, GUEST, 0, NODE), KAFFE_DONE);
    FAULT(kaffe_dir(h, GUEST, 1), KAFFE_DONE);
    STATUS(kaffe_store(h, GUEST, 0, 0, 1), KAFFE_ITEMS);
    rooms.entries = 1;
    grown(h, rooms, 0);
    STATUS(kaffe_store(h, GUEST, 0, 0, 1), KAFFE_ITEMS); /* its heap has no exit item yet */
    rooms.exits = 1;
    refused(h, "exit items for each end that the kernel heap has no room for", rooms);
    rooms.kernel_exits = PROCESSES - 1;
    refused(h, "one too few of these", rooms);
    rooms.kernel_exits = PROCESSES;
    grown(h, rooms, 0);
    FAULT(kaffe_store(h, GUEST, 0, 0, 1), KAFFE_DONE);
    STATUS(kaffe_store(h, GUEST, 1, 0, 0), KAFFE_ITEMS); /* all items of the kernel heap are kept back for ends */
    rooms.kernel_exits++;
    rooms.entries++;
    grown(h, rooms, 0);
    FAULT(kaffe_store(h, GUEST, 1, 0, 0), KAFFE_DONE);
    FAULT(kaffe_kill(h, GUEST), KAFFE_DONE);
    rooms.exits++;
    rooms.kernel_exits += PROCESSES;
    rooms.objects = 2;
    grown(h, rooms, 0);
    FAULT(kaffe_kcollect(h, HOST), KAFFE_DONE);
    kaffe_free(h);
}

/* How many events are left, and how many a guest has before they are published. */
static void events(void) {
    kaffe_rooms rooms = SMALL;
    rooms.events = 3 * PROCESSES + SHARED_HEAPS + 3;
    kaffe_host *h = opened_with(0, rooms);
    FAULT(kaffe_clear(h, GUEST, 0), KAFFE_DONE);
    STATUS(kaffe_clear(h, GUEST, 0), KAFFE_RESERVED);
    uint64_t left = kaffe_left(h);
    rooms.events += 3;
    grown(h, rooms, 0);
    due("what is left", kaffe_left(h), left + 3);
    for (int i = 0; i < 3; i++) FAULT(kaffe_clear(h, GUEST, 0), KAFFE_DONE);
    STATUS(kaffe_clear(h, GUEST, 0), KAFFE_RESERVED);
    due("events with rows of one", kaffe_ask(h, KAFFE_ASK_EVENTS, 0, 0).number, 4);
    rooms.events += 3;
    rooms.tail = 3;
    grown(h, rooms, 0);
    for (int i = 0; i < 2; i++) FAULT(kaffe_clear(h, GUEST, 0), KAFFE_DONE);
    due("events with rows of three", kaffe_ask(h, KAFFE_ASK_EVENTS, 0, 0).number, 4);
    FAULT(kaffe_clear(h, GUEST, 0), KAFFE_DONE);
    due("events after three", kaffe_ask(h, KAFFE_ASK_EVENTS, 0, 0).number, 7);
    kaffe_free(h);
}

/* Which of the last events can be read. */
static void kept(void) {
    kaffe_rooms rooms = SMALL;
    kaffe_event event;
    kaffe_host *h = opened_with(0, rooms);
    rooms.kept = 2;
    grown(h, rooms, 2); /* nothing is forgotten yet */
    for (int i = 0; i < 5; i++) FAULT(kaffe_clear(h, HOST, 0), KAFFE_DONE);
    uint64_t count = kaffe_ask(h, KAFFE_ASK_EVENTS, 0, 0).number;
    due("the last but one", kaffe_event_at(h, count - 2, &event), 1);
    due("the one before it", kaffe_event_at(h, count - 3, &event), 0);
    rooms.kept = 4;
    grown(h, rooms, 2); /* two are still there */
    due("the last but one is there", kaffe_event_at(h, count - 2, &event), 1);
    due("the one before it is not", kaffe_event_at(h, count - 3, &event), 0);
    FAULT(kaffe_clear(h, HOST, 1), KAFFE_DONE);
    rooms.kept = 4;
    grown(h, rooms, 3);
    due("three of them", kaffe_event_at(h, count - 2, &event), 1);
    FAULT(kaffe_clear(h, HOST, 1), KAFFE_DONE);
    grown(h, rooms, 4);
    FAULT(kaffe_clear(h, HOST, 1), KAFFE_DONE);
    grown(h, rooms, 4);
    due("the fourth of five", kaffe_event_at(h, count - 1, &event), 1);
    due("the fifth", kaffe_event_at(h, count - 2, &event), 0);
    due("whether one is taken out", kaffe_take(h, &event), 1);
    due("the first of these", event.number, count - 1);
    kaffe_free(h);
}

/* Rooms that are less than before in one number, or not fit. */
static void unfit(void) {
    const kaffe_rooms rooms = {1000, 3, 2, 3, 2, 10, 4};
    kaffe_host *h = opened_with(0, rooms);
    kaffe_rooms less = rooms;
    less.events--;
    refused(h, "fewer events", less);
    less = rooms;
    less.kept--;
    refused(h, "fewer kept", less);
    less = rooms;
    less.tail--;
    refused(h, "a shorter row", less);
    less = rooms;
    less.objects--;
    refused(h, "fewer objects", less);
    less = rooms;
    less.exits--;
    refused(h, "fewer exit items", less);
    less = rooms;
    less.kernel_exits--;
    refused(h, "fewer exit items of the kernel heap", less);
    less = rooms;
    less.entries--;
    refused(h, "fewer entry items", less);
    kaffe_rooms more = rooms;
    more.events = 1ULL << 55;
    refused(h, "2^55 events", more);
    more = rooms;
    more.objects = 1 << 30;
    refused(h, "2^30 objects", more);
    more = rooms;
    more.kept = 1001;
    refused(h, "more kept than there are", more);
    grown(h, rooms, 3); /* the same rooms */
    kaffe_free(h);
    kaffe_host *place = (kaffe_host *)malloc(kaffe_size());
    if (!place) exit(2);
    kaffe_open((const uint8_t *)"x", 1, 0, 1, rooms, place);
    STATUS(kaffe_grow(place, rooms), KAFFE_NO_HOST);
    kaffe_free(place);
}

int main(void) {
    objects();
    items();
    events();
    kept();
    unfit();
    return failures != 0;
}
