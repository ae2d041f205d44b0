/* kaffe.h: heaps of guests with limits, for hosts in C.

   A host is declared by the head of a trace (docs/FORMATS.md): the kernel heap, types, limits, processes and shared heaps. Each process
   is a guest, with a heap and 16 registers, which are its roots. docs/EMBEDDING.md says what a caller owes and what each code means.

   Every call answers, and none aborts. A call whose status is not KAFFE_OK has changed nothing.
   After kaffe_open an allocation, kaffe_print and kaffe_grow alone take memory, an allocation none where the supply of its process has a body of
   the type. What a host takes at its opening goes with its rooms, and not with how long it runs. */
#ifndef KAFFE_H
#define KAFFE_H
#include <stddef.h>
#include <stdint.h>
#include <stdlib.h>
#include <string.h>
#ifdef __cplusplus
extern "C" {
#endif

/* A host, in memory that the caller gives. What is in it is the library's own. */
typedef struct kaffe_host kaffe_host;

/* What a call lacks. Nothing has changed. */
enum kaffe_status {
    KAFFE_OK = 0,       /* the call is done */
    KAFFE_UNKNOWN = 1,  /* no such process, register, type, limit or shared heap is declared, a field is 16 or above, or a maximum is
                           2^40 or more; or the question has no answer */
    KAFFE_OWN_CALL = 2, /* the operation has a call of its own: no function of this header answers it */
    KAFFE_ENDED = 3,    /* the process has ended */
    KAFFE_PHASE = 4,    /* a collection of a heap that is touched is open, or of a host that is to be printed: these functions leave none open */
    KAFFE_FULL = 5,     /* the journal has no room for the event, or the process has done 2^64 - 1 operations */
    KAFFE_NO_MEMORY = 6, /* memory is wanting for the object, and the supply of the process has no body of its type; or for printing, or for
                            larger rooms */
    KAFFE_ORPHAN = 7,   /* the shared heap to be absorbed is not the first orphan */
    KAFFE_NO_CALL = 8,  /* the request names no call */
    KAFFE_NO_HOST = 9,  /* no host could be made: see kaffe_make */
    KAFFE_RESERVED = 10, /* no more events are left than are kept for collections; kaffe_kill asks for none of them */
    KAFFE_OBJECTS = 11, /* as many objects live in the heap as it has room for: collect it, or the kernel heap after kaffe_knew */
    KAFFE_ITEMS = 12,   /* a reference that leads out of its heap may need an exit item or an entry item, and no more is left of these */
    KAFFE_FORGOTTEN = 13, /* the host is not printed: fewer events are kept than there are */
    KAFFE_TOO_MANY = 14, /* the host is not printed: there are more operations than a trace has, 200,000 */
    KAFFE_TOO_LONG = 15, /* the host is not printed: a check reads no texts so long, 16,777,216 bytes of a trace and 67,108,864 of both */
    KAFFE_OVER = 16,     /* the host is not printed: every process has ended */
    KAFFE_ROOMS = 19     /* the rooms are less than those that the host has, or not fit: see kaffe_grow. 17 and 18 are those of kaffe_parts.h */
};

/* Why an operation is refused. It counts as done, and has changed no heap, register or charge. */
enum kaffe_fault {
    KAFFE_DONE = 0,            /* it is not refused */
    KAFFE_NULL = 1,            /* the base register, or the root register of freeze, is null */
    KAFFE_FOREIGN = 2,         /* another living process owns the base object */
    KAFFE_NOT_SHARER = 3,      /* shared heap `at` owns the base object, and the process does not share it */
    KAFFE_NO_FIELD = 4,        /* the object has no such field */
    KAFFE_WRONG_KIND = 5,      /* a reference was asked of an integer field, or a number of a reference field */
    KAFFE_FROZEN = 6,          /* the base object is in a frozen shared heap */
    KAFFE_SEGV = 7,            /* the write barrier refuses the store, or the root of freeze is not in that heap */
    KAFFE_NOT_POPULATING = 8,  /* the process does not populate shared heap `at` */
    KAFFE_NOT_FROZEN = 9,      /* shared heap `at` is not frozen */
    KAFFE_TAKEN = 10,          /* shared heap `at` has been made before */
    KAFFE_LIMIT_FULL = 11,     /* limit `at` is full: collect a heap that it counts, or kill a guest; on resize, the path above a hard limit */
    KAFFE_KERNEL_FULL = 12,    /* the kernel heap is at its ceiling */
    KAFFE_PROC_NOT_BELOW = 13, /* the limit of process `at` is not strictly below that of the process that would kill it */
    KAFFE_LIMIT_NOT_BELOW = 14, /* limit `at` is not strictly below that of the process that would resize it */
    KAFFE_IN_USE = 15          /* more bytes are in use at limit `at` than the maximum that it would get */
};

/* What the numbers of an answer are. */
enum kaffe_what {
    KAFFE_NOTHING = 0, /* none of them counts */
    KAFFE_NAME = 1,    /* seg, serial: an object. A name is never used again. Both 0: null */
    KAFFE_NUMBER = 2,  /* number */
    KAFFE_FREED = 3,   /* what a collection freed: seg objects, number bytes, serial exit items, at shares */
    KAFFE_TEXTS = 4,   /* what was printed: seg bytes of the trace, number bytes of the report */
    KAFFE_ASKED = 32   /* 32 and more: what an event was asked for, see kaffe_event_at. what - 32 is the number of its call */
};

typedef struct kaffe_request { /* 32 bytes, passed by value */
    uint32_t call;             /* enum kaffe_call_number */
    uint32_t pid;              /* the process, from 0 in order of declaration */
    uint32_t at;               /* a field, a type, a limit, a shared heap or the process that is killed, from 0 in order of declaration */
    uint32_t to;               /* the type, where at is a shared heap */
    uint8_t reg, base;         /* registers, 0 to 15 */
    uint8_t unused0, unused1;
    uint32_t unused2;
    uint64_t number;           /* what a field or a limit's maximum becomes; or the number of an event, from 0 */
} kaffe_request;

typedef struct kaffe_answer {
    uint32_t status; /* enum kaffe_status */
    uint32_t fault;  /* enum kaffe_fault */
    uint32_t at;     /* the limit, process or shared heap that the fault names; of what an event was asked for, the process */
    uint32_t what;   /* enum kaffe_what */
    uint32_t seg, serial;
    uint64_t number;
} kaffe_answer;

enum kaffe_call_number {
    KAFFE_CALL_NEW = 0,
    KAFFE_CALL_KNEW = 1,
    KAFFE_CALL_SNEW = 2,
    KAFFE_CALL_STORE = 3,
    KAFFE_CALL_LOAD = 4,
    KAFFE_CALL_MOVE = 5,
    KAFFE_CALL_CLEAR = 6,
    KAFFE_CALL_DIR = 7,
    KAFFE_CALL_PUT = 8,
    KAFFE_CALL_GET = 9,
    KAFFE_CALL_SHARE = 10,
    KAFFE_CALL_FREEZE = 11,
    KAFFE_CALL_ATTACH = 12,
    KAFFE_CALL_KILL_BY = 13,
    KAFFE_CALL_RESIZE = 14,
    KAFFE_CALL_COLLECT = 16,
    KAFFE_CALL_KCOLLECT = 17,
    KAFFE_CALL_KILL = 18,
    KAFFE_CALL_ABSORB = 19,
    KAFFE_CALL_TAKE = 20,
    KAFFE_CALL_PUBLISH = 21,
    KAFFE_CALL_PRINT = 24,
    KAFFE_ASK_LIVES = 32,
    KAFFE_ASK_BYTES = 33,
    KAFFE_ASK_CHARGE = 34,
    KAFFE_ASK_USE = 35,
    KAFFE_ASK_MAX = 36,
    KAFFE_ASK_REGISTER = 37,
    KAFFE_ASK_DONE = 38,
    KAFFE_ASK_EVENTS = 39,
    KAFFE_ASK_BODIES = 40,
    KAFFE_ASK_KERNEL_BYTES = 41,
    KAFFE_ASK_ORPHAN = 42,
    KAFFE_ASK_LEFT = 43,
    KAFFE_ASK_FREED_COUNT = 44,
    KAFFE_ASK_FREED_NAME = 45, /* at is the place of the name, from 0 */
    KAFFE_ASK_EVENT = 46,      /* number is that of the event, from 0 */
    KAFFE_ASK_CAME = 47        /* the same */
};

/* Events that are no calls, in the place of the number of a call. */
enum kaffe_event_number {
    KAFFE_EVENT_ENDED = 22,  /* a collection has ended, of the kernel heap where reg is 0, and of that of process pid where it is 1 */
    KAFFE_EVENT_CLOSING = 23 /* the last collection of a run: no function of this header adds it */
};

/* The texts of a host that was printed. */
enum kaffe_text {
    KAFFE_TRACE = 0,
    KAFFE_REPORT = 1
};

/* For how much a host has room. The opening takes memory for all of it, and no call but kaffe_grow takes any for a table after it. */
typedef struct kaffe_rooms { /* 32 bytes, passed by value */
    uint64_t events;         /* events in the host's whole life: below 2^55, and at least three for each process, one for each shared heap
                                and three */
    uint32_t kept;           /* the last of them, which can be read and taken out: at most events */
    uint32_t tail;           /* events inside its heap that a process has before they come to the others: at least 1 */
    uint32_t objects;        /* objects that live at once in the heap of a process, in a shared heap, and in the kernel heap beside those that
                                it took over: at least 1, which is its directory */
    uint32_t exits;          /* references out of the heap of one process, or of one shared heap, each object that is referred to once */
    uint32_t kernel_exits;   /* the same of the kernel heap: `exits` of it for each living process are kept back for its end, and the rest is
                                for stores. At least exits for each process */
    uint32_t entries;        /* objects to which references of other heaps lead */
} kaffe_rooms;

/* The name of an object, which is never used again. */
typedef struct kaffe_name {
    uint32_t seg, serial;
} kaffe_name;

/* The seven functions that are linked. The caller gives kaffe_size() bytes, aligned as malloc aligns, and has them back after kaffe_close.
   kaffe_open always leaves something to be closed: a host, or a place without one, whose every call answers KAFFE_NO_HOST. kaffe_read copies
   bytes of a text that kaffe_print made, enum kaffe_text, from that place on: as many as there are and as the array has room for, and answers
   how many. It answers 0 where there is no text or no byte from there on. The pointer may not be NULL, also for a length of 0.

   kaffe_grow gives the host these rooms from now on, and answers how many of the last events can be read: `kept`, while no event is forgotten.
   Else it answers how many are still there, and holds more of those to come, so that the same call later answers more. Each room is to be no less
   than before, all of them fit for kaffe_open, and kernel_exits more by as many as exits for each process, ended ones too; else the status is
   KAFFE_ROOMS. It takes memory for each table that grows beside the old one; where that is wanting the status is KAFFE_NO_MEMORY. Then the rooms
   are those before, and nothing has changed. */
size_t kaffe_size(void);
kaffe_rooms kaffe_rooms_for(uint32_t objects, uint32_t processes, uint32_t heaps);
void kaffe_open(const uint8_t *text, size_t length, uint32_t type, uint32_t bodies, kaffe_rooms rooms, kaffe_host *at);
kaffe_answer kaffe_call(kaffe_host *host, kaffe_request request);
kaffe_answer kaffe_grow(kaffe_host *host, kaffe_rooms rooms);
size_t kaffe_read(kaffe_host *host, uint32_t text, size_t from, uint8_t *into, size_t length);
void kaffe_close(kaffe_host *host);

static inline kaffe_answer kaffe_request_call(kaffe_host *h, uint32_t call, uint32_t pid, uint32_t at, uint32_t to, uint8_t reg,
                                              uint8_t base, uint64_t number) {
    kaffe_request q = {call, pid, at, to, reg, base, 0, 0, 0, number};
    return kaffe_call(h, q);
}

/* An object in the heap of the process; register reg refers to it. Answers its name. */
static inline kaffe_answer kaffe_new(kaffe_host *h, uint32_t pid, uint8_t reg, uint32_t type) {
    return kaffe_request_call(h, KAFFE_CALL_NEW, pid, type, 0, reg, 0, 0);
}

/* The same in the kernel heap. */
static inline kaffe_answer kaffe_knew(kaffe_host *h, uint32_t pid, uint8_t reg, uint32_t type) {
    return kaffe_request_call(h, KAFFE_CALL_KNEW, pid, type, 0, reg, 0, 0);
}

/* The same in a shared heap that the process populates. */
static inline kaffe_answer kaffe_snew(kaffe_host *h, uint32_t pid, uint8_t reg, uint32_t shared, uint32_t type) {
    return kaffe_request_call(h, KAFFE_CALL_SNEW, pid, shared, type, reg, 0, 0);
}

/* The field of the object in register base refers to what register reg holds. */
static inline kaffe_answer kaffe_store(kaffe_host *h, uint32_t pid, uint8_t base, uint32_t field, uint8_t reg) {
    return kaffe_request_call(h, KAFFE_CALL_STORE, pid, field, 0, reg, base, 0);
}

/* Register reg holds what the field refers to. Answers its name, or null. */
static inline kaffe_answer kaffe_load(kaffe_host *h, uint32_t pid, uint8_t reg, uint8_t base, uint32_t field) {
    return kaffe_request_call(h, KAFFE_CALL_LOAD, pid, field, 0, reg, base, 0);
}

/* Register reg holds what register from holds. */
static inline kaffe_answer kaffe_move(kaffe_host *h, uint32_t pid, uint8_t reg, uint8_t from) {
    return kaffe_request_call(h, KAFFE_CALL_MOVE, pid, 0, 0, reg, from, 0);
}

/* Register reg is null. */
static inline kaffe_answer kaffe_clear(kaffe_host *h, uint32_t pid, uint8_t reg) {
    return kaffe_request_call(h, KAFFE_CALL_CLEAR, pid, 0, 0, reg, 0, 0);
}

/* Register reg refers to the directory of the kernel heap. */
static inline kaffe_answer kaffe_dir(kaffe_host *h, uint32_t pid, uint8_t reg) {
    return kaffe_request_call(h, KAFFE_CALL_DIR, pid, 0, 0, reg, 0, 0);
}

/* The integer field of the object in register base becomes the number. */
static inline kaffe_answer kaffe_put(kaffe_host *h, uint32_t pid, uint8_t base, uint32_t field, uint64_t number) {
    return kaffe_request_call(h, KAFFE_CALL_PUT, pid, field, 0, 0, base, number);
}

/* Answers the integer field of the object in register base. */
static inline kaffe_answer kaffe_get(kaffe_host *h, uint32_t pid, uint8_t base, uint32_t field) {
    return kaffe_request_call(h, KAFFE_CALL_GET, pid, field, 0, 0, base, 0);
}

/* The process begins to populate the shared heap. */
static inline kaffe_answer kaffe_share(kaffe_host *h, uint32_t pid, uint32_t shared) {
    return kaffe_request_call(h, KAFFE_CALL_SHARE, pid, shared, 0, 0, 0, 0);
}

/* The shared heap is frozen, with the object in register root as its root. */
static inline kaffe_answer kaffe_freeze(kaffe_host *h, uint32_t pid, uint32_t shared, uint8_t root) {
    return kaffe_request_call(h, KAFFE_CALL_FREEZE, pid, shared, 0, root, 0, 0);
}

/* The process shares the frozen heap; register reg refers to its root. */
static inline kaffe_answer kaffe_attach(kaffe_host *h, uint32_t pid, uint8_t reg, uint32_t shared) {
    return kaffe_request_call(h, KAFFE_CALL_ATTACH, pid, shared, 0, reg, 0, 0);
}

/* The process kills the target, whose limit must be strictly below its own. Nothing changes where the target has ended before. */
static inline kaffe_answer kaffe_kill_by(kaffe_host *h, uint32_t pid, uint32_t target) {
    return kaffe_request_call(h, KAFFE_CALL_KILL_BY, pid, target, 0, 0, 0, 0);
}

/* The process gives the limit, which must be strictly below its own, another maximum, which is below 2^40. */
static inline kaffe_answer kaffe_resize(kaffe_host *h, uint32_t pid, uint32_t limit, uint64_t most) {
    return kaffe_request_call(h, KAFFE_CALL_RESIZE, pid, limit, 0, 0, 0, most);
}

/* Collects the heap of the process, whole. Answers what was freed. */
static inline kaffe_answer kaffe_collect(kaffe_host *h, uint32_t pid) {
    return kaffe_request_call(h, KAFFE_CALL_COLLECT, pid, 0, 0, 0, 0, 0);
}

/* Ends the process, whoever asks: from here on its charge is 0, and its heap is the kernel's. A process that lives can always be ended,
   however many events are left. */
static inline kaffe_answer kaffe_kill(kaffe_host *h, uint32_t pid) {
    return kaffe_request_call(h, KAFFE_CALL_KILL, pid, 0, 0, 0, 0, 0);
}

/* Absorbs the shared heap, which must be the first orphan: it becomes the kernel's. */
static inline kaffe_answer kaffe_absorb(kaffe_host *h, uint32_t shared) {
    return kaffe_request_call(h, KAFFE_CALL_ABSORB, 0, shared, 0, 0, 0, 0);
}

/* Asks a question, KAFFE_ASK_LIVES to KAFFE_ASK_FREED_NAME, of the process, limit, register or place. It changes nothing. */
static inline kaffe_answer kaffe_ask(kaffe_host *h, uint32_t question, uint32_t pid, uint32_t at) {
    return kaffe_request_call(h, question, pid, at, 0, (uint8_t)(at < 16 ? at : 255), 0, 0);
}

/* Absorbs every orphan, and collects the kernel heap whole, as the process. Answers what was freed. */
static inline kaffe_answer kaffe_kcollect(kaffe_host *h, uint32_t pid) {
    return kaffe_request_call(h, KAFFE_CALL_KCOLLECT, pid, 0, 0, 0, 0, 0);
}

/* Writes the names of at most n of the objects that the last collection freed, kaffe_collect or kaffe_kcollect of any process, and answers
   how many it freed. Each stands once, in any order, and they are the same until the next collection is done. */
static inline size_t kaffe_freed(kaffe_host *h, kaffe_name *names, size_t n) {
    size_t all = (size_t)kaffe_ask(h, KAFFE_ASK_FREED_COUNT, 0, 0).number;
    for (size_t i = 0; i < all && i < n; i++) {
        kaffe_answer a = kaffe_ask(h, KAFFE_ASK_FREED_NAME, 0, (uint32_t)i);
        names[i].seg = a.seg;
        names[i].serial = a.serial;
    }
    return all;
}

/* The bytes that the process is charged: its heap, and each shared heap that it shares in full. 0 once it has ended. */
static inline uint64_t kaffe_charge(kaffe_host *h, uint32_t pid) { return kaffe_ask(h, KAFFE_ASK_CHARGE, pid, 0).number; }
/* The bytes in use at the limit, and the most that may be. */
static inline uint64_t kaffe_use(kaffe_host *h, uint32_t limit) { return kaffe_ask(h, KAFFE_ASK_USE, 0, limit).number; }
static inline uint64_t kaffe_max(kaffe_host *h, uint32_t limit) { return kaffe_ask(h, KAFFE_ASK_MAX, 0, limit).number; }
/* Whether the process lives. */
static inline int kaffe_lives(kaffe_host *h, uint32_t pid) { return kaffe_ask(h, KAFFE_ASK_LIVES, pid, 0).number == 1; }
/* How many events are left for operations and collections: what the ends of all processes will add is kept beside them. */
static inline uint64_t kaffe_left(kaffe_host *h) { return kaffe_ask(h, KAFFE_ASK_LEFT, 0, 0).number; }
/* The bytes of the kernel heap. */
static inline uint64_t kaffe_kernel_bytes(kaffe_host *h) { return kaffe_ask(h, KAFFE_ASK_KERNEL_BYTES, 0, 0).number; }

/* An event: a call that was done, with what came of it, or the end of a collection. */
typedef struct kaffe_event {
    uint64_t number;     /* from 0 in the order of the journal */
    kaffe_request asked; /* the request for it: call is one of enum kaffe_call_number or of enum kaffe_event_number */
    kaffe_answer came;   /* what it was answered: for a collection nothing, and for its end what it freed */
} kaffe_event;

/* The event of that number, by what is told of its request and of its answer. Answers 0 where there is none. */
static inline int kaffe_event_of(uint64_t number, kaffe_answer asked, kaffe_answer came, kaffe_event *event) {
    if (asked.status) return 0;
    uint32_t call = asked.what - KAFFE_ASKED, to = call == KAFFE_CALL_SNEW ? (uint32_t)asked.number : 0;
    kaffe_request q = {call, asked.at, asked.seg, to, (uint8_t)(asked.serial % 256), (uint8_t)(asked.serial / 256), 0, 0, 0,
                       call == KAFFE_CALL_SNEW ? 0 : asked.number};
    event->number = number;
    event->asked = q;
    event->came = came;
    return 1;
}

/* Reads the event of that number. Answers 1, or 0 where there is none yet or where it is older than the last that are kept. Constant time. */
static inline int kaffe_event_at(kaffe_host *h, uint64_t number, kaffe_event *event) {
    kaffe_answer asked = kaffe_request_call(h, KAFFE_ASK_EVENT, 0, 0, 0, 0, 0, number);
    return kaffe_event_of(number, asked, kaffe_request_call(h, KAFFE_ASK_CAME, 0, 0, 0, 0, 0, number), event);
}

/* Takes out the next event, the first that is still kept and was not taken out before. Answers 1, or 0 where there is none. So each event is
   given at most once, in order, and a gap in the numbers tells how many were forgotten before they were taken. What a process did inside
   its heap comes to the journal later, with its next event that does not stay there. Constant time. */
static inline int kaffe_take(kaffe_host *h, kaffe_event *event) {
    kaffe_answer a = kaffe_request_call(h, KAFFE_CALL_TAKE, 0, 0, 0, 0, 0, 0);
    return a.status == KAFFE_OK && a.what == KAFFE_NUMBER && kaffe_event_at(h, a.number, event);
}

/* Publishes what each process did inside its heap: all that was done is in the journal then. It takes nothing of what is left, and a process that
   is ended or has nothing unpublished changes nothing. */
static inline kaffe_answer kaffe_publish(kaffe_host *h) { return kaffe_request_call(h, KAFFE_CALL_PUBLISH, 0, 0, 0, 0, 0, 0); }

/* Publishes, and makes two texts: the trace of all that the host has done, and the report of it, which `kaffe check` accepts one after the
   other. Answers how many bytes each has, and kaffe_read copies them. They stay, whatever else is called, until the next ones are made or the
   host is closed. A host can be printed at any moment and any number of times, where it keeps all its events: `kept` of its rooms has to be as
   many as there are. The texts take memory, and while they are made so do those before, a copy of all events and the machine after them. */
static inline kaffe_answer kaffe_print(kaffe_host *h) {
    kaffe_answer published = kaffe_publish(h);
    return published.status == KAFFE_OK ? kaffe_request_call(h, KAFFE_CALL_PRINT, 0, 0, 0, 0, 0, 0) : published;
}

/* A host in memory of malloc, of what the text declares, with these rooms. Each process has a supply of that many bodies of the type: as many
   allocations of it, refused ones too, take no memory. NULL where there is none, and then `why` says: seg is the first bad line and at the
   reason of docs/FORMATS.md; or seg is 0, and at is 1 where memory ran out, 2 where the type is not declared or the rooms are not as
   kaffe_rooms says. */
static inline kaffe_host *kaffe_make_with(const char *text, uint32_t type, uint32_t bodies, const kaffe_rooms *rooms, kaffe_answer *why) {
    kaffe_answer none = {KAFFE_NO_HOST, 0, 1, 0, 0, 0, 0};
    kaffe_host *h = (kaffe_host *)malloc(kaffe_size());
    *why = none;
    if (!h) return NULL;
    kaffe_open((const uint8_t *)text, strlen(text), type, bodies, *rooms, h);
    *why = kaffe_ask(h, KAFFE_ASK_EVENTS, 0, 0);
    if (why->status != KAFFE_NO_HOST) return h;
    kaffe_close(h);
    free(h);
    return NULL;
}

/* How many lines of the text begin with the word and a space: of a good text as many as it declares so. */
static inline uint32_t kaffe_lines(const char *text, const char *word) {
    size_t length = strlen(word);
    uint32_t count = 0;
    while (text) {
        count += strncmp(text, word, length) == 0 && text[length] == ' ';
        text = strchr(text, '\n');
        if (text) text++;
    }
    return count;
}

/* The same with rooms for so many living objects in each heap, as kaffe_rooms_for gives them: 2^55 - 1 events, of which none is kept, and as
   many references as there can be objects. */
static inline kaffe_host *kaffe_make(const char *text, uint32_t type, uint32_t bodies, uint32_t objects, kaffe_answer *why) {
    kaffe_rooms rooms = kaffe_rooms_for(objects, kaffe_lines(text, "proc"), kaffe_lines(text, "shared"));
    return kaffe_make_with(text, type, bodies, &rooms, why);
}

/* Gives all memory of the host back. */
static inline void kaffe_free(kaffe_host *h) {
    kaffe_close(h);
    free(h);
}

#ifdef __cplusplus
}
#endif
#endif
