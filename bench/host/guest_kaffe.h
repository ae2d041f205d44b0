/* A guest of a host behind kaffe.h, for calls.c. Each call ends the program where it is not answered as it should be. */
#include <kaffe.h>
#include <stdio.h>

enum { GUEST = 0, NODE = 0 };
typedef kaffe_host guest;

static const char *const DECLARED =
    "kaffe 1\nkernel 4096 8\ntype Node ref ref int\n"
    "limit root 1000000000\nlimit guest root hard 400000000\nproc guest guest\n";

static inline kaffe_answer done(kaffe_answer answer) {
    if (answer.status || answer.fault) {
        fprintf(stderr, "status %u, fault %u at %u\n", answer.status, answer.fault, answer.at);
        exit(1);
    }
    return answer;
}

/* A host of the text with room for so many objects in each heap and so many events, of which none is kept. */
static inline guest *guest_open_text(const char *text, uint32_t objects, uint32_t events) {
    kaffe_answer why = {0};
    kaffe_rooms rooms = kaffe_rooms_for(objects, kaffe_lines(text, "proc"), kaffe_lines(text, "shared"));
    rooms.events = events;
    guest *made = kaffe_make_with(text, NODE, objects, &rooms, &why);
    if (!made) {
        fprintf(stderr, "no host: line %u, reason %u\n", why.seg, why.at);
        exit(1);
    }
    return made;
}

static inline guest *guest_open(uint32_t objects, uint32_t events) { return guest_open_text(DECLARED, objects, events); }
static inline void guest_close(guest *g) { kaffe_free(g); }
static inline void guest_new(guest *g, uint8_t to) { done(kaffe_new(g, GUEST, to, NODE)); }
static inline void guest_store(guest *g, uint8_t base, uint32_t field, uint8_t from) { done(kaffe_store(g, GUEST, base, field, from)); }
static inline void guest_load(guest *g, uint8_t to, uint8_t base, uint32_t field) { done(kaffe_load(g, GUEST, to, base, field)); }
static inline void guest_put(guest *g, uint8_t base, uint32_t field, uint64_t n) { done(kaffe_put(g, GUEST, base, field, n)); }
static inline uint64_t guest_get(guest *g, uint8_t base, uint32_t field) { return done(kaffe_get(g, GUEST, base, field)).number; }
static inline void guest_move(guest *g, uint8_t to, uint8_t from) { done(kaffe_move(g, GUEST, to, from)); }
static inline void guest_global(guest *g, uint8_t to) { done(kaffe_dir(g, GUEST, to)); }
static inline void guest_collect(guest *g) { done(kaffe_collect(g, GUEST)); }
static inline uint64_t guest_charge(guest *g) { return kaffe_charge(g, GUEST); }
