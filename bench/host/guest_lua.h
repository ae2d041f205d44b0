/* A guest of a Lua state over an allocator that counts and limits its bytes, for calls.c. Registers are places of the stack, an object is a
   table with three places of its array. Collections come when they are asked for and at no other time. */
#include <lauxlib.h>
#include <lua.h>
#include <stdint.h>
#include <stdio.h>
#include <stdlib.h>

enum { REGISTERS = 16, SPARE = 8 };

typedef struct {
    lua_State *state;
    size_t used, most;
} guest;

static inline void *counted(void *data, void *old, size_t had, size_t want) {
    guest *g = data;
    if (!old) had = 0;
    if (want == 0) {
        g->used -= had;
        free(old);
        return NULL;
    }
    if (want > had && g->used + (want - had) > g->most) return NULL;
    void *place = realloc(old, want);
    if (place) g->used += want - had;
    return place;
}

static inline guest *guest_open(uint32_t objects, uint32_t events) {
    (void)objects, (void)events;
    guest *g = malloc(sizeof *g);
    if (!g) exit(1);
    g->used = 0;
    g->most = (size_t)1 << 32;
    g->state = lua_newstate(counted, g);
    if (!g->state || !lua_checkstack(g->state, REGISTERS + SPARE)) exit(1);
    lua_gc(g->state, LUA_GCSTOP);
    lua_settop(g->state, REGISTERS);
    return g;
}

static inline void guest_close(guest *g) {
    lua_close(g->state);
    free(g);
}

static inline void guest_new(guest *g, uint8_t to) {
    lua_State *L = g->state;
    lua_createtable(L, 3, 0);
    lua_pushboolean(L, 0);
    lua_rawseti(L, -2, 1);
    lua_pushboolean(L, 0);
    lua_rawseti(L, -2, 2);
    lua_pushinteger(L, 0);
    lua_rawseti(L, -2, 3);
    lua_replace(L, to + 1);
}

static inline void guest_store(guest *g, uint8_t base, uint32_t field, uint8_t from) {
    lua_pushvalue(g->state, from + 1);
    lua_rawseti(g->state, base + 1, field + 1);
}

static inline void guest_load(guest *g, uint8_t to, uint8_t base, uint32_t field) {
    lua_rawgeti(g->state, base + 1, field + 1);
    lua_replace(g->state, to + 1);
}

static inline void guest_put(guest *g, uint8_t base, uint32_t field, uint64_t n) {
    lua_pushinteger(g->state, (lua_Integer)n);
    lua_rawseti(g->state, base + 1, field + 1);
}

static inline uint64_t guest_get(guest *g, uint8_t base, uint32_t field) {
    lua_rawgeti(g->state, base + 1, field + 1);
    uint64_t n = (uint64_t)lua_tointeger(g->state, -1);
    lua_pop(g->state, 1);
    return n;
}

static inline void guest_move(guest *g, uint8_t to, uint8_t from) { lua_copy(g->state, from + 1, to + 1); }
static inline void guest_global(guest *g, uint8_t to) { guest_new(g, to); }
static inline void guest_collect(guest *g) { lua_gc(g->state, LUA_GCCOLLECT); }
static inline uint64_t guest_charge(guest *g) { return *(volatile size_t *)&g->used; }
