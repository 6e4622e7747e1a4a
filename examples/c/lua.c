/* Lua in a game: all that it takes comes from a heap in a static array, so a script can use that much and no more. Each frame
 * runs the script. What the heap's calls took in a frame is added up, to be held against the budget of a frame.
 *
 *   cc -std=c11 -O2 lua.c $(pkg-config --cflags --libs peachanchor lua5.4) -o lua
 *
 * The line with times is of this run on this machine, as processor time: it shows no bound. */
#define _POSIX_C_SOURCE 200809L
#include <peachanchor.h>

#include <lauxlib.h>
#include <lua.h>
#include <lualib.h>

#include <stdio.h>
#include <string.h>
#include <time.h>

enum { FRAMES = 600, BYTES = 1 << 20, BUDGET = 1000000 /* nanoseconds of a frame for memory */ };

struct scripts {
    struct tlsf_heap heap;
    uint64_t in_frame, worst_frame, worst_call; /* nanoseconds in the heap's calls */
};

static const char script[] = "local shots, sum = {}, 0\n"
                             "function frame(n)\n"
                             "  for i = 1, 10 do shots[#shots + 1] = {x = n, y = i, name = 'shot ' .. n .. '.' .. i} end\n"
                             "  while #shots > 200 do sum = sum + #table.remove(shots, 1).name end\n"
                             "  return sum\n"
                             "end\n"
                             "function greedy() local t = {} while true do t[#t + 1] = ('x'):rep(1000) .. #t end end\n";

static uint64_t now(void) {
    struct timespec t;
    clock_gettime(CLOCK_THREAD_CPUTIME_ID, &t);
    return (uint64_t)t.tv_sec * 1000000000u + (uint64_t)t.tv_nsec;
}

/* Lua's one function for memory. Where it answers null, Lua collects garbage and tries again, and then raises an error. */
static void *give(void *scripts, void *p, size_t had, size_t wanted) {
    struct scripts *it = scripts;
    const uint64_t from = now();
    void *to = NULL;
    (void)had; /* the heap knows it */
    if (wanted != 0) to = tlsf_realloc(&it->heap, p, wanted);
    else if (tlsf_free(&it->heap, p) != TLSF_OK) fputs("lua: a pointer that is no block's\n", stderr);
    const uint64_t took = now() - from;
    it->in_frame += took;
    if (took > it->worst_call) it->worst_call = took;
    return to;
}

/* Calls a function of the script. Its answer is a whole number, or -1 where there is none. */
static long long call(lua_State *lua, const char *name, int n) {
    long long answer = -1;
    if (lua_getglobal(lua, name) == LUA_TFUNCTION) {
        lua_pushinteger(lua, n);
        if (lua_pcall(lua, 1, 1, 0) == LUA_OK) answer = lua_tointeger(lua, -1);
        else printf("%s: %s\n", name, lua_tostring(lua, -1));
    }
    lua_settop(lua, 0);
    return answer;
}

static long long run(struct scripts *it, lua_State *lua) {
    long long sum = -1;
    luaL_openlibs(lua);
    if (luaL_dostring(lua, script) != LUA_OK) return -1;
    for (int n = 1; n <= FRAMES; n++) {
        it->in_frame = 0;
        sum = call(lua, "frame", n);
        if (it->in_frame > it->worst_frame) it->worst_frame = it->in_frame;
    }
    call(lua, "greedy", 0); /* it takes all that there is, is told so, and what it had is garbage */
    return call(lua, "frame", FRAMES + 1) > sum ? sum : -1;
}

int main(void) {
    static unsigned char memory[BYTES];
    static struct scripts it; /* the handle is closed: it is zero */
    struct tlsf_heap_report report;
    uint32_t answer = tlsf_open_in(&it.heap, 5, 1, memory, sizeof memory);
    lua_State *lua = answer == TLSF_OK ? lua_newstate(give, &it) : NULL;
    if (lua == NULL) {
        printf("no heap, or no state: %s\n", tlsf_text_of(answer));
        return 1;
    }
    const long long sum = run(&it, lua);
    lua_close(lua);
    answer = tlsf_report(&it.heap, &report);
    printf("%d frames, %lld, and %u live blocks are left\n", FRAMES, sum, (unsigned)report.live_blocks);
    printf("time: the worst call %llu ns, in the worst frame %llu of %d ns\n", (unsigned long long)it.worst_call,
           (unsigned long long)it.worst_frame, BUDGET);
    return tlsf_close(&it.heap) != TLSF_OK || answer != TLSF_OK || report.live_blocks != 0 || sum != 57500;
}
