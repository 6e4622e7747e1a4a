/* Lua: its allocator is one function, which it is given with its state. Tables, strings, closures and coroutines come and go. */
#include "harness.h"

#include <lauxlib.h>
#include <lua.h>
#include <lualib.h>

const char program_name[] = "lua";

const char *program_version(void) { return LUA_VERSION_MAJOR "." LUA_VERSION_MINOR "." LUA_VERSION_RELEASE; }

static const char script[] =
    "local names = {}\n"
    "for i = 1, 30000 do names[i % 4000 + 1] = {i, i .. 'x', {i}} end\n"
    "say(#names, names[1][2], names[4000][3][1])\n"
    "local words = {}\n"
    "for i = 1, 6000 do words[#words + 1] = ('%x'):format(i * 2654435761 % 2 ^ 32) end\n"
    "table.sort(words)\n"
    "local text = table.concat(words, ',')\n"
    "say(#text, text:sub(1, 60), #text:gsub('%x+', string.reverse), select(2, text:gsub('a', 'b')))\n"
    "local counts = {}\n"
    "for word in text:gmatch('%x+') do local k = word:sub(1, 2); counts[k] = (counts[k] or 0) + 1 end\n"
    "local keys = {}\n"
    "for k in pairs(counts) do keys[#keys + 1] = k end\n"
    "table.sort(keys)\n"
    "for i, k in ipairs(keys) do if i % 40 == 0 then say(k, counts[k]) end end\n"
    "local function fields(n) return coroutine.wrap(function() for i = 1, n do coroutine.yield(i * i) end end) end\n"
    "local sum = 0\n"
    "for i = 1, 300 do for square in fields(i % 7) do sum = sum + square end end\n"
    "local adders = {}\n"
    "for i = 1, 2000 do adders[i] = function(x) return x + i end end\n"
    "for i = 1, #adders do sum = adders[i](sum) end\n"
    "collectgarbage('generational')\n"
    "local tree = {}\n"
    "for i = 1, 8000 do\n"
    "  local at = tree\n"
    "  for d in tostring(i * 7919 % 10007):gmatch('%d') do at[d] = at[d] or {}; at = at[d] end\n"
    "  at.n = i\n"
    "end\n"
    "local function depth(t)\n"
    "  local most = 0\n"
    "  for k, v in pairs(t) do if k ~= 'n' then most = math.max(most, depth(v)) end end\n"
    "  return most + 1\n"
    "end\n"
    "say(sum, depth(tree), pcall(error, 'as it was meant'))\n"
    "say(load('return ' .. ('1 + '):rep(150) .. '1')(), #string.rep(text, 6), #string.dump(depth, true) > 0)\n";

static void *give(void *unused, void *p, size_t had, size_t n) {
    (void)unused, (void)had;
    if (n != 0) return hook_realloc(p, n);
    hook_free(p);
    return NULL;
}

static int say_values(lua_State *lua) {
    for (int k = 1; k <= lua_gettop(lua); k++) say("%s%s", k == 1 ? "" : " ", luaL_tolstring(lua, k, NULL)), lua_pop(lua, 1);
    say("\n");
    return 0;
}

/* What allocates runs under lua_pcall, which tells of want of memory. */
static int work(lua_State *lua) {
    luaL_openlibs(lua);
    lua_register(lua, "say", say_values);
    if (luaL_loadstring(lua, script) != LUA_OK) return lua_error(lua);
    lua_call(lua, 0, 0);
    return 0;
}

bool program_work(const char *file) {
    (void)file;
    lua_State *lua = lua_newstate(give, NULL);
    if (lua == NULL) return false;
    lua_pushcfunction(lua, work);
    const int answer = lua_pcall(lua, 0, 0, 0);
    if (answer != LUA_OK) say("%s\n", lua_tostring(lua, -1));
    lua_close(lua);
    return answer == LUA_OK;
}
