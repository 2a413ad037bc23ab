/* Lua of Debian's sources on this machine: docs/C.md compiles it. */
#include "lua.h"
#include "lauxlib.h"
#include "lualib.h"
int main(void)
{
    lua_State *lua = luaL_newstate();
    luaL_requiref(lua, "_G", luaopen_base, 1);
    luaL_requiref(lua, "string", luaopen_string, 1);
    return luaL_dostring(lua, "print(string.format('%.3f', 10 / 3), pcall(error, 'caught'))");
}
