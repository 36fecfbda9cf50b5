/* Lua as a guest: runs the script on channel 0. io.open("1") opens channel 1, and print writes on channel 1. */
#include <stdio.h>
#include "lauxlib.h"
#include "lua.h"
#include "lualib.h"

int main(void)
{
    lua_State *lua = luaL_newstate();
    if (!lua)
        return 1;
    luaL_openlibs(lua);
    if (luaL_loadfile(lua, NULL) || lua_pcall(lua, 0, 0, 0)) {
        fprintf(stderr, "lua: %s\n", lua_tostring(lua, -1));
        return 1;
    }
    lua_close(lua);
    return 0;
}
