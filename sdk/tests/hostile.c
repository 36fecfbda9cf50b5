/* Writes on channel 15 what would have a careless reader write elsewhere, run a command, or read what isn't there. */
#include <stdio.h>
#include "jet.h"

static void put(int channel, const char *text, unsigned length) { jet_write(channel, text, length); }
#define PUT(channel, text) put(channel, text, sizeof text - 1)

int main(void)
{
    PUT(3, "hostile\n");
    PUT(15, "out 3 0 8 ../above\n");
    PUT(15, "out 3 0 8 /tmp/jet-run-hostile\n");
    PUT(15, "out 3 0 8 a/../../above\n");
    PUT(15, "out 3 0 8 a/..\n");
    PUT(15, "out 3 0 8 ..\n");
    PUT(15, "out 3 0 8 .\n");
    PUT(15, "out 3 0 8 a//b\n");
    PUT(15, "out 3 0 8 a/./b\n");
    PUT(15, "out 3 0 8 a/\n");
    PUT(15, "out 3 0 8 \n");
    PUT(15, "out 3 0 8\n");
    PUT(15, "out 3 0 8 bell\a\n");
    PUT(15, "out 3 0 8 nul\0/../../above\n");
    PUT(15, "out 3 0 9 long\n");
    PUT(15, "out 3 5 4 long\n");
    PUT(15, "out 3 99999999 1 long\n");
    PUT(15, "out 3 0 999999999999999999999 long\n");
    PUT(15, "out 3 x[$(touch$IFS./ran)] 8 sum\n");
    PUT(15, "out $(touch ran) 0 8 sum\n");
    PUT(15, "out 3 010 8 octal\n");
    PUT(15, "out 3 -1 8 below\n");
    PUT(15, "out 16 0 0 channel\n");
    PUT(15, "out 3 0 8 link/through\n");
    PUT(15, "out 3 0 8 link\n");
    PUT(15, "out 3 0 8 dangling\n");
    PUT(15, "out 3 0 8 deep/link/through\n");
    PUT(15, "out 3 0 8 kept\n");
    PUT(15, "out 3 0 8 kept/below\n");
    PUT(15, "out 3 0 8 twin\n");
    PUT(15, "out 3 0 8 folder\n");
    PUT(15, "out 3 0 8 $(touch ran)`touch ran`;touch ran\n");
    PUT(15, "out 3 0 8 -rf\n");
    PUT(15, "out 3 0 8  blanks \n");
    PUT(15, "out 3 0 8 *\n");
    PUT(15, "out 3 2 3 part \\c\n");
    PUT(15, "out 3 0 8 twice\n");
    PUT(15, "out 3 0 4 twice\n");
    PUT(15, "out 3 0 8 no end of line");
    return 0;
}
