/* A key-value server: reads commands of 24 bytes (P or G, 7 bytes of a key, 16 of a value), keeps the values in an open
   hash table, and answers each command with the value that the key had, or with dots. */
#include "guest.h"

struct command {
    byte what;
    byte key[7];
    byte value[16];
};

struct entry {
    byte used;
    byte key[7];
    byte value[16];
};

static struct entry table[1 << 12];
static const byte none[16] = "................";

static word hash(const byte *key)
{
    word h = 2166136261u;
    for (word i = 0; i < 7; i++)
        h = (h ^ key[i]) * 16777619u;
    return h;
}

static int same(const byte *a, const byte *b)
{
    for (word i = 0; i < 7; i++)
        if (a[i] != b[i])
            return 0;
    return 1;
}

static struct entry *place_of(const byte *key)
{
    word at = hash(key);
    for (;;) {
        struct entry *e = table + at % (sizeof table / sizeof *table);
        if (!e->used || same(e->key, key))
            return e;
        at++;
    }
}

static void copy(byte *to, const byte *from, word length)
{
    for (word i = 0; i < length; i++)
        to[i] = from[i];
}

int main(void)
{
    struct command c;
    byte answer[16];
    while (receive(0, (byte *)&c, sizeof c) == sizeof c) {
        struct entry *e = place_of(c.key);
        copy(answer, e->used ? e->value : none, 16);
        if (c.what == 'P') {
            e->used = 1;
            copy(e->key, c.key, 7);
            copy(e->value, c.value, 16);
        }
        send(1, answer, 16);
    }
    return 0;
}
