/* Encrypts channel 0 under the key of 16 bytes that channel 1 holds, by RC4: a table that the key has mixed is looked up
   at places that depend on it. */
#include <jet.h>

static unsigned char text[1 << 16], table[256];

static void exchange(int a, int b)
{
    unsigned char was = table[a];
    table[a] = table[b];
    table[b] = was;
}

int main(void)
{
    unsigned char key[16];
    jet_read(1, key, sizeof key);
    for (int i = 0; i < 256; i++)
        table[i] = i;
    for (int i = 0, j = 0; i < 256; i++) {
        j = (j + table[i] + key[i % sizeof key]) & 255;
        exchange(i, j);
    }
    int length = jet_read(0, text, sizeof text);
    for (int n = 0, i = 0, j = 0; n < length; n++) {
        i = (i + 1) & 255;
        j = (j + table[i]) & 255;
        exchange(i, j);
        text[n] ^= table[(table[i] + table[j]) & 255];
    }
    jet_write(1, text, length);
    return 0;
}
