/* A cipher: encrypts channel 0 by ChaCha20 (RFC 8439) under the key and nonce that channel 1 holds. */
#include "guest.h"

static byte text[1 << 19];
static byte secret[44];
static word input[16], block[16];

static word load(const byte *p)
{
    return p[0] | p[1] << 8 | p[2] << 16 | (word)p[3] << 24;
}

static word turned(word v, word n)
{
    return v << n | v >> (32 - n);
}

static void quarter(word *a, word *b, word *c, word *d)
{
    *a += *b, *d = turned(*d ^ *a, 16);
    *c += *d, *b = turned(*b ^ *c, 12);
    *a += *b, *d = turned(*d ^ *a, 8);
    *c += *d, *b = turned(*b ^ *c, 7);
}

static void next_block(void)
{
    word *x = block;
    for (word i = 0; i < 16; i++)
        x[i] = input[i];
    for (word round = 0; round < 10; round++) {
        quarter(x + 0, x + 4, x + 8, x + 12);
        quarter(x + 1, x + 5, x + 9, x + 13);
        quarter(x + 2, x + 6, x + 10, x + 14);
        quarter(x + 3, x + 7, x + 11, x + 15);
        quarter(x + 0, x + 5, x + 10, x + 15);
        quarter(x + 1, x + 6, x + 11, x + 12);
        quarter(x + 2, x + 7, x + 8, x + 13);
        quarter(x + 3, x + 4, x + 9, x + 14);
    }
    for (word i = 0; i < 16; i++)
        x[i] += input[i];
    input[12]++;
}

int main(void)
{
    word length = receive_all(text, sizeof text);
    if (receive(1, secret, sizeof secret) != sizeof secret)
        return 1;
    input[0] = 0x61707865, input[1] = 0x3320646e, input[2] = 0x79622d32, input[3] = 0x6b206574;
    for (word i = 0; i < 8; i++)
        input[4 + i] = load(secret + 4 * i);
    for (word i = 0; i < 3; i++)
        input[13 + i] = load(secret + 32 + 4 * i);
    for (word i = 0; i < length; i++) {
        if (i % 64 == 0)
            next_block();
        text[i] ^= block[i % 64 / 4] >> 8 * (i % 4);
    }
    send(2, text, length);
    return 0;
}
