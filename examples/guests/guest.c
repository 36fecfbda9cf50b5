#include "guest.h"

word receive_all(byte *buffer, word room)
{
    word length = 0;
    while (length < room) {
        int got = receive(0, buffer + length, room - length);
        if (got <= 0)
            break;
        length += got;
    }
    return length;
}

word decimal(byte *to, word number)
{
    byte digits[10];
    word count = 0;
    do {
        digits[count++] = '0' + number % 10;
        number /= 10;
    } while (number > 0);
    for (word i = 0; i < count; i++)
        to[i] = digits[count - 1 - i];
    return count;
}

/* What gcc may call. */
void *memcpy(void *to, const void *from, word length)
{
    byte *t = to;
    const byte *f = from;
    while (length--)
        *t++ = *f++;
    return to;
}

void *memset(void *to, int c, word length)
{
    byte *t = to;
    while (length--)
        *t++ = c;
    return to;
}
