#include "text.h"

void copy(byte *to, const byte *from, unsigned length)
{
    for (unsigned i = 0; i < length; i++)
        to[i] = from[i];
}

void fill(byte *to, byte c, unsigned length)
{
    for (unsigned i = 0; i < length; i++)
        to[i] = c;
}

byte printable(int c)
{
    return c < ' ' || c > '~' ? '?' : c;
}

unsigned number(const byte *digits, unsigned length)
{
    unsigned number = 0;
    for (unsigned i = 0; i < length; i++)
        number = 10 * number + (digits[i] - '0');
    return number;
}

void decimal(byte *to, unsigned length, unsigned number)
{
    while (length > 0) {
        to[--length] = '0' + number % 10;
        number /= 10;
    }
}
