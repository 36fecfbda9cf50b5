/* A sort: reads records of 16 bytes, and writes them by their first 4 bytes, merged from runs of growing length. */
#include "guest.h"

struct record {
    byte key[4];
    byte rest[12];
};

static struct record one[1 << 14], other[1 << 14];

static int is_after(const struct record *a, const struct record *b)
{
    for (word i = 0; i < 4; i++)
        if (a->key[i] != b->key[i])
            return a->key[i] > b->key[i];
    return 0;
}

static void merge(const struct record *from, struct record *to, word start, word middle, word end)
{
    word left = start, right = middle;
    for (word i = start; i < end; i++)
        if (right >= end || (left < middle && !is_after(from + left, from + right)))
            to[i] = from[left++];
        else
            to[i] = from[right++];
}

static word least(word a, word b)
{
    return a < b ? a : b;
}

int main(void)
{
    word count = receive_all((byte *)one, sizeof one) / sizeof *one;
    struct record *from = one, *to = other;
    for (word run = 1; run < count; run *= 2) {
        for (word start = 0; start < count; start += 2 * run)
            merge(from, to, start, least(start + run, count), least(start + 2 * run, count));
        struct record *swapped = from;
        from = to, to = swapped;
    }
    send(1, (byte *)from, count * sizeof *from);
    return 0;
}
