/* Encrypts channel 0 under the key of 16 bytes that channel 1 holds, by XTEA in counter mode: additions, shifts and
   exclusive ors, no table. */
#include <jet.h>
#include <stdint.h>

static unsigned char text[1 << 16];

/* One block of XTEA (Needham and Wheeler, "Tea extensions", 1997). */
static void encipher(const uint32_t key[4], uint32_t block[2])
{
    uint32_t left = block[0], right = block[1], sum = 0;
    for (int round = 0; round < 32; round++) {
        left += ((right << 4 ^ right >> 5) + right) ^ (sum + key[sum & 3]);
        sum += 0x9e3779b9;
        right += ((left << 4 ^ left >> 5) + left) ^ (sum + key[sum >> 11 & 3]);
    }
    block[0] = left;
    block[1] = right;
}

int main(void)
{
    uint32_t key[4], block[2] = { 0, 0 };
    jet_read(1, key, sizeof key);
    int length = jet_read(0, text, sizeof text);
    for (int i = 0; i < length; i++) {
        if (i % 8 == 0) {
            block[0] = i / 8;
            block[1] = 0;
            encipher(key, block);
        }
        text[i] ^= block[i % 8 / 4] >> 8 * (i % 4);
    }
    jet_write(1, text, length);
    return 0;
}
