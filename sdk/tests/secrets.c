/* Of what is read on channel 0, up to 3,000 bytes: writes its SHA-256 digest (FIPS 180-4) on channel 1, its CRC-32 (RFC 1952, low byte
   first) on channel 2, and base64 (RFC 4648) of its whole groups of three bytes on channel 3. No byte's value decides where the program
   goes, nor which addresses it uses. */
#include "jet.h"

typedef unsigned char byte;
typedef unsigned int word;

static const word constants[64] = {
    0x428a2f98, 0x71374491, 0xb5c0fbcf, 0xe9b5dba5, 0x3956c25b, 0x59f111f1, 0x923f82a4, 0xab1c5ed5, 0xd807aa98, 0x12835b01, 0x243185be,
    0x550c7dc3, 0x72be5d74, 0x80deb1fe, 0x9bdc06a7, 0xc19bf174, 0xe49b69c1, 0xefbe4786, 0x0fc19dc6, 0x240ca1cc, 0x2de92c6f, 0x4a7484aa,
    0x5cb0a9dc, 0x76f988da, 0x983e5152, 0xa831c66d, 0xb00327c8, 0xbf597fc7, 0xc6e00bf3, 0xd5a79147, 0x06ca6351, 0x14292967, 0x27b70a85,
    0x2e1b2138, 0x4d2c6dfc, 0x53380d13, 0x650a7354, 0x766a0abb, 0x81c2c92e, 0x92722c85, 0xa2bfe8a1, 0xa81a664b, 0xc24b8b70, 0xc76c51a3,
    0xd192e819, 0xd6990624, 0xf40e3585, 0x106aa070, 0x19a4c116, 0x1e376c08, 0x2748774c, 0x34b0bcb5, 0x391c0cb3, 0x4ed8aa4a, 0x5b9cca4f,
    0x682e6ff3, 0x748f82ee, 0x78a5636f, 0x84c87814, 0x8cc70208, 0x90befffa, 0xa4506ceb, 0xbef9a3f7, 0xc67178f2,
};

static byte text[3072];
static byte letters[4000];
static word digest[8] = {0x6a09e667, 0xbb67ae85, 0x3c6ef372, 0xa54ff53a, 0x510e527f, 0x9b05688c, 0x1f83d9ab, 0x5be0cd19};

static word turned(word v, word n)
{
    return v >> n | v << (32 - n);
}

static void digest_block(const byte *block)
{
    word w[64], v[8];
    for (word i = 0; i < 16; i++)
        w[i] = (word)block[4 * i] << 24 | block[4 * i + 1] << 16 | block[4 * i + 2] << 8 | block[4 * i + 3];
    for (word i = 16; i < 64; i++) {
        word low = turned(w[i - 15], 7) ^ turned(w[i - 15], 18) ^ w[i - 15] >> 3;
        word high = turned(w[i - 2], 17) ^ turned(w[i - 2], 19) ^ w[i - 2] >> 10;
        w[i] = w[i - 16] + low + w[i - 7] + high;
    }
    for (word i = 0; i < 8; i++)
        v[i] = digest[i];
    for (word i = 0; i < 64; i++) {
        word sum_e = turned(v[4], 6) ^ turned(v[4], 11) ^ turned(v[4], 25);
        word sum_a = turned(v[0], 2) ^ turned(v[0], 13) ^ turned(v[0], 22);
        word one = v[7] + sum_e + ((v[4] & v[5]) ^ (~v[4] & v[6])) + constants[i] + w[i];
        word two = sum_a + ((v[0] & v[1]) ^ (v[0] & v[2]) ^ (v[1] & v[2]));
        for (word j = 7; j > 0; j--)
            v[j] = v[j - 1];
        v[4] += one;
        v[0] = one + two;
    }
    for (word i = 0; i < 8; i++)
        digest[i] += v[i];
}

static void write_digest(word length)
{
    byte out[32];
    word end = (length + 9 + 63) / 64 * 64;
    text[length] = 0x80;
    for (word i = 0; i < 4; i++)
        text[end - 1 - i] = length * 8 >> 8 * i;
    for (word at = 0; at < end; at += 64)
        digest_block(text + at);
    for (word i = 0; i < 32; i++)
        out[i] = digest[i / 4] >> (24 - 8 * (i % 4));
    jet_write(1, out, sizeof out);
}

static void write_crc(word length)
{
    byte out[4];
    word crc = 0xffffffff;
    for (word i = 0; i < length; i++) {
        crc ^= text[i];
        for (word bit = 0; bit < 8; bit++)
            crc = crc >> 1 ^ (0xedb88320 & (0 - (crc & 1)));
    }
    for (word i = 0; i < 4; i++)
        out[i] = ~crc >> 8 * i;
    jet_write(2, out, sizeof out);
}

/* The letter of a number below 64. What is behind `>> 8` has all bits only where the number is above. */
static byte letter(word v)
{
    word c = 'A' + v;
    c += ((25 - v) >> 8) & ('a' - 'A' - 26);
    c -= ((51 - v) >> 8) & ('a' - '0' + 26);
    c -= ((61 - v) >> 8) & ('0' - '+' + 10);
    c += ((62 - v) >> 8) & ('/' - '+' - 1);
    return c;
}

static void write_base64(word length)
{
    word made = 0;
    for (word i = 0; i + 3 <= length; i += 3) {
        word bits = text[i] << 16 | text[i + 1] << 8 | text[i + 2];
        for (word j = 0; j < 4; j++)
            letters[made++] = letter(bits >> (18 - 6 * j) & 63);
    }
    jet_write(3, letters, made);
}

int main(void)
{
    int length = jet_read(0, text, 3000);
    if (length < 0)
        return 1;
    write_base64(length);
    write_crc(length);
    write_digest(length);
    return 0;
}
