/* Writes the bytes of channel 0 to channel 1 in base64 (RFC 4648), then a blank, their Adler-32 checksum (RFC 1950)
 * in decimal, and a line feed. */
typedef unsigned char byte;

int receive(int channel, void *buffer, unsigned length);
int send(int channel, const void *buffer, unsigned length);

static const char alphabet[] = "ABCDEFGHIJKLMNOPQRSTUVWXYZabcdefghijklmnopqrstuvwxyz0123456789+/";

static byte input[48];
static char output[80];

/* Writes three bytes, of which so many are there, as four characters. */
static char *encode(char *to, const byte *from, unsigned there)
{
    unsigned bits = from[0] << 16 | from[1] << 8 | from[2];
    to[0] = alphabet[bits >> 18];
    to[1] = alphabet[bits >> 12 & 63];
    to[2] = there > 1 ? alphabet[bits >> 6 & 63] : '=';
    to[3] = there > 2 ? alphabet[bits & 63] : '=';
    return to + 4;
}

static unsigned checksum(const byte *from, unsigned length)
{
    unsigned a = 1, b = 0;
    for (unsigned i = 0; i < length; i++) {
        a = (a + from[i]) % 65521;
        b = (b + a) % 65521;
    }
    return b * 65536 + a;
}

static char *decimal(char *to, unsigned number)
{
    for (int i = 9; i >= 0; i--) {
        to[i] = '0' + number % 10;
        number /= 10;
    }
    return to + 10;
}

int main(void)
{
    int length = receive(0, input, 45);
    if (length < 0)
        return 1;
    char *end = output;
    for (int i = 0; i < length; i += 3)
        end = encode(end, input + i, length - i);
    *end++ = ' ';
    end = decimal(end, checksum(input, length));
    *end++ = '\n';
    send(1, output, end - output);
    return 0;
}
