/* A server that answers requests. A request on channel 0 is a byte of length and then that many
 * bytes; the answer on channel 1 is "ok " and the same bytes. The server trusts the length: where a
 * request is cut short, the answer goes on with what an earlier request left in the buffer. */
typedef unsigned char byte;

int receive(int channel, void *buffer, unsigned length);
int send(int channel, const void *buffer, unsigned length);

static byte answer[64] = "ok ";
static byte request[32];

static unsigned answered;

static void answer_with(unsigned length)
{
    for (unsigned i = 0; i < length; i++)
        answer[3 + i] = request[i];
    send(1, answer, 3 + length);
    answered++;
}

int main(void)
{
    byte length;
    while (receive(0, &length, 1) == 1) {
        if (length > sizeof request)
            return 1;
        receive(0, request, length);
        answer_with(length);
    }
    return answered == 0;
}
