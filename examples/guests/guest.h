/* What the guests share: their two calls, and copying. */
typedef unsigned char byte;
typedef unsigned int word;

int receive(int channel, byte *buffer, word length);
int send(int channel, const byte *buffer, word length);

/* Reads channel 0 to its end, at most `room` bytes; how many there were. */
word receive_all(byte *buffer, word room);

/* Writes a number in decimal digits; how many there are. */
word decimal(byte *to, word number);
