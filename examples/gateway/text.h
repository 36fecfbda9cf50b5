/* Fields of text. */
typedef unsigned char byte;

void copy(byte *to, const byte *from, unsigned length);
void fill(byte *to, byte c, unsigned length);

/* c, or a question mark where c isn't printable. */
byte printable(int c);

/* The number that decimal digits stand for. */
unsigned number(const byte *digits, unsigned length);

/* Writes a number in so many decimal digits. */
void decimal(byte *to, unsigned length, unsigned number);
