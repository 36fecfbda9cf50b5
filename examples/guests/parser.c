/* A parser: reads JSON, and writes each number of it on a line of its own, with the depth at which it stands. */
#include "guest.h"

static byte text[1 << 19];
static byte line[32];
static word at, length;

static byte peek(void)
{
    return at < length ? text[at] : 0;
}

static void blanks(void)
{
    while (peek() == ' ' || peek() == '\n' || peek() == '\t')
        at++;
}

static void string(void)
{
    for (at++; at < length && text[at] != '"'; at++)
        if (text[at] == '\\')
            at++;
    at++;
}

static void number(word depth)
{
    word value = 0;
    while (peek() >= '0' && peek() <= '9')
        value = 10 * value + (text[at++] - '0');
    word count = decimal(line, depth);
    line[count++] = ' ';
    count += decimal(line + count, value);
    line[count++] = '\n';
    send(1, line, count);
}

static void value(word depth);

static void members(word depth, byte end)
{
    at++;
    for (blanks(); at < length && peek() != end; blanks()) {
        value(depth + 1);
        blanks();
        if (peek() == ':' || peek() == ',')
            at++;
    }
    at++;
}

static void value(word depth)
{
    blanks();
    byte c = peek();
    if (c == '{')
        members(depth, '}');
    else if (c == '[')
        members(depth, ']');
    else if (c == '"')
        string();
    else if (c >= '0' && c <= '9')
        number(depth);
    else
        at++;
}

int main(void)
{
    length = receive_all(text, sizeof text);
    while (at < length)
        value(0);
    return 0;
}
