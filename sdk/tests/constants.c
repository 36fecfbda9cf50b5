/* Writes each byte that it reads. The first seven it compared with a constant before, each in another way: a compiler may
   write the constant in place of the byte, which then has no source. The rest is a line, which the kit's streams move. */
#include <stdio.h>
#include <string.h>

static char text[8];

__attribute__((noinline)) static void if_equal(int c)
{
    if (c == ',')
        putchar(c);
}

__attribute__((noinline)) static void in_switch(int c)
{
    switch (c) {
    case '"': putchar(c); break;
    case '\\': putchar('b'); break;
    }
}

__attribute__((noinline)) static void from_memory(const char *at)
{
    if (*at == ';')
        putchar(*at);
}

__attribute__((noinline)) static void into_memory(const char *from, char *to)
{
    if (*from == ':')
        *to = *from;
}

__attribute__((noinline)) static int until(const char *at)
{
    while (*at != '|')
        at++;
    return *at;
}

__attribute__((noinline)) static int either(int c)
{
    return c == '[' || c == ']' ? c : 0;
}

__attribute__((noinline)) static int checked(int c)
{
    if (c != '%')
        return -1;
    return c;
}

int main(void)
{
    char moved[1] = { 0 }, line[40];
    fread(text, 1, 7, stdin);
    if_equal(text[0]);
    in_switch(text[1]);
    from_memory(text + 2);
    into_memory(text + 3, moved);
    putchar(moved[0]);
    putchar(until(text + 4));
    putchar(either(text[5]));
    putchar(checked(text[6]));
    if (fgets(line, sizeof line, stdin))
        fputs(line, stdout);
    return 0;
}
