/* Makes NAME.copy of each file NAME that is a word, and says how long it is. The word `trap` has it trap. */
#include <stdio.h>
#include <string.h>

static int copy(const char *name)
{
    char made[256];
    int c, count = 0;
    FILE *from = fopen(name, "rb"), *to;
    if (!from) {
        perror(name);
        return 1;
    }
    snprintf(made, sizeof made, "%s.copy", name);
    to = fopen(made, "wb");
    while ((c = getc(from)) != EOF) {
        putc(c, to);
        count++;
    }
    fclose(from);
    fclose(to);
    printf("%s %d\n", name, count);
    return 0;
}

int main(int argc, char **argv)
{
    int status = 0;
    for (int i = 1; i < argc; i++)
        if (!strcmp(argv[i], "trap"))
            __asm__("ebreak");
        else
            status |= copy(argv[i]);
    return status;
}
