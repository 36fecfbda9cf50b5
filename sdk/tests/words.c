/* Writes the words and the variables that it was handed. */
#include <stdio.h>
#include <unistd.h>

int main(int argc, char **argv)
{
    printf("%d words\n", argc - 1);
    for (int i = 1; i < argc; i++)
        printf("<%s>\n", argv[i]);
    for (char **variable = environ; *variable; variable++)
        printf("variable <%s>\n", *variable);
    return argv[argc] != NULL;
}
