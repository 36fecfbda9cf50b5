/* Prints the symbols of orders, the third field of each line of CSV.

   It has a fault. strtok_r takes the two commas around an empty field for one, so a line of three fields of which one
   is empty has no third. With -DFIX the fields are told apart by strsep. */
#include <stdio.h>
#include <string.h>

static char *field(char **rest)
{
#ifdef FIX
    return strsep(rest, ",\n");
#else
    return strtok_r(NULL, ",\n", rest);
#endif
}

int main(void)
{
    char line[128];
    while (fgets(line, sizeof line, stdin)) {
        char *rest = line;
        field(&rest);
        field(&rest);
        puts(field(&rest));
    }
    return 0;
}
