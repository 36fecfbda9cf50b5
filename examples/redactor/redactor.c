/* Redacts the personal fields of JSON, a record a line: the text of each comes out as stars.

   It has a fault: it takes a field for a personal one only at the top of a record. With -DFIX it does at any depth. */
#include <stdbool.h>
#include <stdio.h>
#include <string.h>

static const char *const personal[] = { "ssn", "card", "email" };

#ifdef FIX
static const bool at_any_depth = true;
#else
static const bool at_any_depth = false;
#endif

static bool is_personal(const char *key, size_t length, int depth)
{
    for (size_t i = 0; i < sizeof personal / sizeof *personal; i++)
        if (strlen(personal[i]) == length && memcmp(personal[i], key, length) == 0)
            return depth == 1 || at_any_depth;
    return false;
}

/* The end of a text that begins at `at`, behind its quote. */
static char *end_of_text(char *at)
{
    while (*at && *at != '"')
        at += *at == '\\' && at[1] ? 2 : 1;
    return at;
}

static void redact(char *record)
{
    int depth = 0;
    bool is_key = false, hides = false;
    for (char *at = record; *at; at++) {
        if (*at == '{')
            depth++, is_key = true;
        else if (*at == '}')
            depth--;
        else if (*at == ',')
            is_key = true;
        else if (*at == ':')
            is_key = false;
        else if (*at == '"') {
            char *text = at + 1;
            at = end_of_text(text);
            if (is_key)
                hides = is_personal(text, at - text, depth);
            else if (hides)
                memset(text, '*', at - text);
            if (!*at)
                return;
        }
    }
}

int main(void)
{
    static char record[512];
    while (fgets(record, sizeof record, stdin)) {
        redact(record);
        fputs(record, stdout);
    }
    return 0;
}
