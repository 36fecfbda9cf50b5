/* The words of a run: what main gets. They come on channel 15, where the run has so many inputs, as texts that each end
   with a 0: `arg TEXT` for each word, the program's name first, `env NAME=VALUE`, and `in C SIZE NAME` for a file that
   is input channel C (files.c), the first of them an `arg`. jet-run makes them. Where there are none, main gets the word
   `prog` alone. */
#include <string.h>
#include <unistd.h>
#include "jet.h"
#include "kit.h"

char *kit_words;
unsigned kit_words_size;

static char *no_words[] = { "prog", NULL };
int kit_main_argc = 1;
char **kit_main_argv = no_words;

/* sbrk, or the end of the run. */
static void *memory(unsigned size)
{
    static const char fault[] = "no memory for the words of the run: --pages gives more\n";
    void *place = sbrk(size);
    if (place != (void *)-1)
        return place;
    jet_write(2, fault, sizeof fault - 1);
    jet_exit(127);
}

/* The texts after `key`, as main gets them, and in *count how many. */
static char **texts(const char *key, int *count)
{
    unsigned length = strlen(key);
    char *end = kit_words + kit_words_size, *at, **list;
    int number = 0;
    for (at = kit_words; at < end; at += strlen(at) + 1)
        number += !strncmp(at, key, length);
    list = memory((number + 1) * sizeof *list);
    *count = number;
    for (at = kit_words, number = 0; at < end; at += strlen(at) + 1)
        if (!strncmp(at, key, length))
            list[number++] = at + length;
    return list;                    /* fresh memory is 0, and so is what ends the list */
}

/* Reads channel 15 to its end, or no further than shows that it has no words. */
static int read_words(void)
{
    enum { PIECE = 1024 };
    int count;
    kit_words = sbrk(0);
    do {
        char *place = memory(PIECE);    /* the heap grows in one piece: nobody has asked for any yet */
        for (unsigned room = PIECE; room > 0 && (count = jet_read(WORDS, place, room)) > 0; room -= count) {
            place += count;
            kit_words_size += count;
        }
    } while (count > 0 && !strncmp(kit_words, "arg ", 4));
    memory(4);                      /* a 0, should the last text have none */
    return !strncmp(kit_words, "arg ", 4);
}

static void take_all(void)
{
    if (read_words()) {
        kit_main_argv = texts("arg ", &kit_main_argc);
        int count;
        environ = texts("env ", &count);
    } else {
        kit_words = NULL;
        kit_words_size = 0;
    }
}

void kit_take_words(int *stack)
{
    if (kit_is_under_qemu()) {
        kit_main_argc = stack[0];
        kit_main_argv = (char **)stack + 1;
        environ = kit_main_argv + kit_main_argc + 1;
    } else if (jet_read(WORDS, NULL, 0) >= 0) {
        take_all();
    }
}
