/* Which files there are, by name. Those that the run was handed are told by the words (words.c): `in C SIZE NAME`. What
   the program made goes out at the run's end alone, once, as it then is: each file that still has a name on the next
   output channel that nothing was written on, from 3 on, and where none is left on 14. A line on channel 15 tells where:
   `out C OFFSET SIZE NAME`. */
#include <errno.h>
#include <stdlib.h>
#include <string.h>
#include "files.h"

enum { FIRST_OUTPUT = 3, LAST_OUTPUT = 14 };

struct file *kit_files;
char kit_folder[LONGEST_NAME];

/* The name as a file's: from the root on, without `.`, `..` and empty parts. 0, or a fault. */
static int make_plain(const char *name, char *plain)
{
    unsigned length = 0;
    if (!*name)
        return -ENOENT;
    if (*name != '/')
        length = strlen(strcpy(plain, kit_folder));
    while (*name) {
        unsigned part = strcspn(name, "/");
        if (part == 2 && !memcmp(name, "..", 2)) {
            while (length > 0 && plain[--length] != '/')
                ;
        } else if (part > 0 && !(part == 1 && *name == '.')) {
            if (length + part + 2 > LONGEST_NAME)
                return -ENAMETOOLONG;
            if (length > 0)
                plain[length++] = '/';
            memcpy(plain + length, name, part);
            length += part;
        }
        name += part + (name[part] == '/');
    }
    plain[length] = 0;
    return 0;
}

struct file *kit_add_file(const char *plain)
{
    static int number;
    struct file *f = calloc(1, sizeof *f), **link = &kit_files;
    if (!f || !(f->name = strdup(plain))) {
        free(f);
        return NULL;
    }
    f->channel = -1;
    f->number = ++number;
    while (*link)
        link = &(*link)->next;
    *link = f;
    return f;
}

static char *put_text(char *to, const char *text) { return strcpy(to, text) + strlen(text); }

/* The number in decimal, and a blank. */
static char *put_number(char *to, unsigned number)
{
    char digits[10];
    int count = 0;
    do
        digits[count++] = '0' + number % 10;
    while (number /= 10);
    while (count > 0)
        *to++ = digits[--count];
    *to++ = ' ';
    return to;
}

/* Writes one file, and the line that tells of it. */
static void hand_out(struct file *f, int channel)
{
    char line[LONGEST_NAME + 40], *end = put_number(put_text(line, "out "), channel);
    end = put_number(put_number(end, kit_written[channel]), f->size);
    end = put_text(put_text(end, f->name), "\n");
    for (unsigned at = 0; at < f->size; at += BLOCK)
        kit_write_channel(channel, f->blocks[at / BLOCK], f->size - at < BLOCK ? f->size - at : BLOCK);
    kit_write_channel(WORDS, line, end - line);
}

static void hand_out_all(void)
{
    int channel = FIRST_OUTPUT;
    for (struct file *f = kit_files; f; f = f->next) {
        if (!f->is_made || !f->name || f->is_folder)
            continue;
        while (channel < LAST_OUTPUT && kit_written[channel])
            channel++;
        hand_out(f, channel);
        if (channel < LAST_OUTPUT)
            channel++;
    }
}

/* Takes one of the words' texts, if it is a file's. */
static void take_file(const char *text)
{
    char plain[LONGEST_NAME], *end;
    struct file *f;
    if (strncmp(text, "in ", 3))
        return;
    int channel = strtol(text + 3, &end, 10);
    unsigned size = strtoul(end, &end, 10);
    if (*end == ' ' && !make_plain(end + 1, plain) && (f = kit_add_file(plain))) {
        f->channel = channel;
        f->size = size;
    }
}

/* Before the first name is looked up: the files that the run was handed. */
static void take_files(void)
{
    if (kit_hand_files)
        return;
    kit_hand_files = hand_out_all;
    for (char *at = kit_words; at < kit_words + kit_words_size; at += strlen(at) + 1)
        take_file(at);
}

struct file *kit_find(const char *plain)
{
    take_files();
    for (struct file *f = kit_files; f; f = f->next)
        if (f->name && !strcmp(f->name, plain))
            return f;
    return NULL;
}

int kit_is_folder(const char *plain)
{
    unsigned length = strlen(plain);
    struct file *f = kit_find(plain);
    if (length == 0 || f)
        return length == 0 || f->is_folder;
    for (f = kit_files; f; f = f->next)
        if (f->name && !strncmp(f->name, plain, length) && f->name[length] == '/')
            return 1;
    return 0;
}

/* Whether the name goes on behind one of a file that is no folder. */
static int passes_file(char *plain)
{
    int passes = 0;
    for (char *slash = strchr(plain, '/'); slash && !passes; slash = strchr(slash + 1, '/')) {
        *slash = 0;
        struct file *f = kit_find(plain);
        passes = f && !f->is_folder;
        *slash = '/';
    }
    return passes;
}

int kit_look_up(const char *name, char *plain, struct file **f)
{
    int result = make_plain(name, plain);
    *f = NULL;
    if (result < 0)
        return result;
    if ((*f = kit_find(plain)) || kit_is_folder(plain))
        return 0;
    return passes_file(plain) ? -ENOTDIR : -ENOENT;
}

void kit_forget_if_unused(struct file *f)
{
    struct file **link = &kit_files;
    if (f->name || f->openings > 0)
        return;
    while (*link != f)
        link = &(*link)->next;
    *link = f->next;
    kit_drop_content(f);
    free(f->blocks);
    free(f);
}

void kit_unname(struct file *f)
{
    free(f->name);
    f->name = NULL;
    kit_forget_if_unused(f);
}
