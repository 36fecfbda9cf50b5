/* Files, as the library's own files see them. A file that the run was handed by a name is an input channel: as much of
   it as is asked for is read, and kept, so that it can be read again. All others are in memory alone. A folder is there
   where a file's name has it, or where it was made. There are no times, owners and permissions. */
#ifndef FILES_H
#define FILES_H
#include "kit.h"

enum { BLOCK = 4096 };

struct file {
    struct file *next;
    char *name;                     /* from the root on, without a slash at the begin; NULL where it was removed */
    unsigned char **blocks;         /* the content, in blocks of BLOCK bytes, and 0 behind it */
    unsigned block_count, room;     /* how many there are; for how many `blocks` has room */
    unsigned size;                  /* bytes it has */
    unsigned there;                 /* of an input: so many of them were read */
    int channel;                    /* of an input of which some may be left to read, else -1 */
    int is_folder, is_null;         /* a folder; /dev/null */
    int is_made;                    /* the program made or changed it */
    unsigned openings;              /* by how many descriptors it is open, not counting copies */
    int number;                     /* no other file has it */
};

/* All files, in the order in which they came. */
extern struct file *kit_files;

/* The folder that names begin in, as a file's name: "" is the root. */
extern char kit_folder[LONGEST_NAME];

/* The file of this plain name, or NULL. Plain names begin at the root, and have no `.`, `..` and empty parts. */
struct file *kit_find(const char *plain);

/* Makes an empty one: NULL where memory is out. */
struct file *kit_add_file(const char *plain);

/* Whether there is a folder of this plain name. */
int kit_is_folder(const char *plain);

/* Makes the name plain, and finds what has it: 0 and *f, which is NULL for a folder without an entry of its own; or a
   fault, -ENOENT where it is free. */
int kit_look_up(const char *name, char *plain, struct file **f);

/* Takes its name from a file, which goes where nobody has it open. */
void kit_unname(struct file *f);

/* Lets go of a file that has no name and that nobody has open. */
void kit_forget_if_unused(struct file *f);

/* The content. Each answers how many bytes it moved, or 0, or a fault. */
int kit_read_file(struct file *f, unsigned at, void *to, unsigned count);
int kit_write_file(struct file *f, unsigned at, const void *from, unsigned count);
int kit_change_size(struct file *f, unsigned size);
int kit_fetch_all(struct file *f);      /* reads the rest of an input */
void kit_drop_content(struct file *f);

/* What a descriptor is open for: a channel and *f is NULL, or *f; or -EBADF. */
int kit_opened_file(int descriptor, struct file **f);

#endif
