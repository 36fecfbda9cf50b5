/* Streams over descriptors. Standard input is channel 0, standard output channel 1, standard error channel 2;
   fopen("3", "w") and fdopen(3, "w") open channel 3. Output on a channel goes out by the line, so that each line is a
   write in the log, unless setvbuf has it go out by the buffer; output to a file goes out by the buffer. */
#include <errno.h>
#include <fcntl.h>
#include <stdio.h>
#include <stdio_ext.h>
#include <stdlib.h>
#include <string.h>
#include <unistd.h>
#include "kit.h"

struct stream {
    struct __file_ext ext;          /* first, so that a stream's FILE * is its own address */
    struct stream *next;            /* of those that are open */
    int descriptor;
    char is_writing, by_buffer;
    unsigned at, length;            /* read: buffer[at] to buffer[length - 1] come next; written: `length` bytes wait to
                                       go out, and `at` is the buffer's end, so that nothing is left to read */
    unsigned char buffer[BUFSIZ];
};

static int put(char c, FILE *file);
static int get(FILE *file);
static int flush(FILE *file);
static int shut(FILE *file);
static off_t seek(FILE *file, off_t offset, int whence);
static int set_buffer(FILE *file, char *buffer, int mode, size_t size);

#define STREAM(d, flags, following) \
    { .ext = FDEV_SETUP_EXT(put, get, flush, shut, seek, set_buffer, flags), .next = (following), .descriptor = (d) }

static struct stream in = STREAM(0, _FDEV_SETUP_READ, NULL), err = STREAM(2, _FDEV_SETUP_WRITE, &in),
    out = STREAM(1, _FDEV_SETUP_WRITE, &err);
static struct stream *opened = &out;

FILE *const stdin = &in.ext.cfile.file;
FILE *const stdout = &out.ext.cfile.file;
FILE *const stderr = &err.ext.cfile.file;

/* Fills the buffer, and gets of it. get and put are most of a run's calls: what they seldom do stands apart. */
__attribute__((noinline)) static int fill_and_get(FILE *file)
{
    struct stream *s = (struct stream *)file;
    flush(file);
    s->is_writing = 0;
    s->at = s->length = 0;
    ssize_t count = read(s->descriptor, s->buffer, sizeof s->buffer);
    if (count <= 0)
        return count < 0 ? _FDEV_ERR : _FDEV_EOF;
    s->length = count;
    return s->buffer[s->at++];
}

static int get(FILE *file)
{
    struct stream *s = (struct stream *)file;
    return s->at < s->length ? s->buffer[s->at++] : fill_and_get(file);
}

/* What was read and not used is read again, so that what is written stands where the program is. */
__attribute__((noinline)) static int turn_and_put(char c, FILE *file)
{
    struct stream *s = (struct stream *)file;
    if (s->length > s->at)
        lseek(s->descriptor, (off_t)s->at - (off_t)s->length, SEEK_CUR);
    s->at = sizeof s->buffer;
    s->length = 0;
    s->is_writing = 1;
    return put(c, file);
}

static int put(char c, FILE *file)
{
    struct stream *s = (struct stream *)file;
    if (!s->is_writing)
        return turn_and_put(c, file);
    s->buffer[s->length++] = c;
    return (c == '\n' && !s->by_buffer) || s->length == sizeof s->buffer ? flush(file) : 0;
}

__attribute__((noinline)) static int flush(FILE *file)
{
    struct stream *s = (struct stream *)file;
    unsigned length = s->length, done = 0;
    if (!s->is_writing)
        return 0;
    s->length = 0;
    while (done < length) {
        ssize_t count = write(s->descriptor, s->buffer + done, length - done);
        if (count <= 0)
            return _FDEV_ERR;
        done += count;
    }
    return 0;
}

void kit_flush_streams(void)
{
    for (struct stream *s = opened; s; s = s->next)
        flush((FILE *)s);
}

int fflush(FILE *file)
{
    if (file)
        return file->flush ? file->flush(file) : 0;
    kit_flush_streams();
    return 0;
}

/* Closing a standard stream flushes it, and it stays open. */
static int shut(FILE *file)
{
    struct stream *s = (struct stream *)file, **link = &opened;
    int result = flush(file);
    if (close(s->descriptor) < 0)
        result = EOF;
    if (s == &in || s == &out || s == &err)
        return result;
    while (*link && *link != s)
        link = &(*link)->next;
    if (*link)
        *link = s->next;
    free(s);
    return result;
}

static off_t seek(FILE *file, off_t offset, int whence)
{
    struct stream *s = (struct stream *)file;
    if (flush(file) < 0)
        return -1;
    if (!s->is_writing && whence == SEEK_CUR)
        offset -= s->length - s->at + (file->unget != 0);
    off_t at = lseek(s->descriptor, offset, whence);
    if (at >= 0 && !s->is_writing)  /* a channel keeps what was read of it */
        s->at = s->length = 0;
    return at;
}

off_t ftello(FILE *file)
{
    struct stream *s = (struct stream *)file;
    if (file->get != get)           /* a stream over memory, or of the program's own */
        return kit_answer(-ESPIPE);
    off_t at = lseek(s->descriptor, 0, SEEK_CUR);
    if (at < 0)
        return at;
    return s->is_writing ? at + s->length : at - (s->length - s->at) - (file->unget != 0);
}

long ftell(FILE *file) { return ftello(file); }
int fgetpos(FILE *file, fpos_t *at) { return (*at = ftello(file)) < 0 ? -1 : 0; }
int fsetpos(FILE *file, fpos_t *at) { return fseeko(file, *at, SEEK_SET); }

static int set_buffer(FILE *file, char *buffer, int mode, size_t size)
{
    (void)buffer, (void)size;
    ((struct stream *)file)->by_buffer = mode == _IOFBF;
    return 0;
}

int fileno(FILE *file)
{
    return file->get == get ? ((struct stream *)file)->descriptor : kit_answer(-EBADF);
}

/* As the standard has it. That of picolibc 1.8 loses a last line that no line feed ends. */
char *fgets(char *line, int size, FILE *file)
{
    int c = 0, length = 0;
    if (size <= 0)
        return NULL;
    while (length < size - 1 && c != '\n' && (c = getc(file)) != EOF)
        line[length++] = c;
    if (c == EOF && (length == 0 || ferror(file)))
        return NULL;
    line[length] = 0;
    return line;
}

/* How many of the next `count` bytes the buffer has, if nothing stands before them. */
static unsigned in_buffer(const FILE *file, unsigned count)
{
    const struct stream *s = (const struct stream *)file;
    if (file->get != get || file->unget || s->at >= s->length || !(file->flags & __SRD))
        return 0;
    return count < s->length - s->at ? count : s->length - s->at;
}

/* By the buffer; picolibc's goes by the character. */
size_t fread(void *to, size_t size, size_t count, FILE *file)
{
    struct stream *s = (struct stream *)file;
    unsigned char *at = to, *end = at + size * count;
    while (at < end) {
        unsigned piece = in_buffer(file, end - at);
        if (piece > 0) {
            memcpy(at, s->buffer + s->at, piece);
            s->at += piece;
            at += piece;
        } else {
            int c = getc(file);
            if (c == EOF)
                break;
            *at++ = c;
        }
    }
    return size ? (at - (unsigned char *)to) / size : 0;
}

/* The flags of open() for a mode, or -1. */
static int flags_of(const char *mode)
{
    int flags;
    switch (*mode) {
    case 'r': flags = O_RDONLY; break;
    case 'w': flags = O_WRONLY | O_CREAT | O_TRUNC; break;
    case 'a': flags = O_WRONLY | O_CREAT | O_APPEND; break;
    default: return kit_answer(-EINVAL);
    }
    if (strchr(mode, '+'))
        flags = (flags & ~O_ACCMODE) | O_RDWR;
    return strchr(mode, 'x') ? flags | O_EXCL : flags;
}

/* Makes the stream one over this descriptor. */
static void begin(struct stream *s, int descriptor, int flags)
{
    int kind = flags & O_ACCMODE;
    *s = (struct stream)STREAM(descriptor,
        kind == O_RDONLY ? _FDEV_SETUP_READ : kind == O_WRONLY ? _FDEV_SETUP_WRITE : _FDEV_SETUP_RW, s->next);
    s->by_buffer = lseek(descriptor, 0, flags & O_APPEND ? SEEK_END : SEEK_CUR) >= 0;
}

FILE *fdopen(int descriptor, const char *mode)
{
    int flags = flags_of(mode);
    struct stream *s;
    if (flags < 0)
        return NULL;
    if ((flags & O_ACCMODE) == O_RDWR && lseek(descriptor, 0, SEEK_CUR) < 0) {
        kit_answer(-EINVAL);            /* what is read and what is written on a channel have nothing in common */
        return NULL;
    }
    if (!(s = malloc(sizeof *s)))
        return NULL;
    s->next = opened;
    begin(s, descriptor, flags);
    opened = s;
    return (FILE *)s;
}

/* Asks an input for no bytes, to tell whether it is there. */
static int open_by(const char *name, int flags)
{
    int descriptor = open(name, flags, 0666);
    if (descriptor >= 0 && (flags & O_ACCMODE) == O_RDONLY && read(descriptor, NULL, 0) < 0) {
        close(descriptor);
        return -1;
    }
    return descriptor;
}

FILE *fopen(const char *name, const char *mode)
{
    int flags = flags_of(mode), descriptor = flags < 0 ? -1 : open_by(name, flags);
    FILE *file = descriptor < 0 ? NULL : fdopen(descriptor, mode);
    if (descriptor >= 0 && !file)
        close(descriptor);
    return file;
}

FILE *freopen(const char *name, const char *mode, FILE *file)
{
    struct stream *s = (struct stream *)file;
    int flags = flags_of(mode), descriptor;
    flush(file);
    if (flags < 0)
        return NULL;
    if (!name)                      /* a change of mode, which isn't done */
        return file;
    close(s->descriptor);
    if ((descriptor = open_by(name, flags)) < 0)
        return NULL;
    begin(s, descriptor, flags);
    return file;
}

/* <stdio_ext.h> */

size_t __fpending(FILE *file) { struct stream *s = (struct stream *)file; return s->is_writing ? s->length : 0; }
int __fwriting(FILE *file) { return ((struct stream *)file)->is_writing || !(file->flags & __SRD); }
int __freading(FILE *file) { return !__fwriting(file); }

void __fpurge(FILE *file)
{
    struct stream *s = (struct stream *)file;
    file->unget = 0;
    s->length = 0;
    s->at = s->is_writing ? sizeof s->buffer : 0;
}
