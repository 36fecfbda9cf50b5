/* Descriptors: 0 to 15 are the channels, and files have those above. Under qemu-riscv32 they are Linux's. */
#include <errno.h>
#include <fcntl.h>
#include <stdarg.h>
#include <stdlib.h>
#include <string.h>
#include <sys/stat.h>
#include <unistd.h>
#include "files.h"
#include "jet.h"

enum { DESCRIPTORS = CHANNELS + 64 };

/* What open() makes; dup() shares it. */
struct opening {
    struct file *file;              /* NULL: it is `channel` */
    int channel, flags;
    unsigned at, descriptors;
};

static struct opening *table[DESCRIPTORS];  /* NULL: for 0 to 15 the channel of this number, else not open */
unsigned kit_written[CHANNELS];

int kit_write_channel(int channel, const void *bytes, unsigned length)
{
    int count = jet_write(channel, bytes, length);
    if (count > 0)
        kit_written[channel] += count;
    return count;
}

/* Whether the descriptor is open, and its opening, or NULL where it is a channel by its number. */
static int is_open(int descriptor, struct opening **o)
{
    if (descriptor < 0 || descriptor >= DESCRIPTORS)
        return 0;
    *o = table[descriptor];
    return *o || descriptor < CHANNELS;
}

/* What a descriptor is open for: 0 where it is a file that may be written, or, if not `writing`, read; else the fault,
   `of_channel` for a channel. */
static int file_of(int descriptor, int writing, int of_channel, struct opening **o)
{
    if (!is_open(descriptor, o))
        return -EBADF;
    if (!*o || !(*o)->file)
        return of_channel;
    return ((*o)->flags & O_ACCMODE) == (writing ? O_RDONLY : O_WRONLY) ? -EBADF : 0;
}

/* The lowest free descriptor of a file from `first` on, with this opening. */
static int give_descriptor(struct opening *o, int first)
{
    int d = first < CHANNELS ? CHANNELS : first;
    while (d < DESCRIPTORS && table[d])
        d++;
    if (d >= DESCRIPTORS)
        return -EMFILE;
    table[d] = o;
    o->descriptors++;
    return d;
}

static int open_file(struct file *f, int channel, int flags, int first)
{
    struct opening *o = malloc(sizeof *o);
    int result;
    if (!o)
        return -ENOMEM;
    *o = (struct opening){ .file = f, .channel = channel, .flags = flags };
    if ((result = give_descriptor(o, first)) < 0)
        free(o);
    else if (f)
        f->openings++;
    return result;
}

/* A channel's name is its number, 0 to 15. Returns -1 where it is none. */
static int channel_of(const char *name)
{
    static const char *const devices[] = { "/dev/stdin", "/dev/stdout", "/dev/stderr" };
    char *end;
    long channel = strtol(name, &end, 10);
    if (*name >= '0' && *name <= '9' && !*end && channel < CHANNELS)
        return channel;
    for (channel = 0; channel < 3; channel++)
        if (!strcmp(name, devices[channel]))
            return channel;
    return -1;
}

/* Makes a file that open() was given the free name of. */
static int make_file(const char *plain, int flags, struct file **f)
{
    int is_null = !strcmp(plain, "dev/null");
    if (!(flags & O_CREAT) && !is_null)
        return -ENOENT;
    if (strchr(plain, '\n'))        /* the line that tells it couldn't */
        return -EINVAL;
    if (!(*f = kit_add_file(plain)))
        return -ENOMEM;
    (*f)->is_null = is_null;
    (*f)->is_made = !is_null;
    return 0;
}

/* Finds or makes what open() was given the name of. */
static int find_or_make(const char *name, int flags, struct file **f)
{
    char plain[LONGEST_NAME];
    int result = kit_look_up(name, plain, f), is_written = (flags & O_ACCMODE) != O_RDONLY;
    if (result == -ENOENT && *name)
        return make_file(plain, flags, f);
    if (result < 0)
        return result;
    if ((flags & O_CREAT) && (flags & O_EXCL))
        return -EEXIST;
    if (!kit_is_folder(plain))
        return 0;
    if (is_written || (flags & O_CREAT))
        return -EISDIR;
    if (!*f && !(*f = kit_add_file(plain)))
        return -ENOMEM;
    (*f)->is_folder = 1;
    return 0;
}

/* A file's name goes before that of a channel, `0` to `15`. */
static int open_here(const char *name, int flags)
{
    struct file *f;
    int result = *name == '/' ? channel_of(name) : -1;
    if (result >= 0)
        return result;
    result = find_or_make(name, channel_of(name) < 0 ? flags : flags & ~O_CREAT, &f);
    if (result == -ENOENT && channel_of(name) >= 0)
        return channel_of(name);
    if (result >= 0)
        result = open_file(f, -1, flags, 0);
    if (result >= 0 && (flags & O_TRUNC) && (flags & O_ACCMODE) != O_RDONLY && !f->is_null) {
        kit_drop_content(f);
        f->is_made = 1;
    }
    return result;
}

int open(const char *name, int flags, ...)
{
    va_list more;
    va_start(more, flags);
    int mode = flags & O_CREAT ? va_arg(more, int) : 0, result;
    va_end(more);
    if (!kit_is_under_qemu())
        return kit_answer(open_here(name, flags));
    result = channel_of(name);
    if (result < 0)                 /* O_EXCL has another number there */
        result = kit_linux_call(56, HERE, name, (flags & (O_ACCMODE | O_CREAT | O_TRUNC | O_APPEND)) | (flags & O_EXCL ? 0x80 : 0), mode);
    return kit_answer(result);
}

/* Closing a channel by its number does nothing. */
int close(int descriptor)
{
    struct opening *o;
    if (kit_is_under_qemu())
        return descriptor < 3 ? 0 : kit_answer(kit_linux_call(57, descriptor));
    if (!is_open(descriptor, &o))
        return kit_answer(-EBADF);
    if (!o)
        return 0;
    table[descriptor] = NULL;
    if (--o->descriptors > 0)
        return 0;
    if (o->file) {
        o->file->openings--;
        kit_forget_if_unused(o->file);
    }
    free(o);
    return 0;
}

ssize_t read(int descriptor, void *buffer, size_t length)
{
    struct opening *o;
    if (kit_is_under_qemu())
        return kit_answer(jet_read(descriptor, buffer, length));
    int result = file_of(descriptor, 0, 1, &o);
    if (result > 0)
        return kit_answer(jet_read(o ? o->channel : descriptor, buffer, length));
    if (result == 0 && (result = kit_read_file(o->file, o->at, buffer, length)) > 0)
        o->at += result;
    return kit_answer(result);
}

ssize_t write(int descriptor, const void *buffer, size_t length)
{
    struct opening *o;
    if (kit_is_under_qemu())
        return kit_answer(jet_write(descriptor, buffer, length));
    int result = file_of(descriptor, 1, 1, &o);
    if (result > 0)
        return kit_answer(kit_write_channel(o ? o->channel : descriptor, buffer, length));
    if (result < 0)
        return kit_answer(result);
    if (o->flags & O_APPEND)
        o->at = o->file->size;
    if ((result = kit_write_file(o->file, o->at, buffer, length)) > 0)
        o->at += result;
    return kit_answer(result);
}

ssize_t pread(int descriptor, void *buffer, size_t length, off_t at)
{
    struct opening *o;
    if (kit_is_under_qemu())
        return kit_answer(kit_linux_call(67, descriptor, buffer, length, at, at >> 31));
    int result = file_of(descriptor, 0, -ESPIPE, &o);
    return kit_answer(result < 0 ? result : at < 0 ? -EINVAL : kit_read_file(o->file, at, buffer, length));
}

ssize_t pwrite(int descriptor, const void *buffer, size_t length, off_t at)
{
    struct opening *o;
    if (kit_is_under_qemu())
        return kit_answer(kit_linux_call(68, descriptor, buffer, length, at, at >> 31));
    int result = file_of(descriptor, 1, -ESPIPE, &o);
    return kit_answer(result < 0 ? result : at < 0 ? -EINVAL : kit_write_file(o->file, at, buffer, length));
}

/* The offset that lseek asks for in a file, or a fault. */
static int place_in(const struct opening *o, off_t offset, int whence)
{
    long long to = offset;
    switch (whence) {
    case SEEK_SET: break;
    case SEEK_CUR: to += o->at; break;
    case SEEK_END: to += o->file->size; break;
    default: return -EINVAL;
    }
    return to < 0 ? -EINVAL : to > 0x7fffffff ? -EOVERFLOW : (int)to;
}

off_t lseek(int descriptor, off_t offset, int whence)
{
    struct opening *o;
    if (kit_is_under_qemu()) {
        long long to;
        int result = kit_linux_call(62, descriptor, offset >> 31, offset, &to, whence);
        return result < 0 ? kit_answer(result) : (off_t)to;
    }
    if (!is_open(descriptor, &o))
        return kit_answer(-EBADF);
    int result = o && o->file ? place_in(o, offset, whence) : -ESPIPE;
    if (result >= 0)
        o->at = result;
    return kit_answer(result);
}

int ftruncate(int descriptor, off_t size)
{
    struct opening *o;
    if (kit_is_under_qemu())
        return kit_answer(kit_linux_call(46, descriptor, size, size >> 31));
    int result = file_of(descriptor, 1, -EINVAL, &o);
    if (result < 0)                 /* a file that is only read is told so, too */
        return kit_answer(is_open(descriptor, &o) ? -EINVAL : -EBADF);
    return kit_answer(size < 0 ? -EINVAL : kit_change_size(o->file, size));
}

static int duplicate(int descriptor, int first)
{
    struct opening *o;
    if (!is_open(descriptor, &o))
        return -EBADF;
    return o ? give_descriptor(o, first) : open_file(NULL, descriptor, O_RDWR, first);
}

int dup(int descriptor)
{
    return kit_answer(kit_is_under_qemu() ? kit_linux_call(23, descriptor) : duplicate(descriptor, 0));
}

int dup2(int descriptor, int to)
{
    struct opening *o;
    if (kit_is_under_qemu())
        return kit_answer(descriptor == to ? kit_linux_call(25, descriptor, 3) : kit_linux_call(24, descriptor, to, 0)) < 0 ? -1 : to;
    if (!is_open(descriptor, &o) || to < 0 || to >= DESCRIPTORS)
        return kit_answer(-EBADF);
    if (descriptor == to)
        return to;
    int copy = duplicate(descriptor, 0);
    if (copy < 0)
        return kit_answer(copy);
    close(to);
    table[to] = table[copy];
    table[copy] = NULL;
    return to;
}

int fcntl(int descriptor, int what, ...)
{
    struct opening *o = NULL;
    va_list more;
    va_start(more, what);
    int value = va_arg(more, int);
    va_end(more);
    if (!kit_is_under_qemu() && !is_open(descriptor, &o))
        return kit_answer(-EBADF);
    switch (what) {
    case F_DUPFD:
        return kit_answer(kit_is_under_qemu() ? kit_linux_call(25, descriptor, 0, value) : duplicate(descriptor, value));
    case F_GETFL:
        if (kit_is_under_qemu())
            return kit_answer(kit_linux_call(25, descriptor, F_GETFL));
        return o ? o->flags & (O_ACCMODE | O_APPEND) : O_RDWR;
    case F_GETLK:
        ((struct flock *)value)->l_type = F_UNLCK;
        return 0;
    case F_GETFD: case F_SETFD: case F_SETFL: case F_SETLK: case F_SETLKW:
        return 0;
    default:
        return kit_answer(-EINVAL);
    }
}

int kit_opened_file(int descriptor, struct file **f)
{
    struct opening *o;
    if (!is_open(descriptor, &o))
        return -EBADF;
    *f = o ? o->file : NULL;
    return o ? o->channel : descriptor;
}

int isatty(int descriptor)
{
    char settings[64];
    if (kit_is_under_qemu() && kit_linux_call(29, descriptor, 0x5401, settings) >= 0)
        return 1;
    errno = ENOTTY;
    return 0;
}
