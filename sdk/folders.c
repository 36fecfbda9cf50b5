/* What is called by a name: files are removed, renamed, told of; folders are made, listed, gone to. Under qemu-riscv32 they are
   Linux's, but that opendir isn't there. */
#include <dirent.h>
#include <errno.h>
#include <fcntl.h>
#include <stdlib.h>
#include <string.h>
#include <sys/stat.h>
#include <unistd.h>
#include "files.h"

int truncate(const char *name, off_t size)
{
    char plain[LONGEST_NAME];
    struct file *f;
    if (kit_is_under_qemu())
        return kit_answer(kit_linux_call(45, name, size, size >> 31));
    int result = kit_look_up(name, plain, &f);
    if (result >= 0)
        result = kit_is_folder(plain) ? -EISDIR : size < 0 ? -EINVAL : kit_change_size(f, size);
    return kit_answer(result);
}

int unlink(const char *name)
{
    char plain[LONGEST_NAME];
    struct file *f;
    if (kit_is_under_qemu())
        return kit_answer(kit_linux_call(35, HERE, name, 0));
    int result = kit_look_up(name, plain, &f);
    if (result >= 0 && kit_is_folder(plain))
        result = -EISDIR;
    if (result >= 0)
        kit_unname(f);
    return kit_answer(result);
}

/* Whether a file can have this name now: 0 and the file that has it, or a fault. */
static int free_name(const char *name, char *plain, struct file **old)
{
    int result = kit_look_up(name, plain, old);
    if (result == -ENOENT && *name)
        return strchr(plain, '\n') ? -EINVAL : 0;
    return result >= 0 && kit_is_folder(plain) ? -EISDIR : result;
}

/* A folder keeps its name: no program here renames one. */
int rename(const char *from, const char *to)
{
    char plain[LONGEST_NAME], *name;
    struct file *f, *old;
    if (kit_is_under_qemu())
        return kit_answer(kit_linux_call(276, HERE, from, HERE, to, 0));
    int result = kit_look_up(from, plain, &f);
    if (result >= 0 && kit_is_folder(plain))
        result = -EPERM;
    if (result >= 0)
        result = free_name(to, plain, &old);
    if (result < 0 || old == f || (result = kit_fetch_all(f)) < 0)
        return kit_answer(result);
    if (!(name = strdup(plain)))
        return kit_answer(-ENOMEM);
    if (old)
        kit_unname(old);
    free(f->name);
    f->name = name;
    f->is_made = 1;
    return 0;
}

int mkdir(const char *name, mode_t mode)
{
    char plain[LONGEST_NAME];
    struct file *f;
    if (kit_is_under_qemu())
        return kit_answer(kit_linux_call(34, HERE, name, mode));
    int result = kit_look_up(name, plain, &f);
    if (result != -ENOENT || !*name)
        return kit_answer(result < 0 ? result : -EEXIST);
    if (!(f = kit_add_file(plain)))
        return kit_answer(-ENOMEM);
    f->is_folder = 1;
    return 0;
}

/* Whether a file's name goes on behind that of the folder: where, or NULL. */
static const char *part_in(const char *plain, const struct file *f)
{
    unsigned length = strlen(plain);
    if (!f->name || f->is_null || !*f->name || strncmp(f->name, plain, length))
        return NULL;
    if (length == 0)
        return f->name;
    return f->name[length] == '/' ? f->name + length + 1 : NULL;
}

int rmdir(const char *name)
{
    char plain[LONGEST_NAME];
    struct file *f;
    if (kit_is_under_qemu())
        return kit_answer(kit_linux_call(35, HERE, name, 0x200));
    int result = kit_look_up(name, plain, &f);
    if (result < 0 || !kit_is_folder(plain))
        return kit_answer(result < 0 ? result : -ENOTDIR);
    for (struct file *other = kit_files; other; other = other->next)
        if (part_in(plain, other))
            return kit_answer(-ENOTEMPTY);
    if (f)
        kit_unname(f);
    return 0;
}

int chdir(const char *name)
{
    char plain[LONGEST_NAME];
    struct file *f;
    if (kit_is_under_qemu())
        return kit_answer(kit_linux_call(49, name));
    int result = kit_look_up(name, plain, &f);
    if (result < 0 || !kit_is_folder(plain))
        return kit_answer(result < 0 ? result : -ENOTDIR);
    strcpy(kit_folder, plain);
    return 0;
}

char *getcwd(char *buffer, size_t size)
{
    if (kit_is_under_qemu())
        return kit_answer(kit_linux_call(17, buffer, size)) < 0 ? NULL : buffer;
    if (!buffer && !(buffer = malloc(size = LONGEST_NAME + 1)))
        return NULL;
    if (strlen(kit_folder) + 2 > size) {
        errno = ERANGE;
        return NULL;
    }
    buffer[0] = '/';
    strcpy(buffer + 1, kit_folder);
    return buffer;
}

static void tell(struct stat *status, mode_t mode, unsigned size, int number)
{
    memset(status, 0, sizeof *status);
    status->st_dev = 1;
    status->st_ino = number;
    status->st_mode = mode;
    status->st_nlink = 1;
    status->st_size = size;
    status->st_blksize = BLOCK;
    status->st_blocks = (size + 511) / 512;
}

/* Of a folder without an entry of its own f is NULL. */
static void tell_file(struct stat *status, const struct file *f)
{
    if (!f || f->is_folder)
        tell(status, S_IFDIR | 0755, 0, f ? f->number : 0);
    else
        tell(status, f->is_null ? S_IFCHR | 0666 : S_IFREG | 0644, f->size, f->number);
}

/* Linux's statx, whose answer has the same fields at places that are fixed. */
static int ask_linux(int at, const char *name, int flags, struct stat *status)
{
    unsigned long long x[32];
    unsigned *half = (unsigned *)x;
    int result = kit_linux_call(291, at, name, flags, 0x7ff, x);
    if (result < 0)
        return kit_answer(result);
    tell(status, half[7] & 0xffff, x[5], x[4]);
    status->st_nlink = half[4];
    status->st_uid = half[5];
    status->st_gid = half[6];
    status->st_atim = (struct timespec){ x[8], half[18] };
    status->st_ctim = (struct timespec){ x[12], half[26] };
    status->st_mtim = (struct timespec){ x[14], half[30] };
    return 0;
}

int stat(const char *restrict name, struct stat *restrict status)
{
    char plain[LONGEST_NAME];
    struct file *f;
    if (kit_is_under_qemu())
        return ask_linux(HERE, name, 0, status);
    int result = kit_look_up(name, plain, &f);
    if (result >= 0)
        tell_file(status, f);
    return kit_answer(result);
}

int lstat(const char *restrict name, struct stat *restrict status)
{
    return kit_is_under_qemu() ? ask_linux(HERE, name, 0x100, status) : stat(name, status);
}

/* A channel is told as a pipe. */
int fstat(int descriptor, struct stat *status)
{
    struct file *f;
    if (kit_is_under_qemu())
        return ask_linux(descriptor, "", 0x1000, status);
    int channel = kit_opened_file(descriptor, &f);
    if (channel == -EBADF)
        return kit_answer(channel);
    if (f)
        tell_file(status, f);
    else
        tell(status, S_IFIFO | 0600, 0, -1 - channel);
    return 0;
}

int access(const char *name, int mode)
{
    struct stat status;
    if (stat(name, &status) < 0)
        return -1;
    return kit_answer((mode & X_OK) && !S_ISDIR(status.st_mode) ? -EACCES : 0);
}

/* Reading a folder: each name once, of what lies in it. */
struct jet_folder {
    struct file *next;
    char name[LONGEST_NAME];
    struct dirent entry;
};

DIR *opendir(const char *name)
{
    DIR *d = malloc(sizeof *d);
    struct file *f;
    int result = !d ? -ENOMEM : kit_is_under_qemu() ? -ENOSYS : kit_look_up(name, d->name, &f);
    if (result >= 0 && !kit_is_folder(d->name))
        result = -ENOTDIR;
    if (kit_answer(result) < 0) {
        free(d);
        return NULL;
    }
    d->next = kit_files;
    return d;
}

/* Whether a file before this one has the same part of its name in the folder: that part is a folder's. */
static int was_listed(const DIR *d, const struct file *f, const char *part, unsigned length)
{
    for (const struct file *other = kit_files; other != f; other = other->next) {
        const char *its = part_in(d->name, other);
        if (its && strcspn(its, "/") == length && !memcmp(its, part, length))
            return 1;
    }
    return 0;
}

struct dirent *readdir(DIR *d)
{
    for (struct file *f; (f = d->next);) {
        const char *part = part_in(d->name, f);
        unsigned length = part ? strcspn(part, "/") : 0;
        d->next = f->next;
        if (!part || length >= sizeof d->entry.d_name || was_listed(d, f, part, length))
            continue;
        d->entry.d_ino = f->number;
        d->entry.d_type = part[length] == '/' || f->is_folder ? DT_DIR : DT_REG;
        memcpy(d->entry.d_name, part, length);
        d->entry.d_name[length] = 0;
        return &d->entry;
    }
    return NULL;
}

int closedir(DIR *d)
{
    free(d);
    return 0;
}
