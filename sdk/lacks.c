/* What POSIX and the BSDs have, picolibc 1.8 lacks and ordinary programs ask for. What has no meaning in a run succeeds
   quietly or fails as POSIX says: there is one user, one process and no terminal, nothing waits, and files have no times,
   owners and permissions. */
#include <err.h>
#include <errno.h>
#include <malloc.h>
#include <pwd.h>
#include <signal.h>
#include <stdarg.h>
#include <stdio.h>
#include <stdlib.h>
#include <string.h>
#include <sys/ioctl.h>
#include <sys/mman.h>
#include <sys/resource.h>
#include <sys/stat.h>
#include <sys/time.h>
#include <unistd.h>
#include <utime.h>
#include "kit.h"

enum { OPEN_MOST = 64 };            /* files that can be open at a time */

/* Text */

/* Makes the line's memory longer than `length` + 1 bytes. */
static int make_longer(char **line, size_t *room, size_t length)
{
    if (*line && length + 1 < *room)
        return 0;
    size_t more = *line && *room > 60 ? 2 * *room : 120;
    char *longer = realloc(*line, more);
    if (!longer)
        return -1;
    *line = longer;
    *room = more;
    return 0;
}

ssize_t getdelim(char **line, size_t *room, int end, FILE *file)
{
    size_t length = 0;
    int c;
    do {
        if ((c = getc(file)) == EOF)
            break;
        if (make_longer(line, room, length) < 0)
            return -1;
        (*line)[length++] = c;
    } while (c != end);
    if (length == 0 || ferror(file))
        return -1;
    (*line)[length] = 0;
    return length;
}

ssize_t getline(char **line, size_t *room, FILE *file) { return getdelim(line, room, '\n', file); }

int dprintf(int descriptor, const char *format, ...)
{
    va_list list;
    char *text;
    va_start(list, format);
    int length = vasprintf(&text, format, list);
    va_end(list);
    if (length >= 0) {
        if (write(descriptor, text, length) < 0)
            length = -1;
        free(text);
    }
    return length;
}

/* Messages, the program's name before each. */

const char *getprogname(void)
{
    const char *name = strrchr(kit_main_argv[0], '/');
    return name ? name + 1 : kit_main_argv[0];
}

static void tell_fault(int has_number, const char *format, va_list list)
{
    const char *fault = strerror(errno);
    fprintf(stderr, "%s: ", getprogname());
    if (format)
        vfprintf(stderr, format, list);
    if (has_number)
        fprintf(stderr, "%s%s", format ? ": " : "", fault);
    fputc('\n', stderr);
}

#define TELL(has_number, format) \
    va_list list; \
    va_start(list, format); \
    tell_fault(has_number, format, list); \
    va_end(list)

void warn(const char *format, ...) { TELL(1, format); }
void warnx(const char *format, ...) { TELL(0, format); }
void err(int code, const char *format, ...) { TELL(1, format); exit(code); }
void errx(int code, const char *format, ...) { TELL(0, format); exit(code); }

/* Time, limits */

unsigned sleep(unsigned seconds) { (void)seconds; return 0; }

int getrusage(int who, struct rusage *usage)
{
    (void)who;
    memset(usage, 0, sizeof *usage);
    return gettimeofday(&usage->ru_utime, NULL);
}

int getrlimit(int what, struct rlimit *limit)
{
    *limit = (struct rlimit){ OPEN_MOST, OPEN_MOST };
    return what == RLIMIT_NOFILE ? 0 : kit_answer(-EINVAL);
}

/* Times, owners and permissions of files, and links */

int utime(const char *name, const struct utimbuf *times) { (void)times; return access(name, F_OK); }
int utimes(const char *name, const struct timeval times[2]) { (void)times; return access(name, F_OK); }
int chmod(const char *name, mode_t mode) { (void)mode; return access(name, F_OK); }
int fchmod(int descriptor, mode_t mode) { (void)descriptor, (void)mode; return 0; }
int fchown(int descriptor, uid_t owner, gid_t group) { (void)descriptor, (void)owner, (void)group; return 0; }
int fsync(int descriptor) { (void)descriptor; return 0; }
mode_t umask(mode_t mask) { (void)mask; return 022; }
int symlink(const char *from, const char *to) { (void)from, (void)to; return kit_answer(-EPERM); }

/* No file is a link. */
ssize_t readlink(const char *restrict name, char *restrict to, size_t size)
{
    (void)to, (void)size;
    return access(name, F_OK) < 0 ? -1 : kit_answer(-EINVAL);
}

/* Users, devices, the system */

uid_t getuid(void) { return 0; }
uid_t geteuid(void) { return 0; }
struct passwd *getpwuid(uid_t user) { (void)user; return NULL; }
int ioctl(int descriptor, unsigned long what, ...) { (void)descriptor, (void)what; return kit_answer(-ENOTTY); }

long sysconf(int name)
{
    switch (name) {
    case _SC_PAGESIZE: return 4096;
    case _SC_OPEN_MAX: return OPEN_MOST;
    case _SC_CLK_TCK: return CLOCKS_PER_SEC;
    case _SC_NPROCESSORS_CONF: case _SC_NPROCESSORS_ONLN: return 1;
    default: return kit_answer(-EINVAL);
    }
}

long pathconf(const char *name, int what)
{
    (void)name;
    return what == _PC_PATH_MAX ? LONGEST_NAME : what == _PC_NAME_MAX ? 255 : kit_answer(-EINVAL);
}

/* Processes: there is one. */

FILE *popen(const char *command, const char *mode)
{
    (void)command, (void)mode;
    kit_answer(-EAGAIN);
    return NULL;
}

int pclose(FILE *file) { (void)file; return kit_answer(-ECHILD); }

/* Signals: only the program itself sends one, and none is held back. */

int sigaction(int number, const struct sigaction *restrict new, struct sigaction *restrict old)
{
    _sig_func_ptr before = signal(number, new ? new->sa_handler : SIG_DFL);
    if (before == SIG_ERR)
        return -1;
    if (!new)
        signal(number, before);
    if (old)
        *old = (struct sigaction){ .sa_handler = before };
    return 0;
}

int sigprocmask(int how, const sigset_t *set, sigset_t *old)
{
    (void)how, (void)set;
    if (old)
        *old = 0;
    return 0;
}

/* Memory that stands for a file's content is a copy of it; so where it is shared it can only be read. */

static int mapping_fault(size_t size, int protection, int flags)
{
    if (size == 0)
        return -EINVAL;
    if (flags & MAP_FIXED)
        return -ENOMEM;
    return !(flags & MAP_ANONYMOUS) && (flags & MAP_SHARED) && (protection & PROT_WRITE) ? -ENODEV : 0;
}

void *mmap(void *at, size_t size, int protection, int flags, int descriptor, off_t offset)
{
    (void)at;
    int result = mapping_fault(size, protection, flags);
    char *memory = result < 0 ? NULL : memalign(4096, size);
    if (!memory) {
        kit_answer(result < 0 ? result : -ENOMEM);
        return MAP_FAILED;
    }
    ssize_t count = flags & MAP_ANONYMOUS ? 0 : pread(descriptor, memory, size, offset);
    if (count < 0) {
        free(memory);
        return MAP_FAILED;
    }
    memset(memory + count, 0, size - count);
    return memory;
}

/* What is given back may be a part, so it isn't used again. */
int munmap(void *at, size_t size) { (void)at, (void)size; return 0; }
