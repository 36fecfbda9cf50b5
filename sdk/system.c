/* What picolibc asks of a system besides files (files.c): memory, the clock, an end. */
#include <errno.h>
#include <stddef.h>
#include <stdlib.h>
#include <sys/time.h>
#include <sys/times.h>
#include <time.h>
#include <unistd.h>
#include "jet.h"
#include "kit.h"

enum {
    STACK = 16 * 1024,              /* what the heap leaves to the stack; with words, a sixteenth of memory besides */
    LONGEST_WINDOW = 16 << 20       /* bytes of memory that jet gives at most */
};

extern char __window_start[], __heap_start[];

void (*kit_hand_files)(void);

int kit_is_under_qemu(void)
{
    return (char *)__builtin_frame_address(0) - __window_start > LONGEST_WINDOW;
}

/* Linux's numbers of faults that picolibc has others for. */
static int own_number(int fault)
{
    switch (fault) {
    case 36: return ENAMETOOLONG;
    case 38: return ENOSYS;
    case 39: return ENOTEMPTY;
    case 40: return ELOOP;
    case 75: return EOVERFLOW;
    default: return fault;
    }
}

int kit_answer(int result)
{
    if (result >= 0)
        return result;
    errno = kit_is_under_qemu() ? own_number(-result) : -result;
    return -1;
}

/* How far the heap may grow: what the stack needs from where it stands stays free. */
static char *heap_limit(void)
{
    char *stack = __builtin_frame_address(0);
    return stack - STACK - (kit_words ? (stack - __window_start) / 16 : 0);
}

/* The heap begins behind the variables. */
void *sbrk(ptrdiff_t more)
{
    static char *top = __heap_start;
    char *old = top;
    int is_there = kit_is_under_qemu() ? kit_linux_call(214, top + more) >= (int)(top + more) : more <= heap_limit() - top;
    if (more < __heap_start - top || !is_there) {
        errno = ENOMEM;
        return (void *)-1;
    }
    top += more;
    return old;
}

unsigned long long kit_now(void)
{
    struct { long long seconds, nanoseconds; } time;
    if (!kit_is_under_qemu())
        return jet_clock();
    kit_linux_call(403, 0, &time);
    return time.seconds * 1000000000ull + time.nanoseconds;
}

int gettimeofday(struct timeval *time, void *zone)
{
    unsigned long long t = kit_now();
    (void)zone;
    time->tv_sec = t / 1000000000;
    time->tv_usec = t % 1000000000 / 1000;
    return 0;
}

/* All clocks are the one. */
int clock_gettime(clockid_t clock, struct timespec *time)
{
    unsigned long long t = kit_now();
    (void)clock;
    time->tv_sec = t / 1000000000;
    time->tv_nsec = t % 1000000000;
    return 0;
}

/* Of clock() only differences have a meaning. */
clock_t times(struct tms *spent)
{
    clock_t t = kit_now() / (1000000000 / CLOCKS_PER_SEC);
    *spent = (struct tms){ .tms_utime = t };
    return t;
}

/* abort() raises a signal. One that isn't caught ends the run, with the code that a shell tells of it. */
pid_t getpid(void) { return 1; }
int kill(pid_t process, int signal) { (void)process; _exit(128 + signal); }

/* exit() and abort() come here; what was printed until then is written. */
void _exit(int code)
{
    kit_flush_streams();
    if (kit_hand_files)
        kit_hand_files();
    jet_exit(code);
}
