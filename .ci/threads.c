// Notes when the threads of a program are started, end and are joined, for .ci/way: preloaded, it writes an event for each into the
// file THREADS, with the processor time that the thread has used. Under callgrind it has the counts of instructions written instead,
// with the event as their reason.
#define _GNU_SOURCE
#include <dlfcn.h>
#include <fcntl.h>
#include <pthread.h>
#include <stdio.h>
#include <stdlib.h>
#include <sys/mman.h>
#include <time.h>
#include <unistd.h>
#if __has_include(<valgrind/callgrind.h>)
#include <valgrind/callgrind.h>
#else
#define RUNNING_ON_VALGRIND 0
#define CALLGRIND_DUMP_STATS_AT(reason)
#endif

enum { MOST_EVENTS = 65536, MOST_THREADS = 8192 };

struct event {
    int thread, other;
    double used;
    char kind[8];
};

struct events {
    int count;
    struct event all[MOST_EVENTS];
};

struct start {
    void *(*call)(void *);
    void *argument;
    int number;
};

static struct events *events;
static struct start starts[MOST_THREADS];
static pthread_t threads[MOST_THREADS];
static int last_thread;
static __thread int this_thread;

static double used(void) {
    struct timespec time;
    clock_gettime(CLOCK_THREAD_CPUTIME_ID, &time);
    return time.tv_sec + time.tv_nsec / 1e9;
}

static void note(const char *kind, int other) {
    double now = used();
    int number = __atomic_fetch_add(&events->count, 1, __ATOMIC_SEQ_CST);
    if (number >= MOST_EVENTS) return;
    struct event *event = &events->all[number];
    event->thread = this_thread;
    event->other = other;
    event->used = now;
    snprintf(event->kind, sizeof event->kind, "%s", kind);
    if (RUNNING_ON_VALGRIND) {
        char reason[64];
        snprintf(reason, sizeof reason, "event %d", number);
        CALLGRIND_DUMP_STATS_AT(reason);
    }
}

static void *run(void *argument) {
    struct start *start = argument;
    this_thread = start->number;
    note("begin", 0);
    void *result = start->call(start->argument);
    note("end", 0);
    return result;
}

int pthread_create(pthread_t *thread, const pthread_attr_t *attributes, void *(*call)(void *), void *argument) {
    static __typeof__(&pthread_create) next;
    if (!next) next = (__typeof__(next))dlsym(RTLD_NEXT, "pthread_create");
    int number = __atomic_add_fetch(&last_thread, 1, __ATOMIC_SEQ_CST);
    if (number >= MOST_THREADS) abort();
    starts[number] = (struct start){call, argument, number};
    int result = next(thread, attributes, run, &starts[number]);
    threads[number] = *thread;
    note("start", number);
    return result;
}

int pthread_join(pthread_t thread, void **result) {
    static __typeof__(&pthread_join) next;
    if (!next) next = (__typeof__(next))dlsym(RTLD_NEXT, "pthread_join");
    int number = last_thread;
    while (number > 0 && !pthread_equal(threads[number], thread)) number--;
    note("join", number);
    int answer = next(thread, result);
    note("joined", number);
    return answer;
}

static void finish(void) {
    if (this_thread == 0) note("end", 0);
}

void exit(int status) {
    __typeof__(&exit) next = (__typeof__(next))dlsym(RTLD_NEXT, "exit");
    finish();
    next(status);
    __builtin_unreachable();
}

void _exit(int status) {
    __typeof__(&_exit) next = (__typeof__(next))dlsym(RTLD_NEXT, "_exit");
    finish();
    next(status);
    __builtin_unreachable();
}

__attribute__((constructor)) static void open_events(void) {
    const char *name = getenv("THREADS");
    int file = open(name ? name : "", O_RDWR | O_CREAT | O_TRUNC, 0644);
    if (file < 0 || ftruncate(file, sizeof *events)) abort();
    events = mmap(0, sizeof *events, PROT_READ | PROT_WRITE, MAP_SHARED, file, 0);
    if (events == MAP_FAILED) abort();
    close(file);
}
