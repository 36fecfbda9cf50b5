// Refuses one allocation of a program, for .ci/refused_allocations: preloaded, it answers no memory to the call of this
// number (FAIL_ALLOC, counted from 1) among malloc, calloc, realloc, posix_memalign and aligned_alloc. Without FAIL_ALLOC
// it refuses nothing, and at the end it prints on standard error how many calls there were.
#define _GNU_SOURCE
#include <dlfcn.h>
#include <errno.h>
#include <stdio.h>
#include <stdlib.h>
#include <sys/syscall.h>
#include <unistd.h>

static unsigned long calls;

static int is_refused(void) {
    const char *number = getenv("FAIL_ALLOC");
    unsigned long call = __atomic_add_fetch(&calls, 1, __ATOMIC_SEQ_CST);
    if (!number || call != strtoul(number, 0, 10)) return 0;
    errno = ENOMEM;
    return 1;
}

#define NEXT(name) ((__typeof__(&name))dlsym(RTLD_NEXT, #name))

void *malloc(size_t size) {
    static void *(*next)(size_t);
    if (!next) next = NEXT(malloc);
    return is_refused() ? NULL : next(size);
}

void *calloc(size_t count, size_t size) {
    static void *(*next)(size_t, size_t);
    if (!next) next = NEXT(calloc);
    return is_refused() ? NULL : next(count, size);
}

void *realloc(void *block, size_t size) {
    static void *(*next)(void *, size_t);
    if (!next) next = NEXT(realloc);
    return is_refused() ? NULL : next(block, size);
}

void *aligned_alloc(size_t align, size_t size) {
    static void *(*next)(size_t, size_t);
    if (!next) next = NEXT(aligned_alloc);
    return is_refused() ? NULL : next(align, size);
}

int posix_memalign(void **block, size_t align, size_t size) {
    static int (*next)(void **, size_t, size_t);
    if (!next) next = NEXT(posix_memalign);
    return is_refused() ? ENOMEM : next(block, align, size);
}

// The program ends by _exit, at which no destructor is called.
void _exit(int status) {
    if (!getenv("FAIL_ALLOC")) dprintf(2, "allocations: %lu\n", calls);
    syscall(SYS_exit_group, status);
    __builtin_unreachable();
}
