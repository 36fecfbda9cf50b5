/* What picolibc 1.8 declares only where threads are (system.c). */
#include_next <time.h>
#ifndef JET_TIME_H
#define JET_TIME_H
#ifdef __cplusplus
extern "C" {
#endif
#if __POSIX_VISIBLE
#ifndef CLOCK_REALTIME
#define CLOCK_REALTIME ((clockid_t)1)
#endif
#ifndef CLOCK_MONOTONIC
#define CLOCK_MONOTONIC ((clockid_t)4)
#endif
#ifndef CLOCK_PROCESS_CPUTIME_ID
#define CLOCK_PROCESS_CPUTIME_ID ((clockid_t)2)
#endif
int clock_gettime(clockid_t clock, struct timespec *time);
#endif
#ifdef __cplusplus
}
#endif
#endif
