/* Limits, which picolibc 1.8 leaves out: the one that programs ask for (lacks.c). */
#include_next <sys/resource.h>
#ifndef JET_SYS_RESOURCE_H
#define JET_SYS_RESOURCE_H
#ifdef __cplusplus
extern "C" {
#endif
typedef unsigned long rlim_t;
struct rlimit { rlim_t rlim_cur, rlim_max; };
#define RLIM_INFINITY ((rlim_t)-1)
#define RLIMIT_NOFILE 7
int getrlimit(int what, struct rlimit *limit);
#ifdef __cplusplus
}
#endif
#endif
