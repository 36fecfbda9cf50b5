/* What picolibc 1.8 leaves out of <utime.h> (lacks.c). */
#include_next <utime.h>
#ifndef JET_UTIME_H
#define JET_UTIME_H
#ifdef __cplusplus
extern "C" {
#endif
int utime(const char *name, const struct utimbuf *times);
#ifdef __cplusplus
}
#endif
#endif
