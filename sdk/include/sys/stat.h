/* What picolibc 1.8 declares for other systems alone (folders.c). */
#include_next <sys/stat.h>
#ifndef JET_SYS_STAT_H
#define JET_SYS_STAT_H
#ifdef __cplusplus
extern "C" {
#endif
int lstat(const char *__restrict name, struct stat *__restrict status);
#ifdef __cplusplus
}
#endif
#endif
