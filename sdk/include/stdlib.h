/* What picolibc 1.8 leaves out of <stdlib.h> (lacks.c). */
#include_next <stdlib.h>
#ifndef JET_STDLIB_H
#define JET_STDLIB_H
#ifdef __cplusplus
extern "C" {
#endif
#if __BSD_VISIBLE
const char *getprogname(void);
#endif
#ifdef __cplusplus
}
#endif
#endif
