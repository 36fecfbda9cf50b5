/* What a stream's buffer holds, as Solaris and glibc tell it (streams.c). */
#ifndef STDIO_EXT_H
#define STDIO_EXT_H
#include <stdio.h>
#ifdef __cplusplus
extern "C" {
#endif
size_t __fpending(FILE *file);
int __freading(FILE *file);
int __fwriting(FILE *file);
void __fpurge(FILE *file);
#ifdef __cplusplus
}
#endif
#endif
