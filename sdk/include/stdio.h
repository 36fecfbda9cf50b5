/* What picolibc 1.8 leaves out of <stdio.h> (lacks.c). */
#include_next <stdio.h>
#ifndef JET_STDIO_H
#define JET_STDIO_H
#include <sys/types.h>
#ifndef FOPEN_MAX
#define FOPEN_MAX 64
#endif
#ifndef FILENAME_MAX
#define FILENAME_MAX 1024
#endif
#ifdef __cplusplus
extern "C" {
#endif
#if __POSIX_VISIBLE
ssize_t getline(char **line, size_t *room, FILE *file);
ssize_t getdelim(char **line, size_t *room, int end, FILE *file);
int dprintf(int descriptor, const char *format, ...) __attribute__((format(printf, 2, 3)));
FILE *popen(const char *command, const char *mode);
int pclose(FILE *file);
#define getc_unlocked(file) getc(file)
#define putc_unlocked(c, file) putc(c, file)
#define getchar_unlocked() getchar()
#define putchar_unlocked(c) putchar(c)
#define flockfile(file) ((void)(file))
#define funlockfile(file) ((void)(file))
#endif
#ifdef __cplusplus
}
#endif
#endif
