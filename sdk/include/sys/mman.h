/* Memory that stands for a file's content, as far as a copy can (lacks.c). */
#ifndef SYS_MMAN_H
#define SYS_MMAN_H
#include <sys/types.h>
#ifdef __cplusplus
extern "C" {
#endif
#define PROT_NONE 0
#define PROT_READ 1
#define PROT_WRITE 2
#define MAP_SHARED 1
#define MAP_PRIVATE 2
#define MAP_FIXED 16
#define MAP_ANONYMOUS 32
#define MAP_ANON MAP_ANONYMOUS
#define MAP_FAILED ((void *)-1)
void *mmap(void *at, size_t size, int protection, int flags, int descriptor, off_t offset);
int munmap(void *at, size_t size);
#ifdef __cplusplus
}
#endif
#endif
