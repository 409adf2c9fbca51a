// memcpy and memset in two kinds that use no vector registers.
#ifndef MEMORY_H
#define MEMORY_H
#include <stddef.h>
#include <stdint.h>
void *moves_memcpy(void *to, const void *from, size_t n);
void *moves_memset(void *to, int value, size_t n);
void *rep_memcpy(void *to, const void *from, size_t n);
void *rep_memset(void *to, int value, size_t n);
#endif
