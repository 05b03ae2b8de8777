/* What library/gbkeep.c takes of the C library: web/heap.c has it. */
#ifndef STDLIB_H
#define STDLIB_H

#include <stddef.h>

void *malloc(size_t size);
void free(void *at);

#endif
