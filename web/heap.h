/* What web/heap.c stands on, and what the proved code asks of it. */
#ifndef HEAP_H
#define HEAP_H

#include <stddef.h>
#include <stdint.h>

/* Where the heap begins: a multiple of 16. */
uintptr_t heap_begin(void);

/* Whether there is memory for `length` bytes from `end` on. It is asked for where there is not yet. */
int heap_reaches(uintptr_t end, size_t length);

/* Copies bytes from one block to another. */
void heap_copy(void *to, const void *from, size_t length);

/* `ok` is 1 and `at` the block, or `ok` is 0 and `at` is any address but null. */
struct rattle_block {
    uint64_t ok;
    void *at;
};

/* `align` is a power of two. A block of more than 16 is refused. */
struct rattle_block rattle_alloc(size_t size, size_t align);
struct rattle_block rattle_realloc(void *old, size_t had, size_t size, size_t align);
void rattle_dealloc(void *at);

#endif
