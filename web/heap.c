/* The heap of the WebAssembly module: what the proved code asks for, and malloc and free for library/gbkeep.c.
 *
 * A block is a header of 16 bytes and, behind it, 2^class bytes, which are the caller's. A block that is freed waits in the list of its class for the next
 * request of this class; blocks are neither split nor joined. New blocks are taken where the heap ends. Only headers are read and written here, but where
 * rattle_realloc copies. */
#include "heap.h"

#include <stdlib.h>

enum {
    SMALLEST = 4,
    GREATEST = 36,
    ALIGNMENT = 16
};

struct header {
    struct header *next;
    uint64_t class;
};

_Static_assert(sizeof(struct header) == ALIGNMENT, "a block behind its header is aligned");

static struct header *waiting[GREATEST + 1];

/* The first byte behind all blocks; 0 before the first. */
static uintptr_t end;

static unsigned class_of(size_t size) {
    unsigned class = SMALLEST;
    while (((size_t)1 << class) < size) {
        class++;
    }
    return class;
}

static struct header *header_of(void *at) {
    return (struct header *)at - 1;
}

/* A block behind all others, or null. */
static struct header *new_block(unsigned class) {
    if (end == 0) {
        end = heap_begin();
    }
    size_t length = sizeof(struct header) + ((size_t)1 << class);
    if (!heap_reaches(end, length)) {
        return NULL;
    }
    struct header *block = (struct header *)end;
    block->class = class;
    end += length;
    return block;
}

void *malloc(size_t size) {
    if (size > (size_t)1 << GREATEST) {
        return NULL;
    }
    unsigned class = class_of(size);
    struct header *block = waiting[class];
    if (block != NULL) {
        waiting[class] = block->next;
    } else {
        block = new_block(class);
        if (block == NULL) {
            return NULL;
        }
    }
    block->next = NULL;
    return block + 1;
}

void free(void *at) {
    if (at != NULL) {
        struct header *block = header_of(at);
        block->next = waiting[block->class];
        waiting[block->class] = block;
    }
}

static struct rattle_block block_at(void *at) {
    /* any address but null, where there is no block */
    struct rattle_block got = {at != NULL, at != NULL ? at : (void *)waiting};
    return got;
}

struct rattle_block rattle_alloc(size_t size, size_t align) {
    return block_at(align <= ALIGNMENT ? malloc(size) : NULL);
}

struct rattle_block rattle_realloc(void *old, size_t had, size_t size, size_t align) {
    if (align > ALIGNMENT) {
        return block_at(NULL);
    }
    if (size <= (size_t)1 << header_of(old)->class) {
        return block_at(old);
    }
    void *at = malloc(size);
    if (at != NULL) {
        heap_copy(at, old, had < size ? had : size);
        free(old);
    }
    return block_at(at);
}

void rattle_dealloc(void *at) {
    free(at);
}
