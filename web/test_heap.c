/* Takes, lengthens and gives back blocks at random, over a piece of memory that ends, and looks at each byte of each block.
 *
 * usage: test_heap SEED ROUNDS     The status is 1 where a block is not as it was left, or is not the caller's alone.
 *
 * Compiled with AddressSanitizer, everything that is no header and no part of a block is poisoned: the heap may not touch it. */
#include "heap.h"

#include <stdio.h>
#include <string.h>

void *heap_malloc(size_t size);
void heap_free(void *at);
int atoi(const char *text);
void exit(int status);

#if defined(__has_feature)
#if __has_feature(address_sanitizer)
#define HAS_ASAN
#endif
#endif
#ifdef __SANITIZE_ADDRESS__
#define HAS_ASAN
#endif
#ifdef HAS_ASAN
#include <sanitizer/asan_interface.h>
#define CLOSE(at, length) __asan_poison_memory_region(at, length)
#define OPEN(at, length) __asan_unpoison_memory_region(at, length)
#else
#define CLOSE(at, length) ((void)0)
#define OPEN(at, length) ((void)0)
#endif

enum {
    ROOM = 1 << 22,
    BLOCKS = 400,
    HEADER = 16
};

static _Alignas(16) unsigned char room[ROOM];
static size_t reached;

uintptr_t heap_begin(void) {
    return (uintptr_t)room;
}

/* A new block: its header may be written, and nothing else. */
int heap_reaches(uintptr_t end, size_t length) {
    if (end + length > (uintptr_t)room + ROOM) {
        return 0;
    }
    if (end != (uintptr_t)room + reached) {
        printf("the heap ends at %zu, and goes on at %zu\n", reached, (size_t)(end - (uintptr_t)room));
        exit(1);
    }
    OPEN((void *)end, HEADER);
    reached += length;
    return 1;
}

/* A block that the heap gives back next, which the caller has not yet opened. */
void heap_copy(void *to, const void *from, size_t length) {
    OPEN(to, length);
    memcpy(to, from, length);
}

static struct {
    unsigned char *at;
    size_t length;
    unsigned char first;
} blocks[BLOCKS];

static uint64_t state;

static uint64_t any(uint64_t below) {
    state ^= state << 13;
    state ^= state >> 7;
    state ^= state << 17;
    return state % below;
}

static void wrong(const char *what) {
    printf("%s\n", what);
    exit(1);
}

static void fill(int n) {
    for (size_t k = 0; k < blocks[n].length; k++) {
        blocks[n].at[k] = (unsigned char)(blocks[n].first + k * 31);
    }
}

static void look(int n, size_t length) {
    for (size_t k = 0; k < length; k++) {
        if (blocks[n].at[k] != (unsigned char)(blocks[n].first + k * 31)) {
            wrong("a block is not as it was left");
        }
    }
}

/* Takes a block as the caller's. */
static void take(int n, void *at, size_t length) {
    if ((uintptr_t)at % 16 != 0 || (unsigned char *)at < room + HEADER || (unsigned char *)at + length > room + reached) {
        wrong("a block is not where the heap is");
    }
    for (int other = 0; other < BLOCKS; other++) {
        if (other != n && blocks[other].at != NULL && (unsigned char *)at < blocks[other].at + blocks[other].length + HEADER &&
            blocks[other].at < (unsigned char *)at + length + HEADER) {
            wrong("two blocks lie in one place");
        }
    }
    blocks[n].at = at;
    blocks[n].length = length;
    blocks[n].first = (unsigned char)any(256);
    OPEN(at, length);
    fill(n);
}

static size_t any_length(void) {
    return any((uint64_t)1 << any(17));
}

int main(int count, char **words) {
    state = count > 1 ? (uint64_t)atoi(words[1]) * 2654435761u + 88172645463325252u : 88172645463325252u;
    long rounds = count > 2 ? atoi(words[2]) : 100000;
    long refused = 0, moved = 0, stayed = 0, taken = 0;
    CLOSE(room, ROOM);
    for (long round = 0; round < rounds; round++) {
        int n = (int)any(BLOCKS);
        if (blocks[n].at == NULL) {
            size_t length = any(2000) == 0 ? (size_t)1 << (20 + any(44)) : any_length();
            int is_rattle = any(2) == 0;
            struct rattle_block got = is_rattle ? rattle_alloc(length, (size_t)1 << any(6)) : (struct rattle_block){1, heap_malloc(length)};
            if (got.ok > 1 || (is_rattle && got.at == NULL)) {
                wrong("an answer that is none");
            }
            if (got.ok == 0 || got.at == NULL) {
                refused++;
            } else {
                take(n, got.at, length);
                taken++;
            }
        } else if (any(3) == 0) {
            look(n, blocks[n].length);
            size_t had = blocks[n].length, length = any(500) == 0 ? (size_t)1 << (20 + any(44)) : any_length();
            unsigned char *old = blocks[n].at;
            struct rattle_block got = rattle_realloc(old, had, length, 16);
            if (got.ok == 0) {
                refused++;
                look(n, had);
            } else {
                moved += got.at != (void *)old;
                stayed += got.at == (void *)old;
                if (got.at != (void *)old || length < had) {
                    CLOSE(old, had);
                }
                blocks[n].at = got.at;
                OPEN(got.at, length);
                look(n, had < length ? had : length);
                take(n, got.at, length);
            }
        } else {
            look(n, blocks[n].length);
            if (any(2) == 0) {
                heap_free(blocks[n].at);
            } else {
                rattle_dealloc(blocks[n].at);
            }
            CLOSE(blocks[n].at, blocks[n].length);
            blocks[n].at = NULL;
        }
    }
    heap_free(NULL);
    printf("taken %ld moved %ld stayed %ld refused %ld reached %zu\n", taken, moved, stayed, refused, reached);
    return taken > 0 && moved > 0 && stayed > 0 && refused > 0 ? 0 : 1;
}
