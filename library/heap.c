/* What the proved code asks of the heap, over malloc. */
#include <stddef.h>
#include <stdint.h>
#include <stdlib.h>

/* `ok` is 1 and `at` the block, or `ok` is 0 and `at` is any address but null. */
struct rattle_block {
    uint64_t ok;
    void *at;
};

static struct rattle_block block(void *at) {
    struct rattle_block got = {at != NULL, at != NULL ? at : (void *)&block};
    return got;
}

struct rattle_block rattle_alloc(size_t size, size_t align) {
    return block(malloc(size != 0 ? size : align));
}

struct rattle_block rattle_realloc(void *old, size_t had, size_t size, size_t align) {
    (void)had;
    return block(realloc(old, size != 0 ? size : align));
}

void rattle_dealloc(void *at) {
    free(at);
}
