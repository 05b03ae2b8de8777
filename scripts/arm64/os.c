/* What the proved program asks of a C library of the toolchain's, for a processor that it has none for: the words that it was started with, and
 * the number of the last error. library/heap.c has the three functions of the heap. */
#include <errno.h>
#include <stddef.h>
#include <stdint.h>

static char **words;
static size_t count;

/* start.S gives this to the C library to be called before main; a static program's own start calls it as a constructor. */
__attribute__((constructor)) void rattle_keep_words(int given, char **at) {
    count = (size_t)given;
    words = at;
}

size_t rattle_arg_count(void) {
    return count;
}

/* Word i at the start of buf and its length; -1 where there is none, -2 where it does not fit, and then buf is full. */
ptrdiff_t rattle_arg(size_t i, uint8_t *buf, size_t room) {
    if (i >= count || words[i] == NULL) {
        return -1;
    }
    size_t length = 0;
    while (words[i][length] != 0) {
        if (length == room) {
            return -2;
        }
        buf[length] = (uint8_t)words[i][length];
        length++;
    }
    return (ptrdiff_t)length;
}

int rattle_errno(void) {
    return errno;
}

void rattle_set_errno(int error) {
    errno = error;
}
