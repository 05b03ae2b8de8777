/* The memory of the WebAssembly module, as its heap grows. */
#include "heap.h"

enum {
    PAGE = 65536
};

/* of the linker: behind the stack and what the module begins with */
extern unsigned char __heap_base;

uintptr_t heap_begin(void) {
    return ((uintptr_t)&__heap_base + 15) / 16 * 16;
}

int heap_reaches(uintptr_t end, size_t length) {
    uintptr_t have = __builtin_wasm_memory_size(0) * PAGE;
    if (end + length <= have) {
        return 1;
    }
    return __builtin_wasm_memory_grow(0, (end + length - have + PAGE - 1) / PAGE) != (size_t)-1;
}

void heap_copy(void *to, const void *from, size_t length) {
    __builtin_memcpy(to, from, length);
}
