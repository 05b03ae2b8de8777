;; How compiled.c begins: no library's start, which would clear and copy more than there is. The areas of code stand before those of data.
        .module compiled_start
        .globl  _main
        .area   _HEADER (ABS)
        .org    0x0100
        nop
        jp      0x0150
        .org    0x0150
        ld      sp, #0xdffe
        call    _main
1$:     jr      1$
        .area   _CODE
        .area   _HOME
        .area   _BASE
        .area   _LIT
        .area   _INITIALIZER
        .area   _GSINIT
        .area   _GSFINAL
        .area   _DATA
        .area   _INITIALIZED
        .area   _BSS
        .area   _HEAP
