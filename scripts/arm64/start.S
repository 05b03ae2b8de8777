/* The start of a program that a C library from 2017 on runs: the start files of a newer one ask for its __libc_start_main, which older ones lack.
 * It is the start of any aarch64 program, with rattle_keep_words in the place of the constructors, of which the program has no others. */
    .symver __libc_start_main, __libc_start_main@GLIBC_2.17
    .text
    .globl _start
    .type _start, %function
_start:
    mov x29, #0
    mov x30, #0
    mov x5, x0
    ldr x1, [sp]
    add x2, sp, #8
    mov x6, sp
    adrp x0, main
    add x0, x0, :lo12:main
    adrp x3, rattle_keep_words
    add x3, x3, :lo12:rattle_keep_words
    mov x4, #0
    bl __libc_start_main
    brk #0
    .size _start, . - _start
    .section .note.GNU-stack, "", %progbits
