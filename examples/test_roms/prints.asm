; A test ROM that prints over the serial port: the timer at 4,096 Hz counts 8 in 2,048 M-cycles. It prints what it tests, and
; then Passed or Failed; then it stays in a jump to itself.

sb      equ $ff01
sc      equ $ff02
div     equ $ff04
tima    equ $ff05
tac     equ $ff07

        org $100
        nop
        jp start
        org $134
        db "TEST PRINTS"

        org $150
start:  di
        ld sp, $fffe
        ld hl, name
        call print
        ld a, 4                 ; on, a count in 256 M-cycles
        ldh [tac], a
        ldh [div], a            ; the counter begins at 0
        xor a
        ldh [tima], a
        ld b, 0                 ; 256 times 8 M-cycles, with what stands around them
wait:   nop
        nop
        nop
        nop
        dec b
        jr nz, wait
        ldh a, [tima]
        cp 8
        ld hl, passed
        jr z, say
        ld hl, failed
say:    call print
stay:   jr stay

; prints the bytes from HL up to a 0, each when the one before is gone
print:  ld a, [hl+]
        or a
        ret z
        ldh [sb], a
        ld a, $81
        ldh [sc], a
busy:   ldh a, [sc]
        add a, a
        jr c, busy
        jr print

name:   db "timer: ", 0
passed: db "Passed", 10, 0
failed: db "Failed", 10, 0
