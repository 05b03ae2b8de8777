; A test ROM that passes by registers: DAA corrects the sum of two decimal numbers. It adds 1 to a decimal counter
; a hundred times, and compares each step with a binary one. At its end it runs LD B,B with B to L 3, 5, 8, 13, 21 and
; 34 where all was as wanted, and 42 (hexadecimal) six times where it was not.

        org $100
        nop
        jp start
        org $134
        db "TEST PASSES"

        org $150
start:  di
        ld sp, $fffe
        ld b, 100
        ld c, 0                 ; the counter, decimal
        ld d, 0                 ; its tens
        ld e, 0                 ; its ones
step:   ld a, d
        swap a
        or e
        cp c
        jr nz, wrong
        ld a, c
        add a, 1
        daa
        ld c, a
        inc e
        ld a, e
        cp 10
        jr nz, next
        ld e, 0
        inc d
next:   dec b
        jr nz, step
        ld a, c                 ; 99 + 1 is 00
        or a
        jr nz, wrong

right:  ld b, 3
        ld c, 5
        ld d, 8
        ld e, 13
        ld h, 21
        ld l, 34
        ld b, b
stay:   jr stay

wrong:  ld b, $42
        ld c, b
        ld d, b
        ld e, b
        ld h, b
        ld l, b
        ld b, b
        jr stay
