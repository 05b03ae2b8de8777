; A test ROM that fails by registers, as wanted: it expects that INC sets the carry at FF, which it never does. At its end it
; runs LD B,B with B to L 3, 5, 8, 13, 21 and 34 where all was as it expects, and 42 (hexadecimal) six times where it was not.

        org $100
        nop
        jp start
        org $134
        db "TEST FAILS"

        org $150
start:  di
        ld sp, $fffe
        or a                    ; no carry
        ld a, $ff
        inc a
        jr nc, wrong

        ld b, 3
        ld c, 5
        ld d, 8
        ld e, 13
        ld h, 21
        ld l, 34
        ld b, b
stay:   jr stay

wrong:  ld b, $42
        ld c, b
        ld d, b
        ld e, b
        ld h, b
        ld l, b
        ld b, b
        jr stay
