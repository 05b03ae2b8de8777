; Unpacks a packed picture from ROM into WRAM again and again, each block by a far call: the bank is chosen, the routine called behind 4000, and
; the bank of the caller chosen again. A byte below 80 is so many bytes as they are; else it goes back by the next byte, for its low seven bits.

bank    equ $2000
work    equ $c800
enable  equ $ffff

        org $147
        db $01                  ; MBC1
        org $100
        nop
        jp start
        org $150
start:  ld sp, $dffe
        ld a, 1
        ldh [$ff90], a
again:  ld hl, packed
        ld de, work
next:   ld a, 1                 ; a far call, as compilers make it: bank and address in registers
        ld bc, unpack
        call far
        or a, a
        jr nz, next
        call weigh
        jr again

far:    ldh [$ff91], a
        ldh a, [$ff90]
        push af
        ldh a, [$ff91]
        ldh [$ff90], a
        ld [bank], a
        call jump
        ld b, a
        pop af
        ldh [$ff90], a
        ld [bank], a
        ld a, b
        ret
jump:   push bc
        ret

; a sum of what was unpacked
weigh:  ld hl, work
        ld b, 0
        ld c, 0
sum:    ld a, [hl+]
        add a, c
        rlca
        ld c, a
        dec b
        jr nz, sum
        ret

        org $4100
; one block from HL to DE; A is 0 behind the last
unpack: ld a, [hl+]
        or a, a
        ret z
        bit 7, a
        jr nz, back
        ld b, a
plain:  ld a, [hl+]
        ld [de], a
        inc de
        dec b
        jr nz, plain
        ld a, 1
        ret
back:   and a, 127
        ld b, a
        ld a, [hl+]             ; how far back
        push hl
        ld c, a
        ld a, e
        sub a, c
        ld l, a
        ld a, d
        sbc a, 0
        ld h, a
older:  ld a, [hl+]
        ld [de], a
        inc de
        dec b
        jr nz, older
        pop hl
        ld a, 1
        ret

packed: db 16, $00, $7e, $18, $3c, $ff, $81, $42, $24, $5a, $a5, $c3, $99, $66, $0f, $f0, $aa
        db $90, 16, 8, 1, 2, 4, 8, 16, 32, 64, 128, $88, 8, $94, 24, 12, 9, 8, 7, 6, 5, 4, 3, 2, 1, 0, 11, 12
        db $a0, 32, $9f, 12, 4, 77, 78, 79, 80, $84, 4, $88, 8, $90, 16, $c0, 64, 20, 1, 3, 5, 7, 9, 11, 13, 15, 17, 19, 21, 23, 25, 27, 29, 31, 33
        db 35, 37, 39, $94, 20, $e0, 96, $ff, 127, $ff, 3, 6, 250, 200, 150, 100, 50, 25, $86, 6, $8c, 12, $98, 24, $b0, 48, 0
