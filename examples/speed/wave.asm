; A wave: in each line LYC's interrupt sets SCX from a table that goes on with each frame, and moves LYC on, while the game's own work, sums of
; 16 bits over a table in WRAM, fills what is left of the frame.

flags   equ $ff0f
lcdc    equ $ff40
stat    equ $ff41
scx     equ $ff43
ly      equ $ff44
lyc     equ $ff45
bgp     equ $ff47
enable  equ $ffff
frame   equ $ff90
table   equ $2000

        org $40
        jp vblank
        org $48
        jp line
        org $100
        nop
        jp start
        org $150
start:  di
        ld sp, $dffe
wait:   ldh a, [ly]
        cp 144
        jr nz, wait
        xor a
        ldh [lcdc], a
        ldh [frame], a
        ld hl, $8000
tiles:  ld a, l
        rrca
        xor a, h
        ld [hl+], a
        ld a, h
        cp a, $a0
        jr nz, tiles
        ld a, %11100100
        ldh [bgp], a
        ld a, $40
        ldh [stat], a
        xor a
        ldh [lyc], a
        ld a, %10010001
        ldh [lcdc], a
        xor a
        ldh [flags], a
        ld a, 3
        ldh [enable], a
        ei

again:  ld hl, $c100
        ld de, 0
        ld b, 64
add:    ld a, [hl]
        add a, e
        ld e, a
        ld [hl+], a
        ld a, [hl]
        adc a, d
        ld d, a
        xor a, b
        ld [hl+], a
        inc hl
        inc hl
        dec b
        jr nz, add
        jr again

vblank: push af
        ldh a, [frame]
        inc a
        ldh [frame], a
        xor a
        ldh [lyc], a
        pop af
        reti

line:   push af
        push hl
        ldh a, [frame]
        ld l, a
        ldh a, [ly]
        ld h, a
        add a, l
        and a, 63
        ld l, a
        ld a, h
        ld h, high(table)
        push af
        ld a, [hl]
        ldh [scx], a
        pop af
        inc a
        cp a, 144
        jr nc, over
        ldh [lyc], a
over:   pop hl
        pop af
        reti

        org table
        db 0, 0, 1, 1, 2, 2, 3, 3, 4, 4, 4, 5, 5, 5, 5, 5, 6, 5, 5, 5, 5, 5, 4, 4, 4, 3, 3, 2, 2, 1, 1, 0
        db 0, 0, -1, -1, -2, -2, -3, -3, -4, -4, -4, -5, -5, -5, -5, -5, -6, -5, -5, -5, -5, -5, -4, -4, -4, -3, -3, -2, -2, -1, -1, 0
