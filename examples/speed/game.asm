; A game as most are built: eight actors with a move table each, whose objects a DMA copies in each VBlank, a window as status line that LYC
; switches on and off, music by the timer, work of about half a frame, and HALT until the next VBlank.

joypad  equ $ff00
tima    equ $ff05
tma     equ $ff06
tac     equ $ff07
flags   equ $ff0f
square  equ $ff12               ; the volume of channel 1: what the music writes to
pitch   equ $ff13
lcdc    equ $ff40
stat    equ $ff41
scx     equ $ff43
ly      equ $ff44
lyc     equ $ff45
dma     equ $ff46
bgp     equ $ff47
obp0    equ $ff48
wy      equ $ff4a
wx      equ $ff4b
enable  equ $ffff

objects equ $c100               ; what the DMA copies: four objects for each actor, and eight more
actors  equ $c200               ; for each: x, y, phase, health, kind, timer, and two bytes that are free
map     equ $c300               ; 256 bytes of walls
done    equ $ff90               ; 1 behind the work of a frame's VBlank
note    equ $ff91
ticks   equ $ff92
frame   equ $ff93
keys    equ $ff94
hits    equ $ff95
copy    equ $ff80

        org $40
        jp vblank
        org $48
        jp line
        org $50
        jp music
        org $100
        nop
        jp start
        org $134
        db "GBKEEP GAME"
        org $150
start:  di
        ld sp, $dffe
wait:   ldh a, [ly]
        cp 144
        jr nz, wait
        xor a
        ldh [lcdc], a
        ld hl, $8000            ; tiles
tiles:  ld a, l
        xor a, h
        rrca
        ld [hl+], a
        ld a, h
        cp a, $98
        jr nz, tiles
field:  ld a, l                 ; both maps
        and a, 63
        ld [hl+], a
        ld a, h
        cp a, $a0
        jr nz, field
        ld hl, $c000
clear:  xor a
        ld [hl+], a
        ld a, h
        cp a, $c4
        jr nz, clear
        ld hl, map
walls:  ld a, l
        swap a
        add a, l
        and a, $11
        ld [hl+], a
        ld a, h
        cp a, high(map) + 1
        jr nz, walls
        ld hl, actors
        ld b, 8
born:   ld a, b                 ; x
        swap a
        ld [hl+], a
        ld a, b                 ; y
        add a, a
        add a, a
        add a, a
        add a, 32
        ld [hl+], a
        ld a, b                 ; phase
        rrca
        ld [hl+], a
        ld a, 100               ; health
        ld [hl+], a
        ld a, b                 ; kind
        and a, 3
        ld [hl+], a
        inc hl
        inc hl
        inc hl
        dec b
        jr nz, born
        ld hl, wait_for_dma
        ld de, copy
        ld b, wait_for_dma_end - wait_for_dma
move:   ld a, [hl+]
        ld [de], a
        inc de
        dec b
        jr nz, move
        xor a
        ldh [frame], a
        ldh [note], a
        ldh [ticks], a
        ldh [hits], a
        ld a, %11100100
        ldh [bgp], a
        ldh [obp0], a
        ld a, 128
        ldh [wy], a
        ldh [lyc], a
        ld a, 7
        ldh [wx], a
        ld a, $40
        ldh [stat], a
        ld a, 192               ; each 64th count at 4,096 Hz
        ldh [tma], a
        ldh [tima], a
        ld a, 4
        ldh [tac], a
        ld a, %10010011
        ldh [lcdc], a
        xor a
        ldh [flags], a
        ld a, 7
        ldh [enable], a
        ei

again:  call read_keys
        ld b, 4                 ; four moves a frame
rules:  push bc
        call move_actors
        call meet
        pop bc
        dec b
        jr nz, rules
        call show
        call sort
        xor a
        ldh [done], a
rest:   halt
        ldh a, [done]
        or a
        jr z, rest
        jr again

; ---- interrupts

vblank: push af
        push hl
        call copy
        ldh a, [frame]
        inc a
        ldh [frame], a
        ldh [scx], a
        ld a, 128
        ldh [lyc], a
        ld hl, lcdc
        res 5, [hl]
        ld a, 1
        ldh [done], a
        pop hl
        pop af
        reti

; the status line: the window from line 128 on, without objects
line:   push af
        push hl
        ld hl, lcdc
        set 5, [hl]
        xor a
        ldh [scx], a
        pop hl
        pop af
        reti

; a note each eight ticks, its volume in each
music:  push af
        push hl
        push de
        ldh a, [ticks]
        inc a
        ldh [ticks], a
        ld d, a
        and a, 7
        jr nz, volume
        ldh a, [note]
        inc a
        and a, 31
        ldh [note], a
        ld e, a
        ld d, 0
        ld hl, tune
        add hl, de
        ld a, [hl]
        ldh [pitch], a
        jr played
volume: ld a, d
        and a, 7
        swap a
        cpl
        ldh [square], a
played: pop de
        pop hl
        pop af
        reti

; ---- the work of a frame

read_keys: ld a, $20
        ldh [joypad], a
        ldh a, [joypad]
        ldh a, [joypad]
        cpl
        and a, 15
        ld b, a
        ld a, $10
        ldh [joypad], a
        ldh a, [joypad]
        ldh a, [joypad]
        cpl
        and a, 15
        swap a
        or a, b
        ldh [keys], a
        ld a, $30
        ldh [joypad], a
        ret

; each actor goes by the table of its kind, unless a wall is there
move_actors: ld hl, actors
        ld c, 8
actor:  push bc
        push hl
        ld d, h
        ld e, l                 ; DE: x
        inc hl
        inc hl
        inc [hl]                ; phase
        ld a, [hl]
        rrca
        rrca
        and a, 15
        ld b, a
        inc hl
        inc hl
        ld a, [hl]              ; kind
        swap a
        add a, b
        ld c, a
        ld b, 0
        ld hl, moves
        add hl, bc
        ld b, [hl]              ; how far
        ld a, [de]
        add a, b
        ld c, a                 ; x there
        inc de
        ld a, [de]
        add a, b
        and a, $f0
        ld b, a
        ld a, c
        swap a
        and a, $0f
        or a, b
        ld l, a
        ld h, high(map)
        ld a, [hl]
        or a
        jr nz, stays
        ld a, [de]
        inc a
        and a, 127
        ld [de], a
        dec de
        ld a, c
        ld [de], a
stays:  pop hl
        ld de, 8
        add hl, de
        pop bc
        dec c
        jr nz, actor
        ret

; each pair that is near loses health
meet:   ld hl, actors
        ld b, 7
first:  push hl
        ld a, [hl+]
        ld d, a                 ; x
        ld e, [hl]              ; y
        ld a, l
        add a, 7
        ld l, a                 ; the next actor's x
        ld c, b
second: ld a, [hl+]
        sub a, d
        jr nc, right
        cpl
        inc a
right:  cp a, 8
        jr nc, far
        ld a, [hl]
        sub a, e
        jr nc, below
        cpl
        inc a
below:  cp a, 8
        jr nc, far
        ldh a, [hits]
        inc a
        ldh [hits], a
        inc hl
        inc hl
        dec [hl]
        dec hl
        dec hl
far:    ld a, l
        add a, 7
        ld l, a
        dec c
        jr nz, second
        pop hl
        ld a, l
        add a, 8
        ld l, a
        dec b
        jr nz, first
        ret

; four objects for each actor
show:   ld hl, actors
        ld de, objects
        ld b, 8
shown:  push bc
        ld a, [hl+]
        ld c, a                 ; x
        ld b, [hl]              ; y
        inc hl
        inc hl
        inc hl
        ld a, [hl]              ; kind
        add a, a
        add a, a
        inc hl
        inc hl
        inc hl
        inc hl
        push hl
        ld h, a                 ; tile
        call object
        ld a, c
        add a, 8
        ld c, a
        inc h
        call object
        ld a, b
        add a, 8
        ld b, a
        inc h
        call object
        ld a, c
        sub a, 8
        ld c, a
        inc h
        call object
        pop hl
        pop bc
        dec b
        jr nz, shown
        ret

object: ld a, b
        ld [de], a
        inc de
        ld a, c
        ld [de], a
        inc de
        ld a, h
        ld [de], a
        inc de
        xor a
        ld [de], a
        inc de
        ret

; the order of the actors by y, by exchange, in 16 bytes
sort:   ld de, $c280
        ld hl, actors + 1
        ld b, 8
taken:  ld a, [hl]
        ld [de], a
        inc de
        ld a, b
        ld [de], a
        inc de
        ld a, l
        add a, 8
        ld l, a
        dec b
        jr nz, taken
        ld c, 7
round:  ld hl, $c280
        ld b, c
pair:   ld a, [hl+]
        ld d, a
        ld a, [hl+]
        ld e, a
        ld a, [hl]
        cp a, d
        jr nc, ordered
        push bc
        ld b, a
        inc hl
        ld a, [hl]
        ld [hl], e
        dec hl
        ld [hl], d
        dec hl
        ld [hl-], a
        ld [hl], b
        inc hl
        inc hl
        pop bc
ordered: dec b
        jr nz, pair
        dec c
        jr nz, round
        ret

wait_for_dma: ld a, high(objects)
        ldh [dma], a
        ld a, 40
waiting: dec a
        jr nz, waiting
        ret
wait_for_dma_end: nop

tune:   db 1, 5, 9, 5, 1, 5, 9, 5, 3, 7, 11, 7, 3, 7, 11, 7, 4, 8, 12, 8, 4, 8, 12, 8, 2, 6, 10, 6, 2, 6, 10, 6
moves:  db 1, 1, 1, 0, 0, -1, -1, -1, 1, 1, 1, 0, 0, -1, -1, -1
        db 0, 1, 0, 1, 0, 1, 0, 1, 0, -1, 0, -1, 0, -1, 0, -1
        db 2, 2, 0, 0, 1, 1, 0, 0, -2, -2, 0, 0, -1, -1, 0, 0
        db -1, -1, -1, -1, 0, 0, 0, 0, 1, 1, 1, 1, 0, 0, 0, 0
