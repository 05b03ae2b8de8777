; A small game for the Game Boy: walk over the field and collect coins before the time of a minute is over.
; It shows a background, a window, objects by DMA, the joypad, the VBlank interrupt and banked cartridge RAM: the best
; score with a check sum is kept in RAM bank 0, the frames and minutes that were played in RAM bank 1.
; Buttons: arrows to walk, Start for a new round. Once a round is over, PRESS START stands in the middle of the field.

joypad  equ $ff00
flags   equ $ff0f
lcdc    equ $ff40
ly      equ $ff44
dma     equ $ff46
bgp     equ $ff47
obp0    equ $ff48
wy      equ $ff4a
wx      equ $ff4b
enable  equ $ffff

objects equ $c100               ; what the DMA copies: player and coin
keys    equ $c000               ; the pressed buttons: Down, Up, Left, Right, Start, Select, B, A from bit 7
player_x equ $c001
player_y equ $c002
coin_x  equ $c003
coin_y  equ $c004
score   equ $c005               ; decimal
best    equ $c006               ; decimal
left    equ $c007               ; seconds of this round, decimal
frames  equ $c008               ; of this second
random  equ $c009
copy    equ $ff80               ; the DMA is waited for in HRAM

kept    equ $a000               ; in RAM bank 0: "B", the best score, and the sum of both
played  equ $a000               ; in RAM bank 1: "T", frames, seconds, minutes (low, high)

        org $40
        jp vblank
        org $100
        nop
        jp start
        org $134
        db "GBKEEP DEMO"
        org $147
        db $03, $00, $03        ; MBC1 with RAM and battery, 32 KiB of ROM, four banks of RAM

        org $150
start:  di
        ld sp, $fffe
wait:   ldh a, [ly]
        cp 144
        jr nz, wait
        xor a
        ldh [lcdc], a
        ld hl, $c000            ; WRAM and the shadow of OAM
        ld b, 0
        call clear
        ld hl, objects
        call clear
        ld hl, $fe00
        ld b, 160
        call clear
        ld hl, tiles
        ld de, $8000
        ld bc, tiles_end - tiles
        call move
        ld hl, wait_for_dma
        ld de, copy
        ld bc, wait_for_dma_end - wait_for_dma
        call move
        call draw_field
        ld hl, $9c00
        ld b, 32
        ld a, blank
        call fill
        ld hl, line
        ld de, $9c00
        ld bc, 20
        call move
        call load_best
        call begin_round
        ld a, %11100100
        ldh [bgp], a
        ldh [obp0], a
        ld a, 136
        ldh [wy], a
        ld a, 7
        ldh [wx], a
        ld a, %11110011         ; on, window map 9C00, window, tiles at 8000, objects, background
        ldh [lcdc], a
        xor a
        ldh [flags], a
        ld a, 1
        ldh [enable], a
        ei
forever: halt
        nop
        jr forever

vblank: push af
        push bc
        push de
        push hl
        call copy
        call read_keys
        call count_time
        ld a, [left]
        or a
        call nz, walk
        call meet
        call show
        ld a, [keys]
        bit 3, a
        call nz, begin_round
        pop hl
        pop de
        pop bc
        pop af
        reti

; ---- what is played

begin_round: xor a
        ld [score], a
        ld [frames], a
        ld a, $60
        ld [left], a
        ld a, 80
        ld [player_x], a
        ld [player_y], a
        call throw
        ld hl, field
        call say
        jp show

walk:   ld hl, player_x
        ld a, [keys]
        bit 4, a
        call nz, forth
        bit 5, a
        call nz, back
        inc hl
        bit 6, a
        call nz, back
        bit 7, a
        call nz, forth
        ld a, [player_x]        ; the field has a wall around it
        ld b, 16
        ld c, 152
        call within
        ld [player_x], a
        ld a, [player_y]
        ld b, 24
        ld c, 136
        call within
        ld [player_y], a
        ret
forth:  inc [hl]
        inc [hl]
        ret
back:   dec [hl]
        dec [hl]
        ret

within: cp b                    ; A, or what it may be at least (B) or at most (C)
        jr nc, not_below
        ld a, b
not_below: cp c
        ret c
        ld a, c
        ret

meet:   ld a, [player_x]        ; the coin is taken where both are less than 8 apart
        ld hl, coin_x
        call is_near
        ret nc
        ld a, [player_y]
        ld hl, coin_y
        call is_near
        ret nc
        ld a, [score]
        cp $99
        jr z, throw
        add a, 1
        daa
        ld [score], a
        ld b, a
        ld a, [best]
        cp b
        call c, keep_best
throw:  call next               ; a coin at another place
        and 127
        add a, 20
        ld [coin_x], a
        call next
        and 63
        add a, 40
        ld [coin_y], a
        ret

is_near: sub [hl]
        jr nc, is_positive
        cpl
        inc a
is_positive: cp 8
        ret

next:   ld a, [random]          ; a number of eight bits that comes again after 255 others
        or a
        jr nz, seeded
        ld a, $5a
seeded: srl a
        jr nc, shifted
        xor $b8
shifted: ld [random], a
        ret

count_time: ld a, [left]
        or a
        ret z
        call count_played
        ld a, [frames]
        inc a
        ld [frames], a
        cp 60
        ret nz
        xor a
        ld [frames], a
        ld a, [left]
        sub 1
        daa
        ld [left], a
        ret nz
        ld hl, over             ; the round is over
        jp say

read_keys: ld a, $20
        ldh [joypad], a
        ldh a, [joypad]
        ldh a, [joypad]
        cpl
        and $0f
        swap a                  ; Down, Up, Left, Right
        ld b, a
        ld a, $10
        ldh [joypad], a
        ldh a, [joypad]
        ldh a, [joypad]
        cpl
        and $0f                 ; Start, Select, B, A
        or b
        ld [keys], a
        ld a, $30
        ldh [joypad], a
        ret

; ---- what the battery keeps

open_ram: ld [$4000], a         ; bank A
        ld a, 1
        ld [$6000], a
        ld a, $0a
        ld [$0000], a
        ret
close_ram: xor a
        ld [$0000], a
        ret

load_best: xor a
        ld [best], a
        call open_ram
        ld hl, kept
        ld a, [hl+]
        cp $42
        jr nz, close_ram
        ld b, [hl]
        add a, b
        inc hl
        cp [hl]
        jr nz, close_ram
        ld a, b
        ld [best], a
        jr close_ram

keep_best: ld a, b
        ld [best], a
        xor a
        call open_ram
        ld hl, kept
        ld a, $42
        ld [hl+], a
        ld a, [best]
        ld [hl+], a
        add a, $42
        ld [hl], a
        jr close_ram

count_played: ld a, 1
        call open_ram
        ld hl, played
        ld a, $54
        cp [hl]
        jr z, was_played
        ld [hl+], a
        xor a
        ld [hl+], a
        ld [hl+], a
        ld [hl+], a
        ld [hl], a
        ld hl, played
was_played: inc hl
        ld c, 60
        call carry
        call nc, carry
        jr c, close_ram
        inc [hl]
        jr nz, close_ram
        inc hl
        inc [hl]
        jr close_ram
carry:  inc [hl]                ; carry is set where this place is not full
        ld a, [hl]
        cp c
        ret c
        xor a
        ld [hl+], a
        ret

; ---- what is shown

show:   ld hl, objects
        ld a, [player_y]
        ld [hl+], a
        ld a, [player_x]
        ld [hl+], a
        ld a, player
        ld [hl+], a
        inc hl
        ld a, [coin_y]
        ld [hl+], a
        ld a, [coin_x]
        ld [hl+], a
        ld a, [frames]          ; the coin turns
        and 16
        ld a, coin
        jr z, faces
        inc a
faces:  ld [hl+], a
        ld hl, $9c06
        ld a, [score]
        call digits
        ld hl, $9c0e
        ld a, [best]
        call digits
        ld hl, $9c12
        ld a, [left]
digits: ld b, a
        swap a
        and $0f
        ld [hl+], a
        ld a, b
        and $0f
        ld [hl], a
        ret

draw_field: ld hl, $9800
        ld c, 18
row:    ld b, 32
column: ld a, c
        cp 18
        jr z, is_wall
        cp 2
        jr z, is_wall
        ld a, b
        cp 32
        jr z, is_wall
        cp 13
        jr z, is_wall
        add a, c
        and 3
        ld a, grass
        jr nz, put
        ld a, flower
        jr put
is_wall: ld a, wall
put:    ld [hl+], a
        dec b
        jr nz, column
        dec c
        jr nz, row
        ret

say:    ld de, $9903            ; in the middle of the field
        ld b, over_end - over
letter: ld a, [hl+]
        ld [de], a
        inc e
        dec b
        jr nz, letter
        ret

clear:  xor a
fill:   ld [hl+], a
        dec b
        jr nz, fill
        ret

move:   ld a, [hl+]
        ld [de], a
        inc de
        dec bc
        ld a, b
        or c
        jr nz, move
        ret

wait_for_dma: ld a, high(objects)
        ldh [dma], a
        ld a, 40
still:  dec a
        jr nz, still
        ret
wait_for_dma_end:

blank   equ 10
letter_b equ 11
letter_c equ 12
letter_e equ 13
letter_o equ 14
letter_r equ 15
letter_s equ 16
letter_t equ 17
letter_a equ 18
letter_p equ 19
grass   equ 20
flower  equ 21
wall    equ 22
player  equ 23
coin    equ 24

line:   db letter_s, letter_c, letter_o, letter_r, letter_e, blank, 0, 0, blank, letter_b, letter_e, letter_s, letter_t, blank, 0, 0
        db blank, letter_t, 0, 0
over:   db blank, letter_p, letter_r, letter_e, letter_s, letter_s, blank, letter_s, letter_t, letter_a, letter_r, letter_t, blank
over_end:
field:  db grass, grass, grass, flower, grass, grass, grass, flower, grass, grass, grass, flower, grass

tiles:  tile "..###...", ".#...#..", ".#..##..", ".#.#.#..", ".##..#..", ".#...#..", "..###...", "........"
        tile "...#....", "..##....", "...#....", "...#....", "...#....", "...#....", "..###...", "........"
        tile "..###...", ".#...#..", ".....#..", "....#...", "...#....", "..#.....", ".#####..", "........"
        tile ".####...", ".....#..", ".....#..", "..###...", ".....#..", ".....#..", ".####...", "........"
        tile "....#...", "...##...", "..#.#...", ".#..#...", ".#####..", "....#...", "....#...", "........"
        tile ".#####..", ".#......", ".####...", ".....#..", ".....#..", ".#...#..", "..###...", "........"
        tile "..###...", ".#......", ".#......", ".####...", ".#...#..", ".#...#..", "..###...", "........"
        tile ".#####..", ".....#..", "....#...", "...#....", "..#.....", "..#.....", "..#.....", "........"
        tile "..###...", ".#...#..", ".#...#..", "..###...", ".#...#..", ".#...#..", "..###...", "........"
        tile "..###...", ".#...#..", ".#...#..", "..####..", ".....#..", ".....#..", "..###...", "........"
        tile "........", "........", "........", "........", "........", "........", "........", "........"
        tile ".####...", ".#...#..", ".#...#..", ".####...", ".#...#..", ".#...#..", ".####...", "........"
        tile "..###...", ".#...#..", ".#......", ".#......", ".#......", ".#...#..", "..###...", "........"
        tile ".#####..", ".#......", ".#......", ".####...", ".#......", ".#......", ".#####..", "........"
        tile "..###...", ".#...#..", ".#...#..", ".#...#..", ".#...#..", ".#...#..", "..###...", "........"
        tile ".####...", ".#...#..", ".#...#..", ".####...", ".#.#....", ".#..#...", ".#...#..", "........"
        tile "..####..", ".#......", ".#......", "..###...", ".....#..", ".....#..", ".####...", "........"
        tile ".#####..", "...#....", "...#....", "...#....", "...#....", "...#....", "...#....", "........"
        tile "..###...", ".#...#..", ".#...#..", ".#####..", ".#...#..", ".#...#..", ".#...#..", "........"
        tile ".####...", ".#...#..", ".#...#..", ".####...", ".#......", ".#......", ".#......", "........"
        tile "........", "........", "..-.....", "........", "........", ".....-..", "........", "........"
        tile "........", "...-....", "..-+-...", "...-....", "...+....", "..++....", "........", "........"
        tile "++++++++", "+-------", "+-------", "########", "++++++++", "---+----", "---+----", "########"
        tile "..####..", ".#++++#.", ".+#++#+.", "..++++..", ".######.", "#.####.#", "..#..#..", ".##..##."
        tile "..####..", ".#++++#.", "#+-++-+#", "#+-++-+#", "#+-++-+#", "#+-++-+#", ".#++++#.", "..####.."
        tile "...##...", "..#++#..", "..#--#..", "..#--#..", "..#--#..", "..#--#..", "..#++#..", "...##..."
tiles_end:
