"""The ROMs whose frames SPEED.md counts: each does one thing all the time, but for those that are as games are.

usage: build.py FOLDER     writes each as FOLDER/NAME.gb, of 32 KiB, and prints what it does
       build.py made       makes those anew that lie here beside their sources, where they are not as made (compiled.gb where sdcc 4.2.0 is installed)
       build.py check      the status is 1 where one is not as made

`ROMS` has the program of each, for the assembler of the demo. Those of `GAMES` lie here, beside their sources: an .asm for the assembler, or C."""
import subprocess
import sys
import tempfile
from pathlib import Path

from examples.demo.assemble import Assembler

HERE = Path(__file__).resolve().parent

NAMES = '''
joypad equ $ff00
div equ $ff04
tima equ $ff05
tma equ $ff06
tac equ $ff07
request equ $ff0f
lcdc equ $ff40
stat equ $ff41
scy equ $ff42
scx equ $ff43
ly equ $ff44
lyc equ $ff45
dma equ $ff46
bgp equ $ff47
obp0 equ $ff48
obp1 equ $ff49
wy equ $ff4a
wx equ $ff4b
flag equ $fff0
enable equ $ffff
table equ $2000
'''

SUMS = '''
again: add a, b
        inc b
        xor a, c
        ld c, a
        rl c
        inc hl
        jr again
'''

SHORT = 'inc b\n add a, b\n xor a, c\n ld c, a\n'

FOUR = 'again: ' + SHORT + 'jr again\n'

WAIT = 'again: halt\n jr again\n'

TABLE = 'org table\n' + ''.join(f'db {line * 5 % 64}\n' for line in range(256))

# SCX is what the table has for this line
BY_LINE = 'line: push af\n push hl\n ldh a, [ly]\n ld l, a\n ld h, high(table)\n ld a, [hl]\n ldh [scx], a\n'

LINE = BY_LINE + 'pop hl\n pop af\n reti\n'

# and LYC moves on
NEXT_LINE = BY_LINE + '''
        ld a, l
        inc a
        cp a, 144
        jr c, keep
        xor a
keep:   ldh [lyc], a
        pop hl
        pop af
        reti
'''


def at(place, code, before=''):
    """A program that begins at 0100 and goes on at another address of ROM."""
    return f'org $100\n nop\n jp begin\n org $150\nbegin:\n {before}\n jp start\n org {place}\nstart:\n {code}'


def low(code):
    return f'org $100\n nop\n jp start\n org $150\nstart:\n {code}'


def copied(place, code):
    """A program that copies itself, at most 64 bytes, to a place in RAM and goes on there."""
    return low(f'ld hl, code\n ld de, {place}\n ld b, 64\ncopy: ld a, [hl+]\n ld [de], a\n inc de\n dec b\n jr nz, copy\n jp {place}\ncode:\n {code}')


def set_to(register, value):
    return f'ld a, {value}\n ldh [{register}], a\n'


def stat_lines(source, handler, code):
    """An interrupt by a source of STAT, beside a program."""
    return 'org $48\n jp line\n' + low(set_to('stat', source) + set_to('enable', 2) + 'ei\n' + code + handler) + TABLE


DARK = set_to('lcdc', 0)

# the same bytes in each pass where B stays
WRITE_VRAM = '''
next:   ld a, l
        xor a, b
        ld [hl+], a
        ld a, h
        cp a, $a0
        jr nz, next
        jr again
'''

SAME_VRAM = 'again: ld hl, $8000\n' + WRITE_VRAM

OTHER_VRAM = 'again: ld hl, $8000\n inc b\n' + WRITE_VRAM

ADD_AND_COPY = '''
again:  ld hl, $c100
        ld de, $c200
        ld b, 64
        call row
        jr again
row:    ld a, [hl+]
        add a, c
        ld c, a
        ld [de], a
        inc de
        dec b
        jr nz, row
        ret
'''

COPY = '''
again:  ld hl, $c100
        ld de, $c200
        ld b, 0
next:   ld a, [hl+]
        ld [de], a
        inc de
        dec b
        jr nz, next
        jr again
'''

COUNTERS = '''
again:  ldh a, [$ff80]
        inc a
        ldh [$ff80], a
        jr nz, again
        ldh a, [$ff81]
        inc a
        ldh [$ff81], a
        jr again
'''

CHECK = '''
again:  ld hl, $c100
        ld b, 0
byte:   ld a, [hl+]
        xor a, e
        ld c, 8
bit:    srl d
        rra
        jr nc, even
        xor a, $a1
even:   dec c
        jr nz, bit
        ld e, a
        dec b
        jr nz, byte
        jr again
'''

RECORDS = '''
again:  ld hl, $c100
        ld b, 32
next:   ld a, [hl]
        add a, b
        ld [hl+], a
        ld a, [hl]
        inc a
        ld [hl+], a
        inc hl
        inc hl
        dec b
        jr nz, next
        jr again
'''

CALLS = '''
again:  ld bc, $1234
        push bc
        call twice
        pop de
        jr again
twice:  push hl
        call once
        call once
        pop hl
        ret
once:   inc hl
        ret
'''

SCROLLING = '''
        org $40
        push af
        ldh a, [scx]
        inc a
        ldh [scx], a
        ld a, $c1
        ldh [dma], a
        pop af
        reti
''' + low('''
        xor a
        ldh [lcdc], a
        ld hl, $8000
tiles:  ld a, l
        xor a, h
        ld [hl+], a
        ld a, h
        cp a, $a0
        jr nz, tiles
        ld hl, $c100
place:  ld a, l
        add a, a
        ld [hl+], a
        ld a, l
        cp a, $a0
        jr nz, place
        ld a, $e4
        ldh [bgp], a
        ldh [obp0], a
        ldh [obp1], a
''' + set_to('wx', 0x40) + set_to('wy', 0x20) + set_to('lcdc', 0xf3) + set_to('enable', 1) + 'ei\nagain: inc b\n add a, b\n jr again\n')

MAP_IN_VBLANK = '''
        org $40
        jp write
''' + low(set_to('enable', 1) + 'ei\n' + FOUR + '''
write:  push af
        push hl
        ld hl, $9800
        inc d
next:   ld a, l
        add a, d
        ld [hl+], a
        ld a, l
        cp a, 64
        jr nz, next
        pop hl
        pop af
        reti
''')

BANKS = 'org $147\n db $01\n' + low('''
again:  ld a, 1
        ld [$2000], a
        call far
        inc b
        jr again
        org $4100
far:    add a, b
        inc b
        xor a, c
        ld c, a
        rl c
        ret
''')

READ_STAT = low('''
again:  ldh a, [stat]
        and a, 3
        jr nz, again
        ldh a, [ly]
        ld b, a
        ld l, a
        ld h, high(table)
        ld a, [hl]
        ldh [scx], a
same:   ldh a, [ly]
        cp a, b
        jr z, same
        jr again
''') + TABLE

LY_WAIT = low('again: ldh a, [ly]\n cp a, 100\n jr nz, again\n inc b\nsame: ldh a, [ly]\n cp a, 100\n jr z, same\n jr again\n')

# waits until VBlank's interrupt sets the byte at HL and that of HRAM
BY_VBLANK = 'org $40\n jp vblank\n'

VBLANK = 'vblank: ld [hl], 1\n ld a, 1\n ldh [$fff0], a\n reti\n'

BEGIN = set_to('enable', 1) + 'ld hl, $c100\n ei\n'

POLL = 'again: xor a\n ldh [$fff0], a\nwait: ldh a, [$fff0]\n and a\n jr z, wait\n inc b\n jr again\n'

POLL_WRAM = 'again: xor a\n ld [$c100], a\nwait: ld a, [$c100]\n and a\n jr z, wait\n inc b\n jr again\n'

POLL_HL = 'again: ld [hl], 0\nwait: nop\n ld a, [hl]\n ld c, a\n cp a, 0\n ld d, a\n or a, c\n bit 0, c\n jr z, wait\n inc b\n jr again\n'

RASTER = 'org $48\n push af\n ldh a, [ly]\n ldh [scx], a\n pop af\n reti\n' + low(set_to('stat', 8) + set_to('enable', 2) + 'ei\n' + WAIT)

TIMER = 'org $50\n inc d\n reti\n' + low(set_to('tma', 240) + set_to('tac', 5) + set_to('enable', 4) + 'ei\n' + SUMS)

LYC_SUMS = 'org $48\n inc d\n reti\n' + low(set_to('lyc', 72) + set_to('stat', 0x40) + set_to('enable', 2) + 'ei\n' + SUMS)

ASK_LY = 'again: ldh a, [ly]\n cp a, 144\n jr nz, again\nsame: ldh a, [ly]\n cp a, 144\n jr z, same\n inc b\n jr again\n'
ASK_STAT = 'again: ldh a, [stat]\n and a, 3\n cp a, 1\n jr nz, again\nsame: ldh a, [stat]\n and a, 3\n cp a, 1\n jr z, same\n inc b\n jr again\n'
ASK_DIV = 'again: ldh a, [div]\n and a, 128\n jr z, again\nsame: ldh a, [div]\n and a, 128\n jr nz, same\n inc b\n jr again\n'
ASK_TIMA = set_to('tac', 4) + 'again: ldh a, [tima]\n and a, 128\n jr z, again\nsame: ldh a, [tima]\n and a, 128\n jr nz, same\n inc b\n jr again\n'
ASK_JOYPAD = set_to('joypad', 16) + 'again: ldh a, [joypad]\n and a, 15\n cp a, 15\n jr z, again\n inc b\n jr again\n'
ASK_REQUEST = set_to('request', 0) + 'again: ldh a, [request]\n and a, 1\n jr z, again\n' + set_to('request', 0) + 'inc b\n jr again\n'
COUNT_BYTE = 'again: ld b, 0\ndown: dec b\n jr nz, down\n inc c\n jr again\n'
COUNT_WORD = 'again: ld bc, 1000\ndown: dec bc\n ld a, b\n or a, c\n jr nz, down\n inc e\n jr again\n'

# work for some 7,200 M-cycles, and then a wait
WORK = '''
again:  ld b, 0
        ld c, 4
work:   add a, b
        xor a, c
        rlca
        dec b
        jr nz, work
        dec c
        jr nz, work
        xor a
        ldh [flag], a
wait:   ldh a, [flag]
        and a, a
        jr z, wait
        jr again
'''

ROMS = {
    'busy': ('a busy loop of sums, in the lower half of ROM', low('ld b, 3\n' + SUMS)),
    'busy_4100': ('the same at 4100, in the upper half', at('$4100', 'ld b, 3\n' + SUMS)),
    'busy_wram': ('the same in WRAM', copied('$c000', SUMS)),
    'busy_hram': ('the same in HRAM', copied('$ff80', SUMS)),
    'short': ('24 instructions of one M-cycle, and a jump', low('again: ' + SHORT * 6 + 'jr again\n')),
    'short_4200': ('the same at 4200', at('$4200', 'again: ' + SHORT * 6 + 'jr again\n')),
    'four': ('four instructions of one M-cycle, and a jump', low(FOUR)),
    'mode_0': ('that, and an interrupt by mode 0 in each line, which sets SCX', stat_lines(0x08, LINE, FOUR)),
    'mode_0_halt': ('the same interrupt, and HALT', stat_lines(0x08, LINE, WAIT)),
    'mode_2_halt': ('that by mode 2, and HALT', stat_lines(0x20, LINE, WAIT)),
    'lyc': ('the four, and an interrupt by LYC in each line, which sets SCX and LYC', stat_lines(0x40, NEXT_LINE, FOUR)),
    'lyc_halt': ('the same interrupt, and HALT', stat_lines(0x40, NEXT_LINE, WAIT)),
    'read_stat': ('no interrupt: reads STAT until mode 0, sets SCX, reads LY until it changes', READ_STAT),
    'vram': ('writes all of VRAM again and again, always the same bytes', low(SAME_VRAM)),
    'vram_other': ('other bytes in each pass', low(OTHER_VRAM)),
    'vram_dark': ('the same, LCD off', low(DARK + OTHER_VRAM)),
    'map': ('64 bytes to the tile map in each VBlank, beside the four', MAP_IN_VBLANK),
    'scrolling': ('background, window and 40 objects that scroll', SCROLLING),
    'raster': ('HALT, and an interrupt by mode 0 in each line that sets SCX by LY', RASTER),
    'halting': ('halts until each VBlank interrupt', 'org $40\n reti\n' + low(set_to('enable', 1) + 'ei\n' + WAIT)),
    'banks': ('calls from 0150 to 4100, a bank chosen each time', BANKS),
    'sums': ('sums and copies in WRAM, with calls', low(ADD_AND_COPY)),
    'sums_4100': ('the same at 4100', at('$4100', ADD_AND_COPY)),
    'copy': ('copies within WRAM', low(COPY)),
    'counters': ('counters in HRAM', low(COUNTERS)),
    'check': ('a cyclic redundancy check', low(CHECK)),
    'records': ('records in WRAM', low(RECORDS)),
    'calls': ('calls and returns, values on the stack', low(CALLS)),
    'tac': ('the busy loop, TAC 05', low(set_to('tac', 5) + SUMS)),
    'timer': ('the busy loop, a timer interrupt every 64 M-cycles', TIMER),
    'one_line': ('the busy loop, a STAT interrupt at one line', LYC_SUMS),
    'poll': ('waits for VBlank by a byte of HRAM', BY_VBLANK + low(BEGIN + POLL + VBLANK)),
    'poll_4100': ('by one of WRAM, at 4100', BY_VBLANK + at('$4100', POLL_WRAM + VBLANK, BEGIN)),
    'poll_wram': ('by one of HRAM, in WRAM', BY_VBLANK + copied('$c000', BEGIN + POLL + VBLANK)),
    'poll_hram': ('by one of HRAM, in HRAM', BY_VBLANK + copied('$ff80', BEGIN + POLL + VBLANK)),
    'poll_long': ('by the byte at HL, in a loop of eight instructions', BY_VBLANK + low(BEGIN + POLL_HL + VBLANK)),
    'ly_wait': ('waits for a line by reading LY', LY_WAIT),
    'dark': ('the busy loop, LCD off', low(DARK + SUMS)),
    'dark_tac': ('the same with TAC 05', low(DARK + set_to('tac', 5) + SUMS)),
    'dark_4100': ('the same at 4100', at('$4100', SUMS, DARK)),
    'work': ('sums for two fifths of a frame, then waits for the flag', BY_VBLANK + low(BEGIN + WORK + VBLANK)),
    'ask_ly': ('waits for VBlank by reading LY', low(ASK_LY)),
    'ask_stat': ('by reading the mode in STAT', low(ASK_STAT)),
    'ask_div': ('waits for DIV', low(ASK_DIV)),
    'ask_tima': ('waits for TIMA', low(ASK_TIMA)),
    'ask_joypad': ('waits for a button by reading P1', low(ASK_JOYPAD)),
    'ask_request': ('waits for VBlank by reading IF', low(ASK_REQUEST)),
    'count_byte': ('counts B down', low(COUNT_BYTE)),
    'count_word': ('counts BC down', low(COUNT_WORD)),
}


GAMES = {
    'game': 'a game: actors, DMA, a status window by LYC, music by the timer, half a frame of work, HALT',
    'wave': 'an effect in each line by LYC, beside work that fills the frame',
    'unpack': 'unpacks blocks by far calls into another bank',
    'compiled': 'a main loop in C by sdcc: records, text, a sort, sums and products of 32 bits',
}


def what(name):
    """What a ROM does, in a line."""
    return GAMES.get(name) or ROMS[name][0]


def write(folder):
    """Writes each ROM, and answers where it lies."""
    folder.mkdir(parents=True, exist_ok=True)
    carts = {name: folder / f'{name}.gb' for name in [*ROMS, *GAMES]}
    for name, cart in carts.items():
        cart.write_bytes((HERE / f'{name}.gb').read_bytes() if name in GAMES else Assembler().assemble(NAMES + ROMS[name][1]))
    return carts


def compiled():
    """The ROM of compiled.c and compiled.s."""
    with tempfile.TemporaryDirectory(prefix='speed-') as room:
        def run(*words):
            subprocess.run(words, cwd=room, check=True)

        run('sdasgb', '-o', 'start.rel', str(HERE / 'compiled.s'))
        run('sdcc', '-msm83', '-c', '-o', 'main.rel', str(HERE / 'compiled.c'))
        run('sdcc', '-msm83', '--no-std-crt0', '--code-loc', '0x0200', '--data-loc', '0xc000', '-o', 'main.ihx', 'start.rel', 'main.rel')
        rom = bytearray(0x8000)
        for line in Path(room, 'main.ihx').read_text().split():
            record = bytes.fromhex(line[1:])
            if record[3] == 0:
                at = int.from_bytes(record[1:3], 'big')
                rom[at:at + record[0]] = record[4:-1]
        if len(rom) != 0x8000:
            sys.exit('build.py: compiled.c is more than 32 KiB')
        rom[0x14d] = -sum(byte + 1 for byte in rom[0x134:0x14d]) & 255
        return bytes(rom)


def made(name):
    """What the sources of a game make, or None where there is no sdcc for it."""
    from scripts.doctor import tries
    if name == 'compiled':
        return compiled() if tries(f'{name}.gb, made anew', 'sdcc') else None
    return bytes(Assembler().assemble((HERE / f'{name}.asm').read_text()))


def make(is_check):
    """Makes the games that are not as their sources make them, and tells which; or tells which are not."""
    status = 0
    for name in GAMES:
        rom, path = made(name), HERE / f'{name}.gb'
        if rom is not None and (not path.exists() or path.read_bytes() != rom):
            print(f'{path.name}: ' + ('not as its source makes it' if is_check else 'made anew'))
            status = 1
            if not is_check:
                new = path.with_name(f'.{path.name}.new')
                new.write_bytes(rom)
                new.replace(path)
    return status if is_check else 0


def main():
    if len(sys.argv) != 2:
        sys.exit(__doc__)
    if sys.argv[1] in ('made', 'check'):
        return make(sys.argv[1] == 'check')
    for name, cart in write(Path(sys.argv[1])).items():
        print(f'{cart.name:16} {what(name)}')


if __name__ == '__main__':
    sys.exit(main())
