"""A second machine, written from the rules and tables that docs/MACHINE.md restates, by somebody who had not seen the
emulator's code, definitions or documents. Simple and literal, one M-cycle after the other: it is what `make compare` compares
with. Joypad, frames, seconds of the clock and the lines of a trace were added later, from docs/MACHINE.md, by somebody who had read
of the code only the debugger and the program; the pixels, from docs/MACHINE.md and docs/COMMANDS.md, by somebody who had read of the
crates of the picture what their public calls take. They are drawn only where `draws` is set, since nothing else depends on them."""
import sys

# ---------------------------------------------------------------- header

class Refused(Exception):
    pass

KINDS = {}
for t in (0x00, 0x08, 0x09): KINDS[t] = ('none', 2)
for t in (0x01, 0x02, 0x03): KINDS[t] = ('MBC1', 128)
for t in (0x05, 0x06): KINDS[t] = ('MBC2', 16)
for t in (0x0F, 0x10): KINDS[t] = ('MBC3+clock', 128)
for t in (0x11, 0x12, 0x13): KINDS[t] = ('MBC3', 128)
for t in range(0x19, 0x1F): KINDS[t] = ('MBC5', 512)
RAMS = {0x00: 0, 0x02: 8, 0x03: 32, 0x04: 128, 0x05: 64}


def check(rom):
    n = len(rom)
    if n > 8388609:
        n = 8388609         # ROMs are read up to 8 MiB and one byte
    k = 32768
    ok = False
    while k <= 8 * 1024 * 1024:
        if n == k:
            ok = True
        k *= 2
    if not ok:
        raise Refused('rom length %d' % n)
    t = rom[0x147]
    if t not in KINDS:
        raise Refused('cartridge type %02X' % t)
    name, most = KINDS[t]
    if name == 'MBC2':
        ram = 512
    else:
        if rom[0x149] not in RAMS:
            raise Refused('ram code %02X' % rom[0x149])
        ram = RAMS[rom[0x149]] * 1024
    banks = n // 16384
    if banks > most:
        raise Refused('too many banks %d' % banks)
    return name, banks, ram


def info_text(rom):
    name, banks, ram = check(rom)
    title = bytes(rom[0x134:0x144])
    if 0 in title:
        title = title[:title.index(0)]
    tt = ''.join(chr(b) if 0x20 <= b <= 0x7E else '.' for b in title)
    x = 0
    for i in range(0x134, 0x14D):
        x = (x - rom[i] - 1) % 256
    length = 22607 + ram
    sectors = 2 + 2 * (32 + (length + 511) // 512)
    return ('title [%s]\ntype %02X %s\nrom %d bytes %d banks code %02X\nram %d bytes code %02X\n'
            'checksum stored %02X computed %02X\nsectors %d\n'
            % (tt, rom[0x147], name, len(rom), banks, rom[0x148], ram, rom[0x149],
               rom[0x14D], x, sectors))

# ---------------------------------------------------------------- decoder for texts

R = ['B', 'C', 'D', 'E', 'H', 'L', '(HL)', 'A']
RP = ['BC', 'DE', 'HL', 'SP']
RS = ['BC', 'DE', 'HL', 'AF']
CC = ['NZ', 'Z', 'NC', 'C']
OP = ['ADD', 'ADC', 'SUB', 'SBC', 'AND', 'XOR', 'OR', 'CP']
ROT = ['RLC', 'RRC', 'RL', 'RR', 'SLA', 'SRA', 'SWAP', 'SRL']
UNDEF = {0xD3, 0xDB, 0xDD, 0xE3, 0xE4, 0xEB, 0xEC, 0xED, 0xF4, 0xFC, 0xFD}


def signed(b):
    return b - 256 if b >= 128 else b


def etext(b):
    s = signed(b)
    return '%s%02X' % ('-' if s < 0 else '+', abs(s))


def text(b):
    """b: three bytes. Gives (length, text)."""
    o = b[0]
    n8 = '%02X' % b[1]
    n16 = '%04X' % (b[1] + 256 * b[2])
    e = etext(b[1])
    if o in UNDEF:
        return 1, 'UNDEFINED %02X' % o
    x, y, z = o >> 6, (o >> 3) & 7, o & 7
    p, q = y >> 1, y & 1
    if x == 0:
        if z == 0:
            if y == 0: return 1, 'NOP'
            if y == 1: return 3, 'LD (%s),SP' % n16
            if y == 2: return 2, 'STOP'
            if y == 3: return 2, 'JR ' + e
            return 2, 'JR %s,%s' % (CC[y - 4], e)
        if z == 1:
            if q == 0: return 3, 'LD %s,%s' % (RP[p], n16)
            return 1, 'ADD HL,' + RP[p]
        if z == 2:
            m = ['(BC)', '(DE)', '(HL+)', '(HL-)'][p]
            return 1, ('LD A,' + m) if q else ('LD %s,A' % m)
        if z == 3: return 1, ('DEC ' if q else 'INC ') + RP[p]
        if z == 4: return 1, 'INC ' + R[y]
        if z == 5: return 1, 'DEC ' + R[y]
        if z == 6: return 2, 'LD %s,%s' % (R[y], n8)
        return 1, ['RLCA', 'RRCA', 'RLA', 'RRA', 'DAA', 'CPL', 'SCF', 'CCF'][y]
    if x == 1:
        if o == 0x76: return 1, 'HALT'
        return 1, 'LD %s,%s' % (R[y], R[z])
    if x == 2:
        return 1, '%s A,%s' % (OP[y], R[z])
    if z == 0:
        if y < 4: return 1, 'RET ' + CC[y]
        if y == 4: return 2, 'LDH (%s),A' % n8
        if y == 5: return 2, 'ADD SP,' + e
        if y == 6: return 2, 'LDH A,(%s)' % n8
        return 2, 'LD HL,SP' + e
    if z == 1:
        if q == 0: return 1, 'POP ' + RS[p]
        return 1, ['RET', 'RETI', 'JP HL', 'LD SP,HL'][p]
    if z == 2:
        if y < 4: return 3, 'JP %s,%s' % (CC[y], n16)
        if y == 4: return 1, 'LD (C),A'
        if y == 5: return 3, 'LD (%s),A' % n16
        if y == 6: return 1, 'LD A,(C)'
        return 3, 'LD A,(%s)' % n16
    if z == 3:
        if y == 0: return 3, 'JP ' + n16
        if y == 1:
            c = b[1]
            x, y, z = c >> 6, (c >> 3) & 7, c & 7
            if x == 0: return 2, '%s %s' % (ROT[y], R[z])
            return 2, '%s %d,%s' % (['', 'BIT', 'RES', 'SET'][x], y, R[z])
        if y == 6: return 1, 'DI'
        return 1, 'EI'
    if z == 4: return 3, 'CALL %s,%s' % (CC[y], n16)
    if z == 5:
        if q == 0: return 1, 'PUSH ' + RS[p]
        return 3, 'CALL ' + n16
    if z == 6: return 2, '%s A,%s' % (OP[y], n8)
    return 1, 'RST %02X' % (8 * y)


def list_line(addr, b):
    length, t = text(b)
    return '%04X %-6s %s\n' % (addr, ''.join('%02X' % v for v in b[:length]), t)


def list_text(rom, addr, count):
    m = Machine(rom)
    out = []
    for _ in range(count):
        b = [m.read((addr + i) & 0xFFFF, peek=True) for i in range(3)]
        out.append(list_line(addr, b))
        addr = (addr + text(b)[0]) & 0xFFFF
    return ''.join(out)

# ---------------------------------------------------------------- machine

TIMERBIT = [1 << 9, 1 << 3, 1 << 5, 1 << 7]
B, C, D, E, H, L, MEM, A = range(8)      # indices by r; 6 is used to hold F below
F = 6


class Machine:
    def __init__(self, rom):
        self.rom = bytes(rom)
        self.kind, self.banks, self.ramlen = check(rom)
        self.rumble = rom[0x147] in (0x1C, 0x1D, 0x1E)
        self.cram = bytearray(self.ramlen)
        # processor
        self.r = [0x00, 0x13, 0x00, 0xD8, 0x01, 0x4D, 0x80 if rom[0x14D] == 0 else 0xB0, 0x01]
        self.sp = 0xFFFE
        self.pc = 0x0100
        self.ime = 0
        self.enable = False
        self.repeat = False
        self.halted = False
        self.stopped = False
        self.locked = False
        # memory
        self.vram = bytearray(8192)
        self.wram = bytearray(8192)
        self.oam = bytearray(160)
        self.hram = bytearray(127)
        self.sound = bytearray(48)
        self.ie = 0
        self.iflag = 0x01
        self.p1 = 0x00
        self.buttons = 0x00
        self.overrun = 0
        # timer
        self.counter = 0xAB00
        self.tima = 0
        self.tma = 0
        self.tac = 0
        # serial
        self.sb = 0
        self.sc = 0
        self.left = 0
        self.sent = bytearray()         # what left over the serial port
        # dma
        self.dma = 0xFF
        self.copied = 160
        # picture
        self.lcdc = 0x91
        self.stat = 0
        self.scy = self.scx = self.lyc = 0
        self.bgp = 0xFC
        self.obp0 = self.obp1 = 0xFF
        self.wy = self.wx = 0
        self.line_ = 0
        self.mc = 0
        self.statsig = False
        self.draws = False
        self.seen = True
        self.window_line = 0
        self.shades = [[0] * 160 for _ in range(144)]
        # controller
        self.ramon = False
        self.lower = 1
        self.bank = 1
        self.upper = 0
        self.mode1 = 0
        self.select = 0
        self.rambank = 0
        self.armed = False
        self.live = [0, 0, 0, 0, 0]
        self.latched = [0, 0, 0, 0, 0]
        self.cycles = 0
        self.ops = build(self)
        self.what = ''

    # ---- controller
    def rom_bank(self, a):
        """The number of the bank at an address of ROM."""
        if a < 0x4000:
            b = self.upper * 32 if self.kind == 'MBC1' and self.mode1 else 0
        elif self.kind == 'none': b = 1
        elif self.kind == 'MBC1': b = self.upper * 32 + self.lower
        else: b = self.bank
        return b % self.banks

    def rom_read(self, a):
        return self.rom[self.rom_bank(a) * 16384 + a % 16384]

    def bank_at(self, a):
        """The number of the bank at an address; 0 where there is none, as where the cartridge's RAM is shut or shows its clock."""
        if a < 0x8000: return self.rom_bank(a)
        place = self.cram_place(a) if 0xA000 <= a < 0xC000 else None
        return place // 8192 if isinstance(place, int) else 0

    def rom_write(self, a, v):
        k = self.kind
        if k == 'none':
            return
        if k == 'MBC1':
            if a < 0x2000: self.ramon = (v & 15) == 10
            elif a < 0x4000:
                self.lower = v & 31
                if self.lower == 0: self.lower = 1
            elif a < 0x6000: self.upper = v & 3
            else: self.mode1 = v & 1
        elif k == 'MBC2':
            if a < 0x4000:
                if a & 0x100:
                    self.bank = v & 15
                    if self.bank == 0: self.bank = 1
                else:
                    self.ramon = (v & 15) == 10
        elif k in ('MBC3', 'MBC3+clock'):
            if a < 0x2000: self.ramon = (v & 15) == 10
            elif a < 0x4000:
                self.bank = v & 127
                if self.bank == 0: self.bank = 1
            elif a < 0x6000: self.select = v & 15
            elif k == 'MBC3+clock':
                if v == 0x00:
                    self.armed = True
                else:
                    if v == 0x01 and self.armed:
                        self.latched = list(self.live)
                    self.armed = False
        else:
            if a < 0x2000: self.ramon = (v & 15) == 10
            elif a < 0x3000: self.bank = (self.bank & 0x100) | v
            elif a < 0x4000: self.bank = (self.bank & 0xFF) | ((v & 1) << 8)
            elif a < 0x6000: self.rambank = v & (7 if self.rumble else 15)

    def cram_place(self, a):
        """None: nothing there; ('c', i): clock register; otherwise offset in RAM."""
        k = self.kind
        a -= 0xA000
        if k != 'none' and not self.ramon:
            return None
        if k == 'MBC3' or k == 'MBC3+clock':
            s = self.select
            if s >= 8:
                if k == 'MBC3+clock' and s <= 12:
                    return ('c', s - 8)
                return None
            b = s
        elif k == 'MBC1':
            b = self.upper if self.mode1 else 0
        elif k == 'MBC5':
            b = self.rambank
        else:
            b = 0
        if self.ramlen == 0:
            return None
        if k == 'MBC2':
            return a % 512
        return (b % (self.ramlen // 8192)) * 8192 + a

    def cram_read(self, a):
        p = self.cram_place(a)
        if p is None:
            return 0xFF
        if isinstance(p, tuple):
            return self.latched[p[1]]
        if self.kind == 'MBC2':
            return 0xF0 | self.cram[p]
        return self.cram[p]

    def cram_write(self, a, v):
        p = self.cram_place(a)
        if p is None:
            return
        if isinstance(p, tuple):
            v &= (63, 63, 31, 255, 0xC1)[p[1]]
            self.live[p[1]] = v
            self.latched[p[1]] = v
            return
        if self.kind == 'MBC2':
            v &= 15
        self.cram[p] = v

    # ---- bus
    def mode(self):
        if not self.lcdc & 0x80: return 0
        if self.line_ >= 144: return 1
        if self.mc < 20: return 2
        if self.mc < 63: return 3
        return 0

    def read(self, a, peek=False):
        if a < 0x8000: return self.rom_read(a)
        if a < 0xA000:
            if not peek and self.mode() == 3: return 0xFF
            return self.vram[a - 0x8000]
        if a < 0xC000: return self.cram_read(a)
        if a < 0xE000: return self.wram[a - 0xC000]
        if a < 0xFE00: return self.wram[a - 0xE000]
        if a < 0xFEA0:
            if not peek and (self.copied < 160 or self.mode() >= 2): return 0xFF
            return self.oam[a - 0xFE00]
        if a < 0xFF00: return 0
        if a == 0xFFFF: return self.ie
        if a >= 0xFF80: return self.hram[a - 0xFF80]
        if a == 0xFF00: return 0xC0 | self.p1 | self.nibble()
        if a == 0xFF01: return self.sb
        if a == 0xFF02: return 0x7E | self.sc
        if a == 0xFF04: return self.counter >> 8
        if a == 0xFF05: return self.tima
        if a == 0xFF06: return self.tma
        if a == 0xFF07: return 0xF8 | self.tac
        if a == 0xFF0F: return 0xE0 | self.iflag
        if 0xFF10 <= a < 0xFF40: return self.sound[a - 0xFF10]
        if a == 0xFF40: return self.lcdc
        if a == 0xFF41:
            return 0x80 | self.stat | (4 if self.line_ == self.lyc else 0) | self.mode()
        if a == 0xFF42: return self.scy
        if a == 0xFF43: return self.scx
        if a == 0xFF44: return self.line_
        if a == 0xFF45: return self.lyc
        if a == 0xFF46: return self.dma
        if a == 0xFF47: return self.bgp
        if a == 0xFF48: return self.obp0
        if a == 0xFF49: return self.obp1
        if a == 0xFF4A: return self.wy
        if a == 0xFF4B: return self.wx
        return 0xFF

    def write(self, a, v):
        if a < 0x8000: self.rom_write(a, v)
        elif a < 0xA000:
            if self.mode() != 3: self.vram[a - 0x8000] = v
        elif a < 0xC000: self.cram_write(a, v)
        elif a < 0xE000: self.wram[a - 0xC000] = v
        elif a < 0xFE00: self.wram[a - 0xE000] = v
        elif a < 0xFEA0:
            if self.copied >= 160 and self.mode() < 2: self.oam[a - 0xFE00] = v
        elif a < 0xFF00: pass
        elif a == 0xFFFF: self.ie = v
        elif a >= 0xFF80: self.hram[a - 0xFF80] = v
        elif a == 0xFF00:
            old = self.nibble()
            self.p1 = v & 0x30
            self.joypad(old)
        elif a == 0xFF01: self.sb = v
        elif a == 0xFF02:
            self.sc = v & 0x81
            self.left = 1024 if self.sc == 0x81 else 0
        elif a == 0xFF04: self.div_write()
        elif a == 0xFF05: self.tima = v
        elif a == 0xFF06: self.tma = v
        elif a == 0xFF07:
            old = self.timer_signal()
            self.tac = v & 7
            if old and not self.timer_signal(): self.tima_up()
        elif a == 0xFF0F: self.iflag = v & 31
        elif 0xFF10 <= a < 0xFF40: self.sound[a - 0xFF10] = v
        elif a == 0xFF40:
            old = self.lcdc
            self.lcdc = v
            if (old ^ v) & 0x80:
                self.line_ = 0
                self.mc = 0
                self.window_line = 0
                self.seen = bool(v & 0x80) and self.wy == 0
                if not v & 0x80:
                    self.statsig = False
                    self.shades = [[0] * 160 for _ in range(144)]
            self.take_stat()
        elif a == 0xFF41:
            self.stat = v & 0x78
            self.take_stat()
        elif a == 0xFF42: self.scy = v
        elif a == 0xFF43: self.scx = v
        elif a == 0xFF45:
            self.lyc = v
            self.take_stat()
        elif a == 0xFF46:
            self.dma = v
            self.copied = 0
        elif a == 0xFF47: self.bgp = v
        elif a == 0xFF48: self.obp0 = v
        elif a == 0xFF49: self.obp1 = v
        elif a == 0xFF4A: self.wy = v
        elif a == 0xFF4B: self.wx = v

    # ---- joypad
    def nibble(self):
        """The low bits of P1: 0 where a selected button is pressed."""
        pressed = 0
        if not self.p1 & 0x10: pressed |= self.buttons & 15     # Down, Up, Left, Right
        if not self.p1 & 0x20: pressed |= self.buttons >> 4     # Start, Select, B, A
        return 15 - pressed

    def joypad(self, old):
        if old & ~self.nibble(): self.iflag |= 16

    def set_buttons(self, buttons):
        old = self.nibble()
        self.buttons = buttons
        self.joypad(old)

    # ---- inputs
    def frame(self, buttons):
        self.set_buttons(buttons)
        passed = self.overrun
        while passed < 17556:
            before = self.cycles
            self.step()
            passed += self.cycles - before
        self.overrun = passed - 17556

    def second(self):
        c = self.live
        if self.kind != 'MBC3+clock' or c[4] & 0x40:
            return
        # a register beyond its range grows by 1, and does not pass on
        for i, (last, width) in enumerate(((59, 64), (59, 64), (23, 32))):
            if c[i] != last:
                c[i] = (c[i] + 1) % width
                return
            c[i] = 0
        day = c[3] + 256 * (c[4] & 1) + 1
        if day == 512:
            day = 0
            c[4] |= 0x80
        c[3] = day % 256
        c[4] = c[4] & 0xFE | day // 256

    # ---- units
    def timer_signal(self):
        return bool(self.tac & 4 and self.counter & TIMERBIT[self.tac & 3])

    def tima_up(self):
        if self.tima == 0xFF:
            self.tima = self.tma
            self.iflag |= 4
        else:
            self.tima += 1

    def div_write(self):
        old = self.timer_signal()
        self.counter = 0
        if old: self.tima_up()

    def take_stat(self):
        s = self.stat
        if not s or not self.lcdc & 0x80:
            self.statsig = False
            return
        m = self.mode()
        sig = bool((s & 64 and self.line_ == self.lyc) or (s & 32 and m == 2)
                   or (s & 16 and m == 1) or (s & 8 and m == 0))
        if sig and not self.statsig:
            self.iflag |= 2
        self.statsig = sig

    def ticks(self, n):
        self.cycles += n
        for _ in range(n):
            c = self.counter
            nc = self.counter = (c + 4) & 0xFFFF
            t = self.tac
            if t & 4:
                b = TIMERBIT[t & 3]
                if c & b and not nc & b:
                    self.tima_up()
            if self.left:
                self.left -= 1
                if self.left == 0:
                    self.sent.append(self.sb)
                    self.sb = 0xFF
                    self.sc &= 0x01
                    self.iflag |= 8
            if self.copied < 160:
                p = self.dma
                if p >= 0xE0: p -= 0x20
                self.oam[self.copied] = self.read(p * 256 + self.copied, peek=True)
                self.copied += 1
            if self.lcdc & 0x80:
                d = self.mc + 1
                if d == 114:
                    d = 0
                    l = self.line_ + 1
                    if l == 154: l = 0
                    self.line_ = l
                    if l == 144: self.iflag |= 1
                    if l == 0:
                        self.window_line = 0
                        self.seen = False
                    if l < 144 and self.wy == l: self.seen = True
                self.mc = d
                if d == 20 and self.line_ < 144 and self.draws: self.draw_line()
                if self.stat: self.take_stat()
                else: self.statsig = False

    # ---- pixels
    def tile_pixel(self, number, row, column):
        """The colour of a pixel of a tile of the background or the window."""
        at = 16 * number if self.lcdc & 0x10 else 0x1000 + 16 * signed(number)
        return self.colour(at + 2 * row, column)

    def colour(self, at, column):
        bit = 7 - column
        return (self.vram[at] >> bit & 1) + 2 * (self.vram[at + 1] >> bit & 1)

    def map_pixel(self, upper, x, y):
        """The colour of a place of a map of 256 by 256 pixels."""
        at = (0x1C00 if upper else 0x1800) + 32 * (y // 8) + x // 8
        return self.tile_pixel(self.vram[at], y % 8, x % 8)

    def objects(self, y):
        """The first ten that cover a line, with their place in OAM."""
        height = 16 if self.lcdc & 4 else 8
        found = []
        for i in range(40):
            top, x, number, attributes = self.oam[4 * i:4 * i + 4]
            if top <= y + 16 < top + height and len(found) < 10:
                row = y + 16 - top
                if attributes & 0x40: row = height - 1 - row
                if height == 16: number &= 0xFE
                found.append((x, i, 16 * number + 2 * row, attributes))
        return found

    def draw_line(self):
        y = self.line_
        window = self.lcdc & 0x21 == 0x21 and self.seen and self.wx <= 0xA6
        objects = sorted(self.objects(y)) if self.lcdc & 2 else []      # the smaller X first, then the lower place
        line = self.shades[y]
        for x in range(160):
            if not self.lcdc & 1:
                colour = shade = 0
            else:
                if window and x + 7 >= self.wx:
                    colour = self.map_pixel(self.lcdc & 0x40, x + 7 - self.wx, self.window_line)
                else:
                    colour = self.map_pixel(self.lcdc & 8, (x + self.scx) % 256, (y + self.scy) % 256)
                shade = self.bgp >> 2 * colour & 3
            for left, _, at, attributes in objects:
                if not left <= x + 8 < left + 8: continue
                column = x + 8 - left
                mine = self.colour(at, 7 - column if attributes & 0x20 else column)
                if mine == 0: continue
                if not (attributes & 0x80 and colour != 0):
                    shade = (self.obp1 if attributes & 0x10 else self.obp0) >> 2 * mine & 3
                break
            line[x] = shade
        if window: self.window_line = (self.window_line + 1) % 256

    def picture(self):
        lines = ['P2', '160 144', '3']
        for row in self.shades:
            lines += [' '.join(str(3 - shade) for shade in row[i:i + 32]) for i in range(0, 160, 32)]
        return '\n'.join(lines) + '\n'

    # ---- step
    def push(self, v):
        self.sp = (self.sp - 1) & 0xFFFF
        self.write(self.sp, v >> 8)
        self.sp = (self.sp - 1) & 0xFFFF
        self.write(self.sp, v & 255)

    def pop(self):
        lo = self.read(self.sp)
        self.sp = (self.sp + 1) & 0xFFFF
        hi = self.read(self.sp)
        self.sp = (self.sp + 1) & 0xFFFF
        return hi * 256 + lo

    def step(self):
        if self.stopped and not self.locked and self.nibble() != 15:
            self.stopped = False
        if self.locked or self.stopped:
            self.ticks(1)
            self.what = 'wait'
            return
        shared = self.ie & self.iflag & 31
        if self.halted:
            if shared:
                self.halted = False
            else:
                self.ticks(1)
                self.what = 'wait'
                return
        if self.ime and shared:
            i = 0
            while not shared >> i & 1: i += 1
            self.iflag &= ~(1 << i)
            self.ime = 0
            self.enable = False
            self.push(self.pc)
            self.pc = 0x40 + 8 * i
            self.what = 'interrupt %02X' % self.pc
            self.ticks(5)
            return
        self.what = ''
        had_enable = self.enable
        pc = self.pc
        o = self.read(pc)
        if self.repeat:
            self.repeat = False
            self.pc = pc           # the fetch does not advance PC
        else:
            self.pc = (pc + 1) & 0xFFFF
        n = self.ops[o]()
        if had_enable and o != 0xF3:
            self.ime = 1
            self.enable = False
        self.ticks(n)

    def trace_line(self):
        """Makes a step and gives its line."""
        pc = self.pc
        # with `repeat` the opcode fetch does not advance PC
        places = (0, 0, 1) if self.repeat else (0, 1, 2)
        b = [self.read((pc + i) & 0xFFFF) for i in places]
        self.step()
        return self.what + '\n' if self.what else list_line(pc, b)

    def accesses(self):
        """Makes a step; gives the addresses that it read, beside the instruction's own bytes, and those that it wrote, with what a copy to OAM did in
        its M-cycles."""
        read, written = set(), set()
        own = [True]        # the opcode, which is read first, or another byte of the instruction

        def noted_read(a, peek=False):
            if peek:        # only a copy looks so
                read.add(a)
                written.add(0xFE00 + self.copied)
            elif not own[0]: read.add(a)
            own[0] = False
            return Machine.read(self, a, peek)

        def noted_write(a, v):
            written.add(a)
            Machine.write(self, a, v)

        def noted_div():
            written.add(0xFF04)
            Machine.div_write(self)

        def own_byte():
            own[0] = True
            return Machine.n8(self)

        self.read, self.write, self.div_write, self.n8 = noted_read, noted_write, noted_div, own_byte
        try:
            self.step()
        finally:
            del self.read, self.write, self.div_write, self.n8
        return read, written

    def n8(self):
        v = self.read(self.pc)
        self.pc = (self.pc + 1) & 0xFFFF
        return v

    def n16(self):
        lo = self.n8()
        return lo + 256 * self.n8()

    def registers(self):
        r = self.r
        return ('A=%02X F=%02X B=%02X C=%02X D=%02X E=%02X H=%02X L=%02X SP=%04X PC=%04X IME=%d\n'
                % (r[A], r[F], r[B], r[C], r[D], r[E], r[H], r[L], self.sp, self.pc, self.ime))


def build(m):
    """The 256 operations as closures that give their M-cycles."""
    r = m.r

    def hl(): return r[H] * 256 + r[L]

    def set_hl(v):
        r[H] = v >> 8
        r[L] = v & 255

    def get(i):
        return m.read(hl()) if i == 6 else r[i]

    def put(i, v):
        if i == 6: m.write(hl(), v)
        else: r[i] = v

    def get_rp(p):
        return m.sp if p == 3 else r[2 * p] * 256 + r[2 * p + 1]

    def put_rp(p, v):
        if p == 3: m.sp = v
        else:
            r[2 * p] = v >> 8
            r[2 * p + 1] = v & 255

    def flags(z, n, h, c):
        r[F] = (0x80 if z else 0) | (0x40 if n else 0) | (0x20 if h else 0) | (0x10 if c else 0)

    def cf(): return r[F] >> 4 & 1

    def cond(i):
        return [not r[F] & 0x80, r[F] & 0x80, not r[F] & 0x10, r[F] & 0x10][i]

    def alu(y, b):
        a = r[A]
        c = cf() if y in (1, 3) else 0
        if y < 2:
            v = (a + b + c) % 256
            flags(v == 0, 0, a % 16 + b % 16 + c >= 16, a + b + c >= 256)
            r[A] = v
        elif y in (2, 3, 7):
            v = (a - b - c) % 256
            flags(v == 0, 1, a % 16 < b % 16 + c, a < b + c)
            if y != 7: r[A] = v
        elif y == 4:
            r[A] = a & b
            flags(r[A] == 0, 0, 1, 0)
        elif y == 5:
            r[A] = a ^ b
            flags(r[A] == 0, 0, 0, 0)
        else:
            r[A] = a | b
            flags(r[A] == 0, 0, 0, 0)

    def rot(y, v):
        """Gives (value, bit moved out)."""
        if y == 0: return ((v << 1) | (v >> 7)) & 255, v >> 7
        if y == 1: return (v >> 1) | ((v & 1) << 7), v & 1
        if y == 2: return ((v << 1) | cf()) & 255, v >> 7
        if y == 3: return (v >> 1) | (cf() << 7), v & 1
        if y == 4: return (v << 1) & 255, v >> 7
        if y == 5: return (v >> 1) | (v & 0x80), v & 1
        if y == 6: return (v >> 4) | ((v & 15) << 4), 0
        return v >> 1, v & 1

    def nop(): return 1

    def ld_n16_sp():
        a = m.n16()
        m.write(a, m.sp & 255)
        m.write((a + 1) & 0xFFFF, m.sp >> 8)
        return 5

    def stop():
        m.n8()
        m.div_write()
        m.stopped = True
        return 1

    def mk_jr(c):
        def f():
            e = signed(m.n8())
            if c is None or cond(c):
                m.pc = (m.pc + e) & 0xFFFF
                return 3
            return 2
        return f

    def mk_ld_rp(p):
        def f():
            put_rp(p, m.n16())
            return 3
        return f

    def mk_add_hl(p):
        def f():
            a, b = hl(), get_rp(p)
            flags(r[F] & 0x80, 0, a % 4096 + b % 4096 >= 4096, a + b >= 65536)
            set_hl((a + b) & 0xFFFF)
            return 2
        return f

    def mk_ind(p, q):
        def f():
            a = hl() if p >= 2 else get_rp(p)
            if q: r[A] = m.read(a)
            else: m.write(a, r[A])
            if p == 2: set_hl((a + 1) & 0xFFFF)
            if p == 3: set_hl((a - 1) & 0xFFFF)
            return 2
        return f

    def mk_incdec_rp(p, d):
        def f():
            put_rp(p, (get_rp(p) + d) & 0xFFFF)
            return 2
        return f

    def mk_inc(y):
        def f():
            a = get(y)
            v = (a + 1) & 255
            put(y, v)
            flags(v == 0, 0, a % 16 == 15, cf())
            return 3 if y == 6 else 1
        return f

    def mk_dec(y):
        def f():
            a = get(y)
            v = (a - 1) & 255
            put(y, v)
            flags(v == 0, 1, a % 16 == 0, cf())
            return 3 if y == 6 else 1
        return f

    def mk_ld_n8(y):
        def f():
            put(y, m.n8())
            return 3 if y == 6 else 2
        return f

    def mk_rot_a(y):
        def f():
            v, c = rot(y, r[A])
            r[A] = v
            flags(0, 0, 0, c)
            return 1
        return f

    def daa():
        a = r[A]
        n, h, c = r[F] & 0x40, r[F] & 0x20, r[F] & 0x10
        v = a
        if not n:
            if c or a > 0x99:
                v += 0x60
                c = 1
            if h or a % 16 > 9:
                v += 6
        else:
            if c: v -= 0x60
            if h: v -= 6
        r[A] = v & 255
        flags(r[A] == 0, n, 0, c)
        return 1

    def cpl():
        r[A] ^= 255
        flags(r[F] & 0x80, 1, 1, cf())
        return 1

    def scf():
        flags(r[F] & 0x80, 0, 0, 1)
        return 1

    def ccf():
        flags(r[F] & 0x80, 0, 0, not cf())
        return 1

    def halt():
        if m.ime == 0 and not m.enable and m.ie & m.iflag & 31:
            m.repeat = True
        else:
            m.halted = True
        return 1

    def mk_ld(y, z):
        n = 2 if 6 in (y, z) else 1

        def f():
            put(y, get(z))
            return n
        return f

    def mk_alu(y, z):
        n = 2 if z == 6 else 1

        def f():
            alu(y, get(z))
            return n
        return f

    def mk_alu_n8(y):
        def f():
            alu(y, m.n8())
            return 2
        return f

    def mk_ret(c):
        def f():
            if c is None:
                m.pc = m.pop()
                return 4
            if cond(c):
                m.pc = m.pop()
                return 5
            return 2
        return f

    def reti():
        m.pc = m.pop()
        m.ime = 1
        return 4

    def ldh_w():
        m.write(0xFF00 + m.n8(), r[A])
        return 3

    def ldh_r():
        r[A] = m.read(0xFF00 + m.n8())
        return 3

    def sp_e():
        b = m.n8()
        s = m.sp
        flags(0, 0, s % 16 + b % 16 >= 16, s % 256 + b >= 256)
        return (s + signed(b)) & 0xFFFF

    def add_sp():
        m.sp = sp_e()
        return 4

    def ld_hl_sp():
        set_hl(sp_e())
        return 3

    def mk_pop(p):
        def f():
            v = m.pop()
            if p == 3:
                r[A] = v >> 8
                r[F] = v & 0xF0
            else:
                put_rp(p, v)
            return 3
        return f

    def mk_push(p):
        def f():
            m.push(r[A] * 256 + r[F] if p == 3 else get_rp(p))
            return 4
        return f

    def jp_hl():
        m.pc = hl()
        return 1

    def ld_sp_hl():
        m.sp = hl()
        return 2

    def mk_jp(c):
        def f():
            a = m.n16()
            if c is None or cond(c):
                m.pc = a
                return 4
            return 3
        return f

    def mk_call(c):
        def f():
            a = m.n16()
            if c is None or cond(c):
                m.push(m.pc)
                m.pc = a
                return 6
            return 3
        return f

    def mk_rst(y):
        def f():
            m.push(m.pc)
            m.pc = 8 * y
            return 4
        return f

    def ldc_w():
        m.write(0xFF00 + r[C], r[A])
        return 2

    def ldc_r():
        r[A] = m.read(0xFF00 + r[C])
        return 2

    def ld_nn_a():
        m.write(m.n16(), r[A])
        return 4

    def ld_a_nn():
        r[A] = m.read(m.n16())
        return 4

    def cb():
        o = m.n8()
        x, y, z = o >> 6, o >> 3 & 7, o & 7
        v = get(z)
        if x == 0:
            v, c = rot(y, v)
            put(z, v)
            flags(v == 0, 0, 0, c)
        elif x == 1:
            flags(not v >> y & 1, 0, 1, cf())
            return 3 if z == 6 else 2
        elif x == 2:
            put(z, v & ~(1 << y))
        else:
            put(z, v | 1 << y)
        return 4 if z == 6 else 2

    def di():
        m.ime = 0
        m.enable = False
        return 1

    def ei():
        m.enable = True
        return 1

    def undef():
        m.locked = True
        return 1

    t = [None] * 256
    for o in range(256):
        x, y, z = o >> 6, o >> 3 & 7, o & 7
        p, q = y >> 1, y & 1
        if o in UNDEF: f = undef
        elif x == 0:
            if z == 0:
                f = [nop, ld_n16_sp, stop, mk_jr(None)][y] if y < 4 else mk_jr(y - 4)
            elif z == 1: f = mk_add_hl(p) if q else mk_ld_rp(p)
            elif z == 2: f = mk_ind(p, q)
            elif z == 3: f = mk_incdec_rp(p, -1 if q else 1)
            elif z == 4: f = mk_inc(y)
            elif z == 5: f = mk_dec(y)
            elif z == 6: f = mk_ld_n8(y)
            elif y < 4: f = mk_rot_a(y)
            else: f = [daa, cpl, scf, ccf][y - 4]
        elif x == 1: f = halt if o == 0x76 else mk_ld(y, z)
        elif x == 2: f = mk_alu(y, z)
        elif z == 0: f = mk_ret(y) if y < 4 else [ldh_w, add_sp, ldh_r, ld_hl_sp][y - 4]
        elif z == 1: f = [mk_ret(None), reti, jp_hl, ld_sp_hl][p] if q else mk_pop(p)
        elif z == 2: f = mk_jp(y) if y < 4 else [ldc_w, ld_nn_a, ldc_r, ld_a_nn][y - 4]
        elif z == 3: f = {0: mk_jp(None), 1: cb, 6: di, 7: ei}[y]
        elif z == 4: f = mk_call(y)
        elif z == 5: f = mk_call(None) if q else mk_push(p)
        elif z == 6: f = mk_alu_n8(y)
        else: f = mk_rst(y)
        t[o] = f
    return t


def main(argv):
    rom = open(argv[2], 'rb').read(8388609)
    try:
        if argv[1] == 'info':
            out = info_text(rom)
        elif argv[1] == 'list':
            out = list_text(rom, int(argv[3], 16), int(argv[4]))
        elif argv[1] == 'step':
            m = Machine(rom)
            for _ in range(int(argv[3])):
                m.step()
            out = m.registers()
        elif argv[1] == 'trace':
            m = Machine(rom)
            out = ''.join(m.trace_line() for _ in range(int(argv[3])))
    except Refused as e:
        sys.stderr.write('gbkeep: %s\n' % e)
        return 1
    sys.stdout.write(out)
    return 0


if __name__ == '__main__':
    sys.exit(main(sys.argv))
