"""ROMs that use every unusual feature of the machine again and again, to compare whole machines over a thousand frames.

usage: feature_roms.py FOLDER          writes them as FOLDER/feature_0.gb and so on, the same at each run
       feature_roms.py --check FRAMES  plays each of them on reference.py for so many frames, counts what really happened, and says PASS or
                                       FAIL for each feature; the status is 1 where one is missing
       feature_roms.py --check FRAMES ROM  one of them, by its number

Each ROM is a loop that calls routines, one for each feature, by a table of 64 places in an order that differs by ROM, by pass through
the table and by what the joypad gave. No routine waits for what may never come, but STOP, which only runs while a button is pressed."""
import os, random, sys, time
from scripts.second_machine import reference as ref

# ------------------------------------------------------------ places

PAGE, OTHER_PAGE = 0xC1, 0xD0       # two pages of objects
LANDING = 0xC000                    # what runs behind BFFF, and in the echo behind DFFF
VALUES = 0xC200
(LOW, HIGH, PLACE, STRIDE, LEFT, FRAMES, STATS, TIMES, SERIALS, JOYPADS, SUM, KIND, WANTED, KEYS, LOGGED, PHASE, STACK, BANK,
 RESTARTS) = range(VALUES, VALUES + 38, 2)
LOG = 0xC300
WRAM_CODE = 0xC400
STACK_TOP = 0xDF00
DMA_CODE, HRAM_CODE = 0xFF80, 0xFF90
CART_CODE = 0xA000
BORDER = 0x3FFD
TABLE = 0x3E00
BANK_RUN, BANK_TARGETS = 0x4100, 0x4400
VRAM_BORDER = 0x7FF0

P1, SB, SC, DIV, TIMA, TMA, TAC, IF = 0x00, 0x01, 0x02, 0x04, 0x05, 0x06, 0x07, 0x0F
LCDC, STAT, SCY, SCX, LY, LYC, DMA, BGP, OBP0, OBP1, WY, WX = range(0x40, 0x4C)
IE = 0xFF

# instructions of one byte that change A, B, C, D, E or flags alone
SHORT = [0x00, 0x04, 0x05, 0x07, 0x0C, 0x0D, 0x0F, 0x14, 0x15, 0x17, 0x1C, 0x1D, 0x1F, 0x27, 0x2F, 0x37, 0x3C, 0x3D, 0x3F, 0x41, 0x4A, 0x53,
         0x5F, 0x78, 0x7B, 0x80, 0x81, 0x8A, 0x93, 0x98, 0xA1, 0xA8, 0xB3, 0xB9]

# type, banks, RAM code, and the first selection of the timer
CARTRIDGES = [(0x03, 8, 2, 5), (0x13, 16, 3, 6), (0x1B, 32, 3, 7), (0x03, 64, 3, 4), (0x10, 8, 3, 5), (0x1E, 4, 5, 6), (0x06, 4, 0, 7),
              (0x1B, 4, 2, 4)]


class Emitter:
    """Writes instructions into an image from an offset on, for code that runs at an address."""

    def __init__(self, image, offset, address, labels=None):
        self.image, self.at, self.shift = image, offset, address - offset
        self.labels = {} if labels is None else labels
        self.open, self.count = [], 0

    def here(self): return self.at + self.shift

    def bytes(self, *values):
        for value in values:
            self.image[self.at] = value & 255
            self.at += 1

    def word(self, value): self.bytes(value, value >> 8)

    def label(self, name):
        assert name not in self.labels, name
        self.labels[name] = self.here()

    def fresh(self):
        """A name that stands nowhere else."""
        self.count += 1
        return (self.here(), self.count)

    def absolute(self, opcode, target):
        self.bytes(opcode)
        if not isinstance(target, int):
            self.open.append((self.at, target, False))
            target = 0
        self.word(target)

    def branch(self, target, opcode=0x18):
        self.bytes(opcode, 0)
        self.open.append((self.at - 1, target, True))

    def finish(self):
        for at, name, relative in self.open:
            target = self.labels[name]
            if relative:
                distance = target - (at + 1 + self.shift)
                assert -128 <= distance < 128, name
                self.image[at] = distance & 255
            else:
                self.image[at], self.image[at + 1] = target & 255, target >> 8

    # the instructions that are used often
    def call(self, target): self.absolute(0xCD, target)
    def jump(self, target): self.absolute(0xC3, target)
    def back(self): self.bytes(0xC9)
    def set_a(self, value): self.bytes(0x3E, value)
    def set_b(self, value): self.bytes(0x06, value)
    def set_c(self, value): self.bytes(0x0E, value)
    def set_de(self, value): self.absolute(0x11, value)
    def set_hl(self, value): self.absolute(0x21, value)
    def load(self, address): self.absolute(0xFA, address)
    def store(self, address): self.absolute(0xEA, address)
    def take(self, register): self.bytes(0xF0, register)
    def put(self, register): self.bytes(0xE0, register)
    def masked(self, mask): self.bytes(0xE6, mask)
    def joined(self, mask): self.bytes(0xF6, mask)
    def push_all(self): self.bytes(0xF5, 0xC5, 0xD5, 0xE5)
    def pop_all(self): self.bytes(0xE1, 0xD1, 0xC1, 0xF1)

    def give(self, register, value):
        self.set_a(value)
        self.put(register)

    def keep(self, address, value):
        self.set_a(value)
        self.store(address)

    def count_up(self, address):
        self.set_hl(address)
        self.bytes(0x34)

    def random(self, mask=255):
        """A is the next random number, masked."""
        self.call('random')
        if mask != 255: self.masked(mask)

    def log(self): self.call('log')


class Rom:
    """Builds one ROM; with another `variant`, one of the same cartridge with other values and another order."""

    def __init__(self, number, variant=''):
        self.number = number
        self.type, self.banks, ram_code, self.selection = CARTRIDGES[number]
        self.kind = ref.KINDS[self.type][0]
        self.rumble = self.type in (0x1C, 0x1D, 0x1E)
        self.random = random.Random('feature-%d%s' % (number, variant))
        self.image = bytearray(self.random.randbytes(self.banks * 0x4000))
        self.ram_code = ram_code
        self.ram = 512 if self.kind == 'MBC2' else ref.RAMS[ram_code] * 1024
        self.code = Emitter(self.image, 0x150, 0x150)
        self.blocks = []
        self.style = number % 2

    def build(self):
        self.head()
        self.start()
        self.helpers()
        self.handlers()
        names = []
        for name in sorted(dir(self)):
            if name.startswith('feature_'):
                self.code.label(name)
                getattr(self, name)(self.code)
                names.append(name)
        self.moved_code()
        assert self.code.at <= TABLE, hex(self.code.at)
        order = names + self.random.choices(names, k=64 - len(names))
        self.random.shuffle(order)
        for place, name in enumerate(order):
            self.image[TABLE + 2 * place], self.image[TABLE + 2 * place + 1] = self.low_high(self.code.labels[name])
        self.first_border()
        self.code.finish()
        for bank in range(1, self.banks): self.bank(bank)
        if self.kind == 'MBC1' and self.banks > 32:     # what 0000-3FFF shows in mode 1
            self.image[32 * 0x4000:33 * 0x4000] = self.image[:0x4000]
        total = 0
        for at in range(0x134, 0x14D): total = (total - self.image[at] - 1) & 255
        for bank in {0, 32 if self.banks > 32 else 0}: self.image[bank * 0x4000 + 0x14D] = total
        return bytes(self.image)

    @staticmethod
    def low_high(value): return value & 255, value >> 8

    def some(self, count):
        """So many short instructions."""
        return self.random.choices(SHORT, k=count)

    # ---- what stands at fixed places

    def head(self):
        image = self.image
        image[0:0x150] = bytes(0x150)
        # 0000 is run as an opcode behind FFFF, and is an operand too; JR by it comes to 0015
        image[0:3] = bytes([0x14, self.random.choice([0x1C, 0x0C, 0x04, 0x17]), 0xC9])
        for place in range(8, 0x40, 8):
            image[place:place + 4] = bytes(self.some(3) + [0xC9])
        image[0x15:0x17] = bytes([0x0C, 0xC9])
        for place, name in ((0x40, 'frame'), (0x48, 'stat'), (0x50, 'timer'), (0x58, 'serial'), (0x60, 'joypad')):
            vector = Emitter(image, place, place, self.code.labels)
            vector.jump(name)
            self.code.open += vector.open
        entry = Emitter(image, 0x100, 0x100, self.code.labels)
        entry.bytes(0x00)
        entry.jump('start')
        self.code.open += entry.open
        title = b'FEATURES %d' % self.number
        image[0x134:0x134 + len(title)] = title
        image[0x147], image[0x149] = self.type, self.ram_code
        image[0x148] = (self.banks // 2).bit_length() - 1

    def first_border(self):
        """3FFD to 3FFF, which run into 4000. Entered at 3FFE it is another instruction, and at 3FFF a third."""
        self.image[BORDER - 13:BORDER - 3] = bytes(self.some(10))
        self.image[BORDER - 3:BORDER] = bytes([0xCD, *self.low_high(self.code.labels['random_bank'])])
        self.image[BORDER:BORDER + 3] = bytes([0x3E, 0x01, 0x11] if self.style else [0x06, 0x01, 0xEA])

    def bank(self, number):
        """A bank at 4000: the same instructions in each, other values and other targets."""
        offset = number * 0x4000
        if number % 32 == 0 and self.kind == 'MBC1': return
        code = Emitter(self.image, offset, 0x4000, dict(self.code.labels))
        # behind 3FFF; with EA there, 4000 and 4001 are the address of the bank's register, and 4001 is LD HL too
        if self.style: code.bytes(self.random.randrange(256), self.random.choice(SHORT))
        else: code.bytes(0x00, 0x21)
        code.bytes(*self.some(3 + number % 5))
        code.set_a(self.random.randrange(256))
        code.log()
        code.back()

        code = Emitter(self.image, offset + BANK_RUN - 0x4000, BANK_RUN, dict(self.code.labels))
        for turn in range(4):
            code.call('random_bank')
            if turn == 2 and self.kind in ('MBC3', 'MBC3+clock', 'MBC5'):
                code.set_hl(0x2000)
                code.bytes(0x77)
            else:
                code.store(0x2100)
            code.set_b(self.random.randrange(256))
            code.bytes(0x80)
            code.bytes(*self.some(4))
            if turn % 2: code.log()
            else: code.bytes(0x57)
        code.call('random_bank')
        if self.style: code.bytes(0xF5)
        else: code.bytes(0x00)
        code.store(0x2100)
        if self.style: code.bytes(0xF1)
        else: code.bytes(0x3C)
        code.jump(BANK_TARGETS + 32 * self.random.randrange(8))
        assert code.at <= offset + BANK_TARGETS - 0x4000
        code.finish()
        for target in range(8):
            code = Emitter(self.image, offset + BANK_TARGETS - 0x4000 + 32 * target, BANK_TARGETS + 32 * target, dict(self.code.labels))
            code.bytes(*self.some(self.random.randrange(1, 12)))
            code.log()
            code.back()
            code.finish()

        code = Emitter(self.image, offset + VRAM_BORDER - 0x4000, VRAM_BORDER, dict(self.code.labels))
        code.bytes(*self.some(13))
        code.bytes(0x3E, 0x01, 0x11)        # as at 3FFD
        assert code.here() == 0x8000

    # ---- the program

    def start(self):
        code = self.code
        code.label('start')
        code.bytes(0xF3)
        code.absolute(0x31, STACK_TOP)
        code.give(LCDC, 0x11)
        code.set_hl(0xC000)
        code.label('clear')
        code.bytes(0xAF, 0x22, 0x7C, 0xFE, 0xE0)
        code.branch('clear', 0x20)
        code.keep(LOW, self.random.randrange(256))
        code.keep(HIGH, self.random.randrange(256))
        code.keep(WANTED, 0x1F)
        code.keep(STRIDE, 1)
        code.keep(LEFT, 64)
        code.keep(KIND, self.random.randrange(8))
        code.keep(0x0000, 0x0A)
        code.keep(0x2100, 1)
        code.set_hl(0x8000)
        code.label('draw')
        code.bytes(0x7B, 0x87, 0x87, 0x83, 0x3C, 0x5F, 0xAC, 0x22, 0x7C, 0xFE, 0xA0)    # E = 5 * E + 1; (HL+) = E XOR H
        code.branch('draw', 0x20)
        for page in (PAGE, OTHER_PAGE):
            code.set_hl(page * 256)
            name = code.fresh()
            code.label(name)
            code.random()
            code.bytes(0x22, 0x7D, 0xFE, 0xA0)
            code.branch(name, 0x20)
        code.call('place_code')
        for register, value in ((BGP, 0xE4), (OBP0, 0x1B), (OBP1, 0xD2), (WY, 0x20), (WX, 0x50), (LYC, 0x30), (STAT, 0x40), (TMA, 0x40),
                                (TAC, self.selection), (IF, 0), (IE, 0x1F)):
            code.give(register, value)
        code.give(LCDC, 0xF3)
        code.bytes(0xFB)
        code.label('main')
        code.load(PLACE)
        code.set_hl(STRIDE)
        code.bytes(0x86)
        code.masked(0x3F)
        code.store(PLACE)
        code.bytes(0x6F, 0x26, 0x00, 0x29)      # HL = 2 * A
        code.set_de(TABLE)
        code.bytes(0x19, 0x2A, 0x66, 0x6F)      # HL = the table's place
        code.call('call_hl')
        code.bytes(0xFB)
        code.load(WANTED)
        code.put(IE)
        code.set_hl(LEFT)
        code.bytes(0x35)
        code.branch('main', 0x20)
        code.bytes(0x36, 64)                    # the next pass, with another odd stride
        code.load(STRIDE)
        code.bytes(0xC6, 0x02)
        code.store(STRIDE)
        code.count_up(RESTARTS)
        code.branch('main')
        code.label('call_hl')
        code.bytes(0xE9)

    def helpers(self):
        code = self.code
        code.label('random')
        code.bytes(0xE5)
        code.set_hl(LOW)
        code.bytes(0x7E, 0x87, 0x87, 0x86, 0x3C, 0x77)      # LOW = 5 * LOW + 1
        code.set_hl(HIGH)
        code.bytes(0xAE, 0x07, 0xC6, 0x3B, 0x77, 0xE1, 0xC9)
        code.label('log')           # A into SUM, and into the next place of a page
        code.push_all()
        code.set_hl(SUM)
        code.bytes(0x8E, 0x07, 0x77, 0x47)
        code.set_hl(LOGGED)
        code.bytes(0x34, 0x6E)
        code.bytes(0x26, LOG >> 8, 0x78, 0x77)
        code.pop_all()
        code.back()
        code.label('random_bank')   # A is a bank that may be at 4000 while code runs there
        code.random(min(self.banks - 1, 31 if self.kind == 'MBC1' else 255))
        code.bytes(0x20, 0x01, 0x3C)
        code.store(BANK)
        code.back()
        code.label('wait_change')   # until (HL) changes, for about a frame at most
        code.bytes(0x46)
        code.set_de(0x0700)
        code.label('wait_more')
        code.bytes(0x7E, 0xB8, 0xC0, 0x1B, 0x7A, 0xB3)
        code.branch('wait_more', 0x20)
        code.back()
        code.label('wait_some')     # A times 4 M-cycles
        code.bytes(0x3D)
        code.branch('wait_some', 0x20)
        code.back()
        code.label('screen_on')
        code.take(LCDC)
        code.joined(0x80)
        code.put(LCDC)
        code.back()
        code.label('screen_off')
        code.take(LCDC)
        code.masked(0x7F)
        code.put(LCDC)
        code.back()
        code.label('arm_timer')     # a timer interrupt that will come, alone
        code.give(TAC, 5)
        code.give(TMA, 0x80)
        code.random(0x3F)
        code.joined(0x80)
        code.put(TIMA)
        code.give(IE, 4)
        code.give(IF, 0)
        code.back()
        code.label('settle')        # the timer as it was, and all interrupts
        code.random(3)
        code.joined(4)
        code.put(TAC)
        code.random(0xDF)
        code.put(TMA)
        code.load(WANTED)
        code.put(IE)
        code.bytes(0xFB, 0xC9)
        code.label('copy')          # C bytes from DE to HL
        code.bytes(0x1A, 0x22, 0x13, 0x0D)
        code.branch('copy', 0x20)
        code.back()
        code.label('wait_vblank')   # line 144 to 147, or the picture is off
        code.take(LCDC)
        code.bytes(0x87, 0xD0)
        code.take(LY)
        code.masked(0xFC)
        code.bytes(0xFE, 0x90)
        code.branch('wait_vblank', 0x20)
        code.back()

    def handlers(self):
        code = self.code
        code.label('frame')
        code.push_all()
        code.count_up(FRAMES)
        code.bytes(0x7E)
        code.bytes(0xE6, 0x03)
        skip = code.fresh()
        code.branch(skip, 0x20)
        code.take(SCY)
        code.bytes(0x3C)
        code.put(SCY)
        code.label(skip)
        code.call('read_keys')
        code.pop_all()
        code.bytes(0xD9)
        for name, address in (('timer', TIMES), ('serial', SERIALS), ('joypad', JOYPADS)):
            code.label(name)
            code.bytes(0xF5, 0xE5)
            code.count_up(address)
            if name == 'joypad':
                code.take(P1)
                code.set_hl(HIGH)
                code.bytes(0xAE, 0x77)
            if name == 'serial':
                code.take(SB)
                code.log()
            code.bytes(0xE1, 0xF1, 0xD9)
        code.label('read_keys')
        code.give(P1, 0x20)
        code.take(P1)
        code.masked(15)
        code.bytes(0xCB, 0x37, 0x6F)        # SWAP A; LD L,A
        code.give(P1, 0x10)
        code.take(P1)
        code.masked(15)
        code.bytes(0xB5)
        code.set_hl(KEYS)
        code.bytes(0xBE, 0x77)
        same = code.fresh()
        code.branch(same, 0x28)
        code.set_hl(HIGH)
        code.bytes(0x86, 0x77)
        code.label(same)
        code.give(P1, 0x00)
        code.back()

        code.label('stat')
        code.push_all()
        code.count_up(STATS)
        code.load(KIND)
        code.masked(7)
        code.bytes(0x87, 0x5F, 0x16, 0x00)
        code.set_hl('kinds')
        code.bytes(0x19, 0x2A, 0x66, 0x6F, 0xE9)        # JP HL
        code.label('kinds')
        for kind in range(8):
            code.open.append((code.at, 'kind_%d' % kind, False))
            code.word(0)
        for kind in range(8):
            code.label('kind_%d' % kind)
            self.kind_of_change(code, kind)
            code.pop_all()
            code.bytes(0xD9)

    def kind_of_change(self, code, kind):
        """What a STAT interrupt changes in mid frame."""
        def next_line():
            code.take(LYC)
            code.bytes(0xC6, self.random.randrange(3, 30))
            code.bytes(0xFE, 150)
            code.bytes(0x38, 0x02, 0xD6, 144)       # JR C,+2; SUB 144
            code.put(LYC)
        if kind == 0:
            code.take(LY)
            code.put(SCX)
            next_line()
        elif kind == 1:
            code.take(BGP)
            code.bytes(0x07)
            code.put(BGP)
            code.put(OBP0)
            code.take(SCY)
            code.bytes(0xC6, 3)
            code.put(SCY)
        elif kind == 2:
            code.take(LCDC)
            code.bytes(0xEE, 0x04)      # objects of 8 by 8, or of 8 by 16
            code.put(LCDC)
            next_line()
        elif kind == 3:
            code.take(WX)
            code.bytes(0xC6, 11)
            code.masked(0x7F)
            code.put(WX)
            code.take(LY)
            code.put(WY)
        elif kind == 4:
            code.random()
            code.bytes(0x6F, 0x26, self.random.choice([0x81, 0x88, 0x90]), 0x77)
            code.bytes(0x26, self.random.choice([0x98, 0x9A, 0x9C]), 0x77)
            next_line()
        elif kind == 5:
            code.random(0x7F)
            code.bytes(0x6F, 0x26, 0xFE, 0x77, 0x2C, 0x34)      # two bytes of an object
        elif kind == 6:
            code.take(LCDC)
            code.bytes(0xEE, self.random.choice([0x08, 0x10, 0x40, 0x20]))
            code.put(LCDC)
            code.load(STATS)
            code.put(OBP1)
            next_line()
        else:
            code.take(LCDC)
            code.bytes(0xEE, self.random.choice([0x02, 0x20, 0x01, 0x22]))
            code.put(LCDC)
            code.take(SCX)
            code.bytes(0x2F, 0x3C)
            code.put(SCX)
            next_line()

    # ---- code that is copied to where it runs

    def moved(self, name, address, emit):
        """Code that stands here and runs at an address; `name` is its label there."""
        code = self.code
        start = code.at
        other = Emitter(self.image, start, address, code.labels)
        other.label(name)
        emit(other)
        self.blocks.append((name, start, address, other.at - start, other))
        code.at = other.at
        assert other.at - start < 256, name

    def moved_code(self):
        """The blocks, and the routine that puts them where they run."""
        self.moved('high_dma', DMA_CODE, self.high_dma)
        self.moved('high_code', HRAM_CODE, self.high_code)
        self.moved('work_code', WRAM_CODE, self.work_code)
        self.moved('loop_code', WRAM_CODE + 0x100, self.loop_code)
        self.moved('push_code', WRAM_CODE + 0x200, self.push_code)
        self.moved('landing', LANDING, lambda code: code.bytes(*(self.some(12) + [0xC9])))
        self.moved('echo_border', 0xDFF0, lambda code: code.bytes(*(self.some(13) + [0x3E, 0x01, 0x11])))
        self.moved('picture_code', 0x8000, lambda code: code.bytes(*(self.some(12) + [0xC9] + self.some(16) + [0xC9, 0xC9, 0xC9])))
        if self.kind == 'MBC2':     # its bytes are F0 to FF: CP A, LD A,(C), POP, PUSH, LDH and OR stand, and WRAM comes next
            self.moved('cart_code', 0xBFE0, lambda code: code.bytes(*([0xFE, 0xF6, 0xF2, 0xF5, 0xF1, 0xF0, 0xFE, 0xF6, 0xFA, 0xF8, 0xFF] * 2
                                                                      + [0xF5, 0xF1, 0xF2, 0xF6, 0xF8, 0xF0, 0xF5, 0xF2, 0xF2, 0xFE])))
        else:
            self.moved('cart_code', CART_CODE, self.cart_code)
            self.moved('cart_border', 0xBFF0, lambda code: code.bytes(*(self.some(13) + [0x3E, 0x01, 0x11])))
            self.moved('map_border', 0x9FF0, lambda code: code.bytes(*(self.some(13) + [0x3E, 0x01, 0x11])))
        for block in self.blocks:
            for at, name, relative in block[4].open:
                if relative: block[4].image[at] = block[4].labels[name] - (at + 1 + block[4].shift) & 255
                else: self.code.open.append((at, name, False))
        code = self.code
        code.label('place_code')
        for name, start, address, length, _ in self.blocks:
            if 0xA000 <= address < 0xC000: continue
            self.place(code, start, address, length)
        carts = [block for block in self.blocks if 0xA000 <= block[2] < 0xC000]
        for bank in range(self.ram // 0x2000 if self.ram >= 0x2000 else 1):
            self.ram_bank(code, bank)
            for name, start, address, length, _ in carts: self.place(code, start, address, length)
        self.ram_bank(code, 0)
        code.back()

    def place(self, code, start, address, length):
        code.set_de(start)
        code.set_hl(address)
        code.set_c(length)
        code.call('copy')

    def ram_bank(self, code, bank):
        if self.kind == 'MBC1':
            if self.ram <= 0x2000: return
            code.keep(0x6000, 1 if bank else 0)
            code.keep(0x4000, bank)
        elif self.kind in ('MBC3', 'MBC3+clock', 'MBC5'):
            code.keep(0x4000, bank)

    @staticmethod
    def high_dma(code):
        """A is the page."""
        code.put(DMA)
        code.set_a(40)
        code.label('high_wait')
        code.bytes(0x3D)
        code.branch('high_wait', 0x20)
        code.back()

    def high_code(self, code):
        """The value of an LD changes at each run."""
        code.set_hl(HRAM_CODE + 5)
        code.bytes(0x34)
        code.set_a(0)
        assert code.here() == HRAM_CODE + 6
        code.bytes(*self.some(6))
        code.call('log')
        code.take(TIMA)
        code.call('log')
        code.back()

    def work_code(self, code):
        """B is an opcode, which is stored just before it runs, and PHASE has one that runs a few instructions later."""
        code.bytes(0x78)
        code.store('changed_first')
        code.label('changed_first')
        code.bytes(0x00)
        code.load(PHASE)
        code.set_hl('changed_second')
        code.bytes(0x77)
        code.bytes(*self.some(3))
        code.label('changed_second')
        code.bytes(0x00)
        code.set_hl('changed_value')
        code.bytes(0x34)
        code.label('changed_load')
        code.bytes(0x06)
        code.label('changed_value')
        code.bytes(0x00)
        code.bytes(0x80)
        code.call('log')
        code.back()

    def loop_code(self, code):
        """A loop whose body is another instruction in each turn."""
        code.set_c(9)
        code.label('turn')
        code.bytes(0xC5)
        code.call('random')
        code.masked(15)
        code.bytes(0x5F, 0x16, 0x00)
        code.set_hl('short')
        code.bytes(0x19, 0x7E)
        code.store('turned')
        code.label('turned')
        code.bytes(0x00)
        code.call('log')
        code.bytes(0xC1, 0x0D)
        code.branch('turn', 0x20)
        code.back()

    def push_code(self, code):
        """A PUSH writes BC over the two instructions behind it."""
        code.absolute(0x08, STACK)          # LD (STACK),SP
        code.absolute(0x31, 'pushed_end')
        code.bytes(0xC5)
        code.bytes(0x00, 0x00)
        code.label('pushed_end')
        code.bytes(0x57)
        code.set_hl(STACK)
        code.bytes(0x2A, 0x66, 0x6F, 0xF9, 0x7A)    # HL = (STACK); SP = HL; A = D
        code.call('log')
        code.back()

    def cart_code(self, code):
        """It changes the bank of RAM under itself, where there are several, and its bytes."""
        code.bytes(*self.some(12))
        code.bytes(0x18, 0x02, 0xC9, 0xC9)
        code.call('log')
        if self.ram > 0x2000:
            several = self.ram // 0x2000
            for _ in range(3):
                code.call('random')
                code.masked(several - 1 & 7)
                code.store(0x4000)
                code.bytes(*self.some(3))
        code.set_hl('cart_value')
        code.bytes(0x34, 0x06)
        code.label('cart_value')
        code.bytes(0x00, 0x80)
        code.call('log')
        code.back()

    # ---- features: each is a routine

    def feature_timer(self, code):
        code.give(TAC, self.selection)
        code.random(0x5F)       # up to DF: with the fastest selection an interrupt each 132 M-cycles, and a handler takes 33
        code.joined(0x80)
        code.put(TMA)
        code.put(TIMA)
        code.random(0x3F)
        code.bytes(0x3C)
        code.call('wait_some')
        code.put(DIV)
        code.take(TIMA)
        code.log()
        code.random()
        code.put(TIMA)
        code.random(0xDF)
        code.put(TMA)
        code.random(3)
        code.joined(4)
        code.put(TAC)
        code.take(DIV)
        code.log()
        code.set_hl(TIMES)
        code.call('wait_change')
        code.give(TAC, self.selection & 3)      # off and on: the signal may fall
        code.give(TAC, self.selection)
        code.put(DIV)
        code.take(TIMA)
        code.log()
        code.back()

    def feature_timer_turns(self, code):
        def turn():
            code.random(7)
            code.put(TAC)
            code.random()
            code.put(DIV)
            code.take(TIMA)
            code.log()
            code.bytes(*self.some(5))
            code.give(TIMA, 0xFF)
            code.put(DIV)
            code.take(IF)
            code.log()
        code.bytes(0xF3)
        body = code.fresh()
        code.set_c(6)
        code.label(body)
        code.bytes(0xC5)
        turn()
        code.bytes(0xC1, 0x0D)
        code.branch(body, 0x20)
        code.call('settle')
        code.back()

    def feature_serial(self, code):
        code.random()
        code.put(SB)
        code.give(SC, 0x81)
        code.set_hl(SERIALS)
        code.call('wait_change')
        code.take(SC)
        code.log()
        code.take(SB)
        code.log()
        code.back()

    def feature_serial_cut(self, code):
        code.random()
        code.put(SB)
        code.give(SC, 0x81)
        code.random()
        code.bytes(0x3C)
        code.call('wait_some')
        code.random(0x81)
        code.put(SC)
        code.give(SC, 0x81)
        code.take(SC)
        code.log()
        code.back()

    def feature_dma_high(self, code):
        """The copy is started from HRAM, after each object has moved."""
        for page in (PAGE, OTHER_PAGE):
            self.change_page(code, page)
            code.set_a(page)
            code.call('high_dma')
        code.back()

    def change_page(self, code, page):
        code.set_hl(page * 256 + self.random.randrange(2))
        code.set_b(0x28)
        name = code.fresh()
        code.label(name)
        code.bytes(0x7E, 0xC6, self.random.randrange(1, 9), 0x22, 0x23, 0x23, 0x23)
        code.bytes(0x05)
        code.branch(name, 0x20)
        code.random(0x9F)
        code.bytes(0x6F, 0x26, page, 0x34)

    def feature_dma_elsewhere(self, code):
        pages = [PAGE, OTHER_PAGE, 0x20 + PAGE, 0x88, 0xA0, 0x41, 0xFE, PAGE]
        code.random(7)
        code.bytes(0x5F, 0x16, 0x00)
        code.set_hl('pages')
        code.bytes(0x19, 0x7E)
        code.put(DMA)
        code.random(0x1F)
        code.bytes(0x3C)
        code.call('wait_some')
        code.absolute(0xFA, 0xFE10)
        code.log()
        code.give(DMA, PAGE)
        code.bytes(*self.some(7))
        code.bytes(0xF0, DMA)
        code.log()
        code.give(DMA, OTHER_PAGE)
        code.back()
        code.label('pages')
        code.bytes(*pages)

    def stat_source(self, code, value):
        code.call('screen_on')
        code.random(7)
        code.store(KIND)
        code.random(0x7F)
        code.put(LYC)
        code.give(STAT, value)
        code.set_hl(STATS)
        code.call('wait_change')
        code.random()
        code.bytes(0x3C)
        code.call('wait_some')
        code.take(STAT)
        code.log()

    def feature_stat_mode_0(self, code):
        self.stat_source(code, 0x08)
        code.give(STAT, 0x40)
        code.back()

    def feature_stat_mode_1(self, code):
        self.stat_source(code, 0x10)
        code.back()

    def feature_stat_mode_2(self, code):
        self.stat_source(code, 0x20)
        code.random(0x50)
        code.put(STAT)
        code.back()

    def feature_stat_line(self, code):
        self.stat_source(code, 0x40)
        code.back()

    def feature_bank_inside(self, code):
        code.call(BANK_RUN)
        code.jump(BANK_RUN)

    def feature_bank_outside(self, code):
        """Any value in the bank's registers, read from outside."""
        def turn():
            code.random()
            code.store(0x2100)
            if self.kind == 'MBC5':
                code.random()
                code.store(0x3000)
            if self.kind == 'MBC1':
                code.random(3)
                code.store(0x4000)
                code.random(1)
                if self.banks > 32: code.store(0x6000)
            code.random()
            code.bytes(0x6F, 0x26, self.random.randrange(0x40, 0x80), 0x7E)
            code.log()
        for _ in range(3): turn()
        self.bank_sound(code)
        code.back()

    def bank_sound(self, code):
        """A bank and a bank of RAM that code may run in."""
        code.call('random_bank')
        code.store(0x2100)
        if self.kind == 'MBC5': code.keep(0x3000, 0)
        if self.kind == 'MBC1' and self.banks <= 32: code.keep(0x4000, 0)

    def feature_cart_ram(self, code):
        code.keep(0x0000, 0x05)
        code.load(0xA100)
        code.log()
        code.keep(0x0000, 0xFA)
        for _ in range(2):
            if self.kind in ('MBC3', 'MBC3+clock', 'MBC5'):
                code.random()
                code.store(0x4000)
            if self.kind == 'MBC3+clock':
                code.keep(0x6000, 0)
                code.keep(0x6000, 1)
            code.random()
            code.bytes(0x6F, 0x26, 0xA0 if self.kind == 'MBC2' else 0xA1, 0x34, 0x7E)
            code.log()
        if self.kind != 'MBC1': self.ram_bank(code, 0)
        code.back()

    def feature_clock(self, code):
        """The clock's registers, where there is a clock; else what stands there."""
        if self.kind not in ('MBC3', 'MBC3+clock'):
            code.bytes(*self.some(9))
            code.log()
            code.back()
            return
        for register in range(8, 13):
            code.keep(0x4000, register)
            code.load(0xA000)
            code.log()
            code.random(0xBF)
            code.store(0xB123)
            code.load(0xA777)
            code.log()
        code.keep(0x6000, 0)
        code.keep(0x6000, self.random.randrange(3))
        code.keep(0x6000, 1)
        code.keep(0x4000, 0)
        code.back()

    def feature_run_cart(self, code):
        if self.kind != 'MBC2':
            code.call('cart_code')
            self.ram_bank(code, 0)
            code.jump('cart_border')
        else:
            code.set_c(LY)
            code.jump(0xBFE0)

    def feature_run_high(self, code):
        code.call('high_code')
        code.jump('high_code')

    def changed(self, code, offset):
        """Calls work_code, in WRAM or in its echo, with two opcodes of a table."""
        for turn in range(2):
            code.random(15)
            code.bytes(0x5F, 0x16, 0x00)
            code.set_hl('short')
            code.bytes(0x19, 0x7E)
            if turn == 0: code.store(PHASE)
        code.bytes(0x47)
        code.call(WRAM_CODE + offset)

    def feature_self_modify(self, code):
        for _ in range(2): self.changed(code, 0)
        code.back()
        code.label('short')
        code.bytes(*self.some(16))

    def feature_self_modify_echo(self, code):
        self.changed(code, 0x2000)
        self.changed(code, 0)
        self.changed(code, 0x2000)
        code.back()

    def feature_self_modify_loop(self, code):
        code.call('loop_code')
        code.jump(WRAM_CODE + 0x2100)

    def feature_self_modify_push(self, code):
        code.bytes(0xF3)
        for _ in range(2):
            for move in (0x47, 0x4F):
                code.random(15)
                code.bytes(0x5F, 0x16, 0x00)
                code.set_hl('short')
                code.bytes(0x19, 0x7E, move)
            code.call('push_code')
        code.bytes(0xFB)
        code.back()

    def feature_echo_border(self, code):
        code.call(0xDFF0)
        code.call(0xFFFF & LANDING + 0x2000)
        code.back()

    def feature_halt_after_ei(self, code):
        code.bytes(0xF3)
        code.call('arm_timer')
        code.bytes(0xFB, 0x76, 0x3C)
        code.log()
        code.bytes(0xF3)
        code.call('arm_timer')
        code.give(IF, 4)                    # pending already
        code.bytes(0xFB, 0x76, 0x14)
        code.log()
        code.call('settle')
        code.back()

    def feature_halt_enabled(self, code):
        code.call('arm_timer')
        code.bytes(0xFB, 0x00, 0x76, 0x00)
        code.take(TIMA)
        code.log()
        code.call('settle')
        code.call('screen_on')
        code.bytes(0x76, 0x3C, 0x76)
        code.log()
        code.back()

    def feature_halt_disabled(self, code):
        code.bytes(0xF3)
        code.call('arm_timer')
        code.bytes(0x76, 0x04)
        code.take(TIMA)
        code.log()
        code.take(IF)
        code.log()
        code.call('settle')
        code.back()

    def feature_halt_bug(self, code):
        code.bytes(0xF3)
        for tail in ([0x3C], [0x3E, 0x14], [0x04, 0x80], [0xC6, 0x0C], [0x06, 0x04], [0x34, 0x34]):
            code.call('arm_timer')
            code.give(IF, 4)
            code.set_hl(SUM)
            code.bytes(0x76, *tail)
            code.log()
        code.call('settle')
        code.back()

    def feature_halt_after_di(self, code):
        code.call('arm_timer')
        code.bytes(0xF3, 0x76, 0x0C)
        code.log()
        code.call('settle')
        code.back()

    def feature_ei_orders(self, code):
        code.bytes(0xF3)
        code.give(IF, 0x1C)
        code.bytes(0xFB, 0xF3, 0x3C)            # EI; DI: nothing is taken
        code.bytes(0xFB, 0xFB, 0xF3, 0x3C)
        code.log()
        code.call('ei_ret')
        code.bytes(0xF3)
        code.give(IF, 0x08)
        code.call('ei_reti')
        code.bytes(0xF3)
        code.give(IF, 0x1F)
        code.bytes(0xFB, 0xFB, 0x04, 0x0C)
        code.log()
        code.bytes(0xF3, 0xFB, 0xF3, 0xFB, 0x00)
        code.back()
        code.label('ei_ret')
        code.bytes(0xFB, 0xC9)
        code.label('ei_reti')
        code.bytes(0xFB, 0xD9)

    def feature_first_border(self, code):
        self.bank_sound(code)
        if self.style:
            for entry in (0, 1, 2): code.call(BORDER + entry)
        else:
            for entry in (0, 2):
                code.call('random_bank')
                code.call(BORDER + entry)
        code.call(BORDER - 13)
        code.back()

    def feature_picture_border(self, code):
        """From 7FFF into VRAM: with the picture off, in VBlank, and at any time."""
        self.bank_sound(code)
        code.bytes(0xF3)
        code.call('screen_on')
        code.call('wait_vblank')
        code.call(VRAM_BORDER + self.random.randrange(12))
        code.log()
        code.call('screen_off')
        for entry in (13, 14, 15): code.call(VRAM_BORDER + entry)
        code.call(0x8000)
        code.log()
        code.call('screen_on')
        code.call('wait_some')
        code.call(VRAM_BORDER + 13)
        code.log()
        if self.kind != 'MBC2':
            code.call('screen_off')
            for entry in (5, 14, 15): code.call(0x9FF0 + entry)
            code.log()
            code.call('screen_on')
        code.bytes(0xFB)
        code.back()

    def feature_last_border(self, code):
        """From FFFE over IE to 0000."""
        opcodes = [0x04, 0x1F, 0x00, 0x0C, 0x06, 0x1E, 0x01, 0x11, 0x18, 0x07, 0x14, 0x16, 0x3C, 0x80, 0x17, 0x0F]
        self.random.shuffle(opcodes)
        for turn in range(4):
            if turn % 2 == 0: code.bytes(0xF3)
            code.random(15)
            code.bytes(0x5F, 0x16, 0x00)
            code.set_hl('last_%d' % turn)
            code.bytes(0x19, 0x7E, 0x47)
            code.give(0xFD, self.random.choice(SHORT))
            code.give(0xFE, (0x3E, 0x3C, 0x0E, 0x01)[turn])
            code.bytes(0x78)
            code.store(PHASE)
            code.put(IE)
            code.call(0xFFFE if turn != 1 else 0xFFFD)
            code.log()
            code.load(PHASE)
            code.put(IE)
            code.call(0xFFFF)
            code.log()
            code.load(WANTED)
            code.put(IE)
            code.bytes(0xFB)
        code.back()
        for turn in range(4):
            code.label('last_%d' % turn)
            code.bytes(*opcodes)
            self.random.shuffle(opcodes)

    def feature_push_over_enable(self, code):
        """An interrupt whose return address goes into IE."""
        code.bytes(0xF3)
        code.absolute(0x08, STACK)
        code.absolute(0x31, 0x0000)
        code.give(IE, 0x0C)
        code.give(IF, 0x0C)
        code.bytes(0xFB, 0x00, 0x00, 0xF3)
        code.take(IE)
        code.bytes(0x57)
        code.set_hl(STACK)
        code.bytes(0x2A, 0x66, 0x6F, 0xF9, 0x7A)
        code.log()
        code.load(WANTED)
        code.put(IE)
        code.bytes(0xFB)
        code.back()

    def feature_screen_off(self, code):
        code.call('screen_off')
        code.take(STAT)
        code.log()
        code.random(0x7E)
        code.bytes(0x6F, 0x26, self.random.randrange(0x81, 0x98))
        for _ in range(4):
            code.random()
            code.bytes(0x22)
        code.random()
        code.bytes(0x6F, 0x26, 0x99, 0x77, 0x26, 0x9D, 0x77)
        code.random()
        code.bytes(0x3C)
        code.call('wait_some')
        code.call('screen_on')
        code.take(LY)
        code.log()
        code.back()

    def feature_picture(self, code):
        """Registers of the picture, at any moment."""
        for register in (SCX, SCY, BGP, OBP0, OBP1):
            code.random()
            code.put(register)
        code.random(0x7F)
        code.put(WY)
        code.random(0x7F)
        code.bytes(0xC6, 0x05)
        code.put(WX)
        code.random(0x7C)
        code.joined(0xA3)
        code.put(LCDC)
        code.random(0x07)
        code.store(KIND)
        code.take(STAT)
        code.log()
        code.back()

    def feature_tiles(self, code):
        code.call('wait_vblank')
        code.random(0xFE)
        code.bytes(0x6F)
        code.random(0x07)
        code.joined(0x90)
        code.bytes(0x67)
        for _ in range(3):
            code.random()
            code.bytes(0x22)
        code.bytes(0x7E)
        code.log()
        code.back()

    def feature_keys(self, code):
        code.bytes(0xF3)
        code.call('read_keys')
        code.bytes(0xFB)
        code.load(KEYS)
        code.log()
        code.masked(0x81)
        code.bytes(0xC0)                            # RET NZ
        code.load(PLACE)                            # two keys at once: another place of the table
        code.bytes(0xEE, 0x15)
        code.store(PLACE)
        code.back()

    def feature_stop(self, code):
        code.give(P1, 0x00)
        code.take(P1)
        code.masked(15)
        code.bytes(0xFE, 0x0F, 0xC8)                # CP 0F; RET Z
        code.bytes(0x10, 0x00)
        code.take(DIV)
        code.log()
        code.back()

    def arithmetic(self, code, count):
        for _ in range(count):
            kind = self.random.randrange(7)
            if kind < 2: code.bytes(*self.some(2))
            elif kind == 2:
                code.bytes(self.random.choice([0xC6, 0xCE, 0xD6, 0xDE, 0xE6, 0xEE, 0xF6, 0xFE]), self.random.randrange(256), 0x27)
            elif kind == 3:
                operation = self.random.randrange(256)
                code.bytes(0xCB, operation ^ 1 if operation & 7 == 6 else operation)
            elif kind == 4: code.bytes(self.random.choice([0x09, 0x19, 0x29, 0x39, 0x23, 0x2B, 0x03, 0x1B]))
            elif kind == 5: code.bytes(0xF8, self.random.randrange(256), 0xE8, 0xFE, 0xE8, 0x02)
            else:
                code.set_hl(SUM)
                code.bytes(0xCB, self.random.randrange(32) * 8 + 6, self.random.choice([0x86, 0x8E, 0x96, 0x9E, 0xA6, 0xAE, 0xB6, 0xBE]))
        code.log()

    def feature_arithmetic(self, code):
        self.arithmetic(code, 40)
        code.back()

    def feature_arithmetic_more(self, code):
        code.set_c(5)
        code.label('again')
        code.bytes(0xC5)
        self.arithmetic(code, 12)
        code.bytes(0xC1, 0x0D)
        code.branch('again', 0x20)
        code.back()


def roms(): return [Rom(number).build() for number in range(len(CARTRIDGES))]


def write(folder):
    os.makedirs(folder, exist_ok=True)
    for number, rom in enumerate(roms()):
        with open('%s/feature_%d.gb' % (folder, number), 'wb') as file: file.write(rom)


# ------------------------------------------------------------ what really happens

AREAS = ((0x4000, 'bank 0'), (0x8000, 'switched bank'), (0xA000, 'VRAM'), (0xC000, 'cartridge RAM'), (0xE000, 'WRAM'), (0xFE00, 'echo'),
         (0xFF80, 'OAM and registers'), (0xFFFF, 'HRAM'), (0x10000, 'IE'))
BORDERS = (0x4000, 0x8000, 0x10000)
PICTURE_WRITES = {0xFF40: 'LCDC', 0xFF42: 'SCY', 0xFF43: 'SCX', 0xFF47: 'BGP', 0xFF4A: 'WY', 0xFF4B: 'WX'}
TIMER_WRITES = {0xFF04: 'DIV', 0xFF05: 'TIMA', 0xFF06: 'TMA', 0xFF07: 'TAC'}
SOURCES = ('mode 0', 'mode 1', 'mode 2', 'LY = LYC')

WANTED_FEATURES = (
    ['interrupt VBlank', 'interrupt STAT', 'interrupt timer', 'interrupt serial', 'interrupt joypad']
    + ['running timer, write to ' + name for name in TIMER_WRITES.values()]
    + ['STAT interrupt by ' + name for name in SOURCES]
    + ['object DMA from HRAM code, WRAM source', 'object DMA from other code', 'object DMA of other bytes than before',
       'object DMA started again in a copy']
    + ['bank changed by code in the switched bank', 'other bytes come next behind such a change']
    + ['runs in ' + name for name in ('switched bank', 'VRAM', 'cartridge RAM', 'WRAM', 'echo', 'HRAM', 'IE')]
    + ['opcode changed, and run within 4 steps', 'opcode changed since it last ran', 'opcode written by a PUSH']
    + ['EI;HALT', 'EI;HALT with an interrupt pending', 'HALT with IME', 'HALT without IME, nothing pending', 'HALT bug',
       'EI;DI', 'EI;RET', 'EI;RETI', 'DI;HALT', 'a halt that waits']
    + ['runs over %04X' % (border & 0xFFFF) for border in BORDERS]
    + ['an instruction on both sides of %04X' % (border & 0xFFFF) for border in BORDERS]
    + ['runs from 7FFF with the picture off', 'runs from 7FFF in mode 0, 1 or 2', 'IE is an opcode', 'IE is an operand',
       "IE written by an interrupt's push"]
    + ['STAT handler, on a line: ' + name for name in list(PICTURE_WRITES.values()) + ['tile data', 'map', 'OAM']]
    + ['a line with the window', 'a line with objects of 8 by 8', 'a line with objects of 8 by 16', 'picture switched off',
       'picture switched on']
    + ['P1 read', 'buttons that P1 shows', 'STOP', 'each routine of the table'])


class Watched(ref.Machine):
    """reference.py's machine, which counts what happens and draws nothing."""

    def __init__(self, rom, routines):
        super().__init__(rom)
        self.draws = True
        self.counts, self.steps = {}, 0
        self.routines, self.met = routines, set()
        self.source, self.in_stat, self.last = None, 0, (0, 0, False)
        self.opcodes, self.written = {}, {}
        self.copied_bytes, self.shown = set(), set()

    def count(self, name): self.counts[name] = self.counts.get(name, 0) + 1

    def draw_line(self):
        if self.lcdc & 0x21 == 0x21 and self.seen and self.wx <= 0xA6: self.count('a line with the window')
        if self.lcdc & 2 and self.line_ % 5 == 0 and self.objects(self.line_):
            self.count('a line with objects of 8 by %d' % (16 if self.lcdc & 4 else 8))

    def take_stat(self):
        before = self.iflag & 2
        rises = not self.statsig
        super().take_stat()
        if rises and self.statsig and not before:
            mode = self.mode()
            held = [bool(self.stat & 8 and mode == 0), bool(self.stat & 16 and mode == 1), bool(self.stat & 32 and mode == 2),
                    bool(self.stat & 64 and self.line_ == self.lyc)]
            self.source = SOURCES[held.index(True)] if sum(held) == 1 else None

    def write(self, a, v):
        pc = self.last[0]
        if a < 0x8000:
            before = (self.lower, self.bank, self.upper)
            code = self.rom_read(self.pc) if 0x4000 <= self.pc < 0x8000 else None
            super().write(a, v)
            if code is not None and 0x4000 <= pc < 0x8000 and (self.lower, self.bank, self.upper) != before:
                self.count('bank changed by code in the switched bank')
                old = (before[2] * 32 + before[0] if self.kind == 'MBC1' else before[1]) % self.banks * 0x4000
                if any(self.rom[old + (self.pc + i & 0x3FFF)] != self.rom_read(self.pc + i & 0x3FFF | 0x4000) for i in range(8)):
                    self.count('other bytes come next behind such a change')
            return
        if 0xC000 <= a < 0xFE00: self.written[a & 0xDFFF] = self.steps
        elif 0xA000 <= a < 0xC000 or 0xFF80 <= a: self.written[a] = self.steps
        if self.tac & 4 and a in TIMER_WRITES: self.count('running timer, write to ' + TIMER_WRITES[a])
        if self.in_stat and self.line_ < 144 and self.lcdc & 0x80:
            if a in PICTURE_WRITES: self.count('STAT handler, on a line: ' + PICTURE_WRITES[a])
            elif 0x8000 <= a < 0xA000 and self.mode() != 3 and self.vram[a - 0x8000] != v:
                self.count('STAT handler, on a line: ' + ('tile data' if a < 0x9800 else 'map'))
            elif 0xFE00 <= a < 0xFEA0 and self.copied >= 160 and self.mode() < 2 and self.oam[a - 0xFE00] != v:
                self.count('STAT handler, on a line: OAM')
        if a == 0xFF40 and (self.lcdc ^ v) & 0x80: self.count('picture switched ' + ('on' if v & 0x80 else 'off'))
        if a == 0xFF46:
            if self.copied < 160: self.count('object DMA started again in a copy')
            if not 0xFF80 <= pc < 0xFFFF: self.count('object DMA from other code')
            elif 0xC0 <= v < 0xE0: self.count('object DMA from HRAM code, WRAM source')
            source = bytes(self.read((v if v < 0xE0 else v - 0x20) * 256 + i, peek=True) for i in range(160))
            if source not in self.copied_bytes: self.count('object DMA of other bytes than before')
            self.copied_bytes.add(source)
        super().write(a, v)

    def read(self, a, peek=False):
        if a == 0xFF00 and not peek:
            self.count('P1 read')
            if self.nibble() != 15: self.count('buttons that P1 shows')
        return super().read(a, peek)

    def step(self):
        self.steps += 1
        pc = self.pc
        shared = self.ie & self.iflag & 31
        if not (self.locked or self.stopped or self.halted and not shared or self.ime and shared):
            self.look(pc, super().read(pc), shared)
        halted, enable = self.halted, self.ie
        super().step()
        if self.what == 'wait' and halted and self.halted: self.count('a halt that waits')
        elif self.what.startswith('interrupt'):
            bit = (int(self.what[-2:], 16) - 0x40) // 8
            self.count('interrupt ' + ('VBlank', 'STAT', 'timer', 'serial', 'joypad')[bit])
            if bit == 1:
                if self.source: self.count('STAT interrupt by ' + self.source)
                self.in_stat = 1
            if self.sp in (0xFFFE, 0xFFFF) and self.ie != enable: self.count("IE written by an interrupt's push")

    def look(self, pc, opcode, shared):
        """An instruction that is about to run."""
        before, before_opcode, _ = self.last
        length = ref.text([opcode, 0, 0])[0]
        for limit, name in AREAS:
            if pc < limit:
                self.count('runs in ' + name)
                break
        if pc in self.routines:
            self.met.add(pc)
            self.count('routines begun')
        after = pc + length
        for border in BORDERS:
            near = border & 0xFFFF
            if pc < border < after: self.count('an instruction on both sides of %04X' % near)
            if (border - 3 <= before < border and before + ref.text([before_opcode, 0, 0])[0] & 0xFFFF == pc and (pc >= near and pc < near + 3)):
                self.count('runs over %04X' % near)
        if pc == 0x7FFF or pc < 0x8000 < after:
            if not self.lcdc & 0x80: self.count('runs from 7FFF with the picture off')
            elif self.mode() != 3: self.count('runs from 7FFF in mode 0, 1 or 2')
        if pc == 0xFFFF: self.count('IE is an opcode')
        elif pc < 0xFFFF < after: self.count('IE is an operand')
        place = pc & 0xDFFF if 0xC000 <= pc < 0xFE00 else pc
        if pc >= 0xA000:
            old = self.opcodes.get(place)
            if old is not None and old != opcode:
                self.count('opcode changed since it last ran')
                if self.steps - self.written.get(place, -9) <= 4:
                    self.count('opcode changed, and run within 4 steps')
                    if before_opcode in (0xC5, 0xD5, 0xE5, 0xF5): self.count('opcode written by a PUSH')
            self.opcodes[place] = opcode
        if opcode == 0x76:
            if self.ime: self.count('HALT with IME')
            elif self.enable: self.count('EI;HALT with an interrupt pending' if shared else 'EI;HALT')
            else: self.count('HALT bug' if shared else 'HALT without IME, nothing pending')
            if before_opcode == 0xF3: self.count('DI;HALT')
        elif self.enable and opcode in (0xF3, 0xC9, 0xD9): self.count('EI;' + {0xF3: 'DI', 0xC9: 'RET', 0xD9: 'RETI'}[opcode])
        elif opcode == 0x10: self.count('STOP')
        if opcode == 0xD9: self.in_stat = 0
        self.last = (pc, opcode, self.ime)


def buttons_of(frame): return frame * 37 // 8 & 255


def check(number, frames):
    """Plays a ROM and answers what was counted, the frames whose states differ, and the seconds that it took."""
    rom = Rom(number)
    image = rom.build()
    routines = {address for name, address in rom.code.labels.items() if isinstance(name, str) and name.startswith('feature_')}
    machine = Watched(image, routines)
    start = time.time()
    states = []
    early = 0
    for frame in range(frames):
        if frame == frames - frames // 5: early = machine.counts.get('routines begun', 0)
        machine.frame(buttons_of(frame))
        states.append(hash((bytes(machine.wram), bytes(machine.vram), bytes(machine.oam), bytes(machine.cram), tuple(machine.r), machine.sp,
                            machine.pc, machine.lcdc, machine.scx, machine.scy, machine.bgp, machine.wx, machine.wy, machine.tima)))
    counts = machine.counts
    if machine.met == routines: counts['each routine of the table'] = len(routines)
    counts['the last state is not locked'] = int(not machine.locked)
    counts['routines begun in the last fifth'] = counts.get('routines begun', 0) - early
    counts['frames that differ from all others'] = len(set(states))
    counts['the last 20 frames all differ'] = int(len(set(states[-20:])) == len(states[-20:]))
    return counts, time.time() - start


def check_all(frames, numbers):
    tables, seconds = {}, []
    for number in numbers:
        tables[number], took = check(number, frames)
        seconds.append('%.0f' % took)
    names = WANTED_FEATURES + ['routines begun', 'routines begun in the last fifth', 'the last state is not locked', 'the last 20 frames all differ',
                               'frames that differ from all others']
    print('%-52s %s' % ('%d frames, counts of ROM' % frames, ''.join('%9d' % number for number in numbers)))
    failed = 0
    for name in names:
        least = frames * 9 // 10 if name.startswith('frames') else 1
        found = [tables[number].get(name, 0) for number in numbers]
        good = min(found) >= least
        failed += not good
        print('%-52s %s  %s' % (name, ''.join('%9d' % count for count in found), 'PASS' if good else 'FAIL'))
    print('seconds: %s' % ' '.join(seconds))
    print('%d features, %d missing' % (len(names), failed))
    return 1 if failed else 0


def main(words):
    if len(words) == 1 and not words[0].startswith('-'):
        write(words[0])
        return 0
    if len(words) in (2, 3) and words[0] == '--check':
        return check_all(int(words[1]), [int(words[2])] if len(words) == 3 else range(len(CARTRIDGES)))
    print(__doc__)
    return 2


if __name__ == '__main__':
    sys.exit(main(sys.argv[1:]))
