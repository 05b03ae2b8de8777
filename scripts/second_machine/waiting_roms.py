"""Random programs that wait in loops, to compare machines on them: a loop asks a byte until an interrupt or the time changes it.

usage: waiting_roms.py FOLDER COUNT     writes them as FOLDER/waits_0.gb and so on, the same at each run

A program is one to six loops, one after the other, over and over. Most have a body of one to eight instructions, in which it asks a byte of HRAM or WRAM, by
an address or by a pair of registers, or LY, STAT, DIV, TIMA, IF or P1. Now and then a body counts, writes or uses the stack. Others only load such a byte,
look at it by one or two instructions and jump back, or count a register or a pair down. Between them LCDC, STAT, TAC, TIMA or IE changes now and then. The
interrupts that are enabled set the bytes or count them. The code runs in the lower half of ROM, the upper half, WRAM or HRAM."""
import os, random, sys
from scripts.second_machine.feature_roms import Emitter, DIV, HRAM_CODE, IE, IF, LY, LYC, LCDC, P1, STAT, TAC, TIMA, TMA

HRAM_FLAGS, WRAM_FLAGS = 0xFFF0, 0xC120
HANDLERS = 0x1000
# where the code runs, and how many bytes it may have
PLACES = [(0x0150, 0x400), (0x4100, 0x400), (0x3F00, 0xF0), (0xC400, 0x200), (HRAM_CODE, 0x5C)]

# instructions of one byte that keep the registers of a loop that waits
STEADY = [0x00, 0x40, 0x49, 0x52, 0x7F, 0xB7, 0xA7, 0xB8, 0xBA, 0xBE, 0xB6, 0xA6, 0x57, 0x5F, 0x37, 0x3F, 0x78]


class Program:
    def __init__(self, seed):
        self.random = random.Random('waits-%s' % seed)
        self.image = bytearray(0x8000)
        self.place, self.room = self.random.choice(PLACES)
        # in RAM the code is copied from 2000
        self.offset = self.place if self.place < 0x8000 else 0x2000

    def build(self):
        choose = self.random
        entry = Emitter(self.image, 0x100, 0x100)
        entry.bytes(0x00, 0xC3, 0x00, 0x08)
        self.handlers()
        self.begin(Emitter(self.image, 0x0800, 0x0800))
        code = Emitter(self.image, self.offset, self.place)
        code.label('again')
        for _ in range(choose.randrange(1, 7)):
            if code.at + 48 > self.offset + self.room: break
            self.loop(code)
        code.jump('again')
        code.finish()
        total = 0
        for at in range(0x134, 0x14D): total = (total - self.image[at] - 1) & 255
        self.image[0x14D] = total
        return bytes(self.image)

    def handlers(self):
        """Each sets a byte or counts it, in HRAM or WRAM; some do nothing."""
        choose = self.random
        for number in range(5):
            vector = Emitter(self.image, 0x40 + 8 * number, 0x40 + 8 * number)
            vector.jump(HANDLERS + 64 * number)
            code = Emitter(self.image, HANDLERS + 64 * number, HANDLERS + 64 * number)
            code.bytes(0xF5, 0xE5)
            for _ in range(choose.randrange(4)):
                code.set_hl(choose.choice([HRAM_FLAGS, WRAM_FLAGS]) + choose.randrange(4))
                if choose.random() < 0.5: code.bytes(0x34)
                else: code.bytes(0x36, choose.choice([0, 1, 1, 3, 255]))
            code.bytes(0xE1, 0xF1, 0xD9 if choose.random() < 0.9 else 0xC9)

    def begin(self, code):
        choose = self.random
        code.absolute(0x31, 0xDF00)
        if self.place >= 0x8000:
            code.set_hl(self.offset)
            code.set_de(self.place)
            code.bytes(0x06, min(self.room, 255))
            code.label('copy')
            code.bytes(0x2A, 0x12, 0x13, 0x2A, 0x12, 0x13) if self.room > 255 else code.bytes(0x2A, 0x12, 0x13)
            code.bytes(0x05)
            code.branch('copy', 0x20)
        code.give(LYC, choose.randrange(154))
        code.give(STAT, choose.choice([0, 0, 0x40, 0x08, 0x10, 0x20]))
        code.give(TMA, choose.randrange(256))
        code.give(TAC, choose.choice([0, 0, 4, 5, 6, 7]))
        code.give(P1, choose.choice([0x10, 0x20]))
        code.give(IE, choose.choice([1, 1, 1, 3, 5, 7, 31, 0]))
        if choose.random() < 0.9: code.bytes(0xFB)
        code.jump(self.place)
        code.finish()

    # ---- a loop

    def loop(self, code):
        choose = self.random
        kind = choose.random()
        if kind < 0.1: code.give(*choose.choice([(LCDC, 0x11), (LCDC, 0x91), (LCDC, 0x91), (STAT, 0x40), (STAT, 0x08), (STAT, 0), (TAC, 0), (TAC, 5), (TAC, 7), (TIMA, 0xF0), (IE, 1), (IE, 7)]))
        if kind < 0.45: self.wait(code)
        elif kind < 0.8: self.ask(code)
        else: self.count(code)

    def ask(self, code):
        """A load, one or two looks and a jump back."""
        choose = self.random
        asked = choose.choice([LY, LY, LY, STAT, STAT, STAT, DIV, TIMA, TIMA, IF, HRAM_FLAGS & 255])
        for opcode in (0x06, 0x0E, 0x16, 0x1E): code.bytes(opcode, choose.choice([0, 1, 3, 100, 143, 144, choose.randrange(256)]))
        name = code.fresh()
        code.label(name)
        if choose.random() < 0.7: code.take(asked)
        else: code.load(0xFF00 + asked)
        for _ in range(choose.choice([1, 1, 2])): self.look(code)
        code.branch(name, choose.choice([0x28, 0x20, 0x20, 0x30, 0x38]))

    def look(self, code):
        choose = self.random
        kind = choose.randrange(6)
        if kind < 2: code.bytes(choose.choice([0xFE, 0xD6, 0xEE]), choose.choice([0, 1, 2, 3, 144, choose.randrange(256)]))
        elif kind == 2: code.bytes(0xE6, choose.choice([1, 2, 3, 4, 7, 128]))
        elif kind == 3: code.bytes(choose.choice([0xB8, 0xB9, 0xBA, 0xA0, 0xA7, 0xB7, 0xB3, 0xBC, 0xBE]))
        elif kind == 4: code.bytes(0xCB, 0x47 + 8 * choose.randrange(8))
        else: code.bytes(choose.choice([0xC6, 0xCE, 0xDE, 0xF6, 0x88, 0x98]), choose.randrange(256)) if choose.random() < 0.5 else code.bytes(0x98)

    def count(self, code):
        """A register or a pair is counted down, alone or within another loop."""
        choose = self.random
        outer = code.fresh()
        nested = choose.random() < 0.3
        if nested:
            code.bytes(0x26, choose.randrange(1, 9))
            code.label(outer)
        kind = choose.random()
        inner = code.fresh()
        if kind < 0.6:
            number = choose.choice([0, 1, 2, 3, 7])
            code.bytes(0x06 + 8 * number, choose.choice([0, 1, 2, 3, 16, 17, choose.randrange(256)]))
            code.label(inner)
            code.bytes(0x05 + 8 * number)
        else:
            high, first = choose.choice([(0, 0x01), (2, 0x11)])
            code.absolute(first, choose.choice([1, 2, 0x0100, 0x0101, choose.randrange(4000)]))
            code.label(inner)
            code.bytes(first + 0x0A, 0x78 + high, 0xB1 + high) if choose.random() < 0.8 else code.bytes(first + 0x0A, 0x79 + high, 0xB0 + high)
        code.branch(inner, choose.choice([0x20] * 19 + [0x30]))
        if nested:
            code.bytes(0x25)
            code.branch(outer, 0x20)

    def wait(self, code):
        choose = self.random
        hram, wram = HRAM_FLAGS + choose.randrange(4), WRAM_FLAGS + choose.randrange(4)
        by_pair = choose.choice([hram, wram])
        for opcode in (0x21, 0x01, 0x11):
            if choose.random() < 0.7: code.absolute(opcode, by_pair)
        code.set_a(0)
        if choose.random() < 0.7: code.put(hram & 255)
        if choose.random() < 0.7: code.store(wram)
        name = code.fresh()
        code.label(name)
        for _ in range(choose.randrange(4)): self.filler(code)
        self.question(code, hram, wram)
        for _ in range(choose.randrange(2)): code.bytes(choose.choice([0x00, 0x40, 0x57, 0x5F]))
        code.branch(name, choose.choice([0x28, 0x28, 0x20, 0x30, 0x38]))

    def filler(self, code):
        choose = self.random
        kind = choose.random()
        if kind < 0.75: code.bytes(choose.choice(STEADY))
        elif kind < 0.82: code.bytes(choose.choice([0x3E, 0x06, 0x1E, 0xE6, 0xF6, 0xC6]), choose.randrange(256))
        elif kind < 0.87: code.bytes(choose.choice([0x04, 0x0D, 0x14, 0x3C, 0x2A, 0x3A, 0x23]))
        elif kind < 0.90: code.bytes(0xC5, 0xC1)
        elif kind < 0.93: code.store(WRAM_FLAGS + 8)
        elif kind < 0.95: code.put(0xF8)
        elif kind < 0.97: code.bytes(0xCB, choose.choice([0x37, 0x47, 0x7F, 0x46, 0x3F, 0x87]))
        elif kind < 0.99: code.bytes(choose.choice([0xFB, 0xF3, 0x76]), 0x00)
        else: code.bytes(0x18, 0x00)

    def question(self, code, hram, wram):
        choose = self.random
        kind = choose.randrange(12)
        if kind < 2: code.take(hram & 255)
        elif kind < 4: code.load(wram)
        elif kind == 4: code.bytes(0x7E)
        elif kind == 5: code.bytes(choose.choice([0x0A, 0x1A]))
        elif kind == 6: return code.bytes(0xCB, choose.choice([0x46, 0x4E, 0x7E]))
        elif kind == 7:
            code.set_c(hram & 255)
            code.bytes(0xF2)
        elif kind == 8: code.take(choose.choice([IF, P1]))
        elif kind == 9:
            code.take(LY)
            return code.bytes(0xFE, choose.choice([0, 5, 100, 143, 144, 150]))
        elif kind == 10:
            code.take(STAT)
            return code.bytes(0xE6, choose.choice([1, 2, 3, 4]))
        else:
            code.take(choose.choice([DIV, TIMA]))
            return code.bytes(0xFE, choose.randrange(256))
        code.bytes(*choose.choice([(0xA7,), (0xB7,), (0xE6, 1), (0xFE, 0), (0xCB, 0x47)]))


def main():
    if len(sys.argv) != 3: sys.exit(__doc__)
    os.makedirs(sys.argv[1], exist_ok=True)
    for number in range(int(sys.argv[2])):
        with open(os.path.join(sys.argv[1], 'waits_%d.gb' % number), 'wb') as rom: rom.write(Program(number).build())


if __name__ == '__main__': main()
