"""Compares the output of gbkeep with reference.py on random ROMs, byte for byte.

usage: compare.py GBKEEP SECONDS            each kind of ROM for so many seconds, from a seed that it prints
       compare.py GBKEEP KIND SEED SECONDS  one kind from a seed on
       compare.py GBKEEP KIND SEED show     one seed; a mismatch is followed to its first step, and the ROM is kept

Kinds: raw (random bytes with a valid header), prog (random programs), proglong (the same, to a million steps), refuse
(headers and lengths that are to be refused, among others), list, trace (random programs and bytes: new, play of a short
script of frames and seconds, trace of 1,024 steps, line by line; 200 of them at most), frames (programs that draw, by registers,
tiles and objects that change within frames, by buttons and the clock; after each of some scripts of frames, buttons and seconds the whole
picture of `frame`), features (the same over longer scripts, then `trace`, on programs of feature_roms.py, which use every unusual feature of the
machine again and again), waits (the same on programs of waiting_roms.py, which wait in loops), debug (lines of `debug` on random programs, on programs
that draw and on those of feature_roms.py: steps, places, opcodes, frames, seconds, registers, histories, listings, memory, what is sent, pictures,
states of the ROM and of others, and digests of the whole machine), tests (`test` of programs that send words and come to an end in many ways and places,
with scripts and without). The status is 1 where anything differs."""
import os, random, shutil, subprocess, sys, tempfile, time
from scripts.second_machine import debug_lines, feature_roms, reference as ref, test_lines, waiting_roms

GB = os.path.abspath(sys.argv[1]) if len(sys.argv) > 1 else ''
ROOM = tempfile.mkdtemp(prefix='compare-')
TMP = ROOM + '/rom.gb'

TYPES = sorted(ref.KINDS)
MOST = {'none': 2, 'MBC1': 128, 'MBC2': 16, 'MBC3': 128, 'MBC3+clock': 128, 'MBC5': 512}
RAMCODES = [0, 2, 3, 4, 5]
IOREGS = [0x00, 0x01, 0x02, 0x04, 0x05, 0x06, 0x07, 0x0F, 0x40, 0x41, 0x42, 0x43, 0x44, 0x45,
          0x46, 0x47, 0x48, 0x49, 0x4A, 0x4B, 0xFF]
READREGS = [0x04, 0x05, 0x44, 0x41, 0x0F, 0x00, 0x01, 0x02]
stats = {'runs': 0, 'roms': 0, 'mis': 0, 'bytes': 0}


def gb(*args, text=b''):
    stats['runs'] += 1
    p = subprocess.run([GB] + list(args), capture_output=True, input=text)
    return p.returncode, p.stdout, p.stderr


def report(kind, seed, what):
    stats['mis'] += 1
    s = 'MISMATCH kind=%s seed=%d %s' % (kind, seed, what)
    print(s, flush=True)


def header(rnd, rom, t=None, ramcode=None):
    rom[0x147] = rnd.choice(TYPES) if t is None else t
    rom[0x149] = rnd.choice(RAMCODES) if ramcode is None else ramcode
    if rnd.random() < 0.3:
        rom[0x14D] = 0
    k = rnd.random()
    if k < 0.3:
        for i in range(0x134, 0x144):
            rom[i] = rnd.choice(b'ABCDEFGHIJKLMNOPQRSTUVWXYZ 0123456789\x7e\x7f\x20\x1f')
        if k < 0.2:
            j = rnd.randrange(0x134, 0x144)
            for i in range(j, 0x144):
                rom[i] = 0


def pick_size(rnd, t):
    most = MOST[ref.KINDS[t][0]]
    sizes = [s for s in (2, 4, 8, 16, 32, 64, 128, 256, 512) if s <= most]
    w = {2: 6, 4: 6, 8: 4, 16: 4, 32: 3, 64: 3, 128: 2, 256: 1, 512: 1}
    return rnd.choices(sizes, [w[s] for s in sizes])[0]

# ------------------------------------------------------------ kinds of ROMs


def raw_rom(rnd):
    t = rnd.choice(TYPES)
    n = pick_size(rnd, t)
    rom = bytearray(rnd.randbytes(n * 16384))
    header(rnd, rom, t)
    if ref.KINDS[t][0] == 'MBC2' and rnd.random() < 0.5:
        rom[0x149] = rnd.randrange(256)
    # thin out what ends the run at once
    if rnd.random() < 0.8:
        bad = list(ref.UNDEF) + [0x10]
        keep = rnd.random() < 0.2
        table = bytearray(range(256))
        for b in bad:
            table[b] = rnd.randrange(256) if keep else rnd.choice([0x3C, 0x04, 0x80, 0x27, 0x00, 0xC9, 0xE8])
        if rnd.random() < 0.5:
            table[0x76] = 0x00
        if rnd.random() < 0.7:
            table[0xFF] = rnd.choice([0xFE, 0xE6, 0x3C])
        h = bytes(rom[0x134:0x150])
        rom = bytearray(bytes(rom).translate(bytes(table)))
        rom[0x134:0x150] = h
    if rnd.random() < 0.7:
        for v in range(0, 0x68, 8):       # vectors that mostly come back
            if rnd.random() < 0.7:
                rom[v] = rnd.choice([0xC9, 0xD9, 0xC9, 0xD9, 0xE1, 0xF1])
                if rom[v] in (0xE1, 0xF1): rom[v + 1] = rnd.choice([0xD9, 0xC9])
    return rom


class Gen:
    def __init__(self, rnd, t, n, ramcode):
        self.rnd = rnd
        self.t, self.n = t, n
        self.kind = ref.KINDS[t][0]
        self.safe = rnd.random() < 0.5      # fewer things that lead astray
        self.weights = {
            'alu': 10, 'mem': 8, 'io_read': 12, 'io_write': 4, 'timer': 6, 'lcd': 5, 'lyloop': 3,
            'dma': 3, 'serial': 3, 'ints': 5, 'halt': 4, 'stack': 3, 'bank': 5, 'cram': 5,
            'spmath': 2, 'copy': 2, 'ramcode': 1, 'daa': 3, 'loop': 4, 'call': 3, 'sumloop': 3,
            'hl16': 2, 'vram': 3, 'wild': 0.5, 'delay': 3, 'statedge': 5, 'pushrom': 2, 'oamwrite': 2, 'oddirq': 0.4, 'chain': 3, 'rst': 1, 'prewait': 3}
        # each program has a favour
        for k in rnd.sample(sorted(self.weights), 4):
            self.weights[k] *= 3
        self.names = sorted(self.weights)
        self.wl = [self.weights[k] for k in self.names]

    def acc(self):
        r = self.rnd
        return r.choice([
            b'\xAA\x07\x57\x83\x5F',          # XOR D; RLCA; LD D,A; ADD A,E; LD E,A
            b'\x83\x5F',                      # ADD A,E; LD E,A
            b'\xAB\x5F\xCB\x03',              # XOR E; LD E,A; RLC E
            b'\x8A\x57',                      # ADC A,D; LD D,A
            b'\x80\x47\xAA\x57',              # ADD A,B; LD B,A; XOR D; LD D,A
            b'\x92\x57\xCB\x0A',
            b'\x80\x47'])

    def ldh_w(self, reg, v):
        r = self.rnd
        if r.random() < 0.2:
            return bytes([0x0E, reg, 0x3E, v, 0xE2])       # LD C,reg; LD A,v; LD (C),A
        if r.random() < 0.15:
            return bytes([0x21, reg, 0xFF, 0x36, v])       # LD HL,FFxx; LD (HL),v
        if r.random() < 0.1:
            return bytes([0x3E, v, 0xEA, reg, 0xFF])
        return bytes([0x3E, v, 0xE0, reg])

    def ldh_r(self, reg):
        r = self.rnd.random()
        if r < 0.15: return bytes([0x0E, reg, 0xF2])
        if r < 0.25: return bytes([0xFA, reg, 0xFF])
        if r < 0.35: return bytes([0x21, reg, 0xFF, 0x7E])
        return bytes([0xF0, reg])

    def alu(self):
        r = self.rnd
        out = b''
        for _ in range(r.randrange(1, 6)):
            k = r.randrange(8)
            if k == 0: out += bytes([0x80 | r.randrange(64) & 0x3F])
            elif k == 1: out += bytes([r.choice([0xC6, 0xCE, 0xD6, 0xDE, 0xE6, 0xEE, 0xF6, 0xFE]), r.randrange(256)])
            elif k == 2: out += bytes([r.choice([0x04, 0x05, 0x0C, 0x0D, 0x24, 0x25, 0x2C, 0x2D, 0x3C, 0x3D, 0x14, 0x1D])])
            elif k == 3: out += bytes([r.choice([0x07, 0x0F, 0x17, 0x1F, 0x27, 0x2F, 0x37, 0x3F])])
            elif k == 4:
                c = r.randrange(256)
                if c & 7 == 6: c ^= 1
                out += bytes([0xCB, c])
            elif k == 5:
                c = 0x40 + 8 * r.choice([0, 1, 4, 5, 7, 7, 7, r.randrange(6)]) + r.choice([0, 1, 2, 3, 4, 5, 7])
                out += bytes([c])
            elif k == 6: out += bytes([r.choice([0x06, 0x0E, 0x26, 0x2E, 0x3E]), r.randrange(256)])
            else: out += bytes([r.choice([0x09, 0x19, 0x29, 0x39, 0x03, 0x0B, 0x23, 0x2B, 0x13, 0x1B])])
        return out

    def daa(self):
        r = self.rnd
        return bytes([0x3E, r.randrange(256), r.choice([0xC6, 0xCE, 0xD6, 0xDE, 0xFE, 0xE6]), r.randrange(256),
                      0x27]) + r.choice([b'', b'\x27', b'\xF5\xE1\x7D']) + self.acc()

    def hl16(self):
        r = self.rnd
        v = r.choice([0xFFF, 0xFFFF, 0x7FFF, 0x8000, r.randrange(65536)])
        return bytes([0x21, v & 255, v >> 8, r.choice([0x09, 0x19, 0x29, 0x39]), 0xF5, 0xC1, 0x79]) + self.acc()

    def addr(self):
        r = self.rnd
        k = r.randrange(14)
        if k < 3: return 0xC000 + r.randrange(0x2000)
        if k == 3: return 0xFF80 + r.randrange(128)
        if k == 4: return 0x8000 + r.randrange(0x2000)
        if k == 5: return 0xFE00 + r.randrange(0xA0)
        if k == 6: return 0xFEA0 + r.randrange(0x60)
        if k == 7: return 0xA000 + r.randrange(0x2000)
        if k == 8: return 0xE000 + r.randrange(0x1E00)
        if k == 9: return r.randrange(0x8000)
        if k == 10: return 0xFF00 + r.choice(IOREGS)
        if k == 11: return 0xFF10 + r.randrange(0x30)
        if k == 12: return 0xFF00 + r.randrange(256)
        return r.choice([0x7FFF, 0x8000, 0x9FFF, 0xA000, 0xBFFF, 0xC000, 0xDFFF, 0xE000, 0xFDFF, 0xFE00,
                         0xFE9F, 0xFEA0, 0xFEFF, 0xFF00, 0xFF7F, 0xFF80, 0xFFFE, 0xFFFF, 0x0000])

    def mem(self):
        r = self.rnd
        a = self.addr()
        out = bytes([0x21, a & 255, a >> 8])
        for _ in range(r.randrange(1, 5)):
            k = r.randrange(9)
            if k == 0: out += bytes([0x36, r.randrange(256)])
            elif k == 1: out += bytes([r.choice([0x34, 0x35])])
            elif k == 2: out += bytes([0xCB, r.randrange(32) * 8 + 6])
            elif k == 3: out += bytes([0x86 + 8 * r.randrange(8)]) + self.acc()
            elif k == 4: out += b'\x7E' + self.acc()
            elif k == 5: out += bytes([r.choice([0x22, 0x32, 0x2A, 0x3A])])
            elif k == 6: out += bytes([0x70 + r.choice([0, 1, 2, 3, 4, 5, 7])])
            elif k == 7: out += bytes([r.choice([0x46, 0x4E, 0x7E])])
            else: out += bytes([r.choice([0x23, 0x2B])])
        if r.random() < 0.7: out += b'\x7E' + self.acc()
        if r.random() < 0.3:
            out += bytes([r.choice([0xEA, 0xFA]), a & 255, a >> 8])
        if r.random() < 0.2:
            p = r.choice([(0x01, 0x02, 0x0A), (0x11, 0x12, 0x1A)])
            if p[0] == 0x01: out += bytes([p[0], a & 255, a >> 8, r.choice(p[1:])]) + self.acc()
        return out

    def io_read(self):
        r = self.rnd
        out = b''
        for _ in range(r.randrange(1, 4)):
            reg = r.choice(READREGS) if r.random() < 0.8 else r.randrange(256)
            out += self.ldh_r(reg) + self.acc()
            if r.random() < 0.3: out += b'\x00' * r.randrange(5)
        return out

    def io_write(self):
        r = self.rnd
        reg = r.choice([0x00, 0x01, 0x04, 0x05, 0x06, 0x0F, 0x41, 0x42, 0x43, 0x44, 0x45, 0x47, 0x48, 0x49, 0x4A, 0x4B,
                        0x10 + r.randrange(0x30), r.randrange(256)])
        out = self.ldh_w(reg, r.randrange(256))
        if r.random() < 0.7: out += self.ldh_r(reg) + self.acc()
        return out

    def timer(self):
        r = self.rnd
        out = b''
        for _ in range(r.randrange(1, 5)):
            k = r.randrange(6)
            if k == 0: out += self.ldh_w(0x07, r.choice([4, 5, 5, 6, 7, 0, 1, 2, 3, r.randrange(256)]))
            elif k == 1: out += self.ldh_w(0x06, r.choice([0xF0, 0xC0, 0xE0, 0, 0x80, r.randrange(256), 0xFF if r.random() < 0.1 else 0]))
            elif k == 2: out += self.ldh_w(0x05, r.choice([0xFF, 0xFE, 0xFC, 0xF0, r.randrange(256)]))
            elif k == 3: out += b'\xE0\x04'
            elif k == 4: out += b'\x00' * r.randrange(12)
            else: out += self.ldh_r(r.choice([0x05, 0x04, 0x0F, 0x06, 0x07])) + self.acc()
        return out

    def lcd(self):
        r = self.rnd
        out = b''
        for _ in range(r.randrange(1, 4)):
            k = r.randrange(5)
            if k == 0: out += self.ldh_w(0x40, r.randrange(256) | (0x80 if r.random() < 0.6 else 0))
            elif k == 1: out += self.ldh_w(0x41, r.choice([0x08, 0x10, 0x20, 0x40, 0x48, 0x78, 0, r.randrange(256)]))
            elif k == 2: out += self.ldh_w(0x45, r.choice([0, 1, 2, 143, 144, 153, 154, r.randrange(160)]))
            elif k == 3: out += self.ldh_r(r.choice([0x44, 0x41, 0x0F])) + self.acc()
            else: out += bytes([0xFA, 0x44, 0xFF, 0xC6, r.randrange(4), 0xE0, 0x45])   # LYC = LY + n
        return out

    def lyloop(self):
        r = self.rnd
        reg = r.choice([0x44, 0x41, 0x41, 0x05, 0x04, 0x0F])
        body = bytes([0xF0, reg]) + self.acc()
        if b'\x80\x47' in body: body = bytes([0xF0, reg, 0x83, 0x5F])
        body += b'\x00' * r.randrange(4)
        body += b'\x0D'
        return bytes([0x0E, r.choice([2, 4, 8, 12, r.randrange(1, 60)])]) + body + bytes([0x20, 256 - len(body) - 2])

    def delay(self):
        r = self.rnd
        return bytes([0x0E, r.choice([1, 2, 3, 5, 8, 13, 20, r.randrange(1, 100)]), 0x0D, 0x20, 0xFD]) + b'\x00' * r.randrange(4)

    def prewait(self):
        # wait (bounded) for a value of LY or a mode
        r = self.rnd
        if r.random() < 0.5:
            body = bytes([0xF0, 0x44, 0xFE, r.choice([0, 1, 143, 144, 145, 153, r.randrange(154)]), 0x28, 0x03, 0x0D])
        else:
            body = bytes([0xF0, 0x41, 0xE6, 3, 0xFE, r.randrange(4), 0x28, 0x03, 0x0D])
        return bytes([0x0E, r.choice([5, 10, 20, r.randrange(1, 256)])]) + body + bytes([0x20, 256 - len(body) - 2])

    def dma(self):
        r = self.rnd
        page = r.choice([0xC0, 0xD0, 0xDF, 0x80, 0x9F, 0xA0, 0xBF, 0xE0, 0xFD, 0xFE, 0xFF, 0x00, 0x3F, 0x40, 0x7F,
                         r.randrange(256)])
        out = b''
        if r.random() < 0.3: out += self.ldh_w(0x40, r.choice([0x11, 0x91]))
        out += self.ldh_w(0x46, page)
        if r.random() < 0.5:
            out += bytes([0xFA, r.randrange(0xA0), 0xFE]) + self.acc()
        out += r.choice([b'', bytes([0x0E, r.randrange(1, 60), 0x0D, 0x20, 0xFD])]) + b'\x00' * r.randrange(4)
        if r.random() < 0.5:
            n = r.randrange(1, 0xA0)
            a = r.randrange(0xA0 - n + 1)
            out += bytes([0x21, a, 0xFE, 0x0E, n, 0x2A, 0x83, 0x5F, 0x0D, 0x20, 0xFA])
        if r.random() < 0.2: out += self.ldh_r(0x46) + self.acc()
        if r.random() < 0.2: out += bytes([0x21, r.randrange(0xA0), 0xFE, 0x36, r.randrange(256), 0x7E]) + self.acc()
        if r.random() < 0.2:    # turn the picture off, then look at all of OAM
            out += self.ldh_w(0x40, 0x11)
            out += bytes([0x21, 0x00, 0xFE, 0x0E, 0xA0, 0x2A, 0xAA, 0x57, 0xCB, 0x02, 0x83, 0x5F, 0x0D, 0x20, 0xF6])
        return out

    def serial(self):
        r = self.rnd
        out = b''
        for _ in range(r.randrange(1, 4)):
            k = r.randrange(5)
            if k == 0: out += self.ldh_w(0x01, r.randrange(256))
            elif k == 1: out += self.ldh_w(0x02, r.choice([0x81, 0x81, 0x81, 0x80, 0x01, 0x00, r.randrange(256)]))
            elif k == 2: out += self.ldh_r(r.choice([0x01, 0x02, 0x0F])) + self.acc()
            elif k == 3: out += bytes([0x0E, r.choice([0, 255, 254, r.randrange(1, 256)]), 0x0D, 0x20, 0xFD]) + b'\x00' * r.randrange(4)
            else:
                body = bytes([0xF0, 0x02, 0x83, 0x5F, 0x00, 0x00, 0x0D])
                out += bytes([0x0E, r.randrange(60, 120)]) + body + bytes([0x20, 256 - len(body) - 2])
        return out

    def ints(self):
        r = self.rnd
        out = b''
        for _ in range(r.randrange(1, 4)):
            k = r.randrange(9)
            if k == 0: out += self.ldh_w(0xFF, r.choice([0x1F, 0x04, 0x01, 0x02, 0x08, 0x10, 0, r.randrange(256)]))
            elif k == 1: out += self.ldh_w(0x0F, r.choice([0x1F, 0x04, 0x10, 0, 0xE0, r.randrange(256)]))
            elif k == 2: out += b'\xFB'
            elif k == 3: out += b'\xF3'
            elif k == 4: out += r.choice([b'\xFB\xF3', b'\xFB\xFB', b'\xF3\xFB', b'\xFB\x00', b'\xFB\xFB\xF3'])
            elif k == 5: out += self.ldh_r(0x0F) + self.acc()
            elif k == 6: out += self.ldh_r(0xFF) + self.acc()
            elif k == 7: out += b'\xFB' + r.choice([b'\x04', b'\x3E' + bytes([r.randrange(256)]), b'\xCB\x02', b'\x0E\x0F\xF2'])
            else: out += b'\xFB' + b'\x00' * r.randrange(3)
        return out

    def halt(self):
        r = self.rnd
        out = b''
        if r.random() < 0.95:
            out += self.ldh_w(0x07, r.choice([5, 5, 5, 5, 5, 5, 6, 6, 7, 4]))
            if r.random() < 0.95: out += self.ldh_w(0x05, r.choice([0xFF, 0xFE, 0xFC, 0xF8]))
            if r.random() < 0.7: out += self.ldh_w(0x06, r.choice([0xE0, 0xC0, 0x80]))
            ie = 0x04 | (r.randrange(256) if r.random() < 0.5 else 0)
        else:
            ie = r.randrange(256)
        out += bytes([0x3E, ie, 0xE0, 0xFF])
        if r.random() < 0.5: out += bytes([0x3E, r.choice([0, 0, r.randrange(256)]), 0xE0, 0x0F])
        out += r.choice([b'', b'', b'\xF3', b'\xFB', b'\xFB\x00', b'\xF3\xAF\xE0\x0F'])
        out += b'\x76'
        out += r.choice([b'\x04', b'\x3C', b'\x3E\x14', b'\x06\x04', b'\xCB\x10', b'\x01\x04\x05', b'\x76', b'\x18\x00', b'\x00',
                         b'\xFB', b'\xF3', b'\xF0\x04', b'\xEA\x00\xC0', b'\x21\x00\xC0', b'\x18\x01\x04', b'\xC6\x01', b'\xF8\x02',
                         b'\x86', b'\x34', b'\xF5', b'\xC1', b'\x27', b'\xE0\x0F', b'\x08\x00\xC1', b'\x20\x01\x0C', b'\xC4\x00\x20', b'\xCD\x00\x20'])
        out += b'\xF0\x05' + self.acc()
        return out

    def stack(self):
        r = self.rnd
        k = r.random()
        if k < 0.4: sp = 0xC000 + r.randrange(0x2000)
        elif k < 0.6: sp = r.choice([0xFFFE, 0xFFFF, 0x0000, 0x0001, 0x0002, 0xFF80, 0xFF81, 0xFF82, 0xFE00, 0xFE01, 0xFEA0, 0xFEA1,
                                     0xE000, 0xE001, 0xC000, 0xC001, 0xA000, 0xA001, 0xA002, 0x8000, 0x8001, 0x8002, 0x9FFF, 0xFF00])
        elif k < 0.75: sp = 0xFF00 + r.randrange(0x80)
        elif k < 0.85: sp = 0xFE00 + r.randrange(0xA0)
        else: sp = self.addr()
        if self.safe and 0xFF00 <= sp < 0xFF80 and r.random() < 0.5: sp = 0xDFF0
        out = bytes([0x31, sp & 255, sp >> 8])
        for _ in range(r.randrange(1, 5)):
            j = r.randrange(7)
            if j < 2: out += bytes([r.choice([0xC5, 0xD5, 0xE5, 0xF5])])
            elif j < 4: out += r.choice([b'\xC1\x79', b'\xE1\x7C', b'\xE1\x7D', b'\xF1', b'\xC1\x78']) + self.acc()
            elif j == 4: out += bytes([0xE8, r.randrange(256)]) if r.random() < 0.3 else b'\x33'
            elif j == 5: out += bytes([0xF8, r.randrange(256), 0x7D]) + self.acc()
            else:
                if r.random() < 0.4: out += bytes([0xCD, 0x40 * r.randrange(4), 0x20])    # call with this stack
        sp = 0xDF00 + r.randrange(256)
        out += bytes([0x31, sp & 255, sp >> 8])
        return out

    def spmath(self):
        r = self.rnd
        sp = r.choice([0, 1, 0xFF, 0xFFFF, 0x0FFF, 0xFF0F, r.randrange(65536)])
        out = bytes([0x31, sp & 255, sp >> 8])
        k = r.randrange(4)
        if k == 0: out += bytes([0xE8, r.randrange(256)])
        elif k == 1: out += bytes([0xF8, r.randrange(256), 0x7C]) + self.acc()
        elif k == 2:
            a = self.addr()
            if a >= 0xFF00 and self.safe: a = 0xFFFD
            out += bytes([0x08, a & 255, a >> 8])
            out += bytes([0xFA, a & 255, a >> 8]) + self.acc()
            a = (a + 1) & 0xFFFF
            out += bytes([0xFA, a & 255, a >> 8]) + self.acc()
        else: out += bytes([r.choice([0x33, 0x3B]), 0xF8, 0x00, 0x7D]) + self.acc()
        # flags without a stack: rotate C in
        out += b'\xCB\x13'
        out += bytes([0x31, r.randrange(256), 0xDF])
        return out

    def regw(self, a, v):
        return bytes([0x3E, v, 0xEA, a & 255, a >> 8])

    def bank(self):
        r = self.rnd
        out = b''
        for _ in range(r.randrange(1, 4)):
            r.randrange(3)
            base = r.choice([0x2000, 0x2000, 0x3000, 0x2100, 0x4000, 0x6000, 0x0000, 0x5FFF, 0x3FFF, 0x7FFF, 0x2FFF, 0x1FFF])
            a = base if r.random() < 0.6 else (base & 0xE000) + r.randrange(0x2000)
            out += self.regw(a, r.choice([0, 1, 0x10, 0x20, 0x1F, 0x40, 0x60, 0x80, 2, 3, r.randrange(256)]))
        for _ in range(r.randrange(1, 4)):
            a = r.choice([0x4000 + r.randrange(0x4000), 0x3C00 + r.randrange(0x400), 0x7FFF, 0x4000])
            out += bytes([0xFA, a & 255, a >> 8]) + self.acc()
        if r.random() < 0.3: out += bytes([0xCD, 0x00, 0x40])
        return out

    def cram(self):
        r = self.rnd
        out = b''
        if r.random() < 0.8: out += self.regw(r.choice([0, 0x1FFF, r.randrange(0x2000)]) & 0x1EFF, r.choice([0x0A, 0x0A, 0xFA, 0x1A, r.randrange(256)]))
        if r.random() < 0.3 and self.kind == 'MBC1': out += self.regw(0x6000 + r.randrange(0x2000), r.randrange(256))
        if r.random() < 0.7: out += self.regw(0x4000 + r.randrange(0x2000), r.choice([0, 1, 2, 3, r.randrange(16), r.randrange(16), r.randrange(256)]))
        if self.kind.startswith('MBC3') and r.random() < 0.6:
            out += self.regw(0x4000, r.randrange(8, 14))
            if r.random() < 0.7: out += self.regw(0xA000 + r.randrange(0x2000), r.randrange(256))
        if self.kind.startswith('MBC3') and r.random() < 0.5:
            for _ in range(r.randrange(1, 4)):
                out += self.regw(0x6000 + r.randrange(0x2000), r.choice([0, 1, 0, 1, 2, 0xFF, r.randrange(256)]))
        for _ in range(r.randrange(1, 5)):
            a = 0xA000 + r.choice([0, 1, 0x1FF, 0x200, 0x1FFF, r.randrange(0x2000), r.randrange(8)])
            if r.random() < 0.5: out += self.regw(a, r.randrange(256))
            else: out += bytes([0xFA, a & 255, a >> 8]) + self.acc()
            if r.random() < 0.15: out += self.regw(0x4000, r.randrange(16))
        if r.random() < 0.1: out += self.regw(0, 0)
        return out

    def vram(self):
        r = self.rnd
        a = r.choice([0x8000 + r.randrange(0x2000), 0xFE00 + r.randrange(0xA0)])
        out = bytes([0x21, a & 255, a >> 8])
        n = r.randrange(1, 16)
        # write C and read it back in a loop, over the modes
        body = bytes([0x71, 0x7E]) + bytes([0x83, 0x5F]) + r.choice([b'', b'\x23', b'\x2B', b'\x2C']) + b'\x00' * r.randrange(3) + b'\x0D'
        return out + bytes([0x0E, n]) + body + bytes([0x20, 256 - len(body) - 2])

    def copy(self):
        r = self.rnd
        s = r.choice([r.randrange(0x7F00), 0xC000 + r.randrange(0x1F00), 0xA000 + r.randrange(0x1F00), 0x8000 + r.randrange(0x1F00)])
        d = r.choice([0xC000 + r.randrange(0x1F00), 0x8000 + r.randrange(0x1F00), 0xA000 + r.randrange(0x1F00), 0xE000 + r.randrange(0x1D00), 0xFE00])
        n = r.randrange(1, 25)
        return bytes([0x21, s & 255, s >> 8, 0xD5, 0x11, d & 255, d >> 8, 0x0E, n, 0x2A, 0x12, 0x13, 0x0D, 0x20, 0xFA, 0xD1])

    def sumloop(self):
        r = self.rnd
        a = self.addr()
        if r.random() < 0.3: a = r.choice([0xFF00, 0xFF80, 0xFE00, 0xFF10, 0xFF40])
        n = r.choice([3, 6, 10, 20, r.randrange(1, 60)])
        body = r.choice([b'\x2A\xAA\x57\xCB\x02\x83\x5F\x0D', b'\x2A\x83\x5F\x0D', b'\x3A\xAB\x5F\xCB\x03\x0D', b'\x2A\x8A\x57\x0D'])
        return bytes([0x21, a & 255, a >> 8, 0x0E, n]) + body + bytes([0x20, 256 - len(body) - 2])

    def ramcode(self):
        # put a small program somewhere and call it
        r = self.rnd
        a = r.choice([0xC000 + r.randrange(0x1000), 0xFF80 + r.randrange(0x60), 0x8000 + r.randrange(0x1F00), 0xA000 + r.randrange(0x1F00),
                      0xFE00 + r.randrange(0x90), 0xFF10 + r.randrange(0x20)])
        code = r.choice([b'\x04\xC9', b'\xF0\x05\x83\x5F\xC9', b'\x14\xC8\x1C\xC9', b'\x3E\x05\xE0\x07\xE0\xFF\x76\x04\xC9', b'\xFB\xC9', b'\xF3\xC9',
                         b'\xF0\x44\x83\x5F\xC9'])
        out = bytes([0x21, a & 255, a >> 8])
        for b in code: out += bytes([0x36, b, 0x23])
        return out + bytes([0xCD, a & 255, a >> 8])

    def loop(self):
        r = self.rnd
        body = b''
        while len(body) < r.randrange(4, 50):
            s = getattr(self, r.choice(['alu', 'daa', 'hl16', 'io_read', 'timer', 'mem']))()
            if any(x in s for x in (b'\x06', b'\x26')): pass
            body += s
            if len(body) > 100: return body
        # counter in HRAM
        c = 0x80 + r.randrange(0x70)
        body += bytes([0x21, c, 0xFF, 0x35])
        if len(body) > 120: return body
        return bytes([0x3E, r.randrange(1, 5), 0xE0, c]) + body + bytes([0x20, 256 - len(body) - 2])

    def call(self):
        r = self.rnd
        a = 0x2000 + 0x40 * r.randrange(16)
        return bytes([r.choice([0xCD, 0xCD, 0xC4, 0xCC, 0xD4, 0xDC]), a & 255, a >> 8])

    def rst(self):
        return bytes([0xC7 + 8 * self.rnd.randrange(7)])

    def wild(self):
        r = self.rnd
        if self.safe: return self.alu()
        k = r.random()
        if k < 0.03: return bytes([r.choice(sorted(ref.UNDEF))])
        if k < 0.06: return b'\x10\x00'
        return r.randbytes(r.randrange(1, 8))

    def statedge(self):
        r = self.rnd
        out = b''
        if r.random() < 0.5: out += b'\xAF\xE0\x0F'
        if r.random() < 0.5: out += bytes([0x3E, r.choice([0, 0x40, 0x20, 0x10, 0x08, 0x48, 0x28, 0x78]), 0xE0, 0x41])
        for _ in range(r.randrange(2, 7)):
            k = r.randrange(9)
            if k < 2: out += bytes([0x3E, r.choice([0, 0x40, 0x20, 0x10, 0x08, 0x48, 0x28, 0x78, r.randrange(256)]), 0xE0, 0x41])
            elif k < 4: out += bytes([0xF0, 0x44, 0xC6, r.choice([0, 0, 1, 255, 2]), 0xE0, 0x45])
            elif k == 4: out += bytes([0x3E, r.choice([0x11, 0x91, 0x00, 0x80]), 0xE0, 0x40])
            elif k == 5: out += b'\x00' * r.randrange(1, 30)
            elif k == 6: out += b'\xAF\xE0\x45'
            elif k == 7: out += b'\xAF\xE0\x0F'
            else: out += b'\xF0\x41\xAB\x5F'
            if r.random() < 0.6: out += r.choice([b'\xF0\x0F\x83\x5F\xCB\x03', b'\xF0\x0F\xAA\x57\xCB\x0A'])
        return out + b'\xF0\x0F\x83\x5F\xCB\x03'

    def pushrom(self):
        r = self.rnd
        k = r.random()
        if k < 0.5: sp = r.choice([0x2002, 0x2102, 0x2110, 0x3000, 0x3001, 0x3002, 0x4001, 0x4002, 0x6001, 0x6002, 0x2001, 0x0001, 0x0002, r.randrange(0x8000)])
        elif k < 0.8: sp = 0xFF00 + r.choice([6, 7, 8, 5, 0x10, 0x11, 0x12, 3, 4, 0x42, 0x41, 0x43, 0x46, 0x47, 0x48, 0x45])
        else: sp = r.choice([0, 1, 0xFFFF, 0x9FFF, 0x8001, 0xFEA1, 0xFE01])
        if r.random() < 0.5: out = bytes([0x01, r.choice([0x0A, 1, 2, 0, r.randrange(256)]), r.choice([0x0A, 1, 2, 0, r.randrange(256)]), 0x31, sp & 255, sp >> 8, 0xC5])
        else:
            v = r.choice([r.randrange(65536), 0xD000, 0xDF00 + r.randrange(256)])
            a = (sp - 2) & 0xFFFF
            out = bytes([0x31, v & 255, v >> 8, 0x08, a & 255, a >> 8])
        out += bytes([0x31, r.randrange(256), 0xDF])
        for a in r.sample([0x4000 + r.randrange(0x4000), 0x7FFF, 0xA000 + r.randrange(0x2000), 0xFF05, 0xFF0F, 0xFF41, 0xFF44, 0xFF06, 0x3E00 + r.randrange(512)], 3):
            out += bytes([0xFA, a & 255, a >> 8, 0x83, 0x5F])
        return out

    def oamwrite(self):
        r = self.rnd
        out = b''
        if r.random() < 0.7: out += bytes([0x3E, 0x11, 0xE0, 0x40])
        if r.random() < 0.5: out += bytes([0x21, r.randrange(256), r.choice([0xC0, 0xD0, 0xDE, 0xDF, 0xDD]), 0x36, r.randrange(256), 0x23, 0x36, r.randrange(256)])
        out += bytes([0x3E, r.choice([0xC0, 0xD0, 0xDE, 0xDF, 0xE0, 0xF0, 0xFD, 0xFE, 0xFF, 0x01, 0x20, 0x40, 0x7F, r.randrange(256)]), 0xE0, 0x46])
        out += bytes([0x0E, r.randrange(1, 45), 0x0D, 0x20, 0xFD])
        for _ in range(r.randrange(1, 4)):
            out += bytes([0x3E, r.randrange(256), 0xEA, r.choice([0, 1, 2, r.randrange(0xA0)]), 0xFE])
            out += b'\x00' * r.randrange(4)
        if r.random() < 0.3: out += bytes([0x3E, r.randrange(256), 0xE0, 0x46])
        if r.random() < 0.3: out += self.regw(r.choice([0x2000, 0x2100, 0x4000, 0x6000, 0x0000]), r.randrange(16))
        out += bytes([0x0E, r.choice([45, 40, 20, 3]), 0x0D, 0x20, 0xFD])
        a = r.randrange(0x90)
        return out + bytes([0x21, a, 0xFE, 0x0E, 0x10, 0x2A, 0xAA, 0x57, 0xCB, 0x02, 0x83, 0x5F, 0x0D, 0x20, 0xF6])

    def oddirq(self):
        r = self.rnd
        sp = r.choice([0xFF10, 0xFF11, 0x0001, 0x0000, 0xFF47, 0xFF48, 0xFF08, 0xFF06, 0xFE02, 0xFFFF, 0x2002, 0x8002])
        return bytes([0x3E, r.choice([0x1F, 0x14, 0xFF, 0x1C]), 0xE0, 0x0F, 0xE0, 0xFF, 0x31, sp & 255, sp >> 8, 0xFB, 0x00, 0x00, 0x00, 0xF3, 0x31, 0xF0, 0xDF])

    def chain(self):
        # EI and DI in all orders, with something asked for
        r = self.rnd
        out = bytes([0x3E, r.choice([0x04, 0x14, 0x1F, 0x10, 0x01]), 0xE0, 0x0F, 0xE0, 0xFF])
        for _ in range(r.randrange(1, 7)):
            out += r.choice([b'\xFB', b'\xFB', b'\xF3', b'\x00', b'\x04', b'\xE0\x0F', b'\xE0\xFF', b'\x0C'])
        return out + b'\xF3' * r.randrange(2)

    def snippet(self):
        return getattr(self, self.rnd.choices(self.names, self.wl)[0])()

    def skip(self):
        r = self.rnd
        s = self.snippet()
        if len(s) > 100: return s
        return bytes([r.choice([0x20, 0x28, 0x30, 0x38, 0x18]), len(s)]) + s


def prog_rom(rnd, shape=None):
    k = rnd.choice(['none', 'MBC1', 'MBC1', 'MBC2', 'MBC3', 'MBC3+clock', 'MBC5', 'MBC5'])
    t = rnd.choice([x for x in TYPES if ref.KINDS[x][0] == k])
    n = pick_size(rnd, t)
    ramcode = rnd.choice(RAMCODES)
    g = Gen(rnd, t, n, ramcode)
    b0 = bytearray(rnd.randbytes(0x4000))
    header(rnd, b0, t, ramcode)
    # main: sections
    starts = []
    at = 0x150
    end = rnd.choice([0x300, 0x1000, 0x1E00, 0x1E00])
    while at < end:
        starts.append(at)
        sec = bytes([0x31, rnd.randrange(256), 0xDF]) if rnd.random() < 0.7 else b''
        if rnd.random() < 0.3: sec += b'\xFB'
        for _ in range(rnd.randrange(3, 25)):
            sec += g.snippet() if rnd.random() < 0.85 else g.skip()
            if rnd.random() < 0.1: sec += b'\xF0\x05' + g.acc()
        if at + len(sec) > 0x1FF0: break
        b0[at:at + len(sec)] = sec
        at += len(sec)
    s0 = rnd.choice(starts) if rnd.random() < 0.1 else 0x150
    b0[at:at + 3] = bytes([0xC3, s0 & 255, s0 >> 8])
    e0 = rnd.choice(starts) if rnd.random() < 0.5 else 0x150
    b0[0x100:0x104] = rnd.choice([b'\x00', b'\xF3', b'\xFB']) + bytes([0xC3, e0 & 255, e0 >> 8])
    # subroutines
    for i in range(16):
        s = b''
        while len(s) < 30:
            x = getattr(g, rnd.choice(['alu', 'io_read', 'timer', 'daa', 'mem', 'ints', 'lcd']))()
            if len(s) + len(x) > 60: break
            s += x
        s += rnd.choice([b'\xC9', b'\xC9', b'\xD9', b'\xC0\xC9', b'\xC8\xD9', b'\xD0\xC9', b'\xD8\xC9'])
        b0[0x2000 + 0x40 * i:0x2000 + 0x40 * i + len(s)] = s
    # handlers
    for i in range(5):
        a = 0x2800 + 0x40 * i
        s = rnd.choice([b'\xF5', b'\xF5\xC5', b''])
        end_ = {b'\xF5': b'\xF1', b'\xF5\xC5': b'\xC1\xF1', b'': b''}[s]
        for _ in range(rnd.randrange(1, 4)):
            s += rnd.choice([b'\xF0\x05\x83\x5F', b'\xF0\x44\xAA\x57', b'\xF0\x04\x83\x5F', b'\x14', b'\x1C', b'\xF0\x41\x82\x57',
                             b'\xF0\x0F\xAB\x5F', b'\xCB\x02', b'\xF8\x00\x7E\x83\x5F', b'\xF8\x00\x7E\xAA\x57', b'\xF8\x02\x7E\x83\x5F', b'\xF8\x04\x7E\x83\x5F', b'\x3E\x05\xE0\x07', b'\xAF\xE0\x0F', b'\xFB', b'\xF0\x02\x83\x5F'])
        s += end_ + rnd.choice([b'\xD9', b'\xD9', b'\xD9', b'\xC9', b'\xFB\xC9'])
        b0[a:a + len(s)] = s
        v = 0x40 + 8 * i
        b0[v:v + 8] = rnd.choice([bytes([0xC3, a & 255, a >> 8, 0, 0, 0, 0, 0]), bytes([0xC3, a & 255, a >> 8, 0, 0, 0, 0, 0]),
                                  b'\xD9' * 8, b'\x14\xD9' + b'\xC9' * 6, b'\x1C\xC9' + b'\xC9' * 6, b'\xF8\x00\x7E\x83\x5F\xD9\x00\x00', b'\xF8\x00\x7E\x83\x5F\xD9\x00\x00', b'\x83\x5F\xF0\x05\xFB\xC9\x00\x00',
                                  b'\x04\x15\xD9\x00\x00\x00\x00\x00'])
    for i in range(7):
        b0[8 * i:8 * i + 8] = rnd.choice([b'\xC9' * 8, b'\x14\xC9\xC9\xC9\xC9\xC9\xC9\xC9', b'\xF0\x05\x83\x5F\xC9\xC9\xC9\xC9',
                                          b'\xD9' * 8, b'\xE1\xE9\xC9\xC9\xC9\xC9\xC9\xC9', b'\xF8\x00\x7D\x83\x5F\xC9\xC9\xC9'])
    s = rnd.choice(starts)
    if rnd.random() < 0.85:
        b0[0x38:0x40] = bytes([0x31, 0xF0, 0xDF, 0x1C, 0xC3, s & 255, s >> 8, 0])
    rom = bytearray(b0)
    for i in range(1, n):
        b = bytearray(rnd.randbytes(0x4000)) if n <= 64 or i % 7 == 0 else bytearray(bytes([i & 255, i >> 8, rnd.randrange(256), i * 37 & 255]) * 4096)
        if i % 32 == 0:
            # these show in bank 0's place in mode 1 of MBC1: the same code, other data
            b[:0x3C00] = b0[:0x3C00]
        else:
            b[0:6] = bytes([0x3E, rnd.randrange(256), 0x83, 0x5F, 0xC9, 0xC9])
        rom += b
    return rom

class Draw:
    """Programs whose pictures show much: they fill VRAM and OAM, and then change what a line is drawn by, again and again."""

    def __init__(self, rnd, t):
        self.rnd = rnd
        self.kind = ref.KINDS[t][0]
        self.safe = rnd.random() < 0.8      # the picture is not switched off
        self.names = ['register', 'register', 'line', 'line', 'delay', 'joypad', 'clock', 'vram', 'oam', 'dma', 'lcdc']

    def put(self, reg, v):
        return bytes([0x3E, v, 0xE0, reg])

    def value(self, reg):
        r = self.rnd
        if reg == 0x40: return self.lcdc_value()
        if reg in (0x47, 0x48, 0x49): return r.choice([0xE4, 0x1B, 0xD2, 0x6C, r.randrange(256)])
        if reg == 0x4B: return r.choice([0, 1, 2, 3, 4, 5, 6, 7, 8, 0x57, 0xA5, 0xA6, 0xA7, r.randrange(256), r.randrange(0xA8)])
        if reg == 0x4A: return r.choice([0, 0, 1, 5, 20, 70, 100, 143, 144, r.randrange(256)])
        return r.choice([0, 1, 7, 8, 0x60, 0xF8, 0xFF, r.randrange(256), r.randrange(256)])

    def lcdc_value(self):
        r = self.rnd
        v = r.randrange(128)
        if r.random() < 0.7: v |= 1
        if r.random() < 0.6: v |= 2
        return v | (0x80 if self.safe or r.random() < 0.7 else 0)

    def fill(self, source, to, count):
        """LD HL,source; LD DE,to; LD BC,count; LD A,(HL+); LD (DE),A; INC DE; DEC BC; LD A,B; OR C; JR NZ"""
        return bytes([0x21, source & 255, source >> 8, 0x11, to & 255, to >> 8, 0x01, count & 255, count >> 8,
                      0x2A, 0x12, 0x13, 0x0B, 0x78, 0xB1, 0x20, 0xF8])

    def register(self):
        reg = self.rnd.choice([0x42, 0x43, 0x47, 0x48, 0x49, 0x4A, 0x4B, 0x4B])
        return self.put(reg, self.value(reg))

    def lcdc(self):
        return self.put(0x40, self.value(0x40))

    def delay(self):
        return bytes([0x0E, self.rnd.randrange(1, 60), 0x0D, 0x20, 0xFD]) + b'\x00' * self.rnd.randrange(4)

    def line(self):
        """Waits for a line, 255 looks at most, and writes a register there."""
        r = self.rnd
        at = r.choice([0, 1, 10, 71, 100, 140, 143, 144, 153, r.randrange(154)])
        wait = bytes([0x0E, 0xFF, 0xF0, 0x44, 0xFE, at, 0x28, 0x03, 0x0D, 0x20, 0xF7])
        return wait + (self.register() if r.random() < 0.7 else self.lcdc())

    def joypad(self):
        """Selects a half of the buttons, and adds or writes what it reads."""
        r = self.rnd
        reg = r.choice([0x42, 0x43, 0x47, 0x48, 0x4A, 0x4B])
        out = self.put(0x00, r.choice([0x10, 0x20, 0x00])) + bytes([0xF0, 0x00])
        if r.random() < 0.5: out += bytes([0x47, 0xF0, reg, 0x80])      # LD B,A; LDH A,(reg); ADD A,B
        return out + bytes([0xE0, reg])

    def clock(self):
        """Latches the clock and writes one of its registers to one of the picture's."""
        if self.kind != 'MBC3+clock': return self.register()
        r = self.rnd
        out = b''
        for a, v in ((0x0000, 0x0A), (0x4000, 8 + r.randrange(5)), (0x6000, 0), (0x6000, 1)):
            out += bytes([0x3E, v, 0xEA, a & 255, a >> 8])
        return out + bytes([0xFA, 0x00, 0xA0, 0xE0, r.choice([0x42, 0x43, 0x47, 0x48, 0x4A, 0x4B])])

    def vram(self):
        """Writes a few bytes one behind the other; some meet mode 3."""
        r = self.rnd
        a = 0x8000 + r.choice([r.randrange(0x1800), 0x1800 + r.randrange(0x7F0), r.randrange(0x200)])
        return bytes([0x21, a & 255, a >> 8]) + b''.join(bytes([0x36, r.randrange(256), 0x23]) for _ in range(r.randrange(1, 12)))

    def oam(self):
        r = self.rnd
        a = 4 * r.randrange(38)
        return bytes([0x21, a, 0xFE]) + b''.join(bytes([0x36, r.randrange(170), 0x23]) for _ in range(r.randrange(1, 9)))

    def dma(self):
        r = self.rnd
        return self.put(0x46, r.choice([0x40, 0x41, 0x42, 0x50, 0xC0, 0x80, r.randrange(256)])) + (self.delay() if r.random() < 0.5 else b'')

    def part(self):
        return getattr(self, self.rnd.choice(self.names))()

    def objects(self):
        """160 bytes of OAM; many objects of one line, some of one column."""
        r = self.rnd
        tops = [r.randrange(160) for _ in range(4)]
        lefts = [r.randrange(168) for _ in range(6)]
        return b''.join(bytes([r.choice(tops) + r.randrange(6) if r.random() < 0.8 else r.randrange(256),
                               r.choice(lefts) + r.choice([0, 0, 1, 4]) if r.random() < 0.7 else r.randrange(256),
                               r.randrange(256), r.randrange(256)]) for _ in range(40))

    def tiles(self):
        """The bytes of VRAM: noise, few colours, or tiles of one row."""
        r = self.rnd
        k = r.randrange(3)
        if k == 0: data = bytearray(r.randbytes(0x1800))
        elif k == 1: data = bytearray(r.choice([0, 0, 0xFF, r.randrange(256)]) for _ in range(0x1800))
        else: data = bytearray(b''.join(bytes([r.randrange(256), r.randrange(256)]) * 8 for _ in range(0x180)))
        few = r.sample(range(256), 5)
        return bytes(data) + bytes(r.choice(few) if r.random() < 0.8 else r.randrange(256) for _ in range(0x800))


def draw_rom(rnd):
    kind = rnd.choice(['none', 'MBC1', 'MBC3', 'MBC3+clock', 'MBC3+clock', 'MBC5'])
    t = rnd.choice([x for x in TYPES if ref.KINDS[x][0] == kind])
    g = Draw(rnd, t)
    rom = bytearray(rnd.randbytes(0x8000))
    header(rnd, rom, t)
    rom[0x4000:0x6000] = g.tiles()
    for page in (0x6000, 0x6100, 0x6200):
        rom[page:page + 160] = g.objects()
    start = bytes([0x31, 0xF0, 0xDF]) + g.put(0x40, 0x11) + g.fill(0x4000, 0x8000, 0x2000) + g.fill(0x6000, 0xFE00, 160) + g.fill(0x6100, 0xC000, 160)
    for reg in (0x42, 0x43, 0x47, 0x48, 0x49, 0x4A, 0x4B):
        if rnd.random() < 0.85: start += g.put(reg, g.value(reg))
    start += g.put(0x45, rnd.randrange(154)) + g.put(0x41, rnd.choice([0x40, 0x08, 0x20, 0x10, 0])) + g.put(0xFF, rnd.choice([0, 0, 2, 3, 1, 0x10]))
    start += g.put(0x40, g.lcdc_value() | 0x80) + rnd.choice([b'\xFB', b'\xF3'])
    loop = 0x150 + len(start)
    body = b''
    for _ in range(rnd.randrange(0, 30)): body += g.part()
    if rnd.random() < 0.3: body += b'\x76\x00'
    rom[0x100:0x104] = bytes([0x00, 0xC3, 0x50, 0x01])
    code = start + body + bytes([0xC3, loop & 255, loop >> 8])
    rom[0x150:0x150 + len(code)] = code
    for i in range(5):      # handlers: a register or two, changed at the interrupt
        at = 0x3000 + 0x100 * i
        reg = rnd.choice([0x42, 0x43, 0x47, 0x4B])
        next_line = bytes([0xF0, 0x45, 0xC6, rnd.randrange(1, 40), 0xE0, 0x45])
        s = b'\xF5' + rnd.choice([bytes([0xF0, 0x44, 0xE0, reg]), g.register(), g.lcdc(), next_line]) + b'\xF1\xD9'
        rom[at:at + len(s)] = s
        rom[0x40 + 8 * i:0x43 + 8 * i] = bytes([0xC3, at & 255, at >> 8])
    return rom

# ------------------------------------------------------------ comparing


def counts_for(rnd, top):
    c = {1, 2, 5, 50, 1000, top}
    c.add(rnd.randrange(3, 300))
    c.add(rnd.randrange(300, 5000))
    c.add(rnd.randrange(1000, top + 1))
    return sorted(x for x in c if x <= top)


def bisect(rom, lo, hi):
    """lo: equal, hi: differs."""
    def at(c):
        m = ref.Machine(rom)
        for _ in range(c): m.step()
        return m.registers()
    while hi - lo > 1:
        mid = (lo + hi) // 2
        g = gb('step', TMP, str(mid))[1].decode()
        if g == at(mid): lo = mid
        else: hi = mid
    m = ref.Machine(rom)
    for _ in range(lo): m.step()
    b = [m.read((m.pc + i) & 0xFFFF) for i in range(3)]
    before = m.registers()
    m.step()
    return ('first differing step %d (step 1 is the first): at PC=%s bytes %s text %s what=%r\n'
            '  before    %s  reference %s  gbkeep    %s  line=%d mc=%d counter=%04X tima=%02X tac=%X if=%02X ie=%02X lcdc=%02X stat=%02X copied=%d left=%d\n'
            % (hi, before.split('PC=')[1][:4], ' '.join('%02X' % x for x in b), text3(b), m.what, before, m.registers(),
               gb('step', TMP, str(hi))[1].decode(), m.line_, m.mc, m.counter, m.tima, m.tac, m.iflag, m.ie, m.lcdc, m.stat,
               m.copied, m.left))


def text3(b): return ref.text(b)[1]


cov = {}


def compare_steps(kind, seed, rom, rnd, top):
    with open(TMP, 'wb') as f: f.write(rom)
    stats['roms'] += 1
    counts = counts_for(rnd, top)
    m = ref.Machine(rom)
    done = 0
    last_good = 0
    for c in counts:
        while done < c:
            m.step()
            done += 1
        want = m.registers()
        code, out, err = gb('step', TMP, str(c))
        if (code, out, err) != (0, want.encode(), b''):
            if code != 0:
                report(kind, seed, 'status %d out %r err %r count %d' % (code, out, err, c))
            else:
                report(kind, seed, 'count %d type %02X len %d ramcode %02X\n  %s' % (c, rom[0x147], len(rom), rom[0x149], bisect(rom, last_good, c)))
            return False
        last_good = c
    end = 'locked' if m.locked else 'stopped' if m.stopped else 'halted' if m.halted else 'running'
    cov[end] = cov.get(end, 0) + 1
    return True


def compare_texts(kind, seed, rom, rnd):
    """info and list; also on headers that are refused."""
    with open(TMP, 'wb') as f: f.write(rom)
    stats['roms'] += 1
    try:
        want = (0, ref.info_text(rom).encode(), b'')
        ok = True
    except ref.Refused as e:
        want = (1, b'', ('gbkeep: %s\n' % e).encode())
        ok = False
    cov['accepted' if ok else str(want[2].split()[1:3])] = cov.get('accepted' if ok else str(want[2].split()[1:3]), 0) + 1
    got = gb('info', TMP)
    if got != want:
        report(kind, seed, 'info: want %r got %r' % (want, got))
    a = rnd.choice([rnd.randrange(65536), rnd.randrange(65536), 0xFFFF - rnd.randrange(0x200), 0xF000, 0xFEF0, 0x7FFF, 0x3FFF - rnd.randrange(4)])
    n = rnd.choice([4096, 4096, 1, rnd.randrange(1, 4097)])
    w = (0, ref.list_text(rom, a, n).encode(), b'') if ok else want
    got = gb('list', TMP, '%X' % a if rnd.random() < 0.5 else '%04X' % a, str(n))
    if got != w:
        report(kind, seed, 'list %04X %d: want %r got %r' % (a, n, w[1:], got) if not ok else 'list %04X %d differs' % (a, n))
    if not ok:
        c = rnd.choice([0, 1, 1000, 1000000])
        got = gb('step', TMP, str(c))
        if got != want:
            report(kind, seed, 'step %d: want %r got %r' % (c, want, got))


def refuse_rom(rnd):
    k = rnd.randrange(8)
    if k == 0:      # odd lengths
        n = rnd.choice([0, 1, 0x14D, 0x150, 16384, 32767, 32769, 49152, 65535, 65537, 98304, rnd.randrange(200000), 32768 * rnd.randrange(1, 20),
                        8388608 - 1, 8388608 + 1, 8388608 + 16384, 16777216])
        rom = bytearray(rnd.randbytes(min(n, 400000)))
        rom += bytes(n - len(rom))
        if len(rom) >= 0x150 and rnd.random() < 0.7: header(rnd, rom)
        return rom
    n = rnd.choices([2, 4, 8, 16, 32, 64, 128, 256, 512], [8, 6, 5, 5, 4, 3, 2, 2, 1])[0]
    rom = bytearray(rnd.randbytes(32768) * (n // 2))
    if k <= 2:      # any type, any RAM code
        rom[0x147] = rnd.choice(TYPES) if rnd.random() < 0.6 else rnd.randrange(256)
        rom[0x149] = rnd.randrange(256) if rnd.random() < 0.5 else rnd.randrange(8)
    elif k <= 4:
        header(rnd, rom)
    elif k == 5:
        header(rnd, rom, ramcode=rnd.choice([1, 6, 7, 0xFF, 0]))
    else:
        header(rnd, rom, t=rnd.choice([0, 4, 7, 8, 9, 0xA, 0xB, 0xC, 0xD, 0xE, 0xF, 0x10, 0x13, 0x14, 0x18, 0x19, 0x1E, 0x1F, 0x20, 0x22, 0xFC, 0xFF]))
    return rom


def list_rom(rnd):
    t = rnd.choice(TYPES)
    rom = bytearray(rnd.randbytes(32768))
    k = rnd.random()
    if k < 0.5:     # all opcodes, all CB opcodes, shuffled, with operands
        x = []
        for o in range(256):
            x.append(bytes([o]) + (rnd.randbytes(ref.text([o, 0, 0])[0] - 1)))
            x.append(bytes([0xCB, o]))
        rnd.shuffle(x)
        x = b''.join(x)
        rom[0x1000:0x1000 + len(x)] = x
    header(rnd, rom, t)
    return rom


def moves_for(rnd):
    """A few frames, seconds and power switches."""
    buttons = [0, 0, 0, 0x01, 0x10, 0x80, 0xFF, rnd.randrange(256)]
    moves = []
    for _ in range(rnd.choice([0, 1, 1, 2, 3])):
        if rnd.random() < 0.3: moves.append(('seconds', rnd.choice([0, 1, 59, 60, 3600, 86400, rnd.randrange(200000)])))
        elif rnd.random() < 0.2: moves.append(('power',))
        else: moves.append(('frames', rnd.choice(buttons), rnd.randrange(1, 3)))
    return moves


def line_of(move):
    return '%s %s' % move if move[0] == 'seconds' else 'power' if move[0] == 'power' else 'frames %02X %d' % move[1:]


def compare_trace(kind, seed, rom, rnd):
    """A new game, a few moves, and the next 1,024 steps, which are not saved."""
    with open(TMP, 'wb') as f: f.write(rom)
    stats['roms'] += 1
    save, script, nothing = ROOM + '/save', ROOM + '/script', ROOM + '/nothing'
    open(nothing, 'w').close()
    if os.path.exists(save): os.remove(save)
    sectors = int(ref.info_text(rom).split('sectors ')[1])
    moves = moves_for(rnd)
    m = ref.Machine(rom)
    lines, inputs = [], 0
    for move in moves:
        if move[0] == 'seconds':
            for _ in range(move[1]): m.second()
        elif move[0] == 'power':
            debug_lines.powered(m)
        else:
            for _ in range(move[2]): m.frame(move[1])
        inputs += move[2] if move[0] == 'frames' else 1
        lines.append(line_of(move))
    with open(script, 'w') as f: f.write('\n'.join(lines))
    want = [(('new', TMP, save, str(sectors)), 'begun 0\n'),
            (('play', TMP, save, script), 'resumed 0\n' + ('saved %d\n' % inputs if inputs else '')),
            (('trace', TMP, save, '1024'), 'resumed %d\n' % inputs + ''.join(m.trace_line() for _ in range(1024)))]
    if rnd.random() < 0.2:      # the steps were not saved
        want.append((('play', TMP, save, nothing), 'resumed %d\n' % inputs))
    for words, text in want:
        code, out, err = gb(*words)
        out = out.decode('latin-1')
        if (code, out, err) != (0, text, b''):
            pairs = list(zip(text.splitlines(), out.splitlines()))
            at = next((i for i, (a, b) in enumerate(pairs) if a != b), len(pairs))
            report(kind, seed, '%s, moves %r: status %d err %r, line %d: want %r got %r'
                   % (words[0], lines, code, err, at, text.splitlines()[at:at + 1], out.splitlines()[at:at + 1]))
            return False
        if words[0] == 'trace':
            for line in text.splitlines()[1:]:
                what = line.split()[0] if line[0] in 'wi' else 'instruction'
                cov[what] = cov.get(what, 0) + 1
    return True


def differing(want, out):
    """Where two pictures differ: the first pixel, and how many."""
    a, b = want.split()[4:], out.split()[4:]
    if len(a) != len(b): return 'lengths %d and %d' % (len(a), len(b))
    places = [i for i, (x, y) in enumerate(zip(a, b)) if x != y]
    return '%d pixels, the first at line %d column %d: want %s got %s' % (len(places), places[0] // 160, places[0] % 160, a[places[0]], b[places[0]])


def compare_frames(kind, seed, rom, rnd, longest=5):
    """A new game, and the whole picture after each of some scripts, whose lines have fewer than `longest` frames. Answers whether all agreed."""
    with open(TMP, 'wb') as f: f.write(rom)
    stats['roms'] += 1
    save, script, picture = ROOM + '/save', ROOM + '/script', ROOM + '/picture'
    if os.path.exists(save): os.remove(save)
    sectors = int(ref.info_text(rom).split('sectors ')[1])
    m = ref.Machine(rom)
    m.draws = True
    inputs = 0
    got = gb('new', TMP, save, str(sectors))
    if got != (0, b'begun 0\n', b''):
        report(kind, seed, 'new: %r' % (got,))
        return False
    for _ in range(rnd.randrange(1, 4)):
        lines, before = [], inputs
        if inputs == 0:     # until VRAM is full
            for _ in range(8): m.frame(0)
            inputs = 8
            lines.append('frames 00 8')
        for _ in range(rnd.randrange(1, 5)):
            if rnd.random() < 0.25:
                n = rnd.choice([0, 1, 59, 60, 3600, rnd.randrange(100000)])
                for _ in range(n): m.second()
                inputs += 1
                lines.append('seconds %d' % n)
            else:
                buttons, n = rnd.choice([0, 0x01, 0x80, 0x0F, 0xF0, 0xFF, rnd.randrange(256)]), rnd.randrange(1, longest)
                for _ in range(n): m.frame(buttons)
                inputs += n
                lines.append('frames %02X %d' % (buttons, n))
        with open(script, 'w') as f: f.write('\n'.join(lines))
        got = gb('play', TMP, save, script)
        if got != (0, b'resumed %d\nsaved %d\n' % (before, inputs), b''):
            report(kind, seed, 'play of %r: %r' % (lines, got))
            return False
        if os.path.exists(picture): os.remove(picture)
        got = gb('frame', TMP, save, picture)
        if got != (0, b'resumed %d\n' % inputs, b''):
            report(kind, seed, 'frame: %r' % (got,))
            return False
        with open(picture) as f: out = f.read()
        want = m.picture()
        stats['bytes'] += len(want)
        shades = len(set(want.split()[4:]))
        cov['%d shades' % shades] = cov.get('%d shades' % shades, 0) + 1
        if out != want:
            report(kind, seed, 'picture behind %d inputs, last %r: %s' % (inputs, lines, differing(want, out)))
            return False
    return True


def debug_rom(rnd):
    k = rnd.random()
    if k < 0.4: return prog_rom(rnd)
    if k < 0.6: return raw_rom(rnd)
    if k < 0.8: return draw_rom(rnd)
    return feature_roms.Rom(rnd.randrange(len(feature_roms.CARTRIDGES)), '-%d' % rnd.randrange(1000)).build()


def compare_debug(kind, seed, rom, rnd):
    """Lines of a debugger, most of them right, and a digest of the machine behind each that may change it."""
    with open(TMP, 'wb') as f: f.write(rom)
    stats['roms'] += 1
    text, debugger, want = b'', debug_lines.Debugger(ref.Machine(rom)), []
    own, others = ([debug_lines.state(ref.Machine(one)) for one in roms] for roms in ([rom], [debug_lines.changed(rnd, rom), debug_rom(rnd)]))
    for line, given in debug_lines.lines_of(debug_lines.random_lines(rnd, rnd.randrange(5, 25), rnd.choice([30, 1000, 3000]), 0.1, debug_lines.seen_in(rom, 500))):
        for one in [line + b'\n' + given] + [b'digest\n'] * (rnd.random() < 0.4) + [b'state\n'] * (rnd.random() < 0.1) + [debug_lines.a_restore(rnd, own, others)] * (rnd.random() < 0.2):
            text += one
            for line, given in debug_lines.lines_of(one):
                want.append(debugger.answer(line, given, len(want) + 1))
                if want[-1].startswith(b'state '): own.append(want[-1].split(b'\n', 1)[1])
    for (line, _), answer in zip(debug_lines.lines_of(text), want):
        name = 'wrong' if answer.startswith(b'wrong') else answer.split()[0].decode() if answer[:4] in (b'stop', b'limi') else line.split(b' ')[0].decode()
        if name == 'serial' and not answer.startswith(b'serial 0'): name = 'sent'
        cov[name] = cov.get(name, 0) + 1
    code, out, err = gb('debug', TMP, text=text)
    stats['bytes'] += len(out)
    at = 0
    for number, answer in enumerate(want, 1):
        if out[at:at + len(answer)] != answer:
            report(kind, seed, 'line %d, %r, of %r: want %r got %r' % (number, debug_lines.lines_of(text)[number - 1][0], text[:2000], answer[:300], out[at:at + 300]))
            return
        at += len(answer)
    if (code, err, out[at:]) != (0, b'', b''):
        report(kind, seed, 'status %d, err %r, behind the answers %r' % (code, err, out[at:at + 300]))


def compare_tests(kind, seed, rom, rnd):
    """A test of a ROM, with a script or without one."""
    with open(TMP, 'wb') as f: f.write(rom)
    stats['roms'] += 1
    script, moves = ROOM + '/script', moves_for(rnd)
    lines = [line_of(move) for move in moves]
    with open(script, 'w') as f: f.write('\n'.join(lines + ['save'] * (rnd.random() < 0.3)))
    frames = rnd.choice([1, 2, 3, 5, 8])
    with_script = rnd.random() < 0.5
    test = test_lines.Test(rom, frames, moves if with_script else [])
    want = test.answer()
    got = gb('test', TMP, str(frames), *([script] if with_script else []))
    stats['bytes'] += len(want[1])
    name = '%s %s' % (test.why or 'frames', test.verdict())
    cov[name] = cov.get(name, 0) + 1
    if got != want:
        report(kind, seed, 'test of %d frames, %r: want %r got %r' % (frames, lines if with_script else None, want, got))


def run(kind, first, seconds, most):
    start = time.time()
    seed = first
    stats.update(runs=0, roms=0, bytes=0)
    cov.clear()
    while time.time() - start < seconds and seed < first + most:
        rnd = random.Random('%s-%d' % (kind, seed))
        if kind == 'raw':
            rom = raw_rom(rnd)
            if compare_steps(kind, seed, rom, rnd, rnd.choice([2000, 5000, 20000])):
                if rnd.random() < 0.2: compare_texts(kind, seed, rom, rnd)
        elif kind == 'prog':
            rom = prog_rom(rnd)
            top = rnd.choice([20000, 20000, 20000, 5000, 60000])
            compare_steps(kind, seed, rom, rnd, top)
        elif kind == 'proglong':
            rom = prog_rom(rnd)
            compare_steps(kind, seed, rom, rnd, rnd.choice([300000, 1000000]))
        elif kind == 'trace':
            compare_trace(kind, seed, prog_rom(rnd) if rnd.random() < 0.8 else raw_rom(rnd), rnd)
        elif kind == 'frames':
            compare_frames(kind, seed, draw_rom(rnd) if rnd.random() < 0.85 else prog_rom(rnd), rnd)
        elif kind == 'features':
            rom = feature_roms.Rom(seed % len(feature_roms.CARTRIDGES), '-%d' % seed).build()
            if compare_frames(kind, seed, rom, rnd, 30): compare_trace(kind, seed, rom, rnd)
        elif kind == 'waits':
            rom = waiting_roms.Program(seed).build()
            if compare_frames(kind, seed, rom, rnd, 30): compare_trace(kind, seed, rom, rnd)
        elif kind == 'debug':
            compare_debug(kind, seed, debug_rom(rnd), rnd)
        elif kind == 'tests':
            compare_tests(kind, seed, test_lines.rom_of(rnd) if rnd.random() < 0.9 else prog_rom(rnd), rnd)
        elif kind == 'refuse':
            compare_texts(kind, seed, refuse_rom(rnd), rnd)
        elif kind == 'list':
            rom = list_rom(rnd)
            with open(TMP, 'wb') as f: f.write(rom)
            stats['roms'] += 1
            for a in [0x1000, rnd.randrange(65536), 0xFFFF - rnd.randrange(16), 0xFD00 + rnd.randrange(0x300), 0x7F00 + rnd.randrange(0x200)]:
                n = 4096 if rnd.random() < 0.8 else rnd.randrange(1, 4096)
                want = (0, ref.list_text(rom, a, n).encode(), b'')
                got = gb('list', TMP, '%04X' % a, str(n))
                stats['bytes'] += len(want[1])
                if got != want:
                    report(kind, seed, 'list %04X %d differs' % (a, n))
        seed += 1
    print('kind=%s seeds %d..%d roms=%d comparisons(gbkeep runs)=%d mismatches=%d time=%.0f ends=%s bytes=%d'
          % (kind, first, seed - 1, stats['roms'], stats['runs'], stats['mis'], time.time() - start, cov, stats['bytes']), flush=True)


def main(words):
    if len(words) == 1:
        first = int(time.time())
        for kind in ('raw', 'prog', 'proglong', 'refuse', 'list', 'trace', 'frames', 'features', 'waits', 'debug', 'tests'):
            run(kind, first, float(words[0]), 10**9)
    elif len(words) == 3 and words[2] == 'show':
        run(words[0], int(words[1]), 1e9, 1)
        shutil.copy(TMP, '%s-%s.gb' % (words[0], words[1]))
    elif len(words) == 3:
        run(words[0], int(words[1]), float(words[2]), 10**9)
    else:
        print(__doc__)
        return 2
    return 1 if stats['mis'] else 0


if __name__ == '__main__':
    try:
        sys.exit(main(sys.argv[2:]))
    finally:
        shutil.rmtree(ROOM)
