"""A small assembler for the Game Boy: source lines to a ROM of 32 KiB.

usage: assemble.py SOURCE ROM [SYM]

SYM gets the labels, in the form of RGBDS.

A line is `label:`, `NAME equ VALUE`, `org ADDRESS`, `db VALUE|"text", ..`, `dw VALUE, ..`, `tile "row", ..` (eight rows of eight of
. - + #, colours 0 to 3) or an instruction as Pan Docs writes it, operands in small letters; `;` begins a comment. Values are numbers
($ hexadecimal, % binary), names, `low(x)`, `high(x)`, + and -. The header's logo stays empty; its checksum is filled in."""
import re
import sys

R8 = ['b', 'c', 'd', 'e', 'h', 'l', '[hl]', 'a']
R16 = ['bc', 'de', 'hl', 'sp']
STACK = ['bc', 'de', 'hl', 'af']
CONDITIONS = ['nz', 'z', 'nc', 'c']
PLAIN = {'nop': 0x00, 'rlca': 0x07, 'rrca': 0x0f, 'stop': 0x10, 'rla': 0x17, 'rra': 0x1f, 'daa': 0x27, 'cpl': 0x2f, 'scf': 0x37, 'ccf': 0x3f,
         'halt': 0x76, 'ret': 0xc9, 'reti': 0xd9, 'di': 0xf3, 'ei': 0xfb}
ALU = ['add', 'adc', 'sub', 'sbc', 'and', 'xor', 'or', 'cp']
SHIFTS = ['rlc', 'rrc', 'rl', 'rr', 'sla', 'sra', 'swap', 'srl']
LOADS = {('[bc]', 'a'): 0x02, ('[de]', 'a'): 0x12, ('[hl+]', 'a'): 0x22, ('[hl-]', 'a'): 0x32, ('a', '[bc]'): 0x0a, ('a', '[de]'): 0x1a,
         ('a', '[hl+]'): 0x2a, ('a', '[hl-]'): 0x3a, ('[c]', 'a'): 0xe2, ('a', '[c]'): 0xf2, ('sp', 'hl'): 0xf9}


class Assembler:
    def __init__(self):
        self.names, self.labels, self.rom, self.at, self.is_last = {}, {}, bytearray(0x8000), 0, False

    def value(self, text):
        text = re.sub(r'\$([0-9a-fA-F]+)', r'0x\1', text)
        text = re.sub(r'%([01]+)', r'0b\1', text)
        names = dict(self.names, low=lambda x: x & 255, high=lambda x: x >> 8 & 255)
        if not self.is_last:
            for name in re.findall(r'[A-Za-z_]\w*', re.sub(r'0[xb]\w+', '', text)):
                names.setdefault(name, self.at)
        return eval(text, {'__builtins__': {}}, names)

    def byte(self, text, least=-128):
        value = self.value(text)
        if self.is_last and not least <= value <= 255:
            raise ValueError(f'{text} is no byte')
        return value & 255

    def word(self, text):
        value = self.value(text)
        return [value & 255, value >> 8 & 255]

    def relative(self, text):
        distance = self.value(text) - self.at - 2
        if self.is_last and not -128 <= distance <= 127:
            raise ValueError(f'{text} is too far away')
        return distance & 255

    def load(self, to, of):
        if (to, of) in LOADS:
            return [LOADS[to, of]]
        if to in R8 and of in R8 and (to, of) != ('[hl]', '[hl]'):
            return [0x40 + 8 * R8.index(to) + R8.index(of)]
        if to in R16 and not of.startswith('['):
            return [0x01 + 16 * R16.index(to), *self.word(of)]
        if to == 'a' and of.startswith('['):
            return [0xfa, *self.word(of[1:-1])]
        if to.startswith('[') and to != '[hl]':
            return [{'a': 0xea, 'sp': 0x08}[of], *self.word(to[1:-1])]
        return [0x06 + 8 * R8.index(to), self.byte(of)]

    def instruction(self, name, operands):
        first, last = (operands + [''])[0], (operands or [''])[-1]
        if name in PLAIN and not operands:
            return [PLAIN[name]]
        if name == 'ld':
            return self.load(*operands)
        if name == 'ldh':
            return [0xf0, self.byte(last[1:-1]) if self.value(last[1:-1]) < 256 else self.value(last[1:-1]) & 255] if first == 'a' else \
                   [0xe0, self.value(first[1:-1]) & 255]
        if name in ('inc', 'dec') and first in R8:
            return [(0x04 if name == 'inc' else 0x05) + 8 * R8.index(first)]
        if name in ('inc', 'dec'):
            return [(0x03 if name == 'inc' else 0x0b) + 16 * R16.index(first)]
        if name == 'add' and first == 'hl':
            return [0x09 + 16 * R16.index(last)]
        if name in ALU:
            row = 8 * ALU.index(name)
            return [0x80 + row + R8.index(last)] if last in R8 else [0xc6 + row, self.byte(last)]
        if name in SHIFTS:
            return [0xcb, 8 * SHIFTS.index(name) + R8.index(first)]
        if name in ('bit', 'res', 'set'):
            return [0xcb, 0x40 * (1 + ('bit', 'res', 'set').index(name)) + 8 * self.value(first) + R8.index(last)]
        if name in ('push', 'pop'):
            return [(0xc5 if name == 'push' else 0xc1) + 16 * STACK.index(first)]
        if name == 'ret':
            return [0xc0 + 8 * CONDITIONS.index(first)]
        if name == 'jp' and first == 'hl':
            return [0xe9]
        if name in ('jp', 'jr', 'call'):
            always, where = {'jp': (0xc3, 0xc2), 'jr': (0x18, 0x20), 'call': (0xcd, 0xc4)}[name]
            opcode = where + 8 * CONDITIONS.index(first) if len(operands) == 2 else always
            return [opcode, self.relative(last)] if name == 'jr' else [opcode, *self.word(last)]
        raise ValueError(f'no instruction {name}')

    def data(self, name, operands):
        if name == 'dw':
            return [byte for one in operands for byte in self.word(one)]
        if name == 'tile':
            rows = [['.-+#'.index(dot) for dot in one.strip('"')] for one in operands]
            if len(rows) != 8 or any(len(row) != 8 for row in rows):
                raise ValueError('a tile is eight rows of eight')
            return [sum((dot >> plane & 1) << 7 - x for x, dot in enumerate(row)) for row in rows for plane in (0, 1)]
        return [byte for one in operands for byte in (one[1:-1].encode() if one.startswith('"') else [self.byte(one)])]

    def line(self, text):
        text = re.sub(r';(?=(?:[^"]*"[^"]*")*[^"]*$).*', '', text).strip()
        label = re.match(r'(\w+):\s*', text)
        if label:
            self.names[label[1]] = self.labels[label[1]] = self.at
            text = text[label.end():]
        if not text:
            return
        equ = re.match(r'(\w+)\s+equ\s+(.*)', text)
        if equ:
            self.names[equ[1]] = self.value(equ[2])
            return
        name, _, rest = text.partition(' ')
        operands = [one.strip() for one in re.findall(r'"[^"]*"|(?:[^,"(]|\([^)]*\))+', rest) if one.strip()]
        if name == 'org':
            self.at = self.value(rest)
            return
        made = self.data(name, operands) if name in ('db', 'dw', 'tile') else self.instruction(name, operands)
        self.rom[self.at:self.at + len(made)] = bytes(made)
        self.at += len(made)

    def assemble(self, source):
        for self.is_last in (False, True):
            self.at = 0
            for number, text in enumerate(source.splitlines(), 1):
                try:
                    self.line(text)
                except (ValueError, KeyError, NameError, SyntaxError, TypeError) as error:
                    sys.exit(f'line {number}: {text.strip()}: {error}')
        if len(self.rom) != 0x8000:
            sys.exit('the program is longer than 32 KiB')
        self.rom[0x14d] = -sum(byte + 1 for byte in self.rom[0x134:0x14d]) & 255
        return bytes(self.rom)

    def symbols(self):
        """The labels as RGBDS writes them: bank, address and name, by their addresses."""
        ordered = sorted(self.labels.items(), key=lambda label: label[1])
        return ''.join(f'{at // 0x4000 if at < 0x8000 else 0:02x}:{at:04x} {name}\n' for name, at in ordered)


if __name__ == '__main__':
    assembler = Assembler()
    with open(sys.argv[1]) as given, open(sys.argv[2], 'wb') as made:
        made.write(assembler.assemble(given.read()))
    if len(sys.argv) > 3:
        with open(sys.argv[3], 'w') as made:
            made.write(assembler.symbols())
