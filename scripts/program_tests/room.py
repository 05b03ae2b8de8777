"""A folder with the program, for one test: it runs commands there, and compares what they print with what a test wants, to the last byte."""
import hashlib
import subprocess
from pathlib import Path

# how long a run may take
SECONDS = 60
# what a save file of a cartridge without RAM has, and the picture as plain PGM
SECTORS, PICTURE, PGM = 156, 46_093, b'P2\n160 144\n3\n'

# jumps to itself for ever
LOOP = '18fe'
# adds 3A and C6
SUM = '3e3a c6c6'
# lets VBlank interrupt, which is asked for at power-on
DISPATCHES = '3e01 e0ff fb'
# sends an `A` over the serial port, and then runs `LD B,B` for ever
SENDS = '3e41 e001 3e81 e002 40 18fd'
# halts until the timer overflows, with interrupts off, and then runs `LD B,B`
WAKES = 'af e00f 3e04 e0ff 3e05 e007 76 40 18fe'
# counts in HL for ever, one up in two steps
COUNTS = '23 18fd'


def short(value):
    text = repr(value)
    return text if len(text) <= 6000 else f'{text[:3000]} .. {text[-3000:]}'


class Room:
    """A folder with the program, for one test."""

    def __init__(self, program, folder, test):
        self.program, self.folder, self.test = program, Path(folder), test
        self.runs, self.differences = 0, 0

    def write(self, name, text):
        (self.folder / name).write_bytes(text.encode() if isinstance(text, str) else text)

    def rom(self, name, program='', header={}):
        """A ROM of zeros with these bytes at 0100, written as hexadecimal digits, and others at their addresses."""
        rom, code = bytearray(0x8000), bytes.fromhex(program)
        rom[0x100:0x100 + len(code)] = code
        for address, byte in header.items():
            rom[address] = byte
        self.write(name, bytes(rom))

    def header(self, name):
        """What a state of the ROM in a file begins with."""
        return b'GBSTATE1' + hashlib.sha256((self.folder / name).read_bytes()).digest()

    def size(self, name):
        """How many bytes a file has; None where there is no such file."""
        path = self.folder / name
        return path.stat().st_size if path.exists() else None

    def read(self, name):
        """The bytes of a file, which has to be there."""
        self.expect(f'{name} is there', self.size(name) is not None, True)
        return (self.folder / name).read_bytes() if self.size(name) is not None else b''

    def expect(self, what, got, wanted):
        """Tells of a difference, and goes on."""
        if got != wanted:
            self.differences += 1
            print(f'{self.test}: {what}\n  got    {short(got)}\n  wanted {short(wanted)}')

    def run(self, words, given=''):
        """Status, standard output and standard error. The words are a list where one of them is empty."""
        self.runs += 1
        words = words.split() if isinstance(words, str) else words
        try:
            done = subprocess.run([self.program, *words], input=given if isinstance(given, bytes) else given.encode(), capture_output=True, cwd=self.folder, timeout=SECONDS)
        except subprocess.TimeoutExpired as late:
            return f'none in {SECONDS} seconds', late.stdout or b'', late.stderr or b''
        return done.returncode, done.stdout, done.stderr

    def compared(self, words, given, *wanted):
        got, told = self.run(words, given), f' given {short(given)}' if given else ''
        for part, one, other in zip(('status', 'standard output', 'standard error'), got, wanted):
            self.expect(f'{words!r}{told}: {part}', one, other)
        return got[1]

    def done(self, words, out, given=''):
        self.compared(words, given, 0, out.encode(), b'')

    def refused(self, words, err, status=1, given='', out=''):
        self.compared(words, given, status, out.encode(), err.encode())

    def printed(self, words, given=''):
        """What a run prints that is not refused."""
        status, out, err = self.run(words, given)
        self.expect(f'{words!r}: status and standard error', (status, err), (0, b''))
        return out

    def begins(self, words, status, out, err):
        """Compares the status, and how standard output and standard error begin: each is empty where nothing is wanted."""
        got = self.run(words)
        self.expect(f'{words!r}: status', got[0], status)
        for part, text, start in (('standard output', got[1], out.encode()), ('standard error', got[2], err.encode())):
            self.expect(f'{words!r}: how {part} begins', text[:len(start)] if start else text, start)
