"""A second reader and writer of save files and scripts, written from docs/STORAGE.md, docs/SNAPSHOT.md and docs/COMMANDS.md.

It has no machine: it says what a play of a script reports, or why it is refused, and each byte of the save file after it but those of
the snapshots of machines that were given inputs."""
import hashlib
from collections.abc import Iterable, Iterator
from typing import Optional

from .input_files import SECTOR, PathLike

LOG = 32                    # log sectors of an area
ENTRIES = {1: 100, 2: 84}   # entries of a full log sector, by version
MAGIC = {1: b'GBL1', 2: b'GBL2'}
MOST_ENTRIES = 2688
MOST_INPUTS = 216000
MOST_UNSAVED = 3200
MOST = 2 ** 64 - 1
FIXED = 22607               # bytes of a snapshot before the cartridge's RAM


class Refused(Exception):
    pass


def le(data: bytes) -> int:
    return int.from_bytes(data, 'little')


def put(path: PathLike, data: bytes) -> None:
    with open(path, 'wb') as file:
        file.write(data)


def get(path: PathLike) -> bytes:
    with open(path, 'rb') as file:
        return file.read()


# ---- a cartridge, as far as a save file depends on it

# the controller of each type: none, MBC1, MBC2, MBC3, MBC3 with a clock, MBC5
KIND = {0x00: 0, 0x08: 0, 0x09: 0, 0x01: 1, 0x02: 1, 0x03: 1, 0x05: 2, 0x06: 2, 0x11: 3, 0x12: 3, 0x13: 3, 0x0F: 4, 0x10: 4,
        0x19: 5, 0x1A: 5, 0x1B: 5, 0x1C: 5, 0x1D: 5, 0x1E: 5}
RAM = {0: 0, 2: 8192, 3: 32768, 4: 131072, 5: 65536}


class Cartridge:
    def __init__(self, rom: bytes):
        self.kind = KIND[rom[0x147]]
        self.rumble = rom[0x147] in (0x1C, 0x1D, 0x1E)
        self.ram = 512 if self.kind == 2 else RAM[rom[0x149]]
        self.id = hashlib.sha256(bytes(rom)).digest()
        self.length = FIXED + self.ram


def need_of(length: int) -> int:
    return 2 + 2 * (LOG + (length + SECTOR - 1) // SECTOR)


# ---- snapshots

def fields_of(cart: Cartridge) -> Iterator[tuple]:
    """Offset, length and what is legal of each field that is not free, in order."""
    plain, clock = cart.kind == 0, cart.kind == 4
    bank = {0: (0, 0), 1: (1, 31), 2: (1, 15), 3: (1, 127), 4: (1, 127), 5: (0, 511)}[cart.kind]
    second = {1: 3, 3: 15, 4: 15, 5: 7 if cart.rumble else 15}.get(cart.kind, 0)
    third = 1 if cart.kind in (1, 4) else 0

    def within(low, high):
        return lambda data: low <= le(data) <= high

    def bits(mask):
        return lambda data: le(data) & ~mask == 0

    yield 0, 8, lambda data: data == b'GBSNAP01'
    yield 9, 1, bits(0xF0)
    yield 20, 1, bits(0x3F)
    yield 21, 1, within(0, 5)
    yield 23, 1, bits(0x1F)
    yield 25, 1, bits(0x30)
    yield 30, 1, bits(0x07)
    yield 32, 1, bits(0x81)
    yield 33, 2, within(0, 1024)
    yield 36, 1, within(0, 160)
    yield 38, 1, bits(0x78)
    yield 47, 1, within(0, 153)
    yield 48, 1, within(0, 113)
    yield 50, 1, bits(0x03)
    yield 51, 1, within(cart.kind, cart.kind)
    yield 52, 1, within(0, 0 if plain else 1)
    yield 53, 2, within(*bank)
    yield 55, 1, within(0, second)
    yield 56, 1, within(0, third)
    for first in (57, 62):
        yield first, 1, bits(0x3F if clock else 0)
        yield first + 1, 1, bits(0x3F if clock else 0)
        yield first + 2, 1, bits(0x1F if clock else 0)
        yield first + 3, 1, bits(0xFF if clock else 0)
        yield first + 4, 1, bits(0xC1 if clock else 0)
    yield 67, 61, lambda data: not any(data)
    if cart.kind == 2:
        yield FIXED, cart.ram, lambda data: max(data) < 16


def is_legal(snapshot: bytes, cart: Cartridge) -> bool:
    return len(snapshot) == cart.length and all(legal(snapshot[at:at + size]) for at, size, legal in fields_of(cart))


# ---- what an image holds

def root_of(image: bytes, slot: int) -> Optional[dict]:
    data = image[slot * SECTOR:(slot + 1) * SECTOR]
    if data[:8] != b'GBKPROOT' or le(data[8:12]) not in (1, 2) or any(data[64:]) or le(data[12:20]) % 2 != slot:
        return None
    return {'version': le(data[8:12]), 'generation': le(data[12:20]), 'id': bytes(data[20:52]), 'base': le(data[52:60]), 'length': le(data[60:64])}


def chosen_root(image: bytes) -> Optional[dict]:
    if len(image) < 2 * SECTOR:
        return None
    roots = [root for root in (root_of(image, 0), root_of(image, 1)) if root]
    return max(roots, key=lambda root: root['generation']) if roots else None


def area_of(image: bytes, generation: int) -> tuple[int, int]:
    """First sector of the area of a generation, and its number of sectors."""
    size = (len(image) // SECTOR - 2) // 2
    return 2 + (generation % 2) * size, size


def log_of(image: bytes, root: dict) -> tuple[list[bytes], list[Optional[int]]]:
    """The entries as six bytes each, and how many inputs each stands for; None where it is no input."""
    first, _ = area_of(image, root['generation'])
    version, entries = root['version'], []
    size = 5 if version == 1 else 6
    for index in range(LOG):
        data = image[(first + index) * SECTOR:(first + index + 1) * SECTOR]
        count = le(data[6:8])
        if data[:4] != MAGIC[version] or le(data[4:6]) != index or not 1 <= count <= ENTRIES[version]:
            break
        for at in range(count):
            code = bytes(data[8 + size * at:8 + size * (at + 1)])
            if version == 1:
                if code[0] == 0:
                    code = code[:2] + (0 if any(code[2:]) else 1).to_bytes(4, 'little')
                else:
                    code += b'\0'
            entries.append(code)
        if count < ENTRIES[version]:
            break
    inputs, counts = 0, []
    for code in entries:
        count = None
        if code[0] == 0 and 1 <= le(code[2:6]) <= MOST_INPUTS:
            count = le(code[2:6])
        elif code[0] == 1 and code[5] == 0:
            count = 1
        if count is not None and inputs + count > MOST_INPUTS:
            count = None
        counts.append(count)
        inputs += 1 if count is None else count
    return entries, counts


def snapshot_of(image: bytes, root: dict) -> bytes:
    first, _ = area_of(image, root['generation'])
    at = (first + LOG) * SECTOR
    return bytes(image[at:at + root['length']])


def looked_at(image: bytes, cart: Cartridge, is_resumed: bool = True) -> tuple[int, dict, list[bytes]]:
    """Count, chosen root and entries of a game that can be taken up, or only be looked at; else why not, as the program says it."""
    root = chosen_root(image)
    if root is None:
        raise Refused('no session')
    _, size = area_of(image, root['generation'])
    if size < LOG + (root['length'] + SECTOR - 1) // SECTOR:
        raise Refused('too small, %d sectors needed' % need_of(root['length']))
    if root['id'] != cart.id:
        raise Refused('other cartridge')
    entries, counts = log_of(image, root)
    count = root['base'] + sum(1 if one is None else one for one in counts)
    if count > MOST:
        raise Refused('damaged count')
    if not is_legal(snapshot_of(image, root), cart):
        raise Refused('damaged snapshot')
    if None in counts:
        raise Refused('damaged entry %d' % counts.index(None))
    if is_resumed and root['generation'] == MOST:
        raise Refused('generations used up')
    return count, root, entries


# ---- scripts

def moves_of(script: bytes) -> list[tuple]:
    """('frames', buttons, times), ('seconds', n), ('save',) and ('power',); else the number of the first wrong line."""
    if len(script) > 1048576:
        raise Refused('script line 0')
    moves = []
    digits = b'0123456789'

    def number(word, low, high):
        if not 1 <= len(word) <= 10 or any(byte not in digits for byte in word) or not low <= int(word) <= high:
            raise ValueError
        return int(word)

    def buttons(word):
        if len(word) != 2 or any(byte not in b'0123456789abcdefABCDEF' for byte in word):
            raise ValueError
        return int(word, 16)

    for at, line in enumerate(script.split(b'\n'), 1):
        if not line:
            continue
        words = line.split(b' ')
        try:
            if words in ([b'save'], [b'power']):
                moves.append((words[0].decode(),))
            elif words[0] == b'frame' and len(words) == 2:
                moves.append(('frames', buttons(words[1]), 1))
            elif words[0] == b'frames' and len(words) == 3:
                moves.append(('frames', buttons(words[1]), number(words[2], 1, 1000000)))
            elif words[0] == b'seconds' and len(words) == 2:
                moves.append(('seconds', number(words[1], 0, 4294967295)))
            else:
                raise ValueError
        except ValueError:
            raise Refused('script line %d' % at)
    return moves


def inputs_of(move: tuple) -> list[Optional[bytes]]:
    if move[0] == 'frames':
        return [b'\0' + bytes([move[1]])] * move[2]
    if move[0] == 'seconds':
        return [b'\1' + move[1].to_bytes(4, 'little') + b'\0']
    # the power switch and another machine are inputs that no log holds
    return [None] if move[0] in ('power', 'other') else []


# ---- a play

class Game:
    """A save file that a play writes. Snapshots are not known: `unknown` has the places of the bytes that hold one."""

    def __init__(self, image: bytes, cart: Cartridge):
        self.image = bytearray(image)
        self.cart = cart
        self.unknown = []
        self.pending = []
        self.report = b''

    def begin(self, generation: int, base: int, snapshot: Optional[bytes]) -> None:
        self.generation, self.base = generation, base
        self.entries = []
        first, _ = area_of(self.image, generation)
        at = first * SECTOR
        self.image[at:at + LOG * SECTOR] = bytes(LOG * SECTOR)
        at += LOG * SECTOR
        size = (self.cart.length + SECTOR - 1) // SECTOR * SECTOR
        self.unknown = [place for place in self.unknown if place[0] != at]
        if snapshot is None:
            self.image[at:at + size] = bytes(size)
            self.unknown.append((at, at + self.cart.length))
        else:
            self.image[at:at + size] = snapshot + bytes(size - len(snapshot))
        root = b'GBKPROOT' + (2).to_bytes(4, 'little') + generation.to_bytes(8, 'little') + self.cart.id + base.to_bytes(8, 'little')
        root += self.cart.length.to_bytes(4, 'little')
        slot = generation % 2
        self.image[slot * SECTOR:(slot + 1) * SECTOR] = root + bytes(SECTOR - len(root))

    def resume(self) -> None:
        count, root, entries = looked_at(self.image, self.cart)
        self.count = count
        self.begin(root['generation'] + 1, count, snapshot_of(self.image, root) if not entries else None)
        self.report += b'resumed %d\n' % count

    def with_pending(self) -> list[bytes]:
        """The log with the unsaved inputs behind it."""
        entries = list(self.entries)
        closed = len(entries) if len(entries) % ENTRIES[2] == 0 else None
        for code in self.pending:
            if code[0] == 0 and entries and len(entries) != closed and entries[-1][0] == 0 and entries[-1][1] == code[1]:
                entries[-1] = code + (le(entries[-1][2:6]) + 1).to_bytes(4, 'little')
            else:
                entries.append(code + (1).to_bytes(4, 'little') if code[0] == 0 else code)
        return entries

    def save(self) -> None:
        if self.pending:
            entries = self.with_pending() if None not in self.pending else None
            if entries and len(entries) <= MOST_ENTRIES and sum(le(code[2:6]) if code[0] == 0 else 1 for code in entries) <= MOST_INPUTS:
                self.append(entries)
            elif self.generation == MOST:
                raise Refused('generations used up')
            else:
                self.begin(self.generation + 1, self.count, None)
            self.pending = []
        self.report += b'saved %d\n' % self.count

    def append(self, entries: list[bytes]) -> None:
        first, _ = area_of(self.image, self.generation)
        full = ENTRIES[2]
        for index in range(len(self.entries) // full, (len(entries) + full - 1) // full):
            held = entries[index * full:(index + 1) * full]
            data = MAGIC[2] + index.to_bytes(2, 'little') + len(held).to_bytes(2, 'little') + b''.join(held)
            at = (first + index) * SECTOR
            self.image[at:at + SECTOR] = data + bytes(SECTOR - len(data))
        self.entries = entries

    def give(self, code: Optional[bytes]) -> None:
        if self.count == MOST:
            raise Refused('count full')
        self.count += 1
        self.pending.append(code)
        if len(self.pending) == MOST_UNSAVED:
            self.save()

    def play(self, moves: Iterable[tuple]) -> None:
        for move in moves:
            for code in inputs_of(move):
                self.give(code)
            if move[0] == 'save':
                self.save()
            if move[0] == 'told':
                self.report += move[1]
        if self.pending:
            self.save()
