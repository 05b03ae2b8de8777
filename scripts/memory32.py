"""Makes a WebAssembly module with a 32-bit memory of one with a 64-bit memory, for engines that have no 64-bit ones.

usage: memory32.py IN OUT

Only what touches memory is changed; all numbers, and addresses among them, stay of 64 bits:

- The address of a load or a store is wrapped to 32 bits, right behind the instruction that gave it. A constant address is written as one of 32 bits.
- memory.size is extended to 64 bits.
- memory.copy, memory.fill, memory.grow and the index of an indirect call go through functions that are added behind the others. They end the program by a
  trap, or memory.grow with -1, where a number has more than 32 bits, as the 64-bit memory does.
- Segments of data and of the table begin at constants, which are written as those of 32 bits.
- The memory has 65,535 pages at most, so that what is behind its last byte has an address of 32 bits, too.

So each load and store at an address below 4 GiB is the same as before, and all else is the same at any. Numbers are written in as few bytes as they need. An
instruction, a section, a kind of memory or table, an offset of 4 GiB or more, or a stack that is not known here ends it with a line."""
import sys

MAGIC = b'\0asm\1\0\0\0'
PAGE, MOST_PAGES, FOUR_GIB = 65536, 65535, 1 << 32
TYPES, IMPORTS, FUNCTIONS, TABLES, MEMORIES, GLOBALS, EXPORTS, ELEMENTS, CODE, DATA = 1, 2, 3, 4, 5, 6, 7, 9, 10, 11
I32, I64 = 0x7f, 0x7e
NUMBERS = {0x7f, 0x7e, 0x7d, 0x7c, 0x7b}
EMPTY = 0x40

UNREACHABLE, NOP, BLOCK, LOOP, IF, ELSE, END, BR, BR_IF, BR_TABLE, RETURN, CALL, CALL_INDIRECT = 0, 1, 2, 3, 4, 5, 0x0b, 0x0c, 0x0d, 0x0e, 0x0f, 0x10, 0x11
DROP, SELECT, SELECT_OF, LOCAL_GET, LOCAL_SET, LOCAL_TEE, GLOBAL_GET, GLOBAL_SET = 0x1a, 0x1b, 0x1c, 0x20, 0x21, 0x22, 0x23, 0x24
MEMORY_SIZE, MEMORY_GROW, I32_CONST, I64_CONST, F32_CONST, F64_CONST = 0x3f, 0x40, 0x41, 0x42, 0x43, 0x44
MORE, SIMD, COPY, FILL, V128_CONST, SHUFFLE = 0xfc, 0xfd, 10, 11, 12, 13
WRAP, EXTEND_S, EXTEND_U = b'\xa7', b'\xac', b'\xad'


def spans(text):
    """The numbers of '1 3-5'."""
    for word in text.split():
        first, _, last = word.partition('-')
        yield from range(int(first, 0), int(last or first, 0) + 1)


LOADS, STORES = set(range(0x28, 0x36)), set(range(0x36, 0x3f))
# how many numbers an instruction takes that gives one and has nothing written behind it
TAKES = {code: 1 for code in spans('0x45 0x50 0x67-0x69 0x79-0x7b 0x8b-0x91 0x99-0x9f 0xa7-0xc4')}
TAKES |= {code: 2 for code in spans('0x46-0x4f 0x51-0x66 0x6a-0x78 0x7c-0x8a 0x92-0x98 0xa0-0xa6')}
# of those behind fc, all convert with saturation
SATURATED = set(range(8))
# of those behind fd: what takes one, two or three vectors or numbers, and gives one
SIMD_TAKES = {code: 1 for code in spans('15-20 77 83 94-100 103-106 116-117 122 124-129 131-132 135-138 148 160-161 163-164 167-170 192-193 195-196 199-202 '
                                        '224-225 227 236-237 239 248-255')}
SIMD_TAKES |= {code: 2 for code in spans('14 35-76 78-81 101-102 107-115 118-121 123 130 133-134 139-147 149-153 155-159 171-174 177 181-186 188-191 '
                                         '203-206 209 213-223 228-235 240-247')}
SIMD_TAKES[82] = 3
SIMD_LOADS, SIMD_STORE = {*range(11), 92, 93}, 11
LOADS_OF_A_LANE, STORES_OF_A_LANE = set(range(84, 88)), set(range(88, 92))
# a lane of a vector: taken out, or put in
LANES = {**{code: 1 for code in (21, 22, 24, 25, 27, 29, 31, 33)}, **{code: 2 for code in (23, 26, 28, 30, 32, 34)}}


class Unknown(Exception):
    """A module has something that is not known here."""


# ---- numbers

def leb(data, at):
    """An unsigned number, and the place behind it."""
    number = shift = 0
    while True:
        if at >= len(data):
            raise Unknown('the module ends too early')
        byte = data[at]
        number |= (byte & 0x7f) << shift
        at, shift = at + 1, shift + 7
        if byte < 0x80:
            return number, at


def unsigned(number):
    out = bytearray()
    while number > 0x7f:
        out.append(number & 0x7f | 0x80)
        number >>= 7
    return bytes(out) + bytes([number])


def signed(number):
    out = bytearray()
    while not -0x40 <= number < 0x40:
        out.append(number & 0x7f | 0x80)
        number >>= 7
    return bytes(out) + bytes([number & 0x7f])


class Reader:
    def __init__(self, data, at=0):
        self.data, self.at = data, at

    def byte(self):
        return self.take(1)[0]

    def take(self, count):
        if self.at + count > len(self.data):
            raise Unknown('the module ends too early')
        self.at += count
        return self.data[self.at - count:self.at]

    def number(self):
        number, self.at = leb(self.data, self.at)
        return number

    def signed(self):
        begins = self.at
        number = self.number()
        bits = 7 * (self.at - begins)
        return number - (1 << bits) if number >> bits - 1 else number

    def is_at_end(self):
        return self.at == len(self.data)


# ---- the parts of a module

def parts(module):
    """Each section: its number, and its bytes."""
    if module[:8] != MAGIC:
        raise Unknown('no module')
    read = Reader(module, 8)
    while not read.is_at_end():
        kind = read.byte()
        yield kind, read.take(read.number())


def sections(module):
    """The sections of a module by their numbers, each once."""
    found = {}
    for kind, data in parts(module):
        if kind in found:
            raise Unknown(f'section {kind} twice')
        found[kind] = data
    return found


def vector(items):
    return unsigned(len(items)) + b''.join(items)


def rows(data, row):
    """What `row` reads of a section, as often as it says."""
    read = Reader(data)
    found = [row(read) for _ in range(read.number())]
    if not read.is_at_end():
        raise Unknown('a section with more than it says')
    return found


def a_type(read):
    """How many numbers a function takes and gives, and how it is written."""
    if read.byte() != 0x60:
        raise Unknown('a type that is not a function')
    takes = read.take(read.number())
    gives = read.take(read.number())
    if not {*takes, *gives} <= NUMBERS or len(gives) > 1:
        raise Unknown('a function of other things than numbers')
    return len(takes), len(gives), b'\x60' + sized(takes) + sized(gives)


def limits(read, most):
    """The limits of a memory or a table: its flags, and the least and the most that it has."""
    flags = read.byte()
    if flags & ~5:
        raise Unknown(f'a memory or a table of another kind: {flags:02x}')
    least = read.number()
    greatest = min(read.number(), most) if flags & 1 else most
    if least > greatest:
        raise Unknown('more memory, or a longer table, than 32 bits count')
    return flags, least, greatest


def a_table(read):
    if read.byte() != 0x70:
        raise Unknown('a table of other things than functions')
    flags, least, greatest = limits(read, FOUR_GIB - 1)
    if not flags & 4:
        raise Unknown('a table of 32 bits beside a memory of 64 bits')
    return b'\x70\x01' + unsigned(least) + unsigned(greatest)


def a_memory(read):
    flags, least, greatest = limits(read, MOST_PAGES)
    if not flags & 4:
        raise Unknown('the memory is not of 64 bits')
    return b'\x01' + unsigned(least) + unsigned(greatest)


def a_global(read):
    kind, is_changed, code = read.byte(), read.byte(), read.byte()
    if kind not in (I32, I64) or code != (I32_CONST if kind == I32 else I64_CONST):
        raise Unknown('a global of another kind')
    value = read.signed()
    if read.byte() != END:
        raise Unknown('a global that begins with more than a constant')
    return bytes([kind, is_changed, code]) + signed(value) + bytes([END])


def constant(place):
    """A constant address, as an instruction of 32 bits."""
    if not 0 <= place < FOUR_GIB:
        raise Unknown(f'an address beyond 4 GiB: {place}')
    return bytes([I32_CONST]) + signed(place - FOUR_GIB if place >= FOUR_GIB // 2 else place)


def a_place(read):
    """Where a segment begins."""
    if read.number() != 0 or read.byte() != I64_CONST:
        raise Unknown('a segment of another kind')
    place = read.signed()
    if read.byte() != END:
        raise Unknown('a segment that begins elsewhere than at a constant')
    return b'\0' + constant(place) + bytes([END])


def an_element(read):
    return a_place(read) + vector([unsigned(read.number()) for _ in range(read.number())])


def a_datum(read):
    place, length = a_place(read), read.number()
    return place + unsigned(length) + read.take(length)


# ---- functions that are added

def get(*places):
    """So many arguments, as numbers of 32 bits."""
    return b''.join(bytes([LOCAL_GET, place]) + WRAP for place in places)


def ends_beyond(*places):
    """Ends the program where one of these arguments has more than 32 bits."""
    either = b''.join(bytes([LOCAL_GET, place]) + b'\x84' * (number > 0) for number, place in enumerate(places))
    return either + b'\x42\x20\x88' + WRAP + bytes([IF, EMPTY, UNREACHABLE, END])


# what each takes and gives, and its body without locals
ADDED = {
    'copy': (bytes([I64] * 3), b'', ends_beyond(0, 1, 2) + get(0, 1, 2) + b'\xfc\x0a\0\0'),
    'fill': (bytes([I64, I32, I64]), b'', ends_beyond(0, 2) + get(0) + bytes([LOCAL_GET, 1]) + get(2) + b'\xfc\x0b\0'),
    'grow': (bytes([I64]), bytes([I64]), bytes([LOCAL_GET, 0, I64_CONST]) + signed(MOST_PAGES) + b'\x56' + bytes([IF, I64, I64_CONST, 0x7f, ELSE]) + get(0)
             + bytes([MEMORY_GROW, 0]) + EXTEND_S + bytes([END])),
    'index': (bytes([I64]), bytes([I32]), ends_beyond(0) + get(0)),
}


class Added:
    """The functions that are added, behind those of the module, as they are asked for."""

    def __init__(self, first):
        self.first, self.names = first, []

    def call(self, name):
        """A call of one."""
        if name not in self.names:
            self.names.append(name)
        return bytes([CALL]) + unsigned(self.first + self.names.index(name))

    def types(self):
        return [b'\x60' + sized(takes) + sized(gives) for takes, gives, _ in map(ADDED.get, self.names)]

    def bodies(self):
        return [sized(b'\0' + ADDED[name][2] + bytes([END])) for name in self.names]


def sized(body):
    return unsigned(len(body)) + body


# ---- the code of a function

class Block:
    """A block that is open: what it gives at its end, what a branch to it passes, how high the stack was before it, and whether its code is reached."""

    def __init__(self, gives, passes, height):
        self.gives, self.passes, self.height, self.is_reached = gives, passes, height, True


class Function:
    """Reads the code of a function, and writes it for a memory of 32 bits.

    `pieces` has each instruction as it is written. `stack` has, for each number that is on the stack, the piece behind which it is on top, so that a number
    that turns out to be an address is wrapped there. A number that nothing gave, in code that is never reached, is None."""

    def __init__(self, read, ends, kinds, types, added):
        self.read, self.ends, self.kinds, self.types, self.added = read, ends, kinds, types, added
        self.pieces, self.stack, self.wrapped = [], [], 0

    def push(self):
        self.stack.append(len(self.pieces))

    def pop(self):
        block = self.blocks[-1]
        if len(self.stack) > block.height:
            return self.stack.pop()
        if block.is_reached:
            raise Unknown('a number that nothing gave')
        return None

    def pops(self, count):
        for _ in range(count):
            self.pop()

    def wrap(self, place):
        """Has the number at this place of the code wrapped to 32 bits."""
        if place is None:
            return
        piece = self.pieces[place]
        if piece[0] == I64_CONST:
            self.pieces[place] = constant(Reader(piece, 1).signed())
        else:
            self.pieces[place] = piece + WRAP
        self.wrapped += 1

    def is_left(self):
        """What is behind this in the block is never reached."""
        block = self.blocks[-1]
        block.is_reached = False
        del self.stack[block.height:]

    def closes(self, block):
        """A block ends, with what it gives on the stack."""
        self.pops(block.gives)
        if len(self.stack) != block.height:
            raise Unknown('a block that leaves more than it gives')

    def label(self):
        """A branch: how far out, and what is passed."""
        depth = self.read.number()
        if depth >= len(self.blocks):
            raise Unknown('a branch out of the function')
        return unsigned(depth), self.blocks[-1 - depth].passes

    def memory(self):
        """The alignment and the offset of a load or a store."""
        align, offset = self.read.number(), self.read.number()
        if align > 4 or offset >= FOUR_GIB:
            raise Unknown('another memory, or an offset beyond 4 GiB')
        return unsigned(align) + unsigned(offset)

    def load(self, head):
        piece = head + self.memory()
        self.wrap(self.pop())
        self.push()
        return piece

    def store(self, head):
        piece = head + self.memory()
        self.pop()
        self.wrap(self.pop())
        return piece

    def takes(self, count, piece):
        """An instruction that takes so many numbers and gives one."""
        self.pops(count)
        self.push()
        return piece

    def written(self, gives):
        """The code, of a function that gives so many numbers."""
        self.blocks = [Block(gives, gives, 0)]
        while self.blocks:
            if self.read.at >= self.ends:
                raise Unknown('a function without an end')
            self.pieces.append(self.instruction(self.read.byte()))
        if self.read.at != self.ends:
            raise Unknown('a function with more than its code')
        return b''.join(self.pieces)

    def instruction(self, code):
        read, head = self.read, bytes([code])
        if code in TAKES:
            return self.takes(TAKES[code], head)
        if code in LOADS:
            return self.load(head)
        if code in STORES:
            return self.store(head)
        if code in (LOCAL_GET, GLOBAL_GET):
            self.push()
            return head + unsigned(read.number())
        if code in (LOCAL_SET, GLOBAL_SET):
            self.pop()
            return head + unsigned(read.number())
        if code == LOCAL_TEE:
            return self.takes(1, head + unsigned(read.number()))
        if code in (I32_CONST, I64_CONST):
            self.push()
            return head + signed(read.signed())
        if code in (F32_CONST, F64_CONST):
            self.push()
            return head + read.take(4 if code == F32_CONST else 8)
        if code == SIMD:
            return self.simd(read.number())
        if code == CALL:
            which = read.number()
            if which >= len(self.kinds):
                raise Unknown('a call of no function')
            self.called(self.kinds[which])
            return head + unsigned(which)
        if code == CALL_INDIRECT:
            kind, table = read.number(), read.number()
            if table != 0:
                raise Unknown('another table')
            self.pop()
            self.called(kind)
            return self.added.call('index') + head + unsigned(kind) + b'\0'
        if code in (MEMORY_SIZE, MEMORY_GROW):
            if read.number() != 0:
                raise Unknown('another memory')
            if code == MEMORY_SIZE:
                self.push()
                return head + b'\0' + EXTEND_U
            return self.takes(1, self.added.call('grow'))
        if code == MORE:
            return self.more(read.number())
        if code in (DROP, SELECT, SELECT_OF):
            return self.chosen(code)
        return self.control(code)

    def called(self, kind):
        if kind >= len(self.types):
            raise Unknown('a type that there is not')
        takes, gives, _ = self.types[kind]
        self.pops(takes)
        if gives:
            self.push()

    def chosen(self, code):
        if code == DROP:
            self.pop()
            return bytes([code])
        kinds = self.read.take(self.read.number()) if code == SELECT_OF else b''
        if not set(kinds) <= NUMBERS:
            raise Unknown('a choice of other things than numbers')
        return self.takes(3, bytes([code]) + (vector([bytes([kind]) for kind in kinds]) if code == SELECT_OF else b''))

    def more(self, kind):
        read = self.read
        if kind in SATURATED:
            return self.takes(1, bytes([MORE, kind]))
        if kind in (COPY, FILL):
            if any(read.take(2 if kind == COPY else 1)):
                raise Unknown('another memory')
            self.pops(3)
            return self.added.call('copy' if kind == COPY else 'fill')
        raise Unknown(f'an instruction: fc {kind}')

    def simd(self, kind):
        read, head = self.read, bytes([SIMD]) + unsigned(kind)
        if kind in SIMD_LOADS:
            return self.load(head)
        if kind == SIMD_STORE:
            return self.store(head)
        if kind in LOADS_OF_A_LANE or kind in STORES_OF_A_LANE:
            piece = self.store(head) + read.take(1)
            if kind in LOADS_OF_A_LANE:
                self.push()
            return piece
        if kind == V128_CONST:
            return self.takes(0, head + read.take(16))
        if kind == SHUFFLE:
            return self.takes(2, head + read.take(16))
        if kind in LANES:
            return self.takes(LANES[kind], head + read.take(1))
        if kind in SIMD_TAKES:
            return self.takes(SIMD_TAKES[kind], head)
        raise Unknown(f'an instruction: fd {kind}')

    def control(self, code):
        read, head = self.read, bytes([code])
        if code in (BLOCK, LOOP, IF):
            kind = read.byte()
            if kind not in {EMPTY, *NUMBERS}:
                raise Unknown('a block that takes numbers, or gives several')
            if code == IF:
                self.pop()
            gives = int(kind != EMPTY)
            block = Block(gives, 0 if code == LOOP else gives, len(self.stack))
            self.blocks.append(block)
            return bytes([code, kind])
        if code == ELSE:
            block = self.blocks[-1]
            self.closes(block)
            block.is_reached = True
            return head
        if code == END:
            block = self.blocks[-1]
            self.closes(block)
            self.blocks.pop()
            if block.gives:
                self.push()
            return head
        if code in (BR, BR_IF):
            label, passes = self.label()
            if code == BR_IF:
                self.pop()
            self.pops(passes)
            if code == BR:
                self.is_left()
            elif passes:
                # what a branch may have passed is another number from here on
                self.push()
            return head + label
        if code == BR_TABLE:
            labels = [self.label() for _ in range(read.number() + 1)]
            self.pop()
            self.pops(labels[-1][1])
            self.is_left()
            return head + unsigned(len(labels) - 1) + b''.join(label for label, _ in labels)
        if code == RETURN:
            self.pops(self.blocks[0].gives)
            self.is_left()
            return head
        if code == UNREACHABLE:
            self.is_left()
            return head
        if code == NOP:
            return head
        raise Unknown(f'an instruction: {code:02x}')


def code_of(data, functions, types, added):
    """The bodies of the functions for a memory of 32 bits, and how many addresses were wrapped."""
    wrapped, left = 0, iter(functions)

    def a_body(read):
        nonlocal wrapped
        length = read.number()
        ends = read.at + length
        locals_ = []
        for _ in range(read.number()):
            count, kind = read.number(), read.byte()
            if kind not in NUMBERS:
                raise Unknown('a local of another kind')
            locals_.append(unsigned(count) + bytes([kind]))
        kind = next(left, None)
        if kind is None or kind >= len(types):
            raise Unknown('more bodies than functions, or a type that there is not')
        function = Function(read, ends, functions, types, added)
        code = function.written(types[kind][1])
        wrapped += function.wrapped
        return sized(vector(locals_) + code)

    bodies = rows(data, a_body)
    if len(bodies) != len(functions):
        raise Unknown('fewer bodies than functions')
    return bodies, wrapped


def with_32_bits(module):
    """The module with a 32-bit memory, and what was changed, in a line. Raises Unknown."""
    found = sections(module)
    unknown = set(found) - {TYPES, FUNCTIONS, TABLES, MEMORIES, GLOBALS, EXPORTS, ELEMENTS, CODE, DATA}
    if unknown:
        raise Unknown(f'a section: {min(unknown)}')
    for kind in (TYPES, FUNCTIONS, MEMORIES, CODE):
        if kind not in found:
            raise Unknown(f'there is no section {kind}')
    types = rows(found[TYPES], a_type)
    functions = rows(found[FUNCTIONS], Reader.number)
    memories = rows(found[MEMORIES], a_memory)
    tables = rows(found.get(TABLES, b'\0'), a_table)
    if len(memories) != 1 or len(tables) > 1:
        raise Unknown('several memories or tables')
    added = Added(len(functions))
    bodies, wrapped = code_of(found[CODE], functions, types, added)
    changed = {
        TYPES: vector([*(written for _, _, written in types), *added.types()]),
        FUNCTIONS: vector([unsigned(kind) for kind in [*functions, *range(len(types), len(types) + len(added.names))]]),
        MEMORIES: vector(memories),
        CODE: vector([*bodies, *added.bodies()]),
    }
    for kind, row in ((TABLES, a_table), (GLOBALS, a_global), (ELEMENTS, an_element), (DATA, a_datum)):
        if kind in found:
            changed[kind] = vector(rows(found[kind], row))
    out = MAGIC + b''.join(bytes([kind]) + sized(changed.get(kind, data)) for kind, data in found.items())
    return out, f'{wrapped} addresses of loads and stores wrapped to 32 bits; functions added: {", ".join(added.names) or "none"}'


def main(words):
    if len(words) != 2:
        sys.exit(__doc__)
    try:
        with open(words[0], 'rb') as file:
            module, change = with_32_bits(file.read())
        with open(words[1], 'wb') as file:
            file.write(module)
    except (Unknown, OSError) as error:
        sys.exit(f'memory32.py: {error}')
    print(change)


if __name__ == '__main__':
    main(sys.argv[1:])
