"""What scripts/web.py and scripts/memory32.py change of the library's module, and what they refuse; what scripts/page.py makes, and finds stale.

usage: test_module.py

Where Node is there (Debian's nodejs), what a small module answers is compared with what it answers once its memory is of 32 bits."""
import contextlib
import functools
import io
import itertools
import json
import shutil
import subprocess
import tempfile
import unittest
from pathlib import Path

from scripts import memory32, page, web
from scripts.changed_module import kit, run
from scripts.doctor import tries

MODULE = f'''source_filename = "rattle"
target datalayout = "{web.LAYOUT}"
target triple = "{web.OTHER}"

; Function Attrs: nounwind
define internal noundef i32 @"a::b"(ptr noundef %a0, <16 x i8> %t) #0 {{
start:
  %x = call <16 x i8> @llvm.aarch64.neon.tbl1.v16i8(<16 x i8> %t, <16 x i8> %t)
  call void @llvm.memset.p0.i64(ptr %a0, i8 0, i64 16, i1 false)
  ret i32 0
}}

declare [2 x i64] @rattle_alloc(i64 noundef, i64 noundef) #1
declare void @llvm.memset.p0.i64(ptr writeonly captures(none), i8, i64, i1 immarg) #2
declare <16 x i8> @llvm.aarch64.neon.tbl1.v16i8(<16 x i8>, <16 x i8>) #2

attributes #0 = {{ nounwind "frame-pointer"="non-leaf" "probe-stack"="inline-asm" "stack-probe-size"="3072" "target-cpu"="generic" }}
attributes #1 = {{ nobuiltin nounwind }}
attributes #2 = {{ nocallback nofree nounwind willreturn memory(argmem: write) }}
'''


def leb(number):
    return bytes([number]) if number < 0x80 else bytes([number & 0x7f | 0x80]) + leb(number >> 7)


def section(kind, content):
    return bytes([kind]) + leb(len(content)) + content


def module(*names, more=b''):
    gives = b''.join(leb(len(name)) + name.encode() + b'\0\0' for name in names)
    return b'\0asm\1\0\0\0' + more + section(7, leb(len(names)) + gives)


class Changes(unittest.TestCase):
    def test_what_is_changed(self):
        text, changes = web.for_wasm(MODULE)
        wanted = MODULE.replace(web.LAYOUT, web.WASM_LAYOUT).replace(web.OTHER, web.TRIPLE).replace('llvm.aarch64.neon.tbl1.v16i8', 'llvm.wasm.swizzle')
        wanted = wanted.replace('"frame-pointer"="non-leaf" "probe-stack"="inline-asm" "stack-probe-size"="3072" "target-cpu"="generic"', web.WASM_PROCESSOR)
        self.assertEqual(text, wanted)
        self.assertIn('instruction llvm.aarch64.neon.tbl1.v16i8 -> llvm.wasm.swizzle, in 2 places', changes)
        self.assertIn('from outside: rattle_alloc', changes)

    def test_sums_of_pairs_are_written_out(self):
        uses = MODULE.replace('tbl1.v16i8', 'addp.v16i8')
        text, changes = web.for_wasm(uses)
        self.assertEqual((text.count(f'call <16 x i8> @{web.SUMS}('), text.count(web.WRITTEN_OUT), 'aarch64' in text), (1, 1, False))
        self.assertIn(f'instruction {web.PAIRS}, written out, in 1 places', changes)

    def test_what_is_not_known(self):
        for old, new, why in (
                (web.LAYOUT, 'e-m:e', 'the datalayout is not'), (web.OTHER, 'x86_64-unknown-linux-gnu', 'the triple is not'), (f'target triple = "{web.OTHER}"\n', '', 'missing'),
                ('llvm.memset.p0.i64', 'llvm.sqrt.f64', 'an instruction: llvm.sqrt.f64'), ('llvm.aarch64.neon.tbl1', 'llvm.aarch64.neon.tbl2', 'an instruction: '),
                ('llvm.memset.p0.i64', 'llvm.aarch64.crc32b', 'an instruction: '), ('rattle_alloc', 'malloc', 'a declared function: malloc'),
                ('  ret i32 0', '  call void asm sideeffect "nop", ""()\n  ret i32 0', 'assembly'), ('source_filename', 'module asm "nop"\nsource_filename', 'module asm'),
                ('nobuiltin', 'strictfp', 'an attribute: strictfp'), ('"target-cpu"="generic"', '"target-cpu"="neoverse-v2"', 'an attribute: '),
                ('"stack-probe-size"="3072"', '"stack-probe-size"="4096"', 'an attribute: ')):
            with self.subTest(new=new), self.assertRaisesRegex(web.Unknown, why):
                self.assertIn(old, MODULE)
                web.for_wasm(MODULE.replace(old, new))

    def test_what_a_module_gives_and_takes(self):
        names = [*web.EXPORTS, 'memory']
        web.check_module(module(*names))
        for wrong in (module(*names[1:]), module(*names, 'other'), module(*names, more=section(2, b'\0')), b'\x7fELF' + bytes(40)):
            with self.subTest(wrong=wrong[:12]), self.assertRaises(web.Unknown):
                web.check_module(wrong)


# ---- a memory of 32 bits

I32, I64, F32, F64, V128 = 0x7f, 0x7e, 0x7d, 0x7c, 0x7b
EMPTY, GET, END = 0x40, b'\x20', b'\x0b'
PAGES = 1
# the numbers of a vector as one
FOLDED = b'\x22\x04\xfd\x1d\x00' + GET + b'\x04\xfd\x1d\x01' + b'\x42\x07\x89\x85'
# a number of 64 bits as one of another kind, and back
OF_LONG = {I32: b'\xa7', I64: b'', F32: b'\xa7\xbe', F64: b'\xbf', V128: b'\xfd\x12'}
AS_LONG = {I32: b'\xad', I64: b'', F32: b'\xbc\xad', F64: b'\xbd', V128: FOLDED}
LOADED = {**dict.fromkeys((0x28, *range(0x2c, 0x30)), I32), **dict.fromkeys((0x29, *range(0x30, 0x36)), I64), 0x2a: F32, 0x2b: F64}
STORED = {0x36: I32, 0x37: I64, 0x38: F32, 0x39: F64, 0x3a: I32, 0x3b: I32, 0x3c: I64, 0x3d: I64, 0x3e: I64}
# a vector of numbers of its own
A_VECTOR = b'\xfd\x0c' + bytes(range(1, 17))


def at(offset=3):
    return b'\0' + leb(offset)


def long(number):
    """A constant of 64 bits."""
    return b'\x42' + memory32.signed(number)


def touching():
    """Each instruction that touches memory, by name: code that takes an address and two numbers, and gives a number of 64 bits."""
    for code, kind in LOADED.items():
        yield f'load {code:02x}', GET + b'\0' + bytes([code]) + at() + AS_LONG[kind]
    for code, kind in STORED.items():
        yield f'store {code:02x}', GET + b'\0' + GET + b'\x02' + OF_LONG[kind] + bytes([code]) + at() + long(0)
    for kind in (*range(11), 92, 93):
        yield f'load fd {kind}', GET + b'\0\xfd' + leb(kind) + at() + FOLDED
    yield 'store fd 11', GET + b'\0' + GET + b'\x02\xfd\x12\xfd\x0b' + at() + long(0)
    for kind in range(84, 88):
        yield f'lane fd {kind}', GET + b'\0' + A_VECTOR + b'\xfd' + leb(kind) + at() + b'\x01' + FOLDED
    for kind in range(88, 92):
        yield f'lane fd {kind}', GET + b'\0' + A_VECTOR + b'\xfd' + leb(kind) + at() + b'\x01' + long(0)
    # where an address comes from
    load, odd = b'\x29' + at(), GET + b'\0\xa7\x41\x01\x71'
    yield 'constant', long(9) + load
    yield 'far constant', long((1 << 32) - 1) + load
    yield 'another far constant', long(1 << 31) + load
    yield 'tee', GET + b'\0\x22\x03' + load + GET + b'\x03\x7c'
    yield 'block', b'\x02\x7e' + GET + b'\0\x0b' + load
    yield 'branch', b'\x02\x7e' + GET + b'\0' + odd + b'\x0d\0' + load + END
    yield 'table of branches', b'\x02\x7e\x02\x7e' + GET + b'\0' + odd + b'\x0e\x01\x00\x01\x0b' + load + END
    yield 'either', GET + b'\0\x50\x04\x7e' + long(8) + b'\x05' + GET + b'\0\x0b' + load
    yield 'choice', GET + b'\0' + long(5) + GET + b'\0\xa7\x1b' + load
    yield 'choice of a kind', GET + b'\0' + long(5) + GET + b'\0\xa7\x1c\x01\x7e' + load
    yield 'call', GET + b'\0\x10\0' + load
    yield 'loop', b'\x03\x7e' + GET + b'\0\x0b' + load
    yield 'stored twice', GET + b'\0' + GET + b'\0' + load + b'\x37' + at(8) + GET + b'\0' + b'\x23\0\x37' + at(16) + long(0)
    yield 'never reached', b'\x02\x7e' + long(1) + b'\x0c\0' + load + b'\x37' + at() + b'\0' + load + END
    # the whole memory
    yield 'size', b'\x3f\0'
    yield 'sum', GET + b'\0' + GET + b'\0\x7c' + load


def bulk():
    yield 'copy', GET + b'\0' + GET + b'\x01' + GET + b'\x02\xfc\x0a\0\0' + long(0)
    yield 'fill', GET + b'\0' + GET + b'\x01\xa7' + GET + b'\x02\xfc\x0b\0' + long(0)


def grows():
    yield 'grow', GET + b'\0\x40\0'


def a_module(functions, memory=b'\x05' + leb(PAGES) + leb(65535), more=b'', data=b''):
    """A module of functions of three numbers, (address, number, number), by name. Each has a local for a vector and one for a number. The first one gives its
    first argument."""
    functions = list(functions)
    types = section(1, b'\x02\x60\x03\x7e\x7e\x7e\x01\x7e\x60\x01\x7e\x01\x7e')
    bodies = [memory32.sized(b'\0' + GET + b'\0\x0b')]
    for _, code in functions:
        bodies.append(memory32.sized(b'\x02\x01\x7e\x01\x7b' + code + END))
    gives = [leb(len(name)) + name.encode() + b'\0' + leb(number) for number, (name, _) in enumerate(functions, 1)] + [b'\x06memory\x02\0']
    return (b'\0asm\1\0\0\0' + types + section(3, leb(len(bodies)) + b'\x01' + bytes(len(functions))) + section(5, b'\x01' + memory)
            + section(6, b'\x01\x7e\0\x42\x2a\x0b') + section(7, memory32.vector(gives)) + more + section(10, memory32.vector(bodies)) + data)


# plays the same calls on each module that is given, and prints what each has answered
CALLS = '''
import { createHash } from 'node:crypto';
import { readFileSync } from 'node:fs';

const [file, ...modules] = process.argv.slice(2);
const calls = JSON.parse(readFileSync(file));
console.log(JSON.stringify(modules.map((name) => {
  const bytes = readFileSync(name);
  if (!WebAssembly.validate(bytes)) { return null; }
  const { exports } = new WebAssembly.Instance(new WebAssembly.Module(bytes));
  const whole = () => new Uint8Array(exports.memory.buffer, 0, PAGES * 65536);
  let seed = 1;
  whole().forEach((_, at, all) => { seed = Math.imul(seed, 1103515245) + 12345 >>> 0; all[at] = seed >>> 16; });
  return calls.map(([call, ...given]) => {
    let answer;
    try { answer = String(exports[call](...given.map(BigInt))); } catch (error) { answer = error instanceof WebAssembly.RuntimeError ? 'trap' : String(error); }
    return [answer, createHash('sha1').update(whole()).digest('hex').slice(0, 8)];
  });
})));
'''.replace('PAGES', str(PAGES))
# of instructions, so many constants that a function is valid which makes them, runs the instruction, and drops one number
TAKES = '''
const CONSTANTS = [[0x41, 0], [0x42, 0], [0x43, 0, 0, 0, 0], [0x44, ...new Array(8).fill(0)], [0xfd, 12, ...new Array(16).fill(0)]];
const leb = (number) => (number < 128 ? [number] : [number & 127 | 128, ...leb(number >> 7)]);
const section = (kind, bytes) => [kind, ...leb(bytes.length), ...bytes];
const isValid = (code) => {
  const body = [0, ...code, 0x1a, 0x0b];
  return WebAssembly.validate(new Uint8Array([0, 0x61, 0x73, 0x6d, 1, 0, 0, 0, ...section(1, [1, 0x60, 0, 0]), ...section(3, [1, 0]),
    ...section(10, [1, ...leb(body.length), ...body])]));
};
const some = (count, code) => (count === 0 ? isValid(code) : CONSTANTS.some((one) => some(count - 1, [...one, ...code])));
console.log(JSON.stringify(JSON.parse(process.argv[2]).map((code) => [1, 2, 3].filter((count) => some(count, code)))));
'''
END_OF_MEMORY = PAGES * 65536
# addresses that end a program where they are of 64 bits do so where they are of 32 bits, but those of 4 GiB and more that are not near the end of all numbers
ADDRESSES = [0, 1, 9, 4096, END_OF_MEMORY - 27, *range(END_OF_MEMORY - 20, END_OF_MEMORY + 2), (1 << 32) - 1, (1 << 32) - 4, (1 << 32) - 16, -1, -2, -3]
NUMBERS = [0, 1, 100, END_OF_MEMORY - 1, END_OF_MEMORY, END_OF_MEMORY + 1, (1 << 32) - 1, 1 << 32, (1 << 32) + 1, -1]


@functools.lru_cache(None)
def has_node():
    return tries('the module with a 32-bit memory, by an engine', 'node')


def answers(room, calls, *modules, flag=True):
    """What each module answers, in Node; None of one that it does not take. It has 64-bit memories by a flag."""
    (room / 'calls.mjs').write_text(CALLS)
    (room / 'calls.json').write_text(json.dumps([[name, *map(str, given)] for name, *given in calls]))
    names = []
    for number, one in enumerate(modules):
        names.append(room / f'{number}.wasm')
        names[-1].write_bytes(one)
    flags = ['--experimental-wasm-memory64'] * flag
    ran = subprocess.run(['node', *flags, room / 'calls.mjs', room / 'calls.json', *names], capture_output=True, text=True, check=True)
    return json.loads(ran.stdout)


class Memory(unittest.TestCase):
    def setUp(self):
        room = tempfile.TemporaryDirectory()
        self.addCleanup(room.cleanup)
        self.room = Path(room.name)

    def is_same(self, functions, calls):
        """Whether the calls are answered alike, with the same bytes in the memory, by the module and by the one of 32 bits, also where 64 bits are not known."""
        wide = a_module(functions)
        narrow, _ = memory32.with_32_bits(wide)
        both = answers(self.room, calls, wide, narrow)
        self.assertIsNotNone(both[0], 'node does not take the module as it was')
        alone, = answers(self.room, calls, narrow, flag=False)
        self.assertIsNotNone(alone, 'node does not take the module with a 32-bit memory')
        for call, *three in zip(calls, *both, alone):
            with self.subTest(call=call):
                self.assertEqual(three[1], three[0])
                self.assertEqual(three[2], three[0])
        return [one for one, _ in both[0]]

    @unittest.skipUnless(has_node(), 'there is no node')
    def test_each_instruction(self):
        functions = list(touching())
        calls = [(name, address, 0x0123456789abcdef, -3) for name, _ in functions for address in ADDRESSES]
        said = self.is_same(functions, calls)
        # each of them is also refused, but those that don't take the address, or not that one alone
        kinds = {name: {one == 'trap' for call, one in zip(calls, said) if call[0] == name} for name, _ in functions}
        self.assertEqual({name for name, found in kinds.items() if found != {True, False}}, {'constant', 'far constant', 'another far constant', 'never reached', 'size'})

    @unittest.skipUnless(has_node(), 'there is no node')
    def test_how_many_numbers(self):
        """Of each instruction without an operand, how many numbers it takes is what an engine wants."""
        (self.room / 'takes.mjs').write_text(TAKES)
        codes = [*([code] for code in memory32.TAKES), *([memory32.MORE, code] for code in memory32.SATURATED),
                 *([memory32.SIMD, *leb(code)] for code in memory32.SIMD_TAKES)]
        wanted = [*memory32.TAKES.values(), *(1 for _ in memory32.SATURATED), *memory32.SIMD_TAKES.values()]
        ran = subprocess.run(['node', self.room / 'takes.mjs', json.dumps(codes)], capture_output=True, text=True, check=True)
        self.assertEqual(list(zip(codes, json.loads(ran.stdout))), list(zip(codes, ([one] for one in wanted))))
        self.assertGreater(len(codes), 300)

    @unittest.skipUnless(has_node(), 'there is no node')
    def test_copy_and_fill(self):
        calls = [(name, *given) for name, _ in bulk() for given in itertools.product(NUMBERS, repeat=3)]
        said = self.is_same(bulk(), calls)
        self.assertIn('0', said)
        self.assertGreater(said.count('trap'), len(said) // 2)

    @unittest.skipUnless(has_node(), 'there is no node')
    def test_growth(self):
        """The memory grows to its bound, and no further; what asks for more is told -1."""
        functions = [*grows(), *touching()]
        big = [1 << 16, 1 << 20, 1 << 32, (1 << 32) + 1, 1 << 63, -1]
        steps = [0, *big, 1, 65535 - PAGES, 65534 - PAGES, 1, 0, *big]
        calls = [one for step in steps for one in (('grow', step, 0, 0), ('size', 0, 0, 0))]
        calls += [('load 2d', 65535 * 65536 - 4 + more, 0, 0) for more in range(3)]
        said = self.is_same(functions, calls)
        self.assertEqual(said[-1 - 3:], ['65535', '0', 'trap', 'trap'])
        self.assertEqual([one for one, call in zip(said, calls) if call[0] == 'grow' and call[1] in big], ['-1'] * 2 * len(big))

    @unittest.skipUnless(has_node(), 'there is no node')
    def test_table(self):
        """An indirect call, by a number of 64 bits: only those of the table are called."""
        table, element = section(4, b'\x01\x70\x05\x02\x02'), section(9, b'\x01\0\x42\0\x0b\x02\x00\x00')
        functions = [('through', GET + b'\x01' + GET + b'\0\x11\x01\0')]
        wide = a_module(functions, more=element)
        wide = wide.replace(section(5, b'\x01\x05' + leb(PAGES) + leb(65535)), table + section(5, b'\x01\x05' + leb(PAGES) + leb(65535)))
        narrow, said = memory32.with_32_bits(wide)
        self.assertIn('functions added: index', said)
        calls = [('through', index, 77, 0) for index in (0, 1, 2, 1 << 32, (1 << 32) + 1, -1)]
        alone, = answers(self.room, calls, narrow, flag=False)
        self.assertEqual([one for one, _ in alone], ['77', '77', *['trap'] * 4])

    @unittest.skipUnless(has_node(), 'there is no node')
    def test_data(self):
        data = section(11, b'\x01\0\x42\x10\x0b\x08' + b'abcdefgh')
        functions = [('read', long(16) + b'\x29\0\0')]
        wide = a_module(functions, data=data)
        narrow, _ = memory32.with_32_bits(wide)
        both = answers(self.room, [('read', 0, 0, 0)], wide, narrow)
        self.assertEqual(both[0], both[1])

    def test_what_is_not_known(self):
        load = b'\x29' + at()
        one = [('one', GET + b'\0' + load)]

        def of(code):
            return a_module([('one', code)])

        for why, wrong in (
                ('no module', b'\x7fELF' + bytes(40)), ('ends too early', a_module(one)[:-3]), ('not of 64 bits', a_module(one, b'\x01\x02' + leb(9))),
                ('of another kind: 07', a_module(one, b'\x07\x02' + leb(9))), ('of another kind: 0c', a_module(one, b'\x0c\x02\x10')),
                ('more memory', a_module(one, b'\x04' + leb(65536))), ('several memories', a_module(one).replace(section(5, b'\x01\x05' + leb(PAGES) + leb(65535)), section(5, b'\x02\x04\x02\x04\x02'))),
                ('a section: 8', a_module(one, more=section(8, b'\0'))), ('a section: 12', a_module(one, more=section(12, b'\0'))),
                ('a section: 0', a_module(one) + section(0, b'\x04name')), ('a section: 2', a_module(one, more=section(2, b'\0'))), ('section 7 twice', a_module(one, more=section(7, b'\0'))),
                ('beyond 4 GiB: 4294967296', of(long(1 << 32) + load)), ('beyond 4 GiB: -1', of(long(-1) + load)),
                ('an offset beyond', of(GET + b'\0\x29\0' + leb(1 << 32))), ('another memory', of(GET + b'\0\x29\x40\x01\0')), ('another memory', of(b'\x3f\x01')),
                ('another memory', of(b'\xfc\x0a\0\x01')), ('another memory', of(b'\xfc\x0b\x01')),
                ('an instruction: fc 8', of(b'\xfc\x08\0\0')), ('an instruction: fc 12', of(b'\xfc\x0c\0\0')), ('an instruction: fd 256', of(b'\xfd\x80\x02')),
                ('an instruction: fe', of(b'\xfe\x10\x02\0')), ('an instruction: 12', of(b'\x12\0')), ('an instruction: d0', of(b'\xd0\x70')), ('an instruction: 06', of(b'\x06\x40\x0b')),
                ('a number that nothing gave', of(load)), ('a block that leaves', of(b'\x02\x40' + long(1) + END + long(1))), ('a block that takes', of(b'\x02\x01' + END)),
                ('a branch out', of(b'\x0c\x05')), ('a call of no function', of(b'\x10\x7f')), ('a type that there is not', of(long(0) + b'\x11\x05\0')), ('another table', of(long(0) + b'\x11\0\x01')),
                ('more than its code', of(long(1) + END + b'\x01')), ('a segment of another kind', a_module(one, data=section(11, b'\x01\x01\x01a'))),
                ('elsewhere', a_module(one, data=section(11, b'\x01\0\x42\0\x42\0\x7c\x0b\x01a'))), ('beyond 4 GiB', a_module(one, data=section(11, b'\x01\0' + long(1 << 32) + b'\x0b\x01a'))),
                ('a section with more', a_module(one, data=section(11, b'\0\0')))):
            with self.subTest(why=why, wrong=wrong[-12:].hex()), self.assertRaisesRegex(memory32.Unknown, why):
                memory32.with_32_bits(wrong)

    def test_numbers(self):
        for number in (0, 1, 63, 64, 127, 128, 1 << 31, (1 << 32) - 1, (1 << 63) - 1):
            self.assertEqual(memory32.Reader(memory32.unsigned(number)).number(), number)
            for one in (number, -number, -number - 1):
                self.assertEqual(memory32.Reader(memory32.signed(one)).signed(), one)
        # a number that is written in more bytes than it needs
        self.assertEqual(memory32.Reader(b'\x85\x80\x80\x80\0').number(), 5)
        self.assertEqual(memory32.Reader(b'\xff\xff\xff\xff\x7f').signed(), -1)


# ---- what clang makes of it

def comparing(lanes):
    """A function of two vectors, given as numbers of 64 bits: which of their bytes differ, a bit each."""
    numbers = lanes // 8
    code = []
    for name in 'ab':
        last = 'poison'
        for at in range(numbers):
            code.append(f'%{name}.v{at} = insertelement <{numbers} x i64> {last}, i64 %{name}{at}, i64 {at}')
            last = f'%{name}.v{at}'
        code.append(f'%{name} = bitcast <{numbers} x i64> {last} to <{lanes} x i8>')
    vectors = f'<{lanes} x i8> %a, <{lanes} x i8> %b'
    code += [f'%bits = call i{lanes} @differing{lanes}({vectors})', f'ret i{lanes} %bits']
    given = ', '.join(f'i64 %{name}{at}' for name in 'ab' for at in range(numbers))
    # a function of its own, so that the vectors come in parts of 16 bytes
    inner = [f'%differ = icmp ne <{lanes} x i8> %a, %b', f'%bits = bitcast <{lanes} x i1> %differ to i{lanes}', f'ret i{lanes} %bits']
    functions = ((f'@bits{lanes}({given}) #0', code), (f'@differing{lanes}({vectors}) noinline #0', inner))
    return '\n'.join(f'define i{lanes} {head} {{\n' + ''.join(f'  {line}\n' for line in body) + '}\n' for head, body in functions)


COMPARES = '\n'.join((f'target datalayout = "{web.WASM_LAYOUT}"', f'target triple = "{web.TRIPLE}"', comparing(32), comparing(64),
                      f'attributes #0 = {{ {web.WASM_PROCESSOR} }}', ''))


class Masks(unittest.TestCase):
    def test_bits_are_asked_for_16_at_a_time(self):
        text, count = web.with_narrow_masks(COMPARES)
        self.assertEqual((count, text.count('bitcast <16 x i1>'), text.count('bitcast <32 x i1>'), text.count('bitcast <64 x i1>')), (2, 6, 0, 0))
        for wrong in ('  %x = bitcast <32 x i1> splat (i1 true) to i32\n', '  %x = call i1 @llvm.vector.reduce.or.v64i1(<64 x i1> %y)\n'):
            with self.subTest(wrong=wrong), self.assertRaisesRegex(web.Unknown, 'the bits of a comparison'):
                web.with_narrow_masks(wrong)

    @unittest.skipUnless(has_node() and tries('the bits of comparisons, by an engine', 'clang of rt'), 'there is no node, or no clang of the toolchain')
    def test_each_bit(self):
        """A byte that differs is told by its bit, and by no other one."""
        toolchain = kit()
        with tempfile.TemporaryDirectory() as name:
            room = Path(name)
            made, said = web.compiled(toolchain, room, COMPARES)
            self.assertEqual(said, 'bits of 32 or 64 lanes, 16 at a time, in 2 places')
            (room / 'wasm-ld').symlink_to(toolchain / 'toolchain/bin/ld.lld')
            run([room / 'wasm-ld', '-mwasm64', '--no-entry', '--strip-all', '--export=bits32', '--export=bits64', '-o', room / 'wide.wasm', made])
            narrow, _ = memory32.with_32_bits((room / 'wide.wasm').read_bytes())
            calls, wanted = [], []
            for lanes in (32, 64):
                for places in ([], *([place] for place in range(lanes)), [0, 17], [1, lanes - 1], range(lanes)):
                    words = [0x0123456789abcdef + at for at in range(lanes // 8)]
                    other = words[:]
                    for place in places:
                        other[place // 8] ^= 0x80 << place % 8 * 8
                    calls.append((f'bits{lanes}', *words, *other))
                    wanted.append(sum(1 << place for place in places))
            said, = answers(room, calls, narrow, flag=False)
        self.assertEqual([int(answer) % (1 << int(call[0][4:])) for call, (answer, _) in zip(calls, said)], wanted)


# fills the heap of the module with ever smaller blocks, begins a game then, and once more when the blocks are given back
FILLS = '''
import { readFileSync } from 'node:fs';

const [name, romName] = process.argv.slice(2);
const { exports } = new WebAssembly.Instance(new WebAssembly.Module(readFileSync(name)));
const rom = readFileSync(romName);
const at = exports.malloc(BigInt(rom.length));
const out = exports.malloc(8n);
new Uint8Array(exports.memory.buffer, Number(at), rom.length).set(rom);
const begins = () => exports.gbkeep_session_begin(at, BigInt(rom.length), 600, out);
const codes = [begins()];
exports.gbkeep_session_free(new DataView(exports.memory.buffer).getBigUint64(Number(out), true));
const refused = [1n << 32n, (1n << 36n) - 1n, 1n << 36n, 1n << 40n, 1n << 63n, -1n].map((size) => String(exports.malloc(size)));
const blocks = [];
for (let size = 30n; size >= 4n; size -= 1n) {
  for (let block = exports.malloc(1n << size); block !== 0n; block = exports.malloc(1n << size)) { blocks.push(block); }
}
codes.push(begins());
const last = blocks.reduce((one, other) => (one > other ? one : other));
blocks.forEach((block) => exports.free(block));
codes.push(begins());
console.log(JSON.stringify({ refused, last: Number(last), codes, length: exports.memory.buffer.byteLength }));
'''


class Heap(unittest.TestCase):
    @unittest.skipUnless(has_node(), 'there is no node')
    def test_no_memory(self):
        """The heap of the page's module grows to 4 GiB at most; beyond, a call answers that there is no memory, and what was given back is given again."""
        with tempfile.TemporaryDirectory() as name:
            room = Path(name)
            (room / 'fills.mjs').write_text(FILLS)
            (room / 'page.wasm').write_bytes(page.module_in(page.PAGE))
            ran = subprocess.run(['node', room / 'fills.mjs', room / 'page.wasm', page.DEMO], capture_output=True, text=True)
        self.assertEqual(ran.returncode, 0, ran.stderr)
        said = json.loads(ran.stdout)
        self.assertEqual(said['refused'], ['0'] * 6)
        # with room, with none, and with blocks that were given back
        self.assertEqual(said['codes'], [0, 1, 0])
        self.assertLess(said['last'], said['length'])
        self.assertLessEqual(said['length'], memory32.MOST_PAGES * memory32.PAGE)


class Site(unittest.TestCase):
    """What scripts/page.py makes, and what it finds stale."""

    def setUp(self):
        room = tempfile.TemporaryDirectory()
        self.addCleanup(room.cleanup)
        self.room = Path(room.name)
        self.site = self.room / 'page'
        shutil.copytree(page.PAGE, self.site)
        self.addCleanup(setattr, page, 'TOP', page.TOP)

    def made(self):
        with contextlib.redirect_stdout(io.StringIO()):
            page.make(self.site)

    def test_what_is_stale(self):
        self.made()
        self.assertEqual(page.stale(self.site), [])
        before = {name: (self.site / name).read_bytes() for name in page.MADE}
        for name in page.MADE:
            for other in (before[name] + b'\n', None):
                with self.subTest(name=name, other=other and len(other)):
                    (self.site / name).unlink()
                    if other is not None:
                        (self.site / name).write_bytes(other)
                    lines = page.stale(self.site)
                    self.assertTrue(any(line.startswith(f'{name} is stale') for line in lines), lines)
                    (self.site / name).write_bytes(before[name])
        # a source of the page, a new one, and one that is hidden
        for name, lines in (('style.css', 1), ('new.js', 1), ('.new.swp', 0)):
            with self.subTest(name=name):
                was = (self.site / name).read_bytes() if (self.site / name).exists() else None
                (self.site / name).write_bytes(b'/* other */')
                self.assertEqual(len(page.stale(self.site)), lines)
                (self.site / name).unlink()
                if was is not None:
                    (self.site / name).write_bytes(was)
        self.assertEqual(page.stale(self.site), [])

    def test_module(self):
        """A module is packed the same way each time; one that is of these sources is told as such, and another one's digest is found."""
        module = b'\0asm' + bytes(range(256)) * 40
        page.leave_module(self.site, module, page.sources(), 'a prover')
        self.made()
        self.assertEqual((page.packed(module), page.module_in(self.site)), ((self.site / page.MODULE).read_bytes(), module))
        self.assertTrue(page.is_of_sources(self.site))
        self.assertIn('"isOfSources": true', (self.site / 'made.js').read_text())
        (self.site / page.MODULE).write_bytes(page.packed(module + b'x'))
        self.assertIn('is not the one', page.stale(self.site)[0])
        page.leave_module(self.site, module, 'others', 'a prover')
        self.assertFalse(page.is_of_sources(self.site))
        self.assertTrue(page.stale(self.site)[0].startswith('made.js'))
        for wrong in (b'', page.packed(module)[:-9], page.packed(module)[:-1] + b'\1', module):
            (self.site / page.MODULE).write_bytes(wrong)
            with self.subTest(wrong=wrong[-4:]), self.assertRaises(SystemExit):
                page.module_in(self.site)

    def test_sources(self):
        """The digest is of what the module is made of, wherever it lies, and of nothing else."""
        files = [path.relative_to(page.TOP) for path in page.source_files()]
        self.assertTrue({'library/gbkeep.c', 'scripts/memory32.py', 'crates/machine/src/lib.rt', 'crates/c_interface/specs/Codes.antt'} <= set(map(str, files)))
        self.assertFalse([path for path in files if 'gbkeep_program' in path.parts or 'out' in path.parts])
        whole = page.sources()
        top = self.room / 'clone'
        for path in [*files, Path('crates.txt'), Path('README.md')]:
            (top / path).parent.mkdir(parents=True, exist_ok=True)
            shutil.copyfile(page.TOP / path, top / path)
        page.TOP = top
        self.assertEqual(page.sources(), whole)
        for path, is_one in ((files[0], True), (Path('web/heap.c'), True), (Path('crates.txt'), False), (Path('README.md'), False)):
            was = (top / path).read_bytes()
            (top / path).write_bytes(was + b'\n')
            self.assertEqual(page.sources() != whole, is_one, path)
            (top / path).write_bytes(was)
        (top / 'crates/machine/src/more.rt').write_text('')
        self.assertNotEqual(page.sources(), whole)

    def test_a_second_page(self):
        """A page with a module of these sources is left in a folder, in one piece; one that was not made here stays."""
        module = b'\0asm' + bytes(9)
        self.addCleanup(setattr, web, 'module_of_sources', web.module_of_sources)
        web.module_of_sources = lambda: (module, page.sources(), 'a prover')
        second, own = self.room / 'second', self.room / 'own'
        own.mkdir()
        for _ in range(2):
            with contextlib.redirect_stdout(io.StringIO()):
                web.leave(second)
            self.assertEqual((page.module_in(second), page.stale(second), page.is_of_sources(second)), (module, [], True))
            self.assertEqual({path.name for path in second.iterdir()}, {path.name for path in page.PAGE.iterdir() if not path.name.startswith('.')})
        with self.assertRaisesRegex(SystemExit, 'was not made here'):
            web.leave(own)


if __name__ == '__main__':
    unittest.main()
