"""Where the value of a byte came from: the last write of it, what wrote the register that was written, and so on, back in time."""
from collections.abc import Iterator
from dataclasses import dataclass
from typing import Optional, Union

from .debug_program import Access, Place, Registers
from .debugger import Debugger
from .hardware_registers import NAMES

# links of a chain, and instructions between two of them
MOST_LINKS, MOST_INSTRUCTIONS = 32, 1_024
SINGLE = 'BCDEHL?A'
PAIRS, STACK_PAIRS = ('BC', 'DE', 'HL', 'SP'), ('BC', 'DE', 'HL', 'AF')


@dataclass(frozen=True)
class Origin:
    """What a value is made of: a register, a byte in memory, or an end, in words."""
    register: str = ''
    address: Optional[int] = None
    words: str = ''


def of_register(name: str) -> Origin:
    return Origin(register=name)


def of_memory(address: int) -> Origin:
    return Origin(address=address & 0xffff)


def ended(words: str) -> Origin:
    return Origin(words=words)


def single(number: int, registers: Registers) -> Origin:
    """The operand that three bits of an opcode mean."""
    return of_memory(registers.value('HL')) if number == 6 else of_register(SINGLE[number])


def writes_register(code: bytes) -> str:
    """The registers of a byte that an instruction writes, but F."""
    opcode, high, low = code[0], code[0] >> 3 & 7, code[0] & 7
    if opcode == 0xcb:
        number = code[1] & 7
        return '' if number == 6 or 0x40 <= code[1] < 0x80 else SINGLE[number]
    if 0x40 <= opcode < 0x80 and opcode != 0x76 or opcode < 0x40 and low in (4, 5, 6):
        return '' if high == 6 else SINGLE[high]
    if 0x80 <= opcode < 0xb8 or opcode >= 0xc0 and low == 6 and opcode != 0xfe or opcode in (0x07, 0x0f, 0x17, 0x1f, 0x27, 0x2f, 0x0a, 0x1a, 0xf0, 0xf2, 0xfa):
        return 'A'
    if opcode in (0x2a, 0x3a):
        return 'AHL'
    if opcode in (0x22, 0x32, 0x09, 0x19, 0x29, 0x39, 0xf8):
        return 'HL'
    if opcode < 0x40 and opcode & 15 in (1, 3, 0xb):
        return PAIRS[opcode >> 4] if opcode < 0x30 else ''
    return STACK_PAIRS[opcode >> 4 & 3].replace('F', '') if opcode >= 0xc0 and opcode & 15 == 1 else ''


def written_value(code: bytes, registers: Registers, address: int) -> Origin:
    """What an instruction writes to an address in memory."""
    opcode = code[0]
    if 0x70 <= opcode < 0x78:
        return of_register(SINGLE[opcode & 7])
    if opcode in (0x02, 0x12, 0x22, 0x32, 0xe0, 0xe2, 0xea):
        return of_register('A')
    if opcode == 0x36:
        return ended(f'the number ${code[1]:02X}')
    if opcode in (0x34, 0x35, 0xcb):
        return of_memory(address)
    if opcode >= 0xc0 and opcode & 15 == 5:
        pair = STACK_PAIRS[opcode >> 4 & 3]
        return of_register(pair[0] if address == registers.SP - 1 & 0xffff else pair[1])
    return ended('SP' if opcode == 0x08 else 'a return address, or a copy to OAM')


def register_value(code: bytes, registers: Registers, name: str) -> Origin:
    """What an instruction makes a register of."""
    opcode, low = code[0], code[0] & 7
    if opcode == 0xcb or opcode < 0x40 and low in (4, 5) or opcode in (0x07, 0x0f, 0x17, 0x1f, 0x27, 0x2f):
        return of_register(name)
    if 0x40 <= opcode < 0x80:
        return single(low, registers)
    if opcode < 0x40 and low == 6:
        return ended(f'the number ${code[1]:02X}')
    if opcode in (0x0a, 0x1a):
        return of_memory(registers.value('BC' if opcode == 0x0a else 'DE'))
    if opcode in (0x2a, 0x3a):
        return of_memory(registers.value('HL')) if name == 'A' else of_register(name)
    if opcode in (0xf0, 0xf2, 0xfa):
        return of_memory(0xff00 | (code[1] if opcode == 0xf0 else registers.value('C')) if opcode != 0xfa else code[1] | code[2] << 8)
    if 0x80 <= opcode < 0xb8 or opcode >= 0xc6 and low == 6:
        if opcode == 0xaf:
            return ended('the number $00')
        return of_register('A') if opcode >= 0xc0 or low == 7 else ended(f'A and {SINGLE[low] if low != 6 else "the byte at HL"}, which may be asked for by themselves')
    if opcode < 0x40 and opcode & 15 == 1:
        return ended(f'the number ${code[1] | code[2] << 8:04X}')
    if opcode < 0x40 and opcode & 15 in (3, 0xb) or opcode in (0x22, 0x32):
        return of_register(name)
    if opcode >= 0xc0 and opcode & 15 == 1:
        pair = STACK_PAIRS[opcode >> 4 & 3]
        return of_memory(registers.SP + (name == pair[0]))
    return ended('a sum of registers')


def links(debugger: Debugger, address: int) -> Iterator[tuple[int, str]]:
    """The chain of a byte's value, the last link first: where each instruction lies, and what it did. The machine goes back with it."""
    wanted: Union[str, int] = address
    for _ in range(MOST_LINKS):
        if isinstance(wanted, int):
            if wanted < 0x8000:
                yield debugger.registers().PC, f'${wanted:04X} is of ROM'
                return
            if not debugger.last_met([Access(True, wanted, wanted)]):
                yield debugger.registers().PC, f'{name_of(wanted)} was not written in the past that is known'
                return
            registers = debugger.registers()
            code = debugger.memory(registers.PC, 3)
            origin, what = written_value(code, registers, wanted), name_of(wanted)
        else:
            place = last_writer(debugger, wanted)
            if place is None or not debugger.last_met([Place(place)]):
                yield debugger.registers().PC, f'{wanted} was not written by the last {MOST_INSTRUCTIONS:,} instructions that are known'
                return
            registers = debugger.registers()
            code = debugger.memory(registers.PC, 3)
            origin, what = register_value(code, registers, wanted), wanted
        yield registers.PC, f'{what} became {origin.words or origin.register or name_of(origin.address)}'
        if origin.words:
            return
        wanted = origin.register or origin.address
        if isinstance(wanted, int) and 0xff00 <= wanted < 0xff80:
            return


def last_writer(debugger: Debugger, name: str) -> Optional[int]:
    """Where the last instruction lies that wrote a register."""
    for line in reversed(debugger.timeline.history(MOST_INSTRUCTIONS)):
        code = bytes.fromhex(line[5:11].strip())
        if name in writes_register(code + bytes(3)):
            return int(line[:4], 16)
    return None


def name_of(address: Optional[int]) -> str:
    return NAMES.get(address, f'[${address:04X}]')
