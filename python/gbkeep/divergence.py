"""Where two runs part: the first step behind which two machines differ in registers, or the first frame behind which they do in memory."""
from collections.abc import Callable, Iterable, Iterator
from dataclasses import dataclass
from typing import Optional

from .debug_program import FRAME_CYCLES, Debuggee, Program, Registers
from .machines import STATE_HEADER

# where a state has registers, memory, the picture, and the cartridge's RAM
REGISTERS, MEMORY, PICTURE, CARTRIDGE = (STATE_HEADER + at for at in (8, 128, 16_847, 22_607))
REGISTER_BYTES = 12
# parts of the memory with the address of the first byte of each
PARTS = ((STATE_HEADER + 128, 0x8000), (STATE_HEADER + 8_320, 0xc000), (STATE_HEADER + 16_512, 0xfe00), (STATE_HEADER + 16_672, 0xff80), (STATE_HEADER + 16_799, 0xff10))
# the machine at the beginning of a frame is kept under this
START = 0
MOST_FRAMES = 3_600


@dataclass(frozen=True)
class Parted:
    """Behind how many frames and steps two machines differ, and in what."""
    frame: int
    step: Optional[int]
    first: Registers
    second: Registers
    words: str


def inputs_of(script: Iterable[tuple]) -> Iterator[tuple]:
    """Frames one by one with what comes before each; frames without buttons behind the end."""
    for move in script:
        for _ in range(move[2] if move[0] == 'frames' else 1):
            yield move
    while True:
        yield 'frames', 0, 1


def frame_of(machine: Debuggee, inputs: Iterator[tuple]) -> int:
    """Does what comes before the next frame, and answers its buttons."""
    while True:
        move = next(inputs)
        if move[0] == 'frames':
            return move[1]
        if move[0] != 'save':
            machine.give(' '.join(map(str, move)))


def difference(first: bytes, second: bytes) -> str:
    """Where two states differ in registers or memory, in words; nothing where they do not."""
    if first[MEMORY:PICTURE] != second[MEMORY:PICTURE]:
        at = next(at for at in range(MEMORY, PICTURE) if first[at] != second[at])
        start, address = max(part for part in PARTS if part[0] <= at)
        return f'${address + at - start:04X} has {first[at]:02X} and {second[at]:02X}'
    if first[CARTRIDGE:] != second[CARTRIDGE:]:
        return 'the cartridge\'s RAM differs'
    return 'registers differ' if first[REGISTERS:REGISTERS + REGISTER_BYTES] != second[REGISTERS:REGISTERS + REGISTER_BYTES] else ''


def parted(programs: tuple[Program, Program], scripts: tuple[Iterable[tuple], Iterable[tuple]], most: int, goes_on: Callable[[], bool]) -> Optional[Parted]:
    """Plays two machines with their scripts until they differ, for so many frames at most; None where they don't. They are where they differ then."""
    machines = tuple(map(Debuggee, programs))
    inputs = tuple(map(inputs_of, scripts))
    words = difference(*(one.state() for one in machines))
    if words:
        return Parted(0, None, *(one.registers() for one in machines), words)
    for number in range(most):
        buttons = [frame_of(*one) for one in zip(machines, inputs)]
        for one, pressed in zip(machines, buttons):
            one.keep(START)
            one.give(f'frame {pressed:02X}')
        words = difference(*(one.state() for one in machines))
        if words:
            return first_step(machines, buttons, number, words)
        if not goes_on():
            return None
    return None


def first_step(machines: tuple[Debuggee, ...], buttons: list[int], number: int, words: str) -> Parted:
    """The first step of a frame behind which registers differ; where none does, it is the frame."""
    for one, pressed in zip(machines, buttons):
        one.back(START)
        one.press(pressed)
    for step in range(1, FRAME_CYCLES + 1):
        for one in machines:
            one.pass_steps(1)
        first, second = (one.registers() for one in machines)
        if first != second:
            names = [name for name in (*first.bytes, 'SP', 'PC', 'IME') if first.value(name) != second.value(name)]
            return Parted(number, step, first, second, ', '.join(f'{name} is {first.value(name):02X} and {second.value(name):02X}' for name in names))
    return Parted(number + 1, None, first, second, words)
