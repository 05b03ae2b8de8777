"""A `gbkeep debug` as calls of Python. All that stops, looks and goes back stands on `Debuggee` alone, so that other lines of the program can take the place
of today's behind it."""
import os
import re
import signal
import subprocess
import time
from collections.abc import Callable, Iterable, Iterator, Sequence
from dataclasses import dataclass
from typing import Optional, Union

from .game import MOST_STATE, Picture, Refused, line_of, started
from .input_files import PathLike, WrongInput, number, printable
from .machines import SLOTS, STATE_HEADER
from .pictures import HEIGHT, WIDTH
from .symbols import quoted
from .tools import Failed

# an answer of the program
MOST_ANSWER, MOST_BYTES, MOST_ROM = 1 << 12, 65_536, 8 << 20
# as many places or conditions as a line takes, and steps as it makes; and the bytes that it may have
MOST_PLACES, MOST_STEPS, MOST_LINE = 16, 0xffff_ffff, 512
# the bank that no place outside of ROM has: a run to it makes all its steps
NOWHERE = '1:FEA0'
# steps between two looks at whether a run is to end: more where they take less than some hundredths of a second, fewer where they take more
LEAST_SLICE, FIRST_SLICE, MOST_SLICE = 256, 1 << 14, 1 << 21
QUICK, SLOW = 0.02, 0.1
# the machine is kept under these while it is looked where it stops; all below them are free
HERE, MIDDLE, THERE = SLOTS - 1, SLOTS - 2, SLOTS - 3
FREE_SLOTS = SLOTS - 3
# M-cycles of a frame, and where a state has what is written to it here
FRAME_CYCLES = 17_556
FLAGS, OVERRUN, REQUESTED, BUTTONS, SELECTED, COPIED = (STATE_HEADER + at for at in (20, 21, 23, 24, 25, 36))
ENABLED, TAKES_INTERRUPTS, WAITS, NOT_COPYING, JOYPAD = STATE_HEADER + 22, 1, 0b11100, 160, 0x10
# opcodes that access no memory but their own bytes: loads and sums of registers, jumps, and the like
MEMORY_OPCODES = {0x02, 0x0a, 0x12, 0x1a, 0x22, 0x2a, 0x32, 0x3a, 0x34, 0x35, 0x36, 0x08, 0x10, 0xe0, 0xf0, 0xe2, 0xf2, 0xea, 0xfa, 0xcb,
                  *range(0x46, 0x80, 8), *range(0x70, 0x78), *range(0x86, 0xc0, 8), *range(0xc0, 0x100, 16), *range(0xc1, 0x100, 16), *range(0xc5, 0x100, 16),
                  *range(0xc7, 0x100, 8), *range(0xc4, 0xe0, 8), 0xc8, 0xd8, 0xc9, 0xd9, 0xcd}
REGISTERS_LINE = re.compile(r'A=(..) F=(..) B=(..) C=(..) D=(..) E=(..) H=(..) L=(..) SP=(....) PC=(....) IME=([01])')
BYTE_REGISTERS, WORD_REGISTERS = 'AFBCDEHL', ('AF', 'BC', 'DE', 'HL', 'SP', 'PC')


class Wrong(Failed):
    """A line, or a file, is wrong: why."""


# ---- the program

class Program:
    """A `gbkeep debug`, whose answer to a line is read before the next is given."""

    def __init__(self, program: PathLike, cart: PathLike, save: Optional[PathLike] = None):
        words = [str(program), 'debug', '--', str(cart), *([str(save)] if save else [])]
        # what is read, and so never written over
        self.read = [one for one in (cart, save) if one]
        # a Ctrl-C is for the prompt alone
        self.process = started(words, stdin=subprocess.PIPE, stdout=subprocess.PIPE, stderr=subprocess.PIPE,
                               preexec_fn=lambda: signal.signal(signal.SIGINT, signal.SIG_IGN))
        self.resumed = self.line() if save else None
        if self.resumed is not None:
            self.number(self.resumed, 2 ** 64)

    def ask(self, line: str, data: bytes = b'') -> str:
        """Gives a line and the bytes that it asks for, and answers the first line of the answer."""
        left = memoryview(line.encode() + b'\n' + data)
        try:
            while left:
                left = left[os.write(self.process.stdin.fileno(), left):]
        except BrokenPipeError:
            self.end()
        answer = self.line()
        if answer.startswith('wrong '):
            raise Wrong(f'the program does not take {quoted(line)}')
        return answer

    def address(self, answer: str) -> int:
        """The address behind the first word of an answer."""
        digits = answer.partition(' ')[2]
        if not re.fullmatch('[0-9A-F]{4}', digits):
            raise self.strange(answer)
        return int(digits, 16)

    def strange(self, answer: str) -> Refused:
        return Refused(f'the program answers {quoted(answer)}', 'debug')

    def lines(self, line: str, count: int) -> list[str]:
        """Gives a line whose answer has so many lines."""
        return [self.ask(line), *(self.line() for _ in range(count - 1))]

    def line(self) -> str:
        data = self.process.stdout.readline(MOST_ANSWER)
        if not data.endswith(b'\n'):
            self.end()
        return printable(data[:-1], MOST_ANSWER)

    def number(self, answer: str, most: int) -> int:
        """The number behind the first word of an answer."""
        try:
            return number(answer.partition(' ')[2], 0, most, 'the answer')
        except WrongInput:
            raise self.strange(answer) from None

    def bytes(self, count: int) -> bytes:
        data = self.process.stdout.read(count)
        if len(data) != count:
            self.end()
        return data

    def counted(self, line: str, count: int) -> bytes:
        """Gives a line whose answer says that so many bytes stand behind it, and answers these."""
        answer = self.ask(line)
        if self.number(answer, count) != count:
            raise self.strange(answer)
        return self.bytes(count)

    def close(self) -> None:
        """Ends the program by the end of its input."""
        self.process.stdin.close()
        if self.process.wait() != 0:
            self.end()

    def end(self) -> None:
        """The program has ended of itself."""
        self.process.kill()
        line = self.process.stderr.read().decode(errors='replace')
        raise Refused(line_of(line, self.process.wait()), 'debug')

    def kill(self) -> None:
        self.process.kill()
        self.process.wait()


# ---- what a run stops at

@dataclass(frozen=True)
class Place:
    """PC is an address, where a bank is named with that bank mapped."""
    address: int
    bank: Optional[int] = None

    def word(self) -> str:
        return f'{self.address:04X}' if self.bank is None else f'{self.bank:X}:{self.address:04X}'


@dataclass(frozen=True)
class Access:
    """The next step reads, or writes, one of these addresses."""
    is_write: bool
    first: int
    last: int

    def line(self, count: int) -> str:
        return f'until-{"write" if self.is_write else "read"} {count} {self.first:04X}' + (f' {self.last:04X}' if self.last != self.first else '')

    def conditions(self) -> str:
        return f'{"write" if self.is_write else "read"} {self.first:04X}-{self.last:04X}'


@dataclass(frozen=True)
class Change:
    """The last step has changed the byte at an address."""
    address: int

    def line(self, count: int) -> str:
        return f'until-change {count} {self.address:04X}'

    def conditions(self) -> str:
        return f'change {self.address:04X}'


@dataclass(frozen=True)
class Opcode:
    """The next step runs an instruction with this opcode."""
    opcode: int

    def line(self, count: int) -> str:
        return f'until-op {count} {self.opcode:02X}'

    def conditions(self) -> str:
        return f'op {self.opcode:02X}'


@dataclass(frozen=True)
class Places:
    """Some places, as one line takes them."""
    places: tuple[Place, ...]

    def line(self, count: int) -> str:
        return f'until {count} {self.conditions()}'

    def conditions(self) -> str:
        return ' '.join(place.word() for place in self.places)


Stop = Union[Place, Access, Change, Opcode]


@dataclass(frozen=True)
class Ran:
    """How a run ended: behind how many steps, how many of these nobody was told of meanwhile, and at which stops."""
    steps: int
    untold: int
    met: tuple[Stop, ...] = ()
    is_ended: bool = False


@dataclass(frozen=True)
class Registers:
    """The registers of a processor."""
    bytes: dict[str, int]
    SP: int
    PC: int
    IME: int

    @classmethod
    def of(cls, program: Program, line: str) -> 'Registers':
        found = REGISTERS_LINE.fullmatch(line)
        if not found:
            raise program.strange(line)
        *some, stack, pc, ime = (int(one, 16) for one in found.groups())
        return cls(dict(zip(BYTE_REGISTERS, some)), stack, pc, ime)

    def value(self, name: str) -> int:
        """A register of one byte or two."""
        if name in self.bytes:
            return self.bytes[name]
        return getattr(self, name) if name in ('SP', 'PC', 'IME') else self.bytes[name[0]] << 8 | self.bytes[name[1]]


def stop_lines(stops: Iterable[Stop]) -> list:
    """What lines look for these: places in as few lines as they fit, every other one in a line of its own."""
    stops = list(dict.fromkeys(stops))
    places = [one for one in stops if isinstance(one, Place)]
    return [*(Places(tuple(places[at:at + MOST_PLACES])) for at in range(0, len(places), MOST_PLACES)), *(one for one in stops if not isinstance(one, Place))]


class Debuggee:
    """The machine of a `Program`. A run tells how many steps it made, however it stopped: the lines of today don't, and it is found from what is kept."""

    def __init__(self, program: Program):
        self.program = program
        self.slice = FIRST_SLICE
        # what was sent over the serial port, and is not told yet
        self.sent = b''

    # ---- what is looked at

    def registers(self) -> Registers:
        return Registers.of(self.program, self.program.ask('registers'))

    def memory(self, address: int, count: int) -> bytes:
        """What `memory` shows."""
        return self.program.counted(f'bytes {address:04X} {count}', count)

    def bank(self, address: int) -> int:
        return self.program.address(self.program.ask(f'bank {address:04X}'))

    def listing(self, address: int, count: int) -> list[str]:
        return self.program.lines(f'list {address:04X} {count}', count)

    def state(self) -> bytes:
        return self.program.bytes(self.program.number(self.program.ask('state'), MOST_STATE))

    def digest(self) -> str:
        return self.program.ask('digest')

    def picture(self) -> Picture:
        return Picture(self.program.counted('shades', WIDTH * HEIGHT))

    def serial(self) -> bytes:
        """The bytes that were sent since the last call."""
        self.collect()
        sent, self.sent = self.sent, b''
        return sent

    def collect(self) -> None:
        """Takes the bytes that were sent, before steps are made that will be made again."""
        self.sent = (self.sent + self.told())[-MOST_BYTES:]

    def told(self) -> bytes:
        """The bytes that were sent, of steps that were made before: they are told already, or will be."""
        return self.program.bytes(self.program.number(self.program.ask('serial'), MOST_BYTES) + 1)[:-1]

    def history(self, count: int) -> list[str]:
        answer = self.program.ask(f'history {count}')
        return [self.program.line() for _ in range(self.program.number(answer, MOST_BYTES))]

    # ---- what moves it

    def give(self, line: str, data: bytes = b'') -> str:
        """A line that moves the machine, as `frames`, `set` or `restore`, with its answer of one line."""
        return self.program.ask(line, data)

    def step(self) -> str:
        """One step, and its line."""
        return self.program.ask('step 1')

    def step_to(self, stops: Iterable[Stop]) -> tuple[str, tuple[Stop, ...]]:
        """One step, with its line, and the stops that are met behind it."""
        lines = stop_lines(stops)
        if not lines:
            return self.step(), ()
        self.collect()
        self.keep(HERE)
        before = {one: self.memory(one.address, 1) for one in lines if isinstance(one, Change)}
        line = self.step()
        return line, tuple(stop for one in lines if self.is_at_last(one, 1, before) for stop in self.stops_of(one))

    def steps(self, count: int) -> Iterator[str]:
        """So many steps, each with its line, which has to be read."""
        yield self.program.ask(f'step {count}')
        for _ in range(count - 1):
            yield self.program.line()

    def pass_steps(self, count: int) -> None:
        """So many steps, without their lines."""
        while count:
            part = min(count, MOST_STEPS)
            answer = self.program.ask(f'until {part} {NOWHERE}')
            if not answer.startswith('limit '):
                raise self.program.strange(answer)
            count -= part

    def keep(self, slot: int) -> None:
        self.program.ask(f'keep {slot}')

    def back(self, slot: int) -> None:
        self.program.ask(f'back {slot}')

    def restore(self, state: bytes) -> None:
        self.program.ask(f'restore {len(state)}', state)

    def press(self, buttons: int) -> None:
        """Presses buttons and lets others go, as a frame does it before its first step."""
        state = bytearray(self.state())
        before = pressed_lines(state)
        state[BUTTONS] = buttons
        if pressed_lines(state) & ~before:
            state[REQUESTED] |= JOYPAD
        self.restore(bytes(state))

    def begin_count(self, overrun: int) -> None:
        """A frame has ended, and overran by so many M-cycles."""
        state = bytearray(self.state())
        state[OVERRUN] = overrun
        self.restore(bytes(state))

    def overrun(self) -> int:
        return self.state()[OVERRUN]

    def profile(self, count: int, places: Sequence[str] = ()) -> tuple[str, int, dict[tuple[int, int], int]]:
        """Makes steps, and tells how it ended, the M-cycles of what is no instruction of ROM, and those of each other by bank and address."""
        answer = self.program.ask(' '.join([f'profile {count}', *places]))
        elsewhere = self.program.number(self.program.line(), 1 << 63)
        return answer, elsewhere, dict(self.profiled_line(self.program.line()) for _ in range(self.program.number(self.program.line(), MOST_ROM)))

    def profiled_line(self, line: str) -> tuple[tuple[int, int], int]:
        found = re.fullmatch('([0-9A-F]{4}):([0-9A-F]{4}) ([0-9]+)', line)
        if not found:
            raise self.program.strange(line)
        return (int(found[1], 16), int(found[2], 16)), int(found[3])

    def cycles_of(self, count: int) -> int:
        """Makes steps, and answers their M-cycles."""
        _, elsewhere, cycles = self.profile(count)
        return elsewhere + sum(cycles.values())

    def steps_within(self, cycles: int) -> tuple[int, int]:
        """Makes steps until so many M-cycles have passed, and answers how many steps that were, and how many M-cycles more have passed."""
        made, size = 0, 1 << cycles.bit_length()
        self.keep(MIDDLE)
        while size:
            passed = self.cycles_of(size) if size < cycles else cycles
            if passed < cycles:
                made, cycles = made + size, cycles - passed
                self.keep(MIDDLE)
            else:
                self.back(MIDDLE)
            size >>= 1
        return made + 1, self.cycles_of(1) - cycles

    # ---- a run

    def run(self, most: int, stops: Iterable[Stop], goes_on: Callable[[int], bool] = lambda steps: True, looks_at_last: bool = True) -> Ran:
        """Makes steps up to the first stop that is met behind one of them, `most` at most. After each slice without a stop `goes_on` is told how many steps
        it had; where it answers False the run ends. Without `looks_at_last` it is not looked behind the last step of all, as the program does it."""
        lines, made, told = stop_lines(stops), 0, 0
        while made < most:
            part, begun = min(self.slice, most - made), time.monotonic()
            steps, met = self.slice_of(lines, part, looks_at_last or made + part < most)
            made += steps
            if met:
                return Ran(made, made - told, met)
            told = made
            passed = time.monotonic() - begun
            if part == self.slice:
                self.slice = min(2 * part, MOST_SLICE) if passed < QUICK else max(part // 2, LEAST_SLICE) if passed > SLOW else part
            if not goes_on(part):
                return Ran(made, 0, is_ended=made < most)
        return Ran(made, 0)

    def slice_of(self, lines: list, part: int, looks_at_last: bool) -> tuple[int, tuple[Stop, ...]]:
        """Makes steps up to the first stop, or so many: how many they are, and what is met."""
        if not lines:
            self.pass_steps(part)
            return part, ()
        self.collect()
        self.keep(HERE)
        before = {one: self.memory(one.address, 1) for one in lines if isinstance(one, Change)}
        best, met, at = part, [], 0
        is_passed = len(lines) > 1 and self.is_passed(lines, part)
        for line in () if is_passed else lines:
            if at:
                self.back(HERE)
            # a stop behind as many steps as the first one is met, too
            at = best + 1 if met else part
            if self.is_stopped(line, at):
                at = self.count(line, at)
                if at < best or not met:
                    met.clear()
                best = at
                met.append(line)
        if not is_passed and (at != best or (met or len(lines) > 1) and self.told()):
            # what was sent was sent several times
            self.back(HERE)
            self.told()
            self.pass_steps(best)
        if not met and looks_at_last:
            met = [line for line in lines if self.is_at_last(line, part, before)]
        return best, tuple(stop for line in met for stop in self.stops_of(line))

    def is_passed(self, lines: list, part: int) -> bool:
        """Whether so many steps from HERE on meet none of several lines, which one line of the program looks for, if it takes them. The machine is behind
        these steps then, and else at HERE."""
        together = f'continue {part} ' + ' '.join(line.conditions() for line in lines)
        conditions = sum(len(line.places) if isinstance(line, Places) else 1 for line in lines)
        if conditions > MOST_PLACES or len(together) > MOST_LINE:
            return False
        if not self.has_stopped(together):
            return True
        self.told()
        self.back(HERE)
        return False

    def stops_of(self, line: object) -> Iterable[Stop]:
        """The stops of a line that was met here."""
        return [one for one in line.places if self.is_at(one)] if isinstance(line, Places) else (line,)

    def is_stopped(self, line: object, count: int) -> bool:
        return self.has_stopped(line.line(count))

    def has_stopped(self, line: str) -> bool:
        answer = self.program.ask(line)
        if not answer.startswith(('stopped ', 'limit ')):
            raise self.program.strange(answer)
        return answer.startswith('stopped ')

    def count(self, line: object, limit: int) -> int:
        """Behind how many steps from HERE on, fewer than the limit, a line stops. The machine is there then."""
        self.back(HERE)
        self.keep(MIDDLE)
        made, size = 0, 1 << limit.bit_length()
        while size:
            if made + size < limit:
                is_met = self.is_stopped(line, size + 1)
                self.back(MIDDLE)
                if not is_met:
                    self.pass_steps(size)
                    self.keep(MIDDLE)
                    made += size
            size >>= 1
        self.pass_steps(1)
        return made + 1

    def is_at(self, place: Place) -> bool:
        return self.registers().PC == place.address and (place.bank is None or self.bank(place.address) == place.bank)

    def is_at_last(self, line: object, part: int, before: dict[Stop, bytes]) -> bool:
        """Whether a line is met behind the last of so many steps since HERE, where the program has not looked."""
        if isinstance(line, Places):
            return any(self.is_at(one) for one in line.places)
        if isinstance(line, Change):
            return self.memory(line.address, 1) != before[line]
        if not self.may_be_met(line):
            return False
        self.collect()
        self.keep(THERE)
        self.back(HERE)
        if part > 1:
            self.pass_steps(part - 1)
        is_met = self.is_stopped(line, 2)
        self.back(THERE)
        self.told()
        return is_met

    def may_be_met(self, line: object) -> bool:
        """Whether the next step may access memory, or run that opcode. Where this is not known, it may."""
        state, registers = self.state(), self.registers()
        if state[FLAGS] & WAITS or state[COPIED] != NOT_COPYING or state[FLAGS] & TAKES_INTERRUPTS and state[ENABLED] & state[REQUESTED] & 0x1f:
            return True
        opcode = self.memory(registers.PC, 1)[0]
        return opcode == line.opcode if isinstance(line, Opcode) else opcode in MEMORY_OPCODES


def pressed_lines(state: Union[bytes, bytearray]) -> int:
    """Which lines of P1 are low, by the buttons and what is selected."""
    lines = 0
    if not state[SELECTED] & 0x10:
        lines |= state[BUTTONS] & 15
    if not state[SELECTED] & 0x20:
        lines |= state[BUTTONS] >> 4
    return lines
