"""What the machines and games of this package have in common: their calls, their errors, and what they take as numbers, as bytes and as a cartridge.

`Machine` and `DebugMachine` are an `AnyMachine`; `Session` and `Game` are an `AnyGame`, which is one, too. What is written for these names plays by the
library, in its own process, or by a `gbkeep` beside it:

    def place(machine: AnyMachine) -> bytes:
        machine.frames(RIGHT, 60)
        return machine.memory(0xc001, 2)

The same mistake raises the same error in each of them, and then nothing is done: TypeError for what is no number or has no bytes; ValueError for a number out
of range, a buffer of another length, a number under which nothing is kept, and a call of what is closed; `Refused` for what the program or the library
refuses, and `NoState`, which is one of these and a ValueError, for bytes that are no state of the cartridge."""
import copyreg
import operator
import os
from types import TracebackType
from typing import TYPE_CHECKING, Optional, Protocol, SupportsIndex, TypeVar, Union, runtime_checkable

from .faults import explained
from .input_files import MOST_CART, MOST_LINE, PathLike, WrongInput, printable, read_bytes
from .pictures import HEIGHT, WIDTH

if TYPE_CHECKING:
    from .game import Picture

PICTURE_LENGTH = WIDTH * HEIGHT
MOST_BUTTONS, MOST_GIVEN = 0xff, 0xffff_ffff
MOST_ADDRESS, MOST_MEMORY = 0xffff, 0x10000
# the numbers under which a machine keeps its states are below it
SLOTS = 1000
NO_STATE = 'no state of this cartridge'
# how many bytes stand in front of a state's snapshot: its mark, and the SHA-256 of the ROM
STATE_HEADER, STATE_MARK = 40, b'GBSTATE1'

# what has bytes: an array of numpy has them, too
Buffer = Union[bytes, bytearray, memoryview]
# a cartridge: the name of its file, or what is in it
Cart = Union[str, os.PathLike, Buffer]
Itself = TypeVar('Itself')


# ---- what is raised

class Refused(Exception):
    """The program or the library refused. `line` is its line; `means` and `advice` say what docs/COMMANDS.md says of it. `code` is the one in gbkeep.h."""

    def __init__(self, line: str, command: str, means: str = '', advice: str = '', code: Optional[int] = None):
        line = printable(line, MOST_LINE)
        super().__init__(line)
        self.line, self.code = line, code
        self.means, self.advice = (means, advice) if means or advice else explained(line, command) or ('', '')

    def told(self) -> str:
        """The line, what it means, and what to do about it, in one line."""
        return '; '.join(part for part in (f'{self.line}: {self.means}' if self.means else self.line, self.advice) if part)

    __str__ = told

    def __reduce__(self) -> tuple:
        # by what it holds: its kinds are made of other words than they keep
        return copyreg.__newobj__, (type(self), *self.args), self.__dict__


class MissingProgram(Refused):
    """There is no program that can be run."""

    def __init__(self, program: PathLike, why: str):
        super().__init__(f'{printable(program)} can\'t be run', '', why, '`make build` makes one, and the variable GBKEEP names another one')


class NoState(Refused, ValueError):
    """These bytes are no state of this cartridge."""

    def __init__(self, line: str = NO_STATE, means: str = '', advice: str = 'give what `state` answered of this cartridge', code: Optional[int] = None):
        super().__init__(line, '', means, advice, code)


# ---- what is taken

def number(what: str, given: SupportsIndex, least: int, most: int) -> int:
    """A number, by the rules of Python's own calls. Raises TypeError where it is none, and ValueError where it is out of range."""
    one = operator.index(given)
    if not least <= one <= most:
        raise ValueError(f'{what}: {one} is no number from {least:,} to {most:,}')
    return one


def bytes_of(data: Buffer) -> bytes:
    """The bytes of what has some. Raises TypeError where it has none, as a number."""
    return data if isinstance(data, bytes) else memoryview(data).tobytes()


def room_of(buffer: Buffer, least: int, most: int) -> memoryview:
    """The place of a buffer of so many bytes. Raises TypeError where it can't be written to, and ValueError where it has another length or gaps."""
    view = memoryview(buffer)
    if view.readonly:
        raise TypeError('the buffer can\'t be written to')
    if not view.c_contiguous:
        raise ValueError('the buffer has gaps')
    if not least <= view.nbytes <= most:
        raise ValueError(f'the buffer has {view.nbytes:,} bytes, and {f"{least:,}" if least == most else f"{least:,} to {most:,}"} are wanted')
    return view


def rom_of(cart: Cart) -> bytes:
    """The bytes of a cartridge."""
    if not isinstance(cart, (str, os.PathLike)):
        return bytes_of(cart)
    try:
        return read_bytes(cart, MOST_CART)
    except WrongInput as error:
        raise Refused(str(error), '', 'it can\'t be read as a cartridge', 'check the path and its permissions') from None


# ---- what is called

@runtime_checkable
class AnyMachine(Protocol):
    """A machine that can be played, whoever plays it."""

    @property
    def closed(self) -> bool: ...

    def frame(self, buttons: SupportsIndex = 0) -> None: ...

    def frames(self, buttons: SupportsIndex, count: SupportsIndex = 1) -> None: ...

    def seconds(self, count: SupportsIndex) -> None: ...

    def power(self) -> None: ...

    def keep(self, number: SupportsIndex) -> None: ...

    def back(self, number: SupportsIndex) -> None: ...

    def state(self) -> bytes: ...

    def restore(self, state: Buffer) -> None: ...

    def memory(self, address: SupportsIndex, count: SupportsIndex = 1) -> bytes: ...

    def memory_into(self, address: SupportsIndex, buffer: Buffer) -> None: ...

    def picture(self) -> 'Picture': ...

    def picture_into(self, buffer: Buffer) -> None: ...

    def close(self) -> None: ...

    def __enter__(self: Itself) -> Itself: ...

    def __exit__(self, kind: Optional[type], error: Optional[BaseException], trace: Optional[TracebackType]) -> None: ...


@runtime_checkable
class AnyGame(AnyMachine, Protocol):
    """A machine whose inputs are saved. `count` is how many it has been given, `saved` how many of them were told as saved."""
    saved: int

    @property
    def count(self) -> int: ...

    def save(self) -> int: ...


class Played:
    """The calls that all of them have. What is given is looked at here, and done by whoever plays it."""
    # what its errors call it
    _kind = 'machine'
    # the numbers under which a state is kept
    kept: set[int]

    @property
    def closed(self) -> bool:
        """Whether `close` was called, or the program has ended."""
        raise NotImplementedError

    def frame(self, buttons: SupportsIndex = 0) -> None:
        """One frame with these buttons, a sum of RIGHT, LEFT, UP, DOWN, A, B, SELECT and START."""
        self.frames(buttons, 1)

    def frames(self, buttons: SupportsIndex, count: SupportsIndex = 1) -> None:
        """So many frames with these buttons."""
        self._has_to_be_open()
        self._frames(number('buttons', buttons, 0, MOST_BUTTONS), number('frames', count, 0, MOST_GIVEN))

    def seconds(self, count: SupportsIndex) -> None:
        """So many seconds pass on the cartridge's clock: one input of a game."""
        self._has_to_be_open()
        self._seconds(number('seconds', count, 0, MOST_GIVEN))

    def power(self) -> None:
        """The power switch, off and on: one input of a game. With a battery the cartridge's RAM stays, and its clock goes on."""
        self._has_to_be_open()
        self._power()

    def keep(self, number: SupportsIndex) -> None:
        """Keeps the machine under a number, 0 to 999, for `back`: in this process, until it is closed, and in place of the one that was."""
        self._has_to_be_open()
        number = number_of_state(number)
        self._keep(number)
        self.kept.add(number)

    def back(self, number: SupportsIndex) -> None:
        """From now on the machine that was kept last under a number: one input of a game."""
        self._has_to_be_open()
        number = number_of_state(number)
        if number not in self.kept:
            raise ValueError(f'no state is kept under {number}')
        self._back(number)

    def state(self) -> bytes:
        """The machine as bytes: all of it but the ROM, which they name."""
        self._has_to_be_open()
        return self._state()

    def restore(self, state: Buffer) -> None:
        """From now on the machine of this state: one input of a game. One that is no state of the cartridge is refused with `NoState`, with nothing done; its
        line ends in `other cartridge` where it is one of another ROM."""
        self._has_to_be_open()
        self._restore(bytes_of(state))

    def memory(self, address: SupportsIndex, count: SupportsIndex = 1) -> bytes:
        """So many bytes as the program sees them, but that no mode closes VRAM and OAM; after FFFF comes 0000."""
        self._has_to_be_open()
        return self._memory(number('address', address, 0, MOST_ADDRESS), number('bytes', count, 1, MOST_MEMORY))

    def memory_into(self, address: SupportsIndex, buffer: Buffer) -> None:
        """Fills a buffer with what `memory` answers of as many bytes: a bytearray, an array of numpy, or what else can be written to."""
        self._has_to_be_open()
        self._memory_into(number('address', address, 0, MOST_ADDRESS), room_of(buffer, 1, MOST_MEMORY))

    def picture(self) -> 'Picture':
        """The picture of the machine as it is now."""
        self._has_to_be_open()
        return self._picture()

    def picture_into(self, buffer: Buffer) -> None:
        """Fills a buffer of 23,040 bytes with the shades of the picture, 0 (darkest) to 3 (lightest), row by row."""
        self._has_to_be_open()
        self._picture_into(room_of(buffer, PICTURE_LENGTH, PICTURE_LENGTH))

    def __enter__(self: Itself) -> Itself:
        self._has_to_be_open()
        return self

    def _has_to_be_open(self) -> None:
        if self.closed:
            raise ValueError(f'the {self._kind} is closed')

    def _memory_into(self, address: int, room: memoryview) -> None:
        room.cast('B')[:] = self._memory(address, room.nbytes)

    def _picture_into(self, room: memoryview) -> None:
        room.cast('B')[:] = self._picture().shades


def number_of_state(given: SupportsIndex) -> int:
    return number('state', given, 0, SLOTS - 1)
