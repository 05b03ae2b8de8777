"""The machine and the session of libgbkeep in this process, by ctypes:

    from gbkeep import START, Machine

    with Machine('examples/demo/demo.gb') as machine:
        machine.frames(START, 4)
        machine.frames(0, 60)
        state = machine.state()
        print(machine.picture().shade(80, 72), machine.memory(0x0100, 4).hex())

A `Session` keeps its inputs on a disk of yours: `calls` hands out the writes and syncs to be made, in order; `make_calls` makes them on a file,
which is then a save file of the program `gbkeep`.

The library is what the variable GBKEEP_LIBRARY names; else bin/libgbkeep.so of the clone, or the one that is installed. A refusal is raised as `Refused`.
Bytes are anything with a buffer, such as `bytes`, `memoryview` or an array of numpy.

While the library plays, other threads of Python run: machines play at once, each in a thread of its own. Calls of one machine wait for each other."""
import ctypes
import os
import threading
from collections.abc import Callable, Iterator
from pathlib import Path
from types import TracebackType
from typing import BinaryIO, NamedTuple, Optional, SupportsIndex

from .faults import CODES, FAULTS
from .game import Picture, prefix
from .input_files import SECTOR
from .machines import MOST_GIVEN, PICTURE_LENGTH, Buffer, Cart, NoState, Played, Refused, bytes_of, number, rom_of
from .system import IS_POSIX

SAVE_FIRST, DAMAGED_SNAPSHOT, OTHER_CARTRIDGE, NO_TIME = (CODES[one] for one in ('save first', 'damaged snapshot', 'other cartridge', 'no time'))
MOST_UNSAVED = 3_200
# the file of the library
NAME = 'libgbkeep.so.0' if IS_POSIX else 'gbkeep.dll'
# Python sees a Ctrl-C when a call of C has ended: of so many frames within some 50 ms
FRAMES_AT_ONCE = 1_000
# what to do about a refusal, where it is another thing than for a program that has files
ADVICE = {
    CODES['device failed']: '',
    CODES['no session']: 'begin one: `Session` without an image',
    CODES['too small, N sectors needed']: '`sectors_needed` says how many it needs',
    DAMAGED_SNAPSHOT: 'take a copy of the image',
    SAVE_FIRST: '`save`, and make the calls that `calls` hands out',
    CODES['no battery']: 'begin it without a battery file',
}


class Call(NamedTuple):
    """What has to be made on the disk: `bytes` at `sector`, or, where `bytes` is None, a sync."""
    sector: int
    bytes: Optional[bytes]


class _Call(ctypes.Structure):
    _fields_ = [('kind', ctypes.c_uint32), ('sector', ctypes.c_uint32), ('bytes', ctypes.c_uint8 * SECTOR)]


def find_library() -> str:
    """What the variable GBKEEP_LIBRARY names; else the one in this package, as pip installs it, bin/libgbkeep.so of the clone, or the one that is installed
    with this; else the system's."""
    # what is installed in another folder than lib has a link beside the package
    beside = [prefix() / name for name in ('bin/libgbkeep.so', 'share/gbkeep/libgbkeep.so.0', 'lib/libgbkeep.so.0')] if IS_POSIX else []
    within = Path(__file__).resolve().parent / NAME
    return os.environ.get('GBKEEP_LIBRARY') or next((str(one) for one in (within, *beside) if one.exists()), NAME)


def advice_of(code: int) -> str:
    """What to do about a refusal of the library, whatever the command."""
    return ADVICE[code] if code in ADVICE else next((advice for fault, of, _, advice in FAULTS if CODES.get(fault) == code and not of), '')


_POINTER, _LENGTH, _WORD, _LONG = ctypes.c_void_p, ctypes.c_size_t, ctypes.c_uint32, ctypes.c_uint64
_CALLS = {
    'fault_text': (ctypes.c_char_p, _WORD),
    'machine_new': (_WORD, _POINTER, _LENGTH, _POINTER),
    'machine_free': (None, _POINTER),
    'machine_frames': (None, _POINTER, ctypes.c_uint8, _WORD),
    'machine_seconds': (None, _POINTER, _WORD),
    'machine_power': (_WORD, _POINTER),
    'machine_picture': (_WORD, _POINTER, _POINTER, _LENGTH),
    'machine_state_length': (_LENGTH, _POINTER),
    'machine_state': (_WORD, _POINTER, _POINTER, _LENGTH),
    'machine_restore': (_WORD, _POINTER, _POINTER, _LENGTH),
    'machine_memory': (None, _POINTER, ctypes.c_uint16, _POINTER, _LENGTH),
    'session_sectors': (_WORD, _POINTER, _LENGTH, _POINTER),
    'session_begin': (_WORD, _POINTER, _LENGTH, _WORD, _POINTER),
    'session_import': (_WORD, _POINTER, _LENGTH, _POINTER, _LENGTH, _WORD, _POINTER),
    'session_resume': (_WORD, _POINTER, _LENGTH, _POINTER, _LENGTH, _POINTER),
    'session_free': (None, _POINTER),
    'session_frames': (_WORD, _POINTER, ctypes.c_uint8, _WORD),
    'session_seconds': (_WORD, _POINTER, _WORD),
    'session_power': (_WORD, _POINTER),
    'session_restore': (_WORD, _POINTER, _POINTER, _LENGTH),
    'session_save': (_WORD, _POINTER, _POINTER),
    'session_next_call': (None, _POINTER, _POINTER),
    'session_picture': (_WORD, _POINTER, _POINTER, _LENGTH),
    'session_state_length': (_LENGTH, _POINTER),
    'session_state': (_WORD, _POINTER, _POINTER, _LENGTH),
    'session_memory': (None, _POINTER, ctypes.c_uint16, _POINTER, _LENGTH),
    'session_region': (_WORD, _POINTER, _WORD, _POINTER, _LENGTH),
    'session_battery_length': (_LENGTH, _POINTER),
    'session_battery': (_WORD, _POINTER, _POINTER, _LENGTH),
    'session_count': (_LONG, _POINTER),
    'clock_look': (_WORD, _POINTER, _LENGTH, _LONG, _LONG, _LONG, _POINTER),
    'clock_line_of': (_WORD, _POINTER, _LENGTH, _LENGTH, _POINTER),
    'clock_open': (_WORD, _POINTER, _LENGTH, _LONG, _LONG, _LONG, _WORD, _POINTER),
    'clock_text': (_LENGTH, _POINTER, _POINTER),
    'clock_due': (_WORD, _POINTER, _LONG),
    'clock_claim': (_LENGTH, _POINTER, _LONG, _LONG, _POINTER, _POINTER),
    'clock_claimed': (None, _POINTER, _POINTER),
    'clock_give': (_WORD, _POINTER),
    'clock_note': (_LENGTH, _POINTER, _LONG, _POINTER, _POINTER),
    'clock_noted': (None, _POINTER, _POINTER),
    'clock_go_back': (None, _POINTER, _LONG),
}
# the calls of each kind, by their names here
_NAMES = {kind: [name.partition('_')[2] for name in _CALLS if name.startswith(f'{kind}_')] for kind in ('machine', 'session')}
_loaded: dict[str, ctypes.CDLL] = {}


def loaded() -> ctypes.CDLL:
    """The library, loaded once."""
    name = find_library()
    if name not in _loaded:
        try:
            library = ctypes.CDLL(name)
            for call, (result, *arguments) in _CALLS.items():
                function = getattr(library, f'gbkeep_{call}')
                function.restype, function.argtypes = result, arguments
        except (OSError, AttributeError) as error:
            raise Refused(f'the library can\'t be loaded: {error}', '', 'there is none, or it is another one',
                          '`make library` makes one, and the variable GBKEEP_LIBRARY names another one') from None
        _loaded[name] = library
    return _loaded[name]


def _text(code: int) -> tuple[str, str]:
    """The line of a code, and what it means."""
    line, _, means = loaded().gbkeep_fault_text(code).decode('ascii', 'replace').partition(': ')
    return line, means


def _done(code: int) -> None:
    if code != 0:
        line, means = _text(code)
        raise Refused(line, '', means, advice_of(code), code)


class _Pointer:
    """A pointer of C's, which is freed when nobody has it any more: a call that is under way has it, whoever closes the machine meanwhile."""

    def __init__(self, at: int, free: Callable):
        self.at, self._free = at, free

    def __del__(self) -> None:
        self._free(self.at)


class _Held(Played):
    """What C holds for us, until `close`."""

    def __init__(self) -> None:
        self._lib, self._lock = loaded(), threading.RLock()
        self._functions = {name: getattr(self._lib, f'gbkeep_{self._kind}_{name}') for name in _NAMES[self._kind]}
        self._pointer: Optional[_Pointer] = None
        self.kept: set[int] = set()
        self._states: dict[int, ctypes.Array] = {}

    def _call(self, name: str, *arguments: object) -> object:
        with self._lock:
            pointer = self._pointer
            if pointer is None:
                raise ValueError(f'the {self._kind} is closed')
            return self._functions[name](pointer.at, *arguments)

    def _make(self, name: str, *arguments: object) -> None:
        at = ctypes.c_void_p()
        _done(self._functions[name](*arguments, ctypes.byref(at)))
        self._pointer = _Pointer(at.value, self._functions['free'])

    @property
    def closed(self) -> bool:
        """Whether `close` was called."""
        return self._pointer is None

    def close(self) -> None:
        """Frees it. What a session has unsaved is lost."""
        self._pointer = None
        self._states.clear()

    def __exit__(self, kind: Optional[type], error: Optional[BaseException], trace: Optional[TracebackType]) -> None:
        self.close()

    def state_length(self) -> int:
        """How many bytes a state has."""
        return self._call('state_length')

    def _picture(self) -> Picture:
        shades = ctypes.create_string_buffer(PICTURE_LENGTH)
        _done(self._call('picture', shades, PICTURE_LENGTH))
        return Picture(shades.raw)

    def _picture_into(self, room: memoryview) -> None:
        _done(self._call('picture', _for_c(room), PICTURE_LENGTH))

    def _state(self) -> bytes:
        return self._copy(None).raw

    def _restore(self, state: bytes) -> None:
        self._take(state)

    def _keep(self, number: int) -> None:
        self._states[number] = self._copy(self._states.get(number))

    def _back(self, number: int) -> None:
        # there is none any more where another thread closes it meanwhile, and then `_call` says so
        self._take(self._states.get(number, b''))

    def _memory(self, address: int, count: int) -> bytes:
        read = ctypes.create_string_buffer(count)
        self._call('memory', address, read, count)
        return read.raw

    def _memory_into(self, address: int, room: memoryview) -> None:
        self._call('memory', address, _for_c(room), room.nbytes)

    def _copy(self, into: Optional[ctypes.Array]) -> ctypes.Array:
        """The machine as it is, in place of another one: its state, since the library has no call that copies a machine."""
        into = into or ctypes.create_string_buffer(self.state_length())
        _done(self._call('state', into, len(into)))
        return into

    def _take(self, state: object) -> None:
        """From now on the machine of `_copy`, or of a state."""
        code = self._call('restore', state, len(state))
        if code in (DAMAGED_SNAPSHOT, OTHER_CARTRIDGE):
            raise NoState(*_text(code), code=code)
        _done(code)


def _for_c(room: memoryview) -> object:
    """Where C writes into a buffer of Python's, which stays where it is meanwhile."""
    return ctypes.byref(ctypes.c_char.from_buffer(room))


class Machine(_Held):
    """A machine with this ROM, the name of a file or its bytes, at power-on.

    What is kept under a number is a whole state: `keep` and `back` cost what `state` and `restore` do, but for a copy of its bytes."""

    def __init__(self, rom: Cart):
        super().__init__()
        rom = rom_of(rom)
        self._make('new', rom, len(rom))

    def _frames(self, buttons: int, count: int) -> None:
        with self._lock:
            while count > FRAMES_AT_ONCE:
                self._call('frames', buttons, FRAMES_AT_ONCE)
                count -= FRAMES_AT_ONCE
            self._call('frames', buttons, count)

    def _seconds(self, count: int) -> None:
        self._call('seconds', count)

    def _power(self) -> None:
        _done(self._call('power'))


def sectors_needed(rom: Cart) -> int:
    """How many sectors a session of this ROM needs at least."""
    rom, needed = rom_of(rom), ctypes.c_uint32()
    _done(loaded().gbkeep_session_sectors(rom, len(rom), ctypes.byref(needed)))
    return needed.value


class Session(_Held):
    """A game on a disk of yours. `Session(rom)` begins one on a disk of zeros, `Session(rom, battery=file)` begins it with the battery file of another
    emulator, `Session(rom, image)` takes up the one that an image holds. The ROM is the name of a file or its bytes.

    The calls that `calls` hands out have to be made on the disk, in order, from the first on. `count` is how many inputs the game has, `saved` how many of them
    the last save told. Frames, seconds, the power switch and states are refused at 3,200 unsaved inputs; then `count` tells how many frames were taken."""
    _kind = 'session'
    saved: int

    def __init__(self, rom: Cart, image: Optional[Buffer] = None, sectors: Optional[SupportsIndex] = None, battery: Optional[Buffer] = None):
        super().__init__()
        rom = rom_of(rom)
        if image is None:
            sectors = number('sectors', sectors_needed(rom) if sectors is None else sectors, 0, MOST_GIVEN)
            if battery is None:
                self._make('begin', rom, len(rom), sectors)
            else:
                battery = bytes_of(battery)
                self._make('import', rom, len(rom), battery, len(battery), sectors)
        elif battery is not None:
            raise Refused('a game is begun with a battery file, or taken up from an image', '')
        else:
            image = bytes_of(image)
            self._make('resume', rom, len(rom), image, len(image))
        self.saved = self._last = self._call('count')

    @property
    def count(self) -> int:
        """How many inputs the game has; once it is closed, had."""
        with self._lock:
            if not self.closed:
                self._last = self._call('count')
            return self._last

    def close(self) -> None:
        """Frees it. What is unsaved is lost."""
        with self._lock:
            self._last = self.count
            super().close()

    def _frames(self, buttons: int, count: int) -> None:
        self._give('frames', buttons, count)

    def _seconds(self, count: int) -> None:
        self._give('seconds', count)

    def _power(self) -> None:
        self._give('power')

    def _give(self, kind: str, *given: int) -> None:
        _done(self._call(kind, *given))

    def battery(self) -> bytes:
        """The battery file of the game, as other emulators read it. Refused for a cartridge without battery."""
        self._has_to_be_open()
        length = self._call('battery_length')
        file = ctypes.create_string_buffer(max(length, 1))
        _done(self._call('battery', file, length))
        return file.raw[:length]

    def save(self) -> int:
        """Saves what is unsaved: the count of all inputs. It may be told once the calls that are then handed out were made."""
        saved = ctypes.c_uint64()
        _done(self._call('save', ctypes.byref(saved)))
        self.saved = saved.value
        return self.saved

    def calls(self) -> Iterator[Call]:
        """The calls that have to be made and were not handed out yet."""
        self._has_to_be_open()
        return self._calls()

    def _calls(self) -> Iterator[Call]:
        call = _Call()
        while True:
            self._call('next_call', ctypes.byref(call))
            if call.kind == 0:
                return
            yield Call(call.sector, bytes(call.bytes) if call.kind == 1 else None)

    def make_calls(self, file: BinaryIO) -> None:
        """Makes them on a file that was opened without a buffer, for reading and writing."""
        for call in self.calls():
            if call.bytes is None:
                (os.fdatasync if IS_POSIX else os.fsync)(file.fileno())
            else:
                done = 0
                while done < SECTOR:
                    put = written_at(file, call.bytes[done:], call.sector * SECTOR + done)
                    if put == 0:
                        raise Refused('device failed', 'play')
                    done += put


def written_at(file: BinaryIO, data: bytes, at: int) -> int:
    """Writes at a place of a file that has no buffer: how many bytes."""
    if IS_POSIX:
        return os.pwrite(file.fileno(), data, at)
    file.seek(at)
    return file.write(data) or 0


class Line(ctypes.Structure):
    """A line of SAVE.time: a SAVE with `count` inputs or more was given the time until `until`, in seconds since 1970."""
    _fields_ = [('count', _LONG), ('until', _LONG)]


class Found(ctypes.Structure):
    """What is found in a text of SAVE.time where a game is opened: how many `lines`; how far the date is `away` from the time until which the clock was
    given, and so many `seconds`; where SAVE was `played`."""
    _fields_ = [('lines', _LONG), ('away', _LONG), ('seconds', _LONG), ('played', _LONG)]


class _Clock(ctypes.Structure):
    _fields_ = [('until', _LONG), ('opened', _LONG), ('began', _LONG), ('written', Line), ('claimed', Line), ('is_claimed', _LONG)]


# how far away, and where played
NOTHING, BEHIND, FAR_BEHIND, BEFORE, FAR_BEFORE = range(5)
HERE, OLDER, ELSEWHERE = range(3)
MOST_CLOCK_TEXT = 384


def clock_lines(text: bytes) -> list[tuple[int, int]]:
    """The lines of a text of SAVE.time, COUNT and SECONDS each."""
    line, lines = Line(), []
    for before in range(look_at_clock(text, 0, 0, 0).lines):
        _done(loaded().gbkeep_clock_line_of(text, len(text), before, ctypes.byref(line)))
        lines.append((line.count, line.until))
    return lines


def look_at_clock(text: bytes, count: int, between: int, date: int) -> Found:
    """What is to be asked and told where a game with so many inputs is opened at this date, in milliseconds since 1970. Up to `between` inputs come between
    two saves."""
    found = Found()
    _done(loaded().gbkeep_clock_look(text, len(text), count, between, date, ctypes.byref(found)))
    return found


class Clock:
    """The clock of a cartridge, in a game with so many inputs that is opened at this date and this moment, in milliseconds, with this text of SAVE.time.
    `gives` is what the player says of more than 366 days away.

    `claim` and `note` answer what SAVE.time is to have, or nothing; once it has that, durably, `claimed` and `noted` say so."""

    def __init__(self, text: bytes, count: int, date: int, moment: int, gives: Optional[bool] = None):
        self._held, self._line, self._text = _Clock(), Line(), ctypes.create_string_buffer(MOST_CLOCK_TEXT)
        self._clock, self._first = ctypes.byref(self._held), ctypes.byref(self._line)
        self._lib = loaded()
        _done(self._lib.gbkeep_clock_open(text, len(text), count, date, moment, {None: 0, True: 1, False: 2}[gives], self._clock))

    @property
    def until(self) -> int:
        """Until when it was given, in seconds since 1970."""
        return self._held.until

    def text(self) -> bytes:
        """What SAVE.time is to have as the game is opened."""
        return self._text[:self._lib.gbkeep_clock_text(ctypes.byref(self._held.written), self._text)]

    def due(self, moment: int) -> int:
        """How many seconds are due."""
        return self._lib.gbkeep_clock_due(self._clock, moment)

    def claim(self, count: int, moment: int) -> bytes:
        """For the seconds that are due to a game of so many inputs."""
        return self._text[:self._lib.gbkeep_clock_claim(self._clock, count, moment, self._first, self._text)]

    def claimed(self) -> None:
        self._lib.gbkeep_clock_claimed(self._clock, self._first)

    def give(self) -> int:
        """How many seconds the next input gives: those that were claimed."""
        return self._lib.gbkeep_clock_give(self._clock)

    def note(self, saved: int) -> bytes:
        """For so many inputs that are saved, where no second was due."""
        return self._text[:self._lib.gbkeep_clock_note(self._clock, saved, self._first, self._text)]

    def noted(self) -> None:
        self._lib.gbkeep_clock_noted(self._clock, self._first)

    def go_back(self, until: int) -> None:
        """The game goes on with the machine of a state whose clock had been given until then."""
        self._lib.gbkeep_clock_go_back(self._clock, until)
