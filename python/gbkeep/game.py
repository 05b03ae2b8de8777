"""A game that Python plays by `gbkeep stream`, and a machine that it tries out by `gbkeep debug`:

    from gbkeep import A, START, Game

    with Game('examples/demo/demo.gb', 'bin/example.gbkeep') as game:
        game.frames(START, 4)
        game.frames(A, 60)
        picture = game.picture()
        print(picture.shade(80, 72), game.save())

What is given goes to the program at once and in order. `save`, `picture`, `state`, `restore` and `memory` wait for their answer; nothing else does. When
the block ends, also by an exception, what is unsaved is saved. A refusal of the program is raised as `Refused`.

`DebugMachine` is a machine that is tried out, by `gbkeep debug`, with the same calls: nothing of it is saved. `gbkeep.machines` has what these calls have in
common with those of the library.

examples/collect.py is a whole example, and examples/search.py one of a machine."""
import collections
import contextlib
import errno
import os
import re
import select
import shutil
import signal
import subprocess
import tempfile
from collections.abc import Iterator
from dataclasses import dataclass
from pathlib import Path
from types import TracebackType
from typing import TYPE_CHECKING, BinaryIO, NamedTuple, NoReturn, Optional, SupportsIndex

from .input_files import MOST_CART, PathLike, printable
from .machines import NO_STATE, STATE_HEADER, STATE_MARK, Buffer, Cart, MissingProgram, NoState, Played, Refused, bytes_of
from .pictures import HEIGHT, SCALE, WIDTH, pgm_of, png_of
from .streams import take_streams
from .system import IS_POSIX, NO_PROGRAM

if TYPE_CHECKING:
    import numpy

RIGHT, LEFT, UP, DOWN, A, B, SELECT, START = (1 << bit for bit in range(8))
MOST_FRAMES, MOST_SECONDS = 1_000_000, 0xffff_ffff
# what a pipe takes at once when it takes anything
PIECE = 4096
# as much as a program says of itself without a line end: more of it is no program of ours
MOST_UNREAD = 1 << 20
# a state of a cartridge with the most RAM is shorter
MOST_STATE = 1 << 20
MOST_COUNT = (1 << 64) - 1
# 2.3 MiB: ten hours of play with ten changes of buttons a second
RECORDING_SECTORS = 4_800


@dataclass(frozen=True)
class Header:
    """What `gbkeep info` says of a cartridge."""
    title: str
    kind: int
    sectors: int

    def has_clock(self) -> bool:
        return self.kind in (0x0f, 0x10)


class Picture:
    """160 by 144 shades, 0 (darkest) to 3 (lightest), in `shades`, row by row."""

    def __init__(self, shades: bytes):
        self.shades = shades

    @property
    def pgm(self) -> bytes:
        """The picture as `gbkeep frame` writes it."""
        return pgm_of(self.shades)

    def shade(self, x: int, y: int) -> int:
        return self.shades[y * WIDTH + x]

    def png(self, scale: int = SCALE) -> bytes:
        """The picture as PNG, in four greys: what `gbkeep-png` makes of what `gbkeep frame` writes."""
        return png_of(self.shades, WIDTH, HEIGHT, scale)

    def array(self) -> 'numpy.ndarray':
        """The shades as 144 rows of 160, where numpy is installed."""
        import numpy
        return numpy.frombuffer(self.shades, numpy.uint8).reshape(HEIGHT, WIDTH)


class Position(NamedTuple):
    """Where in time a machine is: the M-cycles and the frames that it made since it was taken up, the line, its M-cycle, and the mode as STAT shows it."""
    cycles: int
    frames: int
    line: int
    cycle: int
    mode: int


def prefix() -> Path:
    """What this package lies below: the clone, or the folder that it is installed below."""
    folder = Path(__file__).resolve().parent.parent
    # CLONE/python, PREFIX/share/gbkeep, and PREFIX/lib/python3/dist-packages
    return folder.parents[{'python': 0, 'gbkeep': 1}.get(folder.name, 2)]


def find_program() -> str:
    """What the variable GBKEEP names; else `bin/gbkeep` of the clone, or of what is installed with this; else the first on the search path."""
    beside = prefix() / 'bin/gbkeep'
    return os.environ.get('GBKEEP') or (str(beside) if beside.exists() else shutil.which('gbkeep') or str(beside))


@contextlib.contextmanager
def starting(program: PathLike) -> Iterator[None]:
    """Turns what the system says of a program that can't be run into a refusal."""
    if not IS_POSIX:
        raise MissingProgram(program, NO_PROGRAM)
    if os.path.dirname(program) == '' and not shutil.which(program):
        raise MissingProgram(program, 'not found')
    if os.path.dirname(program) and (os.path.isdir(program) or not os.access(program, os.X_OK)):
        raise MissingProgram(program, 'it may not be run' if os.path.exists(program) else 'no such program')
    try:
        yield
    except OSError as error:
        if error.errno == errno.ENOMEM:
            raise MemoryError from None
        raise MissingProgram(program, error.strerror) from None
    except ValueError as error:
        raise Refused(f'a word is no name: {error}', '') from None


class Process(subprocess.Popen):
    """A process that does not go on where its start is broken off, as by a signal: its program may run by then."""

    def __init__(self, words: list[str], **how: object):
        try:
            super().__init__(words, **how)
        except BaseException:
            if getattr(self, 'pid', None) is not None:
                stop(self)
            raise


def stop(process: subprocess.Popen) -> None:
    """Ends a process, which has a second to make a file whole that it has begun."""
    with contextlib.suppress(subprocess.TimeoutExpired):
        process.wait(1)
    process.kill()
    process.wait()


def started(words: list[str], **how: object) -> Process:
    """A process, of a program that can be run."""
    # no pipe to it is a stream that something else writes to
    take_streams()
    with starting(words[0]):
        return Process(words, **how)


def run(program: str, command: str, *words: str, **how: object) -> str:
    """Runs a command to its end, and answers what it printed."""
    process = started([program, command, '--', *words], stdin=subprocess.DEVNULL, stdout=subprocess.PIPE, stderr=subprocess.PIPE, text=True, errors='replace',
                      **how)
    with ended(process):
        out, err = process.communicate()
    if process.returncode != 0:
        raise Refused(line_of(err, process.returncode), command)
    return out


@contextlib.contextmanager
def ended(process: subprocess.Popen) -> Iterator[None]:
    """Ends the process where the block is left by an exception."""
    try:
        yield
    except BaseException:
        stop(process)
        raise


def ignore_signals() -> None:
    for one in (signal.SIGINT, signal.SIGTERM, signal.SIGHUP):
        signal.signal(one, signal.SIG_IGN)


def line_of(err: str, status: int) -> str:
    """The line that a program refuses with."""
    lines = [line for line in err.splitlines() if line.strip() and not line.startswith('gbkeep: warning: ')]
    return lines[0] if lines else f'the program ended with status {status}'


@contextlib.contextmanager
def named(cart: Cart) -> Iterator[tuple[str, tuple[int, ...]]]:
    """A name of a cartridge for a program, and the descriptors that the program needs for it. Bytes have one until the block ends: of memory that has no other
    name and that is gone with the processes which have it open, or, where the system has none, of a file that nobody else can read."""
    if isinstance(cart, (str, os.PathLike)):
        yield os.fsdecode(cart), ()
        return
    # what is longer is refused as this is
    rom = memoryview(bytes_of(cart))[:MOST_CART + 1]
    with in_memory() or tempfile.NamedTemporaryFile(prefix='gbkeep-', suffix='.gb', buffering=0) as file:
        while rom:
            rom = rom[file.write(rom):]
        yield (file.name, ()) if isinstance(file.name, str) else (f'/proc/self/fd/{file.name}', (file.name,))


def in_memory() -> Optional[BinaryIO]:
    """A file in memory, which a program that is given its descriptor can open by its name; None where the system has none."""
    take_streams()
    try:
        file = os.fdopen(os.memfd_create('gbkeep'), 'r+b', 0)
    except (AttributeError, OSError):
        return None
    if os.path.exists(f'/proc/self/fd/{file.fileno()}'):
        return file
    file.close()
    return None


def shown_name(cart: Cart) -> str:
    """What a refusal calls a cartridge."""
    return printable(cart) if isinstance(cart, (str, os.PathLike)) else 'the cartridge'


def header_of(cart: Cart, program: Optional[PathLike] = None) -> Header:
    """What the header of a cartridge says."""
    with named(cart) as (name, descriptors):
        said = run(str(program or find_program()), 'info', name, pass_fds=descriptors)
    fields = dict(line.split(' ', 1) for line in said.splitlines() if ' ' in line)
    try:
        return Header(fields['title'][1:-1].strip(), int(fields['type'].split()[0], 16), int(fields['sectors']))
    except (KeyError, IndexError, ValueError):
        raise Refused(f'{shown_name(cart)} has no header that a game can be begun with', 'info') from None


@contextlib.contextmanager
def free_name(path: PathLike) -> Iterator[None]:
    """Says of a new file that is refused whether its name is taken."""
    try:
        yield
    except Refused as refused:
        if refused.line == 'gbkeep: device failed' and os.path.lexists(path):
            refused.means, refused.advice = f'{printable(path)} exists already', 'take a name that is free'
        raise


def begin(cart: Cart, save: PathLike, program: Optional[PathLike] = None) -> None:
    """Begins a game in a new file, of as many sectors as it needs."""
    with free_name(save), named(cart) as (name, descriptors):
        run(str(program or find_program()), 'new', name, str(save), pass_fds=descriptors)


def begin_recording(cart: Cart, recording: PathLike, sectors: int = RECORDING_SECTORS, program: Optional[PathLike] = None) -> None:
    """Makes an empty recording in a new file."""
    with free_name(recording), named(cart) as (name, descriptors):
        run(str(program or find_program()), 'new-recording', name, str(recording), str(sectors), pass_fds=descriptors)


class Lines(Played):
    """A program that is given lines, and plays frames by them. Its machine's states can be taken, given back and kept under numbers."""
    command: str
    process: subprocess.Popen
    input: int
    output: int
    # what came and is not taken yet; the answers that are known and did not come yet are in `known`
    unread: bytearray
    # what the states of this cartridge begin with, and how many bytes they have, once one was told
    own: Optional[tuple[bytes, int]]

    def _start(self, words: list[str], **how: object) -> None:
        self.command = words[1]
        self.process = started(words, stdin=subprocess.PIPE, stdout=subprocess.PIPE, stderr=subprocess.PIPE, bufsize=0, **how)
        self.input, self.output = self.process.stdin.fileno(), self.process.stdout.fileno()
        self.unread, self.kept, self.own = bytearray(), set(), None

    @property
    def closed(self) -> bool:
        """Whether `close` was called, or the program has ended."""
        return self.process.stdin.closed

    def _frames(self, buttons: int, count: int) -> None:
        while count > 0:
            times = min(count, MOST_FRAMES)
            self._play(b'frames %02x %d\n' % (buttons, times), times)
            count -= times

    def _seconds(self, count: int) -> None:
        self._play(b'seconds %d\n' % count, 1)

    def _power(self) -> None:
        self._play(b'power\n', 1)

    def _keep(self, number: int) -> None:
        self._ask(b'keep %d\n' % number, b'kept %d\n' % number)

    def _back(self, number: int) -> None:
        self._ask(b'back %d\n' % number, b'back %d\n' % number)

    def _state(self) -> bytes:
        self._ask(b'state\n')
        return self._counted(b'state')

    def _restore(self, state: bytes) -> None:
        self._look_at(state)
        self._ask(b'restore %d\n' % len(state) + state)
        if self._line() != b'restored':
            raise NoState

    def _look_at(self, state: bytes) -> None:
        """Refuses bytes whose header or length is not that of a state of this cartridge."""
        if self.own is None:
            one = self._state()
            self.own = one[:STATE_HEADER], len(one)
        header, length = self.own
        if len(state) < STATE_HEADER or not state.startswith(STATE_MARK):
            raise NoState
        if not state.startswith(header):
            raise NoState('gbkeep: other cartridge', 'it is a state of another ROM')
        if len(state) != length:
            raise NoState

    def _memory(self, address: int, count: int) -> bytes:
        self._ask(b'bytes %04X %d\n' % (address, count))
        return self._counted(b'bytes', count)

    def _picture(self) -> Picture:
        self._ask(b'shades\n')
        return Picture(self._counted(b'shades', WIDTH * HEIGHT))

    def _play(self, line: bytes, inputs: int) -> None:
        """Gives a line that is so many inputs."""
        raise NotImplementedError

    def _ask(self, line: bytes, answer: bytes = b'') -> None:
        """Gives a line, whose answer is known or is to be taken."""
        raise NotImplementedError

    def _give(self, left: Buffer) -> None:
        """Gives lines, and takes the answers that come meanwhile: else each side might wait for the other to read."""
        left = memoryview(left)
        while left:
            readable, writable, _ = select.select([self.output], [self.input], [])
            if readable:
                self._take()
            if writable:
                try:
                    left = left[os.write(self.input, left[:self.piece]):]
                except BlockingIOError:
                    pass
                except BrokenPipeError:
                    self._end()

    def _take(self) -> None:
        """Waits for some of the answers, and takes those that are known."""
        raise NotImplementedError

    def _read(self) -> bool:
        """Waits for some of the answers. False: the program has closed its output."""
        some = os.read(self.output, 1 << 18)
        self.unread += some
        return bool(some)

    def _line(self) -> bytes:
        """The next line of an answer."""
        while (end := self.unread.find(b'\n')) < 0:
            if len(self.unread) > MOST_UNREAD:
                self._answers_wrongly()
            if not self._read():
                self._end()
        line = bytes(self.unread[:end])
        del self.unread[:end + 1]
        return line

    def _bytes(self, count: int) -> bytes:
        while len(self.unread) < count:
            if not self._read():
                self._end()
        data = bytes(self.unread[:count])
        del self.unread[:count]
        return data

    def _counted(self, word: bytes, wanted: int = 0) -> bytes:
        """The bytes of an answer that begins with how many they are: as many as are wanted, where that is known."""
        count = self._number(self._line(), word, wanted or MOST_STATE)
        if wanted and count != wanted:
            self._answers_wrongly()
        return self._bytes(count)

    def _number(self, line: bytes, word: bytes, most: int) -> int:
        """The number behind the word that a line has to begin with."""
        first, _, count = line.partition(b' ')
        if first != word or not count.isdigit() or len(count) > 20 or int(count) > most:
            self._answers_wrongly()
        return int(count)

    def _answers_wrongly(self) -> NoReturn:
        self._stop()
        raise Refused('the program answers what no gbkeep answers', self.command)

    def _stop(self) -> None:
        """Ends the program, whatever it does."""
        self.process.kill()
        for pipe in (self.process.stdin, self.process.stdout, self.process.stderr):
            pipe.close()
        self.process.wait()

    def _end(self, of_itself: bool = True) -> None:
        """Waits for the program's end. A program that ends of itself has refused."""
        if not self.process.stdin.closed:
            self.process.stdin.close()
        line = self.process.stderr.read().decode(errors='replace')
        status = self.process.wait()
        self.process.stdout.close()
        self.process.stderr.close()
        if of_itself or status != 0:
            raise Refused(line_of(line, status), self.command)


class Game(Lines):
    """The game in SAVE, which is begun where there is none. `count` is how many inputs it has been given, `saved` how many of them are saved. The cartridge is
    the name of its file, or what is in it.

    `state` is a copy of the machine, which another `Game` or `DebugMachine` of the same cartridge takes; it is no SAVE. `keep` is for as long as this `Game` is
    open. With a RECORDING every input is recorded there before it is saved. It is made where neither it nor SAVE is there; a SAVE without its
    recording is refused, and `power`, `restore`, `keep` and `back` are, too: a recording has frames and seconds."""
    _kind = 'game'
    count: int
    saved: int
    resumed: int
    piece = PIECE

    def __init__(self, cart: Cart, save: PathLike, program: Optional[PathLike] = None, recording: Optional[PathLike] = None):
        program = str(program or find_program())
        if recording and os.path.lexists(save) and not os.path.lexists(recording):
            raise Refused(f'{printable(recording)} is not there', 'record', 'the game in SAVE has no recording of this name',
                          'name the one that belongs to it; a recording is begun along with a new game')
        if not os.path.lexists(save):
            if recording and not os.path.lexists(recording):
                begin_recording(cart, recording, program=program)
            begin(cart, save, program)
        # the answers that are known
        self.known = collections.deque()
        with named(cart) as (name, descriptors):
            words = ['record', '--', name, str(save), str(recording)] if recording else ['stream', '--', name, str(save)]
            # a Ctrl-C or the end of a login is for the caller: the program goes on, and saves what is unsaved when it is closed
            self._start([program, *words], preexec_fn=ignore_signals, pass_fds=descriptors)
            # nobody closes a game that is not yet there
            with ended(self.process):
                self.resumed = self._number(super()._line(), b'resumed', MOST_COUNT)
        self.count = self.saved = self.resumed

    def _play(self, line: bytes, inputs: int) -> None:
        self._give(line)
        self.count += inputs

    def _ask(self, line: bytes, answer: bytes = b'') -> None:
        if answer:
            self.known.append(answer)
        self._give(line)

    def back(self, number: SupportsIndex) -> None:
        """From now on the machine that was kept last under a number: one input. A recorded game has kept none, and refuses it as such."""
        self._has_to_be_open()
        self._changes()
        super().back(number)

    def restore(self, state: Buffer) -> None:
        """From now on the machine of this state: one input. A state of another ROM, and bytes of another length or kind, are refused with `NoState`, with
        nothing done; others that are no state of this cartridge are refused so, too, and end the game, and what was given before is saved."""
        super().restore(state)

    def _power(self) -> None:
        self._changes()
        super()._power()

    def _keep(self, number: int) -> None:
        self._changes()
        super()._keep(number)

    def _back(self, number: int) -> None:
        super()._back(number)
        self.count += 1

    def _restore(self, state: bytes) -> None:
        self._changes()
        try:
            super()._restore(state)
        except Refused as refused:
            if refused.line == 'gbkeep: damaged snapshot':
                raise NoState(refused.line, NO_STATE, advice='open the game again: what was given before is saved') from None
            raise
        self.count += 1

    def _changes(self) -> None:
        """Refuses what a recorded game can't do."""
        if self.command == 'record':
            raise Refused('a recorded game takes frames and seconds alone', self.command, 'its recording has nothing else',
                          'play it on, or make a game of its own by `gbkeep-branch`')

    def save(self) -> int:
        """Saves what is unsaved, and answers the count of inputs: no power cut can lose them from then on."""
        self._has_to_be_open()
        self._give(b'save\n')
        self._sort()
        while self.saved < self.count:
            self._take()
        return self.saved

    def close(self) -> None:
        """Saves what is unsaved and ends the program; the count of inputs that are saved is in `saved`."""
        if self.closed:
            return
        self.process.stdin.close()
        while self._read():
            self._sort()
        self._end(of_itself=False)

    def __exit__(self, kind: Optional[type], error: Optional[BaseException], trace: Optional[TracebackType]) -> None:
        try:
            self.close()
        except Refused:
            if kind is None:
                raise

    def _take(self) -> None:
        if not self._read():
            self._end()
        self._sort()

    def _sort(self) -> None:
        """Takes the lines of saves, and the answers that are known, from what came."""
        while (end := self.unread.find(b'\n') + 1) > 0:
            line = bytes(self.unread[:end])
            if not self._is_taken(line):
                self._answers_wrongly()
            del self.unread[:end]
        if len(self.unread) > MOST_UNREAD:
            self._answers_wrongly()

    def _is_taken(self, line: bytes) -> bool:
        """Takes a line of a save, which may come before each answer, or the next answer that is known."""
        if line.startswith(b'saved '):
            self.saved = self._number(line[:-1], b'saved', MOST_COUNT)
            return True
        if self.known and line == self.known[0]:
            self.known.popleft()
            return True
        return False

    def _line(self) -> bytes:
        """The next line of an answer, behind what comes before it."""
        while self._is_taken((line := super()._line()) + b'\n'):
            pass
        if self.known:
            self._answers_wrongly()
        return line


class DebugMachine(Lines):
    """A machine to try things out with, from power-on or, with a SAVE, from its game: nothing that is done here is saved. The cartridge is the name of its
    file, or what is in it.

    What is given goes to the program in order, many lines at once, and what it answers is compared; so a refusal may be raised by a later call. `state`,
    `restore`, `memory`, `picture` and `settle` wait until all is done. `keep` and `back` are the fastest way to try much from one place. A state is bytes: it
    can be given to another `DebugMachine` of the same cartridge, in another process or on another computer. `resumed` is how many inputs the game in SAVE has."""
    resumed: Optional[int] = None
    # a state goes in a few pieces
    piece = 1 << 20

    def __init__(self, cart: Cart, save: Optional[PathLike] = None, program: Optional[PathLike] = None):
        # the lines that are not given yet, and the answers that are known
        self.lines, self.known = bytearray(), bytearray()
        with named(cart) as (name, descriptors):
            words = ['debug', '--', name] + ([str(save)] if save else [])
            self._start([str(program or find_program()), *words], pass_fds=descriptors)
            # a write takes what there is room for, so that no write waits for a program that waits to be read
            os.set_blocking(self.input, False)
            with ended(self.process):
                if save:
                    self.resumed = self._number(self._line(), b'resumed', MOST_COUNT)
                else:
                    # what it answers says that it has taken the cartridge
                    self._memory(0, 1)

    def position(self) -> Position:
        """Where in time the machine is. `back`, `restore` and `power` lead elsewhere, but take no time."""
        self._has_to_be_open()
        self._ask(b'position\n')
        found = re.fullmatch(rb'position (\d{1,20}) (\d{1,20}) (\d{1,3}) (\d{1,3}) ([0-3])', self._line())
        if not found:
            self._answers_wrongly()
        return Position(*map(int, found.groups()))

    def settle(self) -> None:
        """Waits until all that was given is done."""
        self._has_to_be_open()
        self._give(bytes(self.lines))
        self.lines.clear()
        while self.known:
            self._take()

    def close(self) -> None:
        """Ends the program."""
        if not self.closed:
            with ended(self.process):
                self.settle()
            self.process.stdin.close()
            self._end(of_itself=False)

    def __exit__(self, kind: Optional[type], error: Optional[BaseException], trace: Optional[TracebackType]) -> None:
        if kind is None:
            self.close()
        else:
            self._stop()

    def _play(self, line: bytes, inputs: int) -> None:
        self._ask(line, b'done\n')

    def _ask(self, line: bytes, answer: bytes = b'') -> None:
        self.lines += line
        self.known += answer
        if not answer:
            # what is known has to be out of the way of an answer that is not
            self.settle()
        elif len(self.lines) >= PIECE:
            self._give(bytes(self.lines))
            self.lines.clear()

    def _take(self) -> None:
        """Waits for some of the answers, and compares those that are known."""
        if not self._read():
            self._end()
        size = min(len(self.unread), len(self.known))
        if self.unread[:size] != self.known[:size]:
            self._answers_wrongly()
        del self.unread[:size], self.known[:size]
