"""Runs test ROMs on all processors, and says of each whether it is as wanted.

usage: gbkeep-run-tests [--frames N] [-j N] [--filter TEXT] [--shard I/N] [--out DIR] [--junit FILE] [--json FILE] [--slowest] [--bless] [--gbkeep PROGRAM] WHAT..

WHAT is a ROM, a folder with ROMs at any depth (*.gb, *.gbc), or a list (*.txt) with a line a ROM, `#` for comments:

    cpu.gb                              passes by the rule of its suite, within N frames (3,600 if not said)
    cpu.gb frames=600 script=start.script
    fails.gb wants=fail                 also: pass (as if nothing is said), undecided, ended (anything but undecided)
    counts.gb frames=60 wants=memory:C000=01,C001=2A
    sprites.gb frames=120 picture=sprites.png

The rule of the suites is that of `gbkeep test`: registers at `LD B,B`, a word over the serial port, or a result in the memory. A picture is one that
`gbkeep frame` writes (PGM), or a PNG of 160 by 144 pixels or a multiple, whose greys count: the game is played for so many frames from power-on and
then compared. So are bytes of the memory, by address and value in hexadecimal digits. In a folder, NAME.script and NAME.pgm or NAME.png beside NAME.gb
are taken as script and picture. --bless stores the pictures as they are now: as PNG where the name ends in .png. A report and a picture take the place
of a report and a picture alone: any other file at their names is left, and said.

A ROM that fails is told with why it ended, after how many frames, its registers, and the end of what it sent over the serial port: in one line, or on a
terminal in several. With --out a picture that differs leaves ROM-NUMBER.actual.png and ROM-NUMBER.difference.png in DIR, where red is what differs; NUMBER
is the place of the ROM among all that are wanted. On a terminal a line tells how far the run is, and the five slowest ROMs stand at the end. --shard 2/8
takes every eighth ROM from the second on.

The status is 0 if all are as wanted, and 1 if not, or if a folder or a list has no ROM."""
import argparse
import contextlib
import fnmatch
import heapq
import json
import os
import re
import selectors
import shutil
import subprocess
import sys
import tempfile
import time
from collections import deque
from collections.abc import Callable, Iterable, Iterator
from concurrent.futures import Future, ThreadPoolExecutor, wait
from dataclasses import dataclass, replace
from pathlib import Path
from typing import IO, NoReturn, Optional

from .game import Game, Refused, ended, find_program, line_of, started
from .input_files import MOST_LINE, PathLike, WrongInput, number, printable, read_bytes, read_text, reason
from .new_files import Unsafe, check_target, new_file
from .pictures import HEIGHT, PICTURE_HEADS, PNG_HEADS, WIDTH, pgm_of, png_of, shades_of
from .script import friendly_moves
from .tools import Failed, Words, count_word, name_of_tool, run_tool

FRAMES, MOST_FRAMES = 3_600, 1_000_000
MOST_JOBS, MOST_CASES = 256, 100_000
MOST_LIST, MOST_PICTURE = 1 << 22, 1 << 24
# as many bytes of the memory may be wanted of a ROM
MOST_BYTES = 64
# what reports begin with
REPORT_HEAD, JSON_HEAD = b'<testsuite', b'{"gbkeep_tests"'
WANTED = {'pass': ('passed',), 'fail': ('failed',), 'undecided': ('undecided',), 'ended': ('passed', 'failed')}
ROM_SUFFIXES = ('.gb', '.gbc')
# how long a ROM may take; the program itself always ends
SECONDS = 600
# of what a ROM sends the end is kept: as many bytes for a report, as many characters for the line of a ROM, as many lines for a terminal
MOST_SENT, MOST_SENT_SHOWN, MOST_SENT_LINES = 4_096, 600, 20
# of what `test` and `debug` print
MOST_PRINTED, MOST_PRINTED_BY_GAME = MOST_SENT + 512, (1 << 16) + 512
# as many ROMs are begun at least before the first one is told, so that a slow one holds up few
WINDOW = 256
SLOWEST, PROGRESS_SECONDS = 5, 0.5
# the greys of a picture of differences, and the red of what differs
PALETTE = bytes((160, 160, 160, 190, 190, 190, 220, 220, 220, 250, 250, 250, 220, 0, 0))
END_OF_TEST = re.compile(rb'(?:\A|\n)(A=[0-9A-F]{2} [ -~]{1,100})\nframes ([0-9]{1,7})\nended ([a-z]{1,20})\n\Z')
# where a test leaves its text, up to a byte 0, whose result stands in the memory
TEXT, MOST_TEXT = 0xa004, 0x1ffc
END_OF_GAME = re.compile(rb'\n(A=[0-9A-F]{2} [ -~]{1,100})\n\Z')


class WrongList(Failed):
    """A list is wrong: where, and why."""


@dataclass(slots=True)
class Case:
    """A ROM, and what is wanted of it. `number` is its place among all that are wanted, from 1."""
    rom: Path
    frames: int = FRAMES
    script: Optional[Path] = None
    picture: Optional[Path] = None
    wants: str = 'pass'
    # bytes that are wanted in the memory, by their addresses
    memory: tuple[tuple[int, int], ...] = ()
    number: int = 0


@dataclass(slots=True)
class Told:
    """What a ROM has told when it ended. `sent` is the end of its serial text, as it may be shown."""
    ended: str
    frames: int
    registers: str
    sent: str


@dataclass(slots=True)
class Outcome:
    case: Case
    is_wanted: bool
    text: str
    seconds: float = 0
    told: Optional[Told] = None
    # the pictures that are left
    left: tuple[Path, ...] = ()


class Kept:
    """The files that are read: none of them is written over."""

    def __init__(self, paths: Iterable[PathLike]):
        self.paths = {}
        for path in paths:
            with contextlib.suppress(OSError, ValueError):
                held = os.stat(path)
                self.paths.setdefault((held.st_dev, held.st_ino), path)

    def same_as(self, target: PathLike) -> list[PathLike]:
        """The one of them that is `target` by any name."""
        try:
            held = os.stat(target)
        except (OSError, ValueError):
            return []
        same = self.paths.get((held.st_dev, held.st_ino))
        return [] if same is None else [same]


# ---- what is run

def beside(rom: Path, *suffixes: str) -> Optional[Path]:
    return next((path for path in (rom.with_suffix(suffix) for suffix in suffixes) if path.exists()), None)


def cases_of(what: str, frames: int) -> Iterator[Case]:
    path = Path(what)
    if path.is_dir():
        for rom in map(Path, roms_below(path)):
            yield Case(rom, frames, beside(rom, '.script'), beside(rom, '.pgm', '.png'))
    elif is_list(path):
        for place, line in enumerate(read_text(path, MOST_LIST).splitlines(), 1):
            yield from case_of(path, place, line.partition('#')[0].split(), frames)
    else:
        yield Case(path, frames)


def roms_below(folder: Path) -> list[str]:
    """The ROMs of a folder at any depth. A link to a folder is not followed."""
    found, folders = [], [str(folder)]
    while folders:
        with os.scandir(folders.pop()) as entries:
            for entry in entries:
                if entry.is_dir(follow_symlinks=False):
                    folders.append(entry.path)
                elif os.path.splitext(entry.name)[1].lower() in ROM_SUFFIXES:
                    found.append(entry.path)
        check_count(len(found))
    return sorted(found, key=lambda path: path.split(os.sep))


def check_count(count: int) -> None:
    if count > MOST_CASES:
        raise WrongList(f'there are more than {MOST_CASES:,} ROMs')


def cases_asked(asked: argparse.Namespace) -> tuple[list[Case], int]:
    """The cases of this shard, and how many all shards have."""
    cases, found, count = [], 0, 0
    mine, shards = asked.shard
    for what in asked.what:
        before = found
        for case in cases_of(what, asked.frames):
            found += 1
            check_count(found)
            if asked.filter is not None and not fnmatch.fnmatchcase(str(case.rom), f'*{asked.filter}*'):
                continue
            count += 1
            if count % shards == mine % shards:
                case.number = count
                cases.append(case)
        if found == before:
            raise WrongList(f"{printable(what)}: there is no ROM in this {'folder' if os.path.isdir(what) else 'list'}")
    if count == 0:
        raise WrongList(f"none of {found:,} ROMs has '{printable(asked.filter)}' in its name")
    return cases, count


def is_list(path: Path) -> bool:
    return path.suffix == '.txt'


def case_of(path: Path, line: int, words: list[str], frames: int) -> list[Case]:
    if not words:
        return []
    place = f'{printable(path)}, line {line}'
    case = Case(path.parent / words[0], frames)
    for word in words[1:]:
        name, equals, value = word.partition('=')
        if name == 'frames' and value:
            try:
                case.frames = number(value, 0, MOST_FRAMES, 'frames')
            except WrongInput as error:
                raise WrongList(f'{place}: {error}') from None
        elif name in ('script', 'picture') and value:
            setattr(case, name, path.parent / value)
        elif name == 'wants' and value in WANTED:
            case.wants, case.memory = value, ()
        elif name == 'wants' and value.startswith('memory:'):
            case.memory = bytes_wanted(value.removeprefix('memory:'), f"{place}: '{printable(word)}' is not understood")
        else:
            raise WrongList(f"{place}: '{printable(word)}' is not understood")
    if case.memory and case.picture:
        raise WrongList(f'{place}: a ROM has a picture or bytes of the memory')
    if case.frames == 0 and not case.picture and not case.memory:
        raise WrongList(f'{place}: a ROM that is tested takes 1 frame at least')
    return [case]


def bytes_wanted(text: str, wrong: str) -> tuple[tuple[int, int], ...]:
    """Addresses and values, as C000=01,C001=2A."""
    pairs = text.split(',')
    if len(pairs) > MOST_BYTES:
        raise WrongList(f'{wrong}: it has more than {MOST_BYTES} bytes')
    found = []
    for pair in pairs:
        parts = re.fullmatch('([0-9a-fA-F]{1,4})=([0-9a-fA-F]{2})', pair)
        if not parts:
            raise WrongList(f'{wrong}: it takes bytes such as wants=memory:C000=01,C001=2A')
        found.append((int(parts[1], 16), int(parts[2], 16)))
    return tuple(found)


def files_of(cases: list[Case], words: list[str]) -> list[Path]:
    """What is read of these cases, and the lists."""
    named = [path for case in cases for path in (case.rom, case.script) if path]
    return [*named, *(Path(word) for word in words if not Path(word).is_dir())]


# ---- pictures

def shades_in(path: Path) -> bytes:
    data = read_bytes(path, MOST_PICTURE)
    try:
        return shades_of(data)
    except ValueError as error:
        raise Failed(f'{printable(path)}: {error}') from None


def difference_of(actual: bytes, wanted: bytes) -> bytes:
    """A PNG of the wanted picture in light greys, where each pixel that differs is red."""
    return png_of(bytes(one if one == other else 4 for one, other in zip(wanted, actual)), palette=PALETTE)


def moves_of(case: Case) -> Iterator[tuple]:
    """The moves of the script, as many frames as the case has, and then frames without buttons."""
    done = 0
    for move in friendly_moves(case.script) if case.script else []:
        if move[0] == 'frames':
            times = min(move[2], case.frames - done)
            done += times
            if times:
                yield 'frames', move[1], times
        elif move[0] in ('seconds', 'power'):
            yield move
    if case.frames > done:
        yield 'frames', 0, case.frames - done


def played(case: Case, program: str) -> bytes:
    """The shades of the picture after the moves."""
    with tempfile.TemporaryDirectory(prefix='tested-') as room, Game(case.rom, Path(room) / 'tested.gbkeep', program) as game, RUNNING.during(game.process):
        for move in moves_of(case):
            if move[0] == 'frames':
                game.frames(*move[1:])
            elif move[0] == 'power':
                game.power()
            else:
                game.seconds(move[1])
        return game.picture().shades


def looked_inside(case: Case, program: str, *more: str) -> 'tuple[Tail, Tail, int]':
    """What `gbkeep debug` answers to the moves and to these lines."""
    with tempfile.TemporaryFile('w+') as lines:
        for move in moves_of(case):
            lines.write(f'frames {move[1]:02x} {move[2]}\n' if move[0] == 'frames' else ' '.join(str(word) for word in move) + '\n')
        lines.write(''.join(f'{one}\n' for one in more))
        lines.seek(0)
        return ran([program, 'debug', '--', str(case.rom)], lines, MOST_PRINTED_BY_GAME)


def told_by_game(case: Case, program: str) -> Optional[Told]:
    """What a ROM has told after the moves, if the program says it."""
    try:
        printed, _, _ = looked_inside(case, program, 'serial', 'registers')
    except (OSError, Refused, subprocess.TimeoutExpired):
        return None
    return told_in(case, printed.data, printed.left_out)


def told_in(case: Case, data: bytes, left_out: int) -> Optional[Told]:
    found = END_OF_GAME.search(data)
    if not found:
        return None
    return Told('frames', case.frames, found[1].decode(), sent_text(*sent_by_game(data[:found.start()], left_out)))


def remembered(case: Case, program: str) -> Outcome:
    """Compares bytes of the memory after the moves."""
    out, err, status = looked_inside(case, program, 'serial', 'registers', *(f'memory {address:04X} 1' for address, _ in case.memory))
    # the answers to the last lines: an address and a byte each
    size = len('C000 00\n') * len(case.memory)
    lines = re.findall('([0-9A-F]{4}) ([0-9A-F]{2})\n', out.data[-size:].decode(errors='replace'))
    found = [(int(address, 16), int(value, 16)) for address, value in lines]
    if status != 0 or [address for address, _ in found] != [address for address, _ in case.memory]:
        return Outcome(case, False, f'not run: {line_of(err.data.decode(errors="replace"), status)}')
    wrong = [f'{address:04X} has {value:02X}, and {wanted:02X} wanted' for (address, value), (_, wanted) in zip(found, case.memory) if value != wanted]
    return Outcome(case, not wrong, ', '.join(wrong) or 'memory as wanted', told=told_in(case, out.data[:-size], out.left_out))


def text_in_memory(case: Case, frames: int, program: str) -> str:
    """The text that a test has left in the memory, after so many frames. Empty: the program says none."""
    try:
        out, _, _ = looked_inside(replace(case, frames=frames), program, f'memory {TEXT:04X} {MOST_TEXT}')
    except (OSError, Refused, subprocess.TimeoutExpired):
        return ''
    lines = re.findall(b'(?:^|\n)[AB][0-9A-F]{3}((?: [0-9A-F]{2}){1,16})(?=\n)', out.data)
    return sent_text(bytes.fromhex(b''.join(lines).decode()).partition(b'\0')[0], 0)


def sent_by_game(data: bytes, left_out: int) -> tuple[bytes, int]:
    """The bytes that the answer to `serial` ends with, and how many are left out before them."""
    for head in re.finditer(rb'(?:\A|\n)serial ([0-9]{1,5})\n', data):
        if len(data) - head.end() == int(head[1]):
            # `test` leaves out whether its last byte was a newline
            return data[head.end():].removesuffix(b'\n'), 0
    return data, left_out


# ---- one ROM

class Running:
    """The programs that run now, for whoever has to end them."""

    def __init__(self):
        self.processes, self.is_ended = set(), False

    @contextlib.contextmanager
    def during(self, process: subprocess.Popen) -> Iterator[None]:
        self.processes.add(process)
        if self.is_ended:
            process.kill()
        try:
            yield
        finally:
            self.processes.discard(process)

    def end(self) -> None:
        self.is_ended = True
        for process in list(self.processes):
            process.kill()


RUNNING = Running()


class Tail:
    """The end of what a program prints, and how many bytes are left out before it."""

    def __init__(self, most: int):
        self.most, self.data, self.left_out = most, b'', 0

    def add(self, data: bytes) -> None:
        self.data += data
        over = len(self.data) - self.most
        if over > 0:
            self.data, self.left_out = self.data[over:], self.left_out + over


def ran(words: list[str], typed: object = subprocess.DEVNULL, most: int = MOST_PRINTED) -> tuple[Tail, Tail, int]:
    """Runs a program to its end: what it printed, its errors, and its status."""
    process, until = started(words, stdin=typed, stdout=subprocess.PIPE, stderr=subprocess.PIPE, bufsize=0), time.monotonic() + SECONDS
    tails = {process.stdout: Tail(most), process.stderr: Tail(most)}
    # poll takes no descriptor of its own
    with process, RUNNING.during(process), ended(process), selectors.PollSelector() as selector:
        for stream in tails:
            selector.register(stream, selectors.EVENT_READ)
        while selector.get_map():
            left = until - time.monotonic()
            if left <= 0:
                raise subprocess.TimeoutExpired(words, SECONDS)
            for key, _ in selector.select(left):
                data = os.read(key.fd, 1 << 16)
                if data:
                    tails[key.fileobj].add(data)
                else:
                    selector.unregister(key.fileobj)
        process.wait(timeout=max(1, until - time.monotonic()))
    return tails[process.stdout], tails[process.stderr], process.returncode


def sent_text(data: bytes, left_out: int) -> str:
    """A serial text as it may be shown in lines: its last bytes, and how many are left out."""
    left_out += max(0, len(data) - MOST_SENT)
    lines = data[-MOST_SENT:].decode(errors='surrogateescape').split('\n')
    text = '\n'.join(printable(line, 4 * MOST_SENT) for line in lines)
    return f'({left_out:,} bytes before this are left out)\n{text}' if left_out else text


@dataclass(slots=True)
class How:
    """How the cases are run."""
    program: str
    kept: Kept
    is_blessing: bool
    out: Optional[Path]


def tried(case: Case, how: How) -> Outcome:
    """What became of a case."""
    start = time.monotonic()
    try:
        outcome = looked_at(case, how) if case.picture else remembered(case, how.program) if case.memory else tested(case, how.program)
    except subprocess.TimeoutExpired:
        outcome = Outcome(case, False, f'not run to its end: it took more than {SECONDS} seconds')
    except (OSError, ValueError, Refused, Failed, WrongInput, Unsafe) as error:
        outcome = Outcome(case, False, f'not run: {error.told() if isinstance(error, Refused) else error}')
    outcome.text, outcome.seconds = printable(outcome.text, MOST_LINE), time.monotonic() - start
    if outcome.is_wanted and outcome.told:
        outcome.told.sent = ''
    return outcome


def tested(case: Case, program: str) -> Outcome:
    out, err, status = ran([program, 'test', '--', str(case.rom), str(case.frames)] + ([str(case.script)] if case.script else []))
    line = line_of(err.data.decode(errors='replace'), status)
    verdict = 'passed' if status == 0 else {'gbkeep: test failed': 'failed', 'gbkeep: test undecided': 'undecided'}.get(line, line)
    told = told_by_test(out)
    is_wanted = verdict in WANTED[case.wants]
    if told and told.ended == 'memory' and not told.sent and not is_wanted:
        told.sent = text_in_memory(case, told.frames, program)
    return Outcome(case, is_wanted, f'{verdict}, {case.wants} wanted', told=told)


def told_by_test(printed: Tail) -> Optional[Told]:
    found = END_OF_TEST.search(printed.data)
    return Told(found[3].decode(), int(found[2]), found[1].decode(), sent_text(printed.data[:found.start()], printed.left_out)) if found else None


def looked_at(case: Case, how: How) -> Outcome:
    if how.is_blessing:
        # before it is played, which may take long
        check_target(case.picture, how.kept.same_as(case.picture), PICTURE_HEADS)
        store(case.picture, played(case, how.program), how.kept)
        return Outcome(case, True, 'picture stored')
    try:
        os.lstat(case.picture)
    except FileNotFoundError:
        return Outcome(case, False, f'not run: there is no {printable(case.picture)}: --bless stores the picture as it is now')
    wanted, actual = shades_in(case.picture), played(case, how.program)
    wrong = [at for at, (one, other) in enumerate(zip(actual, wanted)) if one != other]
    if not wrong:
        return Outcome(case, True, 'picture as wanted')
    first, many = wrong[0], f'{len(wrong)} pixels differ' if len(wrong) > 1 else '1 pixel differs'
    text = f'{many} from {printable(case.picture.name)}, the first at x={first % WIDTH} y={first // WIDTH}: shade {actual[first]}, and {wanted[first]} wanted'
    left, trouble = leave(case, actual, wanted, how) if how.out else ((), '')
    return Outcome(case, False, text + trouble, told=told_by_game(case, how.program), left=left)


def store(path: Path, shades: bytes, kept: Kept) -> None:
    with new_file(path, kept.same_as(path), begins=PICTURE_HEADS) as file:
        file.write(png_of(shades, WIDTH, HEIGHT) if path.suffix.lower() == '.png' else pgm_of(shades))


def leave(case: Case, actual: bytes, wanted: bytes, how: How) -> tuple[tuple[Path, ...], str]:
    """Leaves the actual picture and that of the differences, and answers their names, or why there are none."""
    # a name that any system and any shell takes
    name = re.sub('[^A-Za-z0-9_]+', '_', case.rom.stem)[:60]
    left = []
    for what, data in (('actual', png_of(actual, WIDTH, HEIGHT)), ('difference', difference_of(actual, wanted))):
        path = how.out / f'{name}-{case.number}.{what}.png'
        try:
            with new_file(path, how.kept.same_as(path), begins=PNG_HEADS) as file:
                file.write(data)
        except (OSError, Unsafe) as error:
            return tuple(left), f'; not stored: {error if isinstance(error, Unsafe) else reason(error)}'
        left.append(path)
    return tuple(left), ''


def all_tried(pool: ThreadPoolExecutor, cases: list[Case], how: How, window: int, waiting_for: Callable[[Future, Case], None]) -> Iterator[Outcome]:
    """The outcomes in the order of the cases. Of those that are done before an earlier one, as many are held as the window has."""
    begun = deque()

    def first():
        future, case = begun.popleft()
        waiting_for(future, case)
        return future.result()
    for case in cases:
        begun.append((pool.submit(tried, case, how), case))
        while begun and (begun[0][0].done() or len(begun) >= window):
            yield first()
    while begun:
        yield first()


# ---- what is said

def line_of_outcome(one: Outcome, is_terminal: bool) -> str:
    """What is said of a ROM: a line, and on a terminal a line for each thing that a failing one tells."""
    said = f'{"ok  " if one.is_wanted else "FAIL"} {printable(one.case.rom)}: {one.text}'
    if one.is_wanted:
        return said
    parts = [f'see {" and ".join(printable(path) for path in one.left)}'] if one.left else []
    if one.told:
        parts += [f'ended {one.told.ended}, frames {one.told.frames}', one.told.registers]
        lines = one.told.sent.strip('\n').split('\n')
        if not is_terminal:
            shown = '\\n'.join(lines)
            parts += ['sent ' + (shown if len(shown) <= MOST_SENT_SHOWN else '..' + shown[-MOST_SENT_SHOWN:])] if shown else []
        elif any(lines):
            parts += ['sent:' if len(lines) <= MOST_SENT_LINES else f'sent, the last {MOST_SENT_LINES} lines:', *(f'  {printable(line)}' for line in lines[-MOST_SENT_LINES:])]
    return ('\n     ' if is_terminal else '; ').join([said, *parts])


def escaped(text: str) -> str:
    """A text as XML has it. (The module for that loads whatever Python has for the web, which takes more memory than the rest.)"""
    for one, other in (('&', '&amp;'), ('<', '&lt;'), ('>', '&gt;'), ('"', '&quot;')):
        text = text.replace(one, other)
    return text


class Report:
    """A report that is stored at the end. What is said of each ROM waits in a file that has no name, so that many ROMs take no memory."""
    begins = between = b''

    def __init__(self, path: PathLike):
        self.path, self.rows = path, tempfile.TemporaryFile()

    def add(self, outcome: Outcome) -> None:
        if self.rows.tell():
            self.rows.write(self.between)
        self.rows.write(self.row(outcome).encode())

    def store(self, kept: list[PathLike], count: int, failed: int) -> None:
        head, end = self.around(count, failed)
        self.rows.seek(0)
        with new_file(self.path, kept, begins=(self.begins,)) as file:
            file.write(head.encode())
            shutil.copyfileobj(self.rows, file)
            file.write(end.encode())

    def row(self, outcome: Outcome) -> str:
        raise NotImplementedError

    def around(self, count: int, failed: int) -> tuple[str, str]:
        raise NotImplementedError


class JunitReport(Report):
    begins = REPORT_HEAD

    def row(self, outcome: Outcome) -> str:
        head = f'  <testcase classname="gbkeep" name="{escaped(printable(outcome.case.rom, MOST_LINE))}" time="{outcome.seconds:.3f}"'
        if outcome.is_wanted:
            return f'{head}/>\n'
        lines, sent = [outcome.text, *map(printable, outcome.left)], ''
        if outcome.told:
            lines += [f'ended {outcome.told.ended}', f'frames {outcome.told.frames}', outcome.told.registers]
            sent = f'    <system-out>{escaped(outcome.told.sent)}</system-out>\n' if outcome.told.sent else ''
        text = escaped('\n'.join(lines))
        return f'{head}>\n    <failure message="{escaped(outcome.text)}">{text}</failure>\n{sent}  </testcase>\n'

    def around(self, count: int, failed: int) -> tuple[str, str]:
        return f'<testsuite name="gbkeep" tests="{count}" failures="{failed}">\n', '</testsuite>\n'


class JsonReport(Report):
    begins, between = JSON_HEAD, b',\n'

    def row(self, outcome: Outcome) -> str:
        case, told = outcome.case, outcome.told
        row = {'rom': printable(case.rom, MOST_LINE), 'wants': 'picture' if case.picture else case.wants, 'is_wanted': outcome.is_wanted,
               'text': outcome.text, 'seconds': round(outcome.seconds, 3)}
        if told:
            row |= {'ended': told.ended, 'frames': told.frames, 'registers': told.registers}
        if told and not outcome.is_wanted:
            row['sent'] = told.sent
        if outcome.left:
            row['pictures'] = [printable(path, MOST_LINE) for path in outcome.left]
        return json.dumps(row)

    def around(self, count: int, failed: int) -> tuple[str, str]:
        return f'{JSON_HEAD.decode()}: {count}, "failures": {failed}, "roms": [\n', '\n]}\n'


def reports_of(asked: argparse.Namespace, kept: list[PathLike]) -> list[Report]:
    reports = [kind(path) for kind, path in ((JunitReport, asked.junit), (JsonReport, asked.json)) if path is not None]
    if len({os.path.realpath(report.path) for report in reports}) < len(reports):
        raise WrongList(f'{printable(asked.json)}: the two reports are one file')
    for report in reports:
        check_target(report.path, kept, (report.begins,))
    return reports


def folder_of(name: Optional[str]) -> Optional[Path]:
    if name is None:
        return None
    if not os.path.isdir(name):
        os.mkdir(name)
    return Path(name)


class Progress:
    """How far the run is, and the line that says it on a terminal."""

    def __init__(self, stream: Optional[IO], count: int):
        self.stream, self.count, self.done, self.failed = stream, count, 0, 0

    def add(self, outcome: Outcome) -> None:
        self.done += 1
        self.failed += not outcome.is_wanted

    def show(self, more: str = '') -> None:
        if self.stream is None:
            return
        line, width = f'{self.done:,} of {self.count:,}, {self.failed:,} failed{more}', max(20, shutil.get_terminal_size().columns)
        self.write(line if len(line) < width else line[:width - 3] + '..')

    def clear(self) -> None:
        self.write('')

    def write(self, line: str) -> None:
        if self.stream is not None:
            self.stream.write(f'\r\x1b[K{line}')
            self.stream.flush()

    def waiting_for(self, future: Future, case: Case) -> None:
        """Says which ROM is waited for."""
        if self.stream is not None and not wait([future], PROGRESS_SECONDS).done:
            self.show(f': {printable(case.rom)}')


class Slowest:
    """The ROMs that took the longest."""

    def __init__(self):
        self.found = []

    def add(self, outcome: Outcome) -> None:
        heapq.heappush(self.found, (outcome.seconds, -outcome.case.number, printable(outcome.case.rom)))
        if len(self.found) > SLOWEST:
            heapq.heappop(self.found)

    def lines(self) -> list[str]:
        return ['slowest:', *(f'{seconds:9.3f} s {name}' for seconds, _, name in sorted(self.found, reverse=True))]


def is_terminal(stream: Optional[IO]) -> bool:
    return stream is not None and stream.isatty()


def shard_word(word: str) -> tuple[int, int]:
    mine, _, shards = word.partition('/')
    try:
        count = number(shards, 1, MOST_CASES, '--shard')
        return number(mine, 1, count, '--shard'), count
    except WrongInput as error:
        raise argparse.ArgumentTypeError(str(error)) from None


def processors() -> int:
    """How many processors this process may use."""
    return min(MOST_JOBS, len(os.sched_getaffinity(0)) if hasattr(os, 'sched_getaffinity') else os.cpu_count() or 1)


def asked_of(words: list[str]) -> argparse.Namespace:
    parser = Words(prog=name_of_tool(), description='Runs test ROMs.', epilog=__doc__, formatter_class=argparse.RawDescriptionHelpFormatter)
    parser.add_argument('--frames', type=count_word(1, MOST_FRAMES, '--frames'), default=FRAMES, metavar='N', help=f'the most frames of a ROM (default: {FRAMES})')
    parser.add_argument('-j', '--jobs', type=count_word(1, MOST_JOBS, '--jobs'), default=processors(), metavar='N', help='how many at once (default: one a processor)')
    parser.add_argument('--filter', metavar='TEXT', help='only the ROMs with this in their path; * ? [..] as in a shell')
    parser.add_argument('--shard', type=shard_word, default=(1, 1), metavar='I/N', help='only every Nth ROM, from the Ith on')
    parser.add_argument('--out', metavar='DIR', help='a folder for the pictures that differ; it is made if it is not there')
    parser.add_argument('--junit', metavar='FILE', help='a report for a CI')
    parser.add_argument('--json', metavar='FILE', help='a report for a program')
    parser.add_argument('--slowest', action='store_true', help='says which five ROMs took the longest, as on a terminal')
    parser.add_argument('--bless', action='store_true', help='stores the pictures as they are now')
    parser.add_argument('--gbkeep', default=find_program(), metavar='PROGRAM', help='the program (default: %(default)s)')
    parser.add_argument('what', nargs='+', metavar='WHAT')
    return parser.parse_args(words)


def main(words: list[str]) -> int:
    asked = asked_of(words)
    # a program that can't be run is said once
    started([asked.gbkeep, '--version'], stdin=subprocess.DEVNULL, stdout=subprocess.DEVNULL, stderr=subprocess.DEVNULL).wait()
    cases, count = cases_asked(asked)
    read = [*files_of(cases, asked.what), Path(asked.gbkeep)]
    report_keeps = [*read, *(case.picture for case in cases if case.picture)]
    reports, out = reports_of(asked, report_keeps), folder_of(asked.out)
    how = How(asked.gbkeep, Kept(read if asked.bless else report_keeps if out else ()), asked.bless, out)
    on_terminal, slowest = is_terminal(sys.stdout), Slowest()
    has_line = is_terminal(sys.stderr) and os.environ.get('TERM') != 'dumb'
    progress = Progress(sys.stderr if has_line else None, len(cases))
    with ThreadPoolExecutor(asked.jobs) as pool:
        try:
            for one in all_tried(pool, cases, how, max(WINDOW, 2 * asked.jobs), progress.waiting_for):
                for each in (progress, slowest, *reports):
                    each.add(one)
                progress.clear()
                print(line_of_outcome(one, on_terminal), flush=True)
                progress.show()
        except BaseException:
            pool.shutdown(wait=False, cancel_futures=True)
            RUNNING.end()
            raise
        finally:
            progress.clear()
    for report in reports:
        report.store(report_keeps, progress.done, progress.failed)
    if asked.slowest or on_terminal:
        print('\n'.join(slowest.lines()))
    shards = f', of {count:,} in {asked.shard[1]:,} shards' if asked.shard[1] > 1 else ''
    print(f'{progress.done - progress.failed} as wanted, {progress.failed} failed{shards}')
    return 1 if progress.failed else 0


def start() -> NoReturn:
    run_tool(main)


if __name__ == '__main__':
    start()
