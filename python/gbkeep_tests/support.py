"""What the tests share: how a difference is told, how tests are run, tools, pictures, and a cartridge that shows its clock."""
import functools
import importlib.util
import os
import struct
import sys
import tempfile
import time
import unittest
import zlib
from collections.abc import Callable, Iterable
from pathlib import Path
from typing import NoReturn, Optional

from examples.demo.assemble import Assembler
from gbkeep import Refused
from gbkeep.pictures import PNG_HEAD
from scripts.doctor import missing, told
from scripts.not_tried import note

TOP = Path(__file__).resolve().parent.parent.parent
# tools are run in other folders
os.environ['PYTHONPATH'] = os.pathsep.join((str(TOP / 'python'), str(TOP)))
DEMO = TOP / 'examples/demo'
CART = DEMO / 'demo.gb'
DAY = 86_400
# as much of a difference as is told
MOST_GOT, MOST_WANTED = 3_000, 600
# shows the clock's seconds, minutes, hours and low byte of the days as bits, in the first four rows of each tile
CLOCK = '''
        org $100
        jp start
        org $134
        db "CLOCK"
        org $147
        db $10, $00, $02
        org $150
start:  di
        ld a, $0a
        ld [$0000], a
        ld a, $0c               ; the clock runs
        ld [$4000], a
        xor a
        ld [$a000], a
        inc a
        ldh [$ffff], a
again:  xor a                   ; VBlank ends the halt, and nothing is called
        ldh [$ff0f], a
        halt
        nop
        xor a
        ld [$6000], a
        inc a
        ld [$6000], a
        ld hl, $8000
        ld b, 8
each:   ld a, b
        ld [$4000], a
        ld a, [$a000]
        ld [hl+], a
        ld [hl+], a
        inc b
        ld a, b
        cp 12
        jr nz, each
        jr again
'''


# ---- what is compared

def expect(what: str, got: object, wanted: object) -> None:
    """Fails the test where this is another value."""
    if got != wanted:
        wrong(f'{what}: {repr(got)[:MOST_GOT]}, and not {repr(wanted)[:MOST_WANTED]}')


def wrong(line: str) -> NoReturn:
    raise AssertionError(line)


def refusal(call: Callable[[], object], *kinds: type) -> Optional[str]:
    """What a call refuses with, as one of these errors; None where it does not. Of a `Refused` it is the line alone."""
    try:
        call()
    except kinds as error:
        return error.line if isinstance(error, Refused) else str(error)
    return None


def until(what: str, is_so: Callable[[], object], seconds: float = 60) -> None:
    """Waits until that is so."""
    end = time.monotonic() + seconds
    while not is_so():
        if time.monotonic() > end:
            wrong(f'{what}: not within {seconds} seconds')
        time.sleep(0.002)


# ---- what is run

class Room:
    """A folder with a program, for one test."""

    def __init__(self, program: str, folder: Path):
        self.program, self.folder = program, Path(folder)

    def path(self, name: object) -> Path:
        return self.folder / name

    def write(self, name: str, data: object, mode: int = 0o644) -> Path:
        path = self.path(name)
        path.parent.mkdir(parents=True, exist_ok=True)
        path.write_bytes(data if isinstance(data, bytes) else str(data).encode())
        path.chmod(mode)
        return path


def tool_words(module: str, *flags: str) -> list[str]:
    """The words that run a tool of the package, which PYTHONPATH names."""
    return [sys.executable, *(flags or ('-B',)), '-m', f'gbkeep.{module}']


def bare_words(module: str) -> list[str]:
    """The same, without the packages of the machine."""
    return tool_words(module, '-S')


def tests_in(names: dict[str, object]) -> list[Callable]:
    """The tests of a module, in order."""
    return [one for name, one in names.items() if name.startswith('test_')]


def run_tests(what: str, tests: Iterable[Callable], given: Callable[[Path], tuple], wanted: Iterable[str] = ()) -> NoReturn:
    """Runs tests by unittest, each with what is given to it of a folder of its own, and ends. With names in `wanted` only these."""
    wanted = {f'test_{name.removeprefix("test_")}' for name in wanted}
    chosen = [test for test in tests if not wanted or test.__name__ in wanted]
    if missing := wanted - {test.__name__ for test in chosen}:
        sys.exit(f'there is no test {" ".join(sorted(missing))}')

    def alone(test: Callable) -> unittest.TestCase:
        @functools.wraps(test)
        def case() -> None:
            with tempfile.TemporaryDirectory(prefix=f'{test.__name__}-') as folder:
                test(*given(Path(folder)))
        return unittest.FunctionTestCase(case)
    sys.exit(0 if run_suite(what, unittest.TestSuite(map(alone, chosen))) else 1)


def run_suite(what: str, suite: unittest.TestSuite) -> bool:
    """Runs tests and tells how they ended: whether all are right."""
    result = unittest.TextTestRunner(stream=sys.stdout, verbosity=0).run(suite)
    for reason in sorted({reason for _, reason in result.skipped}):
        left_out, colon, why = reason.partition(': ')
        note(f'{what}, {left_out}' if colon else what, why or reason)
    print(f'{what}: {result.testsRun} tests, {len(result.failures) + len(result.errors)} failed', flush=True)
    return result.wasSuccessful()


def run_room_tests(what: str, names: dict[str, object], usage: str, room: Optional[Callable] = Room, tests: Optional[Iterable[Callable]] = None) -> NoReturn:
    """The main of a file of tests that takes GBKEEP, and names of tests behind it. Without `room` a test is given the program and the folder."""
    if len(sys.argv) < 2 or sys.argv[1].startswith('-'):
        sys.exit(usage)
    program = os.path.abspath(sys.argv[1])
    run_tests(what, tests_in(names) if tests is None else tests, lambda folder: (room(program, folder),) if room else (program, folder), sys.argv[2:])


# ---- pictures and clocks

def needs_pil(what: str) -> None:
    """Skips the test of that where there is no PIL."""
    if importlib.util.find_spec('PIL') is None:
        raise unittest.SkipTest(f'{what}: {told("PIL")}')


def needs(what: str, *things: str) -> None:
    """Skips the test of that where a thing is missing that `make doctor` looks for."""
    if lines := missing(*things):
        raise unittest.SkipTest(f'{what}: {"; ".join(lines)}')


def image_of(path: Path):
    """A picture as PIL reads it."""
    from PIL import Image
    with Image.open(path) as image:
        image.load()
        return image


def parts_of_png(data: bytes) -> list[tuple[bytes, bytes]]:
    """The parts of a PNG that is whole, each with its kind."""
    found, at = [], len(PNG_HEAD)
    while at < len(data):
        length = int.from_bytes(data[at:at + 4], 'big')
        found.append((data[at + 4:at + 8], data[at + 8:at + 8 + length]))
        at += 12 + length
    return found


def written_png(path: Path) -> tuple[int, int, int, bytes]:
    """Width, height, type of colours and pixels of a PNG as the package writes it: a byte a pixel, without filters."""
    data = Path(path).read_bytes()
    expect('a PNG', data[:8], PNG_HEAD)
    parts = dict(parts_of_png(data))
    width, height, depth, colours = struct.unpack('>IIBB', parts[b'IHDR'][:10])
    raw = zlib.decompress(parts[b'IDAT'])
    rows = [raw[at:at + 1 + width] for at in range(0, len(raw), 1 + width)]
    expect('its rows', (depth, len(rows), {row[:1] for row in rows}, len(raw)), (8, height, {b'\0'}, height * (1 + width)))
    return width, height, colours, b''.join(row[1:] for row in rows)


def clock_cart(folder: Path) -> Path:
    """The cartridge that shows its clock, in a folder."""
    path = Path(folder) / 'clock.gb'
    path.write_bytes(Assembler().assemble(CLOCK))
    return path


def clock_shown(game) -> tuple[int, ...]:
    """The clock as the cartridge shows it: seconds, minutes, hours, days."""
    game.frames(0, 3)
    picture = game.picture()
    return tuple(sum((picture.shade(x, y) == 0) << 7 - x for x in range(8)) for y in range(4))


def seconds_shown(game) -> int:
    seconds, minutes, hours, days = clock_shown(game)
    return seconds + 60 * minutes + 3600 * hours + DAY * days
