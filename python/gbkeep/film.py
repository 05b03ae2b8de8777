"""Plays a script or a recording from power-on and writes its pictures as a film without sound, in YUV4MPEG2.

usage: gbkeep-film [--from N] [--to N] [--inputs] CART SCRIPT OUT

SCRIPT is a recording of `gbkeep record`, a script of gbkeep's, or a friendly one (see gbkeep-script). OUT is a file that is not there, or a film, which is
replaced once the new one is whole, or a pipe that somebody reads; `-` is standard output. Debian's ffmpeg makes a video of it:

    gbkeep-film game.gb run.txt - | ffmpeg -i - -vf scale=iw*4:ih*4:flags=neighbor run.mp4

--from and --to give the first and the last frame that is shown, from 1. With --inputs there are two lines below each picture: the buttons, those that are
pressed bright; and the number of the frame, the time at its pace, and of a recording that was branched how often. A terminal is told how far it is. No SAVE is
touched."""
import argparse
import contextlib
import functools
import os
import stat
import sys
import tempfile
from collections.abc import Callable, Iterable, Iterator
from pathlib import Path
from typing import IO, NoReturn, Optional

from .game import HEIGHT, WIDTH, Game
from .input_files import printable
from .new_files import Unsafe, check_standard_output, check_target, new_file
from .notes import notes_of
from .script import is_recording, moves_to_play
from .tools import Words, count_word, name_of_tool, run_tool

MAGIC = b'YUV4MPEG2'
# 4,194,304 clocks a second, and 70,224 of them a frame
HEAD = f'{MAGIC.decode()} W{WIDTH} H{HEIGHT} F4194304:70224 Ip A1:1 Cmono XCOLORRANGE=LIMITED\n'.encode()
CLOCKS, CLOCKS_A_FRAME = 4_194_304, 70_224
# black to white, as video has them
LUMA = bytes(16 + 73 * (shade & 3) for shade in range(256))
BLACK, DIM, BRIGHT = 16, 72, 235
# the signs of the lines below, five rows of three pixels: a digit for each row
SIGNS = {'0': 0o75557, '1': 0o26227, '2': 0o71747, '3': 0o71717, '4': 0o55711, '5': 0o74717, '6': 0o74757, '7': 0o71111, '8': 0o75757, '9': 0o75717, ':': 0o02020,
         'A': 0o25755, 'B': 0o65656, 'E': 0o74647, 'L': 0o44447, 'R': 0o65655, 'S': 0o34216, 'T': 0o72222, '>': 0o46764, '<': 0o13731, '^': 0o02770, 'v': 0o07720}
# the buttons as they are shown, with their bits
SHOWN = (('<', 2), ('^', 4), ('v', 8), ('>', 1), ('  ', 0), ('B', 32), (' ', 0), ('A', 16), ('  ', 0), ('SEL', 64), (' ', 0), ('ST', 128))
SIGN_WIDTH, LINE_HEIGHT = 8, 14
TOLD_EACH = 600
MOST_FRAME = 10 ** 12


def steps_of(moves: Iterable[tuple]) -> Iterator[tuple]:
    """The moves with frames one by one: ('frames', BUTTONS, 1), ('seconds', COUNT), ('power',)."""
    for move in moves:
        if move[0] == 'frames':
            for _ in range(move[2]):
                yield 'frames', move[1], 1
        elif move[0] in ('seconds', 'power'):
            yield move


@functools.lru_cache(256)
def line_of(parts: tuple[tuple[str, int], ...]) -> bytes:
    """A line of signs, each of these texts as bright as is said, with two rows above it and below."""
    signs = [(SIGNS.get(sign, 0), light) for text, light in parts for sign in text]
    rows = [bytes((BLACK, BLACK)) + b''.join(bytes((light if glyph >> place + bit & 1 else BLACK,)) * 2 if bit >= 0 else bytes((BLACK, BLACK))
                                            for glyph, light in signs for bit in (2, 1, 0, -1)) for place in (12, 9, 6, 3, 0)]
    blank = bytes((BLACK,)) * 2 * WIDTH
    return blank + b''.join(row.ljust(WIDTH, bytes((BLACK,)))[:WIDTH] * 2 for row in rows) + blank


def lines_below(buttons: int, count: int, rerecords: int) -> bytes:
    """The two lines below a picture."""
    seconds = count * CLOCKS_A_FRAME // CLOCKS
    left, right = f'{count}', f'R{rerecords}' if rerecords else ''
    clock = f'{seconds // 3600}:{seconds // 60 % 60:02}:{seconds % 60:02}'
    room = WIDTH // SIGN_WIDTH - 1
    return line_of(tuple((text, BRIGHT if buttons & bit else DIM) for text, bit in SHOWN)) + line_of(((f'{left} {clock.center(room - len(left) - len(right) - 2)} {right}', BRIGHT),))


def write_film(game: Game, moves: Iterable[tuple], out: IO[bytes], first: int, last: Optional[int], tell: Callable[[int], None], rerecords: Optional[int] = None) -> int:
    """Writes the pictures of these frames, and answers how many there are; with a count of rerecords the lines below, too."""
    count = shown = 0
    out.write(HEAD if rerecords is None else HEAD.replace(b' H%d ' % HEIGHT, b' H%d ' % (HEIGHT + 2 * LINE_HEIGHT)))
    for step in steps_of(moves):
        if step[0] == 'seconds':
            game.seconds(step[1])
            continue
        if step[0] == 'power':
            game.power()
            continue
        if last is not None and count >= last:
            break
        game.frame(step[1])
        count += 1
        if count >= first:
            out.write(b'FRAME\n' + game.picture().shades.translate(LUMA) + (b'' if rerecords is None else lines_below(step[1], count, rerecords)))
            shown += 1
        if count % TOLD_EACH == 0:
            tell(count)
    return shown


def main(words: list[str]) -> None:
    parser = Words(prog=name_of_tool(), description='Writes the pictures of a script as a film.', epilog=__doc__, formatter_class=argparse.RawDescriptionHelpFormatter)
    parser.add_argument('--from', dest='first', type=count_word(1, MOST_FRAME, '--from'), default=1, metavar='N')
    parser.add_argument('--to', dest='last', type=count_word(1, MOST_FRAME, '--to'), metavar='N')
    parser.add_argument('--inputs', action='store_true', help='draws the buttons and counters below each picture')
    parser.add_argument('cart', metavar='CART')
    parser.add_argument('script', metavar='SCRIPT')
    parser.add_argument('out', metavar='OUT')
    asked = parser.parse_args(words)
    inputs, is_told = [asked.cart, asked.script], sys.stderr is not None and sys.stderr.isatty()

    def tell(count):
        if is_told:
            print(f'\r{count} frames', end='', file=sys.stderr, flush=True)
    # before the moves are read, which may take long
    if asked.out == '-':
        check_standard_output(sys.stdout.fileno(), inputs)
    elif not is_pipe(asked.out):
        check_target(asked.out, inputs, (MAGIC,))
    moves = moves_to_play(asked.cart, asked.script)
    rerecords = (notes_of(asked.script).rerecords if is_recording(asked.script) else 0) if asked.inputs else None
    with tempfile.TemporaryDirectory(prefix='film-') as room, opened(asked.out, inputs) as out, Game(asked.cart, Path(room) / 'film.gbkeep') as game:
        shown = write_film(game, moves, out, asked.first, asked.last, tell, rerecords)
    if is_told:
        print(f'\r{shown} pictures', file=sys.stderr)


def is_pipe(out: str) -> bool:
    try:
        return stat.S_ISFIFO(os.stat(out).st_mode)
    except OSError:
        return False


def opened_pipe(out: str) -> int:
    """A descriptor of a pipe that somebody reads: nobody waits for a reader."""
    try:
        descriptor = os.open(out, os.O_WRONLY | os.O_NONBLOCK | os.O_CLOEXEC)
    except OSError:
        raise Unsafe(f'{printable(out)}: nobody reads this pipe') from None
    if not stat.S_ISFIFO(os.fstat(descriptor).st_mode):
        os.close(descriptor)
        raise Unsafe(f'{printable(out)}: this is no pipe any more')
    os.set_blocking(descriptor, True)
    return descriptor


@contextlib.contextmanager
def opened(out: str, inputs: list[str]) -> Iterator[IO[bytes]]:
    """Where the film goes: standard output, a pipe, or a file that is put in place once it is whole."""
    if out == '-':
        yield sys.stdout.buffer
        sys.stdout.buffer.flush()
    elif is_pipe(out):
        with open(opened_pipe(out), 'wb') as pipe:
            yield pipe
    else:
        with new_file(out, inputs, begins=(MAGIC,)) as file:
            yield file


def start() -> NoReturn:
    run_tool(main)


if __name__ == '__main__':
    start()
