"""Scripts that are easier to write than gbkeep's own.

usage: gbkeep-script own FILE              prints the script that `gbkeep play` reads
       gbkeep-script friendly SCRIPT       prints a script of gbkeep's in these words
       gbkeep-script check SCRIPT          says which line `gbkeep play` would refuse, and why
       gbkeep-script marks FILE            prints each mark with the count of inputs before it
       gbkeep-script play [--record RECORDING] CART SAVE FILE
                                           plays it by `gbkeep stream`, or with RECORDING by `gbkeep record`; FILE may be a recording, too

A friendly script has one move a line. `#` begins a comment; words are separated by any blanks, and lines end as on any system:

    A+right 60      60 frames with A and right pressed (without a number: one frame)
    wait 30         30 frames with no button
    seconds 3600    3,600 seconds pass on the cartridge's clock
    save
    power           the power switch, off and on
    mark the boss   gives this place a name
    include FILE    the moves of another file; its name is looked for beside this one

All files of a script have 1,000,000 lines and 32 MiB at most, with what is included as often as it is; `-` is standard input.

Buttons: right left up down A B select start, in large or small letters. The lines of gbkeep's own scripts mean here what they mean there."""
import os
import re
import subprocess
import sys
import tempfile
from collections.abc import Iterable, Iterator
from itertools import islice
from pathlib import Path
from typing import IO, NoReturn, Optional

from .game import MOST_FRAMES, MOST_SECONDS, Game, Refused, ended, find_program, line_of, started
from .input_files import SECTOR, PathLike, WrongInput, open_plain, printable, read_bytes
from .new_files import OURS
from .tools import Failed, WrongWords, operands, option, run_tool

BUTTONS = ['right', 'left', 'up', 'down', 'A', 'B', 'select', 'start']
MOST_BYTES = 1_048_576
# of a script with all that it includes: a day of play with ten changes of buttons a second
MOST_LINES, MOST_SIZE = 1_000_000, 1 << 25
MOST_FILES, MOST_DEPTH, MOST_LINE = 10_000, 20, 10_000
# a line of what the program prints of a recording
MOST_RECORDED_LINE = 100
LINES_AT_ONCE = 4_096


class Wrong(Failed):
    """A script is wrong: where, and why."""


# ---- gbkeep's own scripts

def quoted(word: str) -> str:
    return f"'{printable(word)}'"


def number_of(word: str, least: int, most: int) -> int:
    if not re.fullmatch(r'[0-9]+', word):
        raise ValueError(f'{quoted(word)} is no decimal number')
    if len(word) > 10:
        raise ValueError(f'{quoted(word)} has more than ten digits')
    if not least <= int(word) <= most:
        raise ValueError(f'{word} is not from {least} to {most}')
    return int(word)


def buttons_of(word: str) -> int:
    if not re.fullmatch(r'[0-9a-fA-F]{2}', word):
        raise ValueError(f'{quoted(word)} is not two hexadecimal digits')
    return int(word, 16)


def own_move(words: list[str]) -> tuple:
    """The move of the words of a line: ('frames', BUTTONS, COUNT), ('seconds', COUNT), ('save',) or ('power',)."""
    name, wanted = words[0], {'frame': 2, 'frames': 3, 'seconds': 2, 'save': 1, 'power': 1}
    if name not in wanted:
        raise ValueError(f'{quoted(name)} is no move')
    if len(words) != wanted[name]:
        raise ValueError(f'{quoted(name)} has {len(words) - 1} words after it, and takes {wanted[name] - 1}')
    if name in ('save', 'power'):
        return (name,)
    if name == 'seconds':
        return ('seconds', number_of(words[1], 0, MOST_SECONDS))
    return ('frames', buttons_of(words[1]), number_of(words[2], 1, MOST_FRAMES) if name == 'frames' else 1)


def own_moves(data: bytes) -> list[tuple]:
    """The moves of the bytes of a script of gbkeep's. Raises Wrong at the line where `gbkeep play` refuses it."""
    if len(data) > MOST_BYTES:
        raise Wrong(f'line 0: the script has {len(data)} bytes, more than {MOST_BYTES}: play it by `gbkeep-script play`')
    moves = []
    for number, line in enumerate(data.split(b'\n'), 1):
        if not line:
            continue
        try:
            moves.append(own_move(checked(line).split(' ')))
        except ValueError as error:
            raise Wrong(f'line {number}: {error}') from None
    return moves


def checked(line: bytes) -> str:
    """The text of a line, whose words are separated by one space."""
    text = line.decode('ascii', errors='backslashreplace')
    for found, why in ((text.endswith('\r'), 'ends in a carriage return'), ('\t' in text, 'has a tab'), ('#' in text, 'has a comment'),
                       (text.startswith(' '), 'begins with a space'), (text.endswith(' '), 'ends in a space'),
                       ('  ' in text, 'has two spaces between words')):
        if found:
            raise ValueError(why)
    return text


def own_line(move: tuple) -> str:
    if move[0] == 'frames':
        return f'frame {move[1]:02x}' if move[2] == 1 else f'frames {move[1]:02x} {move[2]}'
    return ' '.join(str(word) for word in move)


def own_lines(moves: Iterable[tuple]) -> Iterator[str]:
    """The lines of a script of gbkeep's; marks are left out, and runs that are too long for one line are split."""
    for move in moves:
        if move[0] == 'frames':
            for done in range(0, move[2], MOST_FRAMES):
                yield own_line(('frames', move[1], min(MOST_FRAMES, move[2] - done)))
        elif move[0] != 'mark':
            yield own_line(move)


# ---- recordings

def is_recording(path: PathLike) -> bool:
    """Whether a file is a recording of `gbkeep record`."""
    return path != '-' and head_of(path) == b'GBKPRECD'


def head_of(path: PathLike) -> bytes:
    descriptor = open_plain(path)
    try:
        return os.read(descriptor, 8)
    finally:
        os.close(descriptor)


def recorded_moves(cart: PathLike, recording: PathLike, program: Optional[PathLike] = None) -> Iterator[tuple]:
    """The moves that a recording holds, since power-on.

    The program has ended before the first of them is given, so that nobody who plays them holds the recording."""
    printed = tempfile.TemporaryFile(prefix='recorded-')
    process = started([str(program or find_program()), 'recorded', '--', str(cart), str(recording)], stdin=subprocess.DEVNULL, stdout=printed, stderr=subprocess.PIPE)
    with ended(process):
        _, err = process.communicate()
    if process.returncode != 0:
        raise Refused(line_of(err.decode(errors='replace'), process.returncode), 'recorded')
    printed.seek(0)
    return moves_in(printed)


def moves_in(printed: IO[bytes]) -> Iterator[tuple]:
    while line := printed.readline(MOST_RECORDED_LINE):
        try:
            yield own_move(line.decode().rstrip('\n').split(' '))
        except ValueError:
            raise Refused('the program answers what no gbkeep answers', 'recorded') from None


def moves_to_play(cart: PathLike, path: PathLike) -> Iterable[tuple]:
    """The moves of a recording or of a script."""
    return recorded_moves(cart, path) if is_recording(path) else friendly_moves(path)


# ---- friendly scripts

class Reading:
    """What is left to be read of a script and of all that it includes."""

    def __init__(self):
        self.lines, self.size, self.files = MOST_LINES, MOST_SIZE, MOST_FILES

    def text(self, path: PathLike, place: str) -> str:
        self.files -= 1
        if self.files < 0:
            raise Wrong(f'{place}: the script includes more than {MOST_FILES:,} files')
        if path == '-':
            data = sys.stdin.buffer.read(self.size + 1) if sys.stdin else b''
        else:
            data = read_bytes(path, MOST_SIZE)
        self.size -= len(data)
        if self.size < 0:
            raise Wrong(f'{place}: the script has more than {MOST_SIZE:,} bytes with what it includes')
        self.lines -= data.count(b'\n') + data.count(b'\r') + 1
        if self.lines < 0:
            raise Wrong(f'{place}: the script has more than {MOST_LINES:,} lines with what it includes')
        no_file_of_ours(data, place)
        # a name that is no text is found as it is
        return data.decode(errors='surrogateescape')


def no_file_of_ours(data: bytes, place: str) -> None:
    # the first root of a game stands in the second sector
    if data.startswith(OURS) or data[SECTOR:].startswith(OURS):
        raise Wrong(f'{place}: this is a file of gbkeep and no script; `gbkeep recorded CART RECORDING` prints a recording as one')


def friendly_moves(path: PathLike) -> list[tuple]:
    """The moves of a friendly script, with ('mark', NAME) where a place has a name. '-' is standard input."""
    return moves_of_file(path, Reading(), ())


def moves_of_file(path: PathLike, reading: Reading, around: tuple) -> list[tuple]:
    place = 'standard input' if path == '-' else printable(path)
    if path != '-':
        held = os.stat(path)
        if (held.st_dev, held.st_ino) in around:
            raise Wrong(f'{place}: it includes itself')
        around = (*around, (held.st_dev, held.st_ino))
    if len(around) > MOST_DEPTH:
        raise Wrong(f'{place}: files include each other more than {MOST_DEPTH} deep')
    moves = []
    for number, line in enumerate(re.split(r'\r\n|\r|\n', reading.text(path, place)), 1):
        line = line.partition('#')[0].strip()
        if len(line) > MOST_LINE:
            raise Wrong(f'{place}, line {number}: it has more than {MOST_LINE:,} characters')
        words = line.split()
        if not words:
            continue
        try:
            if words[0] == 'include' and len(words) >= 2:
                name = line[len('include'):].strip()
                moves += moves_of_file(Path('.' if path == '-' else path).parent / name, reading, around)
            else:
                moves.append(friendly_move(words))
        except (ValueError, OSError, WrongInput) as error:
            why = getattr(error, 'strerror', None)
            raise Wrong(f'{place}, line {number}: {printable(error.filename)}: {why}' if why else f'{place}, line {number}: {error}') from None
    return moves


def friendly_move(words: list[str]) -> tuple:
    name = words[0]
    if name == 'mark':
        if len(words) < 2:
            raise ValueError('a mark has a name')
        return ('mark', ' '.join(words[1:]))
    if name in ('frame', 'frames', 'seconds', 'save', 'power'):
        return own_move(words)
    if len(words) > 2:
        raise ValueError(f'{quoted(words[2])} is one word too many')
    count = number_of(words[1], 1, 10 ** 10 - 1) if len(words) == 2 else 1
    if name == 'wait':
        return ('frames', 0, count)
    known, buttons = [button.lower() for button in BUTTONS], 0
    for button in name.split('+'):
        if button.lower() not in known:
            raise ValueError(f'{quoted(button)} is no button' if '+' in name else f'{quoted(name)} is no move and no button')
        buttons |= 1 << known.index(button.lower())
    return ('frames', buttons, count)


def friendly_line(move: tuple) -> str:
    if move[0] != 'frames':
        return ' '.join(str(word) for word in move)
    names = '+'.join(name for bit, name in enumerate(BUTTONS) if move[1] >> bit & 1) or 'wait'
    return names if move[2] == 1 else f'{names} {move[2]}'


def inputs_of(move: tuple) -> int:
    """How many inputs a move is."""
    return {'frames': move[-1], 'seconds': 1, 'power': 1}.get(move[0], 0)


# ---- what is done with them

def play(game: Game, moves: Iterable[tuple]) -> None:
    """Plays moves on a game, and prints `saved N` after each save."""
    for move in moves:
        if move[0] == 'frames':
            game.frames(move[1], move[2])
        elif move[0] == 'seconds':
            game.seconds(move[1])
        elif move[0] == 'power':
            game.power()
        elif move[0] == 'save':
            print(f'saved {game.save()}', flush=True)
    if game.saved < game.count:
        print(f'saved {game.save()}', flush=True)


def printed(lines: Iterable[str]) -> None:
    """Prints lines, many at once."""
    lines = iter(lines)
    while some := list(islice(lines, LINES_AT_ONCE)):
        sys.stdout.write('\n'.join(some) + '\n')


def script_of(path: PathLike) -> list[tuple]:
    """The moves of a script of gbkeep's."""
    data = read_bytes(path, MOST_SIZE)
    no_file_of_ours(data, printable(path))
    return own_moves(data)


def opened_game(cart: str, save: str, recording: Optional[str]) -> Game:
    try:
        return Game(cart, save, recording=recording)
    except Refused as refused:
        if refused.line == 'gbkeep: recorded game: play it by record':
            refused.advice = '--record RECORDING plays it so; to end the recording, remove SAVE.recorded'
        raise


def played(cart: str, save: str, path: str, recording: Optional[str]) -> None:
    moves = moves_to_play(cart, path)
    with opened_game(cart, save, recording) as game:
        print(f'resumed {game.resumed}', flush=True)
        play(game, moves)


def main(words: list[str]) -> None:
    recording, words = option(words, '--record')
    words = operands(words)
    command = words[0] if words else ''
    if recording is not None and command != 'play' or len(words) != (4 if command == 'play' else 2):
        raise WrongWords
    if command == 'own':
        printed(own_lines(friendly_moves(words[1])))
    elif command == 'friendly':
        printed(map(friendly_line, script_of(words[1])))
    elif command == 'check':
        moves = script_of(words[1])
        print(f'right: {len(moves)} moves, {sum(map(inputs_of, moves))} inputs')
    elif command == 'marks':
        count = 0
        for move in friendly_moves(words[1]):
            count += inputs_of(move)
            if move[0] == 'mark':
                print(printable(move[1]), count)
    elif command == 'play':
        played(*words[1:], recording)
    else:
        raise WrongWords


def start() -> NoReturn:
    run_tool(main, __doc__)


if __name__ == '__main__':
    start()
