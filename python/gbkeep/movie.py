"""Turns movies of other emulators into scripts, and a script into a movie.

usage: gbkeep-movie script MOVIE            prints a script of gbkeep's with the frames of MOVIE: a BizHawk movie (.bk2) or a VisualBoyAdvance movie (.vbm)
       gbkeep-movie friendly MOVIE          prints a friendly one (see gbkeep-script), with marks, author, comments and count of rerecords
       gbkeep-movie bk2 SCRIPT MOVIE.bk2    writes the frames of a script as a BizHawk movie, which must not exist, with all of these
       gbkeep-movie bk2 CART RECORDING MOVIE.bk2
                                            writes those of a recording, with what RECORDING.notes has

A movie is a list of buttons, a frame each, 2,500,000 at most; BizHawk's switch `Power` in a frame is `power` in front of it. What else it may have is refused
by name: a start that is not power-on, a reset, a second player, another machine than the Game Boy. So is `seconds` in a script: a movie has no clock. `save`
is left out. Author, comments and count of rerecords stand in a friendly script as `# author NAME`, `# comment TEXT` and `# rerecords N`, each in a line
of its own. A recording's notes are lines of a text beside it, which the window writes, too, and which may be missing:

    # notes of a recording of gbkeep
    author NAME
    rerecords 3
    comment as many of these as are wanted
    mark 1234 a place by its count of inputs

That the game in another emulator stays in step with the movie nobody promises: other emulators show a boot program first, count the frames
while the LCD is off in ways of their own, and have other timing."""
import io
import re
import struct
import zipfile
import zlib
from array import array
from collections.abc import Iterable, Iterator
from itertools import accumulate, groupby
from pathlib import Path
from typing import NoReturn

from .input_files import PathLike, printable, read_bytes
from .new_files import OURS, new_file
from .notes import MOST_TEXT, Notes, notes_of
from .script import MOST_SIZE, Wrong, friendly_line, friendly_moves, inputs_of, is_recording, own_lines, printed, recorded_moves
from .tools import WrongWords, operands, run_tool

# the names of the buttons in a BizHawk movie, as bits 0 to 7
NAMES = ['Right', 'Left', 'Up', 'Down', 'A', 'B', 'Select', 'Start']
LETTERS = dict(zip(NAMES, 'RLUDABsS'))
ORDER = ['Up', 'Down', 'Left', 'Right', 'Start', 'Select', 'B', 'A']
# of a frame with the power switch the number of its buttons is so much greater
POWER = 256
MACHINES = ('GB', 'SGB', 'GBC')
VBM_HEAD = struct.Struct('<4sIIII4B')
VBM_BYTES = 64
# the bits of a VisualBoyAdvance movie: A B Select Start Right Left Up Down
VBM_BUTTONS = [0x10, 0x20, 0x40, 0x80, 0x01, 0x02, 0x04, 0x08]
# 11 hours
MOST_FRAMES = 2_500_000
MOST_FILE, MOST_HEADER, MOST_LOG, MOST_LINE = 1 << 25, 1 << 16, 1 << 28, 1000
# lines of a log that are no frame, and how much of it is looked at at once
MOST_OTHER, PIECE, MOST_PIECE = 10_000, 1 << 14, 1 << 16
# of comments and marks
MOST_LINES, MOST_LIST = 10_000, 1 << 20
# a movie has about ten parts; each has a head in the directory at its end
MOST_PARTS, MOST_KNOWN = 1_000, 4_096


# ---- a zip file, of which nothing is believed before it is counted

END, PART, LOCAL = struct.Struct('<4s4H2IH'), struct.Struct('<4s6H3I5H2I'), struct.Struct('<4s5H3I2H')
ENCRYPTED, STORED, DEFLATED = 1, 0, 8


def parts_of(data: bytes) -> dict[str, tuple]:
    """The parts of a zip file by the ends of their names in small letters: where each begins, its length as it is packed, how it is packed, its sum."""
    at = data.rfind(b'PK\5\6')
    if at < 0 or len(data) < at + END.size:
        raise Wrong('this is no BizHawk movie')
    *_, count, _, place, _ = END.unpack_from(data, at)
    if count > MOST_PARTS:
        raise Wrong(f'the movie has {count:,} parts, which is no movie')
    found = {}
    for _ in range(count):
        if len(data) < place + PART.size:
            raise Wrong('the movie is cut short')
        mark, _, _, flags, packing, _, _, sum_of, packed, _, name_length, more, comment, _, _, _, begin = PART.unpack_from(data, place)
        if mark != b'PK\1\2':
            raise Wrong('the list of the movie\'s parts is damaged')
        name = data[place + PART.size:place + PART.size + name_length].decode(errors='replace')
        found[re.split(r'[/\\]', name)[-1].lower()] = begin, packed, packing, flags, sum_of
        place += PART.size + name_length + more + comment
    return found


def unpacked(data: bytes, part: tuple, most: int, what: str) -> Iterator[bytes]:
    """The bytes of a part, in pieces: `most` of them at most, whatever it says of its length."""
    begin, packed, packing, flags, sum_of = part
    if flags & ENCRYPTED:
        raise Wrong(f'the {what} is encrypted')
    if packing not in (STORED, DEFLATED):
        raise Wrong(f'the {what} is packed in a way that is not known: {packing}')
    if len(data) < begin + LOCAL.size or data[begin:begin + 4] != b'PK\3\4':
        raise Wrong(f'the {what} is not where the movie says')
    *_, name_length, more = LOCAL.unpack_from(data, begin)
    begin += LOCAL.size + name_length + more
    if len(data) < begin + packed:
        raise Wrong('the movie is cut short')
    length = sum_so_far = 0
    for piece in pieces_of(data, begin, begin + packed, packing, what):
        length, sum_so_far = length + len(piece), zlib.crc32(piece, sum_so_far)
        if length > most:
            raise Wrong(f'the {what} has more than {most:,} bytes')
        yield piece
    if sum_so_far != sum_of:
        raise Wrong(f'the {what} is damaged')


def pieces_of(data: bytes, begin: int, end: int, packing: int, what: str) -> Iterator[bytes]:
    unpacking = zlib.decompressobj(-zlib.MAX_WBITS)
    for at in range(begin, end, PIECE):
        piece = data[at:min(at + PIECE, end)]
        if packing == STORED:
            yield piece
            continue
        try:
            while piece:
                yield unpacking.decompress(piece, MOST_PIECE)
                piece = unpacking.unconsumed_tail
        except zlib.error:
            raise Wrong(f'the {what} is damaged') from None
    # what is left in its window
    while packing == DEFLATED and (piece := unpacking.flush(MOST_PIECE)):
        yield piece


def lines_of(pieces: Iterable[bytes], what: str) -> Iterator[bytes]:
    """The lines of pieces, of which none may be long."""
    rest = b''
    for piece in pieces:
        *lines, rest = (rest + piece).split(b'\n')
        yield from lines
        if len(rest) > MOST_LINE:
            raise Wrong(f'the {what} has a line of more than {MOST_LINE:,} bytes')
    if rest:
        yield rest


# ---- BizHawk

def bk2_frames(path: PathLike) -> array:
    """The frames of a BizHawk movie: the buttons of each, and POWER more with the power switch."""
    return frames_of_bk2(read_bytes(path, MOST_FILE))


def frames_of_bk2(data: bytes) -> array:
    return movie_of_bk2(data)[0]


def movie_of_bk2(data: bytes) -> tuple[array, Notes]:
    """The frames of a BizHawk movie, and its notes, whose marks stand in front of frames."""
    parts = parts_of(data)
    if 'input log.txt' not in parts:
        raise Wrong('the movie has no input log')

    def text(part: str, most: int, what: str) -> list[str]:
        return b''.join(unpacked(data, parts[part], most, what)).decode('utf-8-sig', errors='replace').splitlines()[:MOST_LINES] if part in parts else []
    fields = dict(line.split(' ', 1) for line in text('header.txt', MOST_HEADER, 'header') if ' ' in line)
    for field, what in (('StartsFromSavestate', 'a saved state'), ('StartsFromSaveRam', 'a battery file')):
        if fields.get(field, '').strip().lower() in ('1', 'true'):
            raise Wrong(f'the movie starts from {what}, not from power-on')
    if fields.get('Platform', 'GB').strip() not in MACHINES:
        raise Wrong(f'the movie is of another machine: {printable(fields["Platform"].strip())}')
    count = fields.get('rerecordCount', '').strip()
    notes = Notes(shown(fields.get('Author', '')), int(count) if re.fullmatch('[0-9]{1,18}', count) else 0)
    notes.comments = [line for line in map(shown, text('comments.txt', MOST_LIST, 'list of comments')) if line]
    frames = log_frames(lines_of(unpacked(data, parts['input log.txt'], MOST_LOG, 'input log'), 'input log'))
    for line in text('markers.txt', MOST_LIST, 'list of marks'):
        found = re.fullmatch(r'([0-9]{1,9})\s+(.*)', line)
        if found and int(found[1]) <= len(frames) and shown(found[2]):
            notes.marks[int(found[1])] = shown(found[2])
    return frames, notes


def shown(text: str) -> str:
    """A text of a movie in a line, where `#` begins no comment of a script's."""
    return printable(' '.join(text.split()), MOST_TEXT // 2).replace('#', '＃')


def log_frames(lines: Iterable[bytes]) -> array:
    """The frames of the lines of an input log."""
    key, frames, known = None, array('H'), {}
    for number, line in enumerate(lines, 1):
        if len(frames) > MOST_FRAMES:
            raise Wrong(f'the movie has more than {MOST_FRAMES:,} frames')
        if number - len(frames) > MOST_OTHER:
            raise Wrong(f'the input log has more than {MOST_OTHER:,} lines that are no frame')
        if line.startswith(b'LogKey:'):
            key, known = key_of(line.rstrip()), {}
        elif line.startswith(b'|'):
            if key is None:
                raise Wrong('the input log has no LogKey')
            buttons = known.get(line)
            if buttons is None:
                if len(known) > MOST_KNOWN:
                    known = {}
                try:
                    buttons = known[line] = log_frame(key, line.decode(errors='replace'))
                except ValueError as error:
                    raise Wrong(f'input log, line {number}: {error}') from None
            frames.append(buttons)
    return frames


def key_of(line: bytes) -> list[list[str]]:
    """The groups of the names of buttons, from the line that lists them."""
    groups = line.decode(errors='replace')[len('LogKey:'):].split('#')
    return [[name for name in group.split('|') if name] for group in groups if group]


def log_frame(key: list[list[str]], line: str) -> int:
    parts, buttons = line.strip().strip('|').split('|'), 0
    if len(parts) != len(key):
        raise ValueError(f'{len(parts)} groups, and the LogKey has {len(key)}')
    for names, part in zip(key, parts):
        for name in names:
            axis = re.match(r' *-?\d+,', part)
            if axis:
                # a tilt or the length of an input: in rest, or no button of a Game Boy
                part = part[axis.end():]
                continue
            if not part:
                raise ValueError(f'nothing for {printable(name)}')
            pressed, part = part[0] not in '. ', part[1:]
            if pressed:
                buttons |= bit_of(name)
    return buttons


def bit_of(name: str) -> int:
    """The bit of a button that is pressed."""
    own = name.removeprefix('P1 ')
    if own in NAMES:
        return 1 << NAMES.index(own)
    if own == 'Power':
        return POWER
    if own == 'Reset':
        raise ValueError(f'{name} is pressed: a game here has no reset')
    raise ValueError(f'{printable(name)} is pressed, which is no button of the Game Boy')


def log_lines(frames: Iterable[int]) -> Iterator[bytes]:
    """The lines of an input log of these frames."""
    yield b'[Input]\nLogKey:#' + ''.join(f'{name}|' for name in [*ORDER, 'Power']).encode() + b'\n'
    lines = [b'|' + ''.join(LETTERS[name] if buttons >> NAMES.index(name) & 1 else '.' for name in ORDER).encode() + (b'P|\n' if buttons & POWER else b'.|\n')
             for buttons in range(2 * POWER)]
    for buttons in frames:
        yield lines[buttons]
    yield b'[/Input]\n'


def bk2_of(frames: Iterable[int], cart_name: str, notes: Notes = Notes()) -> bytes:
    """A BizHawk movie of these frames, with notes whose marks stand in front of frames."""
    def lines(*texts: str) -> str:
        return ''.join(f'{text}\n' for text in texts).replace('＃', '#')
    data = io.BytesIO()
    with zipfile.ZipFile(data, 'w', zipfile.ZIP_DEFLATED) as movie:
        movie.writestr('Header.txt', lines('MovieVersion BizHawk v2.0.0', 'Platform GB', 'Core Gambatte', f'GameName {printable(cart_name)}',
                                           *([f'Author {notes.author}'] if notes.author else []), f'rerecordCount {notes.rerecords}'))
        with movie.open('Input Log.txt', 'w') as log:
            for line in log_lines(frames):
                log.write(line)
        movie.writestr('Comments.txt', lines(*notes.comments))
        movie.writestr('Markers.txt', lines(*(f'{at}\t{name}' for at, name in sorted(notes.marks.items()))))
        movie.writestr('Subtitles.txt', '')
    return data.getvalue()


# ---- VisualBoyAdvance

def vbm_frames(data: bytes) -> bytes:
    """The buttons of each frame of a VisualBoyAdvance movie."""
    if len(data) < VBM_BYTES:
        raise Wrong('the movie is cut short')
    magic, version, _, length, _, starts, controllers, system, _ = VBM_HEAD.unpack_from(data)
    if magic != b'VBM\x1a' or version != 1:
        raise Wrong('this is no VisualBoyAdvance movie of version 1')
    if starts & 3:
        raise Wrong(f'the movie starts from {"a saved state" if starts & 1 else "a battery file"}, not from power-on')
    if system & 7:
        raise Wrong('the movie is of another machine: ' + ', '.join(name for bit, name in enumerate(('GBA', 'GBC', 'SGB')) if system >> bit & 1))
    if controllers & 15 != 1:
        raise Wrong('the movie has other players than the first')
    begin = struct.unpack_from('<I', data, 60)[0]
    if len(data) < begin + 2 * length:
        raise Wrong('the movie is cut short')
    if length > MOST_FRAMES:
        raise Wrong(f'the movie has more than {MOST_FRAMES:,} frames')
    own = bytes(sum(button for bit, button in enumerate(VBM_BUTTONS) if bits >> bit & 1) for bits in range(256))
    high = data[begin + 1:begin + 2 * length:2]
    for number, bits in enumerate(high, 1):
        if bits & 0x0c:
            raise Wrong(f'frame {number}: a reset, which a game here has not')
    return data[begin:begin + 2 * length:2].translate(own)


# ---- scripts

def moves_of(frames: Iterable[int]) -> Iterator[tuple]:
    """The moves of frames, equal ones together."""
    held = count = 0
    for one, run in groupby(frames):
        length = sum(1 for _ in run)
        for part in [length] if one < POWER else [1] * length:
            if count and one != held:
                yield 'frames', held, count
                count = 0
            if one >= POWER:
                yield ('power',)
            held, count = one % POWER, count + part
    if count:
        yield 'frames', held, count


def marked(moves: Iterable[tuple], marks: dict[int, str]) -> Iterator[tuple]:
    """The moves with marks, each behind so many inputs."""
    left, count = sorted(marks.items(), reverse=True), 0
    for move in moves:
        while left and left[-1][0] < count + inputs_of(move):
            place, name = left.pop()
            if place > count:
                yield 'frames', move[1], place - count
                move, count = ('frames', move[1], move[2] - place + count), place
            yield 'mark', name
        count += inputs_of(move)
        yield move
    yield from (('mark', name) for _, name in reversed(left))


def frames_of(moves: Iterable[tuple]) -> array:
    return movie_of(moves)[0]


def movie_of(moves: Iterable[tuple]) -> tuple[array, dict[int, str]]:
    """The frames of moves, and the marks in front of frames."""
    frames, marks, power = array('H'), {}, 0
    for move in moves:
        if move[0] == 'seconds':
            raise Wrong('the script has `seconds`, and a movie has no clock')
        if move[0] == 'mark':
            marks[len(frames)] = f'{marks[len(frames)]}, {move[1]}' if len(frames) in marks else move[1]
        elif move[0] == 'power':
            if power:
                raise Wrong('the script has `power` twice without a frame between, and a movie has it in a frame')
            power = POWER
        elif move[0] == 'frames':
            if len(frames) + move[2] > MOST_FRAMES:
                raise Wrong(f'a movie has {MOST_FRAMES:,} frames at most')
            frames.extend(array('H', (move[1],)) * move[2])
            frames[-move[2]] += power
            power = 0
    if power:
        raise Wrong('the script ends with `power`, and a movie has it in a frame')
    return frames, marks


def notes_in(script: PathLike) -> Notes:
    """The notes that stand in the comments of a script."""
    notes = Notes()
    if script != '-':
        for line in read_bytes(script, MOST_SIZE).decode(errors='replace').splitlines():
            if re.match('# (author|comment|rerecords) ', line):
                notes.take(line[2:])
    return notes


def friendly_lines(frames: array, notes: Notes) -> Iterator[str]:
    """The lines of a friendly script of a movie."""
    yield from (f'# {line}' for line in notes.about())
    before = list(accumulate((one >= POWER for one in frames), initial=0)) if notes.marks else []
    yield from map(friendly_line, marked(moves_of(frames), {at + before[at]: name for at, name in notes.marks.items()}))


def movie_in(path: PathLike) -> tuple[array, Notes]:
    data = read_bytes(path, MOST_FILE)
    if data.startswith(OURS):
        raise Wrong(f'{printable(path)}: this is a file of gbkeep and no movie; `gbkeep recorded CART RECORDING` prints a recording as a script')
    return (array('H', list(vbm_frames(data))), Notes()) if data.startswith(b'VBM') else movie_of_bk2(data)


def main(words: list[str]) -> None:
    words = operands(words)
    if len(words) == 2 and words[0] == 'script':
        printed(own_lines(moves_of(movie_in(words[1])[0])))
    elif len(words) == 2 and words[0] == 'friendly':
        printed(friendly_lines(*movie_in(words[1])))
    elif len(words) in (3, 4) and words[0] == 'bk2':
        *inputs, out = words[1:]
        with new_file(out, inputs, must_be_new=True) as file:
            if len(inputs) == 2 and not is_recording(inputs[1]):
                raise Wrong(f'{printable(inputs[1])}: this is no recording')
            notes = notes_of(inputs[1]) if len(inputs) == 2 else notes_in(inputs[0])
            frames, notes.marks = movie_of(marked(recorded_moves(*inputs), notes.marks) if len(inputs) == 2 else friendly_moves(inputs[0]))
            file.write(bk2_of(frames, Path(inputs[0]).stem, notes))
    else:
        raise WrongWords


def start() -> NoReturn:
    run_tool(main, __doc__)


if __name__ == '__main__':
    start()
