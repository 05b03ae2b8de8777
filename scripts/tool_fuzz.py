#!/usr/bin/env python3
"""Gives the tools files, names and words that are damaged at random, and looks at how each run ends.

usage: tool_fuzz.py GBKEEP SECONDS [SEED]     for so many seconds, from a seed that it prints

A run may print what it likes, but it ends within seconds and a gibibyte, with status 0, 1 or 2; what it says on standard error is no traceback and
steers no terminal, and is one line where it refuses; and of all files only the one that it was asked to write has changed, which was not there, or was
a file of the same kind. What is damaged: movies (.bk2, .vbm), labels (.sym, .noi, .map), lines of C (.cdb), pictures (PNG, PGM), lists, scripts, battery files and clocks, SAVE,
RECORDING, the time beside SAVE, names, counts, and lines of the debugger. The status is 1 where a run ends in another way; its files are kept."""
import hashlib
import os
import random
import re
import resource
import shlex
import shutil
import stat
import struct
import subprocess
import sys
import tempfile
import time
import zipfile
import zlib
from collections.abc import Callable
from pathlib import Path

from gbkeep.movie import bk2_of
from gbkeep.pictures import PNG_HEAD, chunk, png_of
from gbkeep_tests.support import CART, bare_words

SECONDS, MEMORY = 60, 1 << 30
PICTURE = b'P2\n160 144\n3\n' + b' '.join([b'3'] * 160 * 144) + b'\n'
# what a file begins with that may be replaced by one of its kind
KINDS_OF_FILES = [(b'YUV4MPEG2',), (b'\x89PNG', b'P2'), (b'<testsuite',)]
WORDS = [b'', b'A', b'A+right', b'wait', b'frame', b'frames', b'seconds', b'save', b'power', b'mark', b'include', b'00', b'1f', b'FF', b'0', b'1', b'60', b'1000000', b'4294967295', b'-1', b'+1', b'9' * 30,
         b'9' * 5000, b'#', b'\t', b'\r', b'\xff', b'\x1b[31m', b'\0', b'x', b'../demo.gb', b'moves.txt', b'fifo', b'/dev/zero', b'wants=pass', b'wants=fail', b'wants=memory:C000=00', b'wants=memory:', b'wants=memory:C000=00,FFFF=1', b'frames=3', b'frames=', b'picture=picture.pgm',
         b'picture=small.png', b'script=moves.txt', b'demo.gb', b'LogKey:#A|B|', b'|..|', b'|A.|', b'00:0150', b'Main', b'\xd9\xa3', b'\xe2\x80\xae']
NUMBERS = [0, 1, 2, 0x7f, 0x80, 0xff, 0xffff, 0x7fff_ffff, 0x8000_0000, 0xffff_ffff]


# ---- what is damaged

def damaged(rnd: random.Random, data: bytes) -> bytes:
    """Bytes with a few places changed."""
    found = bytearray(data)
    for _ in range(rnd.choice([0, 1, 1, 2, 3, 8])):
        at = rnd.randrange(len(found) + 1)
        choice = rnd.randrange(9)
        if choice == 0:
            del found[at:]
        elif choice == 1:
            del found[at:at + rnd.choice([1, 2, 4, 30])]
        elif choice == 2:
            found[at:at] = rnd.randbytes(rnd.choice([1, 2, 4, 30]))
        elif choice == 3:
            found[at:at + 1] = rnd.choice(WORDS)
        elif choice == 4:
            length = rnd.choice([1, 2, 4, 8])
            found[at:at + length] = (rnd.choice(NUMBERS) & (1 << 8 * length) - 1).to_bytes(length, rnd.choice(['little', 'big']))
        elif choice == 5:
            found[at:at] = found[at:at + rnd.choice([1, 10, 100])] * rnd.choice([1, 2, 50])
        elif choice == 6:
            found[at:at] = rnd.choice([b' ', b'\n', b'\r\n', b'=', b'|', b':']) + rnd.choice(WORDS) + b'\n'
        elif at < len(found):
            found[at] ^= 1 << rnd.randrange(8)
    return bytes(found)


def lines(rnd: random.Random) -> bytes:
    return b'\n'.join(b' '.join(rnd.choice(WORDS) for _ in range(rnd.choice([1, 2, 2, 3, 4]))) for _ in range(rnd.randrange(8)))


def some_png(rnd: random.Random) -> bytes:
    """A PNG of any kind, whose rows are damaged before they are packed, or after."""
    depth, colour, scale = rnd.choice([1, 2, 4, 8, 8, 16]), rnd.choice([0, 0, 2, 3, 4, 6]), rnd.choice([1, 1, 2, 3])
    samples = {0: 1, 2: 3, 3: 1, 4: 2, 6: 4}[colour]
    size = (160 * scale * depth * samples + 7) // 8
    rows = b''.join(bytes([rnd.randrange(5)]) + bytes(size) for _ in range(144 * scale))
    head = struct.pack('>IIBBBBB', 160 * scale, 144 * scale, depth, colour, 0, 0, 0)
    if rnd.random() < 0.3:
        head = damaged(rnd, head)
    if rnd.random() < 0.3:
        rows = damaged(rnd, rows)
    palette = chunk(b'PLTE', rnd.randbytes(3 * rnd.choice([0, 1, 4, 256])))
    return PNG_HEAD + chunk(b'IHDR', head) + palette + chunk(b'IDAT', zlib.compress(rows)) + chunk(b'IEND', b'')


def some_bk2(rnd: random.Random) -> bytes:
    """A movie whose parts are damaged before they are packed, or after."""
    if rnd.random() < 0.4:
        return bk2_of([rnd.randrange(512) for _ in range(rnd.randrange(40))], 'a game')
    with tempfile.TemporaryFile() as file:
        with zipfile.ZipFile(file, 'w', rnd.choice([zipfile.ZIP_STORED, zipfile.ZIP_DEFLATED, zipfile.ZIP_DEFLATED, zipfile.ZIP_BZIP2])) as movie:
            movie.writestr(rnd.choice(['Header.txt', 'x/Header.txt', 'header.TXT']), damaged(rnd, b'MovieVersion BizHawk v2.0.0\nPlatform GB\nAuthor a b\nrerecordCount 3\n'))
            movie.writestr('Comments.txt', damaged(rnd, b'a comment\n#1\n'))
            movie.writestr('Markers.txt', damaged(rnd, b'0\tbegin\n3\tthe end\n'))
            movie.writestr('Input Log.txt', damaged(rnd, b'[Input]\nLogKey:#Tilt X|#Up|Down|Left|Right|Start|Select|B|A|Power|\n' + b'|    0,|.........|\n' * rnd.randrange(9) + b'[/Input]\n'))
        file.seek(0)
        return file.read()


def some_vbm(rnd: random.Random) -> bytes:
    buttons = [rnd.randrange(256) for _ in range(rnd.randrange(40))]
    head = struct.pack('<4sIIII4B', b'VBM\x1a', 1, 0, len(buttons), 0, 0, 1, 0, 0)
    return head + bytes(60 - len(head)) + struct.pack('<I', 64) + struct.pack(f'<{len(buttons)}H', *buttons)


def some_name(rnd: random.Random) -> bytes:
    """A name that is there, one that is not, or one that is no text."""
    return rnd.choice([b'demo.gb', b'run.gbkeep', b'run.rec', b'other.gbkeep', b'moves.txt', b'picture.pgm', b'small.png', b'fifo', b'folder', b'nowhere', b'link.rec', b'/dev/zero', b'/dev/null',
                       b'missing', b'\xff\xfe', b'\x1b[31m', b'\n', b'x' * 300, b'', b'.', b'/', b'./run.rec', b'film.y4m', b'made.png', b'report.xml', b'-', b'--', b'--help', b'made/none',
                       bytes(rnd.randrange(1, 256) for _ in range(5))])


def some_count(rnd: random.Random) -> bytes:
    return rnd.choice([b'0', b'1', b'3', b'64', b'65', b'-1', b'+1', b'9' * 19, b'9' * 5000, b'x', b'\xd9\xa3', b'1e3', b'', b' 3', b'18446744073709551616', str(rnd.randrange(99)).encode()])


# ---- one run

class Room:
    """A folder with a game of each kind, as it is before each run."""

    def __init__(self, program: str, folder: Path):
        self.program, self.folder, self.kept = program, folder, {}
        shutil.copy(CART, folder / 'demo.gb')
        self.command('new', 'demo.gb', 'run.gbkeep')
        self.command('new-recording', 'demo.gb', 'run.rec', '20')
        self.command('record', 'demo.gb', 'run.gbkeep', 'run.rec', typed=b'frames 00 30\nframes 80 4\nseconds 3\nframes 01 30\n')
        self.command('new', 'demo.gb', 'other.gbkeep')
        for name, data in (('moves.txt', b'wait 5\nstart 3\n'), ('picture.pgm', PICTURE), ('small.png', png_of(bytes(160 * 144), 160, 144, 1)), ('film.y4m', b'YUV4MPEG2 old'), ('made.png', b''),
                           ('report.xml', b'<testsuite old'), ('clock.rtc', bytes(8)), ('battery', bytes(32768)), ('demo.sym', b'00:0150 Main\n03:4000 Far\n'),
                           ('other.gbkeep.time', b'0 1700000000\n30 1700000060\n')):
            (folder / name).write_bytes(data)
        (folder / 'folder').mkdir()
        os.mkfifo(folder / 'fifo')
        (folder / 'nowhere').symlink_to('missing-target')
        (folder / 'link.rec').symlink_to('run.rec')
        self.kept = {name: (folder / os.fsdecode(name)).read_bytes() for name in os.listdir(os.fsencode(folder)) if self.is_file(name)}
        # an empty file is as one that is not there
        self.full = {name for name, data in self.kept.items() if data}
        self.others = {name for name in os.listdir(os.fsencode(folder)) if name not in self.kept}

    def command(self, *words: str, typed: bytes = b'') -> None:
        subprocess.run([self.program, *words], cwd=self.folder, input=typed, capture_output=True, check=True)

    def is_file(self, name: bytes) -> bool:
        return stat.S_ISREG(os.lstat(os.path.join(os.fsencode(self.folder), name)).st_mode)

    def write(self, name: str, data: bytes) -> str:
        (self.folder / name).write_bytes(data)
        return name

    def clear(self) -> None:
        """Makes the folder what it was."""
        for name in os.listdir(os.fsencode(self.folder)):
            path = os.path.join(os.fsencode(self.folder), name)
            if name in self.kept and self.is_file(name):
                if Path(os.fsdecode(path)).read_bytes() != self.kept[name]:
                    Path(os.fsdecode(path)).write_bytes(self.kept[name])
            elif name not in self.others:
                shutil.rmtree(path) if os.path.isdir(path) else os.unlink(path)
        for name, data in self.kept.items():
            path = Path(os.fsdecode(os.path.join(os.fsencode(self.folder), name)))
            if not path.exists():
                path.write_bytes(data)

    def files(self) -> dict[bytes, str]:
        found = {}
        for name in os.listdir(os.fsencode(self.folder)):
            path = os.path.join(os.fsencode(self.folder), name)
            found[name] = hashlib.sha256(Path(os.fsdecode(path)).read_bytes()).hexdigest() if self.is_file(name) else str(os.lstat(path).st_mode)
        return found


def bounded() -> None:
    resource.setrlimit(resource.RLIMIT_AS, (MEMORY, resource.getrlimit(resource.RLIMIT_AS)[1]))


def is_of_a_kind(some: bytes, other: bytes) -> bool:
    return any(some.startswith(heads) and other.startswith(heads) for heads in KINDS_OF_FILES)


def wrong_with(room: Room, words: list, typed: bytes, writes: set[bytes]) -> str:
    """What is wrong with a run of a tool, or nothing."""
    before = room.files()
    # what is read is never written
    named = [os.path.basename(word) for word in words if isinstance(word, bytes)]
    writes = {name for name in writes if named.count(name) < 2 or name in SAVES}
    try:
        done = subprocess.run(words, cwd=room.folder, input=typed, capture_output=True, preexec_fn=bounded, timeout=SECONDS,
                              env=dict(os.environ, GBKEEP=room.program))
    except subprocess.TimeoutExpired:
        return f'it does not end within {SECONDS} seconds'
    after = room.files()
    changed = {name for name in before.keys() | after.keys() if before.get(name) != after.get(name)} - writes
    told = done.stderr.decode(errors='surrogateescape')
    if done.returncode not in (0, 1, 2):
        return f'status {done.returncode}: {told[-400:]}'
    if 'Traceback' in told or 'Error' in told and 'AddressSanitizer' in told:
        return told[-1500:]
    if not all(one.isprintable() or one == '\n' for one in told):
        return f'it steers a terminal: {told!r:.400}'
    # a file of labels that is none is a warning, and the tool goes on
    told = re.sub(r'^gbkeep-debug: warning: .*\n', '', told, flags=re.M)
    if done.returncode == 1 and told.count('\n') > 1 or done.returncode == 0 and told:
        return f'status {done.returncode}, and {told.count(chr(10))} lines: {told!r:.400}'
    if changed:
        return f'changed: {sorted(changed)!r:.400}'
    for name in writes & before.keys() & after.keys():
        was, path = room.kept.get(name, b''), os.path.join(os.fsencode(room.folder), name)
        if was and before[name] != after[name] and name not in SAVES and not is_of_a_kind(was, Path(os.fsdecode(path)).read_bytes()):
            return f'{name!r} was another kind of file, and is written over'
    return ''


# the files that a game writes of itself
SAVES = {b'run.gbkeep', b'other.gbkeep', b'run.rec', b'other.gbkeep.recorded', b'run.gbkeep.recorded', b'new.gbkeep', b'new.rec', b'new.gbkeep.recorded'}


def maybe(rnd: random.Random, name: str) -> bytes:
    """Mostly this name."""
    return name.encode() if rnd.random() < 0.85 else some_name(rnd)


def target(rnd: random.Random, name: str) -> tuple[bytes, set[bytes]]:
    """A name to be written, and what may have changed then."""
    chosen = name.encode() if rnd.random() < 0.5 else some_name(rnd)
    plain = os.path.basename(chosen)
    return chosen, {plain} - SAVES


def movies(rnd, room):
    kind, made = rnd.choice([('fuzzed.bk2', some_bk2), ('fuzzed.vbm', some_vbm)])
    room.write(kind, damaged(rnd, made(rnd)) if rnd.random() < 0.8 else made(rnd))
    return [*bare_words('movie'), rnd.choice(['script', 'friendly']), maybe(rnd, kind)], b'', set()


def scripts(rnd, room):
    room.write('fuzzed.txt', lines(rnd) if rnd.random() < 0.5 else damaged(rnd, b'A+right 60 # far\nwait 3\nseconds 36\nmark x\nsave\nframes 11 7\ninclude moves.txt\n'))
    name, tool = maybe(rnd, 'fuzzed.txt'), rnd.randrange(4)
    if tool == 0:
        out, writes = target(rnd, 'made.bk2')
        return [*bare_words('movie'), 'bk2', name, out], b'', writes
    if tool == 1:
        out, writes = target(rnd, 'film.y4m')
        return [*bare_words('film'), '--to', '3', b'demo.gb', b'moves.txt' if rnd.random() < 0.5 else name, out], b'', writes
    typed = lines(rnd) if rnd.random() < 0.3 else b''
    return [*bare_words('script'), rnd.choice(['own', 'friendly', 'check', 'marks']), b'-' if typed and rnd.random() < 0.5 else name], typed, set()


def plays(rnd, room):
    """Scripts that are played: none of them is long."""
    text = damaged(rnd, b'A+right 6\nwait 3\nsave\nframes 11 7\nseconds 3\n')
    room.write('played.txt', text if max(map(len, re.findall(rb'[0-9]+', text)), default=0) < 5 else b'A 3\n')
    script = maybe(rnd, rnd.choice(['played.txt', 'run.rec']))
    cart, save = maybe(rnd, 'demo.gb'), maybe(rnd, rnd.choice(['other.gbkeep', 'run.gbkeep', 'new.gbkeep']))
    words = [*bare_words('script'), 'play'] if rnd.random() < 0.5 else [*bare_words('rest')]
    if rnd.random() < 0.4:
        words += ['--record', maybe(rnd, rnd.choice(['run.rec', 'new.rec']))]
    writes = SAVES | {os.path.basename(word) for word in (save, *words) if isinstance(word, bytes)} | {os.path.basename(save) + b'.recorded'}
    return [*words, cart, save, script], b'', writes - {b'demo.gb', b'moves.txt', b'picture.pgm', b'small.png', b'film.y4m', b'made.png', b'report.xml'}


def pictures(rnd, room):
    if rnd.random() < 0.4:
        room.write('fuzzed.pgm', damaged(rnd, PICTURE))
        out, writes = target(rnd, 'made.png')
        return [*bare_words('png'), maybe(rnd, 'fuzzed.pgm'), out], b'', writes
    room.write('fuzzed.pgm', damaged(rnd, PICTURE))
    made = some_png(rnd) if rnd.random() < 0.7 else png_of(bytes(160 * 144), 160, 144, 1)
    room.write('fuzzed.png', damaged(rnd, made) if rnd.random() < 0.6 else made)
    room.write('list.txt', b'demo.gb frames=1 picture=' + rnd.choice([b'fuzzed.png', b'fuzzed.png', b'fuzzed.pgm']) + b'\n')
    out, writes = target(rnd, 'report.xml')
    return [*bare_words('run_tests'), '--jobs', '1', '--junit', out, b'list.txt'], b'', writes


def lists(rnd, room):
    text = lines(rnd) if rnd.random() < 0.5 else damaged(rnd, b'demo.gb frames=3\ndemo.gb frames=2 script=moves.txt picture=picture.pgm # far\n')
    room.write('list.txt', text if max(map(len, re.findall(rb'[0-9]+', text)), default=0) < 4 or rnd.random() < 0.3 and b'frames=1' not in text else b'demo.gb frames=2\n')
    out, writes = target(rnd, 'report.xml')
    words = [*bare_words('run_tests'), '--frames', rnd.choice([b'3', some_count(rnd)]), '--jobs', rnd.choice([b'2', some_count(rnd)])]
    if rnd.random() < 0.3:
        # a picture that is stored, wherever the list says
        stored = {os.path.basename(name) for name in re.findall(rb'picture=([^\s#]+)', (room.folder / 'list.txt').read_bytes())}
        return [*words, '--bless', maybe(rnd, 'list.txt')], b'', stored - SAVES
    return [*words, '--junit', out, maybe(rnd, 'list.txt')], b'', writes


def debuggers(rnd, room):
    room.write('fuzzed.sym', damaged(rnd, rnd.choice([
        b'; a file of labels\n00:0150 Main\n00:0154 Main.loop\n03:4000 Elsewhere\n00:c000 wKeys\n',
        b'[labels]\n0000:0150 Main\n0003:4000 Elsewhere\n[definitions]\n00000005 FIVE\n', b'DEF Main 0x150\nDEF Elsewhere 0x34000\nDEF l__CODE 0x3A3\nLOAD game.ihx\n',
        b'ASxxxx Linker V03.00\n      Value  Global   Global Defined In Module\n     00000150  Main     main\n     00034000  Elsewhere\n'])))
    if rnd.random() < 0.3:
        room.write('demo.cdb', damaged(rnd, b'M:main\nL:C$moves.txt$1$0_0$2:150\nL:C$main.c$3$1_0$2:34000\nL:C$../moves.txt$1$1_0$2:154\nS:G$wKeys$0_0$0({4}DA2d,SI:S),E,0,0\nL:G$wKeys$0_0$0:C000\n'
                                       b'T:Fmain$s[({0}S:S$x$0_0$0({1}SC:U),Z,0,0)]\nS:G$Main$0_0$0({1}STs:S),E,0,0\nL:G$Main$0_0$0:C004\n'))
    names = [b'step', b'until', b'until-op', b'frame', b'frames', b'seconds', b'registers', b'history', b'list', b'memory', b'serial', b'picture', b'digest', b'help', b'quit', b'save',
             b'until-write', b'until-read', b'until-change', b'bank', b'set', b'set-register', b'profile', b'over', b'out', b'where', b'tiles', b'map 9800', b'map', b'objects', b'break', b'watch', b'watch read', b'delete', b'breakpoints', b'step-back', b'continue-back', b'next-back', b'finish-back', b'last-write',
             b'last-read', b'last-change', b'goto', b'goto end', b'mark', b'press', b'print', b'locals', b'calls']
    typed = b'\n'.join(b' '.join([rnd.choice(names), *(rnd.choice([b'Main', b'Elsewhere', b'2:4000', b'0150', b'$156', b'3', b'00', b'HL', b'wKeys', some_count(rnd)]) for _ in range(rnd.randrange(3)))]) for _ in range(rnd.randrange(6)))
    if re.search(rb'(step|until|until-op|until-write|until-read|until-change|profile|over|out|frames|seconds) [0-9]{6}', typed):
        typed = b'registers\n'
    typed = damaged(rnd, typed) if rnd.random() < 0.3 else typed
    typed = b'digest\n' if re.search(rb'[0-9]{7}', typed) else typed
    words = [*bare_words('debug')]
    if rnd.random() < 0.3:
        words += ['--save', maybe(rnd, rnd.choice(['run.gbkeep', 'other.gbkeep']))]
    out, writes = target(rnd, 'made.png')
    if b'\n' not in out and rnd.random() < 0.3:
        typed = b'picture ' + out + b'\n' + typed
    pictures_of = {os.path.basename(name) for name in re.findall(rb'(?:picture|tiles|objects|map\s+\S+)\s+(\S+)', typed)}
    return [*words, maybe(rnd, 'demo.gb'), maybe(rnd, 'fuzzed.sym')], typed, writes | pictures_of | SAVES


def recordings(rnd, room):
    room.write('fuzzed.rec', damaged(rnd, room.kept[b'run.rec']))
    recording, cart = maybe(rnd, rnd.choice(['fuzzed.rec', 'run.rec'])), maybe(rnd, 'demo.gb')
    tool = rnd.randrange(4)
    if tool == 0:
        save, new = maybe(rnd, 'new.gbkeep'), maybe(rnd, 'new.rec')
        made = {os.path.basename(save), os.path.basename(new), os.path.basename(save) + b'.recorded'} - room.kept.keys()
        return [*bare_words('branch'), cart, recording, rnd.choice([b'3', some_count(rnd)]), save, new], b'', made
    if tool == 1:
        return [*bare_words('verify'), cart, maybe(rnd, 'run.gbkeep'), recording], b'', set()
    if tool == 2:
        out, writes = target(rnd, 'made.bk2')
        return [*bare_words('movie'), 'bk2', cart, recording, out], b'', writes
    out, writes = target(rnd, 'film.y4m')
    return [*bare_words('film'), rnd.choice(['--to', '--from']), rnd.choice([b'3', b'60', some_count(rnd)]), cart, recording, out], b'', writes


def batteries(rnd, room):
    battery = rnd.choice([bytes(256), bytes(512), bytes(8192), bytes(32768), bytes(32768 + 44), rnd.randbytes(32768 + 48), rnd.randbytes(48)])
    room.write('fuzzed.srm', damaged(rnd, battery) if rnd.random() < 0.6 else battery)
    room.write('fuzzed.rtc', rnd.randbytes(8) if rnd.random() < 0.7 else damaged(rnd, bytes(8)))
    room.write('fuzzed.gbkeep', damaged(rnd, room.kept[rnd.choice([b'run.gbkeep', b'other.gbkeep'])]))
    out, writes = target(rnd, 'made.srm')
    writes = writes | {os.path.splitext(os.path.basename(out))[0] + b'.rtc'} - room.full
    if rnd.random() < 0.5:
        return [*bare_words('battery'), 'of-save', maybe(rnd, rnd.choice(['fuzzed.gbkeep', 'run.gbkeep'])), out], b'', writes - room.full
    words = [*bare_words('battery'), rnd.choice(['to-mgba', 'to-gambatte', 'from-mgba', 'from-gambatte'])]
    words += rnd.choice([[], ['--now'], ['--time', some_count(rnd)], ['--mbc2'], ['--now', '--mbc2']])
    if rnd.random() < 0.3:
        save = maybe(rnd, 'other.gbkeep')
        return [*words, maybe(rnd, 'demo.gb'), save, out], b'', writes - room.full
    return [*words, maybe(rnd, 'fuzzed.srm'), out], b'', writes - room.full


TIMES = '''import sys
from gbkeep.timed_game import SaveTime, WrongTime
try:
    SaveTime(sys.argv[1]).read()
except WrongTime as error:
    print(error, file=sys.stderr)
    sys.exit(1)
'''


def times(rnd, room):
    """The time beside a SAVE, as the window reads it."""
    room.write('timed.gbkeep.time', lines(rnd) if rnd.random() < 0.2 else damaged(rnd, room.kept[b'other.gbkeep.time']))
    return [sys.executable, '-S', '-c', TIMES, b'timed.gbkeep'], b'', set()


KINDS: list[Callable] = [movies, scripts, plays, pictures, lists, debuggers, recordings, batteries, times]


def main() -> int:
    if len(sys.argv) not in (3, 4):
        sys.exit(__doc__)
    program, until = os.path.abspath(sys.argv[1]), time.monotonic() + float(sys.argv[2])
    seed = int(sys.argv[3]) if len(sys.argv) == 4 else random.SystemRandom().randrange(1 << 32)
    counts, wrong = {kind.__name__: 0 for kind in KINDS}, 0
    with tempfile.TemporaryDirectory(prefix='tool-fuzz-') as beside:
        # the modules of the tools are compiled once
        os.environ['PYTHONPYCACHEPREFIX'] = beside
        os.environ.pop('PYTHONDONTWRITEBYTECODE', None)
        # the bound is for the tools: a program that is built to be watched takes more
        unbounded, folder = Path(beside) / 'gbkeep', Path(beside) / 'room'
        unbounded.write_text(f'#!/bin/sh\nulimit -S -v unlimited\nexec {shlex.quote(program)} "$@"\n')
        unbounded.chmod(0o755)
        folder.mkdir()
        room, number = Room(str(unbounded), folder), 0
        while time.monotonic() < until:
            rnd, number = random.Random(f'{seed} {number}'), number + 1
            kind = KINDS[number % len(KINDS)]
            words, typed, writes = kind(rnd, room)
            counts[kind.__name__] += 1
            why = wrong_with(room, words, typed, writes)
            if why:
                wrong += 1
                kept = Path(tempfile.mkdtemp(prefix='tool-fuzz-kept-'))
                subprocess.run(['cp', '-a', folder, kept])
                print(f'WRONG kind={kind.__name__} seed={seed} number={number - 1} kept={kept}: {words} {typed!r:.300}: {why}', flush=True)
            room.clear()
    print(f'tools: seed {seed}, {sum(counts.values())} runs ({", ".join(f"{count} {kind}" for kind, count in counts.items())}), {wrong} wrong')
    return 1 if wrong else 0


if __name__ == '__main__':
    sys.exit(main())
