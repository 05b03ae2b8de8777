"""Attacks the tools with the files and words of somebody who means harm, or who has mixed up two names.

usage: test_hostile_inputs.py GBKEEP [ATTACK..]

Each attack is a run of a tool: within seconds and a gibibyte it ends with the status that it has to, by one line that no terminal is steered by, and
every file is as it was. The status is 1 if an attack succeeded, and each that did is told."""
import functools
import hashlib
import os
import re
import resource
import shlex
import shutil
import signal
import stat
import struct
import subprocess
import sys
import tempfile
import threading
import time
import unittest
import zlib
from concurrent.futures import ThreadPoolExecutor
from pathlib import Path
from typing import Optional
from xml.etree import ElementTree

from gbkeep.pictures import PNG_HEAD, chunk
from gbkeep_tests import support
from gbkeep_tests.support import CART, TOP, bare_words

SECONDS, MEMORY = 60, 1 << 30
TEST_ROMS = TOP / 'examples/test_roms'
NINES = '9' * 5_000
RECORDED = 'frames 00 30\nframes 80 4\nframes 01 30\n'
FILM_HEAD = b'YUV4MPEG2 '
PICTURE = b'P2\n160 144\n3\n' + b'3 ' * (160 * 144)


class Room(support.Room):
    """A folder with a game of each kind, for one attack after another."""

    def __init__(self, program: str, folder: Path):
        super().__init__(program, folder)
        self.wrong, self.count, self.lock = [], 0, threading.Lock()

    def data(self, name) -> bytes:
        return self.path(name).read_bytes() if self.path(name).is_file() else b''

    def expect(self, what: str, got: object, wanted: object) -> None:
        with self.lock:
            self.count += 1
            if got != wanted:
                self.wrong.append(f'{what}: {got!r:.400}, and not {wanted!r:.200}')

    def command(self, *words, typed: bytes = b'') -> subprocess.CompletedProcess:
        return subprocess.run([self.program, *words], cwd=self.folder, input=typed, capture_output=True)

    def run(self, tool: str, *words, typed=b'', program: Optional[str] = None, folder: Optional[Path] = None) -> subprocess.CompletedProcess:
        """Runs a tool with bounded memory. A status of None: it did not end."""
        line = [*bare_words(tool), *words]
        how = dict(cwd=folder or self.folder, env=dict(os.environ, GBKEEP=program or self.program), capture_output=True, preexec_fn=bounded)
        how['stdin' if hasattr(typed, 'fileno') else 'input'] = typed
        try:
            return subprocess.run(line, timeout=SECONDS, **how)
        except subprocess.TimeoutExpired as late:
            return subprocess.CompletedProcess(line, None, late.stdout or b'', late.stderr or b'')

    def refused(self, what: str, tool: str, *words, status: int = 1, says: str = '', typed=b'', program: Optional[str] = None, but: tuple = ()) -> None:
        """A run that has to be refused, with every file as it was, but for some."""
        before = held(self.folder)
        done = self.run(tool, *words, typed=typed, program=program)
        lines = done.stderr.decode(errors='replace').splitlines()
        told = (done.returncode, b'Traceback' in done.stderr, len(lines) == 1 or status == 2, is_printable(done.stderr, done.stdout), says in ''.join(lines))
        self.expect(f'{what} ({tool}): {lines[-1:]}', told, (status, False, True, True, True))
        changed = [name for name in changes(before, held(self.folder)) if os.path.basename(name).decode(errors='replace') not in but]
        self.expect(f'{what} ({tool}): what is changed', changed, [])

    def runs(self, what: str, tool: str, *words, wanted: Optional[bytes] = None, typed=b'') -> bytes:
        """A run that has to succeed."""
        done = self.run(tool, *words, typed=typed)
        self.expect(f'{what} ({tool})', (done.returncode, done.stderr), (0, b''))
        if wanted is not None:
            self.expect(f'{what} ({tool})', done.stdout, wanted)
        return done.stdout


def bounded() -> None:
    resource.setrlimit(resource.RLIMIT_AS, (MEMORY, resource.getrlimit(resource.RLIMIT_AS)[1]))


def is_printable(*texts: bytes) -> bool:
    return all(one.isprintable() or one == '\n' for text in texts for one in text.decode(errors='surrogateescape'))


def held(folder: Path) -> dict[bytes, str]:
    """What each name below a folder is, with the sum of its bytes."""
    found = {}
    for place, folders, files in os.walk(os.fsencode(folder)):
        for name in folders + files:
            path = os.path.join(place, name)
            how = os.lstat(path)
            found[path] = sum_of(path, how.st_ino, how.st_ctime_ns) if stat.S_ISREG(how.st_mode) else os.readlink(path) if stat.S_ISLNK(how.st_mode) else 'other'
    return found


@functools.lru_cache(None)
def sum_of(path: bytes, *_: int) -> str:
    """The length of a file, and the sum of what it begins with: some are as long as a disk. Whoever writes it changes its times."""
    with open(path, 'rb') as file:
        return f'{os.fstat(file.fileno()).st_size} {hashlib.sha256(file.read(1 << 22)).hexdigest()}'


def changes(before: dict, after: dict) -> list[bytes]:
    return sorted(name for name in before.keys() | after.keys() if before.get(name) != after.get(name))


# ---- what is written over

def attack_film(room):
    targets = ['run.rec', './run.rec', 'link.rec', 'hard.rec', 'demo.gb', 'hard.gb', 'other.gbkeep', 'text.txt', 'photo.jpg', 'fifo', 'nowhere', 'folder', '/dev/null', 'run.gbkeep']
    for target in targets:
        room.refused(f'a film over {target}', 'film', 'demo.gb', 'run.rec', target)
    room.refused('a film over its script', 'film', 'demo.gb', 'moves.txt', 'moves.txt')
    room.refused('a film over its script by a link', 'film', 'demo.gb', 'moves.txt', 'link.txt')
    room.runs('a film', 'film', 'demo.gb', 'moves.txt', 'film.y4m')
    room.expect('the film', room.data('film.y4m')[:10], FILM_HEAD)
    room.path('film.y4m').chmod(0o600)
    before = room.data('film.y4m')
    room.runs('a film again', 'film', '--to', '3', 'demo.gb', 'moves.txt', 'film.y4m')
    room.expect('the new film', (len(room.data('film.y4m')) < len(before), room.path('film.y4m').stat().st_mode & 0o777), (True, 0o600))
    room.path('film.link').symlink_to('film.y4m')
    room.runs('a film by a link', 'film', '--to', '2', 'demo.gb', 'moves.txt', 'film.link')
    room.expect('the link stays, and its film is new', (room.path('film.link').is_symlink(), room.path('film.y4m').read_bytes().count(b'FRAME\n')), (True, 2))
    room.runs('a film again', 'film', '--to', '3', 'demo.gb', 'moves.txt', 'film.y4m')
    reader = subprocess.Popen(['cat', 'fifo'], cwd=room.folder, stdout=subprocess.PIPE)
    until = time.monotonic() + SECONDS
    while True:
        done = room.run('film', '--to', '3', 'demo.gb', 'moves.txt', 'fifo')
        # the reader may not have come yet
        if b'nobody reads' not in done.stderr or time.monotonic() > until:
            break
    room.expect('a film into a pipe', (done.returncode, len(reader.communicate(timeout=SECONDS)[0])), (0, len(room.data('film.y4m'))))
    with open(room.path('run.rec'), 'ab') as appended:
        recording = room.data('run.rec')
        done = subprocess.run([*bare_words('film'), 'demo.gb', 'run.rec', '-'], cwd=room.folder, stdout=appended,
                              stderr=subprocess.PIPE, env=dict(os.environ, GBKEEP=room.program))
    room.expect('a film behind its recording', (done.returncode, room.data('run.rec') == recording), (1, True))


def attack_cut_film(room):
    """A film that is ended halfway leaves the old one, and nothing else."""
    room.write('long.txt', 'wait 100000\n')
    room.write('old.y4m', FILM_HEAD + b'an old film')
    before = held(room.folder)
    process = subprocess.Popen([*bare_words('film'), 'demo.gb', 'long.txt', 'old.y4m'], cwd=room.folder, stderr=subprocess.PIPE,
                               env=dict(os.environ, GBKEEP=room.program))
    until = time.monotonic() + SECONDS
    while changes(before, held(room.folder)) == [] and time.monotonic() < until:
        time.sleep(0.05)
    process.send_signal(signal.SIGTERM)
    _, err = process.communicate(timeout=SECONDS)
    room.expect('a film that is ended', (process.returncode, err), (143, b''))
    room.expect('what it leaves', changes(before, held(room.folder)), [])


def attack_png(room):
    for target in ('picture.pgm', './picture.pgm', 'link.pgm', 'hard.pgm', 'run.gbkeep', 'run.rec', 'demo.gb', 'text.txt', 'fifo', 'folder', 'nowhere'):
        room.refused(f'a PNG over {target}', 'png', 'picture.pgm', target)
    for name, data in (('short.pgm', b'P2\n160 144\n3\n'), ('head.pgm', PICTURE[:-2]), ('more.pgm', PICTURE + b'0'), ('four.pgm', PICTURE[:-2] + b'4 '), ('empty.pgm', b''),
                       ('digits.pgm', b'P2\n%s 144\n3\n0' % NINES.encode()), ('minus.pgm', b'P2\n-160 -144\n3\n' + b'3 ' * 23040), ('zeros.pgm', bytes(5000))):
        room.write(name, data)
        room.refused(f'the picture {name}', 'png', name, 'made.png')
    room.refused('a name that is no text', 'png', b'\xff.pgm', 'made.png')
    room.write(os.fsdecode(b'\xfe.pgm'), PICTURE)
    room.runs('names that are no text', 'png', b'\xfe.pgm', b'\xfe.png')
    room.refused('a name that steers', 'png', 'a\x1b[31m\n.pgm', 'made.png')


def attack_lines_of_c(room):
    """A .cdb beside a cartridge, with names of files that are not beside it, names that steer, and numbers without end."""
    room.write('lines.gb', room.data('demo.gb'))
    room.write('secret', 'a secret\n')
    lines = ('../secret$1', '/etc/passwd$1', '\x1b[31mred.c$1', f'{"x" * 255}$1', '..$1', 'main.c$9999999', f'main.c${NINES}', 'fifo$1', 'folder$1', 'a\0b$1')
    room.write('lines.cdb', ''.join(f'L:C${one}$0$0:150\n' for one in lines))
    done = room.run('debug', '--do', 'list 0150 1', 'lines.gb')
    shown = done.stdout.splitlines()
    room.expect('lines of C', (done.returncode, shown[-1:], done.stderr, b'\x1b' in done.stdout, b'root' in done.stdout), (0, [b'0150 F3     DI'], b'', False, False))
    # variables whose types go on without end, are none, or lie nowhere
    room.write('lines.cdb', 'L:C$main.c$1$0$0:150\nT:Fmain$s[({0}S:S$s$0_0$0({9}STs:S),Z,0,0)({1}S:S$n$0_0$0({2}DG,STs:S),Z,0,0)]\n' + ''.join(
        f'S:G${name}$0_0$0({kind}),E,0,0\nL:G${name}$0_0$0:{place}\n' for name, kind, place in (
            ('s', '{9}STs:S', 'C000'), ('a', '{9}' + 'DA9d,' * 50 + 'SC:U', 'C000'), ('b', '{999999}DA999999d,STs:S', 'FFFF'), ('c', '{2}SB9$99:U', 'C000'), ('d', '{2}DG', 'C000'), ('e', '{9}' + 'DA99999d,' * 6 + 'STs:S', 'C000'))))
    done = room.run('debug', *(word for one in ('s', 's.n->n->s', 'b', 'b[5]', 'e', 'e[1]') for word in ('--do', f'print {one}')), 'lines.gb')
    room.expect('variables', (done.returncode, len(done.stdout.splitlines()), done.stderr), (0, 6, b''))
    room.write('lines.cdb', 'L:C$main.c$1$0$0:zz\n' * 1000)
    done = room.run('debug', '--do', 'list 0150 1', 'lines.gb')
    room.expect('no lines of C', (done.returncode, done.stdout, done.stderr.count(b'\n')), (0, b'0150 F3     DI\n', 1))
    room.path('lines.cdb').unlink()
    os.mkfifo(room.path('lines.cdb'))
    done = room.run('debug', '--do', 'list 0150 1', 'lines.gb')
    room.expect('a FIFO of lines of C', (done.returncode, done.stdout, done.stderr.count(b'\n')), (0, b'0150 F3     DI\n', 1))
    room.path('lines.cdb').unlink()
    room.path('lines.gb').unlink()


def attack_debugger(room):
    room.write('demo.sym', '00:0150 Main\n')
    shown = room.command('show', 'demo.gb', 'run.gbkeep').stdout.splitlines()
    for target in ('run.gbkeep', './run.gbkeep', 'link.gbkeep', 'hard.gbkeep', 'demo.gb', 'demo.sym', 'run.rec', 'text.txt', 'fifo', 'folder', '/dev/null'):
        # a game that is taken up has a new checkpoint, whatever is done with it
        room.refused(f'a picture over {target}', 'debug', '--save', 'run.gbkeep', '--do', f'picture {target}', 'demo.gb', 'demo.sym', but=('run.gbkeep', 'hard.gbkeep'))
    again = room.command('show', 'demo.gb', 'run.gbkeep').stdout.splitlines()
    room.expect('the game', (again[:1], again[-1:]), (shown[:1], shown[-1:]))
    for target in ('demo.gb', 'demo.sym', 'run.rec', 'fifo', *begun_as_pictures(room)):
        room.refused(f'a picture of no game over {target}', 'debug', '--do', f'picture {target}', 'demo.gb', 'demo.sym')
    for line in (f'step {NINES}', f'until {NINES} 0150', f'memory {NINES} 3', f'list 0150 {NINES}', f'history {NINES}', 'x' * 100_000, 'until \x1b[31m', '\x1b]0;x\x07', f'seconds {NINES}',
                 'picture a\0b', 'picture ' + 'x' * 5000, f'until {"f" * 5000}:4000', f'until-change {NINES} C000', f'over {NINES}', f'out {NINES}', 'tiles a\0b', 'map 9800 ' + 'x' * 5000,
                 f'map {NINES} made.png', 'objects fifo', 'tiles demo.gb', 'map 9c00 run.gbkeep', 'until ' + '0150 ' * 1000,
                 f'break {"f" * 5000}', 'break 0150 if ' + '(' * 900, f'break 0150 hits {NINES}', 'break 0150 if A ' + 'x' * 5000, 'break 0150 log ' + 'x' * 5000, f'watch {NINES}', f'delete {NINES}',
                 f'step-back {NINES}', f'goto {NINES}', 'goto \x1b[31m', f'print {NINES}' + '9' * 900, 'print 1' + '+1' * 600, 'print \x1b[31m', 'print [[[[', f'press {NINES}', f'mark {NINES}', f'last-write {NINES}',
                 f'keep {NINES}', f'back {NINES}', 'keep 1000', 'back 0', 'keep \u0661', 'back -1', f'power {NINES}'):
        room.refused(f'the line {line[:20]!r}', 'debug', 'demo.gb', typed=f'{line}\n'.encode(), says='line')
    with open('/dev/zero', 'rb') as zeros:
        room.refused('zeros as lines', 'debug', 'demo.gb', typed=zeros)
    room.refused('lines that are no text', 'debug', 'demo.gb', typed=b'\xff\xfe\n')
    room.write('digits.sym', f'{"f" * 5000}:0150 Main\n')
    room.write('steers.sym', '00:0150 \x1b[31mred\n')
    room.write('both.sym', '00:0150 Main\n00:0150 \x1b[31mred\n')
    for sym in ('fifo', '/dev/zero', 'folder', b'\xff.sym'):
        room.refused(f'the labels {sym!r}', 'debug', 'demo.gb', sym)
    # none of the formats, and what may not be shown: a warning, and it goes on
    room.write('bytes.noi', bytes(range(256)) * 1000)
    room.write('steers.noi', 'DEF \x1b[31mred 0x150\n')
    room.write('digits.noi', f'DEF _main 0x{"f" * 5000}\n')
    room.write('steers.map', 'ASxxxx Linker\n     00000150  \x1b[31mred  main\n')
    for sym in ('digits.sym', 'steers.sym', 'bytes.noi', 'steers.noi', 'digits.noi', 'steers.map', 'demo.gb'):
        done = room.run('debug', '--do', 'list 0150 1', 'demo.gb', sym)
        room.expect(f'the labels {sym!r}', (done.returncode, done.stdout, done.stderr.count(b'\n'), b'\x1b' in done.stderr), (0, b'0150 F3     DI\n', 1, False))
    attack_lines_of_c(room)
    done = room.run('debug', '--do', 'list 0150 1', 'demo.gb', 'both.sym')
    room.expect('a label that steers', (done.returncode, done.stdout), (0, b'Main:\n0150 F3     DI\n'))
    for cart in ('fifo', '/dev/zero', '/', '.', '', b'\xff.gb'):
        room.refused(f'the cartridge {cart!r}', 'debug', cart)


def begun_as_pictures(room) -> list[str]:
    """Files that begin as a picture does, and are none of the game's."""
    rom = bytearray(room.data('demo.gb'))
    rom[:2] = b'P2'
    files = {'notes.pgm': b'P2 is the second player\n', 'p2.gb': bytes(rom), 'small.pgm': b'P2\n16 16\n3\n' + b'3 ' * 256, 'grey.pgm': b'P2\n160 144\n255\n' + b'3 ' * (160 * 144),
             'photo.png': png(640, 480), 'tall.png': png(160, 145), 'cut.png': PNG_HEAD}
    for name, data in files.items():
        room.write(name, data)
    return list(files)


def attack_reports(room):
    """--junit and --bless never take a file that is read, or one of another kind."""
    for name in ('passes.gb', 'fails.gb', 'prints.gb'):
        shutil.copy(TEST_ROMS / name, room.path(name))
    room.write('list.txt', 'passes.gb script=start.script\n')
    room.write('start.script', 'frame 00\n')
    room.path('link.list.txt').symlink_to('list.txt')
    for target in ('list.txt', './list.txt', 'link.list.txt', 'passes.gb', 'start.script', 'run.gbkeep', 'run.rec', 'text.txt', 'fifo', 'folder', 'photo.jpg'):
        room.refused(f'a report over {target}', 'run_tests', '--junit', target, 'list.txt')
    for target in ('pictures.txt', 'demo.gb', 'start.script', 'run.gbkeep', 'link.gbkeep', 'text.txt', 'fifo', 'folder', 'hard.gb', 'photo.jpg'):
        room.write('pictures.txt', f'demo.gb frames=3 script=start.script picture={target}\n')
        before = held(room.folder)
        done = room.run('run_tests', '--bless', 'pictures.txt')
        room.expect(f'a picture stored over {target}', (done.returncode, done.stderr, changes(before, held(room.folder)), done.stdout[:4]), (1, b'', [], b'FAIL'))
    for target in begun_as_pictures(room):
        # in a folder of ROMs, and in a list
        room.write('pictures.txt', f'passes.gb frames=3 picture={target}\n')
        before = held(room.folder)
        done = room.run('run_tests', '--bless', 'pictures.txt')
        told = done.returncode, done.stderr, changes(before, held(room.folder)), b'is another kind of file: take a name that is free' in done.stdout
        room.expect(f'a picture stored over {target}', told, (1, b'', [], True))
    room.write('pictures.txt', 'demo.gb frames=3 picture=stored.png\ndemo.gb frames=3 picture=stored.pgm\n')
    for _ in range(2):
        # the second time over those of the first
        room.runs('pictures are stored', 'run_tests', '--bless', 'pictures.txt')
    room.write('stored.png', png())
    room.runs('pictures are stored', 'run_tests', '--bless', 'pictures.txt')
    room.expect('a PNG', room.data('stored.png')[:8], PNG_HEAD)
    room.runs('and are as wanted', 'run_tests', '--junit', 'report.xml', 'pictures.txt')
    room.runs('a report again', 'run_tests', '--junit', 'report.xml', 'pictures.txt')


def png(width=160, height=144, depth=8, colour=0, rows=None, head=b'', interlaced=0) -> bytes:
    rows = rows if rows is not None else zlib.compress(bytes((width + 1) * height))

    return PNG_HEAD + (head or chunk(b'IHDR', struct.pack('>IIBBBBB', width, height, depth, colour, 0, 0, interlaced))) + chunk(b'IDAT', rows) + chunk(b'IEND', b'')


def attack_pictures(room):
    """A picture that is none fails its own ROM, and the run goes on to its report."""
    zeros = zlib.compressobj()
    bomb = b''.join(zeros.compress(bytes(1 << 20)) for _ in range(300)) + zeros.flush()
    pictures = {'head.pgm': b'P2\n160 144\n3\n', 'text.pgm': b'P2 x', 'empty.pgm': b'', 'empty.png': b'', 'head.png': PNG_HEAD, 'cut.png': png()[:60], 'colour.png': png(colour=9), 'depth.png': png(depth=3),
                'rows.png': png(rows=b'x'), 'few.png': png(rows=zlib.compress(b'')), 'bomb.png': png(rows=bomb), 'filter.png': png(rows=zlib.compress(b'\x09' * 161 * 144)),
                'huge.png': png(160 * 200_000, 144 * 200_000, rows=b''), 'none.png': png(0, 0), 'nohead.png': png(head=b'\0\0\0\0IHDR\0\0\0\0'), 'length.png': PNG_HEAD + b'\xff\xff\xff\xffIHDR',
                'palette.png': png(colour=3), 'many.png': png(160 * 16, 144 * 16, 16, 6, rows=b''), 'interlaced.png': png(interlaced=1), 'random.png': PNG_HEAD + bytes(range(256)) * 8}
    for name, data in pictures.items():
        room.write(name, data)
    steers = 'a\x1b[31m\x07.gb'
    shutil.copy(CART, room.path(steers))
    more = ['fifo', 'folder', 'zero.png', 'missing.png', '\x1b[31m.png', 'x' * 300 + '.png']
    room.path('zero.png').symlink_to('/dev/zero')
    lines = [f'demo.gb frames=2 picture={name}' for name in [*pictures, *more]] + [f'{steers} frames=2 wants=undecided', f'{steers} frames=2', 'fifo', 'zero.gb', 'a\0b.gb', 'x' * 300 + '.gb']
    room.path('zero.gb').symlink_to('/dev/zero')
    room.write('hostile.txt', '\n'.join(lines) + '\n')
    done = room.run('run_tests', '--jobs', '2', '--junit', 'hostile.xml', 'hostile.txt')
    room.expect('a run with pictures that are none', (done.returncode, done.stderr, is_printable(done.stdout)), (1, b'', True))
    told = [line[:4] for line in done.stdout.decode(errors='replace').splitlines()[:-1]]
    wanted = [('ok  ' if 'undecided' in line else 'FAIL') for line in lines]
    room.expect('what each is', told, wanted)
    try:
        report = ElementTree.parse(room.path('hostile.xml')).getroot()
        room.expect('its report', (len(report), len(report.findall('testcase/failure'))), (len(lines), wanted.count('FAIL')))
    except (OSError, ElementTree.ParseError) as error:
        room.expect('its report', str(error), '')


def attack_lists(room):
    for name, text in (('text.bin.txt', b'\xff\xfe\n'), ('digits.txt', f'demo.gb frames={NINES}\n'), ('zero.txt', 'demo.gb frames=0\n'), ('minus.txt', 'demo.gb frames=-1\n'),
                       ('arabic.txt', 'demo.gb frames=٣\n'), ('wants.txt', 'demo.gb wants=\x1b[31m\n'), ('option.txt', 'demo.gb ' + 'x' * 100_000 + '\n')):
        room.write(name, text)
        room.refused(f'the list {name}', 'run_tests', name)
    room.write('huge.txt', b'\n' * (1 << 23))
    room.write('many.txt', b'x.gb\n' * 200_000)
    room.path('fifo.txt').unlink(missing_ok=True)
    os.mkfifo(room.path('fifo.txt'))
    room.path('zeros.txt').symlink_to('/dev/zero')
    for name in ('fifo.txt', 'zeros.txt', 'huge.txt', 'many.txt', 'missing.txt', b'\xff.txt', '\x1b[31m.txt'):
        room.refused(f'the list {name!r}', 'run_tests', name)
    for words in (('--frames', NINES), ('--frames', '0'), ('--frames', '-3'), ('--jobs', NINES), ('--jobs', '0'), ('--jobs', '100000'), ('--frames', '\x1b[31m'), ('--\x1b[31m',)):
        room.refused(f'the words {words!r:.40}', 'run_tests', *words, 'list.txt', status=2)


# ---- scripts

def attack_scripts(room):
    room.write('itself.txt', 'A 3\ninclude itself.txt\n')
    room.path('itself.link.txt').symlink_to('itself2.txt')
    room.write('itself2.txt', 'include itself.link.txt\n')
    room.path('loop1.txt').symlink_to('loop2.txt')
    room.path('loop2.txt').symlink_to('loop1.txt')
    room.write('loop.txt', 'include loop1.txt\n')
    for number in range(30):
        room.write(f'twice{number}.txt', f'include twice{number + 1}.txt\n' * 2)
    room.write('twice30.txt', 'A\n')
    for number in range(12):
        room.write(f'tenfold{number}.txt', f'include tenfold{number + 1}.txt\n' * 10)
    room.write('tenfold12.txt', 'A\n')
    for number in range(400):
        room.write(f'deep{number}.txt', f'include deep{number + 1}.txt\n')
    room.write('deep400.txt', 'A\n')
    room.write('lines.txt', b'A\n' * 1_200_000)
    room.write('zeros.txt.in', 'include /dev/zero\n')
    room.write('fifo.in', 'include fifo\n')
    room.write('nul.in', b'include a\0b\n')
    room.write('long.in', 'include ' + 'x' * 5000 + '\n')
    room.write('folder.in', 'include folder\n')
    room.write('digits.in', f'A {NINES}\n')
    room.write('steers.in', '\x1b[31m\n')
    room.write('word.in', 'x' * 1_000_000)
    room.write('words.in', 'ab ' * 8_000_000)
    with open(room.write('sparse.in', 'A\n'), 'r+b') as file:
        file.truncate(5 << 30)
    names = ['itself.txt', 'itself2.txt', 'loop.txt', 'twice0.txt', 'tenfold0.txt', 'deep0.txt', 'lines.txt', 'zeros.txt.in', 'fifo.in', 'nul.in', 'long.in', 'folder.in',
             'digits.in', 'steers.in', 'word.in', 'words.in', 'sparse.in', 'fifo', '/dev/zero', 'folder', 'missing',
             b'\xff', 'run.rec', 'run.gbkeep', 'demo.gb']
    for name in names:
        room.refused(f'the script {name!r}', 'script', 'own', name)
    for name in ('twice0.txt', 'fifo', '/dev/zero', 'digits.in', b'\xff', 'demo.gb'):
        room.refused(f'the script {name!r}', 'film', 'demo.gb', name, 'made.y4m')
        room.refused(f'the script {name!r}', 'rest', 'demo.gb', 'other.gbkeep', name)
        room.refused(f'the script {name!r}', 'script', 'play', 'demo.gb', 'other.gbkeep', name)
        room.refused(f'the script {name!r}', 'movie', 'bk2', name, 'made.bk2')
    room.refused('a new game as a script', 'script', 'own', 'other.gbkeep', says='this is a file of gbkeep')
    for command in ('friendly', 'check', 'marks'):
        for name in ('fifo', '/dev/zero', 'folder', 'digits.in', 'run.rec', 'demo.gb'):
            room.refused(f'the script {name!r} of {command}', 'script', command, name)
    room.path('sparse.in').unlink()
    with open('/dev/zero', 'rb') as zeros:
        room.refused('zeros as a script', 'script', 'own', '-', typed=zeros)
    room.write('wait.txt', 'wait 9999999999\n')
    room.refused('a movie of 5 years', 'movie', 'bk2', 'wait.txt', 'made.bk2')
    room.write('mark.txt', 'mark \x1b[31m\n')
    done = room.run('script', 'marks', 'mark.txt')
    room.expect('a mark that steers', (done.returncode, is_printable(done.stdout)), (0, True))


# ---- movies

def zipped(parts: list[tuple], flags: int = 0, packing: int = 8, sum_of: Optional[int] = None, count: Optional[int] = None) -> bytes:
    """A zip file of parts, each with its name, its packed bytes, and what they are."""
    data, directory = bytearray(), bytearray()
    for name, packed, raw in parts:
        check = zlib.crc32(raw) if sum_of is None else sum_of
        directory += struct.pack('<4s6H3I5H2I', b'PK\1\2', 20, 20, flags, packing, 0, 0, check, len(packed), len(raw), len(name), 0, 0, 0, 0, 0, len(data)) + name
        data += struct.pack('<4s5H3I2H', b'PK\3\4', 20, flags, packing, 0, 0, check, len(packed), len(raw), len(name), 0) + name + packed
    number = len(parts) if count is None else count
    return bytes(data + directory) + struct.pack('<4s4H2IH', b'PK\5\6', 0, 0, number, number, len(directory), len(data), 0)


def deflated(raw: bytes, times: int = 1) -> bytes:
    """The bytes as they are packed, so many times one after the other."""
    packing = zlib.compressobj(9, zlib.DEFLATED, -15)
    block = packing.compress(raw) + packing.flush(zlib.Z_FULL_FLUSH)
    return block * times + zlib.compressobj(9, zlib.DEFLATED, -15).flush()


def attack_movies(room):
    log = b'LogKey:#A|B|Up|\n|...|\n|A..|\n'
    head = b'LogKey:#A|B|Up|\n'
    fine = zipped([(b'Input Log.txt', deflated(log), log)])
    movies = {'zeros.bk2': zipped([(b'Input Log.txt', deflated(bytes(1 << 20), 1500), b'')]),
              'frames.bk2': zipped([(b'Input Log.txt', deflated(head) [:-2] + deflated(b'|...|\n' * 10_000, 10_000), b'')]),
              'newlines.bk2': zipped([(b'Input Log.txt', deflated(b'\n' * (1 << 20), 1500), b'')]),
              'header.bk2': zipped([(b'Header.txt', deflated(b'x y\n' * (1 << 18), 1500), b''), (b'Input Log.txt', deflated(log), log)]),
              'encrypted.bk2': zipped([(b'Input Log.txt', deflated(log), log)], flags=1), 'packing.bk2': zipped([(b'Input Log.txt', deflated(log), log)], packing=99),
              'lzma.bk2': zipped([(b'Input Log.txt', b'\x09\x04\x05\0\x5d\xff\xff\xff\xff' + bytes(99), log)], packing=14), 'sum.bk2': zipped([(b'Input Log.txt', deflated(log), log)], sum_of=1),
              'parts.bk2': zipped([(b'x', b'', b'')] * 60_000), 'count.bk2': zipped([(b'Input Log.txt', deflated(log), log)], count=9), 'cut.bk2': fine[:40], 'tail.bk2': fine[-30:],
              'damaged.bk2': zipped([(b'Input Log.txt', b'\xff' * 50, log)]), 'digits.bk2': zipped([(b'Input Log.txt', deflated(f'LogKey:#X|\n|{NINES},|\n|A'.encode()), b'')]),
              'steers.bk2': zipped([(b'Header.txt', deflated(b'Platform \x1b[31m'), b'Platform \x1b[31m'), (b'Input Log.txt', deflated(log), log)]),
              'end.bk2': b'PK\5\6' + bytes(18), 'offset.bk2': b'PK\5\6' + b'\xff' * 18, 'short.bk2': b'PK\5\6', 'empty.bk2': b'', 'text.bk2': b'\xff\xfe text',
              'length.vbm': struct.pack('<4sIIII', b'VBM\x1a', 1, 0, 0xffff_ffff, 0) + bytes(44), 'begin.vbm': struct.pack('<4sIIII4B', b'VBM\x1a', 1, 0, 3, 0, 0, 1, 0, 0) + bytes(36) + b'\xff' * 4,
              'cut.vbm': b'VBM\x1a'}
    for name, data in movies.items():
        room.write(name, data)
        room.refused(f'the movie {name}', 'movie', 'script', name)
    with open(room.write('huge.bk2', fine), 'r+b') as file:
        file.truncate(5 << 30)
    for name in ('fifo', '/dev/zero', 'folder', 'missing', 'huge.bk2', 'run.gbkeep', 'run.rec', b'\xff.bk2', '\x1b[31m.bk2'):
        room.refused(f'the movie {name!r}', 'movie', 'script', name)
    room.path('huge.bk2').unlink()
    room.refused('a recording as a movie', 'movie', 'script', 'run.rec', says='recorded CART RECORDING')
    room.refused('a recording as a script', 'movie', 'bk2', 'run.rec', 'made.bk2', says='recorded CART RECORDING')
    for target in ('run.rec', 'moves.txt', 'fifo', 'nowhere', 'text.txt', 'link.txt'):
        room.refused(f'a movie over {target}', 'movie', 'bk2', 'moves.txt', target)
    room.write('fine.bk2', fine)
    room.runs('a movie', 'movie', 'script', 'fine.bk2', wanted=b'frame 00\nframe 10\n')
    room.runs('a movie of a recording', 'movie', 'bk2', 'demo.gb', 'run.rec', 'recorded.bk2')
    room.runs('and back', 'movie', 'script', 'recorded.bk2', wanted=RECORDED.encode())


# ---- recordings

def attack_recordings(room):
    for count in (NINES, '-1', '+3', '٣', '3.0', 'x', '\x1b[31m', str(2 ** 64)):
        room.refused(f'the count {count[:9]!r}', 'branch', 'demo.gb', 'run.rec', count, 'made.gbkeep', 'made.rec', status=2)
    for names in (('run.gbkeep', 'made.rec'), ('made.gbkeep', 'run.rec'), ('nowhere', 'made.rec'), ('made.gbkeep', 'fifo'), ('folder', 'made.rec'), ('demo.gb', 'made.rec')):
        room.refused(f'a branch over {names}', 'branch', 'demo.gb', 'run.rec', '3', *names, says='exists already')
    for recording in ('run.gbkeep', 'fifo', '/dev/zero', 'folder', 'missing', 'text.txt', b'\xff.rec', '\x1b[31m'):
        room.refused(f'a branch of {recording!r}', 'branch', 'demo.gb', recording, '3', 'made.gbkeep', 'made.rec')
        room.refused(f'verify of {recording!r}', 'verify', 'demo.gb', 'run.gbkeep', recording)
    for cart in ('fifo', '/dev/zero', 'folder', b'\xff.gb', 'text.txt'):
        room.refused(f'a branch of the cartridge {cart!r}', 'branch', cart, 'run.rec', '3', 'made.gbkeep', 'made.rec')
        room.refused(f'verify of the cartridge {cart!r}', 'verify', cart, 'run.gbkeep', 'run.rec')
        room.refused(f'a film of the cartridge {cart!r}', 'film', cart, 'moves.txt', 'made.y4m')
        room.refused(f'rest of the cartridge {cart!r}', 'rest', cart, 'other.gbkeep', 'moves.txt')
        room.refused(f'play of the cartridge {cart!r}', 'script', 'play', cart, 'other.gbkeep', 'moves.txt')
    room.refused('a branch into a name that is no text', 'branch', 'demo.gb', 'run.rec', '3', b'\xff.gbkeep', 'made.rec')
    room.refused('a branch whose two names are one', 'branch', 'demo.gb', 'run.rec', '3', 'made.gbkeep', 'made.gbkeep')
    room.refused('a branch in no folder', 'branch', 'demo.gb', 'run.rec', '3', 'none/made.gbkeep', 'made.rec')
    for words in (('--from', NINES), ('--from', '0'), ('--to', '-1'), ('--to', '\x1b[31m'), ('--\x1b[31m', '3')):
        room.refused(f'a film with {words!r:.40}', 'film', *words, 'demo.gb', 'moves.txt', 'made.y4m', status=2)
    room.runs('a recording is a script', 'script', 'play', 'demo.gb', 'played.gbkeep', 'run.rec', wanted=b'resumed 0\nsaved 64\n')
    room.command('new', 'demo.gb', 'rest.gbkeep')
    room.command('play', 'demo.gb', 'rest.gbkeep', room.write('some.script', 'frames 00 30\nframes 80 2\n'))
    room.runs('the rest of a recording', 'rest', 'demo.gb', 'rest.gbkeep', 'run.rec', wanted=b'resumed 32\nsaved 64\n')
    states = {line for name in ('played', 'rest') for line in room.command('show', 'demo.gb', f'{name}.gbkeep').stdout.decode().splitlines() if line.startswith('state')}
    room.expect('the same game', len(states), 1)
    room.runs('a recorded game', 'script', 'play', '--record', 'more.rec', 'demo.gb', 'more.gbkeep', 'run.rec', wanted=b'resumed 0\nsaved 64\n')
    room.runs('and on', 'rest', '--record', 'more.rec', 'demo.gb', 'more.gbkeep', 'longer.txt', wanted=b'resumed 64\nsaved 70\n')
    room.runs('it agrees', 'verify', 'demo.gb', 'more.gbkeep', 'more.rec', wanted=b'agree 70\n')
    room.refused('a recorded game', 'script', 'play', 'demo.gb', 'run.gbkeep', 'moves.txt', says='--record RECORDING')
    room.refused('a recorded game', 'rest', 'demo.gb', 'run.gbkeep', 'longer.txt', says='--record RECORDING')
    room.refused('a game without its recording', 'script', 'play', '--record', 'missing.rec', 'demo.gb', 'other.gbkeep', 'moves.txt', says='missing.rec is not there')


# ---- battery files

def attack_batteries(room):
    battery = bytes(range(256)) * 128
    room.write('battery', battery)
    room.write('mbc2', bytes(byte & 15 for byte in range(256)) * 2)
    clock = battery + b''.join(bytes([one, 0, 0, 0]) for one in (1, 2, 3, 4, 0x80, 9, 9, 9, 9, 9)) + bytes(8)
    room.write('clock', clock)
    room.runs('to mGBA', 'battery', 'to-mgba', 'battery', 'made1')
    room.expect('to mGBA', room.data('made1'), battery)
    room.runs('MBC2 to mGBA', 'battery', 'to-mgba', 'mbc2', 'made2')
    room.expect('MBC2 to mGBA', room.data('made2'), bytes(byte & 15 | (byte + 1 & 15) << 4 for byte in range(0, 256, 2)) * 2)
    room.runs('MBC2 from mGBA', 'battery', 'from-mgba', 'made2', 'made3')
    room.expect('MBC2 from mGBA', room.data('made3'), room.data('mbc2'))
    room.runs('MBC2 to gambatte', 'battery', 'to-gambatte', 'mbc2', 'made4')
    room.expect('MBC2 to gambatte', room.data('made4'), room.data('mbc2') + bytes(7680))
    room.runs('MBC2 from gambatte', 'battery', 'from-gambatte', '--mbc2', 'made4', 'made5')
    room.expect('MBC2 from gambatte', room.data('made5'), room.data('mbc2'))
    room.refused('a clock without a time', 'battery', 'to-mgba', 'clock', 'made', says='--now')
    room.runs('a clock to mGBA', 'battery', 'to-mgba', '--time', '1000000000', 'clock', 'made6')
    live = clock[32768:32788]
    room.expect('a clock to mGBA', room.data('made6'), battery + live + live + (1_000_000_000).to_bytes(8, 'little'))
    before = int(time.time())
    room.runs('a clock to mGBA now', 'battery', 'to-mgba', '--now', 'clock', 'made7')
    room.expect('the present time', before <= int.from_bytes(room.data('made7')[-8:], 'little') <= time.time(), True)
    room.runs('a clock to gambatte', 'battery', 'to-gambatte', '--time', '1000000000', 'clock', 'made8.srm')
    passed = 1 + 60 * (2 + 60 * (3 + 24 * 4))
    room.expect('a clock to gambatte', (room.data('made8.srm'), room.data('made8.rtc')), (battery, (1_000_000_000 - passed).to_bytes(8, 'little')))
    room.runs('a clock from gambatte', 'battery', 'from-gambatte', '--time', '1000000060', 'made8.srm', 'made9')
    minute = b''.join(bytes([one, 0, 0, 0]) for one in (1, 3, 3, 4, 0))
    room.expect('a clock from gambatte', room.data('made9'), battery + minute * 2 + (1_000_000_060).to_bytes(8, 'little'))
    room.runs('imported', 'battery', 'from-mgba', 'demo.gb', 'battery', 'imported.gbkeep', wanted=b'begun 0\n')
    room.runs('exported', 'battery', 'to-mgba', 'demo.gb', 'imported.gbkeep', 'made10', wanted=b'exported 0\n')
    room.expect('there and back', room.data('made10'), battery)
    room.refused('a taken name', 'battery', 'from-mgba', 'demo.gb', 'battery', 'imported.gbkeep', says='exists already')
    for command in ('to-mgba', 'to-gambatte', 'from-mgba', 'from-gambatte'):
        for target in ('battery', './battery', 'run.gbkeep', 'text.txt', 'fifo', 'nowhere', 'folder', 'demo.gb'):
            room.refused(f'{command} over {target}', 'battery', command, 'battery', target)
        for name in ('fifo', '/dev/zero', 'folder', 'missing', 'text.txt', 'run.gbkeep', b'\xff', '\x1b[31m'):
            room.refused(f'{command} of {name!r}', 'battery', command, name, 'made')
    for words in (('--time', NINES), ('--time', '-1'), ('--now', '--time', '3'), ('--mbc2',)):
        room.refused(f'{words!r:.40}', 'battery', 'to-mgba', *words, 'battery', 'made', status=2)


def attack_locked_battery(room):
    """The RAM of a game whose ROM was changed by a byte."""
    room.command('new', 'demo.gb', 'locked.gbkeep')
    room.command('play', 'demo.gb', 'locked.gbkeep', room.write('locked.script', 'frames 00 64\nframes 80 4\nframes 01 200\n'))
    room.command('frame', 'demo.gb', 'locked.gbkeep', 'locked.pgm')
    room.command('export', 'demo.gb', 'locked.gbkeep', 'wanted')
    rom = bytearray(room.data('demo.gb'))
    rom[0x7fff] ^= 1
    room.write('changed.gb', bytes(rom))
    room.expect('the ROM is another one', room.command('export', 'changed.gb', 'locked.gbkeep', 'made').stderr, b'gbkeep: other cartridge\n')
    before = hashlib.sha256(room.data('locked.gbkeep')).digest()
    told = room.runs('the battery of a SAVE', 'battery', 'of-save', 'locked.gbkeep', 'freed').decode()
    room.expect('of what time', re.fullmatch(r'checkpoint 268\ninputs 268\nwritten \d{4}-\d\d-\d\d \d\d:\d\d:\d\d\n', told) is not None, True)
    if room.path('freed').exists():
        room.expect('its RAM', room.data('freed') == room.data('wanted'), True)
    room.expect('SAVE is as it was', hashlib.sha256(room.data('locked.gbkeep')).digest(), before)
    image = room.data('locked.gbkeep')
    for name, data in (('cut', image[:-1]), ('half', image[:len(image) // 1024 * 512]), ('empty', b''), ('zeros', bytes(145_408)), ('length', image.replace(image[60:64], b'\xff\xff\xff\xff')),
                       ('kind', image.replace(b'GBSNAP01', b'GBSNAP02'))):
        room.write(f'{name}.gbkeep', data)
        room.refused(f'the SAVE {name}', 'battery', 'of-save', f'{name}.gbkeep', 'made')
    for name in ('fifo', '/dev/zero', 'folder', 'missing', 'run.rec', 'demo.gb', b'\xff', 'battery'):
        room.refused(f'the SAVE {name!r}', 'battery', 'of-save', name, 'made')
    room.refused('over SAVE', 'battery', 'of-save', 'locked.gbkeep', 'locked.gbkeep')
    held_open = subprocess.Popen([room.program, 'stream', 'demo.gb', 'locked.gbkeep'], cwd=room.folder, stdin=subprocess.PIPE, stdout=subprocess.PIPE)
    held_open.stdout.readline()
    done = room.run('battery', 'of-save', 'locked.gbkeep', 'made')
    room.expect('a SAVE that is open', (done.returncode, b'has it open' in done.stderr, room.path('made').exists()), (1, True, False))
    held_open.communicate(b'')


# ---- words and programs

def attack_words(room):
    tools = ['script', 'rest', 'movie', 'branch', 'verify', 'png', 'film', 'battery', 'run_tests', 'debug', 'dap']
    for tool in tools:
        for words in (('--help',), ('-h',)):
            done = room.run(tool, *words)
            room.expect(f'{tool} {words}', (done.returncode, b'usage' in done.stdout, done.stderr), (0, True, b''))
        line = ' '.join(shlex.quote(str(word)) for word in bare_words(tool))
        done = subprocess.run(['sh', '-c', f'{line} --help > /dev/full'], cwd=room.folder, capture_output=True, timeout=SECONDS, env=dict(os.environ, PYTHONUNBUFFERED='1'))
        room.expect(f'{tool} --help: {done.stderr[-200:]!r}', (done.returncode, b'Traceback' in done.stderr, len(done.stderr.splitlines())), (1, False, 1))
        for words in ((), ('--none',), ('a',) * 9):
            if (tool, words) in (('run_tests', ('a',) * 9), ('dap', ())):
                continue
            room.refused(f'{tool} {words}', tool, *words, status=2)
    room.write('nothing', 'x').chmod(0o755)
    for program in ('/none/gbkeep', 'gbkeep-that-is-not-there', str(room.path('text.txt')), str(room.path('folder')), str(room.path('nothing'))):
        for tool, *words in (('script', 'play', 'demo.gb', 'made.gbkeep', 'moves.txt'), ('rest', 'demo.gb', 'other.gbkeep', 'moves.txt'), ('film', 'demo.gb', 'moves.txt', 'made.y4m'),
                             ('branch', 'demo.gb', 'run.rec', '3', 'made.gbkeep', 'made.rec'), ('verify', 'demo.gb', 'run.gbkeep', 'run.rec'), ('run_tests', 'demo.gb'), ('debug', 'demo.gb'),
                             ('battery', 'to-mgba', 'demo.gb', 'other.gbkeep', 'made')):
            room.refused(f'the program {program}', tool, *words, program=program, says='make build')


def attack_streams(room):
    """A standard stream that is closed, full, or read by nobody."""
    room.write('many.txt', b'A\nB\n' * 10_000)
    for redirect, status in (('>&-', 1), ('> /dev/full', 1), ('| true', 0), ('2>&-', 0), ('<&-', 0), ('<&- 2>&-', 0)):
        for words in (('script', 'own', 'many.txt'), ('script', 'marks', 'missing'), ('movie', 'bk2', 'moves.txt', 'made.bk2'), ('verify', 'demo.gb', 'run.gbkeep', 'run.rec'),
                      ('png', 'picture.pgm', 'made.png'), ('film', 'demo.gb', 'moves.txt', 'made.y4m'), ('battery', 'to-mgba', 'demo.gb', 'other.gbkeep', 'made')):
            for made in ('made.bk2', 'made.png', 'made.y4m', 'made'):
                room.path(made).unlink(missing_ok=True)
            before = held(room.folder)
            line = ' '.join(shlex.quote(str(word)) for word in (*bare_words(words[0]), *words[1:]))
            done = subprocess.run(['sh', '-c', f'{line} {redirect}'], cwd=room.folder, capture_output=True, timeout=SECONDS, env=dict(os.environ, GBKEEP=room.program))
            wanted = 1 if 'missing' in words and '|' not in redirect else status if words[0] in ('script', 'verify', 'battery') or '>&-' in redirect[:3] else 0
            told = (done.returncode, b'Traceback' in done.stderr or b'Exception' in done.stderr, len(done.stderr.splitlines()) <= 1)
            room.expect(f'{words} {redirect}: {done.stderr[-200:]!r}', told, (wanted, False, True))
            if 'full' in redirect and words[0] == 'battery':
                # its file is whole before it says so
                continue
            room.expect(f'{words} {redirect}: what is made', [os.path.basename(name)[:4] for name in changes(before, held(room.folder))], [b'made'] if wanted == 0 and b'made' in words[-1].encode() else [])


def attack_programs(room):
    """A program that answers what no gbkeep answers, and one that ends."""
    for name, text in (('garbage', 'head -c 100000 /dev/urandom'), ('number', f'echo resumed {NINES}'), ('endless', 'cat /dev/zero'), ('lines', 'yes'),
                       ('steers', 'printf "\\033[31m\\n" >&2; exit 1'), ('dies', 'kill -9 $$')):
        program = str(room.write(f'program-{name}', f'#!/bin/sh\n{text}\n'))
        os.chmod(program, 0o755)
        for tool, *words in (('script', 'play', 'demo.gb', 'other.gbkeep', 'moves.txt'), ('film', 'demo.gb', 'run.rec', 'made.y4m'), ('branch', 'demo.gb', 'run.rec', '3', 'made.gbkeep', 'made.rec'),
                             ('debug', '--save', 'run.gbkeep', '--do', 'step', '--do', 'serial', 'demo.gb')):
            if name in ('endless', 'lines') and tool != 'script':
                continue
            room.refused(f'the program {name}', tool, *words, program=program)


def prepared(program: str, folder: Path) -> Room:
    room = Room(program, folder)
    shutil.copy(CART, room.path('demo.gb'))
    room.command('new', 'demo.gb', 'run.gbkeep')
    room.command('new-recording', 'demo.gb', 'run.rec', '20')
    room.command('record', 'demo.gb', 'run.gbkeep', 'run.rec', typed=RECORDED.encode())
    room.command('new', 'demo.gb', 'other.gbkeep')
    room.write('moves.txt', 'wait 5\nstart 3\n')
    room.write('longer.txt', 'wait 30\nstart 4\nright 36\n')
    room.write('text.txt', 'A file of somebody.\n')
    room.write('photo.jpg', b'\xff\xd8\xff\xe0' + bytes(99))
    room.write('picture.pgm', PICTURE)
    room.path('folder').mkdir()
    os.mkfifo(room.path('fifo'))
    room.path('nowhere').symlink_to('missing-target')
    for link, target in (('link.rec', 'run.rec'), ('link.txt', 'moves.txt'), ('link.pgm', 'picture.pgm'), ('link.gbkeep', 'run.gbkeep')):
        room.path(link).symlink_to(target)
    for link, target in (('hard.rec', 'run.rec'), ('hard.gb', 'demo.gb'), ('hard.pgm', 'picture.pgm'), ('hard.gbkeep', 'run.gbkeep')):
        os.link(room.path(target), room.path(link))
    return room


def tried(attack, program: str, folder: Path) -> int:
    """Tries an attack, and answers how much was expected of it."""
    room = prepared(program, folder)
    try:
        attack(room)
    except (OSError, subprocess.SubprocessError, ValueError) as error:
        room.expect(f'{attack.__name__}: it could not go on', str(error), '')
    if room.wrong:
        support.wrong('\n'.join(room.wrong))
    return room.count


class Attacks(unittest.TestSuite):
    """The attacks, as many at once as there are processors; unittest is told how each ended."""

    def __init__(self, program: str, attacks: list):
        super().__init__()
        self.program, self.attacks, self.count = program, attacks, 0

    def run(self, result, debug=False):
        with ThreadPoolExecutor(os.cpu_count()) as pool:
            for attack, ended in [(attack, pool.submit(self.alone, attack)) for attack in self.attacks]:
                self.case(attack, ended).run(result)
        return result

    def alone(self, attack) -> int:
        with tempfile.TemporaryDirectory(prefix='hostile-') as folder:
            return tried(attack, self.program, Path(folder))

    def case(self, attack, ended) -> unittest.TestCase:
        @functools.wraps(attack)
        def case() -> None:
            self.count += ended.result()
        return unittest.FunctionTestCase(case)


def main():
    if len(sys.argv) < 2:
        sys.exit(__doc__)
    program, names = os.path.abspath(sys.argv[1]), sys.argv[2:]
    attacks = [one for name, one in globals().items() if name.startswith('attack_') and (not names or name.removeprefix('attack_') in names)]
    with tempfile.TemporaryDirectory(prefix='program-') as beside:
        # the modules of the tools are compiled once
        os.environ['PYTHONPYCACHEPREFIX'] = beside
        os.environ.pop('PYTHONDONTWRITEBYTECODE', None)
        unbounded = Path(beside) / 'gbkeep'
        # the bound is for the tools: a program that is built to be watched takes more
        unbounded.write_text(f'#!/bin/sh\nulimit -S -v unlimited\nexec {shlex.quote(program)} "$@"\n')
        unbounded.chmod(0o755)
        suite = Attacks(str(unbounded), attacks)
        is_right = support.run_suite('hostile inputs', suite)
    print(f'hostile inputs: {suite.count} expectations met')
    return 0 if is_right else 1


if __name__ == '__main__':
    sys.exit(main())
