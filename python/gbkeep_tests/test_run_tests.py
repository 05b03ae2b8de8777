"""Tries gbkeep-run-tests on the program: what a failing ROM and a picture that differs leave, folders, reports, shards, a terminal, and memory.

usage: test_run_tests.py GBKEEP [TEST..]

The status is 1 where a test fails."""
import json
import os
import pty
import re
import resource
import shlex
import shutil
import subprocess
import sys
from pathlib import Path
from typing import Optional
from xml.etree import ElementTree

from examples.demo.assemble import Assembler
from gbkeep_tests import support
from gbkeep_tests.support import TOP, expect, needs, tool_words, written_png

EXAMPLES = TOP / 'examples'
# how long a run may take
SECONDS = 60
# of a run of many ROMs, in KiB
MOST_MEMORY = 64 << 10
PASSES = 'ok   {}: passed, pass wanted'
FAILS = 'FAIL {}: failed, pass wanted; ended breakpoint, frames 0; A=00 F=A0 B=42 C=42 D=42 E=42 H=42 L=42 SP=FFFE PC=0171 IME=0'
REGISTERS = 'A=00 F=80 B=00 C=13 D=00 E=D8 H=01 L=9D SP=FFFE PC=017B IME=0'
# a ROM that sends each byte, 0 to 255, again and again
SENT, KEPT = 6_000, 4_096
SENDS = f'''
        org $100
        nop
        jp start
        org $134
        db "TEST SENDS"
        org $150
start:  di
        ld sp, $fffe
        ld de, {SENT}
        ld b, 0
next:   ld a, b
        ldh [$ff01], a
        inc b
        ld a, $81
        ldh [$ff02], a
busy:   ldh a, [$ff02]
        add a, a
        jr c, busy
        dec de
        ld a, d
        or e
        jr nz, next
stay:   jr stay
'''
# leaves a status, a signature and a text in RAM of the cartridge, and goes on
LEAVES = '''
        org $100
        nop
        jp start
        org $134
        db "TEST LEAVES"
        org $147
        db $03, $00, $02
        org $150
start:  di
        ld sp, $fffe
        ld a, $0a
        ld [$0000], a
        ld a, $80
        ld [$a000], a
        ld hl, text
        ld de, $a001
        ld b, {size}
copy:   ld a, [hl+]
        ld [de], a
        inc de
        dec b
        jr nz, copy
        ld a, {status}
        ld [$a000], a
stay:   nop
        jr stay
text:   db {bytes}
'''
# prints far more than is kept, and of one ROM more than the memory that a run may use
TALKS = '''#!/bin/sh
[ "$1" = --version ] && exit 0
count=300000
[ "$3" = fails.gb ] && count=200000000
head -c $count /dev/zero | tr '\\0' x
printf '\\nA=00 F=00\\nframes 1\\nended frames\\n'
echo 'gbkeep: test undecided' >&2
exit 1
'''
# as long as there is a file `wait` in its folder, for half a minute at most
WAITS = '''#!/bin/sh
[ "$1" = --version ] && exit 0
count=0
while [ -e wait ] && [ $count -lt 300 ]; do sleep 0.1; count=$((count + 1)); done
'''
# runs the ROMs whose names begin with `slow` for two seconds
SLEEPS = '''#!/bin/sh
case "$3" in slow*) sleep 2;; esac
'''


class Room(support.Room):
    """A folder with ROMs, for one test."""

    def __init__(self, program: str, folder: Path):
        super().__init__(program, folder)
        for name in ('passes', 'fails', 'prints'):
            shutil.copy(EXAMPLES / f'test_roms/{name}.gb', folder)
        shutil.copy(EXAMPLES / 'demo/demo.gb', folder)

    def words(self, *words: str, program: Optional[str] = None) -> list[str]:
        return [*tool_words('run_tests'), '--gbkeep', program or self.program, *words]

    def tool(self, *words: str, program: Optional[str] = None) -> tuple[int, list[str], str]:
        """Status, the lines of output, and errors."""
        done = subprocess.run(self.words(*words, program=program), cwd=self.folder, capture_output=True, text=True, stdin=subprocess.DEVNULL, timeout=SECONDS)
        return done.returncode, done.stdout.split('\n')[:-1], done.stderr

    def on_terminal(self, *words: str, program: Optional[str] = None, until: str = '') -> str:
        """What a terminal gets. Where it has got `until`, the file `wait` is removed."""
        needs('the lines of a run on a terminal', 'a terminal')
        child, terminal = pty.fork()
        if child == 0:
            os.chdir(self.folder)
            os.execve(sys.executable, self.words(*words, program=program), dict(os.environ, TERM='xterm'))
        got = b''
        while True:
            try:
                data = os.read(terminal, 4096)
            except OSError:
                data = b''
            if not data:
                break
            got += data
            if until and until.encode() in got:
                self.path('wait').unlink(missing_ok=True)
        os.close(terminal)
        os.waitpid(child, 0)
        return got.decode().replace('\r\n', '\n')


def junit_of(room: Room, name: str) -> ElementTree.Element:
    return ElementTree.parse(room.path(name)).getroot()


def json_of(room: Room, name: str) -> dict:
    return json.loads(room.path(name).read_bytes())


def places_of(path: Path) -> list[bytes]:
    """The rows of a PNG with a palette, 480 by 432, with a byte a pixel."""
    *head, data = written_png(path)
    expect(f'the head of {path.name}', head, [480, 432, 3])
    return [data[at:at + 480] for at in range(0, len(data), 480)]


# ---- what a failing ROM says

def test_failing_roms(room):
    room.write('list.txt', 'fails.gb\nprints.gb wants=fail\npasses.gb\nmissing.gb\n')
    status, lines, err = room.tool('--junit', 'report.xml', '--json', 'report.json', 'list.txt')
    expect('failing ROMs', (status, lines, err), (1, [
        FAILS.format('fails.gb'), f'FAIL prints.gb: passed, fail wanted; ended loop, frames 1; {REGISTERS}; sent timer: Passed',
        PASSES.format('passes.gb'), 'FAIL missing.gb: gbkeep: file failed, pass wanted', '1 as wanted, 3 failed'], ''))
    report = junit_of(room, 'report.xml')
    expect('the counts of the report', (report.get('tests'), report.get('failures')), ('4', '3'))
    failures = [one.find('failure') for one in report]
    expect('the failures', [one if one is None else one.text for one in failures], [
        'failed, pass wanted\nended breakpoint\nframes 0\nA=00 F=A0 B=42 C=42 D=42 E=42 H=42 L=42 SP=FFFE PC=0171 IME=0',
        f'passed, fail wanted\nended loop\nframes 1\n{REGISTERS}', None, 'gbkeep: file failed, pass wanted'])
    expect('what they sent', [one.findtext('system-out') for one in report], [None, 'timer: Passed', None, None])
    report = json_of(room, 'report.json')
    expect('the JSON report', (report['gbkeep_tests'], report['failures']), (4, 3))
    for row in report['roms']:
        row.pop('seconds')
    expect('a ROM of it', report['roms'][1], {'rom': 'prints.gb', 'wants': 'fail', 'is_wanted': False, 'text': 'passed, fail wanted', 'ended': 'loop', 'frames': 1,
                                             'registers': REGISTERS, 'sent': 'timer: Passed'})
    expect('what passes says nothing', 'sent' in report['roms'][2], False)


def test_sent_bytes(room):
    """Bytes that steer a terminal or are no text of XML are escaped, and of many the last are kept."""
    room.write('sends.gb', bytes(Assembler().assemble(SENDS)))
    room.write('list.txt', 'sends.gb\nsends.gb frames=900 picture=picture.pgm\n')
    room.write('picture.pgm', b'P2\n160 144\n3\n' + b'0 ' * (160 * 144))
    status, lines, err = room.tool('--junit', 'report.xml', '--json', 'report.json', 'list.txt')
    expect('a ROM that sends any byte', (status, len(lines), err), (1, 3, ''))
    expect('its lines', [line.isprintable() and len(line) < 3_000 for line in lines], [True] * 3)
    expect('why they end', [re.findall('ended [a-z]+', line) for line in lines], [['ended loop'], ['ended frames'], []])
    sent = [one.findtext('system-out') for one in junit_of(room, 'report.xml')]
    for one in (*sent, *(row['sent'] for row in json_of(room, 'report.json')['roms'])):
        first, *lines = one.split('\n')
        expect('what is left out', first, f'({SENT - KEPT:,} bytes before this are left out)')
        expect('the lines that are kept', (len(lines), all(line.isprintable() for line in lines)), (KEPT // 256 + 1, True))
        expect('the last bytes', lines[-1][-8:], ''.join(chr(byte % 256) for byte in range(SENT - 8, SENT)))
    # a text that looks like markup
    room.write('says.sh', "#!/bin/sh\n[ \"$1\" = --version ] && exit 0\nprintf '<b>&]]>\"\\033[31m\\nA=00 F=00\\nframes 3\\nended loop\\n'; echo '<&\\033[0m' >&2; exit 1\n", 0o755)
    status, lines, err = room.tool('--junit', 'markup.xml', 'passes.gb', program=str(room.path('says.sh')))
    expect('markup', (status, lines[0], err), (1, 'FAIL passes.gb: <&\\x1b[0m, pass wanted; ended loop, frames 3; A=00 F=00; sent <b>&]]>"\\x1b[31m', ''))
    expect('markup in the report', junit_of(room, 'markup.xml')[0].findtext('system-out'), '<b>&]]>"\\x1b[31m')


# ---- pictures

def leaves(room: Room, name: str, status: int, data: bytes) -> Path:
    """A ROM that leaves this status, and these bytes behind it."""
    return room.write(name, Assembler().assemble(LEAVES.format(status=status, size=len(data), bytes=', '.join(map(str, data)))))


def test_results(room):
    """A result in the memory, and its text, which is told where the ROM fails and has sent nothing."""
    text = b'\xde\xb0\x61dmg \x1b\nFailed #3\n\0junk'
    leaves(room, 'three.gb', 3, text)
    leaves(room, 'good.gb', 0, text)
    leaves(room, 'running.gb', 0x80, text)
    leaves(room, 'other.gb', 0, b'\xde\xb0\x62text\0')
    status, lines, err = room.tool('--frames', '9', '--junit', 'report.xml', 'three.gb', 'good.gb', 'running.gb', 'other.gb')
    expect('results', (status, [re.sub('; A=.*IME=0', '', line) for line in lines], err), (1, [
        'FAIL three.gb: failed, pass wanted; ended memory, frames 1; sent dmg \\x1b\\nFailed #3', 'ok   good.gb: passed, pass wanted',
        'FAIL running.gb: undecided, pass wanted; ended frames, frames 9', 'FAIL other.gb: undecided, pass wanted; ended frames, frames 9', '1 as wanted, 3 failed'], ''))
    told = [one.text for one in ElementTree.parse(room.path('report.xml')).iter('system-out')]
    expect('the text in a report', told, ['dmg \\x1b\nFailed #3\n'])


def test_bytes_wanted(room):
    leaves(room, 'three.gb', 3, b'\xde\xb0\x61\0')
    room.write('bytes.txt', 'three.gb frames=1 wants=memory:A000=03,a001=dE,FFFF=00\nthree.gb frames=0 wants=memory:A000=FF\nthree.gb frames=2 wants=memory:A000=04,A001=DE,A002=00\n'
               'prints.gb frames=9 wants=memory:FF00=CF\nprints.gb frames=9 wants=memory:FF00=C0\nnone.gb wants=memory:0=00\nprints.gb wants=memory:0=00 wants=pass\n')
    status, lines, err = room.tool('bytes.txt')
    expect('bytes of the memory', (status, [re.sub('A=.*IME=0', 'A=', line) for line in lines], err), (1, [
        'ok   three.gb: memory as wanted', 'ok   three.gb: memory as wanted', 'FAIL three.gb: A000 has 03, and 04 wanted, A002 has B0, and 00 wanted; ended frames, frames 2; A=',
        'ok   prints.gb: memory as wanted', 'FAIL prints.gb: FF00 has CF, and C0 wanted; ended frames, frames 9; A=; sent timer: Passed',
        'FAIL none.gb: not run: gbkeep: file failed', 'ok   prints.gb: passed, pass wanted', '4 as wanted, 3 failed'], ''))
    many = ','.join(['C000=00'] * 64)
    room.write('many.txt', f'passes.gb frames=1 wants=memory:{many}\n')
    expect('64 bytes', room.tool('many.txt')[0], 0)
    for words, why in ((f'wants=memory:{many},C000=00', 'more than 64 bytes'), ('wants=memory:', 'it takes bytes such as'), ('wants=memory:C000', 'it takes bytes'), ('wants=memory:C000=0', 'it takes bytes'),
                       ('wants=memory:12345=00', 'it takes bytes'), ('wants=memory:C000=00,', 'it takes bytes'), ('wants=memory:C000=00 picture=one.png', 'a picture or bytes'),
                       ('wants=memories', 'is not understood')):
        room.write('wrong.txt', f'passes.gb {words}\n')
        status, lines, err = room.tool('wrong.txt')
        expect(f'the error of {words[:30]}', (status, lines, err.startswith('wrong.txt, line 1: '), why in err), (1, [], True, True))


def test_pictures(room):
    room.write('list.txt', 'demo.gb frames=3 picture=demo.png\ndemo.gb frames=3 picture=demo.pgm\n')
    status, lines, err = room.tool('list.txt')
    expect('pictures that are missing', (status, lines[:2], err), (1, [f'FAIL demo.gb: not run: there is no {name}: --bless stores the picture as it is now' for name in ('demo.png', 'demo.pgm')], ''))
    expect('they are stored', room.tool('--bless', 'list.txt'), (0, ['ok   demo.gb: picture stored'] * 2 + ['2 as wanted, 0 failed'], ''))
    expect('as their names say', (room.path('demo.png').read_bytes()[:4], room.path('demo.pgm').read_bytes()[:2]), (b'\x89PNG', b'P2'))
    expect('they are as wanted', room.tool('--out', 'none', 'list.txt'), (0, ['ok   demo.gb: picture as wanted'] * 2 + ['2 as wanted, 0 failed'], ''))
    expect('and leave nothing', os.listdir(room.path('none')), [])
    head, shades = b'P2\n160 144\n3\n', room.path('demo.pgm').read_bytes().split()[4:]
    places = {(100, 70), (101, 70), (3, 100)}
    for x, y in places:
        at = y * 160 + x
        shades[at] = b'0' if shades[at] == b'3' else b'3'
    room.write('demo.pgm', head + b' '.join(shades))
    status, lines, err = room.tool('--out', 'left', '--junit', 'report.xml', '--json', 'report.json', 'list.txt')
    expect('a picture that differs', (status, lines[0], lines[2], err), (1, 'ok   demo.gb: picture as wanted', '1 as wanted, 1 failed', ''))
    wanted = int(shades[70 * 160 + 100])
    told = f'3 pixels differ from demo.pgm, the first at x=100 y=70: shade {3 - wanted}, and {wanted} wanted'
    expect('how it differs', re.fullmatch(r'FAIL demo\.gb: (.*?); see (\S+) and (\S+); ended frames, frames 3; A=.* IME=[01]', lines[1]).groups(),
           (told, 'left/demo-2.actual.png', 'left/demo-2.difference.png'))
    expect('what it leaves', sorted(os.listdir(room.path('left'))), ['demo-2.actual.png', 'demo-2.difference.png'])
    expect('the actual picture', room.path('left/demo-2.actual.png').read_bytes(), room.path('demo.png').read_bytes())
    rows = places_of(room.path('left/demo-2.difference.png'))
    expect('the places that differ', {(x // 3, y // 3) for y, row in enumerate(rows) for x, pixel in enumerate(row) if pixel == 4}, places)
    expect('the other places', all(rows[3 * (at // 160)][3 * (at % 160)] in (int(shade), 4) for at, shade in enumerate(shades)), True)
    failure = junit_of(room, 'report.xml')[1].find('failure')
    expect('the report', (failure.get('message'), failure.text.split('\n')[:4]), (told, [told, 'left/demo-2.actual.png', 'left/demo-2.difference.png', 'ended frames']))
    expect('the JSON report', json_of(room, 'report.json')['roms'][1]['pictures'], ['left/demo-2.actual.png', 'left/demo-2.difference.png'])
    # a picture there is replaced, and any other file is not
    room.write('left/demo-2.difference.png', 'A file of somebody.\n')
    status, lines, err = room.tool('--out', 'left', 'list.txt')
    expect('over another file', (status, lines[1].startswith(f'FAIL demo.gb: {told}; not stored: left/demo-2.difference.png exists already'), room.path('left/demo-2.difference.png').read_bytes(), err),
           (1, True, b'A file of somebody.\n', ''))
    # nor is the wanted one, whatever its name is
    room.write('left/wanted-1.actual.png', room.path('demo.png').read_bytes())
    shutil.copy(room.path('prints.gb'), room.path('wanted.gb'))
    room.write('same.txt', 'wanted.gb frames=3 picture=left/wanted-1.actual.png\n')
    status, lines, err = room.tool('--out', 'left', 'same.txt')
    expect('over the wanted picture', (status, 'not stored' in lines[0], room.path('left/wanted-1.actual.png').read_bytes() == room.path('demo.png').read_bytes(), err), (1, True, True, ''))
    name = '..\x1b[31m é' + 'x' * 200
    room.write(f'{name}.gb', room.path('demo.gb').read_bytes())
    room.write(f'{name}.pgm', room.path('demo.pgm').read_bytes())
    status, lines, err = room.tool('--frames', '3', '--out', 'hostile', '--filter', '31m', '.')
    expect('a name that steers', (status, lines[0].isprintable(), err), (1, True, ''))
    expect('what it leaves', [re.fullmatch(r'[A-Za-z0-9_]{1,60}-1\.(actual|difference)\.png', one) is not None for one in os.listdir(room.path('hostile'))], [True, True])
    expect('a folder that is none', room.tool('--out', 'list.txt', 'list.txt'), (1, [], 'gbkeep-run-tests: list.txt: File exists\n'))


# ---- what is run

def test_folders(room):
    # deeper than Python's functions may call each other
    deep = '/'.join(['d'] * 1_200)
    subprocess.run(['mkdir', '-p', room.path(f'roms/{deep}')], check=True)
    for name in ('roms/one.gb', 'roms/a/two.gbc', 'roms/a/b/THREE.GB', f'roms/{deep}/four.gb'):
        room.write(name, room.path('passes.gb').read_bytes())
    room.write('roms/a/notes.txt', 'x')
    room.path('roms/round').symlink_to('..')
    names = ['roms/a/b/THREE.GB', 'roms/a/two.gbc', f'roms/{deep}/four.gb', 'roms/one.gb']
    status, lines, err = room.tool('--json', 'report.json', 'roms')
    expect('ROMs at any depth', (status, lines[-1], err), (0, '4 as wanted, 0 failed', ''))
    expect('their order', [row['rom'][:30] for row in json_of(room, 'report.json')['roms']], [(name if len(name) < 2_000 else name[:1_997] + '...')[:30] for name in names])
    expect('no name', room.tool('--filter', 'nine', 'roms'), (1, [], "none of 4 ROMs has 'nine' in its name\n"))
    subprocess.run(['rm', '-r', room.path('roms')], check=True)
    room.path('empty/deeper').mkdir(parents=True)
    room.write('empty/deeper/notes.md', 'x')
    room.write('none.txt', '# nothing\n\n')
    expect('a folder without ROMs', room.tool('empty'), (1, [], 'empty: there is no ROM in this folder\n'))
    expect('a list without ROMs', room.tool('passes.gb', 'none.txt'), (1, [], 'none.txt: there is no ROM in this list\n'))


def test_choices(room):
    room.write('list.txt', ''.join(f'{name}.gb\n' for name in ('passes', 'fails', 'prints') * 3))
    expect('a part of a name', room.tool('--filter', 'rint', '-j', '2', 'list.txt'), (0, [PASSES.format('prints.gb')] * 3 + ['3 as wanted, 0 failed'], ''))
    expect('a pattern', room.tool('--filter', 'p[ar]*s.gb', '-j1', 'list.txt')[1][-1], '6 as wanted, 0 failed')
    every = room.tool('list.txt')[1][:-1]
    expect('all', every, [PASSES.format('passes.gb'), FAILS.format('fails.gb'), PASSES.format('prints.gb')] * 3)
    shards = [room.tool('--shard', f'{one}/4', '--junit', f'report-{one}.xml', 'list.txt')[1] for one in range(1, 5)]
    expect('the shards', [lines[:-1] for lines in shards], [every[one::4] for one in range(4)])
    expect('their last lines', [lines[-1] for lines in shards], ['2 as wanted, 1 failed, of 9 in 4 shards'] + ['1 as wanted, 1 failed, of 9 in 4 shards', '2 as wanted, 0 failed, of 9 in 4 shards'] +
           ['1 as wanted, 1 failed, of 9 in 4 shards'])
    expect('their reports', [len(junit_of(room, f'report-{one}.xml')) for one in range(1, 5)], [3, 2, 2, 2])
    expect('a shard that has none', room.tool('--shard', '10/10', '--junit', 'report.xml', '--json', 'report.json', 'list.txt'), (0, ['0 as wanted, 0 failed, of 9 in 10 shards'], ''))
    expect('its reports', (len(junit_of(room, 'report.xml')), json_of(room, 'report.json')), (0, {'gbkeep_tests': 0, 'failures': 0, 'roms': []}))
    for word in ('', '1', '0/3', '4/3', '1/0', '1/100001', '-1/3', '1/3/3', 'x/y', '\x1b[31m'):
        status, lines, err = room.tool('--shard', word, 'list.txt')
        expect(f'the shard {word!r}', (status, lines, err.count('\n'), err[:-1].isprintable()), (2, [], 1, True))
    expect('two reports in one file', room.tool('--junit', 'one', '--json', './one', 'list.txt'), (1, [], './one: the two reports are one file\n'))
    for option, other in (('--json', 'report.xml'), ('--junit', 'report.json'), ('--json', 'list.txt'), ('--json', 'passes.gb')):
        before = room.path(other).read_bytes()
        status, lines, err = room.tool(option, other, 'list.txt')
        expect(f'{option} over {other}', (status, lines, err.count('\n'), room.path(other).read_bytes() == before), (1, [], 1, True))
    expect('a report again', room.tool('--json', 'report.json', 'passes.gb')[0], 0)
    slowest = room.tool('--slowest', 'list.txt')[1][9:]
    expect('the slowest', [re.sub(r'^ +[0-9]+\.[0-9]{3} s \w+\.gb$', 'one', line) for line in slowest], ['slowest:', *['one'] * 5, '6 as wanted, 3 failed'])
    times = [float(line.split()[0]) for line in slowest[1:-1]]
    expect('the slowest is first', times, sorted(times, reverse=True))
    names = ['a', 'slow1', 'b', 'slow2', 'slow3', 'c', 'slow4', 'slow5', 'd']
    lines = room.tool('-j', '9', '--slowest', *(f'{name}.gb' for name in names), program=str(room.write('sleeps', SLEEPS, 0o755)))[1]
    expect('which are the slowest', sorted(line.split()[2] for line in lines[10:15]), [f'slow{one}.gb' for one in range(1, 6)])


# ---- a terminal, and memory

def test_terminal(room):
    room.write('wait', '')
    got = room.on_terminal('-j', '1', 'passes.gb', 'fails.gb', program=str(room.write('waits', WAITS, 0o755)), until='0 of 2, 0 failed: passes.gb')
    expect('a line of progress', '\r\x1b[K0 of 2, 0 failed: passes.gb\r\x1b[K' in got and '\r\x1b[K1 of 2, 0 failed\r\x1b[K' in got, True)
    got = re.sub('\r\x1b\\[K[^\n\r]*(?=\r)|\r\x1b\\[K', '', room.on_terminal('fails.gb', 'passes.gb'))
    expect('a failing ROM on a terminal', got.split('\n')[:4], [
        'FAIL fails.gb: failed, pass wanted', '     ended breakpoint, frames 0', '     A=00 F=A0 B=42 C=42 D=42 E=42 H=42 L=42 SP=FFFE PC=0171 IME=0', PASSES.format('passes.gb')])
    expect('the slowest at the end', (got.split('\n')[4], len(got.split('\n'))), ('slowest:', 9))
    room.write('sends.gb', bytes(Assembler().assemble(SENDS)))
    room.write('list.txt', 'prints.gb wants=fail\nsends.gb\n')
    got = room.on_terminal('list.txt')
    expect('what it sent', '     sent:\n       timer: Passed\n' in got, True)
    expect('nothing that steers', all(one.isprintable() or one == '\n' for one in re.sub('\r\x1b\\[K', '', got)), True)


def test_memory(room):
    """However many ROMs there are and whatever they print: what they printed is not held."""
    room.write('list.txt', 'passes.gb\n' * 399 + 'fails.gb\n')
    done = subprocess.run(room.words('-j', '2', '--junit', 'report.xml', '--json', 'report.json', 'list.txt', program=str(room.write('talks', TALKS, 0o755))),
                          cwd=room.folder, capture_output=True, text=True, timeout=SECONDS)
    expect('ROMs that print much', (done.returncode, done.stdout.split('\n')[-2], done.stderr), (1, '0 as wanted, 400 failed', ''))
    report = junit_of(room, 'report.xml')
    expect('the report', (len(report), report[399].findtext('system-out')), (400, f'({200_000_000 - KEPT:,} bytes before this are left out)\n' + 'x' * KEPT))
    used = resource.getrusage(resource.RUSAGE_CHILDREN).ru_maxrss
    expect(f'the memory that is used, {used:,} KiB', used <= MOST_MEMORY, True)


def test_little_memory(room):
    """A run that finds no memory says so in a line, wherever it finds none: as it is loaded, as it begins a thread or a program, or in play."""
    unbounded = str(room.write('unbounded', f'#!/bin/sh\nulimit -S -v unlimited\nexec {shlex.quote(room.program)} "$@"\n', 0o755))
    room.write('list.txt', 'passes.gb\n' * 9)
    told, most = set(), resource.getrlimit(resource.RLIMIT_AS)[1]

    def ran(size, words):
        return subprocess.run(words, cwd=room.folder, capture_output=True, text=True, timeout=SECONDS, preexec_fn=lambda: resource.setrlimit(resource.RLIMIT_AS, (size << 10, most)))

    def loads(size):
        return ran(size, [sys.executable, '-B', '-c', 'import gbkeep.run_tests']).returncode == 0
    # what this Python can just load it in: in far less Python itself does not begin
    least = next(size for size in (40_000, 80_000, 160_000, 320_000) if loads(size))
    while loads(least - 2_000):
        least -= 2_000
    for size in (*range(least - 2_000, least + 12_000, 2_000), least + 20_000, least + 40_000):
        done = ran(size, room.words('-j', '2', '--junit', f'report-{size}.xml', 'list.txt', program=unbounded))
        lines = done.stderr.splitlines()
        is_done = done.stdout.endswith('9 as wanted, 0 failed\n')
        expect(f'in {size:,} KiB: {done.stderr[-300:]}', (done.returncode, len(lines), room.path(f'report-{size}.xml').exists()), (0, 0, True) if is_done else (1, 1, False))
        told.update(line.rpartition(': ')[2] for line in lines)
    expect('what is said', told, {'no memory'})


if __name__ == '__main__':
    support.run_room_tests('gbkeep-run-tests', globals(), __doc__, Room)
