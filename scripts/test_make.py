"""Tries what `make` says and leaves: in copies of the clone, with little on the search path, and with a stand-in for the toolchain that proves nothing.

usage: test_make.py [TEST..]"""
import functools
import hashlib
import json
import math
import os
import random
import re
import shutil
import socket
import subprocess
import sys
import tempfile
import time
from concurrent.futures import ThreadPoolExecutor
from pathlib import Path
from unittest import mock

from gbkeep.pictures import shades_of
from gbkeep_tests import support
from gbkeep_tests.support import TOP, expect
from scripts import alive, build, clean, doctor, front_door

# a computer with make, Python and what is on each of Debian's
BASICS = '''[ basename bash cat chmod cp cut date dirname echo env expr false find grep head ln ls make mkdir mktemp mv printf rm rmdir sed sh sleep sort tail
    tee test touch tr true uname wc'''.split()
# proves nothing: leaves what the toolchain would, and notes what it was asked
RT = '''#!/bin/sh
echo "$(basename "$PWD") $*" >> "$NOTED"
case "$1" in
lib) sleep "${SLEEPS:-0}"; mkdir -p out/rlib; echo > out/rlib/stamp; [ -z "$FAILS" ] || { echo 'no goal is closed' >&2; exit 1; };;
run) mkdir -p out; cp "$STAND_IN" out/gbkeep_program;;
try) sleep "${SLEEPS:-0}"; echo 'FC 0101'; exit "${STATUS:-0}";;
version) echo 'stand-in 1';;
doc) echo "$KIT/START-HERE.md";;
esac
'''
# plays nothing, and draws a picture
PROGRAM = '''#!/bin/sh
case "$1" in
new) echo game > "$3"; echo begun 0;;
play) echo resumed 0;;
frame) { echo P2; echo 160 144; echo 3; i=0; while [ $i -lt 144 ]; do echo "LINE"; i=$((i + 1)); done; } > "$4"; echo resumed 0;;
esac
'''.replace('LINE', ' '.join(str(x // 8 % 4) for x in range(160)))
# a few crates, with names of ours
FEW = '''exact_text: arrayvec
opcode_table: exact_text
recording:
streaming: opcode_table
replaying: recording opcode_table
gbkeep: replaying streaming
gbkeep_program: gbkeep exact_text
embedding: streaming
c_interface staticlib: embedding std_heap
'''
OF_THE_PROGRAM, OF_THE_LIBRARY = 7, 5
LANES = 4
# how many minutes builds from nothing took, by their lanes (docs/CONTRIBUTING.md)
MEASURED = {1: 87, 2: 47, 4: 48}
# how many seconds some proofs took on another host than that of build.py's table
ON_ANOTHER_HOST = {'sm83_processor': 500, 'debugging': 500, 'gbkeep': 450, 'session': 250, 'command_line': 134, 'streaming': 210, 'replaying': 180,
                   'recorded_play': 170, 'opcode_table': 160, 'test_run': 150}
GAME = b'GBKPROOT' + bytes(1016)
# what leaves something out by itself, and needs no program; and of the gate's tests, which
LEAVE_OUT = {'examples/speed/build.py': 'check', 'scripts/shipped.py': 'gate program', 'packaging/test_completions.py': 'fish zsh places',
             'packaging/test_installed.py': 'settings which_python desktop packages', 'python/gbkeep_tests/test_desktop_model.py': 'types',
             'python/gbkeep_tests/test_package.py': 'bytes', 'python/gbkeep_tests/test_pictures.py': 'by_pil'}


class Room:
    """A copy of the clone with a few small crates, a search path with little on it, and a cache of its own."""

    def __init__(self, folder, *more):
        self.top, self.path, self.noted = folder / 'clone', folder / 'path', folder / 'noted'
        self.top.mkdir(parents=True)
        self.path.mkdir()
        for name in ('Makefile', 'HANDLES', 'scripts', 'library', 'web', 'packaging'):
            (shutil.copytree if (TOP / name).is_dir() else shutil.copy)(TOP / name, self.top / name)
        for name in ('python/gbkeep', 'python/gbkeep_tests', 'examples/demo', 'players/libretro'):
            shutil.copytree(TOP / name, self.top / name, ignore=shutil.ignore_patterns('__pycache__'))
        (self.top / 'crates.txt').write_text(FEW)
        for name in ('command_line', *(line.split()[0].strip(':') for line in FEW.splitlines())):
            source = self.top / 'crates' / name / 'src/lib.rt'
            source.parent.mkdir(parents=True, exist_ok=True)
            source.write_text('// nothing\n')
        for name in BASICS:
            # echo and [ are of the shell where they are no files
            if found := shutil.which(name):
                (self.path / name).symlink_to(found)
        # Python alone, without what else is installed for it
        self.script('python3', f'#!/bin/sh\nexec {sys.executable} -S "$@"\n')
        for name in more:
            self.script(name, {'rt': RT}[name])
        (folder / 'program').write_text(PROGRAM)
        (folder / 'program').chmod(0o755)
        self.env = {'PATH': str(self.path), 'HOME': str(folder), 'NOTED': str(self.noted), 'STAND_IN': str(folder / 'program'), 'KIT': str(folder / 'kit'),
                    'JOBS': '3'}

    def script(self, name, text):
        (self.path / name).write_text(text)
        (self.path / name).chmod(0o755)

    def ran(self, *words, **more):
        """Status, output and errors of a command."""
        done = subprocess.run(words, cwd=self.top, env={**self.env, **more}, capture_output=True, text=True, timeout=120)
        return done.returncode, done.stdout, done.stderr

    def make(self, *words, **more):
        return self.ran(shutil.which('make'), '--no-print-directory', *words, **more)

    def python(self, *words):
        """The same of Python alone, with the modules of the copy."""
        return self.ran(sys.executable, '-S', '-B', *words, PYTHONPATH=f'{self.top}:{self.top}/python')

    def asked(self):
        """What the toolchain was asked."""
        return self.noted.read_text().splitlines() if self.noted.exists() else []

    def with_program(self):
        """A program that is up to date."""
        (self.top / 'bin').mkdir(exist_ok=True)
        shutil.copy(self.env['STAND_IN'], self.top / 'bin/gbkeep')
        return self


def lines_of(text):
    """What is said of missing things, without what make says behind it."""
    return [line for line in text.splitlines() if not line.startswith('make')]


def targets():
    """The targets of the Makefile, and those that need nothing."""
    found = dict(re.findall(r'^(TARGETS|FREE) := (.*)$', (TOP / 'Makefile').read_text(), re.M))
    return found['TARGETS'].split(), found['FREE'].split()


# ---- what is looked for

def test_table(folder):
    """Each target of the Makefile has a row, and each thing that a row names is one that can be looked for."""
    named, free = targets()
    expect('the rows', sorted(doctor.TARGETS), sorted(named))
    expect('those that need nothing', sorted(doctor.FREE), sorted(free))
    needs = {need for own, _ in (*doctor.TARGETS.values(), *doctor.FILES.values()) for need in own}
    needs |= {need for costs in doctor.LEFT_OUT.values() for need in costs}
    expect('things', sorted(needs - set(doctor.NEEDS)), [])
    expect('files', sorted({file.replace('OUT', 'bin') for _, files in doctor.TARGETS.values() for file in files} - set(doctor.FILES)), [])
    expect('targets that leave something out', sorted(set(doctor.LEFT_OUT) - set(named)), [])


def test_missing(folder):
    """On a computer without anything each target says in a line each what it needs, before it begins, and nothing else."""
    room = Room(folder)
    wanted = {target: {*own, *(need for file in files for need in needs_of(file))} for target, (own, files) in doctor.TARGETS.items()}
    # what each computer has, and what is looked for in places that are no part of the search path
    here = {'bash', *(need for need in doctor.NEEDS if shutil.which(need, path=doctor.ALSO))}
    here |= {need for need in ('root', 'libretro.h', 'C library for aarch64', 'GTK', 'Atspi', 'selenium', 'venv') if doctor.is_there(need)}
    says = 'from scripts import doctor\nfor target in doctor.TARGETS: print(target, *doctor.missing(*doctor.asked(target)), sep="|")'
    status, out, err = room.python('-c', says)
    expect('status and errors', (status, err), (0, ''))
    answers = {target: lines for target, *lines in (line.split('|') for line in out.splitlines())}
    for target, needs in wanted.items():
        expect(f'make {target}', sorted(line.split(' is missing')[0] for line in answers[target]), sorted(needs - here))
        for line in answers[target]:
            packages = doctor.NEEDS[line.split(' is missing')[0]].packages
            expect(f'{line}: names its package', all(name in line for name in packages) and line.isprintable() and len(line) < 200, True)
    # some files have a rule where ARCH is given alone
    rules = room.make('-p', '-n', 'help')[1] + room.make('-p', '-n', 'help', 'ARCH=arm64')[1]
    expect('what begins without a look', [name for name in (*wanted, *doctor.FILES) if not re.search(rf'^{name}:.* \| (?:.* )?looked$', rules, re.M)], [])
    before = tree(room.top)
    # with two jobs, so that no proof begins beside the look
    for target in ('build', 'demo', 'dist', 'web', 'test'):
        status, out, err = room.make('-j2', target)
        expect(f'make {target}: status, output, errors', (status, out, lines_of(err)), (2, '', answers[target]))
    expect('what they leave', tree(room.top), before)


def needs_of(file):
    """What a file is built by from nothing."""
    own, files = doctor.FILES[file.replace('OUT', 'bin')]
    return {*own, *(need for one in files for need in needs_of(one))}


def tree(folder):
    return sorted(str(path.relative_to(folder)) for path in folder.rglob('*') if '__pycache__' not in path.parts)


def test_several(folder):
    """Several targets, and a file, are looked for together; one that needs nothing is not held up; a target that there is not is none."""
    room = Room(folder)
    status, _, err = room.make('demo', 'dist', 'bin/libgbkeep.so')
    expect('demo and dist', (status, sorted(line.split(' is missing')[0] for line in lines_of(err))), (2, ['ar', 'cc', 'clang of rt', 'dpkg-deb', 'git', 'rt', 'strip']))
    expect('the line of rt', [line for line in lines_of(err) if line.startswith('rt ')], [doctor.told('rt')])
    expect('the line of cc', [line for line in lines_of(err) if line.startswith('cc ')],
           ['cc is missing, or it finds no C library: install gcc and libc6-dev (CC=NAME names another compiler)'])
    expect('the line of strip', [line for line in lines_of(err) if line.startswith('strip ')], ['strip is missing: install binutils'])
    status, out, err = room.make('none')
    expect('no target', (status, "No rule to make target 'none'" in err), (2, True))
    (room.path / 'python3').unlink()
    expect('no Python', (room.make('build')[0], lines_of(room.make('build')[2])), (2, ['python3 is missing: install python3']))
    for script, line in (('build', 'rt'), ('library', 'rt'), ('web', 'rt'), ('libretro', 'cc')):
        status, _, err = room.python(f'scripts/{script}.py')
        expect(f'{script}.py alone', (status, f'{script}.py: {doctor.told(line)}' in err.splitlines(), 'Traceback' in err), (1, True, False))
    says = 'import sys; sys.version_info = (3, 9, 2); from scripts import doctor; doctor.main(["build"])'
    done = subprocess.run([sys.executable, '-B', '-c', says], cwd=TOP, capture_output=True, text=True)
    expect('an older Python', (done.returncode, done.stderr), (1, 'python3 is 3.9: gbkeep needs Python 3.10 or later\n'))


def test_other_names(folder):
    """What is given in place of a command is what is looked for."""
    room = Room(folder)
    room.script('other', '#!/bin/sh\nexit 1\n')
    expect('RT', lines_of(room.make('run', 'RT=another')[2]), [doctor.told('rt').replace('rt is', 'another is', 1)])
    expect('CC that compiles nothing', [line.split(' is')[0] for line in lines_of(room.make('memory', 'CC=other', 'RT=other')[2])], ['other'])
    expect('a header elsewhere', [line for line in lines_of(room.make('libretro', f'LIBRETRO={folder}')[2]) if 'libretro' in line],
           ['libretro.h is missing: install retroarch-dev (LIBRETRO=FOLDER names where it is)'])


def test_up_to_date(folder):
    """A program that is up to date needs no toolchain; looking makes nothing out of date."""
    room = Room(folder).with_program()
    expect('make -q build', room.make('-q', 'build'), (0, '', ''))
    expect('make build', room.make('build')[::2], (0, ''))
    status, out, err = room.make('-j4', 'demo')
    expect('make demo', (status, err, out.splitlines()[-1]), (0, '', 'bin/demo.png: the picture at the end of the tour'))
    expect('its picture', shades_of((room.top / 'bin/demo.png').read_bytes()) == shades_of((room.top / 'bin/demo.pgm').read_bytes()), True)
    os.utime(room.top / 'crates.txt', (time.time() + 5, time.time() + 5))
    expect('crates.txt is newer', (room.make('-q', 'build')[0], [line.split(' is')[0] for line in lines_of(room.make('demo')[2])]), (1, ['rt']))
    expect('nothing was proved', room.asked(), [])


def test_doctor(folder):
    """The table says what is there, what is missing, and what that costs."""
    room = Room(folder).with_program()
    status, out, err = room.make('doctor', LIBRETRO=str(folder))
    expect('status', (status, err), (0, ''))
    rows = {line[9:].partition('  ')[0]: line[:8].strip() for line in out.splitlines()[:-1] if not line.startswith(' ')}
    expect('the rows', sorted(rows), sorted(('python3', *doctor.NEEDS)))
    expect('there, missing', [rows[name] for name in ('python3', 'bash', 'rt', 'cc', 'strace', 'libretro.h')], ['there'] * 2 + ['missing'] * 4)
    costs = dict(re.findall(r'^missing  (\S+).*\n((?: .*\n)*)', out, re.M))
    costs = {name: ' '.join(text.split()) for name, text in costs.items()}
    # the program is there, so that it can be played and compared
    lost = re.search("can't be run: make ([^:]*)", costs['rt'])[1]
    expect('without rt', ('demo' in lost, 'compare' in lost, 'library' in lost, 'test,' in lost), (False, False, True, True))
    expect('without strace', ('make test: no system call is followed' in costs['strace'], "can't be run: make strace" in costs['strace']), (True, True))
    _, out_of_one, err = room.ran('sh', '-c', 'python3 -B scripts/doctor.py | head -1', PYTHONPATH=f'{room.top}:{room.top}/python')
    expect('who reads a line alone', (out_of_one.count('\n'), err), (1, ''))
    expect('what proofs keep', out.splitlines()[-1], '~/.cache/gbkeep takes 0 bytes, crates/*/out 0 bytes')


# ---- what is not tried

def test_not_tried(folder):
    """`make test` ends with what was not tried and why, as its last lines; what an earlier one has noted is gone."""
    room = Room(folder, 'rt').with_program()
    (room.top / 'bin/not_tried').write_text('older: gone\n')
    (room.top / 'scripts/opened_has_no_append.sh').write_text('exit 0\n')
    # of the recipe's lines those are run that look, note and tell; a test that leaves something out on its own stands for all that do
    room.script('python3', f"""#!/bin/sh
case "$*" in
*not_tried.py*|*doctor.py*) exec {sys.executable} -S "$@";;
*test_package.py*) exec {sys.executable} -S -B -c 'from scripts.not_tried import note; [note("the package, arrays", "numpy is missing") for _ in "ab"]';;
*'gate_cost.py false'*) exit 1;;
esac
""")
    status, out, err = room.make('test', LIBRETRO=str(folder), PIL_PYTHON='python3')
    expect('status', (status, err), (0, ''))
    told = [line for line in out.splitlines() if line.startswith('not tried: ')]
    cc = doctor.told('cc')
    expect('each is said where it is left out, and at the end', sorted(told), sorted(2 * list(dict.fromkeys(told))))
    for line in ('all Python, by pyflakes3: pyflakes3 is missing: install pyflakes3', 'the package, arrays: numpy is missing', f'the library for C, and the window over it: {cc}',
                 'the libretro core: libretro.h is missing: install retroarch-dev (LIBRETRO=FOLDER names where it is)'):
        expect(line, f'not tried: {line}' in told, True)
    expect('they are the last lines', out.splitlines()[-len(set(told)):], list(dict.fromkeys(told)))
    expect('the older note', 'older' in out, False)


def test_left_out(folder):
    """What a test leaves out by itself is told by the table: which thing is missing, its package, and, in `make doctor`, what that costs."""
    room, costs, told = Room(folder), doctor.LEFT_OUT['test'], []
    env = {**room.env, 'PYTHONPATH': f'{TOP}/python:{TOP}', 'PIL_PYTHON': 'python3', 'NUMPY_PYTHON': 'python3'}

    def bare(*words):
        return subprocess.run([sys.executable, '-S', '-B', *words], cwd=TOP, env=env, capture_output=True, text=True, timeout=120)
    missing = bare('-c', 'from scripts import doctor\nfor need in doctor.LEFT_OUT["test"]: print(*doctor.missing(need))').stdout.splitlines()
    for script, words in LEAVE_OUT.items():
        done = bare(script, *words.split())
        expect(f'{script}: status, errors', (done.returncode, done.stderr), (0, ''))
        told += [why for line in re.findall(r'^not tried: .*?: (.*)$', done.stdout, re.M) for why in line.split('; ')]
    expect('what they leave out', (len(told) > 5, [why for why in told if why not in missing]), (True, []))
    # no row is there for nothing
    sources = [path.read_text() for name in ('examples', 'library', 'packaging', 'players', 'python', 'scripts', 'web') for path in (TOP / name).rglob('*.py')]
    calls = ' '.join(re.findall(r'\b(?:tries|needs|told|missing)\((.*)\)', '\n'.join(sources)) + re.findall(r' --try (.*); then', (TOP / 'Makefile').read_text()))
    expect('what nothing leaves out', [need for need in costs if need not in calls], [])


def test_shown(folder):
    """`make -n test` shows what it would run, and runs none of it."""
    room = Room(folder, 'rt').with_program()
    (folder / 'libretro.h').touch()
    room.script('python3', '#!/bin/sh\necho "$*" >> "$NOTED"\n')
    status, out, err = room.make('-n', 'test', LIBRETRO=str(folder))
    expect('what is shown', (status, err, 'scripts/gate_cost.py rt ci' in out, 'test_libretro.py' in out), (0, '', True, True))
    # which Python has what is asked as the recipe is read
    expect('what is run', [line for line in room.asked() if not line.startswith('-c import ')], [])


def test_all_tried(folder):
    """Where nothing is left out, that is said; a note steers no terminal."""
    env = {**os.environ, 'NOT_TRIED': str(folder / 'notes')}
    words = [sys.executable, '-B', 'scripts/not_tried.py']

    def said(*more):
        done = subprocess.run([*words, *more], cwd=TOP, env=env, capture_output=True, text=True)
        return done.returncode, done.stdout
    expect('begins', said('begins'), (0, ''))
    expect('ends', said('ends'), (0, 'all was tried\n'))
    expect('a note', said('a\x1b[2J', 'b\nc'), (0, 'not tried: a [2J: b c\n'))
    expect('ends again', said('ends'), (0, 'not tried: a [2J: b c\n'))
    expect('other words', said('a')[0], 1)


def test_ci(folder):
    """`.ci/run` installs what the gate would leave out, as root, and then the gate runs; one that can't be had keeps no other out."""
    room = Room(folder)
    shutil.copytree(TOP / '.ci', room.top / '.ci')
    for name, text in (('id', 'echo 0'), ('apt-get', 'echo "$*" >> "$NOTED"; case "$*" in *valgrind*) exit 1;; esac'), ('make', 'echo "make $*"')):
        (room.path / name).unlink(missing_ok=True)
        room.script(name, f'#!/bin/sh\n{text}\n')
    done = subprocess.run(['sh', '.ci/run'], cwd=room.top, env={**room.env, 'LIBRETRO': str(folder)}, capture_output=True, text=True)
    expect('what it says', (done.returncode, done.stdout, done.stderr), (0, 'this could not be installed: valgrind\nmake test\n', ''))
    update, whole, *alone = room.asked()
    wanted = whole.removeprefix('install -y --no-install-recommends ').split()
    missed = {'strace', 'valgrind', 'binutils', 'gcc', 'libc6-dev', 'pyflakes3', 'retroarch-dev', 'git'} - set(wanted)
    expect('what is installed', (update, missed), ('update', set()))
    expect('each alone', [line.split()[-1] for line in alone], wanted)


# ---- how far a build is

def simulated(truth, lanes):
    """Plays a build in which each crate takes so many seconds. Answers its end, and what is told as left, each with its moment."""
    order, _, needs = build.crates()
    now, told = [0.0], []
    plan = build.Plan(order, needs, build.weights(order), lanes)
    tells = build.Told(plan, set(order), lambda: now[0], lambda line: told.append((now[0], line)))
    left, built, ends = list(order), set(), {}
    while left or ends:
        while (one := plan.next(left, built, list(ends))) is not None:
            left.remove(one[0])
            tells.begins(one[0])
            ends[one[0]] = now[0] + truth[one[0]]
        name = min(ends, key=ends.get)
        while now[0] + 60 < ends[name]:
            now[0] += 60
            told.append((now[0], tells.life()))
        now[0] = ends.pop(name)
        built.add(name)
        tells.tell(name)
    return now[0], [(moment, int(found[1])) for moment, line in told if (found := re.search(r'about (\d+) left$', line))]


def test_minutes_left(folder):
    """What is told as left is what is left: exactly where each crate takes what the table says, on a host of any speed; and not far off where they do not."""
    order = build.crates()[0]
    weight = build.weights(order)
    for pace in (0.5, 1, 2.5):
        end, told = simulated({name: pace * weight[name] for name in order}, LANES)
        for moment, left in told:
            if moment > end / 5:
                is_so = abs(left - (end - moment) / 60) <= 1 + 0.1 * (end - moment) / 60
                expect(f'a host of pace {pace}: {left} minutes told at {moment / 60:.1f} of {end / 60:.1f}', is_so, True)
        truths = [{**weight, **{name: 1.6 * seconds for name, seconds in ON_ANOTHER_HOST.items()}}]
    truths += [{name: weight[name] * math.exp(rnd.gauss(0, 0.3)) for name in order} for rnd in map(random.Random, range(8))]
    off = []
    for truth in truths:
        end, told = simulated(truth, LANES)
        off += [abs(left * 60 - (end - moment)) / end for moment, left in told if moment > end / 4]
    expect(f'off by {sum(off) / len(off):.3f} of the whole, {max(off):.2f} at the worst', (sum(off) / len(off) < 0.1, max(off) < 0.35), (True, True))


def test_whole_builds(folder):
    """Before anything is proved, what is told is about what whole builds took: as long as the longest way, however many lanes there are."""
    order, _, needs = build.crates()
    for lanes, minutes in MEASURED.items():
        told = build.Told(build.Plan(order, needs, build.weights(order), lanes), set(order), lambda: 0.0).minutes_left()
        expect(f'{lanes} lanes: {told} minutes told, {minutes} measured', abs(told - minutes) <= 0.15 * minutes, True)


def test_longest_way(folder):
    """The way that CONTRIBUTING says a build waits for is the longest one of the plan."""
    order, _, needs = build.crates()
    way = build.ways(order, needs, build.weights(order))
    names = [max(order, key=way.get)]
    while names[-1] != build.PROGRAM:
        names.append(max((name for name in order if names[-1] in needs[name]), key=way.get))
    said = re.search(r'the longest way of all, by (.*?), whose crates', ' '.join((TOP / 'docs/CONTRIBUTING.md').read_text().split()))
    expect('the way', re.findall(r'`(\w+)`', said[1]), names[:-1])


def test_last_way(folder):
    """Where one long crate is left, its own time is told, whatever share of the work is done; one that takes longer than it should is never told as over."""
    order, _, needs = build.crates()
    weight, now = build.weights(order), [0.0]
    told = build.Told(build.Plan(order, needs, weight, LANES), set(order), lambda: now[0])
    told.built = set(order) - {'gbkeep', build.PROGRAM}
    told.begins('gbkeep')
    both = weight['gbkeep'] + weight[build.PROGRAM]
    expect('at its beginning', told.left(), f'about {math.ceil(both / 60)} left')
    now[0] = weight['gbkeep'] / 2
    expect('in its middle', told.left(), f'about {math.ceil((both - now[0]) / 60)} left')
    now[0] = 3 * weight['gbkeep']
    expect('far behind it', int(told.left().split()[1]) >= math.ceil(now[0] / 600), True)


def test_build(folder):
    """A build says at once how much there is to do, then each crate once, and meanwhile what it is at; at its end how much the cache takes."""
    room = Room(folder, 'rt')
    status, out, err = room.make('build', SLEEPS='0.5', ALIVE_SECONDS='0.4')
    lines = [line for line in out.splitlines() if not line.startswith('RT=')]
    expect('status', (status, err), (0, ''))
    first = re.sub(r'build-\w+: about \d+ minutes$', 'X', lines[0])
    expect('the first line', first, f'7 crates, 7 of them to be proved, 3 at once, in {folder}/.cache/gbkeep/X')
    crates = [found.groups() for line in lines if (found := re.match(r'(\d) of 7, (\w+): 0 minutes, (?:about \d+ left|all is proved)$', line))]
    expect('their places', [number for number, _ in crates], list('1234567'))
    expect('first and last', ({name for _, name in crates[:2]}, crates[-1][1]), ({'exact_text', 'recording'}, 'gbkeep_program'))
    life = [line for line in lines if re.match(r'0 minutes: proving \w+ for 0(, \w+ for 0)*; about \d+ left$', line)]
    expect(f'signs of life, of {lines}', len(life) >= 2, True)
    last = re.sub(r'[\d,.]+ (bytes|MB)', 'N', lines[-1])
    expect('the last line but one', lines[-2], 'bin/gbkeep: built in 0 minutes')
    expect('the last line', last, '~/.cache/gbkeep takes N, crates/*/out N, for the next build: make clean-cache removes both')
    expect('each crate was asked for once', sorted(line.split()[0] for line in room.asked()),
           ['exact_text', 'gbkeep', 'gbkeep_program', 'opcode_table', 'recording', 'replaying', 'streaming'])
    expect('again', room.make('build')[::2], (0, ''))
    expect('nothing more', len(room.asked()), OF_THE_PROGRAM)
    # one crate is newer: it and those above it are to be proved, and no other
    time.sleep(0.02)
    (room.top / 'crates/streaming/src/lib.rt').write_text('// another\n')
    _, out, _ = room.make('build')
    expect('of what is newer', '7 crates, 3 of them to be proved' in out, True)


def test_build_one(folder):
    """One at a time is told in the same way, and a crate that is not proved ends it with what the toolchain says."""
    room = Room(folder, 'rt')
    status, out, err = room.make('build', JOBS='1', SLEEPS='0.1', ALIVE_SECONDS='0.3')
    expect('one at a time', (status, ', 1 at once: about' in out, 'minutes: proving' in out), (0, True, True))
    time.sleep(0.02)
    (room.top / 'crates/exact_text/src/lib.rt').write_text('// another\n')
    for jobs in ('1', '2'):
        status, out, err = room.make('build', JOBS=jobs, FAILS='1')
        expect(f'a refusal, {jobs} at once', (status, 'no goal is closed' in err, 'Traceback' in err), (2, True, False))


def test_words(folder):
    """run, library and web say at once what they do, and give a sign of life; the output and the status of a program are its own."""
    room = Room(folder, 'rt')
    status, out, err = room.make('run', SLEEPS='0.5', ALIVE_SECONDS='0.2', ARGS='info data/rom.gb')
    expect('run', (status, out), (0, 'FC 0101\n'))
    expect('what it says', err.splitlines()[0], 'compiling the program, unproved, and then running gbkeep info data/rom.gb: one to three minutes')
    expect('its signs of life', bool(re.fullmatch(r'(rt is at it: 0 seconds so far\n|rt is at it: 1 seconds so far\n)+', err.partition('\n')[2])), True)
    expect('words with a space', (room.make('run', 'ARGS=info "a b.gb"')[0], room.make('run', "ARGS=info 'a b.gb'")[2].splitlines()[0], room.asked()[-1]),
           (0, "compiling the program, unproved, and then running gbkeep info 'a b.gb': one to three minutes", 'gbkeep_program try -- info a b.gb'))
    expect('its status', room.make('run', STATUS='3')[0], 2)
    expect('what it asked', room.asked()[-1], 'gbkeep_program try -- step data/rom.gb 2')
    for name in ('cc', 'ar'):
        room.script(name, '#!/bin/sh\nexit 0\n')
    for name in ('bin/rattle', 'toolchain/bin/clang', 'toolchain/bin/ld.lld'):
        path = folder / 'kit' / name
        path.parent.mkdir(parents=True, exist_ok=True)
        path.symlink_to('/bin/true')
    count = OF_THE_LIBRARY
    for target in ('library', 'web'):
        status, out, err = room.make(target, SLEEPS='0.5', ALIVE_SECONDS='0.2', FAILS='1')
        lines = [line for line in out.splitlines() if not line.startswith(('RT=', 'rt '))]
        expect(f'{target} is refused', (status, lines_of(err)[0], 'Traceback' in err), (2, 'no goal is closed', False))
        expect(f'{target} says', re.sub('about .*', '', lines[0]), f'proving the library: {count} crates, {count} of them to be proved, one after another: ')
        life = rf'\d seconds: \d+ of {count} crates are built, proving \w+; about \d+ minutes left'
        expect(f'{target}: its sign of life', bool(re.fullmatch(life, lines[1])), True)


def test_alive(folder):
    words = [sys.executable, '-B', TOP / 'scripts/alive.py', 'says']

    def ran(*command):
        done = subprocess.run([*words, *command], env={**os.environ, 'ALIVE_SECONDS': '0.1'}, capture_output=True, text=True)
        return done.returncode, done.stdout, done.stderr.splitlines()
    expect('a command', ran('sh', '-c', 'echo out; echo err >&2; exit 3'), (3, 'out\n', ['says', 'err']))
    expect('a signal', ran('sh', '-c', 'kill -KILL $$')[0], 137)
    expect('none', ran('/none/here'), (1, '', ['says', 'alive.py: /none/here: No such file or directory']))
    expect('spans', [alive.minutes(one) for one in (0, 119, 120, 3600)], ['0 seconds', '119 seconds', '2 minutes', '60 minutes'])


# ---- what goes, and what stays

def test_clean(folder):
    """What make has made goes, by the list; what people have put into bin and dist stays, whatever its name."""
    room = Room(folder).with_program()
    top, elf = room.top, b'\x7fELF' + bytes(60)
    made = {'bin/gbkeep': elf, 'bin/libgbkeep.so': elf, 'bin/libgbkeep.a': b'!<arch>\n', 'bin/gbkeep.h': b'/* gbkeep */\n', 'bin/gbkeep.pc': b'prefix=/usr\n',
            'bin/gate_passed': b'commit: x\n', 'bin/gate_begun': b'no commit', 'bin/not_tried': b'x: y\n', 'bin/demo.pgm': b'P2\n160 144\n3\n',
            'bin/demo.png': b'\x89PNG\r\n\x1a\n', 'bin/arm64/gbkeep': elf, 'bin/arm64/gbkeep-static': elf, 'bin/arm64/PROVED': b'logic=proved\n',
            'bin/windows/gbkeep.dll': b'MZ\x90\0', 'bin/windows/gbkeep_libretro.dll': b'MZ\x90\0', 'bin/windows/libgbkeep.dll.a': b'!<arch>\n',
            'dist/BUILT': b'version: 0\n', 'dist/gbkeep.deb': b'!<arch>\ndebian', 'dist/gbkeep-0.1.0-py3-none-win_amd64.whl': b'PK\3\4wheel'}
    for place, maker in (('dist/web', 'web'), ('bin/web', 'page')):
        page = {'index.html': b'<!doctype html>', 'gbkeep.wasm.gz': b'\x1f\x8b', 'page.js': b'page', 'demo.gb': (TOP / 'examples/demo/demo.gb').read_bytes()}
        files = {name: hashlib.sha256(data).hexdigest() for name, data in page.items()}
        listed = f'// Made by scripts/{maker}.py: what\nconst FILES = {json.dumps({"./": "0", **files, "changed.js": "0"})};\n'
        page |= {'files.js': listed.encode(), 'README': b'gbkeep in a browser\n\nThese', 'service_worker.js': b'// The page without a network, once'}
        made |= {f'{place}/{name}': data for name, data in page.items()}
    ours = {'bin/demo.gbkeep': GAME, 'bin/play-demo.sav': GAME, 'bin/game.gbkeep': GAME, 'bin/run.rec': b'GBKPREC1' + bytes(504), 'bin/zelda.gb': bytes(32768),
            'bin/zelda.sav': bytes(8192), 'bin/not_there/gbkeep': elf, 'bin/arm64/mine.gbkeep': GAME, 'bin/libgbkeep.so.mine': elf, 'bin/windows/demo.gbkeep': GAME,
            'dist/gbkeep-0.1.0-py3-none-any.whl': b'PK\3\4mine', 'dist/gbkeep-0.1.0-py3-none-manylinux_2_17_x86_64.whl': b'mine',
            'bin/gbkeep_libretro.so': GAME, 'bin/gbkeep.new': bytes(512) + GAME, 'dist/letter.txt': b'mine',
            'dist/other.deb': b'mine', 'dist/web/mine.gb': b'mine', 'dist/web/changed.js': b'mine', 'bin/web/changed.js': b'mine', 'dist/changed.deb': b'changed'}
    for name, data in {**made, **ours}.items():
        (top / name).parent.mkdir(parents=True, exist_ok=True)
        (top / name).write_bytes(data)
    summed = (('gbkeep.deb', made['dist/gbkeep.deb']), ('changed.deb', b'as it was'), ('../bin/zelda.gb', ours['bin/zelda.gb']))
    sums = ''.join(f'{hashlib.sha256(data).hexdigest()}  {name}\n' for name, data in summed)
    (top / 'dist/SHA256SUMS').write_text(sums)
    (top / 'bin/gbkeep-static').symlink_to(top / 'bin/game.gbkeep')
    (top / 'bin/libgbkeep.so.0').symlink_to('libgbkeep.so')
    (top / 'bin/arm64/libgbkeep.so.0').symlink_to('/usr/lib/libgbkeep.so')
    before = {path for path in tree(top) if not path.startswith(('bin', 'dist'))}
    status, out, err = room.make('clean')
    expect('status', (status, err), (0, ''))
    left = {path for path in tree(top) if (top / path).is_file() and path.startswith(('bin', 'dist'))}
    expect('what is left', sorted(left), sorted({*ours, 'bin/gbkeep-static'}))
    expect('links', [(top / folder / 'libgbkeep.so.0').is_symlink() for folder in ('bin', 'bin/arm64')], [False, True])
    for name, data in ours.items():
        expect(name, (top / name).read_bytes() == data, True)
    expect('all else', {path for path in tree(top) if not path.startswith(('bin', 'dist'))}, before)
    expect('what it says', (out.startswith(f'{len(made) + 2} made files removed; bin keeps '), '"zelda.sav"' in out), (True, True))
    expect('again', room.make('clean')[1].startswith('0 made files removed; bin keeps'), True)
    empty = Room(folder / 'other')
    expect('nothing is there', empty.make('clean'), (0, '0 made files removed\n', ''))


def test_clean_cache(folder):
    """What proofs keep goes: this clone's and that of clones that are gone, and no other file of the cache."""
    room = Room(folder, 'rt')
    room.make('build')
    kept, top = folder / '.cache/gbkeep', room.top
    own, = kept.glob('build-????????')
    gone, other, unnamed = (kept / f'build-{number * 8}' for number in '123')
    for path in (gone, other, unnamed, kept / 'build-mine', folder / '.cache/others'):
        (path / 'deep').mkdir(parents=True)
        (path / 'deep/file').write_bytes(bytes(100_000))
    (kept / f'{gone.name}.of').write_text(str(folder / 'no such clone'))
    (kept / f'{other.name}.of').write_text(str(folder))
    (top / 'crates/session/out/rlib').mkdir(parents=True)
    (top / 'crates/session/out/rlib/stamp').write_bytes(bytes(50_000))
    sources = {path for path in tree(top) if not path.startswith(('crates/session/out', 'bin'))}
    says = room.make('help')[1].splitlines()[-1]
    expect('help tells its size', bool(re.fullmatch(r'~/\.cache/gbkeep takes [\d,.]+ (bytes|MB), crates/\*/out [\d,]+ bytes', says)), True)
    status, out, err = room.make('clean-cache')
    expect('status', (status, err), (0, ''))
    expect('what is left', sorted(path.name for path in kept.iterdir()), sorted([other.name, f'{other.name}.of', unnamed.name, 'build-mine']))
    expect('others', (folder / '.cache/others/deep/file').exists(), True)
    expect('the sources', {path for path in tree(top) if not path.startswith('bin')}, sources)
    expect('what it says', bool(re.fullmatch(r'[\d,]+ (bytes|MB) removed; ~/\.cache/gbkeep keeps [\d,]+ (bytes|MB) of other clones\n', out)), True)
    expect('the program stays', (top / 'bin/gbkeep').exists(), True)


def test_size(folder):
    """A file with two names counts once, and a link and what it leads to not at all."""
    (folder / 'a').mkdir()
    (folder / 'a/one').write_bytes(os.urandom(1 << 20))
    os.link(folder / 'a/one', folder / 'a/two')
    (folder / 'b').symlink_to(TOP)
    size, is_whole = clean.size_of([folder])
    expect(f'{size} bytes', (1 << 20 <= size < 1.1 * (1 << 20), is_whole), (True, True))
    expect('no time', clean.size_of([folder], -1), (0, False))
    expect('words', [clean.in_words(one) for one in (0, 1234, 2_000_000, 8_600_000_000)], ['0 bytes', '1,234 bytes', '2 MB', '8.6 GB'])


# ---- the page, and the help

def test_served(folder):
    """The page's folder is served to who has a name of no computer, as in a root without /etc/hosts."""
    asked = socket.getaddrinfo

    def numbers_alone(host, *more, **named):
        if host == 'localhost':
            raise socket.gaierror(socket.EAI_NONAME, 'Name or service not known')
        return asked(host, *more, **named)
    with mock.patch('socket.getaddrinfo', numbers_alone):
        expect('what is wrong', front_door.served(TOP, 'python3 -m http.server -d web/page 8000'), [])


def test_readme(folder):
    """README's first commands serve the page, and then are those that need `rt`, make and Python alone: `make demo`, and `make test`."""
    commands = [line for block in front_door.blocks((TOP / 'README.md').read_text()) for line, _ in block]
    expect('the first commands', [line.partition('#')[0].strip() for line in commands[:3]], ['python3 -m http.server -d web/page 8000', 'make demo', 'make test'])
    needs = {need for target in ('demo', 'test') for own, files in [doctor.TARGETS[target]] for need in (*own, *(one for file in files for one in needs_of(file)))}
    # bash is in each of Debian's
    expect('what they need', sorted(needs), ['bash', 'rt'])


def test_help(folder):
    """The help fits a terminal of 80 columns, has players' targets first, and needs nothing."""
    status, out, err = Room(folder).make('help')
    expect('status', (status, err), (0, ''))
    expect('wide lines', [line for line in out.splitlines() if len(line) > 80], [])
    first, _, second = out.partition('\nTo change it')
    listed = [re.findall(r'^  make ([\w-]+)', part, re.M) for part in (first, second)]
    expect('targets of players', [name in listed[0] for name in ('build', 'demo', 'play', 'install', 'run', 'doctor', 'clean')], [True] * 7)
    expect('others', [name in listed[0] for name in ('test', 'check', 'lint')], [False] * 3)
    named, free = targets()
    expect('each target once', sorted(listed[0] + listed[1]), sorted({*named, *free} - {'help'}))
    room = Room(folder / 'bare')
    (room.path / 'python3').unlink()
    expect('without Python', room.make('help')[0], 0)
    expect('make alone is help', Room(folder / 'other').make()[1].splitlines()[:5], out.splitlines()[:5])


def at_once(pool, test):
    """The test, which is begun beside others in a folder of its own."""
    def alone():
        with tempfile.TemporaryDirectory(prefix=f'{test.__name__}-') as folder:
            test(Path(folder))
    begun = pool.submit(alone)

    @functools.wraps(test)
    def case():
        begun.result()
    return case


def main():
    os.chdir(TOP)
    # rooms have an environment of their own, and what is looked for here is to be the same
    for name in ('NOT_TRIED', 'RT', 'CC', 'CC_ARM64', 'LIBRETRO', 'PYTHON', 'PIL_PYTHON', 'WEB_PYTHON', 'ARCH', 'KERNEL', 'JOBS', 'CC_WINDOWS', 'WINE'):
        os.environ.pop(name, None)
    names = sys.argv[1:]
    with ThreadPoolExecutor(4) as pool:
        tests = [at_once(pool, test) for test in support.tests_in(globals()) if not names or test.__name__.removeprefix('test_') in names]
        support.run_tests('make', tests, lambda folder: (), names)


if __name__ == '__main__':
    main()
