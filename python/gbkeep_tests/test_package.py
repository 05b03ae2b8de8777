"""Tries the package as it is installed: what it exports, its launchers, its refusals, what its calls take, where it looks for the program and the library, and
how it does without other packages. It needs no program.

usage: test_package.py [TEST..]"""
import ast
import copy
import inspect
import multiprocessing
import os
import pickle
import re
import shutil
import subprocess
import sys
from pathlib import Path
from unittest import mock

import gbkeep
from gbkeep.faults import CODES, explained
from gbkeep.game import bytes_of, started
from gbkeep.pictures import PICTURE_HEAD
from gbkeep.library import advice_of
from gbkeep.machines import number, room_of
from gbkeep_tests import support
from gbkeep_tests.support import TOP, expect
from scripts.doctor import told
from scripts.not_tried import note

SOURCES = TOP / 'python'
TOOLS = dict(re.findall(r'^(gbkeep-[a-z-]+) = "gbkeep\.([a-z_]+):start"$', (SOURCES / 'pyproject.toml').read_text(), re.M))
WHITE = b'\3' * (160 * 144)
PGM = PICTURE_HEAD + b'3 ' * (160 * 144)


def ran(words, **more):
    """Status, output and errors, without what the gate has set."""
    env = {name: value for name, value in os.environ.items() if name not in ('PYTHONPATH', 'GBKEEP', 'GBKEEP_LIBRARY')}
    done = subprocess.run([str(word) for word in words], env={**env, **more}, stdin=subprocess.DEVNULL, capture_output=True, text=True, timeout=60)
    return done.returncode, done.stdout, done.stderr


def made(path, text='#!/bin/sh\n', mode=0o755):
    path.parent.mkdir(parents=True, exist_ok=True)
    path.write_text(text)
    path.chmod(mode)
    return path


def test_names(folder):
    """Each name that is exported is there and says of itself what it is, and each call of it has types."""
    expect('names', [name for name in gbkeep.__all__ if not hasattr(gbkeep, name)], [])
    for name in gbkeep.__all__:
        one = getattr(gbkeep, name)
        if not callable(one):
            continue
        expect(f'{name} says what it is', bool(one.__doc__), True)
        calls = [call for call in vars(one).values() if inspect.isfunction(call) and not call.__name__.startswith('_')] if isinstance(one, type) else [one]
        for call in calls:
            code = call.__code__
            if code.co_filename.startswith(str(SOURCES)):
                given = code.co_varnames[:code.co_argcount]
                expect(f'{name}.{call.__name__}: without a type', sorted({*given, 'return'} - {'self', 'cls'} - set(call.__annotations__)), [])


def test_one_protocol(folder):
    """Each machine has the calls of the protocol, with its words and types, and each game those of a game."""
    machine, game = gbkeep.AnyMachine, gbkeep.AnyGame
    for kind, protocol in ((gbkeep.Machine, machine), (gbkeep.DebugMachine, machine), (gbkeep.Session, game), (gbkeep.Game, game)):
        calls = {name: call for one in protocol.__mro__ for name, call in vars(one).items()
                 if inspect.isfunction(call) and name not in ('__init__', '__subclasshook__') and one.__module__ == protocol.__module__}
        expect(f'{protocol.__name__}: its calls', {'frame', 'frames', 'seconds', 'power', 'keep', 'back', 'state', 'restore', 'memory', 'memory_into',
                                                   'picture', 'picture_into', 'close', '__enter__', '__exit__'} - set(calls), set())
        for name, call in calls.items():
            expect(f'{kind.__name__}.{name}', str(inspect.signature(getattr(kind, name))), str(inspect.signature(call)))
            expect(f'{kind.__name__}.{name} says what it does', name.startswith('__') or bool(getattr(kind, name).__doc__), True)
        expect(f'{kind.__name__}.closed', isinstance(kind.closed, property), True)
    expect('a picture is no machine', isinstance(gbkeep.Picture(WHITE), gbkeep.AnyMachine), False)


REFUSALS = {
    'of a table': lambda: gbkeep.Refused('gbkeep: no battery', 'export'),
    'of none': lambda: gbkeep.Refused('what nobody says', ''),
    'with a code': lambda: gbkeep.Refused('save first', '', 'it is full', 'save it', 15),
    'no program': lambda: gbkeep.MissingProgram('nowhere/gbkeep', 'no such program'),
    'no state': lambda: gbkeep.NoState('damaged snapshot', 'these are no state', code=6),
}


def refuses(name):
    """What a process of a pool does."""
    raise REFUSALS[name]()


def test_refusals(folder):
    """A refusal says all of itself, and is the same one in another process."""
    lines = {'of a table': "gbkeep: no battery: the cartridge's type names no battery, so the game keeps nothing; begin it by `new`",
             'of none': 'what nobody says', 'with a code': 'save first: it is full; save it',
             'no program': "nowhere/gbkeep can't be run: no such program; `make build` makes one, and the variable GBKEEP names another one",
             'no state': 'damaged snapshot: these are no state; give what `state` answered of this cartridge'}
    held = ('line', 'means', 'advice', 'code')
    with multiprocessing.get_context('fork').Pool(1) as pool:
        for name, make in REFUSALS.items():
            one = make()
            one.notes = ['of a caller']
            expect(name, (str(one), one.told(), f'{one}'), (lines[name],) * 3)
            others = [pickle.loads(pickle.dumps(one, protocol)) for protocol in range(pickle.HIGHEST_PROTOCOL + 1)] + [copy.copy(one), copy.deepcopy(one)]
            for other in others:
                expect(f'{name}: again', (type(other), str(other), other.args, vars(other)), (type(one), str(one), one.args, vars(one)))
            try:
                # a pool whose worker can't hand out what it raised waits for ever
                pool.apply_async(refuses, (name,)).get(20)
                support.wrong(f'{name}: nothing is raised')
            except gbkeep.Refused as other:
                expect(f'{name}: from a process', [type(other), *(getattr(other, part) for part in held)], [type(one), *(getattr(one, part) for part in held)])
    # a line that two commands explain in their own way
    expect('of a stream', explained('gbkeep: other cartridge', 'stream'), ('the game in SAVE is of another ROM; or the state behind a `restore` is, and what was given before is saved',
                                                                           'use the ROM that it was begun with; give a state of this cartridge'))
    expect('of any other', [explained('gbkeep: other cartridge', command)[1] for command in ('play', 'record')] + [advice_of(CODES['other cartridge'])],
           ['use the ROM that it was begun with'] * 3)
    expect('no state is a wrong value, too', (issubclass(gbkeep.NoState, ValueError), issubclass(gbkeep.NoState, gbkeep.Refused)), (True, True))
    refused = gbkeep.Refused('gbkeep: device failed', 'new')
    refused.means, refused.advice = 'x exists already', ''
    expect('what is said of it later', str(refused), 'gbkeep: device failed: x exists already')
    status, out, err = ran([sys.executable, '-B', '-c', 'import gbkeep; gbkeep.begin("a.gb", "b")'], PYTHONPATH=str(SOURCES), GBKEEP='nowhere/gbkeep')
    expect('a traceback', (status, out, err.splitlines()[-1]), (1, '', f'gbkeep.machines.MissingProgram: {lines["no program"]}'))


def test_modules(folder):
    """No module changes where Python looks for modules, or is named from outside the package."""
    for path in sorted((SOURCES / 'gbkeep').glob('*.py')):
        text = path.read_text()
        expect(f'{path.name}: sys.path', 'sys.path' in text, False)
        own = {other.stem for other in path.parent.glob('*.py')}
        named = [one.name for node in ast.walk(ast.parse(text)) if isinstance(node, ast.Import) for one in node.names]
        named += [node.module for node in ast.walk(ast.parse(text)) if isinstance(node, ast.ImportFrom) and node.level == 0]
        expect(f'{path.name}: modules by their plain names', [one for one in named if one.partition('.')[0] in own], [])


def test_launchers(folder):
    """Each tool starts where it is installed, and tells its help."""
    built = made(folder / 'built/gbkeep').parent
    words = [sys.executable, '-B', '-c', f'import sys; sys.path.insert(0, "packaging"); import installed\nfor one in installed.files({str(built)!r}): installed.put(one, {str(folder / "installed")!r})']
    done = subprocess.run(words, cwd=TOP, capture_output=True, text=True)
    expect('what is installed', (done.returncode, done.stderr), (0, ''))
    commands = {path.name for path in (folder / 'installed/bin').iterdir()}
    expect('the commands', commands, {*TOOLS, 'gbkeep'})
    for name in TOOLS:
        status, out, err = ran([sys.executable, '-B', folder / 'installed/bin' / name, '--help'])
        expect(f'{name} --help', (status, f'usage: {name}' in out, err), (0, True, ''))
        expect('its page', f'.TH {name.upper()} 1' in (folder / f'installed/share/man/man1/{name}.1').read_text(), True)
    for name in ('py.typed', 'messages.json'):
        expect('types, and texts', (folder / f'installed/share/gbkeep/gbkeep/{name}').exists(), True)
    expect('also for pip', 'package-data = { gbkeep = ["py.typed", "messages.json"] }' in (SOURCES / 'pyproject.toml').read_text(), True)
    status, out, err = ran([sys.executable, '-B', folder / 'installed/bin/gbkeep-script', 'check', folder / 'none'])
    expect('a name in a refusal', (status, out, err), (1, '', f'gbkeep-script: {folder}/none: No such file or directory\n'))
    status, out, err = ran([sys.executable, '-B', '-m', 'gbkeep.script', 'check', folder / 'none'], PYTHONPATH=str(SOURCES))
    expect('and of a module that is run', (status, out, err), (1, '', f'gbkeep-script: {folder}/none: No such file or directory\n'))


def test_places(folder):
    """The program and the library are those of the clone, or those that are installed with the package, and else the first ones that there are."""
    says = 'import gbkeep; print(gbkeep.find_program()); print(gbkeep.find_library())'
    for modules, library in (('clone/python', 'bin/libgbkeep.so'), ('prefix/share/gbkeep', 'lib/libgbkeep.so.0'), ('usr/lib/python3/dist-packages', 'lib/libgbkeep.so.0'),
                             ('env/lib/python3.11/site-packages', 'lib/libgbkeep.so.0')):
        top = folder / modules.partition('/')[0]
        shutil.copytree(SOURCES / 'gbkeep', folder / modules / 'gbkeep', ignore=shutil.ignore_patterns('__pycache__'))
        how = {'PYTHONPATH': str(folder / modules), 'PATH': str(folder / 'path')}
        where = [sys.executable, '-B', '-c', says]
        expect(f'{modules}: nothing is there', ran(where, **how), (0, f'{top}/bin/gbkeep\nlibgbkeep.so.0\n', ''))
        elsewhere = made(folder / 'path/gbkeep')
        expect(f'{modules}: on the search path', ran(where, **how)[1].splitlines()[0], str(elsewhere))
        made(top / 'bin/gbkeep')
        made(top / library)
        expect(f'{modules}: beside it', ran(where, **how), (0, f'{top}/bin/gbkeep\n{top}/{library}\n', ''))
        expect(f'{modules}: named', ran(where, GBKEEP='a', GBKEEP_LIBRARY='b', **how), (0, 'a\nb\n', ''))
        elsewhere.unlink()


def test_missing(folder):
    """What needs another package says which one, with a status, and does nothing; a picture needs none."""
    (folder / 'picture.pgm').write_bytes(PGM)
    bare = [sys.executable, '-S', '-B', '-m']
    for name in ('made.png', 'again.png'):
        expect('a PNG without packages', ran([*bare, 'gbkeep.png', folder / 'picture.pgm', folder / name], PYTHONPATH=str(SOURCES)), (0, '', ''))
    expect('the same bytes', (folder / 'made.png').read_bytes() == (folder / 'again.png').read_bytes() == gbkeep.Picture(WHITE).png(), True)
    status, out, err = ran([*bare, 'gbkeep.window', 'game.gb'], PYTHONPATH=str(SOURCES))
    expect('no GTK', (status, out, 'python3-gi' in err, err.count('\n')), (1, '', True, 1))
    status, out, err = ran([*bare, 'gbkeep.window', '--help'], PYTHONPATH=str(SOURCES))
    expect('help without GTK', (status, 'usage: gbkeep-window' in out, err), (0, True, ''))
    says = 'import gbkeep; print(len(gbkeep.Picture(b"\\3" * 23040).png()) > 0)'
    expect('a picture without packages', ran([sys.executable, '-S', '-B', '-c', says], PYTHONPATH=str(SOURCES)), (0, 'True\n', ''))
    status, out, err = ran([sys.executable, '-B', '-c', 'import gbkeep; gbkeep.Machine(b"")'], PYTHONPATH=str(SOURCES), GBKEEP_LIBRARY=str(folder / 'none.so'))
    expect('no library', (status, 'the library can\'t be loaded' in err, '`make library` makes one' in err.splitlines()[-1]), (1, True, True))
    status, out, err = ran([*bare, 'gbkeep.env', '--measure', 'game.gb'], PYTHONPATH=str(SOURCES))
    expect('no numpy', (status, out, 'python3-numpy' in err, err.count('\n')), (1, '', True, 1))
    status, out, err = ran([sys.executable, '-S', '-B', '-c', 'import gbkeep.env'], PYTHONPATH=str(SOURCES))
    expect('no numpy for what takes it', (status, out, 'python3-numpy' in err.splitlines()[-1]), (1, '', True))


def test_broken_off(folder):
    """A process does not go on where its start is broken off."""
    made(folder / 'program', '#!/bin/sh\nexec sleep 60\n')
    for fault, refusal in ((OSError(5, 'Input/output error'), gbkeep.MissingProgram), (KeyboardInterrupt(), KeyboardInterrupt)):
        with mock.patch('subprocess.os.read', side_effect=fault):
            expect(f'{fault!r}', support.refusal(lambda: started([str(folder / 'program')]), refusal) is not None, True)
        expect(f'a process behind {fault!r}', support.refusal(lambda: os.waitpid(-1, os.WNOHANG), ChildProcessError) is not None, True)


class Index:
    """A number that is none of Python's own, as numpy's are."""

    def __init__(self, value):
        self.value = value

    def __index__(self):
        return self.value


def test_numbers(folder):
    """Numbers are taken as Python takes an index; room is what can be written to, of the right length and without gaps."""
    expect('numbers', [number('a', one, 0, 9) for one in (0, 9, True, Index(4))], [0, 9, 1, 4])
    for kind, wrong in ((ValueError, (-1, 10, Index(10), 1 << 70)), (TypeError, (2.0, '2', None, b'2'))):
        for one in wrong:
            expect(f'{one!r}', support.refusal(lambda: number('a', one, 0, 9), kind) is not None, True)
    room = bytearray(10)
    view = memoryview(room)
    expect('room', [room_of(one, 1, 10).nbytes for one in (room, view[3:5], view.cast('H'), view.cast('B', (2, 5)))], [10, 2, 10, 10])
    for kind, wrong in ((TypeError, (b'ab', view.toreadonly(), 'ab', 7, None)), (ValueError, (bytearray(), bytearray(11), view[::2]))):
        for one in wrong:
            expect(f'{one!r}', support.refusal(lambda: room_of(one, 1, 10), kind) is not None, True)
    try:
        import numpy
    except ImportError:
        return
    expect('numbers of numpy', [number('a', kind(7), 0, 9) for kind in (numpy.uint8, numpy.int64, numpy.array)], [7, 7, 7])
    for one in (numpy.float64(7), numpy.array([7, 7])):
        expect(f'{one!r}', support.refusal(lambda: number('a', one, 0, 9), TypeError) is not None, True)
    rows = numpy.zeros((2, 5), numpy.uint8)
    expect('room of numpy', (room_of(rows, 10, 10).nbytes, support.refusal(lambda: room_of(rows[:, ::2], 1, 10), ValueError) is not None), (10, True))
    rows.flags.writeable = False
    expect('none of it', support.refusal(lambda: room_of(rows, 1, 10), TypeError) is not None, True)


def test_bytes(folder):
    """Bytes are taken of anything that has some, and of nothing else."""
    expect('bytes', [bytes_of(one) for one in (b'ab', bytearray(b'ab'), memoryview(b'xabx')[1:3], memoryview(b'a-b')[::2])], [b'ab'] * 4)
    for one in (2, 'ab', None, [1, 2]):
        expect(f'{one!r}', support.refusal(lambda: bytes_of(one), TypeError) is not None, True)
    picture = gbkeep.Picture(WHITE)
    try:
        import numpy
    except ImportError:
        expect('no numpy', support.refusal(picture.array, ImportError) is not None, True)
        note('the package, arrays', told('numpy'))
        return
    expect('an array', (picture.array().shape, int(picture.array().sum())), ((144, 160), 3 * 160 * 144))
    expect('bytes of an array', bytes_of(numpy.array([[1, 2], [3, 4]], numpy.uint8)[:, 1]), b'\2\4')


if __name__ == '__main__':
    support.run_tests('the package', support.tests_in(globals()), lambda folder: (Path(folder),), sys.argv[1:])
