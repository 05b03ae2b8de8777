"""Tries `make install`, `make uninstall` and `make dist` with stand-ins for what is proved: what they leave, where, and that it works there.

usage: test_installed.py [TEST..]     CC names the C compiler

It needs no program and no root."""
import ast
import contextlib
import io
import os
import re
import shlex
import shutil
import subprocess
import sys
import tarfile
import unittest
from collections.abc import Iterable
from pathlib import Path
from typing import Optional
from unittest import mock

import installed
from gbkeep_tests import support
from gbkeep_tests.support import TOP, expect, needs
from scripts import library
from scripts.doctor import is_there, told

COMPILER = os.environ.get('CC', 'cc')
CLONED = ('README.md', 'Makefile', 'crates.txt', 'completions', 'docs', 'editors', 'examples', 'library', 'packaging', 'players', 'python', 'scripts',
          'crates/command_line/src/words.rt')
# what the gate has set
SET = {'PYTHONPATH', 'GBKEEP', 'GBKEEP_LIBRARY', 'MAKEFLAGS', 'MAKELEVEL', 'MFLAGS', 'PREFIX', 'LIBDIR', 'DESTDIR', 'ARCH', 'PYTHONDONTWRITEBYTECODE'}
CLEAN = {name: value for name, value in os.environ.items() if name not in SET}
USAGE = 'play: usage: play ROM SAVE SCRIPT [CALLS]\n'


def ran(words: Iterable[object], cwd: Optional[Path] = None, env: Optional[dict[str, str]] = None, **more: str) -> tuple[int, str, str]:
    """Status, output and errors."""
    done = subprocess.run([str(word) for word in words], cwd=cwd, env={**(CLEAN if env is None else env), **more}, stdin=subprocess.DEVNULL,
                          capture_output=True, text=True, timeout=120)
    return done.returncode, done.stdout, done.stderr


def done(words: Iterable[object], cwd: Optional[Path] = None, **more: str) -> str:
    """The output of what has to end well."""
    words = list(words)
    status, out, err = ran(words, cwd, **more)
    expect(f'{" ".join(map(str, words))[:200]}: {out[-1000:]}{err[-2000:]}', status, 0)
    return out


def cloned(folder: Path, is_compiled: bool = False) -> Path:
    """The clone, copied where it is compiled and else by links, with a folder bin of stand-ins that `make` takes for built."""
    clone = folder / 'clone'
    for name in CLONED:
        (clone / name).parent.mkdir(parents=True, exist_ok=True)
        if not is_compiled:
            (clone / name).symlink_to(TOP / name)
        elif (TOP / name).is_dir():
            shutil.copytree(TOP / name, clone / name, ignore=shutil.ignore_patterns('__pycache__'))
        else:
            shutil.copy(TOP / name, clone / name)
    out = folder / 'out'
    out.mkdir()
    shutil.copy(TOP / 'library/gbkeep.h', out)
    (out / 'gbkeep').write_text('#!/bin/sh\necho gbkeep\n')
    (out / 'libgbkeep.a').write_text('an archive')
    (out / 'libgbkeep.so').write_text('a library')
    (out / 'gbkeep_libretro.so').write_text('a core')
    if is_compiled:
        # what examples/library/play.c calls
        names = sorted(set(re.findall(r'\b(gbkeep_\w+)\(', (TOP / 'examples/library/play.c').read_text())))
        calls = ''.join(f'int {name}(void) {{ return 0; }}\n' for name in names)
        (out / 'stand_in.c').write_text(calls + '#ifdef PROGRAM\nint main(void) { return 0; }\n#endif\n')
        done([COMPILER, '-DPROGRAM', '-o', out / 'gbkeep', out / 'stand_in.c'])
        for name in ('libgbkeep.so', 'gbkeep_libretro.so'):
            done([COMPILER, '-shared', '-fPIC', f'-Wl,-soname,{name}.0', '-o', out / name, out / 'stand_in.c'])
    (out / 'gbkeep').chmod(0o755)
    (clone / 'bin').mkdir()
    library.leave(out, clone / 'bin')
    for name in ('gbkeep_libretro.so', 'gbkeep'):
        shutil.copy(out / name, clone / 'bin' / name)
    return clone


def make(clone: Path, target: str, prefix: object, **more: object) -> str:
    words = ['make', '--no-print-directory', target, f'PREFIX={prefix}', *(f'{name}={value}' for name, value in more.items())]
    return done(words, clone, PATH=f'{Path(sys.executable).parent}:{os.environ["PATH"]}')


def in_place(clone: Path, prefix: object, libdir: object = 'lib', destination: object = '', *more: str) -> str:
    """What `make install` runs, in this process."""
    with contextlib.redirect_stdout(io.StringIO()) as said:
        installed.main([*more, '--built', str(clone / 'bin'), '--libdir', str(libdir), '--destdir', str(destination), str(prefix)])
    return said.getvalue()


def tree(folder: Path) -> dict[str, object]:
    """Each file below a folder, with its bytes and its mode, or where it leads to; and each folder that has nothing."""
    found = {}
    for path in sorted(folder.rglob('*')):
        name = str(path.relative_to(folder))
        if path.is_symlink():
            found[name] = os.readlink(path)
        elif path.is_file():
            found[name] = (path.read_bytes(), path.stat().st_mode & 0o777)
        elif not any(path.iterdir()):
            found[name] = 'an empty folder'
    return found


# ---- installing

def test_install_and_uninstall(folder: Path) -> None:
    """What is installed is the list, twice as once; it is removed, and nothing else."""
    clone, prefix = cloned(folder), folder / 'a prefix'
    make(clone, 'install', prefix)
    first = tree(prefix)
    expect('what is there', sorted(first), sorted(file.path for file in installed.files(None, 'lib', str(prefix))))
    expect('links that lead nowhere', [name for name in first if not (prefix / name).exists()], [])
    expect('it runs', done([prefix / 'bin/gbkeep']), 'gbkeep\n')
    make(clone, 'install', prefix)
    expect('the second time', tree(prefix) == first, True)
    # what others have there
    names = ('bin/other', 'share/gbkeep/game-01234567.gbkeep', 'share/gbkeep/gbkeep/__pycache__/mine.pyc', 'share/man/man1/other.1', 'lib/other')
    own = {name: (name.encode(), 0o600) for name in names}
    for name, (data, mode) in own.items():
        (prefix / name).parent.mkdir(exist_ok=True)
        (prefix / name).write_bytes(data)
        (prefix / name).chmod(mode)
    own['share/mine'] = 'an empty folder'
    (prefix / 'share/mine').mkdir()
    # Python compiles the modules there
    done([sys.executable, prefix / 'bin/gbkeep-script', '--help'])
    expect('compiled', bool(list(prefix.glob('share/gbkeep/gbkeep/__pycache__/script.*'))), True)
    # what the player has changed is removed, too; a folder is none of what was installed
    (prefix / 'share/applications/gbkeep.desktop').write_text('changed')
    (prefix / 'include/gbkeep.h').unlink()
    (prefix / 'include/gbkeep.h').mkdir()
    own['include/gbkeep.h'] = 'an empty folder'
    # also what bin no longer has
    for path in (clone / 'bin').iterdir():
        path.unlink()
    for _ in range(2):
        expect('what is said', make(clone, 'uninstall', prefix), '')
        expect('what is left', tree(prefix), own)
    shutil.rmtree(prefix)
    make(clone, 'uninstall', prefix)
    expect('a prefix that is not there', prefix.exists(), False)


def test_uninstall_alone(folder: Path) -> None:
    """Where only gbkeep was installed nothing is left, but the folders that any system has."""
    clone, prefix, stage = cloned(folder), folder / 'prefix', folder / 'stage'
    in_place(clone, prefix)
    in_place(clone, prefix, 'lib', '', '--remove')
    expect('what is left', tree(prefix), {})
    make(clone, 'install', '/usr/local', DESTDIR=stage)
    make(clone, 'uninstall', '/usr/local', DESTDIR=stage)
    expect('what is left where it was staged', tree(stage), {'usr/local': 'an empty folder'})
    # of the system's own folders, in a file system of which only the calls are seen
    own = ['bin', 'include', 'lib', 'share', 'share/man']
    for top, wanted in (('/usr/local', []), ('/opt/x', [f'/opt/x/{name}' for name in own])):
        asked: list[str] = []
        with mock.patch('os.rmdir', asked.append), mock.patch.object(Path, 'is_symlink', lambda _: False), mock.patch.object(Path, 'is_file', lambda _: False):
            installed.removed(installed.files(None, 'lib', top), top, 'lib', '')
        expect(f'{top}: its own folders', [one for one in sorted(asked) if one.removeprefix(f'{top}/') in own], wanted)
        expect(f'{top}: ours', f'{top}/share/gbkeep' in asked, True)


def test_libdir(folder: Path) -> None:
    """Libraries go where LIBDIR says, and the package of Python finds them there."""
    clone = cloned(folder)
    find = 'import gbkeep; print(gbkeep.find_library())'
    for libdir, below in (('lib', 'lib'), ('lib/x86_64-linux-gnu/', 'lib/x86_64-linux-gnu')):
        prefix = folder / libdir.replace('/', '-')
        in_place(clone, prefix, libdir)
        expect(f'{libdir}: libraries', sorted(str(path.parent.relative_to(prefix)) for path in prefix.rglob('libgbkeep.so.0.*')), [below])
        expect(f'{libdir}: the core', (prefix / below / 'libretro/gbkeep_libretro.so').exists(), True)
        expect(f'{libdir}: settings', f'\nlibdir=${{prefix}}/{below}\n' in (prefix / below / 'pkgconfig/gbkeep.pc').read_text(), True)
        found = Path(done([sys.executable, '-B', '-c', find], PYTHONPATH=str(prefix / 'share/gbkeep')).strip())
        expect(f'{libdir}: found', found.resolve(), prefix / below / f'libgbkeep.so.{installed.version()}')
        in_place(clone, prefix, libdir, '', '--remove')
        expect(f'{libdir}: what is left', tree(prefix), {})
    prefix, elsewhere, stage = folder / 'prefix', folder / 'elsewhere', folder / 'stage'
    for destination in ('', stage):
        make(clone, 'install', prefix, LIBDIR=elsewhere, DESTDIR=destination)
        place = Path(f'{destination}{elsewhere}')
        expect('elsewhere: settings', f'\nlibdir={elsewhere}\n' in (place / 'pkgconfig/gbkeep.pc').read_text(), True)
        expect('elsewhere: not below the prefix', list(Path(f'{destination}{prefix}').rglob('libgbkeep.so.0.*')), [])
        if not destination:
            found = done([sys.executable, '-B', '-c', find], PYTHONPATH=str(prefix / 'share/gbkeep')).strip()
            expect('elsewhere: found', Path(found).resolve(), elsewhere / f'libgbkeep.so.{installed.version()}')
        make(clone, 'uninstall', prefix, LIBDIR=elsewhere, DESTDIR=destination)
        expect('elsewhere: what is left', (tree(place), tree(Path(f'{destination}{prefix}'))), ({}, {}))


def test_refusals(folder: Path) -> None:
    """What can't be installed or removed is a line."""
    clone, prefix = cloned(folder), folder / 'prefix'
    prefix.mkdir()
    (prefix / 'bin').write_text('no folder')
    words = [sys.executable, '-B', 'packaging/installed.py']
    status, out, err = ran([*words, prefix], clone)
    expect('no folder', (status, out, err.startswith('installed.py: '), err.count('\n')), (1, '', True, 1))
    status, out, err = ran([*words, '--built', folder / 'none', prefix], clone)
    expect('nothing is built', (status, out, err), (1, '', f'installed.py: {folder}/none/gbkeep: No such file or directory\n'))
    expect('nothing was made', tree(prefix), {'bin': (b'no folder', (prefix / 'bin').stat().st_mode & 0o777)})
    expect('wrong words', ran([*words, '--removed', prefix], clone)[0], 2)
    for name in (f'{folder}/two\nlines', f'{folder}/\udcff'):
        status, out, err = ran([*words, name], clone)
        expect('a name of no text', (status, out, err.startswith('installed.py: '), err.count('\n'), os.path.lexists(name)), (1, '', True, 1, False))


def test_arm64(folder: Path) -> None:
    """What is built for aarch64 is installed by ARCH=arm64."""
    clone = cloned(folder)
    shutil.copytree(clone / 'bin', clone / 'bin/arm64', symlinks=True)
    (clone / 'bin/arm64/gbkeep').write_text('for aarch64')
    make(clone, 'install', '/usr', ARCH='arm64', DESTDIR=folder / 'stage')
    expect('the program', (folder / 'stage/usr/bin/gbkeep').read_text(), 'for aarch64')


# ---- the library

def test_settings(folder: Path) -> None:
    """A program in C is built by what pkg-config says, and starts: from bin, and from where it is installed."""
    needs('the settings of pkg-config', 'cc', 'pkg-config')
    clone = cloned(folder / 'a room', is_compiled=True)
    expect('bin', os.readlink(clone / 'bin/libgbkeep.so.0'), 'libgbkeep.so')
    prefix, elsewhere, moved = folder / 'a prefix', folder / 'else where', folder / 'moved'
    in_place(clone, prefix)
    in_place(clone, folder / 'other', elsewhere)
    # staged, the settings are those of the place it is meant for
    in_place(clone, prefix, 'lib', folder / 'stage')
    expect('staged', tree(Path(f'{folder}/stage{prefix}')) == tree(prefix), True)
    shutil.copytree(clone / 'bin', moved, symlinks=True)
    (folder / 'play.c').write_text((TOP / 'examples/library/play.c').read_text())
    for place, settings in ((clone / 'bin', clone / 'bin'), (moved, moved), (prefix / 'lib', prefix / 'lib/pkgconfig'), (elsewhere, elsewhere / 'pkgconfig')):
        how = {'PKG_CONFIG_PATH': str(settings)}
        flags = shlex.split(done(['pkg-config', '--cflags', '--libs', 'gbkeep'], **how))
        done([COMPILER, '-o', folder / 'play', folder / 'play.c', *flags, f'-Wl,-rpath,{place}'])
        expect(f'{place}: it starts', ran([folder / 'play'])[::2], (1, USAGE))
        expect(f'{place}: the version', done(['pkg-config', '--modversion', 'gbkeep'], **how).strip(), installed.version())
    # as docs/LIBRARY.md says it, from the top of the clone
    line = f'{COMPILER} -o bin/play examples/library/play.c $(PKG_CONFIG_PATH=bin pkg-config --cflags --libs gbkeep) -Wl,-rpath,bin'
    done(['sh', '-c', line], clone)
    expect('by relative names', ran(['bin/play'], clone)[::2], (1, USAGE))


# ---- which Python

def python(path: Path, script: str) -> Path:
    """A Python of our own, in a folder of its own."""
    path.parent.mkdir(parents=True)
    path.write_text(f'#!/bin/sh\necho {path.parent.name} >> "$STARTED"\n{script}')
    path.chmod(0o755)
    return path.parent


class Pythons:
    """A tool that is installed, and Pythons of which some have what it needs."""

    def __init__(self, folder: Path):
        self.folder, self.prefix, self.log = folder, folder / 'prefix', folder / 'started'
        in_place(cloned(folder), self.prefix)
        place = self.prefix / 'share/gbkeep'
        (place / 'gbkeep/told.py').write_text('import sys\n\ndef start():\n    print(sys.argv[1:], "only_there" in sys.modules, sep="")\n')
        for name, words in (('gbkeep-told', "'told', 'only_there'"), ('gbkeep-plain', "'told'")):
            (place / name).write_text(installed.LAUNCHER.format(words=words))
            (place / name).chmod(0o755)
            (self.prefix / 'bin' / name).symlink_to(f'../share/gbkeep/{name}')
        (folder / 'with').mkdir()
        (folder / 'with/only_there.py').write_text('')
        (folder / 'broken').mkdir()
        (folder / 'broken/only_there.py').write_text('raise ImportError("it does not work")\n')
        # as another version, with a folder of modules, runs what it is given
        (folder / 'as.py').write_text('''import runpy, sys
major, minor, modules, word, *sys.argv = sys.argv[1:]
sys.version_info = (int(major), int(minor), 1, "final", 0)
sys.path[0] = modules
if word == "-c":
    exec(sys.argv[0])
else:
    sys.argv.insert(0, word)
    sys.path.insert(0, %r)
    runpy.run_path(word, run_name="__main__")
''' % str(place))
        real = f'exec {shlex.quote(sys.executable)} -S -B'
        self.lacks = python(folder / 'lacks/python3', f'{real} "$@"\n')
        self.has = python(folder / 'has/python3', f'{real} as.py 3 11 with "$@"\n')
        self.broken = python(folder / 'broken-one/python3', f'{real} as.py 3 11 broken "$@"\n')
        self.old = python(folder / 'old/python3', f'{real} as.py 3 8 with "$@"\n')
        self.fails = python(folder / 'fails/python3', 'echo "no such version" >&2\nexit 127\n')

    def started(self, name: str, path: Iterable[Path], *words: str, **more: str) -> tuple[int, str, str]:
        """Starts a tool as a file manager does: without a terminal, and with few variables."""
        self.log.write_text('')
        env = {'PATH': os.pathsep.join(map(str, [*path, '/usr/bin', '/bin'])), 'HOME': str(self.folder), 'STARTED': str(self.log), **more}
        # none of them is the system's, which is another one on each
        return ran([self.prefix / 'bin' / name, *words], self.folder, env)

    def names(self) -> list[str]:
        return self.log.read_text().split()


def test_which_python(folder: Path) -> None:
    """A tool is started by the first Python that has what it needs."""
    pythons = Pythons(folder)
    lacks, has, broken, old, fails = pythons.lacks, pythons.has, pythons.broken, pythons.old, pythons.fails
    words = ['--a', 'b c', '']
    for path in ([has], [lacks, has], [lacks, fails, has], [broken, has], [old, has], [lacks, old, has], [lacks, broken, has]):
        expect(f'{[one.name for one in path]}', pythons.started('gbkeep-told', path, *words), (0, f'{words}True\n', ''))
        expect('which goes on', pythons.names()[-1], 'has')
    # a file of that name in the present folder is no package
    (folder / 'only_there.py').write_text('')
    expect('none has it', pythons.started('gbkeep-told', [lacks], 'x'), (0, "['x']False\n", ''))
    expect('each was asked once', pythons.names().count('lacks') <= 2, True)
    (folder / 'only_there.py').unlink()
    # no Python more than is needed
    for name, path in (('gbkeep-told', [has, lacks]), ('gbkeep-plain', [lacks, has])):
        expect(f'{name} starts', pythons.started(name, path)[0], 0)
        expect(f'{name}: what was started', pythons.names(), [path[0].name])
    pythons.started('gbkeep-script', [lacks, has], '--help')
    expect('a tool that needs nothing', pythons.names(), ['lacks'])
    expect('what the window needs', "start('window', 'gi')" in (pythons.prefix / 'share/gbkeep/gbkeep-window').read_text(), True)
    # without streams
    line = f'exec {shlex.quote(str(pythons.prefix))}/bin/gbkeep-told <&- >&- 2>&-'
    ran(['sh', '-c', line], folder, PATH=f'{lacks}:{has}:/usr/bin:/bin', STARTED=str(pythons.log))
    expect('without streams', pythons.names()[-1], 'has')
    # the window, which looks for its program next
    if ran(['/usr/bin/python3', '-c', "import gi; gi.require_version('Adw', '1')"])[0] != 0:
        raise unittest.SkipTest(f"the window by the system's Python: {told('GTK')}")
    status, out, err = pythons.started('gbkeep-window', [lacks], 'none.gb', GBKEEP='/nowhere/gbkeep')
    expect('the window is started', (status, out, err.startswith("/nowhere/gbkeep can't be run"), err.count('\n')), (1, '', True, 1))


def test_no_python(folder: Path) -> None:
    """Where no Python has it, that is a line."""
    pythons = Pythons(folder)
    launcher = pythons.prefix / 'share/gbkeep/gbkeep_launcher.py'
    text = launcher.read_text()
    # an old one reads it
    ast.parse(text, feature_version=(3, 4))
    expect('the system\'s', "\nSYSTEM = '/usr/bin/python3'\n" in text, True)
    launcher.write_text(text.replace("'/usr/bin/python3'", "'/nowhere/python3'"))
    tools = folder / 'tools'
    tools.mkdir()
    for name in ('sh', 'env', 'cat'):
        (tools / name).symlink_to(shutil.which(name))

    def started(name: str, *path: Path) -> tuple[int, str, str]:
        env = {'PATH': os.pathsep.join(map(str, [*path, tools])), 'STARTED': str(pythons.log)}
        return ran([pythons.prefix / 'bin' / name, 'game.gb'], folder, env)

    expect('no GTK', started('gbkeep-window', pythons.lacks, pythons.old, pythons.fails),
           (1, '', "gbkeep-window: GTK 4 is missing: install Debian's packages python3-gi, gir1.2-gtk-4.0 and gir1.2-adw-1\n"))
    too_old = 1, 'gbkeep-told: this is Python 3.8, and 3.10 or a later one is needed\n'
    expect('too old', started('gbkeep-told', pythons.old)[::2], too_old)
    expect('an old one alone has it', started('gbkeep-told', pythons.old, pythons.lacks)[::2], too_old)
    expect('a newer one', started('gbkeep-plain', pythons.old, pythons.lacks), (0, "['game.gb']False\n", ''))


def test_import(folder: Path) -> None:
    """What is said at the end makes Python find the package."""
    clone = cloned(folder)
    for prefix in (folder / 'prefix', folder / "it's a prefix"):
        line = in_place(clone, prefix)
        expect('one line', (line.count('\n'), line.startswith('for `import gbkeep` in Python: ')), (1, True))
        export = line.partition(': ')[2].strip()
        script = f'{export}; {shlex.quote(sys.executable)} -B -c "import sys, gbkeep; print(gbkeep.__file__); print(sys.path)"'
        for more in ({}, {'PYTHONPATH': '/one of mine'}):
            found, path = done(['sh', '-c', script], Path('/'), **more).splitlines()
            expect('the package', found, f'{prefix}/share/gbkeep/gbkeep/__init__.py')
            expect('what was there before', '/one of mine' in path, bool(more))
    expect('as make says it', make(clone, 'install', prefix), line)
    expect('staged', in_place(clone, '/usr', 'lib', folder / 'stage'), '')


def test_desktop(folder: Path) -> None:
    """A file manager starts the window by its path."""
    for prefix in ('/home/me/.local', '/home/me/100% "mine" $HOME'):
        entry = installed.desktop_entry(prefix)
        value = re.search(r'^Exec=(.*) %f$', entry, re.M)[1]
        # what the file's values and the line's words are read as
        word = value.replace('\\\\', '\\')
        word = re.sub(r'\\(.)', r'\1', word[1:-1]) if word.startswith('"') else word
        expect(f'{prefix}: the path', word.replace('%%', '%'), f'{prefix}/bin/gbkeep-window')
        (folder / 'gbkeep.desktop').write_text(entry)
        if is_there('desktop-file-validate'):
            expect('it is valid', ran(['desktop-file-validate', folder / 'gbkeep.desktop'])[:2], (0, ''))
    expect('in a package', '\nExec=gbkeep-window %f\n' in installed.desktop_entry(''), True)
    needs('whether the entry of the desktop is valid', 'desktop-file-validate')


# ---- packages

def control(package: Path) -> dict[str, str]:
    """The fields of a package; a text of several lines in one."""
    text = re.sub(r'\n +', ' ', done(['dpkg-deb', '--field', package]))
    return dict(line.split(': ', 1) for line in text.splitlines())


def packed(package: Path) -> dict[str, object]:
    """What a package has below /usr, as `tree` has it."""
    files = subprocess.run(['dpkg-deb', '--fsys-tarfile', str(package)], capture_output=True, check=True).stdout
    found = {}
    with tarfile.open(fileobj=io.BytesIO(files)) as tar:
        for one in tar:
            name = one.name.removeprefix('./').removeprefix('usr/')
            if one.issym():
                found[name] = one.linkname
            elif one.isfile():
                found[name] = (tar.extractfile(one).read(), one.mode)
    return found


def dist(folder: Path) -> Path:
    """What `make dist` leaves of stand-ins, in a repository of its own."""
    needs('packages', 'cc', 'dpkg-deb', 'git', 'strip')
    clone = cloned(folder, is_compiled=True)
    (clone / '.gitignore').write_text('/bin/\n/dist/\n__pycache__/\n')
    git = ['git', '-c', 'user.name=Somebody', '-c', 'user.email=somebody@example.org', '-c', 'commit.gpgsign=false']
    for words in (['init', '--quiet'], ['add', '.'], ['commit', '--quiet', '-m', 'all']):
        done([*git, *words], clone)
    (folder / 'rt').write_text('#!/bin/sh\necho a stand-in\n')
    (folder / 'rt').chmod(0o755)
    done([sys.executable, '-B', 'packaging/dist.py'], clone, RT=str(folder / 'rt'), PYTHONPATH=f'{clone}/python:{clone}')
    return clone / 'dist'


def test_packages(folder: Path) -> None:
    """What the packages say of themselves, and that the links of their pages lead somewhere."""
    made = dist(folder)
    packages = {control(path)['Package']: path for path in made.glob('*.deb')}
    fields, files = {name: control(path) for name, path in packages.items()}, {name: packed(path) for name, path in packages.items()}
    version = installed.version()
    # the core is the library in the front end
    core = fields['gbkeep-libretro']
    expect('the core depends on', re.sub(r' \(.*?\)', '', core['Depends']), 'libc6')
    expect('the core recommends', core.get('Recommends'), None)
    expect('the core', ("in the front end's own process" in core['Description'], 'it starts the' in core['Description']), (True, False))
    # what the tools say that they need
    helps = {name: ' '.join(installed.said_of(TOP / f'python/gbkeep/{module}.py').split()) for name, module in installed.tools().items()}
    for name, owner in ((name, installed.package_of(name)) for name in helps):
        expect(f'{owner} says what {name} does', name in fields[owner]['Description'], True)
        for module, package in re.findall(r"needs (\w+) \(Debian's package ([\w-]+)\)", helps[name]):
            expect(f'{owner} has what {name} needs', package in fields[owner]['Depends'].split(', '), True)
    depends, recommends = (fields['gbkeep-window'][name].split(', ') for name in ('Depends', 'Recommends'))
    expect('the window', {'python3-gi', 'gir1.2-gtk-4.0', 'gir1.2-adw-1', f'libgbkeep0 (= {version})'} <= set(depends), True)
    expect('its gamepads', 'gir1.2-manette-0.2' in recommends, True)
    expect('testers need no PIL', 'python3-pil' in fields['gbkeep-testers']['Depends'], False)
    names_pil = any('python3-pil' in helps[name] for name in installed.OF_TESTERS)
    expect('testers are told of PIL where a tool names it', 'python3-pil' in fields['gbkeep-testers'].get('Recommends', ''), names_pil)
    # Python of the system's
    for name in helps:
        launcher = files[installed.package_of(name)][f'bin/{name}'][0]
        expect(f'{name} in a package', launcher.startswith(b'#!/usr/bin/python3\nfrom gbkeep.'), True)
    multiarch = next(path.split('/')[1] for path in files['libgbkeep0'] if path.endswith('.so.0'))
    settings = files['libgbkeep-dev'][f'lib/{multiarch}/pkgconfig/gbkeep.pc'][0].decode()
    expect('settings', settings.splitlines()[:3], ['prefix=/usr', f'libdir=${{prefix}}/lib/{multiarch}', 'includedir=${prefix}/include'])
    expect('no link of the package of Python to a library', [path for each in files.values() for path in each if path.endswith('gbkeep/libgbkeep.so.0')], [])
    # each shell finds its completions, of each tool in the tool's package
    for name, owner in (('gbkeep', 'gbkeep'), *((name, installed.package_of(name)) for name in helps)):
        wanted = {f'share/bash-completion/completions/{name}', f'share/fish/vendor_completions.d/{name}.fish'}
        expect(f'completions of {name}', wanted - set(files[owner]), set())
    expect('completions for zsh', 'share/zsh/vendor-completions/_gbkeep' in files['gbkeep'], True)
    # pages
    place = 'share/doc/gbkeep'
    there = {path.removeprefix(f'{place}/') for path in files['gbkeep'] if path.startswith(f'{place}/')}
    links = [(page, link) for page in sorted(there) if page.endswith('.md') for link in links_of(files['gbkeep'][f'{place}/{page}'][0].decode())]
    expect('links that lead to nothing', [(page, link) for page, link in links if os.path.normpath(os.path.join(os.path.dirname(page), link)) not in there], [])
    expect('links', len(links) > 50, True)
    # the tarball is copied anywhere
    with tarfile.open(next(made.glob('*.tar.gz'))) as tar:
        tar.extractall(folder / 'un packed', **({'filter': 'data'} if hasattr(tarfile, 'data_filter') else {}))
    top = folder / f'un packed/gbkeep-{version}'
    expect('its pages', {str(path.relative_to(top / place)) for path in (top / place).rglob('*') if path.is_file()}, there - {'copyright', 'changelog.gz'})
    done([top / 'bin/gbkeep-script', '--help'], PYTHONDONTWRITEBYTECODE='1')
    needs('a program in C by the tarball', 'pkg-config')
    flags = shlex.split(done(['pkg-config', '--cflags', '--libs', 'gbkeep'], PKG_CONFIG_PATH=str(top / 'lib/pkgconfig')))
    done([COMPILER, '-o', folder / 'play', top / place / 'examples/library/play.c', *flags, f'-Wl,-rpath,{top}/lib'])


def links_of(text: str) -> list[str]:
    """Where a page leads to below its own folder or beside it: not what stands in code."""
    text = re.sub(r'^```.*?^```', '', text, flags=re.S | re.M)
    found = re.findall(r'\]\(\s*<?([^)\s>]+)', re.sub(r'`[^`\n]*`', '', text))
    found += re.findall(r'(?:src|href)="([^"]+)"', text) + re.findall(r'^\[[^\]]+\]:\s*(\S+)', text, re.M)
    return [link.partition('#')[0] for link in found if not re.match(r'[a-z]+:|#', link)]


if __name__ == '__main__':
    os.chdir(TOP)
    support.run_tests('what is installed', support.tests_in(globals()), lambda folder: (Path(folder),), sys.argv[1:])
