#!/usr/bin/env python3
"""The files that are installed, and the package that each belongs to: the one list of `make install`, `make uninstall` and `make dist`.

usage: installed.py [--destdir DIR] [--libdir LIBDIR] [--built BUILT] PREFIX      at the top of the clone: copies what BUILT (bin) has below DIR and PREFIX
       installed.py --remove [--destdir DIR] [--libdir LIBDIR] PREFIX             removes each file of the list, and the folders that this leaves empty

LIBDIR (lib) is seen from PREFIX, or begins with `/`. The library and the libretro core are installed where they are built, and removed wherever they are."""
import argparse
import os
import re
import shlex
import sys
from collections.abc import Iterable
from dataclasses import dataclass
from pathlib import Path
from typing import Optional

import program_page
from man_page import page, said_of

PROGRAM, PYTHON, WINDOW, TESTERS, CORE, LIBRARY, HEADERS = ('gbkeep', 'python3-gbkeep', 'gbkeep-window', 'gbkeep-testers', 'gbkeep-libretro', 'libgbkeep0',
                                                           'libgbkeep-dev')
SOURCES = Path('python')
# what testers have; the other tools are the players'
OF_TESTERS = ('gbkeep-run-tests', 'gbkeep-debug', 'gbkeep-dap')
# one folder that works alone: Python looks for modules where the file lies that a link leads to
ALONE = 'share/gbkeep'
DEBIAN = 'lib/python3/dist-packages'
LAUNCHER = '''#!/usr/bin/env python3
from gbkeep_launcher import start
start({words})
'''
OF_DEBIAN = '''#!/usr/bin/python3
from gbkeep.{module} import start
start()
'''
# what is right below these, and their man pages' folder, is the system's, also where it is empty
SYSTEM = ('/usr', '/usr/local')


@dataclass(frozen=True)
class File:
    """A file below the prefix, or with a path of its own: its bytes, or the link that it is."""
    package: str
    path: str
    data: bytes = b''
    is_run: bool = False
    link: Optional[str] = None


def version() -> str:
    return re.search(r'VERSION: &str = "(.*)"', Path('crates/command_line/src/words.rt').read_text())[1]


def tools() -> dict[str, str]:
    """The tools, as the package of Python names them: the module of each by its name."""
    return dict(re.findall(r'^(gbkeep-[a-z-]+) = "gbkeep\.([a-z_]+):start"$', (SOURCES / 'pyproject.toml').read_text(), re.M))


def package_of(tool: str) -> str:
    return TESTERS if tool in OF_TESTERS else WINDOW


def asked_for(module: str) -> tuple[dict[str, str], set[str], set[str]]:
    """What a module says of itself: the other packages that it needs, each with that of Debian's; those of Debian's that these have to come with; and all of
    Debian's that it names."""
    said = ' '.join(said_of(SOURCES / f'gbkeep/{module}.py').split())
    package = r"\(Debian's package ([\w.+-]+)\)"
    return dict(re.findall(rf'\bneeds (\w+) {package}', said)), set(re.findall(rf'\bwith [\w ]+ {package}', said)), set(re.findall(package, said))


def files(built: Optional[object] = 'bin', lib: str = 'lib', prefix: str = '/usr', modules: str = ALONE) -> list[File]:
    """The list, of what the folder `built` has; libraries are installed in `lib`, as seen from the prefix or absolute, and the package of Python in `modules`.
    Without `built` it is the list of all that can be there, without bytes."""
    release, is_named = version(), built is None
    built = Path(built or '.')
    if f"\n__version__ = '{release}'\n" not in (SOURCES / 'gbkeep/__init__.py').read_text():
        raise ValueError(f'the package of Python has another version than {release}')

    def one(package: str, path: str, source: object, is_run: bool = False) -> File:
        return File(package, path, b'' if is_named else Path(source).read_bytes(), is_run)

    def tool(name: str, module: str) -> list[File]:
        package = package_of(name)
        if modules == ALONE:
            launcher = LAUNCHER.format(words=', '.join(map(repr, [module, *asked_for(module)[0]])))
            started = [File(package, f'{ALONE}/{name}', launcher.encode(), True), File(package, f'bin/{name}', link=f'../{ALONE}/{name}')]
        else:
            started = [File(package, f'bin/{name}', OF_DEBIAN.format(module=module).encode(), True)]
        return [*started, File(package, f'share/man/man1/{name}.1', page(name, SOURCES / f'gbkeep/{module}.py', release).encode())]

    found = [one(PROGRAM, 'bin/gbkeep', built / 'gbkeep', True), File(PROGRAM, 'share/man/man1/gbkeep.1', program_page.page(release).encode())]
    zsh = 'site-functions' if modules == ALONE else 'vendor-completions'
    for folder, suffix, source in (('share/bash-completion/completions', '', 'gbkeep.bash'), ('share/fish/vendor_completions.d', '.fish', 'gbkeep.fish')):
        found += [one(PROGRAM, f'{folder}/gbkeep{suffix}', f'completions/{source}')]
        # a shell looks for a file by the name of the command
        found += [File(package_of(name), f'{folder}/{name}{suffix}', link=f'gbkeep{suffix}') for name in tools()]
    found += [one(PROGRAM, f'share/zsh/{zsh}/_gbkeep', 'completions/_gbkeep')]
    for name, module in tools().items():
        found += tool(name, module)
    found += [one(PYTHON, f'{modules}/{path.relative_to(SOURCES)}', path) for path in sorted([*(SOURCES / 'gbkeep').rglob('*.py'), SOURCES / 'gbkeep/py.typed', SOURCES / 'gbkeep/messages.json'])]
    if modules == ALONE:
        found += [one(PYTHON, f'{ALONE}/gbkeep_launcher.py', 'packaging/launcher.py')]
    found += [File(WINDOW, 'share/applications/gbkeep.desktop', desktop_entry(prefix if modules == ALONE else '').encode()),
              one(WINDOW, 'share/icons/hicolor/scalable/apps/gbkeep.svg', 'packaging/gbkeep.svg'),
              one(WINDOW, 'share/mime/packages/gbkeep.xml', 'packaging/gbkeep.xml')]
    if is_named or (built / 'gbkeep_libretro.so').exists():
        found += [one(CORE, f'{lib}/libretro/gbkeep_libretro.so', built / 'gbkeep_libretro.so'),
                  one(CORE, 'share/libretro/info/gbkeep_libretro.info', 'players/libretro/gbkeep_libretro.info')]
    if is_named or (built / 'libgbkeep.so').exists():
        shared = f'libgbkeep.so.{release}'
        found += [one(LIBRARY, f'{lib}/{shared}', built / 'libgbkeep.so'), File(LIBRARY, f'{lib}/libgbkeep.so.0', link=shared),
                  File(HEADERS, f'{lib}/libgbkeep.so', link=shared), one(HEADERS, f'{lib}/libgbkeep.a', built / 'libgbkeep.a'),
                  one(HEADERS, 'include/gbkeep.h', built / 'gbkeep.h'),
                  File(HEADERS, f'{lib}/pkgconfig/gbkeep.pc', b'' if is_named else settings(built, lib, prefix).encode())]
        if modules == ALONE and lib != 'lib':
            # the package of Python looks beside itself, and in lib
            found += [File(LIBRARY, f'{ALONE}/libgbkeep.so.0', link=f'{lib}/libgbkeep.so.0' if os.path.isabs(lib) else f'../../{lib}/libgbkeep.so.0')]
    return found


def settings(built: Path, lib: str, prefix: str) -> str:
    """gbkeep.pc, which lies beside the library, with the places that the library is installed in."""
    def word(path: str) -> str:
        return re.sub(r'([^\w@%+=:,./${}-])', r'\\\1', path)

    places = {'prefix': word(prefix), 'libdir': word(lib if os.path.isabs(lib) else f'${{prefix}}/{lib}'), 'includedir': '${prefix}/include'}
    return re.sub('^(prefix|libdir|includedir)=.*$', lambda found: f'{found[1]}={places[found[1]]}', (built / 'gbkeep.pc').read_text(), flags=re.M)


def desktop_entry(prefix: str) -> str:
    """What a file manager starts the window by. Where the prefix is known, that is by its path: ~/.local/bin may not be where a session looks."""
    text = Path('packaging/gbkeep.desktop').read_text()
    if not os.path.isabs(prefix):
        return text
    path = os.path.join(prefix, 'bin/gbkeep-window').replace('%', '%%')
    if not re.fullmatch(r'[\w@+=:,./%-]+', path):
        # quoted for the line, and then for the file
        path = '"' + re.sub(r'(["`$\\])', r'\\\1', path).replace('\\', '\\\\') + '"'
    return re.sub('^Exec=gbkeep-window', lambda _: f'Exec={path}', text, flags=re.M)


def written(file: File, path: Path) -> None:
    """Makes a file of the list at its path. One that is there is replaced whole, so that a program that runs goes on with its own."""
    path.parent.mkdir(parents=True, exist_ok=True)
    new = path.with_name(f'.{path.name}.new')
    new.unlink(missing_ok=True)
    try:
        if file.link is not None:
            new.symlink_to(file.link)
        else:
            new.write_bytes(file.data)
            new.chmod(0o755 if file.is_run else 0o644)
        os.replace(new, path)
    except OSError:
        new.unlink(missing_ok=True)
        raise


def put(file: File, root: object) -> None:
    """Makes a file of the list below a folder."""
    written(file, Path(root) / file.path)


def removed(found: Iterable[File], prefix: str, lib: str, destination: str) -> None:
    """Removes what the list names, what Python has compiled of it, and the folders below the prefix that are empty then. What is there as a folder is left."""
    folders: set[str] = set()
    top = lib if os.path.isabs(lib) else prefix
    kept = {f'{prefix}/{name}' for name in ('bin', 'include', 'lib', 'share', 'share/man')} if prefix in SYSTEM and not destination else set()
    for file in found:
        path = os.path.join(prefix, file.path)
        there = Path(f'{destination}{path}')
        if there.is_symlink() or there.is_file():
            there.unlink()
        parents = [str(one) for one in Path(path).parents]
        folders |= set(parents[:parents.index(top if os.path.isabs(file.path) else prefix)])
        if there.suffix == '.py':
            folders.add(f'{parents[0]}/__pycache__')
            for compiled in Path(f'{destination}{parents[0]}/__pycache__').glob(f'{there.stem}.*.pyc'):
                compiled.unlink()
    for folder in sorted(folders - kept, key=len, reverse=True):
        try:
            os.rmdir(f'{destination}{folder}')
        except OSError:
            # it is not empty, or not there
            pass


def below(prefix: str, lib: str) -> str:
    """LIBDIR as the list has it."""
    path = os.path.normpath(os.path.join(prefix, lib))
    return os.path.relpath(path, prefix) if path.startswith(f'{prefix.rstrip("/")}/') else path


def main(words: list[str]) -> None:
    parser = argparse.ArgumentParser(usage=__doc__.partition('usage: ')[2], add_help=False)
    parser.add_argument('--remove', action='store_true')
    parser.add_argument('--destdir', default='')
    parser.add_argument('--libdir', default='lib')
    parser.add_argument('--built', default='bin')
    parser.add_argument('prefix')
    asked = parser.parse_args(words)
    prefix = os.path.abspath(asked.prefix or '/')
    lib = below(prefix, asked.libdir)
    if not f'{prefix}{lib}'.isprintable():
        # gbkeep.pc and gbkeep.desktop have them in a line of UTF-8
        sys.exit('installed.py: the name of a folder has a character that no text can show')
    try:
        if asked.remove:
            removed(files(None, lib, prefix), prefix, lib, asked.destdir)
            return
        for file in files(asked.built, lib, prefix):
            written(file, Path(f'{asked.destdir}{os.path.join(prefix, file.path)}'))
    except OSError as error:
        sys.exit(f'installed.py: {error.filename2 or error.filename}: {error.strerror}')
    if not asked.destdir:
        print(f'for `import gbkeep` in Python: export PYTHONPATH={shlex.quote(os.path.join(prefix, ALONE))}"${{PYTHONPATH:+:$PYTHONPATH}}"')


if __name__ == '__main__':
    main(sys.argv[1:])
