"""Removes what `make` has made, from a list, and nothing else: bin is where people keep their games, too.

usage: clean.py           at the top of the repository: what is made in bin and dist
       clean.py cache     what proofs keep: this clone's folder of the cache, those of clones that are gone, and crates/*/out
       clean.py sizes     tells how much proofs keep

A file goes only where it has the name of one that is made and begins as that does, and none goes that begins as a SAVE or a RECORDING. What is left of bin
is told. The cache is ~/.cache/gbkeep (or XDG_CACHE_HOME)."""
import hashlib
import json
import os
import re
import shutil
import stat
import sys
import time
from collections.abc import Iterator
from pathlib import Path
from typing import Optional

from gbkeep.input_files import SECTOR
from gbkeep.new_files import OURS

ELF, ARCHIVE, PORTABLE = b'\x7fELF', b'!<arch>\n', b'MZ'
# what is made in bin and in bin/arm64, and how it begins; and what in bin/windows
PROGRAMS = {'gbkeep': ELF, 'gbkeep.new': ELF, 'gbkeep-static': ELF, 'gbkeep-static.new': ELF, 'gbkeep.o': ELF, 'gbkeep_libretro.so': ELF, 'libgbkeep.so': ELF,
            'libgbkeep.a': ARCHIVE, 'gbkeep.h': b'/*', 'gbkeep.pc': b'prefix=', 'PROVED': b'logic='}
OF_WINDOWS = {'gbkeep.dll': PORTABLE, 'gbkeep_libretro.dll': PORTABLE, 'libgbkeep.dll.a': ARCHIVE, 'libgbkeep.a': ARCHIVE, 'gbkeep.h': b'/*'}
# in bin alone: the gate's notes have a commit and lines of words, and the save file of the demo stays, since somebody may play on with it
NOTES = {'gate_begun': b'', 'gate_passed': b'commit: ', 'not_tried': b''}
PICTURES = {'demo.pgm': b'P2', 'demo.png': b'\x89PNG'}
MADE = {'bin': {**PROGRAMS, **NOTES, **PICTURES}, 'bin/arm64': PROGRAMS, 'bin/windows': OF_WINDOWS}
LINKS = {'libgbkeep.so.0': 'libgbkeep.so'}
DISTS = ('dist', 'dist/arm64')
WHEEL = re.compile(r'gbkeep-[\d.]+-py3-none-(manylinux_\d+_\d+_(x86_64|aarch64)|win_amd64)\.whl')
# pages that were made: their lists say so, and have the SHA-256 of each file but these, which begin as here
PAGES, LIST, MARK = ('dist/web', 'bin/web'), 'files.js', re.compile(rb'// Made by scripts/(web|page)\.py: .*\n')
NOT_LISTED = {'README': b'gbkeep in a browser\n', 'service_worker.js': b'// The page without a network', 'gbkeep.wasm.of': b'module: '}
COPY = re.compile('build-[0-9a-f]{8}')
# as long as a person waits for a size
SECONDS = 2.0


# ---- where proofs keep their work

def cache() -> Path:
    given = os.environ.get('XDG_CACHE_HOME', '')
    return Path(given if given.startswith('/') else Path.home() / '.cache') / 'gbkeep'


def room() -> Path:
    """The folder of the cache in which this clone is proved: one for each clone."""
    return cache() / f'build-{hashlib.sha256(os.getcwd().encode()).hexdigest()[:8]}'


def named(folder: Path) -> Path:
    """The file that says whose a folder of the cache is."""
    return folder.with_name(f'{folder.name}.of')


def outs() -> list[Path]:
    return sorted(path for path in Path('crates').glob('*/out') if path.is_dir() and not path.is_symlink())


# ---- how much it takes

def size_of(folders: 'list[Path]', seconds: Optional[float] = None) -> tuple[int, bool]:
    """How many bytes of a disk the files below these folders take, one with several names once, and whether all were looked at within so many seconds."""
    until, seen, size = time.monotonic() + (seconds or 0), set(), 0
    left = [str(folder) for folder in folders]
    while left:
        if seconds is not None and time.monotonic() > until:
            return size, False
        try:
            entries = list(os.scandir(left.pop()))
        except OSError:
            continue
        for entry in entries:
            try:
                one = entry.stat(follow_symlinks=False)
            except OSError:
                continue
            if stat.S_ISDIR(one.st_mode):
                left.append(entry.path)
            if one.st_nlink == 1 or (one.st_dev, one.st_ino) not in seen:
                size += one.st_blocks * 512
                seen.add((one.st_dev, one.st_ino))
    return size, True


def in_words(size: int, is_whole: bool = True) -> str:
    amount = f'{size / 1e9:.1f} GB' if size >= 10 ** 8 else f'{size / 1e6:.0f} MB' if size >= 10 ** 6 else f'{size:,} bytes'
    return amount if is_whole else f'more than {amount}'


def home_in_words(path: Path) -> str:
    home = str(Path.home())
    return f'~{str(path).removeprefix(home)}' if str(path).startswith(f'{home}/') else str(path)


def sizes(seconds: Optional[float] = None) -> str:
    """How much proofs keep, in words."""
    kept, own = size_of([cache()], seconds), size_of(outs(), seconds)
    return f'{home_in_words(cache())} takes {in_words(*kept)}, crates/*/out {in_words(*own)}'


# ---- what goes

def begins(path: Path, count: int) -> Optional[bytes]:
    """The first bytes of a plain file; None where it is none."""
    try:
        if not stat.S_ISREG(path.lstat().st_mode):
            return None
        with open(path, 'rb') as file:
            return file.read(count)
    except OSError:
        return None


def is_ours(path: Path, head: bytes) -> bool:
    """Whether a file begins as one that is made, and as no game."""
    found = begins(path, SECTOR + 16)
    return found is not None and found.startswith(head) and not found.startswith(OURS) and not found[SECTOR:].startswith(OURS)


def made() -> Iterator[Path]:
    """The files that make has made and that are there."""
    for folder, names in MADE.items():
        yield from (Path(folder, name) for name, head in names.items() if is_ours(Path(folder, name), head))
        yield from (Path(folder, name) for name, leads in LINKS.items() if Path(folder, name).is_symlink() and os.readlink(Path(folder, name)) == leads)
    for folder in map(Path, DISTS):
        if begins(folder / 'BUILT', 9) == b'version: ' and (sums := begins(folder / 'SHA256SUMS', 1 << 20)) is not None:
            # its tarballs and packages, as they were made
            for line in sums.decode(errors='replace').splitlines():
                wanted, _, name = line.partition('  ')
                path = folder / os.path.basename(name)
                if begins(path, 1) is not None and hashlib.sha256(path.read_bytes()).hexdigest() == wanted:
                    yield path
            yield from (folder / 'BUILT', folder / 'SHA256SUMS')
        for path in sorted(folder.glob('*.whl')):
            if WHEEL.fullmatch(path.name) and begins(path, 4) == b'PK\3\4':
                yield path
    for page in map(Path, PAGES):
        listed = begins(page / LIST, 1 << 20) or b''
        if not page.is_symlink() and MARK.match(listed):
            for name, wanted in digests(listed).items():
                path = page / os.path.basename(name)
                if begins(path, 1) is not None and hashlib.sha256(path.read_bytes()).hexdigest() == wanted:
                    yield path
            yield from (page / name for name, head in NOT_LISTED.items() if (begins(page / name, len(head)) or b'') == head)
            yield page / LIST


def digests(listed: bytes) -> 'dict[str, str]':
    """The files of a page and their digests, as its list has them."""
    found = re.search(rb'^const FILES = (\{.*\});$', listed, re.MULTILINE)
    try:
        files = json.loads(found[1]) if found else {}
    except ValueError:
        return {}
    return {name: wanted for name, wanted in files.items() if name != './'}


def clean() -> None:
    gone = list(dict.fromkeys(made()))
    for path in gone:
        path.unlink()
    for folder in ('bin/arm64', 'bin/windows', *PAGES, *reversed(DISTS), 'bin'):
        # one that holds anything stays
        if Path(folder).is_dir() and not Path(folder).is_symlink() and not os.listdir(folder):
            os.rmdir(folder)
    left = sorted(os.listdir('bin')) if os.path.isdir('bin') else []
    print(f'{len(gone)} made files removed' + (f'; bin keeps {len(left)}: {", ".join(map(json.dumps, left))}' if left else ''))


def clean_cache() -> None:
    before, place = size_of([cache(), *outs()])[0], room()
    for folder in outs():
        shutil.rmtree(folder)
    for folder in sorted(cache().glob('build-*')) if cache().is_dir() else []:
        if COPY.fullmatch(folder.name) and folder.is_dir() and not folder.is_symlink() and (folder == place or is_of_none(folder)):
            shutil.rmtree(folder)
            named(folder).unlink(missing_ok=True)
    if cache().is_dir() and not os.listdir(cache()):
        os.rmdir(cache())
    left = size_of([cache()])[0]
    print(f'{in_words(before - left)} removed' + (f'; {home_in_words(cache())} keeps {in_words(left)} of other clones' if left else ''))


def is_of_none(folder: Path) -> bool:
    """Whether the clone that a folder of the cache is of is gone."""
    whose = begins(named(folder), 4096)
    return bool(whose) and not os.path.isdir(os.fsdecode(whose))


def main(words: list[str]) -> None:
    if not Path('crates.txt').exists() or words not in ([], ['cache'], ['sizes']):
        sys.exit(__doc__)
    if words == ['sizes']:
        print(sizes(SECONDS))
    else:
        (clean_cache if words else clean)()


if __name__ == '__main__':
    try:
        main(sys.argv[1:])
    except OSError as error:
        sys.exit(f'clean.py: {error.filename}: {error.strerror}')
