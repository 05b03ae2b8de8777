"""Leaves in dist/ what somebody without the toolchain needs: a tarball, Debian packages, wheels, their sums, and what is known of how they were made.

usage: dist.py [arm64]         makes dist/ of what bin has and the clone, and the page of bin/web; or dist/arm64 of bin/arm64
       dist.py begins          the gate begins: what an earlier one has left is gone
       dist.py passed GBKEEP   the gate has passed, with this program: keeps that in bin/gate_passed, and the program as bin/gbkeep

`make build` and `make test` leave bin/gbkeep; `make test` calls the other two."""
import gzip
import hashlib
import io
import os
import shutil
import subprocess
import sys
import tarfile
import tempfile
import time
from pathlib import Path

import installed
import wheels
from scripts import page
from scripts.doctor import needed, tries

RT = os.environ.get('RT', 'rt')
GATE, BEGUN = Path('bin/gate_passed'), Path('bin/gate_begun')
DIST, PROGRAM, WEB = Path('dist'), Path('bin/gbkeep'), Path('bin/web')
VERSION = installed.version()
NO_LICENCE = 'No licence is given yet: ask before you copy, change or pass on gbkeep.\n'


def said(*words):
    return subprocess.run(words, capture_output=True, text=True, check=True).stdout.strip()


def commit():
    """The commit that is checked out, or what else the clone is."""
    try:
        return 'uncommitted changes on ' * bool(said('git', 'status', '--porcelain')) + said('git', 'rev-parse', 'HEAD')
    except (OSError, subprocess.CalledProcessError):
        return 'no commit'


def sum_of(path):
    return hashlib.sha256(Path(path).read_bytes()).hexdigest()


def begins():
    tries('the commit that passes, which git names', 'git')
    PROGRAM.parent.mkdir(exist_ok=True)
    GATE.unlink(missing_ok=True)
    BEGUN.write_text(commit())


def passed(program):
    at = commit()
    if BEGUN.read_text() != at:
        at = f'changed while the gate ran, {at}'
    GATE.write_text(f'commit: {at}\nprover: {said(RT, "version")}\nprogram: {sum_of(program)}\n'
                    f'ended: {time.strftime("%Y-%m-%d %H:%M UTC", time.gmtime())}\n')
    shutil.copy(program, PROGRAM)


def gate_result():
    """What is known of the gate on this commit and this program."""
    if not GATE.exists():
        return 'not run on this commit'
    known = dict(line.split(': ', 1) for line in GATE.read_text().splitlines())
    if known['commit'] != commit() or commit().startswith(('uncommitted', 'no commit')):
        return 'not run on this commit'
    program = 'with this program' if known['program'] == sum_of(PROGRAM) else 'with another build of the program'
    return f'passed on this commit, {program}, by {known["prover"]}, {known["ended"]}'


def asked_for(package):
    """The packages of Debian that the tools of a package need, and those that they name otherwise; of the package of Python, what its other modules name."""
    tools = {module: installed.package_of(tool) for tool, module in installed.tools().items()}
    modules = [path.stem for path in sorted((installed.SOURCES / 'gbkeep').glob('*.py')) if tools.get(path.stem, installed.PYTHON) == package]
    asked = [installed.asked_for(module) for module in modules]
    needed = {one for needs, also, _ in asked for one in (*needs.values(), *also)}
    return sorted(needed), sorted({one for *_, named in asked for one in named} - needed)


def relation(name, *packages):
    """A line of a control file, if it has any package."""
    return f'{name}: {", ".join(packages)}\n' if packages else ''


def packed(data):
    return gzip.compress(data, 9, mtime=0)


def compiled(package):
    """The scripts of a package of Python: its modules are compiled as it is installed, and what was compiled goes before it does."""
    return [('postinst', f'#!/bin/sh\nset -e\nif command -v py3compile > /dev/null 2>&1; then py3compile -p {package}; fi\n'),
            ('prerm', f'#!/bin/sh\nset -e\nif command -v py3clean > /dev/null 2>&1; then py3clean -p {package}; else find /usr/{installed.DEBIAN}/gbkeep -name __pycache__ -exec rm -rf {{}} +; fi\n')]


class Release:
    """What is made of one build: who made it, when, and for which computers."""

    def __init__(self, built, program, machine, folder, strip):
        self.machine, self.folder = machine, folder
        self.second, self.date, self.maker = int(said('git', 'log', '-1', '--format=%ct')), said('git', 'log', '-1', '--format=%cD'), said('git', 'log', '-1', '--format=%an <%ae>')
        self.copyright = f'Copyright {time.gmtime(self.second).tm_year} the authors of gbkeep.\n\n{NO_LICENCE}'
        # without the names of its functions, as packages have it
        with tempfile.TemporaryDirectory(prefix='stripped-') as room:
            stripped = Path(room) / 'gbkeep'
            subprocess.run([strip, '-o', stripped, built / program], check=True)
            self.program = stripped.read_bytes()
            subprocess.run([strip, '-o', stripped, built / 'gbkeep'], check=True)
            self.dynamic = stripped.read_bytes()
        # packages name the folder of their kind of computer, the tarball has plain names
        self.multiarch = {'amd64': 'x86_64-linux-gnu', 'arm64': 'aarch64-linux-gnu'}.get(machine) or said('cc', '-print-multiarch')
        self.about = f'version: {VERSION}\ncommit: {commit()}\nprover: {said(RT, "version")}\nprogram: sha256 {sum_of(built / "gbkeep")}\n'
        self.about += f'in packages, without the names of its functions: sha256 {hashlib.sha256(self.dynamic).hexdigest()}\n'
        if program != 'gbkeep':
            self.about += f'in the tarball, with the C library in it: sha256 {hashlib.sha256(self.program).hexdigest()}\n'
        if (built / 'PROVED').exists():
            self.about += f'proof: {(built / "PROVED").read_text()}'
        self.about += NO_LICENCE
        self.packaged = self.with_program(installed.files(built, lib=f'lib/{self.multiarch}', modules=installed.DEBIAN), self.dynamic)
        # the tarball is copied below any folder
        self.plain = self.with_program(installed.files(built, prefix='${pcfiledir}/../..'), self.program) + self.documents('share/doc/gbkeep')
        os.environ['SOURCE_DATE_EPOCH'] = str(self.second)
        # as many threads on each computer, since what xz writes depends on that
        os.environ['DPKG_DEB_THREADS_MAX'] = '1'

    def with_program(self, files, data):
        return [installed.File(one.package, one.path, data, True) if one.path == 'bin/gbkeep' else one for one in files]

    def documents(self, folder):
        """The pages with what they lead to, and the examples, as git has them."""
        names = said('git', 'ls-files', 'README.md', 'docs', 'editors', 'examples').splitlines()
        found = [installed.File('gbkeep', f'{folder}/{name}', Path(name).read_bytes(), bool(os.stat(name).st_mode & 0o100)) for name in names]
        return [*found, installed.File('gbkeep', f'{folder}/BUILT', self.about.encode())]

    def tarball(self):
        """All of it, to be copied below any folder."""
        top = f'gbkeep-{VERSION}'
        readme = f'gbkeep {VERSION}: copy bin, include, lib and share below /usr/local or ~/.local; share/doc/gbkeep/README.md says the rest.\n{NO_LICENCE}'
        self.pack(top, f'{top}-linux-{self.machine}', [*self.plain, installed.File('gbkeep', 'README', readme.encode())])

    def page(self):
        """The page, for any web server. What is told of its module."""
        for line in page.stale(WEB):
            sys.exit(f'dist.py: {WEB}: {line}')
        if not page.is_of_sources(WEB):
            sys.exit(f'dist.py: the module in {WEB} is of other sources: python3 -B scripts/web.py {WEB} makes it')
        module, tracked = page.module_in(WEB), page.module_in(page.PAGE)
        if page.is_of_sources() and module != tracked:
            sys.exit('dist.py: the module in web/page is not what its sources give')
        self.pack(f'gbkeep-{VERSION}-web', f'gbkeep-{VERSION}-web', [installed.File('gbkeep', path.name, path.read_bytes()) for path in WEB.iterdir()])
        return f"page's module: sha256 {hashlib.sha256(module).hexdigest()}, {'as it is tracked' if module == tracked else 'newer than the tracked one'}\n"

    def pack(self, top, name, files):
        """A tarball of files below a folder."""
        folders = set()
        with gzip.GzipFile(self.folder / f'{name}.tar.gz', 'wb', mtime=self.second) as file, tarfile.open(fileobj=file, mode='w') as tar:
            for one in sorted(files, key=lambda one: one.path):
                for parent in reversed(Path(top, one.path).parents[:-1]):
                    if parent not in folders:
                        folders.add(parent)
                        self.entry(tar, str(parent), tarfile.DIRTYPE, 0o755)
                if one.link is not None:
                    self.entry(tar, f'{top}/{one.path}', tarfile.SYMTYPE, 0o777, link=one.link)
                else:
                    self.entry(tar, f'{top}/{one.path}', tarfile.REGTYPE, 0o755 if one.is_run else 0o644, one.data)

    def entry(self, tar, name, kind, mode, data=b'', link=''):
        entry = tarfile.TarInfo(name)
        entry.type, entry.mode, entry.size, entry.linkname, entry.mtime, entry.uname, entry.gname = kind, mode, len(data), link, self.second, 'root', 'root'
        tar.addfile(entry, io.BytesIO(data))

    def package(self, name, control, extra=(), scripts=()):
        """A Debian package of what the list has of it; none where that is nothing."""
        files = [self.for_debian(one) for one in [*self.packaged, *extra] if one.package == name]
        if not files:
            return False
        documents = f'share/doc/{name}'
        log = f'{name} ({VERSION}) unstable; urgency=low\n\n  * See the commits.\n\n -- {self.maker}  {self.date}\n'
        files += [installed.File(name, f'{documents}/copyright', self.copyright.encode()), installed.File(name, f'{documents}/changelog.gz', packed(log.encode()))]
        with tempfile.TemporaryDirectory(prefix='package-') as room:
            root = Path(room) / 'root'
            for one in files:
                installed.put(one, root / 'usr')
            # as dpkg counts: a kilobyte a folder, and each file's up to the next whole one
            size = sum((path.lstat().st_size + 1023) // 1024 if path.is_file() and not path.is_symlink() else 1 for path in root.rglob('*'))
            sums = ''.join(f'{hashlib.md5(path.read_bytes()).hexdigest()}  {path.relative_to(root)}\n' for path in sorted(root.rglob('*'))
                           if path.is_file() and not path.is_symlink())
            (root / 'DEBIAN').mkdir()
            head = f'Package: {name}\nVersion: {VERSION}\nMaintainer: {self.maker}\nInstalled-Size: {size}\nPriority: optional\n'
            for path, text in [('control', head + control), ('md5sums', sums), *scripts]:
                (root / 'DEBIAN' / path).write_text(text)
                (root / 'DEBIAN' / path).chmod(0o755 if path in ('postinst', 'prerm') else 0o644)
            for path in [root, *root.rglob('*')]:
                if path.is_dir():
                    path.chmod(0o755)
            subprocess.run(['dpkg-deb', '--root-owner-group', '--build', root, self.folder], check=True, stdout=subprocess.DEVNULL)
        return True

    def for_debian(self, one):
        """A file as a package has it: man pages packed, Python of the system's."""
        if one.path.startswith('share/man/'):
            return installed.File(one.package, f'{one.path}.gz', packed(one.data))
        # an example that is run
        if one.data.startswith(b'#!/usr/bin/env python3\n'):
            return installed.File(one.package, one.path, one.data.replace(b'#!/usr/bin/env python3', b'#!/usr/bin/python3', 1), one.is_run)
        return one

    def libc(self, name):
        return '.'.join(map(str, wheels.libc_needed(one.data for one in self.packaged if one.package == name)))

    def packages(self):
        every, here = 'Architecture: all\nMulti-Arch: foreign\n', f'Architecture: {self.machine}\n'
        self.package('gbkeep', f'Section: otherosfs\n{here}Multi-Arch: foreign\nDepends: libc6 (>= {self.libc("gbkeep")})\nSuggests: gbkeep-window, gbkeep-testers\n'
                     'Description: Game Boy emulator whose save files survive any power cut\n'
                     ' A headless emulator of the Nintendo Game Boy (DMG), each function of which\n is proved to meet its contract. It keeps a game in a save file'
                     ' that no power\n cut can spoil, plays scripts of inputs and writes pictures.\n', self.documents('share/doc/gbkeep'))
        own = f'python3-gbkeep (= {VERSION})'
        self.package('python3-gbkeep', f'Section: python\n{every}Depends: gbkeep (= {VERSION}), python3 (>= 3.10)\n{relation("Recommends", *asked_for(installed.PYTHON)[1])}'
                     f'Suggests: libgbkeep0 (= {VERSION}), python3-numpy\n'
                     'Description: Game Boy games that survive any power cut, from Python\n'
                     ' The package gbkeep plays a game by the program gbkeep or by its library,\n tries out a machine whose states are kept and taken back, and reads and writes\n'
                     ' scripts, movies and pictures. The tools of gbkeep-window and gbkeep-testers\n are its modules.\n', scripts=compiled('python3-gbkeep'))
        needed, named = asked_for(installed.WINDOW)
        self.package('gbkeep-window', f'Section: otherosfs\n{every}{relation("Depends", own, f"libgbkeep0 (= {VERSION})", *needed, "python3")}'
                     f'{relation("Recommends", "desktop-file-utils", *named, "shared-mime-info")}'
                     "Description: window and player's tools for gbkeep\n"
                     ' gbkeep-window plays games of gbkeep in a window. gbkeep-script reads scripts\n that are easier to write, gbkeep-rest goes on with a'
                     ' script where a save file\n stands, gbkeep-movie reads and writes movies of other emulators, gbkeep-film\n makes a film of a script or a'
                     ' recording, gbkeep-branch a new game of the first\n inputs of a recording, gbkeep-verify compares a game with its recording,\n gbkeep-battery'
                     ' carries battery files to other emulators and back, and\n gbkeep-png makes a PNG of a picture.\n')
        needed, named = asked_for(installed.TESTERS)
        self.package('gbkeep-testers', f'Section: devel\n{every}{relation("Depends", own, *needed, "python3")}{relation("Recommends", *named)}'
                     "Description: runner of test ROMs and debugger's prompt for gbkeep\n"
                     ' gbkeep-run-tests runs test ROMs, folders and lists of them on all\n processors, and writes reports for a CI. gbkeep-debug looks inside a ROM or a\n game by'
                     ' labels and lines of C, and goes back in time. gbkeep-dap does so in\n an editor.\n')
        has_core = self.package('gbkeep-libretro', f'Section: otherosfs\n{here}Depends: libc6 (>= {self.libc("gbkeep-libretro")})\n'
                                'Enhances: kodi, retroarch\nDescription: libretro core for gbkeep\n'
                                ' RetroArch, Kodi and other front ends play a game of gbkeep by it: the proved\n machine and the proved session, in the front end\'s own process. It keeps the\n'
                                ' game in a save file in the front end\'s save folder, every second, which no\n power cut can spoil, and begins it with the battery file of another core.\n')
        words = ' The proved machine and the proved session of gbkeep, a Game Boy emulator, for\n programs in C: frames, pictures and states in the same process, and saves that\n'
        library = self.package('libgbkeep0', f'Section: libs\n{here}Multi-Arch: same\nDepends: libc6 (>= {self.libc("libgbkeep0")})\n'
                               f'Description: Game Boy emulator as a library\n{words} survive any power cut on a disk that the program writes.\n',
                               scripts=[('shlibs', f'libgbkeep 0 libgbkeep0 (>= {VERSION})\n'), ('triggers', 'activate-noawait ldconfig\n')])
        self.package('libgbkeep-dev', f'Section: libdevel\n{here}Multi-Arch: same\nDepends: libgbkeep0 (= {VERSION})\n'
                     f'Description: Game Boy emulator as a library, for programs to be built\n{words} survive any power cut on a disk that the program writes. This is what a\n'
                     ' program is built with: header, archive and settings of pkg-config.\n')
        return [what for what, there in (('the libretro core: that needs a C compiler and retroarch-dev', has_core), ('the library', library)) if not there]


def main(is_arm64):
    needed('rt', 'git', 'dpkg-deb', *(() if is_arm64 else ('strip',)))
    if commit() == 'no commit':
        sys.exit('dist.py: what is made here names its commit: this is no git clone that has one')
    built, folder = (Path('bin/arm64'), DIST / 'arm64') if is_arm64 else (Path('bin'), DIST)
    release = Release(built, 'gbkeep-static' if is_arm64 else 'gbkeep', 'arm64' if is_arm64 else said('dpkg', '--print-architecture'), folder,
                      'aarch64-linux-gnu-strip' if is_arm64 else 'strip')
    folder.mkdir(parents=True, exist_ok=True)
    for path in folder.iterdir():
        if path.is_file():
            path.unlink()
    release.tarball()
    if WEB.is_dir() and not is_arm64:
        release.about = release.about.replace(NO_LICENCE, release.page() + NO_LICENCE)
    elif not is_arm64:
        print(f'without the page: python3 -B scripts/web.py {WEB} makes it')
    for without in release.packages():
        print(f'without {without}')
    made = wheels.make(folder, *(('aarch64',) if is_arm64 else ('x86_64', 'windows')))
    if not is_arm64 and not any('win_amd64' in name for name in made):
        print('without a wheel for Windows: make windows builds its library')
    # of BUILT there is no sum: when the gate ran is another thing in each clone
    sums = ''.join(f'{sum_of(path)}  {path.name}\n' for path in sorted(folder.iterdir()) if path.is_file())
    (folder / 'SHA256SUMS').write_text(sums)
    gate = '' if is_arm64 else f'gate: {gate_result()}\n'
    (folder / 'BUILT').write_text(release.about + gate)
    print(release.about + gate + sums, end='')


if __name__ == '__main__':
    words = sys.argv[1:]
    if words == ['begins']:
        begins()
    elif len(words) == 2 and words[0] == 'passed':
        passed(words[1])
    elif words in ([], ['arm64']):
        main(bool(words))
    else:
        sys.exit(__doc__)
