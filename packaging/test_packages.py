#!/usr/bin/env python3
"""Looks at the packages of a folder as Debian would, and installs, upgrades and removes them in a system of their own.

usage: test_packages.py DIST [CHROOT]     DIST: what `make dist` left; CHROOT: a small Debian system that is used and changed, and made where it is missing

It needs Debian's lintian, desktop-file-utils and debootstrap, and root. Without CHROOT the system is made anew, in a folder of its own, and removed: that
takes a minute and the network."""
import os
import re
import shutil
import subprocess
import sys
import tempfile
from pathlib import Path

from gbkeep_tests.support import expect

ROOT = Path(__file__).resolve().parent.parent
MIRROR = os.environ.get('DEBIAN_MIRROR', 'http://deb.debian.org/debian')
PACKAGES = {'gbkeep', 'python3-gbkeep', 'gbkeep-window', 'gbkeep-testers', 'gbkeep-libretro', 'libgbkeep0', 'libgbkeep-dev'}
COMMANDS = {'gbkeep', 'gbkeep-run-tests', 'gbkeep-debug', 'gbkeep-dap', *(f'gbkeep-{name}' for name in 'window script rest movie film branch verify png battery'.split())}
OLDER = '0.0.9'
LOAD = 'import ctypes; library = ctypes.CDLL("libgbkeep.so.0"); library.gbkeep_fault_text.restype = ctypes.c_char_p; print(library.gbkeep_fault_text(0).decode())'
PYTHON = '''
from gbkeep import START, Game, Machine
with Game("/root/demo.gb", "/root/python.gbkeep") as game:
    game.frames(START, 4)
    before = game.resumed
    print(game.save() - before)
with Machine(open("/root/demo.gb", "rb").read()) as machine:
    machine.frames(0, 60)
    print(machine.picture().png()[1:4])
'''
GAME = '''set -e
cd /root
if [ ! -e game.gbkeep ]; then gbkeep new demo.gb game.gbkeep; fi
gbkeep play demo.gb game.gbkeep script
gbkeep frame demo.gb game.gbkeep game.pgm
gbkeep-png game.pgm game.png
'''


def run(*words, **how):
    done = subprocess.run([str(word) for word in words], stdout=subprocess.PIPE, stderr=subprocess.STDOUT, text=True, errors='replace', **how)
    if done.returncode != 0:
        sys.exit(f'{done.stdout[-4000:]}\n{" ".join(map(str, words))[:300]} ended with status {done.returncode}')
    return done.stdout


def fields(package):
    return dict(line.split(': ', 1) for line in run('dpkg-deb', '--field', package).splitlines() if re.match(r'[A-Z][\w-]*: ', line))


def look(packages):
    """What can be seen without installing."""
    expect('packages', set(packages), PACKAGES)
    # two packages have no file of one name
    owners = {}
    for name, package in packages.items():
        for line in run('dpkg-deb', '--contents', package).splitlines():
            mode, owner, path = line.split()[0], line.split()[1], line.split(None, 5)[5].split(' -> ')[0]
            expect(f'{name}: the owner of {path}', owner, 'root/root')
            expect(f'{name}: the mode of {path}', mode in ('drwxr-xr-x', '-rwxr-xr-x', '-rw-r--r--', 'lrwxrwxrwx'), True)
            if not path.endswith('/'):
                expect(f'{path} in {name}, and', owners.setdefault(path, name), name)
    commands = {Path(path).name for path in owners if path.startswith('./usr/bin/')}
    expect('commands', commands, COMMANDS)
    expect('man pages', {Path(path).name[:-len('.1.gz')] for path in owners if path.startswith('./usr/share/man/man1/')}, COMMANDS)
    # `make install` has the same files
    with tempfile.TemporaryDirectory(prefix='packages-') as room:
        run(sys.executable, '-B', 'packaging/installed.py', '--destdir', room, '/usr', cwd=ROOT)
        plain = {path.name for path in Path(room).rglob('*') if not path.is_dir()}
    packed = {Path(path).name for path in owners if '/share/doc/' not in path and not path.endswith('/')}
    # a package's tools need no help to find the system's Python
    expect('the files of make install', plain ^ {name[:-3] if name.endswith('.1.gz') else name for name in packed}, {'gbkeep_launcher.py'})
    for name, package in packages.items():
        files = subprocess.run(['dpkg-deb', '--fsys-tarfile', package], capture_output=True, check=True).stdout
        said = subprocess.run(['tar', '-xO', f'./usr/share/doc/{name}/copyright'], input=files, capture_output=True, check=True).stdout.decode()
        expect(f'{name}: its copyright', 'No licence is given yet' in said and bool(re.search(r'Copyright \d{4} ', said)), True)
    with tempfile.TemporaryDirectory(prefix='packages-') as room:
        # lintian as root warns of that alone
        done = subprocess.run(['lintian', '--tag-display-limit', '0', '--fail-on', 'error,warning', *map(str, packages.values())], cwd=room, capture_output=True, text=True)
        hints = [line for line in done.stdout.splitlines() if re.match('[EW]: ', line)]
        expect('lintian', (hints, done.returncode), ([], 0))
        run('dpkg-deb', '-x', packages['gbkeep-window'], room)
        run('desktop-file-validate', f'{room}/usr/share/applications/gbkeep.desktop')
    print(f'{len(packages)} packages: lintian has no error and no warning')


class System:
    """A small Debian system."""

    def __init__(self, root):
        self.root = root
        if not (root / 'usr/bin/apt-get').exists():
            run('debootstrap', '--variant=minbase', 'bookworm', root, MIRROR)
        shutil.copy('/etc/resolv.conf', root / 'etc/resolv.conf')
        (root / 'usr/sbin/policy-rc.d').write_text('#!/bin/sh\nexit 101\n')

    def run(self, *words, **how):
        return run('chroot', self.root, 'env', '-i', 'PATH=/usr/sbin:/usr/bin:/sbin:/bin', 'HOME=/root', 'DEBIAN_FRONTEND=noninteractive', 'LC_ALL=C.UTF-8', *words, **how)

    def apt(self, *words):
        return self.run('apt-get', '-y', '-o', 'APT::Sandbox::User=root', *words)

    def ours(self):
        """All files that have our name, or stand where only we put any."""
        return {str(path.relative_to(self.root)) for path in self.root.rglob('*gbkeep*') if not str(path.relative_to(self.root)).startswith(('proc/', 'root/', 'tmp/', 'var/log', 'var/cache'))}


def as_older(packages, folder):
    """The same packages under an older number, and with one file that the new ones lack."""
    made = {}
    for name, package in packages.items():
        part = folder / name
        run('dpkg-deb', '-R', package, part)
        control = part / 'DEBIAN/control'
        version = fields(package)['Version']
        control.write_text(control.read_text().replace(f'Version: {version}\n', f'Version: {OLDER}\n').replace(f'(= {version})', f'(= {OLDER})'))
        (part / 'usr/share/doc' / name / 'OLDER').write_text('older\n')
        made[name] = folder / f'{name}_{OLDER}.deb'
        run('dpkg-deb', '--root-owner-group', '--build', part, made[name])
    return made


def install(system, packages, *options):
    place = system.root / 'root/packages'
    shutil.rmtree(place, ignore_errors=True)
    place.mkdir(parents=True)
    for package in packages.values():
        shutil.copy(package, place)
    system.apt('install', *options, *(f'/root/packages/{package.name}' for package in packages.values()))


def load_the_core(system):
    core = list(system.root.glob('usr/lib/*/libretro/gbkeep_libretro.so'))
    expect('the core', len(core), 1)
    system.run('python3', '-c', f'import ctypes; assert ctypes.CDLL("/{core[0].relative_to(system.root)}").retro_api_version() == 1')


def try_alone(system, packages):
    """The core needs no program, and the testers' tools no other package of Python."""
    system.apt('install', '--no-install-recommends', 'python3')
    system.apt('purge', 'python3-pil')
    install(system, {'gbkeep-libretro': packages['gbkeep-libretro']}, '--no-install-recommends')
    load_the_core(system)
    expect('no program', (system.root / 'usr/bin/gbkeep').exists(), False)
    system.run('dpkg', '--purge', 'gbkeep-libretro')
    testers = ('gbkeep', 'python3-gbkeep', 'gbkeep-testers')
    install(system, {name: packages[name] for name in testers}, '--no-install-recommends')
    expect('no PIL', system.run('python3', '-c', 'import importlib.util; print(importlib.util.find_spec("PIL"))'), 'None\n')
    expect('a test', '1 as wanted, 0 failed' in system.run('sh', '-c', 'cd /root && gbkeep-run-tests passes.gb'), True)
    system.run('dpkg', '--purge', *testers)


def complete(system):
    """Each shell finds the completions, also those of a tool."""
    loads = 'source /usr/share/bash-completion/bash_completion; _completion_loader gbkeep-window; complete -p gbkeep-window'
    for words, wanted in ((['bash', '-c', loads], 'complete -F _gbkeep gbkeep-window\n'),
                          (['fish', '-c', "complete -C 'gbkeep-run-tests --sl'"], '--slowest\tsays which five ROMs took the longest, as on a terminal\n'),
                          (['zsh', '-fc', 'autoload -Uz compinit; compinit -u -D; echo $_comps[gbkeep-debug]'], '_gbkeep\n')):
        expect(f'completions of {words[0]}', system.run(*words), wanted)


def build_a_program(system):
    """A program in C is built by what pkg-config says, and starts."""
    system.run('sh', '-c', 'cc -o /root/play /usr/share/doc/gbkeep/examples/library/play.c $(pkg-config --cflags --libs gbkeep)')
    expect('settings', system.run('pkg-config', '--libs', '--cflags', 'gbkeep').split(), ['-lgbkeep'])
    system.run('sh', '-c', 'rm -f /root/played && /root/play /root/demo.gb /root/played /root/script')


def try_it(system, count):
    """What a user does first; the game has so many inputs before."""
    said = system.run('sh', '-c', GAME)
    expect('a game goes on', f'resumed {count}\n' in said, True)
    expect('the window', 'Plays games in a window' in system.run('gbkeep-window', '--help'), True)
    expect('its type', 'gbkeep.desktop' in next(line for line in (system.root / 'usr/share/applications/mimeinfo.cache').read_text().splitlines()
                                              if line.startswith('application/x-gameboy-rom=')), True)
    expect('a game that is opened', 'application/x-gameboy-rom:*.gb' in (system.root / 'usr/share/mime/globs').read_text(), True)
    expect('a test', '1 as wanted, 0 failed' in system.run('sh', '-c', 'mkdir -p /root/alone && cd /root/alone && cp ../passes.gb . && gbkeep-run-tests passes.gb'), True)
    expect('a prompt', 'start:' in system.run('sh', '-c', "cd /root && gbkeep-debug --do 'list start 1' demo.gb"), True)
    expect('a friendly script', 'frames' in system.run('sh', '-c', "cd /root && printf 'A 3\\n' > few && gbkeep-script own few"), True)
    expect('the library', system.run('python3', '-c', LOAD), 'done\n')
    expect('the package of Python', system.run('python3', '-c', PYTHON), "4\nb'PNG'\n")
    load_the_core(system)


def live(packages, system, room):
    (system.root / 'root').mkdir(exist_ok=True)
    for name in ('demo/demo.gb', 'demo/demo.sym', 'test_roms/passes.gb'):
        if (ROOT / 'examples' / name).exists():
            shutil.copy(ROOT / 'examples' / name, system.root / 'root')
    shutil.copy(ROOT / 'examples/start_and_run.script', system.root / 'root/script')
    # what a run that was cut short has left
    system.run('dpkg', '--force-all', '--purge', *PACKAGES)
    (system.root / 'root/game.gbkeep').unlink(missing_ok=True)
    system.apt('update')
    before = system.ours()
    try_alone(system, packages)
    expect('what the packages that were alone have left', system.ours() - before, set())
    older = as_older(packages, room)
    install(system, older)
    try_it(system, 0)
    expect('the older packages', (system.root / 'usr/share/doc/gbkeep/OLDER').exists(), True)
    install(system, packages)
    listed = dict(line.split() for line in system.run('dpkg-query', '-W', '-f', '${Package} ${Version}\\n', *PACKAGES).splitlines())
    expect('versions after an upgrade', listed, {name: fields(package)['Version'] for name, package in packages.items()})
    expect('what only the older packages had', [path for path in system.ours() | {'usr/share/doc/gbkeep/OLDER'} if path.endswith('/OLDER') and (system.root / path).exists()], [])
    expect('what was installed is as it was packed', system.run('dpkg', '--verify', *PACKAGES), '')
    try_it(system, 95)
    system.apt('install', '--no-install-recommends', 'bash-completion', 'fish', 'zsh', 'gcc', 'libc6-dev', 'pkgconf')
    complete(system)
    build_a_program(system)
    system.run('dpkg', '--purge', *PACKAGES)
    expect('what is left after a removal', system.ours() - before, set())
    expect('the game is left', (system.root / 'root/game.gbkeep').stat().st_size > 0, True)
    print('packages: installed, upgraded and removed; a game went on')


def main():
    if not 2 <= len(sys.argv) <= 3:
        sys.exit(__doc__)
    for tool, package in (('lintian', 'lintian'), ('desktop-file-validate', 'desktop-file-utils'), ('debootstrap', 'debootstrap')):
        if not shutil.which(tool, path=f'{os.environ["PATH"]}:/usr/sbin'):
            sys.exit(f'test_packages.py: {tool} is missing: install {package}')
    packages = {fields(path)['Package']: path for path in sorted(Path(sys.argv[1]).resolve().glob('*.deb'))}
    look(packages)
    if os.geteuid() != 0:
        sys.exit('test_packages.py: the rest needs root')
    with tempfile.TemporaryDirectory(prefix='packages-') as folder:
        room = Path(folder)
        live(packages, System(Path(sys.argv[2]).resolve() if len(sys.argv) > 2 else room / 'system'), room)


if __name__ == '__main__':
    main()
