"""Leaves bin/libgbkeep.a, bin/libgbkeep.so (and bin/libgbkeep.so.0, which leads to it), bin/gbkeep.h and bin/gbkeep.pc: the machine and the session as a
library for C, and what a program is built with over them where they lie.

usage: library.py           for this computer
       library.py arm64     the same for aarch64, in bin/arm64
       library.py gate      right after `rt ci`: over the libraries that it left, so that crates/c_interface alone is proved

RT names the prover, CC the C compiler. The proved part is built by `rt lib` in crates/c_interface, which proves what has changed first."""
import math
import os
import subprocess
import sys
import tempfile
import time
from pathlib import Path

from gbkeep import __version__
from scripts import build as program
from scripts.alive import alive, minutes
from scripts.arm64 import target
from scripts.doctor import needed

TOP = Path(__file__).resolve().parent.parent
LIBRARY, BIN = TOP / 'library', TOP / 'bin'
SHARED, SONAME = 'libgbkeep.so', 'libgbkeep.so.0'
LEFT = ('libgbkeep.a', SHARED, 'gbkeep.h')
# where it lies; installed.py writes where it is installed
SETTINGS = f'''prefix=${{pcfiledir}}
libdir=${{prefix}}
includedir=${{prefix}}

Name: gbkeep
Description: a Game Boy emulator whose machine and saves are proved
Version: {__version__}
Libs: -L${{libdir}} -lgbkeep
Cflags: -I${{includedir}}
'''
# files are named as below the top, so that a build in another folder has the same bytes
FLAGS = ['-std=c11', '-O2', '-Wall', '-Wextra', '-fPIC', f'-ffile-prefix-map={TOP}=.']


def run(words, **how):
    print(' '.join(str(word) for word in words), flush=True)
    result = subprocess.run([str(word) for word in words], **how)
    if result.returncode != 0:
        sys.exit(f'library.py: {words[0]} ended with {result.returncode}')
    return result


class Proof:
    """A proof of the library by `rt lib`, which proves one crate after another: what it has to do, and how far it is by what it leaves."""

    def __init__(self):
        self.order, _, needs = program.crates('c_interface')
        self.weight, self.changed = program.expected(self.order, needs, [Path('.')])
        self.begun = time.monotonic()

    def says(self):
        about = math.ceil(sum(self.weight.values()) / 60)
        of = f'{len(self.order)} crates, {len(self.changed)} of them to be proved, one after another'
        return f'proving the library: {of}: about {about} minute{"s" * (about > 1)}'

    def life(self):
        """How long it takes so far, how far it is, and about how long it takes still."""
        taken = time.monotonic() - self.begun
        left = [name for name in self.order if name in self.changed and not program.is_built(Path('crates', name))]
        known, ahead = (sum(self.weight[name] for name in names) for names in (self.changed - set(left), left))
        # as build.py: a pace that is known before anything is proved
        seconds = ahead * (taken + program.SECONDS_KNOWN) / (known + program.SECONDS_KNOWN)
        proving = f', proving {left[0]}' if left else ''
        return f'{minutes(taken)}: {len(self.order) - len(left)} of {len(self.order)} crates are built{proving}; about {math.ceil(seconds / 60)} minutes left'


def prove_library(crate):
    """Proves what has changed of the crates that the library is made of."""
    os.chdir(TOP)
    proof = Proof()
    print(proof.says(), flush=True)
    with alive(proof.life, sys.stdout):
        run([os.environ.get('RT', 'rt'), 'lib'], cwd=crate, stdout=subprocess.DEVNULL)


def build(out, proved, compiler, debug=False, archiver='ar'):
    """The archive and the shared object in `out`, of the proved archive."""
    out.mkdir(parents=True, exist_ok=True)
    (out / 'gbkeep.h').write_bytes((LIBRARY / 'gbkeep.h').read_bytes())
    flags = FLAGS + (['-DGBKEEP_DEBUG', '-g', *debug] if debug else [])
    objects = []
    for name in ('gbkeep', 'heap'):
        objects.append(out / f'{name}.o')
        run([compiler, *flags, '-c', LIBRARY / f'{name}.c', '-o', objects[-1]])
    archive = out / 'libgbkeep.a'
    archive.write_bytes(proved.read_bytes())
    run([archiver, 'rD', archive, *objects], stderr=subprocess.DEVNULL)
    names = out / 'gbkeep.map'
    names.write_text('{ global: gbkeep_clock_*; gbkeep_machine_*; gbkeep_session_*; gbkeep_fault_text; local: *; };\n', encoding='utf-8')
    if not debug:
        run([compiler, '-shared', '-s', f'-Wl,-soname,{SONAME}', f'-Wl,--version-script={names}', '-Wl,--gc-sections', '-Wl,-z,relro,-z,now',
             '-o', out / SHARED, '-Wl,--whole-archive', archive, '-Wl,--no-whole-archive'])
    for made_on_the_way in (*objects, names):
        made_on_the_way.unlink()


def leave(out, place):
    """Moves what was built to where it is looked for, with the name that a program is started with, and the settings of pkg-config."""
    (out / SONAME).symlink_to(SHARED)
    (out / 'gbkeep.pc').write_text(SETTINGS, encoding='utf-8')
    for name in (*LEFT, SONAME, 'gbkeep.pc'):
        os.replace(out / name, place / name)


def below(name):
    """The crates of the repository that one stands on."""
    needs, found = target.uses(), set()

    def add(one):
        for other in set(needs[one]) & set(needs) - found:
            found.add(other)
            add(other)

    add(name)
    return found


def is_left_by_ci(name):
    """Whether the library of a crate is the one that `rt ci` left: those of other commands have a stamp."""
    place = TOP / 'crates' / name / 'out/rlib'
    return (place / f'{name}.rlib').is_dir() and not (place / 'stamp').exists()


def main():
    words = sys.argv[1:]
    if words not in ([], ['arm64'], ['gate']):
        sys.exit(__doc__)
    is_arm64, is_gate = words == ['arm64'], words == ['gate']
    needed('rt', *(() if is_arm64 else ('cc', 'ar')))
    compiler = target.compiler() if is_arm64 else os.environ.get('CC', 'cc')
    archiver = target.tool('ar') if is_arm64 else 'ar'
    crate, place = TOP / 'crates/c_interface', BIN / 'arm64' if is_arm64 else BIN
    is_over_ci = is_gate and all(map(is_left_by_ci, below('c_interface')))
    if not is_over_ci:
        prove_library(crate)
    place.mkdir(parents=True, exist_ok=True)
    with tempfile.TemporaryDirectory(dir=place) as folder:
        proved = crate / 'out/libc_interface.a'
        if is_arm64 or is_over_ci:
            proved = Path(folder).resolve() / 'libc_interface.a'
            says = f'proving c_interface for {target.TARGET if is_arm64 else target.HOST}, over libraries as they stand'
            print(says, flush=True)
            with alive(says, sys.stdout):
                print(target.prove(TOP, 'c_interface', proved, '--crate-type', 'staticlib', target=target.TARGET if is_arm64 else target.HOST), flush=True)
        build(Path(folder), proved, compiler, archiver=archiver)
        if is_arm64:
            target.needed(Path(folder) / SHARED)
        leave(Path(folder), place)


if __name__ == '__main__':
    main()
