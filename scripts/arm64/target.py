"""Proves and compiles what is linked for aarch64, and links it by Debian's cross compiler. scripts/build.py and scripts/library.py call this. `prove` also
proves and compiles for this computer, over libraries as they stand.

The libraries are proved for every processor. What links them, the program or the library for C, is proved anew for its own, and the last line of
that proof names it."""
import os
import re
import shutil
import subprocess
import sys
from pathlib import Path

RT = os.environ.get('RT', 'rt')
TARGET, PREFIX = 'aarch64-unknown-linux-gnu', 'aarch64-linux-gnu-'
# this computer's, which a proof names without being asked for it
HOST = 'x86_64-unknown-linux-gnu'
TOP = Path(__file__).resolve().parent.parent.parent
HERE = TOP / 'scripts/arm64'
# what the last line of a proof may say, where it says nothing that the gate refuses
WORDS = {'logic', 'functions', 'axioms', 'target', 'sum', 'native', 'logic-built', 'libraries-built', 'statements', 'incremental'}
# the C library that everything has to be content with
MOST_LIBC = (2, 28)


def stop(why):
    sys.exit(f'{Path(sys.argv[0]).name}: {why}')


def compiler():
    """The cross compiler, or a line that names its package."""
    found = os.environ.get('CC_ARM64', f'{PREFIX}gcc')
    if not shutil.which(found):
        stop(f'{found} is missing: install gcc-aarch64-linux-gnu')
    for place in ('/usr/aarch64-linux-gnu/include/errno.h', '/usr/include/aarch64-linux-gnu/errno.h'):
        if os.path.exists(place):
            return found
    if 'CC_ARM64' in os.environ:
        return found
    return stop('the C library for aarch64 is missing: install libc6-dev-arm64-cross')


def tool(name):
    """A tool of the cross compiler's."""
    if not shutil.which(f'{PREFIX}{name}'):
        stop(f'{PREFIX}{name} is missing: install binutils-aarch64-linux-gnu')
    return f'{PREFIX}{name}'


def run(words, **how):
    ran = subprocess.run([str(word) for word in words], stdout=subprocess.PIPE, stderr=subprocess.STDOUT, text=True, **how)
    if ran.returncode != 0:
        stop(f'{words[0]} ended with status {ran.returncode}\n{ran.stdout[-3000:]}')
    return ran.stdout


def kit():
    """The toolchain's folder."""
    return Path(run([RT, 'doc']).strip()).resolve().parent


def uses():
    """What each crate of crates.txt stands on."""
    found = {}
    for line in (TOP / 'crates.txt').read_text().splitlines():
        name, colon, others = line.partition(':')
        if colon and not line.startswith('#'):
            found[name.split()[0]] = others.split()
    return found


def is_proof(line, target=TARGET):
    """Whether a line is the last one of a proof for the processor."""
    said = dict(word.partition('=')[::2] for word in line.split())
    return said.get('logic') == 'proved' and said.get('target') == target and set(said) <= WORDS | ({'cpu'} if target == HOST else set())


def prove(root, crate, out, *more, target=TARGET):
    """Proves a crate of `root` for the processor, over its libraries' rlibs there, and compiles it into `out`. Answers the proof's last line."""
    place, needs, root = kit(), uses(), Path(root).resolve()
    source = 'src/main.rt' if (root / f'crates/{crate}/src/main.rt').exists() else 'src/lib.rt'
    words = [place / 'bin/rattle', 'build', '--crate-name', crate, source, '--extern', f'std={place}/rlibs/std.rlib', '-L', f'dependency={place}/rlibs']
    for name in needs[crate]:
        rlib = root / f'crates/{name}/out/rlib/{name}.rlib' if name in needs else place / f'rlibs/{name}.rlib'
        words += ['--extern', f'{name}={rlib}']
    for name in needs:
        if (root / f'crates/{name}/out/rlib').exists():
            words += ['-L', f'dependency={root}/crates/{name}/out/rlib']
    words += ['--antt-project', place / 'rattle/logic/antt-project.json', '--logic-built', place / 'logic_built', '--links', f'{crate}=',
              '--toolchain', place / 'toolchain', *(['--target', target] if target != HOST else []), '--backend', 'llvm', *more, '-o', out]
    said = run(words, cwd=root / f'crates/{crate}')
    proved = [line for line in said.splitlines() if line.startswith('logic=')]
    if len(proved) != 1 or not is_proof(proved[0], target):
        stop(f'{crate}: the proof ends otherwise than it should:\n{said[-3000:]}')
    return proved[0]


def needed(path, at_most=MOST_LIBC):
    """The names that a linked file takes from the C library, with their versions, of which none is newer than `at_most`."""
    found = {}
    for line in run([tool('objdump'), '-T', path]).splitlines():
        one = re.search(r'\*UND\*\s+[0-9a-f]+\s+\(?(?:GLIBC_([0-9.]+))?\)?\s+(\S+)$', line)
        if one:
            found[one[2]] = tuple(map(int, (one[1] or '0').split('.')))
    newer = sorted(name for name, version in found.items() if version > at_most)
    if newer:
        stop(f'{path} asks for a C library newer than {".".join(map(str, at_most))}: {", ".join(newer)}')
    return found


def link_program(made, out, static):
    """Links the program, dynamically so that older C libraries run it, or with all that it needs."""
    words = [compiler(), '-O2', '-Wall', '-Wextra', made, HERE / 'os.c', TOP / 'library/heap.c', '-o', out, '-Wl,--gc-sections', '-Wl,--build-id=sha1',
             f'-ffile-prefix-map={TOP}=.']
    run([*words, '-static'] if static else [*words, '-fPIE', '-pie', '-nostartfiles', '-Wl,-z,relro,-z,now', HERE / 'start.S'])
    if not static and '.ctors' in run([tool('objdump'), '-h', out]):
        stop(f'{out} has constructors that nobody would call')
    run([tool('strip'), out])
    return {} if static else needed(out)


def program(root, folder):
    """Leaves gbkeep and gbkeep-static in the folder; answers the proof's last line."""
    compiler()
    folder.mkdir(parents=True, exist_ok=True)
    made = folder / 'gbkeep.o'
    line = prove(root, 'gbkeep_program', made.resolve())
    for name, static in (('gbkeep', False), ('gbkeep-static', True)):
        new = folder / f'{name}.new'
        link_program(made, new, static)
        os.replace(new, folder / name)
    (folder / 'PROVED').write_text(line + '\n')
    made.unlink()
    return line
