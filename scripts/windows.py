"""Leaves in bin/windows the library for Windows on x86-64: gbkeep.dll, libgbkeep.dll.a, by which a program is linked with it, libgbkeep.a and gbkeep.h.

usage: windows.py       at the top of the repository, with RT as the prover's command

The proved library is compiled as for Linux on the same processor, by the toolchain's own steps. The module that these hand to clang is taken, and changed for
Windows: its layout and its triple, and two attributes about its stack, which are left out, since there a function of libgcc looks after that. That is all, and
each of them is printed (scripts/changed_module.py). Debian's cross compiler has the rest: library/gbkeep.c, the core (scripts/libretro.py), and what links them.
Nothing is asked of the system but kernel32 and the C library msvcrt.

CC_WINDOWS names the cross compiler (x86_64-w64-mingw32-gcc)."""
import os
import re
import subprocess
import sys
import tempfile
from pathlib import Path

from scripts.changed_module import TOP, Table, changed, compiled, kit, module_of, run
from scripts.doctor import needed
from scripts.memory32 import Unknown

LIBRARY, OUT = TOP / 'library', TOP / 'bin/windows'
PREFIX = 'x86_64-w64-mingw32-'
CC = os.environ.get('CC_WINDOWS') or f'{PREFIX}gcc'
TRIPLE = 'x86_64-w64-windows-gnu'
PROCESSOR = '"target-cpu"="x86-64-v2"'
TABLE = Table(target='x86_64-unknown-linux-gnu', triple=TRIPLE,
              layout='e-m:e-p270:32:32-p271:32:32-p272:64:64-i64:64-i128:128-f80:128-n8:16:32:64-S128',
              layout_then='e-m:w-p270:32:32-p271:32:32-p272:64:64-i64:64-i128:128-f80:128-n8:16:32:64-S128',
              processor=PROCESSOR, processor_then=PROCESSOR, left_out=('"probe-stack"="inline-asm"', '"stack-probe-size"="3072"'),
              own=frozenset({'llvm.x86.ssse3.pshuf.b.128'}))
OBJECTS = ('proved.o', 'heap.o', 'gbkeep.o')
LEFT = ('gbkeep.dll', 'libgbkeep.dll.a', 'libgbkeep.a', 'gbkeep.h')
FLAGS = ['-std=c11', '-O2', '-Wall', '-Wextra', '-Werror', f'-ffile-prefix-map={TOP}=.']
# no time and no place of the build stands in what is linked: without an address that is given, the linker makes one of the file's path
LINK = ['-shared', '-s', '-static-libgcc', '-Wl,--gc-sections', '-Wl,--no-insert-timestamp', '-Wl,--image-base,0x180000000']
TAKEN = {'kernel32.dll', 'msvcrt.dll'}


def calls():
    """The names of the header's calls."""
    return sorted(set(re.findall(r'^(?:const )?\w+ \**(gbkeep_\w+)\(', (LIBRARY / 'gbkeep.h').read_text(encoding='utf-8'), re.M)))


def check(path, gives):
    """Ends where a linked file takes anything of another library, or gives something else than these names."""
    said = run([f'{PREFIX}objdump', '-p', path], stdout=subprocess.PIPE, text=True).stdout
    others = sorted(one for one in re.findall(r'DLL Name: (\S+)', said) if one.lower() not in TAKEN)
    given = re.findall(r'^\s*\[ *\d+\](?: \+base\[ *\d+\])?(?: +[0-9a-f]{4,8})? (\w+)$', said, re.M)
    if others or sorted(given) != sorted(gives):
        sys.exit(f'windows.py: {path.name} takes something of {", ".join(others) or "no other library"}, and gives {", ".join(given)}')


def build(toolchain, room, text):
    """The library in a folder, of the changed module."""
    (room / 'proved.ll').write_text(text, encoding='utf-8')
    compiled(toolchain, room / 'proved.ll', TRIPLE, room / 'proved.o')
    compiled(toolchain, LIBRARY / 'heap_windows.ll', TRIPLE, room / 'heap.o')
    run([CC, *FLAGS, '-c', LIBRARY / 'gbkeep.c', '-o', room / 'gbkeep.o'])
    run([f'{PREFIX}ar', 'rcD', 'libgbkeep.a', *OBJECTS], cwd=room)
    link(room)
    (room / 'gbkeep.h').write_bytes((LIBRARY / 'gbkeep.h').read_bytes())
    check(room / 'gbkeep.dll', calls())


def link(room):
    """Links what is compiled in a folder. The names of the objects stand in the import library."""
    (room / 'gbkeep.def').write_text('EXPORTS\n' + ''.join(f'{name}\n' for name in calls()), encoding='utf-8')
    run([CC, 'gbkeep.def', *OBJECTS, *LINK, '-Wl,--out-implib,libgbkeep.dll.a', '-o', 'gbkeep.dll'], cwd=room)


def main():
    needed('rt', 'clang of rt', 'gcc for Windows')
    toolchain = kit()
    OUT.mkdir(parents=True, exist_ok=True)
    with tempfile.TemporaryDirectory(dir=OUT) as name:
        room = Path(name)
        text = module_of(toolchain, room, TABLE.target)
        try:
            for_windows, changes = changed(text.read_text(encoding='utf-8'), TABLE)
        except Unknown as unknown:
            sys.exit(f'windows.py: {unknown}: the library is not made')
        for line in changes:
            print(f'changed: {line}')
        build(toolchain, room, for_windows)
        for one in LEFT:
            os.replace(room / one, OUT / one)


if __name__ == '__main__':
    if sys.argv[1:]:
        sys.exit(__doc__)
    main()
