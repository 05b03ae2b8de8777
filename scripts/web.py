"""Renews gbkeep.wasm.gz in web/page: the library as a WebAssembly module that each browser runs, packed.

usage: web.py            at the top of the repository, with RT as the prover's command: renews web/page, where its module is not of these sources
       web.py FOLDER     leaves the whole page in FOLDER, with a module of these sources
       web.py pages      prints the folders that tests are to try, as seen from the top: web/page, and where its module is of other sources, bin/web with
                         one of these

The proved library is compiled as for another processor with 64-bit addresses and the same order of bytes (aarch64), by the toolchain's own steps. The
module that these hand to clang is taken, and changed for WebAssembly with a 64-bit memory:

- its layout and its triple;
- the name of the processor, and three attributes about its stack, which are left out;
- the name of one instruction, a table lookup of 16 bytes, which both processors have;
- one instruction, the sums of the pairs of bytes of two vectors, which is written out as the three that it is.

That is all, and each of them is printed (scripts/changed_module.py). clang 22 compiles the bits of a comparison of 32 or 64 lanes wrongly for WebAssembly: it
shifts 16 by the bits, where it has to shift the bits by 16. So what its optimizer leaves is taken once more, and such bits are asked for 16 at a time.
scripts/memory32.py makes one with a 32-bit memory of what is linked."""
import contextlib
import os
import re
import shutil
import subprocess
import sys
import tempfile
from pathlib import Path

from scripts import page
from scripts.changed_module import CLANG, RT, TOP, Table, changed, kit, module_of, run
from scripts.doctor import needed, tries
from scripts.memory32 import Unknown, leb, sections, with_32_bits

WEB, SECOND = TOP / 'web', TOP / 'bin/web'

# of the aarch64 build, and of the module
OTHER = 'aarch64-unknown-linux-gnu'
LAYOUT = 'e-m:e-p270:32:32-p271:32:32-p272:64:64-i8:8:32-i16:16:32-i64:64-i128:128-n32:64-S128-Fn32'
TRIPLE = 'wasm64-unknown-unknown'
WASM_LAYOUT = 'e-m:e-p:64:64-p10:8:8-p20:8:8-i64:64-i128:128-n32:64-S128'
PROCESSOR = '"target-cpu"="generic"'
WASM_PROCESSOR = '"target-cpu"="lime1" "target-features"="+simd128"'
# about the stack of the other processor
LEFT_OUT = ('"frame-pointer"="non-leaf"', '"probe-stack"="inline-asm"', '"stack-probe-size"="3072"')
# a table of 16 bytes, looked up at 16 places; at a place from 16 on both give 0
RENAMED = {'llvm.aarch64.neon.tbl1.v16i8': 'llvm.wasm.swizzle'}
# the sums of bytes 0 and 1, 2 and 3 .. of two vectors behind one another
PAIRS, SUMS = 'llvm.aarch64.neon.addp.v16i8', 'sums_of_pairs'
WRITTEN_OUT = f'''define internal <16 x i8> @{SUMS}(<16 x i8> %one, <16 x i8> %other) alwaysinline nounwind {WASM_PROCESSOR} {{
  %even = shufflevector <16 x i8> %one, <16 x i8> %other, <16 x i32> <{', '.join(f'i32 {at}' for at in range(0, 32, 2))}>
  %odd = shufflevector <16 x i8> %one, <16 x i8> %other, <16 x i32> <{', '.join(f'i32 {at}' for at in range(1, 32, 2))}>
  %sums = add <16 x i8> %even, %odd
  ret <16 x i8> %sums
}}'''
# web/heap.c has what it asks of the heap
TABLE = Table(OTHER, TRIPLE, LAYOUT, WASM_LAYOUT, PROCESSOR, WASM_PROCESSOR, LEFT_OUT, RENAMED, {PAIRS: (SUMS, WRITTEN_OUT)})

# for WebAssembly
C = ['-std=c11', '-ffreestanding', '-nostdinc', '-Wall', '-Wextra']
FEATURES = ['-mcpu=lime1', '-msimd128', '-mbulk-memory']
STACK = 1 << 20
EXPORTS = ['malloc', 'free', *('gbkeep_session_' + call for call in
                                'sectors begin import resume free frames seconds power restore save next_call picture state_length state battery_length battery '
                                'count'.split()), *('gbkeep_clock_' + call for call in 'look open text due claim claimed give note noted go_back'.split())]


def for_wasm(text):
    """The module for WebAssembly, and what was changed, a line each. Raises Unknown."""
    return changed(text, TABLE)


# ---- the module of the browser

def exports(module):
    """What a module gives, by name."""
    data = sections(module).get(7, b'\0')
    count, at = leb(data, 0)
    names = []
    for _ in range(count):
        length, at = leb(data, at)
        names.append(data[at:at + length].decode())
        _, at = leb(data, at + length + 1)
    return names


def check_module(module):
    """Raises Unknown where a module takes anything from outside, or gives something else than it is to give."""
    if 2 in sections(module):
        raise Unknown('the module takes something from outside')
    if sorted(exports(module)) != sorted([*EXPORTS, 'memory']):
        raise Unknown(f'the module gives {exports(module)}')


def with_narrow_masks(text):
    """A module in which the bits of 32 or 64 lanes are asked for 16 at a time, and how many such bits there were. Raises Unknown."""
    count = 0

    def narrow(found):
        nonlocal count
        count += 1
        name, lanes, vector = found[1], int(found[2]), found[3]
        bits, parts, lines = f'i{lanes}', [], []
        for at in range(0, lanes, 16):
            part = f'%mask.{count}.{at}'
            which = ', '.join(f'i32 {lane}' for lane in range(at, at + 16))
            lines += [f'{part}.lanes = shufflevector <{lanes} x i1> {vector}, <{lanes} x i1> poison, <16 x i32> <{which}>',
                      f'{part}.bits = bitcast <16 x i1> {part}.lanes to i16', f'{part}.wide = zext i16 {part}.bits to {bits}',
                      f'{part} = shl {bits} {part}.wide, {at}']
            parts.append(part)
        for last, part in enumerate(parts[1:], 2):
            so_far = parts[0] if last == 2 else f'%mask.{count}.first.{last - 1}'
            whole = name if last == len(parts) else f'%mask.{count}.first.{last}'
            lines.append(f'{whole} = or {bits} {so_far}, {part}')
        return '\n'.join(f'  {line}' for line in lines)

    text = re.sub(r'^ *(%\S+) = bitcast <(32|64) x i1> (%\S+) to i\2(?=$|[ ,])', narrow, text, flags=re.M)
    left = re.search(r'bitcast <(?:32|64) x i1>.* to i\d.*|@llvm\.vector\.reduce\.\w+\.v(?:32|64)i1\(', text)
    if left:
        raise Unknown(f'the bits of a comparison: {left[0]}')
    return text, count


def compiled(toolchain, room, text):
    """The object of a module for WebAssembly, and what was changed on the way, a line."""
    clang, made = toolchain / 'toolchain/bin/clang', room / 'wasm.o'
    (room / 'wasm.ll').write_text(text, encoding='utf-8')
    flags = [f'--target={TRIPLE}', *FEATURES, *CLANG, '-O3', '-x', 'ir']
    run([clang, *flags, '-S', '-emit-llvm', room / 'wasm.ll', '-o', room / 'optimized.ll'])
    narrow, count = with_narrow_masks((room / 'optimized.ll').read_text(encoding='utf-8'))
    (room / 'narrow.ll').write_text(narrow, encoding='utf-8')
    run([clang, *flags, '-Xclang', '-disable-llvm-passes', '-c', room / 'narrow.ll', '-o', made])
    return made, f'bits of 32 or 64 lanes, 16 at a time, in {count} places'


def link(toolchain, room, made):
    """Compiles the C of the library and the heap, and links them with the object of the module. Answers the bytes."""
    clang = toolchain / 'toolchain/bin/clang'
    objects = [made]
    for source in (TOP / 'library/gbkeep.c', WEB / 'heap.c', WEB / 'memory.c'):
        objects.append(room / f'{source.stem}.o')
        run([clang, f'--target={TRIPLE}', *FEATURES, *CLANG, *C, '-O2', f'-I{WEB / "include"}', f'-I{WEB}', '-c', source, '-o', objects[-1]])
    linker = room / 'wasm-ld'
    linker.symlink_to(toolchain / 'toolchain/bin/ld.lld')
    run([linker, '-mwasm64', '--no-entry', '--fatal-warnings', '--gc-sections', '--strip-all', '--stack-first', '-z', f'stack-size={STACK}',
         *(f'--export={name}' for name in EXPORTS), '-o', room / 'gbkeep.wasm', *objects])
    module = (room / 'gbkeep.wasm').read_bytes()
    check_module(module)
    return module


# ---- what is left

def module_of_sources():
    """The module of the sources as they stand, their digest, and the prover's name."""
    needed('rt', 'clang of rt')
    of, toolchain = page.sources(), kit()
    with tempfile.TemporaryDirectory() as name:
        room = Path(name)
        text = module_of(toolchain, room, OTHER)
        try:
            for_wasm64, changes = for_wasm(text.read_text(encoding='utf-8'))
            made, narrowed = compiled(toolchain, room, for_wasm64)
            for line in [*changes, narrowed]:
                print(f'changed: {line}')
            module, counts = with_32_bits(link(toolchain, room, made))
            check_module(module)
        except Unknown as unknown:
            sys.exit(f'web.py: {unknown}: the module is not made')
        print(f'changed: {counts}')
        play(room, module)
    return module, of, prover()


def play(room, module):
    """Lets the parts of the page that need no browser play a module. Ends where one of them fails."""
    if not tries('the module, by the parts of the page that need no browser', 'node'):
        return
    tried = room / page.MODULE
    tried.write_bytes(page.packed(module))
    print('playing it by the parts of the page that need no browser', flush=True)
    played = subprocess.run(['node', '--test', f'{WEB / "tests"}/'], env={**os.environ, 'MODULE': str(tried)}, capture_output=True, text=True)
    if played.returncode != 0:
        sys.stderr.write(''.join(f'{line}\n' for line in played.stdout.splitlines() if re.match(r' *not ok', line)))
        sys.exit('web.py: the module does not play: it is not kept')


def prover():
    return run([RT, 'version'], stdout=subprocess.PIPE, text=True).stdout.strip()


def made_before(folder):
    """The module that this prover has made of these sources, where a folder has it."""
    if not (folder / page.OF).exists():
        return None
    of, module = page.kept(folder), page.module_in(folder)
    is_same = of == {'module': page.digest(module), 'sources': page.sources(), 'prover': prover()}
    return (module, of['sources'], of['prover']) if is_same else None


def leave(folder):
    """The whole page in a folder, with a module of these sources, in one piece. A folder that is there goes if it is such a page."""
    needed('rt')
    if folder.exists() and not (folder / page.LIST).exists():
        sys.exit(f'web.py: {folder} exists already and was not made here: take it away')
    module = made_before(folder) or module_of_sources()
    folder.parent.mkdir(parents=True, exist_ok=True)
    new = Path(tempfile.mkdtemp(dir=folder.parent, prefix='.web-'))
    try:
        for source in sorted(page.PAGE.iterdir()):
            if source.is_file() and source.name not in page.MADE:
                shutil.copyfile(source, new / source.name)
        page.leave_module(new, *module)
        page.make(new, folder)
        new.chmod(0o755)
        if folder.exists():
            shutil.rmtree(folder)
        os.rename(new, folder)
    finally:
        shutil.rmtree(new, ignore_errors=True)


def renew():
    """Makes the module of web/page anew, where it is of other sources, and all that is made."""
    if (page.PAGE / page.OF).exists() and page.is_of_sources():
        print(f'web/page/{page.MODULE} is of these sources')
    else:
        page.leave_module(page.PAGE, *module_of_sources())
    page.make()


def pages():
    """The folders that tests are to try. What it says meanwhile is no part of its output."""
    found = [page.PAGE]
    if not page.is_of_sources():
        found.append(SECOND)
        with contextlib.redirect_stdout(sys.stderr):
            leave(SECOND)
    for folder in found:
        print(folder.relative_to(TOP))


def main(words):
    if words == []:
        renew()
    elif words == ['pages']:
        pages()
    elif len(words) == 1 and not words[0].startswith('-'):
        leave(Path(words[0]).resolve())
    else:
        sys.exit(__doc__)


if __name__ == '__main__':
    main(sys.argv[1:])
