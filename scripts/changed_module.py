"""The module of the proved library that the toolchain hands to its clang for a processor that it knows, and what is changed in it for another system: by a table
for each (scripts/web.py, scripts/windows.py), and by nothing else. A layout, a triple, an instruction, a declared function, an attribute or a word of assembly
that the table does not know ends it with a line."""
import os
import re
import shutil
import subprocess
import sys
from dataclasses import dataclass, field
from pathlib import Path

from scripts import library, page
from scripts.alive import alive
from scripts.memory32 import Unknown

TOP = Path(__file__).resolve().parent.parent
RT = os.environ.get('RT', 'rt')
CRATE = page.CRATE
# words of attributes that say nothing of a processor
PLAIN = {'alwaysinline', 'captures', 'cold', 'hot', 'immarg', 'inlinehint', 'memory', 'mustprogress', 'nobuiltin', 'nocallback', 'nocreateundeforpoison', 'nofree',
         'noinline', 'norecurse', 'noreturn', 'nosync', 'nounwind', 'speculatable', 'willreturn'}
# those that mean the same on each processor, without the types behind their names
SAME = {'llvm.' + name for name in
        'abs assume bitreverse bswap ctlz ctpop cttz experimental.noalias.scope.decl expect fshl fshr lifetime.end lifetime.start memcpy memmove memset '
        'sadd.sat sadd.with.overflow smax smin smul.with.overflow ssub.sat ssub.with.overflow trap uadd.sat uadd.with.overflow umax umin '
        'umul.with.overflow usub.sat usub.with.overflow vector.reduce.add vector.reduce.and vector.reduce.or vector.reduce.umax vector.reduce.umin '
        'vector.reduce.xor'.split()}
# what the proved code asks of the heap
HEAP = {'rattle_alloc', 'rattle_realloc', 'rattle_dealloc'}
# as the toolchain calls clang for each processor
CLANG = ['-mllvm', '-no-trap-after-noreturn', '-mllvm', '-trap-unreachable', '-mllvm', '-disable-machine-licm', '-mllvm', '-disable-postra-machine-licm',
         '-mllvm', '-sink-common-insts=false', '-mllvm', '-expand-div-rem-bits=64', '-mllvm', '-expand-fp-convert-bits=64', '-ffunction-sections',
         '-fdata-sections', '--no-default-config', '-no-canonical-prefixes', '-fno-crash-diagnostics', '-Werror']


@dataclass(frozen=True)
class Table:
    """What the module of a target of the toolchain's has, and what it has then."""
    target: str
    triple: str
    layout: str
    layout_then: str
    processor: str
    processor_then: str
    # attributes, which are about its stack
    left_out: tuple
    # instructions that have another name, and those that are written out: each by the name of a function, and that function
    renamed: dict = field(default_factory=dict)
    written_out: dict = field(default_factory=dict)
    # instructions of this processor alone
    own: frozenset = frozenset()


def run(words, **how):
    result = subprocess.run([str(word) for word in words], **how)
    if result.returncode != 0:
        sys.exit(f'{Path(sys.argv[0]).name}: {words[0]} ended with {result.returncode}')
    return result


def kit():
    """The toolchain's folder."""
    return Path(run([RT, 'doc'], stdout=subprocess.PIPE, text=True).stdout.strip()).parent


# ---- the module of the proved library

def catching_toolchain(kit, folder, caught):
    """A toolchain whose clang leaves a copy of the module that it is given."""
    (folder / 'bin').mkdir(parents=True)
    for part in (kit / 'toolchain').iterdir():
        if part.name != 'bin':
            (folder / part.name).symlink_to(part)
    for tool in (kit / 'toolchain/bin').iterdir():
        if tool.name != 'clang':
            (folder / 'bin' / tool.name).symlink_to(tool)
    clang = folder / 'bin/clang'
    clang.write_text(f'#!/bin/sh\n[ -f module.bc ] && cp module.bc "{caught}"\nexec "{kit}/toolchain/bin/clang" "$@"\n', encoding='utf-8')
    clang.chmod(0o755)


def module_of(kit, room, target):
    """Proves the library, and leaves the module that its build for a target hands to clang, as text. Answers its path."""
    crate = TOP / 'crates' / CRATE
    library.prove_library(crate)
    caught = room / 'module.bc'
    catching_toolchain(kit, room / 'toolchain', caught)
    needs, _ = page.rows()
    below, named = page.crates_below(CRATE, needs), needs[CRATE]
    words = [kit / 'bin/rattle', 'build', '--crate-name', CRATE, 'src/lib.rt']
    for one in dict.fromkeys(['std', *(one for one in named if one not in needs)]):
        words += ['--extern', f'{one}={kit}/rlibs/{one}.rlib']
    words += ['-L', f'dependency={kit}/rlibs']
    for one in below:
        rlib = TOP / 'crates' / one / 'out/rlib'
        words += ['--extern', f'{one}={rlib}/{one}.rlib'] if one in named else []
        words += ['-L', f'dependency={rlib}']
    words += ['--antt-project', kit / 'rattle/logic/antt-project.json', '--logic-built', kit / 'logic_built', '--links', f'{CRATE}=', '--crate-type', 'staticlib',
              '--incremental', room / 'incremental', '--toolchain', room / 'toolchain', '--backend', 'llvm', '--target', target, '-o', room / 'other.a']
    # the proofs are those of the library: what was proved of it a moment ago is taken over
    kept = crate / 'out/incremental'
    if kept.is_dir():
        shutil.copytree(kept, room / 'incremental', dirs_exist_ok=True)
    says = f'proving {CRATE} once more, and compiling it, for {target}'
    print(says, flush=True)
    log = room / 'log'
    with log.open('w', encoding='utf-8') as file, alive(says, sys.stdout):
        built = subprocess.run([str(word) for word in words], cwd=crate, stdout=file, stderr=subprocess.STDOUT)
    if built.returncode != 0 or not caught.exists():
        sys.stderr.write(log.read_text(encoding='utf-8', errors='replace')[-2000:])
        sys.exit(f'{Path(sys.argv[0]).name}: the library was not compiled for {target}')
    text = room / 'module.ll'
    run([kit / 'toolchain/bin/clang', f'--target={target}', '-x', 'ir', caught, '-S', '-emit-llvm', '-Xclang', '-disable-llvm-passes', '-o', text])
    return text


# ---- what is changed

def base_of(name):
    """The name of an instruction without the types behind it, as `llvm.umin` of `llvm.umin.i64`."""
    parts = name.split('.')
    while parts and re.fullmatch(r'(?:nx)?v?\d*(?:[ip]\d+|f16|f32|f64)?', parts[-1]):
        parts.pop()
    return '.'.join(parts)


def changed_line(line, what, value, wanted, target):
    """A `target` line with another value, where it has the value that is wanted."""
    if line != f'target {what} = "{wanted}"':
        raise Unknown(f'the {what} is not that of {target}: {line}')
    return f'target {what} = "{value}"'


def attributes(line, table):
    """A group of attributes for the other system."""
    head, brace, rest = line.partition('{')
    for one in table.left_out:
        rest = rest.replace(one, '')
    rest = rest.replace(table.processor, table.processor_then)
    unknown = rest.replace(table.processor_then, '')
    unknown = re.sub(r'\([^()]*\)', '', unknown).strip('{} ')
    for word in unknown.split():
        if word not in PLAIN:
            raise Unknown(f'an attribute: {word}')
    return head + brace + ' ' + ' '.join(rest.split())


def changed(text, table):
    """The module for the other system, and what was changed, a line each. Raises Unknown."""
    lines, changes, declared, defined = [], [], set(), set()
    renamed, written_out = dict.fromkeys(table.renamed, 0), dict.fromkeys(table.written_out, 0)
    left_out = 0
    for line in text.splitlines():
        if line.startswith('target datalayout'):
            line = changed_line(line, 'datalayout', table.layout_then, table.layout, table.target)
            changes.append(f'layout {table.layout} -> {table.layout_then}')
        elif line.startswith('target triple'):
            line = changed_line(line, 'triple', table.triple, table.target, table.target)
            changes.append(f'triple {table.target} -> {table.triple}')
        elif line.startswith('target') or line.startswith('module asm'):
            raise Unknown(line)
        elif line.startswith('attributes #'):
            left_out += sum(one in line for one in table.left_out)
            line = attributes(line, table)
        elif re.search(r'\basm\b', line) and not re.search(r'c"(?:[^"\\]|\\..)*asm', line):
            raise Unknown(f'assembly: {line.strip()}')
        else:
            found = re.match(r'(declare|define) .*?@("[^"]+"|[\w.$]+)\(', line)
            if found:
                (declared if found[1] == 'declare' else defined).add(found[2])
            for old, new in table.renamed.items():
                renamed[old] += line.count(f'@{old}(')
                line = line.replace(f'@{old}(', f'@{new}(')
            for old, (new, function) in table.written_out.items():
                if found and found[1] == 'declare' and found[2] == old:
                    line = function
                written_out[old] += line.count(f'@{old}(')
                line = line.replace(f'@{old}(', f'@{new}(')
        lines.append(line)
    if len(changes) != 2:
        raise Unknown('the layout or the triple is missing')
    for name in sorted(declared):
        if name.startswith('llvm.'):
            if name not in {*table.renamed, *table.written_out, *table.own} and base_of(name) not in SAME:
                raise Unknown(f'an instruction: {name}')
        elif name not in HEAP:
            raise Unknown(f'a declared function: {name}')
    result = '\n'.join(lines) + '\n'
    for left in re.finditer(r'@(llvm\.(?:aarch64|arm|x86)[\w.]*)|(vscale)', result):
        if left[1] not in table.own:
            raise Unknown(f'an instruction of another processor: {left[0]}')
    if table.processor != table.processor_then:
        changes.append(f'processor {table.processor} -> {table.processor_then}')
    changes.append(f'left out in {left_out} places: {", ".join(table.left_out)}')
    changes += [f'instruction {old} -> {new}, in {renamed[old]} places' for old, new in table.renamed.items()]
    changes += [f'instruction {old}, written out, in {written_out[old]} places' for old in table.written_out]
    changes.append(f'from outside: {", ".join(sorted(one for one in declared if one in HEAP))}')
    return result, changes


def compiled(kit, text, triple, made, *flags):
    """Compiles a module as the toolchain would."""
    run([kit / 'toolchain/bin/clang', f'--target={triple}', *flags, *CLANG, '-O3', '-x', 'ir', '-c', text, '-o', made])
