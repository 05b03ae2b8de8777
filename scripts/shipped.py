"""What a frame and its picture cost in what ships: the host's instructions in the program, in the library and in the libretro core.

usage: shipped.py GBKEEP [LIBRARY CORE] [--keep]
       shipped.py where GBKEEP [--keep]
       shipped.py gate GBKEEP [LIBRARY CORE]
       shipped.py beside GBKEEP LIBRARY CORE OTHER

GBKEEP is the proved program before it is stripped; LIBRARY is a folder with libgbkeep.a and libgbkeep.so, CORE is gbkeep_libretro.so.

Callgrind counts the instructions, as the difference of two plays of a ROM of examples/speed of which one has more frames, by its frames; they
repeat, where times don't. The program plays a script; library and core play in shipped_player.c, which costs some hundred instructions a frame. With a
picture, the program draws one in `stream` behind each frame, and the library and the core hand one out; with a state, the program keeps one in `debug` and
goes back to it, and the library and the core hand one out and take it back. How many frames come in a second of processor time is the program's, the best
of three. --keep writes docs/speed.csv, of which speed_chart.py makes a picture and tables.

`where` tells in which functions of the program the instructions of a frame are, those that each function calls left out, and of all functions that have the
same name and other types the sum. --keep writes docs/speed_where.csv.

`beside` tells how many times as fast the program plays as another core, OTHER, which draws each frame and makes sound where `play` draws none; and how long
3,000 frames of the demo with their pictures take the core, and as many states, told and taken back. Each is the least of three of processor time.

`gate` counts a few ROMs, and fails where a frame costs more than a twentieth above its row of docs/speed.csv. It also looks at the code of program and
library: the loops in which most instructions are made have the match on all opcodes in line, and a loop that is missing or that calls it fails. It ends with a
note for each thing that it could not try."""
import csv
import os
import re
import resource
import shutil
import subprocess
import sys
import tempfile
from collections import Counter
from pathlib import Path

from examples.speed import build
from scripts.doctor import compiler, missing, needed, tries
from scripts.not_tried import note

ROOT = Path(__file__).resolve().parent.parent
DEMO = ROOT / 'examples/demo/demo.gb'
PLAYER = Path(__file__).with_name('shipped_player.c')
TABLE = ROOT / 'docs/speed.csv'
WHERE = ROOT / 'docs/speed_where.csv'
WHERE_HEAD = ['name', 'function', 'instructions']
HEAD = ['name', 'what', 'of', 'program', 'library', 'core', 'a second']
WARM, MANY = 20, 40
# where each line has an interrupt, the first frames are not like the others
LONG = {'mode_0': 200, 'mode_0_halt': 200, 'mode_2_halt': 200, 'lyc': 200, 'lyc_halt': 200, 'read_stat': 200, 'wave': 200}
# what is done behind each frame, of which ROM, and what it is beside
MORE = {
    'picture_dark': ('dark', 'picture', 'frame', 'a picture of which no row is drawn, LCD off'),
    'picture_busy': ('busy', 'picture', 'frame', 'a picture where nothing changes'),
    'picture_scrolling': ('scrolling', 'picture', 'frame', 'a picture where each row changes'),
    'state_busy': ('busy', 'state', 'debug', 'a state, taken and given back'),
}
# by time, beside another core: as games are, the dearest and the cheapest
BESIDE = ('busy', 'compiled', 'scrolling', 'raster', 'game', 'unpack', 'wave', 'halting')
# what a frame does in most games, and each as dear as it is
GATE = ('busy', 'compiled', 'scrolling', 'raster', 'game', 'unpack', 'picture_scrolling', 'state_busy')
MOST = 1.05
# the loops in which most instructions are made, and how many copies of each there are: one for each place of PC, and for each watch
LOOPS = {'program': {'run_fast_steps_by': 5, 'run_fast_counted_by': 3, 'run_fast_unseen_by': 5, 'run_watching_by': 18}, 'library': {'run_fast_steps_by': 5}}
# the C library copies and clears memory by what the processor has: without that the counts are the same on another one
PLAIN = 'glibc.cpu.hwcaps=-AVX,-AVX2,-AVX512F,-AVX512VL,-AVX512BW,-ERMS,-FSRM,-AVX_Fast_Unaligned_Load'
# one of each kind of load, and how much of a frame the functions that are named have at least
PROFILED = ('busy', 'scrolling', 'raster', 'lyc', 'vram_other', 'wave', 'game', 'unpack', 'compiled', 'ask_stat')
LEAST_SHARE = 0.02
MATCH = re.compile(r'::run_(instruction|opcode|bit_opcode)(::<|$)')


def run(words, text=b'', **more):
    return subprocess.run([str(word) for word in words], input=text, capture_output=True, check=True, env=dict(os.environ, **more))


def instructions(words, text=b''):
    done = run(['valgrind', '--tool=callgrind', '--callgrind-out-file=/dev/null', *words], text, GLIBC_TUNABLES=PLAIN)
    return int(re.search(rb'Collected : (\d+)', done.stderr)[1])


def seconds(words, text=b''):
    """The processor time, the least of three, since whatever else the computer does only adds to it."""
    def spent():
        used = resource.getrusage(resource.RUSAGE_CHILDREN)
        return used.ru_utime + used.ru_stime

    def once():
        before = spent()
        run(words, text)
        return spent() - before
    return min(once() for _ in range(3))


class Program:
    """Plays a cartridge by the program."""

    def __init__(self, path, room):
        self.path, self.save, self.script = path, room / 'counted.gbkeep', room / 'counted.script'

    def command(self, cart, frames, kind):
        """The words of a play, and its input."""
        if kind in ('state', 'debug'):
            return [self.path, 'debug', cart], {'state': b'frame 00\nkeep 1\nback 1\n', 'debug': b'frame 00\n'}[kind] * frames
        self.save.unlink(missing_ok=True)
        run([self.path, 'new', cart, self.save])
        if kind == 'picture':
            return [self.path, 'stream', cart, self.save], b'frame 00\npicture\n' * frames
        self.script.write_text(f'frames 00 {frames}\n')
        return [self.path, 'play', cart, self.save, self.script], b''


class Shared:
    """Plays it by a shared object, in the player."""

    def __init__(self, player, path, room):
        self.player, self.path, self.room = player, path, room

    def command(self, cart, frames, kind):
        # the core keeps its game beside the cartridge
        for old in self.room.glob('counted.gb*'):
            old.unlink()
        played = self.room / 'counted.gb'
        shutil.copyfile(cart, played)
        return [self.player, self.path, played, str(frames), *([kind] if kind in ('picture', 'state') else [])], b''


def span(name):
    """Behind how many frames of a ROM counting begins, and how many are counted."""
    return 100 if name in LONG else WARM, LONG.get(name, MANY)


def frame(of, cart, name, kind='frame'):
    """What one more frame costs, with what is done behind it."""
    first, many = span(name)
    return round((instructions(*of.command(cart, first + many, kind)) - instructions(*of.command(cart, first, kind))) / many)


def a_second(program, cart, counted):
    """How many frames the program plays in a second of processor time: as many are timed as have some 1,500 million instructions."""
    many = round(1.5e9 / counted)
    spent = seconds(*program.command(cart, WARM + many, 'frame')) - seconds(*program.command(cart, WARM, 'frame'))
    return round(many / spent) if spent > 0 else None


def ships(words, room):
    """What plays, by its name in the table, and what could not be tried."""
    program = words[0]
    found, lacking = {'program': Program(program, room)}, []
    if len(words) < 3:
        return found, ['the speed of library and core: they were not built']
    if lines := missing('cc'):
        return found, [f'the speed of library and core: {lines[0]}']
    player = room / 'player'
    run([*compiler(), '-std=gnu11', '-O2', '-Wall', '-Wextra', '-o', player, PLAYER, '-ldl'])
    for name, path in (('library', Path(words[1], 'libgbkeep.so')), ('core', Path(words[2]))):
        if path.exists():
            found[name] = Shared(player, path, room)
        else:
            lacking.append(f'the speed of the {name}: {path} is not there')
    return found, lacking


# ---- the code

def functions(path):
    """The functions of a program or an archive, each its name and the names that it calls."""
    told = subprocess.run(['objdump', '-dr', '--no-show-raw-insn', path], capture_output=True, text=True, check=True).stdout
    found, calls = [], set()
    for line in told.splitlines():
        head = re.match(r'[0-9a-f]+ <(.+)>:$', line)
        if head:
            calls = set()
            found.append((head[1], calls))
            continue
        # a call of what is linked, and one of an archive, whose place is filled in later
        called = re.search(r'\b(?:call|jmp)q? +[0-9a-f]+ <(.+)>$', line) or re.search(r'\bR_X86_64_PLT32\t(.+)-0x4$', line)
        if called and not re.search(r'\+0x[0-9a-f]+$', called[1]):
            calls.add(called[1])
    return found


def wrong_loops(path, wanted):
    """What is wrong with the hot loops of a file, a line each."""
    found = functions(path)
    for loop, count in wanted.items():
        copies = [(name, calls) for name, calls in found if loop in name]
        if len(copies) != count:
            yield f'{path}: {len(copies)} copies of the loop {loop}, where {count} are expected'
        for name, calls in copies:
            for called in sorted(calls):
                if MATCH.search(called):
                    yield f'{path}: the loop {name} calls {called}, which was in line'


# ---- by function

def plain_name(symbol):
    """The name of a function without its crate's number and its types, as `machine::frame::run`."""
    while (shorter := re.sub(r'<[^<>]*>', '', symbol)) != symbol:
        symbol = shorter
    return re.sub(r':{3,}', '::', symbol).strip(':')


def own_costs(words, text, folder):
    """The instructions of each function, without those that it calls."""
    path = folder / 'profile'
    run(['valgrind', '--tool=callgrind', f'--callgrind-out-file={path}', *words], text, GLIBC_TUNABLES=PLAIN)
    names, costs, now, is_call = {}, Counter(), None, False
    for line in path.read_text(errors='replace').splitlines():
        if found := re.match(r'fn=\((\d+)\)(?: (.*))?$', line):
            now = names.setdefault(found[1], plain_name(found[2] or ''))
        elif line.startswith('calls='):
            is_call = True
        elif re.match(r'[\d+*-]', line) and now is not None:
            if not is_call:
                costs[now] += int(line.split()[1])
            is_call = False
        elif found := re.match(r'cfn=\((\d+)\) (.*)$', line):
            names.setdefault(found[1], plain_name(found[2]))
    return costs


def shares(program, cart, name):
    """The functions of a frame, and how many instructions each has; those with few as one."""
    first, many = span(name)
    with tempfile.TemporaryDirectory(prefix='where-') as folder:
        few, more = (own_costs(*program.command(cart, frames, 'frame'), Path(folder)) for frames in (first, first + many))
    found = {one: round((more[one] - few[one]) / many) for one in more}
    whole = sum(found.values())
    named = {one: count for one, count in sorted(found.items(), key=lambda it: -it[1]) if count >= LEAST_SHARE * whole}
    return [*named.items(), ('all others', whole - sum(named.values()))]


def where(path, is_kept):
    kept = []
    with tempfile.TemporaryDirectory(prefix='speed-') as folder:
        room = Path(folder)
        program, carts = Program(path, room), build.write(room / 'roms')
        for name in PROFILED:
            for function, count in shares(program, carts[name], name):
                kept.append([name, function, count])
                print(f'{name:12} {count:>9,} {function}', flush=True)
    if is_kept:
        keep(WHERE, [WHERE_HEAD, *kept])


# ---- the ways to call it

def beside(words):
    with tempfile.TemporaryDirectory(prefix='speed-') as folder:
        room = Path(folder)
        found, _ = ships(words, room)
        carts, other = build.write(room / 'roms'), Shared(room / 'player', words[3], room)

        def a_frame(of, cart, many, kind='frame'):
            return (seconds(*of.command(cart, WARM + many, kind)) - seconds(*of.command(cart, WARM, kind))) / many
        for name in BESIDE:
            many = 30_000 if name == 'halting' else 3_000
            own, others = a_frame(found['program'], carts[name], many), a_frame(other, carts[name], many // 3)
            print(f'{name}: {others / own:.1f} times as fast, {1e6 * own:.1f} us a frame', flush=True)
        alone, shown, kept = (3_000 * a_frame(found['core'], DEMO, 3_000, kind) for kind in ('frame', 'picture', 'state'))
        print(f'the core, 3,000 frames of the demo: {alone:.2f} s; with their pictures {shown:.2f} s; the states alone {kept - alone:.2f} s')


def cost(of, carts, name):
    """What a row of the table counts: a frame, or what is done behind it."""
    if name not in MORE:
        return frame(of, carts[name], name)
    rom, kind, beside, _ = MORE[name]
    return frame(of, carts[rom], rom, kind) - frame(of, carts[rom], rom, beside)


def rows(found, carts):
    for name in [*carts, *MORE]:
        counts = [cost(found[by], carts, name) if by in found else None for by in HEAD[3:6]]
        if name in MORE:
            yield [name, MORE[name][3], 'more', *counts, None]
        else:
            yield [name, build.what(name), 'a frame', *counts, a_second(found['program'], carts[name], counts[0])]


def keep(path, kept):
    new = path.with_name(f'.{path.name}.new')
    with open(new, 'w', newline='') as file:
        csv.writer(file, lineterminator='\n').writerows(kept)
    os.replace(new, path)


def shown(row):
    numbers = ['' if one is None else f'{one:,}' for one in row[3:]]
    return f'{row[1]:92} {row[2]:8} ' + ' '.join(f'{one:>11}' for one in numbers)


def count(words, is_kept):
    needed('valgrind')
    print(f'{"":101} ' + ' '.join(f'{one:>11}' for one in HEAD[3:]))
    with tempfile.TemporaryDirectory(prefix='speed-') as folder:
        room = Path(folder)
        found, lacking = ships(words, room)
        if is_kept and lacking:
            sys.exit('shipped.py: --keep needs all that ships: ' + '; '.join(lacking))
        kept = []
        for row in rows(found, build.write(room / 'roms')):
            kept.append(row)
            print(shown(row), flush=True)
    for line in lacking:
        note(*line.split(': ', 1))
    if is_kept:
        keep(TABLE, [HEAD, *kept])


def gate(words):
    wrong, lacking = [], []
    with tempfile.TemporaryDirectory(prefix='speed-') as folder:
        room = Path(folder)
        if tries('the speed of what ships', 'valgrind'):
            with open(TABLE, newline='') as file:
                known = {row['name']: row for row in csv.DictReader(file)}
            found, lacking = ships(words, room)
            carts = build.write(room / 'roms')
            for name in GATE:
                counts = {by: cost(of, carts, name) for by, of in found.items()}
                print(f'{name}: ' + ', '.join(f'{one:,} by the {by}' for by, one in counts.items()), flush=True)
                for by, one in counts.items():
                    if one > MOST * int(known[name][by]):
                        wrong.append(f'{name} by the {by} costs {one:,} instructions, and {int(known[name][by]):,} in {TABLE.name}')
        if tries('the loops of what ships', 'objdump'):
            wrong += wrong_loops(words[0], LOOPS['program'])
            if len(words) > 1 and Path(words[1], 'libgbkeep.a').exists():
                wrong += wrong_loops(Path(words[1], 'libgbkeep.a'), LOOPS['library'])
    for line in lacking:
        note(*line.split(': ', 1))
    if wrong:
        sys.exit('\n'.join(f'shipped.py: {line}' for line in wrong))


def main():
    words = [word for word in sys.argv[1:] if word != '--keep']
    way = words[0] if words[:1] in (['gate'], ['where'], ['beside']) else None
    paths, is_kept = [os.path.abspath(word) for word in words[1 if way else 0:]], '--keep' in sys.argv
    if len(paths) not in {'where': (1,), 'beside': (4,)}.get(way, (1, 3)) or (way in ('gate', 'beside') and is_kept):
        sys.exit(__doc__)
    if way == 'gate':
        gate(paths)
    elif way == 'beside':
        beside(paths)
    elif way == 'where':
        where(paths[0], is_kept)
    else:
        count(paths, is_kept)


if __name__ == '__main__':
    main()
