#!/usr/bin/env python3
"""Tries the library and the core for Windows, in wine: each call of gbkeep.h beside the library of this computer; what the core asks of the system, hostile names
among it; and the core in a small front end, which is killed at each of a hundred moments, and whose SAVE the program goes on with.

usage: test_windows.py GBKEEP [TEST..]     the status is 1 where a test fails

It needs wine, a C compiler, one of mingw-w64, libretro.h, bin/libgbkeep.so, bin/libgbkeep.a and what `make windows` leaves. WINE names another wine, CC and
CC_WINDOWS another compiler."""
import os
import shutil
import subprocess
import sys
import tempfile
import time
from concurrent.futures import ThreadPoolExecutor
from hashlib import sha256
from pathlib import Path

from gbkeep import A, LEFT, RIGHT, START, UP, Machine, Session
from gbkeep.game import run
from gbkeep.palettes import PALETTES
from gbkeep.save_files import Cartridge, looked_at
from gbkeep_tests.support import CART, clock_cart, expect, run_tests, tests_in
from scripts import libretro, windows
from scripts.changed_module import changed
from scripts.memory32 import Unknown

HERE = Path(__file__).resolve().parent
TOP = HERE.parent.parent
BUILT = TOP / 'bin/windows'
CORE = BUILT / 'gbkeep_libretro.dll'
HEADERS = os.environ.get('LIBRETRO') or '/usr/include/libretro-common'
FLAGS = ['-O1', '-Wall', '-Wextra', '-Werror', '-D__USE_MINGW_ANSI_STDIO=1']
WINE = os.environ.get('WINE') or 'wine'
# the status of a process that its front end has ended, as the front end names it
KILLED = 137
MOMENTS, AT_ONCE = 100, 4
# what is played where it is killed: frames on both sides of each save, the power switch, and a state that is taken back
PLAY = [(0, 70), 'settle', (START, 4), (RIGHT | A, 66), 'settle', 'reset', (0, 10), 'keep', (LEFT, 70), 'settle', 'back', (RIGHT, 130), 'settle', (UP, 61), 'settle']
ELSEWHERE = "SAVE is open elsewhere, or can't be read or written"
EXISTS = "device failed: SAVE exists already, or it can't be made"
TWICE = 'This game is open twice: nothing that is played here is saved'
# behind a state of the library's: until when the clock was given, and the number of a frame
STATE_MORE = 16
program = 'bin/gbkeep'
made, started = {}, []


# ---- wine, and what it runs

def begin(room):
    """Wine with a folder of its own, and the programs that it runs."""
    os.environ.update(WINEPREFIX=str(room / 'wine'), WINEDEBUG='-all', WINEDLLOVERRIDES='mscoree,mshtml=', HOME=str(room))
    os.environ.pop('DISPLAY', None)
    silent = {'stdout': subprocess.DEVNULL, 'stderr': subprocess.DEVNULL}
    if subprocess.run([WINE, 'wineboot', '-i'], timeout=240, **silent).returncode != 0:
        sys.exit(f'test_windows.py: {WINE} does not start')
    made['front_end'] = compiled(room / 'front_end.exe', HERE / 'front_end.c', f'-I{HEADERS}')
    made['files'] = compiled(room / 'files.exe', HERE / 'files.c', TOP / 'players/libretro/files_windows.c', f'-I{TOP / "players/libretro"}')
    # over the DLL, by its import library
    made['calls'] = compiled(room / 'calls.exe', HERE / 'calls.c', f'-I{BUILT}', BUILT / 'libgbkeep.dll.a')
    shutil.copy(BUILT / 'gbkeep.dll', room)
    made['calls here'] = room / 'calls'
    subprocess.run([os.environ.get('CC') or 'cc', '-std=c11', '-O1', '-Wall', '-Wextra', f'-I{TOP / "bin"}', '-o', made['calls here'], HERE / 'calls.c',
                    TOP / 'bin/libgbkeep.a'], check=True)
    # wine's own processes are there as long as any other is, and keep what the first one writes to: so this one stays, and nobody waits for its end
    first = Front(room)
    first.obey('wait 1')
    first.until('waited')


def end():
    """Ends what was started. Wine ends a while behind its last program, and writes into its folder until then."""
    for process in started:
        if process.poll() is None:
            process.kill()
            process.wait()
    subprocess.run([Path(shutil.which(WINE)).parent / 'wineserver', '-w'], timeout=60, stderr=subprocess.DEVNULL)


def compiled(out, *words):
    subprocess.run([windows.CC, '-std=gnu11', *FLAGS, '-o', out, *words], check=True)
    return out


class Front:
    """The front end as a process. `obey` gives it a line, and `until` reads what it prints up to a line; `told` is what the core told so far."""

    def __init__(self, folder, core=CORE):
        self.process = subprocess.Popen([WINE, made['front_end'], core], stdin=subprocess.PIPE, stdout=subprocess.PIPE, stderr=subprocess.PIPE)
        started.append(self.process)
        self.told = []
        self.obey(b'save ' + os.fsencode(folder))

    def obey(self, *lines):
        for line in lines:
            self.process.stdin.write((line if isinstance(line, bytes) else line.encode()) + b'\n')
        self.process.stdin.flush()

    def until(self, word):
        """What stands behind that word, in the next line that begins with it."""
        for line in self.process.stdout:
            first, _, rest = line.decode(errors='replace').rstrip('\n').partition(' ')
            if first == 'told':
                self.told.append(rest)
            if first == word:
                return rest
        raise AssertionError(f'the front end has ended before it prints {word}: {self.told[-5:]}, {self.process.stderr.read()[-500:]}')

    def play(self, what):
        self.obey(*(line_of(one) for one in what))

    def end(self):
        """Ends it by its own, or waits until it was killed: its status, and all that was told."""
        out, err = self.process.communicate(timeout=100)
        self.told += [line.partition(' ')[2] for line in out.decode(errors='replace').splitlines() if line.startswith('told ')]
        if self.process.returncode not in (0, KILLED):
            raise AssertionError(f'the front end ends with {self.process.returncode}: {err[-500:]}')
        return self.process.returncode

    def saved(self):
        """How many inputs were told as saved, at least."""
        return max((int(line.split()[1]) for line in self.told if line.split()[0] in ('saved', 'resumed')), default=0)


def line_of(what):
    return what if isinstance(what, str) else 'frames %02x %d' % what


def played(folder, what, cart=CART, **how):
    """Plays a game in a front end of its own, to the end of the game: all that was told."""
    front = Front(folder, **how)
    front.obey(f'load {cart}')
    front.play(what)
    front.obey('unload')
    expect('its status', front.end(), 0)
    return front.told


def states(what, machine, first=()):
    """The digest of the machine's state behind each input of a play, the first one before it, by that of `first`: frames, the power switch, and a state that
    is taken back."""
    found, kept = [], None
    for one in first:
        give(machine, one)
    found.append(sha256(machine.state()).digest())
    for one in what:
        if one == 'keep':
            kept = machine.state()
        if one in ('keep', 'settle'):
            continue
        for _ in range(one[1] if isinstance(one, tuple) else 1):
            if one == 'back':
                machine.restore(kept)
            else:
                give(machine, (one[0], 1) if isinstance(one, tuple) else one)
            found.append(sha256(machine.state()).digest())
    return found


def give(machine, what):
    if what == 'reset':
        machine.power()
    else:
        machine.frames(*what)


def stands_for(save):
    """How many inputs a SAVE has, and the digest of its machine's state, by the library of this computer."""
    image = save.read_bytes()
    with Session(CART, image) as session:
        expect(f'{save}: its count by a second reader', looked_at(image, Cartridge(CART.read_bytes()))[0], session.count)
        return session.count, sha256(session.state()).digest()


# ---- the tests

def test_changes(room):
    """What is changed of the module that the toolchain hands to clang, and what ends that."""
    table = windows.TABLE
    module = f'''source_filename = "x"
target datalayout = "{table.layout}"
target triple = "{table.target}"
define i32 @one(i32 %a) #0 {{
  %b = call i32 @llvm.umin.i32(i32 %a, i32 7)
  ret i32 %b
}}
declare {{ i64, i64 }} @rattle_alloc(i64, i64) #1
declare i32 @llvm.umin.i32(i32, i32) #1
attributes #0 = {{ nounwind "probe-stack"="inline-asm" "stack-probe-size"="3072" {table.processor} }}
attributes #1 = {{ nounwind }}
'''
    text, changes = changed(module, table)
    wanted = module.replace(table.layout, table.layout_then).replace(table.target, table.triple).replace(' "probe-stack"="inline-asm" "stack-probe-size"="3072"', '')
    expect('the module', text, wanted)
    expect('what is told', [line.split()[0] for line in changes], ['layout', 'triple', 'left', 'from'])
    for old, new in ((table.layout, 'e-m:e'), (table.target, 'aarch64-unknown-linux-gnu'), ('@llvm.umin.i32', '@llvm.x86.sse2.pause'), ('@llvm.umin.i32', '@llvm.sqrt.f64'),
                     ('rattle_alloc', 'malloc'), ('3072', '8192'), ('x86-64-v2', 'x86-64-v4'), ('nounwind }', 'strictfp }'), ('  ret', '  call void asm "nop", ""()\n  ret')):
        try:
            changed(module.replace(old, new), table)
            expect(f'{new} is refused', True, False)
        except Unknown:
            pass


def test_same_bytes(room):
    """What is linked again, in another folder and at another time, has the same bytes; it takes nothing of another library than kernel32 and msvcrt."""
    subprocess.run([f'{windows.PREFIX}ar', 'x', BUILT / 'libgbkeep.a'], cwd=room, check=True)
    windows.link(room)
    make = ['make', '-s', '-C', TOP / 'players/libretro', 'platform=win', f'CC={windows.CC}', f'PYTHON={sys.executable}', f'GBKEEP={BUILT}', f'LIBRETRO={HEADERS}']
    subprocess.run([*make, f'BUILD={room / "build"}', f'TARGET={room / CORE.name}'], check=True)
    for name, gives in (('gbkeep.dll', windows.calls()), ('libgbkeep.dll.a', None), (CORE.name, libretro.calls(HEADERS))):
        expect(name, (room / name).read_bytes() == (BUILT / name).read_bytes(), True)
        if gives:
            windows.check(BUILT / name, gives)


def test_calls(room):
    """Each call of gbkeep.h answers in gbkeep.dll what it answers here, to the last bit."""
    for cart in (CART, clock_cart(room)):
        here = subprocess.run([made['calls here'], cart], capture_output=True, check=True).stdout
        there = subprocess.run([WINE, made['calls'], cart], capture_output=True, check=True).stdout.replace(b'\r\n', b'\n')
        expect('lines', there.splitlines(), here.splitlines())
        expect(f'{len(here.splitlines())} lines are many', len(here.splitlines()) > 1000, True)
        named = {f'gbkeep_{line.split()[0].decode()}' for line in here.splitlines() if line[:4] != b'the '}
        # those that answer nothing, and whose work the others show
        silent = {f'gbkeep_{name}' for name in ('machine_free', 'machine_frames', 'machine_seconds', 'machine_state_length', 'session_free', 'session_state_length',
                                                'session_battery_length', 'clock_claimed', 'clock_noted')}
        expect('each call of the header', sorted(named | silent), windows.calls())


def test_files(room):
    """What the core asks of the system, and the names that it refuses."""
    done = subprocess.run([WINE, made['files']], cwd=room, capture_output=True, text=True)
    expect('its lines', (done.returncode, done.stdout.splitlines()[:-1]), (0, []))
    expect('how many were tried', int(done.stdout.split()[1].strip(',')) > 100, True)


def test_play(room):
    """A game is played, saved and gone on with: its states and its picture are those of this computer's library, and the program goes on with it, and back."""
    save = room / 'demo.gbkeep'
    front = Front(room)
    front.obey(f'load {CART}')
    front.play(PLAY)
    front.obey('picture', f'state {room / "state"}', 'unload')
    picture = front.until('picture')
    expect('the state is written', front.until('state'), '1')
    expect('its status', front.end(), 0)
    with Machine(CART) as machine:
        wanted = states(PLAY, machine)
        state, shades = machine.state(), machine.picture().shades
    count = len(wanted) - 1
    expect('what is told', (front.told[0], front.told[-1], stands_for(save)), ('resumed 0', f'saved {count}', (count, wanted[-1])))
    expect('the state', (room / 'state').read_bytes()[:-STATE_MORE] == state, True)
    total = 0
    for shade in shades:
        total = (total * 31 + int.from_bytes(PALETTES[0][shade], 'big')) % 2 ** 64
    expect('the picture', picture, f'{total:016x}')
    # the program goes on, then the core for Windows, and the library of this computer
    script = room / 'script'
    script.write_text('frames 11 50\nsave\npower\nframes 00 9\n')
    expect('the program', run(program, 'play', str(CART), str(save), str(script)).splitlines(), [f'resumed {count}', f'saved {count + 50}', f'saved {count + 60}'])
    with Machine(CART) as machine:
        machine.restore(state)
        further = states([(0x11, 50), 'reset', (0, 9), (RIGHT, 65)], machine)
    told = played(room, [(RIGHT, 65)])
    expect('the core again', (told[0], told[-1]), (f'resumed {count + 60}', f'saved {count + 125}'))
    expect('what it stands for', stands_for(save), (count + 125, further[-1]))
    expect('the program shows', run(program, 'frame', str(CART), str(save), str(room / 'out.pgm')), f'resumed {count + 125}\n')
    # a SAVE that the program has begun
    other = room / 'other'
    other.mkdir()
    run(program, 'new', str(CART), str(other / 'demo.gbkeep'))
    run(program, 'play', str(CART), str(other / 'demo.gbkeep'), str(script))
    told = played(other, [(A, 20)])
    expect('a game of the program', (told[0], told[-1]), ('resumed 60', 'saved 80'))
    with Machine(CART) as machine:
        wanted = states([(0x11, 50), 'reset', (0, 9), (A, 20)], machine)
    expect('what it stands for', stands_for(other / 'demo.gbkeep'), (80, wanted[-1]))


def test_killed(room):
    """Killed by TerminateProcess right before a call for a file, at each of a hundred of them, from the first one of a new game on: what was told as saved is
    there, SAVE stands for a prefix of the inputs, nothing lies beside it but a part, and the game goes on."""
    whole = room / 'whole'
    whole.mkdir()
    front = Front(whole)
    front.obey(f'load {CART}')
    front.play(PLAY)
    front.obey('unload', 'calls')
    calls = int(front.until('calls'))
    front.end()
    with Machine(CART) as machine:
        wanted = states(PLAY, machine)
    # each of the first calls, which make the game, and of the last ones, and others between them
    first, last = min(30, calls // 3), min(30, calls // 3)
    between = MOMENTS - first - last
    moments = [*range(1, first + 1), *(first + (calls - last - first) * at // between for at in range(1, between + 1)), *range(calls - last + 1, calls + 1)]
    with ThreadPoolExecutor(AT_ONCE) as pool:
        ends = list(pool.map(lambda moment: kill_at(room / f'at-{moment}', moment, wanted), moments))
    expect('moments', len(ends), MOMENTS)
    counts = {count for _, count in ends if count is not None}
    print(f'killed before {len(moments)} of {calls} calls: {sum(killed for killed, _ in ends)} were killed, {sum(count is None for _, count in ends)} without a game,'
          f' {len(counts)} counts of inputs left')
    # on a busy computer two saves may fall together: fewer calls than those of the first play
    expect('most were killed', sum(killed for killed, _ in ends) >= MOMENTS * 9 // 10, True)
    expect('some have no game yet, others have many counts', (any(count is None for _, count in ends), len(counts) > 3), (True, True))


def kill_at(folder, moment, wanted):
    """Kills a play there, and goes on: whether it was killed, and how many inputs its SAVE had then; None where there is none."""
    folder.mkdir()
    save = folder / 'demo.gbkeep'
    front = Front(folder)
    front.obey(f'kill {moment}', f'load {CART}')
    try:
        front.play(PLAY)
        front.obey('unload')
    except BrokenPipeError:
        pass
    killed = front.end() == KILLED
    others = [path.name for path in folder.iterdir() if path != save]
    if [name for name in others if not (name.startswith('.gbkeep-') and name.endswith('.new'))]:
        raise AssertionError(f'moment {moment}: beside SAVE lie {others}')
    count = None
    if save.exists():
        count, digest = stands_for(save)
        expect(f'moment {moment}: {count} inputs, {front.saved()} were told', (count >= front.saved(), digest == wanted[count]), (True, True))
    else:
        expect(f'moment {moment}: no game, and nothing was told', front.saved(), 0)
    told = played(folder, [(START, 65)])
    expect(f'moment {moment}: it goes on', (told[0], told[-1]), (f'resumed {count or 0}', f'saved {(count or 0) + 65}'))
    expect(f'moment {moment}: what it stands for', stands_for(save)[0], (count or 0) + 65)
    return killed, count


def test_killed_at_any_time(room):
    """The same at times of the clock, by a signal to the process, one game through all of them."""
    save, count = room / 'demo.gbkeep', 0
    for turn in range(10):
        front = Front(room)
        front.obey(f'load {CART}')
        for _ in range(200):
            front.play([(turn * 8 & 0xff, 30)])
        time.sleep(0.5 + turn * 0.07)
        front.process.kill()
        front.process.wait()
        front.told += [line.partition(' ')[2] for line in front.process.stdout.read().decode(errors='replace').splitlines() if line.startswith('told ')]
        # a line that was cut within tells nothing
        told = front.saved()
        now = stands_for(save)[0] if save.exists() else 0
        expect(f'turn {turn}: {now} inputs, {told} were told, {count} before', now >= told and now >= count, True)
        count = now
    expect('it goes on', played(room, [])[0], f'resumed {count}')


def test_faults(room):
    """A call that fails ends the game, and not the front end: what was saved stays saved."""
    for call in (1, 2, 3, 5, 8, 9, 20, 60, 100, 101, 103, 105):
        folder = room / f'at-{call}'
        folder.mkdir()
        front = Front(folder)
        front.obey(f'fail {call}', f'load {CART}')
        front.play([(0, 130), 'reset', (START, 70)])
        front.obey('unload')
        expect(f'call {call}: its status', front.end(), 0)
        save = folder / 'demo.gbkeep'
        count = stands_for(save)[0] if save.exists() else 0
        expect(f'call {call}: {count} inputs, told {front.told}', count >= front.saved(), True)
        expect(f'call {call}: it goes on', played(folder, [])[0], f'resumed {count}')


def test_two(room):
    """Two front ends, or two cores in one: one has the game, the other one says so, and what the first one saves stays. Two that begin one game make one."""
    first, second = Front(room), Front(room)
    first.obey(f'load {CART}', 'frames 00 130', 'wait 300', 'frames 00 1')
    expect('the first', (first.until('loaded'), first.until('waited')), ('1', ''))
    second.obey(f'load {CART}', 'frames 10 130', 'unload')
    expect('the second', (second.end(), second.told[0], second.saved()), (0, ELSEWHERE, 0))
    copy = room / 'copy.dll'
    shutil.copy(CORE, copy)
    first.obey(f'second {copy}', f'load {CART}', 'frames 20 130', 'unload')
    expect('in one process', (first.until('loaded'), first.until('unloaded')), ('1', ''))
    expect('what is told there', first.told[-1], TWICE)
    expect('the first goes on', first.end(), 0)
    with Machine(CART) as machine:
        wanted = states([(0, 131)], machine)
    count, digest = stands_for(room / 'demo.gbkeep')
    expect('what it stands for', (count >= first.saved() >= 60, digest == wanted[count]), (True, True))
    for turn in range(5):
        folder = room / f'new-{turn}'
        folder.mkdir()
        fronts = [Front(folder) for _ in range(3)]
        for front in fronts:
            front.obey(f'load {CART}', 'frames 00 10')
        for front in fronts:
            front.until('loaded')
            front.obey('unload')
        for front in fronts:
            front.end()
        begun = [front.told[0] for front in fronts]
        expect(f'turn {turn}: {begun}', set(begun) <= {'resumed 0', 'resumed 10', ELSEWHERE, EXISTS} and begun.count('resumed 0') == 1, True)
        expect('those that have none', {len(front.told) for front in fronts if not front.told[0].startswith('resumed')} <= {1}, True)
        expect('what lies there', sorted(path.name for path in folder.iterdir()), ['demo.gbkeep'])
        expect('what it stands for', stands_for(folder / 'demo.gbkeep')[0], max(front.saved() for front in fronts))


def test_names(room):
    """Cartridges and folders of any name: a long path, letters of others; and those that are refused, with a line, and nothing is made."""
    deep = room.joinpath(*['d' * 100] * 4, 'Ωメ🎮 é')
    deep.mkdir(parents=True)
    cart = deep / 'Zelda – 日本.gb'
    shutil.copy(CART, cart)
    told = played(deep, [(0, 60)], cart)
    expect('a long name', (told[0], (deep / 'Zelda – 日本.gbkeep').exists(), len(os.fsencode(deep)) > 400), ('resumed 0', True, True))
    backslashes = 'Z:' + str(cart).replace('/', '\\')
    expect('with backslashes', played(str(deep).replace('/', '\\'), [(0, 1)], backslashes)[0], 'resumed 60')
    saves = room / 'saves'
    saves.mkdir()
    refused = ['NUL', 'CON', r'\\.\NUL', r'\\.\PhysicalDrive0', f'{CART}:stream', 'C:', '/', str(room), 'none.gb', b'\xff\xfe.gb', 'x' * 5000, '', r'\\?\Z:\none.gb']
    for name in refused:
        front = Front(saves)
        front.obey(b'load ' + (name if isinstance(name, bytes) else name.encode()), 'frames 00 70', 'unload')
        expect(f'{name[:40]}: its status', front.end(), 0)
        expect(f'{name[:40]}: what is told', (len(front.told) > 0, front.saved(), os.listdir(saves)), (True, 0, []))
    # a cartridge whose SAVE would have the name of a device, or of a stream
    for name in ('nul.gb', 'com1.x.gb'):
        shutil.copy(CART, room / name)
        front = Front(saves)
        front.obey(f'load {room / name}', 'frames 00 70', 'unload')
        expect(f'{name}: its status and what is made', (front.end(), front.saved(), os.listdir(saves)), (0, 0, []))
    # a folder and a link in SAVE's place, and one in the place of SAVE.time
    (saves / 'demo.gbkeep').mkdir()
    front = Front(saves)
    front.obey(f'load {CART}', 'frames 00 70', 'unload')
    expect('a folder', (front.end(), front.told[0], os.listdir(saves / 'demo.gbkeep')), (0, ELSEWHERE, []))
    (saves / 'demo.gbkeep').rmdir()
    played(saves, [(0, 70)])
    before = (saves / 'demo.gbkeep').read_bytes()
    front = Front(saves)
    front.obey('link', f'load {CART}', 'frames 00 70', 'unload')
    expect('a link', (front.end(), front.told[0], front.saved(), (saves / 'demo.gbkeep').read_bytes() == before), (0, ELSEWHERE, 0, True))


def test_clock(room):
    """A cartridge with a clock: SAVE.time is written anew beside SAVE, also where the process is killed, and a damaged one stays as it is."""
    cart = clock_cart(room)
    save, times = room / 'clock.gbkeep', room / 'clock.gbkeep.time'
    began = int(time.time())
    expect('the first', played(room, [(0, 130)], cart)[0], 'resumed 0')
    words = times.read_text().split('\n')[0].split()
    expect(f'its time: {words}', began - 2 <= int(words[1]) <= time.time() + 2, True)
    for moment in (60, 80, 100, 104, 108, 112, 116, 120):
        front = Front(room)
        front.obey(f'kill {moment}', f'load {cart}', 'frames 00 130', 'wait 1200', 'frames 00 130', 'wait 1200', 'frames 00 70', 'unload')
        front.end()
        image = save.read_bytes()
        expect(f'moment {moment}', looked_at(image, Cartridge(cart.read_bytes()))[0] >= front.saved(), True)
        expect(f'moment {moment}: SAVE.time', all(len(line.split()) == 2 for line in times.read_text().splitlines()), True)
    times.write_bytes(b'mine')
    told = played(room, [(0, 130)], cart)
    expect('a file of another kind', ('The clock stands still: no SAVE.time can be written' in told, times.read_bytes()), (True, b'mine'))


def main():
    global program
    if len(sys.argv) < 2 or sys.argv[1].startswith('-'):
        sys.exit(__doc__)
    program = os.path.abspath(sys.argv[1])
    os.chdir(TOP)
    with tempfile.TemporaryDirectory(prefix='windows-') as folder:
        begin(Path(folder))
        try:
            run_tests('Windows', tests_in(globals()), lambda one: (one,), sys.argv[2:])
        finally:
            end()


if __name__ == '__main__':
    main()
