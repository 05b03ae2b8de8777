"""Runs the program for aarch64 by qemu: the tests of the built program, of players' tools and of testers' tools, damaged files, comparisons with the second
machine, and games that go from one processor to the other.

usage: test_arm64.py GBKEEP FOLDER [SECONDS]     GBKEEP: the program for this computer; FOLDER: bin/arm64; SECONDS a kind, where a test has kinds (20)

It needs Debian's qemu-user-static, gcc-aarch64-linux-gnu and libc6-dev-arm64-cross; what a frame costs is counted where qemu-user is there, too."""
import os
import random
import re
import shutil
import subprocess
import sys
import tempfile
import time
from pathlib import Path

import target
from gbkeep_tests.support import TOP as ROOT, clock_cart, expect

EMULATOR, LIBRARIES = 'qemu-aarch64-static', '/usr/aarch64-linux-gnu'
DEMO = ROOT / 'examples/demo/demo.gb'
# what an aarch64 program takes from the C library beyond the other: the heap, and its own start
OF_ITS_OWN = {'malloc', 'realloc', 'free', '__libc_start_main'}
LINES = 60
# a time of day, in seconds since 1970
TIME = 1_700_000_000
# the kinds of hostile.py; not those that look at system calls, which are qemu's here, or at a folder in which there is no qemu
KINDS = ('saves', 'scripts', 'bytes', 'kills', 'holds', 'places', 'pipes', 'shrinks', 'names', 'streams', 'recordings', 'batteries', 'debugs')


def wrapped(program, path):
    """A file that runs the program by qemu."""
    path.write_text(f"#!/bin/sh\nexec {EMULATOR} -L {LIBRARIES} {program} \"$@\"\n")
    path.chmod(0o755)
    return path


def run_suite(gbkeep, *words):
    began = time.monotonic()
    done = subprocess.run([sys.executable, '-B', *(str(gbkeep) if word == 'GBKEEP' else str(word) for word in words)], cwd=ROOT, env=dict(os.environ, GBKEEP_EMULATED='1'), stdout=subprocess.PIPE,
                          stderr=subprocess.STDOUT, text=True, errors='replace')
    lines = done.stdout.strip().splitlines()
    print(f'{words[0]}: {lines[-1] if lines else "nothing said"} ({time.monotonic() - began:.0f} s)', flush=True)
    if done.returncode != 0:
        sys.exit(f'{done.stdout[-6000:]}\n{words[0]} ended with status {done.returncode}')


def test_proof(gbkeep, folder):
    """The proof is of this processor, and the program asks for nothing that the other does not."""
    expect('the proof', target.is_proof((folder / 'PROVED').read_text()), True)
    of_the_other = {one[1] for one in re.finditer(r'\*UND\*.*\s(\S+)$', subprocess.run(['objdump', '-T', gbkeep], capture_output=True, text=True, check=True).stdout, re.M)}
    expect('names of the C library', set(target.needed(folder / 'gbkeep')) - OF_ITS_OWN - of_the_other, set())
    head = subprocess.run([target.tool('readelf'), '-h', '-d', folder / 'gbkeep-static'], capture_output=True, text=True, check=True).stdout
    expect('the static program', ('AArch64' in head, 'NEEDED' in head), (True, False))


def script(random_of, has_clock):
    """Some lines of a script."""
    lines = []
    for _ in range(random_of.randrange(1, LINES)):
        lines.append(random_of.choice([f'frame {random_of.randrange(256):02x}', f'frames {random_of.randrange(256):02x} {random_of.randrange(1, 200)}', 'save',
                                       f'seconds {random_of.randrange(100_000)}' if has_clock else 'frames 00 3']))
    return '\n'.join(lines) + '\n'


def both(gbkeep, other, folder, *words):
    """The same answer from both, each in a copy of the folder, since a game that is taken up gets a checkpoint."""
    got = []
    for program in (gbkeep, other):
        with tempfile.TemporaryDirectory(prefix='arm64-') as place:
            shutil.copytree(folder, place, dirs_exist_ok=True)
            got.append(subprocess.run([str(program), *map(str, words)], cwd=place, capture_output=True))
    expect(' '.join(map(str, words)), (got[1].returncode, got[1].stdout, got[1].stderr), (got[0].returncode, got[0].stdout, got[0].stderr))


def test_games(gbkeep, others, room, seconds):
    """Games that go from one processor to the other at each step, beside one that stays here: each byte of their files is the same."""
    clock = clock_cart(room)
    random_of, until, steps = random.Random(1), time.monotonic() + seconds, 0
    while time.monotonic() < until or steps < 20:
        cart, has_clock = random_of.choice([(DEMO, False), (clock, True)])
        folder = room / f'games-{steps}'
        (folder / 'stays').mkdir(parents=True)
        (folder / 'goes').mkdir()
        is_recorded = random_of.random() < 0.5
        files = ['game.gbkeep', *(['run.rec'] if is_recorded else [])]
        commands = [('new', cart, 'game.gbkeep'), *([('new-recording', cart, 'run.rec', 100)] if is_recorded else [])]
        for _ in range(random_of.randrange(1, 6)):
            (folder / 'text').write_text(script(random_of, has_clock))
            text = (folder / 'text').read_bytes()
            commands = [*commands, ('record', cart, 'game.gbkeep', 'run.rec') if is_recorded else ('stream', cart, 'game.gbkeep')]
            for command in commands:
                programs = {'stays': gbkeep, 'goes': random_of.choice([gbkeep, *others])}
                got = {name: subprocess.run([str(program), *map(str, command)], cwd=folder / name, input=text, capture_output=True) for name, program in programs.items()}
                expect(f'{steps}: {command[0]}', (got['goes'].returncode, got['goes'].stdout, got['goes'].stderr), (0, got['stays'].stdout, got['stays'].stderr))
                for file in files:
                    if (folder / 'stays' / file).exists():
                        expect(f'{steps}: {file} after {command[0]}', (folder / 'goes' / file).read_bytes() == (folder / 'stays' / file).read_bytes(), True)
            commands = []
            for words in (('show', cart, 'game.gbkeep'), ('trace', cart, 'game.gbkeep', 200), *([('verify', cart, 'game.gbkeep', 'run.rec')] if is_recorded else [])):
                both(gbkeep, others[0], folder / 'goes', *words)
            steps += 1
        # a battery file of one is taken by the other
        for number, program in enumerate((gbkeep, *others)):
            subprocess.run([program, 'export', cart, 'game.gbkeep', f'battery-{number}'], cwd=folder / 'goes', capture_output=True, check=has_clock)
            if has_clock:
                expect('a battery file', (folder / f'goes/battery-{number}').read_bytes() == (folder / 'goes/battery-0').read_bytes(), True)
                subprocess.run([program, 'import', cart, 'battery-0', f'imported-{number}'], cwd=folder / 'goes', capture_output=True, check=True)
                expect('an imported game', (folder / f'goes/imported-{number}').read_bytes() == (folder / 'goes/imported-0').read_bytes(), True)
        shutil.rmtree(folder)
    print(f'games that go from one processor to the other: {steps} steps', flush=True)


def test_core(gbkeep, folder, program, room):
    """The libretro core for aarch64, by a small front end: its pictures and its SAVE are those of the core for this computer."""
    cores = {'here': ROOT / 'bin/gbkeep_libretro.so', 'there': folder / 'gbkeep_libretro.so'}
    headers = os.environ.get('LIBRETRO') or '/usr/include/libretro-common'
    if not all(core.exists() for core in cores.values()) or not os.path.exists(f'{headers}/libretro.h'):
        print('the core was not tried: that needs make libretro, make libretro ARCH=arm64 and retroarch-dev')
        return
    clock, told = clock_cart(room), {}
    for name, compiler, before, used in (('here', os.environ.get('CC', 'cc'), [], gbkeep), ('there', target.compiler(), [EMULATOR, '-L', LIBRARIES], program)):
        front, saves = room / f'front-{name}', room / f'saves-{name}'
        saves.mkdir()
        subprocess.run([compiler, '-std=gnu11', '-O1', '-Wall', '-Wextra', '-rdynamic', f'-I{headers}', '-o', front, ROOT / 'scripts/arm64/front_end.c', '-ldl'], check=True)
        for cart, seconds in ((DEMO, TIME), (clock, TIME), (DEMO, TIME), (clock, TIME + 100_000)):
            done = subprocess.run([*before, front, cores[name], cart, saves, '200', str(seconds)], env=dict(os.environ, GBKEEP=str(used)), capture_output=True, text=True)
            expect(f'the core {name}', done.returncode, 0)
            told.setdefault(name, []).append(done.stdout)
        with_count = subprocess.run([gbkeep, 'frame', DEMO, saves / 'demo.gbkeep', room / f'{name}.pgm'], capture_output=True, text=True, check=True).stdout
        told[name] += [with_count, (room / f'{name}.pgm').read_text()]
    expect('what the core shows and keeps', told['there'], told['here'])
    expect('its clock', told['there'][1] == told['there'][3], False)
    expect('its inputs', told['there'][4], 'resumed 400\n')
    print('the core: the same pictures and the same game', flush=True)


def main():
    if not 3 <= len(sys.argv) <= 4:
        sys.exit(__doc__)
    gbkeep, folder, seconds = Path(sys.argv[1]).resolve(), Path(sys.argv[2]).resolve(), sys.argv[3] if len(sys.argv) > 3 else '20'
    if not shutil.which(EMULATOR):
        sys.exit(f'test_arm64.py: {EMULATOR} is missing: install qemu-user-static')
    target.compiler()
    test_proof(gbkeep, folder)
    with tempfile.TemporaryDirectory(prefix='arm64-') as place:
        room = Path(place)
        dynamic, static = wrapped(folder / 'gbkeep', room / 'gbkeep'), wrapped(folder / 'gbkeep-static', room / 'gbkeep-static')
        test_games(gbkeep, [dynamic, static], room, float(seconds))
        test_core(gbkeep, folder, static, room)
        run_suite(dynamic, 'scripts/program_tests/run.py', 'GBKEEP')
        run_suite(static, 'scripts/program_tests/run.py', 'GBKEEP')
        run_suite(static, 'python/gbkeep_tests/test_players.py', 'GBKEEP')
        run_suite(static, 'python/gbkeep_tests/test_run_tests.py', 'GBKEEP')
        run_suite(static, 'python/gbkeep_tests/test_debug.py', 'GBKEEP')
        for kind in KINDS:
            run_suite(static, 'scripts/second_storage/hostile.py', 'GBKEEP', kind, seconds, '1')
        run_suite(static, 'scripts/second_machine/compare.py', 'GBKEEP', seconds)
    if shutil.which('qemu-aarch64'):
        run_suite(gbkeep, 'scripts/arm64/instructions.py', 'GBKEEP', folder / 'gbkeep')
    else:
        print('what a frame costs was not counted: that needs qemu-user')


if __name__ == '__main__':
    main()
