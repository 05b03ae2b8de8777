#!/usr/bin/env python3
"""Gives the libretro core garbage, under the sanitizers of addresses and of what C leaves undefined: wrong ROMs, SAVEs, states, files of time and battery, options
that no front end offers, calls in any order, and a disk that fails or stands still. The front end goes on, and soon.

usage: test_garbage.py [RUNS [SEED]]     the status is 1 at the first fault (default: 60 runs, seed 1)

It needs a C compiler with these sanitizers, libretro.h as the core does, and bin/libgbkeep.a."""
import os
import random
import subprocess
import sys
import tempfile
import threading
import time
from pathlib import Path

HERE = Path(__file__).resolve().parent
BIN = HERE.parent.parent / 'bin'
HEADERS = os.environ.get('LIBRETRO', '/usr/include/libretro-common')
COMPILER = os.environ.get('CC', 'cc')
# a session is taken up anew every few saves
FLAGS = ['-std=c11', '-g', '-O1', '-Wall', '-Wextra', '-Werror', '-fPIC', '-shared', '-fsanitize=address,undefined', '-fno-sanitize-recover=all',
         '-fno-omit-frame-pointer', '-DSLOW_MILLISECONDS=200', '-DSAVE_MILLISECONDS=1000', '-pthread', '-Wl,-z,nodelete']
# what a run may take on a busy computer
MOST_SECONDS = 30
WORDS = ['1', '2', '0', '-1', '1073741824', '2147483648', '4294967296', '18446744073709551616', '9' * 400, '', 'x', '1x', ' 1', '%n', '\x1b[2J', 'night', 'no',
         'yes']
TIMES = [b'', b'5 1000\n', b'18446744073709551615 99999999999\n', b'0 9223372036854775807\n', b'0 -9223372036854775808\n', b'-1 -1\n', b'9' * 5000,
         b'0 0\n' * 8, b'0 0\n' * 9, b'\xff\0', b'0 0', b'18446744073709551614 0\n18446744073709551615 1\n', b'60 1\n0 99999999999\n']


def build(folder):
    with open(folder / 'tables.h', 'w') as tables:
        subprocess.run([sys.executable, '-B', HERE / 'tables_h.py'], stdout=tables, check=True)
    core = folder / 'core.so'
    subprocess.run([COMPILER, *FLAGS, f'-I{folder}', f'-I{BIN}', f'-I{HEADERS}', f'-I{HERE}', '-o', core, *sorted(HERE.glob('*.c')), BIN / 'libgbkeep.a'],
                   check=True)
    return core


def library(name):
    return subprocess.run([COMPILER, f'-print-file-name={name}'], capture_output=True, text=True, check=True).stdout.strip()


def spoilt(rnd, data):
    """These bytes with some of them changed, cut or doubled."""
    data = bytearray(data)
    for _ in range(rnd.choice([0, 1, 1, 5])):
        data[rnd.randrange(len(data))] = rnd.randrange(256)
    return bytes(data) if rnd.random() < 0.8 else bytes(data[:rnd.randrange(len(data))]) + bytes(rnd.choice([0, 1, 512]))


def some_cart(rnd):
    """A ROM of some kind, a wrong one at times."""
    from gbkeep_tests.support import CART
    rom = bytearray(CART.read_bytes())
    rom[0x147], rom[0x149] = rnd.choice([(0, 0), (0x10, 3), (0x0f, 0), (0x06, 0), (0x1b, 2), (0x13, 3)])
    return bytes(rom) if rnd.random() < 0.9 else rnd.choice([b'', bytes(1000), spoilt(rnd, rom), spoilt(rnd, rom[:0x150]), bytes(0x800001)])


def move(rnd, front, states):
    """A call that a front end may make, or one that none should."""
    chance = rnd.random()
    if chance < 0.6:
        front.wanted = rnd.choice([3, 3, 3, 1, 4, 0, None])
        front.frames(rnd.randrange(256), rnd.choice([1, 5, 30, 70]))
    elif chance < 0.7:
        states.append(front.state())
    elif chance < 0.85:
        state = rnd.choice(states) or b''
        front.restore(state if rnd.random() < 0.5 or not state else rnd.choice([spoilt(rnd, state), state[:-16] + rnd.randbytes(16), rnd.randbytes(len(state)), b'']))
    elif chance < 0.9:
        front.core.retro_reset()
    elif chance < 0.95:
        front.memory()
        for name in range(5):
            front.core.retro_get_memory_size(name), front.core.retro_get_memory_data(name)
    else:
        front.core.retro_cheat_set(0, True, b'00A1-B2C3')
        front.core.retro_cheat_reset()


def one_run(core, room, seed):
    from test_libretro import FrontEnd
    rnd, folder = random.Random(seed), room / f'game-{seed}'
    folder.mkdir()
    save, cart, held = folder / 'x.gbkeep', room / 'x.gb', room / 'held'
    cart.write_bytes(some_cart(rnd))
    os.environ['FAIL_EACH'] = str(rnd.choice([0, 0, 0, 2, 30, 500]))
    # a SAVE that was played, which is spoilt at times
    if rnd.random() < 0.5:
        front = FrontEnd(core, folder)
        front.looks = False
        front.load(cart)
        front.frames(3, rnd.choice([1, 100]))
        front.unload()
        if save.exists() and save.stat().st_size and rnd.random() < 0.5:
            save.write_bytes(spoilt(rnd, save.read_bytes()))
    elif rnd.random() < 0.4:
        save.write_bytes(rnd.choice([b'', b'x', bytes(512 * 300), rnd.randbytes(5120), b'GBKPROOT' + bytes(504), rnd.randbytes(1000)]))
    elif rnd.random() < 0.2:
        rnd.choice([lambda: os.mkfifo(save), save.mkdir, lambda: save.symlink_to('/dev/zero'), lambda: save.symlink_to('nowhere'), lambda: save.symlink_to(save)])()
    time_file = folder / 'x.gbkeep.time'
    time_file.unlink(missing_ok=True)
    if rnd.random() < 0.7:
        time_file.write_bytes(rnd.choice(TIMES) if rnd.random() < 0.8 else rnd.randbytes(rnd.randrange(700)))
    elif rnd.random() < 0.3:
        rnd.choice([lambda: os.mkfifo(time_file), time_file.mkdir, lambda: time_file.symlink_to('/dev/zero'), lambda: time_file.symlink_to('nowhere'),
                    lambda: time_file.symlink_to(time_file)])()
    if rnd.random() < 0.3:
        battery = folder / rnd.choice(['x.srm', 'x.sav'])
        rnd.choice([lambda: battery.write_bytes(rnd.randbytes(rnd.choice([0, 5, 512, 2048, 8192, 8240, 32768, 1 << 20])))] * 6
                   + [lambda: os.mkfifo(battery), battery.mkdir, lambda: battery.symlink_to('/dev/zero'), lambda: battery.symlink_to(battery)])()
    options = {option: rnd.choice(WORDS) for option in ('palette', 'save_seconds', 'time_away', 'messages', 'import', 'export')}
    front, states = FrontEnd(core, folder, **options), [None]
    front.looks = False
    # a front end may ask before anything is loaded
    move(rnd, front, states) if rnd.random() < 0.2 else None
    for _ in range(rnd.choice([1, 1, 2])):
        front.load(room / rnd.choice(['x.gb'] * 6 + ['nothing', 'x', '.gb', 'y' * 250 + '.gb', 'x.gb/' + 'y' * 4500]))
        for _ in range(rnd.choice([1, 5, 20])):
            if rnd.random() < 0.02:
                held.write_text('')
                timer = threading.Timer(rnd.choice([0.3, 2]), held.unlink)
                timer.start()
            move(rnd, front, states)
            if held.exists() and rnd.random() < 0.5:
                time.sleep(0.3)
            if rnd.random() < 0.02 and save.is_file():
                rnd.choice([save.unlink, lambda: os.truncate(save, 700)])()
    if rnd.random() < 0.9:
        front.unload()
        move(rnd, front, states)
    while held.exists():
        time.sleep(0.01)


def runs(core, room, first, last):
    for seed in range(first, last):
        began = time.monotonic()
        print(f'seed {seed}', flush=True)
        one_run(core, Path(room), seed)
        if time.monotonic() - began > MOST_SECONDS:
            sys.exit(f'seed {seed}: {time.monotonic() - began:.1f} seconds')


def stuck(core, room):
    """A disk that does not answer for longer than a save may take: the game ends, and SAVE stays locked until the disk answers; then it is as it was told."""
    from gbkeep_tests.support import CART, expect
    from test_libretro import FrontEnd
    folder, held = Path(room) / 'stuck', Path(room) / 'held'
    folder.mkdir()
    os.environ['FAIL_EACH'] = '0'
    front = FrontEnd(core, folder, messages='all')
    front.load(CART)
    front.frames(0, 30)
    held.write_text('')
    while front.told[-1] != 'the disk does not answer; what was saved stays saved':
        front.frames(0, 40)
        time.sleep(0.05)
    # frames that are run behind the end tell it again
    expect('what is told', list(dict.fromkeys(text.split(':')[0] for text in front.told)), ['resumed 0', 'The disk is slow', 'the disk does not answer; what was saved stays saved'])
    expect('no states', (front.state(), front.core.retro_serialize_size()), (None, 0))
    again = FrontEnd(core, folder, messages='all')
    again.load(CART)
    expect('it is still open', again.told, ["SAVE is open elsewhere, or can't be read or written"])
    again.unload()
    held.unlink()
    time.sleep(1)
    again.load(CART)
    again.frames(0, 30)
    again.unload()
    # the call that was being made may have been made; no other one was
    told = [int(text.split()[1]) for text in again.told[1:]]
    expect('it goes on', (told[0] in (0, 60), told[-1] - told[0]), (True, 30))


def main():
    words = sys.argv[1:]
    if len(words) == 5 and words[0] == 'runs':
        stuck(words[1], words[2])
        return runs(words[1], words[2], int(words[3]), int(words[4]))
    count, first = (int(word) for word in [*words, 60, 1][:2]) if len(words) != 1 else (int(words[0]), 1)
    from test_libretro import disk
    with tempfile.TemporaryDirectory(prefix='garbage-') as folder:
        room = Path(folder)
        core = build(room)
        env = dict(os.environ, LD_PRELOAD=f'{library("libasan.so")}:{library("libubsan.so")}:{disk(room)}', ASAN_OPTIONS='detect_leaks=0',
                   UBSAN_OPTIONS='print_stacktrace=1', HOLD=str(room / 'held'))
        done = subprocess.run([sys.executable, '-B', __file__, 'runs', core, room, str(first), str(first + count)], env=env, capture_output=True, text=True,
                              errors='replace')
        if done.returncode != 0:
            sys.exit(f'{done.stdout[-200:]}{done.stderr[-6000:]}status {done.returncode}')
    print(f'libretro core: {count} runs of garbage')


if __name__ == '__main__':
    main()
