"""Plays while each sync takes 300 ms, as on a worn SD card: by the libretro core, and in the window. Each frame comes in time, saves go on, and none is told
before its sync was made.

usage: test_slow_disk.py GBKEEP [core|window]
       test_slow_disk.py play CORE CART FOLDER SECONDS AHEAD     (for the test itself)

It needs a C compiler; for the core, bin/gbkeep_libretro.so; for the window what test_window.py needs. The status is 1 where something comes late or early."""
import json
import os
import re
import subprocess
import sys
import tempfile
import time
from pathlib import Path

from gbkeep_tests import window_driver
from gbkeep_tests.support import CART, TOP, clock_cart, expect

CORE = TOP / 'bin/gbkeep_libretro.so'
FRAMES_A_SECOND, SECONDS = 4194304 / 70224, 12
# a frame that comes later than this is seen
LATE = 0.1
SLOW = r'''
#define _GNU_SOURCE
#include <dlfcn.h>
#include <fcntl.h>
#include <stdio.h>
#include <stdlib.h>
#include <time.h>
#include <unistd.h>
/* SLOW_LOG gets a line for each sync that is made: the process, and when it was made */
static int slowly(const char *name, int file) {
    struct timespec wait = {0, 300000000}, now;
    int (*real)(int) = (int (*)(int))dlsym(RTLD_NEXT, name);
    nanosleep(&wait, NULL);
    int status = real(file), log = open(getenv("SLOW_LOG"), O_WRONLY | O_APPEND | O_CLOEXEC);
    char line[100];
    clock_gettime(CLOCK_MONOTONIC, &now);
    int size = snprintf(line, sizeof line, "%d %lld.%09ld\n", getpid(), (long long)now.tv_sec, now.tv_nsec);
    if (log < 0 || write(log, line, (size_t)size) != size)
        abort();
    close(log);
    return status;
}
int fsync(int file) { return slowly("fsync", file); }
int fdatasync(int file) { return slowly("fdatasync", file); }
'''


def slowed(room):
    """What the environment of a slowed program has more, and the file that gets its syncs."""
    source, library, log = room / 'slow.c', room / 'slow.so', room / 'syncs'
    source.write_text(SLOW)
    subprocess.run([os.environ.get('CC', 'cc'), '-shared', '-fPIC', '-O2', '-o', library, source, '-ldl'], check=True)
    log.write_text('')
    return dict(os.environ, LD_PRELOAD=str(library), SLOW_LOG=str(log)), log


def play(core, cart, folder, seconds, ahead):
    """Plays by the core at a Game Boy's speed, so many frames ahead and back, and prints what came when."""
    from players.libretro.test_libretro import UNWANTED, WANTED, FrontEnd
    front = FrontEnd(core, folder, messages='all')
    front.load(cart)
    front.looks = False
    told, longest, late = [], 0, 0
    shown, begun = len(front.told), time.monotonic()
    frames = 0
    while time.monotonic() < begun + float(seconds):
        before, buttons = time.monotonic(), frames // 30 & 1
        if int(ahead) == 0:
            front.frames(buttons, 1)
        else:
            front.wanted = UNWANTED
            front.frames(buttons, 1)
            state = front.state()
            front.frames(buttons, int(ahead) - 1)
            front.wanted = WANTED
            front.frames(buttons, 1)
            front.restore(state)
        frames += 1
        longest = max(longest, time.monotonic() - before)
        late += time.monotonic() > begun + (frames + 1) / FRAMES_A_SECOND
        told += [(time.monotonic(), text) for text in front.told[shown:]]
        shown = len(front.told)
        time.sleep(max(0, begun + frames / FRAMES_A_SECOND - time.monotonic()))
    ended = time.monotonic()
    front.unload()
    print(json.dumps({'frames': frames, 'seconds': ended - begun, 'longest': longest, 'late': late, 'told': told, 'begun': begun, 'after': front.told[-1]}))


def with_core(program, room):
    clock = clock_cart(room)
    for cart, ahead in ((CART, 0), (clock, 0), (CART, 2)):
        env, log = slowed(room)
        folder = room / f'core-{cart.stem}-{ahead}'
        folder.mkdir()
        done = subprocess.run([sys.executable, '-B', __file__, 'play', CORE, cart, folder, str(SECONDS), str(ahead)], env=dict(env, GBKEEP=program), capture_output=True,
                              text=True)
        if done.returncode != 0:
            sys.exit(done.stdout + done.stderr)
        got = json.loads(done.stdout)
        rate = got['frames'] / got['seconds']
        saves = [when for when, text in got['told'] if text.startswith('saved ')]
        print(f'core, {cart.stem}{f", {ahead} frames ahead" if ahead else ""}: {rate:.1f} frames a second, {got["late"]} of {got["frames"]} more than a frame late, the longest {got["longest"] * 1000:.0f} ms; '
              f'{len(saves)} saves in {got["seconds"]:.0f} s', flush=True)
        expect('the pace', (abs(rate - FRAMES_A_SECOND) < 0.5, got['longest'] < LATE), (True, True))
        # one save a second, and a clock takes four syncs more
        expect('saves', len(saves) >= (SECONDS - 2) // (1 if cart == CART else 3), True)
        if cart == CART:
            syncs = [float(line.split()[1]) for line in log.read_text().splitlines() if float(line.split()[1]) > got['begun']]
            expect('no save is told before its sync', [(number, told) for number, told in enumerate(saves) if len([one for one in syncs if one <= told]) <= number], [])
        expect('the last one', got['after'].startswith('saved '), True)


def with_window(program, room):
    from gbkeep.desktop.preferences import HEAD
    screen = window_driver.Screen(room)
    clock = clock_cart(room)
    chosen = room / 'config/gbkeep/window'
    chosen.parent.mkdir(parents=True)
    chosen.write_bytes(HEAD + json.dumps({'shows_counter': True}).encode())
    try:
        for cart in (CART, clock):
            env, log = slowed(room)
            normal, screen.env = screen.env, dict(screen.env, **{name: env[name] for name in ('LD_PRELOAD', 'SLOW_LOG')})
            player = window_driver.Player(screen, program, cart, room / f'window-{cart.stem}.gbkeep')
            screen.env = normal
            player.until('^saved')
            time.sleep(3)
            begun, first, rates, unsaved, syncs = time.monotonic(), player.frame_count(), [], [], len(log.read_text().splitlines())
            while time.monotonic() < begun + SECONDS:
                said = ' '.join(player.texts())
                rates += [int(rate) for rate in re.findall(r'(\d+)%, frame', said)]
                unsaved += [int(seconds) for seconds in re.findall(r'saved (?:for )?(\d+) s', said)]
                time.sleep(0.1)
            mean = (player.frame_count() - first) / (time.monotonic() - begun)
            print(f'window, {cart.stem}: {mean:.1f} frames a second, {min(rates)} to {max(rates)} % in a second; at most {max(unsaved, default=0)} s were unsaved', flush=True)
            expect('the pace', (abs(mean - FRAMES_A_SECOND) < 1, min(rates) >= 94), (True, True))
            expect('saves', (max(unsaved, default=0) <= 4, len(log.read_text().splitlines()) - syncs >= (SECONDS - 2) // 2), (True, True))
            player.process.terminate()
            player.ended(0)
    finally:
        screen.end()


def main():
    words = sys.argv[1:]
    if len(words) == 6 and words[0] == 'play':
        return play(*words[1:])
    if not 1 <= len(words) <= 2:
        sys.exit(__doc__)
    program = os.path.abspath(words[0])
    if words[1:] in ([], ['window']):
        window_driver.needs()
    with tempfile.TemporaryDirectory(prefix='slow-') as folder:
        for name, test in (('core', with_core), ('window', with_window)):
            if words[1:] in ([], [name]):
                (Path(folder) / name).mkdir()
                test(program, Path(folder) / name)


if __name__ == '__main__':
    main()
