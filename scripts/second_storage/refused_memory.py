"""Refuses each allocation in turn: those of gbkeep's commands on real files, and those of the calls that refused_memory makes.

usage: refused_memory.py GBKEEP [CALLS]    CALLS is the built crate refused_memory

Each command is run with its first allocation refused, then with its second, and so on, until a run asks for fewer. It may then
answer only a line of its own for want of memory, and the game in SAVE is as it was or has what was told. The status is 1 where
anything differs. What refuses is a library that is loaded before the C library, made here by the C compiler; where there is none,
nothing is tried."""
import os, shutil, subprocess, sys, tempfile
import recordings
from gbkeep import save_files as ref
from gbkeep.save_files import get, put
from scripts.doctor import compiler, tries

ROOM = tempfile.mkdtemp(prefix='refused-')
CART, SAVE, NEW, SCRIPT, OUT, TOLD = (os.path.join(ROOM, name) for name in ('rom.gb', 'game.gbkeep', 'new.gbkeep', 'moves.script', 'out.pgm', 'told'))
PAIR, RECORDING = os.path.join(ROOM, 'pair.gbkeep'), os.path.join(ROOM, 'pair.recording')     # a game and its recording
BATTERY = os.path.join(ROOM, 'game.battery')
# The count is of requests of the program, after the library is loaded. TOLD is made where one was refused.
SOURCE = r'''
#define _GNU_SOURCE
#include <dlfcn.h>
#include <fcntl.h>
#include <stdlib.h>
#include <unistd.h>
static long wanted = -1, asked;
static void *(*real_malloc)(size_t);
static void *(*real_realloc)(void *, size_t);
__attribute__((constructor)) static void begin(void) {
    real_malloc = dlsym(RTLD_NEXT, "malloc");
    real_realloc = dlsym(RTLD_NEXT, "realloc");
    const char *text = getenv("REFUSE");
    wanted = text ? atol(text) : 0;
}
static int refused(void) {
    if (wanted < 0 || ++asked != wanted)
        return 0;
    close(open(getenv("TOLD"), O_CREAT | O_WRONLY, 0644));
    return 1;
}
void *malloc(size_t size) {
    if (!real_malloc)
        real_malloc = dlsym(RTLD_NEXT, "malloc");
    return refused() ? 0 : real_malloc(size);
}
void *realloc(void *old, size_t size) {
    if (!real_realloc)
        real_realloc = dlsym(RTLD_NEXT, "realloc");
    return refused() ? 0 : real_realloc(old, size);
}
'''
LINES = b'frames 01 2\nsave\npicture\nseconds 3\nsave\nframe 02\n'     # what a stream reads
# what a debugger reads: `power`, `profile` and the first `keep` of a number take memory, and the answers before that line have gone out
DEBUGGED = LINES + b'keep 1\nkeep 999\nkeep 1\nback 999\npower\nprofile 9\nregisters\n'
differences = 0


def differs(what):
    global differences
    differences += 1
    print('DIFFERS ' + what, flush=True)


def library():
    """The library that refuses, or None."""
    if not tries('refused allocations', 'cc'):
        return None
    source, made = os.path.join(ROOM, 'refuse.c'), os.path.join(ROOM, 'refuse.so')
    put(source, SOURCE.encode())
    subprocess.run([*compiler(), '-shared', '-fPIC', '-O1', '-o', made, source, '-ldl'], check=True)
    return made


def refusing(loaded, words, number):
    """Status, output and errors of a run, and whether its allocation of that number was refused."""
    if os.path.exists(TOLD):
        os.remove(TOLD)
    how = {'LD_PRELOAD': loaded, 'REFUSE': str(number), 'TOLD': TOLD}
    done = subprocess.run(words, capture_output=True, timeout=10, env=how, input=DEBUGGED if 'debug' in words else LINES)
    return (done.returncode, done.stdout, done.stderr), os.path.exists(TOLD)


def rom():
    """A cartridge with a clock and RAM, that loops."""
    image = bytearray(32768)
    image[0x100:0x102] = b'\x18\xfe'
    image[0x147], image[0x149] = 0x10, 2
    return bytes(image)


def count_of(image, cart):
    game = ref.Game(image, cart)
    game.resume()
    return game.count


def commands(gbkeep, loaded):
    cart = ref.Cartridge(rom())
    put(CART, rom())
    put(SCRIPT, b'frames 01 2\nsave\nseconds 3\nsave\npower\nframe 02\n')
    put(BATTERY, bytes(8192 + 48))
    subprocess.run([gbkeep, 'new', CART, SAVE, '188'], check=True, capture_output=True)
    subprocess.run([gbkeep, 'play', CART, SAVE, SCRIPT], check=True, capture_output=True)
    subprocess.run([gbkeep, 'new', CART, PAIR, '188'], check=True, capture_output=True)
    subprocess.run([gbkeep, 'new-recording', CART, RECORDING, '4'], check=True, capture_output=True)
    subprocess.run([gbkeep, 'record', CART, PAIR, RECORDING], check=True, capture_output=True, input=LINES)
    kept = {path: get(path) for path in (SAVE, PAIR, RECORDING)}
    for words in (['--help'], ['info', CART], ['list', CART, '100', '9'], ['step', CART, '9'], ['new', CART, NEW, '188'],
                  ['play', CART, SAVE, SCRIPT], ['frame', CART, SAVE, OUT], ['stream', CART, SAVE], ['trace', CART, SAVE, '9'],
                  ['new-recording', CART, NEW, '3'], ['record', CART, PAIR, RECORDING], ['recorded', CART, RECORDING], ['verify', CART, PAIR, RECORDING],
                  ['show', CART, SAVE], ['export', CART, SAVE, NEW], ['import', CART, BATTERY, NEW, '188'], ['debug', CART], ['debug', CART, SAVE]):
        whole, answers, number = None, {}, 0
        save = PAIR if PAIR in words else SAVE
        before = count_of(kept[save], cart)
        for number in range(0, 100000):
            for path, image in kept.items():
                put(path, image)
            if os.path.exists(NEW):
                os.remove(NEW)
            got, is_refused = refusing(loaded, [gbkeep] + words, number)
            whole = whole or got
            told = [int(one.split()[1]) for one in got[1].split(b'\n')[:-1] if one.startswith((b'resumed', b'saved'))]
            count = count_of(get(save), cart)
            if len(recordings.Recording(get(RECORDING), cart).inputs) < count_of(get(PAIR), cart):
                differs('%s, allocation %d: the recording is behind' % (words[0], number))
            if not max([before] + told) <= count <= before + 5:
                differs('%s, allocation %d: %d inputs, %d told' % (words[0], number, count, max([before] + told)))
            if number and not is_refused:
                break
            answers[got[2]] = answers.get(got[2], 0) + 1
            is_told = got[0] == 1 and whole[1].startswith(got[1]) and got[2] in (b'gbkeep: no memory\n', b'gbkeep: device failed\n')
            if number and got != whole and not is_told:
                differs('%s, allocation %d: %r' % (words[0], number, got))
        if got != whole or whole[0] != 0:
            differs('%s: %r' % (words[0], got))
        answers[b''] = answers.get(b'', 0) - 1      # the run with none refused
        print('%s: %d allocations; %s' % (words[0], number - 1, ', '.join('%d %s' % (many, text.decode().strip() or 'passed') for text, many in sorted(answers.items()) if many)), flush=True)


def calls(program, loaded):
    names = subprocess.run([program], check=True, capture_output=True).stdout.decode().split()
    for name in names:
        seen = {}
        for number in range(1, 100000):
            got, is_refused = refusing(loaded, [program, name], number)
            answer = got[1].decode().strip()
            if not is_refused:
                if got != (0, b'done\n', b''):
                    differs('%s with its memory: %r' % (name, got))
                break
            if got[0] != 0 or got[2] or answer not in ('unready', 'refused'):
                differs('%s, allocation %d: %r' % (name, number, got))
            seen[answer] = seen.get(answer, 0) + 1
        if not seen.get('refused'):
            differs('%s: none of its allocations was refused' % name)
        print('%s: %s' % (name, ', '.join('%d %s' % (many, text) for text, many in sorted(seen.items()))), flush=True)


def main(words):
    if len(words) not in (1, 2):
        print(__doc__)
        return 2
    loaded = library()
    if loaded is None:
        return 0
    commands(os.path.abspath(words[0]), loaded)
    if len(words) == 2:
        calls(os.path.abspath(words[1]), loaded)
    return 1 if differences else 0


if __name__ == '__main__':
    try:
        sys.exit(main(sys.argv[1:]))
    finally:
        shutil.rmtree(ROOM)
