#!/usr/bin/env python3
"""Tries the libretro core, as a front end: pictures, saves, states, the power switch, palettes, the clock, and a disk that is slow, fails, or is cut off at each
call; the program goes on with each game.

usage: test_libretro.py GBKEEP CORE         the status is 1 at the first difference
       test_libretro.py play CORE CART FOLDER FRAMES     plays so many frames, and prints what the core tells (for the test itself)
       test_libretro.py streams CORE CART FOLDER TOLD    plays, logs to the numbers of the standard streams, and leaves what it was told in TOLD (the same)

It needs a C compiler, for what stands between the core and the disk, and bin/libgbkeep.so."""
import contextlib
import ctypes
import hashlib
import random
import re
import os
import shutil
import signal
import subprocess
import stat
import sys
import tempfile
import threading
import time
from concurrent.futures import ThreadPoolExecutor
from pathlib import Path

from examples.demo.assemble import Assembler
from gbkeep import A, RIGHT, START, Game, Machine
from gbkeep.game import run
from gbkeep.palettes import NAMES, PALETTES
from gbkeep.save_files import root_of
from gbkeep_tests.support import CART, CLOCK, DAY, expect, seconds_shown
from scripts.doctor import tries

WIDTH, HEIGHT = 160, 144
# a pixel of each shade, by the name of a palette
COLOURS = {name: [int.from_bytes(colour, 'big') for colour in palette] for name, palette in zip(NAMES, PALETTES)}
SET_MESSAGE, GET_SAVE_DIRECTORY, SET_PIXEL_FORMAT, GET_VARIABLE, SET_VARIABLES, GET_VARIABLE_UPDATE, GET_LOG = 6, 31, 10, 15, 16, 17, 27
GET_OPTIONS_VERSION, SET_OPTIONS_V2 = 52, 67
SET_MEMORY_MAPS, GET_AUDIO_VIDEO_ENABLE = 36 | 0x10000, 47 | 0x10000
# what the front end wants of a frame: all, or nothing as it runs ahead; of the second instance by which it does so the picture, and no sound ever
WANTED, UNWANTED, AHEAD = 3, 4, 13
SYSTEM_RAM, SAVE_RAM = 2, 0
# what a state has in front of the snapshot, and one of the front end's behind it: the clock's time, and the number of a frame
HEADER, TIME, MORE = 40, 8, 16
# what a line on the screen may have
MOST_SHOWN = 64
TWICE = 'This game is open twice: nothing that is played here is saved'
STILL = 'The clock stands still: no SAVE.time can be written'
# a user that is nobody's, and whom root can be
USER = 65534
# Stands between the core and the disk. KILL_AT: ends the process before the n-th call; FAIL_AT: that one fails; FAIL_EACH: so does each n-th; HOLD: syncs wait
# while this file is there; DISK_LOG: gets a line for each call.
DISK = r'''
#define _GNU_SOURCE
#include <dlfcn.h>
#include <errno.h>
#include <fcntl.h>
#include <signal.h>
#include <stdio.h>
#include <stdlib.h>
#include <unistd.h>
static int number_of(const char *name) { return getenv(name) ? atoi(getenv(name)) : -1; }
static _Atomic int calls;
static int fails(const char *what) {
    char line[64];
    int size = snprintf(line, sizeof line, "%s\n", what), number = calls++;
    int log = getenv("DISK_LOG") ? open(getenv("DISK_LOG"), O_WRONLY | O_APPEND | O_CREAT | O_CLOEXEC, 0666) : -1;
    if (log >= 0 && write(log, line, (size_t)size) != size)
        abort();
    close(log);
    if (number == number_of("KILL_AT"))
        kill(getpid(), SIGKILL);
    if (number != number_of("FAIL_AT") && (number_of("FAIL_EACH") <= 0 || number % number_of("FAIL_EACH") != 0))
        return 0;
    errno = EIO;
    return 1;
}
static void hold(void) {
    while (getenv("HOLD") && access(getenv("HOLD"), F_OK) == 0)
        usleep(1000);
}
#define REAL(name) ((__typeof__(&name))dlsym(RTLD_NEXT, #name))
ssize_t pwrite(int file, const void *bytes, size_t size, off_t at) { return fails("write") ? -1 : REAL(pwrite)(file, bytes, size, at); }
int fdatasync(int file) { hold(); return fails("sync") ? -1 : REAL(fdatasync)(file); }
int fsync(int file) { hold(); return fails("sync") ? -1 : REAL(fsync)(file); }
int renameat(int from, const char *old, int to, const char *new) { return fails("rename") ? -1 : REAL(renameat)(from, old, to, new); }
'''
# the bits of our buttons as libretro numbers them: right left up down A B select start
JOYPAD = [7, 6, 4, 5, 8, 0, 2, 3]

Environment = ctypes.CFUNCTYPE(ctypes.c_bool, ctypes.c_uint, ctypes.c_void_p)
Video = ctypes.CFUNCTYPE(None, ctypes.c_void_p, ctypes.c_uint, ctypes.c_uint, ctypes.c_size_t)
Batch = ctypes.CFUNCTYPE(ctypes.c_size_t, ctypes.c_void_p, ctypes.c_size_t)
Poll = ctypes.CFUNCTYPE(None)
# the core logs each line by a format with one text
Log = ctypes.CFUNCTYPE(None, ctypes.c_int, ctypes.c_char_p, ctypes.c_char_p)
State = ctypes.CFUNCTYPE(ctypes.c_int16, ctypes.c_uint, ctypes.c_uint, ctypes.c_uint, ctypes.c_uint)


class Info(ctypes.Structure):
    _fields_ = [('path', ctypes.c_char_p), ('data', ctypes.c_void_p), ('size', ctypes.c_size_t), ('meta', ctypes.c_char_p)]


class Message(ctypes.Structure):
    _fields_ = [('text', ctypes.c_char_p), ('frames', ctypes.c_uint)]


class Variable(ctypes.Structure):
    _fields_ = [('key', ctypes.c_char_p), ('value', ctypes.c_char_p)]


class OptionValue(ctypes.Structure):
    _fields_ = [('value', ctypes.c_char_p), ('label', ctypes.c_char_p)]


class Option(ctypes.Structure):
    _fields_ = [*((name, ctypes.c_char_p) for name in ('key', 'desc', 'desc_categorized', 'info', 'info_categorized', 'category')),
                ('values', OptionValue * 128), ('default', ctypes.c_char_p)]


class Options(ctypes.Structure):
    _fields_ = [('categories', ctypes.c_void_p), ('definitions', ctypes.POINTER(Option))]


class Descriptor(ctypes.Structure):
    _fields_ = [('flags', ctypes.c_uint64), ('ptr', ctypes.c_void_p), ('offset', ctypes.c_size_t), ('start', ctypes.c_size_t), ('select', ctypes.c_size_t),
                ('disconnect', ctypes.c_size_t), ('len', ctypes.c_size_t), ('addrspace', ctypes.c_char_p)]


class Map(ctypes.Structure):
    _fields_ = [('descriptors', ctypes.POINTER(Descriptor)), ('count', ctypes.c_uint)]


class FrontEnd:
    """A front end of few lines: one core, one cartridge. `told` is what stands on the screen, `log` all that is logged, `map` what it may look at, `offered`
    the options, which it takes in the form of this version."""

    def __init__(self, core, folder, version=2, maps=True, **options):
        self.version, self.maps = version, maps
        self.options = {f'gbkeep_{key}'.encode(): value.encode() for key, value in options.items()}
        self.log, self.log_call = [], Log(lambda level, form, text: self.log.append(text.decode(errors='replace')))
        self.folder, self.told, self.buttons, self.looks, self.pixels, self.samples = os.fsencode(folder), [], 0, True, None, 0
        self.wanted, self.map, self.raw, self.offered = WANTED, {}, b'', {}
        self.core = ctypes.CDLL(str(core))
        for name in ('load_game', 'serialize', 'unserialize'):
            getattr(self.core, f'retro_{name}').restype = ctypes.c_bool
        self.core.retro_serialize.argtypes = self.core.retro_unserialize.argtypes = [ctypes.c_char_p, ctypes.c_size_t]
        self.core.retro_serialize_size.restype = self.core.retro_get_memory_size.restype = ctypes.c_size_t
        self.core.retro_get_memory_data.restype = ctypes.c_void_p
        self.calls = [Environment(self.environment), Video(self.video), Batch(self.sound), Poll(lambda: None), State(self.pressed)]
        for name, call in zip(('environment', 'video_refresh', 'audio_sample_batch', 'input_poll', 'input_state'), self.calls):
            getattr(self.core, f'retro_set_{name}')(call)
        self.core.retro_init()

    def environment(self, what, data):
        if what == SET_MESSAGE:
            self.told.append(ctypes.cast(data, ctypes.POINTER(Message)).contents.text.decode())
        elif what == GET_SAVE_DIRECTORY:
            ctypes.cast(data, ctypes.POINTER(ctypes.c_char_p))[0] = self.folder
        elif what == GET_VARIABLE:
            asked = ctypes.cast(data, ctypes.POINTER(Variable)).contents
            if asked.key not in self.options:
                return False
            asked.value = self.options[asked.key]
        elif what == GET_VARIABLE_UPDATE:
            ctypes.cast(data, ctypes.POINTER(ctypes.c_bool))[0] = True
        elif what == GET_AUDIO_VIDEO_ENABLE and self.wanted is not None:
            ctypes.cast(data, ctypes.POINTER(ctypes.c_int))[0] = self.wanted
        elif what == SET_MEMORY_MAPS and self.maps:
            given = ctypes.cast(data, ctypes.POINTER(Map)).contents
            self.map = {part.start: (part.ptr + part.offset, part.len) for part in given.descriptors[:given.count]}
        elif what == GET_LOG:
            ctypes.cast(data, ctypes.POINTER(ctypes.c_void_p))[0] = ctypes.cast(self.log_call, ctypes.c_void_p)
        elif what == SET_VARIABLES:
            variables = ctypes.cast(data, ctypes.POINTER(Variable))
            while variables[len(self.offered)].key:
                one = variables[len(self.offered)]
                self.offered[one.key.decode()] = one.value.decode()
        elif what == GET_OPTIONS_VERSION and self.version is not None:
            ctypes.cast(data, ctypes.POINTER(ctypes.c_uint))[0] = self.version
        elif what == SET_OPTIONS_V2 and self.version == 2:
            given = ctypes.cast(data, ctypes.POINTER(Options)).contents
            expect('categories', given.categories, None)
            while given.definitions[len(self.offered)].key:
                self.offered[given.definitions[len(self.offered)].key.decode()] = given.definitions[len(self.offered)]
        elif what != SET_PIXEL_FORMAT:
            return False
        return True

    def video(self, data, width, height, pitch):
        expect('size of a picture', (width, height, pitch), (WIDTH, HEIGHT, 4 * WIDTH))
        self.raw = ctypes.string_at(data, 4 * WIDTH * HEIGHT)
        if self.looks:
            self.pixels = list(ctypes.cast(data, ctypes.POINTER(ctypes.c_uint32 * (WIDTH * HEIGHT))).contents)

    def sound(self, data, frames):
        self.samples += frames
        return frames

    def pressed(self, port, device, index, id):
        return int(port == 0 and id in JOYPAD and self.buttons >> JOYPAD.index(id) & 1)

    def load(self, cart):
        return self.core.retro_load_game(ctypes.byref(Info(os.fsencode(cart), None, 0, None)))

    def frames(self, buttons, count):
        self.buttons = buttons
        for _ in range(count):
            self.core.retro_run()

    def state(self):
        """A state; None where the core gives none."""
        size = self.core.retro_serialize_size()
        bytes_ = ctypes.create_string_buffer(max(size, 1))
        return bytes_.raw if size > 0 and self.core.retro_serialize(bytes_, size) else None

    def restore(self, state):
        return self.core.retro_unserialize(state, len(state))

    def memory(self):
        """The bytes that each part of the map has, by its first address."""
        return {start: ctypes.string_at(*place) for start, place in self.map.items()}

    def unload(self):
        self.core.retro_unload_game()
        self.core.retro_deinit()
        expect('lines without room on the screen', [text for text in self.told if len(text) > MOST_SHOWN], [])


def shades_of(program, cart, save, room):
    """The picture that `gbkeep frame` writes, and the count that it tells."""
    told = run(program, 'frame', str(cart), str(save), str(room / 'out.pgm'))
    return [int(word) for word in (room / 'out.pgm').read_text().split()[4:]], int(told.split()[1])


def test_play(program, core, room):
    folder = room / 'saves'
    folder.mkdir()
    save = folder / 'demo.gbkeep'
    for palette, colours in COLOURS.items():
        front = FrontEnd(core, folder, palette=palette, messages='all')
        expect('a game is loaded', front.load(CART), True)
        front.frames(0, 60)
        front.frames(START, 4)
        front.frames(RIGHT | A, 70)
        expect('save memory', (front.core.retro_get_memory_size(SAVE_RAM), front.core.retro_get_memory_data(SAVE_RAM)), (0, None))
        front.unload()
        shades, count = shades_of(program, CART, save, room)
        expect(f'the picture in {palette}', front.pixels, [colours[shade] for shade in shades])
        expect('sound', front.samples, 134 * 800)
        expect('the palettes', values_of(front.offered['gbkeep_palette']), NAMES)
    expect('all inputs are saved', count, 4 * 134)
    expect('what is told', (front.told[0], front.told[-1]), (f'resumed {3 * 134}', f'saved {4 * 134}'))
    for messages, wanted in (('none', []), ('refusals only', ['This is no state of this game']), ('', ['This is no state of this game'])):
        front = FrontEnd(core, folder, messages=messages)
        front.load(CART)
        front.frames(0, 130)
        front.restore(bytes(len(front.state())))
        front.unload()
        expect(f'messages: {messages}', (front.told, sum(line.startswith('saved') for line in front.log) > 1), (wanted, True))


def test_same(program, core, room):
    """A SAVE of the core's is the program's, byte by byte, and one goes on with that of the other."""
    folder = room / 'same'
    folder.mkdir()
    subprocess.run([program, 'new', CART, folder / 'other'], check=True, capture_output=True)
    for turn in range(3):
        front = FrontEnd(core, folder)
        front.load(CART)
        script = []
        for number in range(150):
            if number == 120:
                # the save before is done
                time.sleep(0.3)
            front.frames(number // 7 & 0xff, 1)
        front.unload()
        for number in range(150):
            script += [f'frame {number // 7 & 0xff:02x}'] + ['save'] * (number in (59, 119))
        (room / 'script').write_text('\n'.join(script) + '\n')
        subprocess.run([program, 'play', CART, folder / 'other', room / 'script'], check=True, capture_output=True)
        expect('the same file', (folder / 'demo.gbkeep').read_bytes() == (folder / 'other').read_bytes(), True)
        # and the other way round
        os.rename(folder / 'demo.gbkeep', folder / 'held')
        os.rename(folder / 'other', folder / 'demo.gbkeep')
        os.rename(folder / 'held', folder / 'other')


def digest(front):
    return hashlib.sha256(front.raw).digest()


def test_states(program, core, room):
    """A thousand states, each taken back after frames that did not count: the pictures are those of the same inputs without them."""
    rnd, folder = random.Random(1), room / 'states'
    folder.mkdir(), (room / 'plain').mkdir()
    inputs = [rnd.randrange(256) if rnd.random() < 0.9 else 'reset' for _ in range(1000)]
    shown, states = {}, {}
    for place in ('plain', 'states'):
        front = FrontEnd(core, room / place)
        front.looks = False
        front.load(CART)
        shown[place] = []
        for one in inputs:
            if place == 'states':
                state = front.state()
                front.frames(rnd.randrange(256), rnd.randrange(1, 4))
                expect('a state is taken back', front.restore(state), True)
                expect('and is the same', front.state(), state)
            if one == 'reset':
                front.core.retro_reset()
            front.frames(0 if one == 'reset' else one, 1)
            shown[place].append(digest(front))
        states[place] = front.state()
        front.unload()
        expect('nothing is told', front.told, [])
    expect('the pictures', shown['states'] == shown['plain'], True)
    expect('the last state', states['states'] == states['plain'], True)
    plain, states_ = (shades_of(program, CART, room / place / 'demo.gbkeep', room)[0] for place in ('plain', 'states'))
    expect('what is saved', states_ == plain, True)
    # a state stays one in the next session, and after another one
    front = FrontEnd(core, folder)
    front.load(CART)
    front.frames(START, 30)
    expect('an older state', (front.restore(states['plain']), front.state()), (True, states['plain']))
    # what is no state changes nothing
    state, wrong = states['plain'], room / 'wrong.gb'
    kind = HEADER + 51
    # the last two have no header
    for bad in (b'', b'x', state[:-1], state[:100], bytes(len(state)), b'\xff' * len(state), state[:kind] + b'\5' + state[kind + 1:], state[1:] + b'x',
                state[HEADER:], state[HEADER:] + bytes(HEADER)):
        expect('no state', (front.restore(bad), front.state(), front.told[-1:]), (False, state, ['This is no state of this game']))
        front.told.clear()
    expect('a longer one', front.restore(state + bytes(1000)), True)
    front.unload()
    # nor does a state of another game, whose RAM is as long, shorter or longer; and a second instance takes none, either
    copy, one_more = room / 'states.so', room / 'one_more'
    shutil.copy(core, copy)
    one_more.mkdir()
    for number, (kind, ram) in enumerate(((3, 3), (3, 2), (0x1b, 4))):
        rom, cart = bytearray(CART.read_bytes()), room / f'other{number}.gb'
        rom[0x147], rom[0x149], rom[-1] = kind, ram, rom[-1] ^ 1
        cart.write_bytes(rom)
        front = FrontEnd(core, one_more)
        front.load(cart)
        front.frames(START, 3)
        other = front.state()
        front.unload()
        count = shades_of(program, CART, folder / 'demo.gbkeep', room)[1]
        front, second = FrontEnd(core, folder), FrontEnd(copy, folder)
        second.wanted = AHEAD
        for one in (front, second):
            one.load(CART)
            one.frames(START, 3)
        for one in (front, second):
            before = one.state()
            expect('of another game', (one.restore(other), one.restore(other[:HEADER]), one.state()), (False, False, before))
            expect('what is told', one.told, ['This is a state of another game'] * 2)
        second.unload()
        front.unload()
        expect('and nothing is saved', shades_of(program, CART, folder / 'demo.gbkeep', room)[1], count + 3)
    # without a game there is none
    wrong.write_bytes(bytes(1000))
    front = FrontEnd(core, folder)
    front.load(wrong)
    front.core.retro_reset()
    expect('no game', (front.core.retro_serialize_size(), front.state(), front.restore(state)), (0, None, False))
    front.unload()


def test_ahead(program, core, room):
    """A front end that runs ahead, in one instance and in two: its pictures are those of frames to come, and it is saved once a second."""
    for ahead in (1, 3):
        folder = room / f'ahead{ahead}'
        folder.mkdir()
        front = FrontEnd(core, folder, messages='all')
        front.looks = False
        front.load(CART)
        for number in range(300):
            held = number // 20 & 0xff
            front.wanted = UNWANTED
            front.frames(held, 1)
            state = front.state()
            front.frames(held, ahead - 1)
            front.wanted = WANTED
            front.frames(held, 1)
            picture = digest(front)
            expect('back', front.restore(state), True)
        last = front.state()
        front.unload()
        expect('saves', 2 <= sum(text.startswith('saved ') for text in front.told) <= 9, True)
        front.load(CART)
        expect('what was saved', front.state()[:-MORE], last[:-MORE])
        front.frames(299 // 20, ahead)
        expect('the picture', digest(front), picture)
        front.unload()
    # a second instance is another copy of the core; it has no SAVE
    folder, copy = room / 'second', room / 'second.so'
    folder.mkdir()
    shutil.copy(core, copy)
    front, second = FrontEnd(core, folder), FrontEnd(copy, folder)
    second.wanted = AHEAD
    front.load(CART)
    expect('a second instance', second.load(CART), True)
    for number in range(130):
        front.frames(number // 20 & 0xff, 1)
        state = front.state()
        second.restore(state)
        second.frames(number // 20 & 0xff, 3)
    front.frames(129 // 20, 3)
    expect('its picture', digest(second), digest(front))
    second.unload()
    front.unload()
    expect('one game', (front.told + second.told, shades_of(program, CART, folder / 'demo.gbkeep', room)[1], [path.name for path in folder.iterdir()]),
           ([], 133, ['demo.gbkeep']))


def test_twice(program, core, room):
    """A second load of a game in one process has no SAVE. It is told, unless the front end runs ahead by it; the first one is saved."""
    folder, copy = room / 'twice', room / 'twice.so'
    folder.mkdir()
    shutil.copy(core, copy)
    front = FrontEnd(core, folder)
    front.load(CART)
    for wanted in (WANTED, UNWANTED, None, AHEAD):
        second = FrontEnd(copy, folder)
        second.wanted = wanted
        expect('a second load', second.load(CART), True)
        second.frames(RIGHT, 130)
        front.frames(0, 10)
        second.unload()
        is_told = wanted != AHEAD
        expect(f'it is told, {wanted}', (second.told, any('What to do: close this one' in line for line in second.log)), ([TWICE] * is_told, is_told))
    front.unload()
    expect('the first one', (front.told, shades_of(program, CART, folder / 'demo.gbkeep', room)[1]), ([], 40))


class Logged(list):
    """A log that goes to the numbers of the standard streams, too, whatever has them."""

    def append(self, line):
        super().append(line)
        for stream in (1, 2):
            with contextlib.suppress(OSError):
                os.write(stream, f'gbkeep: {line}\n'.encode())


def streams(core, cart, folder, told):
    """Plays and logs, and is killed right behind lines that reach over both roots of a SAVE."""
    front = FrontEnd(core, folder, messages='all')
    front.looks, front.log = False, Logged()
    front.load(cart)
    for number in range(130):
        front.frames(number & 0xff, 1)
        time.sleep(0.002)
    names = [os.readlink(f'/proc/self/fd/{number}') for number in range(3) if os.path.lexists(f'/proc/self/fd/{number}')]
    Path(told).write_text('\n'.join([*(name for name in names if name.startswith(os.path.realpath(folder))), str(saves_in(front.told)[-1])]))
    front.log.append('the end' * 200)
    os.kill(os.getpid(), signal.SIGKILL)


def test_closed_streams(program, core, room):
    """A front end that is started without standard streams logs to their numbers all the same: nothing of that gets into a file of the core's."""
    clock = room / 'clock.gb'
    clock.write_bytes(Assembler().assemble(CLOCK))
    for cart in (CART, clock):
        for closed in ('1>&-', '2>&-', '1>&- 2>&-', '0<&- 1>&- 2>&-'):
            folder, told = room / f'{cart.stem} {closed}', room / 'told'
            folder.mkdir()
            save, what = folder / f'{cart.stem}.gbkeep', f'{cart.stem}, {closed}'
            words = [sys.executable, '-B', __file__, 'streams', core, cart, folder, told]
            done = subprocess.run(['sh', '-c', f'exec "$@" {closed}', 'sh', *words], stdout=subprocess.DEVNULL, stderr=subprocess.DEVNULL)
            expect(f'{what}: the status', done.returncode, -signal.SIGKILL)
            image, (*names, last) = save.read_bytes(), told.read_text().split('\n')
            expect(f'{what}: both roots', [root_of(image, slot) is not None for slot in (0, 1)], [True, True])
            expect(f'{what}: what was logged', [path.name for path in folder.iterdir() if b'gbkeep: ' in path.read_bytes()], [])
            expect(f'{what}: files with their numbers', names, [])
            expect(f'{what}: its inputs', 60 <= int(last) <= shades_of(program, cart, save, room)[1], True)
            if cart == clock:
                expect(f'{what}: SAVE.time', bool(re.fullmatch('([0-9]+ [0-9]+\n){1,2}', Path(f'{save}.time').read_text())), True)


def test_memory(program, core, room):
    """What the front end may look at is what the machine's program would read."""
    folder, cart = room / 'memory', room / 'clock.gb'
    folder.mkdir()
    cart.write_bytes(Assembler().assemble(CLOCK))
    for path in (CART, cart):
        front = FrontEnd(core, folder)
        front.load(path)
        with Machine(path.read_bytes()) as machine:
            for buttons in (0, START, RIGHT):
                front.frames(buttons, 20)
                if buttons:
                    front.core.retro_reset()
                    front.frames(buttons, 25)
                machine.restore(front.state()[:-MORE])
                seen = front.memory()
                expect('the parts', sorted(seen), [0, 0x8000, 0xa000, 0xc000, 0xfe00, 0xff80])
                for start, bytes_ in seen.items():
                    if start == 0xfe00:
                        bytes_ = bytes_[:0xa0]
                    # RAM that is switched off reads FF
                    if start != 0xa000:
                        expect(f'memory from {start:04x}', bytes_ == machine.memory(start, len(bytes_)), True)
        size, data = front.core.retro_get_memory_size(SYSTEM_RAM), front.core.retro_get_memory_data(SYSTEM_RAM)
        expect('the system\'s RAM', ctypes.string_at(data, size) == seen[0xc000], True)
        front.unload()
    # a front end that takes no map, and asks for the RAM once, later than it takes states; another copy of the core, since one that was asked knows it for good
    copy = shutil.copy(core, room / 'memory.so')
    front = FrontEnd(copy, room / 'memory', maps=False)
    (folder / 'demo.gbkeep').unlink()
    front.load(CART)
    with Machine(CART.read_bytes()) as machine:
        kept, data = machine.state(), None
        for step in range(60):
            if step == 30:
                data = front.core.retro_get_memory_data(SYSTEM_RAM)
            if step % 10 == 7:
                front.core.retro_reset(), machine.power()
            elif step % 10 == 8:
                front.restore(kept + bytes(MORE)), machine.restore(kept)
            else:
                front.frames(step, 3), machine.frames(step, 3)
            if step % 3 == 0:
                expect('a state is that of now', front.state()[:-MORE] == machine.state(), True)
                kept = machine.state()
            if data:
                expect('the RAM of now', ctypes.string_at(data, 0x2000) == machine.memory(0xc000, 0x2000), True)
    front.unload()


def test_carts(program, core, room):
    """A colour game that runs on a DMG, as a front end unpacks it."""
    cart, folder = room / 'Colour Game.gbc', room / 'colours'
    folder.mkdir()
    rom = bytearray(CART.read_bytes())
    rom[0x143] = 0x80
    rom[0x14d] = -sum(byte + 1 for byte in rom[0x134:0x14d]) & 0xff
    cart.write_bytes(rom)
    for _ in range(2):
        front = FrontEnd(core, folder, palette='grey')
        front.load(cart)
        front.frames(START, 10)
        front.frames(RIGHT, 61)
        pixels = front.pixels
        front.unload()
        shades, count = shades_of(program, cart, folder / 'Colour Game.gbkeep', room)
        expect('the picture', pixels, [COLOURS['grey'][shade] for shade in shades])
        expect('nothing is told', front.told, [])
    expect('its inputs', count, 2 * 71)
    # an empty file, as a cut leaves it, is taken up; anything else stays
    save = folder / 'Colour Game.gbkeep'
    save.write_bytes(b'')
    front = FrontEnd(core, folder, messages='all')
    front.load(cart)
    front.unload()
    expect('an empty file', (front.told, sorted(path.name for path in folder.iterdir())), (['resumed 0'], [save.name]))
    # zeros may be a battery file
    zeros = [(bytes(size), 'no session: ') for size in (1024, 8192, 32768, os.path.getsize(save))]
    for content, said in ((b'x', 'device size 1: '), *zeros):
        save.write_bytes(content)
        front = FrontEnd(core, folder)
        front.load(cart)
        front.unload()
        expect('another file', (front.told[0].startswith(said), save.read_bytes() == content), (True, True))
    save.unlink()
    save.symlink_to('nowhere')
    front = FrontEnd(core, folder)
    front.load(cart)
    front.unload()
    expect('a link that leads nowhere', (len(front.told), [path.name for path in folder.iterdir()]), (1, [save.name]))
    # an empty file with a second name, which would stay empty
    save.unlink()
    save.write_bytes(b'')
    os.link(save, folder / 'second')
    front = FrontEnd(core, folder)
    front.load(cart)
    front.unload()
    expect('a second name', (len(front.told), save.stat().st_size, save.stat().st_nlink), (1, 0, 2))


def test_battery(program, core, room):
    """A new game begins with the battery file of another core, which is only read; the option leaves it, and one that is none of this game begins nothing."""
    # a cartridge with a battery and a clock goes on from it, by the library alone
    other, battery, cart = room / 'older', room / 'battery', room / 'clock.gb'
    cart.write_bytes(Assembler().assemble(CLOCK))
    subprocess.run([program, 'new', cart, other], check=True, capture_output=True)
    (room / 'more').write_text('frames 00 60\nseconds 5000\nframes 00 60\n')
    subprocess.run([program, 'play', cart, other, room / 'more'], check=True, capture_output=True)
    subprocess.run([program, 'export', cart, other, battery], check=True, capture_output=True)
    subprocess.run([program, 'import', cart, battery, room / 'by_program'], check=True, capture_output=True)
    for beside in (False, True):
        for suffix in ('.srm', '.sav'):
            folder, carts = room / f'battery{beside}{suffix}', room / f'carts{beside}{suffix}'
            folder.mkdir(), carts.mkdir()
            cart = Path(shutil.copy(room / 'clock.gb', carts))
            there = (carts if beside else folder) / f'clock{suffix}'
            shutil.copy(battery, there)
            there.chmod(0o400)
            before = there.stat()
            front = FrontEnd(core, folder)
            front.load(cart)
            expect('what is begun', (folder / 'clock.gbkeep').stat().st_size, (room / 'by_program').stat().st_size)
            front.frames(0, 65)
            front.unload()
            expect('it is told', (front.told, any(f'{there}: what it keeps' in line for line in front.log)), ([f'A new game with the save in clock{suffix}'], True))
            with Game(cart, folder / 'clock.gbkeep', program) as game:
                expect('its clock', 5000 <= seconds_shown(game) < 5000 + DAY, True)
            after = there.stat()
            expect('the other file', (there.read_bytes() == battery.read_bytes(), after.st_mtime_ns, after.st_ino), (True, before.st_mtime_ns, before.st_ino))
            front = FrontEnd(core, folder)
            front.load(cart)
            front.unload()
            expect('nothing where there is a game', front.told, [])
    # the same first bytes as the program's
    folder, cart = room / 'imported', room / 'clock.gb'
    folder.mkdir()
    save, there = folder / 'clock.gbkeep', folder / 'clock.srm'
    shutil.copy(battery, there)
    front = FrontEnd(core, folder, messages='all')
    front.load(cart)
    front.unload()
    shown = [shades_of(program, cart, path, room) for path in (save, room / 'by_program')]
    expect('the game of the program', (shown[0] == shown[1], front.told[0]), (True, 'A new game with the save in clock.srm'))
    # by the option a game begins without it
    save.unlink()
    front = FrontEnd(core, folder, **{'import': 'no'})
    front.load(cart)
    front.frames(0, 65)
    front.unload()
    with Game(cart, save, program) as game:
        expect('without it', (seconds_shown(game) < 5000, front.told), (True, []))
    # one that is none of this game begins nothing, and is left as it is
    for content in (b'', b'wrong', bytes(8191), bytes(8192 + 47), bytes(0x20000 + 48), bytes(0x20000 + 49), bytes(1 << 20)):
        for path in folder.iterdir():
            path.unlink()
        there.write_bytes(content)
        front = FrontEnd(core, folder)
        front.load(cart)
        front.frames(0, 302)
        front.unload()
        size = f'it has {len(content)} bytes, and a save of this game has 8240. What to do: '
        expect('no file of this game', (front.told, sorted(path.name for path in folder.iterdir()), there.read_bytes() == content, any(size in line for line in front.log)),
               (['clock.srm is no save of this game: move it away'] * 2, [there.name], True, True))
    # the RAM alone is one, as of a core that keeps no clock; and so is a link to one
    there.write_bytes(bytes(8192))
    for path in (there, folder / 'clock.sav'):
        if path != there:
            path.symlink_to(there.rename(folder / 'kept'))
        save.unlink(missing_ok=True)
        front = FrontEnd(core, folder)
        front.load(cart)
        front.unload()
        expect('the RAM alone', (front.told, save.exists()), ([f'A new game with the save in {path.name}'], True))
    path.unlink(), save.unlink()
    # what is no file is no battery file
    for make in (there.mkdir, lambda: os.mkfifo(there), lambda: there.symlink_to('/dev/zero'), lambda: there.symlink_to('nowhere'), lambda: there.symlink_to(there)):
        make()
        front = FrontEnd(core, folder)
        front.load(cart)
        front.unload()
        expect('no file', (front.told, save.exists()), ([], True))
        save.unlink(), there.rmdir() if there.is_dir() else there.unlink()
    # a cartridge without a battery begins without it
    (folder / 'demo.srm').write_bytes(bytes(8192))
    rom = bytearray(CART.read_bytes())
    rom[0x147], rom[0x149] = 0, 0
    plain = room / 'demo.gb'
    plain.write_bytes(rom)
    front = FrontEnd(core, folder)
    front.load(plain)
    front.unload()
    expect('no battery', (front.told, (folder / 'demo.gbkeep').exists()), (['A new game without demo.srm: there is no battery'], True))
    # a long name has room on the screen
    name = 'Zauberwälder, die Rückkehr der Könige (Schweiz, Österreich) (Änderung 2)'
    long = Path(shutil.copy(cart, room / f'{name}.gb'))
    for content, told in ((battery.read_bytes(), 'A new game with the save in Zauberwälder,..g 2).srm'), (b'wrong', 'Zauberwälder,..g 2).srm is no save of this game: move it away')):
        (folder / f'{name}.srm').write_bytes(content)
        front = FrontEnd(core, folder)
        front.load(long)
        front.unload()
        expect('a long name', front.told, [told])
        (folder / f'{name}.gbkeep').unlink(missing_ok=True)


def test_battery_left(program, core, room):
    """At the game's end a battery file is left for other cores, where the option says so: what `export` writes; what another core has put there stays."""
    folder, cart = room / 'left', room / 'clock.gb'
    folder.mkdir()
    cart.write_bytes(Assembler().assemble(CLOCK))
    save, left, mark = (folder / f'clock{suffix}' for suffix in ('.gbkeep', '.srm', '.gbkeep.battery'))

    def play(*told, export='yes', frames=70, **more):
        """Plays, and wants that to be told at the end; what the program exports then."""
        front = FrontEnd(core, folder, export=export, **more)
        front.load(cart)
        front.frames(A, frames)
        shown = len(front.told)
        front.unload()
        expect('what is told', front.told[shown:], list(told))
        out = room / 'exported'
        out.unlink(missing_ok=True)
        subprocess.run([program, 'export', cart, save, out], check=True, capture_output=True)
        return out.read_bytes()

    def seconds(count):
        (room / 'more').write_text(f'frames 00 60\nseconds {count}\nframes 00 60\n')
        subprocess.run([program, 'play', cart, save, room / 'more'], check=True, capture_output=True)

    for export in ('no', '', 'x'):
        play(export=export)
        expect('without the option', sorted(path.name for path in folder.iterdir()), ['clock.gbkeep', 'clock.gbkeep.time'])
    first = play()
    expect('what is left', (left.read_bytes() == first, mark.read_bytes() == first, len(first)), (True, True, 8240))
    # its own one is replaced, with its permissions, also where it is the same
    left.chmod(0o640)
    for count in (5000, 0, 700):
        seconds(count)
        exported = play()
        expect('its own', (left.read_bytes() == exported, stat.S_IMODE(left.stat().st_mode)), (True, 0o640))
    # what another core wrote meanwhile is kept, each under a name of its own
    for number, content in enumerate((b'another', b'', bytes(0x20000 + 48)), 1):
        (folder / 'clock.srm.2').write_bytes(b'mine') if number == 2 else None
        left.write_bytes(content)
        seconds(100)
        number += number > 1
        exported = play(f'clock.srm is written; the one before ends in .{number}')
        expect('it is kept', (left.read_bytes() == exported, (folder / f'clock.srm.{number}').read_bytes() == content), (True, True))
    expect('one that has the name stays', (folder / 'clock.srm.2').read_bytes(), b'mine')
    # a game that begins with another core's: that one is kept, and the other core's game goes on here
    for path in folder.iterdir():
        path.unlink()
    left.write_bytes(bytes(8192))
    play('clock.srm is written; the one before ends in .1')
    expect('what began it', (folder / 'clock.srm.1').read_bytes(), bytes(8192))
    # what is no such file stays, and the game is saved
    for make in (left.mkdir, lambda: os.mkfifo(left), lambda: left.symlink_to(room / 'exported'), lambda: left.symlink_to('nowhere'),
                 lambda: left.write_bytes(bytes(0x20000 + 49))):
        left.unlink()
        make()
        seconds(100)
        before = left.lstat()
        play('clock.srm can\'t be written for other cores')
        expect('it stays', (left.lstat().st_ino, left.lstat().st_mode), (before.st_ino, before.st_mode))
        left.rmdir() if left.is_dir() else None
        left.touch() if not os.path.lexists(left) else None
    # nor is anything written where no name is free to keep it by, or none for the copy by which the core knows its own
    left.write_bytes(b'another')
    for number in range(1, 100):
        (folder / f'clock.srm.{number}').touch()
    play('clock.srm can\'t be written for other cores')
    expect('no name is free', left.read_bytes(), b'another')
    left.unlink(), mark.unlink(), mark.mkdir()
    play('clock.srm can\'t be written for other cores')
    expect('no copy', (left.exists(), mark.is_dir()), (False, True))
    # a cartridge without a battery leaves none
    rom = bytearray(CART.read_bytes())
    rom[0x147], rom[0x149] = 0, 0
    cart, plain = room / 'plain.gb', room / 'no_battery'
    cart.write_bytes(rom), plain.mkdir()
    front = FrontEnd(core, plain, export='yes', messages='all')
    front.load(cart)
    front.frames(A, 70)
    front.unload()
    expect('no battery', (front.told[-1], [path.name for path in plain.iterdir()]), ('saved 70', ['plain.gbkeep']))


def test_faults(program, core, room):
    folder = room / 'faults'
    folder.mkdir()
    save = folder / 'demo.gbkeep'
    with Game(CART, save, program):
        front = FrontEnd(core, folder)
        expect('a SAVE in use is told', (front.load(CART), front.told[-1], any('device failed: ' in line and 'end the other one' in line for line in front.log)),
               (True, "SAVE is open elsewhere, or can't be read or written", True))
        began = time.monotonic()
        front.frames(0, 301)
        expect('and told again', (time.monotonic() - began < 20, len(front.told)), (True, 2))
        front.unload()
    # the other way round
    front = FrontEnd(core, folder)
    front.load(CART)
    said = subprocess.run([program, 'show', CART, save], capture_output=True, text=True)
    expect('the core has it open', (said.returncode, said.stderr), (1, 'gbkeep: device failed\n'))
    front.unload()
    (folder / 'demo.gbkeep.recorded').write_text('run.rec\n')
    front = FrontEnd(core, folder)
    front.load(CART)
    expect('a recorded game', 'recorded game: ' in front.told[-1], True)
    front.unload()
    # a new game takes away the mark of `record`, and no other file
    save.unlink()
    digest_of = hashlib.sha256(b'').hexdigest()
    for mark, stays in (('run.rec\ngbkeep record\n', False), (f'run.rec\ngbkeep record\n0 {digest_of}\n', False), ('mine', True),
                        (f'run.rec\n0 {digest_of}\n', True), ('run.rec\ngbkeep record\nmine\n', True)):
        (folder / 'demo.gbkeep.recorded').write_text(mark)
        front = FrontEnd(core, folder)
        front.load(CART)
        front.unload()
        expect('the mark of an older game', ((folder / 'demo.gbkeep.recorded').exists(), len(front.told)), (stays, int(stays)))
        save.unlink()
    (folder / 'demo.gbkeep.recorded').unlink()
    rom = CART.read_bytes()
    for number, content in enumerate((bytes(1000), b'', rom[:-1], rom + bytes(len(rom)) * 2, rom[:0x147] + b'\xfe' + rom[0x148:], rom[:0x149] + b'\x77' + rom[0x14a:],
                                      rom[:0x147] + b'\1' + rom[0x148:0x8000] + bytes(0x3f8000), bytes(0x800001))):
        wrong = room / f'wrong{number}.gb'
        wrong.write_bytes(content)
        said = subprocess.run([program, 'info', wrong], capture_output=True, text=True).stderr.strip().removeprefix('gbkeep: ')
        front = FrontEnd(core, folder)
        front.load(wrong)
        expect(f'a ROM that is none, {said}', (front.told[-1].split(':')[0] if said else '', (folder / f'wrong{number}.gbkeep').exists()), (said, not said))
        front.unload()
    # SAVE is removed, replaced or cut short while it is played
    for what in (lambda: save.unlink(), lambda: os.replace(shutil.copy(save, folder / 'copy'), save), lambda: os.truncate(save, 512),
                 lambda: os.truncate(save, save.stat().st_size + 512)):
        save.unlink(missing_ok=True)
        front = FrontEnd(core, folder, messages='all')
        front.load(CART)
        front.frames(RIGHT, 10)
        what()
        front.frames(RIGHT, 60)
        limit = time.monotonic() + 20
        while time.monotonic() < limit and not any("or can't" in text for text in front.told):
            time.sleep(0.01)
            front.frames(RIGHT, 1)
        front.unload()
        expect('another file in its place', [text for text in front.told if not text.startswith('resumed')], ["SAVE is open elsewhere, or can't be read or written"])


def disk(room):
    """The library that stands between the core and the disk."""
    source, library = room / 'disk.c', room / 'disk.so'
    if not library.exists():
        source.write_text(DISK)
        subprocess.run([os.environ.get('CC', 'cc'), '-shared', '-fPIC', '-Wall', '-o', library, source, '-ldl'], check=True)
    return library


def played(core, folder, frames, room, **more):
    """What a process tells that plays so many frames, and its status; its disk does as the environment says."""
    done = subprocess.run([sys.executable, '-B', __file__, 'play', core, CART, folder, str(frames)], stdout=subprocess.PIPE, text=True,
                          env=dict(os.environ, LD_PRELOAD=str(disk(room)), **more))
    return done.stdout.splitlines(), done.returncode


def saves_in(told):
    return [int(line.split()[1]) for line in told if line.startswith(('resumed', 'saved'))]


def cut_at(program, core, room, name, point):
    """Plays while the disk fails or ends at this call, and goes on."""
    folder, log = room / f'{name}{point}', room / f'{name}{point}.log'
    folder.mkdir()
    save, what = folder / 'demo.gbkeep', f'{name} {point}'
    told, status = played(core, folder, 190, room, DISK_LOG=str(log), **{name: str(point)})
    calls = log.read_text().splitlines()
    if len(calls) <= point:
        # saves come as the disk is free, and there were fewer calls this time
        return 0
    expect(f'{what}: the status', status, 0 if name == 'FAIL_AT' else -signal.SIGKILL)
    if name == 'FAIL_AT':
        expect(f'{what}: calls behind it', len(calls), point + 1)
        expect(f'{what}: it is told', any("can't be" in line for line in told), True)
    count = 0
    if save.exists() and save.stat().st_size > 0:
        own = room / f'{name}{point}.room'
        own.mkdir()
        count = shades_of(program, CART, save, own)[1]
    expect(f'{what}: what was told is there', count >= max(saves_in(told), default=0), True)
    told, status = played(core, folder, 70, room)
    expect(f'{what}: it goes on', (status, saves_in(told)[0], [line for line in told if not line.startswith(('resumed', 'saved'))]), (0, count, []))
    expect(f'{what}: what is left', [path.name for path in folder.iterdir() if not re.fullmatch(r'\.gbkeep-[0-9a-f]{16}\.new', path.name)], ['demo.gbkeep'])
    return count


def test_disk(program, core, room):
    """At calls of the disk, the first and last ones and some between, it fails, or the front end is killed: what was told is there, nothing is written after a
    fault, and the game goes on."""
    folder, log = room / 'whole', room / 'whole.log'
    folder.mkdir()
    told, status = played(core, folder, 190, room, DISK_LOG=str(log))
    calls = len(log.read_text().splitlines())
    expect('a disk that works', (status, told[-1].split()[0], calls > 100), (0, 'saved', True))
    points = sorted({*range(8), *random.Random(1).sample(range(calls), 25), *range(calls - 8, calls)})
    with ThreadPoolExecutor(max(2, os.cpu_count() or 1)) as pool:
        counts = list(pool.map(lambda one: cut_at(program, core, room, *one), [(name, point) for name in ('KILL_AT', 'FAIL_AT') for point in points]))
    expect('games that were cut late', sum(count >= 60 for count in counts) > 10, True)


def leave(core, cart, folder, what, point):
    """Plays less than to the next save, and ends, while the disk does that at this call of the end; prints how many calls there were, and what was told."""
    front, log = FrontEnd(core, folder, messages='all', export='yes'), Path(os.environ['DISK_LOG'])
    front.load(cart)
    front.frames(RIGHT, 30)
    calls = len(log.read_text().splitlines())
    os.environ[what] = str(calls + int(point))
    front.unload()
    print(len(log.read_text().splitlines()) - calls, front.told[-1])


def test_battery_cut(program, core, room):
    """At each call by which a battery file is left the disk fails, or the front end is killed: what another core had there is there still, the file is the one
    or the other, and the next end leaves it."""
    other = bytes(range(256)) * 128

    def left(name, what, point):
        folder = room / f'cut-{name}'
        if not folder.exists():
            folder.mkdir()
            (folder / 'demo.srm').write_bytes(other)
        done = subprocess.run([sys.executable, '-B', __file__, 'leave', core, CART, folder, what, str(point)], stdout=subprocess.PIPE, text=True,
                              env=dict(os.environ, LD_PRELOAD=str(disk(room)), DISK_LOG=str(room / f'cut-{name}.log')))
        batteries = [path.read_bytes() for path in folder.glob('demo.srm*')]
        expect(f'{name}: what was there', (other in batteries, {len(battery) for battery in batteries}), (True, {len(other)}))
        return folder, done

    _, done = left('whole', 'FAIL_AT', 1000)
    calls, told = done.stdout.strip().split(' ', 1)
    expect('a disk that works', (told, int(calls) > 12), ('demo.srm is written; the one before ends in .1', True))

    def cut(what, point):
        name = f'{what}-{point}'
        folder, done = left(name, what, point)
        expect(f'{name}: it ends', (done.returncode, 'demo.srm' in done.stdout), (-signal.SIGKILL, False) if what == 'KILL_AT' else (0, point >= int(calls) - 12))
        left(name, 'FAIL_AT', 1000)
        subprocess.run([program, 'export', CART, folder / 'demo.gbkeep', room / f'{name}.out'], check=True, capture_output=True)
        expect(f'{name}: it is left', (folder / 'demo.srm').read_bytes() == (room / f'{name}.out').read_bytes(), True)

    with ThreadPoolExecutor(max(2, os.cpu_count() or 1)) as pool:
        list(pool.map(lambda one: cut(*one), [(what, point) for what in ('KILL_AT', 'FAIL_AT') for point in range(int(calls))]))


def slow(core, cart, folder, held):
    """A disk that does not answer while a file is there. (In a process of its own, with the disk of this test.)"""
    front = FrontEnd(core, folder, messages='all')
    front.looks = False
    front.load(cart)
    front.frames(RIGHT, 10)
    Path(held).write_text('')
    longest = 0
    for number in range(2800):
        began = time.monotonic()
        front.frames(number & 0xff, 1)
        front.restore(front.state()) if number % 100 == 50 else None
        longest = max(longest, time.monotonic() - began)
    expect('no frame waits', (longest < 1, saves_in(front.told)), (True, [0]))
    time.sleep(5.1)
    front.frames(0, 1)
    expect('it is told', [text.rsplit(' ', 2)[0] for text in front.told[1:]], ['The disk is slow: nothing is saved for'])
    # where 3,000 are unsaved the next one waits for the save
    threading.Timer(1, lambda: os.unlink(held)).start()
    began = time.monotonic()
    front.frames(0, 600)
    expect('a frame waits', (0.5 < time.monotonic() - began < 10, front.told[2]), (True, 'saved 60'))
    front.unload()
    expect('all is saved', front.told[-1], 'saved 3439')


def test_slow(program, core, room):
    """A disk that stands still: the game goes on, nothing is told as saved, and all of it is saved later."""
    folder = room / 'slow'
    folder.mkdir()
    env = dict(os.environ, LD_PRELOAD=str(disk(room)), HOLD=str(room / 'held'))
    done = subprocess.run([sys.executable, '-B', __file__, 'slow', core, CART, folder, room / 'held'], env=env, capture_output=True, text=True)
    expect('a slow disk', (done.returncode, done.stderr), (0, ''))
    expect('all is saved', shades_of(program, CART, folder / 'demo.gbkeep', room)[1], 3439)


def test_power(program, core, room):
    """The whole front end is killed in the middle: what was told is there."""
    folder = room / 'power'
    folder.mkdir()
    front = subprocess.Popen([sys.executable, '-B', __file__, 'play', core, CART, folder, '100000'], stdout=subprocess.PIPE, text=True, start_new_session=True)
    told = 0
    while told < 300:
        word, count = front.stdout.readline().split()
        told = int(count)
    os.killpg(front.pid, signal.SIGKILL)
    front.wait()
    expect('what was told is there', shades_of(program, CART, folder / 'demo.gbkeep', room)[1] >= told, True)


class Clocked:
    """A game with a clock in a folder of its own."""

    def __init__(self, program, core, room, name):
        self.program, self.core, self.folder, self.cart = program, core, room / name, room / 'clock.gb'
        self.folder.mkdir()
        self.cart.write_bytes(Assembler().assemble(CLOCK))
        self.save, self.time = self.folder / 'clock.gbkeep', self.folder / 'clock.gbkeep.time'

    def play(self, frames=65, **options):
        front = FrontEnd(self.core, self.folder, **options)
        expect('a game is loaded', front.load(self.cart), True)
        front.frames(0, frames)
        front.unload()
        self.log = front.log
        return [text for text in front.told if not text.startswith(('resumed', 'saved'))]

    def given_until(self):
        """The count and the time of the first line of SAVE.time."""
        return tuple(map(int, self.time.read_text().split('\n')[0].split()))

    def away(self, seconds):
        """As if it was last played so long ago."""
        count, until = self.given_until()
        self.time.write_text(f'{count} {until - seconds}\n')

    def shown(self):
        copy = self.folder / 'copy'
        shutil.copy(self.save, copy)
        with Game(self.cart, copy, self.program) as game:
            return seconds_shown(game)


def is_about(got, wanted):
    """As many seconds, or those of some slow steps of the test more."""
    return wanted <= got < wanted + 60


def test_clock(program, core, room):
    game = Clocked(program, core, room, 'clock')
    expect('a new game', game.play(70), [])
    count, seconds = game.given_until()
    expect('the clock file', (count >= 60, abs(seconds - time.time()) < 10), (True, True))
    game.away(7200)
    held = game.save.read_bytes(), game.time.read_bytes()
    for gives, seconds in (('no', 0), ('yes', 7200)):
        game.save.write_bytes(held[0])
        game.time.write_bytes(held[1])
        game.play(time_away=gives)
        expect(f'hours away, {gives}', is_about(game.shown(), seconds), True)
    # a file that the core can't write may give the time once at most
    game = Clocked(program, core, room, 'unwritten')
    game.play()
    game.away(DAY)
    Path(f'{game.time}.new').mkdir()
    for _ in range(3):
        game.play()
    expect('a day away', is_about(game.shown(), DAY), True)
    # a leap of the date is not given, and only told once; an earlier date gives nothing
    for seconds, said in ((56 * 365 * DAY, '20440 days'), (-3600, 'before the time'), (-400 * DAY, 'Take SAVE.time away')):
        game = Clocked(program, core, room, f'leap {seconds}')
        game.play()
        game.away(seconds)
        told = game.play()
        expect(f'away for {seconds}', (len(told), any(said in text for text in game.log), is_about(game.shown(), 0)), (1, True, True))
        if seconds > 0:
            expect('told once', game.play(), [])
    game.time.unlink()
    expect('no SAVE.time', ['There is no SAVE.time' in text for text in game.play()], [True])


def test_crafted_times(program, core, room):
    game = Clocked(program, core, room, 'crafted')
    game.play()
    count = game.given_until()[0]
    for content in (b'mine', b'-1 5\n', b'5 -1\n', b'9' * 5000 + b' 1\n', b'20 9223372036854775807\n', b'18446744073709551616 1\n', b'1 1\n' * 9, b'1 1\0',
                    bytes(10_000), b'1 1 1\n', b'20 -9223372036854775808\n'):
        game.time.write_bytes(content)
        told = game.play(1)
        expect(f'{content[:30]!r}', (['stands still' in text for text in told], game.time.read_bytes() == content), ([True], True))
    game.time.unlink()
    os.mkfifo(game.time)
    expect('a FIFO', ['stands still' in text for text in game.play(1)], [True])
    game.time.unlink()
    for content in (f'{count} 99999999999\n', '18446744073709551615 0\n', '0 0\n18446744073709551615 99999999999\n'):
        game.time.write_text(content)
        game.play(1)
        expect(content, is_about(game.shown(), 0), True)


def test_files_of_others(program, core, room):
    """Where others write the folder of SAVE, nothing that they put in the place of SAVE.time leads anywhere else, and none but one's own file is taken."""
    game, far = Clocked(program, core, room, 'shared'), room / 'far'
    game.play()
    held = game.time.read_bytes()
    far.mkdir()
    for content in (b'', b'5 1000\n', None):
        one = far / 'one'
        if content is not None:
            one.write_bytes(content)
        game.time.unlink()
        game.time.symlink_to(one)
        before = os.lstat(game.time)
        told = game.play(65)
        expect(f'a link to {content!r}: what it leads to', one.read_bytes() if one.exists() else None, content)
        expect(f'a link to {content!r}: it is told', (told, any('What to do: take it away' in line for line in game.log)), ([STILL], True))
        expect(f'a link to {content!r}: it stays', (os.lstat(game.time).st_ino, len(list(far.iterdir()))), (before.st_ino, int(one.exists())))
        one.unlink(missing_ok=True)
    game.time.unlink()
    game.time.write_bytes(held)
    # as backups are made, whose second name keeps what it has
    os.link(game.time, far / 'backup')
    expect('one\'s own, with a second name', (game.play(65), (far / 'backup').read_bytes() == held, game.time.read_bytes() == held), ([], True, False))
    if not tries('the libretro core, files of other users', 'root'):
        return
    os.chown(game.time, USER, USER)
    held = game.time.read_bytes()
    expect('somebody else\'s', (game.play(65), game.time.read_bytes() == held), ([STILL], True))
    # of him who has SAVE it is one's own
    os.chown(game.save, USER, USER)
    expect('of SAVE\'s owner', (game.play(65), game.time.read_bytes() == held), ([], False))


def test_owner(program, core, room):
    """Root plays a game of a user's: SAVE.time stays the user's, whose clock goes on."""
    if not tries('the libretro core, played by root', 'root'):
        return
    room.chmod(0o755)
    for is_there in (True, False):
        game = Clocked(program, core, room, f'owned{is_there}')
        game.play()
        for path in (game.folder, game.save, game.time):
            os.chown(path, USER, USER)
        game.time.chmod(0o600)
        if not is_there:
            game.time.unlink()
        before = os.umask(0o077)
        game.play()
        os.umask(before)
        expect('its owner', [(path.stat().st_uid, path.stat().st_gid) for path in (game.save, game.time)], [(USER, USER)] * 2)
        expect('its mode', stat.S_IMODE(game.time.stat().st_mode), 0o600)
        os.seteuid(USER)
        told = game.play()
        os.seteuid(0)
        expect('the user plays', told, [])


def test_clock_back(program, core, room):
    """The clock of a state that is taken back gets the seconds since, and no second twice."""
    game = Clocked(program, core, room, 'back')
    front = FrontEnd(core, game.folder, messages='all')
    front.load(game.cart)
    begun = time.time()
    front.frames(0, 65)
    state = front.state()
    for _ in range(40):
        time.sleep(0.1)
        front.frames(0, 6)
        front.restore(state)
    front.unload()
    count, given = game.given_until()
    expect('back and forth', (abs(given - time.time()) <= 2, abs(game.shown() - (given - begun)) <= 2, count <= int(front.told[-1].split()[1])), (True, True, True))
    # of a state of long ago, as the option says: the time since, none, or none since it is too long
    for away, gives, wanted in ((7200, 'yes', 7200), (7200, 'no', 0), (500 * DAY, 'yes', 0), (-7200, 'yes', 0)):
        old = state[:-MORE] + int(time.time() - away).to_bytes(TIME, 'little') + bytes(TIME)
        front = FrontEnd(core, game.folder, time_away=gives)
        front.load(game.cart)
        expect('an old state', front.restore(old), True)
        front.frames(0, 70)
        front.unload()
        expect(f'of {away} s ago, {gives}', is_about(game.shown(), wanted), True)
    front = FrontEnd(core, game.folder)
    front.load(game.cart)
    front.restore(state[:-MORE] + b'\xff' * MORE)
    front.frames(0, 70)
    front.unload()
    expect('no time', is_about(game.shown(), 0), True)


def test_clock_cut(program, core, room):
    """Killed at each sync and rename, the core gives no second twice, and loses two at most."""
    game = Clocked(program, core, room, 'cut')
    game.play()
    game.away(DAY)
    held, begun = (game.save.read_bytes(), game.time.read_bytes()), game.given_until()[1]
    before = game.shown()
    log = room / 'clock.log'

    def cut(point):
        game.save.write_bytes(held[0])
        game.time.write_bytes(held[1])
        log.unlink(missing_ok=True)
        return subprocess.run([sys.executable, '-B', __file__, 'play', core, game.cart, game.folder, '65'], stdout=subprocess.DEVNULL,
                              env=dict(os.environ, LD_PRELOAD=str(disk(room)), DISK_LOG=str(log), KILL_AT=str(point))).returncode
    expect('not cut', cut(-1), 0)
    calls = [line.split()[0] for line in log.read_text().splitlines()]
    points = [point for point, call in enumerate(calls) if call != 'write' or calls[point - 1] != 'write']
    expect('points', len(points) > 12, True)
    for point in points:
        cut(point)
        told = game.play(1)
        off = game.given_until()[1] - begun - (game.shown() - before)
        expect(f'killed at {point}: told, and off', (told, off in (0, 1, 2), abs(game.given_until()[1] - time.time()) < 30), ([], True, True))


def values_of(option):
    """The values that an option of version 2 offers."""
    values = []
    while option.values[len(values)].value:
        values.append(option.values[len(values)].value.decode())
    return values


def test_options(program, core, room):
    """Options as they are offered, by a front end that knows their help, and by older ones; and those, and counts, that no front end offers."""
    folder = room / 'options'
    folder.mkdir()
    offered = FrontEnd(core, folder).offered
    expect('the keys', list(offered), [f'gbkeep_{key}' for key in ('palette', 'import', 'export', 'save_seconds', 'time_away', 'messages')])
    for key, option in offered.items():
        info, values = option.info.decode(), values_of(option)
        expect(f'{key}: a help text', (len(info) > 30, info[-1], len(values) > 1, option.default), (True, '.', True, None))
        # a name that is longer is cut where a handheld's menu shows it beside a value
        expect(f'{key}: its name', len(option.desc) <= 34, True)
    for version in (None, 0, 1):
        old = FrontEnd(core, folder, version=version).offered
        expect(f'in the form of version {version}', old, {key: f"{option.desc.decode()}; {'|'.join(values_of(option))}" for key, option in offered.items()})
    for seconds in ('1073741824', '0', '-1', '99999999999999999999', '3601', 'many', '1 ', ''):
        front = FrontEnd(core, folder, save_seconds=seconds, palette='none', messages='all')
        front.load(CART)
        front.frames(0, 61)
        front.unload()
        expect(f'saves every {seconds!r} seconds', [text.split()[0] for text in front.told], ['resumed', 'saved'] + ['saved'] * (len(front.told) - 2))
    # as fast as can be, where saves are an hour apart
    front = FrontEnd(core, folder, save_seconds='3600', messages='all')
    front.load(CART)
    front.looks, first = False, int(front.told[0].split()[1])
    front.frames(0, 10_000)
    front.unload()
    expect('an hour between saves', (front.told[-1], 3 <= len(front.told) <= 9), (f'saved {first + 10_000}', True))
    # the greatest count of inputs
    most, save = room / 'most', 'demo.gbkeep'
    most.mkdir()
    shutil.copy(folder / save, most)
    content = bytearray((most / save).read_bytes())
    for root in (0, 512):
        content[root + 52:root + 60] = bytes([0xff] * 8)
    # the log counts, too
    for sector in range(512, len(content), 512):
        if content[sector:sector + 4] == b'GBL2':
            content[sector:sector + 512] = bytes(512)
    (most / save).write_bytes(content)
    began, front = time.monotonic(), FrontEnd(core, most, messages='all')
    front.load(CART)
    front.frames(0, 3)
    front.unload()
    expect('2^64 - 1 inputs', ('resumed 18446744073709551615' in front.told, any('count full' in text for text in front.told)), (True, True))
    expect('soon', time.monotonic() - began < 20, True)


def measure(core, room):
    folder = room / 'speed'
    folder.mkdir()
    front = FrontEnd(core, folder)
    front.load(CART)
    front.looks = False
    before, began = os.times(), time.monotonic()
    front.frames(RIGHT, 3000)
    passed, after = time.monotonic() - began, os.times()
    size = front.core.retro_serialize_size()
    state = ctypes.create_string_buffer(size)
    began = time.monotonic()
    for _ in range(3000):
        front.core.retro_serialize(state, size)
        front.core.retro_unserialize(state, size)
    states = time.monotonic() - began
    front.unload()
    print(f'3,000 frames in {passed:.2f} s, {after.user + after.system - before.user - before.system:.2f} s of processor time; '
          f'3,000 states told and taken back in {states:.2f} s')


def play(core, cart, folder, frames):
    """Plays so many frames, with a state that is taken back and the power switch on the way, and prints what the core tells."""
    front = FrontEnd(core, folder, messages='all')
    front.load(cart)
    front.looks = False
    shown, state = 0, None
    for number in range(int(frames)):
        front.frames(RIGHT, 1)
        if number % 200 == 40:
            state = front.state()
        elif number % 200 == 70 and state:
            front.restore(state)
        elif number == 130:
            front.core.retro_reset()
        for line in front.told[shown:]:
            print(line, flush=True)
        shown = len(front.told)
    front.unload()
    for line in front.told[shown:]:
        print(line, flush=True)


def main():
    words = sys.argv[1:]
    if len(words) == 5 and words[0] == 'play':
        return play(*words[1:])
    if len(words) == 6 and words[0] == 'leave':
        return leave(*words[1:])
    if len(words) == 5 and words[0] == 'slow':
        return slow(*words[1:])
    if len(words) == 5 and words[0] == 'streams':
        return streams(*words[1:])
    if len(words) != 2:
        sys.exit(__doc__)
    program, core = (os.path.abspath(word) for word in words)
    with tempfile.TemporaryDirectory(prefix='libretro-') as folder:
        room = Path(folder)
        tests = (test_play, test_same, test_states, test_ahead, test_twice, test_closed_streams, test_memory, test_carts,
                 test_battery, test_battery_left, test_faults, test_disk, test_battery_cut, test_slow, test_power, test_options, test_clock, test_clock_back,
                 test_crafted_times, test_files_of_others, test_owner, test_clock_cut)
        for test in tests:
            test(program, core, room)
        measure(core, room)
    print(f'libretro core: {len(tests)} tests')


if __name__ == '__main__':
    main()
