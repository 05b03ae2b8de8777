"""Tests of libgbkeep as it is built: in C by examples/library/play.c, linked in each way and killed at each call, and in Python.

usage: test_library.py GBKEEP [LIBRARY]     LIBRARY: a folder with all that `make library` leaves (bin of the clone)

CC names the C compiler. Where it has the sanitizers, play.c is built with them."""
import array
import contextlib
import ctypes
import hashlib
import itertools
import json
import os
import random
import shlex
import shutil
import signal
import subprocess
import sys
import tempfile
import threading
import time
import unittest
from pathlib import Path
from unittest import mock

HERE = Path(__file__).resolve().parent
TOP = HERE.parent
from gbkeep import AnyGame, AnyMachine, DebugMachine, Game, Machine, NoState, Refused, Session, header_of, save_files, sectors_needed
from gbkeep.library import BEFORE, BEHIND, ELSEWHERE, FAR_BEFORE, FAR_BEHIND, HERE, NO_TIME, NOTHING, OLDER, Clock, clock_lines, find_library, look_at_clock
from gbkeep.pictures import shades_of
from scripts.doctor import tries

PROGRAM, LIBRARY = 'bin/gbkeep', TOP / 'bin'
DEMO = TOP / 'examples/demo/demo.gb'
ROM = DEMO.read_bytes()
SCRIPT = b'frames 00 40\nframes 80 4\nsave\nframes 11 30\nsave\nseconds 7\nframe 10\nsave\nframes 01 90\n'
SECTOR = 512
CART = save_files.Cartridge(ROM)
# what each state begins with; another ROM has the same controller and RAM
HEADER = b'GBSTATE1' + hashlib.sha256(ROM).digest()
OTHER_ROM = ROM[:-1] + bytes([ROM[-1] ^ 1])
# a process that saves behind each frame: of each quarter the bytes of its memory and its seconds
LONG_SESSION = """
import json, sys, time
from gbkeep import Session
session = Session(sys.argv[1])
def some():
    began = time.process_time()
    for _ in range(4000):
        session.frames(0)
        session.save()
        for call in session.calls():
            pass
    return int(open('/proc/self/statm').read().split()[1]) * 4096, time.process_time() - began
print(json.dumps([some() for _ in range(4)]))
"""
# codes of gbkeep.h
DONE, DAMAGED_SNAPSHOT, OTHER_CARTRIDGE, SAVE_FIRST = 0, 6, 10, 15


def run(*words, **how):
    how.setdefault('timeout', 120)
    return subprocess.run([str(word) for word in words], stdout=subprocess.PIPE, stderr=subprocess.PIPE, **how)


def lines_of(result):
    return result.stdout.decode().splitlines()


class InFolder(unittest.TestCase):
    def setUp(self):
        self.folder = Path(tempfile.mkdtemp())
        self.addCleanup(shutil.rmtree, self.folder)
        self.script = self.folder / 'script'
        self.script.write_bytes(SCRIPT)

    def gbkeep(self, *words, status=0):
        result = run(PROGRAM, *words)
        self.assertEqual((result.returncode, result.stderr), (status, b'') if status == 0 else (status, result.stderr))
        return lines_of(result)

    def picture_of(self, save):
        """The picture that the program draws of a save file, as shades."""
        out = self.folder / 'picture.pgm'
        out.unlink(missing_ok=True)
        self.gbkeep('frame', DEMO, save, out)
        return shades_of(out.read_bytes())


class Playing(InFolder):
    """examples/library/play.c: a SAVE is a SAVE."""
    @classmethod
    def setUpClass(cls):
        cls.built = tempfile.mkdtemp()
        cls.addClassCleanup(shutil.rmtree, cls.built)
        cls.play = Path(cls.built) / 'play'
        compiler = os.environ.get('CC', 'cc')
        base = [compiler, '-std=c11', '-O1', '-g', '-Wall', '-Wextra', f'-I{LIBRARY}', TOP / 'examples/library/play.c', LIBRARY / 'libgbkeep.a', '-o', cls.play]
        checked = run(*base, '-fsanitize=address,undefined', '-fno-sanitize-recover=all')
        if checked.returncode != 0:
            tries('the library for C, under the sanitizers', 'sanitizers')
            plain = run(*base)
            if plain.returncode != 0:
                raise AssertionError(plain.stderr.decode())

    def c(self, save, *more, status=0, script=None):
        result = run(self.play, DEMO, save, script or self.script, *more)
        self.assertEqual(result.returncode, status, result.stderr)
        self.assertEqual(result.stderr, b'')
        return lines_of(result)

    def test_a_new_game_is_the_program_s_byte_by_byte(self):
        ours, theirs = self.folder / 'ours', self.folder / 'theirs'
        printed = self.c(ours)
        sectors = ours.stat().st_size // SECTOR
        self.assertEqual(self.gbkeep('new', DEMO, theirs, sectors), ['begun 0'])
        # the program takes the new game up, by a checkpoint of its own, so it is taken up here too
        self.assertEqual(printed[0], 'begun 0')
        self.assertEqual(printed[1:], self.gbkeep('play', DEMO, theirs, self.script)[1:])
        self.assertEqual(self.picture_of(ours), self.picture_of(theirs))

    def test_it_goes_on_where_the_program_stopped_and_the_other_way_round(self):
        ours, theirs = self.folder / 'ours', self.folder / 'theirs'
        self.gbkeep('new', DEMO, theirs)
        shutil.copy(theirs, ours)
        for turn in range(4):
            self.assertEqual(self.c(ours) if turn % 2 == 0 else self.gbkeep('play', DEMO, ours, self.script), self.gbkeep('play', DEMO, theirs, self.script))
            self.assertEqual(ours.read_bytes(), theirs.read_bytes())

    def test_what_is_left_at_each_call_stands_for_what_was_told(self):
        start = self.folder / 'start'
        self.gbkeep('new', DEMO, start)
        whole = self.folder / 'whole'
        shutil.copy(start, whole)
        self.assertEqual(self.c(whole)[0], 'resumed 0')
        seen = set()
        for calls in range(200):
            save = self.folder / 'save'
            shutil.copy(start, save)
            result = run(self.play, DEMO, save, self.script, calls)
            told = [int(line.split()[1]) for line in lines_of(result)]
            count, _, _ = save_files.looked_at(save.read_bytes(), CART)
            self.assertGreaterEqual(count, max(told, default=0))
            seen.add(count)
            if result.returncode == 0:
                self.assertEqual(save.read_bytes(), whole.read_bytes())
                break
            self.assertEqual(result.returncode, 137)
            # and the program goes on with it
            self.assertEqual(self.gbkeep('play', DEMO, save, self.script)[0], f'resumed {count}')
        else:
            self.fail('200 calls were not enough')
        self.assertGreater(len(seen), 3)

    def test_what_is_refused_is_a_line(self):
        for content in (b'', bytes(SECTOR), bytes(200 * SECTOR), bytes(1000)):
            save = self.folder / 'bad'
            save.write_bytes(content)
            result = run(self.play, DEMO, save, self.script)
            self.assertEqual((result.returncode, result.stderr.count(b'\n')), (1, 1), result.stderr)
            self.assertEqual(save.read_bytes(), content)
        result = run(self.play, self.script, self.folder / 'new', self.script)
        self.assertEqual((result.returncode, result.stderr.startswith(b'play: rom length: ')), (1, True), result.stderr)
        # zeros may be a battery file
        for length in (8192, 32768, SECTOR * sectors_needed(ROM)):
            save.write_bytes(bytes(length))
            result = run(self.play, DEMO, save, self.script)
            said = b'play: no session: there is no game in SAVE, and it stays as it is: name another file, and a game is begun there\n'
            self.assertEqual((result.returncode, result.stderr, save.read_bytes() == bytes(length)), (1, said, True))

    def test_a_recorded_game_is_not_played(self):
        save, recording, mark = (self.folder / name for name in ('save', 'recording', 'save.recorded'))
        self.gbkeep('new', DEMO, save)
        self.gbkeep('new-recording', DEMO, recording, 100)
        result = run(PROGRAM, 'record', DEMO, save, recording, input=b'frames 00 40\nsave\n')
        self.assertEqual((result.returncode, mark.exists()), (0, True), result.stderr)
        (self.folder / 'elsewhere').mkdir()
        link = self.folder / 'elsewhere/link'
        link.symlink_to(save)
        held = save.read_bytes(), recording.read_bytes(), mark.read_bytes()
        for name in (save, link):
            result = run(self.play, DEMO, name, self.script)
            self.assertTrue((save.read_bytes(), recording.read_bytes(), mark.read_bytes()) == held)
            self.assertEqual((result.returncode, result.stdout, result.stderr),
                             (1, b'', b'play: recorded game: play it by `gbkeep record`; to end the recording, remove SAVE.recorded\n'))
        self.gbkeep('verify', DEMO, save, recording)
        # without its recording it goes on
        mark.unlink()
        self.assertEqual(self.c(link)[0], 'resumed 40')

    def test_a_new_game_that_is_cut_leaves_none_or_one(self):
        save = self.folder / 'save'
        for calls in range(1000):
            result = run(self.play, DEMO, save, self.script, calls)
            self.assertEqual(result.returncode, 137, result.stderr)
            if save.exists():
                # what has the name is a game, and it has no other name
                self.assertEqual((save_files.looked_at(save.read_bytes(), CART)[0], save.stat().st_nlink), (0, 1))
                break
            left = self.folder / 'save.new-1'
            self.assertEqual(sorted(self.folder.iterdir()), sorted([left, self.script]))
            left.unlink()
        else:
            self.fail('1,000 calls were not enough')
        self.assertGreater(calls, 2)
        self.assertEqual(self.c(save)[0], 'resumed 0')

    def test_nothing_that_is_there_is_replaced(self):
        save = self.folder / 'save'
        save.symlink_to('nowhere')
        result = run(self.play, DEMO, save, self.script)
        self.assertEqual((result.returncode, result.stderr.count(b'\n'), sorted(os.listdir(self.folder))), (1, 1, ['save', 'script']), result.stderr)
        save.unlink()
        # a file that others have is none of a new game's
        other = self.folder / 'save.new-1'
        other.write_bytes(b'mine')
        self.assertEqual(self.c(save)[0], 'begun 0')
        self.assertEqual((other.read_bytes(), sorted(os.listdir(self.folder))), (b'mine', ['save', 'save.new-1', 'script']))

    def test_what_is_printed_goes_into_no_file(self):
        start, whole, script = (self.folder / name for name in ('start', 'whole', 'wrong'))
        self.gbkeep('new', DEMO, start)
        # a refusal at the end is printed, too
        script.write_bytes(SCRIPT + b'save\nno line\n')
        shutil.copy(start, whole)
        self.assertEqual(run(self.play, DEMO, whole, script).returncode, 1)
        for closed in ('0<&-', '1>&-', '2>&-', '1>&- 2>&-', '0<&- 2>&-', '0<&- 1>&-', '0<&- 1>&- 2>&-'):
            for given in [script] + ['-'] * ('0<&-' not in closed):
                with self.subTest(closed=closed, script=given):
                    save = self.folder / 'save'
                    shutil.copy(start, save)
                    result = run('sh', '-c', f'exec "$@" {closed}', 'sh', self.play, DEMO, save, given, input=script.read_bytes())
                    self.assertEqual((result.returncode, save.read_bytes() == whole.read_bytes()), (1, True), result.stderr)
        # without standard input there is no script on it
        shutil.copy(start, save)
        result = run('sh', '-c', 'exec "$@" 0<&-', 'sh', self.play, DEMO, save, '-')
        self.assertEqual((result.returncode, result.stderr), (1, b"play: SCRIPT can't be read\n"))


class Linked(InFolder):
    """A program that is linked with the shared library where it lies starts, and plays."""
    def plays(self, *flags):
        play = self.folder / 'play'
        built = run(os.environ.get('CC', 'cc'), '-o', play, TOP / 'examples/library/play.c', *flags)
        self.assertEqual((built.returncode, built.stderr), (0, b''))
        result = run(play, DEMO, self.folder / 'save', self.script, env={'PATH': os.environ['PATH']})
        self.assertEqual((result.returncode, result.stderr, lines_of(result)[0]), (0, b'', 'begun 0'))

    def test_by_its_folder(self):
        self.plays(f'-I{LIBRARY}', f'-L{LIBRARY}', '-lgbkeep', f'-Wl,-rpath,{LIBRARY}')

    def test_by_its_settings(self):
        if not tries('a program by gbkeep.pc', 'pkg-config'):
            self.skipTest('there is no pkg-config')
        said = run('pkg-config', '--cflags', '--libs', 'gbkeep', env=dict(os.environ, PKG_CONFIG_PATH=str(LIBRARY)))
        self.assertEqual((said.returncode, said.stderr), (0, b''))
        self.plays(*shlex.split(said.stdout.decode()), f'-Wl,-rpath,{LIBRARY}')


class InPython(InFolder):
    def test_a_machine_plays_as_the_program_does(self):
        save = self.folder / 'save'
        self.gbkeep('new', DEMO, save)
        self.gbkeep('play', DEMO, save, self.script)
        with Machine(ROM) as machine:
            start = machine.state()
            machine.frames(0, 40)
            machine.frames(0x80, 4)
            machine.frames(0x11, 30)
            machine.seconds(7)
            machine.frames(0x10)
            machine.frames(0x01, 90)
            self.assertEqual(machine.picture().shades, self.picture_of(save))
            # the machine of the save file is that of its snapshot, after the inputs of its log
            state, shades = machine.state(), machine.picture().shades
            machine.frames(0, 5)
            self.assertNotEqual(machine.state(), state)
            machine.restore(state)
            self.assertEqual((machine.state(), machine.picture().shades), (state, shades))
            for damaged in (b'', state[:-1], state + b'\0', b'X' + state[1:], bytes(len(state))):
                with self.assertRaises(NoState):
                    machine.restore(damaged)
                self.assertEqual(machine.state(), state)
            machine.restore(start)
            self.assertEqual(machine.state(), start)
            self.assertEqual(machine.memory(0x0100, 80), ROM[0x0100:0x0150])
            self.assertEqual(machine.memory(0xffff, 3)[1:], ROM[:2])
            machine.restore(state)
            machine.power()
            self.assertEqual(machine.memory(0, 0x4000), ROM[:0x4000])
            ram = CART.ram
            self.assertEqual(machine.state()[:len(start) - ram], start[:len(start) - ram])
            self.assertEqual(machine.state()[len(start) - ram:], state[len(start) - ram:] if ROM[0x147] in (3, 6, 9, 15, 16, 19, 27, 30) else start[len(start) - ram:])
        with self.assertRaises(ValueError):
            machine.frames(0)
        for rom in (b'', bytes(100), bytes(32768 + 1), b'\xff' * 32768):
            with self.assertRaises(Refused):
                Machine(rom)

    def test_a_session_s_state_is_that_of_a_machine_with_its_inputs(self):
        with Machine(ROM) as machine, Session(ROM) as session:
            for buttons, count in ((0, 10), (0x80, 5), (0x01, 30)):
                machine.frames(buttons, count)
                session.frames(buttons, count)
            machine.seconds(3)
            session.seconds(3)
            self.assertEqual((session.state(), session.picture().shades, session.count), (machine.state(), machine.picture().shades, 46))
            session.frames(0, 3200 - 46)
            with self.assertRaises(Refused) as refused:
                session.frames(0)
            self.assertEqual((refused.exception.code, session.count), (15, 3200))
            self.assertEqual(session.save(), 3200)
            session.frames(0)
            self.assertEqual(session.count, 3201)
            # the power switch and a state are inputs, and what they lead to is saved
            state = machine.state()
            machine.restore(state)
            session.restore(state)
            machine.frames(0x10, 7)
            session.frames(0x10, 7)
            machine.power()
            session.power()
            self.assertEqual((session.state(), session.picture().shades, session.count), (machine.state(), machine.picture().shades, 3210))
            for damaged in (b'', state[:-1], state + b'\0', b'X' + state[1:], bytes(len(state))):
                with self.assertRaises(Refused) as refused:
                    session.restore(damaged)
                self.assertEqual((refused.exception.code, session.state(), session.count), (6, machine.state(), 3210))
            self.assertEqual(session.save(), 3210)
            session.frames(0, 3199)
            session.restore(state)
            for refused_input in (session.power, lambda: session.restore(state), lambda: session.frames(0)):
                with self.assertRaises(Refused) as refused:
                    refused_input()
                self.assertEqual((refused.exception.code, session.state(), session.count), (15, state, 6410))
        with self.assertRaises(Refused):
            Session(ROM, sectors=3)
        with self.assertRaises(Refused):
            Session(ROM, bytes(1000))

    def test_a_state_is_a_header_of_its_rom_and_a_snapshot(self):
        save = self.folder / 'save'
        self.gbkeep('new', DEMO, save)
        self.script.write_bytes(b'frames 80 4\nframes 01 30\nsave\n')
        self.gbkeep('play', DEMO, save, self.script)
        shown = self.gbkeep('show', DEMO, save)
        with Machine(ROM) as machine, Session(ROM) as session, Machine(OTHER_ROM) as other:
            for one in (machine, session, other):
                one.frames(0x80, 4)
                one.frames(0x01, 30)
                state = one.state()
                self.assertEqual((len(state), one.state_length()), (40 + CART.length, 40 + CART.length))
                self.assertIn('state ' + hashlib.sha256(state[40:]).hexdigest(), shown)
                self.assertTrue(save_files.is_legal(state[40:], CART))
                self.assertEqual(state[:40], HEADER if one is not other else b'GBSTATE1' + hashlib.sha256(OTHER_ROM).digest())

    def test_a_state_is_taken_by_its_own_rom_alone(self):
        with Machine(ROM) as machine, Session(ROM) as session, Machine(OTHER_ROM) as other:
            def codes_of(one, given):
                return [one._call('restore', state, len(state)) for state in given]

            for one in (machine, session, other):
                one.frames(0x80, 4)
            own, foreign = machine.state(), other.state()
            # no matter what stands behind the header
            of_another = [foreign, foreign[:40], foreign[:-1], foreign + b'x', foreign[:40] + own[40:], foreign[:40] + bytes(len(own) - 40)]
            # no header, a part of one, another mark; and a state of this ROM of another length, or with a field that is not legal
            damaged = [b'', own[:39], own[40:], foreign[40:], bytes(len(own)), b'GBSTATE2' + own[8:], b'GBSTATE2' + foreign[8:], b'x' + own,
                       own[:40], own[:-1], own + b'x', own[:40] + own, own[:60] + b'\xff' + own[61:]]
            for one in (machine, session):
                one.frames(0x01, 30)
                before, count = one.state(), getattr(one, 'count', 0)
                self.assertEqual(codes_of(one, of_another), [OTHER_CARTRIDGE] * len(of_another))
                self.assertEqual(codes_of(one, damaged), [DAMAGED_SNAPSHOT] * len(damaged))
                self.assertEqual((one.state(), getattr(one, 'count', 0)), (before, count))
                for state in (foreign, foreign[:40]):
                    with self.assertRaises(Refused) as refused:
                        one.restore(state)
                    self.assertEqual((refused.exception.code, refused.exception.line), (OTHER_CARTRIDGE, 'other cartridge'))
            # each bit of the header counts
            for bit in range(320):
                state = bytearray(own)
                state[bit // 8] ^= 1 << bit % 8
                for one in (machine, session):
                    self.assertEqual(codes_of(one, [bytes(state)]), [DAMAGED_SNAPSHOT if bit < 64 else OTHER_CARTRIDGE])
            # why no input is taken comes first
            session.frames(0, 3200 - session.count)
            self.assertEqual(codes_of(session, [own, *of_another, *damaged]), [SAVE_FIRST] * (1 + len(of_another) + len(damaged)))
            session.save()
            self.assertEqual(codes_of(session, [foreign, own[40:], own]), [OTHER_CARTRIDGE, DAMAGED_SNAPSHOT, DONE])
            self.assertEqual((session.state(), session.count), (own, 3201))
            self.assertEqual((codes_of(other, [own, foreign]), other.state()), ([OTHER_CARTRIDGE, DONE], foreign))

    def test_a_battery_file_begins_a_game_and_comes_out_as_by_the_program(self):
        chance = random.Random(1)
        cart, battery, theirs, out = (self.folder / name for name in ('cart.gb', 'battery', 'theirs', 'out'))

        def with_type(kind, ram_code):
            rom = bytearray(ROM)
            rom[0x147], rom[0x149] = kind, ram_code
            return bytes(rom)

        # MBC1, MBC2, MBC3 with its clock, a battery without RAM
        for rom, lengths in ((ROM, [CART.ram]), (with_type(0x06, 0), [512]), (with_type(0x10, 2), [8192, 8192 + 44, 8192 + 48]), (with_type(0x03, 0), [0])):
            cart.write_bytes(rom)
            for length in lengths:
                file = chance.randbytes(length)
                battery.write_bytes(file)
                theirs.unlink(missing_ok=True)
                out.unlink(missing_ok=True)
                self.assertEqual(self.gbkeep('import', cart, battery, theirs), ['begun 0'])
                with Session(rom, battery=file) as session:
                    disk = bytearray(SECTOR * sectors_needed(rom))

                    def make_calls():
                        for call in session.calls():
                            if call.bytes is not None:
                                disk[call.sector * SECTOR:(call.sector + 1) * SECTOR] = call.bytes

                    make_calls()
                    self.assertEqual((bytes(disk), session.count), (theirs.read_bytes(), 0))
                    session.frames(0x80, 4)
                    session.frames(0x01, 100)
                    session.seconds(100_000)
                    session.save()
                    make_calls()
                    theirs.write_bytes(disk)
                    self.assertEqual(self.gbkeep('export', cart, theirs, out), ['exported 105'])
                    self.assertEqual(session.battery(), out.read_bytes())
            # the same refusals as the program's, the first that holds
            for file, sectors in ((b'', None), (bytes(lengths[0] + 1), None), (bytes(lengths[0]), 10), (bytes(lengths[0] + 1), 10)):
                battery.write_bytes(file)
                refused = None
                try:
                    Session(rom, battery=file, sectors=sectors).close()
                except Refused as why:
                    refused = why.line
                result = run(PROGRAM, 'import', cart, battery, self.folder / 'refused', *([] if sectors is None else [sectors]))
                (self.folder / 'refused').unlink(missing_ok=True)
                self.assertEqual(result.returncode, 0 if refused is None else 1)
                self.assertTrue(refused is None or result.stderr.startswith(f'gbkeep: {refused}'.encode()), (refused, result.stderr))
        for rom, code in ((bytes(100), 2), (with_type(0xfc, 0), 3), (with_type(0x01, 2), 20)):
            with self.assertRaises(Refused) as refused:
                Session(rom, battery=bytes(8192), sectors=200)
            self.assertEqual(refused.exception.code, code)
        with Session(with_type(0x01, 2)) as session, self.assertRaises(Refused) as refused:
            session.battery()
        self.assertEqual(refused.exception.code, 20)
        with self.assertRaises(Refused):
            Session(ROM, bytes(SECTOR * 300), battery=bytes(CART.ram))

    def test_a_save_that_is_refused_adds_and_loses_no_input(self):
        # the last generation is that of the session: a power switch has none to be saved in, a frame has the log
        with Machine(ROM) as machine:
            snapshot = machine.state()[len(HEADER):]
        game = save_files.Game(bytes(SECTOR * sectors_needed(ROM)), CART)
        game.begin(2 ** 64 - 2, 7, snapshot)
        with Session(ROM, bytes(game.image)) as session:
            begun = [*session.calls()]
            self.assertEqual((len(begun) > 0, begun[-1].bytes, session.count), (True, None, 7))
            session.frames(0)
            self.assertEqual(session.save(), 8)
            self.assertEqual([call.bytes is None for call in session.calls()], [False, True])
            session.power()
            session.frames(0x80)
            state = session.state()
            for _ in range(2):
                with self.assertRaises(Refused) as refused:
                    session.save()
                self.assertEqual((refused.exception.code, session.count, session.state(), [*session.calls()]), (13, 10, state, []))
            disk = bytearray(game.image)
            for call in begun:
                if call.bytes is not None:
                    disk[call.sector * SECTOR:(call.sector + 1) * SECTOR] = call.bytes
            self.assertEqual((save_files.chosen_root(disk)['generation'], save_files.looked_at(disk, CART, False)[0]), (2 ** 64 - 1, 7))
            with self.assertRaises(Refused) as refused:
                Session(ROM, bytes(disk))
            self.assertEqual(refused.exception.code, 13)

    def test_a_long_session_takes_the_memory_and_the_time_of_a_short_one(self):
        printed = run(sys.executable, '-B', '-c', LONG_SESSION, DEMO, check=True).stdout
        (first, quick), *_, (last, slow) = json.loads(printed)
        self.assertLess(last - first, 2 ** 20, printed)
        self.assertLess(slow, 3 * quick + 0.5, printed)

    def test_a_session_that_is_refused_leaves_none(self):
        library, sectors = ctypes.CDLL(find_library()), sectors_needed(ROM)
        new = Session(ROM)
        disk = bytearray(SECTOR * sectors)
        for call in new.calls():
            if call.bytes is not None:
                disk[call.sector * SECTOR:(call.sector + 1) * SECTOR] = call.bytes
        new.close()
        rom, battery, image = ROM, bytes(3), bytes(disk)
        for code, name, *given in ((9, 'begin', ctypes.c_uint32(3)), (2, 'begin', ctypes.c_uint32(sectors)),
                                   (21, 'import', battery, ctypes.c_size_t(3), ctypes.c_uint32(sectors)),
                                   (17, 'resume', image, ctypes.c_size_t(1000)), (8, 'resume', bytes(len(image)), ctypes.c_size_t(len(image)))):
            taken = rom[:100] if code == 2 else rom
            out = ctypes.c_void_p(0x1234)
            call = getattr(library, f'gbkeep_session_{name}')
            self.assertEqual((call(taken, ctypes.c_size_t(len(taken)), *given, ctypes.byref(out)), out.value), (code, None), name)
        # and one that is not refused has as many sectors as were asked for
        for more in (0, 1, 100):
            with Session(ROM, sectors=sectors + more) as session:
                session.frames(0, 3)
                session.save()
                disk = bytearray(SECTOR * (sectors + more))
                for one in session.calls():
                    if one.bytes is not None:
                        disk[one.sector * SECTOR:(one.sector + 1) * SECTOR] = one.bytes
                self.assertEqual(save_files.looked_at(disk, CART)[0], 3)

    def test_each_prefix_of_the_calls_and_each_subset_stands_for_what_was_told(self):
        chance = random.Random(1)
        cart = CART
        # a new game; then it is taken up again from what the calls left
        image, given, told = None, 0, 0
        for life in range(3):
            session = Session(ROM) if image is None else Session(ROM, image)
            self.assertEqual(session.count, given)
            disk = bytearray(SECTOR * sectors_needed(ROM)) if image is None else bytearray(image)
            synced, behind, begun = bytes(disk), [], image is not None
            for save in range(12):
                if save:
                    session.frames(chance.randrange(256), chance.randrange(1, 400))
                    if chance.random() < 0.3:
                        kept = session.state()
                        session.frames(chance.randrange(256), chance.randrange(1, 20))
                        session.restore(kept)
                    elif chance.random() < 0.3:
                        session.power()
                    session.frames(chance.randrange(256), chance.randrange(3))
                    now = session.save()
                else:
                    now = given
                for call in session.calls():
                    if call.bytes is None:
                        synced, behind = bytes(disk), []
                    else:
                        disk[call.sector * SECTOR:(call.sector + 1) * SECTOR] = call.bytes
                        behind.append(call)
                    for _ in range(3):
                        left = bytearray(synced)
                        for write in behind:
                            if chance.random() < 0.5:
                                left[write.sector * SECTOR:(write.sector + 1) * SECTOR] = write.bytes
                        try:
                            count, _, _ = save_files.looked_at(left, cart)
                        except save_files.Refused:
                            self.assertFalse(begun)
                            continue
                        self.assertTrue(told <= count <= now, (told, count, now))
                # the calls of a save end with a sync, and what it left is all of it
                self.assertEqual(behind, [])
                begun, told = True, now
                self.assertEqual(save_files.looked_at(disk, cart)[0], told)
            # taken up again, it is the same machine
            with Session(ROM, bytes(disk)) as again:
                self.assertEqual((again.state(), again.count), (session.state(), told))
            session.close()
            image, given = bytes(disk), told


YEAR = 366 * 86_400


class Clocks(unittest.TestCase):
    """The clock of a cartridge: what is written, what is given, and what is asked."""

    def test_a_minute_is_claimed_given_and_due_no_more(self):
        clock = Clock(b'10 1000\n', 10, 1_000_999, 5_000)
        self.assertEqual((clock.until, clock.text(), clock.due(5_000), clock.claim(10, 5_000)), (1_000, b'10 1000\n', 0, b''))
        self.assertEqual((clock.due(65_000), clock.claim(12, 65_000)), (60, b'13 1060\n10 1000\n'))
        self.assertEqual((clock.give(), clock.until), (0, 1_000))
        # what was claimed and not written is due again
        self.assertEqual(clock.claim(14, 66_000), b'15 1061\n10 1000\n')
        clock.claimed()
        self.assertEqual((clock.due(66_000), clock.give(), clock.give(), clock.until), (61, 61, 0, 1_061))
        self.assertEqual((clock.due(66_000), clock.claim(15, 67_000)), (0, b'16 1062\n15 1061\n'))

    def test_a_note_names_a_game_that_was_saved(self):
        clock = Clock(b'10 1000\n', 10, 1_000_000, 0)
        self.assertEqual((clock.note(10), clock.note(70)), (b'', b'70 1000\n'))
        clock.noted()
        self.assertEqual((clock.note(70), clock.claim(70, 1_000)), (b'', b'71 1001\n70 1000\n'))

    def test_a_game_that_goes_back_is_given_the_seconds_again(self):
        clock = Clock(b'10 1000\n', 10, 1_060_000, 0)
        clock.claim(20, 0)
        clock.claimed()
        self.assertEqual(clock.give(), 60)
        clock.go_back(1_020)
        self.assertEqual((clock.due(1_000), clock.note(30), clock.claim(30, 1_000)), (41, b'', b'31 1061\n21 1060\n'))

    def test_a_cut_at_any_write_gives_no_second_twice(self):
        for cut in range(5):
            saved, text, given = 10, b'10 1000\n', []
            clock = Clock(text, saved, 1_100_000, 0)
            if cut > 0:
                text = clock.text()
            if cut > 1:
                text = clock.claim(saved, 0)
            if cut > 2:
                clock.claimed()
                given.append(clock.give())
                if cut > 3:
                    saved += 1
                else:
                    given.pop()
            later = Clock(text, saved, 1_200_000, 0)
            later.claim(saved, 0)
            later.claimed()
            self.assertEqual(sum(given) + later.give(), 200, cut)

    def test_what_is_asked_and_told(self):
        lines = b'10 40000000\n'
        for count, date, wanted in ((10, 40_000_500, (BEHIND, 500, HERE)), (10, 39_999_940, (NOTHING, 0, HERE)), (10, 39_999_939, (BEFORE, 61, HERE)),
                                    (10, 0, (FAR_BEFORE, 40_000_000, HERE)), (10, 40_000_000 + YEAR, (BEHIND, YEAR, HERE)),
                                    (10, 80_000_000, (FAR_BEHIND, 40_000_000, HERE)), (9, 40_000_000, (NOTHING, 0, OLDER)),
                                    (135, 40_000_000, (NOTHING, 0, HERE)), (136, 40_000_001, (BEHIND, 1, ELSEWHERE))):
            found = look_at_clock(lines, count, 125, 1_000 * date)
            self.assertEqual((found.lines, found.away, found.seconds, found.played), (1, *wanted), (count, date))
        found = look_at_clock(b'', 136, 125, 80_000_000_000)
        self.assertEqual((found.lines, found.away, found.seconds, found.played), (0, NOTHING, 0, HERE))

    def test_more_than_a_year_waits_for_an_answer(self):
        date = 1_000 * (1_000 + 400 * 86_400)
        for text, gives, wanted in ((b'10 1000\n', None, (1_000, 0, 5)), (b'10 1000\n', True, (1_000, 400 * 86_400, 400 * 86_400 + 5)),
                                    (b'10 1000\n', False, (34_561_000, 0, 5)), (b'', None, (34_561_000, 0, 5))):
            clock = Clock(text, 10, date, 0, gives)
            self.assertEqual((clock.until, clock.due(0), clock.due(5_000)), wanted, (text, gives))

    def test_texts_that_are_read_and_that_are_not(self):
        most = b'18446744073709551615 99999999999\n'
        for text, wanted in ((b'', []), (b'12 1060\n10 1000', [(12, 1_060), (10, 1_000)]), (most * 8, [(2 ** 64 - 1, 99_999_999_999)] * 8), (b'0 0\n', [(0, 0)])):
            self.assertEqual(clock_lines(text), wanted)
            self.assertEqual(Clock(text, 5, 0, 0).until, max((until for _, until in wanted), default=0))
        for text in (b'\n', b'1', b'1 ', b' 1', b'1  2', b'1 2 3', b'+1 2', b'01 2', b'1 02', b'1 2\r\n', b'1 100000000000', b'18446744073709551616 1', b'1 2\n\n',
                     b'1 \xff', bytes(8), b'1 2\n' * 9, b'1 2\n' * 200):
            for call in (clock_lines, lambda text: Clock(text, 5, 0, 0), lambda text: look_at_clock(text, 5, 125, 0)):
                with self.assertRaises(Refused) as raised:
                    call(text)
                self.assertEqual((raised.exception.code, raised.exception.line), (NO_TIME, 'no time'), text)

    def test_whatever_a_clock_holds_is_answered(self):
        """A host may hand in any numbers; no call fails, and no line names more than the greatest ones."""
        chance = random.Random(1)
        edges = [0, 1, 2 ** 32 - 1, 2 ** 32, 99_999_999_999, 2 ** 63, 2 ** 64 - 1]
        for _ in range(2_000):
            clock = Clock(b'10 1000\n', *(chance.choice(edges) for _ in range(3)))
            for _ in range(4):
                clock.go_back(chance.choice(edges))
                text = clock.claim(chance.choice(edges), chance.choice(edges)) or clock.note(chance.choice(edges))
                self.assertTrue(not text or text.endswith(b'\n') and len(text) <= 84, text)
                clock.claimed()
                self.assertLess(clock.give(), 2 ** 32)


class Index:
    """A number that is none of Python's own, as numpy's are."""

    def __init__(self, value):
        self.value = value

    def __index__(self):
        return self.value


# what each of the four is asked for, in this order, and answers in the same way
CALLS = {
    'frames': lambda one: [one.frames(0x80, Index(4)), one.frames(Index(0x11), 30), one.frame(True), one.frame(), one.frames(0, 0)],
    'seconds': lambda one: one.seconds(Index(7)),
    'memory': lambda one: [one.memory(0xc000, 16), one.memory(Index(0xc001)), one.memory(0xffff, 3)[1:], one.memory(0, Index(0x10000))],
    'memory_into': lambda one: [filled(one.memory_into, bytearray(16), 0xc000), filled(one.memory_into, memoryview(bytearray(9))[2:4], 0xc001),
                                filled(one.memory_into, array.array('H', [0] * 3), Index(0xc000))],
    'picture': lambda one: [one.picture().shades, one.picture().png()],
    'picture_into': lambda one: [filled(one.picture_into, bytearray(23040)), filled(one.picture_into, memoryview(bytearray(23040)).cast('B', (144, 160)))],
    'state': lambda one: one.state(),
    'keep': lambda one: [one.keep(3), one.keep(Index(999)), one.frames(0x10, 9), one.keep(3), one.frames(2, 9), one.state()],
    'back': lambda one: [state for number in (999, Index(3), 3, 999) for state in (one.back(number), one.frame(2), one.state())],
    'restore': lambda one: [(one.frames(1, 7), one.restore(bytearray(state)), one.frame(4), one.state()) for state in [one.state()] * 2],
    'power': lambda one: [one.power(), one.frames(0, 3), one.state()],
}
# and what none of them takes
MISTAKES = [(call, words, kind) for call, kind, all_words in (
    ('frame', ValueError, [(-1,), (256,), (Index(1 << 40),)]), ('frame', TypeError, [(1.0,), ('1',), (None,), (b'1',)]),
    ('frames', ValueError, [(-1, 1), (256, 1), (0, -1), (0, 1 << 32)]), ('frames', TypeError, [(0, 1.0), (0.0, 1), (0, None), ()]),
    ('seconds', ValueError, [(-1,), (1 << 32,)]), ('seconds', TypeError, [(0.5,), ('7',), ()]),
    ('keep', ValueError, [(-1,), (1000,)]), ('keep', TypeError, [(1.0,), (None,)]),
    ('back', ValueError, [(-1,), (1000,), (4,)]), ('back', TypeError, [('4',), (3.0,)]),
    ('memory', ValueError, [(-1,), (0x10000,), (0, 0), (0, -1), (0, 0x10001)]), ('memory', TypeError, [(0.0,), (0, 1.0), (None,)]),
    ('memory_into', ValueError, [(-1, bytearray(1)), (0x10000, bytearray(1)), (0, bytearray()), (0, bytearray(0x10001)), (0, memoryview(bytearray(8))[::2])]),
    ('memory_into', TypeError, [(0, bytes(8)), (0, 8), (0, 'x'), (0.0, bytearray(8))]),
    ('picture_into', ValueError, [(bytearray(23039),), (bytearray(23041),), (bytearray(),), (memoryview(bytearray(46080))[::2],)]),
    ('picture_into', TypeError, [(bytes(23040),), (23040,), (None,)]),
    ('restore', NoState, [(b'',), (b'x' * 100,), (bytes(1 << 21),)]), ('restore', TypeError, [(7,), ('state',), (None,), ([1, 2],)])) for words in all_words]


def filled(call, buffer, *words):
    """What a call leaves in a buffer."""
    call(*words, buffer)
    return bytes(buffer)


class OneProtocol(InFolder):
    """`Machine`, `Session`, `DebugMachine` and `Game` have the same calls, answers and errors, of the name of a cartridge and of its bytes."""

    def setUp(self):
        super().setUp()
        self.made = itertools.count()

    def kinds(self):
        """How each of them is made of a cartridge."""
        return {'Machine': Machine, 'Session': Session, 'DebugMachine': lambda cart: DebugMachine(cart, program=PROGRAM),
                'Game': lambda cart: Game(cart, self.folder / f'game-{next(self.made)}', PROGRAM)}

    def test_the_same_calls_have_the_same_answers(self):
        answers = {}
        for name, make in self.kinds().items():
            for cart in (DEMO, ROM):
                with make(cart) as one:
                    self.assertIsInstance(one, AnyMachine)
                    self.assertEqual(isinstance(one, AnyGame), name in ('Session', 'Game'))
                    answers[name, type(cart)] = {call: ask(one) for call, ask in CALLS.items()}
            for cart in (str(DEMO), bytearray(ROM), memoryview(ROM + b'x')[:-1]):
                with make(cart) as one:
                    self.assertEqual(one.memory(0x0100, 80), ROM[0x0100:0x0150])
        wanted = answers['Machine', bytes]
        self.assertEqual(set(CALLS), set(wanted))
        for who, got in answers.items():
            self.assertEqual([call for call in CALLS if got[call] != wanted[call]], [], who)
        # what is asked for leaves something else each time
        self.assertEqual(len({str(got) for call, got in wanted.items()}), len(CALLS))

    def test_the_same_mistakes_raise_the_same_errors_and_do_nothing(self):
        for name, make in self.kinds().items():
            with self.subTest(name), make(ROM) as one:
                one.frames(0x80, 4)
                one.keep(3)
                before = one.state()
                damaged = [('restore', (state,), NoState) for state in (b'X' + before[1:], before[:-1], before + b'x')]
                for call, words, kind in [*MISTAKES, *damaged]:
                    with self.assertRaises(kind, msg=f'{call}{words}'[:100]) as raised:
                        getattr(one, call)(*words)
                    # a refusal is no answer to a wrong number, and no state is both
                    self.assertEqual(isinstance(raised.exception, Refused), kind is NoState, raised.exception)
                self.assertEqual((one.state(), getattr(one, 'count', 4)), (before, 4))
        for name, make in self.kinds().items():
            for cart in (b'', bytes(100), bytes(32768 + 1), b'\xff' * 32768, self.folder / 'none.gb', self.folder):
                with self.assertRaises(Refused, msg=name) as refused:
                    make(cart)
                self.assertTrue(refused.exception.line and refused.exception.means and refused.exception.advice, vars(refused.exception))
                self.assertEqual(str(refused.exception), f'{refused.exception.line}: {refused.exception.means}; {refused.exception.advice}')
            for cart in (None, 7, [1, 2]):
                with self.assertRaises(TypeError, msg=name):
                    make(cart)

    def test_what_is_closed_is_refused(self):
        for name, make in self.kinds().items():
            one, kind = make(ROM), {'Session': 'session', 'Game': 'game'}.get(name, 'machine')
            one.frame()
            one.keep(3)
            state, told = one.state(), one.save() if isinstance(one, AnyGame) else None
            self.assertIs(one.closed, False)
            one.close()
            one.close()
            self.assertIs(one.closed, True)
            calls = [lambda: one.frame(), lambda: one.frames(0, 3), lambda: one.seconds(1), one.power, lambda: one.keep(3), lambda: one.back(3), one.state,
                     lambda: one.restore(state), lambda: one.memory(0), lambda: one.memory_into(0, bytearray(1)), one.picture,
                     lambda: one.picture_into(bytearray(23040)), one.__enter__]
            calls += [getattr(one, more) for more in ('save', 'settle', 'state_length', 'battery', 'calls') if hasattr(one, more)]
            for call in calls:
                with self.assertRaises(ValueError) as raised:
                    call()
                self.assertEqual((str(raised.exception), type(raised.exception)), (f'the {kind} is closed', ValueError))
            if told is not None:
                self.assertEqual((one.count, one.saved), (told, told))
            one.close()
        # a program that was killed has refused, and is closed from then on
        for make in (lambda: Game(ROM, self.folder / 'killed', PROGRAM), lambda: DebugMachine(ROM, program=PROGRAM)):
            one = make()
            one.process.kill()
            with self.assertRaises(Refused):
                one.frame()
                one.state()
            with self.assertRaisesRegex(ValueError, 'is closed'):
                one.state()
            one.close()

    def test_a_refusal_within_a_block_is_the_one_that_is_told(self):
        for make in (lambda: Game(ROM, self.folder / 'killed', PROGRAM), lambda: DebugMachine(ROM, program=PROGRAM)):
            with self.assertRaises(Refused):
                with make() as one:
                    one.process.kill()
                    one.state()

    def test_a_cartridge_of_bytes_leaves_no_file_and_no_descriptor(self):
        folder = self.folder / 'temporary'
        folder.mkdir()
        for is_in_memory in (True, False):
            with mock.patch.dict(os.environ, TMPDIR=str(folder)), mock.patch.object(tempfile, 'tempdir', None), contextlib.ExitStack() as stack:
                if not is_in_memory:
                    stack.enter_context(mock.patch.object(os, 'memfd_create', side_effect=OSError))
                before = sorted(os.listdir('/proc/self/fd'))
                for cart in (ROM, bytes(100)):
                    with contextlib.suppress(Refused), DebugMachine(cart, program=PROGRAM) as machine:
                        machine.frame()
                    with contextlib.suppress(Refused), Game(cart, self.folder / f'game-{next(self.made)}', PROGRAM) as game:
                        # what has read the cartridge needs no file of it
                        self.assertEqual((list(folder.iterdir()), game.memory(0x0100, 80)), ([], ROM[0x0100:0x0150]))
                self.assertEqual(header_of(ROM, PROGRAM), header_of(DEMO, PROGRAM))
                self.assertEqual((list(folder.iterdir()), sorted(os.listdir('/proc/self/fd'))), ([], before))
        # with a recording, too, which the name of the cartridge goes on with
        save, recording = self.folder / 'recorded', self.folder / 'recording'
        for cart, count in ((ROM, 5), (DEMO, 10)):
            with Game(cart, save, PROGRAM, recording) as game:
                game.frames(0x80, 5)
            self.assertEqual(game.saved, count)

    def test_threads_play_at_once_and_one_machine_waits_for_its_calls(self):
        with Machine(ROM) as machine, Machine(ROM) as alone:
            times, ticks = [], []

            def play():
                times.append(time.monotonic())
                machine._call('frames', 0, 40_000)
                times.append(time.monotonic())
            player = threading.Thread(target=play)
            player.start()
            while player.is_alive():
                ticks.append(time.monotonic())
            # a call that kept Python to itself would leave no time between its begin and its end
            seen = [times[0], *(tick for tick in ticks if times[0] < tick < times[1]), times[1]]
            self.assertLess(max(after - before for before, after in itertools.pairwise(seen)), (times[1] - times[0]) / 2)
            # several threads that give one machine the same: no frame is lost, and nothing breaks
            calls = (lambda: machine.frames(0, 7), lambda: machine._call('frames', 0, 7)) * 2
            players = [threading.Thread(target=lambda call=call: [call() for _ in range(300)]) for call in calls]
            for player in players:
                player.start()
            for player in players:
                player.join()
            alone.frames(0, 40_000 + 4 * 300 * 7)
            self.assertEqual(machine.state(), alone.state())

    def test_a_machine_that_is_closed_in_a_call_is_freed_behind_it(self):
        for _ in range(20):
            machine, session, ended = Machine(ROM), Session(ROM), []

            def play(one):
                try:
                    while True:
                        one.frames(0, 50)
                        if one is session:
                            one.save()
                except ValueError as error:
                    ended.append(str(error))
            players = [threading.Thread(target=play, args=(one,)) for one in (machine, machine, session)]
            for player in players:
                player.start()
            time.sleep(0.01)
            machine.close()
            session.close()
            for player in players:
                player.join(60)
            self.assertEqual(sorted(ended), ['the machine is closed'] * 2 + ['the session is closed'])

    def test_a_ctrl_c_ends_a_long_play(self):
        # what a shell starts in the background ignores it
        self.addCleanup(signal.signal, signal.SIGINT, signal.signal(signal.SIGINT, signal.default_int_handler))
        with Machine(ROM) as machine:
            threading.Timer(0.3, os.kill, (os.getpid(), signal.SIGINT)).start()
            began = time.monotonic()
            with self.assertRaises(KeyboardInterrupt):
                machine.frames(0, 4_000_000)
            self.assertLess(time.monotonic() - began, 10)
            machine.frame()

    def test_a_session_copies_its_memories(self):
        with Session(DEMO) as session:
            session.frames(0x80, 40)
            state = session.state()

            def region(which, length):
                room = ctypes.create_string_buffer(b'\xa5' * (length + 1), length + 1)
                return session._call('region', which, room, length), room.raw[:length], room.raw[length]

            for which, length, wanted in ((0, 0x2000, session.memory(0x8000, 0x2000)), (1, 0x2000, session.memory(0xc000, 0x2000)),
                                          (2, 160, session.memory(0xfe00, 160)), (3, 127, session.memory(0xff80, 127)), (4, 0x8000, state[22647:])):
                self.assertEqual(region(which, length), (0, wanted, 0xa5))
                self.assertEqual(region(which, length // 2), (0, wanted[:length // 2], 0xa5))
                self.assertEqual(region(which, length + 1), (18, b'\xa5' * (length + 1), 0xa5))
            self.assertEqual(region(5, 1), (18, b'\xa5', 0xa5))
            self.assertEqual(session.state(), state)

    def test_a_session_reads_memory_and_keeps_states_as_inputs(self):
        with Session(ROM) as session, Machine(ROM) as machine:
            for one in (session, machine):
                one.frames(0x80, 4)
                one.keep(0)
                one.frames(1, 29)
            # behind each kind of input
            for given in (lambda one: one.frame(2), lambda one: one.seconds(3), lambda one: one.power(), lambda one: one.back(0),
                          lambda one: one.frames(1, 30)):
                for one in (session, machine):
                    given(one)
                self.assertEqual(session.memory(0xc000, 256), machine.memory(0xc000, 256))
            self.assertEqual((session.count, session.saved), (67, 0))
            self.assertEqual((session.save(), session.saved), (67, 67))
            for one in (session, machine):
                one.back(0)
            self.assertEqual((session.memory(0xc000, 256), session.count, session.saved), (machine.memory(0xc000, 256), 68, 67))
            session.frames(0, 3199)
            for refused_input in (lambda: session.back(0), session.power, lambda: session.frame()):
                with self.assertRaises(Refused) as refused:
                    refused_input()
                self.assertEqual((refused.exception.code, session.count), (15, 3267))
            disk = bytearray(SECTOR * sectors_needed(DEMO))
            session.save()
            for call in session.calls():
                if call.bytes is not None:
                    disk[call.sector * SECTOR:(call.sector + 1) * SECTOR] = call.bytes
        with Session(DEMO, disk) as again:
            self.assertEqual((again.count, again.saved), (3267, 3267))
            again.frames(0, 3)
        self.assertEqual((again.count, again.saved), (3270, 3267))


if __name__ == '__main__':
    if not 2 <= len(sys.argv) <= 3:
        sys.exit('usage: test_library.py GBKEEP [LIBRARY]')
    PROGRAM = os.path.abspath(sys.argv[1])
    if len(sys.argv) == 3:
        LIBRARY = Path(sys.argv[2]).resolve()
    for needed in (PROGRAM, LIBRARY / 'libgbkeep.a', LIBRARY / 'libgbkeep.so'):
        if not Path(needed).exists():
            sys.exit(f'test_library.py: {needed} is not there')
    os.environ['GBKEEP_LIBRARY'] = str(LIBRARY / 'libgbkeep.so')
    unittest.main(argv=sys.argv[:1])
