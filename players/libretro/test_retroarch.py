#!/usr/bin/env python3
"""Plays by the core in Debian's RetroArch, on a display of its own: a game in a .zip, another core's save, without standard streams, states, rewind, reset, running ahead, and one
that is killed and goes on.

usage: test_retroarch.py GBKEEP CORE     the status is 1 at the first difference

It needs Debian's retroarch and xvfb. RetroArch is driven by its network commands."""
import os
import shutil
import signal
import socket
import subprocess
import sys
import tempfile
import time
import zipfile
from pathlib import Path

HERE = Path(__file__).resolve().parent
from gbkeep import Machine, Session
from gbkeep.save_files import Cartridge, Refused, looked_at, root_of
from gbkeep_tests.support import CART, expect, wrong
from test_libretro import shades_of

SETTINGS = {'video_driver': 'gl', 'audio_driver': 'null', 'input_driver': 'x', 'joypad_driver': 'null', 'menu_driver': 'null', 'log_verbosity': 'true',
            'savefiles_in_content_dir': 'false', 'savestates_in_content_dir': 'false', 'config_save_on_exit': 'false', 'core_info_cache_enable': 'false',
            'sort_savefiles_enable': 'false', 'sort_savefiles_by_content_enable': 'false', 'sort_savestates_enable': 'false', 'sort_savestates_by_content_enable': 'false',
            'video_vsync': 'false', 'vrr_runloop_enable': 'true', 'history_list_enable': 'false', 'cheevos_enable': 'false', 'network_cmd_enable': 'true',
            'pause_nonactive': 'false', 'content_runtime_log': 'false', 'savestate_file_compression': 'false'}
AHEAD = {'run_ahead_enabled': 'true', 'run_ahead_frames': '2'}
# a state without the cartridge's RAM, in which the demo counts frames, and where its snapshot begins
HEADER = 40
STATE = HEADER + 22607
RAM, LENGTH, OAM = 0xc000, 0x2000, 0xfe00


class Screen:
    """A display of its own."""

    def __init__(self):
        read, write = os.pipe()
        self.process = subprocess.Popen(['Xvfb', '-displayfd', str(write), '-screen', '0', '800x600x24'], pass_fds=[write], stderr=subprocess.DEVNULL)
        os.close(write)
        with os.fdopen(read) as said:
            self.name = f':{said.readline().strip()}'

    def close(self):
        self.process.terminate()
        self.process.wait()


class RetroArch:
    """A RetroArch of its own folders, with these settings more."""

    def __init__(self, core, room, screen):
        self.room, self.screen, self.saves, self.states = room, screen, room / 'saves', room / 'states'
        for folder in ('saves', 'states', 'cache', 'home', 'cores'):
            (room / folder).mkdir()
        # with what the core says of itself beside it
        self.core = Path(shutil.copy(core, room / 'cores'))
        shutil.copy(HERE / 'gbkeep_libretro.info', room / 'cores')
        self.process = None

    def start(self, cart, *words, closed='', **settings):
        """Starts it, without the standard streams that a shell closes by `closed`."""
        with socket.socket(socket.AF_INET, socket.SOCK_DGRAM) as free:
            free.bind(('127.0.0.1', 0))
            self.port = free.getsockname()[1]
        folders = {'savefile_directory': self.saves, 'savestate_directory': self.states, 'cache_directory': self.room / 'cache', 'system_directory': self.room / 'home',
                   'libretro_info_path': self.room / 'cores', 'libretro_directory': self.room / 'cores', 'network_cmd_port': self.port}
        (self.room / 'retroarch.cfg').write_text(''.join(f'{name} = "{value}"\n' for name, value in {**SETTINGS, **folders, **settings}.items()))
        home = str(self.room / 'home')
        self.log = self.room / 'log'
        shell = ['sh', '-c', f'exec "$@" {closed}', 'sh']
        self.process = subprocess.Popen([*shell, 'retroarch', '--config', self.room / 'retroarch.cfg', '--verbose', '-L', self.core, *words, cart], cwd=self.room,
                                        env=dict(os.environ, HOME=home, XDG_CONFIG_HOME=home, DISPLAY=self.screen.name), stdout=open(self.log, 'w'), stderr=subprocess.STDOUT)
        return self

    def lines(self):
        """What the core has logged."""
        return [line.split('gbkeep: ', 1)[1] for line in self.log.read_text(errors='replace').splitlines() if 'gbkeep: ' in line]

    def told(self):
        """The greatest count that was told."""
        return max(int(line.split()[1]) for line in self.lines() if line.startswith(('resumed', 'saved')))

    def until(self, is_so, what):
        limit = time.monotonic() + 60
        while not is_so():
            if time.monotonic() > limit or self.process.poll() is not None:
                sys.exit(f'{what}: {self.log.read_text(errors="replace")[-3000:]}')
            time.sleep(0.05)

    def until_played(self, more=70):
        """Until the core has told of so many inputs more."""
        self.until(lambda: any(line.startswith('resumed') for line in self.lines()), 'it begins')
        count = self.told()
        self.until(lambda: self.told() >= count + more, 'it plays')

    def say(self, command):
        """Sends a command; one that asks is answered."""
        with socket.socket(socket.AF_INET, socket.SOCK_DGRAM) as to:
            to.settimeout(5)
            to.sendto(command.encode(), ('127.0.0.1', self.port))
            if command.split()[0] in ('GET_STATUS', 'READ_CORE_MEMORY', 'WRITE_CORE_MEMORY'):
                return to.recv(1 << 16).decode().strip()
        time.sleep(0.1)
        return None

    def memory(self, start=RAM, length=LENGTH):
        got = b''
        while len(got) < length:
            got += bytes.fromhex(''.join(self.say(f'READ_CORE_MEMORY {start + len(got):x} {min(1024, length - len(got))}').split()[2:]))
        return got

    def pause(self):
        self.say('PAUSE_TOGGLE')
        self.until(lambda: 'PAUSED' in self.say('GET_STATUS'), 'it pauses')

    def state(self):
        """The state that it has written: of its file, what is the machine's."""
        file = self.states / 'demo.state'
        held = file.read_bytes() if file.exists() else b''
        self.say('SAVE_STATE')
        self.until(lambda: file.exists() and file.read_bytes() not in (held, b''), 'a state is written')
        data = file.read_bytes()
        with Machine(CART.read_bytes()) as machine:
            return data[data.index(b'GBSTATE1'):][:machine.state_length()]

    def end(self):
        """Ends it, and answers what the core has logged."""
        self.say('QUIT')
        self.say('QUIT')
        expect('the end', self.process.wait(60), 0)
        return self.lines()

    def play(self, cart, frames, **settings):
        """Plays so many frames, and answers what the core has logged."""
        expect('the end', self.start(cart, f'--max-frames={frames}', **settings).process.wait(120), 0)
        return self.lines()


def plays(front, program, room):
    packed = room / 'packed.zip'
    with zipfile.ZipFile(packed, 'w', zipfile.ZIP_DEFLATED) as file:
        file.write(CART, 'Demo Game.gb')
    log = front.play(packed, 200)
    save = front.saves / 'Demo Game.gbkeep'
    expect('a game in a .zip', ([path.name for path in front.saves.glob('*')], log[0], log[-1].split()[0]), ([save.name], 'resumed 0', 'saved'))
    count = shades_of(program, CART, save, room)[1]
    expect('its frames', 150 <= count <= 200, True)
    expect('another name', front.play(CART, 10)[0], 'resumed 0')
    # a SAVE in use
    with subprocess.Popen([program, 'stream', CART, save], stdin=subprocess.PIPE, stdout=subprocess.PIPE) as other:
        other.stdout.readline()
        log = front.play(packed, 70)
        other.stdin.close()
    expect('a SAVE in use', any(line.startswith('device failed: ') for line in log), True)
    front.start(packed).until_played()
    front.process.send_signal(signal.SIGTERM)
    expect('ended by a signal', front.process.wait(60) in (0, -signal.SIGTERM), True)
    expect('all of it is saved', shades_of(program, CART, save, room)[1], front.told())


def imports(front, program, room):
    """A new game begins with the battery file of another core, over which only the core writes, by the option."""
    battery, save = front.saves / 'other.srm', front.saves / 'other.gbkeep'
    cart, before = shutil.copy(CART, room / 'other.gb'), bytes(range(256)) * 128
    battery.write_bytes(before)
    for first in ('A new game with the save in other.srm', 'resumed '):
        log = front.play(cart, 100)
        expect('what is told', (log[0].startswith(first), save.exists(), battery.read_bytes() == before), (True, True, True))
    # and by the option the core writes its own at the end
    options, kept = room / 'options', front.saves / 'other.srm.1'
    options.write_text('gbkeep_export = "yes"\n')
    log = front.play(cart, 100, global_core_options='true', core_options_path=options)
    subprocess.run([program, 'export', cart, save, room / 'other.out'], check=True, capture_output=True)
    expect('what is left', (log[-2], kept.read_bytes() == before, battery.read_bytes() == (room / 'other.out').read_bytes()),
           ('other.srm is written; the one before ends in .1', True, True))
    save.unlink()
    battery.write_bytes(b'wrong')
    expect('a wrong file', (front.play(cart, 100)[0], save.exists(), battery.read_bytes()), ('other.srm is no save of this game: move it away', False, b'wrong'))


def inputs_in(save):
    """The count of a SAVE that is being played; 0 where it holds no game."""
    try:
        return looked_at(save.read_bytes(), Cartridge(CART.read_bytes()))[0]
    except (Refused, OSError):
        return 0


def streams(front, program, room):
    """Started without standard streams, it logs to their numbers all the same: nothing of that gets into a SAVE."""
    save, count = front.saves / 'demo.gbkeep', 0
    save.unlink()
    for closed in ('1>&-', '2>&-', '1>&- 2>&-'):
        for words in (['--max-frames=200'], []):
            front.start(CART, *words, closed=closed)
            if not words:
                limit = time.monotonic() + 30
                while time.monotonic() < limit and inputs_in(save) < count + 100:
                    time.sleep(0.1)
                front.process.kill()
            expect(f'{closed}: the end', front.process.wait(120), 0 if words else -signal.SIGKILL)
            image = save.read_bytes()
            expect(f'{closed}: both roots', [root_of(image, slot) is not None for slot in (0, 1)], [True, True])
            expect(f'{closed}: what was logged', [word for word in (b'[INFO]', b'gbkeep: ', b'[libretro') if word in image], [])
            count, before = shades_of(program, CART, save, room)[1], count
            expect(f'{closed}: it is saved', count >= before + 100, True)


def saved(save):
    """The machine that a SAVE stands for, and the count of its inputs."""
    with Session(CART.read_bytes(), save.read_bytes()) as session:
        return session.state(), session.count


def frames_from(first, last, is_off=False):
    """How many frames without buttons lead from a state, or from power-on, to the other one; or from there, switched off and on, but for the cartridge's RAM."""
    with Machine(CART.read_bytes()) as machine:
        if first:
            machine.restore(first)
        if is_off:
            machine.power()
        for number in range(5000):
            if machine.state()[:STATE if is_off else None] == last[:STATE if is_off else None]:
                return number
            machine.frames(0)
    wrong('no frames lead from the one state to the other')


def states(front, program, room):
    save = front.saves / 'demo.gbkeep'
    # the power switch: what a battery keeps stays
    front.start(CART).until_played(400)
    front.end()
    before, first = saved(save)
    front.start(CART).until_played(100)
    front.say('RESET')
    front.until_played(100)
    front.pause()
    memory = front.memory(), front.memory(OAM, 0xa0)
    expect('it may not write', 'readonly' in front.say('WRITE_CORE_MEMORY c000 1'), True)
    log = front.end()
    state, count = saved(save)
    expect('after the power switch', (100 <= frames_from(before, state, True) < 400, count - first > 200, count), (True, True, front.told()))
    with Machine(CART.read_bytes()) as machine:
        machine.restore(state)
        expect('what it may look at', memory, (machine.memory(RAM, LENGTH), machine.memory(OAM, 0xa0)))
    expect('nothing is refused', [line for line in log if not line.startswith(('resumed', 'saved'))], [])
    # a state that is loaded later
    front.start(CART).until_played()
    first = front.state()
    front.until_played(400)
    front.say('LOAD_STATE')
    front.until_played(100)
    front.end()
    state, later = saved(save)
    expect('after a state', (100 <= frames_from(first, state) < 400, later - count > 570), (True, True))
    # one that is no state
    file = front.states / 'demo.state'
    data = bytearray(file.read_bytes())
    at = data.index(b'GBSTATE1')
    for place, wanted in ((at + HEADER + 51, ['This is no state of this game']), (at + 8, ['This is a state of another game'])):
        changed = bytearray(data)
        changed[place] ^= 0x10
        file.write_bytes(changed)
        front.start(CART).until_played()
        front.say('LOAD_STATE')
        front.until_played()
        expect('no state', [line for line in front.end() if not line.startswith(('resumed', 'saved', 'The state names another ROM'))], wanted)
    # rewinding
    save.unlink()
    front.start(CART, rewind_enable='true').until_played(300)
    for _ in range(60):
        front.say('REWIND')
    front.until_played()
    front.end()
    state, count = saved(save)
    expect('rewinding', frames_from(None, state) < count - 60, True)


def ahead(front, program, room):
    for second in ('false', 'true'):
        for _ in range(2):
            front.start(CART, run_ahead_secondary_instance=second, rewind_enable='true', **AHEAD).until_played(400)
            told = front.told()
            front.process.kill()
            front.process.wait()
            said = front.log.read_text(errors='replace')
            refused = [line for line in front.lines() if any(word in line for word in ('refused', 'open elsewhere', 'twice'))]
            expect(f'running ahead, {second}', ('[Run-Ahead]' in said, refused), (False, []))
            left = shades_of(program, CART, front.saves / 'demo.gbkeep', room)[1]
            expect('what was told is there', left >= max(told, front.told()), True)
            expect('it goes on', front.play(CART, 70)[0], f'resumed {left}')


def main():
    if len(sys.argv) != 3:
        sys.exit(__doc__)
    missing = [name for name in ('retroarch', 'Xvfb') if not shutil.which(name)]
    if missing:
        sys.exit(f'test_retroarch.py: {", ".join(missing)} is missing: install retroarch and xvfb')
    program, core = (os.path.abspath(word) for word in sys.argv[1:])
    screen = Screen()
    try:
        with tempfile.TemporaryDirectory(prefix='retroarch-') as folder:
            room = Path(folder)
            front = RetroArch(core, room, screen)
            try:
                for test in (plays, imports, streams, states, ahead):
                    test(front, program, room)
                    print(f'RetroArch: {test.__name__}', flush=True)
            finally:
                if front.process and front.process.poll() is None:
                    front.process.kill()
    finally:
        screen.close()
    print('RetroArch: a game in a .zip, a SAVE in use, another core\'s save, without standard streams, states, rewind, reset, running ahead, killed and gone on')


if __name__ == '__main__':
    main()
