"""Plays in the window on a display of its own, by keys and by its accessibility tree: begins games, kills it in play, saves and loads states, goes back, answers
its questions, changes its keys, and gives it names and files that no window can use.

usage: test_window.py [GBKEEP [TEST..]]
       test_window.py --pictures FOLDER [GBKEEP]     leaves pictures of each state and size, in light and dark: somebody has to look at them

It needs Debian's packages xvfb, xdotool, openbox, dbus-daemon, at-spi2-core, imagemagick, python3-gi, gir1.2-gtk-4.0, gir1.2-adw-1 and gir1.2-atspi-2.0, and
installs nothing. The status is 1 where a test fails."""
import json
import os
import re
import shutil
import signal
import subprocess
import sys
import tempfile
import time
from pathlib import Path

from gbkeep.desktop.preferences import HEAD
from gbkeep.game import A, Game, run
from gbkeep.pictures import shades_of
from gbkeep_tests import support
from gbkeep_tests.support import DAY, TOP, clock_cart, expect, seconds_shown, tool_words, wrong
from gbkeep_tests.window_driver import DEMO, Player, Screen, needs

CART = DEMO / 'demo.gb'
KILLS = 20
NAME = 'GBKEEP DEMO'


class Room:
    """A display, a folder and the windows that are opened there, for one test."""

    def __init__(self, screen, gbkeep, folder):
        self.screen, self.gbkeep, self.folder = screen, str(gbkeep), Path(folder)
        self.players = []
        self.screen.env.update({f'XDG_{name}_HOME': str(self.folder / name.lower()) for name in ('CONFIG', 'DATA', 'CACHE')}, HOME=str(self.folder))

    def path(self, name):
        return self.folder / name

    def open(self, *words, **how):
        self.players.append(Player(self.screen, self.gbkeep, *words, **how))
        return self.players[-1]

    def prefers(self, **chosen):
        path = self.folder / 'config/gbkeep/window'
        path.parent.mkdir(parents=True, exist_ok=True)
        path.write_bytes(HEAD + json.dumps(chosen).encode())

    def inputs(self, save, cart=CART):
        """The count of inputs of a SAVE that nobody plays."""
        return int(run(self.gbkeep, 'show', str(cart), str(save)).split()[1])

    def shot(self, player):
        """The picture of a screenshot, and its file."""
        folder = self.folder / 'Pictures'
        before = set(folder.glob('*.png'))
        made = player.pressed('s', lambda: set(folder.glob('*.png')) - before, 'S left no screenshot').pop()
        return shades_of(made.read_bytes())

    def end(self):
        for player in self.players:
            if player.process.poll() is None:
                player.kill()


def begun(player):
    """Waits until a game is played: that of a recording is played again before."""
    player.until('^saved', 120)
    return player


def paused(player):
    player.keys('key', 'p')
    player.until('^Paused: P goes on$')


def goes_on(player):
    player.keys('key', 'p')
    player.until('^saved')


def timeline(player, button):
    """Opens the timeline, once it has something to show."""
    for _ in range(60):
        player.act('win.timeline')
        if player.until(f'^({button}|There is nothing yet)$') == button:
            return
        player.keys('key', 'Escape')
        player.until_gone('^There is nothing yet$')
        time.sleep(1)
    wrong('the timeline stays empty')


# ---- play, and its end

def test_play_and_kill(room):
    """A game by real keys; whatever kills it, it goes on from where it was, and says so."""
    save = room.path('demo.gbkeep')
    room.prefers(shows_counter=True)
    player = begun(room.open(CART, save))
    started = time.monotonic() - player.began
    player.hold('Return', 0.2)
    time.sleep(1)
    frames, spent, since = player.frame_count(), player.processor_seconds(), time.monotonic()
    for way in ('Up', 'Right', 'Down', 'Left', 'Down', 'Right', 'Up'):
        player.hold(way, 1.2)
    passed = time.monotonic() - since
    rate, load = (player.frame_count() - frames) / passed, [100 * (now - before) / passed for now, before in zip(player.processor_seconds(), spent)]
    print(f'begun in {started:.1f} s; {rate:.1f} frames a second, {load[0]:.0f} % of a processor, and {load[1]:.0f} % by its programs', flush=True)
    # the one who is played stands at the right wall, and then at the left one
    seen = []
    for way in ('Right', 'Left'):
        player.hold(way, 1.5)
        shades = room.shot(player)
        seen.append([shades[160 * y + x] for y in range(8, 128) for x in range(140, 152)])
    expect('keys reach the game', seen[0] != seen[1], True)
    told, lost = 0, []
    for number in range(KILLS):
        time.sleep(0.3 + number % 7 / 5)
        player.kill()
        count = room.inputs(save)
        expect(f'kill {number}: what was saved is there', count >= told, True)
        player = room.open(CART, save)
        welcome = player.until('^Welcome back: the game goes on from ')
        lost.append(float((re.search(r'([\d.]+) s before', welcome) or [0, '0'])[1]))
        begun(player)
        told = count
    # a busy computer keeps a save waiting now and then
    expect('no more than a second and a half is lost, mostly', sorted(lost)[KILLS // 2] < 1.6, True)
    expect('what is lost at most', max(lost) < 6, True)
    print(f'killed {KILLS} times, {max(lost)} s lost at most', flush=True)
    player.act('win.home')
    player.until(f'Continue {NAME}')
    expect('nothing is said of a game that is closed', player.find_state('^Welcome back'), False)
    player.close()
    player = begun(room.open(CART, save))
    expect('after an end nothing is welcomed', any('Welcome' in text for text in player.texts()), False)
    player.close()


def test_ends(room):
    """Ctrl-C and the end of a login save and end with status 0; a window without a display says so; streams may be closed."""
    save = room.path('ends.gbkeep')
    for number in (signal.SIGINT, signal.SIGTERM, signal.SIGHUP):
        before = room.inputs(save) if save.exists() else 0
        player = begun(room.open(CART, save))
        time.sleep(1)
        os.killpg(player.process.pid, number)
        player.ended(0)
        expect(f'signal {number}: it goes on', room.inputs(save) > before, True)
    player = begun(room.open(CART, save))
    player.act('window.close')
    player.ended(0)
    player = room.open(CART, save, closed='>&- 2>&- <&-')
    begun(player)
    expect('the numbers of the streams', {os.readlink(f'/proc/{player.process.pid}/fd/{one}') for one in range(3)}, {'/dev/null'})
    player.close()
    env = {name: value for name, value in room.screen.env.items() if name not in ('DISPLAY', 'WAYLAND_DISPLAY')}
    done = subprocess.run([*tool_words('window'), '--gbkeep', room.gbkeep, CART], env=env, capture_output=True, text=True, timeout=60)
    expect('no display', (done.returncode, done.stdout, 'there is no display' in done.stderr, done.stderr.strip().count('\n')), (1, '', True, 0))


def test_a_program_that_is_killed(room):
    """Where the program below is ended by something else, the game goes on by itself."""
    save = room.path('below.gbkeep')
    player = begun(room.open(CART, save))
    time.sleep(2)
    for command in ('stream', 'debug'):
        below = subprocess.run(['pgrep', '-g', str(player.process.pid), '-f', f'gbkeep {command} --'], capture_output=True, text=True).stdout.split()
        expect(f'{command} runs', len(below), 1)
        os.kill(int(below[0]), signal.SIGKILL)
        player.until('The program that keeps the game was ended')
        begun(player)
        time.sleep(1)
    player.close()
    expect('and is saved', room.inputs(save) > 20, True)


# ---- states, and going back

def test_states(room):
    save = room.path('states.gbkeep')
    player = begun(room.open(CART, save))
    player.hold('Return', 0.2)
    paused(player)
    first = room.shot(player)
    player.keys('key', 'F5')
    player.until('^State 1 saved')
    expect('its files', [Path(f'{save}.slot1{end}').exists() for end in ('', '.png')], [True, True])
    goes_on(player)
    player.hold('Right', 0.8)
    paused(player)
    second = room.shot(player)
    expect('it moves', second != first, True)
    player.keys('key', 'F9')
    player.until('^State 1 loaded')
    expect('loaded', room.shot(player), first)
    expect('the game before is kept', Path(f'{save}.before').exists(), True)
    player.keys('key', 'F8')
    player.until('^Undone')
    expect('undone', room.shot(player), second)
    player.keys('key', 'F7')
    player.until('^State 2 is chosen')
    player.keys('key', 'F9')
    player.until('^State 2 is empty')
    player.keys('key', 'F4')
    player.press('Save state 10, empty')
    player.until('^State 10 saved')
    player.act('win.states')
    player.press('Load state 1, .*')
    player.until('^State 1 loaded')
    player.act('win.states')
    player.press('Delete state 10')
    player.until('Delete state 10\\?')
    player.press('Delete')
    player.wait(lambda: not Path(f'{save}.slot10').exists(), 'state 10 is not deleted')
    player.kill()
    expect('states are there after a kill', Path(f'{save}.slot1').exists(), True)
    expect('a state is a SAVE', room.inputs(f'{save}.slot1') > 0, True)


def test_going_back(room):
    """Rewind, the next frame, the reset, the timeline, and what undoes them: each is an input of the game, and is saved."""
    save = room.path('back.gbkeep')
    player = begun(room.open(CART, save))
    player.hold('Return', 0.2)
    time.sleep(1)
    paused(player)
    for _ in range(8):
        player.keys('key', 'n')
        time.sleep(0.1)
    goes_on(player)
    player.hold('Right', 1)
    paused(player)
    second = room.shot(player)
    player.keys('keydown', 'r')
    player.until('^Back by [1-9]')
    player.keys('keyup', 'r')
    player.until_gone('^Back by')
    expect('it went back', room.shot(player) != second, True)
    player.keys('key', 'F8')
    player.until('^Undone')
    expect('undone', room.shot(player), second)
    for key, answer in (('n', second), ('y', None)):
        player.keys('key', 'F3')
        player.until('^Reset\\?$')
        player.keys('key', key)
        player.until_gone('^Reset\\?$')
        time.sleep(0.5)
        if key == 'y':
            player.until('^The game was reset')
        shot = room.shot(player)
        expect(f'after {key}', shot == second, answer is not None)
    player.keys('key', 'F8')
    player.until('^Undone')
    expect('a reset is undone', room.shot(player), second)
    player.act('win.timeline')
    player.until('There is nothing yet')
    player.keys('key', 'Escape')
    player.until_gone('There is nothing yet')
    if player.find_state('^Paused'):
        goes_on(player)
    player.keys('key', 'g')

    timeline(player, 'Go on from here')
    player.wait(lambda: player.chosen_card(), 'the newest card is not the chosen one')
    player.keys('key', 'Return')
    player.until('The game goes on from there')
    last = room.shot(player)
    player.close()
    with Game(CART, save, room.gbkeep) as game:
        expect('what was shown last is not lost', len(last) == len(game.picture().shades), True)
    caches = list((room.folder / 'cache/gbkeep/timeline').iterdir())
    expect('a cache', len(caches), 1)
    player = begun(room.open(CART, save))
    player.act('win.timeline')
    player.press('Go on from here')
    player.until('The game goes on from there')
    player.close()


def test_recorded(room):
    """A recorded game goes forward alone; rewind begins a branch of it, and so does the timeline, at any moment, which can be given a name."""
    save, recording = room.path('run.gbkeep'), room.path('run.rec')
    room.prefers(shows_counter=True)
    player = begun(room.open('--record', recording, CART, save))
    player.until('^saved.*recorded$')
    for key in ('F3', 'F8', 'F9'):
        player.keys('key', key)
        player.until('^A recorded game only goes forward')
        player.until_gone('^A recorded game only goes forward')
    player.keys('key', 'F5')
    player.until('^Copied to run.gbkeep.slot1')
    for answer in ('Cancel', 'Begin a branch'):
        time.sleep(3)
        player.hold('r', 0.7)
        player.until('^Begin a branch here\\?$')
        player.press(answer)
        player.until_gone('^Begin a branch here\\?$')
    player.until('^A branch: run-2.gbkeep, recorded in run-2.rec', 120)
    player.until('frame [0-9,]+, 1 rerecord$')
    player.keys('key', 'g')
    time.sleep(3)
    timeline(player, 'Begin a branch here')
    # from the line to the strip, and back: a card is chosen while its moment is shown
    player.keys('key', 'Tab', 'Tab', 'Home')
    player.wait(lambda: player.chosen_card(), 'no card is chosen')
    player.keys('key', 'shift+Tab', 'shift+Tab', 'Right')
    player.wait(lambda: not player.chosen_card(), 'a card stays chosen, though another moment is shown')
    player.keys('key', 'End')
    frame = int(re.search('frame ([0-9,]+)$', player.until('^0:[0-9:]+, frame [0-9,]+$'))[1].replace(',', ''))
    for _ in range(3):
        player.keys('key', 'Left')
    player.until(f'^0:[0-9:]+, frame {frame - 3:,}$')
    player.keys('key', 'Tab')
    player.screen.do('type', 'first room')
    player.keys('key', 'Return')
    notes = room.path('run-2.rec.notes')
    player.wait(lambda: f'mark {frame - 3} first room\n' in notes.read_text(), 'no mark is kept')
    player.press('Begin a branch here')
    player.until('^Begin a branch here\\?$')
    player.press('Begin a branch')
    player.until('^A branch: run-2-2.gbkeep, recorded in run-2-2.rec', 120)
    expect('its notes', room.path('run-2-2.rec.notes').read_text().splitlines()[1:], ['rerecords 2', f'mark {frame - 3} first room'])
    time.sleep(1)
    player.close()
    for one, other in (('run-2-2.gbkeep', 'run-2-2.rec'), ('run-2.gbkeep', 'run-2.rec'), (save, recording)):
        expect(f'{one} agrees', run(room.gbkeep, 'verify', str(CART), str(room.path(one)), str(room.path(other)))[:6], 'agree ')
    count = room.inputs(save)
    for answer, goes in (('Cancel', False), ('Go on', True)):
        player = room.open(CART, save)
        player.until('^Go on with the recording\\?$')
        player.press(answer)
        if goes:
            begun(player)
            time.sleep(1)
        else:
            player.until(f'^(Continue|Begin) {NAME}')
        player.close()
        expect(f'{answer}: is it played', room.inputs(save) > count, goes)
    away = recording.rename(room.path('away.rec'))
    refused(room, 'run.gbkeep is a recorded game', 'put it back', CART, save)
    away.rename(recording)
    with Game(CART, room.path('plain.gbkeep'), room.gbkeep) as game:
        game.frame()
    refused(room, '.*', 'is not there', '--record', room.path('none.rec'), CART, room.path('plain.gbkeep'))


# ---- questions

def test_clock(room):
    """A game with a clock that something else has played, and a leap of years."""
    cart, save = clock_cart(room.folder), room.path('clock.gbkeep')
    with Game(cart, save, room.gbkeep) as game:
        game.frames(0, 10)
    player = room.open(cart, save)
    player.until('^There is no SAVE.time')
    player.keys('key', 'Escape')
    begun(player)
    time.sleep(1)
    player.close()
    clock = Path(f'{save}.time')
    count, before = map(int, clock.read_text().split('\n')[0].split())
    held = save.read_bytes()
    for key, given in (('n', False), ('y', True)):
        save.write_bytes(held)
        clock.write_text(f'{count} {before - 400 * DAY}\n')
        player = room.open(cart, save)
        player.until('^Give the time away')
        player.until('1 year and 3[45] days')
        player.keys('key', key)
        begun(player)
        time.sleep(1)
        player.close()
        with Game(cart, save, room.gbkeep) as game:
            expect(f'after {key}', seconds_shown(game) >= (400 % 256) * DAY, given)
    room.prefers(clock='give')
    save.write_bytes(held)
    clock.write_text(f'{count} {before - 400 * DAY}\n')
    begun(room.open(cart, save)).close()
    with Game(cart, save, room.gbkeep) as game:
        expect('what is chosen counts', seconds_shown(game) >= (400 % 256) * DAY, True)


def test_batteries(room):
    """A battery file of another emulator: by its option, beside the cartridge, and in the place of a save file."""
    cart, save, battery = clock_cart(room.folder), room.path('battery.gbkeep'), room.path('other.sav')
    registers = b''.join(value.to_bytes(4, 'little') for value in (7, 0, 0, 0, 0) * 2)
    size = int(run(room.gbkeep, 'info', str(cart)).split('\nram ')[1].split()[0])
    content = bytes(size) + registers + (int(time.time()) - 5 * DAY).to_bytes(8, 'little')
    battery.write_bytes(content)
    for answer, shown in (('Give it', 7 + 5 * DAY), ("Don't", 7)):
        player = room.open('--import', battery, cart, save)
        player.until('other.sav was written 5 days')
        player.press(answer)
        begun(player)
        player.close()
        with Game(cart, save, room.gbkeep) as game:
            expect(f'{answer}: the clock', shown <= seconds_shown(game) < shown + DAY // 2, True)
        refused(room, 'battery.gbkeep exists already', 'exists already', '--import', battery, cart, save)
        for path in (save, Path(f'{save}.time')):
            path.unlink()
    plain = room.path('plain')
    plain.mkdir()
    shutil.copy(CART, plain / 'game.gb')
    rom = bytearray((plain / 'game.gb').read_bytes())
    # a cartridge with RAM and a battery
    rom[0x147:0x14a] = bytes((3, rom[0x148], 2))
    rom[0x14d] = -sum(byte + 1 for byte in rom[0x134:0x14d]) & 0xff
    (plain / 'game.gb').write_bytes(rom)
    (plain / 'game.sav').write_bytes(bytes(range(256)) * 32)
    held = (plain / 'game.sav').read_bytes()
    player = room.open(plain / 'game.gb')
    player.until('Begin .* with game.sav\\?')
    player.press('Begin with it')
    begun(player)
    player.close()
    own = next((room.folder / 'data/gbkeep').glob('game-*.gbkeep'))
    run(room.gbkeep, 'export', str(plain / 'game.gb'), str(own), str(room.path('out.sav')))
    expect('what it begins with', room.path('out.sav').read_bytes()[4096:] == held[4096:], True)
    begun(room.open(plain / 'game.gb')).close()
    player = room.open(plain / 'game.gb', plain / 'game.sav')
    player.until('Begin .* with game.sav\\?')
    player.press('Begin with it')
    begun(player)
    player.close()
    expect('it is only read, and the game before is kept', ((plain / 'game.sav').read_bytes() == held, Path(f'{own}.before').exists()), (True, True))


# ---- the list of games, files and preferences

def test_home(room):
    """Games are listed; one is begun anew, and one is found whose cartridge has moved."""
    player = room.open()
    player.until('^A Game Boy emulator')
    player.close()
    expect('a size into which no game was fitted is not kept', (room.folder / 'config/gbkeep/window').exists(), False)
    cart = room.path('game.gb')
    shutil.copy(CART, cart)
    player = begun(room.open(cart))
    player.act('win.home')
    player.press(f'Continue {NAME}, just now')
    begun(player)
    player.act('win.home')
    player.until(f'Continue {NAME}')
    player.act('card.anew')
    player.until('Start GBKEEP DEMO over\\?')
    player.press('Start over')
    begun(player)
    player.act('win.home')
    player.until(f'Continue {NAME}')
    save = next((room.folder / 'data/gbkeep').glob('game-*.gbkeep'))
    expect('the game before is kept', Path(f'{save}.before').exists(), True)
    player.act('card.earlier')
    player.until(f'^{re.escape(save.name)}.before$')
    player.keys('key', 'Escape')
    player.close()
    cart.rename(room.path('moved.gb'))
    player = room.open()
    player.press(f'Continue {NAME}, its file is not there')
    player.until('^Where is .*game.gb now\\?$')
    player.press('Cancel')
    player.act('card.forget')
    player.press('Take it off')
    player.until('^A Game Boy emulator')
    expect('its files stay', save.exists(), True)
    player.close()
    expect('a zip', shutil.make_archive(str(room.path('zipped')), 'zip', room.folder, 'moved.gb'), str(room.path('zipped.zip')))
    begun(room.open(room.path('zipped.zip'))).close()
    # a save file is opened by itself where its cartridge is known
    begun(room.open(room.path('moved.gb'))).close()
    begun(room.open(save)).close()


def test_preferences(room):
    """Keys by pressing, palettes and the size are kept; a file of keys counts for once."""
    save = room.path('keys.gbkeep')
    player = begun(room.open(CART, save))
    player.keys('key', 'F2')
    player.until('^Palette: grey$')
    player.act('win.gamepad')
    player.until('^Key of A: X$')
    time.sleep(0.5)
    player.press('Key of A: X')
    player.until('^press a key$')
    player.keys('key', 'space')
    player.until('^Key of A: Space$')
    player.keys('key', 'Escape')
    player.until_gone('^Key of A')
    chosen = json.loads((room.folder / 'config/gbkeep/window').read_bytes().removeprefix(HEAD))
    expect('kept', (chosen['palette'], chosen['keys']['A']), (1, ['space']))
    player.keys('key', 'F1')
    player.until('^Rewind, while held$')
    player.keys('key', 'Escape')
    for key, is_full in (('F11', True), ('Escape', False)):
        player.keys('key', key)
        player.wait(lambda: ('1280x960' in player.screen.do('getactivewindow', 'getwindowgeometry')) == is_full, f'{key}: the window keeps its size')
    begun(player)
    player.close()
    keys = room.path('keys.txt')
    keys.write_text('Pause = F12\n')
    player = begun(room.open('--keys', keys, CART, save))
    player.keys('key', 'F12')
    player.until('^Paused: F12 goes on$')
    player.close()
    begun(room.open('--palette', '3', '--scale', '8', CART, save)).close()
    begun(room.open(CART, room.path('warned.SAV'))).until('^Other emulators take warned.SAV')


def refused(room, head, line, *words):
    """What can't be played is told in a dialog, and in a line; the window stays, and its status is 1."""
    player = room.open(*words)
    player.until(f'^{head}')
    said = ' '.join(player.texts())
    player.keys('key', 'Escape')
    player.until('^(Open a game|Continue |Begin )')
    err = player.close(1)
    expect(f'{words}: no letter is left to be filled in', re.search(r'\b(SAVE or RECORDING|BATTERY has|N bytes|has M)\b', said + err), None)
    expect(f'{words}: a line', (line in err, err.count('\n'), err.strip().isprintable()), (True, 1, True))


def test_refusals(room):
    """What no window can use is said in one style, with the name of the file, and changes nothing."""
    rom = CART.read_bytes()
    for name, data in (('short.gb', rom[:7604]), ('camera.gb', rom[:0x147] + b'\xfc' + rom[0x148:]), ('colour.gb', rom[:0x143] + b'\xc0' + rom[0x144:]), ('text.txt', b'x')):
        room.path(name).write_bytes(data)
    with Game(CART, room.path('whole.gbkeep'), room.gbkeep) as game:
        game.frames(A, 60)
    whole = room.path('whole.gbkeep').read_bytes()
    room.path('cut.gbkeep').write_bytes(whole[:-100])
    torn = bytearray(whole)
    for at in (0, 512):
        if torn[at:at + 8] == b'GBKPROOT':
            torn[at + 20:at + 52] = bytes(32)
    room.path('foreign.gbkeep').write_bytes(torn)
    room.path('none.gbkeep').write_bytes(bytes(65536))
    os.mkfifo(room.path('fifo.gb'))
    for head, line, *words in (
            ('missing.gb is not there', 'No such file', room.path('missing.gb')), (f'{room.folder.name} is a folder', 'is a folder', room.folder),
            ('text.txt is no game', 'is no game', room.path('text.txt')), ("fifo.gb can't be read", 'no plain file', room.path('fifo.gb')),
            ('short.gb is no whole Game Boy game', 'rom length 7604', room.path('short.gb')), ("camera.gb can't be played here", 'cartridge type FC', room.path('camera.gb')),
            ('colour.gb is for the Game Boy Color alone', 'Color alone', room.path('colour.gb')), ('cut.gbkeep is no whole save file', 'device size', CART, room.path('cut.gbkeep')),
            ('foreign.gbkeep is of another game', 'other cartridge', CART, room.path('foreign.gbkeep')),
            ('none.gbkeep is no save file of gbkeep', 'no session', CART, room.path('none.gbkeep')),
            ('There is no folder for New.gbkeep', 'is not there', CART, room.path('nowhere/New.gbkeep')),
            ('The file of keys is wrong', 'no such file', '--keys', room.path('none.keys'), CART)):
        refused(room, head, line if 'keys' not in head else 'No such file', *words)
    player = begun(room.open(CART, room.path('whole.gbkeep')))
    refused(room, 'This game is open already', 'device failed', CART, room.path('whole.gbkeep'))
    player.close()
    for words, status, what in ((['--scale', '9' * 5000, CART], 2, 'scale'), (['--palette', '0', CART], 2, 'palette'), (['--none', CART], 2, ''), ([CART, 'a', 'b'], 2, ''),
                                (['--record', 'r'], 2, 'need a CART'), (['--gbkeep', room.path('nothing'), CART], 1, 'make build'),
                                (['--record', 'r', '--import', 'b', CART], 2, 'not allowed')):
        done = subprocess.run([*tool_words('window'), *(['--gbkeep', room.gbkeep] if '--gbkeep' not in words else []), *words], env=room.screen.env, capture_output=True,
                              text=True, timeout=60, stdin=subprocess.DEVNULL)
        expect(f'{words!r:.60}', (done.returncode, what in done.stderr, done.stderr.count('\n'), done.stdout), (status, True, 1, ''))


# ---- pictures for somebody who looks at them

def leave_pictures(room, folder):
    """Leaves a picture of each state of the window."""
    folder.mkdir(parents=True, exist_ok=True)
    number = 0

    def shot(name):
        nonlocal number
        number += 1
        time.sleep(0.7)
        room.screen.shot(folder / f'{number:02}_{name}.png')
    player = room.open()
    player.until('^A Game Boy emulator')
    shot('home_empty')
    player.press('Play the demo')
    begun(player)
    player.keys('key', 'Return')
    time.sleep(2)
    shot('play')
    for key in ('F5', 'F7', 'F7', 'F5'):
        player.keys('key', key)
        player.hold('Right', 0.4)
    shot('toast')
    for action, name in (('win.states', 'states'), ('win.timeline', 'timeline_empty'), ('win.preferences', 'preferences'), ('win.gamepad', 'keys'), ('win.keys', 'shortcuts'), ('win.about', 'about')):
        player.act(name=action)
        shot(name)
        player.keys('key', 'Escape')
        time.sleep(0.6)
    player.keys('key', 'Escape')
    shot('menu')
    player.keys('key', 'Escape')
    time.sleep(0.5)
    player.keys('key', 'F3')
    shot('question')
    player.keys('key', 'n')
    player.keys('keydown', 'r')
    shot('rewind')
    player.keys('keyup', 'r')
    player.keys('key', 'p')
    shot('paused')
    player.keys('key', 'p')
    player.keys('key', 'F11')
    shot('full')
    time.sleep(3)
    shot('full_hidden')
    player.keys('key', 'Escape')
    time.sleep(12)
    player.act('win.timeline')
    shot('timeline')
    player.keys('key', 'Escape')
    player.act('win.home')
    shot('home')
    player.press(f'More of {NAME}')
    shot('card_menu')
    player.close()
    for name, words in (('missing', [room.path('missing.gb')]), ('cut', [CART, room.path('cut.gbkeep')])):
        room.path('cut.gbkeep').write_bytes(b'GBKPROOT' + bytes(900))
        player = room.open(*words)
        shot(f'refusal_{name}')
        player.kill()
    cart, save = clock_cart(room.folder), room.path('clock.gbkeep')
    Game(cart, save, room.gbkeep).close()
    Path(f'{save}.time').write_text(f'0 {int(time.time()) - 400 * DAY}\n')
    player = room.open(cart, save)
    player.until('^Give the time away')
    shot('question_clock')
    player.kill()


def main():
    words = sys.argv[1:]
    pictures = None
    if words[:1] == ['--pictures'] and len(words) >= 2:
        pictures, words = Path(words[1]), words[2:]
    needs()
    gbkeep = Path(words[0] if words else TOP / 'bin/gbkeep').resolve()
    rooms = []
    with tempfile.TemporaryDirectory(prefix='window-') as place:
        if pictures:
            for is_dark, scale in ((False, 1), (True, 1), (False, 2)):
                screen = Screen(place, '2560x1920' if scale == 2 else '1280x960', scale, is_dark)
                with tempfile.TemporaryDirectory(prefix='pictures-') as folder:
                    room = Room(screen, gbkeep, folder)
                    try:
                        leave_pictures(room, pictures / f'{"dark" if is_dark else "light"}_{scale}x')
                    finally:
                        room.end()
                        screen.end()
            return
        screen = Screen(place)

        def given(folder):
            # one that a test has left where it failed
            for room in rooms:
                room.end()
            rooms[:] = [Room(screen, gbkeep, folder)]
            return (rooms[0],)
        try:
            support.run_tests('the window', support.tests_in(globals()), given, words[1:])
        finally:
            for room in rooms:
                room.end()
            screen.end()


if __name__ == '__main__':
    main()
