"""Tries what the window knows, without a toolkit and a display: keys, preferences, the list of games, what files are, states, the timeline, what is said, and a
play over a game that notes what is done to it.

usage: test_desktop_model.py [TEST..]

What a person sees of it is tried by test_window.py. The status is 1 where a test fails."""
import json
import os
import re
import subprocess
import sys
import tempfile
import time
import types
import zipfile
from pathlib import Path

from gbkeep import going_back
from gbkeep.desktop import actions, files, intake, playing, preferences, refusals, shelf, words
from gbkeep.desktop.mark import Mark
from gbkeep.desktop.pixels import Painter, scale_of
from gbkeep.desktop.playing import Asked, Play
from gbkeep.desktop.preferences import Preferences
from gbkeep.desktop.steering import Steering
from gbkeep.desktop.timeline import FRAMES_BETWEEN, MOST_MOMENTS, Stamped, Timeline
from gbkeep.going_back import GoingBack
from gbkeep.machines import MissingProgram, Refused
from gbkeep.palettes import NAMES, PALETTES
from gbkeep_tests import support
from gbkeep_tests.support import CART, TOP, expect, needs, refusal

PICTURE = bytes(160 * 144)
SAVE_BYTES = b'GBKPROOT' + bytes(12) + bytes.fromhex('ab' * 32) + bytes(1024)


class Clock:
    """A clock of the plays here: what sleeps is awake at once, so that no test depends on how fast the computer is."""
    now = 1_000.0

    def monotonic(self):
        return self.now

    def sleep(self, seconds):
        self.now += seconds


CLOCK = playing.time = going_back.time = Clock()


class Header:
    title = 'GAME'

    def has_clock(self):
        return False


class Game:
    """A game that notes what is asked of it. Its state is the count of its frames."""
    header, trouble = Header(), None

    def __init__(self, at_frame=lambda frames: None, command='stream'):
        self.done, self.at_frame, self.command = [], at_frame, command
        self.frames = self.count = self.saved = 0
        self.given_until = 7

    def frame(self, buttons):
        self.done.append('frame' if not buttons else ('frame', buttons))
        self.frames, self.count = self.frames + 1, self.count + 1
        self.at_frame(self.frames_done())

    def frames_done(self):
        return sum(one == 'frame' or one[0] == 'frame' for one in self.done)

    def save_all(self):
        self.saved = self.count

    def begin_save(self):
        self.saved = self.count

    def state(self):
        if self.command == 'record':
            raise AssertionError('no state of a recorded game is wanted')
        return self.frames.to_bytes(4, 'little')

    def go_on(self, state, given_until):
        self.frames, self.count = int.from_bytes(state, 'little'), self.count + 1
        self.done.append(('go on', self.frames, given_until))

    def power(self):
        self.frames, self.count = 0, self.count + 1
        self.done.append('power')

    def picture(self):
        return types.SimpleNamespace(shades=bytes([self.frames % 4]) * (160 * 144))

    def close(self):
        self.done.append('close')


class Face:
    """What a play says and asks."""

    def __init__(self, answers=()):
        self.said, self.asked, self.shown, self.standing, self.answers = [], [], 0, [], iter(answers)

    def say(self, line, seconds=3, file=None):
        self.said.append(line)

    def say_held(self, line):
        self.said.append(line)

    def ask(self, question):
        self.asked.append(question.head)
        return next(self.answers)

    def tell(self, told):
        self.said.append(told.head)

    def show(self, shades):
        self.shown += 1

    def stands(self, standing):
        self.standing.append(standing)

    def began(self, save):
        pass

    def ended(self, told):
        self.said.append(told)


class Files:
    """The files of a game of which a branch is begun: the game with as many inputs."""
    save, cart, recording = '/nowhere/game.gbkeep', '/nowhere/game.gb', None

    def branch(self, face, game, chosen, count, given_until):
        game.frames = game.count = count
        game.done.append(('branch', count, given_until))
        return game


class Looked(Play):
    """A play in which a key is held for so many looks."""
    looks = 0

    def is_held(self, name):
        if name != 'Rewind':
            return super().is_held(name)
        self.looks -= 1
        return self.looks >= 0

    def take_up(self, game):
        pass


def a_play(face, command='stream', at_frame=lambda frames: None):
    play = Looked(Asked('game.gb'), face, Preferences(), Steering(), shelf.Shelf(), 'none')
    play.files = Files()
    return play, Game(at_frame, command)


def played(orders, command='stream', last=60, answers=()):
    """A game that is played for so many frames; behind each of these frames the actions are wanted, and their keys are held for so many looks.

    Answers what was done to the game other than frames, with the number of frames before, what was said, and the game."""
    face = Face(answers)

    def at_frame(frames):
        for name, looks in orders.get(frames, ()):
            play.looks = looks
            play.steering.press(name, name)
            play.steering.let_go(name)
        if frames == last:
            play.steering.close()
    play, game = a_play(face, command, at_frame)
    play.go(game, types.SimpleNamespace(note=lambda count: None))
    done = [(sum(two == 'frame' for two in game.done[:at]), *(one if isinstance(one, tuple) else (one,))) for at, one in enumerate(game.done) if one != 'frame']
    return done, [line for line in face.said if line], game


# ---- a play

def test_rewind():
    """A key that is held goes back four frames at a time, and one input of the game follows when it is let go; it can be undone."""
    done, said, game = played({40: [('Rewind', 3)], 50: [('Undo', 0)]})
    expect('gone on with', done, [(40, 'go on', 24, 7), (50, 'go on', 40, 7)])
    expect('said', said, ['Back by 0.1 s', 'Back by 0.2 s', 'Back by 0.3 s', words.said('undone')])
    expect('an input each', game.count, 62)
    done, said, game = played({2: [('Rewind', 9)], 9: [('Rewind', 9)], 20: [('Rewind', 0)]})
    expect('a beginning', (done, said[:3]), ([(9, 'go on', 4, 7), (20, 'go on', 11, 7)], [words.said('nothing to go back to'), 'Back by 0.1 s', 'Back by 0.1 s, as far as it goes']))


def test_a_play_that_is_closed_goes_back_nowhere():
    play, game = a_play(Face())
    for _ in range(20):
        game.frame(0)
        play.going_back.note(game, PICTURE)
    play.looks = 99
    play.steering.close()
    play.going_back.rewind(play, game)
    expect('nothing is done', game.done, ['frame'] * 20)


def test_a_minute_is_kept():
    game, going = Game(), GoingBack()
    for _ in range(5_000):
        game.frame(0)
        going.note(game, PICTURE)
    expect('the moments of a minute', [int.from_bytes(one.parts()[0], 'little') for one in going.past], list(range(1_404, 5_001, 4)))


def test_a_load_is_undone():
    """What a state has replaced is undone to; where it has replaced nothing, what was there stays."""
    (play, game), going = a_play(Face()), GoingBack()
    game.frame(0)
    going.came_back(game, going.moment(game, PICTURE))
    going.undo(play, game)
    before = going.moment(game, PICTURE)
    game.frame(0)
    going.came_back(game, before)
    going.undo(play, game)
    expect('undone', game.done, ['frame', 'frame', ('go on', 1, 7)])


def test_reset():
    """The power switch is asked for, and can be undone."""
    done, said, _ = played({10: [('Reset', 0)], 20: [('Reset', 0)], 30: [('Undo', 0)]}, answers=[False, True])
    expect('once', (done, said), ([(20, 'power'), (30, 'go on', 20, 7)], [words.said('reset'), words.said('undone')]))


def test_next_frame():
    """In a pause each press plays one frame, which is saved; the first press pauses."""
    looks = []

    def at_frame(frames):
        if frames == 5:
            play.steering.press('Next frame', 'n')
        if frames == 20:
            play.steering.close()
    play, game = a_play(Face(), at_frame=at_frame)
    rest = play.steering.rest

    def rests(seconds):
        looks.append((game.frames, game.saved))
        if looks.count(looks[-1]) == 3:
            play.steering.press('Next frame' if game.frames < 8 else 'Pause', 'key')
        rest(seconds)
    play.steering.rest = rests
    play.go(game, types.SimpleNamespace(note=lambda count: None))
    expect('the frames of a pause', sorted(set(looks)), [(frames, frames) for frames in (5, 6, 7, 8)])
    expect('and on', game.done, ['frame'] * 20)


def test_a_recorded_game_goes_on():
    done, said, _ = played({24: [('Reset', 0)], 26: [('Undo', 0)]}, command='record')
    expect('nothing but frames', (done, said), ([], [words.said('recorded')] * 2))


def test_a_recorded_game_branches():
    """A recorded game that is rewound asks: it goes on as it is, and can be rewound as far again, or as a branch with the inputs up to there."""
    done, said, game = played({40: [('Rewind', 3)], 41: [('Rewind', 3)]}, command='record', answers=[False, True])
    back = ['Back by 0.1 s', 'Back by 0.2 s', 'Back by 0.3 s']
    expect('a branch once', (done, said), ([(41, 'branch', 24, 7)], back + back))
    expect('and on', game.count, 24 + 60 - 41)


def test_dialogs_hold_the_game():
    """A game waits while something is open over it, saved; and what is pressed there is not for it."""
    face, frames = Face(), []

    def at_frame(count):
        if count == 10:
            play.steering.press('A', 'x')
            play.steering.wait(1)
    play, game = a_play(face, at_frame=at_frame)
    rest = play.steering.rest

    def rests(seconds):
        frames.append((game.frames_done(), game.saved))
        if len(frames) == 3:
            play.steering.wait(-1)
            play.steering.close()
        rest(seconds)
    play.steering.rest = rests
    play.go(game, types.SimpleNamespace(note=lambda count: None))
    expect('it waits', frames, [(10, 10)] * 3)
    expect('no button is left', play.steering.buttons(), 0)


def test_fast():
    """Fast plays as many frames as are chosen; with none chosen, as many as it can, and shows no more pictures than before."""
    counts = {}
    for factor in (2, 0):
        face = Face()
        play, game = a_play(face)
        play.chosen.fast = factor
        play.steering.press('Stay fast', 'g')
        play.shown_time, end = CLOCK.now, CLOCK.now + 10

        def at_frame(count):
            CLOCK.sleep(1 / 1024)
            if CLOCK.now >= end:
                play.steering.close()
        game.at_frame = at_frame
        play.go(game, types.SimpleNamespace(note=lambda count: None))
        counts[factor] = game.frames, face.shown
    expect('ten seconds', (counts[2][0] in range(1_190, 1_200), counts[0][0], all(550 < shown < 600 for _, shown in counts.values())), (True, 10_240, True))


def test_steering():
    steering = Steering()
    steering.press('A', 'x')
    steering.let_go('x')
    steering.press('Up', 'up')
    expect('a short press counts once', (steering.buttons(), steering.buttons()), (0x14, 0x04))
    steering.press('Up', 'pad')
    steering.let_go('up')
    expect('what is held twice is held', steering.buttons(), 0x04)
    steering.let_all_go()
    expect('nothing is held', steering.buttons(), 0)
    steering.press('Pause', 'p')
    steering.press('Undo', 'u')
    expect('a pause, and what is wanted', (steering.is_paused, steering.next_wanted(), steering.next_wanted()), (True, ('Undo', None), None))


def test_a_mark_tells_of_a_kill(folder):
    os.environ['XDG_RUNTIME_DIR'] = str(folder)
    save = str(folder / 'a.gbkeep')
    first = Mark(save)
    expect('the first time', first.lost(0), None)
    first.note(150)
    second = Mark(save)
    expect('after a kill', words.welcome(second.lost(126)), 'Welcome back: the game goes on from 0.4 s before it was closed.')
    expect('nothing lost', words.welcome(second.lost(150)), 'Welcome back: the game goes on from where it was closed.')
    expect('and a little more', second.lost(155), 0)
    expect('played by something else', second.lost(400), None)
    second.remove()
    expect('after an end', Mark(save).lost(0), None)
    path = next(folder.glob('gbkeep-played-*'))
    path.unlink()
    os.symlink(folder / 'victim', path)
    planted = Mark(save)
    planted.note(5)
    expect('no link is followed', (folder / 'victim').exists(), False)


# ---- keys and preferences

def test_a_file_of_keys_takes_its_keys(folder):
    """What another action had a key for, it has none for then; buttons are never without one, and no two lines have one key."""
    path, usual = folder / 'keys.txt', actions.usual_keys()
    for text, changed in (('B = r\nstart = F3  # as there\n', {'B': ('r',), 'Start': ('F3',), 'Rewind': (), 'Reset': ()}),
                          ('Pause = s\nPicture = p\n', {'Pause': ('s',), 'Picture': ('p',)}),
                          ('Quick keep = k\nQuick back = left shift\nQuick slot = keypad 1\n', {'Keep slot': ('k',), 'Go back': ('Shift_L',), 'Next state': ('KP_1',)}),
                          ('A = space\nB = [\n', {'A': ('space',), 'B': ('bracketleft',)})):
        path.write_text(text)
        expect(text, actions.keys_in(path, usual), {**usual, **changed})
    for text, why in (('A = left', f'{path}: A and Left have one key, ←'), ('Pause = n\nUndo = n', f'{path}: Undo and Pause have one key, N'),
                      ('A = nokey', f"{path}, line 1: 'nokey' is no key"), ('#\nTurbo = x', f"{path}, line 2: 'Turbo' is nothing that a key does"),
                      ('A x', f"{path}, line 1: 'A x' is nothing that a key does")):
        path.write_text(text)
        told = refusal(lambda: actions.keys_in(path, usual), actions.WrongKeys)
        expect(text, sorted((told or '').replace(',', '').split()), sorted(why.replace(',', '').split()))
    path.write_bytes(b'A = \xe9\n')
    expect('no text', 'not UTF-8' in str(refusal(lambda: actions.keys_in(path, usual), actions.WrongKeys)), True)


def test_keys_by_pressing():
    keys = actions.with_key(actions.usual_keys(), 'A', 'z')
    expect('who had it has it no more', (keys['A'], keys['B'], actions.by_key(keys)['z']), (('z',), (), 'A'))
    expect('Escape leads out', actions.with_key(keys, 'A', 'Escape'), keys)
    expect('by their places', [actions.usual_keys('x', 'y')[name] for name in 'AB'], [('x',), ('y',)])
    pad = actions.with_button(actions.usual_pad(), 'Fast', actions.EAST)
    expect('a button', (pad['Fast'], pad['A']), (actions.EAST, None))
    expect('no two actions have one key', len(actions.by_key(actions.usual_keys())), sum(len(has) for has in actions.usual_keys().values()))
    expect('no two have one button', len(actions.by_button(actions.usual_pad())), sum(code is not None for code in actions.usual_pad().values()))
    expect('a keypad without its lock', [actions.one_key(name) for name in ('KP_End', 'KP_1', 'X', 'F5')], ['KP_1', 'KP_1', 'x', 'F5'])


def test_preferences(folder):
    chosen = preferences.loaded()
    expect('none yet', chosen, Preferences())
    chosen.palette, chosen.keys, chosen.fast = 2, {'A': ('space',)}, 4
    expect('kept', (preferences.keep(chosen), preferences.loaded()), (True, chosen))
    path = preferences.config_file('window')
    held = path.read_bytes()
    for text in (b'', b'{', b'[]', b'{"palette": 9, "keys": {"A": [1]}, "fast": true, "games": "a", "pad": {"A": -1}, "clock": [], "width": 1e3}', b'[' * 50_000):
        path.write_bytes(preferences.HEAD + text)
        expect(f'{text!r:.40}', preferences.loaded(), Preferences())
    path.write_bytes(b'mine')
    expect('a file of somebody else', (preferences.loaded(), preferences.keep(chosen), path.read_bytes()), (Preferences(), False, b'mine'))
    path.write_bytes(held)
    path.unlink()
    preferences.config_file('palette').write_text('4\n')
    expect('a palette of before', preferences.loaded().palette, 3)


# ---- games and files

def test_the_list_of_games(folder):
    one = shelf.Shelf()
    cart = folder / 'game.gb'
    cart.write_bytes(CART.read_bytes())
    entries = [shelf.Entry(str(cart), f'/games/{name}.gbkeep', name, 'ab' * 32, played) for name, played in (('a', 10.0), ('b', 30.0), ('c', 20.0))]
    for entry in entries:
        one.note(entry)
    expect('the last one first', [entry.title for entry in shelf.Shelf().rows()], ['b', 'c', 'a'])
    one.note(shelf.Entry(str(cart), '/games/a.gbkeep', 'a', 'ab' * 32, 40.0))
    expect('once', [entry.title for entry in shelf.Shelf().rows()], ['a', 'b', 'c'])
    expect('by its cartridge', one.of_digest('ab' * 32).title, 'a')
    one.remove(entries[1])
    expect('taken off', [entry.title for entry in shelf.Shelf().rows()], ['a', 'c'])
    path = Path(os.environ['XDG_DATA_HOME']) / 'gbkeep/games'
    for text in (b'', b'{}', b'[1]', b'[{"cart": "a"}]', b'[' * 99_999, json.dumps([{'cart': '/a', 'save': '/b', 'title': 3, 'digest': 'ab' * 32, 'played': 1}]).encode()):
        path.write_bytes(shelf.HEAD + text)
        expect(f'{text!r:.40}', shelf.Shelf().rows(), [])
    path.write_bytes(b'mine')
    shelf.Shelf().note(entries[0])
    expect('a file of somebody else', path.read_bytes(), b'mine')
    # a cartridge that has moved: only the same one is taken
    other = folder / 'other.gb'
    other.write_bytes(bytes(32768))
    moved = shelf.entry_of(str(cart), '/games/d.gbkeep', 'd')
    expect('another one', 'is another game' in refused(lambda: one.moved(moved, str(other))).head, True)
    cart.rename(folder / 'moved.gb')
    expect('where it is now', one.moved(moved, str(folder / 'moved.gb')).cart, str(folder / 'moved.gb'))


def test_pictures_of_games(folder):
    shades = bytes((x + y) % 4 for y in range(144) for x in range(160))
    path = shelf.picture_file(str(folder / 'a.gbkeep'))
    shelf.keep_picture(path, shades)
    expect('as it was', shelf.picture_in(path) == shades, True)
    for data in (b'', b'mine', path.read_bytes()[:100]):
        path.write_bytes(data)
        expect('no picture', shelf.picture_in(path), None)
    path.write_bytes(b'mine')
    shelf.keep_picture(path, shades)
    expect('a file of somebody else', path.read_bytes(), b'mine')
    os.symlink(folder / 'victim', folder / 'a.gbkeep.slot1.png')
    shelf.keep_picture(folder / 'a.gbkeep.slot1.png', shades, str(folder / 'a.gbkeep'))
    expect('no link is followed', (folder / 'victim').exists(), False)


def refused(call):
    """What a person is told of a refusal of the window."""
    try:
        call()
    except refusals.Stopped as stopped:
        return stopped.told
    raise AssertionError('nothing was refused')


def test_what_files_are(folder):
    rom = CART.read_bytes()
    for name, data, kind in (('a.gb', rom, intake.CARTRIDGE), ('a.bin', rom, intake.CARTRIDGE), ('a.sav', bytes(8192), intake.BATTERY), ('a.SRM', bytes(512), intake.BATTERY),
                             ('a.gbkeep', SAVE_BYTES, intake.SAVE), ('b.sav', bytes(512) + SAVE_BYTES, intake.SAVE), ('c.gb', SAVE_BYTES, intake.SAVE)):
        (folder / name).write_bytes(data)
        expect(name, intake.look(str(folder / name)).kind, kind)
    (folder / 'text.txt').write_text('a text')
    os.mkfifo(folder / 'fifo.gb')
    (folder / 'colour.gb').write_bytes(rom[:0x143] + b'\xc0' + rom[0x144:])
    for name, head in (('none.gb', 'none.gb is not there'), ('text.txt', 'text.txt is no game'), ('', f'{folder.name} is a folder'), ('fifo.gb', 'fifo.gb can\'t be read')):
        expect(name, refused(lambda: intake.look(str(folder / name))).head, head)
    expect('colour', refused(lambda: intake.check_cart(str(folder / 'colour.gb'))).head, 'colour.gb is for the Game Boy Color alone')
    with open(folder / 'long.gb', 'wb') as file:
        file.truncate(intake.MOST_CART + 1)
    told = refused(lambda: intake.check_cart(str(folder / 'long.gb')))
    expect('long', (told.head, told.body.endswith(' more than 8,388,608 bytes. Choose another file.')), ('long.gb can\'t be used', True))
    expect('its title', intake.check_cart(str(CART)), 'GBKEEP DEMO')


def test_zips(folder):
    rom = CART.read_bytes()

    def zipped(name, files):
        with zipfile.ZipFile(folder / name, 'w', zipfile.ZIP_DEFLATED) as made:
            for one, data in files:
                made.writestr(one, data)
        return str(folder / name)
    found = intake.look(zipped('one.zip', [('readme.txt', b'x'), ('games/My Game (E).gb', rom)]))
    expect('its cartridge', (found.kind, Path(found.path).read_bytes() == rom, Path(found.path).name.startswith('My Game (E)-')), (intake.CARTRIDGE, True, True))
    expect('once', intake.look(str(folder / 'one.zip')).path, found.path)
    outside = intake.look(zipped('out.zip', [('../../../etc/evil.gb', rom[:-1] + b'x')])).path
    expect('nothing goes elsewhere', Path(outside).parent, Path(found.path).parent)
    for name, files_of, head in (('none.zip', [('a.txt', b'')], 'none.zip: it has no game'), ('two.zip', [('a.gb', rom), ('b.gb', rom)], 'two.zip: it has several games'),
                                 ('long.zip', [('a.gb', bytes((8 << 20) + 1))], 'long.zip: its game is too long')):
        path = zipped(name, files_of)
        expect(name, refused(lambda: intake.look(path)).head, head)
    (folder / 'cut.zip').write_bytes((folder / 'one.zip').read_bytes()[:-30])
    expect('cut', refused(lambda: intake.look(str(folder / 'cut.zip'))).head, 'cut.zip: it can\'t be unpacked')


def test_plans(folder):
    """What is done with files that are given together."""
    rom, one = CART.read_bytes(), shelf.Shelf()
    cart, save, battery = folder / 'game.gb', folder / 'game.gbkeep', folder / 'game.sav'
    cart.write_bytes(rom)
    save.write_bytes(SAVE_BYTES[:20] + bytes.fromhex(shelf.digest_of(cart)) + bytes(1024))
    battery.write_bytes(bytes(8192))

    def plan(*paths, of=None):
        return intake.plan_of([intake.look(str(path)) for path in paths], one, of)
    expect('a cartridge', plan(cart), intake.Plan(str(cart)))
    expect('with its battery file', plan(battery, cart), intake.Plan(str(cart), None, str(battery)))
    expect('with its save file', plan(save, cart), intake.Plan(str(cart), str(save)))
    expect('a save file beside its cartridge', plan(save), intake.Plan(str(cart), str(save)))
    expect('a battery file beside it', plan(battery), intake.Plan(str(cart), None, str(battery)))
    away = folder / 'away'
    away.mkdir()
    cart = cart.rename(away / 'game.gb')
    expect('not known', (refused(lambda: plan(save)).head, refused(lambda: plan(battery)).head),
           ('The cartridge of game.gbkeep is not here', 'The cartridge of game.sav is not known'))
    expect('that of the game that is open', plan(battery, of='/open.gb').cart, '/open.gb')
    one.note(shelf.entry_of(str(cart), '/games/a.gbkeep', 'a'))
    expect('one of the list', (plan(save).cart, plan(battery).cart), (str(cart), str(cart)))
    battery = battery.rename(away / 'game.srm')
    expect('a battery file beside a new game', intake.battery_beside(str(cart), str(folder / 'new.gbkeep')), str(battery))
    expect('and beside one that is begun', intake.battery_beside(str(cart), str(save)), None)


def test_states(folder):
    save = str(folder / 'a.gbkeep')
    expect('none', [one.time for one in files.states_of(save)], [None] * 10)
    (folder / 'a.gbkeep.slot').write_bytes(b'x')
    (folder / 'a.gbkeep.slot10').write_bytes(b'x')
    expect('the one of before is the first', [Path(one.path).name for one in files.states_of(save) if one.time], ['a.gbkeep.slot', 'a.gbkeep.slot10'])
    (folder / 'a.gbkeep.slot1').write_bytes(b'x')
    expect('one of its own', Path(files.states_of(save)[0].path).name, 'a.gbkeep.slot1')
    shelf.keep_picture(f'{save}.slot10.png', PICTURE, save)
    expect('its picture', files.states_of(save)[9].picture, PICTURE)
    files.delete_state(save, 10)
    expect('deleted', sorted(path.name for path in folder.glob('a.gbkeep.slot10*')), [])


def test_screenshots(folder):
    face, chosen = Face(), Preferences(pictures=str(folder / 'shots'), palette=1)
    for number in (1, 2):
        files.leave_picture(face, PICTURE, 'GAME', chosen)
        expect('said', face.said[-1], f'Screenshot: GAME {number}.png')
    data = (folder / 'shots/GAME 2.png').read_bytes()
    expect('in the colours that are shown', data[data.index(b'PLTE') + 4:][:12], b''.join(map(bytes, PALETTES[1])))
    chosen.pictures = str(folder / 'shots/GAME 1.png')
    files.leave_picture(face, PICTURE, '../x', chosen)
    expect('no folder', face.said[-1].startswith('No screenshot: '), True)
    os.environ['HOME'] = str(folder)
    expect('the usual folder', files.pictures_folder(''), folder / 'Pictures')
    (Path(os.environ['XDG_CONFIG_HOME'])).mkdir(exist_ok=True)
    (Path(os.environ['XDG_CONFIG_HOME']) / 'user-dirs.dirs').write_text('XDG_PICTURES_DIR="$HOME/Bilder"\n')
    expect('where the desktop has it', files.pictures_folder(''), folder / 'Bilder')


def test_the_timeline(folder):
    """A moment each ten seconds, of the last hour, which is there again for the next window; what is damaged is passed over."""
    save, digest = str(folder / 'a.gbkeep'), bytes(32)
    line, game = Timeline(save, digest), Game()
    line.read(0)
    for number in range(3):
        line.time = float('-inf')
        for _ in range(FRAMES_BETWEEN):
            game.frame(0)
            line.note(game, bytes([number]) * len(PICTURE))
    support.until('they are written', lambda: line.path.exists() and len(Timeline_read(save, digest, 9_999)) == 3)
    again = Timeline_read(save, digest, 9_999)
    expect('as they were', sorted((one.count, one.picture()[0]) for one in again), [(FRAMES_BETWEEN * (at + 1), at) for at in range(3)])
    expect('none behind the game', len(Timeline_read(save, digest, FRAMES_BETWEEN)), 1)
    expect('none of another cartridge', len(Timeline_read(save, b'x' * 32, 9_999)), 0)
    data = line.path.read_bytes()
    for cut in (data[:-5], data[:60], b'', b'mine'):
        line.path.write_bytes(cut)
        expect('what is whole', len(Timeline_read(save, digest, 9_999)), 2 if cut == data[:-5] else 0)
    line.unwritten = list(line.moments)
    line.write()
    expect('a file of somebody else', line.path.read_bytes(), b'mine')
    for at in range(MOST_MOMENTS + 40):
        line.moments.append(Stamped(b'', at, 0, at, 0.0))
    expect('an hour', (len(line.shown()), line.shown()[-1][0].count), (MOST_MOMENTS, MOST_MOMENTS + 39))


def Timeline_read(save, digest, count):
    line = Timeline(save, digest)
    line.read(count)
    return list(line.moments)


# ---- what is shown and said

def test_pixels():
    shades = bytes((x // 3 + y) % 4 for y in range(144) for x in range(160))
    for palette in range(4):
        for scale in (1, 3):
            drawn = Painter(palette, scale).pixels(shades)
            expect('their number', len(drawn), 3 * 160 * 144 * scale * scale)
            for x, y in ((0, 0), (159 * scale, 143 * scale), (7 * scale + scale - 1, 5 * scale + scale - 1)):
                at = 3 * (y * 160 * scale + x)
                expect('a pixel', tuple(drawn[at:at + 3]), PALETTES[palette][shades[y // scale * 160 + x // scale]])
    expect('sizes', [scale_of(*size, is_whole) for size, is_whole in (((480, 432), True), ((1280, 960), True), ((1280, 960), False), ((380, 300), True), ((160, 144), True))],
           [(3, 3.0), (6, 6.0), (7, 960 / 144), (3, 300 / 144), (1, 1.0)])


def test_words():
    now = time.mktime((2026, 3, 10, 12, 0, 0, 0, 0, -1))
    expect('when', [words.when(now - seconds, now) for seconds in (1, 30, 300, 7200, 86_400, 40 * 86_400)],
           ['just now', '30 s ago', '5 min ago', 'today, 10:00', 'yesterday, 12:00', '29 Jan 2026'])
    expect('ago', [words.ago(seconds) for seconds in (0, 20, 600)], ['just now', '20 s ago', '10 min ago'])
    stands = [words.Standing('G', 60, 60), words.Standing('G', 90, 60, 0.5), words.Standing('G', 90, 60, 7), words.Standing('G', 60, 60, is_paused=True),
              words.Standing('G', 90, 60, 1, 4.0, is_fast=True)]
    expect('below the title', [one.line() for one in stands], ['saved', 'saved 1 s ago', 'not saved for 7 s', 'Paused: P goes on', 'saved 1 s ago, 400%'])


def test_refusals():
    """Each refusal is said in words for players, with the name of its file and no letter left to be filled in."""
    for line, command, head, part in (
            ('rom length 7604', 'info', 'a game.gb is no whole Game Boy game', '7,604 bytes'), ('device size 1000', 'stream', 'New.gbkeep is no whole save file', '1,000 bytes'),
            ('cartridge type FC', 'info', 'a game.gb can\'t be played here', 'type FC'), ('battery length 9, 8192 needed', 'import', 'The battery file is of another game', '8,192'),
            ('no session', 'stream', 'New.gbkeep is no save file of gbkeep', 'battery file'), ('other cartridge', 'stream', 'New.gbkeep is of another game', 'a game.gb'),
            ('damaged snapshot', 'stream', 'New.gbkeep is damaged', 'backup'), ('device failed', 'stream', 'New.gbkeep can\'t be opened or written', '/games/New.gbkeep'),
            ('device failed', 'new', 'No save file can be made', '/games/New.gbkeep'), ('recording behind, 9 inputs', 'record', 'The recording lags behind the game', 'run.rec')):
        told = refusals.told_of(Refused(f'gbkeep: {line}', command), '/games/a game.gb', '/games/New.gbkeep', '/games/run.rec')
        expect(line, (told.head, part in told.body, re.search(r'\b[NM]\b|SAVE|CART|RECORDING', told.head + told.body)), (head, True, None))
        expect(f'{line}, in a terminal', told.in_a_line(), f'gbkeep: {line}: {head}: {told.body}')
    taken = Refused('gbkeep: device failed', 'new', '/games/New.gbkeep exists already', 'take a name that is free')
    expect('exists already', refusals.told_of(taken, None, '/games/New.gbkeep').head, 'New.gbkeep exists already')
    away = Refused('run.rec is not there', 'record', 'the game in SAVE has no recording of this name', 'name another one')
    expect('no recording', refusals.told_of(away, None, '/games/New.gbkeep').body, 'The game in New.gbkeep has no recording of this name. Name another one.')
    for error in (MissingProgram('/no/gbkeep', 'no such program'), OSError(28, 'No space left on device', '/a/b'), MemoryError(), ValueError('x'), actions.WrongKeys('a, line 1: b')):
        told = refusals.told_of(error)
        expect(f'{error!r}', (bool(told.head), told.in_a_line().isprintable(), '\n' in told.body), (True, True, False))
    for wrong, advice in (('a, line 1: b', 'Mend that line'), ('a: No such file or directory', 'Name another one')):
        expect(wrong, advice in refusals.told_of(actions.WrongKeys(wrong)).body, True)


def test_palettes():
    """The window, the page and the core have the same palettes, by one order of names."""
    made = (TOP / 'web/page/palettes.js').read_text()
    numbers = [int(number) for number in re.findall('[0-9]+', made.partition('[')[2])]
    expect('the page', numbers, [part for palette in PALETTES for colour in palette for part in colour])
    offered = re.findall('name="palette" value="([0-9]+)"><span>(.*?)</span>', (TOP / 'web/page/index.html').read_text())
    expect('what the page offers', offered, [(str(place), name) for place, name in enumerate(NAMES)])
    tables = subprocess.run([sys.executable, '-B', TOP / 'players/libretro/tables_h.py'], stdout=subprocess.PIPE, text=True, check=True).stdout
    colours = re.findall('0x([0-9a-f]{6})', re.search(r'PALETTES\[\]\[4\] = \{\n(.*?)^\};', tables, re.M | re.S)[1])
    expect('the core', colours, [bytes(colour).hex() for palette in PALETTES for colour in palette])
    expect('what the core offers', re.findall(r'\{"(\w+)", NULL\}', tables), NAMES)


def test_the_model_knows_no_toolkit():
    """Each module but those of the view is imported where there is none."""
    modules = [path.stem for path in (TOP / 'python/gbkeep/desktop').glob('*.py') if not path.stem.startswith('_')]
    code = '; '.join(['import sys', 'sys.modules["gi"] = None', *(f'import gbkeep.desktop.{name}' for name in sorted(modules)), 'import gbkeep.window'])
    done = subprocess.run([sys.executable, '-S', '-B', '-c', code], capture_output=True, text=True)
    expect('imported', (done.returncode, done.stderr), (0, ''))


def test_types():
    """The annotations agree with one another, as far as mypy sees: GTK has none."""
    needs('the types of the window', 'mypy')
    with tempfile.TemporaryDirectory(prefix='mypy-') as cache:
        done = subprocess.run(['mypy', '--python-version', '3.10', '--ignore-missing-imports', '--follow-imports=silent', '--cache-dir', cache, '-p', 'gbkeep.desktop',
                               '-m', 'gbkeep.window', '-m', 'gbkeep.going_back'], cwd=TOP / 'python', capture_output=True, text=True,
                              env={name: value for name, value in os.environ.items() if name != 'PYTHONPATH'})
    expect('mypy', (done.returncode, [line for line in done.stdout.splitlines() if ': error:' in line]), (0, []))


def given(folder):
    for name in ('CONFIG', 'DATA', 'CACHE'):
        os.environ[f'XDG_{name}_HOME'] = str(folder / name.lower())
    return (folder,)


def case(test):
    """A test that is given its folder where it wants one."""
    wants = test.__code__.co_argcount

    def run(folder):
        test(*(folder,)[:wants])
    run.__name__, run.__doc__ = test.__name__, test.__doc__
    return run


if __name__ == '__main__':
    support.run_tests('the model of the window', map(case, support.tests_in(globals())), given, sys.argv[1:])
