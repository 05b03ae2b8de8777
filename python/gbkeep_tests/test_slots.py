"""Tries save slots, the cartridge's clock and the window's files: what would lose a game, or give time twice, is done to them, and they are killed at
each point.

usage: test_slots.py GBKEEP [TEST..]

Time is told by a clock that is not real. The status is 1 where a test fails."""
import contextlib
import fcntl
import hashlib
import os
import shutil
import signal
import stat
import subprocess
import tarfile
import threading
import types
import unittest.mock
import zlib
from pathlib import Path

from gbkeep_tests import support
from gbkeep_tests.support import CART, DAY, TOP, clock_cart, clock_shown, expect, needs, seconds_shown
from gbkeep import slots as slots_module
from gbkeep.game import A, LEFT, RIGHT, DebugMachine, Game, Refused, begin, header_of, run
from gbkeep.input_files import WrongInput
from gbkeep.new_files import Unsafe, new_file
from gbkeep.script import own_move
from gbkeep.shown_game import SECONDS, shown
from gbkeep.slots import NotReplaced, Slots
from gbkeep.timed_game import INPUTS_BETWEEN, SaveTime, TimedGame, WrongTime, lines_of, merged, span
from gbkeep.desktop.files import (battery_name, keep_state, lasting_name, leave_picture, load_state, put_aside, recording_of, take_battery, take_out,
                                  with_recording)
from gbkeep.desktop.preferences import Preferences
from gbkeep.desktop.recorded import RecordedTimeline, Seeker
from gbkeep.desktop.shelf import own_save
from gbkeep.desktop.timeline import FRAMES_BETWEEN, Stamped



# a user that is not root
USER = 4_000
# more than this is not given without a question
YEAR = 366 * DAY


def refusal(call):
    return support.refusal(call, NotReplaced, Refused, WrongInput, WrongTime)


class Room(support.Room):
    """A folder with a program and the cartridge that shows its clock, for one test."""

    def __init__(self, program, folder):
        super().__init__(program, folder)
        self.clock_cart, self.known = clock_cart(self.folder), {}

    def game(self, name, inputs, cart=CART):
        """A SAVE with so many inputs."""
        save, known = self.path(name), self.known.get((inputs, cart))
        if known:
            return self.write(name, known)
        with Game(cart, save, self.program) as game:
            game.frames(A, inputs)
        self.known[inputs, cart] = save.read_bytes()
        return save

    def inputs(self, save, cart=CART):
        """The count of inputs of a SAVE that `gbkeep show` takes."""
        return int(run(self.program, 'show', str(cart), str(save)).split()[1])

    def state(self, save, cart=CART):
        """What a SAVE holds, by `gbkeep show`: its inputs and its machine."""
        says = dict(line.split(' ', 1) for line in run(self.program, 'show', str(cart), str(save)).splitlines())
        return says['inputs'], says['state']

    def keeps(self, save, inputs=0, buttons=A):
        """Plays so many inputs, and keeps the game in its slot."""
        with Game(CART, save, self.program) as game:
            game.frames(buttons, inputs)
            game.save()
            return self.slots(save).keep()

    def goes_back(self, save, inputs=0, buttons=LEFT, meanwhile=lambda: None):
        """Plays so many inputs, and goes back to the slot, as the window does."""
        slots = self.slots(save)
        with Game(CART, save, self.program) as game:
            game.frames(buttons, inputs)
            game.save()
            left = slots.left()
        with left:
            meanwhile()
            return slots.go_back(left)

    def slots(self, save, has_clock=False, number=0):
        return Slots(self.clock_cart if has_clock else CART, save, self.program, has_clock, number)

    def games(self, save, cart=CART):
        """The states of all files of a game."""
        return {self.state(path, cart) for path in self.folder.glob(f'{Path(save).name}*') if path.suffix != '.time' and path.is_file()}

    def there(self, name):
        return sorted(path.name for path in self.folder.iterdir() if path.name.startswith(name) or path.name.startswith('.gbkeep'))


class Times:
    """The computer's date, and a clock that nobody sets."""

    def __init__(self, date=1_000_000.5):
        self.date, self.ran = date, 500.25

    def passes(self, seconds):
        self.date, self.ran = self.date + seconds, self.ran + seconds

    def open(self, room, save, **more):
        return TimedGame(room.clock_cart, save, room.program, lambda: self.date, elapsed=lambda: self.ran, **more)


def killed_at(point, names, call):
    """Does this in a process that is killed before the point-th call of these functions of `os`; answers whether it came so far."""
    child = os.fork()
    if child == 0:
        left = [point]

        def counted(real):
            def counts(*words, **more):
                left[0] -= 1
                if left[0] < 0:
                    os.kill(os.getpid(), signal.SIGKILL)
                return real(*words, **more)
            return counts
        for name in names:
            setattr(os, name, counted(getattr(os, name)))
        with contextlib.suppress(BaseException):
            call()
            os._exit(0)
        os._exit(1)
    status = os.waitpid(child, 0)[1]
    if os.WIFEXITED(status):
        expect('a run that nobody kills', os.WEXITSTATUS(status), 0)
    return os.WIFSIGNALED(status)


def as_user(room, call):
    """Does this as another user, in a process of its own, with a program that he can run."""
    program, room.program = room.program, shutil.copy(room.program, room.path('program'))
    os.chmod(room.program, 0o755)
    child = os.fork()
    if child == 0:
        with contextlib.suppress(BaseException):
            os.setgroups([])
            os.setgid(USER)
            os.setuid(USER)
            call()
            os._exit(0)
        os._exit(1)
    room.program = program
    expect('what the user does', os.WEXITSTATUS(os.waitpid(child, 0)[1]), 0)


def until_free(save):
    """Waits until no program holds SAVE."""
    with open(save, 'rb') as file:
        support.until('a program ends after its window', lambda: support.refusal(lambda: fcntl.flock(file, fcntl.LOCK_EX | fcntl.LOCK_NB), BlockingIOError) is None)


# ---- slots


def test_copies(room):
    """A copy of SAVE, made while nothing has it open, is a save slot."""
    save, slot = room.path('copies.gbkeep'), room.path('copy.gbkeep')
    with Game(CART, save, room.program) as game:
        game.frames(RIGHT, 200)
        before = game.picture().shades
    shutil.copy(save, slot)
    with Game(CART, save, room.program) as game:
        game.frames(LEFT, 300)
        after = game.picture().shades
    with Game(CART, slot, room.program) as game:
        expect('a slot', (game.resumed, game.picture().shades == before, before == after), (200, True, False))


def test_no_game_is_lost(room):
    """Each game that was ever kept or played stands in a file, whatever is pressed."""
    save, seen = room.path('twice.gbkeep'), set()
    room.keeps(save, 30)
    seen.add(room.state(save))
    with Game(CART, save, room.program) as game:
        game.frames(A, 100)
    seen.add(room.state(save))
    expect('what it replaces', room.goes_back(save), f'{save}.before')
    expect('back', (room.state(f'{save}.before')[0], room.inputs(save)), ('130', 30))
    expect('twice', room.goes_back(save, 7), f'{save}.before.2')
    expect('the first is there', (room.inputs(f'{save}.before'), room.inputs(f'{save}.before.2')), (130, 37))
    # a slot that is replaced is no less a game
    shutil.copy(room.game('fifth.gbkeep', 5), save)
    expect('the slot before', room.keeps(save), f'{save}.before.3')
    expect('slots', (room.inputs(f'{save}.before.3'), room.inputs(f'{save}.slot')), (30, 5))
    expect('lost', seen - room.games(save), set())
    # the same bytes are not kept again
    held = save.read_bytes()
    save.write_bytes(room.path('twice.gbkeep.before').read_bytes())
    slots = room.slots(save)
    with slots.left() as left:
        expect('a game that stands elsewhere', (slots.go_back(left), room.there('twice')),
               (None, [f'twice.gbkeep{end}' for end in ('', '.before', '.before.2', '.before.3', '.slot')]))
    save.write_bytes(held)
    with slots.left() as left:
        expect('the game of the slot', (slots.go_back(left), save.read_bytes() == held), (None, True))
    # a name that is taken by anything at all is passed over
    os.mkfifo(f'{save}.before.4')
    os.symlink('nowhere', f'{save}.before.5')
    room.write('twice.gbkeep.before.6.time', 'mine')
    expect('the next free name', room.goes_back(save, 3), f'{save}.before.7')
    expect('what had names', (os.readlink(f'{save}.before.5'), room.path('twice.gbkeep.before.6.time').read_text()), ('nowhere', 'mine'))


def test_links_that_seem_copies(room):
    """A name that leads to what is replaced is no other place where the game stands."""
    save = room.game('led.gbkeep', 10)
    room.keeps(save)
    os.symlink('led.gbkeep', f'{save}.before')
    expect('past the link', room.goes_back(save, 20), f'{save}.before.2')
    expect('the game before', room.inputs(f'{save}.before.2'), 30)
    # a slot that is SAVE itself
    other = room.game('itself.gbkeep', 10)
    os.link(other, f'{other}.slot')
    expect('a slot that is SAVE', refusal(lambda: room.keeps(other)), 'itself.gbkeep.slot is itself.gbkeep itself')
    expect('back to itself', 'in use' in refusal(lambda: room.goes_back(other)), True)
    expect('untouched', room.inputs(other), 10)


def test_planted_links(room):
    """A link that somebody has put beside SAVE leads to no other game and no other clock."""
    os.mkdir(room.path('shared'))
    save, mine, names = room.game('shared/run.gbkeep', 10, room.clock_cart), room.game('mine.gbkeep', 33, room.clock_cart), (room.folder, room.path('shared'))
    clock = room.write('mine.gbkeep.time', '33 1000\n')
    slots, held = room.slots(save, has_clock=True), (mine.read_bytes(), clock.read_bytes())

    def there():
        return {path.name for folder in names for path in folder.iterdir()}

    def keep():
        with Game(room.clock_cart, save, room.program):
            return slots.keep()

    def back():
        with slots.left() as left:
            return slots.go_back(left)
    os.symlink(mine, f'{save}.slot')
    before = there()
    for call in (keep, back):
        expect('a planted slot', (refusal(call), (mine.read_bytes(), clock.read_bytes()) == held, there() == before),
               ('run.gbkeep.slot: this is a link, and none is followed here: take it away', True, True))
    os.unlink(f'{save}.slot')
    # the clocks of SAVE, of its slot, and of a copy that is replaced
    times = Times(5_000)
    for name in (f'{save}.time', f'{save}.slot.time'):
        os.symlink(clock, name)
        with times.open(room, save) as game:
            times.passes(50)
            game.save_all()
            if name == f'{save}.time':
                expect('a planted clock', ('none is followed here' in game.notice, 'Take that file away' in game.notice, seconds_shown(game)), (True, True, 0))
        said = refusal(keep)
        expect(f'{name}: the clock', ('this is a link, and none is followed here' in str(said), clock.read_bytes() == held[1], os.readlink(name)), (True, True, str(clock)))
        os.unlink(name)
        room.path('shared/run.gbkeep.slot').unlink(missing_ok=True)
    expect('and without it', (keep(), mine.read_bytes() == held[0]), (None, True))
    # the mark of a recorded game
    room.write('mine.gbkeep.recorded', f'{room.path("mine.rec")}\ngbkeep record\n')
    os.symlink(room.path('mine.gbkeep.recorded'), f'{save}.recorded')
    expect('a planted mark', refusal(lambda: with_recording(Window(True), str(save))), f'{save}.recorded: this is a link, and none is followed here: take it away')


def test_files_of_other_users(room):
    """What another user has put beside SAVE is not taken; what belongs to the user whose SAVE it is stays his, also where root plays it."""
    needs('slots, files of other users', 'root')
    save, slots, times = room.game('run.gbkeep', 10, room.clock_cart), room.slots(room.path('run.gbkeep'), has_clock=True), Times(5_000)
    with times.open(room, save) as game:
        game.save_all()
        slots.keep()
    for path in room.folder.glob('run.gbkeep*'):
        os.chown(path, USER, USER)
    os.chown(room.folder, USER, USER)

    def owners():
        return {path.name: path.stat().st_uid for path in room.folder.glob('run.gbkeep*')}

    def plays():
        times.passes(100)
        with times.open(room, save) as game:
            game.frames(A, 5)
            game.save_all()
            slots.keep()
            left, trouble = slots.left(), game.notice or game.trouble
            game.frames(A, 5)
            game.save_all()
            left.close()
            left = slots.left()
        with left:
            slots.go_back(left)
        return trouble
    expect('root plays', (plays(), set(owners().values()), len(owners()) > 6), (None, {USER}, True))
    # the clock of the user goes on
    def user_plays():
        with times.open(room, save) as game:
            before = seconds_shown(game)
            times.passes(60)
            game.save_all()
            expect('his clock', (seconds_shown(game) - before, game.notice, game.trouble), (60, None, None))
    as_user(room, user_plays)
    # a slot, a copy and a clock of a third user's
    for end, why in (('.slot', None), ('.time', 'clock')):
        os.chown(f'{save}{end}', USER + 1, USER + 1)
        held = room.path(f'run.gbkeep{end}').read_bytes()
        with times.open(room, save) as game:
            said = str(game.notice) if why else refusal(slots.keep)
        expect(f'{end} of another user', ('this file is of another user, and is not taken' in said, room.path(f'run.gbkeep{end}').read_bytes() == held), (True, True))
        os.chown(f'{save}{end}', USER, USER)
    # a copy that another user may take away is no place where the game stands
    before = sorted(room.folder.glob('run.gbkeep.before*'))
    for path in before:
        path.unlink()
    os.chown(shutil.copy(save, f'{save}.before'), USER + 1, USER + 1)
    with slots.left() as left:
        expect('past the copy of another user', slots.go_back(left), f'{save}.before.2')


def test_a_game_with_two_names(room):
    """A SAVE with another name is not replaced: whoever plays it by that name would go on with the game that is gone from here."""
    save = room.game('named.gbkeep', 10)
    room.keeps(save)
    other, there = room.path('other name.gbkeep'), None
    os.link(save, other)
    there = room.there('')
    expect('back', refusal(lambda: room.goes_back(save, 7)), 'named.gbkeep has 2 names, of which the others would keep the game that goes: leave it one name')
    expect('one file, and nothing else', (os.path.samefile(save, other), room.there('')), (True, there))
    with Game(CART, save, room.program) as game:
        game.frames(A, 3)
    expect('the other name has what is saved', room.inputs(other), 20)
    os.unlink(other)
    expect('one name', (room.goes_back(save), room.inputs(save)), (f'{save}.before', 10))


def test_names_of_others(room):
    """Files of others beside SAVE stay what they are."""
    for name, others in (('run', ['run.new']), ('two', ['two.slot.new', 'two.new', 'two.before.new', 'two.time.new', 'two.slot.time.new'])):
        save = room.game(name, 10)
        held = {other: room.game(other, 17).read_bytes() for other in others}
        room.keeps(save)
        room.goes_back(save, 1)
        expect(f'beside {name}', {other: room.path(other).read_bytes() for other in others}, held)
    save, victim = room.game('s', 10), room.write('victim', 'a file of mine')
    for end in ('.slot.new', '.new', '.before.new'):
        os.symlink(victim, f'{save}{end}')
    room.keeps(save)
    room.goes_back(save, 1)
    expect('what a link leads to', (victim.read_text(), os.path.islink(f'{save}.slot.new')), ('a file of mine', True))
    # what is no slot is not written over
    save, other = room.game('taken', 10), room.game('another', 5, cart=room.clock_cart).read_bytes()
    for content in (b'mine', b'GBKP' + bytes(508), b'GBKPROOT' * 100, b'GBKPREC1' + bytes(1024), other):
        slot = room.write('taken.slot', content)
        expect('a slot of somebody else', (refusal(lambda: room.keeps(save)), slot.read_bytes() == content),
               ('taken.slot exists already and is another kind of file: take it away', True))
    # one of this game that was never resumed is a slot
    slot.unlink()
    begin(CART, slot, room.program)
    expect('a new game as a slot', (room.keeps(save), room.inputs(f'{save}.before'), room.inputs(slot)), (f'{save}.before', 0, 10))
    # another game in use
    save, other = room.game('mine', 10), room.game('mine.slot', 17)
    with Game(CART, other, room.program) as second:
        expect('a slot in use', refusal(lambda: room.keeps(save)), 'mine.slot is in use')
        second.frame(A)
        expect('it is saved', second.save(), 18)
        expect('and no way back', refusal(lambda: room.goes_back(save)), 'mine.slot is in use')
    expect('both', (room.inputs(save), room.inputs(other)), (10, 18))


def test_links_and_modes(room):
    """A SAVE that is a link stays one, and so do the modes of files."""
    os.mkdir(room.path('far'))
    real = room.game('far/real.gbkeep', 10)
    save = room.path('link.gbkeep')
    os.symlink('far/real.gbkeep', save)
    os.chmod(real, 0o600)
    room.keeps(save)
    before = room.goes_back(save, 5)
    mode = {path: stat.S_IMODE(os.stat(path).st_mode) for path in (str(real), f'{save}.slot', before)}
    expect('a link stays', (os.readlink(save), room.inputs(real), room.inputs(before)), ('far/real.gbkeep', 10, 15))
    expect('modes', set(mode.values()), {0o600})
    os.chmod(f'{save}.slot', 0o640)
    room.keeps(save, 5)
    expect('the slot has its own', stat.S_IMODE(os.stat(f'{save}.slot').st_mode), 0o640)


def test_wrong_slots(room):
    """What `gbkeep show` does not take does not take SAVE's place."""
    save, good = room.game('wrong.gbkeep', 10), room.game('good.gbkeep', 5).read_bytes()
    other, held, slots = room.game('other.gbkeep', 5, cart=room.clock_cart).read_bytes(), save.read_bytes(), room.slots(save)
    slot, damaged = room.path('wrong.gbkeep.slot'), bytearray(good)
    for area in (0, 1):
        # a byte of the machine in each of the two places of a snapshot
        damaged[512 * (2 + area * (len(good) // 512 - 2) // 2 + 32) + 60] ^= 0xff

    def back():
        with slots.left() as left:
            return slots.go_back(left)
    for content in (bytes(1000), b'', good[:512 * 9], bytes(damaged), other, bytes(len(good)), b'GBKP' * 128):
        slot.write_bytes(content)
        expect(f'a slot of {len(content)} bytes', (bool(refusal(back)), save.read_bytes() == held), (True, True))
    slot.unlink()
    for make in (lambda: os.mkfifo(slot), lambda: os.symlink('/dev/zero', slot), lambda: os.symlink('nowhere', slot), lambda: os.symlink(room.folder, slot),
                 lambda: os.symlink(slot.name, slot)):
        make()
        expect('no file', (bool(refusal(back)), save.read_bytes() == held), (True, True))
        slot.unlink()
    with open(slot, 'wb') as file:
        file.truncate(1 << 40)
    expect('a slot of a terabyte', refusal(back), 'wrong.gbkeep.slot is longer than a save file')
    slot.unlink()
    slot.write_bytes(good)
    expect('nothing else was made', room.there('wrong'), ['wrong.gbkeep', 'wrong.gbkeep.slot'])
    expect('a good one', (back(), room.inputs(save)), (f'{save}.before', 5))


def test_another_process(room):
    """Another program that plays SAVE while the window goes back loses nothing that it was told."""
    save = room.game('raced.gbkeep', 0)
    room.keeps(save)
    told, real = [], os.replace

    def plays():
        """Tries to play, and notes what it was told."""
        done = subprocess.run([room.program, 'stream', CART, save], input='frames 01 70\nsave\n', capture_output=True, text=True)
        told.append((done.returncode, done.stdout.split('\n')[-2:], done.stderr.strip()))

    def replace(source, target, **more):
        if str(target) == str(save):
            plays()
        real(source, target, **more)
    os.replace = replace
    try:
        room.goes_back(save, 10)
    finally:
        os.replace = real
    expect('it holds the lock until the rename', told, [(1, [''], 'gbkeep: device failed')])
    expect('back', room.inputs(save), 0)
    # one that comes between the end of the window's program and the lock
    changed = 'raced.gbkeep was changed meanwhile by something else'
    expect('played meanwhile', refusal(lambda: room.goes_back(save, 20, meanwhile=plays)), changed)
    expect('it was told so', (told[-1], room.inputs(save)), ((0, ['saved 90', ''], ''), 90))
    other = room.game('other.gbkeep', 5)
    expect('replaced meanwhile', refusal(lambda: room.goes_back(save, meanwhile=lambda: os.replace(other, save))), changed)
    with Game(CART, save, room.program), room.slots(save).left() as left:
        expect('in use', refusal(lambda: room.slots(save).go_back(left)), 'raced.gbkeep is in use')
    # one without locks that writes to it
    real_put = slots_module.Slots.put

    def put(self, *words):
        with open(save, 'r+b') as file:
            file.write(b'X')
        real_put(self, *words)
    slots_module.Slots.put = put
    try:
        expect('written meanwhile', refusal(lambda: room.goes_back(save)), changed)
    finally:
        slots_module.Slots.put = real_put
    expect('as it was left', (save.read_bytes()[:8], room.there('.gbkeep')), (b'XBKPROOT', []))


def test_slots_cut(room):
    """Killed at each point, SAVE holds the one game or the other, and the game that was played stands somewhere."""
    save, slot = room.game('cut.gbkeep', 10), room.path('cut.gbkeep.slot')
    shutil.copy(room.game('other.gbkeep', 5), slot)
    old, new, slots, real = save.read_bytes(), slot.read_bytes(), room.slots(save), slots_module.run
    slots_module.run = lambda *words: ''
    try:
        for name, call in (('back', lambda: slots.go_back(slots.left())), ('keep', lambda: slots.keep())):
            point, is_killed, seen = 0, True, set()
            while is_killed:
                save.write_bytes(old)
                slot.write_bytes(new)
                is_killed = killed_at(point, ('open', 'fsync', 'replace', 'link', 'unlink', 'rename'), call)
                files = {path.name: path.read_bytes() for path in room.folder.glob('cut.gbkeep*')}
                expect(f'{name}, killed at {point}', (files['cut.gbkeep'] in (old, new), set(files.values()) == {old, new}), (True, True))
                seen.add(files['cut.gbkeep' if name == 'back' else 'cut.gbkeep.slot'] == (new if name == 'back' else old))
                for path in [*room.folder.glob('cut.gbkeep.before*'), *room.folder.glob('.gbkeep-*')]:
                    path.unlink()
                point += 1
            expect(f'{name}: before and after', (seen, point > 8), ({False, True}, True))
    finally:
        slots_module.run = real


def test_time_of_slots(room):
    save = room.path('back.gbkeep')
    times = Times(1_000)
    slots = room.slots(save, has_clock=True)
    with times.open(room, save) as game:
        game.frames(A, 100)
        game.save_all()
        slots.keep()
        shutil.copy(save, room.path('kept'))
        kept = room.state(room.path('kept'), room.clock_cart), SaveTime(save).read()
        game.frames(LEFT, 50)
    times.passes(1_000)
    with times.open(room, save) as game:
        newer = game.save_all()
        left = slots.left()
    expect('the slot', (room.state(f'{save}.slot', room.clock_cart), SaveTime(f'{save}.slot').read()), kept)
    replaced = room.state(save, room.clock_cart), SaveTime(save).read()
    with left:
        slots.go_back(left)
    expect('back', (room.state(save, room.clock_cart), SaveTime(save).read()), kept)
    expect('what it replaces', (room.state(f'{save}.before', room.clock_cart), SaveTime(f'{save}.before').read()), replaced)
    expect('nothing else', room.there('back'), [f'back.gbkeep{end}' for end in ('', '.before', '.before.time', '.slot', '.slot.time', '.time')])
    times.passes(1_000)
    with times.open(room, save) as game:
        expect('the game of the slot, and the time since', (game.resumed < newer, game.notice, seconds_shown(game)), (True, None, 2_000))
        game.save_all()
    # cut between the game and its time: of either game the time says how far its clock was given
    point, is_killed, seen = 0, True, set()
    while is_killed:
        is_killed = killed_at(point, ('fsync', 'replace', 'link', 'unlink'), lambda: slots.go_back(slots.left()))
        with times.open(room, save) as game:
            expect(f'killed at {point}', (int(times.date) - 1_000 - seconds_shown(game) in (0, 1), game.notice), (True, None))
            seen.add(game.resumed > 110)
            times.passes(50)
            game.frames(0, 30)
        point += 1
        for path in [*room.folder.glob('back.gbkeep.before*'), *room.folder.glob('.gbkeep-*')]:
            path.unlink()
    expect('before and after', (seen, point > 12), ({False, True}, True))


# ---- the clock


def test_clock(room):
    times = Times()
    save, clock = room.path('clock.gbkeep'), room.path('clock.gbkeep.time')
    cart = room.clock_cart

    def opened():
        return times.open(room, save)

    with opened() as game:
        expect('a new game', (game.notice, game.save_all()), (None, 0))
        times.passes(5.2)
        game.save_all()
        expect('five seconds', clock_shown(game), (5, 0, 0, 0))
        times.passes(0.9)
        kept = game.save_all()
    expect('SAVE.time', clock.read_text().split('\n')[0], f'{kept} 1000006')
    # what `trace` and `frame` do to the file changes nothing
    run(room.program, 'frame', str(cart), str(save), str(room.path('out.pgm')))
    run(room.program, 'trace', str(cart), str(save), '3')
    os.utime(save)
    times.passes(3600)
    with opened() as game:
        expect('an hour away', (game.notice, clock_shown(game)), (None, (6, 0, 1, 0)))
        game.save_all()
    # the power was cut after inputs that SAVE.time does not know
    with Game(cart, save, room.program) as game:
        game.frames(0, INPUTS_BETWEEN)
    times.passes(60)
    with opened() as game:
        expect('cut between', (game.notice, clock_shown(game)), (None, (6, 1, 1, 0)))
        game.save_all()
    shutil.copy(save, room.path('older.gbkeep'))
    # played by something else
    run(room.program, 'play', str(cart), str(save), str(room.write('long.script', 'frames 00 500')))
    times.passes(60)
    with opened() as game:
        expect('played without it', ('played without the window' in game.notice, '60 seconds' in game.notice, clock_shown(game)), (True, True, (6, 2, 1, 0)))
        game.save_all()
    with opened() as game:
        expect('told once', game.notice, None)
    shutil.copy(room.path('older.gbkeep'), save)
    with opened() as game:
        expect('an older copy', ('older copy' in game.notice, clock_shown(game)), (True, (6, 1, 1, 0)))
    times.date -= 1000
    with opened() as game:
        expect('set back', ('16 minutes and 40 seconds before' in game.notice, clock_shown(game)), (True, (6, 1, 1, 0)))
        times.passes(2)
        game.save_all()
        expect('on from there', clock_shown(game), (8, 1, 1, 0))
    clock.unlink()
    times.passes(50)
    with opened() as game:
        expect('no SAVE.time', ('no SAVE.time' in game.notice, clock_shown(game)), (True, (8, 1, 1, 0)))
    with TimedGame(CART, room.path('none.gbkeep'), room.program, lambda: times.date) as game:
        times.passes(100)
        game.frame()
        expect('a cartridge without a clock', (game.save_all(), room.path('none.gbkeep.time').exists()), (1, False))
    size = lambda cart, path: (path.stat().st_size, header_of(cart, room.program).sectors * 512)
    expect('as many sectors as it needs', *size(cart, save))
    begin(CART, room.path('size.gbkeep'), room.program)
    expect('as many sectors as it needs', *size(CART, room.path('size.gbkeep')))
    expect('header', (header_of(cart, room.program).title, header_of(CART, room.program).sectors), ('CLOCK', 284))


def test_date_is_set(room):
    """A date that is set gives no time, in a session or between two; of a leap of years the player is asked."""
    save, times, asked = room.path('set.gbkeep'), Times(), []

    def asks(answer):
        def ask(game, question):
            asked.append(question)
            return answer
        return ask
    with times.open(room, save) as game:
        for step in (3600, -3600, 7200, -7200, YEAR, -YEAR, 3600, -3600):
            times.date += step
            times.passes(1)
            game.frame()
            game.save_all()
        expect('back and forth in a session', seconds_shown(game), 8)
    # between sessions: back, and then forth again
    for step in (3600, -3600, 3600, -3600):
        times.date += step
        with times.open(room, save) as game:
            shown = seconds_shown(game)
    expect('back and forth between', shown, 8 + 3600)
    times.date -= 30
    with times.open(room, save, ask=asks(True)) as game:
        expect('what is no fault', 'set back' in str(game.notice), False)
    # a computer that begins in 1970 and is then set right
    first, later = room.path('first.gbkeep'), Times(10.0)
    with later.open(room, first) as game:
        later.passes(5)
        game.save_all()
    later.date = 1_780_000_000.0
    with later.open(room, first, ask=asks(False)) as game:
        expect('56 years are not given', (seconds_shown(game), '56 years' in asked[-1]), (5, True))
        later.passes(3)
        game.save_all()
    later.passes(60)
    count = len(asked)
    with later.open(room, first, ask=asks(True)) as game:
        expect('from then on', (seconds_shown(game), len(asked)), (68, count))
    later.passes(2 * YEAR)
    with later.open(room, first, ask=asks(True)) as game:
        expect('two years that are agreed to', (seconds_shown(game) % DAY, len(asked)), (68 + 2 * YEAR % DAY, count + 1))
    later.passes(2 * YEAR)
    with later.open(room, first, ask=asks(None)) as game:
        later.passes(4)
        game.save_all()
        expect('a window that was closed over the question', seconds_shown(game) % DAY, 72 + 2 * YEAR % DAY)
    later.passes(-4)
    with later.open(room, first, ask=asks(False)) as game:
        expect('it is asked again', (seconds_shown(game) % DAY, len(asked)), (72 + 2 * YEAR % DAY, count + 3))
    later.date -= 3 * YEAR
    with later.open(room, first) as game:
        expect('years back', ('2 years' in game.notice or '3 years' in game.notice, seconds_shown(game) % DAY), (True, 72))
    with later.open(room, first, ask=asks(True)) as game:
        expect('anew from now', (game.notice, seconds_shown(game) % DAY), (None, 72))
    later.passes(100)
    with later.open(room, first) as game:
        expect('and on', (game.notice, seconds_shown(game) % DAY), (None, 172))


def test_time_that_is_not_written(room):
    """Where SAVE.time can't be written, no time is given, and none is lost."""
    save, times = room.path('full.gbkeep'), Times()
    with times.open(room, save) as game:
        game.save_all()
    times.passes(DAY)
    real = os.replace

    def full(source, target, **more):
        if str(target).endswith('.time'):
            raise OSError(28, 'No space left on device')
        real(source, target, **more)
    for _ in range(4):
        os.replace = full
        try:
            with times.open(room, save) as game:
                expect('the clock stands', (seconds_shown(game), 'No space left' in game.trouble), (0, True))
                game.save_all()
        finally:
            os.replace = real
    with times.open(room, save) as game:
        expect('a day once', (seconds_shown(game), game.trouble), (DAY, None))


def test_clock_cut(room):
    """Killed at each point, with its program or before it, the clock is given no second twice, and at most two are lost."""
    save, times = room.path('killed.gbkeep'), Times()
    with times.open(room, save) as game:
        game.frames(A, 20)
        game.save_all()
    begun = int(times.date)
    games, at = (save.read_bytes(), SaveTime(save).read()), times.date
    for kills_program in (False, True):
        point, is_killed, given = 0, True, set()
        while is_killed:
            save.write_bytes(games[0])
            SaveTime(save).write(games[1])
            times.date = at + DAY

            def session():
                real = os.kill
                game = times.open(room, save)
                if kills_program:
                    os.kill = lambda process, number: (real(game.process.pid, signal.SIGKILL), real(process, number))
                game.frames(A, 3)
                times.passes(3)
                game.save_all()
                times.passes(2)
                game.save_all()
                game.close()
            is_killed = killed_at(point, ('fsync', 'replace', 'write'), session)
            until_free(save)
            times.date = at + DAY + 100
            with times.open(room, save) as game:
                off = int(times.date) - begun - seconds_shown(game)
                expect(f'killed at {point}', (off in (0, 1, 2), game.notice), (True, None))
                given.add(off)
            point += 1
        expect('points', point > 12, True)


def test_crafted_times(room):
    """Whatever SAVE.time holds, the game is played, and a file of somebody else's stays."""
    save, times = room.path('crafted.gbkeep'), Times(1_780_000_000.5)
    with times.open(room, save) as game:
        game.frames(A, 20)
    clock = room.path('crafted.gbkeep.time')
    for content in (b'mine', b'\xff\xfe', b'20 -1\n', b'-1 20\n', b'9' * 5000 + b' 1\n', b'20 ' + b'9' * 5000, b'99999999999999999999 5\n',
                    b'20 999999999999\n', b'1 1\n' * 9, b'20 9223372036854775807\n', b'0x14 5\n', b'20 5\0', bytes(10_000), '٢٠ ٥\n'.encode(),
                    b'20 5 7\n', b'\n\n', b'20 5\n\x1b[2J\n', b'GBKP'):
        clock.write_bytes(content)
        with times.open(room, save) as game:
            times.passes(10)
            game.save_all()
            expect(f'{content[:20]!r}', ('no time' in game.notice, seconds_shown(game), clock.read_bytes() == content, game.notice.isprintable()),
                   (True, 0, True, True))
    clock.unlink()
    for make in (lambda: os.mkfifo(clock), lambda: os.symlink('/dev/zero', clock), lambda: os.symlink('nowhere', clock), lambda: clock.mkdir()):
        make()
        with times.open(room, save) as game:
            game.save_all()
            expect('no file', ('no time' in game.notice, seconds_shown(game)), (True, 0))
        clock.rmdir() if clock.is_dir() and not clock.is_symlink() else clock.unlink()
    # an empty file holds nothing
    clock.write_text('')
    times.passes(10)
    with times.open(room, save) as game:
        game.save_all()
    expect('an empty file', (game.notice, bool(lines_of(clock.read_bytes()))), ("There is no SAVE.time: the cartridge's clock goes on from where it stood.", True))
    # what holds the most and the least
    clock.unlink()
    for content in ('0 0\n', '18446744073709551615 99999999999\n', '0 99999999999\n', '18446744073709551615 0\n'):
        clock.write_text(content)
        with times.open(room, save) as game:
            times.passes(2)
            game.save_all()
            expect(content, seconds_shown(game) <= 100, True)
        clock.unlink()
    with tarfile.open(TOP / 'scripts/program_tests/files.tar.xz') as files:
        room.write('kept.time', files.extractfile('clock.gbkeep.time').read())
    expect('one that people have', SaveTime(room.path('kept')).read(), [(3366, 1_795_000_000), (3371, 1_795_000_070)])
    expect('merged', merged([(5, 10), (3, 8)], [(100, 70), (90, 60)]), [(100, 70), (90, 60), (5, 10), (3, 8)])
    expect('merged, the newer has fewer', merged([(100, 7)], [(5, 10)]), [(5, 10)])
    expect('spans', [span(seconds) for seconds in (0, 1, 61, 3600, 2 * 365 * DAY + 5)],
           ['0 seconds', '1 second', '1 minute and 1 second', '1 hour', '2 years and 5 seconds'])


# ---- new files


def test_new_names(room):
    """A file whose name must be new, killed at each point, leaves no empty file, and the next run makes it; where the file system has no links, the next run
    takes up the empty one. What anybody else has put there stays."""
    umask = os.umask(0)
    os.umask(umask)
    real, points = os.link, ('open', 'write', 'fsync', 'link', 'replace', 'unlink', 'close')

    def makes(name, data=b'a battery'):
        def call():
            with new_file(room.path(name), must_be_new=True) as file:
                file.write(data)
        return call

    def no_links(*words, **more):
        raise OSError(1, 'Operation not permitted')
    for has_links in (True, False):
        os.link, seen, point, is_killed = real if has_links else no_links, set(), 0, True
        try:
            while is_killed:
                out = room.path(f'out-{has_links}-{point}')
                is_killed = killed_at(point, points, makes(out.name))
                seen.add(out.read_bytes() if out.exists() else None)
                if out.exists() and out.read_bytes():
                    expect('it is whole, and stays', 'exists already' in str(support.refusal(makes(out.name, b'another'), Unsafe)), True)
                else:
                    makes(out.name)()
                expect(f'behind a kill at {point}', (out.read_bytes(), stat.S_IMODE(out.stat().st_mode)), (b'a battery', 0o666 & ~umask))
                point += 1
            expect('what kills leave', (seen, point > 6), ({None, b'a battery'} if has_links else {None, b'', b'a battery'}, True))
            # a name that is taken while the file is written, by whatever it is
            for number, take in enumerate((lambda path: path.write_bytes(b'mine'), lambda path: path.symlink_to('nowhere'), lambda path: path.symlink_to('theirs'),
                                           lambda path: path.mkdir(), os.mkfifo)):
                room.write('theirs', '')
                out = room.path(f'taken-{has_links}-{number}')

                def taken():
                    with new_file(out, must_be_new=True) as file:
                        file.write(b'a battery')
                        take(out)
                before = room.there('.gbkeep')
                expect(f'{number}: refused', bool(support.refusal(taken, Unsafe)), True)
                expect('what has the name', (out.is_symlink() or out.is_dir() or out.is_fifo() or out.read_bytes() == b'mine', room.path('theirs').read_bytes(),
                                             room.path('nowhere').exists(), room.there('.gbkeep')), (True, b'', False, before))
        finally:
            os.link = real
    # an empty file that another program is about to replace
    with open(room.path('claimed'), 'wb') as file:
        fcntl.flock(file, fcntl.LOCK_EX)
        expect('a claim', 'exists already' in str(support.refusal(makes('claimed'), Unsafe)), True)


def test_killed_pictures(room):
    """A screenshot that is killed at any point leaves none that is empty."""
    chosen, shades = Preferences(pictures=str(room.path('shots'))), bytes(160 * 144)
    point, is_killed = 0, True
    while is_killed:
        is_killed = killed_at(point, ('open', 'fsync', 'replace', 'link', 'unlink', 'close'), lambda: leave_picture(Window(), shades, 'seen', chosen))
        expect(f'killed at {point}', {path.stat().st_size > 0 for path in room.path('shots').glob('seen*.png')} <= {True}, True)
        point += 1
    expect('points', point > 6, True)
    # one that an earlier kill has left is taken up
    for path in room.path('shots').glob('seen*.png'):
        path.unlink()
    room.write('shots/seen 1.png', '')
    window = Window()
    leave_picture(window, shades, 'seen', chosen)
    expect('an empty one', (window.said, room.path('shots/seen 1.png').read_bytes()[:4]), (['Screenshot: seen 1.png'], b'\x89PNG'))


# ---- the window's files


class Window:
    """What a window says and asks, and whether its player agrees."""

    def __init__(self, agrees=False):
        self.agrees, self.said, self.asked = agrees, [], []

    def say(self, line, seconds=2, file=None):
        self.said.append(line)

    def ask(self, question):
        self.asked.append(f'{question.head} {question.body}')
        return self.agrees


def test_names(room):
    """A SAVE is not called as the battery files of other emulators are."""
    os.environ.update(XDG_DATA_HOME=str(room.path('data')), XDG_CONFIG_HOME=str(room.path('config')))
    save = Path(own_save(str(CART)))
    expect('its own', (save.parent, save.name[:5], save.suffix), (room.path('data/gbkeep'), 'demo-', '.gbkeep'))
    room.game(save.with_suffix('.sav'), 1)
    expect('one with an older ending', own_save(str(CART)), str(save.with_suffix('.sav')))
    room.game(save, 1)
    expect('both', own_save(str(CART)), str(save))
    of_zip = room.path(f'{save.stem}.gb')
    of_zip.write_bytes(CART.read_bytes())
    expect('of a zip', own_save(str(of_zip)), str(save))
    expect('warnings', [bool(battery_name(name)) for name in ('a.sav', 'b.SRM', 'a.sav/b', 'a.gbkeep', 'sav')], [True, True, False, False, False])
    expect('what it says', battery_name('/tmp/x\x1b.sav'), 'other emulators take x\\x1b.sav for their battery file, and write over it: call it x\\x1b.gbkeep')
    os.mkfifo(room.path('fifo'))
    for cart in ('/dev/zero', room.path('fifo'), room.folder, room.path('none')):
        expect(f'{cart} as a cartridge', bool(refusal(lambda: own_save(str(cart)))), True)
    # what `make play` starts: the window, which keeps the game where it keeps all of them
    quiet = {name: value for name, value in os.environ.items() if not name.startswith('MAKE')}
    made = subprocess.run(['make', '-s', '-o', 'bin/gbkeep', '-o', 'bin/libgbkeep.so', 'play', 'PYTHON=echo', f'CART={room.path("a game.gb")}'], cwd=TOP, env=quiet,
                          capture_output=True, text=True)
    expect('make play', (made.stdout, made.stderr), (f'-B -m gbkeep.window {room.path("a game.gb")}\n', ''))
    # screenshots take names that are free
    game = Game(CART, room.path('seen.gbkeep'), room.program)
    victim, window, chosen = room.path('victim'), Window(), Preferences(pictures=str(room.folder))
    os.symlink(victim, room.path('seen 1.png'))
    room.write('seen 2.png', 'mine')
    leave_picture(window, game.picture().shades, 'seen', chosen)
    expect('a picture', (window.said, victim.exists(), room.path('seen 2.png').read_text(), room.path('seen 3.png').read_bytes()[:4]),
           (['Screenshot: seen 3.png'], False, 'mine', b'\x89PNG'))
    # the end of a login is for the window: its program goes on until it is told the last inputs
    for number in (signal.SIGTERM, signal.SIGHUP, signal.SIGINT):
        os.kill(game.process.pid, number)
    game.frames(A, 5)
    game.close()
    expect('saved', room.inputs(room.path('seen.gbkeep')), 5)
    expect('no program', 'make build' in refusal_told(lambda: Game(CART, room.path('seen.gbkeep'), room.path('nothing'))), True)


def refusal_told(call):
    try:
        call()
    except Refused as refused:
        return refused.told()
    return ''


def test_said_of_states(room):
    """What the window says as it saves a state and loads one; the picture lies beside it."""
    save, window, chosen = room.path('said.gbkeep'), Window(), Preferences()
    slots, shades = room.slots(save), bytes(160 * 144)

    files = types.SimpleNamespace(slots=lambda number: room.slots(save, number=number), open=lambda window, chosen: TimedGame(CART, save, room.program), save=str(save))
    game = files.open(window, chosen)
    keep_state(window, game, files, 3, shades)
    game.frames(A, 7)
    game = load_state(window, game, files, chosen, 3)
    expect('said', (window.said, game.count), (['State 3 saved.', 'State 3 loaded. The game before is said.gbkeep.before.'], 0))
    expect('its files', room.there('said.gbkeep.slot'), ['said.gbkeep.slot3', 'said.gbkeep.slot3.png'])
    game.frames(A, 9)
    Path(f'{slots.slot}3').write_bytes(bytes(1000))
    game = load_state(window, game, files, chosen, 3)
    keep_state(window, game, files, 3, shades)
    expect('not', (window.said[2:], game.count), (['State 3 was not loaded: said.gbkeep.slot3: device size 1000',
                                                   'State 3 was not saved: said.gbkeep.slot3 exists already and is another kind of file: take it away'], 9))
    expect('an empty one', (load_state(window, game, files, chosen, 4) is game, window.said[-1]), (True, 'State 4 is empty.'))
    game.close()
    # a recorded game does not go back, and that is said when it is saved
    save, recording = room.path('run.gbkeep'), room.path('run.rec')
    window = Window()
    with TimedGame(CART, save, room.program, recording=recording) as game:
        game.frames(A, 7)
        keep_state(window, game, files := types.SimpleNamespace(slots=lambda number: room.slots(save, number=number), save=str(save)), 1, shades)
        expect('the same game', load_state(window, game, files, chosen, 1) is game, True)
    recorded = 'A recorded game only goes forward. Rewind and the timeline begin a branch of it.'
    expect('said', window.said, [f'Copied to run.gbkeep.slot1, a game of its own. {recorded}', recorded])
    plain, none = room.game('plain.gbkeep', 1), room.path('none.rec')
    expect('no recording', 'is not there' in refusal(lambda: TimedGame(CART, plain, room.program, recording=none)), True)


def test_ten_states(room):
    """Each of the ten has a file of its own; a SAVE.slot is the first, until that has one."""
    save = room.game('ten.gbkeep', 5)
    for number in range(1, 11):
        with Game(CART, save, room.program) as game:
            game.frames(A, 1)
            game.save()
            room.slots(save, number=number).keep()
    expect('their inputs', [room.inputs(room.path(f'ten.gbkeep.slot{number}')) for number in range(1, 11)], list(range(6, 16)))
    older = room.game('older.gbkeep', 5)
    room.keeps(older, 1)
    expect('a slot of before', Path(room.slots(older, number=1).slot).name, 'older.gbkeep.slot')
    room.game('older.gbkeep.slot1', 9)
    expect('one of its own', Path(room.slots(older, number=1).slot).name, 'older.gbkeep.slot1')


def test_put_aside_and_taken_out(room):
    """A game that is begun anew is kept; a copy and a battery file of it take no game's place."""
    save = room.game('aside.gbkeep', 20)
    state = room.state(save)
    with Game(CART, save, room.program):
        expect('one that is open', 'is in use' in refusal(lambda: put_aside(str(CART), str(save), room.program)), True)
    copy, target = room.path('copy.gbkeep'), room.path('other.gbkeep')
    with Game(CART, save, room.program) as game:
        game.save()
        take_out(str(CART), str(save), str(copy), False, room.program)
        room.game(target, 3)
        for path in (target, save):
            expect(f'{path.name} stays', bool(support.refusal(lambda: take_out(str(CART), str(save), str(path), False, room.program), Unsafe)), True)
        clock = room.game('clock.gbkeep', 3, room.clock_cart)
        take_out(str(room.clock_cart), str(clock), str(room.path('clock.sav')), True, room.program)
    expect('a copy', (room.state(copy), room.inputs(target), room.path('clock.sav').stat().st_size > 8191), (state, 3, True))
    expect('kept', (put_aside(str(CART), str(save), room.program), save.exists(), room.state(room.path('aside.gbkeep.before'))), (f'{save}.before', False, state))
    expect('nothing to keep', put_aside(str(CART), str(save), room.program), None)


def test_recorded(room):
    """A recorded game is played with its recording or not at all."""
    save, recording = room.path('run.gbkeep'), room.path('run.rec')
    with Game(CART, save, room.program, recording) as game:
        game.frames(A, 7)
    mark = room.write('run.gbkeep.recorded', f'{recording}\n')
    for agrees in (False, True):
        window = Window(agrees)
        expect('asked', (with_recording(window, str(save)), str(recording) in window.asked[0]), ((str(recording), agrees), True))
    mark.write_text('run.rec\n')
    expect('beside SAVE', recording_of(str(save)), str(recording))
    # another play's, of the same name, where the window is started
    elsewhere, before = room.path('elsewhere'), os.getcwd()
    elsewhere.mkdir()
    shutil.copy(recording, elsewhere)
    os.chdir(elsewhere)
    try:
        expect('started elsewhere', recording_of(str(save)), str(recording))
        for given, wanted in (('run.rec', str(elsewhere / 'run.rec')), ('../run.rec', str(recording)), (str(recording), str(recording))):
            expect(f'{given}: its name in the mark', lasting_name(str(save), given), wanted)
        os.chdir(room.folder)
        expect('one beside SAVE stays as it is given', lasting_name('run.gbkeep', 'run.rec'), 'run.rec')
        os.chdir(elsewhere)
        recording.rename(room.path('moved.rec'))
        expect('there is none beside SAVE', 'is not there' in str(refusal(lambda: with_recording(Window(True), str(save)))), True)
    finally:
        os.chdir(before)
        room.path('moved.rec').rename(recording)
    os.symlink(save, room.path('link.gbkeep'))
    expect('by a link', recording_of(str(room.path('link.gbkeep'))), str(recording))
    for content in ('', '\n', '/nowhere\n', 'x' * 20_000, b'\xff\n', 'a\0b\n'):
        mark.write_bytes(content if isinstance(content, bytes) else content.encode())
        window = Window(True)
        expect(f'{content[:20]!r}', ('is not there' in str(refusal(lambda: with_recording(window, str(save)))), window.asked), (True, []))
    mark.unlink()
    os.mkfifo(mark)
    expect('a FIFO', 'is not there' in str(refusal(lambda: with_recording(Window(True), str(save)))), True)
    expect('a game that nobody records', with_recording(Window(), str(room.path('other.gbkeep'))), (None, True))


def test_the_timeline_of_a_recording(room):
    """All of a recorded game can be looked at: its moments are there again, those of an edited recording are not, and without them it is played anew."""
    cart, save, recording, times = room.clock_cart, room.path('run.gbkeep'), room.path('run.rec'), Times()
    digest, cache = hashlib.sha256(cart.read_bytes()).digest(), Path(f'{recording}.timeline')

    def opened(**more):
        game = shown(times.open(room, save, recording=recording), cart, save, room.program)
        timeline = RecordedTimeline(str(cart), digest, str(recording), room.program, game)
        timeline.is_read.wait()
        return game, timeline
    game, timeline = opened()
    for number in range(2 * FRAMES_BETWEEN + 30):
        game.frame(number // 7 & 255)
        timeline.time = float('-inf')
        timeline.note(game, game.picture().shades)
        if number % 500 == 400:
            times.passes(3)
            game.save_all()
    places, frames = (0, 450, FRAMES_BETWEEN + 5, timeline.count), timeline.frames
    support.until('two moments', lambda: cache.exists() and len(timeline.held()) == 2)
    expect('by their inputs', [one.count for one in timeline.moments], [FRAMES_BETWEEN + 1, 2 * FRAMES_BETWEEN + 2])

    def sought(line):
        """The pictures of the places, and how many moments were gone on from or kept on the way."""
        found = {}
        seeker = Seeker(line, found.__setitem__)
        seeker.start()
        for place in places:
            seeker.seek(place)
            support.until(f'place {place}', lambda: place in found)
        seeker.end()
        seeker.join()
        return found
    wanted, machine = {}, DebugMachine(cart, program=room.program)
    with machine:
        for at, one in enumerate([*timeline.part(0, timeline.count), None]):
            if at in places:
                wanted[at] = machine.picture().shades
            if one is not None:
                machine.frame(one) if one < SECONDS else machine.seconds(one - SECONDS)
    expect('the pictures of the play', sought(timeline) == wanted, True)
    middle = timeline.at(places[1])
    expect('a place', (middle.frames, middle.given_until, timeline.at(timeline.count).frames), (449, int(times.date) - 3, frames))
    game.close()
    game, timeline = opened()
    expect('they are there again', ([one.frames for one in timeline.moments], timeline.frames), ([FRAMES_BETWEEN, 2 * FRAMES_BETWEEN], frames))
    game.close()
    # a state that somebody has put there leads to no other picture
    held = cache.read_bytes()
    forged = timeline.moments[0]
    forged.packed = zlib.compress(bytes(100_000))
    cache.write_bytes(held[:len(timeline.cart) + 21] + forged.record())
    game, timeline = opened()
    expect('forged, and dropped', (len(timeline.moments), sought(timeline) == wanted, len(timeline.moments)), (1, True, 2))
    game.close()
    support.until('kept anew', lambda: len(timeline.held()) == 3)
    # the cache of another play of the same length, of another cartridge, none, and what is no cache
    inputs = ''.join(f'{line}\n' for line in run(room.program, 'recorded', str(cart), str(recording)).replace('frames 01', 'frames 02').splitlines())
    expect('an edited play', 'frames 02' in inputs, True)
    save, recording = room.path('other.gbkeep'), room.path('other.rec')
    with Game(cart, save, room.program, recording) as other:
        for move in map(own_move, map(str.split, inputs.splitlines())):
            getattr(other, move[0])(*move[1:])
    cache = Path(f'{recording}.timeline')
    for content in (held, held[:21] + bytes(32) + held[53:], None, b'mine', held[:-9]):
        cache.unlink(missing_ok=True)
        if content is not None:
            cache.write_bytes(content)
        game, timeline = opened()
        expect('none of another', timeline.moments, [])
        found = sought(timeline)
        expect('played from power-on, and kept on the way', (found == wanted, len(timeline.moments)), (True, 2))
        game.close()
        expect('what is not ours stays', cache.read_bytes() == b'mine', content == b'mine')
    cache.unlink()
    os.symlink(room.path('victim'), cache)
    game, timeline = opened()
    sought(timeline)
    game.close()
    expect('no link is followed', room.path('victim').exists(), False)


def test_a_long_timeline_is_thinned(room):
    """What a recording's moments take is bounded: where there is no room, half of them go, evenly."""
    line = RecordedTimeline.__new__(RecordedTimeline)
    moments = [Stamped(bytes(100), 600 * at, 0, 600 * at) for at in range(100)]
    later = Stamped(b'', 61_000, 0, 61_000)
    line.most, line.lock, line.moments = 10_000, threading.Lock(), [*moments, later]
    kept = line.thinned(moments)
    expect('half of them', ([one.count for one in kept], line.moments == [*kept, later]), (list(range(0, 60_000, 1200)), True))
    line.most = 100_000
    expect('and where there is room, all', line.thinned(moments) == moments, True)


def test_batteries(room):
    """The time since a battery file was written is offered, and given once."""
    cart, battery = room.clock_cart, room.path('battery')
    size = int(run(room.program, 'info', str(cart)).split('\nram ')[1].split()[0])
    registers = b''.join(value.to_bytes(4, 'little') for value in (7, 0, 0, 0, 0) * 2)
    now = 1_780_000_000
    for name, behind, agrees, asked, seconds in (
            ('yes', 8, True, 1, 5 * DAY + 7), ('no', 8, False, 1, 7), ('short', 4, True, 1, 5 * DAY + 7), ('zero', 0, True, 0, 7),
            ('future', -1, True, 0, 7), ('none', None, True, 0, 0)):
        written = {0: bytes(8), -1: (1 << 62).to_bytes(8, 'little')}.get(behind) or (now - 5 * DAY).to_bytes(behind or 8, 'little')
        battery.write_bytes(bytes(size) + (registers + written if behind is not None else b''))
        save, window = room.path(f'{name}.gbkeep'), Window(agrees)
        with unittest.mock.patch('time.time', lambda: now):
            agreed = take_battery(window, str(battery), str(cart), str(save), room.program)
        for when in ('asked', 'given once'):
            with TimedGame(cart, save, room.program, lambda: now, elapsed=lambda: 0, ask=lambda *_: agreed) as game:
                expect(f'{name}: {when}', (len(window.asked), game.notice, seconds_shown(game)), (asked, None, seconds))
        expect('exists already', 'exists already' in refusal_told(lambda: take_battery(window, str(battery), str(cart), str(save), room.program)), True)
    wrong = room.path('wrong.gbkeep')
    for path in ('/dev/zero', room.folder, room.path('none')):
        refused = refusal(lambda: take_battery(Window(), str(path), str(cart), str(wrong), room.program))
        expect(f'{path}', (bool(refused), wrong.exists()), (True, False))


if __name__ == '__main__':
    support.run_room_tests('slots, clock and files of the window', globals(), __doc__, Room)
