"""Tries the player's tools on the program: the module, friendly scripts, the rest of a script, movies, films, recordings.

usage: test_players.py GBKEEP [TEST..]

The status is 1 where a test fails."""
import contextlib
import hashlib
import io
import os
import pty
import random
import shlex
import struct
import subprocess
import sys
import time
import types
import zipfile
from array import array
from pathlib import Path

from gbkeep_tests import support
from gbkeep_tests.support import CART, TOP, clock_cart, expect, needs
from gbkeep.branch import branch
from gbkeep.film import BLACK, BRIGHT, DIM, HEAD as FILM_HEAD, lines_below
from gbkeep.game import A, LEFT, RIGHT, START, Game, DebugMachine, NoState, Refused, begin, run
from gbkeep.input_files import WrongInput
from gbkeep.movie import POWER, bk2_frames, bk2_of, frames_of, log_frames, marked, moves_of, movie_of, vbm_frames
from gbkeep.new_files import Unsafe
from gbkeep.notes import Notes, keep_notes, notes_of
from gbkeep.pictures import png_of
from gbkeep.rest import rest_of
from gbkeep.script import Wrong, friendly_line, friendly_move, friendly_moves, inputs_of, own_lines, own_moves
from gbkeep.verify import pieces_of, tell
from gbkeep.desktop.files import Files
from gbkeep.desktop.preferences import Preferences


def refusal(call):
    return support.refusal(call, Refused, Wrong, ValueError)


def words_of(tool):
    """The words that run a tool of the package, or an example, which is a file."""
    return support.tool_words(tool) if isinstance(tool, str) else [sys.executable, '-B', str(tool)]


# writes lines to the streams while a game is played, as the C libraries of a process do
PLAYS = '''
import os
from gbkeep import A, Game
with Game({cart!r}, {save!r}, {program!r}) as game:
    for _ in range(3):
        game.frames(A, 10)
        for stream in (1, 2):
            os.write(stream, b'a line of somebody else\\n' * 300)
    taken = os.open({save!r}, os.O_RDWR)
    assert taken > 2, taken
'''
# the same by a play of the window, whose face writes to the streams: a picture after another, until it is closed
SHOWS = '''
import os
from gbkeep.desktop.playing import Asked, Play
from gbkeep.desktop.preferences import Preferences
from gbkeep.desktop.shelf import Shelf
from gbkeep.desktop.steering import Steering
class Face:
    shown = 0
    def show(self, shades):
        self.shown += 1
        for stream in (1, 2):
            os.write(stream, b'a line of the display\\n')
        if self.shown == 40:
            steering.close()
    def ended(self, told):
        assert told is None, told
    def __getattr__(self, name):
        return lambda *words: None
steering = Steering()
Play(Asked({cart!r}, {save!r}), Face(), Preferences(), steering, Shelf(), {program!r}).run()
'''
# what the process has open that starts it
NOTES = '''#!/bin/sh
for number in 0 1 2; do readlink /proc/$PPID/fd/$number; done >> {notes}
exec {program} "$@"
'''


class Room(support.Room):
    """A folder with a program, for one test."""

    def save(self, name, cart=CART):
        path = self.path(name)
        path.unlink(missing_ok=True)
        begin(cart, path, self.program)
        return path

    def tool(self, tool, *words):
        """What a tool of the player's prints."""
        done = subprocess.run([*words_of(tool), *words], capture_output=True, text=True, env=dict(os.environ, GBKEEP=self.program))
        return done.stdout + done.stderr

    def tool_at_terminal(self, tool, *words):
        """The status of a tool, what it prints, and what it tells a terminal."""
        needs('what a tool tells a terminal', 'a terminal')
        ours, terminal = pty.openpty()
        done = subprocess.run([*words_of(tool), *words], stdout=subprocess.PIPE, stderr=terminal, env=dict(os.environ, GBKEEP=self.program))
        os.close(terminal)
        told = b''
        while True:
            try:
                some = os.read(ours, 1 << 16)
            except OSError:
                break
            told += some
        os.close(ours)
        return done.returncode, done.stdout.decode(), told.decode()

    def frame(self, save, cart=CART):
        """The picture that `gbkeep frame` writes, and the count that it reports."""
        told = run(self.program, 'frame', str(cart), str(save), str(self.path('out.pgm')))
        return self.path('out.pgm').read_text(), int(told.split()[1])


def test_game(room):
    save = room.path('game.gbkeep')
    with Game(CART, save, room.program) as game:
        expect('a new game', (game.resumed, game.count, game.saved), (0, 0, 0))
        game.frames(A, 3300)
        game.frame(RIGHT | START)
        game.seconds(5)
        picture = game.picture()
        expect('3,200 are saved of themselves', (game.count, game.saved), (3302, 3200))
        expect('a save', game.save(), 3302)
        for _ in range(30_000):
            game._give(b'save\n')
        game.frames(LEFT, 7)
    expect('closing saves', game.saved, 3309)
    with Game(CART, save, room.program) as game:
        expect('resumed', game.resumed, 3309)
        picture = game.picture()
    pgm, count = room.frame(save)
    expect('frame counts', count, 3309)
    expect('frame and picture', [int(word) for word in pgm.split()[4:]], list(picture.shades))
    expect('a shade', picture.shade(7, 3), int(pgm.split()[4 + 3 * 160 + 7]))
    shown = room.tool(TOP / 'examples/collect.py', room.path('collect.gbkeep'), room.path('collect.png'))
    expect('the example', (shown, room.path('collect.png').read_bytes()[:4]), ('saved 504\n', b'\x89PNG'))


def test_closed_streams(room):
    """Started with closed streams, no tool and no game of Python's has a file or a pipe of its own at their numbers, where whatever is said would go into it."""
    notes, save = room.path('notes'), room.path('game.gbkeep')
    program = str(room.write('program', NOTES.format(notes=shlex.quote(str(notes)), program=shlex.quote(room.program)), 0o755))
    room.write('moves.txt', 'A 30\n')
    begin(CART, save, room.program)
    recording, env = room.path('run.rec'), dict(os.environ, GBKEEP=program, **{f'XDG_{name}_HOME': str(room.path('own')) for name in ('CONFIG', 'DATA', 'CACHE')})
    with Game(CART, room.path('run.gbkeep'), room.program, recording) as game:
        game.frames(A, 30)
    named = {name: str(room.path(name)) for name in ('moves.txt', 'made.y4m', 'made.bk2', 'new.gbkeep', 'new.rec', 'made')}
    code = {'program': program, 'cart': str(CART), 'save': str(save)}
    runs = [([sys.executable, '-B', '-c', text.format(**code)], '>&- 2>&- <&-') for text in (PLAYS, SHOWS)]
    for tool, *words in (('script', 'play', CART, save, named['moves.txt']), ('rest', CART, room.path('rest.gbkeep'), named['moves.txt']),
                         ('film', '--to', '3', CART, named['moves.txt'], named['made.y4m']), ('movie', 'bk2', CART, recording, named['made.bk2']),
                         ('branch', CART, recording, '20', named['new.gbkeep'], named['new.rec']), ('verify', CART, room.path('run.gbkeep'), recording),
                         ('battery', 'to-mgba', CART, save, named['made']), ('debug', '--do', 'registers', CART), ('run_tests', TOP / 'examples/test_roms/passes.gb')):
        runs.append(([*words_of(tool), *words], '2>&- <&-'))
    for words, closed in runs:
        notes.unlink(missing_ok=True)
        before = game_inputs(room, save)
        line = ' '.join(shlex.quote(str(word)) for word in words)
        done = subprocess.run(['sh', '-c', f'{line} {closed}'], env=env, cwd=room.folder, capture_output=True, text=True, timeout=120)
        expect(f'{line[-300:]} {closed}: {done.stdout[-300:]}', done.returncode, 0)
        streams = set(notes.read_text().split())
        expect('what has their numbers', {one for one in streams if 'pipe' not in one or '>&- 2' in closed}, {'/dev/null'})
        expect('the game', game_inputs(room, save) - before >= (30 if '>&- 2' in closed else 0), True)


def game_inputs(room, save):
    return int(run(room.program, 'show', str(CART), str(save)).split()[1])


def test_states_of_a_game(room):
    """A game's states are those of a machine that is given the same; each change is one input, and lines of saves come before any answer."""
    save = room.path('states.gbkeep')
    with Game(CART, save, room.program) as game, DebugMachine(CART, program=room.program) as machine:
        for one in (game, machine):
            one.frames(0, 60)
            one.frames(START, 4)
            one.keep(3)
            one.frames(RIGHT, 3135)
        first = game.state()
        expect('a state', (first == machine.state(), game.count, game.saved), (True, 3199, 0))
        for one in (game, machine):
            one.power()
        expect('a save before an answer', (game.memory(0xc000, 40) == machine.memory(0xc000, 40), game.count, game.saved), (True, 3200, 3200))
        for one in (game, machine):
            one.frames(A, 3199)
            one.back(3)
        expect('before one that is known', (game.picture().shades == machine.picture().shades, game.count, game.saved), (True, 6400, 6400))
        for one in (game, machine):
            one.frames(LEFT, 3199)
            one.restore(first)
        expect('before a state', (game.saved, game.count, game.state() == first), (9600, 9600, True))
        expect('memory goes around', game.memory(0xffff, 0x10000) == machine.memory(0xffff, 0x10000), True)
        for number in range(40):
            for one in (game, machine):
                one.keep(number % 7)
                one.frame(number)
                one.back(number % 5 if number > 5 else 3)
        for bad in (b'', first[:-1], first + b'x', b'X' + first[1:], first[:39], first[:40], first[40:], b'x' * (1 << 20), b'x' * (1 << 20) + b'x'):
            expect('no state', refusal(lambda: game.restore(bad)), 'no state of this cartridge')
        for call in (lambda: game.back(8), lambda: game.back(-1), lambda: game.keep(1000), lambda: game.keep(-1), lambda: game.memory(-1, 1),
                     lambda: game.memory(0x10000, 1), lambda: game.memory(0, 0), lambda: game.memory(0, 65537), lambda: game.seconds(-1)):
            expect('no such number', 'no ' in (refusal(call) or ''), True)
        expect('nothing is done then', (game.count, game.save(), game.state() == machine.state()), (9680, 9680, True))
        last = machine.state()
    with Game(CART, save, room.program) as game:
        expect('what is kept', (game.resumed, game.state() == last), (9680, True))
        game.restore(memoryview(first))
        game.frame(A)
        try:
            game.restore(first[:60] + b'\xff' + first[61:])
            expect('bytes that are no state', True, False)
        except Refused as refused:
            expect('the refusal', (refused.line, refused.means), ('gbkeep: damaged snapshot', 'no state of this cartridge'))
        expect('what was given before', (game.count, game.saved), (9682, 9682))
    with Game(CART, room.path('other.gbkeep'), room.program) as game:
        game.restore(last)
        expect('in another game', (game.state() == last, game.save()), (True, 1))


def header_of(rom):
    """What a state of this ROM begins with."""
    return b'GBSTATE1' + hashlib.sha256(rom).digest()


def test_states_of_another_rom(room):
    """They are refused as such with nothing done, and the game goes on: of a ROM that differs in one byte, and of one with less RAM."""
    rom = bytearray(CART.read_bytes())
    rom[0x0150] ^= 1
    changed, small = room.write('changed.gb', bytes(rom)), room.write('small.gb', bytes(32_768))
    theirs = []
    for cart in (changed, small):
        with DebugMachine(cart, program=room.program) as machine:
            machine.frames(0, 3)
            theirs.append(machine.state())
            expect('what it begins with', (theirs[-1][:40], len(theirs[-1])), (header_of(cart.read_bytes()), {changed: 55_415, small: 22_647}[cart]))
    save = room.path('other-rom.gbkeep')
    with Game(CART, save, room.program) as game, DebugMachine(CART, program=room.program) as machine:
        for one in (game, machine):
            one.frames(START, 5)
            before = one.state()
            for state in (*theirs, theirs[0][:40], theirs[0] + bytes(1 << 20), theirs[0][:40] + before[40:]):
                try:
                    one.restore(state)
                    expect(f'a state of another ROM is taken by {type(one).__name__}', True, False)
                except NoState as refused:
                    expect('the refusal', (refused.line, refused.means, refused.advice),
                           ('gbkeep: other cartridge', 'it is a state of another ROM', 'give what `state` answered of this cartridge'))
            expect('nothing is done then', (one.closed, one.state()), (False, before))
            one.frame(A)
        expect('what is saved', (game.count, game.save()), (6, 6))
        last = machine.state()
    with Game(CART, save, room.program) as game:
        expect('what is kept', (game.resumed, game.state() == last), (6, True))
    # the program has the same line, where the package does not look first
    game = Game(CART, save, room.program)
    game._look_at = lambda state: None
    game.frame(A)
    expect('of the program', (refusal(lambda: game.restore(theirs[0])), game.saved), ('gbkeep: other cartridge', 7))


def test_wrong_answers(room):
    """What no gbkeep answers is refused, and ends the program."""
    save = room.save('wrong.gbkeep')
    for number, (answer, call) in enumerate((
            ('state x', Game.state), ('state', Game.state), ('state 1048577', Game.state), ('kept 3', Game.state), ('state ' + '9' * 30, Game.state),
            ('0000 zz', lambda game: game.memory(0, 1)), ('0000 00 11', lambda game: game.memory(0, 1)), ('0000', lambda game: game.memory(0, 1)),
            ('P2\n160 144\n4\n' + '0 ' * 23_040, Game.picture), ('P3', Game.picture), ('saved x', Game.save), ('saved ' + '9' * 20, Game.save), ('picture', Game.save),
            ('kept 4', lambda game: [game.keep(3), game.memory(0, 1)]), ('back 3', lambda game: [game.keep(3), game.save()]), ('x' * 3_000_000, Game.state))):
        room.write('answer', f'{answer}\n' + '0' * 50_000)
        program = room.write(f'program-{number}', f'#!/bin/sh\necho resumed 0\nread line\ncat {room.path("answer")}\ncat > /dev/null\n', 0o755)

        def ask():
            game = Game(CART, save, program)
            game.count = 1
            call(game)
        expect(f'{answer[:30]!r}', refusal(ask), 'the program answers what no gbkeep answers')


def test_states_of_a_recorded_game(room):
    save, recording = room.path('run.gbkeep'), room.path('run.rec')
    with Game(CART, save, room.program, recording) as game, DebugMachine(CART, program=room.program) as machine:
        for one in (game, machine):
            one.frames(START, 70)
        state = game.state()
        expect('a state, and memory', (state == machine.state(), game.memory(0xc000, 20)), (True, machine.memory(0xc000, 20)))
        for call in (game.power, lambda: game.keep(0), lambda: game.back(0), lambda: game.restore(state)):
            expect('refused', refusal(call), 'a recorded game takes frames and seconds alone')
        game.frame(A)
    expect('it goes on', run(room.program, 'verify', str(CART), str(save), str(recording)), 'agree 71\n')


def test_png(room):
    """`gbkeep-png` makes of what `gbkeep frame` writes what a picture's `png` gives."""
    save = room.path('png.gbkeep')
    with Game(CART, save, room.program) as game:
        game.frames(0, 90)
        picture = game.picture()
    room.frame(save)
    expect('the tool', room.tool('png', room.path('out.pgm'), room.path('out.png')), '')
    expect('gbkeep-png and png', room.path('out.png').read_bytes() == picture.png() == png_of(picture.shades, 160, 144), True)


def test_machine(room):
    """States that are taken, given back and given to another machine; what is no state changes nothing."""
    with DebugMachine(CART, program=room.program) as machine:
        machine.frames(0, 60)
        machine.frames(START, 4)
        first, place = machine.state(), machine.memory(0xc001, 2)
        expect('a state', (first[:48], len(first)), (header_of(CART.read_bytes()) + b'GBSNAP01', 40 + 22_607 + 32_768))
        for _ in range(3):
            machine.frames(RIGHT, 20)
            machine.seconds(1)
        moved, shades = machine.state(), machine.picture().shades
        expect('the player has moved', machine.memory(0xc001, 2) != place, True)
        machine.restore(first)
        expect('back', (machine.state() == first, machine.memory(0xc001, 2)), (True, place))
        for bad in (b'', first[:-1], first + b'x', b'X' + first[1:], first[:39], first[:40], first[40:], first[:60] + b'\xff' + first[61:], b'x' * (1 << 20)):
            try:
                machine.restore(bad)
                expect('no state is taken', bad[:30], None)
            except ValueError:
                pass
        expect('nothing is done then', machine.state() == first, True)
        with DebugMachine(CART, program=room.program) as other:
            other.restore(moved)
            expect('in another machine', (other.state() == moved, other.picture().shades == shades), (True, True))
        for _ in range(3):
            machine.frames(RIGHT, 20)
            machine.seconds(1)
        expect('the same inputs again', machine.state() == moved, True)
        machine.keep(999)
        machine.restore(first)
        machine.keep(0)
        machine.keep(7)
        for number, state in ((999, moved), (0, first), (7, first), (999, moved)):
            machine.back(number)
            expect(f'back {number}', machine.state() == state, True)
        machine.frames(LEFT, 9)
        machine.keep(0)
        other = machine.state()
        machine.back(7)
        machine.back(0)
        expect('the one that was kept last', (machine.state() == other, other == first), (True, False))
        for call, number in ((machine.back, 1), (machine.back, -1), (machine.keep, 1000), (machine.keep, -1)):
            try:
                call(number)
                expect('no such number is taken', number, None)
            except ValueError:
                pass
        machine.memory(0xc000, 16)
        for step in range(3_000):
            machine.back(step % 2 * 7)
            machine.frame(A)
        machine.back(999)
        machine.power()
        with DebugMachine(CART, program=room.program) as fresh:
            # the demo has a battery, and its game opened RAM
            expect('the power switch', (machine.memory(0xc000, 256), machine.picture().shades), (fresh.memory(0xc000, 256), fresh.picture().shades))
            expect('what a battery keeps', (machine.state()[22_647:], fresh.state()[22_647:] != moved[22_647:]), (moved[22_647:], True))
        for _ in range(20_000):
            machine.frame(A)
        machine.settle()
        expect('memory goes around', machine.memory(0xffff, 3)[1:], machine.memory(0, 2))
        before = machine.position()
        machine.frames(A, 10)
        after = machine.position()
        expect('ten frames', (after.frames - before.frames, abs(after.cycles - before.cycles - 175_560) <= 5, after.line < 154, after.cycle < 114), (10, True, True, True))
        machine.back(999)
        machine.power()
        expect('what takes no time', machine.position()[:2], after[:2])
    save = room.path('machine.gbkeep')
    with Game(CART, save, room.program) as game:
        game.frames(START, 70)
    before = save.read_bytes()
    with DebugMachine(CART, save, room.program) as machine, DebugMachine(CART, program=room.program) as again:
        again.frames(START, 70)
        expect('a game\'s machine', machine.state() == again.state(), True)
        machine.frames(A, 10)
    with Game(CART, save, room.program) as game:
        expect('nothing of it is saved', (game.resumed, len(before)), (70, len(save.read_bytes())))
    try:
        with DebugMachine(CART, room.path('none.gbkeep'), room.program) as machine:
            machine.settle()
        expect('a game that is not there', True, False)
    except Refused as refused:
        expect('the refusal', refused.line, 'gbkeep: device failed')
    one, two = (room.tool(TOP / 'examples/search.py', '--rounds', '2', '--beam', '2', *words).splitlines() for words in ((), ('--workers', '2')))
    value, again = one[1].split()[1::2]
    expect('the search, by one process and by two', (one[0].split()[0], one[:2] == two[:2], value == again), ('ways', True, True))


def test_refusals(room):
    save = room.save('refused.gbkeep')
    other = room.write('other.gb', bytes(32768))
    expect('another ROM', refusal(lambda: Game(other, save, room.program)), 'gbkeep: other cartridge')
    expect('no ROM', refusal(lambda: Game(room.path('none.gb'), save, room.program)), 'gbkeep: file failed')
    with Game(CART, save, room.program) as game:
        refused = None
        try:
            Game(CART, save, room.program)
        except Refused as held:
            refused = held
        expect('held', (refused.line, 'another `gbkeep` has it open' in refused.means, refused.advice[:9]), ('gbkeep: device failed', True, 'end the o'))
        game.frames(A, 10)
        refused = refusal(lambda: [game._give(b'frame zz\n'), game.picture()])
        expect('a wrong line', refused, 'gbkeep: script line 2')
    with Game(CART, save, room.program) as game:
        expect('what came before a wrong line', game.resumed, 10)
    try:
        with Game(CART, save, room.program) as game:
            game.frames(A, 5)
            raise KeyError
    except KeyError:
        pass
    with Game(CART, save, room.program) as game:
        expect('an exception loses nothing', game.resumed, 15)


def test_friendly(room):
    room.write('more.txt', 'start 4 # a round\r\nmark round\n')
    text = room.write('friendly.txt', '''# a comment
\tA+right  60\t# held
wait 30\r
SELECT+b
  include more.txt
seconds 3600
mark end
save
frames 11 7
frame 80
a 2500000
''')
    moves = friendly_moves(text)
    expect('moves', moves, [('frames', 0x11, 60), ('frames', 0, 30), ('frames', 0x60, 1), ('frames', 0x80, 4), ('mark', 'round'), ('seconds', 3600),
                            ('mark', 'end'), ('save',), ('frames', 0x11, 7), ('frames', 0x80, 1), ('frames', 0x10, 2500000)])
    own = '\n'.join(own_lines(moves))
    expect('own', own.split('\n')[-4:], ['frame 80', 'frames 10 1000000', 'frames 10 1000000', 'frames 10 500000'])
    expect('inputs', sum(map(inputs_of, own_moves(own.encode()))), sum(map(inputs_of, moves)))
    expect('marks', room.tool('script', 'marks', text), 'round 95\nend 96\n')
    expect('own', room.tool('script', 'own', text), own + '\n')
    back = [friendly_move(friendly_line(move).split()) for move in own_moves(own.encode())]
    expect('there and back', back, own_moves(own.encode()))
    for line, why in (('jump', "'jump' is no move and no button"), ('A+fire 3', "'fire' is no button"), ('A 0', '0 is not from 1 to'),
                      ('wait x', "'x' is no decimal number"), ('A 1 2', "'2' is one word too many"), ('include wrong.txt', 'it includes itself'),
                      ('include none.txt', 'No such file')):
        wrong = refusal(lambda: friendly_moves(room.write('wrong.txt', '\n' + line)))
        expect(line, why in wrong and ('line 2' in wrong or 'itself' in wrong), True)


def test_check(room):
    """`gbkeep-script check` refuses what `gbkeep play` refuses, at the same line."""
    for text, why in ((b'save\nframe 00\r\n', 'line 2: ends in a carriage return'), (b'\n\nframe\t00', 'line 3: has a tab'), (b'frame 0', "'0' is not two"),
                      (b'frames 00 0', '0 is not from 1 to 1000000'), (b'seconds 4294967296', 'is not from 0 to'), (b' save', 'begins with a space'),
                      (b'save ', 'ends in a space'), (b'frame  00', 'two spaces'), (b'frames 00', "'frames' has 1 words after it, and takes 2"),
                      (b'seconds 00000000001', 'more than ten digits'), (b'# x', 'has a comment'), (b'jump', "'jump' is no move"),
                      (b'\n' * 1048577, 'line 0: the script has 1048577 bytes')):
        got = refusal(lambda: own_moves(text))
        expect(f'why {text[:20]!r} is wrong', why in got, True)
    rnd, save, seen = random.Random(1), room.save('check.gbkeep'), set()
    words = ['frame', 'frames', 'seconds', 'save', 'power', '00', '1f', 'FF', '0', '3', '7', '00000000003', '1000001', '4294967296', '-1', '+1', '\r', '\t', '#', '', 'é', 'x']
    for _ in range(150):
        lines = [rnd.choice(['save', 'power', 'frame 00', 'frames 01 3', 'seconds 7', '']) for _ in range(rnd.randrange(4))]
        if rnd.random() < 0.8:
            lines.insert(rnd.randrange(len(lines) + 1), ' '.join(rnd.choice(words) for _ in range(rnd.randrange(1, 5))))
        script = room.write('random.script', '\n'.join(lines))
        played = subprocess.run([room.program, 'play', CART, save, script], capture_output=True, text=True)
        wrong = refusal(lambda: own_moves(script.read_bytes()))
        told = 'gbkeep: script ' + wrong.partition(':')[0] if wrong else ''
        expect(f'{lines}', told, played.stderr.strip())
        seen.add(bool(wrong))
    expect('right and wrong scripts', seen, {False, True})


def test_rest(room):
    rnd, moves = random.Random(2), []
    for _ in range(60):
        moves.append(rnd.choice([('frames', rnd.randrange(256), rnd.randrange(1, 90)), ('seconds', rnd.randrange(9)), ('power',), ('save',)]))
    whole = sum(map(inputs_of, moves))
    for count in [0, whole] + [rnd.randrange(whole) for _ in range(40)]:
        first = []
        for move in moves:
            left = count - sum(map(inputs_of, first))
            if inputs_of(move) > left:
                first += [('frames', move[1], left)] if left > 0 else []
                break
            first.append(move)
        expect(f'the rest after {count}', [one for move in [*first, *rest_of(moves, count)] for one in [move[:2]] * inputs_of(move)],
               [one for move in moves for one in [move[:2]] * inputs_of(move)])
    expect('too much', refusal(lambda: rest_of(moves, whole + 2)), 'SAVE has 2 inputs more than SCRIPT')
    script, save, other = room.write('whole.script', '\n'.join(own_lines(moves))), room.save('rest.gbkeep'), room.save('whole.gbkeep')
    part = room.write('part.script', '\n'.join(own_lines(moves[:31])) + '\nframes 00 1\n')
    moves[31:31] = [('frames', 0, 30)]
    script.write_text('\n'.join(own_lines(moves)))
    run(room.program, 'play', str(CART), str(save), str(part))
    told = room.tool('rest', CART, save, script)
    expect('gbkeep-rest', told.split('\n')[-2], f'saved {whole + 30}')
    again = room.tool('rest', CART, save, script)
    expect('nothing is left', again, f'resumed {whole + 30}\n')
    long = room.tool('script', 'play', CART, other, room.write('long.script', '# a comment\n' * 100_000 + script.read_text()))
    expect('gbkeep-script play', long.split('\n')[-2], f'saved {whole + 30}')
    expect('the same picture', room.frame(save), room.frame(other))


def vbm_of(buttons, starts=0, controllers=1, system=0, more=b''):
    """A VisualBoyAdvance movie of these frames: A B Select Start Right Left Up Down as bits 0 to 7, resets above them."""
    head = struct.pack('<4sIIII4B', b'VBM\x1a', 1, 0, len(buttons), 0, starts, controllers, system, 0)
    return head + bytes(60 - len(head)) + struct.pack('<I', 256) + bytes(192) + struct.pack(f'<{len(buttons)}H', *buttons) + more


def test_movies(room):
    rnd = random.Random(3)
    frames = array('H', (buttons for _ in range(40) for buttons in [rnd.randrange(256) + rnd.choice((0, 0, 0, POWER))] * rnd.choice([1, 1, 2, 30])))
    expect('moves of frames', frames_of(moves_of(frames)), frames)
    movie = room.write('there.bk2', bk2_of(frames, 'a game'))
    expect('there and back', bk2_frames(movie), frames)
    script = room.tool('movie', 'script', movie)
    expect('its script', (frames_of(own_moves(script.encode())), 'power' in script), (frames, True))
    made = room.path('made.bk2')
    expect('a movie of a script', room.tool('movie', 'bk2', room.write('movie.script', script + 'save\n'), made), '')
    expect('its frames', bk2_frames(made), frames)
    expect('nothing is replaced', 'exists already' in room.tool('movie', 'bk2', room.path('movie.script'), made), True)
    # another order of the keys, a console's keys and a tilt before them
    key = 'LogKey:#Power|#Tilt X|Tilt Y|#P1 A|P1 B|P1 Up|P1 Down|P1 Left|P1 Right|P1 Start|P1 Select|\n'
    log = key + '|.|    0,   -3,|AB......|\n|.|    0,    0,|..U.L.S.|\n'
    expect('another log', log_frames(log.replace('|.|    0,    0', '|P|    0,    0').encode().splitlines()), array('H', [0x30, 0x86 + POWER]))
    expect('right, left, up, down of VisualBoyAdvance', vbm_frames(vbm_of([0x10, 0x20, 0x40, 0x80, 1, 2, 4, 8])), bytes([1, 2, 4, 8, 0x10, 0x20, 0x40, 0x80]))
    expect('a script of it', room.tool('movie', 'script', room.write('old.vbm', vbm_of([0, 0, 0x11]))), 'frames 00 2\nframe 11\n')

    def packed(header, log='LogKey:#A|Reset|\n|..|'):
        path = room.path('refused.bk2')
        with zipfile.ZipFile(path, 'w') as file:
            file.writestr('Header.txt', header)
            file.writestr('Input Log.txt', log)
        return path
    for call, why in ((lambda: bk2_frames(packed('Platform NES')), 'of another machine: NES'), (lambda: bk2_frames(packed('StartsFromSavestate 1')), 'from a saved state'),
                      (lambda: bk2_frames(packed('StartsFromSaveRam True')), 'from a battery file'), (lambda: bk2_frames(packed('', 'LogKey:#A|Reset|\n|.r|')), 'line 2: Reset is pressed'),
                      (lambda: bk2_frames(packed('', 'LogKey:#A|#P2 A|\n|.|A|')), 'P2 A is pressed'), (lambda: bk2_frames(packed('', '|.|')), 'no LogKey'),
                      (lambda: bk2_frames(packed('', 'LogKey:#A|B|\n|.|')), 'nothing for B'), (lambda: bk2_frames(CART), 'no BizHawk movie'),
                      (lambda: vbm_frames(vbm_of([0], starts=1)), 'from a saved state'), (lambda: vbm_frames(vbm_of([0], starts=2)), 'from a battery file'),
                      (lambda: vbm_frames(vbm_of([0], system=2)), 'another machine: GBC'), (lambda: vbm_frames(vbm_of([0], controllers=3)), 'other players'),
                      (lambda: vbm_frames(vbm_of([0, 0x800])), 'frame 2: a reset'), (lambda: vbm_frames(vbm_of([0, 0])[:-1]), 'cut short'),
                      (lambda: vbm_frames(b'VBM'), 'cut short'), (lambda: frames_of([('seconds', 3)]), 'has no clock'),
                      (lambda: frames_of([('power',)]), 'ends with `power`'), (lambda: frames_of([('power',), ('power',), ('frames', 0, 1)]), '`power` twice')):
        expect(f'refused: {why}', why in (refusal(call) or ''), True)


def test_notes(room):
    """Author, comments, marks and the count of rerecords of a movie, of a script and of a recording."""
    friendly = '# author Ann B\n# rerecords 7\n# comment any%, no glitches\n# comment \x41 second line\nwait 60\nmark the first boss\nstart 4\npower\nright 36\nmark end\n'
    made, again = room.path('made.bk2'), room.path('again.bk2')
    expect('a movie', room.tool('movie', 'bk2', room.write('friendly.txt', friendly), made), '')
    with zipfile.ZipFile(made) as movie:
        texts = {name: movie.read(f'{name}.txt').decode() for name in ('Header', 'Comments', 'Markers')}
    expect('its parts', ('Author Ann B\nrerecordCount 7\n' in texts['Header'], texts['Comments'], texts['Markers']),
           (True, 'any%, no glitches\nA second line\n', '60\tthe first boss\n100\tend\n'))
    expect('and back', room.tool('movie', 'friendly', made), friendly)
    # what could be a comment, a line or a terminal's orders
    with zipfile.ZipFile(again, 'w') as movie:
        for name, text in (('Header', 'Author a#b\x1b[2J\nrerecordCount -1\n'), ('Comments', '\n#1\r\n' + 'x' * 9_999), ('Markers', '0\t#2\n1 \n9\tbeyond\nx y\n2\tthe end'),
                           ('Input Log', 'LogKey:#A|\n|.|\n|A|\n')):
            movie.writestr(f'{name}.txt', text)
    expect('crafted', room.tool('movie', 'friendly', again), f'# author a＃b\\x1b[2J\n# comment ＃1\n# comment {"x" * 497}...\nmark ＃2\nwait\nA\nmark the end\n')
    moves = [('frames', 1, 10), ('seconds', 5), ('power',), ('frames', 2, 10)]
    expect('marks by inputs', list(marked(moves, {0: 'a', 4: 'b', 10: 'c', 12: 'd', 22: 'e', 99: 'f'})),
           [('mark', 'a'), ('frames', 1, 4), ('mark', 'b'), ('frames', 1, 6), ('mark', 'c'), ('seconds', 5), ('power',), ('mark', 'd'), ('frames', 2, 10), ('mark', 'e'), ('mark', 'f')])
    expect('two in one frame', movie_of([('mark', 'a'), ('mark', 'b'), ('frames', 0, 1)])[1], {0: 'a, b'})
    # a recording's, which a branch takes on
    save, recording = room.path('run.gbkeep'), room.path('run.rec')
    with Game(CART, save, room.program, recording) as game:
        game.frames(0, 60)
        game.frames(START, 4)
    expect('none yet', notes_of(recording), Notes())
    notes = Notes('Ann', 2, ['a run'], {10: 'here', 62: 'and there'})
    keep_notes(recording, notes)
    expect('kept', notes_of(recording), notes)
    expect('a branch', room.tool('branch', CART, recording, '61', room.path('b.gbkeep'), room.path('b.rec')), 'saved 61\n')
    expect('its notes', notes_of(room.path('b.rec')), Notes('Ann', 3, ['a run'], {10: 'here'}))
    expect('a movie of it', room.tool('movie', 'bk2', CART, room.path('b.rec'), room.path('b.bk2')), '')
    expect('and its script', room.tool('movie', 'friendly', room.path('b.bk2')), '# author Ann\n# rerecords 3\n# comment a run\nwait 10\nmark here\nwait 50\nstart\n')
    beside = Path(f'{recording}.notes')
    for text in ('mark x y\n', 'mark 5\n', 'rerecords\n', 'rerecords 5 x\n', f'mark {2 ** 64} x\n', 'author \x1b[2J\n', f'comment {"x" * 2_000}\n', 'mine\n'):
        beside.write_text(text)
        expect(f'{text!r:.30}', 'run.rec.notes, line 1: this is no author' in room.tool('movie', 'bk2', CART, recording, room.path('none.bk2')), True)
    expect('a file of somebody else', 'another kind of file' in str(support.refusal(lambda: keep_notes(recording, notes), Unsafe)), True)
    beside.unlink()
    os.symlink(room.path('victim'), beside)
    for call in (lambda: keep_notes(recording, notes), lambda: notes_of(recording)):
        expect('no link is followed', 'this is a link' in str(support.refusal(call, Unsafe, WrongInput)), True)
    beside.unlink()
    room.write('c.rec.notes', 'mine')
    expect('a branch over notes', ('exists already' in room.tool('branch', CART, recording, '3', room.path('c.gbkeep'), room.path('c.rec')), room.path('c.rec').exists()), (True, False))


def test_film(room):
    script, film = room.write('film.txt', 'wait 20\nstart 4\nseconds 1\nsave\nright 16\n'), room.path('film.y4m')
    expect('a film', room.tool('film', '--from', '11', '--to', '30', CART, script, film), '')
    data = film.read_bytes()
    expect('its size', (data[:len(FILM_HEAD)], len(data)), (FILM_HEAD, len(FILM_HEAD) + 20 * (6 + 160 * 144)))
    with Game(CART, room.path('film.gbkeep'), room.program) as game:
        game.frames(0, 20)
        game.frames(START, 4)
        game.frames(RIGHT, 6)
        shades = game.picture().shades
    expect('its last picture', data[-160 * 144:], bytes(16 + 73 * shade for shade in shades))
    expect('on a pipe', subprocess.run([*words_of('film'), '--to', '2', CART, script, '-'], capture_output=True,
                                       env=dict(os.environ, GBKEEP=room.program)).stdout[:len(FILM_HEAD) + 6], FILM_HEAD + b'FRAME\n')


def test_film_with_inputs(room):
    """Below the picture are the buttons, those that are pressed bright, and the number of the frame."""
    film, size = room.path('inputs.y4m'), 160 * (144 + 28)
    expect('a film', room.tool('film', '--inputs', CART, room.write('film.txt', 'wait 2\nright 1\n'), film), '')
    head, *frames = film.read_bytes().split(b'FRAME\n')
    expect('its size', (b' W160 H172 ' in head, [len(one) for one in frames]), (True, [size] * 3))

    def below(buttons, count, rerecords=0):
        return lines_below(buttons, count, rerecords)
    expect('its lines', [frame[160 * 144:] for frame in frames], [below(0, 1), below(0, 2), below(1, 3)])
    expect('what is pressed', [{*below(buttons, 1)[:160 * 14]} for buttons in (0, 16, 255)], [{BLACK, DIM}, {BLACK, DIM, BRIGHT}, {BLACK, BRIGHT}])
    expect('the number, and the rerecords', len({below(0, count, rerecords)[160 * 14:] for count in (1, 2, 59, 61, 9_999_999) for rerecords in (0, 1, 12)}), 15)


def test_recordings(room):
    save, recording = room.path('run.gbkeep'), room.path('run.rec')
    with Game(CART, save, room.program, recording) as game:
        game.frames(0, 60)
        game.frames(START, 4)
        game.save()
        game.frames(RIGHT, 40)
    expect('recorded', run(room.program, 'recorded', str(CART), str(recording)), 'frames 00 60\nframes 80 4\nframes 01 40\n')
    with Game(CART, save, room.program, recording) as game:
        expect('taken up', game.resumed, 104)
    expect('agree', run(room.program, 'verify', str(CART), str(save), str(recording)), 'agree 104\n')
    expect('verify', room.tool('verify', CART, save, recording), 'agree 104\n')
    status, out, err = room.tool_at_terminal('verify', CART, save, recording)
    expect('gbkeep-verify at a terminal', (status, out, err.endswith('\r\x1b[K')), (0, 'agree 104\n', True))
    expect('pieces', list(pieces_of([('frames', 1, 7000), ('seconds', 5)])),
           [('frames 01 3000\n', 3000), ('frames 01 3000\n', 3000), ('frames 01 1000\n', 1000), ('seconds 5\n', 1)])
    told = io.StringIO()
    with contextlib.redirect_stderr(told), subprocess.Popen(['sleep', '60']) as goes_on:
        tell(room.program, str(CART), [('frames', 0, 60), ('frames', START, 4), ('seconds', 1), ('frames', RIGHT, 3001)], 3066, goes_on)
        goes_on.kill()
    expect('what is told', told.getvalue(), ''.join(f'\r{played} of 3,066 inputs' for played in ('60', '64', '65', '3,065', '3,066')) + '\r\x1b[K')
    other, branch = room.path('branch.gbkeep'), room.path('branch.rec')
    expect('a branch', room.tool('branch', CART, recording, '62', other, branch), 'saved 62\n')
    expect('its inputs', run(room.program, 'recorded', str(CART), str(branch)), 'frames 00 60\nframes 80 2\n')
    expect('its size', branch.stat().st_size, recording.stat().st_size)
    expect('a branch over a file', 'exists already' in room.tool('branch', CART, recording, '3', other, room.path('new.rec')), True)
    expect('and nothing is made', room.path('new.rec').exists(), False)
    # a mark that another game of this name has left, or whatever else it is
    for number, mine in enumerate((b'a note of mine\n', b'other.rec\ngbkeep record\n', b'')):
        mark = room.write(f'marked-{number}.gbkeep.recorded', mine)
        told = room.tool('branch', CART, recording, '3', room.path(f'marked-{number}.gbkeep'), room.path(f'marked-{number}.rec'))
        expect('a branch whose mark is there', (told, mark.read_bytes(), sorted(path.name for path in room.folder.glob(f'marked-{number}*'))),
               (f'{mark} exists already: take a name that is free\n', mine, [mark.name]))
    ended_branches(room, recording)
    expect('too many', 'has 3 inputs fewer' in room.tool('branch', CART, recording, '107', room.path('far.gbkeep'), room.path('far.rec')), True)
    expect('a film', room.tool('film', '--from', '100', CART, recording, room.path('run.y4m')), '')
    expect('its size', room.path('run.y4m').stat().st_size, len(FILM_HEAD) + 5 * (6 + 160 * 144))
    expect('a recorded game', refusal(lambda: Game(CART, save, room.program)), 'gbkeep: recorded game: play it by record')
    room.path('run.gbkeep.recorded').unlink()
    with Game(CART, save, room.program) as game:
        game.frame(A)
    expect('played by another command', refusal(lambda: Game(CART, save, room.program, recording)), 'gbkeep: recording behind, 104 inputs')
    expect('verify then', room.tool('verify', CART, save, recording)[:36], 'gbkeep: recording behind, 104 inputs')


def ended_branches(room, recording):
    """A branch that is ended midway, or whose mark somebody makes meanwhile, takes away what it made, and nothing else."""
    real = shlex.quote(room.program)
    for number, (command, mine) in enumerate((('new', b'a note of mine\n'), ('record', b''), ('record', b'a note of mine\n'))):
        save, stands = room.path(f'ended-{number}.gbkeep'), room.path(f'stands-{number}')
        mark = room.path(f'{save.name}.recorded')
        puts = f'printf "%s" {shlex.quote(mine.decode())} > {shlex.quote(str(mark))}' if mine else ':'
        does = f'{real} "$@"; {puts}; exit' if command == 'new' else f'{puts}; touch {shlex.quote(str(stands))}; exec sleep 60'
        program = room.write(f'program-{number}', f'#!/bin/sh\nif [ $1 = {command} ]; then {does}; fi\nexec {real} "$@"\n', 0o755)
        with subprocess.Popen([*words_of('branch'), CART, recording, '50', save, room.path(f'ended-{number}.rec')], env=dict(os.environ, GBKEEP=str(program)),
                              stdout=subprocess.PIPE, stderr=subprocess.STDOUT, text=True) as process:
            if command == 'record':
                support.until('the program', stands.exists)
                process.terminate()
            told = process.communicate()[0], process.returncode
        expect('a branch that is ended', told, (f'{mark} exists already: take a name that is free\n', 1) if command == 'new' else ('', 143))
        left = {path.name: path.read_bytes()[:99] for path in room.folder.glob(f'ended-{number}*')}
        expect(f'{command}: what it leaves', left, {mark.name: mine} if mine else {})


def test_a_branch_of_the_window(room):
    """A recorded game that is rewound in the window: a new game with a recording of its own goes on, and the game before stays; its clock goes on from there."""
    said, asked = [], []
    window = types.SimpleNamespace(say=lambda line, seconds=0: said.append(line), show=lambda shades=None: None, ask=asked.append, tell=lambda told: None)
    chosen = Preferences()
    cart = clock_cart(room.folder)
    files = Files(str(cart), str(room.path('run.gbkeep')), str(room.path('run.rec')), room.program)
    with contextlib.closing(Game(cart, files.save, room.program, files.recording)) as game:
        game.frames(RIGHT, 3300)
    room.write('run-2.rec.time', '')
    game = files.open(window, chosen)
    count, given_until = game.count, int(time.time()) - 600
    game = files.branch(window, game, chosen, 3201, given_until)
    expect('what is played', (os.path.basename(files.save), os.path.basename(files.recording)), ('run-3.gbkeep', 'run-3.rec'))
    expect('what is said', said, ['A branch is being made.', 'A branch: run-3.gbkeep, recorded in run-3.rec.'])
    game.frame(A)
    game.save_all()
    game = files.branch(window, game, chosen, 9_999, given_until)
    expect('no branch beyond the inputs', said[-1].startswith('There is no branch: RECORDING has '), True)
    expect('and nothing is made', list(room.folder.glob('run-3-*')), [])
    game.save_all()
    game.close()
    moves = list(own_moves(run(room.program, 'recorded', str(cart), files.recording).encode()))
    expect('the first inputs', moves[0], ('frames', RIGHT, 3201))
    expect('the time since', (moves[1][0], 600 <= sum(move[1] for move in moves if move[0] == 'seconds') <= 660), ('seconds', True))
    expect('and what was played', ('frames', A, 1) in moves, True)
    expect('it agrees', run(room.program, 'verify', str(cart), files.save, files.recording), f'agree {sum(map(inputs_of, moves))}\n')
    before = run(room.program, 'verify', str(cart), str(room.path('run.gbkeep')), str(room.path('run.rec')))
    # a second may have passed until it was saved
    expect('the game before', before in (f'agree {count}\n', f'agree {count + 1}\n'), True)
    # what fails leaves nothing
    expect('no room', refusal(lambda: branch(cart, files.recording, 3201, room.path('none/a.gbkeep'), room.path('a.rec'), room.program)), 'gbkeep: device failed')
    expect('and no file', room.path('a.rec').exists(), False)
    expect('nothing was asked', asked, [])


if __name__ == '__main__':
    support.run_room_tests("player's tools", globals(), __doc__, Room)
