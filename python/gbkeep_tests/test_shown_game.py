"""Tries a game that goes on while it is saved: its pictures and its SAVE, the clock, and programs that stand still, end or refuse.

usage: test_shown_game.py GBKEEP [TEST..]     the status is 1 where a test fails"""
import os
import random
import signal
import time

from gbkeep import A, RIGHT, START, DebugMachine, Game, Refused, shown_game
from gbkeep.shown_game import ShownGame, shown
from gbkeep.timed_game import TimedGame
from gbkeep_tests import support
from gbkeep_tests.support import CART, clock_cart, expect, seconds_shown, until

# seconds that no busy computer takes for what waits for nothing
LONG = 60


def refusal(call):
    return support.refusal(call, Refused)


def opened(program, save, cart=CART, **more):
    game = shown(TimedGame(cart, save, program, **more), cart, save, program)
    expect('two programs', type(game), ShownGame)
    return game


def test_play(program, room):
    """The pictures of each frame are those of a game that is played by one program, and so is SAVE."""
    randomly, save = random.Random(1), room / 'play.gbkeep'
    with Game(CART, room / 'other.gbkeep', program) as other:
        for _ in range(3):
            game = opened(program, save)
            expect('its count', game.count, other.count)
            for number in range(150):
                buttons = randomly.randrange(256)
                game.frame(buttons)
                other.frame(buttons)
                if number % 10 == 0:
                    expect(f'picture {number}', game.picture().shades, other.picture().shades)
                if number % 7 == 0:
                    game.begin_save()
                expect('no more is told than there is', game.saved <= game.count, True)
            expect('a whole save', (game.save_all(), game.count, game.saved), (other.count, other.count, other.count))
            game.close()
        with Game(CART, save, program) as again:
            expect('what is kept', (again.resumed, again.picture().shades), (other.count, other.picture().shades))


def test_slow(program, room):
    """While the program that saves stands still the game goes on, nothing is told as saved, and all of it is saved later."""
    game = opened(program, room / 'slow.gbkeep')
    keeper = game.game.process
    os.kill(keeper.pid, signal.SIGSTOP)
    longest = 0
    for number in range(300):
        began = time.monotonic()
        game.frame(number & 255)
        game.picture()
        if number % 60 == 0:
            game.begin_save()
        longest = max(longest, time.monotonic() - began)
    # one that waited would wait for ever
    expect('no frame waits', (longest < LONG, game.saved, game.trouble), (True, 0, None))
    game.since -= LONG
    expect('it is told', game.trouble, f'the disk is slow: nothing is saved for {shown_game.SLOW_SECONDS} seconds')
    os.kill(keeper.pid, signal.SIGCONT)
    expect('all is saved', (game.save_all(), game.trouble), (300, None))
    game.close()


def test_clock(program, room):
    """Both programs are given the same seconds, at the same input; none where SAVE.time can't be written."""
    cart, save, now = clock_cart(room), room / 'clock.gbkeep', [0.0]
    game = opened(program, save, cart, elapsed=lambda: now[0])
    for second in (1, 3, 4, 100, 101):
        now[0] = float(second)
        game.begin_save()
        for _ in range(20):
            game.frame()
        until('a save', lambda: (game.frame(), not game.is_saving)[1])
    game.save_all()
    told, count = seconds_shown(game), game.count
    game.close()
    expect('the seconds', told, 101)
    with Game(cart, save, program) as kept:
        expect('those that are kept', (kept.resumed >= count, seconds_shown(kept)), (True, 101))
    # a folder in the place of SAVE.time
    os.unlink(f'{save}.time')
    game = opened(program, save, cart, elapsed=lambda: now[0])
    os.unlink(f'{save}.time')
    os.mkdir(f'{save}.time')
    now[0] += 2
    game.begin_save()
    until('a save', lambda: (game.frame(), not game.is_saving)[1])
    expect('it is told', 'the clock stands still' in (game.trouble or ''), True)
    game.save_all()
    expect('no second', seconds_shown(game), 101)
    game.close()


def one_program(program, room):
    """A program that refuses to be the second one of a game."""
    refuses = room / 'refuses'
    refuses.write_text(f'#!/bin/sh\n[ "$1" = debug ] && exit 1\nexec {program} "$@"\n')
    refuses.chmod(0o755)
    return str(refuses)


def test_going_on(program, room):
    """A state that is gone on with, and the power switch, are an input each, of the pictures and of SAVE; by two programs and by one."""
    for name, of in (('two', program), ('one', one_program(program, room))):
        save = room / f'{name}.gbkeep'
        game = shown(TimedGame(CART, save, of), CART, save, of)
        expect('programs', type(game), ShownGame if name == 'two' else TimedGame)
        with DebugMachine(CART, program=program) as other:
            for machine in (game, other):
                machine.frames(0, 60)
                machine.frames(START, 4)
            state, known = game.state(), other.state()
            expect('a state', state == known, True)
            for machine in (game, other):
                machine.frames(RIGHT, 30)
            game.begin_save()
            game.go_on(state, game.given_until)
            other.restore(known)
            expect('its picture', game.picture().shades, other.picture().shades)
            for machine in (game, other):
                machine.frames(A, 9)
            game.begin_save()
            for machine in (game, other):
                machine.power()
                machine.frames(START, 7)
            expect('inputs', (game.count, game.save_all(), game.saved), (112, 112, 112))
            shades = game.picture().shades
            game.close()
            with Game(CART, save, program) as kept:
                expect('what is kept', (kept.resumed, kept.state() == other.state(), kept.picture().shades == shades), (112, True, True))


def test_going_on_with_a_clock(program, room):
    """A state's clock is given the time since it was taken, in the same save; none of it twice."""
    for name, of in (('two', program), ('one', one_program(program, room))):
        cart, save, now = clock_cart(room), room / f'clock-{name}.gbkeep', [0.0]
        game = shown(TimedGame(cart, save, of, elapsed=lambda: now[0]), cart, save, of)
        began = game.given_until
        now[0] = 10.0
        game.save_all()
        expect('at the state', (seconds_shown(game), game.given_until - began), (10, 10))
        state, given_until = game.state(), game.given_until
        for second in (100, 1_000):
            now[0] = float(second)
            game.save_all()
            expect('later', seconds_shown(game), second)
        game.go_on(state, given_until)
        expect('both inputs are saved', (game.saved, game.given_until - began), (game.count, 1_000))
        expect('the time since', seconds_shown(game), 1_000)
        now[0] = 1_001.0
        game.begin_save()
        until('a second', lambda: seconds_shown(game) == 1_001)
        game.go_on(state, given_until)
        game.go_on(game.state(), game.given_until)
        game.save_all()
        expect('nothing twice', seconds_shown(game), 1_001)
        told = game.saved
        game.close()
        with Game(cart, save, program) as kept:
            expect('what is kept', (kept.resumed >= told, seconds_shown(kept)), (True, 1_001))


def test_ends(program, room):
    """A program that ends is told, and what was given is saved if the other one is there."""
    for which in ('game', 'player'):
        save = room / f'{which}.gbkeep'
        game = opened(program, save)
        for _ in range(30):
            game.frame()
        game.save_all()
        for _ in range(30):
            game.frame(1)
        process = game.game.process if which == 'game' else game.player.process
        time.sleep(0.2)
        process.kill()
        process.wait()

        def go_on():
            for _ in range(2000):
                game.frame()
                game.picture()
                game.begin_save()
                time.sleep(0.001)
        expect(f'{which} that ends', refusal(go_on) is not None, True)
        if which == 'player':
            game.game.close()
        with Game(CART, save, program) as left:
            expect('what is saved', left.resumed >= (30 if which == 'game' else 60), True)


def test_refused(program, room):
    """Where no second program can be had, the game is played by one."""
    refuses = one_program(program, room)
    save = room / 'one.gbkeep'
    game = shown(TimedGame(CART, save, refuses), CART, save, refuses)
    expect('one program', type(game), TimedGame)
    game.frame(1)
    game.begin_save()
    expect('its save', game.saved, 1)
    game.close()


if __name__ == '__main__':
    # no disk is slow but where a test says so
    shown_game.SLOW_SECONDS = LONG
    support.run_room_tests('games that go on while they are saved', globals(), __doc__, None)
