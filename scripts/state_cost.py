"""What states cost from Python: how often a second they are taken and given back through a pipe, and how long a save behind one takes.

usage: state_cost.py GBKEEP

Of the demo, after some frames of play, with `Game` and with `DebugMachine`, and with `Machine` and `Session` where the library is there: `state` and `restore`;
`keep`, and `back` with a frame; sixteen bytes of memory behind a frame. Each is the best of five rounds, since whatever else the computer does only takes from
it. Then, of `Game`: a save behind a frame, and one behind a frame and a `back`, which writes a whole generation, medians of fifty each. Then what a moment of
the window takes, a state and its picture: its time and its bytes. SAVE lies where this is started: a folder for temporary files may lie in memory, where a
sync takes no time."""
import os
import statistics
import sys
import tempfile
import time
from pathlib import Path

from gbkeep import A, RIGHT, START, DebugMachine, Game, Machine, Refused, Session
from gbkeep.going_back import Moment

CART = Path(__file__).resolve().parent.parent / 'examples/demo/demo.gb'
TIMES, ROUNDS, SAVES = 1_000, 5, 50


def began(machine):
    machine.frames(0, 60)
    machine.frames(START, 4)
    machine.frames(RIGHT, 60)
    return machine


def settled(machine):
    """Waits until all that was given is done; a session has room for more then."""
    machine.memory(0xc000, 1)
    if isinstance(machine, Session):
        machine.save()
        for _ in machine.calls():
            pass


def rate(machine, call):
    """How often a second this is done."""
    best = 0
    for _ in range(ROUNDS):
        settled(machine)
        start = time.perf_counter()
        for number in range(TIMES):
            call(number)
        settled(machine)
        best = max(best, TIMES / (time.perf_counter() - start))
    return best


def tell_rates(name, machine):
    def back(number):
        machine.back(number % 2)
        machine.frame(A)

    def look(number):
        machine.frame(A)
        machine.memory(0xc000, 16)
    taken = rate(machine, lambda number: machine.restore(machine.state()))
    kept = rate(machine, lambda number: machine.keep(number % 2))
    print(f'{name}: state and restore {taken:,.0f} a second; keep {kept:,.0f}; back and a frame {rate(machine, back):,.0f}; '
          f'a frame and memory {rate(machine, look):,.0f}')


def time_of_saves(game, call):
    times = []
    for _ in range(SAVES):
        call()
        settled(game)
        start = time.perf_counter()
        game.save()
        times.append(time.perf_counter() - start)
    return 1e6 * statistics.median(times)


def tell_moment(game):
    game.given_until, shades = 0, game.picture().shades
    times = []
    for _ in range(TIMES):
        start = time.perf_counter()
        moment = Moment(game, shades)
        times.append(time.perf_counter() - start)
    print(f'a moment of the window: {1e6 * statistics.median(times):.0f} us, {len(moment.packed):,} bytes')


def main():
    if len(sys.argv) != 2:
        sys.exit(__doc__)
    program = os.path.abspath(sys.argv[1])
    for kind in (Machine, Session):
        try:
            with kind(CART) as machine:
                tell_rates(kind.__name__, began(machine))
        except Refused as refused:
            print(f'{kind.__name__}: {refused.line}')
    with tempfile.TemporaryDirectory(prefix='states-', dir=os.path.realpath('.')) as folder:
        with DebugMachine(CART, program=program) as machine:
            tell_rates('DebugMachine', began(machine))
        with Game(CART, Path(folder) / 'game.gbkeep', program) as game:
            tell_rates('Game', began(game))
            tell_moment(game)
            game.save()
            one = time_of_saves(game, lambda: game.frame(A))

            def back():
                game.frame(A)
                game.back(0)
            print(f'a save behind a frame: median of {SAVES} {one:.0f} us; behind a frame and back {time_of_saves(game, back):.0f} us')


if __name__ == '__main__':
    main()
