#!/usr/bin/env python3
"""Searches: which buttons bring the demo's player the furthest to the lower right? A beam search over states: from each of the best
states so far each way is tried, and the best of what comes out are kept for the next round. The best way is played again from power-on.

usage: search.py [--workers N] [--dask ADDRESS] [--rounds N] [--beam N]

N processes of this computer search, or N workers of the Dask cluster whose scheduler is at ADDRESS (Debian's package python3-distributed). A worker has one
thread, and finds this file as `examples.search` and the package on its PYTHONPATH."""
import argparse
import concurrent.futures
import contextlib
import sys
import time
from pathlib import Path

from gbkeep import DOWN, LEFT, RIGHT, SLOTS, START, UP, DebugMachine

HERE = Path(__file__).resolve().parent
CART = HERE / 'demo/demo.gb'
WAYS = (RIGHT, LEFT, UP, DOWN)
# the frames that a way is held
HELD = 6
# what the game holds of itself: the second byte is the player's place across, the third down
VARIABLES, VARIABLE_BYTES = 0xc000, 16
machine = None
# the numbers under which the machine keeps states, by the ways that lead to each, in order
kept = {(): 0}


def begun():
    """A machine in which the game has been started, which is kept under 0."""
    first = DebugMachine(CART)
    first.frames(0, 60)
    first.frames(START, 4)
    first.frames(0, 60)
    first.keep(0)
    return first


def number_of(ways):
    """The number under which the machine after these ways is kept."""
    if ways not in kept:
        before = number_of(ways[:-1])
        machine.back(before)
        machine.frames(ways[-1], HELD)
        # the one that was kept first makes room
        number = len(kept) if len(kept) < SLOTS else kept.pop(next(one for one in kept if one))
        machine.keep(number)
        kept[ways] = number
    return kept[ways]


def tries(beam):
    """Each way from each of these states: how good it is, the ways up to it, and what the game holds of it."""
    global machine
    if machine is None:
        # one in each process
        machine = begun()
    found = []
    for ways in beam:
        number = number_of(ways)
        for way in WAYS:
            machine.back(number)
            machine.frames(way, HELD)
            held = machine.memory(VARIABLES, VARIABLE_BYTES)
            found.append((value_of(held), (*ways, way), held))
    return found


def value_of(held):
    """The player's place, across and down."""
    return held[1] + held[2]


def best_of(found, count):
    """The best of these, one of those that the game can't tell apart, as a beam."""
    seen, beam = set(), []
    for value, ways, held in sorted(found, key=lambda one: (-one[0], one[1])):
        if held not in seen:
            seen.add(held)
            beam.append(ways)
    return beam[:count]


@contextlib.contextmanager
def pool_of(workers, address):
    """What searches parts at once."""
    if address is None:
        with concurrent.futures.ProcessPoolExecutor(workers) as pool:
            yield pool
        return
    from distributed import Client
    with Client(address) as client:
        yield client.get_executor()


def searched(rounds, count, workers, address=None):
    """The best ways, how good they are, and how many were tried."""
    beam, tried, best = [()], 0, 0
    with pool_of(workers, address) as pool:
        for _ in range(rounds):
            parts = [beam[at::workers] for at in range(workers)]
            found = [one for part in pool.map(tries, [part for part in parts if part]) for one in part]
            tried += len(found)
            best = max(value for value, _, _ in found)
            beam = best_of(found, count)
    return beam[0], best, tried


def played(ways):
    """How good these ways are from power-on."""
    with begun() as again:
        for way in ways:
            again.frames(way, HELD)
        return value_of(again.memory(VARIABLES, VARIABLE_BYTES))


def main():
    words = argparse.ArgumentParser()
    words.add_argument('--workers', type=int, default=1)
    words.add_argument('--dask', metavar='ADDRESS')
    words.add_argument('--rounds', type=int, default=8)
    words.add_argument('--beam', type=int, default=16)
    given = words.parse_args()
    began = time.monotonic()
    ways, value, tried = searched(given.rounds, given.beam, max(given.workers, 1), given.dask)
    seconds = time.monotonic() - began
    print('ways', ' '.join({RIGHT: 'right', LEFT: 'left', UP: 'up', DOWN: 'down'}[way] for way in ways))
    print('value', value, 'again', played(ways))
    print(f'{tried} tries, {tried / seconds:.0f} a second', file=sys.stderr)


if __name__ == '__main__':
    if any(word.partition('=')[0] == '--dask' for word in sys.argv[1:]):
        # workers find what they run by its module's name
        from examples import search
        search.main()
    else:
        main()
