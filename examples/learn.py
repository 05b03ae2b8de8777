#!/usr/bin/env python3
"""Learns to collect the demo's coins: Q-learning over where the coin is from the player, in many games at once. It then plays a round by what it has learned,
and one by chance.

usage: learn.py [--steps N] [--games N] [--threads N] [--seed N]

It needs numpy and the library (`make library`)."""
import argparse
import sys
import time
from pathlib import Path

from gbkeep import DOWN, LEFT, RIGHT, START, UP
from gbkeep.env import Environment, Environments

import numpy

CART = Path(__file__).resolve().parent / 'demo/demo.gb'
WAYS = (RIGHT, LEFT, UP, DOWN)
# what the game holds of itself: the player's place across and down, the coin's, the score, the best one, and the seconds that are left, these three in decimal
VARIABLES, VARIABLE_BYTES = 0xc001, 7
ACROSS, DEEP, COIN_ACROSS, COIN_DEEP, SCORE, BEST, SECONDS = range(VARIABLE_BYTES)
# a coin is taken where it is less than that away, across and down
NEAR = 8
LEARNS, COUNTS_LATER, TRIES_OUT = 0.2, 0.5, 0.2


def begin(machine):
    """Starts a round."""
    machine.frames(0, 60)
    machine.frames(START, 4)


def decimal(byte):
    return (byte >> 4) * 10 + (byte & 15)


def coins_taken(before, after):
    return decimal(after[SCORE]) - decimal(before[SCORE])


def distance(held):
    return abs(held[COIN_ACROSS] - held[ACROSS]) + abs(held[COIN_DEEP] - held[DEEP])


def reward(before, after):
    """A coin, or what the player came nearer to it."""
    return coins_taken(before, after) or (distance(before) - distance(after)) / 100


def ends(held):
    """A round has a minute, and the game counts to 99."""
    return held[SECONDS] == 0 or decimal(held[SCORE]) == 99


HOW = {'actions': WAYS, 'frames': 4, 'begin': begin, 'watch': [(VARIABLES, VARIABLE_BYTES)], 'observe': 'memory', 'ends': ends}


def places(held):
    """Of each of these games one of nine: the coin is to the left, near or to the right, and above, near or below."""
    held = held.astype(int)
    sides = [1 + (away >= NEAR) - (away <= -NEAR) for away in (held[:, COIN_ACROSS] - held[:, ACROSS], held[:, COIN_DEEP] - held[:, DEEP])]
    return sides[0] + 3 * sides[1]


def learned(steps, games, threads, seed):
    """What each way is worth in each place, after so many steps of so many games."""
    chance, worth = numpy.random.default_rng(seed), numpy.zeros((9, len(WAYS)))
    with Environments(CART, games, threads=threads, reward=reward, **HOW) as envs:
        held, _ = envs.reset(seed=seed)
        here, is_over = places(held), numpy.zeros(games, bool)
        for _ in range(steps):
            ways = numpy.where(chance.random(games) < TRIES_OUT, chance.integers(len(WAYS), size=games), worth[here].argmax(1))
            was_over = is_over
            held, rewards, is_over, _, _ = envs.step(ways)
            there = places(held)
            # a step that begins the next round is none of the player's
            for place, way, gained, after in zip(*(row[~was_over] for row in (here, ways, rewards, there))):
                worth[place, way] += LEARNS * (gained + COUNTS_LATER * worth[after].max() - worth[place, way])
            here = there
    return worth


def round_of(way_of):
    """What a round brings that is played so: coins, and in how many seconds."""
    with Environment(CART, reward=coins_taken, **HOW) as env:
        held, _ = env.reset()
        coins, is_over = 0, False
        while not is_over:
            held, gained, is_over, _, _ = env.step(way_of(held))
            coins += gained
    return f'{coins:.0f} coins in {60 - decimal(int(held[SECONDS]))} seconds'


def main():
    words = argparse.ArgumentParser()
    words.add_argument('--steps', type=int, default=500)
    words.add_argument('--games', type=int, default=8)
    words.add_argument('--threads', type=int)
    words.add_argument('--seed', type=int, default=1)
    given = words.parse_args()
    began = time.monotonic()
    worth = learned(given.steps, given.games, given.threads, given.seed)
    seconds = time.monotonic() - began
    chance = numpy.random.default_rng(given.seed)
    print(f'as learned {round_of(lambda held: worth[places(held[None])[0]].argmax())}, by chance {round_of(lambda held: chance.integers(len(WAYS)))}')
    print(f'{given.steps * given.games} steps of four frames to learn it, {4 * given.steps * given.games / seconds:.0f} frames a second', file=sys.stderr)


if __name__ == '__main__':
    main()
