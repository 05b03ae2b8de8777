#!/usr/bin/env python3
"""Tries two ways from one place in a game, and goes on with the better one.

usage: two_ways.py SAVE"""
import sys
from pathlib import Path

from gbkeep import LEFT, RIGHT, START, Game

HERE = Path(__file__).resolve().parent
# the second byte is the player's place across
VARIABLES = 0xc000

with Game(HERE / 'demo/demo.gb', sys.argv[1]) as game:
    game.frames(0, 60)
    game.frames(START, 4)
    game.frames(0, 60)
    place, across = game.state(), {}
    for way, name in ((LEFT, 'left'), (RIGHT, 'right')):
        game.restore(place)
        game.frames(way, 30)
        game.keep(way)
        across[way] = game.memory(VARIABLES + 1, 1)[0]
        print(name, across[way])
    game.back(max(across, key=across.get))
    print('saved', game.save(), 'at', game.memory(VARIABLES + 1, 1)[0])
