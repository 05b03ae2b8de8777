#!/usr/bin/env python3
"""Walks over the demo's field by Python, and leaves a picture of it.

usage: collect.py SAVE PNG"""
import sys
from pathlib import Path

from gbkeep import DOWN, LEFT, RIGHT, Game
from gbkeep.new_files import new_file

HERE = Path(__file__).resolve().parent

with Game(HERE / 'demo/demo.gb', sys.argv[1]) as game:
    game.frames(0, 60)
    for row in range(6):
        game.frames((RIGHT, LEFT)[row % 2], 70)
        game.frames(DOWN, 4)
    with new_file(sys.argv[2], inputs=[sys.argv[1]], begins=(b'\x89PNG',)) as picture:
        picture.write(game.picture().png())
    print('saved', game.save())
