#!/usr/bin/env python3
"""Plays a ROM for so many frames, and compares its picture with one that is kept.

usage: same_picture.py CART FRAMES PICTURE     PICTURE: a PNG, which is made where there is none; the status is 1 where the ROM shows another one"""
import sys
from pathlib import Path

from gbkeep import Machine
from gbkeep.pictures import shades_of

if len(sys.argv) != 4:
    sys.exit(__doc__)
cart, frames, kept = sys.argv[1], int(sys.argv[2]), Path(sys.argv[3])
with Machine(cart) as machine:
    machine.frames(0, frames)
    picture = machine.picture()
if not kept.exists():
    kept.write_bytes(picture.png())
    print(f'{kept} is made: look at it, and keep it')
elif shades_of(kept.read_bytes()) != picture.shades:
    other = kept.with_suffix('.actual.png')
    other.write_bytes(picture.png())
    sys.exit(f'{cart} shows another picture after {frames} frames: {other}')
else:
    print(f'{cart} shows {kept}')
