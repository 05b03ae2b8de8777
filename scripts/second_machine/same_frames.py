"""Compares frames that pass laps at once, as `stream` makes them, with frames of which each lap is made, as `debug` makes them: the digest of the machine's
snapshot after each block of frames, on the ROMs of examples/speed, the feature ROMs and random programs that wait, of which each run makes others.

usage: python3 -m scripts.second_machine.same_frames GBKEEP FRAMES [SEED]    at the top of the repository: so many frames in all, and prints how many ROMs and frames agreed"""
import hashlib
import random
import subprocess
import sys
import tempfile
import time
from pathlib import Path

from examples.speed import build as speed
from scripts.second_machine import debug_lines, feature_roms, waiting_roms

# the frames between two digests, and how many such blocks a ROM has
BLOCK, BLOCKS = 120, 25


def moves(choose):
    """Buttons and frames, a block in all."""
    left = BLOCK
    while left:
        count = min(left, choose.choice([1, 2, 7, 30, 60]))
        yield choose.choice([0, 0, 1, 8, 0x80, choose.randrange(256)]), count
        left -= count


def digests_of_a_stream(program, rom, blocks, folder):
    save = folder / 'game.gbkeep'
    subprocess.run([program, 'new', rom, save], check=True, stdout=subprocess.DEVNULL)
    lines = ''.join(''.join(f'frames {buttons:02X} {count}\n' for buttons, count in block) + 'state\n' for block in blocks)
    told = subprocess.run([program, 'stream', rom, save], input=lines.encode(), stdout=subprocess.PIPE, check=True).stdout
    save.unlink()
    found, at = [], 0
    while at < len(told):
        end = told.index(b'\n', at)
        word, _, number = told[at:end].partition(b' ')
        at = end + 1
        if word == b'state':
            found.append(hashlib.sha256(told[at + debug_lines.HEADER:at + int(number)]).hexdigest())
            at += int(number)
    return found


def digests_of_a_debugger(program, rom, blocks):
    lines = ''.join(''.join(f'frames {buttons:02X} {count}\n' for buttons, count in block) + 'digest\n' for block in blocks)
    told = subprocess.run([program, 'debug', rom], input=lines, stdout=subprocess.PIPE, check=True, text=True).stdout
    return [line.split()[1].lower() for line in told.splitlines() if line.startswith('digest')]


def roms(seed):
    """Images with names: those that do one thing, one of each cartridge, and then programs that wait, without end."""
    with tempfile.TemporaryDirectory() as folder:
        speed.write(Path(folder))
        yield from [(path.name, path.read_bytes()) for path in sorted(Path(folder).glob('*.gb'))]
    yield from [(f'features {number}', image) for number, image in enumerate(feature_roms.roms())]
    number = 0
    while True:
        yield f'waits {seed}-{number}', waiting_roms.Program(f'{seed}-{number}').build()
        number += 1


def main():
    if len(sys.argv) not in (3, 4) or not sys.argv[2].isdecimal():
        sys.exit(__doc__)
    program, most, seed = sys.argv[1], int(sys.argv[2]), sys.argv[3] if len(sys.argv) == 4 else str(time.time_ns())
    made = count = 0
    with tempfile.TemporaryDirectory() as name:
        folder = Path(name)
        for name, image in roms(seed):
            if made >= most:
                break
            rom = folder / 'game.gb'
            rom.write_bytes(image)
            choose = random.Random(f'{seed} {name}')
            blocks = [list(moves(choose)) for _ in range(BLOCKS)]
            one, other = digests_of_a_stream(program, rom, blocks, folder), digests_of_a_debugger(program, rom, blocks)
            if one != other or len(one) != BLOCKS:
                place = next((i for i, pair in enumerate(zip(one, other)) if pair[0] != pair[1]), min(len(one), len(other)))
                sys.exit(f'{name}, seed {seed}: they differ after {BLOCK * (place + 1)} frames')
            made += BLOCK * BLOCKS
            count += 1
    print(f'{made} frames of {count} ROMs agree in {BLOCKS} digests each, seed {seed}')


if __name__ == '__main__':
    main()
