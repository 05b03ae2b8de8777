"""What a frame costs on aarch64: the instructions of the whole program for a frame of ROMs of examples/speed, and for one with its picture.

usage: instructions.py GBKEEP PROGRAM [--keep]     GBKEEP: the program for this computer; PROGRAM: the one for aarch64

Both are the difference of two runs of `stream`, of which one is longer. Those of aarch64 are counted by a plugin of qemu's (count.c), the others by
callgrind where valgrind is there. They repeat. --keep writes docs/speed_arm64.csv; else each count is held against that file, and the status is 1 where
one is more than a tenth greater.

It needs Debian's qemu-user (the other qemu takes no plugins) and a C compiler."""
import csv
import os
import re
import shutil
import subprocess
import sys
import tempfile
from pathlib import Path

from examples.speed import build

ROOT = Path(__file__).resolve().parent.parent.parent

HERE, TABLE = Path(__file__).resolve().parent, ROOT / 'docs/speed_arm64.csv'
HEAD = ['name', 'what', 'aarch64', 'x86-64']
# these, and the first frames that are not like the others
ROMS = {'busy': 20, 'scrolling': 20, 'halting': 20, 'mode_0_halt': 100}
PICTURES = ('busy', 'scrolling')
MANY = 40
# a frame more, for the whole program: what it may cost beyond what is written down
MORE = 1.1


def counted(words, text, pattern):
    done = subprocess.run([str(word) for word in words], input=text, capture_output=True, check=True)
    return int(re.search(pattern, done.stderr)[1])


def on_aarch64(words, text, plugin):
    return counted(['qemu-aarch64', '-L', '/usr/aarch64-linux-gnu', '-plugin', plugin, *words], text, rb'instructions (\d+)')


def here(words, text, plugin):
    return counted(['valgrind', '--tool=callgrind', '--callgrind-out-file=/dev/null', *words], text, rb'Collected : (\d+)')


def frame(count, program, gbkeep, cart, room, first, line, plugin):
    """What one more frame costs."""
    found = []
    for frames in (first, first + MANY):
        save = room / 'new.gbkeep'
        save.unlink(missing_ok=True)
        subprocess.run([gbkeep, 'new', cart, save], check=True, capture_output=True)
        found.append(count([program, 'stream', cart, save], line * frames, plugin))
    return round((found[1] - found[0]) / MANY)


def rows(gbkeep, program, room):
    plugin = room / 'count.so'
    subprocess.run([os.environ.get('CC', 'cc'), '-shared', '-fPIC', '-O2', '-o', plugin, HERE / 'count.c'], check=True)
    carts = build.write(room)
    wanted = [(name, line, what) for line, what, names in ((b'frame 00\n', 'a frame', ROMS), (b'frame 00\npicture\n', 'a frame and its picture', PICTURES)) for name in names]
    for name, line, what in wanted:
        words = (gbkeep, carts[name], room, ROMS[name], line, plugin)
        yield [name, what, frame(on_aarch64, program, *words), frame(here, gbkeep, *words) if shutil.which('valgrind') else None]


def main():
    words = [word for word in sys.argv[1:] if word != '--keep']
    if len(words) != 2:
        sys.exit(__doc__)
    if not shutil.which('qemu-aarch64'):
        sys.exit('instructions.py: qemu-aarch64 is missing: install qemu-user')
    gbkeep, program = map(os.path.abspath, words)
    kept, known, status = [], {}, 0
    if TABLE.exists():
        with open(TABLE, newline='') as file:
            known = {(row['name'], row['what']): int(row['aarch64']) for row in csv.DictReader(file)}
    print(f'{"":24}{"":26}{"aarch64":>12}{"x86-64":>12}')
    with tempfile.TemporaryDirectory(prefix='arm64-') as folder:
        for row in rows(gbkeep, program, Path(folder)):
            kept.append(row)
            print(f'{row[0]:24}{row[1]:26}{row[2]:12,}{row[3] or 0:12,}', flush=True)
            limit = known.get((row[0], row[1]))
            if '--keep' not in sys.argv[1:] and limit and row[2] > MORE * limit:
                print(f'{row[0]}: {row[1]} took {limit:,} instructions when docs/speed_arm64.csv was written')
                status = 1
    if '--keep' in sys.argv[1:]:
        with open(TABLE, 'w', newline='') as file:
            csv.writer(file, lineterminator='\n').writerows([HEAD, *kept])
    return status


if __name__ == '__main__':
    sys.exit(main())
