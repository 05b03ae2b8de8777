"""Assembles the demo cartridge, plays its tour, and reads the line below the field from the picture.

usage: check.py GBKEEP

The status is 1 where demo.gb or demo.sym is not what demo.asm gives, where the tour's report is not the written one, where the picture doesn't
show the score that the tour was made for (each coin lies where the cartridge's random numbers put it), or where the field doesn't say how a
round begins once the time is over, and that alone."""
import re
import subprocess
import sys
import tempfile
from pathlib import Path

from examples.demo.assemble import Assembler

HERE = Path(__file__).resolve().parent
LETTERS = '0123456789 BCEORSTAP'
LINE = 'SCORE 56 BEST 56 T02'
OVER, AGAIN = 'SCORE 56 BEST 56 T00', 'SCORE 00 BEST 56 T60'
SAYS = ' PRESS START '


def glyphs(source):
    """The first tiles of the source, each as the 64 values of a picture."""
    rows = re.findall(r'tile (".*")', source)[:len(LETTERS)]
    return {tuple(3 - '.-+#'.index(dot) for dot in re.sub('[", ]', '', row)): letter for row, letter in zip(rows, LETTERS)}


def letters(picture, known, row, columns):
    """The letters of a row of tiles."""
    values = [int(word) for word in picture.split()[4:]]
    tile = lambda column: tuple(values[160 * y + 8 * column + x] for y in range(8 * row, 8 * row + 8) for x in range(8))
    return ''.join(known.get(tile(column), '?') for column in columns)


def status_line(picture, known):
    return letters(picture, known, 17, range(20))


def says(picture, known):
    """What stands in the middle of the field."""
    return letters(picture, known, 8, range(3, 16))


def report_of(script):
    """What a play of a new game has to tell."""
    count, told, pending = 0, ['resumed 0'], 0
    for line in script.splitlines():
        given = int(line.split()[2]) if line.startswith('frames') else 0
        count, pending = count + given, pending + given
        if line == 'save':
            told.append(f'saved {count}')
            pending = 0
    return '\n'.join(told + ([f'saved {count}'] if pending else [])) + '\n'


def main():
    source, tour = (HERE / 'demo.asm').read_text(), (HERE / 'tour.txt').read_text()
    assembler = Assembler()
    if assembler.assemble(source) != (HERE / 'demo.gb').read_bytes() or assembler.symbols() != (HERE / 'demo.sym').read_text():
        print('demo.gb or demo.sym is not what demo.asm gives: run assemble.py')
        return 1
    known = glyphs(source)
    with tempfile.TemporaryDirectory(prefix='demo-') as room:
        def gbkeep(*words):
            return subprocess.run([sys.argv[1], words[0], HERE / 'demo.gb', f'{room}/demo.gbkeep', *words[1:]], capture_output=True, text=True, check=True).stdout

        def shown():
            gbkeep('frame', f'{room}/demo.pgm')
            picture = Path(f'{room}/demo.pgm').read_text()
            return status_line(picture, known), says(picture, known) == SAYS

        def after(script):
            Path(f'{room}/more.txt').write_text(script)
            gbkeep('play', f'{room}/more.txt')
            return shown()
        gbkeep('new', '284')
        got = [gbkeep('play', HERE / 'tour.txt'), shown(), after('frames 00 130\n'), after('frames 80 1\nframes 00 2\n')]
    if got != [report_of(tour), (LINE, False), (OVER, True), (AGAIN, False)]:
        print(f'the tour of the demo cartridge ends with {got[0].splitlines()[-1]!r}, and then it shows {got[1:]}')
        return 1
    print(f'demo cartridge: {got[1][0]}, then{SAYS.rstrip()}')
    return 0


if __name__ == '__main__':
    sys.exit(main())
