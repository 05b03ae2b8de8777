"""Draws docs/speed.svg and writes the tables of docs/SPEED.md between its lines `begin made` and `end made`, of docs/speed.csv and docs/speed_where.csv.

usage: speed_chart.py           makes them
       speed_chart.py check     the status is 1 where they are not as made

`shipped.py .. --keep` writes speed.csv, and `shipped.py where .. --keep` speed_where.csv."""
import csv
import os
import sys
from collections import Counter
from pathlib import Path

DOCS = Path(__file__).resolve().parent.parent / 'docs'
CHART, PAGE = DOCS / 'speed.svg', DOCS / 'SPEED.md'
COLOURS = {'a frame': '#306230', 'more': '#8bac0f'}
BAR, LEFT, WIDTH, STEP = 12, 510, 340, 17
BEGIN, END = '<!-- begin made: scripts/speed_chart.py -->\n', '<!-- end made -->\n'


def drawn(rows):
    most = max(int(row['program']) for row in rows)
    parts = [f'<svg xmlns="http://www.w3.org/2000/svg" width="{LEFT + WIDTH + 210}" height="{20 + STEP * len(rows)}" font-family="sans-serif" font-size="11">',
             '<rect width="100%" height="100%" fill="white"/>']
    for number, row in enumerate(rows):
        top, instructions = 10 + STEP * number, int(row['program'])
        width = max(1, round(WIDTH * instructions / most))
        a_second = f', {int(row["a second"]):,} a second' if row['a second'] else ''
        parts.append(f'<text x="8" y="{top + BAR - 2}">{row["what"]}</text>'
                     f'<rect x="{LEFT}" y="{top}" width="{width}" height="{BAR}" fill="{COLOURS[row["of"]]}"/>'
                     f'<text x="{LEFT + width + 6}" y="{top + BAR - 2}">{instructions:,} {row["of"]}{a_second}</text>')
    return '\n'.join([*parts, '</svg>', ''])


def table(rows):
    lines = ['| ROM | Does | Program | Library | Core |', '|---|---|---|---|---|']
    lines += [f'| `{row["name"].partition("_")[2] if row["of"] == "more" else row["name"]}` | {row["what"]} | ' + ' | '.join(f'{int(row[by]):,}' for by in ('program', 'library', 'core')) + ' |'
              for row in rows]
    return '\n'.join(lines) + '\n'


def places(rows):
    """A line for each ROM: its functions, the dearest first, with their shares of a frame."""
    lines, wholes = ['| ROM | Functions, and their parts of a frame |', '|---|---|'], Counter()
    for row in rows:
        wholes[row['name']] += int(row['instructions'])
    for name, whole in wholes.items():
        shares = (f'{100 * int(row["instructions"]) / whole:.1f} % ' + (f'`{row["function"]}`' if '::' in row['function'] else row['function'])
                  for row in rows if row['name'] == name)
        lines.append(f'| `{name}` | ' + '; '.join(shares) + ' |')
    return '\n'.join(lines) + '\n'


def page(text, rows, functions):
    """The page with its tables: the frames in the first, the pictures in the second, where their instructions are in the third."""
    made = [*(table([row for row in rows if row['of'] == of]) for of in COLOURS), places(functions)]
    parts = text.split(BEGIN)
    if len(parts) != 1 + len(made) or any(END not in part for part in parts[1:]):
        sys.exit(f'speed_chart.py: {PAGE.name} has not {len(made)} places for tables')
    return parts[0] + ''.join(BEGIN + one + END + part.split(END, 1)[1] for one, part in zip(made, parts[1:]))


def main():
    if sys.argv[1:] not in ([], ['check']):
        sys.exit(__doc__)
    rows, functions = (list(csv.DictReader((DOCS / name).read_text().splitlines())) for name in ('speed.csv', 'speed_where.csv'))
    for path, text in ((CHART, drawn(rows)), (PAGE, page(PAGE.read_text(), rows, functions))):
        if path.read_text() == text:
            continue
        if sys.argv[1:]:
            sys.exit(f'{path.name} is not as scripts/speed_chart.py makes it of speed.csv and speed_where.csv')
        new = path.with_name(f'.{path.name}.new')
        new.write_text(text)
        os.replace(new, path)


if __name__ == '__main__':
    main()
