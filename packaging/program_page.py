"""The man page of the program, of docs/COMMANDS.md: its tables of commands, lines and refusals, and what stands below them.

usage: program_page.py     prints it; `make install` and the packages have it"""
import re
import sys
from pathlib import Path

from man_page import roff

TOP = Path(__file__).resolve().parent.parent
MANUAL, PROJECT = TOP / 'docs/COMMANDS.md', TOP / 'python/pyproject.toml'
DOES = 'Game Boy emulator whose save files survive any power cut'
# what the words of a command stand for
FILES = ('CART is a ROM file, SAVE a save file, RECORDING a file of every input since power-on, SCRIPT a script of inputs, BATTERY the battery file of '
         'another emulator, OUT a picture or a battery file.')
# a section of the page, of the one of the manual with this head
SECTIONS = {'SCRIPTS': 'Scripts', 'STREAMS': 'Streams', 'DEBUGGING': 'Debugging', 'EXIT STATUS AND DIAGNOSTICS': 'Status and faults'}
CELL = re.compile(r' \| ')


def spans(text):
    """Text of the manual in roff: what stands between back quotes or stars in bold, and no link."""
    text = re.sub(r': \[([^]]*)\]\([^)]*\)', r' (see \1)', text)
    text = re.sub(r'\[([^]]*)\]\([^)]*\)', r'\1', text)
    return re.sub(r'`([^`]+)`|\*\*([^*]+)\*\*', lambda found: f'\\fB{found[1] or found[2]}\\fR', roff(text))


def blocks_of(text):
    """The blocks of a part of the manual, each its kind and its lines: a table, a list, a program's words, or a paragraph."""
    for block in re.findall(r'^```sh\n.*?^```$|^(?:[^\n]+\n?)+', text, re.S | re.M):
        lines = block.strip('\n').split('\n')
        yield ('shell' if block.startswith('```') else 'table' if block.startswith('|') else 'list' if block.startswith('- ') else 'text'), lines


def rows_of(lines):
    """The rows of a table, each its cells; the head is not one."""
    return [CELL.split(line.strip('| ')) for line in lines[2:]]


def sentence(text):
    text = text.strip()
    return text[:1].upper() + text[1:] + ('' if text.endswith('.') else '.')


def entry(head, cells):
    """A row as an entry: its first cell, and the others as sentences."""
    lines = ['.TP', spans(cells[0])]
    for name, cell in zip(head[1:], cells[1:]):
        cell = re.sub(r'^nothing(; |$)|^the same$', '', cell)
        if cell:
            lines.append(spans(f'Answer: {sentence(cell)}' if name == 'Answer' and cell.startswith('`') else sentence(cell)))
    return lines


def part(lines_of_blocks):
    """The blocks of a section; what is pasted into a shell stands in the manual alone."""
    for kind, lines in lines_of_blocks:
        if kind == 'table':
            head = CELL.split(lines[0].strip('| '))
            for cells in rows_of(lines):
                yield from entry(head, cells)
        elif kind == 'list':
            for item in re.split(r'\n(?=- )', '\n'.join(lines)):
                yield from ('.IP \\(bu 2', spans(' '.join(item.removeprefix('- ').split())))
        elif kind == 'text':
            yield from ('.PP', spans(' '.join(lines)))


def section(manual, head):
    """The blocks below a head of the manual, up to the first that is pasted into a shell or speaks of what follows it."""
    found = re.search(rf'^## {re.escape(head)}\n(.*?)(?=^## |\Z)', manual, re.S | re.M)
    if not found:
        raise ValueError(f'{MANUAL} has no {head}')
    blocks = list(blocks_of(found[1]))
    tables = [at for at, (kind, _) in enumerate(blocks) if kind == 'table']
    first = next((at for at, (kind, _) in enumerate(blocks) if kind == 'shell' and at > tables[0]), len(blocks))
    return [block for block in blocks[:max(first, tables[-1] + 1) if head == 'Status and faults' else first] if not block[1][-1].endswith(':')]


def page(version):
    """The page of the program of this version."""
    # what stands between lines that say so is made; it is a table as any other
    manual = re.sub(r'^<!--.*\n', '', MANUAL.read_text(encoding='utf-8'), flags=re.M)
    top = list(blocks_of(manual[:manual.index('\n## ')].partition('\n\n')[2]))
    commands = next(lines for kind, lines in top if kind == 'table')
    usages = [re.sub('`', '', cells[0]) for cells in rows_of(commands)]
    examples = [line.replace('bin/gbkeep ', 'gbkeep ') for kind, lines in top if kind == 'shell' for line in lines if line.startswith(('bin/gbkeep', 'rm'))]
    tools = sorted(re.findall('^(gbkeep-[a-z-]+) = ', PROJECT.read_text(encoding='utf-8'), re.M))
    lines = [f'.TH GBKEEP 1 "" "gbkeep {version}" "User Commands"', '.SH NAME', f'gbkeep \\- {DOES}', '.SH SYNOPSIS', '.nf']
    for usage in usages:
        word, _, operands = usage.partition(' ')
        lines.append(f'\\fBgbkeep {roff(word)}\\fR \\fI{roff(operands)}\\fR')
    lines += ['\\fBgbkeep \\-\\-help\\fR | \\fB\\-\\-version\\fR', '.fi', '.SH DESCRIPTION', '.B gbkeep', 'emulates the Nintendo Game Boy (DMG), with no sound.',
              'It keeps a game in a file of 512\\-byte sectors, so that a power cut of the host at any moment loses nothing that was reported as saved.', '.PP', FILES,
              '.SH COMMANDS']
    lines += part([block for block in top if block[0] in ('table', 'list')])
    for name, head in SECTIONS.items():
        lines += [f'.SH {name}', *part(section(manual, head))]
    lines += ['.SH EXAMPLES', 'From the top of the clone:', '.PP', '.nf', *map(roff, examples), '.fi']
    lines += ['.SH SEE ALSO', ', '.join(f'\\fB{roff(tool)}\\fR(1)' for tool in tools)]
    return '\n'.join(lines) + '\n'


if __name__ == '__main__':
    if sys.argv[1:]:
        sys.exit(__doc__)
    print(page('0'), end='')
