"""The one table of refusals, and all that is made of it. What a refusal says, the status that the program ends with and the code in C are definitions of
crates/refusals/specs, which the code is proved to meet; what it means, and what to do about it, stand in the docstrings of crates/refusals/src/refusal.rt
and, where a row holds what another crate refuses or a command has words of its own, in crates/refusals/refusals.toml.

usage: refusal_table.py            at the top of the repository: makes all of it anew
       refusal_table.py --check    fails where something differs from what is made"""
import json
import re
import sys
import tomllib
from dataclasses import dataclass, field
from pathlib import Path

CRATE = Path('crates/refusals')
BEGIN, END = 'begin made by scripts/refusal_table.py', 'end made'
# the rows that no call of the program or the library tells
UNTOLD = {'not blank'}


@dataclass
class Row:
    """One way to refuse: its text with N, M and XX for its numbers, its code, its name in C or none, the status, the rows of the enum that say it,
    and what a person reads of it: `of` has (command, meaning, advice)."""
    text: str
    code: int
    status: int
    c: str = ''
    means: str = ''
    advice: str = ''
    library: str = ''
    page: str = ''
    of: list = field(default_factory=list)
    variants: list = field(default_factory=list)

    def short(self):
        """The text without its numbers."""
        return re.split(r',? (?:N|XX)\b', self.text)[0]


# ---- the definitions, the docstrings and the table beside them

def equations(path):
    """The equations of a file of definitions: those of each name, as (constructor, its variables, value)."""
    found = {}
    for name, given, value in re.findall(r'^(\w+) (\(.*?\)|[\w.]+) = (.*)$', path.read_text(encoding='utf-8'), re.M):
        head, *variables = given.strip('()').split()
        found.setdefault(name, []).append((head.rpartition('.')[2], variables, value))
    return found


def flattened(found, name, before=()):
    """Each row of a definition with what it holds: (constructors, value)."""
    for head, _, value in found[name]:
        other = value.split()[0]
        if other in found:
            yield from flattened(found, other, (*before, head))
        else:
            yield (*before, head), value


def shown(value):
    """The text of an equation, with N and M for its numbers."""
    names, parts = iter('NM'), []
    for plain, kind in re.findall(r'codes "([^"]*)"|\b(decimal|byte_text)\b', value):
        parts.append({'decimal': next(names, '') if kind == 'decimal' else '', 'byte_text': 'XX'}.get(kind, re.sub(r'\d+', 'N', plain)))
    return ''.join(parts)


def docstrings():
    """What each row of the enum means, and what to do about it."""
    body = re.search(r'^pub enum Refusal \{(.*?)^\}', (CRATE / 'src/refusal.rt').read_text(encoding='utf-8'), re.S | re.M)[1]
    for lines, name in re.findall(r'((?:^    ///.*\n)+)    ([A-Z]\w+)', body, re.M):
        parts = re.sub(r'^    /// ?', '', lines, flags=re.M).strip().split('\n\n')
        yield name, [begun(' '.join(part.split())).removesuffix('.') for part in parts]


def begun(sentence):
    """A sentence as a part of another one: a name in capitals stays."""
    return sentence if sentence[1:2].isupper() else sentence[0].lower() + sentence[1:]


def rows():
    """The table, in its order."""
    texts, codes, statuses = (equations(CRATE / 'specs' / f'{name}.antt') for name in ('Texts', 'Codes', 'Statuses'))
    words = tomllib.loads((CRATE / 'refusals.toml').read_text(encoding='utf-8'))
    code_of, status_of, said = dict(flattened(codes, 'code_of')), dict(flattened(statuses, 'status_of')), dict(docstrings())
    found = {}
    for path, value in flattened(texts, 'text_of'):
        text = shown(value)
        text = words.get(text, {}).get('as', text)
        row = found.setdefault(text, Row(text, int(code_of[path]), int(status_of[path[:1]])))
        if (row.code, row.status) != (int(code_of[path]), int(status_of[path[:1]])):
            sys.exit(f'refusal_table.py: {text}: two codes, or two statuses')
        row.variants.append('.'.join(path))
        if len(path) == 1 and len(said[path[0]]) == 2 and not row.means:
            row.means, row.advice = said[path[0]]
    codes_seen = [row.code for row in found.values()]
    if len(set(codes_seen)) < len(codes_seen):
        sys.exit('refusal_table.py: two texts with one code')
    table = []
    for text, own in words.items():
        if 'as' in own:
            continue
        # a row for one number of a text
        row = found.pop(text, None) or Row(text, *next((one.code, one.status) for one in table_of(found, table) if one.text == re.sub(r'\d+$', 'N', text)))
        row.c, row.library, row.page = own.get('c', ''), own.get('library', ''), own.get('page', '')
        row.means, row.advice = own.get('means', row.means), own.get('advice', row.advice)
        row.of = [(command, one['means'], one['advice']) for one in own.get('of', []) for command in one['commands']]
        table.append(row)
    if found:
        sys.exit(f'refusal_table.py: {CRATE / "refusals.toml"} lacks {", ".join(found)}')
    return table


def table_of(found, table):
    return [*found.values(), *table]


def of_program(table):
    """The rows that the program tells."""
    alone = {'SAVE_FIRST', 'BROKEN', 'WRONG_LENGTH', 'NO_TIME'}
    return [row for row in table if row.text not in UNTOLD and row.c not in alone]


def of_library(table):
    """The rows that a call of the library answers, by their codes, which count from 1 on."""
    found = sorted((row for row in table if row.c), key=lambda row: row.code)
    if [row.code for row in found] != list(range(1, len(found) + 1)):
        sys.exit('refusal_table.py: the codes of the library are not 1, 2, ..')
    return found


# ---- what is made

def lines_of(row):
    """What a row means and what to do about it, of each command that has words of its own, and of all others, ''."""
    return [*row.of, ('', row.means, row.advice)]


def python_rows(table):
    """FAULTS of the package."""
    yield 'FAULTS = ['
    for row in of_program(table):
        for command, means, advice in lines_of(row):
            yield f'    ({row.text!r}, {command!r},\n     {means!r},\n     {advice!r}),'
    yield ']'
    yield '# the code of each, which is that of gbkeep.h where a call of the library answers it'
    yield 'CODES = {'
    for row in table:
        if row.variants and row.text not in UNTOLD:
            yield f'    {row.text!r}: {row.code},'
    yield '}'


def page_of_commands(table):
    """The table of COMMANDS."""
    yield '| Line after `gbkeep: ` | Means | What to do |'
    yield '|---|---|---|'
    for row in of_program(table):
        for command, means, advice in lines_of(row):
            of = f', of `{command}`' if command else ''
            yield f'| `{row.text}`{of} | {means} | {advice} |'


def page_of_refusals(table):
    """The table of REFUSALS."""
    yield '| Text | Rows of `Refusal` | Status | Code | In C |'
    yield '|---|---|---|---|---|'
    for row in table:
        if row.variants:
            named = ', '.join(f'`{one}`' for one in row.variants)
            yield f'| `{row.text}` | {named} | {row.status} | {row.code} | {f"`GBKEEP_{row.c}`" if row.c else ""} |'


def header(table):
    """The codes of gbkeep.h."""
    yield '/* What a call answers. The lines of `gbkeep`, the program, with the same words have the same meaning. */'
    yield 'enum {'
    names = ['DONE', *(row.c for row in of_library(table))]
    yield ',\n'.join(f'    GBKEEP_{name} = {code}' for code, name in enumerate(names))
    yield '};'


def words_of(row):
    """What gbkeep_fault_text says of a code."""
    return f'{row.short()}: {row.library or row.means}'.replace('`', '')


def library_texts(table):
    """gbkeep_faults.h."""
    yield '/* Made by scripts/refusal_table.py. */'
    yield 'static const char *const TEXTS[] = {'
    for text in ['done', *map(words_of, of_library(table))]:
        yield f'    {json.dumps(text)},'
    yield '};'


def page_rows(table):
    """faults.js: line, meaning and advice of each code, from 0 on."""
    yield '// Made by scripts/refusal_table.py: line, meaning and advice of each code.'
    yield 'export const FAULTS = ['
    for text, advice in [('done: ', ''), *((words_of(row), row.page or row.advice) for row in of_library(table))]:
        line, _, means = text.partition(': ')
        yield f'  {json.dumps([line, means, advice.replace("`", "")])},'
    yield '];'


# each file with what begins and ends a line that says so, and what is made between these; or, without them, the whole file
MADE = [
    ('python/gbkeep/faults.py', ('# ', ''), python_rows),
    ('docs/COMMANDS.md', ('<!-- ', ' -->'), page_of_commands),
    ('docs/REFUSALS.md', ('<!-- ', ' -->'), page_of_refusals),
    ('library/gbkeep.h', ('/* ', ' */'), header),
    ('library/gbkeep_faults.h', None, library_texts),
    ('web/page/faults.js', None, page_rows),
]


def as_made(path, marks, made):
    """The file as it is to be."""
    text = '\n'.join(made) + '\n'
    if marks is None:
        return text
    begin, end = (f'{marks[0]}{mark}{marks[1]}\n' for mark in (BEGIN, END))
    old = Path(path).read_text(encoding='utf-8')
    if old.count(begin) != 1 or old.count(end) != 1:
        sys.exit(f'refusal_table.py: {path} has no place for what is made')
    return old[:old.index(begin) + len(begin)] + text + old[old.index(end):]


def main():
    is_check = sys.argv[1:] == ['--check']
    if sys.argv[1:] and not is_check:
        print(__doc__, file=sys.stderr)
        return 2
    table = rows()
    other = []
    for path, marks, maker in MADE:
        made = as_made(path, marks, maker(table))
        if not Path(path).exists() or Path(path).read_text(encoding='utf-8') != made:
            other.append(path)
            if not is_check:
                Path(path).write_text(made, encoding='utf-8')
    if is_check and other:
        print(f'refusal_table.py: not as made: {", ".join(other)}; `make refusals` makes them', file=sys.stderr)
        return 1
    print(f'refusals: {len(table)} rows, {len(of_library(table))} codes of the library, {len(MADE)} tables' + (f': {", ".join(other)}' if other else ''))
    return 0


if __name__ == '__main__':
    sys.exit(main())
