"""Prints the definitions that a reader has to believe for the main theorem: the files of specs/ that the contract of `whole_lives::live` cites, and
those that these import, each after those that it stands on, with its lines.

usage: definitions.py [CRATE FUNCTION]    at the top of the repository; another function's
       definitions.py lines               with what the lines of a round ask for
       definitions.py public              finds each public function whose contract cites what only the code needs, and fails if there is one

Of the toolchain's own definitions none is listed. A name that a contract cites is found by its file's `ghost use`."""
import re
import sys
from pathlib import Path

HEADLINE = ('whole_lives', 'live')
# what the program's player asks for
LINES = ('whole_lives', 'Lines')
ONLY_THE_CODE = 'what only the code needs'


def files():
    """Each module of specs/, as (crate, module), with its path."""
    return {(path.parts[1], path.stem): path for path in sorted(Path('crates').glob('*/specs/*.antt')) if path.stem != 'Lib'}


def imports(text, at):
    """The modules of specs/ that a text imports names of, with the names."""
    found = {}
    for crate, module, names in re.findall(at + r' Rattle\.(\w+)\.specs\.(\w+)\.\{([^}]*)\}', text):
        found.setdefault((crate, module), set()).update(name.split(' as ')[-1].strip() for name in names.split(','))
    for crate, module, name in re.findall(at + r' Rattle\.(\w+)\.specs\.(\w+) as (\w+)', text):
        found.setdefault((crate, module), set()).add(name)
    return found


def cited(crate, function):
    """The modules that the contract of a function cites."""
    for path in sorted((Path('crates') / crate / 'src').rglob('*.rt')):
        text = path.read_text()
        contract = re.search(r'^ *pub fn %s\b(.*?)^ *\{' % function, text, re.S | re.M)
        if contract:
            words = set(re.findall(r'[\w⟨⟩◌]+', contract[1]))
            return [module for module, names in imports(text, 'ghost use').items() if names & words]
    sys.exit(f'definitions.py: no public function {function} in {crate}')


def closure(modules, known):
    """These and all that they import, each after those that it imports."""
    order = []

    def add(module):
        if module in known and module not in order and module not in around:
            around.append(module)
            for other in imports(known[module].read_text(), 'use'):
                add(other)
            order.append(module)
    around = []
    for module in modules:
        add(module)
    return order


def only_the_code(known):
    """The modules that a crate's Lib.antt lists as what only the code needs."""
    found = set()
    for path in Path('crates').glob('*/specs/Lib.antt'):
        text = path.read_text()
        if ONLY_THE_CODE in text:
            found |= {(path.parts[1], name) for name in re.findall(r'pub mod (\w+)', text.split(ONLY_THE_CODE)[1])}
    return found & set(known)


def public_functions():
    """Each public function, as (path, name), with the modules of specs/ that its contract cites."""
    for path in sorted(Path('crates').glob('*/src/**/*.rt')):
        text = path.read_text()
        used = imports(text, 'ghost use')
        for name, contract in re.findall(r'^ *pub fn (\w+)(.*?)^ *\{', text, re.S | re.M):
            words = set(re.findall(r'[\w⟨⟩◌]+', contract))
            yield path, name, [module for module, names in used.items() if names & words]


def check_public(known):
    """Prints each public function whose contract stands on what only the code needs; whether there is one."""
    below, found = only_the_code(known), False
    for path, name, modules in public_functions():
        for module in [module for module in closure(modules, known) if module in below]:
            print(f'{path}: {name} stands on {known[module]}')
            found = True
    return found


def main():
    known = files()
    if sys.argv[1:] == ['public']:
        sys.exit(check_public(known))
    order = closure(cited(*(sys.argv[1:3] if len(sys.argv) == 3 else HEADLINE)) + ([LINES] if sys.argv[1:] == ['lines'] else []), known)
    lines = {module: len(known[module].read_text().splitlines()) for module in order}
    for module in order:
        print(f'{lines[module]:5} {known[module]}')
    print(f'{len(order)} of {len(known)} files, {sum(lines.values()):,} lines, {len(set(order) & only_the_code(known))} of them only for the code')


if __name__ == '__main__':
    main()
