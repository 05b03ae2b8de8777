"""Finds each lemma and each definition of proofs/ and specs/ that nothing uses, and fails if there is one: a name that neither its own file says
elsewhere, nor a file that imports of its module. Examples, which are there to be checked, and the laws that a library offers to any crate are not asked.

usage: unused_names.py    at the top of the repository"""
import re
import sys
from pathlib import Path

WORD = re.compile(r'[^\s(){}\[\],;.:=]+')
SAID = re.compile(r'^( *)(?:(?:pub|abbrev|unfoldable) )*([^\s:(){}=]+) :(?: |$)')
# what a line may begin with that goes on with what stands above it
GOES_ON = (']', ')', '}', 'where', 'unfolding', '→', '×', '⊎', '∙', '≡', '++')
# laws for any crate, which a library's own text names
OFFERED = {('exact_text', 'Writes'), ('repeated_steps', 'NextEvents')}


def texts(pattern):
    return {path: re.sub(r'--.*', '', path.read_text()) for path in sorted(Path('crates').glob(pattern)) if path.parts[2] != 'out'}


def importers(all_texts):
    """The files that import of each module, as (crate, kind, module)."""
    found = {}
    for path, text in all_texts.items():
        modules = re.findall(r'Rattle\.(\w+)\.(proofs|specs)\.(\w+)', text)
        modules += [(path.parts[1], kind, module) for kind, module in re.findall(r'crate::(proofs|specs)::(\w+)', text)]
        for module in modules:
            found.setdefault(module, set()).add(path)
    return found


def indent(line):
    return len(line) - len(line.lstrip())


def names(lines):
    """Each name that the lines declare, but for fields, with the first line of what is said of it and the one behind the last."""
    for at, line in enumerate(lines):
        said = SAID.match(line)
        if not said or is_field(lines, at):
            continue
        name, end = said[2], at + 1
        while end < len(lines) and goes_on(lines[end], indent(line), name):
            end += 1
        yield name, at, end


def goes_on(line, deep, name):
    words = line.strip()
    return not words or indent(line) > deep or WORD.findall(words)[:1] == [name] or words.startswith(GOES_ON)


def is_field(lines, at):
    """Whether a line stands in a record or in a type's list of variants."""
    above = at - 1
    while above >= 0 and (not lines[above].strip() or indent(lines[above]) >= indent(lines[at])):
        above -= 1
    return above >= 0 and re.match(r' *(?:pub )?(?:record|data) ', lines[above]) is not None


def main():
    if len(sys.argv) != 1:
        sys.exit(__doc__)
    theirs = texts('*/proofs/**/*.antt') | texts('*/specs/**/*.antt')
    all_texts = theirs | texts('*/src/**/*.rt')
    words = {path: set(WORD.findall(text)) for path, text in all_texts.items()}
    using, count, wrong = importers(all_texts), 0, []
    for path, text in theirs.items():
        if len(path.parts) != 4 or path.stem in ('Lib', 'Examples') or (path.parts[1], path.stem) in OFFERED:
            continue
        lines = text.split('\n')
        rows = [WORD.findall(line) for line in lines]
        others = using.get((path.parts[1], path.parts[2], path.stem), set()) - {path}
        for name, first, end in names(lines):
            count += 1
            is_said = any(name in row for row in rows[:first] + rows[end:])
            if not is_said and not any(name in words[other] for other in others):
                wrong.append(f'{path}:{first + 1}: nothing uses {name}')
    for line in wrong:
        print(line)
    if wrong:
        sys.exit(1)
    print(f'{count} names of proofs and definitions, each of them used')


if __name__ == '__main__':
    main()
