"""Labels and lines of a cartridge's source, from the files that assemblers and linkers write beside it.

Labels: RGBDS' and wla-dx's `.sym`, sdcc's `.noi` and `.map`. Lines: sdcc's `.cdb`, of C, and wla-dx's `.sym`, of assembler. A file is known by what is in
it, and not by its name."""
import bisect
import contextlib
import difflib
import re
from collections.abc import Collection, Iterable, Iterator
from dataclasses import dataclass, field
from pathlib import Path
from typing import Optional

from .input_files import PathLike, WrongInput, printable, read_bytes

# what is tried beside a cartridge, the first one that has labels
SUFFIXES = ('.sym', '.noi', '.map')
# the files of a large game have 2 MiB
MOST_SYMBOLS, MOST_SOURCE, MOST_LABEL, MOST_COMPARED = 1 << 23, 1 << 20, 256, 100_000
# the part of ROM whose bank a cartridge switches
SWITCHED = range(0x4000, 0x8000)

RGBDS = re.compile(r'([0-9a-fA-F]{1,4}):([0-9a-fA-F]{4})\s+(\S{1,%d})' % MOST_LABEL)
NOI = re.compile(r'DEF\s+(\S{1,%d})\s+0x([0-9a-fA-F]{1,6})' % MOST_LABEL)
MAP = re.compile(r'\s+([0-9a-fA-F]{4,8})\s+(\S{1,%d})(?:\s+\S+)?\s*' % MOST_LABEL)
MAP_HEAD = re.compile(r'ASxxxx Linker|\bGlobal\s+Global Defined In Module\b')
# what `--debug` of sdcc adds for each symbol of C: its scope (G, F and a file, L and a file and a function), its name, and its level and block
OF_C = re.compile(r'(G|F|L)([^$]{0,%d})\$([^$]{1,%d})\$[^$]{1,32}\$[^$]{1,32}' % (MOST_LABEL, MOST_LABEL))
# wla-dx: the number of a source with its name, and a line of a source at a place; of other versions, where a line has no place in the ROM, nothing is known
WLA_FILE = re.compile(r'([0-9a-fA-F]{1,8}(?::[0-9a-fA-F]{1,8})?)\s+(?:[0-9a-fA-F]{8}\s+)?(\S.{0,%d})' % MOST_LABEL)
WLA_LINE = re.compile(r'(?:[0-9a-fA-F]{8}\s+)?([0-9a-fA-F]{1,4}):([0-9a-fA-F]{4})\s+(?:[0-9a-fA-F]{4}\s+)?'
                      r'([0-9a-fA-F]{1,8}(?::[0-9a-fA-F]{1,8})?):([0-9a-fA-F]{1,8})')
# where memory begins that a label of one part does not reach out of
PARTS = (0, 0x4000, 0x8000, 0xa000, 0xc000, 0xe000, 0xfe00, 0xff00, 0xff80)
# C$FILE$LINE$LEVEL$BLOCK, and its address
CDB = re.compile(r'L:C\$([^$]{1,%d})\$([0-9]{1,7})\$[^:]{0,64}:([0-9a-fA-F]{1,6})' % MOST_LABEL)


def quoted(word: object) -> str:
    return f"'{printable(word)}'"


def like(word: str, names: Collection[str]) -> str:
    """The name that a wrong word may mean."""
    # the comparison takes the square of a length
    near = difflib.get_close_matches(word, names, 1) if len(word) <= MOST_LABEL and len(names) <= MOST_COMPARED else []
    return f' (there is {near[0]})' if near else ''


def of_bank(digits: str) -> tuple[int, int]:
    """Bank and address of a number of sdcc's, whose upper part is the bank."""
    number = int(digits, 16)
    return number >> 16, number & 0xffff


def labels_of_sym(lines: list[str]) -> Iterator[tuple[int, int, str]]:
    """RGBDS' lines, and wla-dx's in its section of labels."""
    section = '[labels]'
    for line in lines:
        line = line.partition(';')[0].strip()
        if line.startswith('['):
            section = line.lower()
        elif section == '[labels]' and (found := RGBDS.fullmatch(line)):
            yield int(found[1], 16), int(found[2], 16), found[3]


def is_own(name: str) -> bool:
    """Not what the linker adds of its own: where an area begins, how long it is, and what stands for absolute places."""
    return not name.startswith(('l__', 's__', '.__.'))


def name_in_c(name: str) -> Optional[str]:
    """What C calls a symbol of sdcc's `--debug`: a function, a variable, or a variable of a function. None where it is none of these, as a line."""
    found = OF_C.fullmatch(name)
    if not found:
        return None
    scope, where, own = found.groups()
    return f'{where.rpartition(".")[2]}.{own}' if scope == 'L' else own if scope == 'F' or not where else None


def as_in_c(found: Iterable[tuple[int, int, str]]) -> Iterator[tuple[int, int, str]]:
    """sdcc's labels by their names in C, where `--debug` told them; what else it adds, as a label for each line and each instruction, is left out."""
    labels = [one for one in found if is_own(one[2])]
    in_c = [(bank, address, known) for bank, address, name in labels if '$' in name and (known := name_in_c(name))]
    # the assembler's label of the same place
    assembled = {(bank, address, f'_{name}') for bank, address, name in in_c}
    seen = set()
    for one in in_c + [one for one in labels if '$' not in one[2] and one not in assembled]:
        if one not in seen:
            seen.add(one)
            yield one


def labels_of_noi(lines: list[str]) -> Iterator[tuple[int, int, str]]:
    return as_in_c((*of_bank(found[2]), found[1]) for line in lines if (found := NOI.fullmatch(line.strip())))


def labels_of_map(lines: list[str]) -> Iterator[tuple[int, int, str]]:
    return as_in_c((*of_bank(found[1][-6:]), found[2]) for line in lines if (found := MAP.fullmatch(line)))


def labels_of(text: str) -> list[tuple[int, int, str]]:
    """Bank, address and name of each label in a file of one of the formats. Empty: it is none of them."""
    lines = text.splitlines()
    if any(NOI.fullmatch(line.strip()) for line in lines):
        found = labels_of_noi(lines)
    elif any(MAP_HEAD.search(line) for line in lines):
        found = labels_of_map(lines)
    else:
        found = labels_of_sym(lines)
    return [one for one in found if one[2].isprintable()]


@dataclass
class Labels:
    """The labels of a file: by their names, bank and address, and by their addresses, bank and name."""
    path: Optional[PathLike] = None
    named: dict[str, tuple[int, int]] = field(default_factory=dict)
    at: dict[int, list[tuple[int, str]]] = field(default_factory=dict)
    # the number of the line of the file that each stands on
    numbers: dict[str, int] = field(default_factory=dict)
    ordered: list[int] = field(default_factory=list)

    @classmethod
    def read(cls, path: PathLike) -> 'Labels':
        """Raises WrongInput where the file can't be read, or is none of the formats."""
        labels = cls(path)
        text = read_bytes(path, MOST_SYMBOLS).decode(errors='replace')
        for bank, address, name in labels_of(text):
            labels.named[name] = bank, address
            labels.at.setdefault(address, []).append((bank, name))
        for number, line in enumerate(text.splitlines(), 1):
            for word in re.split(r'[\s;]+', line):
                word = word if word in labels.named else name_in_c(word) if '$' in word else ''
                if word in labels.named:
                    labels.numbers.setdefault(word, number)
        if not labels.named:
            raise WrongInput(f'{printable(path)} has no labels: it is no .sym of RGBDS or wla-dx, and no .noi or .map of sdcc')
        return labels

    def place(self, name: str) -> Optional[tuple[int, int]]:
        """Bank and address of a label, also of C's by its name in assembler."""
        return self.named.get(name) or self.named.get(name[1:] if name.startswith('_') else '')

    def lines(self, address: int, bank: Optional[int] = None) -> list[str]:
        """The labels of an address, a line each, as they stand in a source; with the bank that is mapped there, its own alone."""
        return [f'{name}:' + (f' ; bank {of:02X}' if of > 1 else '') for of, name in self.at.get(address, []) if is_seen(of, address, bank)]

    def before(self, address: int, bank: Optional[int] = None) -> Optional[tuple[str, int]]:
        """The nearest label at an address or before it, in its part of the memory, and how far it lies before."""
        addresses = self.in_order()
        at = bisect.bisect_right(addresses, address) - 1
        while at >= 0 and part_of(addresses[at]) == part_of(address):
            names = [name for of, name in self.at[addresses[at]] if is_seen(of, addresses[at], bank)]
            if names:
                return names[0], address - addresses[at]
            at -= 1
        return None

    def in_order(self) -> list[int]:
        if len(self.ordered) != len(self.at):
            self.ordered = sorted(self.at)
        return self.ordered


def part_of(address: int) -> int:
    return bisect.bisect_right(PARTS, address)


def is_seen(of: int, address: int, bank: Optional[int]) -> bool:
    """Whether what has this bank is seen at an address while another one may be mapped there."""
    return bank is None or address not in SWITCHED or max(of, 1) == bank


@dataclass
class Source:
    """Which line of a source begins at an address, and the text of each line, from what lies beside the file that tells it."""
    path: Optional[PathLike] = None
    at: dict[int, list[tuple[int, str, int]]] = field(default_factory=dict)
    texts: dict[str, list[str]] = field(default_factory=dict)
    ordered: list[int] = field(default_factory=list)
    # where each line of each source begins: banks and addresses
    places: dict[tuple[str, int], list[tuple[int, int]]] = field(default_factory=dict)

    @classmethod
    def read(cls, path: PathLike) -> 'Source':
        source = cls(path)
        lines = read_bytes(path, MOST_SYMBOLS).decode(errors='replace').splitlines()
        for one in lines_of_cdb(lines) or lines_of_wla(lines):
            source.add(*one)
        if not source.at:
            raise WrongInput(f'{printable(path)} has no lines of C: it is no .cdb of sdcc')
        return source

    def add(self, bank: int, address: int, name: str, number: int) -> None:
        here = self.at.setdefault(address, [])
        if (bank, name, number) not in here:
            here.append((bank, name, number))
            self.places.setdefault((name, number), []).append((bank, address))

    def before(self, address: int, bank: Optional[int] = None) -> Optional[tuple[str, int, int]]:
        """The line of source that an address belongs to, and how far before it that line begins."""
        if len(self.ordered) != len(self.at):
            self.ordered = sorted(self.at)
        at = bisect.bisect_right(self.ordered, address) - 1
        while at >= 0 and part_of(self.ordered[at]) == part_of(address):
            lines = [(name, number) for of, name, number in self.at[self.ordered[at]] if is_seen(of, self.ordered[at], bank)]
            if lines:
                return *lines[-1], address - self.ordered[at]
            at -= 1
        return None

    def begins_at(self, name: str, number: int) -> list[tuple[int, int]]:
        """Bank and address of each place where a line begins, or the next one of its source that has code."""
        numbers = self.numbers_of(name)
        at = bisect.bisect_left(numbers, number)
        return self.places[name, numbers[at]] if at < len(numbers) else []

    def numbers_of(self, name: str) -> list[int]:
        """The numbers of the lines of a source that have code, in order."""
        return sorted(number for known, number in self.places if known == name)

    def names(self) -> list[str]:
        return sorted({name for name, _ in self.places})

    def known(self, path: str) -> Optional[str]:
        """The source that a path means, by its last name."""
        return next((name for name in self.names() if Path(name).name == Path(path).name), None)

    def text(self, name: str, number: int) -> str:
        """A line of a source that lies beside the .cdb, or in its folder `src`. Empty: there is none."""
        if name not in self.texts:
            self.texts[name] = self.lines_of(name)
        lines = self.texts[name]
        return printable(lines[number - 1].strip()) if 1 <= number <= len(lines) else ''

    def paths_of(self, name: str) -> list[Path]:
        """Where a source is looked for. Its name comes from the file, so it leads to no other folder."""
        folder = Path(self.path).parent
        return [folder / Path(name).name, folder / 'src' / Path(name).name]

    def lines_of(self, name: str) -> list[str]:
        for path in self.paths_of(name):
            try:
                return read_bytes(path, MOST_SOURCE).decode(errors='replace').splitlines()
            except WrongInput:
                continue
        return []

    def lines(self, address: int, bank: Optional[int] = None) -> list[str]:
        """The lines of source that begin at an address; with the bank that is mapped there, its own alone."""
        return [self.shown(name, number) + (f' ; bank {of:02X}' if of > 1 else '') for of, name, number in self.at.get(address, [])
                if is_seen(of, address, bank)]

    def shown(self, name: str, number: int) -> str:
        """A line of source with its text."""
        return f'{printable(name)}:{number}' + (f': {text}' if (text := self.text(name, number)) else '')


def lines_of_cdb(lines: list[str]) -> list[tuple[int, int, str, int]]:
    """Bank, address, source and number of each line of C."""
    return [(*of_bank(found[3]), found[1], int(found[2])) for line in lines if (found := CDB.fullmatch(line.strip()))]


def lines_of_wla(lines: list[str]) -> list[tuple[int, int, str, int]]:
    """The same of a .sym of wla-dx that has them, as `wlalink -S -A` writes it."""
    section, files, found = '', {}, []
    for line in lines:
        line = line.partition(';')[0].strip()
        if line.startswith('['):
            section = line.lower()
        elif section.startswith('[source files') and (file := WLA_FILE.fullmatch(line)):
            files[file[1].lower()] = file[2]
        elif section.startswith('[addr-to-line mapping') and (at := WLA_LINE.fullmatch(line)):
            found.append((int(at[1], 16), int(at[2], 16), at[3].lower(), int(at[4], 16)))
    return [(bank, address, files[file], number) for bank, address, file, number in found if file in files]


def beside(cart: str, suffix: str) -> Optional[Path]:
    """A file beside a cartridge, if it is there."""
    try:
        path = Path(cart).with_suffix(suffix)
        return path if path.exists() else None
    except (ValueError, OSError):
        return None


def found_labels(cart: str, named: Optional[str]) -> tuple[Labels, list[str]]:
    """The labels of the file that is named, or of the first one beside the cartridge that has some, and what is to be warned of.

    Raises WrongInput where the file that is named can't be read."""
    warnings = []
    if named:
        read_bytes(named, MOST_SYMBOLS)
    for path in [named] if named else [beside(cart, suffix) for suffix in SUFFIXES]:
        if path:
            try:
                return Labels.read(path), warnings
            except WrongInput as wrong:
                warnings.append(str(wrong))
    return Labels(), warnings


def found_source(cart: str, labels: Optional[PathLike] = None) -> tuple[Source, list[str]]:
    """The lines of C of the .cdb file beside the cartridge, if there is one, or those that stand in the file of the labels, and what is to be warned of."""
    path = beside(cart, '.cdb')
    if not path:
        if labels:
            with contextlib.suppress(WrongInput):
                return Source.read(labels), []
        return Source(), []
    try:
        return Source.read(path), []
    except WrongInput as wrong:
        return Source(), [str(wrong)]
