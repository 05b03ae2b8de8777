"""Variables of C with their types, from a .cdb of sdcc: where they lie, and what the bytes there mean.

A global or a static variable lies at its address. Of one that is on the stack or in a register the file says where it is between two instructions that the
compiler does not name, so that its place is not known here."""
import re
import struct
from collections.abc import Iterator
from dataclasses import dataclass, field
from typing import Callable, Optional

from .input_files import PathLike, WrongInput, printable, read_bytes
from .symbols import MOST_LABEL, MOST_SYMBOLS, is_seen, of_bank

SYMBOL = re.compile(r'S:(G|F[^$]{1,%d}|L[^$]{1,%d})\$([^$]{1,%d})\$([^$(]{1,32}\$[^$(]{1,32})\((\{[0-9]{1,6}\}[^)]{1,400})\),([A-Z]),([01]),(-?[0-9]{1,6})' % (
    MOST_LABEL, MOST_LABEL, MOST_LABEL))
LINKED = re.compile(r'L:(X?)(G|F[^$]{1,%d}|L[^$]{1,%d})\$([^$]{1,%d})\$([^$:]{1,32}\$[^$:]{1,32}):([0-9a-fA-F]{1,6})' % (MOST_LABEL, MOST_LABEL, MOST_LABEL))
STRUCT = re.compile(r'T:F[^$]{1,%d}\$([^\[]{1,%d})\[(.*)\]' % (MOST_LABEL, MOST_LABEL))
FIELD = re.compile(r'\(\{([0-9]{1,6})\}S:S\$([^$]{1,%d})\$[^(]{1,64}\((\{[0-9]{1,6}\}[^)]{1,400})\)[^()]{0,40}\)' % MOST_LABEL)
TYPE = re.compile(r'\{([0-9]{1,6})\}([^:]{1,300})(?::([SU]))?')
NUMBERS = {'SC': ('char', 1), 'SS': ('short', 2), 'SI': ('int', 2), 'SL': ('long', 4), 'SX': ('bit', 1)}
# types within types, and what is shown of one value
MOST_DEPTH, MOST_ELEMENTS, MOST_TEXT = 8, 256, 64
NOT_AVAILABLE = 'not available'
Memory = Callable[[int, int], bytes]


@dataclass(frozen=True)
class Type:
    """A type of C: a number, a pointer, an array, a struct, or what has no value, as a function."""
    kind: str
    name: str
    size: int
    is_signed: bool = False
    target: Optional['Type'] = None
    count: int = 0
    # of a bit field: its lowest bit, and how many they are
    bits: tuple[int, int] = (0, 0)


@dataclass(frozen=True)
class Variable:
    """A variable with its place, if it is known."""
    name: str
    type: Type
    bank: int = 0
    address: Optional[int] = None


@dataclass
class Function:
    name: str
    bank: int
    first: int
    last: int
    file: str
    variables: list[Variable] = field(default_factory=list)


@dataclass
class Variables:
    """What a .cdb says of variables, functions and structs."""
    path: Optional[PathLike] = None
    named: dict[str, Variable] = field(default_factory=dict)
    functions: list[Function] = field(default_factory=list)
    structs: dict[str, list[tuple[int, str, str]]] = field(default_factory=dict)

    @classmethod
    def read(cls, path: PathLike) -> 'Variables':
        """Raises WrongInput where the file can't be read."""
        known = cls(path)
        symbols, places, ends = [], {}, {}
        for line in read_bytes(path, MOST_SYMBOLS).decode(errors='replace').splitlines():
            line = line.strip()
            if found := SYMBOL.match(line):
                symbols.append(found.groups())
            elif found := LINKED.fullmatch(line):
                (ends if found[1] else places)[found[2], found[3], found[4]] = of_bank(found[5])
            elif found := STRUCT.fullmatch(line):
                known.structs[found[1]] = [(int(offset), name, text) for offset, name, text in FIELD.findall(found[2])]
        known.add(symbols, places, ends)
        return known

    def add(self, symbols: list[tuple], places: dict, ends: dict) -> None:
        functions = {}
        for scope, name, level, text, *_ in symbols:
            place = places.get((scope, name, level))
            if scope[0] != 'L' and ',' in text and text.split('}')[1].startswith('DF') and place:
                last = ends.get((scope, name, level), (place[0], place[1]))
                function = Function(name, *place, last[1], scope[1:])
                self.functions.append(function)
                functions[scope[1:], name] = functions['', name] = function
        for scope, name, level, text, *_ in symbols:
            kind = self.type_of(text)
            if kind is None or kind.kind == 'function':
                continue
            bank, address = places.get((scope, name, level), (0, None))
            one = Variable(name, kind, bank, address)
            if scope[0] == 'L':
                file, _, function = scope[1:].rpartition('.')
                of = functions.get((file, function)) or functions.get(('', function))
                if of:
                    of.variables.append(one)
            elif address is not None:
                self.named.setdefault(name, one)

    def function_at(self, address: int, bank: Optional[int]) -> Optional[Function]:
        return next((one for one in self.functions if one.first <= address <= one.last and is_seen(one.bank, address, bank)), None)

    def variable(self, name: str, function: Optional[Function]) -> Optional[Variable]:
        """A variable by its name, as it is seen in a function."""
        own = next((one for one in function.variables if one.name == name), None) if function else None
        return own or self.named.get(name)

    # ---- types

    def type_of(self, text: str) -> Optional[Type]:
        """The type of what stands behind a symbol; None where it is not understood."""
        found = TYPE.fullmatch(text)
        if not found or found[2].count(',') >= MOST_DEPTH:
            return None
        return self.chain(found[2].split(','), int(found[1]), found[3] != 'U')

    def chain(self, parts: list[str], size: int, is_signed: bool) -> Optional[Type]:
        first, rest = parts[0], parts[1:]
        if first.startswith('D'):
            target = self.chain(rest, 0, is_signed) if rest else None
            if first.startswith('DF'):
                return Type('function', f'{target.name if target else "void"}()', 0)
            if count := re.fullmatch('DA([0-9]{1,6})d?', first):
                return target and Type('array', array_name(target.name, int(count[1])), int(count[1]) * target.size, target=target, count=int(count[1]))
            return target and Type('pointer', f'{target.name} *'.replace('* *', '**'), 2, target=target)
        if first.startswith('ST'):
            return Type('struct', f'struct {first[2:]}', size or self.size_of(first[2:]))
        if first.startswith('SV'):
            return Type('void', 'void', 0)
        if first.startswith('SF'):
            return Type('float', 'float', 4)
        if bits := re.fullmatch(r'SB([0-9]{1,2})\$([0-9]{1,2})', first):
            return Type('number', f'unsigned : {bits[2]}', (int(bits[1]) + int(bits[2]) + 7) // 8 or 1, bits=(int(bits[1]), int(bits[2])))
        if first[:2] not in NUMBERS:
            return None
        name, width = NUMBERS[first[:2]]
        return Type('number', name if is_signed else f'unsigned {name}', width, is_signed)

    def size_of(self, name: str, depth: int = 0) -> int:
        sizes = [offset + (int(found[1]) if (found := TYPE.match(text)) else 0) for offset, _, text in self.structs.get(name, [])]
        return max(sizes, default=0)

    def fields(self, kind: Type) -> list[tuple[int, str, Type]]:
        """The fields of a struct, with their offsets."""
        found = [(offset, name, self.type_of(text)) for offset, name, text in self.structs.get(kind.name[len('struct '):], [])] if kind.kind == 'struct' else []
        return [one for one in found if one[2]]

    def parts(self, kind: Type, address: int, memory: Memory) -> Iterator[tuple[str, Type, int]]:
        """What a value is made of: elements, fields, or what a pointer leads to."""
        if kind.kind == 'array':
            for at in range(min(kind.count, MOST_ELEMENTS)):
                yield f'[{at}]', kind.target, address + at * kind.target.size & 0xffff
        elif kind.kind == 'struct':
            for offset, name, of in self.fields(kind):
                yield name, of, address + offset & 0xffff
        elif kind.kind == 'pointer' and kind.target.size:
            yield '*', kind.target, int.from_bytes(memory(address, 2), 'little')

    # ---- values

    def number(self, kind: Type, address: int, memory: Memory) -> Optional[int]:
        """A number or a pointer as it is in memory; None of what is neither. An array stands for its address, as in C."""
        if kind.kind == 'array':
            return address
        if kind.kind not in ('number', 'pointer') or not 1 <= kind.size <= 8:
            return None
        value = int.from_bytes(memory(address, kind.size), 'little', signed=kind.is_signed)
        return value >> kind.bits[0] & (1 << kind.bits[1]) - 1 if kind.bits[1] else value

    def shown(self, kind: Type, address: int, memory: Memory, depth: int = 0) -> str:
        """A value as it is shown in one line."""
        if kind.kind == 'array' and kind.target.name in ('char', 'unsigned char') and 1 < kind.count <= MOST_TEXT:
            data = memory(address, kind.count)
            text = data.partition(b'\0')[0]
            values = ', '.join(str(one) for one in data)
            return f'"{text.decode()}"' if text and all(32 <= one < 127 for one in text) and len(text) < kind.count else f'{{{values}}}'
        if kind.kind in ('array', 'struct'):
            if depth >= 2:
                return '{..}'
            parts = [(name, self.shown(of, at, memory, depth + 1)) for _, (name, of, at) in zip(range(17), self.parts(kind, address, memory))]
            texts = [text if kind.kind == 'array' else f'{name} = {text}' for name, text in parts]
            return '{' + ', '.join(texts[:16] + (['..'] if len(texts) > 16 else [])) + '}'
        if kind.kind == 'float':
            return f'{struct.unpack("<f", memory(address, 4))[0]:g}'
        value = self.number(kind, address, memory)
        if value is None:
            return NOT_AVAILABLE
        if kind.kind == 'pointer':
            return f'${value:04X}'
        return f"{value} '{chr(value)}'" if kind.name == 'char' and 32 <= value < 127 else str(value)


def array_name(target: str, count: int) -> str:
    """`unsigned char [8]`, with the outer count first."""
    base, bracket, rest = target.partition('[')
    return f'{base.rstrip()} [{count}]{bracket}{rest}'


def found_variables(path: Optional[PathLike]) -> Variables:
    """The variables of a .cdb; none where there is no such file, or it can't be read."""
    try:
        return Variables.read(path) if path and str(path).endswith('.cdb') else Variables()
    except WrongInput as wrong:
        return Variables(printable(wrong))
