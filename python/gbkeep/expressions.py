"""Expressions over registers, memory, labels and variables of C, as conditions and watches have them.

    A == 0 && [wLives] < 3          a register, the byte at a label, numbers
    HL >= $C000 || word[SP] == 0    hexadecimal by $ or 0x; the word at an address
    player.x + trail[2] != *next    variables of C, by their types

Operators are those of C but assignment, with C's precedence. A label is its address, a variable of C its value, and a hardware register such as LY, too."""
import operator
import re
from collections.abc import Callable
from dataclasses import dataclass
from typing import Optional, Protocol

from .c_variables import NOT_AVAILABLE, Type, Variable, Variables
from .debug_program import BYTE_REGISTERS, WORD_REGISTERS, Registers, Wrong
from .hardware_registers import ADDRESSES
from .symbols import quoted

MOST_TEXT, MOST_DEPTH = 1000, 40
TOKEN = re.compile(r'\s*(0[xX][0-9a-fA-F]+|\$[0-9a-fA-F]+|[0-9]+|[A-Za-z_.][A-Za-z_0-9.@#]*|->|<<|>>|<=|>=|==|!=|&&|\|\||[-+*/%&|^~!<>()\[\].])')
REGISTERS = (*BYTE_REGISTERS, *WORD_REGISTERS, 'IME')
BINARY = {'||': 1, '&&': 2, '|': 3, '^': 4, '&': 5, '==': 6, '!=': 6, '<': 7, '<=': 7, '>': 7, '>=': 7, '<<': 8, '>>': 8, '+': 9, '-': 9, '*': 10, '/': 10,
          '%': 10}
SUMS = {'|': operator.or_, '^': operator.xor, '&': operator.and_, '==': operator.eq, '!=': operator.ne, '<': operator.lt, '<=': operator.le, '>': operator.gt,
        '>=': operator.ge, '+': operator.add, '-': operator.sub, '*': operator.mul}


class Context(Protocol):
    """What an expression is about: a machine as it is now, and names."""
    variables: Variables

    def registers(self) -> Registers: ...

    def memory(self, address: int, count: int) -> bytes: ...

    def label(self, name: str) -> Optional[int]: ...

    def variable(self, name: str) -> Optional[Variable]: ...


@dataclass(frozen=True)
class Value:
    """A number, or what lies at an address with a type of C."""
    number: Optional[int]
    type: Optional[Type] = None
    address: Optional[int] = None
    text: str = ''


Read = Callable[[Context], Value]


def number_of(value: Value) -> int:
    if value.number is None:
        raise Wrong(f'a value of the type {quoted(value.type.name)} is no number' if value.type else 'this has no value')
    return value.number


def value_at(context: Context, kind: Type, address: int) -> Value:
    """What lies there."""
    address &= 0xffff
    return Value(context.variables.number(kind, address, context.memory), kind, address, context.variables.shown(kind, address, context.memory))


def byte_at(context: Context, address: int, count: int = 1) -> Value:
    address &= 0xffff
    return Value(int.from_bytes(context.memory(address, count), 'little'), address=address)


def named(context: Context, name: str) -> Value:
    """What a name stands for."""
    base, dot, rest = name.partition('.')
    for one in dict.fromkeys((name, base)):
        variable = context.variable(one)
        if variable:
            if variable.address is None:
                raise Wrong(f'{quoted(one)} is {NOT_AVAILABLE}: the compiler does not say where it is at each place')
            found = value_at(context, variable.type, variable.address)
            for part in name[len(one):].split('.')[1:]:
                found = field_of(context, found, part)
            return found
    address = context.label(name)
    if address is not None:
        return Value(address)
    if name in REGISTERS:
        return Value(context.registers().value(name))
    if name.upper() in ADDRESSES:
        return byte_at(context, ADDRESSES[name.upper()])
    if name.upper() in REGISTERS:
        return Value(context.registers().value(name.upper()))
    raise Wrong(f'{quoted(name)} is no register, no label and no variable' + (f': write ${name}' if re.fullmatch('[0-9A-Fa-f]{2,4}', name) else ''))


def field_of(context: Context, value: Value, name: str) -> Value:
    if value.type and value.type.kind == 'struct' and value.address is not None:
        for offset, known, kind in context.variables.fields(value.type):
            if known == name:
                return value_at(context, kind, value.address + offset)
    raise Wrong(f'there is no field {quoted(name)}')


def led_to(context: Context, value: Value) -> Value:
    """What a pointer leads to."""
    if value.type and value.type.kind in ('pointer', 'array') and value.type.target.size:
        return value_at(context, value.type.target, number_of(value))
    return byte_at(context, number_of(value))


class Parser:
    """Reads an expression."""

    def __init__(self, text: str):
        if len(text) > MOST_TEXT:
            raise Wrong(f'an expression has more than {MOST_TEXT:,} characters')
        self.tokens, at = [], 0
        text = text.rstrip()
        while at < len(text):
            found = TOKEN.match(text, at)
            if not found:
                raise Wrong(f'{quoted(text[at:at + 20].strip())} is not understood')
            self.tokens.append(found[1])
            at = found.end()
        self.at = self.depth = 0

    def next(self) -> str:
        return self.tokens[self.at] if self.at < len(self.tokens) else ''

    def take(self) -> str:
        self.at += 1
        return self.tokens[self.at - 1] if self.at <= len(self.tokens) else ''

    def wants(self, token: str) -> None:
        if self.take() != token:
            raise Wrong(f'{quoted(token)} is missing')

    def whole(self) -> Read:
        if not self.tokens:
            raise Wrong('there is no expression')
        read = self.binary(1)
        if self.next():
            raise Wrong(f'{quoted(self.next())} stands where nothing may follow')
        return read

    def binary(self, least: int) -> Read:
        self.depth += 1
        if self.depth > MOST_DEPTH:
            raise Wrong('an expression is too deep')
        left = self.unary()
        while BINARY.get(self.next(), 0) >= least:
            sign = self.take()
            left = joined(sign, left, self.binary(BINARY[sign] + 1))
        self.depth -= 1
        return left

    def unary(self) -> Read:
        self.depth += 1
        if self.depth > MOST_DEPTH:
            raise Wrong('an expression is too deep')
        sign = self.next()
        if sign in ('-', '+', '~', '!', '*', '&'):
            self.take()
            read = of_sign(sign, self.unary())
        else:
            read = self.behind(self.first())
        self.depth -= 1
        return read

    def first(self) -> Read:
        token = self.take()
        if token == '(':
            read = self.binary(1)
            self.wants(')')
            return read
        if token == '[':
            inner = self.binary(1)
            self.wants(']')
            return lambda context: byte_at(context, number_of(inner(context)))
        if token in ('word', 'byte') and self.next() == '[':
            self.take()
            inner, count = self.binary(1), 2 if token == 'word' else 1
            self.wants(']')
            return lambda context: byte_at(context, number_of(inner(context)), count)
        if token[:1].isdigit() or token.startswith('$'):
            number = int(token.lstrip('$'), 16) if token.startswith(('$', '0x', '0X')) else int(token)
            return lambda context: Value(number)
        if re.fullmatch(r'[A-Za-z_.][A-Za-z_0-9.@#]*', token) and token != '.':
            return lambda context: named(context, token)
        raise Wrong(f'{quoted(token)} stands where a value is wanted' if token else 'a value is missing at the end')

    def behind(self, read: Read) -> Read:
        while self.next() in ('[', '->', '.') or self.next().startswith('.') and len(self.next()) > 1:
            token = self.take()
            if token == '[':
                read = element(read, self.binary(1))
                self.wants(']')
                continue
            names = (self.take() if token in ('->', '.') else token[1:]).split('.')
            if token == '->':
                read = through(read)
            for name in names:
                read = of_field(read, name)
        return read


def element(read: Read, index: Read) -> Read:
    def found(context: Context) -> Value:
        value, at = read(context), number_of(index(context))
        if value.type and value.type.kind in ('array', 'pointer'):
            return value_at(context, value.type.target, number_of(value) + at * value.type.target.size)
        return byte_at(context, number_of(value) + at)
    return found


def through(read: Read) -> Read:
    return lambda context: led_to(context, read(context))


def of_field(read: Read, name: str) -> Read:
    return lambda context: field_of(context, read(context), name)


def of_sign(sign: str, read: Read) -> Read:
    if sign == '*':
        return through(read)

    def found(context: Context) -> Value:
        value = read(context)
        if sign == '&':
            if value.address is None:
                raise Wrong('this has no address')
            return Value(value.address)
        number = number_of(value)
        return Value({'-': -number, '+': number, '~': ~number, '!': int(not number)}[sign])
    return found


def joined(sign: str, left: Read, right: Read) -> Read:
    def found(context: Context) -> Value:
        one = number_of(left(context))
        if sign in ('&&', '||') and bool(one) == (sign == '||'):
            return Value(int(bool(one)))
        other = number_of(right(context))
        if sign in ('&&', '||'):
            return Value(int(bool(other)))
        if sign in SUMS:
            number = int(SUMS[sign](one, other))
        elif sign in ('/', '%'):
            if other == 0:
                raise Wrong('this divides by 0')
            quotient = abs(one) // abs(other) * (1 if (one < 0) == (other < 0) else -1)
            number = quotient if sign == '/' else one - other * quotient
        else:
            if not 0 <= other < 64:
                raise Wrong(f'{other} is no number of bits')
            number = one << other if sign == '<<' else one >> other
        # no number grows without end
        return Value((number + (1 << 63)) % (1 << 64) - (1 << 63))
    return found


@dataclass(frozen=True)
class Expression:
    """An expression that was read."""
    text: str
    read: Read

    @classmethod
    def of(cls, text: str) -> 'Expression':
        return cls(text.strip(), Parser(text).whole())

    def value(self, context: Context) -> Value:
        return self.read(context)

    def holds(self, context: Context) -> bool:
        return number_of(self.value(context)) != 0
