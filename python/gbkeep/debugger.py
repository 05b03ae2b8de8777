"""What the debugger's prompt and editors have in common: places by labels and lines of source, breakpoints and watches, and runs, forward and back."""
import re
from collections.abc import Callable, Iterable, Iterator
from dataclasses import dataclass
from typing import Optional

from .c_variables import Function, Variable, Variables, found_variables
from .debug_program import Access, Change, Debuggee, Opcode, Place, Program, Registers, Stop, Wrong
from .expressions import Expression, Value
from .input_files import MOST_CART, WrongInput, printable, read_bytes
from .symbols import MOST_LABEL, SWITCHED, Labels, Source, like, quoted
from .time_travel import Ended, Timeline

# as many words of the stack as a return address is looked for in, and calls as are shown
STACK_WORDS, MOST_FRAMES = 128, 64
CALLS, RESTARTS = (0xcd, 0xc4, 0xcc, 0xd4, 0xdc), (0xc7, 0xcf, 0xd7, 0xdf, 0xe7, 0xef, 0xf7, 0xff)
RETURNS = (0xc9, 0xd9, 0xc0, 0xc8, 0xd0, 0xd8)
BREAK, WRITE, READ, ACCESS, CHANGE, OPCODE = 'break', 'write', 'read', 'access', 'change', 'opcode'
MOST_BREAKPOINTS, MOST_MESSAGE = 1000, 500
# steps of one line of source, before it is taken for an endless one
MOST_LINE_STEPS = 100_000
# `LD D,D`, a jump over it, and the mark of a message; its form, and what follows, is behind it
MESSAGE = re.compile(rb'\x52\x18.\x64\x64(?=[\x00\x01]\x00)', re.S)
BEGINNING, INTERRUPTED, STEP, STOP, ENTRY, LIMIT = 'beginning', 'interrupted', 'step', 'stop', 'entry', 'limit'
HIT = re.compile(r'(%|>=|<=|==|=|>|<)?\s*([0-9]{1,9})')
# by which writes a controller maps a bank of ROM
MBC1, MBC2, MBC3, MBC5 = (0x01, 0x02, 0x03), (0x05, 0x06), range(0x0f, 0x14), range(0x19, 0x1f)


@dataclass
class Breakpoint:
    """Where a run stops, or says something: a place, an access, a change, or an opcode."""
    number: int
    kind: str
    stops: tuple[Stop, ...]
    text: str
    condition: Optional[Expression] = None
    wanted: Optional[Callable[[int], bool]] = None
    hit_text: str = ''
    message: Optional[str] = None
    hits: int = 0

    def shown(self) -> str:
        parts = [f'{self.number}: {self.kind} {self.text}', f'if {self.condition.text}' if self.condition else '',
                 f'hits {self.hit_text}' if self.hit_text else '', f'log {printable(self.message)}' if self.message is not None else '',
                 f'; met {self.hits} times' if self.hits else '']
        return ' '.join(part for part in parts if part)


@dataclass(frozen=True)
class Stopped:
    """Why a run ended, and where."""
    why: str
    address: int
    breakpoints: tuple[Breakpoint, ...] = ()

    def line(self) -> str:
        """As the program answers it."""
        return f'{self.why if self.why in (INTERRUPTED, LIMIT, BEGINNING) else "stopped"} {self.address:04X}'


@dataclass(frozen=True)
class Call:
    """A call that is not left: where it goes on, with what stack, and whether it is sure that it is one."""
    address: int
    stack: int
    is_sure: bool


def hit_wanted(text: str) -> Callable[[int], bool]:
    """Which hits of a breakpoint stop, by a number (from that one on), a comparison, or `%` for each so many."""
    found = HIT.fullmatch(text.strip())
    if not found or found[1] == '%' and int(found[2]) == 0:
        raise Wrong(f'{quoted(text)} is no count of hits: give a number, or one behind =, >, <, >=, <= or %')
    number = int(found[2])
    return {'%': lambda hits: hits % number == 0, '>': lambda hits: hits > number, '<': lambda hits: hits < number, '<=': lambda hits: hits <= number,
            '=': lambda hits: hits == number, '==': lambda hits: hits == number}.get(found[1], lambda hits: hits >= number)


class Debugger:
    """A debugged machine with what is known of its source. `say` is given what log points and messages say; `goes_on` answers False where a run is to end."""

    def __init__(self, program: Program, cart: str, labels: Labels, source: Source, script: Iterable[tuple] = ()):
        self.debuggee = Debuggee(program)
        self.program, self.cart, self.labels, self.source = program, cart, labels, source
        self.variables: Variables = found_variables(source.path)
        # whether the cartridge is taken, is known once a line is answered
        self.taken = program.ask('registers')
        self.timeline = Timeline(self.debuggee, script)
        self.breakpoints: dict[int, Breakpoint] = {}
        self.last_number = 0
        self.say: Callable[[str], None] = lambda text: None
        self.goes_on: Callable[[], bool] = lambda: True
        self.rom_program: Optional[Program] = None
        self.messages: Optional[dict[Place, bytes]] = None

    def close(self) -> None:
        if self.rom_program:
            self.rom_program.kill()

    # ---- what an expression asks for

    def registers(self) -> Registers:
        return self.debuggee.registers()

    def memory(self, address: int, count: int) -> bytes:
        return self.debuggee.memory(address & 0xffff, count)

    def label(self, name: str) -> Optional[int]:
        place = self.labels.place(name)
        return place[1] if place else None

    def variable(self, name: str) -> Optional[Variable]:
        function, dot, own = name.rpartition('.')
        named = next((one for one in self.variables.functions if one.name == function), None) if dot else self.function()
        return self.variables.variable(own if named and dot else name, named)

    def function(self) -> Optional[Function]:
        """The function of C that it is in."""
        if not self.variables.functions:
            return None
        address = self.registers().PC
        return self.variables.function_at(address, self.mapped(address))

    def value(self, text: str) -> Value:
        return Expression.of(text).value(self)

    # ---- places

    def mapped(self, address: int) -> Optional[int]:
        """The bank that is mapped at an address of the switched half of ROM; None elsewhere."""
        return self.debuggee.bank(address) if address in SWITCHED else None

    def place(self, word: str) -> Place:
        """What a word stands for: a label, a label and a sum, FILE:LINE, BANK:ADDR, or hexadecimal digits. A label of a switched bank of ROM has that bank."""
        known = self.labels.place(word)
        if known:
            return of_bank(*known)
        name, colon, rest = word.rpartition(':')
        if colon and re.fullmatch('[0-9]{1,7}', rest) and (source := self.source.known(name)):
            return self.line(source, int(rest))[0]
        bank, colon, rest = word.partition(':')
        if colon and re.fullmatch('[0-9a-fA-F]{1,3}', bank):
            return Place(self.place(rest).address, int(bank, 16))
        base, plus, more = word.rpartition('+')
        if plus and (known := self.labels.place(base)) and re.fullmatch(r'[0-9]{1,5}|\$[0-9a-fA-F]{1,4}', more):
            return of_bank(known[0], known[1] + (int(more[1:], 16) if more.startswith('$') else int(more)) & 0xffff)
        digits = word[1:] if word.startswith('$') else word
        if re.fullmatch('[0-9a-fA-F]{1,4}', digits):
            return Place(int(digits, 16))
        variable = self.variables.named.get(word)
        if variable:
            return Place(variable.address)
        path = self.labels.path
        where = f'no label of {printable(path)}' + like(word, self.labels.named) if path else 'there are no labels'
        raise Wrong(f'{quoted(word)} is no address, and {where}')

    def line(self, source: str, number: int) -> list[Place]:
        """Where a line of source begins, or the next one that has code."""
        found = self.source.begins_at(source, number)
        if not found:
            raise Wrong(f'no line of {quoted(source)} from {number} on has code')
        return [of_bank(*one) for one in found]

    def labels_at(self, address: int) -> list[str]:
        """The labels of an address; where it has none, the one before it and how far it is from there."""
        bank = self.mapped(address) if self.labels.at else None
        exact = [line.replace(':', '', 1).replace(' ; ', ', ') for line in self.labels.lines(address, bank)]
        before = None if exact else self.labels.before(address, bank)
        return exact or ([f'{before[0]}+{before[1]}'] if before and (address < 0x8000 or before[1] < 0x100) else [])

    def line_at(self, address: int) -> Optional[tuple[str, int, int]]:
        """The line of source that an address belongs to, and how far from its beginning it is."""
        if not self.source.at:
            return None
        bank = self.mapped(address)
        found, label = self.source.before(address, bank), self.labels.before(address, bank)
        if found is None or label and label[1] < found[2] or self.variables.functions and not self.variables.function_at(address, bank):
            return None
        return found

    def names(self, address: int) -> list[str]:
        """The labels and lines of source that begin at an address, as they stand in a list."""
        if not self.labels.at.get(address) and not self.source.at.get(address):
            return []
        bank = self.mapped(address)
        return self.labels.lines(address, bank) + self.source.lines(address, bank)

    def shown_place(self, address: int) -> list[str]:
        """The label and the line of source of an address, each with how far it is from there."""
        line, exact = self.line_at(address), self.source.at.get(address) and self.source.lines(address, self.mapped(address))
        return self.labels_at(address) + ([one.replace(' ; ', ', ') for one in exact] if exact else [self.source.shown(line[0], line[1])] if line else [])

    def listing(self, place: Place, count: int) -> tuple[list[str], Optional[int]]:
        """Instructions from a place on, of its bank, and the bank that is shown where it is another one than was asked for."""
        if place.bank is None or place.address not in SWITCHED or self.debuggee.bank(place.address) == place.bank:
            return self.debuggee.listing(place.address, count), None
        rom = self.program_of_rom()
        for address, value in writes_to_map(self.kind(), place.bank):
            rom.give(f'set {address:04X} {value:02X}')
        if rom.bank(place.address) == place.bank:
            return rom.listing(place.address, count), None
        return self.debuggee.listing(place.address, count), self.debuggee.bank(place.address)

    def program_of_rom(self) -> Debuggee:
        """A second machine of the cartridge, in which any bank may be mapped."""
        if self.rom_program is None:
            self.rom_program = Program(self.program.process.args[0], self.cart)
        return Debuggee(self.rom_program)

    def kind(self) -> int:
        """The cartridge's type."""
        return self.debuggee.memory(0x147, 1)[0]

    # ---- breakpoints

    def add(self, kind: str, stops: Iterable[Stop], text: str, condition: str = '', hits: str = '', message: Optional[str] = None) -> Breakpoint:
        if len(self.breakpoints) >= MOST_BREAKPOINTS:
            raise Wrong(f'there are {MOST_BREAKPOINTS:,} breakpoints, and no more are taken')
        if message is not None and len(message) > MOST_MESSAGE:
            raise Wrong(f'a message has more than {MOST_MESSAGE} characters')
        one = Breakpoint(self.last_number + 1, kind, tuple(stops), printable(text), Expression.of(condition) if condition else None,
                         hit_wanted(hits) if hits else None, printable(hits), message)
        self.last_number = one.number
        self.breakpoints[one.number] = one
        return one

    def stops(self) -> list[Stop]:
        return [stop for one in self.breakpoints.values() for stop in one.stops] + list(self.message_places())

    def message_places(self) -> dict[Place, bytes]:
        """Where the ROM has a message for debuggers, and what stands behind its mark."""
        if self.messages is None:
            self.messages = {}
            try:
                rom = read_bytes(self.cart, MOST_CART)
            except WrongInput:
                rom = b''
            for found in MESSAGE.finditer(rom):
                bank = found.start() // 0x4000
                place = Place(found.start() % 0x4000 + (0x4000 if bank else 0), bank or None)
                self.messages[place] = rom[found.end():found.start() + 3 + rom[found.start() + 2]]
        return self.messages

    def is_wanted(self, one: Breakpoint) -> bool:
        """Whether a breakpoint's condition holds; one that can't be reckoned is told, and stops."""
        try:
            return one.condition is None or one.condition.holds(self)
        except Wrong as wrong:
            self.say(f'breakpoint {one.number}: {wrong}')
            return True

    def met(self, stops: tuple[Stop, ...]) -> list[Breakpoint]:
        """Those breakpoints that stop here; log points and messages say what they have to."""
        found = []
        for place in stops:
            if place in self.message_places():
                self.say(self.message(place))
        for one in self.breakpoints.values():
            if not any(stop in one.stops for stop in stops) or not self.is_wanted(one):
                continue
            one.hits += 1
            if one.wanted and not one.wanted(one.hits):
                continue
            if one.message is not None:
                self.say(self.filled(one.message))
            else:
                found.append(one)
        return found

    def filled(self, message: str) -> str:
        """A message with the values of the expressions that stand in it between braces."""
        def shown(found: re.Match) -> str:
            try:
                value = self.value(found[1])
                return value.text or str(value.number)
            except Wrong as wrong:
                return f'{{{wrong}}}'
        return re.sub(r'\{([^{}]{1,%d})\}' % MOST_LABEL, shown, message)

    def message(self, place: Place) -> str:
        """A message of the ROM: its text stands behind it, or where it says. What stands between % is a register, a label or an expression."""
        data = self.message_places()[place]
        if data[:1] == b'\1' and len(data) >= 4:
            data = self.memory(data[2] | data[3] << 8, 256).partition(b'\0')[0]
        else:
            data = data[2:].partition(b'\0')[0]

        def shown(found: re.Match) -> str:
            try:
                return f'{self.value(found[1]).number or 0:02X}'
            except Wrong:
                return found[0]
        return re.sub(r'%([^%]{1,40})%', shown, printable(data, MOST_MESSAGE))

    # ---- runs

    def stopped(self, why: str, found: Iterable[Breakpoint] = ()) -> Stopped:
        return Stopped(why, self.registers().PC, tuple(found))

    def run(self, extra: Iterable[Stop] = (), is_wanted: Callable[[], bool] = lambda: True, why: str = STEP) -> Stopped:
        """Goes on to the next breakpoint, or to one of these stops where it is wanted."""
        extra = list(extra)
        while True:
            ran = self.timeline.run(None, [*extra, *self.stops()], self.goes_on)
            found = self.met(ran.met)
            if found:
                return self.stopped(STOP, found)
            if any(stop in ran.met for stop in extra) and is_wanted():
                return self.stopped(why)
            if ran.is_ended:
                return self.stopped(INTERRUPTED)

    def step(self) -> tuple[str, Stopped]:
        """One step: its line, and what stops behind it."""
        line, met = self.timeline.step_to(self.stops())
        found = self.met(met)
        return line, self.stopped(STOP if found else STEP, found)

    def over(self, tell: Callable[[str], None] = lambda line: None) -> Stopped:
        """A step; a call, and an interrupt before the instruction, is run to its return."""
        while True:
            before = self.registers()
            opcode = self.memory(before.PC, 1)[0]
            line, stopped = self.step()
            tell(line)
            after = self.registers()
            is_interrupt = line.startswith('interrupt ')
            target = before.PC if is_interrupt else before.PC + (3 if opcode in CALLS else 1) & 0xffff
            if not is_interrupt and (line == 'wait' or opcode not in CALLS + RESTARTS or after.SP != before.SP - 2 & 0xffff) or stopped.why == STOP:
                return stopped
            ran = self.run([Place(target)], lambda: self.is_left(before.SP))
            if not is_interrupt or ran.why != STEP:
                return ran

    def is_left(self, stack: int) -> bool:
        """Whether the stack is what it was, or above it."""
        return self.registers().SP - stack & 0xffff < 0x8000

    def calls(self) -> Iterator[Call]:
        """The calls that are not left, the last one first: words on the stack that stand behind a CALL or an RST. Whatever else was pushed may look so,
        too: sure is one whose CALL leads to the label that stands before where it is called to."""
        registers = self.registers()
        inner, stack = registers.PC, registers.SP
        words = self.memory(stack, 2 * STACK_WORDS)
        for at in range(0, 2 * STACK_WORDS, 2):
            address = words[at] | words[at + 1] << 8
            before = self.memory(address - 3, 3)
            is_call = before[0] in CALLS
            if is_call or before[2] in RESTARTS:
                target = before[1] | before[2] << 8 if is_call else before[2] & 0x38
                label = self.labels.before(inner, self.mapped(inner)) if self.labels.at else None
                yield Call(address, stack + at + 2 & 0xffff, bool(label) and inner - label[1] == target)
                inner = address

    def finish(self) -> Stopped:
        """Runs to behind the call that it is in."""
        call = next(self.calls(), None)
        if call is None:
            raise Wrong(f'no word of the {STACK_WORDS} on the stack stands behind a CALL or an RST')
        return self.run([Place(call.address)], lambda: self.is_left(call.stack))

    def by_line(self, over: bool) -> Stopped:
        """Goes on to where another line of source begins; calls are run, or stepped into where their source is known."""
        first, stack = self.line_at(self.registers().PC), self.registers().SP
        for _ in range(MOST_LINE_STEPS):
            before = self.registers()
            if over:
                ran = self.over()
                if ran.why in (STOP, INTERRUPTED):
                    return ran
            else:
                ran = self.step()[1]
                if ran.why == STOP:
                    return ran
            here = self.registers()
            line = self.line_at(here.PC)
            if line is None:
                if here.SP - before.SP & 0xffff == 0xfffe and first is not None:
                    # a call of what has no source
                    ran = self.finish()
                    if ran.why != STEP:
                        return ran
                    line = self.line_at(ran.address)
                elif first is None or self.is_left(stack + 2):
                    return self.stopped(STEP)
            is_other = line and (first is None or line[:2] != first[:2])
            if line and line[2] == 0 and (is_other or here.SP != stack) or is_other and first and self.is_left(stack + 1):
                return self.stopped(STEP)
            if not self.goes_on():
                return self.stopped(INTERRUPTED)
        return self.stopped(LIMIT)

    # ---- back

    def met_in_past(self, stops: tuple[Stop, ...]) -> list[Breakpoint]:
        """The breakpoints that stop here when it goes back: counts of hits stay as they are, and log points say nothing."""
        return [one for one in self.breakpoints.values() if one.message is None and any(stop in one.stops for stop in stops) and self.is_wanted(one)]

    def last_met(self, stops: Iterable[Stop], is_wanted: Callable[[tuple[Stop, ...]], bool] = lambda met: True) -> Optional[bool]:
        """Goes back to the last place where one of these is met; False: there is none. None: the look was ended."""
        try:
            return self.timeline.last_met(stops, is_wanted, self.goes_on) is not None
        except Ended:
            return None

    def run_back(self) -> Stopped:
        """Goes back to the breakpoint before, or to the beginning."""
        stops, found = [stop for one in self.breakpoints.values() if one.message is None for stop in one.stops], []

        def is_wanted(met: tuple[Stop, ...]) -> bool:
            found[:] = self.met_in_past(met)
            return bool(found)
        is_met = self.last_met(stops, is_wanted) if stops else False
        if is_met is None:
            return self.stopped(INTERRUPTED)
        if not is_met:
            self.timeline.goto(0)
            return self.stopped(BEGINNING)
        here = self.registers().PC
        return Stopped(STOP, here, tuple(found or self.met_in_past(tuple(stops))))

    def step_back(self, count: int = 1) -> Stopped:
        return self.stopped(STEP if self.timeline.step_back(count) == count else BEGINNING)

    def over_back(self) -> Stopped:
        """A step back; behind a call that was left, to before the call."""
        after, here = self.registers(), self.timeline.now
        if self.timeline.step_back() == 0:
            return self.stopped(BEGINNING)
        before = self.registers()
        if self.memory(before.PC, 1)[0] in RETURNS and after.SP == before.SP + 2 & 0xffff:
            one_back = self.timeline.now
            self.timeline.goto(here)
            target = after.PC

            def is_call(met: tuple[Stop, ...]) -> bool:
                registers = self.registers()
                if registers.SP != after.SP:
                    return False
                opcode = self.memory(registers.PC, 1)[0]
                return registers.PC == target or opcode in (CALLS if registers.PC == target - 3 & 0xffff else RESTARTS)
            if not self.last_met([Place(target - 3 & 0xffff), Place(target - 1 & 0xffff), Place(target)], is_call):
                self.timeline.goto(one_back)
        return self.stopped(STEP)

    def line_back(self) -> Stopped:
        """Goes back to where a line of source begins: its own, or the one before."""
        for _ in range(MOST_LINE_STEPS):
            ran = self.over_back()
            line = self.line_at(ran.address)
            if ran.why == BEGINNING or line and line[2] == 0 or not self.source.at:
                return ran
            if not self.goes_on():
                return self.stopped(INTERRUPTED)
        return self.stopped(LIMIT)

    def back_to_call(self, call: Call) -> None:
        """Goes back to where a call was made."""
        places = [Place(call.address - 3 & 0xffff), Place(call.address - 1 & 0xffff)]
        if not self.last_met(places, lambda met: self.registers().SP == call.stack):
            raise Wrong('its call is not in the past that is known')

    def finish_back(self) -> Stopped:
        """Goes back to the call that it is in."""
        call = next(self.calls(), None)
        if call is None:
            raise Wrong(f'no word of the {STACK_WORDS} on the stack stands behind a CALL or an RST')
        self.back_to_call(call)
        return self.stopped(STEP)


def of_bank(bank: int, address: int) -> Place:
    return Place(address, bank if bank and address in SWITCHED and bank <= 0xfff else None)


def watch_stops(kind: str, first: int, last: int) -> tuple[Stop, ...]:
    """What a watch of some addresses stops at."""
    if kind == CHANGE:
        return tuple(Change(address) for address in range(first, last + 1))
    return tuple(Access(is_write, first, last) for is_write in (True, False) if kind in (ACCESS, WRITE if is_write else READ))


def opcode_stop(word: str) -> tuple[Stop, ...]:
    return (Opcode(int(word, 16)),)


def writes_to_map(kind: int, bank: int) -> list[tuple[int, int]]:
    """The writes by which a controller of this type maps a bank of ROM at 4000."""
    if kind in MBC1:
        return [(0x2000, bank & 0x1f), (0x4000, bank >> 5 & 3)]
    if kind in MBC2:
        return [(0x2100, bank & 0x0f)]
    if kind in MBC3:
        return [(0x2000, bank & 0x7f)]
    return [(0x2000, bank & 0xff), (0x3000, bank >> 8 & 1)] if kind in MBC5 else []
