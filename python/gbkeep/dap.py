"""Debugs a cartridge in an editor: the Debug Adapter Protocol, on standard input and output.

usage: gbkeep-dap [--program GBKEEP]

An editor starts it, and launches a cartridge by these arguments of `launch`: `program`, the ROM; and, where wanted, `symbols`, its labels (else a .sym, .noi or
.map beside it); `save`, a game that keeps nothing of this; `state`, a file that `state` of gbkeep-debug has written; `script`, a script or a recording, which
goes on while the machine runs; `stopOnEntry` (true); and `gbkeep`, the program. Lines and variables of C come from a .cdb of sdcc beside the ROM. Time
goes both ways: stepBack and reverseContinue are exact. In its console it takes the lines of gbkeep-debug, too. It needs nothing but Python."""
import argparse
import base64
import binascii
import collections
import contextlib
import json
import os
import re
import sys
import threading
import time
from collections.abc import Callable, Iterable, Iterator
from dataclasses import dataclass
from pathlib import Path
from typing import BinaryIO, NoReturn, Optional

from . import memory_pictures
from .c_variables import NOT_AVAILABLE, Type, Variable
from .debug import COMMANDS, MOVES, Session
from .debug_program import WORD_REGISTERS, Opcode, Place, Program, Stop, Wrong
from .debugger import ACCESS, BEGINNING, BREAK, CHANGE, ENTRY, INTERRUPTED, MOST_BREAKPOINTS, OPCODE, READ, STOP, WRITE, Debugger, Stopped, watch_stops
from .expressions import Expression, number_of
from .game import HEIGHT, MOST_STATE, WIDTH, Refused, find_program
from .hardware_registers import NAMES, decoded
from .input_files import WrongInput, printable, read_bytes
from .machines import STATE_HEADER, STATE_MARK
from .new_files import Unsafe
from .pictures import png_of
from .script import moves_to_play
from .symbols import MOST_SOURCE, found_labels, found_source, quoted
from .tools import Failed, Words, name_of_tool, run_tool

# what a message may have, and what one waits for
MOST_HEADER, MOST_CONTENT, MOST_WAITING = 4_096, 8 << 20, 1_000
MOST_TEXT, MOST_PATH = 10_000, 4_096
MOST_INSTRUCTIONS, MOST_VARIABLES, MOST_READ = 4_096, 2_000, 65_536
# sources of assembler that are looked through for labels
ASSEMBLER, MOST_FILES, MOST_FOLDERS = ('.asm', '.s', '.z80', '.inc'), 500, 100
LABEL = re.compile(r'\s*([A-Za-z_][\w.@#$]*|\.[A-Za-z_][\w@#$]*):{0,2}(?=\s|:|;|$)')
# how often what was sent over the serial port is told while it runs
TELL_SECONDS = 0.1
THREAD, REGISTERS, FLAGS, HARDWARE, GLOBALS, LOCALS, TIME, FIRST_PART = 1, 1, 2, 3, 4, 5, 6, 1_000
SCOPES = [('Registers', REGISTERS), ('Flags', FLAGS), ('Hardware registers', HARDWARE), ('Globals', GLOBALS), ('Time', TIME)]
FLAG_BITS = {'Z': 7, 'N': 6, 'H': 5, 'C': 4}
# requests that end a run of any kind, and those before which nothing has to be launched
ENDING, BEFORE_LAUNCH = ('pause', 'disconnect', 'terminate', 'restart'), ('initialize', 'launch', 'attach', 'disconnect', 'terminate')
FILTERS = {'ld_b_b': ('LD B,B', 0x40)}
IMAGES = ('picture', 'tiles', 'map9800', 'map9C00', 'objects')
CAPABILITIES = {f'supports{name}': True for name in (
    'ConfigurationDoneRequest', 'FunctionBreakpoints', 'ConditionalBreakpoints', 'HitConditionalBreakpoints', 'EvaluateForHovers', 'StepBack', 'SetVariable',
    'RestartFrame', 'GotoTargetsRequest', 'CompletionsRequest', 'RestartRequest', 'LogPoints', 'SetExpression', 'TerminateRequest', 'DataBreakpoints',
    'ReadMemoryRequest', 'WriteMemoryRequest', 'DisassembleRequest', 'InstructionBreakpoints', 'SteppingGranularity', 'BreakpointLocationsRequest',
    'LoadedSourcesRequest')}
WHYS = {'goto': 'goto', STOP: 'breakpoint', BEGINNING: 'entry', ENTRY: 'entry', INTERRUPTED: 'pause'}


# ---- messages

class Broken(Failed):
    """What came is no message."""


class Input:
    """What comes on a descriptor, read without the locks of a stream, which the end of a process would wait for."""

    def __init__(self, descriptor: int):
        self.descriptor, self.unread = descriptor, bytearray()

    def more(self) -> bool:
        some = os.read(self.descriptor, 1 << 16)
        self.unread += some
        return bool(some)

    def readline(self, most: int) -> bytes:
        while (end := self.unread.find(b'\n')) < 0 and len(self.unread) < most and self.more():
            pass
        return self.read(min(end + 1 if end >= 0 else len(self.unread), most))

    def read(self, count: int) -> bytes:
        while len(self.unread) < count and self.more():
            pass
        data = bytes(self.unread[:count])
        del self.unread[:count]
        return data


def message_of(stream: Input) -> Optional[dict]:
    """The next message; None at the end. Raises Broken where it is none, and the next one is looked for behind it."""
    length = None
    while True:
        line = stream.readline(MOST_HEADER)
        if not line:
            return None
        if found := re.fullmatch(rb'content-length:\s*([0-9]{1,9})\s*', line, re.I):
            length = int(found[1])
        elif not line.strip() and length is not None:
            break
        elif line.strip() and not re.match(rb'[A-Za-z-]+:', line):
            raise Broken('this is no header of a message')
    if length > MOST_CONTENT:
        while length > 0 and (some := stream.read(min(length, 1 << 16))):
            length -= len(some)
        raise Broken(f'a message has more than {MOST_CONTENT:,} bytes')
    content = stream.read(length)
    if len(content) < length:
        return None
    try:
        message = json.loads(content)
    except (ValueError, RecursionError):
        raise Broken('a message is no JSON') from None
    if not isinstance(message, dict):
        raise Broken('a message is no object')
    return message


class Inbox:
    """What the editor sends, read while the machine runs."""

    def __init__(self, stream: Input):
        self.stream = stream
        self.waiting: collections.deque = collections.deque()
        self.condition = threading.Condition()
        self.thread = threading.Thread(target=self.read, daemon=True)
        self.thread.start()

    def read(self) -> None:
        while True:
            try:
                message: object = message_of(self.stream)
            except Broken as broken:
                message = broken
            except (OSError, ValueError):
                message = None
            with self.condition:
                while len(self.waiting) >= MOST_WAITING:
                    self.condition.wait()
                self.waiting.append(message)
                self.condition.notify_all()
            if message is None:
                return

    def next(self) -> object:
        with self.condition:
            while not self.waiting:
                self.condition.wait()
            self.condition.notify_all()
            return self.waiting.popleft()

    def has(self, commands: Optional[Iterable[str]] = None) -> bool:
        """Whether one of these requests waits, or any; or the end."""
        with self.condition:
            return any(one is None or commands is None or isinstance(one, dict) and one.get('command') in commands for one in self.waiting)


class Arguments:
    """The arguments of a request, whatever they are."""

    def __init__(self, given: object):
        self.given = given if isinstance(given, dict) else {}

    def text(self, name: str, default: Optional[str] = None, most: int = MOST_TEXT) -> str:
        value = self.given.get(name)
        if value is None and default is not None:
            return default
        if not isinstance(value, str) or len(value) > most or '\0' in value:
            raise Wrong(f'{quoted(name)} is no text of {most:,} characters at most')
        return value

    def number(self, name: str, low: int, high: int, default: Optional[int] = None) -> int:
        value = self.given.get(name)
        if value is None and default is not None:
            return default
        if isinstance(value, bool) or not isinstance(value, int) or not low <= value <= high:
            raise Wrong(f'{quoted(name)} is no number from {low:,} to {high:,}')
        return value

    def flag(self, name: str, default: bool) -> bool:
        value = self.given.get(name, default)
        if not isinstance(value, bool):
            raise Wrong(f'{quoted(name)} is neither true nor false')
        return value

    def parts(self, name: str) -> list['Arguments']:
        value = self.given.get(name)
        if value is None:
            return []
        if not isinstance(value, list) or len(value) > MOST_BREAKPOINTS or not all(isinstance(one, dict) for one in value):
            raise Wrong(f'{quoted(name)} is no list of {MOST_BREAKPOINTS:,} objects at most')
        return [Arguments(one) for one in value]

    def texts(self, name: str) -> list[str]:
        value = self.given.get(name, [])
        if not isinstance(value, list) or not all(isinstance(one, str) and len(one) <= MOST_TEXT for one in value):
            raise Wrong(f'{quoted(name)} is no list of texts')
        return value

    def part(self, name: str) -> 'Arguments':
        return Arguments(self.given.get(name))

    def place(self, name: str = 'memoryReference') -> int:
        """An address, and the offset beside it."""
        text = self.text(name)
        if not re.fullmatch('(0[xX])?[0-9a-fA-F]{1,6}', text):
            raise Wrong(f'{quoted(text)} is no address')
        return int(text, 16) + self.number('offset', -0x10000, 0x10000, 0)


def numbered(sequence: object) -> int:
    """The number of a request, as far as it is one."""
    return sequence if isinstance(sequence, int) and not isinstance(sequence, bool) and abs(sequence) < 1 << 53 else 0


# ---- sources of assembler

@dataclass
class Assembled:
    """Where labels stand in sources of assembler: of RGBDS, say, whose .sym has no lines."""
    labels: dict[str, tuple[str, int]]
    files: dict[str, list[tuple[int, str]]]

    @classmethod
    def below(cls, folder: Path, known: Iterable[str]) -> 'Assembled':
        """The labels that are known in the sources of a folder."""
        found, count = cls({}, {}), 0
        for number, (place, folders, names) in enumerate(os.walk(folder)):
            folders[:] = sorted(one for one in folders if not one.startswith('.'))[:MOST_FOLDERS]
            for name in sorted(names):
                if name.lower().endswith(ASSEMBLER) and count < MOST_FILES:
                    count += 1
                    found.read(os.path.join(place, name), known)
            if number >= MOST_FOLDERS:
                break
        return found

    def read(self, path: str, known: Iterable[str]) -> list[tuple[int, str]]:
        """The labels of a source with their lines, in order."""
        if path in self.files:
            return self.files[path]
        try:
            lines = read_bytes(path, MOST_SOURCE).decode(errors='replace').splitlines()
        except WrongInput:
            lines = []
        found, scope = [], ''
        for number, line in enumerate(lines, 1):
            label = LABEL.match(line) if line[:1] not in (' ', '\t') or ':' in line else None
            if label:
                name = scope + label[1] if label[1].startswith('.') else label[1]
                scope = scope if label[1].startswith('.') else label[1].partition('.')[0]
                if name in known:
                    found.append((number, name))
                    self.labels.setdefault(name, (path, number))
        self.files[path] = found
        return found


# ---- the adapter

class Adapter:
    """What an editor asks for."""

    def __init__(self, inbox: Inbox, out: BinaryIO, program: str):
        self.inbox, self.out, self.program = inbox, out, program
        self.sequence = 0
        self.debugger: Optional[Debugger] = None
        self.session: Optional[Session] = None
        self.launched = Arguments({})
        self.assembled = Assembled({}, {})
        self.is_open, self.is_running, self.told_at = True, False, 0.0
        self.first_line = self.first_column = 1
        # the breakpoints of each request that replaces them, and what each asked for last
        self.owned: dict[str, list[int]] = {}
        self.asked: dict[str, dict] = {}
        # parts of variables that may be asked for until the machine goes on, and targets of goto
        self.parts: list[tuple[Type, int]] = []
        self.targets: list[int] = []
        # what is done once the answer is sent
        self.then: list[Callable[[], None]] = []

    # ---- what is sent

    def send(self, message: dict) -> None:
        self.sequence += 1
        data = json.dumps({'seq': self.sequence, **message}).encode()
        self.out.write(b'Content-Length: %d\r\n\r\n' % len(data) + data)
        self.out.flush()

    def event(self, name: str, **body: object) -> None:
        self.send({'type': 'event', 'event': name, **({'body': body} if body else {})})

    def output(self, text: str, category: str = 'console') -> None:
        if text:
            self.event('output', category=category, output=text)

    def refuse(self, request: dict, why: object) -> None:
        sequence, command = request.get('seq'), request.get('command')
        text = printable(why, 2_000)
        error = {'id': 1, 'format': text.replace('{', '(').replace('}', ')')}
        self.send({'type': 'response', 'request_seq': numbered(sequence), 'success': False, 'command': command if isinstance(command, str) else '',
                   'message': text, 'body': {'error': error}})

    # ---- what comes

    def serve(self) -> None:
        """Answers until the end."""
        while self.is_open:
            message = self.inbox.next()
            if message is None:
                break
            self.answer(message)
        self.end()

    def answer(self, message: object) -> None:
        """Answers a message; what goes wrong is an answer, too."""
        if isinstance(message, Broken):
            self.refuse({}, message)
            return
        command = message.get('command')
        if message.get('type') != 'request' or not isinstance(command, str):
            self.refuse(message, 'this is no request')
            return
        handle = HANDLERS.get(command)
        try:
            if handle is None:
                raise Wrong(f'{quoted(command)} is no request that is known here')
            if self.debugger is None and command not in BEFORE_LAUNCH:
                raise Wrong('nothing is launched')
            body = handle(self, Arguments(message.get('arguments')))
        except Refused as refused:
            self.refuse(message, refused.told())
            if self.debugger is not None:
                self.gone(refused)
            return
        except (Failed, WrongInput, Unsafe, OSError, ValueError, OverflowError, RecursionError, MemoryError) as error:
            self.refuse(message, error)
            return
        self.send({'type': 'response', 'request_seq': numbered(message.get('seq')), 'success': True, 'command': command,
                   **({'body': body} if body is not None else {})})
        waiting, self.then = self.then, []
        for one in waiting:
            try:
                one()
            except Refused as refused:
                self.gone(refused)
            except (Failed, WrongInput, OSError, ValueError) as error:
                self.output(f'{printable(error)}\n', 'important')
                if self.debugger:
                    self.tell(self.debugger.stopped('stopped'))

    def gone(self, refused: Refused) -> None:
        """The program has ended of itself."""
        self.output(f'{printable(refused.told(), 2_000)}\n', 'stderr')
        self.end()
        self.event('terminated')

    def end(self) -> None:
        if self.debugger:
            self.debugger.close()
            self.debugger.program.kill()
        self.debugger = self.session = None

    # ---- launch

    def initialize(self, given: Arguments) -> dict:
        self.first_line, self.first_column = int(given.flag('linesStartAt1', True)), int(given.flag('columnsStartAt1', True))
        return {**CAPABILITIES, 'exceptionBreakpointFilters': [{'filter': name, 'label': label, 'default': False} for name, (label, _) in FILTERS.items()]}

    def launch(self, given: Arguments) -> None:
        if self.debugger:
            raise Wrong('a cartridge is launched already')
        self.begin(given)
        self.then.append(lambda: self.event('initialized'))

    def attach(self, given: Arguments) -> NoReturn:
        raise Wrong('there is nothing to attach to: launch a cartridge')

    def begin(self, given: Arguments) -> None:
        """Starts the program on a cartridge."""
        cart, save = given.text('program', most=MOST_PATH), given.text('save', '', MOST_PATH)
        labels, warnings = found_labels(cart, given.text('symbols', '', MOST_PATH) or None)
        source, more = found_source(cart, labels.path)
        script, path = given.text('script', '', MOST_PATH), given.text('state', '', MOST_PATH)
        moves = list(moves_to_play(cart, script)) if script else []
        state = read_bytes(path, MOST_STATE) if path else b''
        program = Program(given.text('gbkeep', self.program, MOST_PATH), cart, save or None)
        try:
            debugger = Debugger(program, cart, labels, source, moves)
            if state:
                if not state.startswith(debugger.debuggee.state()[:STATE_HEADER]):
                    raise Wrong(f'{quoted(path)} is no state of this cartridge' if state.startswith(STATE_MARK) else f'{quoted(path)} is no state')
                try:
                    debugger.debuggee.restore(state)
                except Wrong:
                    raise Wrong(f'{quoted(path)} is damaged: give another state of this cartridge') from None
        except BaseException:
            program.kill()
            raise
        for warning in warnings + more:
            self.output(f'{printable(warning)}\n')
        self.debugger, self.session, self.launched = debugger, Session(debugger, moves), given
        debugger.say = lambda text: self.output(f'{text}\n', 'stdout')
        debugger.goes_on = self.goes_on
        self.assembled = Assembled({}, {}) if source.at else Assembled.below(Path(cart).resolve().parent, labels.named)

    def configuration_done(self, given: Arguments) -> None:
        self.then.append((lambda: self.tell(self.debugger.stopped(ENTRY))) if self.launched.flag('stopOnEntry', True) else self.go)

    def disconnect(self, given: Arguments) -> None:
        self.end()
        self.is_open = False

    def terminate(self, given: Arguments) -> None:
        self.end()
        self.then.append(lambda: self.event('terminated'))

    def restart(self, given: Arguments) -> None:
        """Begins anew, with the ROM as it is now: what was built meanwhile is debugged."""
        new = given.part('arguments')
        launched = new if 'program' in new.given else self.launched
        self.end()
        self.begin(launched)
        self.owned.clear()
        for command, asked in list(self.asked.items()):
            HANDLERS[command.partition(' ')[0]](self, Arguments(asked))
        self.configuration_done(Arguments({}))

    # ---- runs

    def goes_on(self) -> bool:
        """Looks between two parts of a run whether somebody asks for its end; and tells what was sent."""
        if time.monotonic() - self.told_at > TELL_SECONDS:
            self.tell_serial()
        return not self.inbox.has(ENDING)

    def tell_serial(self) -> None:
        self.told_at = time.monotonic()
        sent = self.debugger.debuggee.serial()
        if sent:
            self.output(sent.decode(errors='backslashreplace'), 'stdout')

    def go(self) -> None:
        """Runs to the next breakpoint. Requests that do not end it are answered meanwhile."""
        while True:
            self.debugger.goes_on = lambda: self.goes_on() and not self.inbox.has()
            try:
                stopped = self.debugger.run()
            finally:
                self.debugger.goes_on = self.goes_on
            if stopped.why != INTERRUPTED:
                self.tell(stopped)
                return
            if self.inbox.has(ENDING):
                # they say themselves why it stands still
                return
            if self.inbox.has(MOVING):
                self.tell(stopped)
                return
            self.is_running = True
            self.answer(self.inbox.next())
            self.is_running = False
            if self.debugger is None or not self.is_open:
                return

    def tell(self, stopped: Stopped) -> None:
        """Says why it stands still."""
        self.parts.clear()
        self.targets.clear()
        self.tell_serial()
        why = WHYS.get(stopped.why, 'step')
        if stopped.breakpoints:
            why = {BREAK: 'breakpoint', OPCODE: 'exception'}.get(stopped.breakpoints[0].kind, 'data breakpoint')
        text = 'the beginning of what is known' if stopped.why == BEGINNING else '; '.join(one.shown() for one in stopped.breakpoints)
        ids = [one.number for one in stopped.breakpoints]
        self.event('stopped', reason=why, threadId=THREAD, allThreadsStopped=True, **({'description': text} if text else {}),
                   **({'hitBreakpointIds': ids} if ids else {}))

    def moved(self, run: Callable[[], Stopped]) -> None:
        """Something that is done once the request is answered, and its end is told."""
        def done() -> None:
            stopped = run()
            if stopped.why != INTERRUPTED or not self.inbox.has(ENDING):
                self.tell(stopped)
        self.then.append(done)

    def is_by_line(self, given: Arguments) -> bool:
        return given.text('granularity', 'statement') != 'instruction' and bool(self.debugger.source.at)

    def continue_(self, given: Arguments) -> dict:
        self.then.append(self.go)
        return {'allThreadsContinued': True}

    def next(self, given: Arguments) -> None:
        by_line = self.is_by_line(given)
        self.moved(lambda: self.debugger.by_line(over=True) if by_line else self.debugger.over())

    def step_in(self, given: Arguments) -> None:
        by_line = self.is_by_line(given)
        self.moved(lambda: self.debugger.by_line(over=False) if by_line else self.debugger.step()[1])

    def step_out(self, given: Arguments) -> None:
        self.moved(self.debugger.finish)

    def step_back(self, given: Arguments) -> None:
        by_instruction = given.text('granularity', 'statement') == 'instruction'
        self.moved(lambda: self.debugger.step_back() if by_instruction else self.debugger.line_back())

    def reverse_continue(self, given: Arguments) -> None:
        self.moved(self.debugger.run_back)

    def restart_frame(self, given: Arguments) -> None:
        """Goes back in time to where the function was entered."""
        number = given.number('frameId', 1, MOST_VARIABLES)
        calls = list(self.debugger.calls())
        if number > len(calls):
            raise Wrong('of this function it is not known where it was called')
        call = calls[number - 1]

        def run() -> Stopped:
            self.debugger.back_to_call(call)
            self.debugger.timeline.step_to(())
            return self.debugger.stopped('step')
        self.moved(run)

    def pause(self, given: Arguments) -> None:
        self.then.append(lambda: self.tell(self.debugger.stopped(INTERRUPTED)))

    def goto_targets(self, given: Arguments) -> dict:
        line = self.line_given(given.number('line', 0, 1 << 24))
        places, message, _ = self.places_of(given.part('source').text('path', '', MOST_PATH), line)
        found = []
        for place in places:
            self.targets.append(place.address)
            found.append({'id': len(self.targets), 'label': message or f'${place.address:04X}', 'line': self.line_told(line),
                          'instructionPointerReference': f'0x{place.address:04X}'})
        return {'targets': found}

    def goto(self, given: Arguments) -> None:
        target = given.number('targetId', 1, max(len(self.targets), 1))
        if not self.targets:
            raise Wrong('there is no such target')
        address = self.targets[target - 1]

        def run() -> Stopped:
            self.debugger.timeline.do(f'set-register PC {address:04X}')
            return self.debugger.stopped('goto')
        self.moved(run)

    # ---- breakpoints

    def line_given(self, line: int) -> int:
        return line + 1 - self.first_line

    def line_told(self, line: int) -> int:
        return line - 1 + self.first_line

    def places_of(self, path: str, line: int) -> tuple[list[Place], str, int]:
        """Where a line of a source begins, what is to be said of it, and the line that it is."""
        source = self.debugger.source.known(path)
        if source:
            found = self.debugger.line(source, line)
            numbers = [number for number in self.debugger.source.numbers_of(source) if number >= line]
            return found, '', numbers[0]
        before = [one for one in self.assembled.read(path, self.debugger.labels.named) if one[0] <= line] if path else []
        if not before:
            raise Wrong('of this source no lines are known, and no label stands above this line')
        number, label = before[-1]
        return [self.debugger.place(label)], f'bound to the label {label}: no lines are known, but labels', number

    def replaced(self, key: str, given: Arguments, make: Callable[[Arguments], tuple], wanted: Optional[list[Arguments]] = None) -> dict:
        """Puts breakpoints in place of those that a request asked for last. `make` answers kind, stops and text of each, and what is told of it."""
        for number in self.owned.pop(key, []):
            self.debugger.breakpoints.pop(number, None)
        self.asked[key] = given.given
        owned, told = self.owned.setdefault(key, []), []
        for one in given.parts('breakpoints') if wanted is None else wanted:
            try:
                kind, stops, text, more = make(one)
                made = self.debugger.add(kind, stops, text, one.text('condition', ''), one.text('hitCondition', ''), one.text('logMessage', '') or None)
                owned.append(made.number)
                told.append({'id': made.number, 'verified': True, **more})
            except Failed as wrong:
                told.append({'verified': False, 'message': printable(wrong)})
        return {'breakpoints': told}

    def set_breakpoints(self, given: Arguments) -> dict:
        source = given.part('source')
        path = source.text('path', '', MOST_PATH) or source.text('name', '', MOST_PATH)
        lines = given.parts('breakpoints') or [Arguments({'line': one}) for one in given.given.get('lines') or [] if isinstance(one, int)][:MOST_BREAKPOINTS]

        def at(one: Arguments) -> tuple:
            line = self.line_given(one.number('line', 0, 1 << 24))
            places, message, number = self.places_of(path, line)
            return BREAK, places, f'{Path(path).name}:{number}', {'line': self.line_told(number), 'instructionReference': f'0x{places[0].address:04X}',
                                                                  'source': self.source_told(path), **({'message': message} if message else {})}
        return self.replaced(f'setBreakpoints {path}', given, at, lines)

    def set_function_breakpoints(self, given: Arguments) -> dict:
        def at(one: Arguments) -> tuple:
            name = one.text('name')
            place = self.debugger.place(name)
            return BREAK, [place], name, {'instructionReference': f'0x{place.address:04X}'}
        return self.replaced('setFunctionBreakpoints', given, at)

    def set_instruction_breakpoints(self, given: Arguments) -> dict:
        def at(one: Arguments) -> tuple:
            address = one.place('instructionReference') & 0xffff
            return BREAK, [Place(address)], f'${address:04X}', {'instructionReference': f'0x{address:04X}'}
        return self.replaced('setInstructionBreakpoints', given, at)

    def data_breakpoint_info(self, given: Arguments) -> dict:
        name, reference = given.text('name'), given.number('variablesReference', 0, 1 << 30, 0)
        address, size = None, 1
        with contextlib.suppress(Failed):
            address, size = self.place_in(reference, name) if reference else self.place_of(name)
        if address is None:
            return {'dataId': None, 'description': f'{printable(name)} has no address'}
        last = min(address + size - 1, 0xffff)
        text = f'{printable(name)} at ${address:04X}' + (f' to ${last:04X}' if last > address else '')
        return {'dataId': f'{address:04X}-{last:04X}', 'description': text, 'accessTypes': ['read', 'write', 'readWrite'], 'canPersist': True}

    def set_data_breakpoints(self, given: Arguments) -> dict:
        def at(one: Arguments) -> tuple:
            found = re.fullmatch('([0-9A-F]{4})-([0-9A-F]{4})', one.text('dataId'))
            kind = {'read': READ, 'write': WRITE, 'readWrite': ACCESS, 'change': CHANGE}.get(one.text('accessType', 'write'))
            if not found or kind is None or found[1] > found[2]:
                raise Wrong('this is no place in memory, or no kind of access')
            return kind, watch_stops(kind, int(found[1], 16), int(found[2], 16)), f'${found[1]}', {}
        return self.replaced('setDataBreakpoints', given, at)

    def set_exception_breakpoints(self, given: Arguments) -> dict:
        def at(one: Arguments) -> tuple:
            name = one.text('name')
            if name not in FILTERS:
                raise Wrong(f'{quoted(name)} is no filter')
            stops: list[Stop] = [Opcode(FILTERS[name][1])]
            return OPCODE, stops, FILTERS[name][0], {}
        return self.replaced('setExceptionBreakpoints', given, at, [Arguments({'name': name}) for name in given.texts('filters')[:MOST_BREAKPOINTS]])

    def breakpoint_locations(self, given: Arguments) -> dict:
        path = given.part('source').text('path', '', MOST_PATH)
        first = self.line_given(given.number('line', 0, 1 << 24))
        last = self.line_given(given.number('endLine', 0, 1 << 24, self.line_told(first)))
        source = self.debugger.source.known(path)
        numbers = self.debugger.source.numbers_of(source) if source else [number for number, _ in self.assembled.read(path, self.debugger.labels.named)]
        return {'breakpoints': [{'line': self.line_told(number)} for number in numbers if first <= number <= last][:MOST_VARIABLES]}

    # ---- what is shown

    def threads(self, given: Arguments) -> dict:
        return {'threads': [{'id': THREAD, 'name': 'processor'}]}

    def source_told(self, path: str) -> dict:
        return {'name': Path(path).name, 'path': path}

    def source_path(self, name: str) -> str:
        paths = self.debugger.source.paths_of(name)
        return str(next((one for one in paths if one.exists()), paths[0]).resolve())

    def where(self, address: int) -> dict:
        """The line of source of an address, as a frame tells it."""
        line = self.debugger.line_at(address)
        if line:
            return {'source': self.source_told(self.source_path(line[0])), 'line': self.line_told(line[1]), 'column': self.first_column}
        label = self.debugger.labels.before(address, self.debugger.mapped(address)) if self.debugger.labels.at else None
        if label and label[0] in self.assembled.labels:
            path, number = self.assembled.labels[label[0]]
            return {'source': self.source_told(path), 'line': self.line_told(number), 'column': self.first_column}
        return {'line': 0, 'column': 0}

    def stack_trace(self, given: Arguments) -> dict:
        first, count = given.number('startFrame', 0, 1 << 30, 0), given.number('levels', 0, 1 << 30, 0) or MOST_VARIABLES
        here = self.debugger.registers().PC
        frames = []
        for number, (address, is_sure) in enumerate([(here, True), *((one.address, one.is_sure) for one in self.debugger.calls())], 1):
            names = self.debugger.labels_at(address)
            frames.append({'id': number, 'name': printable((names[0] if names else f'${address:04X}') + ('' if is_sure else ' ?')), **self.where(address),
                           'instructionPointerReference': f'0x{address:04X}', **({} if is_sure else {'presentationHint': 'subtle'})})
        return {'stackFrames': frames[first:first + count], 'totalFrames': len(frames)}

    def scopes(self, given: Arguments) -> dict:
        given.number('frameId', 1, MOST_VARIABLES)
        function = self.debugger.function()
        names = [('Locals', LOCALS)] * (function is not None) + SCOPES
        hints = {REGISTERS: 'registers', LOCALS: 'locals'}
        return {'scopes': [{'name': name, 'variablesReference': number, 'expensive': number == HARDWARE,
                            **({'presentationHint': hints[number]} if number in hints else {})} for name, number in names]}

    def variables(self, given: Arguments) -> dict:
        reference, first = given.number('variablesReference', 1, 1 << 30), given.number('start', 0, 1 << 30, 0)
        count = min(given.number('count', 0, 1 << 30, 0) or MOST_VARIABLES, MOST_VARIABLES)
        found = []
        for at, one in enumerate(self.told_of(reference)):
            if first <= at < first + count:
                found.append(one)
        return {'variables': found}

    def told_of(self, reference: int) -> Iterator[dict]:
        registers, memory = self.debugger.registers(), self.debugger.memory
        if reference == REGISTERS:
            for name in (*WORD_REGISTERS, 'IME'):
                value = registers.value(name)
                yield {'name': name, 'value': f'${value:04X}' if name != 'IME' else str(value), 'variablesReference': 0, 'evaluateName': name,
                       **({'memoryReference': f'0x{value:04X}'} if name not in ('AF', 'IME') else {})}
        elif reference == FLAGS:
            for name, bit in FLAG_BITS.items():
                yield {'name': name, 'value': str(registers.value('F') >> bit & 1), 'variablesReference': 0}
        elif reference == HARDWARE:
            data = memory(0xff00, 256)
            for address, name in NAMES.items():
                value = data[address & 0xff]
                text = decoded(name, value)
                yield {'name': name, 'value': f'${value:02X}' + (f' ({text})' if text else ''), 'variablesReference': 0, 'evaluateName': name,
                       'memoryReference': f'0x{address:04X}'}
        elif reference == GLOBALS:
            if self.debugger.variables.named:
                for one in self.debugger.variables.named.values():
                    yield self.variable_told(one, one.name)
            else:
                for address in self.debugger.labels.in_order():
                    if address >= 0xc000:
                        for _, name in self.debugger.labels.at[address]:
                            yield {'name': printable(name), 'value': f'${memory(address, 1)[0]:02X}', 'variablesReference': 0, 'evaluateName': f'[{name}]',
                                   'memoryReference': f'0x{address:04X}'}
        elif reference == LOCALS:
            function = self.debugger.function()
            for one in function.variables if function else []:
                yield self.variable_told(one, one.name)
        elif reference == TIME:
            timeline = self.debugger.timeline
            places = ('frames played', timeline.frame()), ('inputs of the script', timeline.inputs()), ('place', timeline.now), ('end', timeline.end)
            for name, value in places:
                yield {'name': name, 'value': str(value), 'variablesReference': 0}
        else:
            kind, address = self.part_of(reference)
            for name, of, at in self.debugger.variables.parts(kind, address, memory):
                yield self.part_told(name, of, at)

    def part_of(self, reference: int) -> tuple[Type, int]:
        if not 0 <= reference - FIRST_PART < len(self.parts):
            raise Wrong('there are no such variables now')
        return self.parts[reference - FIRST_PART]

    def variable_told(self, one: Variable, name: str) -> dict:
        if one.address is None:
            return {'name': printable(name), 'value': NOT_AVAILABLE, 'type': one.type.name, 'variablesReference': 0}
        return {**self.part_told(name, one.type, one.address), 'evaluateName': name}

    def part_told(self, name: str, kind: Type, address: int) -> dict:
        value = self.debugger.variables.shown(kind, address, self.debugger.memory)
        reference = 0
        if kind.kind in ('array', 'struct') or kind.kind == 'pointer' and kind.target.size:
            if len(self.parts) < 100 * MOST_VARIABLES:
                self.parts.append((kind, address))
                reference = FIRST_PART + len(self.parts) - 1
        return {'name': printable(name), 'value': printable(value), 'type': kind.name, 'variablesReference': reference, 'memoryReference': f'0x{address:04X}'}

    def evaluate(self, given: Arguments) -> dict:
        text = given.text('expression').strip()
        words = text.split()
        if given.text('context', '') == 'repl' and words and words[0] in COMMANDS:
            return {'result': self.line_of_prompt(text), 'variablesReference': 0}
        value = Expression.of(text).value(self.debugger)
        if value.type:
            told = self.part_told(text, value.type, value.address)
            return {'result': told['value'], 'type': told['type'], 'variablesReference': told['variablesReference'], 'memoryReference': told['memoryReference']}
        number = value.number
        digits = f'${number & 0xffff:04X}' if number > 255 or number < 0 else f'${number:02X}'
        return {'result': f'{digits} ({number})', 'variablesReference': 0, **({'memoryReference': f'0x{number & 0xffff:04X}'} if 0 <= number <= 0xffff else {})}

    def line_of_prompt(self, text: str) -> str:
        """Does a line of gbkeep-debug, and answers what it shows."""
        if text.split()[0] == 'quit':
            raise Wrong('disconnect ends it')
        if self.is_running:
            raise Wrong('it runs: pause it first')
        lines = list(self.session.do(text))
        if text.split()[0] in MOVES:
            self.moved(lambda: self.debugger.stopped('step'))
        return '\n'.join(lines) or 'done'

    def completions(self, given: Arguments) -> dict:
        text = given.text('text')
        before = text[:max(given.number('column', 0, 1 << 24) - self.first_column, 0)]
        word = re.search(r'[\w.$-]*$', before)[0]
        names = [*(COMMANDS if before.strip() == word else ()), *self.debugger.labels.named, *self.debugger.variables.named]
        found = [one for one in dict.fromkeys(names) if word and one.startswith(word)][:100]
        return {'targets': [{'label': one, 'start': len(before) - len(word), 'length': len(word)} for one in found]}

    def loaded_sources(self, given: Arguments) -> dict:
        names = [self.source_path(name) for name in self.debugger.source.names()] or sorted(path for path, labels in self.assembled.files.items() if labels)
        return {'sources': [self.source_told(one) for one in names[:MOST_VARIABLES]]}

    # ---- what is set

    def number_given(self, text: str) -> int:
        return number_of(Expression.of(text).value(self.debugger))

    def place_of(self, name: str) -> tuple[int, int]:
        """The address and size of what an expression stands for."""
        value = Expression.of(name).value(self.debugger)
        if value.type and value.address is not None:
            return value.address, max(value.type.size, 1)
        if value.address is not None:
            return value.address, 2 if name.startswith('word') else 1
        if self.debugger.label(name) is not None:
            return self.debugger.label(name), 1
        raise Wrong(f'{quoted(name)} has no address')

    def place_in(self, reference: int, name: str) -> tuple[int, int]:
        """The address and size of a variable that was told."""
        if reference == HARDWARE:
            return next(address for address, known in NAMES.items() if known == name), 1
        if reference in (GLOBALS, LOCALS):
            variable = self.debugger.variable(name)
            if variable is None or variable.address is None:
                return self.place_of(name)
            return variable.address, max(variable.type.size, 1)
        if reference < FIRST_PART:
            raise Wrong(f'{quoted(name)} has no address')
        kind, address = self.part_of(reference)
        for known, of, at in self.debugger.variables.parts(kind, address, self.debugger.memory):
            if known == name:
                return at, max(of.size, 1)
        raise Wrong(f'there is no {quoted(name)}')

    def write(self, address: int, data: bytes) -> None:
        """Writes bytes as the program would; what is closed stays as it is, and is told."""
        if address < 0x8000:
            raise Wrong('a ROM is not changed: its controller would take the byte')
        for at, byte in enumerate(data):
            self.debugger.timeline.do(f'set {address + at & 0xffff:04X} {byte:02X}')
        if address < 0xff00 and self.debugger.memory(address, len(data)) != data:
            raise Wrong('the bytes are not there: what is closed stays as it is')

    def set_variable(self, given: Arguments) -> dict:
        reference, name, text = given.number('variablesReference', 1, 1 << 30), given.text('name'), given.text('value')
        value = self.number_given(text)
        if reference == REGISTERS:
            return {'value': self.set_register(name, value)}
        if reference == FLAGS and name in FLAG_BITS and value in (0, 1):
            flags = self.debugger.registers().value('F') & ~(1 << FLAG_BITS[name]) | value << FLAG_BITS[name]
            self.debugger.timeline.do(f'set-register F {flags:02X}')
            return {'value': str(value)}
        if reference in (FLAGS, TIME):
            raise Wrong(f'{quoted(name)} is not set so')
        address, size = self.place_in(reference, name)
        if size > 4:
            raise Wrong('a part of it may be set, but not the whole')
        self.write(address, (value & (1 << 8 * size) - 1).to_bytes(size, 'little'))
        return {'value': next((one['value'] for one in self.told_of(reference) if one['name'] == name), str(value))}

    def set_register(self, name: str, value: int) -> str:
        digits = 4 if len(name) == 2 else 2
        if not re.fullmatch('AF|BC|DE|HL|SP|PC|[AFBCDEHL]', name) or not -(1 << 4 * digits - 1) <= value < 1 << 4 * digits:
            raise Wrong(f'{quoted(name)} does not take {value}')
        self.debugger.timeline.do(f'set-register {name} {value & (1 << 4 * digits) - 1:0{digits}X}')
        return f'${self.debugger.registers().value(name):0{digits}X}'

    def set_expression(self, given: Arguments) -> dict:
        name, value = given.text('expression').strip(), self.number_given(given.text('value'))
        if re.fullmatch('AF|BC|DE|HL|SP|PC|[AFBCDEHL]', name):
            return {'value': self.set_register(name, value)}
        address, size = self.place_of(name)
        if size > 4:
            raise Wrong('a part of it may be set, but not the whole')
        self.write(address, (value & (1 << 8 * size) - 1).to_bytes(size, 'little'))
        return {'value': str(value)}

    def read_memory(self, given: Arguments) -> dict:
        address, count = given.place(), given.number('count', 0, 1 << 30)
        read = max(min(count, 0x10000 - address, MOST_READ), 0) if 0 <= address <= 0xffff else 0
        told = {'address': f'0x{max(address, 0):04X}'}
        if read:
            told['data'] = base64.b64encode(self.debugger.memory(address, read)).decode()
        return {**told, **({'unreadableBytes': count - read} if count > read else {})}

    def write_memory(self, given: Arguments) -> dict:
        address = given.place()
        try:
            data = base64.b64decode(given.text('data', most=2 * MOST_READ), validate=True)
        except (binascii.Error, ValueError):
            raise Wrong("'data' is no base64") from None
        if not 0 <= address <= 0xffff or address + len(data) > 0x10000:
            raise Wrong('there is no such memory')
        self.write(address, data)
        return {'bytesWritten': len(data)}

    def disassemble(self, given: Arguments) -> dict:
        address, count = given.place(), given.number('instructionCount', 0, MOST_INSTRUCTIONS)
        offset = given.number('instructionOffset', -MOST_INSTRUCTIONS, MOST_INSTRUCTIONS, 0)
        before, after = min(max(-offset, 0), count), max(count + min(offset, 0), 0)
        rows: list[Optional[str]] = list(self.listed_before(address & 0xffff, max(-offset, 0))[:before]) if before else []
        if after:
            rows += self.debugger.debuggee.listing(address & 0xffff, max(offset, 0) + after)[max(offset, 0):]
        return {'instructions': [self.instruction_told(row) for row in rows]}

    def listed_before(self, address: int, count: int) -> list[Optional[str]]:
        """So many instructions before an address, as far as a listing leads to it; None where there is none."""
        best: list[str] = []
        for start in range(max(address - 3 * count - 3, 0), address):
            if address - start < len(best):
                break
            lines = [one for one in self.debugger.debuggee.listing(start, max(address - start, 1)) if start <= int(one[:4], 16)]
            places = [int(one[:4], 16) for one in lines]
            if address in places:
                best = lines[:places.index(address)]
                break
            if start + 1 == address:
                best = lines[:1]
        found = best[-count:]
        return [None] * (count - len(found)) + found

    def instruction_told(self, row: Optional[str]) -> dict:
        if row is None:
            return {'address': '0x0000', 'instruction': 'none'}
        address, code = int(row[:4], 16), row[5:11].strip()
        names = self.debugger.names(address)
        told = {'address': f'0x{address:04X}', 'instruction': row[12:], 'instructionBytes': ' '.join(code[at:at + 2] for at in range(0, len(code), 2))}
        labels = self.debugger.labels.lines(address, self.debugger.mapped(address)) if names else []
        if labels:
            told['symbol'] = printable(labels[0].partition(':')[0])
        line = self.debugger.source.at.get(address) and self.debugger.line_at(address)
        return {**told, **({'location': self.source_told(self.source_path(line[0])), 'line': self.line_told(line[1])} if line else {})}

    # ---- of its own

    def image(self, given: Arguments) -> dict:
        """A picture of the machine as PNG: the screen, tiles, a map, or the objects."""
        what, memory = given.text('what', 'picture'), self.debugger.memory
        if what not in IMAGES:
            raise Wrong(f'{quoted(what)} is none of {", ".join(IMAGES)}')
        if what == 'picture':
            data, width, height = self.debugger.debuggee.picture().png(), WIDTH, HEIGHT
        else:
            vram, registers = memory(memory_pictures.VRAM, memory_pictures.VRAM_BYTES), memory(memory_pictures.REGISTERS, memory_pictures.REGISTER_BYTES)
            if what == 'tiles':
                canvas = memory_pictures.tiles(vram)
            elif what == 'objects':
                canvas = memory_pictures.objects(vram, memory(memory_pictures.OAM, memory_pictures.OAM_BYTES), registers)
            else:
                canvas = memory_pictures.map_of(vram, memory(int(what[3:], 16), memory_pictures.MAP_BYTES), registers)
            data, width, height = png_of(canvas.shades, canvas.width, canvas.height, 2), canvas.width, canvas.height
        return {'mimeType': 'image/png', 'width': width, 'height': height, 'data': base64.b64encode(data).decode()}

    def press(self, given: Arguments) -> None:
        self.debugger.timeline.press(given.number('buttons', 0, 255))


HANDLERS: dict[str, Callable[[Adapter, Arguments], Optional[dict]]] = {
    'initialize': Adapter.initialize, 'launch': Adapter.launch, 'attach': Adapter.attach, 'configurationDone': Adapter.configuration_done,
    'disconnect': Adapter.disconnect, 'terminate': Adapter.terminate, 'restart': Adapter.restart, 'continue': Adapter.continue_, 'next': Adapter.next,
    'stepIn': Adapter.step_in, 'stepOut': Adapter.step_out, 'stepBack': Adapter.step_back, 'reverseContinue': Adapter.reverse_continue,
    'restartFrame': Adapter.restart_frame, 'pause': Adapter.pause, 'gotoTargets': Adapter.goto_targets, 'goto': Adapter.goto,
    'setBreakpoints': Adapter.set_breakpoints, 'setFunctionBreakpoints': Adapter.set_function_breakpoints,
    'setInstructionBreakpoints': Adapter.set_instruction_breakpoints, 'dataBreakpointInfo': Adapter.data_breakpoint_info,
    'setDataBreakpoints': Adapter.set_data_breakpoints, 'setExceptionBreakpoints': Adapter.set_exception_breakpoints,
    'breakpointLocations': Adapter.breakpoint_locations, 'threads': Adapter.threads, 'stackTrace': Adapter.stack_trace, 'scopes': Adapter.scopes,
    'variables': Adapter.variables, 'evaluate': Adapter.evaluate, 'completions': Adapter.completions, 'loadedSources': Adapter.loaded_sources,
    'setVariable': Adapter.set_variable, 'setExpression': Adapter.set_expression, 'readMemory': Adapter.read_memory, 'writeMemory': Adapter.write_memory,
    'disassemble': Adapter.disassemble, 'gbkeep/image': Adapter.image, 'gbkeep/press': Adapter.press}
# what moves the machine, and so waits for its run to end
MOVING = ('continue', 'next', 'stepIn', 'stepOut', 'stepBack', 'reverseContinue', 'restartFrame', 'goto', 'setVariable', 'setExpression', 'writeMemory',
          'gbkeep/press')


def main(words: list[str]) -> None:
    parser = Words(prog=name_of_tool(), usage='%(prog)s [--program GBKEEP]', formatter_class=argparse.RawDescriptionHelpFormatter,
                   description='Debugs a cartridge in an editor, by the Debug Adapter Protocol.', epilog=__doc__)
    parser.add_argument('--program', default=find_program(), metavar='GBKEEP', help='the program (default: %(default)s)')
    asked = parser.parse_args(words)
    if sys.stdin is None:
        raise Failed(f'{name_of_tool()}: standard input is closed')
    adapter = Adapter(Inbox(Input(sys.stdin.fileno())), sys.stdout.buffer, asked.program)
    try:
        adapter.serve()
    finally:
        adapter.end()


def start() -> NoReturn:
    run_tool(main)


if __name__ == '__main__':
    start()
