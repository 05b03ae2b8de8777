"""Looks inside a cartridge or a game by `gbkeep debug`: a prompt that knows labels, lines and variables of C, and goes back in time.

usage: gbkeep-debug [--save SAVE] [--script SCRIPT] [--do LINE].. [--program GBKEEP] CART [SYM]

CART begins at power-on, or with the game in SAVE, which keeps nothing of what is run here. SYM has labels: a .sym of RGBDS or wla-dx, a .noi or
.map of sdcc. Where none is named, it is the first file beside CART with one of these suffixes that has labels. Lines and variables of C come from a .cdb of
sdcc beside CART. SCRIPT, a script or a recording, goes on while the machine is run. The lines come from the prompt, or from standard input where that is no
terminal; with --do these lines are done and it ends. Then the first wrong line ends it, with status 1. `help` lists the lines. It needs nothing but Python."""
import argparse
import bisect
import collections
import contextlib
import os
import re
import signal
import sys
from collections.abc import Iterable, Iterator, Mapping, Sequence
from pathlib import Path
from typing import NoReturn

from . import divergence, memory_pictures, value_origins
from .c_variables import NOT_AVAILABLE
from .debug_program import BYTE_REGISTERS, MOST_PLACES, WORD_REGISTERS, Access, Change, Opcode, Place, Program, Ran, Stop, Wrong
from .debugger import (ACCESS, BREAK, CALLS, CHANGE, INTERRUPTED, LIMIT, MOST_FRAMES as MOST_CALLS, READ, RESTARTS, STACK_WORDS, WRITE, Debugger, Stopped,
                       watch_stops)
from .game import MOST_FRAMES, MOST_SECONDS, MOST_STATE, find_program
from .input_files import PathLike, WrongInput, printable, read_bytes
from .machines import SLOTS, STATE_HEADER, STATE_MARK
from .memory_pictures import MAP_BYTES, MAPS, OAM, OAM_BYTES, REGISTER_BYTES, REGISTERS, VRAM, VRAM_BYTES, Canvas
from .new_files import Unsafe, new_file
from .pictures import PICTURE_HEADS, PNG_HEAD, png_of
from .script import moves_to_play
from .symbols import SWITCHED, found_labels, found_source, like, quoted
from .tools import Failed, Words, name_of_tool, run_tool, say

HELP = '''\
  step [N]            the next N steps, a line each (1)
  until [N] PLACE..   up to N steps (1,000,000), to one of 1 to 16 places
  until-op [N] XX     up to N steps, to an instruction with the opcode XX
  until-write [N] ADDR [LAST]
                      up to N steps, to one that writes ADDR, or ADDR to LAST
  until-read [N] ADDR [LAST]
                      the same, to one that reads
  until-change [N] ADDR
                      up to N steps, to behind the one that changes the byte at ADDR
  continue            runs to the next breakpoint or watch, without a bound
  profile [N] [PLACE..]
                      up to N steps, to a place; the M-cycles by label, the most first
  frame [BB]          a frame with the buttons BB (00): the sum of 01 right, 02 left,
                      04 up, 08 down, 10 A, 20 B, 40 select, 80 start
  frames BB [N]       N such frames (60); the history is empty then
  seconds N           N seconds of the cartridge's clock
  set ADDR XX         writes the byte XX to ADDR as the program would; the history is empty then
  set-register R XXXX R, such as A, HL or PC, becomes XXXX; the history is empty then
  registers           the registers
  history [N]         the last N instructions (16) that step and until ran, 1,024 at most
  list [ADDR [N]]     N instructions (10) from ADDR on (PC)
  memory ADDR [N]     N bytes (64) from ADDR on
  bank ADDR           the number of the bank that is mapped at ADDR
  serial              the bytes that were sent since the last serial
  picture FILE        writes the picture: PNG where FILE ends in .png, else plain PGM;
                      a FILE that is there has to be a picture
  state FILE          writes the machine's state; a FILE that is there has to be one
  restore FILE        makes the machine the one of the state in FILE, which is one of the same
                      cartridge; the history is empty then
  keep [K]            keeps the machine under K (0), up to 999, until the prompt ends
  back [K]            makes the machine the one that was kept under K (0); the history is empty then
  power               the power switch, off and on: what a battery keeps stays
  digest              the SHA-256 of the machine's snapshot'''
OWN_HELP = '''\
  next                to the next line of source, or one instruction; a call is run
  finish              runs to behind the call that it is in
  over [N]            a step; a call is run to its return, in N steps (1,000,000)
  out [N]             up to N steps, to behind the call that it is in
  break PLACE [if EXPRESSION] [hits N] [log TEXT]
                      a breakpoint; with log it says TEXT, where {EXPRESSION} is its value,
                      and goes on. N is the first hit that stops, or =N, >N, %N and the like
  watch [read|write|access|change] ADDR [LAST] [if ..] [hits ..] [log ..]
                      the same at an access (write), before it, or behind a change
  breakpoints         lists them
  delete [N]..        removes them, or all
  step-back [N]       N steps back (1)
  next-back           to where the line of source begins, or an instruction back; over calls
  continue-back       to the breakpoint or watch before, or the beginning
  finish-back         to the call that it is in
  last-write ADDR [LAST]
                      to before the last step that wrote ADDR, or ADDR to LAST
  last-read ADDR [LAST], last-change ADDR
                      the same of reads; to behind the last step that changed it
  why ADDR            the writes that led to the byte at ADDR, the last one first: from it
                      through registers to where its value came from
  diverge FILE [FRAMES]
                      plays this cartridge and script from power-on beside FILE, another
                      ROM, a script or a recording (3,600 frames): the first step behind
                      which registers differ, or the frame behind which memory does
  goto N              to where frame N of those that were played begins
  goto end            to the end of what was done
  mark [NAME]         names this place in time for goto NAME; lists the names
  press BB            presses these buttons, and lets the others go, without a frame
  print EXPRESSION    its value: registers, [ADDR], labels, variables of C
  locals              the variables of the function of C that it is in
  calls               the calls that are not left; ? where it may be none
  where               registers, flags as letters, LY, the frames that were played, and the
                      next three instructions
  coverage FILE       writes the M-cycles of each profile so far as a tracefile of lcov: by
                      line of C, and by label; a FILE that is there has to be one
  tiles FILE          writes the 384 tiles of VRAM as PNG
  map ADDR FILE       writes the map at 9800 or 9C00 as PNG
  objects FILE        writes the 40 objects as PNG
  help, quit

ADDR is a label, LABEL+N, FILE:LINE, or one to four hexadecimal digits, after a $ or not.
PLACE is ADDR, or BANK:ADDR: then that bank has to be mapped there. A label of a switched bank of ROM is
such a place. The first word behind until is N where it is decimal and another one
follows, so an address there needs its $. The first step of until is made wherever it
begins, so that the same line goes on to the next time.

Elsewhere an address has no bank, and the machine may have mapped another one. A label
of a bank above 1 is shown with that bank.

In an EXPRESSION numbers are decimal, and hexadecimal after a $ or 0x. [X] is the byte
at X, word[X] the word, and operators are those of C.

finish and out find the return address as the nearest word on the stack that stands behind
a CALL or an RST. Going back is exact: a run is the same every time. What is done in the
past takes the place of what was done after it. At the prompt Ctrl-C ends a run and gives
the prompt back, and a second one ends the prompt; an empty line is the last one again,
and the beginning of a name, or b, c, n, s, p, bt, rs, rn and rc, stands for the name.'''
COMMANDS = re.findall(r'^  ([a-z-]+) ', f'{HELP}\n{OWN_HELP}', re.M) + ['last-change', 'help', 'quit']
SHORT = {'b': 'break', 'c': 'continue', 'n': 'next', 's': 'step', 'p': 'print', 'bt': 'calls', 'rs': 'step-back', 'rn': 'next-back', 'rc': 'continue-back'}
STEPS, ROOM = (1, 0xffff_ffff), (1, 65_536)
UNTIL, FRAMES, HISTORY, LIST, MEMORY = 1_000_000, 60, 16, 10, 64
# the labels that a profile shows
PROFILE = 20
# what is run between two looks at whether Ctrl-C was pressed, each some tenths of a second
STEP_SLICE, FRAME_SLICE = 1_000, 20
# runs whose next step has to be known by the program to end them, so that they go in one piece
PROMPT_STEPS = (1, 10_000_000)
# a line that nobody types, and the names that are given to places in time
MOST_LINE, MOST_MARKS = 1 << 16, 1000
# what moves the machine, so that the prompt shows where it is
MOVES = ('step', 'until', 'until-op', 'until-write', 'until-read', 'until-change', 'profile', 'frame', 'frames', 'restore', 'back', 'power', 'set',
         'set-register', 'over', 'out', 'continue', 'next', 'finish', 'step-back', 'next-back', 'continue-back', 'finish-back', 'last-write', 'last-read',
         'last-change', 'why', 'goto', 'press')
WATCHES = (READ, WRITE, ACCESS, CHANGE)
# what may stand behind a breakpoint's place
OPTION = re.compile(r'(?:^|(?<=\s))(if|hits|log)(?=\s|$)')


# ---- lines

def few(words, least, most):
    """The words behind a name, of which there have to be so many."""
    if not least <= len(words) <= most:
        wanted = f'{least}' if least == most else f'{least} to {most}'
        raise Wrong(f'words behind it: {len(words)}, and it takes {wanted}')
    return words


def count_of(word, span):
    """A number within its bounds, written in decimal digits."""
    if not re.fullmatch('[0-9]{1,10}', word) or not span[0] <= int(word) <= span[1]:
        raise Wrong(f'{quoted(word)} is no number from {span[0]:,} to {span[1]:,}')
    return int(word)


def byte_of(word):
    if not re.fullmatch('[0-9a-fA-F]{2}', word):
        raise Wrong(f'{quoted(word)} is not two hexadecimal digits')
    return word


def shown(data):
    """Bytes as text: what is not printable as its two hexadecimal digits."""
    return ''.join(chr(byte) if 32 <= byte < 127 or byte == 10 else f'\\x{byte:02x}' for byte in data)


def is_decimal(word):
    return re.fullmatch('[0-9]+', word) is not None


def letters(flags: int) -> str:
    """The flags Z, N, H and C of F, each as its letter or a hyphen."""
    return ''.join(letter if flags >> bit & 1 else '-' for bit, letter in zip((7, 6, 5, 4), 'ZNHC'))


def rom_place(bank: int, address: int) -> tuple[int, int]:
    """Bank and address of a byte of ROM: a label without a bank in the switched half is of bank 1."""
    return max(bank, 1) if address in SWITCHED else 0, address


def spread(cycles: Mapping[tuple[int, int], int], places: Sequence[tuple]) -> Iterator[tuple[tuple[int, int], object, int]]:
    """M-cycles by bank and address, each with the place of the same bank that stands last before it; None where there is none. `places` are in order."""
    starts = [place[:2] for place in places]
    for at, many in sorted(cycles.items()):
        before = bisect.bisect_right(starts, at)
        yield at, places[before - 1][2] if before and starts[before - 1][0] == at[0] else None, many


def record_of(path: PathLike, lines: Mapping[int, int], functions: Mapping[str, tuple[int, int]]) -> Iterator[str]:
    """One file of a tracefile: the counts of its lines, and of functions by their names."""
    yield f'SF:{printable(os.path.abspath(path), MOST_LINE)}\n'
    for name, (line, _) in functions.items():
        yield f'FN:{line},{name}\n'
    for name, (_, many) in functions.items():
        yield f'FNDA:{many},{name}\n'
    if functions:
        yield f'FNF:{len(functions)}\nFNH:{sum(many > 0 for _, many in functions.values())}\n'
    for line, many in sorted(lines.items()):
        yield f'DA:{line},{many}\n'
    yield f'LF:{len(lines)}\nLH:{sum(many > 0 for many in lines.values())}\nend_of_record\n'


class Session:
    """What the lines of a prompt do: each answers the lines that are shown."""

    def __init__(self, debugger: Debugger, script: Sequence[tuple] = (), at_prompt: bool = False):
        self.debugger, self.script, self.at_prompt = debugger, script, at_prompt
        self.timeline, self.debuggee, self.labels, self.source = debugger.timeline, debugger.debuggee, debugger.labels, debugger.source
        self.read = [*debugger.program.read, *(str(one.path) for one in (self.labels, self.source) if one.path)]
        # whether Ctrl-C was pressed while a line is done
        self.interrupted = False
        self.kept: dict[int, bytes] = {}
        self.marks: dict[str, int] = {}
        # the M-cycles of each profile so far, by bank and address
        self.profiled = collections.Counter()

    def do(self, text: str) -> Iterable[str]:
        name, _, rest = text.partition(' ')
        name = self.whole_name(name)
        if name == 'save':
            raise Wrong('a debugger saves nothing')
        if name not in COMMANDS:
            raise Wrong(f'{quoted(name)} is no line, and help lists them' + like(name, COMMANDS))
        # those that have a text of their own take it as it is
        given = rest.strip() if name in ('break', 'watch', 'print') else rest.split()
        return getattr(self, 'do_' + name.replace('-', '_'))(given)

    def whole_name(self, name: str) -> str:
        """The name of a line that is cut short, at the prompt by its beginning alone."""
        if name in COMMANDS or name in SHORT:
            return SHORT.get(name, name)
        found = [one for one in COMMANDS if one.startswith(name)] if self.at_prompt else []
        return found[0] if len(found) == 1 else name

    # ---- words

    def address(self, word: str) -> int:
        """What a word stands for: a label, a line of source, or hexadecimal digits."""
        return self.debugger.place(word).address

    def span(self, words: Sequence[str]) -> tuple[int, int]:
        """A first and a last address."""
        addresses = [self.address(word) for word in few(words, 1, 2)]
        if addresses[-1] < addresses[0]:
            raise Wrong(f'{quoted(words[-1])} is below {quoted(words[0])}')
        return addresses[0], addresses[-1]

    def counted(self, words: list[str], span: tuple[int, int], default: int = UNTIL) -> tuple[int, list[str]]:
        """The count before other words, where there is one, and these words."""
        has_count = len(words) > 1 and words[0] not in self.labels.named and is_decimal(words[0])
        return (count_of(words[0], span) if has_count else default), words[has_count:]

    # ---- what is shown

    def with_labels(self, lines: Iterable[str]) -> Iterator[str]:
        """Lines of instructions, each behind the labels and the line of source of its address."""
        for line in lines:
            if re.match('[0-9A-F]{4} ', line):
                yield from self.debugger.names(int(line[:4], 16))
            yield line

    def shown_place(self, answer: str) -> list[str]:
        """Where a run stands, with the labels and the line of source of that place."""
        return [' ; '.join([answer, *self.debugger.shown_place(self.debuggee.program.address(answer))])]

    def shown_stop(self, stopped: Stopped) -> list[str]:
        """Where a run stands, and at which breakpoints."""
        return [f'breakpoint {one.shown()}' for one in stopped.breakpoints] + self.shown_place(stopped.line())

    def shown_run(self, ran: Ran) -> list[str]:
        """How a run with a bound ended."""
        return self.shown_place(f'{"stopped" if ran.met else INTERRUPTED if ran.is_ended else LIMIT} {self.debugger.registers().PC:04X}')

    def bytes_of_register(self, name: str) -> int:
        return self.debugger.registers().value(name)

    # ---- lines of the program

    def do_step(self, words):
        count = count_of((few(words, 0, 1) or ['1'])[0], STEPS)
        while count and not self.interrupted:
            part = min(count, STEP_SLICE)
            # all are read before the bank of a label is asked for
            yield from self.with_labels(list(self.timeline.steps(part)))
            count -= part

    def up_to(self, count: int, stops: Iterable[Stop]) -> list[str]:
        """A run to one of these stops, as the program makes it: without breakpoints, and behind the last step it is not looked."""
        return self.shown_run(self.timeline.run(count, stops, self.debugger.goes_on, looks_at_last=False))

    def do_until(self, words):
        if not words:
            raise Wrong('no address follows')
        count, words = self.counted(words, STEPS)
        places = [self.debugger.place(word) for word in words]
        if len(places) > MOST_PLACES:
            raise Wrong(f'there are {len(places)} addresses, and it takes {MOST_PLACES}')
        return self.up_to(count, places)

    def do_until_op(self, words):
        *counts, opcode = few(words, 1, 2)
        count = count_of(counts[0], STEPS) if counts else UNTIL
        return self.up_to(count, [Opcode(int(byte_of(opcode), 16))])

    def accesses(self, is_write, words):
        """A run up to an access of one of two addresses and those between."""
        count, words = self.counted(few(words, 1, 3), STEPS)
        return self.up_to(count, [Access(is_write, *self.span(words))])

    def do_until_write(self, words):
        return self.accesses(True, words)

    def do_until_read(self, words):
        return self.accesses(False, words)

    def do_until_change(self, words):
        count, words = self.counted(few(words, 1, 2), STEPS)
        return self.up_to(count, [Change(self.address(few(words, 1, 1)[0]))])

    def do_profile(self, words):
        has_count = bool(words) and words[0] not in self.labels.named and is_decimal(words[0])
        count, words = count_of(words[0], PROMPT_STEPS if self.at_prompt else STEPS) if has_count else UNTIL, words[has_count:]
        if len(words) > MOST_PLACES:
            raise Wrong(f'there are {len(words)} addresses, and it takes {MOST_PLACES}')
        answer, elsewhere, cycles = self.timeline.profile(count, [self.debugger.place(word) for word in words])
        self.profiled.update(cycles)
        return [*self.shown_place(answer), f'elsewhere {elsewhere}', *self.by_label(cycles)]

    def by_label(self, cycles):
        """The M-cycles of each label of ROM, the most first. What no label stands before is told by its address."""
        shown = collections.Counter()
        for (bank, address), name, many in spread(cycles, self.rom_labels()):
            shown[name or f'{bank:04X}:{address:04X}'] += many
        return [f'{many:10} {name}' for name, many in shown.most_common(PROFILE)]

    def rom_labels(self):
        return sorted((*rom_place(bank, address), name) for name, (bank, address) in self.labels.named.items() if address < 0x8000)

    def do_coverage(self, words):
        return self.written(Path(few(words, 1, 1)[0]), ''.join(self.tracefile()).encode(), (b'TN:',))

    def tracefile(self):
        """What the profiles ran, in the format that `man geninfo` of lcov defines: a file for each source of C, and one for the labels."""
        yield 'TN:gbkeep\n'
        lines = collections.defaultdict(collections.Counter)
        places = sorted((*rom_place(bank, address), (name, line)) for address, found in self.source.at.items() for bank, name, line in found if address < 0x8000)
        for _, _, (name, line) in places:
            lines[name][line] = 0
        for _, place, many in spread(self.profiled, places):
            if place:
                lines[place[0]][place[1]] += many
        for name, counts in sorted(lines.items()):
            path = next((one for one in self.source.paths_of(name) if one.exists()), self.source.paths_of(name)[0])
            yield from record_of(path, counts, {})
        labels = self.rom_labels()
        counts = collections.Counter({name: 0 for _, _, name in labels})
        for _, name, many in spread(self.profiled, labels):
            if name:
                counts[name] += many
        if counts:
            numbers = self.labels.numbers
            yield from record_of(self.labels.path, {numbers[name]: many for name, many in counts.items()}, {name: (numbers[name], many) for name, many in counts.items()})

    def do_frame(self, words):
        return [self.timeline.frames(int(byte_of((few(words, 0, 1) or ["00"])[0]), 16), 1)]

    def do_frames(self, words):
        buttons, count = (*few(words, 1, 2), str(FRAMES))[:2]
        left, buttons, answer = count_of(count, (1, MOST_FRAMES)), int(byte_of(buttons), 16), ''
        while left and not self.interrupted:
            part = min(left, FRAME_SLICE)
            answer, left = self.timeline.frames(buttons, part), left - part
        return [answer if not left else f'interrupted, {left} frames before its end']

    def do_seconds(self, words):
        return [self.timeline.do(f'seconds {count_of(few(words, 1, 1)[0], (0, MOST_SECONDS))}')]

    def do_set(self, words):
        address, byte = few(words, 2, 2)
        return [self.timeline.do(f'set {self.address(address):04X} {byte_of(byte)}')]

    def do_set_register(self, words):
        register, value = few(words, 2, 2)
        register = register.upper()
        if register in WORD_REGISTERS:
            return [self.timeline.do(f'set-register {register} {self.address(value):04X}')]
        if len(register) != 1 or register not in BYTE_REGISTERS:
            raise Wrong(f'{quoted(register)} is none of {", ".join((*BYTE_REGISTERS, *WORD_REGISTERS))}')
        return [self.timeline.do(f'set-register {register} {byte_of(value)}')]

    def do_registers(self, words):
        few(words, 0, 0)
        return [self.debuggee.program.ask('registers')]

    def do_history(self, words):
        lines = self.timeline.history(count_of((few(words, 0, 1) or [str(HISTORY)])[0], ROOM))
        return [f'history {len(lines)}', *self.with_labels(lines)]

    def do_list(self, words):
        words = few(words, 0, 2) or [f'{self.bytes_of_register("PC"):04X}']
        place, count = self.debugger.place(words[0]), count_of((*words, str(LIST))[1], ROOM)
        lines, other = self.debugger.listing(place, count)
        if other is not None:
            yield f'bank {place.bank:02X} can\'t be mapped here, and this is bank {other:02X}'
        if place.bank is None or other is not None or place.address not in SWITCHED:
            yield from self.with_labels(lines)
            return
        for line in lines:
            address = int(line[:4], 16)
            yield from self.labels.lines(address, place.bank) + self.source.lines(address, place.bank)
            yield line

    def do_memory(self, words):
        word, number = (*few(words, 1, 2), str(MEMORY))[:2]
        address, count = self.address(word), count_of(number, ROOM)
        return self.debuggee.program.lines(f'memory {address:04X} {count}', (count + 15) // 16)

    def do_bank(self, words):
        return [self.debuggee.program.ask(f'bank {self.address(few(words, 1, 1)[0]):04X}')]

    def do_serial(self, words):
        few(words, 0, 0)
        data = self.debuggee.serial()
        return [f'serial {len(data)}', *([shown(data)] if data else [])]

    def do_picture(self, words):
        path = Path(few(words, 1, 1)[0])
        picture = self.debuggee.picture()
        return self.written(path, picture.png() if path.suffix == '.png' else picture.pgm, PICTURE_HEADS)

    def do_state(self, words):
        path = Path(few(words, 1, 1)[0])
        return self.written(path, self.debuggee.state(), (STATE_MARK,))

    def do_restore(self, words):
        path = few(words, 1, 1)[0]
        try:
            state = read_bytes(path, MOST_STATE)
        except (OSError, WrongInput) as error:
            raise Wrong(str(error)) from None
        if len(state) < STATE_HEADER or not state.startswith(STATE_MARK):
            raise Wrong(f'{quoted(path)} is no state: give a file that `state` has written')
        if not state.startswith(self.debuggee.state()[:STATE_HEADER]):
            raise Wrong(f'{quoted(path)} is a state of another cartridge: begin with that one, or give a state of this one')
        try:
            return [self.timeline.do(f'restore {len(state)}', state)]
        except Wrong:
            raise Wrong(f'{quoted(path)} is damaged: give another state of this cartridge') from None

    def slot(self, words):
        return count_of((few(words, 0, 1) or ['0'])[0], (0, SLOTS - 1))

    def do_keep(self, words):
        slot = self.slot(words)
        # the numbers of the program are those of the machines that are kept to go back
        self.kept[slot] = self.debuggee.state()
        return [f'kept {slot}']

    def do_back(self, words):
        slot = self.slot(words)
        if slot not in self.kept:
            raise Wrong(f'no machine is kept under {slot}')
        self.timeline.do(f'restore {len(self.kept[slot])}', self.kept[slot])
        return [f'back {slot}']

    def do_power(self, words):
        few(words, 0, 0)
        return [self.timeline.do('power')]

    def do_digest(self, words):
        few(words, 0, 0)
        return [self.debuggee.digest()]

    # ---- lines of the prompt's own

    def do_continue(self, words):
        few(words, 0, 0)
        return self.shown_stop(self.debugger.run())

    def do_next(self, words):
        few(words, 0, 0)
        lines: list[str] = []
        stopped = self.debugger.by_line(over=True) if self.source.at else self.debugger.over(lines.append)
        return [*self.with_labels(lines), *self.shown_stop(stopped)]

    def do_finish(self, words):
        few(words, 0, 0)
        return self.shown_stop(self.debugger.finish())

    def options(self, text: str) -> tuple[str, dict[str, str]]:
        """What stands before `if`, `hits` and `log`, and what behind each."""
        parts = OPTION.split(text)
        found: dict[str, str] = {}
        for at in range(1, len(parts), 2):
            if parts[at] in found or 'log' in found:
                # behind `log` stands a text
                last = 'log' if 'log' in found else parts[at]
                if last != 'log':
                    raise Wrong(f'{quoted(last)} stands there twice')
                found[last] += parts[at] + parts[at + 1]
            else:
                found[parts[at]] = parts[at + 1]
        return parts[0].strip(), {name: word.strip() for name, word in found.items()}

    def added(self, kind: str, stops: Iterable[Stop], text: str, options: dict[str, str]) -> list[str]:
        for name, word in options.items():
            if not word:
                raise Wrong(f'nothing stands behind {quoted(name)}')
        one = self.debugger.add(kind, stops, text, options.get('if', ''), options.get('hits', ''), options.get('log'))
        return [f'breakpoint {one.shown()}']

    def do_break(self, text):
        word, options = self.options(text)
        word = few(word.split(), 1, 1)[0]
        name, colon, rest = word.rpartition(':')
        source = self.source.known(name) if colon and is_decimal(rest) and len(rest) < 8 else None
        return self.added(BREAK, self.debugger.line(source, int(rest)) if source else [self.debugger.place(word)], word, options)

    def do_watch(self, text):
        text, options = self.options(text)
        words = text.split()
        kind = words.pop(0) if words and words[0] in WATCHES and len(words) > 1 else WRITE
        first, last = self.span(few(words, 1, 2))
        if kind == CHANGE and last - first >= MOST_PLACES:
            raise Wrong(f'a change of more than {MOST_PLACES} bytes is not watched')
        if last == first and len(words) == 1 and (variable := self.debugger.variables.named.get(words[0])):
            last = first + min(max(variable.type.size, 1), MOST_PLACES) - 1
        return self.added(kind, watch_stops(kind, first, last), ' '.join(words), options)

    def do_breakpoints(self, words):
        few(words, 0, 0)
        return [one.shown() for one in self.debugger.breakpoints.values()] or ['there are no breakpoints']

    def do_delete(self, words):
        known = self.debugger.breakpoints
        numbers = [count_of(word, (1, STEPS[1])) for word in words] or list(known)
        for one in numbers:
            if one not in known:
                raise Wrong(f'there is no breakpoint {one}')
        for one in numbers:
            known.pop(one, None)
        return []

    def do_step_back(self, words):
        return self.shown_stop(self.debugger.step_back(count_of((few(words, 0, 1) or ['1'])[0], STEPS)))

    def do_next_back(self, words):
        few(words, 0, 0)
        return self.shown_stop(self.debugger.line_back())

    def do_continue_back(self, words):
        few(words, 0, 0)
        return self.shown_stop(self.debugger.run_back())

    def do_finish_back(self, words):
        few(words, 0, 0)
        return self.shown_stop(self.debugger.finish_back())

    def last(self, stops: Iterable[Stop], what: str) -> list[str]:
        found = self.debugger.last_met(stops)
        if found is False:
            raise Wrong(f'in the past that is known nothing has {what} it')
        return self.shown_stop(self.debugger.stopped(INTERRUPTED if found is None else 'stopped'))

    def do_last_write(self, words):
        return self.last([Access(True, *self.span(words))], 'written')

    def do_last_read(self, words):
        return self.last([Access(False, *self.span(words))], 'read')

    def do_last_change(self, words):
        return self.last([Change(self.address(few(words, 1, 1)[0]))], 'changed')

    def do_why(self, words):
        address, here = self.address(few(words, 1, 1)[0]), self.timeline.now
        for at, what in value_origins.links(self.debugger, address):
            yield ' ; '.join([f'{self.debuggee.listing(at, 1)[0]} ; {what}', *self.debugger.shown_place(at)])
        self.timeline.goto(here)

    def do_diverge(self, words):
        name, most = (*few(words, 1, 2), str(divergence.MOST_FRAMES))[:2]
        most, cart = count_of(most, (1, MOST_FRAMES)), self.debugger.cart
        is_rom = Path(name).suffix in ('.gb', '.gbc')
        other = self.script if is_rom else list(moves_to_play(cart, name))
        program = self.debuggee.program.process.args[0]
        programs = []
        try:
            for one in (cart, name if is_rom else cart):
                programs.append(Program(program, one))
            found = divergence.parted((programs[0], programs[1]), (self.script, other), most, self.debugger.goes_on)
            if found is None:
                return ['interrupted' if self.interrupted else f'they are the same for {most:,} frames']
            where = f'frame {found.frame}' + (f', step {found.step}' if found.step is not None else '')
            return [f'they differ behind {where}: {found.words}', *(f'{which} {registers.PC:04X}' + ''.join(f' ; {one}' for one in self.debugger.shown_place(registers.PC))
                                                                   for which, registers in (('this one at', found.first), ('the other at', found.second)))]
        finally:
            for one in programs:
                one.kill()

    def do_goto(self, words):
        word = few(words, 1, 1)[0]
        tick = self.timeline.end if word == 'end' else self.marks.get(word)
        if tick is None:
            if not is_decimal(word) or len(word) > 10:
                raise Wrong(f'{quoted(word)} is no frame, no mark, and not `end`')
            tick = self.timeline.tick_of_frame(int(word))
        if tick is None or tick > self.timeline.end:
            raise Wrong(f'{quoted(word)} is not among what was done: {self.timeline.frame(self.timeline.end)} frames were played')
        self.timeline.goto(tick)
        return self.shown_stop(self.debugger.stopped('stopped'))

    def do_mark(self, words):
        if not few(words, 0, 1):
            return list(self.marks) or ['there are no marks']
        if is_decimal(words[0]) or words[0] == 'end' or len(words[0]) > 100:
            raise Wrong(f'{quoted(words[0])} is no name of a mark')
        if len(self.marks) >= MOST_MARKS:
            raise Wrong(f'there are {MOST_MARKS:,} marks, and no more are taken')
        self.marks[words[0]] = self.timeline.now
        return []

    def do_press(self, words):
        self.timeline.press(int(byte_of(few(words, 1, 1)[0]), 16))
        return ['done']

    def do_print(self, text):
        value = self.debugger.value(text)
        if value.text:
            return [f'{value.text} ; {value.type.name} at ${value.address:04X}']
        number = value.number
        return [f'{number} ${number & 0xffff:04X}' + (f' {number & 0xff:08b}' if 0 <= number < 256 else '')]

    def do_locals(self, words):
        few(words, 0, 0)
        function = self.debugger.function()
        if function is None:
            raise Wrong('it is in no function of C that is known')
        variables, memory = self.debugger.variables, self.debugger.memory
        return [f'{printable(one.name)} = ' + (NOT_AVAILABLE if one.address is None else printable(variables.shown(one.type, one.address, memory)))
                for one in function.variables]

    def do_calls(self, words):
        few(words, 0, 0)
        here = self.debugger.registers().PC
        yield ' ; '.join([f'{here:04X}', *self.debugger.shown_place(here)])
        for _, call in zip(range(MOST_CALLS), list(self.debugger.calls())):
            yield ' ; '.join([f'{call.address:04X}' + ('' if call.is_sure else ' ?'), *self.debugger.shown_place(call.address)])

    def do_over(self, words):
        count = count_of((few(words, 0, 1) or [str(UNTIL)])[0], STEPS)
        while True:
            before = self.debugger.registers()
            opcode = self.debuggee.memory(before.PC, 1)[0]
            line, _ = self.timeline.step_to(())
            count -= 1
            yield from self.with_labels([line])
            after = self.debugger.registers()
            is_interrupt = line.startswith('interrupt ')
            target = before.PC if is_interrupt else before.PC + (3 if opcode in CALLS else 1) & 0xffff
            if not is_interrupt and (line == 'wait' or opcode not in CALLS + RESTARTS or after.SP != before.SP - 2 & 0xffff):
                return
            ran, count = self.run_to(target, before.SP, count)
            if not is_interrupt or not ran.met or count <= 0:
                yield from self.shown_run(ran)
                return
            # what the interrupt has put off is still to be run

    def run_to(self, address: int, stack: int, count: int) -> tuple[Ran, int]:
        """Runs up to so many steps to this address with this SP, or one above it, and answers how it ended, and the steps that are left."""
        ran = Ran(0, 0)
        while count > 0:
            ran = self.timeline.run(count, [Place(address)], self.debugger.goes_on, looks_at_last=False)
            count -= ran.steps
            if not ran.met or self.debugger.is_left(stack):
                return ran, count
        return Ran(0, 0), 0

    def do_out(self, words):
        count = count_of((few(words, 0, 1) or [str(UNTIL)])[0], STEPS)
        call = next(self.debugger.calls(), None)
        if call is None:
            raise Wrong(f'no word of the {STACK_WORDS} on the stack stands behind a CALL or an RST')
        return self.shown_run(self.run_to(call.address, call.stack, count)[0])

    def do_where(self, words):
        few(words, 0, 0)
        registers = self.debuggee.program.ask('registers')
        flags = self.bytes_of_register('F')
        shown = re.sub(r'\b(F=[0-9A-F]+)', rf'\1 {letters(flags)}', registers, count=1)
        yield f'{shown} LY={self.debuggee.memory(0xff44, 1)[0]:02X} frame={self.timeline.frame()}'
        pc = self.bytes_of_register('PC')
        if not self.labels.at.get(pc) and not self.source.at.get(pc):
            # between two lines, or behind a label
            yield from (f'; {one}' for one in self.debugger.shown_place(pc))
        yield from self.with_labels(self.debuggee.listing(pc, 3))

    def written(self, path: Path, data: bytes, begins: tuple[bytes, ...] = (PNG_HEAD,)) -> list[str]:
        try:
            with new_file(path, self.read, begins=begins) as file:
                file.write(data)
        except (OSError, Unsafe) as error:
            raise Wrong(str(error)) from None
        return []

    def drawn(self, word: str, canvas: Canvas) -> list[str]:
        return self.written(Path(word), png_of(canvas.shades, canvas.width, canvas.height, 2))

    def do_tiles(self, words):
        return self.drawn(few(words, 1, 1)[0], memory_pictures.tiles(self.debuggee.memory(VRAM, VRAM_BYTES)))

    def do_map(self, words):
        which, name = few(words, 2, 2)
        address = self.address(which)
        if address not in MAPS:
            raise Wrong(f'{quoted(which)} is no map: there are 9800 and 9C00')
        vram, entries = self.debuggee.memory(VRAM, VRAM_BYTES), self.debuggee.memory(address, MAP_BYTES)
        return self.drawn(name, memory_pictures.map_of(vram, entries, self.debuggee.memory(REGISTERS, REGISTER_BYTES)))

    def do_objects(self, words):
        name = few(words, 1, 1)[0]
        vram, oam = self.debuggee.memory(VRAM, VRAM_BYTES), self.debuggee.memory(OAM, OAM_BYTES)
        return self.drawn(name, memory_pictures.objects(vram, oam, self.debuggee.memory(REGISTERS, REGISTER_BYTES)))

    def do_help(self, words):
        return [*HELP.splitlines(), '', *OWN_HELP.splitlines()]


def run(session, text):
    """Does a line, and prints what it shows. False: it is the end."""
    text = text.strip()
    if text.split()[:1] in (['quit'], ['exit']):
        return False
    if text and not text.startswith('#'):
        for line in session.do(text):
            print(line)
        if session.at_prompt and session.whole_name(text.split()[0]) in MOVES:
            for line in session.do('where'):
                print(line)
        sys.stdout.flush()
    return True


# ---- where the lines come from

def completes(labels):
    """Tab completes the name of a line, and labels behind it."""
    try:
        import readline
    except ImportError:
        return

    def complete(word, number):
        first = not readline.get_line_buffer()[:readline.get_begidx()].strip()
        found = [one + ' ' for one in (sorted(COMMANDS) if first else sorted(labels.named)) if one.startswith(word)]
        return found[number] if number < len(found) else None
    readline.set_completer_delims(' ')
    readline.set_completer(complete)
    readline.parse_and_bind('bind ^I rl_complete' if 'libedit' in (readline.__doc__ or '') else 'tab: complete')


@contextlib.contextmanager
def interruptible(session: Session) -> Iterator[None]:
    """While a line is done, the first Ctrl-C asks it to end, and a second one ends the prompt."""
    def pressed(*_):
        if session.interrupted:
            raise KeyboardInterrupt
        session.interrupted = True
    session.interrupted = False
    before = signal.signal(signal.SIGINT, pressed)
    try:
        yield
    finally:
        signal.signal(signal.SIGINT, before)


def prompt(session):
    completes(session.labels)
    session.at_prompt = True
    run(session, 'where')
    last = ''
    while True:
        try:
            text = last = input('gbkeep> ').strip() or last
        except KeyboardInterrupt:
            print()
            continue
        except EOFError:
            print()
            return
        try:
            with interruptible(session):
                if not run(session, text):
                    return
        except Wrong as wrong:
            print(wrong)


def typed() -> Iterator[str]:
    """The lines of standard input, of which none may be long."""
    while line := sys.stdin.buffer.readline(MOST_LINE):
        if len(line) == MOST_LINE and not line.endswith(b'\n'):
            raise Wrong(f'standard input has a line of more than {MOST_LINE:,} bytes')
        yield line.decode(errors='surrogateescape')


def done(session, lines: Iterable[str], place):
    """Lines that nobody types: the first wrong one ends it."""
    for number_of_line, text in enumerate(lines, 1):
        try:
            if not run(session, text):
                return
        except Wrong as wrong:
            raise Wrong(f'{place} {number_of_line}: {wrong}') from None


def asked_of(words: list[str]) -> argparse.Namespace:
    parser = Words(prog=name_of_tool(), usage='%(prog)s [--save SAVE] [--script SCRIPT] [--do LINE].. [--program GBKEEP] CART [SYM]',
                   description='Looks inside a cartridge or a game.', epilog=f'Lines:\n{HELP}\n\n{OWN_HELP}', formatter_class=argparse.RawDescriptionHelpFormatter)
    parser.add_argument('--save', metavar='SAVE', help='begins with the game in SAVE, which keeps nothing of this')
    parser.add_argument('--script', metavar='SCRIPT', help='a script or a recording, whose inputs go on while it runs')
    parser.add_argument('--do', '-c', action='append', metavar='LINE', help='does this line, and ends; may be given again')
    parser.add_argument('--program', default=find_program(), metavar='GBKEEP', help='the program (default: %(default)s)')
    parser.add_argument('cart', metavar='CART', help='the ROM file')
    parser.add_argument('sym', nargs='?', metavar='SYM', help='its labels (default: CART with the suffix .sym, .noi or .map, if it is there)')
    return parser.parse_args(words)


def main(words: list[str]) -> None:
    asked, program, session = asked_of(words), None, None
    try:
        labels, warnings = found_labels(asked.cart, asked.sym)
        source, more = found_source(asked.cart, labels.path)
        for warning in warnings + more:
            say(f'{name_of_tool()}: warning: {warning}')
        script = list(moves_to_play(asked.cart, asked.script)) if asked.script else []
        program = Program(asked.program, asked.cart, asked.save)
        if program.resumed:
            print(program.resumed, flush=True)
        session = Session(Debugger(program, asked.cart, labels, source, script), script)
        session.debugger.goes_on = lambda: not session.interrupted
        session.debugger.say = lambda text: print(text, flush=True)
        if asked.do:
            done(session, asked.do, '--do')
        elif sys.stdin is None:
            pass
        elif sys.stdin.isatty():
            prompt(session)
        else:
            done(session, typed(), 'line')
        program.close()
    except Wrong as wrong:
        raise Failed(f'{name_of_tool()}: {wrong}') from None
    except KeyboardInterrupt:
        print(f'\n{name_of_tool()}: ended, since a run that is interrupted does not go on', file=sys.stderr)
        raise
    finally:
        if session:
            session.debugger.close()
        if program:
            program.kill()


def start() -> NoReturn:
    run_tool(main)


if __name__ == '__main__':
    start()
