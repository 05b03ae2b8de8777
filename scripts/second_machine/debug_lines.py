"""The lines of `gbkeep debug`, read and answered by the second machine: what each asks for, and each byte of the answer. Written from docs/COMMANDS.md,
docs/SNAPSHOT.md and docs/MACHINE.md, by somebody who had read of the code what its calls promise. debug_lines.py --check compares its own parts."""
import collections, copy, hashlib, random, re, sys
from scripts.second_machine import reference as ref
from gbkeep import save_files

MOST_LINE, MOST_SENT, MOST_HISTORY = 512, 65536, 1024
COUNT, HEX = rb'([0-9]{1,10})', rb'[0-9A-Fa-f]'
ADDRESS, BYTE = rb'(' + HEX + rb'{1,4})', rb'(' + HEX + rb'{2})'
SPAN = rb'(' + HEX + rb'{1,4}(?: ' + HEX + rb'{1,4})?)'
PLACE = rb'(?:' + HEX + rb'{1,3}:)?' + HEX + rb'{1,4}'
CONDITION = rb'(?:' + PLACE + rb'|op ' + HEX + rb'{2}|(?:read|write) ' + HEX + rb'{1,4}(?:-' + HEX + rb'{1,4})?|change ' + HEX + rb'{1,4})'


def steps(word): return within(word, 1, 4294967295)
def room(word): return within(word, 1, 65536)
def slot(word): return within(word, 0, 999)
def byte(word): return int(word, 16)
def address(word): return int(word, 16)
def text(word): return word.decode()


def places(words):
    """Banks and addresses: None is each bank."""
    parts = [word.split(b':') for word in words.split()]
    return [(int(part[0], 16) if len(part) == 2 else None, int(part[-1], 16)) for part in parts]


def span(words):
    """A first and a last address; None where the last is below the first."""
    both = [int(word, 16) for word in words.split()]
    return (both[0], both[-1]) if both[0] <= both[-1] else None


def conditions(words):
    """Conditions, each a kind and what it is of; None where a last address is below its first one."""
    words, found = words.split(), []
    while words:
        kind = words.pop(0).decode()
        if kind == 'op': found.append((kind, int(words.pop(0), 16)))
        elif kind == 'change': found.append((kind, int(words.pop(0), 16)))
        elif kind in ('read', 'write'): found.append((kind, span(words.pop(0).replace(b'-', b' '))))
        else: found.append(('place', places(kind.encode())[0]))
    return None if any(of is None for _, of in found) else found


def within(word, low, high):
    """The number, or None where it is none of these."""
    return int(word) if low <= int(word) <= high else None


# the form of each line, and what reads its words
FORMS = [(re.compile(form), name, readers) for form, name, readers in (
    (rb'step ' + COUNT, 'step', (steps,)),
    (rb'until ' + COUNT + rb'((?: ' + PLACE + rb'){1,16})', 'until', (steps, places)),
    (rb'continue ' + COUNT + rb'((?: ' + CONDITION + rb'){1,16})', 'continue', (steps, conditions)),
    (rb'until-op ' + COUNT + b' ' + BYTE, 'until-op', (steps, byte)),
    (rb'until-change ' + COUNT + b' ' + ADDRESS, 'until-change', (steps, address)),
    (rb'until-write ' + COUNT + b' ' + SPAN, 'until-write', (steps, span)),
    (rb'until-read ' + COUNT + b' ' + SPAN, 'until-read', (steps, span)),
    (rb'bank ' + ADDRESS, 'bank', (address,)),
    (rb'profile ' + COUNT + rb'((?: ' + PLACE + rb'){0,16})', 'profile', (steps, places)),
    (rb'set ' + ADDRESS + b' ' + BYTE, 'set', (address, byte)),
    (rb'set-register ([AFBCDEHL]) (' + HEX + rb'{1,2})', 'set-register', (text, byte)),
    (rb'set-register (AF|BC|DE|HL|SP|PC) ' + ADDRESS, 'set-register', (text, address)),
    (rb'frame ' + BYTE, 'frame', (byte,)),
    (rb'frames ' + BYTE + b' ' + COUNT, 'frames', (byte, lambda word: within(word, 1, 1000000))),
    (rb'seconds ' + COUNT, 'seconds', (lambda word: within(word, 0, 4294967295),)),
    (rb'registers', 'registers', ()),
    (rb'history ' + COUNT, 'history', (room,)),
    (rb'list ' + ADDRESS + b' ' + COUNT, 'list', (address, room)),
    (rb'memory ' + ADDRESS + b' ' + COUNT, 'memory', (address, room)),
    (rb'bytes ' + ADDRESS + b' ' + COUNT, 'bytes', (address, room)),
    (rb'serial', 'serial', ()),
    (rb'picture', 'picture', ()),
    (rb'shades', 'shades', ()),
    (rb'power', 'power', ()),
    (rb'keep ' + COUNT, 'keep', (slot,)),
    (rb'back ' + COUNT, 'back', (slot,)),
    (rb'state', 'state', ()),
    (rb'digest', 'digest', ()),
    (rb'position', 'position', ()))]
RESTORE = re.compile(rb'restore ' + COUNT)
MOST_GIVEN = 1048576
# the first bytes of a state, and how many stand in front of its snapshot: these, and the SHA-256 of the ROM
MARK, HEADER = b'GBSTATE1', 40
DAMAGED, OTHER = 'damaged snapshot', 'other cartridge'
# the cartridge types whose RAM and clock a battery keeps
BATTERIES = (0x03, 0x06, 0x09, 0x0F, 0x10, 0x13, 0x1B, 0x1E)


def order_of(line):
    """What a line asks for, as a name and its values; None where it is wrong. An empty line is no line here."""
    if len(line) > MOST_LINE:
        return None
    for form, name, readers in FORMS:
        found = form.fullmatch(line)
        if found:
            values = [read(word) for read, word in zip(readers, found.groups())]
            return None if None in values else (name, *values)
    return None


def given_by(line):
    """How many bytes a line asks for, which stand behind its newline; 0 of any but `restore`."""
    found = RESTORE.fullmatch(line) if len(line) <= MOST_LINE else None
    return (found and within(found[1], 1, MOST_GIVEN)) or 0


def lines_of(text):
    """The lines of an input, the last of which may lack its newline, each with the bytes that it asks for, of which the last may lack some."""
    lines, at = [], 0
    while at < len(text):
        end = text.find(b'\n', at)
        end = len(text) if end < 0 else end
        line = text[at:end]
        at = end + 1 + given_by(line)
        lines.append((line, text[end + 1:at]))
    return lines


# ---- the machine

def snapshot(m):
    """The machine as bytes, by the table of docs/SNAPSHOT.md."""
    b, c, d, e, h, l, f, a = m.r
    kind = {'none': 0, 'MBC1': 1, 'MBC2': 2, 'MBC3': 3, 'MBC3+clock': 4, 'MBC5': 5}[m.kind]

    def word(value): return [value & 255, value >> 8]

    data = list(b'GBSNAP01') + [a, f, b, c, d, e, h, l] + word(m.sp) + word(m.pc)
    data.append(m.ime | m.enable << 1 | m.halted << 2 | m.stopped << 3 | m.locked << 4 | m.repeat << 5)
    data += [m.overrun, m.ie, m.iflag, m.buttons, m.p1] + word(m.counter) + [m.tima, m.tma, m.tac, m.sb, m.sc] + word(m.left)
    data += [m.dma, m.copied, m.lcdc, m.stat, m.scy, m.scx, m.lyc, m.bgp, m.obp0, m.obp1, m.wy, m.wx, m.line_, m.mc, m.window_line]
    data.append(m.seen | m.statsig << 1)
    rom_bank = {0: 0, 1: m.lower}.get(kind, m.bank)
    ram_bank = {1: m.upper, 3: m.select, 4: m.select, 5: m.rambank}.get(kind, 0)
    data += [kind, int(m.ramon)] + word(rom_bank) + [ram_bank, {1: int(m.mode1), 4: int(m.armed)}.get(kind, 0)]
    data += m.live + m.latched + [0] * 61
    picture = [row[at] << 6 | row[at + 1] << 4 | row[at + 2] << 2 | row[at + 3] for row in m.shades for at in range(0, 160, 4)]
    return bytes(data) + bytes(m.vram) + bytes(m.wram) + bytes(m.oam) + bytes(m.hram) + bytes(m.sound) + bytes(picture) + bytes(m.cram)


def header(rom):
    """What a state of this ROM begins with."""
    return MARK + hashlib.sha256(rom).digest()


def state(m):
    """The machine as a state, by docs/SNAPSHOT.md: its snapshot behind the header of its ROM."""
    return header(m.rom) + snapshot(m)


def why_refused(m, given):
    """Makes the machine the one of a state, by the same page. Answers why these bytes are none of its ROM; None where they are one."""
    data = given[HEADER:]
    if len(given) < HEADER or given[:8] != MARK: return DAMAGED
    if given[:HEADER] != header(m.rom): return OTHER
    if not save_files.is_legal(data, save_files.Cartridge(m.rom)): return DAMAGED

    def word(at): return data[at] | data[at + 1] << 8

    m.r[:] = [data[at] for at in (10, 11, 12, 13, 14, 15, 9, 8)]
    m.sp, m.pc = word(16), word(18)
    flags = data[20]
    m.ime, m.enable, m.halted, m.stopped, m.locked, m.repeat = flags & 1, bool(flags & 2), bool(flags & 4), bool(flags & 8), bool(flags & 16), bool(flags & 32)
    m.overrun, m.ie, m.iflag, m.buttons, m.p1 = data[21:26]
    m.counter, (m.tima, m.tma, m.tac, m.sb, m.sc), m.left = word(26), data[28:33], word(33)
    m.dma, m.copied, m.lcdc, m.stat, m.scy, m.scx, m.lyc, m.bgp, m.obp0, m.obp1, m.wy, m.wx, m.line_, m.mc, m.window_line = data[35:50]
    m.seen, m.statsig = bool(data[50] & 1), bool(data[50] & 2)
    kind, m.ramon, bank, mode = data[51], bool(data[52]), word(53), data[56]   # by kind, as `snapshot` has them
    if kind == 1: m.lower, m.upper, m.mode1 = bank, data[55], mode
    if kind in (2, 3, 4, 5): m.bank = bank
    if kind in (3, 4): m.select = data[55]
    if kind == 4: m.armed = bool(mode)
    if kind == 5: m.rambank = data[55]
    m.live, m.latched = list(data[57:62]), list(data[62:67])
    at = 128
    for store in (m.vram, m.wram, m.oam, m.hram, m.sound):
        store[:] = data[at:at + len(store)]
        at += len(store)
    m.shades = [[data[at + 40 * y + x // 4] >> 6 - x % 4 * 2 & 3 for x in range(160)] for y in range(144)]
    m.cram[:] = data[at + 5760:]
    return None


def values_of(m, but=('sent',)):
    """All that a machine holds, but its ROM."""
    return {name: copy.deepcopy(value) for name, value in vars(m).items() if name not in ('ops', 'rom', *but)}


def take_up(m, values):
    for name, value in copy.deepcopy(values).items():
        if name == 'r': m.r[:] = value      # the operations hold this list
        else: setattr(m, name, value)


def powered(m):
    """Switches the power off and on. What was sent is told still."""
    fresh = ref.Machine(m.rom)
    fresh.draws = m.draws
    if m.rom[0x147] in BATTERIES:
        fresh.cram, fresh.live, fresh.latched = m.cram, m.live, m.latched
    take_up(m, values_of(fresh))


def pass_seconds(m, count):
    """So many seconds of the clock, at once where no register is beyond its range."""
    c = m.live
    if m.kind != 'MBC3+clock' or c[4] & 0x40:
        return
    while count and (c[0] > 59 or c[1] > 59 or c[2] > 23):
        m.second()
        count -= 1
    if not count:
        return
    whole = c[0] + 60 * (c[1] + 60 * (c[2] + 24 * (c[3] + 256 * (c[4] & 1)))) + count
    minutes, c[0] = divmod(whole, 60)
    hours, c[1] = divmod(minutes, 60)
    days, c[2] = divmod(hours, 24)
    c[3] = days % 256
    c[4] = c[4] & 0xC0 | days // 256 % 2 | (0x80 if days >= 512 else 0)


def set_register(m, name, value):
    """One of B, C, D, E, H, L, F and A, two of them, or SP or PC."""
    if name in ('SP', 'PC'):
        setattr(m, name.lower(), value)
        return
    for one in reversed(name):
        m.r['BCDEHLFA'.index(one)] = value & (0xF0 if one == 'F' else 0xFF)
        value >>= 8


class Debugger:
    """A machine that is run by lines. It draws from power-on, since `picture` and `state` show what was drawn."""

    def __init__(self, machine):
        self.m = machine
        machine.draws = True
        machine.sent.clear()
        self.history = collections.deque(maxlen=MOST_HISTORY)
        self.kept = {}
        # since the debugger began, whatever becomes of the machine
        self.cycles = self.count = 0

    def step(self):
        before = self.m.cycles
        line = self.m.trace_line()
        self.cycles += self.m.cycles - before
        if not self.m.what:
            self.history.append(line)
        return line

    def is_before(self, opcode):
        """The next step runs an instruction with this opcode: the processor does not wait, and takes no interrupt."""
        m = self.m
        shared = m.ie & m.iflag & 31
        waits = m.locked or m.stopped and m.nibble() == 15 or m.halted and not shared
        return not waits and not (m.ime and shared) and m.read(m.pc) == opcode

    def until(self, limit, is_there):
        """The first step is made wherever it begins."""
        made, there = 0, False
        while made < limit and not there:
            self.step()
            made += 1
            there = made < limit and is_there()
        return '%s %04X\n' % ('stopped' if there else 'limit', self.m.pc)

    def is_at(self, places):
        """PC is one of these, and its bank is mapped."""
        return any(address == self.m.pc and bank in (None, self.m.bank_at(address)) for bank, address in places)

    def until_access(self, limit, first, last, is_write):
        """Up to the step that accesses one of these addresses: a first run counts the steps before it, and a second one makes them."""
        m = self.m
        before = values_of(m, but=())
        m.step()
        made = 1
        while made < limit and not any(first <= at <= last for at in m.accesses()[is_write]):
            made += 1
        take_up(m, before)
        for _ in range(made):
            self.step()
        return '%s %04X\n' % ('stopped' if made < limit else 'limit', m.pc)

    def go_on(self, limit, conditions):
        """Up to the step before which one of these holds, and which: a first run counts the steps before it, and a second one makes them."""
        m, before, number = self.m, values_of(self.m, but=()), 0
        bytes_then = {of: m.read(of, peek=True) for kind, of in conditions if kind == 'change'}
        m.step()
        made = 1
        while made < limit and not number:
            now = [self.is_at([of]) if kind == 'place' else self.is_before(of) if kind == 'op' else kind == 'change' and m.read(of, peek=True) != bytes_then[of]
                   for kind, of in conditions]
            reads, writes = m.accesses()
            also = [kind in ('read', 'write') and any(of[0] <= at <= of[1] for at in (reads if kind == 'read' else writes)) for kind, of in conditions]
            number = next((k for k, holds in enumerate(map(max, now, also), 1) if holds), 0)
            made += not number
        take_up(m, before)
        for _ in range(made):
            self.step()
        return 'stopped %04X %d\n' % (m.pc, number) if number else 'limit %04X\n' % m.pc

    def profile(self, limit, places):
        """Up to one of these places, and the M-cycles by the byte of ROM with which each instruction began."""
        m, taken, elsewhere, made, there = self.m, {}, 0, 0, False
        while made < limit and not there:
            before = m.cycles
            at = m.rom_bank(m.pc) * 16384 + m.pc % 16384 if m.pc < 0x8000 else None
            self.step()
            if at is None or m.what: elsewhere += m.cycles - before
            else: taken[at] = taken.get(at, 0) + m.cycles - before
            made += 1
            there = made < limit and self.is_at(places)
        rows = ''.join('%04X:%04X %d\n' % (at // 16384, at if at < 16384 else 16384 + at % 16384, taken[at]) for at in sorted(taken))
        return '%s %04X\nelsewhere %d\nprofile %d\n%s' % ('stopped' if there else 'limit', m.pc, elsewhere, len(taken), rows)

    def memory(self, at, count):
        rows = []
        for first in range(0, count, 16):
            row = [(at + first + i) & 0xFFFF for i in range(min(16, count - first))]
            rows.append('%04X%s\n' % (row[0], ''.join(' %02X' % self.m.read(place, peek=True) for place in row)))
        return ''.join(rows)

    def bytes(self, at, count):
        return b'bytes %d\n' % count + bytes(self.m.read((at + i) & 0xFFFF, peek=True) for i in range(count))

    def listing(self, at, count):
        rows = []
        for _ in range(count):
            code = [self.m.read((at + i) & 0xFFFF, peek=True) for i in range(3)]
            rows.append(ref.list_line(at, code))
            at = (at + ref.text(code)[0]) & 0xFFFF
        return ''.join(rows)

    def serial(self):
        sent = bytes(self.m.sent[-MOST_SENT:])
        self.m.sent.clear()
        return b'serial %d\n' % len(sent) + sent + b'\n'

    def frames(self, buttons, count):
        for _ in range(count):
            before = self.m.cycles
            self.m.frame(buttons)
            self.cycles += self.m.cycles - before
            self.count += 1
            self.history.clear()
        return 'done\n'

    def obeyed(self, name, *words):
        """Does what an order asks for, and gives its answer; None where the line is wrong after all."""
        m = self.m
        if name == 'step': return ''.join(self.step() for _ in range(words[0]))
        if name == 'until': return self.until(words[0], lambda: self.is_at(words[1]))
        if name == 'until-op': return self.until(words[0], lambda: self.is_before(words[1]))
        if name == 'until-change':
            byte = m.read(words[1], peek=True)
            return self.until(words[0], lambda: m.read(words[1], peek=True) != byte)
        if name in ('until-write', 'until-read'): return self.until_access(words[0], *words[1], name == 'until-write')
        if name == 'continue': return self.go_on(*words)
        if name == 'profile': return self.profile(*words)
        if name == 'bank': return 'bank %04X\n' % m.bank_at(words[0])
        if name == 'frame': return self.frames(words[0], 1)
        if name == 'frames': return self.frames(*words)
        if name == 'seconds':
            pass_seconds(m, words[0])
            return 'done\n'
        if name in ('set', 'set-register'):
            m.write(*words) if name == 'set' else set_register(m, *words)
            self.history.clear()
            return 'done\n'
        if name == 'registers': return m.registers()
        if name == 'history':
            last = list(self.history)[-words[0]:]
            return 'history %d\n%s' % (len(last), ''.join(last))
        if name == 'list': return self.listing(*words)
        if name == 'memory': return self.memory(*words)
        if name == 'bytes': return self.bytes(*words)
        if name == 'serial': return self.serial()
        if name == 'picture': return m.picture()
        if name == 'shades': return b'shades 23040\n' + bytes(3 - shade for row in m.shades for shade in row)
        if name == 'power':
            powered(m)
            self.history.clear()
            return 'done\n'
        if name == 'keep':
            self.kept[words[0]] = values_of(m)
            return 'kept %d\n' % words[0]
        if name == 'back':
            if words[0] not in self.kept:
                return None
            take_up(m, self.kept[words[0]])
            self.history.clear()
            return 'back %d\n' % words[0]
        if name == 'position': return 'position %d %d %d %d %d\n' % (self.cycles, self.count, m.line_, m.mc, m.mode())
        if name == 'state':
            data = state(m)
            return b'state %d\n' % len(data) + data
        return 'digest %s\n' % hashlib.sha256(snapshot(m)).hexdigest()

    def restore(self, given, count):
        if len(given) != count or why_refused(self.m, given):
            return None
        self.history.clear()
        return 'restored\n'

    def answer(self, line, given, number):
        """The answer to a line and the bytes that it asks for, and what it does to the machine."""
        if not line:
            return b''
        count, order = given_by(line), order_of(line)
        text = self.restore(given, count) if count else self.obeyed(*order) if order else None
        if text is None:
            return b'wrong %d\n' % number
        return text if isinstance(text, bytes) else text.encode()

    def answers(self, text):
        """The answer to each line of an input."""
        return [self.answer(line, given, number) for number, (line, given) in enumerate(lines_of(text), 1)]


# ---- lines to try

WRONG = [b'step', b'step 0', b'step 4294967296', b'step 00000000001', b'step -1', b'step +1', b'step 1 1', b'step 0x1', b'step 1 ', b' step 1', b'step  1',
         b'Step 1', b'step\t1', b'step 1\r', b'step 99999999999999999999', b'until', b'until 1', b'until 1 ', b'until 0 100', b'until 4294967296 100',
         b'until 1 :100', b'until 1 1:', b'until 1 1:2:3', b'until 1 1000:100', b'until 1 1:10000', b'until 1 g:1', b'until 1 1 :', b'until 1 1: 1',
         b'until 1 ' + b' '.join([b'0:0'] * 17), b'until-change', b'until-change 1', b'until-change 0 1', b'until-change 1 10000', b'until-change 1 1 1',
         b'until-change 1 1:1', b'until-write', b'until-write 1', b'until-write 0 1', b'until-write 1 10000', b'until-write 1 1 0', b'until-write 1 1 1 1',
         b'until-write 1 FFFF 0', b'until-write 1 1 ', b'until-write 4294967296 1 1', b'until-write 1 0 10000', b'until-read 1 8000 7fff', b'until-read 1 1:1',
         b'continue', b'continue 1', b'continue 0 1', b'continue 1 op', b'continue 1 op 4', b'continue 1 op 404', b'continue 1 read', b'continue 1 read 1-', b'continue 1 read -1',
         b'continue 1 read 2-1', b'continue 1 write 1-2-3', b'continue 1 write 10000', b'continue 1 change', b'continue 1 change 1-2', b'continue 1 change 1:2', b'continue 1 1 ',
         b'continue 1  1', b'continue 1 ' + b' '.join([b'0'] * 17), b'continue 1 ' + b' '.join([b'op 00'] * 17), b'continue 1 until 1', b'continue 1 op 40 read',
         b'continue 1 Op 40', b'continue 4294967296 1', b'until 1 op 40', b'profile 1 change 1', b'continue 1 place 1', b'continue 1 ' + b'write 1000-2000 ' * 7 + b'1000000',
         b'until-read', b'until-read 1 1 1 ', b'until-Read 1 1', b'bank', b'bank 10000', b'bank 1 1', b'bank 1:1', b'bank g',
         b'profile', b'profile ', b'profile 0', b'profile 4294967296', b'profile 1 ', b'profile 1 10000', b'profile 1 :100', b'profile 1 1000:0', b'profile 1 g', b'profile 1  1',
         b'profile -1', b'Profile 1', b'profile x', b'profile 1 1 g', b'profile 1 ' + b' '.join([b'1'] * 17), b'profile 1 1:2:3', b'profile 1\x00', b'profile 100 on',
         b'set', b'set ', b'set 1', b'set C000 1', b'set C000 100', b'set 10000 00', b'set C000 0G', b'set C000 00 ', b'set C000 00 00', b'set  C000 00', b'set 1:4000 00',
         b'set g 00', b'set -1 00', b'Set C000 00', b'set A 00 00', b'set-register', b'set-register A', b'set-register A ', b'set-register A 100', b'set-register A 000',
         b'set-register A G', b'set-register a 00', b'set-register G 00', b'set-register F 1FF', b'set-register AF 10000', b'set-register af 0', b'set-register BC -1',
         b'set-register SP 00000', b'set-register PC', b'set-register PC g', b'set-register IME 1', b'set-register BD 0', b'set-register FA 0', b'set-register A 1 1',
         b'set-register  A 1', b'set-register A\x00 1', b'set_register A 1', b'set-registerA 1', b'set-register HLL 1', b'set-register  1', b'Set-register A 1',
         b'until 1 10000', b'until 1 100 ', b'until 1  100', b'until 1 100 g', b'until 1 ' + b' '.join([b'0'] * 17), b'until-op 1', b'until-op 1 4',
         b'until-op 1 040', b'until-op 1 GG', b'until-op 0 40', b'until-op 1 40 41', b'until_op 1 40', b'frame', b'frame 1', b'frame 1G', b'frames 00 0',
         b'frames 00 1000001', b'frames 00', b'frame 00 1', b'seconds', b'seconds -1', b'seconds 4294967296', b'registers ', b'registers 1', b'Registers',
         b'history', b'history 0', b'history 65537', b'history 1 1', b'list 100', b'list 100 0', b'list 100 65537', b'list 10000 1', b'list  1', b'list g 1',
         b'memory 0', b'memory 0 0', b'memory 0 65537', b'memory 00000 1', b'memory -1 1', b'memory 1 1 1', b'memory 0x10 1', b'bytes', b'bytes 0', b'bytes 0 0', b'bytes 0 65537', b'bytes 10000 1', b'bytes 0 1 1', b'Bytes 0 1', b'bytes  0 1', b'shades 1', b'shades ', b'Shades', b'serial 1', b'serial\0', b'picture 1',
         b'state 0', b'state\r', b'digest 0', b'digest ', b'Digest', b'position 1', b'position ', b'Position', b'restore', b'restore ', b'restore 0', b'restore 1048577', b'restore 4294967296', b'restore -1',
         b'restore x', b'restore 1 1', b'restore  1', b'Restore 1', b'restore 00000000001',
         b'power ', b'power 1', b'Power', b'keep', b'keep ', b'keep 1000', b'keep -1', b'keep 1 1', b'keep 00000000001', b'keep x', b'Keep 1', b'keep  1', b'back',
         b'back ', b'back 1000', b'back 4294967296', b'back 1 1', b'back  1', b'back 0x1', b'back +1', b'save', b'resume', b'quit', b' ', b'  ', b'\r', b'\0', b'\xff', b'\xc3\xa9', b'step \xd9\xa1', b'x' * 128, b'x' * 129, b'x' * 512, b'x' * 513,
         b'registers' + b' ' * 119, b'registers' + b' ' * 120, b'0' * 1023, b'0' * 1024, b'0' * 1025, b's' * 5000]


def seen_in(rom, steps):
    """The addresses at which a ROM's first steps begin, and the bytes that stand there."""
    m = ref.Machine(rom)
    seen = {}
    for _ in range(steps):
        seen[m.pc] = m.read(m.pc, peek=True)
        m.step()
    return sorted(seen), sorted(set(seen.values()))


def a_line(rnd, most, seen):
    """A line that is right."""
    places, opcodes = seen

    def place():
        at = rnd.choice([rnd.randrange(65536), rnd.choice(places), rnd.choice(places), 0xFFFF - rnd.randrange(20), 0xFE00 + rnd.randrange(160),
                         0x8000 + rnd.randrange(0x2000), 0xA000 + rnd.randrange(0x2000), 0xFF00 + rnd.randrange(256), 0x40 + 8 * rnd.randrange(5)])
        return rnd.choice(['%X', '%04x', '%04X']) % at

    def count(high): return rnd.choice(['%d', '%d', '%05d', '%010d']) % rnd.randrange(1, high + 1)

    def banked(): return rnd.choice(['', '', '%X:' % rnd.choice([0, 1, 1, 2, 3, rnd.randrange(512)])]) + place()

    def spanned():
        first = int(place(), 16)
        last = min(first + rnd.choice([0, 1, 15, 255, rnd.randrange(65536)]), 0xFFFF)
        return rnd.choice(['%04X %04x' % (first, last), '%X' % first])

    def condition():
        return rnd.choice([banked, banked, lambda: 'op %02X' % rnd.choice([0x40, *opcodes]), lambda: 'change ' + place(),
                           lambda: rnd.choice(['read ', 'write ']) + spanned().replace(' ', '-')])()

    def register():
        name = rnd.choice(['A', 'F', 'B', 'C', 'D', 'E', 'H', 'L', 'AF', 'BC', 'DE', 'HL', 'SP', 'PC'])
        return '%s %s' % (name, rnd.choice(['%X', '%02x']) % rnd.randrange(256) if len(name) == 1 else place())

    choice = rnd.randrange(31)
    if choice < 2: return 'step ' + count(most // 4 + 1)
    if choice < 4: return 'until %s %s' % (count(most), ' '.join(banked() for _ in range(rnd.choice([1, 1, 2, 3, 12]))))
    if choice < 6: return 'until-op %s %02x' % (count(most), rnd.choice([0x40, rnd.choice(opcodes), rnd.choice(opcodes), rnd.randrange(256)]))
    if choice == 6: return rnd.choice(['frame %02X', 'frames %02x 1']) % rnd.choice([0, 0, 1, 0x80, 0xFF, rnd.randrange(256)])
    if choice == 7: return 'seconds %d' % rnd.choice([0, 1, 59, 60, 3600, 86400, 44236800, 4294967295, rnd.randrange(200000)])
    if choice == 8: return 'history ' + rnd.choice(['1', '3', '1024', '65536', count(100)])
    if choice == 9: return 'list %s %s' % (place(), count(rnd.choice([1, 20, 300])))
    if choice == 10: return '%s %s %s' % (rnd.choice(['memory', 'memory', 'bytes']), place(), rnd.choice(['1', '16', '17', count(300), count(300), '65536']))
    if choice == 11: return 'bank ' + place()
    if choice == 12: return 'until-change %s %s' % (count(most), place())
    if choice < 15: return 'until-write %s %s' % (count(most), spanned())
    if choice < 17: return 'until-read %s %s' % (count(most), spanned())
    if choice < 20: return '%s %s' % (rnd.choice(['keep', 'back']), rnd.choice(['0', '0', '1', '00001', '999', '%d' % rnd.randrange(1000)]))
    if choice == 20: return rnd.choice(['power', 'registers', 'position'])
    if choice == 21: return 'set %s %02X' % (place(), rnd.choice([0, 1, 0x0A, 0x81, 0xFF, rnd.randrange(256)]))
    if choice == 22: return 'set-register ' + register()
    if choice < 25: return ' '.join(['profile', count(most), *[banked() for _ in range(rnd.choice([0, 0, 1, 2, 16]))]])
    if choice < 29: return ' '.join(['continue', count(most), *[condition() for _ in range(rnd.choice([1, 1, 2, 3, 8]))]])
    return rnd.choice(['registers', 'serial', 'digest', 'position', 'position'] + ['picture', 'shades', 'state'] * (rnd.random() < 0.2))


# what a `restore` may be given, and what a stream answers to it: None where it goes on
GIVEN = {'own': {None}, 'field': {None, DAMAGED}, 'mark': {DAMAGED}, 'digest': {OTHER}, 'bare': {DAMAGED}, 'header': {DAMAGED}, 'short header': {DAMAGED},
         'cut': {DAMAGED}, 'longer': {DAMAGED}, 'other': {OTHER}, 'other header': {OTHER}, 'other length': {OTHER}, 'own header': {None, DAMAGED}}


def given_as(rnd, kind, own, others):
    """Bytes of a kind, of the states of a machine and of machines with another ROM: a state, one with a bit of its header or behind it turned, a part
    of one, one with more behind it, or the header of one with the snapshot of another one."""
    state, other = rnd.choice(own), rnd.choice(others)
    if kind == 'field': return turned(rnd, state, HEADER + rnd.choice([rnd.randrange(len(state) - HEADER), rnd.randrange(128), rnd.randrange(128)]))
    if kind == 'mark': return turned(rnd, state, rnd.randrange(8))
    if kind == 'digest': return turned(rnd, state, rnd.randrange(8, HEADER))
    if kind == 'bare': return state[HEADER:]
    if kind == 'header': return state[:HEADER]
    if kind == 'short header': return state[:rnd.randrange(1, HEADER)]
    if kind == 'cut': return state[:rnd.randrange(HEADER + 1, len(state))]
    if kind == 'longer': return state + rnd.randbytes(rnd.choice([1, 512]))
    if kind == 'other': return other
    if kind == 'other header': return other[:HEADER] + state[HEADER:]
    if kind == 'other length': return rnd.choice([other[:HEADER], other[:rnd.randrange(HEADER, len(other))], other + rnd.randbytes(rnd.choice([1, 512, 8192]))])
    if kind == 'own header': return state[:HEADER] + other[HEADER:]
    return state


def turned(rnd, data, at):
    """The same bytes with a bit turned in one of them."""
    return data[:at] + bytes([data[at] ^ 1 << rnd.randrange(8)]) + data[at + 1:]


def changed(rnd, rom):
    """A ROM that differs in one bit of its code: it has the same header, and so the same controller and RAM."""
    return turned(rnd, bytes(rom), rnd.choice([rnd.randrange(0x100, 0x104), rnd.randrange(0x150, len(rom))]))


def a_restore(rnd, own, others, kind=None):
    """A `restore` with its bytes, half of them states of the machine's own ROM where no kind is named."""
    given = given_as(rnd, kind or rnd.choice(['own', rnd.choice(list(GIVEN))]), own, others)
    return b'restore %d\n' % len(given) + given


def miscounted(rnd, own, others):
    """A `restore` whose number is none, or not that of its bytes: some of them are lines then, or what follows is taken for bytes."""
    given = given_as(rnd, rnd.choice(list(GIVEN)), own, others)
    count = len(given) + rnd.choice([-HEADER, -8, -1, 1, 8, HEADER])
    if count < 1 or rnd.random() < 0.5:
        return b'restore ' + rnd.choice([b'0', b'1048577', b'4294967295', b'99999999999999999999', b'-1', b'x', b'', b'22647 ', b'2 2']) + b'\n'
    return b'restore %d\n' % count + given


def random_lines(rnd, count, most, wrong, seen):
    """An input of lines that are right, wrong and empty, and of arbitrary bytes. A run has `most` steps at most. The last line may lack its newline."""
    lines = []
    for _ in range(count):
        chance = rnd.random()
        if chance > wrong: lines.append(a_line(rnd, most, seen).encode())
        elif chance > wrong / 2: lines.append(rnd.choice(WRONG))
        elif chance > wrong / 4: lines.append(b'')
        elif chance > wrong / 8: lines.append(spoilt(rnd, a_line(rnd, most, seen).encode()))
        else: lines.append(rnd.randbytes(rnd.choice([1, 3, 10, 200])).replace(b'\n', b''))
    return b'\n'.join(lines) + rnd.choice([b'', b'\n', b'\n', b'\n\n'])


def spoilt(rnd, line):
    """A line with a byte that is another, gone or there once more. It may be right still, but asks for no more steps: no two words become one."""
    at = rnd.randrange(len(line))
    before, byte, after = line[:at], line[at:at + 1], line[at + 1:]
    shorter = before + (b'' if byte != b' ' else b'  ') + after
    other = before + rnd.choice([b' ', b'\r', b'\0', b'\xff', b'G']) + after
    return rnd.choice([shorter, other, before + b' ' + byte + after, line + b'\r', before, line.upper(), line.replace(b' ', b'\t')])


def check_states(rnd, rom):
    """Each kind of bytes has the answers that it is listed with, and no others; a machine that refuses some is as it was."""
    machine, other = ref.Machine(rom), bytearray(rom)
    other[0x147], other[0x149] = 0x13, rnd.choice([code for code in ref.RAMS if code != rom[0x149]])
    own, others = [state(machine)], [state(ref.Machine(one)) for one in (changed(rnd, rom), changed(rnd, rom), other)]
    machine.r[0] ^= 0xFF
    own.append(state(machine))
    for kind, wanted in GIVEN.items():
        found = set()
        for _ in range(40):
            before, given = snapshot(machine), given_as(rnd, kind, own, others)
            why = why_refused(machine, given)
            if snapshot(machine) != (before if why else given[HEADER:]): sys.exit('%s, %s: another machine' % (kind, why))
            found.add(why)
        if found != wanted: sys.exit('a restore of the kind %s: %r' % (kind, found))


def check():
    """A reader by words beside the one by forms, on many lines; seconds one by one beside all at once; states of each kind."""
    def by_words(line):
        if len(line) > 512 or not line: return None
        words = line.split(b' ')

        def number(word, low, high):
            if not 1 <= len(word) <= 10 or not all(0x30 <= one <= 0x39 for one in word) or not low <= int(word) <= high: raise ValueError
            return int(word)

        def hexes(word, least, most):
            if not least <= len(word) <= most or not all(one in b'0123456789abcdefABCDEF' for one in word): raise ValueError
            return int(word, 16)

        def banked(word):
            bank, colon, address = word.rpartition(b':')
            return hexes(bank, 1, 3) if colon else None, hexes(address, 1, 4)

        name, rest = words[0], words[1:]
        try:
            if name in (b'registers', b'serial', b'picture', b'shades', b'state', b'digest', b'position', b'power') and not rest: return (name.decode(),)
            if name == b'step' and len(rest) == 1: return 'step', number(rest[0], 1, 2 ** 32 - 1)
            if name == b'history' and len(rest) == 1: return 'history', number(rest[0], 1, 2 ** 16)
            if name in (b'list', b'memory', b'bytes') and len(rest) == 2: return name.decode(), hexes(rest[0], 1, 4), number(rest[1], 1, 2 ** 16)
            if name == b'until-op' and len(rest) == 2: return 'until-op', number(rest[0], 1, 2 ** 32 - 1), hexes(rest[1], 2, 2)
            if name == b'until' and 2 <= len(rest) <= 17: return 'until', number(rest[0], 1, 2 ** 32 - 1), [banked(word) for word in rest[1:]]
            if name == b'continue' and len(rest) >= 2:
                steps, words, found = number(rest[0], 1, 2 ** 32 - 1), rest[1:], []
                while words:
                    kind, words = words[0], words[1:]
                    if kind not in (b'op', b'read', b'write', b'change'):
                        found.append(('place', banked(kind)))
                        continue
                    if not words: return None
                    word, words = words[0], words[1:]
                    if kind == b'op': found.append(('op', hexes(word, 2, 2)))
                    if kind == b'change': found.append(('change', hexes(word, 1, 4)))
                    if kind in (b'read', b'write'):
                        ends = [hexes(end, 1, 4) for end in word.split(b'-')]
                        if len(ends) > 2 or ends[-1] < ends[0]: return None
                        found.append((kind.decode(), (ends[0], ends[-1])))
                return ('continue', steps, found) if len(found) <= 16 else None
            if name == b'profile' and 1 <= len(rest) <= 17: return 'profile', number(rest[0], 1, 2 ** 32 - 1), [banked(word) for word in rest[1:]]
            if name == b'until-change' and len(rest) == 2: return 'until-change', number(rest[0], 1, 2 ** 32 - 1), hexes(rest[1], 1, 4)
            if name in (b'until-write', b'until-read') and 2 <= len(rest) <= 3:
                first, last = hexes(rest[1], 1, 4), hexes(rest[-1], 1, 4)
                return (name.decode(), number(rest[0], 1, 2 ** 32 - 1), (first, last)) if last >= first else None
            if name in (b'keep', b'back') and len(rest) == 1: return name.decode(), number(rest[0], 0, 999)
            if name == b'bank' and len(rest) == 1: return 'bank', hexes(rest[0], 1, 4)
            if name == b'set' and len(rest) == 2: return 'set', hexes(rest[0], 1, 4), hexes(rest[1], 2, 2)
            if name == b'set-register' and len(rest) == 2:
                most = 2 if rest[0] in (b'A', b'F', b'B', b'C', b'D', b'E', b'H', b'L') else 4 if rest[0] in (b'AF', b'BC', b'DE', b'HL', b'SP', b'PC') else 0
                return ('set-register', rest[0].decode(), hexes(rest[1], 1, most)) if most else None
            if name == b'frame' and len(rest) == 1: return 'frame', hexes(rest[0], 2, 2)
            if name == b'frames' and len(rest) == 2: return 'frames', hexes(rest[0], 2, 2), number(rest[1], 1, 1000000)
            if name == b'seconds' and len(rest) == 1: return 'seconds', number(rest[0], 0, 2 ** 32 - 1)
        except ValueError:
            pass
        return None

    rnd = random.Random(1)
    seen = collections.Counter()
    for _ in range(5000):
        for line, _ in lines_of(random_lines(rnd, 5, 100, 0.4, ([0x100], [0x40]))):
            if not line: continue
            order = order_of(line)
            if order != by_words(line): sys.exit('%r: %r and %r' % (line, order, by_words(line)))
            seen[order[0] if order else 'wrong'] += 1
    for line in WRONG:
        if order_of(line) is not None: sys.exit('%r is not wrong: %r' % (line, order_of(line)))
    rom = bytearray(32768)
    rom[0x147] = 0x10
    for _ in range(300):
        one, other = ref.Machine(rom), ref.Machine(rom)
        start = [rnd.randrange(64), rnd.randrange(64), rnd.randrange(32), rnd.choice([0, 255, rnd.randrange(256)]), rnd.choice([0, 1, 1, 0x80, 0x81, 0x40])]
        one.live, other.live = list(start), list(start)
        count = rnd.choice([0, 1, 60, 4000, rnd.randrange(200000)])
        for _ in range(count): one.second()
        pass_seconds(other, count)
        if one.live != other.live: sys.exit('%d seconds from %r: %r and %r' % (count, start, one.live, other.live))
    for code in (0, 2, 3, 4, 5):
        rom[0x149] = code
        if len(state(ref.Machine(rom))) != 40 + 22607 + 1024 * ref.RAMS[code]: sys.exit('a state has another length')
        check_states(rnd, bytes(rom))
    print('lines: %s' % ', '.join('%d %s' % (many, name) for name, many in seen.most_common()))


if __name__ == '__main__':
    if sys.argv[1:2] == ['--check']:
        check()
    else:       # ROM: answers the lines of standard input
        debugger = Debugger(ref.Machine(open(sys.argv[1], 'rb').read()))
        sys.stdout.buffer.write(b''.join(debugger.answers(sys.stdin.buffer.read())))
