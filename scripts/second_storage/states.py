"""The kind `states` of hostile.py: streams with states, whole and in pieces, over games that were played.

Each line is read and answered by a second machine, byte for byte: states, memory, pictures, and each byte of SAVE, which this kind knows whole. Bytes of
each kind that debug_lines.py has are given, in random streams, and then each in one of its own: states of the game, of a ROM that differs from its own in one
bit, of another cartridge, snapshots without a header, and what is cut, longer, or has a bit turned."""
import re
import hostile
from debugs import first_difference, given
from hostile import CART, SAVE, SCRIPT, differs, gbkeep, random_rom
from gbkeep.save_files import Cartridge, Game, Refused, get, moves_of, put
from scripts.second_machine import debug_lines, reference

MOST_LINE, MOST_GIVEN = 64, 1048576


class KnownGame(Game):
    """A save file whose snapshots are those of a machine."""

    def __init__(self, image, cart, machine):
        super().__init__(image, cart)
        self.machine = machine

    def begin(self, generation, base, snapshot):
        super().begin(generation, base, debug_lines.snapshot(self.machine) if snapshot is None else snapshot)


class Stream:
    """What a stream answers to an input, and how it ends."""

    def __init__(self, game, machine):
        self.game, self.m = game, machine
        self.debugger = debug_lines.Debugger(machine)
        self.kept = {}

    def move(self, move):
        if move[0] == 'frames':
            for _ in range(move[2]):
                self.m.frame(move[1])
                self.game.give(b'\0' + bytes([move[1]]))
        elif move[0] == 'seconds':
            debug_lines.pass_seconds(self.m, move[1])
            self.game.give(b'\1' + move[1].to_bytes(4, 'little') + b'\0')
        else:
            self.game.save()

    def told(self, text):
        self.game.report += text if isinstance(text, bytes) else text.encode()

    def obey(self, line, data, asked):
        """Does what a line asks for. Answers whether it is right; raises Refused at bytes that are no state of the ROM."""
        slot = re.fullmatch(rb'(keep|back) ([0-9]{1,10})', line)
        memory = re.fullmatch(rb'memory ([0-9A-Fa-f]{1,4}) ([0-9]{1,10})', line)
        if len(line) > MOST_LINE:
            return False
        if asked:
            why = debug_lines.DAMAGED if len(data) != asked else debug_lines.why_refused(self.m, data)
            if why:
                raise Refused(why)
            self.game.give(None)
            self.told(b'restored\n')
        elif line == b'picture':
            self.told(self.m.picture())
        elif line == b'state':
            data = debug_lines.state(self.m)
            self.told(b'state %d\n' % len(data) + data)
        elif line == b'power':
            debug_lines.powered(self.m)
            self.game.give(None)
        elif memory and 1 <= int(memory[2]) <= 65536:
            self.told(self.debugger.memory(int(memory[1], 16), int(memory[2])))
        elif slot and int(slot[2]) <= 999 and slot[1] == b'keep':
            self.kept[int(slot[2])] = debug_lines.values_of(self.m)
            self.told(b'kept %d\n' % int(slot[2]))
        elif slot and int(slot[2]) in self.kept:
            debug_lines.take_up(self.m, self.kept[int(slot[2])])
            self.game.give(None)
            self.told(b'back %d\n' % int(slot[2]))
        else:
            try:
                moves = moves_of(line)
            except Refused:
                return False
            for move in moves:
                self.move(move)
        return True

    def run(self, text):
        """Status and errors of a stream of these lines."""
        at, number, fault = 0, 0, None
        while at < len(text) and fault is None:
            end = text.find(b'\n', at)
            end = len(text) if end < 0 else end
            line, number = text[at:end], number + 1
            found = re.fullmatch(rb'restore ([0-9]{1,10})', line) if len(line) <= MOST_LINE else None
            asked = int(found[1]) if found and 1 <= int(found[1]) <= MOST_GIVEN else 0
            at = end + 1 + asked
            try:
                if line and not self.obey(line, text[end + 1:at], asked):
                    fault = 'script line %d' % number
            except Refused as why:
                fault = str(why)
        if self.game.pending:
            self.game.save()
        return (1, b'gbkeep: %s\n' % fault.encode()) if fault else (0, b'')


def lines_for(rnd, own, others):
    """Lines, most of them right, some with states."""
    text = b''
    for _ in range(rnd.choice([3, 8, 25])):
        chance = rnd.random()
        if chance < 0.25:
            text += rnd.choice([b'frame %02x\n' % rnd.randrange(256), b'seconds %d\n' % rnd.choice([0, 1, 61, 86400]), b'frames 01 2\n', b'\n', b'save\n'])
        elif chance < 0.55:
            text += rnd.choice([b'keep %d\n', b'keep %d\n', b'back %d\n', b'back 00%d\n']) % rnd.choice([0, 1, 2, 999])
        elif chance < 0.65:
            text += b'power\n'
        elif chance < 0.75:
            text += rnd.choice([b'state\n', b'picture\n', b'memory %04X %d\n' % (rnd.randrange(65536), rnd.choice([1, 16, 17, 300]))])
        elif chance < 0.97:
            wrong = rnd.random()
            text += debug_lines.miscounted(rnd, own, others) if wrong < 0.05 else debug_lines.a_restore(rnd, own, others, None if wrong < 0.25 else 'own')
        else:
            text += rnd.choice([b'power 1\n', b'keep\n', b'keep 1000\n', b'state \n', b'memory 1 0\n', b'memory 10000 1\n', b'registers\n', b'restore\n'])
    return text[:-rnd.randrange(1, 3000)] if rnd.random() < 0.1 else text


def taken(rnd, rom):
    """A state of a machine with this ROM, some steps after power-on."""
    machine = reference.Machine(rom)
    for _ in range(rnd.randrange(300)):
        machine.step()
    return debug_lines.state(machine)


def streamed(rnd, seed, text, game, machine):
    """Gives SAVE a stream of these lines, and compares all that it answers and leaves. Answers whether they agree."""
    game.resume()
    status, err = Stream(game, machine).run(text)
    want = (status, game.report, err)
    got = given(rnd, ['stream', CART, SAVE], text)
    left = get(SAVE)
    if got != want:
        differs('states', seed, '%r, %r: %s' % ((got[0], got[2]), (want[0], want[2]), first_difference(want[1], got[1])))
    elif left != bytes(game.image):
        differs('states', seed, 'SAVE is left with other bytes: %s' % first_difference(bytes(game.image), left))
    else:
        return True
    put('differs.lines', text)
    return False


def states(rnd, seed):
    rom = random_rom(rnd)
    cart = Cartridge(rom)
    put(CART, rom)
    hostile.new_game(rnd, rom, cart)
    machine = reference.Machine(rom)
    machine.draws = True
    first = rnd.randrange(3)
    put(SCRIPT, b'frame 01\n' * first)
    gbkeep('play', CART, SAVE, SCRIPT)
    for _ in range(first):
        machine.frame(1)
    own, others = ([taken(rnd, one) for one in roms] for roms in ([rom, rom], [debug_lines.changed(rnd, rom), random_rom(rnd)]))
    if not streamed(rnd, seed, lines_for(rnd, own, others), KnownGame(get(SAVE), cart, machine), machine):
        return
    # what was given before bytes that are refused is saved, and nothing behind them is done
    for kind in debug_lines.GIVEN:
        text = b'seconds %d\n' % rnd.choice([0, 1, 61]) + debug_lines.a_restore(rnd, own, others, kind) + b'seconds 2\n'
        if not streamed(rnd, seed, text, KnownGame(get(SAVE), cart, machine), machine):
            return
    if not hostile.compare_play('states', seed, get(SAVE), cart, hostile.short_script(rnd), 'behind a stream with states'):
        put('differs.lines', text)
