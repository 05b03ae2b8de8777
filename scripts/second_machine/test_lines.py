"""What `gbkeep test` prints and answers, by the second machine. Written from docs/TESTING_ROMS.md and docs/COMMANDS.md."""
from scripts.second_machine import debug_lines, reference as ref

PASSED, FAILED, UNDECIDED = 'passed', 'failed', 'undecided'
STATUS = {PASSED: (0, b''), FAILED: (1, b'gbkeep: test failed\n'), UNDECIDED: (1, b'gbkeep: test undecided\n')}
SIGNS = {(3, 5, 8, 13, 21, 34): PASSED, (0x42,) * 6: FAILED}


def stays_in_place(at, count):
    """So many bytes from an address on are all in ROM, in WRAM or in HRAM."""
    return at + count <= 0x8000 or 0xC000 <= at and at + count <= 0xE000 or 0xFF80 <= at and at + count <= 0xFFFF


def jumps_to_itself(m):
    """The next step is `JR` or `JP` to its own address, without a condition, and no interrupt can come."""
    if m.ime or m.enable or m.halted or m.stopped or m.locked or m.repeat:
        return False
    code = [m.read(m.pc + i & 0xFFFF, peek=True) for i in range(3)]
    return code[:2] == [0x18, 0xFE] and stays_in_place(m.pc, 2) or code == [0xC3, m.pc & 255, m.pc >> 8] and stays_in_place(m.pc, 3)


def result_of(m):
    """The result that a test leaves in the memory; None where there is none."""
    status, *signature = [m.read(0xA000 + i, peek=True) for i in range(4)]
    return status if signature == [0xDE, 0xB0, 0x61] and status < 0x80 else None


class Test:
    """A ROM that is run until it ends: `why`, and after how many `frames`."""

    def __init__(self, rom, most, moves):
        self.m, self.frames, self.why = ref.Machine(rom), 0, None
        self.debugger = debug_lines.Debugger(self.m)
        for move in moves + [('frames', 0, most)]:
            if move[0] == 'seconds':
                debug_lines.pass_seconds(self.m, move[1])
                continue
            if move[0] == 'power':
                debug_lines.powered(self.m)
                continue
            for _ in range(move[2]):
                self.why = 'frames' if self.frames == most else self.frame(move[1])
                if self.why:
                    return

    def frame(self, buttons):
        """Plays a frame, and answers why the test ends in it or behind it."""
        m = self.m
        m.set_buttons(buttons)
        passed = m.overrun
        while passed < 17556:
            is_break, before = self.debugger.is_before(0x40), m.cycles
            m.step()
            if is_break:
                return 'breakpoint'
            passed += m.cycles - before
        m.overrun = passed - 17556
        self.frames += 1
        if m.left:
            return None
        if result_of(m) is not None:
            return 'memory'
        return 'locked' if m.locked else 'loop' if jumps_to_itself(m) else None

    def text(self):
        sent = bytes(self.m.sent)
        between = b'' if not sent or sent.endswith(b'\n') else b'\n'
        why = self.why or 'frames'
        return sent + between + f'{self.m.registers()}frames {self.frames}\nended {why}\n'.encode()

    def verdict(self):
        sent = bytes(self.m.sent)
        b, c, d, e, h, l = self.m.r[:6]
        sign = SIGNS.get((b, c, d, e, h, l)) if self.why == 'breakpoint' else None
        if self.why == 'memory':
            sign = PASSED if result_of(self.m) == 0 else FAILED
        if b'Failed' in sent or sign == FAILED:
            return FAILED
        return PASSED if b'Passed' in sent or sign == PASSED else UNDECIDED

    def answer(self):
        """Status, standard output and standard error."""
        status, err = STATUS[self.verdict()]
        return status, self.text(), err


# ---- ROMs to try


def sends(rnd, words):
    """Code that sends bytes, and waits for most of them."""
    code = []
    for byte in words:
        code += [0x3E, byte, 0xE0, 0x01, 0x3E, 0x81, 0xE0, 0x02]
        if rnd.random() < 0.95:
            code += [0xF0, 0x02, 0x87, 0x38, 0xFB]      # until SC's bit 7 is 0
    return code


def leaves_result(rnd):
    """Code that opens the cartridge's RAM, if there is some, and leaves a status there, most often with the signature behind it."""
    signature = rnd.choice([[0xDE, 0xB0, 0x61]] * 6 + [[0xDE, 0xB0, 0x60], [0xDF, 0xB0, 0x61], [0xDE, 0xB1, 0x61], [0, 0, 0]])
    code = [0x3E, rnd.choice([0x0A, 0x0A, 0x0A, 0x00]), 0xEA, 0x00, 0x00]
    for place, byte in enumerate([rnd.choice([0, 0, 1, 0x7F, 0x80, 0x81, 0xFF, rnd.randrange(256)])] + signature):
        code += [0x3E, byte, 0xEA, place, 0xA0]
    return code + ([0xAF, 0xEA, 0x00, 0x00] if rnd.random() < 0.2 else [])


def ends(rnd, rom):
    """Code that comes to an end, or does not, at a place that is in ROM, WRAM, HRAM or none of them."""
    kind = rnd.choice(['break', 'break', 'loop', 'loop', 'loop', 'locked', 'halt', 'enabled', 'never', 'stop'])
    signs = rnd.choice([[3, 5, 8, 13, 21, 34], [0x42] * 6, [3, 5, 8, 13, 21, 33], [0x42] * 5 + [0x43], [rnd.randrange(256) for _ in range(6)]])
    code = [byte for register, value in zip((0x06, 0x0E, 0x16, 0x1E, 0x26, 0x2E), signs) for byte in (register, value)]
    code += [0x3E, rnd.choice([0, 0, 1, 4, 31]), 0xE0, 0xFF]
    if kind == 'break': return code + [0x40, 0x18, 0xFD]
    if kind == 'locked': return code + [rnd.choice([0xD3, 0xDB, 0xE3, 0xFC, 0xFD])]
    if kind == 'halt': return code + [0x76, 0x00, 0x18, rnd.choice([0xFC, 0xFD, 0xFE])]
    if kind == 'enabled': return code + [0xFB, 0x18, 0xFE]
    if kind == 'never': return code + [0x3C, 0x18, 0xFD]
    if kind == 'stop': return code + [0x10, 0x00, 0x18, 0xFE]
    place = rnd.choice([0x3FFE, 0x7FFD, 0x7FFE, 0x7FFF, 0xC000, 0xDFFD, 0xDFFE, 0xDFFF, 0xFDFE, 0xFF80, 0xFFFC, 0xFFFD, 0xFFFE, 0x8000, 0x9FFE, 0xA000, 0xFE00])
    jump = rnd.choice([[0x18, 0xFE], [0x18, 0xFE], [0xC3, place & 255, place >> 8], [0xC3, place & 255, place >> 8], [0x20, 0xFE], [0x28, 0xFE], [0xE9], [0x18, 0xFD]])
    for offset, byte in enumerate(jump):
        where = place + offset & 0xFFFF
        if where < 0x8000:
            rom[where] = byte
        else:
            code += [0x3E, byte, 0xEA, where & 255, where >> 8]
    if jump == [0xE9]:
        code += [0x21, place & 255, place >> 8]
    return code + [0xC3, place & 255, place >> 8]


def rom_of(rnd):
    """A ROM that sends words, waits for some frames, and comes to an end."""
    rom = bytearray(0x8000)
    rom[0x147], rom[0x149] = rnd.choice([(0, 0), (8, 2), (3, 2), (0x10, 3), (0x1B, 2)])
    words = rnd.choice([b'', b'', b'Passed', b'Failed', b'Passed\n', b'xPassedFailed', b'Passe', b'PaPassed\r\n', b'FaileFailed\n', b'\xff\0Pass\ned', rnd.randbytes(rnd.randrange(8))])
    code = [0x31, 0xF0, 0xDF] + sends(rnd, words)
    for _ in range(rnd.choice([0, 0, 1, 3])):           # until line 144, and then past it
        code += [0xF0, 0x44, 0xFE, 0x90, 0x20, 0xFA, 0xF0, 0x44, 0xFE, 0x91, 0x20, 0xFA]
    if rnd.random() < 0.4:
        code += leaves_result(rnd)
    code += ends(rnd, rom)
    if rnd.random() < 0.2:
        code += rnd.randbytes(20)
    rom[0x100:0x103] = [0xC3, 0x50, 0x01]
    rom[0x150:0x150 + len(code)] = code
    if rnd.random() < 0.1:
        rom[rnd.randrange(0x150, 0x150 + len(code))] = rnd.randrange(256)
    return bytes(rom)
