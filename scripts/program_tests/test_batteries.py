"""Battery files out of games and into new ones, and what `show` prints of a save file.

What a machine has is read from the snapshot in its save file by the second reader of these files, and its digest is made here."""
import hashlib
import os
import resource
import signal
import subprocess

from gbkeep.save_files import FIXED, Cartridge, Game, chosen_root, inputs_of, snapshot_of
from room import SECONDS

# enables the RAM, latches a clock if there is one, and writes 5A to A000 and C3 to A1FF
WRITES = '3e0a ea0000 af ea0060 3c ea0060 3e5a ea00a0 3ec3 eaffa1 18fe'
# three seconds, a frame in which that program runs, and a day, an hour, a minute and a second
MOVES = 'seconds 3\nframe 00\nseconds 90061\n'
# where a snapshot has the ten registers of its two clocks
CLOCKS = slice(57, 67)
# the registers of a live clock and of a latched one, each in range
REGISTERS = 59, 58, 23, 255, 0xc1, 1, 2, 3, 4, 0x80
# the types that name a battery, and those with a clock
BATTERIES, CLOCKED = (0x03, 0x06, 0x09, 0x0f, 0x10, 0x13, 0x1b, 0x1e), (0x0f, 0x10)
MEBIBYTE = 0x10_0000


def counted(count):
    """So many bytes, of which the one at index i is i times 7, modulo 256."""
    return bytes(7 * at % 256 for at in range(count))


def zeros_but(count, first, last):
    """So many zeros, but for the bytes at 000 and at 1FF."""
    ram = bytearray(count)
    ram[0], ram[0x1ff] = first, last
    return bytes(ram)


def clock_bytes(registers, time=8):
    """Ten registers, and a time of so many zeros."""
    return b''.join(bytes([register, 0, 0, 0]) for register in registers) + bytes(time)


def digest(data):
    return hashlib.sha256(data).hexdigest()


def snapshot_in(room, save):
    """The snapshot in a save file; empty where the file has none."""
    image = room.read(save)
    root = chosen_root(image)
    return snapshot_of(image, root) if root else b''


def limited(room, words, limit, most):
    """Status, standard output and standard error of a run with a limit. Standard output is a file, and a write beyond the size that a file may
    have is an error, not a signal."""
    def limits():
        signal.signal(signal.SIGXFSZ, signal.SIG_IGN)
        resource.setrlimit(limit, (most, most))

    room.runs += 1
    with open(room.folder / 'limited.out', 'wb') as out:
        try:
            done = subprocess.run([room.program, *words.split()], stdin=subprocess.DEVNULL, stdout=out, stderr=subprocess.PIPE, cwd=room.folder,
                                  timeout=SECONDS, preexec_fn=limits)
        except subprocess.TimeoutExpired as late:
            return f'none in {SECONDS} seconds', room.read('limited.out'), late.stderr or b''
    return done.returncode, room.read('limited.out'), done.stderr


# ---- battery files of games

def played(room, name, kind, ram_code):
    """Makes a cartridge and a game of it that has had the three inputs."""
    room.rom(f'{name}.gb', WRITES, {0x147: kind, 0x149: ram_code})
    room.write('moves', MOVES)
    room.done(f'new {name}.gb {name}.gbkeep 400', 'begun 0\n')
    room.done(f'play {name}.gb {name}.gbkeep moves', 'resumed 0\nsaved 3\n')


def exports(room, name, battery):
    """A played game has this battery file, and its save file stays as it was."""
    before = room.read(f'{name}.gbkeep')
    room.done(f'export {name}.gb {name}.gbkeep {name}.out', 'exported 3\n')
    room.expect(f'{name}.out', room.read(f'{name}.out'), battery)
    room.expect(f'{name}.gbkeep', room.read(f'{name}.gbkeep'), before)


def test_the_ram_of_a_game(room):
    for name, kind, ram_code, length in (('mbc1', 0x03, 0x02, 0x2000), ('mbc3', 0x13, 0x03, 0x8000), ('mbc5', 0x1e, 0x02, 0x2000)):
        played(room, name, kind, ram_code)
        exports(room, name, zeros_but(length, 0x5a, 0xc3))


def test_half_bytes_of_mbc2(room):
    played(room, 'mbc2', 0x06, 0x00)
    exports(room, 'mbc2', zeros_but(512, 0x0a, 0x03))


def test_the_clock_stands_behind_the_ram(room):
    # the program latched the clock in the frame, three seconds after power-on
    registers = clock_bytes((4, 1, 1, 1, 0, 3, 0, 0, 0, 0))
    played(room, 'ram', 0x10, 0x02)
    exports(room, 'ram', zeros_but(0x2000, 0x5a, 0xc3) + registers)
    played(room, 'alone', 0x0f, 0x00)
    exports(room, 'alone', registers)


def test_exports_are_refused(room):
    played(room, 'bare', 0x02, 0x02)
    played(room, 'kept', 0x03, 0x02)
    room.rom('other.gb', WRITES, {0x147: 0x1b, 0x149: 0x02})
    room.write('short.gb', bytes(5))
    room.write('blank.gbkeep', bytes(400 * 512))
    saves = 'bare.gbkeep', 'kept.gbkeep', 'blank.gbkeep'
    before = [room.read(save) for save in saves]
    # no save file is looked into before the cartridge is known to have a battery
    for words, why in (('bare.gb bare.gbkeep', 'no battery'), ('bare.gb kept.gbkeep', 'no battery'), ('bare.gb blank.gbkeep', 'no battery'),
                       ('short.gb blank.gbkeep', 'rom length 5'), ('short.gb kept.gbkeep', 'rom length 5'), ('kept.gb blank.gbkeep', 'no session'),
                       ('other.gb kept.gbkeep', 'other cartridge')):
        room.refused(f'export {words} never.out', f'gbkeep: {why}\n')
        room.expect(f'the size of never.out after {words}', room.size('never.out'), None)
        room.expect(f'the save files after {words}', [room.read(save) for save in saves], before)


def test_battery_refusals_as_text(room):
    room.rom('bare.gb', WRITES, {0x147: 0x02, 0x149: 0x02})
    room.rom('kept.gb', WRITES, {0x147: 0x03, 0x149: 0x02})
    room.write('short.gb', bytes(5))
    room.write('blank.gbkeep', bytes(400 * 512))
    room.write('short.sav', bytes(8191))
    room.write('right.sav', bytes(8192))
    room.write('large.gb', bytes(0x147) + b'\x1b\0\x02' + bytes(8 * MEBIBYTE - 0x14a))
    room.refused('export short.gb blank.gbkeep never', 'gbkeep: rom length 5\n')
    room.refused('export bare.gb blank.gbkeep never', 'gbkeep: no battery\n')
    room.refused('export kept.gb blank.gbkeep never', 'gbkeep: no session\n')
    room.refused('import bare.gb right.sav never', 'gbkeep: no battery\n')
    room.refused('import kept.gb short.sav never', 'gbkeep: battery length 8191, 8192 needed\n')
    # in so much memory 8 MiB are read, but no machine has room for its own copy of them; an emulator of another processor takes more for itself
    for battery, why in () if 'GBKEEP_EMULATED' in os.environ else (('short.sav', 'battery length 8191, 8192 needed'), ('right.sav', 'no memory')):
        got = limited(room, f'import large.gb {battery} never', resource.RLIMIT_AS, 23 * MEBIBYTE)
        room.expect(f'an import of {battery} in 23 MiB', got, (1, b'', f'gbkeep: {why}\n'.encode()))
    room.expect('the size of never', room.size('never'), None)
    room.done('import large.gb right.sav large.gbkeep', 'begun 0\n')


def test_batteries_and_clocks(room):
    for kind in (0x00, 0x01, 0x02, 0x03, 0x05, 0x06, 0x08, 0x09, 0x0f, 0x10, 0x11, 0x12, 0x13, 0x19, 0x1a, 0x1b, 0x1c, 0x1d, 0x1e):
        name = f'{kind:02x}'
        ram, has_clock = 512 if kind in (0x05, 0x06) else 0x2000, kind in CLOCKED
        room.rom(f'{name}.gb', WRITES, {0x147: kind, 0x149: 0x02})
        room.write(f'{name}.sav', bytes(ram))
        room.done(f'new {name}.gb {name}.gbkeep', 'begun 0\n')
        if kind in BATTERIES:
            room.done(f'export {name}.gb {name}.gbkeep {name}.out', 'exported 0\n')
            room.expect(f'{name}.out', room.read(f'{name}.out'), bytes(ram + 48 * has_clock))
            room.done(f'import {name}.gb {name}.sav {name}.other', 'begun 0\n')
        else:
            room.refused(f'export {name}.gb {name}.gbkeep {name}.out', 'gbkeep: no battery\n')
            room.refused(f'import {name}.gb {name}.sav {name}.other', 'gbkeep: no battery\n')
            room.expect(f'{name}.out and {name}.other', (room.size(f'{name}.out'), room.size(f'{name}.other')), (None, None))
        # of a type without a battery these two alone show what its file would have
        room.expect(f'the RAM of {name}.gb', room.printed(f'info {name}.gb').split(b'\n')[3:4], [b'ram %d bytes code 02' % ram])
        states = set(room.printed(f'debug {name}.gb', 'digest\nseconds 1\ndigest\n').split(b'\n')[::2])
        room.expect(f'the states of {name}.gb before and after a second', len(states), 2 if has_clock else 1)


# ---- games that begin with a battery file

def at_power_on(room, name, kind, ram_code=0x02):
    """Makes a cartridge and a new game of it, and answers the snapshot of that game."""
    room.rom(f'{name}.gb', WRITES, {0x147: kind, 0x149: ram_code})
    room.done(f'new {name}.gb {name}.first', 'begun 0\n')
    return snapshot_in(room, f'{name}.first')


def takes(room, name, number, first, battery, ram, registers=None):
    """A battery file is taken: the machine is the first one, but has this RAM and these registers, and they are what is written again."""
    given, save, out = (f'{name}.{number}.{end}' for end in ('sav', 'gbkeep', 'out'))
    machine = bytearray(first)
    machine[CLOCKS], machine[FIXED:] = bytes(registers or 10), ram
    room.write(given, battery)
    room.done(f'import {name}.gb {given} {save}', 'begun 0\n')
    room.expect(f'the RAM in {save}', snapshot_in(room, save)[FIXED:], ram)
    room.expect(f'the rest of the machine in {save}', snapshot_in(room, save)[:FIXED], bytes(machine[:FIXED]))
    room.expect(f'the state of {save}', room.printed(f'show {name}.gb {save}').split(b'\n')[5:], [b'state ' + digest(machine).encode(), b''])
    room.done(f'export {name}.gb {save} {out}', 'exported 0\n')
    room.expect(out, room.read(out), ram + (clock_bytes(registers) if registers else b''))


def test_ram_comes_back(room):
    for number, (kind, ram_code, length) in enumerate(((0x03, 0x03, 0x8000), (0x09, 0x02, 0x2000), (0x13, 0x02, 0x2000), (0x1b, 0x05, 0x1_0000),
                                                       (0x1e, 0x04, 0x2_0000), (0x03, 0x00, 0))):
        first = at_power_on(room, f'ram{number}', kind, ram_code)
        takes(room, f'ram{number}', 0, first, counted(length), counted(length))


def test_half_bytes_come_back(room):
    first = at_power_on(room, 'half', 0x06, 0x00)
    takes(room, 'half', 0, first, zeros_but(512, 0xa5, 0x3c), zeros_but(512, 0x05, 0x0c))


def test_clocks_come_back(room):
    for kind in CLOCKED:
        name = f'clock{kind}'
        first = at_power_on(room, name, kind)
        for number, time in enumerate((8, 4)):
            takes(room, name, number, first, counted(0x2000) + clock_bytes(REGISTERS, time), counted(0x2000), REGISTERS)


def test_a_file_without_clocks_leaves_them(room):
    first = at_power_on(room, 'clock', 0x10)
    room.expect('the clocks at power-on', first[CLOCKS], bytes(10))
    takes(room, 'clock', 0, first, counted(0x2000), counted(0x2000), [0] * 10)


def test_registers_have_their_bits(room):
    first = at_power_on(room, 'clock', 0x10)
    takes(room, 'clock', 0, first, counted(0x2000) + b'\xff' * 48, counted(0x2000), 2 * (0x3f, 0x3f, 0x1f, 0xff, 0xc1))


def test_the_rest_is_as_at_power_on(room):
    first = at_power_on(room, 'rest', 0x10)
    takes(room, 'rest', 0, first, counted(0x2000) + clock_bytes(REGISTERS), counted(0x2000), REGISTERS)
    # the RAM is not enabled at power-on, so that all of the memory looks the same
    lines = 'registers\nmemory 0000 65536\n'
    room.done('debug rest.gb rest.0.gbkeep', 'resumed 0\n' + room.printed('debug rest.gb', lines).decode(), lines)
    room.done('debug rest.gb rest.0.gbkeep', 'resumed 0\nA000 FF\ndone\nA000 5A 07\n', 'memory A000 1\nframe 00\nmemory A000 2\n')


def test_imports_are_refused(room):
    for kind in (0x02, 0x03, 0x06, 0x10):
        room.rom(f'{kind:02x}.gb', WRITES, {0x147: kind, 0x149: 0x02})
    # the bytes that are needed, where they are told
    for kind, length, why in ((0x02, 0x2000, 'no battery'), (0x02, 5, 'no battery'), (0x03, 0, 0x2000), (0x03, 0x1fff, 0x2000),
                              (0x03, 0x2001, 0x2000), (0x03, 0x2030, 0x2000), (0x06, 513, 512), (0x10, 0x202b, 0x2000),
                              (0x10, 0x202d, 0x2000), (0x10, 0x2031, 0x2000), (0x10, 0x2030, None), (0x10, 0x202c, None),
                              (0x10, 0x2000, None), (0x03, 0x2000, None)):
        words = f'import {kind:02x}.gb {length}.sav {kind:02x}.{length}.gbkeep'
        room.write(f'{length}.sav', counted(length))
        if why is None:
            room.done(words, 'begun 0\n')
        else:
            room.refused(words, f'gbkeep: {why}\n' if why == 'no battery' else f'gbkeep: battery length {length}, {why} needed\n')
        room.expect(f'{words!r} makes a game', room.size(f'{kind:02x}.{length}.gbkeep') is not None, why is None)


# ---- save files, shown as lines

def titled(room, title):
    """Makes a cartridge with a clock, 8 KiB of RAM and this title."""
    room.rom(f'{title}.gb', '', {0x134: ord(title), 0x147: 0x10, 0x149: 0x02})


def seconds(first, behind):
    """How many seconds these inputs of a game are: each leaves another machine."""
    return [at % 7 + 1 for at in range(first, behind)]


def kept(room, save, sectors, count):
    """Makes a game of `A` with so many seconds in the log of its first generation. No command makes such a file: each takes a game up first."""
    room.done(f'new A.gb {save} {sectors}', 'begun 0\n')
    if not count:
        return
    game = Game(room.read(save), Cartridge(room.read('A.gb')))
    game.count = 0
    game.begin(1, 0, snapshot_in(room, save))
    for number in seconds(0, count):
        for code in inputs_of(('seconds', number)):
            game.give(code)
    game.save()
    room.write(save, game.image)


def lines_of(room, first, count, logged, generation, sectors):
    """What is shown of a game of `A` that has had so many of the seconds, and had this snapshot at power-on."""
    passed = sum(seconds(0, count))
    machine = bytearray(first)
    machine[CLOCKS] = bytes([passed % 60, passed // 60 % 60, passed // 3600]) + bytes(7)
    # a machine that is given the seconds from power-on on is the same
    given = ''.join(f'seconds {number}\n' for number in seconds(0, count))
    room.done('debug A.gb', count * 'done\n' + f'digest {digest(machine)}\n', given + 'digest\n')
    return f'''\
inputs {count}
logged {logged}
generation {generation}
sectors {sectors}
rom {digest(room.read('A.gb'))}
state {digest(machine)}
'''


def shows(room, save, lines):
    """This is shown of a game of `A`, and its file stays as it was."""
    before = room.read(save)
    room.done(f'show A.gb {save}', lines)
    room.expect(f'{save} once it is shown', room.read(save), before)


def test_a_new_game_is_shown(room):
    titled(room, 'A')
    kept(room, 'a.gbkeep', 190, 0)
    shows(room, 'a.gbkeep', lines_of(room, snapshot_in(room, 'a.gbkeep'), 0, 0, 1, 190))


def test_inputs_are_counted(room):
    titled(room, 'A')
    kept(room, 'a.gbkeep', 188, 31)
    first = snapshot_in(room, 'a.gbkeep')
    shows(room, 'a.gbkeep', lines_of(room, first, 31, 31, 1, 188))
    room.done('stream A.gb a.gbkeep', 'resumed 31\nsaved 31\n', 'save\n')
    shows(room, 'a.gbkeep', lines_of(room, first, 31, 0, 2, 188))
    room.done('stream A.gb a.gbkeep', 'resumed 31\nsaved 35\n', ''.join(f'seconds {number}\n' for number in seconds(31, 35)) + 'save\n')
    shows(room, 'a.gbkeep', lines_of(room, first, 35, 4, 3, 188))


def test_shows_are_refused(room):
    titled(room, 'A')
    titled(room, 'B')
    room.write('short.gb', bytes(3))
    room.write('blank.gbkeep', bytes(188 * 512))
    kept(room, 'a.gbkeep', 188, 2)
    before = room.read('a.gbkeep')
    room.refused('show short.gb blank.gbkeep', 'gbkeep: rom length 3\n')
    room.refused('show A.gb blank.gbkeep', 'gbkeep: no session\n')
    room.refused('show B.gb a.gbkeep', 'gbkeep: other cartridge\n')
    room.expect('a.gbkeep and blank.gbkeep', (room.read('a.gbkeep'), room.read('blank.gbkeep')), (before, bytes(188 * 512)))


def test_a_show_may_end_in_any_byte(room):
    """Wherever the output fails, the text up to there went out, and standard error says so."""
    titled(room, 'A')
    kept(room, 'a.gbkeep', 188, 2)
    before = room.read('a.gbkeep')
    text = lines_of(room, snapshot_in(room, 'a.gbkeep'), 2, 2, 1, 188).encode()
    for left in range(len(text)):
        got = limited(room, 'show A.gb a.gbkeep', resource.RLIMIT_FSIZE, left)
        room.expect(f'a show with room for {left} bytes', got, (1, text[:left], b'gbkeep: output failed\n'))
        room.expect(f'a.gbkeep after it was shown in {left} bytes', room.read('a.gbkeep'), before)
    got = limited(room, 'show A.gb a.gbkeep', resource.RLIMIT_FSIZE, len(text))
    room.expect('a show with room for all', got, (0, text, b''))
