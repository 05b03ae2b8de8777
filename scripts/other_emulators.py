"""Carries battery files between gbkeep and two other emulators, there and back, and compares them byte for byte.

usage: other_emulators.py [--program PATH]     PATH is bin/gbkeep if left out

It is not in the gate: it needs mGBA's library, gambatte as a libretro core and a C compiler (Debian's libmgba-dev, libretro-gambatte and gcc), says
which is missing, and installs none. The status is 0 only if all is equal.

The cartridges are its own: they fill their RAM, set their clock if there is one, and then count frames in RAM, a half byte a byte so that MBC2
can, and at each frame change one more byte of some bank; a clock is latched and read at each frame, and its registers stand in RAM, too. Where the
RAM is a game's already, nothing is filled or set. So what a RAM has to hold after any count is known (`filled`, `played`), whoever ran it.

For each emulator and cartridge: the emulator begins a game, plays it and leaves its battery file; `import` takes it, and `export` has to give it
back; `play` plays it on, and `export` has to be the known RAM; the emulator reads that file, and before it runs its RAM has to be the file's; then
it plays on twice, and what it writes has to be the known RAM. A line says how many bytes and registers were equal in these comparisons.

The clock is compared at times of day that the script sets and that stand still (mGBA has a call for that; for gambatte a `time` of the script's own
stands before the system's), since both emulators add to a clock the time since the file was written. `export` writes 0 as that time, and
python/gbkeep/battery.py, whose converters these are, puts in the time at which the emulator reads the file, so that nothing has passed.

- mGBA: all ten registers of its file, in which the two clocks are an hour apart and the days have run over, have to come back. It reads only the
  latched clock and the time; the game latches at each frame, so the two clocks of what `play` left are equal.
- gambatte: its battery file has no clock. Beside it lies NAME.rtc, the Unix time at which the clock was 0, in eight bytes. The script makes the 48
  bytes of it and of the registers that the game saw, and the time of the 48 bytes, which is tried when the game sees its clock again. The battery file
  alone is taken, too: then the clock is 0.

MBC2's RAM is 512 half bytes. mGBA writes 256 bytes, the lower half byte first, and gambatte 8,192, of which the first 512 are the RAM. `import` refuses
both by their length, which is compared; the script makes 512 bytes of them, and theirs of 512."""
import argparse
import os
import shutil
import subprocess
import sys
import tempfile
from dataclasses import dataclass
from pathlib import Path

from examples.demo.assemble import Assembler
from gbkeep import A, Refused
from gbkeep.battery import battery_of, clock_bytes, from_gambatte, from_mgba, registers_after, to_gambatte, to_mgba
from gbkeep.game import run

TOP = Path(__file__).resolve().parent.parent

CORES = sorted(Path('/usr/lib').glob('*/libretro/gambatte_libretro.so'))
# RETRO_ENVIRONMENT_GET_CAN_DUPE
CAN_REPEAT_PICTURES = 3
MAGIC = bytes([0x5, 0xa, 0x3, 0xc])
COUNT, SEEN, WALK, STEP = 4, 0x10, 0x100, 0x35
DAY = 86400
# the frames that gbkeep plays, the time of day, and the seconds that pass in gbkeep and in the emulators
FRAMES, NOW, PASSED, LATER = 300, 1_000_000_000, 100_000, 3_723

# `start` takes up the RAM of a game, or fills it; `again` is one frame
SOURCE = '''
        org $40
        reti
        org $100
        nop
        jp start
        org $134
        db "BATTERIES"
        org $147
        db {kind}, 0, {code}
        org $150
start:  di
        ld sp, $fffe
        ld a, $0a
        ld [$0000], a
        {mode}
        xor a
        ld [$4000], a
        ld hl, $a000
        ld de, magic
        ld b, 4
look:   ld a, [de]
        inc de
        ld c, a
        ld a, [hl+]
        and $0f
        cp c
        jr nz, fill
        dec b
        jr nz, look
        jp ready

fill:   ld b, {banks} - 1
        ld c, 7
bank:   ld a, b
        ld [$4000], a
        ld hl, $a000
byte:   ld a, l
        swap a
        xor h
        add a, c
        ld [hl+], a
        ld a, h
        cp {end}
        jr nz, byte
        ld a, c
        add a, $35
        ld c, a
        dec b
        ld a, b
        inc a
        jr nz, bank
        xor a
        ld [$4000], a
        ld hl, $a000
        ld de, magic
        ld b, 8
head:   ld a, [de]
        inc de
        ld [hl+], a
        dec b
        jr nz, head
        {set}

ready:  xor a
        ldh [$0f], a
        inc a
        ldh [$ff], a
        ei
again:  halt
        nop
        ld a, $10
        ldh [$00], a
        ldh a, [$00]
        ldh a, [$00]
        and 1
        jr z, again
        xor a
        ld [$4000], a
        ld hl, $a004
        ld b, 4
up:     ld a, [hl]
        inc a
        and $0f
        ld [hl+], a
        jr nz, walk
        dec b
        jr nz, up
walk:   ld a, [$a005]
        and $0f
        swap a
        ld l, a
        ld a, [$a004]
        and $0f
        or l
        ld l, a
        and {banks} - 1
        ld [$4000], a
        ld h, $a1
        ld a, [hl]
        add a, $35
        ld [hl], a
        {read}
        jp again

magic:  db $05, $0a, $03, $0c, 0, 0, 0, 0
'''

# Halted while it is set, as Pan Docs want it: 56 seconds, 34 minutes, 12 hours, day 291. mGBA counts from the last latch, so there is one before.
SET = '''xor a
        ld [$6000], a
        inc a
        ld [$6000], a
        ld de, values
        ld c, 6
value:  ld a, [de]
        inc de
        ld [$4000], a
        ld a, [de]
        inc de
        ld [$a000], a
        dec c
        jr nz, value
        jp ready
values: db $0c, $40, $08, 56, $09, 34, $0a, 12, $0b, 35, $0c, 1'''
SET_SECONDS = 56 + 60 * (34 + 60 * (12 + 24 * 291))

READ = '''xor a
        ld [$6000], a
        inc a
        ld [$6000], a
        ld b, $08
        ld hl, $a010
part:   ld a, b
        ld [$4000], a
        ld a, [$a000]
        ld c, a
        xor a
        ld [$4000], a
        ld [hl], c
        inc hl
        inc b
        ld a, b
        cp $0d
        jr nz, part'''


@dataclass(frozen=True)
class Cart:
    name: str
    kind: int
    code: int
    ram: int
    has_clock: bool = False
    is_mbc2: bool = False

    def banks(self):
        return max(self.ram // 8192, 1)

    def rom(self):
        mode = 'ld a, 1\n        ld [$6000], a' if self.kind == 0x03 and self.banks() > 1 else ''
        return Assembler().assemble(SOURCE.format(kind=self.kind, code=self.code, banks=self.banks(), mode=mode, end='$a2' if self.is_mbc2 else '$c0',
                                                  set=SET if self.has_clock else '', read=READ if self.has_clock else ''))

    def kept(self, byte):
        return byte & (15 if self.is_mbc2 else 255)

    def filled(self):
        """The RAM that a new game fills."""
        ram = bytearray()
        for bank in range(self.banks()):
            for at in range(self.ram // self.banks()):
                low, high = at % 256, 0xa0 + at // 256
                ram.append(self.kept((low * 16 % 256 + low // 16 ^ high) + 7 + STEP * (self.banks() - 1 - bank) & 255))
        ram[:8] = MAGIC + bytes(4)
        return bytes(ram)

    def played(self, ram, frames, seen):
        """The RAM that so many frames make of one, where the last of them saw the clock at so many seconds."""
        ram = bytearray(ram)
        first, last = count_in(ram), count_in(ram) + frames
        for count in range(first + 1, last + 1):
            at = count % self.banks() * 8192 + WALK + count % 256
            ram[at] = self.kept(ram[at] + STEP & 255)
        ram[COUNT:COUNT + 4] = bytes(last >> 4 * place & 15 for place in range(4))
        if self.has_clock:
            ram[SEEN:SEEN + 5] = registers_after(seen)
        return bytes(ram)

    def clock(self, live, latched):
        """What a file has behind the RAM, of the seconds that the two clocks stand at."""
        return clock_bytes(registers_after(live), registers_after(latched)) if self.has_clock else b''


CARTS = [Cart('MBC1, 8 KiB', 0x03, 2, 8192), Cart('MBC1, 32 KiB', 0x03, 3, 32768), Cart('MBC2', 0x06, 0, 512, is_mbc2=True),
         Cart('MBC3 with clock, 32 KiB', 0x10, 3, 32768, has_clock=True), Cart('MBC5, 32 KiB', 0x1b, 3, 32768)]


def count_in(ram):
    return sum(ram[COUNT + place] << 4 * place for place in range(4))


class Differs(Exception):
    pass


def expect(what, got, wanted):
    if got == wanted:
        return
    if isinstance(wanted, bytes) and len(got) == len(wanted):
        places = [at for at in range(len(got)) if got[at] != wanted[at]]
        raise Differs(f'{what}: {len(places)} bytes differ, the first at {places[0]:#x}: {got[places[0]]:02x}, and not {wanted[places[0]]:02x}')
    raise Differs(f'{what}: {got!r:.200}, and not {wanted!r:.200}')


def told(words, **how):
    done = subprocess.run([str(word) for word in words], capture_output=True, text=True, **how)
    if done.returncode != 0:
        raise Differs(f'{words[0]} {words[1]}: status {done.returncode}, {done.stderr.strip()[-400:]}')
    return done.stdout


class Mgba:
    """mGBA's library. `put` writes its files of a file of gbkeep's, and `get` makes one of them."""
    name, ending = 'mGBA', 'sav'
    # 230 days: the clock runs over, and sets its carry
    away = 230 * DAY + 90_061
    reads_at = NOW

    def __init__(self, room):
        self.program = room / 'mgba_player'
        told(['cc', '-std=gnu11', '-O1', '-o', self.program, TOP / 'scripts/mgba_player.c', '-lmgba'])

    def play(self, rom, path, *words):
        """What each `look` saw: the RAM and the registers of the clock."""
        fields = [bytes.fromhex(line.split()[1]) for line in told([self.program, rom, path, *words]).splitlines()]
        return list(zip(fields[::2], fields[1::2]))

    def held(self, cart, look, path, now):
        """What it holds, as a file of gbkeep's. It has the latched clock alone, and makes the live one of that and of the time since."""
        ram, clock = look
        return from_mgba(ram if cart.is_mbc2 else ram[:cart.ram]).ram + (clock_bytes(clock, clock) if cart.has_clock else b'')

    def put(self, cart, path, battery, now):
        path.write_bytes(to_mgba(battery_of(battery), now))

    def get(self, cart, path, now):
        return from_mgba(path.read_bytes()).data()


def play_gambatte(core, rom, path, words):
    """Plays a cartridge as a front end does, in a process that has the script's own `time`. RAM and time lie beside each other in two files."""
    import ctypes
    from players.libretro import test_libretro

    class FrontEnd(test_libretro.FrontEnd):
        def environment(self, what, data):
            if what == CAN_REPEAT_PICTURES:
                ctypes.cast(data, ctypes.POINTER(ctypes.c_bool))[0] = True
                return True
            return super().environment(what, data)

        def video(self, data, width, height, pitch):
            pass

    path = Path(path)
    set_time = ctypes.CDLL(None).set_time
    set_time.argtypes = [ctypes.c_int64]
    front = FrontEnd(core, path.parent)
    front.core.retro_get_memory_data.restype = ctypes.c_void_p
    image = Path(rom).read_bytes()
    data = ctypes.create_string_buffer(image, len(image))
    if not front.core.retro_load_game(ctypes.byref(test_libretro.Info(os.fsencode(rom), ctypes.addressof(data), len(image), None))):
        sys.exit('gambatte does not take the cartridge')
    # RETRO_MEMORY_SAVE_RAM and RETRO_MEMORY_RTC
    memories = {0: path, 1: path.with_suffix('.rtc')}
    places = {number: (front.core.retro_get_memory_data(number), front.core.retro_get_memory_size(number)) for number in memories}
    for number, file in memories.items():
        if file.exists():
            held = file.read_bytes()
            if len(held) != places[number][1]:
                sys.exit(f'{file} has {len(held)} bytes, and gambatte {places[number][1]}')
            ctypes.memmove(places[number][0], held, len(held))
    words = list(words)
    while words:
        word = words.pop(0)
        if word == 'at':
            set_time(int(words.pop(0)))
        elif word == 'frames':
            front.frames(0, int(words.pop(0)))
        elif word == 'idle':
            front.frames(A, int(words.pop(0)))
        elif word == 'look':
            print('ram', ctypes.string_at(*places[0]).hex())
    for number, file in memories.items():
        if places[number][1]:
            file.write_bytes(ctypes.string_at(*places[number]))
    front.unload()


class Gambatte:
    """gambatte, as a libretro core: the script is the front end. Its battery file is SAVE_RAM, and the time at which its clock was 0 lies beside it."""
    name, ending = 'gambatte', 'srm'
    # no carry: the time has no place for it
    away = 90_061
    reads_at = NOW

    def __init__(self, room):
        self.core = CORES[0]
        self.clock = room / 'clock.so'
        (room / 'clock.c').write_text('#include <time.h>\nstatic time_t now;\nvoid set_time(time_t at) { now = at; }\n'
                                      'time_t time(time_t *to) { if (to) *to = now; return now; }\n')
        told(['cc', '-shared', '-fPIC', '-o', self.clock, room / 'clock.c'])

    def play(self, rom, path, *words):
        """What each `look` saw: the RAM. The core prints lines of its own."""
        lines = told([sys.executable, '-B', __file__, 'gambatte', self.core, rom, path, *words], env=dict(os.environ, LD_PRELOAD=str(self.clock)))
        return [bytes.fromhex(line.split()[1]) for line in lines.splitlines() if line.startswith('ram ')]

    def held(self, cart, look, path, now):
        """What it holds, as a file of gbkeep's: the live clock by the time beside the file, the latched one as the game has seen it."""
        clock = path.with_suffix('.rtc').read_bytes() if cart.has_clock else None
        battery = from_gambatte(look, clock, now, cart.is_mbc2)
        return battery.ram + (clock_bytes(battery.live(), battery.ram[SEEN:SEEN + 5]) if cart.has_clock else b'')

    def put(self, cart, path, battery, now):
        ram, clock = to_gambatte(battery_of(battery), now)
        path.write_bytes(ram)
        if clock is not None:
            path.with_suffix('.rtc').write_bytes(clock)

    def get(self, cart, path, now):
        return self.held(cart, path.read_bytes(), path, now)


def parts(cart, battery):
    """The RAM and the ten registers of a file; the time of writing is left out."""
    return battery[:cart.ram], battery[cart.ram:cart.ram + 40:4]


class Trip:
    """One cartridge and one emulator, there and back."""

    def __init__(self, program, emulator, cart, folder):
        self.program, self.emulator, self.cart, self.folder = program, emulator, cart, folder
        self.rom = folder / 'game.gb'
        self.rom.write_bytes(cart.rom())
        self.bytes = self.registers = self.comparisons = self.exports = 0

    def same(self, what, got, wanted):
        """Two files hold the same RAM and the same registers."""
        (ram, clock), (wanted_ram, wanted_clock) = parts(self.cart, got), parts(self.cart, wanted)
        expect(f'{what}, length', len(got), len(wanted))
        expect(f'{what}, RAM', ram, wanted_ram)
        expect(f'{what}, registers', clock.hex(' '), wanted_clock.hex(' '))
        self.bytes += len(ram)
        self.registers += len(clock)
        self.comparisons += 1

    def export(self, save):
        self.exports += 1
        out = self.folder / f'{self.exports}.exported'
        run(self.program, 'export', str(self.rom), str(save), str(out))
        battery = out.read_bytes()
        expect('the exported time', battery[self.cart.ram + 40:], bytes(8 if self.cart.has_clock else 0))
        return battery

    def begin(self):
        """The emulator's new game, as gbkeep is to read it. While A is held the game rests: only then does mGBA write a clock to its file."""
        cart, emulator, path = self.cart, self.emulator, self.folder / f'begun.{self.emulator.ending}'
        now = NOW + emulator.away
        away = ['at', now, 'frames', 5, 'at', now + LATER] if cart.has_clock else []
        emulator.play(self.rom, path, 'at', NOW, 'frames', 90, *away, 'idle', 30)
        battery = emulator.get(cart, path, now + LATER)
        frames = count_in(battery)
        expect('its frames', 40 < frames < 96, True)
        latched = SET_SECONDS + emulator.away
        self.same('what it writes', battery, cart.played(cart.filled(), frames, latched) + cart.clock(latched + LATER, latched))
        return path, battery

    def take(self, path, battery):
        """`import` of the file itself where it is as long as gbkeep's, and `export` at once."""
        taken, save = self.folder / 'taken.battery', self.folder / 'game.gbkeep'
        taken.write_bytes(battery)
        own = path.read_bytes()
        if self.cart.is_mbc2:
            try:
                run(self.program, 'import', str(self.rom), str(path), str(save))
                raise Differs(f'a file of {len(own)} bytes is taken')
            except Refused as refused:
                expect('what is said of its file', refused.line, f'gbkeep: battery length {len(own)}, 512 needed')
        else:
            expect('its file begins as ours', own[:self.cart.ram], battery[:self.cart.ram])
        if len(own) == len(battery):
            taken = path
        elif len(own) == self.cart.ram:
            other = self.folder / 'other.gbkeep'
            run(self.program, 'import', str(self.rom), str(path), str(other))
            self.same('what is exported of a file without clock', self.export(other), own + bytes(48))
        run(self.program, 'import', str(self.rom), str(taken), str(save))
        self.same('what is exported at once', self.export(save), battery)
        return save

    def go_on(self, save, battery):
        """`play` and `export`; with a clock also between `seconds` and the frame in which the game latches."""
        cart, script = self.cart, self.folder / 'game.script'
        seen = SET_SECONDS + self.emulator.away + LATER
        moves = [(f'frames 00 {FRAMES}\n', FRAMES, seen, seen)]
        if cart.has_clock:
            moves += [(f'seconds {PASSED}\n', 0, seen + PASSED, seen), ('frame 00\n', 1, seen + PASSED, seen + PASSED)]
        for text, frames, live, latched in moves:
            script.write_text(text)
            run(self.program, 'play', str(self.rom), str(save), str(script))
            wanted = cart.played(battery[:cart.ram], frames, latched) + cart.clock(live, latched)
            battery = self.export(save)
            self.same('what is exported after it was played', battery, wanted)
        return battery, live

    def give_back(self, exported, seen):
        """The emulator reads that file, and plays on, at once and then some time later."""
        cart, emulator, path = self.cart, self.emulator, self.folder / f'read.{self.emulator.ending}'
        now = emulator.reads_at
        emulator.put(cart, path, exported, now)
        look, = emulator.play(self.rom, path, 'at', now, 'look')
        self.same('what it reads', emulator.held(cart, look, path, now), exported)
        before = exported
        for passed in (0, LATER):
            emulator.play(self.rom, path, 'at', now + passed, 'frames', 30, 'idle', 30)
            battery = emulator.get(cart, path, now + passed)
            frames = count_in(battery) - count_in(before)
            expect('the frames that it plays', 28 <= frames <= 30, True)
            wanted = cart.played(before[:cart.ram], frames, seen + passed) + cart.clock(seen + passed, seen + passed)
            self.same('what it writes after it played', battery, wanted)
            before = battery


def missing():
    """The Debian packages that are not there."""
    found = []
    if not CORES:
        found.append('libretro-gambatte')
    if not shutil.which('cc'):
        found.append('gcc')
    if not os.path.exists('/usr/include/mgba/core/core.h'):
        found.append('libmgba-dev')
    return found


def carried(trip):
    """What is different, or nothing."""
    try:
        path, battery = trip.begin()
        save = trip.take(path, battery)
        trip.give_back(*trip.go_on(save, battery))
    except (Differs, Refused) as why:
        return f'; DIFFERS: {why.line if isinstance(why, Refused) else why}'
    return ''


def main():
    if sys.argv[1:2] == ['gambatte']:
        return play_gambatte(*sys.argv[2:5], sys.argv[5:])
    parser = argparse.ArgumentParser(usage='other_emulators.py [--program PATH]')
    parser.add_argument('--program', default=str(TOP / 'bin/gbkeep'))
    program = os.path.abspath(parser.parse_args().program)
    if missing():
        sys.exit(f'missing: apt install {" ".join(missing())}')
    if not os.access(program, os.X_OK):
        sys.exit(f'missing: {program} (make build)')
    trips = []
    with tempfile.TemporaryDirectory(prefix='other-emulators-') as folder:
        for kind in (Mgba, Gambatte):
            emulator = kind(Path(folder))
            for number, cart in enumerate(CARTS):
                room = Path(folder) / f'{kind.__name__}-{number}'
                room.mkdir()
                trip = Trip(program, emulator, cart, room)
                wrong = carried(trip)
                clock = f' and {trip.registers} registers' if cart.has_clock else ''
                print(f'{emulator.name}, {cart.name}: {trip.bytes} bytes{clock} equal in {trip.comparisons} comparisons{wrong}', flush=True)
                trips.append((trip.bytes, trip.registers, bool(wrong)))
    bytes_equal, registers_equal, differ = map(sum, zip(*trips))
    print(f'{len(trips)} games carried there and back, {differ} differ: {bytes_equal} bytes and {registers_equal} registers equal')
    return int(differ > 0)


if __name__ == '__main__':
    sys.exit(main())
