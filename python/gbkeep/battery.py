"""Turns battery files of other emulators into those of gbkeep and back, and takes the battery RAM out of a SAVE without its ROM.

usage: gbkeep-battery to-mgba [--now | --time SECONDS] BATTERY OUT            writes OUT for mGBA, of what `gbkeep export` wrote
       gbkeep-battery to-gambatte [--now | --time SECONDS] BATTERY OUT        writes OUT for gambatte; a clock goes beside it, into OUT with the suffix .rtc
       gbkeep-battery from-mgba BATTERY OUT                                   writes OUT for `gbkeep import`, of a file of mGBA's
       gbkeep-battery from-gambatte [--mbc2] [--now | --time SECONDS] BATTERY OUT
                                                                              the same of gambatte's, with the clock of BATTERY with the suffix .rtc, if it is there
       gbkeep-battery to-.. [..] CART SAVE OUT                                as above, of the game in SAVE: it is exported on the way
       gbkeep-battery from-.. [..] CART BATTERY SAVE                          as above, and begins a game in the new file SAVE: it is imported on the way
       gbkeep-battery of-save SAVE OUT                                        writes the RAM of the last checkpoint of SAVE, for `gbkeep import`

No OUT may be there, but for an empty file, which a kill may leave. A clock needs a time: --now is the present one, SECONDS are since 1970. mGBA and
gambatte add to a clock what has passed since then; `gbkeep export` writes 0, since it knows no time. An MBC2 has 512 half bytes: 512 bytes here, 256 of
mGBA's, 8,192 of gambatte's, which --mbc2 tells from another cartridge of that length (CART does, too).

of-save needs no ROM, so that it helps where the one that belongs to SAVE is lost or was changed. It prints `checkpoint N`, the count of inputs that the
RAM is of; `inputs N`, the count of the game's, of which those after the checkpoint are not in it; and `written`, when SAVE was last written."""
import argparse
import contextlib
import errno
import os
import tempfile
import time
from collections.abc import Iterator
from dataclasses import dataclass
from pathlib import Path
from typing import NoReturn, Optional

from . import save_files
from .faults import explained
from .game import Refused, find_program, free_name, header_of, run
from .input_files import MOST_SAVE, PathLike, open_plain, printable, read_bytes
from .new_files import check_target, new_file
from .system import IS_POSIX, SHARED, lock
from .tools import Failed, Words, count_word, name_of_tool, run_tool

MBC2_BYTES, MBC2_OF_MGBA, MBC2_OF_GAMBATTE = 512, 256, 8_192
RAM_SIZES = (0, *sorted(size for size in save_files.RAM.values() if size))
# ten registers in four bytes each, and the time of writing in eight bytes, or in four
REGISTERS, CLOCK, SHORT_CLOCK = 40, 48, 44
MOST_BATTERY = max(RAM_SIZES) + CLOCK
MOST_TIME = 2 ** 40
DAY = 86_400
# a day count of nine bits
MOST_DAYS = 512
KINDS_OF_MBC2 = (0x05, 0x06)
WITH_CLOCK = 4
RUNNING, LATCHED = 57, 62
RTC_BYTES = 8


@dataclass
class Battery:
    """A battery file of gbkeep's: the RAM, and what stands behind it of a clock."""
    ram: bytes
    clock: bytes = b''

    @property
    def is_mbc2(self) -> bool:
        return len(self.ram) == MBC2_BYTES

    @property
    def time(self) -> int:
        return int.from_bytes(self.clock[REGISTERS:], 'little')

    def live(self) -> bytes:
        """The registers of the running clock: seconds, minutes, hours, days, days above 255 with halt and carry."""
        return self.clock[:REGISTERS // 2:4]

    def data(self) -> bytes:
        return self.ram + self.clock


def battery_of(data: bytes) -> Battery:
    """The battery file of these bytes, by their count. Raises ValueError where no cartridge has so many."""
    for size in (*RAM_SIZES, MBC2_BYTES):
        if len(data) - size in (0, CLOCK, SHORT_CLOCK) and data:
            return Battery(data[:size], data[size:])
    raise ValueError(f'no cartridge has a battery file of {len(data):,} bytes')


def clock_bytes(live: bytes, latched: bytes, at: int = 0) -> bytes:
    """The running and the latched registers in four bytes each, and the time of writing."""
    return b''.join(bytes([register, 0, 0, 0]) for register in live + latched) + at.to_bytes(8, 'little')


def registers_after(seconds: int) -> bytes:
    """The registers of a clock after so many seconds from 0. More days than it counts set its carry."""
    days = seconds // DAY
    return bytes([seconds % 60, seconds // 60 % 60, seconds // 3600 % 24, days % 256, days // 256 % 2 + 0x80 * (days >= MOST_DAYS)])


def seconds_of(registers: bytes) -> int:
    """How many seconds from 0 these registers stand at."""
    days = registers[3] + 256 * (registers[4] & 1)
    return registers[0] + 60 * (registers[1] + 60 * (registers[2] + 24 * days))


# ---- mGBA: it has the latched clock alone, and adds to it the time since the time of writing

def to_mgba(battery: Battery, now: Optional[int]) -> bytes:
    if battery.is_mbc2:
        return bytes(low & 15 | (high & 15) << 4 for low, high in zip(battery.ram[::2], battery.ram[1::2]))
    if not battery.clock:
        return battery.ram
    if now is None and battery.time == 0:
        raise Failed('the file has a clock and no time, and mGBA would add what has passed since 1970: --now puts in the present time, --time SECONDS another')
    return battery.ram + clock_bytes(battery.live(), battery.live(), battery.time if now is None else now)


def from_mgba(data: bytes) -> Battery:
    if len(data) == MBC2_OF_MGBA:
        return Battery(bytes(byte >> shift & 15 for byte in data for shift in (0, 4)))
    return battery_of(data)


# ---- gambatte: the clock is a file of its own, the time at which it was 0

def to_gambatte(battery: Battery, now: Optional[int]) -> tuple[bytes, Optional[bytes]]:
    """The battery file, and that of the clock."""
    ram = battery.ram + bytes(MBC2_OF_GAMBATTE - MBC2_BYTES) if battery.is_mbc2 else battery.ram
    if not battery.clock:
        return ram, None
    if now is None:
        raise Failed('the file has a clock, and gambatte wants the time at which it was 0: --now counts back from the present time, --time SECONDS from another')
    return ram, (now - seconds_of(battery.live())).to_bytes(RTC_BYTES, 'little', signed=True)


def from_gambatte(data: bytes, clock: Optional[bytes], now: Optional[int], is_mbc2: bool) -> Battery:
    """The battery file of gambatte's, and of what stands in its file of the clock, if there is one."""
    if is_mbc2:
        if len(data) != MBC2_OF_GAMBATTE:
            raise ValueError(f'gambatte writes {MBC2_OF_GAMBATTE:,} bytes for an MBC2, and this file has {len(data):,}')
        return Battery(bytes(byte & 15 for byte in data[:MBC2_BYTES]))
    battery = battery_of(data)
    if battery.clock or battery.is_mbc2:
        raise ValueError(f'gambatte writes no battery file of {len(data):,} bytes')
    if clock is None:
        return battery
    if len(clock) != RTC_BYTES:
        raise ValueError(f'the clock beside it has {len(clock)} bytes, and gambatte writes {RTC_BYTES}')
    if now is None:
        raise Failed('there is a clock beside it, and what it shows depends on the time: --now is the present one, --time SECONDS another')
    live = registers_after(max(now - int.from_bytes(clock, 'little', signed=True), 0))
    return Battery(battery.ram, clock_bytes(live, live, now))


# ---- a SAVE without its ROM

class CartridgeOfSave:
    """A cartridge as far as a save file tells of it: what `save_files` wants to know of one."""
    rumble = False

    def __init__(self, image: bytes, root: dict):
        snapshot = save_files.snapshot_of(image, root)
        self.id, self.length, self.ram = root['id'], root['length'], root['length'] - save_files.FIXED
        self.kind = snapshot[51] if len(snapshot) > 51 else -1
        if self.kind not in save_files.KIND.values() or self.ram not in ((MBC2_BYTES,) if self.kind == 2 else RAM_SIZES):
            raise save_files.Refused('damaged snapshot')


@dataclass
class Checkpoint:
    """What a SAVE holds at its last checkpoint: the battery file, the inputs before it, and those of the game."""
    battery: Battery
    base: int
    count: int


def checkpoint_of(image: bytes) -> Checkpoint:
    """Raises `save_files.Refused` as the program refuses such a SAVE."""
    if len(image) % save_files.SECTOR:
        raise save_files.Refused(f'device size {len(image)}')
    root = save_files.chosen_root(image)
    if root is None:
        raise save_files.Refused('no session')
    if save_files.area_of(image, root['generation'])[1] < save_files.LOG + (root['length'] + save_files.SECTOR - 1) // save_files.SECTOR:
        raise save_files.Refused('too small, %d sectors needed' % save_files.need_of(root['length']))
    cart = CartridgeOfSave(image, root)
    count, root, _ = save_files.looked_at(image, cart, is_resumed=False)
    snapshot = save_files.snapshot_of(image, root)
    clock = clock_bytes(snapshot[RUNNING:RUNNING + 5], snapshot[LATCHED:LATCHED + 5]) if cart.kind == WITH_CLOCK else b''
    return Checkpoint(Battery(snapshot[save_files.FIXED:], clock), root['base'], count)


def image_of(save: PathLike) -> tuple[bytes, float]:
    """The bytes of a SAVE that no program has open, and when they were written."""
    # where there are no locks, a SAVE that is open elsewhere can't be opened to be written
    descriptor = open_plain(save, how=os.O_RDONLY if IS_POSIX else os.O_RDWR)
    try:
        try:
            lock(descriptor, SHARED)
        except OSError as error:
            if error.errno not in (errno.EOPNOTSUPP, errno.ENOSYS):
                raise Failed(f'{name_of_tool()}: {printable(save)}: another program has it open: end that one first') from None
        return read_bytes(save, MOST_SAVE), os.fstat(descriptor).st_mtime
    finally:
        os.close(descriptor)



def time_of(seconds: float) -> str:
    try:
        return time.strftime('%Y-%m-%d %H:%M:%S', time.localtime(seconds))
    except (OverflowError, ValueError, OSError):
        return f'{seconds:.0f} seconds after 1970'


def of_save(save: str, out: str) -> None:
    check_target(out, [save], must_be_new=True)
    image, written = image_of(save)
    try:
        held = checkpoint_of(image)
    except save_files.Refused as refused:
        means, advice = explained(str(refused), 'show') or ('', '')
        raise Refused(f'{name_of_tool()}: {printable(save)}: {refused}', 'show', means, advice) from None
    if not held.battery.data():
        raise Failed(f'{name_of_tool()}: {printable(save)}: its cartridge has no RAM')
    store(out, held.battery.data(), [save])
    print(f'checkpoint {held.base}\ninputs {held.count}\nwritten {time_of(written)}')


# ---- what is read and written

def store(out: PathLike, data: bytes, inputs: list[str]) -> None:
    with new_file(out, inputs, must_be_new=True) as file:
        file.write(data)


def clock_beside(path: str) -> Path:
    """Where gambatte keeps the clock of a battery file."""
    try:
        return Path(path).with_suffix('.rtc')
    except ValueError:
        raise Failed(f'{name_of_tool()}: {printable(path)}: this is no name of a file') from None


@contextlib.contextmanager
def exported(words: list[str]) -> Iterator[bytes]:
    """The bytes of a battery file of gbkeep's, or of what is exported of CART and SAVE."""
    if len(words) == 1:
        yield read_bytes(words[0], MOST_BATTERY)
        return
    with tempfile.TemporaryDirectory(prefix='battery-') as room:
        out = os.path.join(room, 'exported')
        told = run(find_program(), 'export', *words, out)
        yield read_bytes(out, MOST_BATTERY)
    print(printable(told.strip()))


def to_other(asked: argparse.Namespace, now: Optional[int]) -> None:
    *inputs, out = asked.files
    is_gambatte = asked.command == 'to-gambatte'
    outs = [out, clock_beside(out)] if is_gambatte else [out]
    for one in outs:
        check_target(one, inputs, must_be_new=True)
    with exported(inputs) as data:
        battery = battery_of(data)
        made, clock = to_gambatte(battery, now) if is_gambatte else (to_mgba(battery, now), None)
        if clock is not None:
            store(outs[1], clock, inputs)
        store(out, made, inputs)


def from_other(asked: argparse.Namespace, now: Optional[int]) -> None:
    *carts, given, out = asked.files
    if not carts:
        # a SAVE is made by the program, which replaces nothing
        check_target(out, [given], must_be_new=True)
    data = read_bytes(given, MOST_BATTERY)
    if asked.command == 'from-mgba':
        battery = from_mgba(data)
    else:
        beside = clock_beside(given)
        clock = read_bytes(beside, RTC_BYTES) if os.path.lexists(beside) else None
        is_mbc2 = asked.mbc2 or bool(carts) and header_of(carts[0]).kind in KINDS_OF_MBC2
        battery = from_gambatte(data, clock, now, is_mbc2)
    if not carts:
        store(out, battery.data(), [given])
        return
    with tempfile.TemporaryDirectory(prefix='battery-') as room:
        taken = os.path.join(room, 'battery')
        Path(taken).write_bytes(battery.data())
        with free_name(out):
            print(printable(run(find_program(), 'import', carts[0], taken, out).strip()))


def main(words: list[str]) -> None:
    parser = Words(prog=name_of_tool(), description='Turns battery files of other emulators into those of gbkeep and back.', epilog=__doc__,
                   formatter_class=argparse.RawDescriptionHelpFormatter)
    parser.add_argument('command', metavar='COMMAND', choices=['to-mgba', 'to-gambatte', 'from-mgba', 'from-gambatte', 'of-save'])
    parser.add_argument('--now', action='store_true', help='the time is the present one')
    parser.add_argument('--time', type=count_word(0, MOST_TIME, '--time'), metavar='SECONDS', help='the time, in seconds since 1970')
    parser.add_argument('--mbc2', action='store_true', help='the file of gambatte is of an MBC2')
    parser.add_argument('files', nargs='+', metavar='FILE')
    asked = parser.parse_args(words)
    if asked.now and asked.time is not None or asked.mbc2 and asked.command != 'from-gambatte':
        parser.error('these options do not go together')
    if len(asked.files) not in ((2,) if asked.command == 'of-save' else (2, 3)):
        parser.error(f'{asked.command} does not take {len(asked.files)} files')
    now = int(time.time()) if asked.now else asked.time
    try:
        if asked.command == 'of-save':
            of_save(*asked.files)
        elif asked.command.startswith('to-'):
            to_other(asked, now)
        else:
            from_other(asked, now)
    except ValueError as error:
        raise Failed(f'{name_of_tool()}: {error}') from None


def start() -> NoReturn:
    run_tool(main)


if __name__ == '__main__':
    start()
