"""What files are that a person opens or drops: a cartridge, a zip with one, a battery file, a save file; and what is to be done with them."""
import hashlib
import os
import zipfile
import zlib
from dataclasses import dataclass
from pathlib import Path
from typing import Optional

from ..input_files import MOST_CART, MOST_SAVE, WrongInput, printable, read_bytes
from ..new_files import Unsafe, new_file
from .refusals import Stopped, Told
from .shelf import Entry, Shelf, digest_in, digest_of, folder_of, is_save

BANK = 0x4000
ONLY_COLOUR = 0xc0
CARTS, BATTERIES, ENDINGS = ('.gb', '.gbc'), ('.sav', '.srm'), ('.gb', '.gbc', '.zip', '.sav', '.srm', '.gbkeep')
MOST_NAMES, MOST_BATTERY = 10_000, 1 << 20
CARTRIDGE, BATTERY, SAVE = 'cartridge', 'battery', 'save'


@dataclass(frozen=True)
class Found:
    """A file: what it is, and where; of a zip the cartridge that was taken out of it."""
    kind: str
    path: str

    @property
    def name(self) -> str:
        return printable(Path(self.path).name)


@dataclass(frozen=True)
class Plan:
    """What to play: a cartridge, its save file where that is named, and a battery file to begin with."""
    cart: str
    save: Optional[str] = None
    battery: Optional[str] = None


def title_in(rom: bytes) -> str:
    """What a cartridge calls itself."""
    title = rom[0x134:0x144].split(b'\0')[0]
    return printable(''.join(chr(byte) for byte in title if 0x20 <= byte < 0x7f).strip())


def has_header(rom: bytes) -> bool:
    """Whether these bytes are whole banks, with a header that its own sum agrees with."""
    return len(rom) >= 2 * BANK and len(rom) % BANK == 0 and -sum(byte + 1 for byte in rom[0x134:0x14d]) & 0xff == rom[0x14d]


def look(path: str) -> Found:
    """What a file is, by what is in it, and else by its name."""
    name = printable(Path(path).name)
    if os.path.isdir(path):
        raise Stopped(Told(f'{name} is a folder', 'Choose a game: a file .gb, .gbc, .zip, .sav, .srm or .gbkeep.'))
    if not os.path.exists(path):
        raise Stopped(Told(f'{name} is not there', f'There is no file {printable(path)}. It may have been moved or renamed: choose it again.',
                           f'gbkeep-window: {printable(path)}: No such file or directory'))
    try:
        data = read_bytes(path, max(MOST_SAVE, MOST_CART))
    except WrongInput as error:
        raise Stopped(Told(f'{name} can\'t be read', f'{error}. Choose another file.', printable(error))) from None
    if is_save(data):
        return Found(SAVE, path)
    if data[:4] in (b'PK\3\4', b'PK\5\6'):
        return Found(CARTRIDGE, unpacked(path))
    suffix = Path(path).suffix.lower()
    if suffix in CARTS or has_header(data):
        return Found(CARTRIDGE, path)
    if suffix in BATTERIES:
        return Found(BATTERY, path)
    raise Stopped(Told(f'{name} is no game', 'It is no cartridge (.gb, .gbc), no zip with one, no battery file (.sav, .srm) and no save file (.gbkeep).'))


def check_cart(path: str) -> str:
    """The title of a cartridge, which is one for this Game Boy."""
    name = printable(Path(path).name)
    try:
        rom = read_bytes(path, MOST_CART)
    except WrongInput as error:
        raise Stopped(Told(f'{name} can\'t be used', f'{error}. Choose another file.', printable(error))) from None
    if len(rom) > 0x143 and rom[0x143] == ONLY_COLOUR:
        raise Stopped(Told(f'{name} is for the Game Boy Color alone', 'Games of the first Game Boy run here, and those that run on both. Choose another game.'))
    return title_in(rom)


def unpacked(path: str) -> str:
    """The one cartridge of a zip, as a file among this user's games."""
    name = printable(Path(path).name)

    def refuse(head: str, body: str) -> Stopped:
        return Stopped(Told(f'{name}: {head}', body))
    try:
        with zipfile.ZipFile(path) as held:
            names = held.infolist()
            carts = [one for one in names[:MOST_NAMES] if one.filename.lower().endswith(CARTS) and not one.is_dir() and '__MACOSX' not in one.filename]
            if len(carts) != 1:
                if carts:
                    raise refuse('it has several games', 'Unpack it, and choose one of them.')
                raise refuse('it has no game', 'None of its files is a .gb or a .gbc. Choose another zip, or the game itself.')
            if carts[0].flag_bits & 1:
                raise refuse('it is encrypted', 'Unpack it, and choose the game itself.')
            with held.open(carts[0]) as file:
                rom = file.read(MOST_CART + 1)
    except (zipfile.BadZipFile, zlib.error, EOFError, NotImplementedError, OSError, ValueError, RuntimeError, IndexError):
        raise refuse('it can\'t be unpacked', 'It is damaged, or packed in a way that is not read here. Unpack it, and choose the game itself.') from None
    if len(rom) > MOST_CART:
        raise refuse('its game is too long', 'A cartridge has 8 MiB at most.')
    stem = ''.join(one if one.isalnum() or one in ' ._-()[]' else '_' for one in Path(carts[0].filename.replace('\\', '/')).stem)[:80].strip(' .') or 'game'
    target = folder_of('XDG_DATA_HOME', '.local/share') / 'cartridges' / f'{stem}-{hashlib.sha256(rom).hexdigest()[:8]}.gb'
    try:
        if not target.exists() or read_bytes(target, MOST_CART) != rom:
            target.parent.mkdir(parents=True, exist_ok=True)
            with new_file(target, must_be_new=True) as file:
                file.write(rom)
    except (OSError, Unsafe, WrongInput) as error:
        raise refuse('its game can\'t be put down', str(error)) from None
    return str(target)


def battery_beside(cart: str, save: str) -> Optional[str]:
    """The battery file that another emulator has left beside a cartridge whose game is not begun."""
    if os.path.lexists(save):
        return None
    for ending in (*BATTERIES, '.SAV'):
        path = str(Path(cart).with_suffix(ending))
        try:
            if os.path.isfile(path) and not os.path.samefile(path, cart) and path != save:
                data = read_bytes(path, MOST_BATTERY)
                if data and not is_save(data):
                    return path
        except (OSError, WrongInput):
            continue
    return None


def plan_of(found: list[Found], shelf: Shelf, cart_of: Optional[str] = None) -> Plan:
    """What to do with files that were given together. `cart_of` is the cartridge of the game that is open."""
    kinds = {one.kind: one for one in reversed(found)}
    cart, save, battery = kinds.get(CARTRIDGE), kinds.get(SAVE), kinds.get(BATTERY)
    if cart:
        return Plan(cart.path, save.path if save else None, battery.path if battery and not save else None)
    if save:
        return Plan(cart_for(save, shelf), save.path)
    if battery:
        known = [entry.cart for entry in shelf.rows() if Path(entry.cart).stem == Path(battery.path).stem and os.path.isfile(entry.cart)]
        beside = [str(path) for path in (Path(battery.path).with_suffix(ending) for ending in CARTS) if path.is_file()]
        of = next(iter([*beside, *known]), cart_of)
        if of is None:
            raise Stopped(Told(f'The cartridge of {battery.name} is not known', 'A battery file does not name it. Open both files together.'))
        return Plan(of, None, battery.path)
    raise Stopped(Told('Nothing was opened', 'None of these files is a game.'))


def cart_for(save: Found, shelf: Shelf) -> str:
    """The cartridge of a save file: one of the list, or one beside it."""
    digest = digest_in(save.path)
    entry: Optional[Entry] = shelf.of_digest(digest) if digest else None
    if entry:
        return entry.cart
    folder = Path(save.path).resolve().parent
    try:
        beside = [path for path in sorted(folder.iterdir())[:1000] if path.suffix.lower() in CARTS and path.is_file()]
    except OSError:
        beside = []
    for path in beside[:100]:
        try:
            if digest_of(path) == digest:
                return str(path)
        except WrongInput:
            continue
    raise MissingCart(save.path, digest or '')


class MissingCart(Stopped):
    """The cartridge of a save file is not known: its person can say where it is."""

    def __init__(self, save: str, digest: str):
        super().__init__(Told(f'The cartridge of {printable(Path(save).name)} is not here', 'A save file holds the game alone. Open its cartridge (.gb) together with it.'))
        self.save, self.digest = save, digest
