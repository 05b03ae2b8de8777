"""The games that were played: a list in the folder of this user's games, and the last picture of each in a cache.

The list is only a list: a game is its files, and goes on where it is named without the list. The cache may be deleted at any time."""
import contextlib
import hashlib
import json
import os
import re
import time
from dataclasses import asdict, dataclass, replace
from pathlib import Path
from typing import Optional

from ..input_files import MOST_CART, MOST_SAVE, PathLike, WrongInput, printable, read_bytes
from ..new_files import Unsafe, new_file
from ..pictures import PNG_HEADS, png_of, shades_of
from .refusals import Stopped, Told

HEAD = b'# the games of the window of gbkeep\n'
MOST_GAMES, MOST_BYTES, MOST_PICTURE = 500, 1 << 20, 1 << 20


@dataclass(frozen=True)
class Entry:
    """A game of the list: its files, what its cartridge is called, and when it was played last."""
    cart: str
    save: str
    title: str
    digest: str
    played: float
    recording: str = ''

    @property
    def name(self) -> str:
        return self.title or printable(Path(self.cart).stem)

    @property
    def is_there(self) -> bool:
        return os.path.lexists(self.save)


def folder_of(variable: str, usual: str) -> Path:
    """A folder of this user's."""
    given = os.environ.get(variable, '')
    try:
        return Path(given if given.startswith('/') else Path.home() / usual) / 'gbkeep'
    except RuntimeError:
        raise Stopped(Told('There is no place for games', 'This user has no home folder. Name a save file: gbkeep-window CART SAVE.',
                           'this user has no home folder: name a SAVE')) from None


def games_folder(chosen: str = '') -> Path:
    return Path(chosen) if chosen else folder_of('XDG_DATA_HOME', '.local/share')


def digest_of(cart: PathLike) -> str:
    """The SHA-256 of a cartridge."""
    return hashlib.sha256(read_bytes(os.fsdecode(cart), MOST_CART)).hexdigest()


def own_save(cart: str, chosen: str = '') -> str:
    """The SAVE of a cartridge that is given alone: its file's name and the beginning of its SHA-256, so that no two ROMs share one."""
    folder, digest = games_folder(chosen), digest_of(cart)
    folder.mkdir(parents=True, exist_ok=True)
    stem, mark = Path(cart).stem, f'-{digest[:8]}'
    # the cartridge of a zip has the mark in its own name; a game that was begun under another name goes on
    names = [f'{folder / stem.removesuffix(mark)}{mark}.gbkeep', f'{folder / stem}{mark}.gbkeep', f'{folder / stem}{mark}.sav']
    return next((name for name in names if os.path.lexists(name)), names[0])


def is_save(data: bytes) -> bool:
    return data.startswith(b'GBKPROOT') or data[512:520] == b'GBKPROOT'


def digest_in(save: str) -> Optional[str]:
    """The SHA-256 of the cartridge that a SAVE names; None where it is no SAVE."""
    try:
        data = read_bytes(save, MOST_SAVE)[:1024]
    except WrongInput:
        return None
    at = 0 if data.startswith(b'GBKPROOT') else 512
    return data[at + 20:at + 52].hex() if is_save(data) and len(data) >= at + 52 else None


class Shelf:
    """The list, as it was read last."""

    def __init__(self, folder: Optional[Path] = None):
        try:
            self.path: Optional[Path] = (folder or folder_of('XDG_DATA_HOME', '.local/share')) / 'games'
        except Stopped:
            self.path = None
        self.entries: list[Entry] = []
        self.read()

    def read(self) -> None:
        try:
            data = read_bytes(self.path, MOST_BYTES) if self.path else b''
            given = json.loads(data.removeprefix(HEAD)) if data.startswith(HEAD) else []
        except (WrongInput, ValueError, RecursionError):
            given = []
        self.entries = [entry for entry in map(entry_in, given if isinstance(given, list) else []) if entry]

    def write(self) -> bool:
        """Writes the list; False where that can't be done."""
        try:
            if self.path is None:
                return False
            self.path.parent.mkdir(parents=True, exist_ok=True)
            with new_file(self.path, begins=(HEAD,)) as file:
                file.write(HEAD + json.dumps([asdict(one) for one in self.entries], indent=1).encode() + b'\n')
        except (OSError, Unsafe):
            return False
        return True

    def rows(self) -> list[Entry]:
        """The games, the one that was played last first."""
        return sorted(self.entries, key=lambda entry: -entry.played)

    def note(self, entry: Entry) -> None:
        """Puts a game in the list, in the place of the one with its SAVE."""
        self.read()
        self.entries = [entry, *(one for one in self.rows() if one.save != entry.save)][:MOST_GAMES]
        self.write()

    def remove(self, entry: Entry) -> None:
        self.read()
        self.entries = [one for one in self.entries if one.save != entry.save]
        self.write()

    def moved(self, entry: Entry, cart: str) -> Entry:
        """The game with its cartridge where it is now."""
        if digest_of(cart) != entry.digest:
            raise Stopped(Told(f'{printable(Path(cart).name)} is another game', f'{entry.name} was begun with another file. Choose that one.'))
        found = replace(entry, cart=os.path.abspath(cart))
        self.note(found)
        return found

    def of_digest(self, digest: str) -> Optional[Entry]:
        """The game of a cartridge that was played last, where that cartridge is there."""
        return next((one for one in self.rows() if one.digest == digest and os.path.isfile(one.cart)), None)


def entry_in(given: object) -> Optional[Entry]:
    if not isinstance(given, dict):
        return None
    words, played = [given.get(name, '') for name in ('cart', 'save', 'title', 'digest', 'recording')], given.get('played', -1)
    if not all(isinstance(word, str) and '\0' not in word for word in words) or type(played) not in (int, float) or not 0 <= played < 1e11:
        return None
    cart, save, title, digest, recording = words
    if not save.startswith('/') or not cart.startswith('/') or not re.fullmatch('[0-9a-f]{64}', digest):
        return None
    return Entry(cart, save, title, digest, float(played), recording)


def entry_of(cart: str, save: str, title: str, recording: Optional[str] = None) -> Entry:
    return Entry(os.path.abspath(cart), os.path.abspath(save), printable(title), digest_of(cart), time.time(), os.path.abspath(recording) if recording else '')


# ---- pictures

def picture_file(save: str) -> Optional[Path]:
    """Where the last picture of a game is."""
    try:
        return folder_of('XDG_CACHE_HOME', '.cache') / 'pictures' / f'{hashlib.sha256(os.fsencode(os.path.abspath(save))).hexdigest()[:32]}.png'
    except Stopped:
        return None


def keep_picture(path: Optional[PathLike], shades: bytes, save: Optional[str] = None) -> None:
    """Leaves a picture, as far as that can be done: nothing depends on it."""
    if path is None:
        return
    with contextlib.suppress(OSError, Unsafe):
        Path(os.fsdecode(path)).parent.mkdir(parents=True, exist_ok=True)
        with new_file(os.fsdecode(path), begins=PNG_HEADS, save=save) as file:
            file.write(png_of(shades, scale=1))


def picture_in(path: Optional[PathLike]) -> Optional[bytes]:
    """The shades of a picture; None where there is none."""
    try:
        return shades_of(read_bytes(os.fsdecode(path), MOST_PICTURE)) if path is not None else None
    except (WrongInput, ValueError):
        return None
