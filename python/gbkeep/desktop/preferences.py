"""What a person has chosen, in one file: palette, size, keys, gamepad, folders, and what is asked of the clock.

The file is a line that says what it is, and then JSON. What is wrong in it counts as not chosen; a file that something else has made is never written over."""
import json
import os
from dataclasses import asdict, dataclass, field, fields
from pathlib import Path
from typing import Optional

from ..input_files import WrongInput, read_bytes
from ..new_files import Unsafe, new_file
from ..palettes import PALETTES
from .actions import BY_NAME, Keys, Pad

HEAD = b'# chosen in the window of gbkeep\n'
MOST_BYTES = 1 << 16
# how fast Fast is; 0 is as fast as it goes
SPEEDS = (2, 4, 8, 0)
CLOCKS = ('ask', 'give', 'stand')
MOST_KEYS = 4


def config_file(name: str) -> Optional[Path]:
    """A file of this user's for the window; None where this user has no place for one."""
    try:
        folder = os.environ.get('XDG_CONFIG_HOME', '')
        return Path(folder if folder.startswith('/') else Path.home() / '.config') / 'gbkeep' / name
    except RuntimeError:
        return None


@dataclass
class Preferences:
    """What is chosen. `keys` and `pad` have those alone that are not the usual ones."""
    palette: int = 0
    is_whole: bool = True
    fast: int = 0
    clock: str = 'ask'
    games: str = ''
    pictures: str = ''
    shows_counter: bool = False
    shows_inputs: bool = False
    width: int = 0
    height: int = 0
    state: int = 1
    keys: Keys = field(default_factory=dict)
    pad: Pad = field(default_factory=dict)

    def take(self, given: dict[str, object]) -> None:
        """Takes what is right of this."""
        for one in fields(self):
            value = given.get(one.name)
            if one.name in given and RIGHT[one.name](value):
                if one.name == 'keys':
                    value = {name: tuple(has) for name, has in value.items()}  # type: ignore[attr-defined]
                setattr(self, one.name, value)


def is_number(least: int, most: int):
    return lambda value: type(value) is int and least <= value <= most


def is_folder(value: object) -> bool:
    return value == '' or isinstance(value, str) and value.startswith('/') and '\0' not in value


def is_flag(value: object) -> bool:
    return type(value) is bool


def are_keys(value: object) -> bool:
    return isinstance(value, dict) and all(name in BY_NAME and isinstance(has, list) and len(has) <= MOST_KEYS and all(isinstance(key, str) and 0 < len(key) < 40 for key in has)
                                           for name, has in value.items())


def is_pad(value: object) -> bool:
    return isinstance(value, dict) and all(name in BY_NAME and (code is None or is_number(0, 0xffff)(code)) for name, code in value.items())


RIGHT = {'palette': is_number(0, len(PALETTES) - 1), 'is_whole': is_flag, 'fast': lambda value: type(value) is int and value in SPEEDS,
         'clock': lambda value: isinstance(value, str) and value in CLOCKS, 'games': is_folder, 'pictures': is_folder, 'shows_counter': is_flag, 'shows_inputs': is_flag,
         'width': is_number(0, 1 << 15), 'height': is_number(0, 1 << 15), 'state': is_number(1, 10), 'keys': are_keys, 'pad': is_pad}


def loaded() -> Preferences:
    """What was chosen last."""
    chosen = Preferences()
    path = config_file('window')
    if path is None:
        return chosen
    try:
        data = read_bytes(path, MOST_BYTES)
    except WrongInput:
        chosen.take({'palette': older_palette()})
        return chosen
    try:
        given = json.loads(data.removeprefix(HEAD)) if data.startswith(HEAD) else {}
    except (ValueError, RecursionError):
        given = {}
    if isinstance(given, dict):
        chosen.take(given)
    return chosen


def older_palette() -> Optional[int]:
    """The palette as a window before this one has kept it, from 1 on."""
    path = config_file('palette')
    try:
        text = read_bytes(path, 16).strip() if path else b''
    except WrongInput:
        return None
    return int(text) - 1 if text in (b'1', b'2', b'3', b'4') else None


def keep(chosen: Preferences) -> bool:
    """Writes what is chosen; False where that can't be done, and a game goes on without it."""
    path = config_file('window')
    if path is None:
        return False
    try:
        path.parent.mkdir(parents=True, exist_ok=True)
        with new_file(path, begins=(HEAD,)) as file:
            file.write(HEAD + json.dumps(asdict(chosen), indent=1).encode() + b'\n')
    except (OSError, Unsafe):
        return False
    return True
