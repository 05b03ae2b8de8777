"""What keys and a gamepad's buttons do, and how that is changed: by pressing them, or by a file of keys.

A file of keys has a line for each key that is another one, as `A = space`; `#` begins a comment. The names on the left are those of ACTIONS, or of OLDER, in
any case; those on the right are SDL's names of keys, as `x`, `space`, `left shift`, `return` or `keypad 1`. Within the window a key is called as GDK calls it."""
from collections.abc import Iterable
from dataclasses import dataclass
from typing import Optional

from ..input_files import PathLike, WrongInput, printable, read_text
from .words import MESSAGES

# a gamepad's buttons, by Linux's codes: as a standard pad has them
SOUTH, EAST, SELECT, START = 0x130, 0x131, 0x13a, 0x13b
SHOULDER_LEFT, SHOULDER_RIGHT, TRIGGER_LEFT, TRIGGER_RIGHT, STICK_RIGHT = 0x136, 0x137, 0x138, 0x139, 0x13e
PAD_UP, PAD_DOWN, PAD_LEFT, PAD_RIGHT = 0x220, 0x221, 0x222, 0x223
GAME, PLAY, STATES, VIEW = 'Game', 'Play', 'Save states', 'Window'


@dataclass(frozen=True)
class Action:
    """What a key does: its name in a file of keys, its keys and its button of a gamepad."""
    name: str
    group: str
    keys: tuple[str, ...]
    pad: Optional[int] = None

    @property
    def words(self) -> str:
        """What people call it."""
        return MESSAGES['actions'][self.name]


# the buttons first, as bits 0 to 7; A and B lie on a gamepad as on a Game Boy
ACTIONS = (
    Action('Right', GAME, ('Right',), PAD_RIGHT), Action('Left', GAME, ('Left',), PAD_LEFT),
    Action('Up', GAME, ('Up',), PAD_UP), Action('Down', GAME, ('Down',), PAD_DOWN),
    Action('A', GAME, ('x',), EAST), Action('B', GAME, ('z',), SOUTH),
    Action('Select', GAME, ('BackSpace',), SELECT), Action('Start', GAME, ('Return', 'KP_Enter'), START),
    Action('Pause', PLAY, ('p',), STICK_RIGHT), Action('Next frame', PLAY, ('n',)),
    Action('Fast', PLAY, ('Tab',), TRIGGER_RIGHT), Action('Stay fast', PLAY, ('g',), SHOULDER_RIGHT),
    Action('Rewind', PLAY, ('r',), TRIGGER_LEFT), Action('Undo', PLAY, ('F8',)),
    Action('Reset', PLAY, ('F3',)),
    Action('Keep slot', STATES, ('F5', 'F6')), Action('Go back', STATES, ('F9', 'F10')),
    Action('Next state', STATES, ('F7',)), Action('States', STATES, ('F4',)),
    Action('Timeline', STATES, ('t',)),
    Action('Picture', VIEW, ('s',)), Action('Palette', VIEW, ('F2',)), Action('Full screen', VIEW, ('F11',)),
    Action('Keys', VIEW, ('F1',)), Action('Menu', VIEW, ('Escape',), SHOULDER_LEFT))
BY_NAME = {action.name: action for action in ACTIONS}
BUTTONS = [action.name for action in ACTIONS[:8]]
HELD = {*BUTTONS, 'Fast', 'Rewind'}
# other names of actions in files of keys
OLDER = {'Quick keep': 'Keep slot', 'Quick back': 'Go back', 'Quick slot': 'Next state', 'Save state': 'Keep slot', 'Load state': 'Go back', 'Screenshot': 'Picture'}
MOST_BYTES = 1 << 16
# SDL's names, in small letters, of keys that GDK calls otherwise than by the same letters
SDL = {'space': 'space', 'return': 'Return', 'enter': 'KP_Enter', 'backspace': 'BackSpace', 'tab': 'Tab', 'escape': 'Escape', 'left shift': 'Shift_L',
       'right shift': 'Shift_R', 'left ctrl': 'Control_L', 'right ctrl': 'Control_R', 'left alt': 'Alt_L', 'right alt': 'Alt_R', 'alt gr': 'ISO_Level3_Shift',
       'left gui': 'Super_L', 'right gui': 'Super_R', 'left meta': 'Super_L', 'right meta': 'Super_R', 'left super': 'Super_L', 'right super': 'Super_R',
       'caps lock': 'Caps_Lock', 'capslock': 'Caps_Lock', 'numlock': 'Num_Lock', 'scroll lock': 'Scroll_Lock', 'scrolllock': 'Scroll_Lock', 'pause': 'Pause',
       'break': 'Pause', 'print screen': 'Print', 'printscreen': 'Print', 'menu': 'Menu', 'application': 'Menu', 'insert': 'Insert', 'delete': 'Delete',
       'home': 'Home', 'end': 'End', 'page up': 'Page_Up', 'pageup': 'Page_Up', 'page down': 'Page_Down', 'pagedown': 'Page_Down', 'up': 'Up', 'down': 'Down',
       'left': 'Left', 'right': 'Right', **{f'f{number}': f'F{number}' for number in range(1, 25)},
       **{f'keypad {number}': f'KP_{number}' for number in range(10)}, **{f'[{number}]': f'KP_{number}' for number in range(10)},
       'keypad enter': 'KP_Enter', 'keypad +': 'KP_Add', '[+]': 'KP_Add', 'keypad -': 'KP_Subtract', '[-]': 'KP_Subtract', 'keypad *': 'KP_Multiply',
       '[*]': 'KP_Multiply', 'keypad /': 'KP_Divide', '[/]': 'KP_Divide', 'keypad .': 'KP_Decimal', '[.]': 'KP_Decimal', 'keypad =': 'KP_Equal',
       "'": 'apostrophe', '*': 'asterisk', '\\': 'backslash', ',': 'comma', '=': 'equal', '-': 'minus', '.': 'period', ';': 'semicolon', '/': 'slash',
       '[': 'bracketleft', ']': 'bracketright', '`': 'grave', '+': 'plus', '!': 'exclam', '"': 'quotedbl', '#': 'numbersign', '$': 'dollar',
       '%': 'percent', '&': 'ampersand', '(': 'parenleft', ')': 'parenright', ':': 'colon', '<': 'less', '>': 'greater', '?': 'question', '@': 'at',
       '^': 'asciicircum', '_': 'underscore'}
# a key of the number pad is one key, with its lock and without
KEYPAD = {'KP_Insert': 'KP_0', 'KP_End': 'KP_1', 'KP_Down': 'KP_2', 'KP_Next': 'KP_3', 'KP_Page_Down': 'KP_3', 'KP_Left': 'KP_4', 'KP_Begin': 'KP_5', 'KP_Right': 'KP_6',
          'KP_Home': 'KP_7', 'KP_Up': 'KP_8', 'KP_Prior': 'KP_9', 'KP_Page_Up': 'KP_9', 'KP_Delete': 'KP_Decimal', 'ISO_Left_Tab': 'Tab', 'Prior': 'Page_Up', 'Next': 'Page_Down'}
SHOWN = {'Right': '→', 'Left': '←', 'Up': '↑', 'Down': '↓', 'BackSpace': 'Backspace', 'Return': 'Enter', 'Escape': 'Esc', 'space': 'Space', 'Shift_L': 'Left Shift',
         'Shift_R': 'Right Shift', 'Control_L': 'Left Ctrl', 'Control_R': 'Right Ctrl', 'Alt_L': 'Alt', 'ISO_Level3_Shift': 'Alt Gr', 'Super_L': 'Super',
         'comma': ',', 'period': '.', 'minus': '-', 'plus': '+', 'slash': '/', 'semicolon': ';', 'apostrophe': "'", 'backslash': '\\', 'equal': '=',
         'bracketleft': '[', 'bracketright': ']', 'grave': '`', 'numbersign': '#', 'less': '<'}
PAD_SHOWN = {SOUTH: 'lower face button', EAST: 'right face button', 0x133: 'upper face button', 0x134: 'left face button', SHOULDER_LEFT: 'left shoulder',
             SHOULDER_RIGHT: 'right shoulder', TRIGGER_LEFT: 'left trigger', TRIGGER_RIGHT: 'right trigger', SELECT: 'Select', START: 'Start', 0x13c: 'Home',
             0x13d: 'left stick', STICK_RIGHT: 'right stick', PAD_UP: 'pad up', PAD_DOWN: 'pad down', PAD_LEFT: 'pad left', PAD_RIGHT: 'pad right'}

# of each action its keys, and its button
Keys = dict[str, tuple[str, ...]]
Pad = dict[str, Optional[int]]


class WrongKeys(Exception):
    """A file of keys is wrong: where, and why."""


def usual_keys(at_x: str = 'x', at_z: str = 'z') -> Keys:
    """The keys where nobody has changed them. A and B lie where X and Z do on an American keyboard, whatever is printed there."""
    places = {'A': (at_x,), 'B': (at_z,)}
    given = {at_x, at_z}
    # a letter that is printed on another key elsewhere is given once
    return {one.name: places.get(one.name) or tuple(key for key in one.keys if key not in given) for one in ACTIONS}


def usual_pad() -> Pad:
    return {one.name: one.pad for one in ACTIONS}


def one_key(name: str) -> str:
    """The name of a key as it stands here, of GDK's."""
    name = KEYPAD.get(name, name)
    return name.lower() if len(name) == 1 else name


def shown_key(name: str) -> str:
    """What a key is called for people."""
    if name.startswith('KP_'):
        rest = name[3:]
        return f'Keypad {SHOWN.get(rest, rest)}'
    return SHOWN.get(name) or (name.upper() if len(name) == 1 else name.replace('_', ' '))


def shown_keys(keys: Keys, action: str) -> str:
    return ' or '.join(map(shown_key, keys.get(action, ()))) or 'none'


def shown_button(code: Optional[int]) -> str:
    return 'none' if code is None else PAD_SHOWN.get(code, f'button {code:#x}')


def with_key(keys: Keys, action: str, key: str) -> Keys:
    """The keys once an action has this one: who had it has it no more. Escape stays, since it leads out."""
    if key == 'Escape' or action == 'Menu':
        return keys
    return {name: (key,) if name == action else tuple(one for one in has if one != key) for name, has in keys.items()}


def with_button(pad: Pad, action: str, code: int) -> Pad:
    return {name: code if name == action else None if has == code else has for name, has in pad.items()}


def by_key(keys: Keys) -> dict[str, str]:
    """Of each key what it does."""
    return {key: name for name, has in keys.items() for key in has}


def by_button(pad: Pad) -> dict[int, str]:
    return {code: name for name, code in pad.items() if code is not None}


def buttons_of(names: Iterable[str]) -> int:
    """The byte of the buttons among these actions."""
    return sum(1 << BUTTONS.index(name) for name in set(names) if name in BUTTONS)


def key_of(name: str) -> str:
    """A key by SDL's name of it."""
    found = SDL.get(name) or (name if len(name) == 1 and name.isalnum() else None)
    if found is None:
        raise ValueError(f"'{printable(name)}' is no key")
    return found


def keys_in(path: PathLike, keys: Keys) -> Keys:
    """The keys with those of a file. What a line's key did before, it does no more, but for the buttons, which then need a line of their own."""
    names = {name.lower(): name for name in (*BY_NAME, *OLDER)}
    given: dict[str, list[str]] = {}
    try:
        text = read_text(path, MOST_BYTES)
    except WrongInput as error:
        raise WrongKeys(str(error)) from None
    for number, line in enumerate(text.split('\n'), 1):
        left, equals, right = line.partition('#')[0].partition('=')
        if not left.strip() and not equals:
            continue
        try:
            name = names.get(left.strip().lower())
            if name is None:
                raise ValueError(f"'{printable(left.strip())}' is nothing that a key does")
            action = OLDER.get(name, name)
            if name not in OLDER:
                given[action] = []
            given.setdefault(action, []).append(key_of(right.strip().lower()))
        except ValueError as error:
            raise WrongKeys(f'{printable(path)}, line {number}: {error}') from None
    taken = {key for has in given.values() for key in has}
    made = {name: tuple(given[name]) if name in given else has if name in BUTTONS else tuple(key for key in has if key not in taken) for name, has in keys.items()}
    seen: dict[str, str] = {}
    for name, has in made.items():
        for key in has:
            if seen.setdefault(key, name) != name:
                raise WrongKeys(f'{printable(path)}: {name} and {seen[key]} have one key, {shown_key(key)}')
    return made
