"""Refusals in words for players: what happened, and then which file it is about and what to do."""
import os
import re
from dataclasses import dataclass
from typing import Optional

from ..input_files import MOST_LINE, WrongInput, open_plain, printable, reason
from ..machines import MissingProgram, Refused
from ..new_files import Unsafe, is_locked
from ..slots import NotReplaced, short
from ..system import SHARED
from ..timed_game import WrongTime
from ..tools import Failed
from .actions import WrongKeys
from .words import MESSAGES


@dataclass(frozen=True)
class Told:
    """What happened, in a line, and what to do about it; `line` is what a terminal is told."""
    head: str
    body: str = ''
    line: str = ''

    def in_a_line(self) -> str:
        return self.line or printable(f'gbkeep-window: {self.head}: {self.body}' if self.body else f'gbkeep-window: {self.head}', MOST_LINE)


class Stopped(Exception):
    """The window refuses of itself."""

    def __init__(self, told: Told):
        super().__init__(told.head)
        self.told = told


def told_of(error: BaseException, cart: Optional[object] = None, save: Optional[object] = None, recording: Optional[object] = None, line: str = '') -> Told:
    """What a person is told of an error in a play of these files."""
    names = {'CART': short(cart) if cart else 'The file', 'SAVE': short(save) if save else 'The save file', 'RECORDING': short(recording) if recording else 'The recording'}
    if isinstance(error, Stopped):
        return error.told
    if isinstance(error, MissingProgram):
        return Told('gbkeep can\'t be started', sentences(error.line, error.advice), error.told())
    if isinstance(error, Refused):
        return of_program(error, names, {'CART': cart, 'SAVE': save, 'RECORDING': recording})
    if isinstance(error, WrongKeys):
        what = 'Mend that line' if ', line ' in str(error) else 'Name another one'
        return Told('The file of keys is wrong', sentences(str(error), f'{what}, or start without --keys'), printable(error, MOST_LINE))
    if isinstance(error, (WrongInput, WrongTime, Failed, NotReplaced, Unsafe)):
        return Told(*of_file(str(error)), printable(error, MOST_LINE))
    if isinstance(error, MemoryError):
        return Told('There is no memory left', 'What was saved stays saved. End other programs, and open the game again.', 'gbkeep-window: no memory')
    if isinstance(error, OSError):
        name = f'{printable(error.filename)}: ' if error.filename else ''
        return Told('A file can\'t be used', sentences(name + reason(error)), f'gbkeep-window: {name}{reason(error)}')
    return Told('Something went wrong', sentences(printable(f'{type(error).__name__}: {error}')))


def of_program(refused: Refused, names: dict[str, str], paths: dict[str, object]) -> Told:
    line = refused.line.removeprefix('gbkeep: ')

    def named(text: str, groups: tuple[str, ...] = ()) -> str:
        for sign, group in zip('NM', groups):
            text = re.sub(rf'\b{sign}\b', f'{int(group):,}' if group.isdigit() else group, text)
        return re.sub(r'\b(CART|SAVE|RECORDING)\b', lambda found: names[found[1]], text)

    def told(head: str, body: str) -> Told:
        return Told(head, body, printable(f'{refused.line}: {head}: {body}', MOST_LINE))

    if line == 'device failed':
        return told(*of_device(refused, names, paths))
    if line == 'file failed':
        return told(named('CART can\'t be read'), f'{printable(paths["CART"])} is missing, no plain file, or may not be read. Choose it again.')
    # of its lines: what happened, and the rest, where CART, SAVE and RECORDING stand for names, and N and M for the numbers of the line
    for pattern, head, body in MESSAGES['refused']:
        found = re.fullmatch(pattern, line)
        if found:
            return told(named(head), named(body, found.groups()))
    return Told(sentences(line).rstrip('.'), named(sentences(refused.means, refused.advice)), refused.told())


def of_device(refused: Refused, names: dict[str, str], paths: dict[str, object]) -> tuple[str, str]:
    if refused.means.endswith('exists already'):
        return f'{names["SAVE"]} exists already', 'A game is not begun over another one. Open that one, or take a name that is free.'
    if "can't be made" in refused.means:
        return 'No save file can be made', f'{printable(paths["SAVE"])} can\'t be made there. Take a folder that is there and that you may write.'
    if is_played(paths['SAVE']):
        return 'This game is open already', f'{printable(paths["SAVE"])} is played in another window, or by another program. Go on there, or close it first.'
    return f'{names["SAVE"]} can\'t be opened or written', f'Look at the disk and at who may write {printable(paths["SAVE"])}. What was saved stays saved.'


def is_played(save: object) -> bool:
    """Whether a program has locked a save file."""
    try:
        descriptor = open_plain(str(save))
    except (OSError, WrongInput):
        return False
    try:
        return not is_locked(descriptor, SHARED)
    except OSError:
        return False
    finally:
        os.close(descriptor)


def of_file(line: str) -> tuple[str, str]:
    """A line as `NAME: what is wrong: what to do`."""
    name, colon, rest = line.partition(': ')
    if not colon:
        return sentences(line).rstrip('.'), ''
    return f'{name.rsplit("/", 1)[-1]} can\'t be used', sentences(f'{name}: {rest}')


def sentences(*texts: str) -> str:
    """Texts as sentences. A first word that is a name stays as it is."""
    made = []
    for text in filter(None, texts):
        first = text.split(' ', 1)[0]
        text = text if re.search(r'[./:\\_0-9]', first) else text[:1].upper() + text[1:]
        made.append(text if text.endswith(('.', '?')) else f'{text}.')
    return ' '.join(made).replace('`', '')
