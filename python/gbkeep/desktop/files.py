"""The files of a game that is played: SAVE, its states, screenshots, and what a recorded game or a battery file asks.

What is said and asked goes to the face that is given, as the play's thread shows it."""
import contextlib
import os
import tempfile
import time
from pathlib import Path
from typing import Optional, Protocol

from ..branch import branch
from ..game import Refused, free_name, header_of, run
from ..input_files import Planted, WrongInput, owners_beside, printable, read_bytes, read_text, reason
from ..new_files import Unsafe, is_free, new_file
from ..palettes import PALETTES
from ..pictures import HEIGHT, WIDTH, png_of
from ..shown_game import Played, memory_folder, shown
from ..slots import Held, NotReplaced, Slots, short, slot_of, told_in_a_line
from ..system import EXCLUSIVE
from ..timed_game import SaveTime, TimedGame, WrongTime, span
from ..tools import Failed
from . import words
from .preferences import Preferences
from .refusals import Stopped, Told
from .shelf import keep_picture, picture_in
from .words import Question

LINE_SECONDS, WARNING_SECONDS = 3, 8
MOST_BATTERY_BYTES, MOST_NAME_BYTES = 1 << 20, 1 << 13
STATES = 10
# the clock of a battery file stands behind its RAM, and ends with the time of writing: so many bytes of so many
CLOCK_BYTES = {48: 8, 44: 4}


class Face(Protocol):
    """What shows a play. Each call comes from the play's thread; `ask` and `tell` wait for the person."""

    def say(self, line: str, seconds: float = LINE_SECONDS, file: Optional[str] = None) -> None: ...

    def ask(self, question: Question) -> Optional[bool]: ...

    def tell(self, told: Told) -> None: ...

    def show(self, shades: bytes) -> None: ...


class State:
    """One of the ten states of a game: its file, and its picture and time, which may be missing."""

    def __init__(self, save: str, number: int):
        self.number, self.path = number, str(slot_of(save, number))
        try:
            self.time: Optional[float] = os.lstat(self.path).st_mtime
        except OSError:
            self.time = None
        self.picture = picture_in(f'{self.path}.png') if self.time is not None else None


def states_of(save: str) -> list[State]:
    return [State(save, number) for number in range(1, STATES + 1)]


def delete_state(save: str, number: int) -> None:
    """Removes a state, with what stands beside it."""
    path = str(slot_of(save, number))
    for one in (path, f'{path}.time', f'{path}.png'):
        with contextlib.suppress(FileNotFoundError):
            os.unlink(one)


class Files:
    """The files of the game that is played: SAVE, its states, and the recording of a recorded game."""

    def __init__(self, cart: str, save: str, recording: Optional[str], program: str):
        self.cart, self.program, self.has_clock = cart, program, header_of(cart, program).has_clock()
        self.save, self.recording = save, recording

    def slots(self, number: int) -> Slots:
        return Slots(self.cart, self.save, self.program, self.has_clock, number)

    def open(self, face: Face, chosen: Preferences, is_agreed: bool = False) -> Played:
        """Opens the game; what the clock asks is agreed to, or the player is asked."""
        def ask(game: TimedGame, question: str) -> Optional[bool]:
            face.show(game.picture().shades)
            if is_agreed or chosen.clock != 'ask':
                return is_agreed or chosen.clock == 'give'
            return face.ask(words.asked('give time', text=question))

        game = TimedGame(self.cart, self.save, self.program, recording=self.recording, ask=ask)
        if game.notice:
            face.show(game.picture().shades)
            face.tell(Told('About the game\'s clock', game.notice))
        return shown(game, self.cart, self.save, self.program)

    def branch(self, face: Face, game: Played, chosen: Preferences, count: int, given_until: int) -> Played:
        """Goes on with a branch: a new game with the first `count` inputs of the recording, whose clock was given the time until then. Where there can be none, the
        game goes on."""
        game.save_all()
        game.close()
        save, recording = free_names(self.save, self.recording or '')
        face.say(words.said('branch begins'))
        try:
            branch(self.cart, self.recording or '', count, save, recording, self.program)
            line = words.said('branch', save=short(save), recording=short(recording))
            if self.has_clock:
                SaveTime(save).write([(count, given_until)], must_be_new=True)
        except (Failed, WrongInput, WrongTime) as error:
            line = words.said('no branch', why=error)
        except Refused as refused:
            line = words.said('no branch', why=printable(refused.line.removeprefix('gbkeep: ')))
        except OSError as error:
            line = words.said('no branch', why=reason(error))
        else:
            self.save, self.recording = save, recording
        game = self.open(face, chosen)
        face.say(line, WARNING_SECONDS)
        return game


def free_names(*paths: str) -> list[str]:
    """These names with the first number, from 2 on, with which neither they nor the files beside them are there."""
    ends = ('', '.time', '.recorded', '.notes', '.timeline', '.slot', *(f'.slot{number}' for number in range(1, STATES + 1)))
    number = 2
    while True:
        names = [str(path.with_name(f'{path.stem}-{number}{path.suffix}')) for path in map(Path, paths)]
        if not any(os.path.lexists(name + end) for name in names for end in ends):
            return names
        number += 1


def pictures_folder(chosen: str) -> Path:
    """Where screenshots go: the folder that was chosen, or this user's pictures."""
    if chosen:
        return Path(chosen)
    config = os.environ.get('XDG_CONFIG_HOME', '')
    home = Path(os.environ.get('HOME') or '/')
    try:
        text = read_text(Path(config if config.startswith('/') else home / '.config') / 'user-dirs.dirs', 1 << 16)
        named = [line.partition('=')[2].strip().strip('"') for line in text.splitlines() if line.startswith('XDG_PICTURES_DIR=')]
    except WrongInput:
        named = []
    given = named[-1].replace('$HOME', str(home)) if named else ''
    return Path(given) if given.startswith('/') else home / 'Pictures'


def leave_picture(face: Face, shades: bytes, title: str, chosen: Preferences) -> Optional[str]:
    """Leaves a screenshot under the first name that is free, in the colours that are shown."""
    folder, number = pictures_folder(chosen.pictures), 1
    stem = ''.join(one if one.isalnum() or one in ' -_.' else '_' for one in title).strip(' .') or 'game'
    try:
        folder.mkdir(parents=True, exist_ok=True)
        while not is_free(path := folder / f'{stem} {number}.png'):
            number += 1
        with new_file(path, must_be_new=True) as file:
            file.write(png_of(shades, WIDTH, HEIGHT, palette=b''.join(map(bytes, PALETTES[chosen.palette]))))
    except Unsafe as error:
        face.say(words.said('no screenshot', why=error), WARNING_SECONDS)
    except OSError as error:
        face.say(words.said('no screenshot', why=f'{printable(folder)}: {reason(error)}'), WARNING_SECONDS)
    else:
        face.say(words.said('screenshot', name=printable(path.name)), 5, str(path))
        return str(path)
    return None


def keep_state(face: Face, game: Played, files: Files, number: int, shades: bytes) -> None:
    slots = files.slots(number)
    try:
        game.save_all()
        before = slots.keep()
    except NotReplaced as error:
        face.say(words.said('state not saved', number=number, why=error), WARNING_SECONDS)
        return
    keep_picture(f'{slots.slot}.png', shades, files.save)
    if game.command == 'record':
        face.say(words.said('state copied', name=short(slots.slot), recorded=words.said('recorded')), WARNING_SECONDS)
    else:
        face.say(words.said('state saved', number=number) + (words.said('state before', name=short(before)) if before else ''))


def load_state(face: Face, game: Played, files: Files, chosen: Preferences, number: int) -> Played:
    """The game of a state, or the one that goes on where there is none to go back to."""
    slots = files.slots(number)
    if game.command == 'record':
        face.say(words.said('recorded'), WARNING_SECONDS)
        return game
    if not os.path.lexists(slots.slot):
        face.say(words.said('state empty', number=number))
        return game
    game.save_all()
    try:
        with slots.left() as left:
            game.close()
            before, line, seconds = slots.go_back(left), words.said('state loaded', number=number), LINE_SECONDS
    except NotReplaced as error:
        game.close()
        before, line, seconds = None, words.said('state not loaded', number=number, why=error), WARNING_SECONDS
    game = files.open(face, chosen)
    face.say(line + (words.said('game before', name=short(before)) if before else ''), seconds)
    return game


def earlier_games(save: str) -> list[str]:
    """The copies of games that were replaced, the last one first."""
    slots = Slots('', save, '', False)
    try:
        return [path for _, path in sorted(slots.copies_before().items(), reverse=True) if os.path.lexists(path)]
    except OSError:
        return []


def put_aside(cart: str, save: str, program: str) -> Optional[str]:
    """Keeps the game in SAVE as one that was replaced, so that a new one can be begun. Answers its name, where there was one."""
    if not os.path.lexists(save):
        return None
    if os.path.lexists(f'{os.path.realpath(save)}.recorded'):
        raise Stopped(Told(f'{short(save)} is a recorded game', 'It goes on with its recording. Open its cartridge with another save file to begin anew.'))
    slots = Slots(cart, save, program, header_of(cart, program).has_clock())
    with told_in_a_line(), Held(os.path.realpath(save), EXCLUSIVE) as old:
        made = slots.keep_before(old, save, b'')
        os.unlink(os.path.realpath(save))
        with contextlib.suppress(FileNotFoundError):
            os.unlink(f'{save}.time')
    return made


def take_out(cart: str, save: str, target: str, is_battery: bool, program: str) -> None:
    """Makes a copy of SAVE, whose program has nothing unsaved, or a battery file of it."""
    with told_in_a_line(), Held(save) as held:
        content = held.content
        held.check()
    if not is_battery:
        with new_file(target, (cart, save)) as file:
            file.write(content)
        return
    with tempfile.TemporaryDirectory(prefix='gbkeep-', dir=memory_folder()) as folder:
        copy, out = f'{folder}/copy', f'{folder}/out'
        with open(copy, 'wb') as file:
            file.write(content)
        run(program, 'export', cart, copy, out)
        data = read_bytes(out, MOST_BATTERY_BYTES)
    with new_file(target, (cart, save)) as file:
        file.write(data)


def battery_name(save: str) -> Optional[str]:
    """What is to be said of a SAVE whose name another emulator takes for its battery file's."""
    if Path(save).suffix.lower() not in ('.sav', '.srm'):
        return None
    return f'other emulators take {short(save)} for their battery file, and write over it: call it {printable(Path(save).stem)}.gbkeep'


def recording_of(save: str) -> Optional[str]:
    """The recording that a game is played with, by the mark beside SAVE, or beside the file that it leads to; None where there is no mark."""
    name = os.path.realpath(save)
    if not os.path.lexists(f'{name}.recorded'):
        return None
    try:
        given = read_text(f'{name}.recorded', MOST_NAME_BYTES, owners_beside(name)).partition('\n')[0]
    except Planted as error:
        raise WrongInput(f'{error}: take it away') from None
    except WrongInput:
        given = ''
    # a name that is not absolute is one beside SAVE, wherever the window was started
    return os.path.join(os.path.dirname(name), given) if given else ''


def lasting_name(save: str, recording: str) -> str:
    """The name of a recording as its mark is to have it: one that leads there from SAVE's folder, wherever the window is started the next time."""
    found = os.path.abspath(recording)
    return recording if os.path.join(os.path.dirname(os.path.realpath(save)), recording) == found else found


def with_recording(face: Face, save: str) -> tuple[Optional[str], bool]:
    """The recording of a game that was recorded, and whether it is to be played on."""
    recording = recording_of(save)
    if recording is None:
        return None, True
    if not os.path.exists(recording):
        raise WrongInput(f'{short(save)} is a recorded game, and its recording {printable(recording) or "has no name"} is not there: put it back, or name it '
                         f'by --record; to end the recording, take {short(os.path.realpath(save))}.recorded away')
    return recording, bool(face.ask(words.asked('play recorded', recording=printable(recording))))


def battery_time(battery: str, cart: str, program: str) -> Optional[int]:
    """The time of writing that stands behind the clock of a battery file; None where there is none."""
    if not header_of(cart, program).has_clock():
        return None
    sizes = [line.split() for line in run(program, 'info', cart).splitlines() if line.startswith('ram ')]
    content = read_bytes(battery, MOST_BATTERY_BYTES)
    try:
        size = CLOCK_BYTES.get(len(content) - int(sizes[0][1]))
    except (IndexError, ValueError):
        return None
    seconds = int.from_bytes(content[-size:], 'little') if size else 0
    return seconds if 0 < seconds <= time.time() else None


def take_battery(face: Face, battery: str, cart: str, save: str, program: str) -> bool:
    """Begins a game with a battery file. Answers whether the time since it was written is to be given to the game's clock."""
    with free_name(save):
        run(program, 'import', cart, battery, save)
    written = battery_time(battery, cart, program)
    agreed = written is not None and bool(face.ask(words.asked('give time', text=
        f'{short(battery)} was written {span(int(time.time()) - written)} ago, on {time.strftime("%Y-%m-%d at %H:%M", time.localtime(written))}.')))
    if header_of(cart, program).has_clock():
        SaveTime(save).write([(0, written if agreed and written is not None else int(time.time()))])
    return agreed
