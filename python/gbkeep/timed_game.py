"""A game whose cartridge's clock is given the time that passes, also while nobody plays it.

The time until which the clock was given is kept beside SAVE, in SAVE.time, whose text the library reads and makes: which seconds are due, and what is
written before they are given, is its clock's. Here are the file, the two clocks of the computer, and the words."""
import os
import time
from collections.abc import Callable
from typing import Optional

from .game import Game, header_of
from .input_files import PathLike, WrongInput, is_there, owners_beside, printable, read_text, reason
from .library import BEFORE, BEHIND, ELSEWHERE, FAR_BEFORE, FAR_BEHIND, NO_TIME, OLDER, Clock, Found, clock_lines, look_at_clock
from .machines import Refused
from .new_files import Unsafe, new_file

# as many inputs as a SAVE may have beyond the last line of SAVE.time where the power was cut
INPUTS_BETWEEN = 125
MOST_BYTES, MOST_LINES = 512, 8

Line = tuple[int, int]


class WrongTime(Exception):
    """SAVE.time can't be read or written: why."""


def since_start() -> float:
    """Seconds of a clock that nobody sets, and that goes on while the computer sleeps where there is one."""
    return time.clock_gettime(getattr(time, 'CLOCK_BOOTTIME', time.CLOCK_MONOTONIC))


def span(seconds: int) -> str:
    """So many seconds in words: the two greatest units of them."""
    words = []
    for name, size in (('year', 365 * 86_400), ('day', 86_400), ('hour', 3_600), ('minute', 60), ('second', 1)):
        count, seconds = divmod(seconds, size)
        if count:
            words.append(f'{count:,} {name}{"s" * (count != 1)}')
    return ' and '.join(words[:2]) or '0 seconds'


def milliseconds(seconds: float) -> int:
    return max(int(seconds * 1_000), 0)


def lines_of(text: bytes) -> list[Line]:
    """The lines of a SAVE.time."""
    try:
        return clock_lines(text)
    except Refused as refused:
        if refused.code != NO_TIME:
            raise
        raise WrongTime('is no file of the window or the core') from None


def merged(some: list[Line], others: list[Line]) -> list[Line]:
    """Lines that say of two games how far the clock of each was given. What one with fewer inputs says as well is left out."""
    kept = []
    for count, seconds in sorted(set(some + others), key=lambda line: (line[0], -line[1])):
        if not kept or seconds > kept[-1][1]:
            kept.append((count, seconds))
    return kept[:-MOST_LINES - 1:-1]


class SaveTime:
    """The file SAVE.time. It is of the user whose SAVE it lies beside, or of the one whose file `like` is, where SAVE is not there yet."""

    def __init__(self, save: object, like: Optional[object] = None):
        self.path, self.like = f'{os.fsdecode(save)}.time', os.fsdecode(save if like is None else like)

    def text(self) -> bytes:
        """What it holds: lines, or nothing, also where it is not there."""
        try:
            text = read_text(self.path, MOST_BYTES, owners_beside(self.like)).encode() if is_there(self.path) else b''
        except WrongInput as error:
            raise WrongTime(str(error)) from None
        except OSError as error:
            raise WrongTime(f'{printable(self.path)}: {reason(error)}') from None
        try:
            lines_of(text)
        except WrongTime as error:
            raise WrongTime(f'{printable(self.path)} {error}') from None
        return text

    def read(self) -> list[Line]:
        """Its lines; none where it is not there, or empty."""
        return lines_of(self.text())

    def write(self, lines: list[Line], must_be_new: bool = False) -> None:
        """Puts these lines in its place, as `put` does."""
        self.put(''.join(f'{count} {seconds}\n' for count, seconds in lines).encode(), must_be_new)

    def put(self, text: bytes, must_be_new: bool = False) -> None:
        """Puts this text in its place, durably. A file of somebody else's stays, and any file where it must be new."""
        self.text()
        try:
            with new_file(self.path, must_be_new=must_be_new, save=self.like) as file:
                file.write(text)
        except Unsafe as error:
            raise WrongTime(str(error)) from None
        except OSError as error:
            raise WrongTime(f'{printable(self.path)}: {reason(error)}') from None

    def remove(self) -> None:
        if self.read():
            os.unlink(self.path)


class TimedGame(Game):
    """A game that `save_all` saves and gives the seconds that have passed. `notice`: what the player has to be told about the clock, or None; `trouble`:
    why the clock is given no time now, or None.

    `now` gives the seconds since 1970, `elapsed` those of a clock that nobody sets. `ask` is given the game and a question, and answers whether the
    player agrees, or None where there is no answer; without it nobody agrees."""

    def __init__(self, cart: PathLike, save: PathLike, program: Optional[PathLike] = None, now: Callable[[], float] = time.time, recording: Optional[PathLike] = None,
                 elapsed: Callable[[], float] = since_start, ask: Optional[Callable[['TimedGame', str], Optional[bool]]] = None):
        self.header, self.time, self.notice, self.trouble = header_of(cart, program), SaveTime(save), None, None
        self.elapsed, self.ask = elapsed, ask or (lambda game, question: False)
        self.clock: Optional[Clock] = None
        is_new = not os.path.lexists(save)
        super().__init__(cart, save, program, recording)
        if self.header.has_clock():
            self._begin_clock(is_new, milliseconds(now()), self.moment())
            self.save_all()

    def _begin_clock(self, is_new: bool, date: int, moment: int) -> None:
        """Looks up until when the clock was given, and how far the date is from there."""
        try:
            stands = self.time.text()
            found = look_at_clock(stands, self.resumed, INPUTS_BETWEEN, date)
        except WrongTime as error:
            self.notice = f'{error}: the clock is given no time. Take that file away, and it goes on from where it stands.'
            self.clock = Clock(b'', self.resumed, date, moment)
            return
        text, gives = b'', None
        if found.lines and not is_new:
            text, gives = self._take_up(stands, found)
        elif self.resumed > 0:
            self.notice = "There is no SAVE.time: the cartridge's clock goes on from where it stood."
        self.clock = Clock(text, self.resumed, date, moment, gives)
        if self.clock.text() != stands:
            self._writes(self.clock.text())

    def _take_up(self, text: bytes, found: Found) -> tuple[bytes, Optional[bool]]:
        """The text by which the clock is opened, and whether it is given more than a year."""
        passed = found.seconds if found.away in (BEHIND, FAR_BEHIND) else 0
        if found.played == OLDER:
            self.notice = (f'SAVE has fewer inputs than it had: it is an older copy. Its clock is given the {passed:,} seconds since the window '
                           'last saved a game under this name.')
        elif found.played == ELSEWHERE:
            self.notice = (f'SAVE was played without the window. Its clock is given the {passed:,} seconds since the window last saved a game '
                           'under this name.')
        if found.away == FAR_BEHIND:
            self.notice = None
            return text, self.ask(self, f"By the computer's date, {span(passed)} have passed since this game was played. Shall the cartridge's clock be given them?")
        if found.away in (BEFORE, FAR_BEFORE):
            self.notice = (f"The computer's date is {span(found.seconds)} before the time until which the cartridge's clock was given: the clock goes on from "
                           'where it stood.')
            if found.away == FAR_BEFORE and self.ask(self, f'{self.notice} Shall the time away be counted from the present date on?'):
                self.notice = None
                return b'', None
        return text, None

    def _writes(self, text: bytes) -> bool:
        try:
            self.time.put(text)
        except WrongTime as error:
            self.trouble = f'the clock stands still: {error}'
            return False
        self.trouble = None
        return True

    @property
    def given_until(self) -> int:
        """Until when the clock was given, in seconds since 1970; 0 without one."""
        return self.clock.until if self.clock else 0

    def moment(self) -> int:
        """The present moment, in milliseconds of the clock that nobody sets."""
        return milliseconds(self.elapsed())

    def due(self, moment: int) -> int:
        """How many seconds the clock has to be given."""
        return self.clock.due(moment) if self.clock else 0

    def claim(self, count: int, moment: int) -> bool:
        """Has SAVE.time say that the next input of a game of so many gives the clock the seconds that are due; False where it can't."""
        text = self.clock.claim(count, moment) if self.clock else b''
        if not text or not self._writes(text):
            return False
        self.clock.claimed()
        return True

    def note(self) -> None:
        """Has SAVE.time name the game as it was saved, where no seconds are due."""
        text = self.clock.note(self.saved) if self.clock else b''
        if text and self._writes(text):
            self.clock.noted()

    def save_all(self) -> int:
        """Gives the clock the seconds that have passed, saves, and answers the count of inputs."""
        moment = self.moment()
        is_due = self.due(moment) > 0
        if is_due and self.claim(self.count, moment):
            self.seconds(self.clock.give())
        count = self.save()
        if not is_due:
            self.note()
        return count

    def go_on(self, state: bytes, given_until: int) -> None:
        """Goes on with the machine of a state, one input; its clock was given the time until then, and is given the time since."""
        self.restore(state)
        if self.clock:
            self.clock.go_back(given_until)
            self.save_all()

    def begin_save(self) -> None:
        """Saves the game where somebody else can wait for that; here nobody can."""
        self.save_all()
