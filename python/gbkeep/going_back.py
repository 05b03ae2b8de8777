"""What a player can go back to while a game is open: the last minute, and what was there before the last going back.

All of it is in memory. A moment is a machine's state with its picture and the time until which its clock was given. Going on with one is one more input
of the game, which is saved like any other, so that no file takes the place of another one. A recorded game does not go back: from a moment of it a branch
is begun, if the player agrees, a new game with a recording of its own."""
import time
import zlib
from collections import deque
from typing import Optional, Protocol

from .desktop import words
from .game import HEIGHT, MOST_STATE, WIDTH
from .shown_game import Played

# a minute, of which a moment is kept each few frames; so many are shown in a second of going back
FRAMES_A_MOMENT, MOST_MOMENTS, MOMENTS_A_SECOND = 4, 900, 30
FRAMES_A_SECOND = 60
WARNING_SECONDS = 8


class Held(Protocol):
    """A play, as far as it shows what is gone back to."""
    shades: bytes

    @property
    def is_closed(self) -> bool: ...

    def say(self, line: str, seconds: float = 3) -> None: ...

    def say_rewound(self, line: str) -> None: ...

    def ask(self, question: words.Question) -> Optional[bool]: ...

    def show(self, shades: Optional[bytes] = None) -> None: ...

    def is_held(self, name: str) -> bool: ...


class Moment:
    """A machine as it was; of a recorded game the count of inputs that lead to it stands for the state."""

    def __init__(self, game: Played, shades: bytes):
        state = b'%d' % game.count if game.command == 'record' else game.state()
        self.packed, self.given_until, self.count = zlib.compress(state + shades, 1), game.given_until, game.count

    def parts(self) -> tuple[bytes, bytes]:
        """The state and the picture."""
        data = zlib.decompressobj().decompress(self.packed, MOST_STATE)
        return data[:-WIDTH * HEIGHT], data[-WIDTH * HEIGHT:]


class GoingBack:
    """The moments of a play, and what keys do with them."""

    def __init__(self):
        self.past: deque[Moment] = deque(maxlen=MOST_MOMENTS)
        self.before: Optional[Moment] = None
        self.frames = 0

    def note(self, game: Played, shades: bytes) -> None:
        """Keeps a moment of each few frames."""
        self.frames += 1
        if self.frames % FRAMES_A_MOMENT == 0:
            self.past.append(Moment(game, shades))

    def moment(self, game: Played, shades: bytes) -> Optional[Moment]:
        """The game as it is now; None where it is recorded, and so does not go back."""
        return None if game.command == 'record' else Moment(game, shades)

    def rewind(self, play: Held, game: Played) -> Optional[Moment]:
        """Goes back as long as the key is held, and goes on from what is shown when it is let go. Of a recorded game it answers that moment where the player
        agrees to a branch from it. A play that is closed meanwhile goes back nowhere."""
        now, passed, frames = Moment(game, play.shades), [], 0
        while self.past and self.past[-1].packed == now.packed:
            self.past.pop()
        if not self.past:
            play.say(words.said('nothing to go back to'))
            return None
        while True:
            if self.past:
                passed.append(self.past.pop())
                frames += FRAMES_A_MOMENT
            play.say_rewound(words.rewound(frames / FRAMES_A_SECOND, not self.past))
            play.show(passed[-1].parts()[1])
            time.sleep(1 / MOMENTS_A_SECOND)
            if play.is_closed:
                return None
            if not play.is_held('Rewind'):
                break
        play.say_rewound('')
        if game.command != 'record':
            self.go_on(play, game, passed[-1], now)
            return None
        if play.ask(words.asked('branch here')):
            self.past.append(passed[-1])
            return passed[-1]
        self.past.extend(reversed(passed))
        play.show(now.parts()[1])
        return None

    def go_on(self, play: Held, game: Played, moment: Moment, before: Moment) -> None:
        """Goes on with a moment; `before` is the game as it is, to which this can be undone."""
        state, shades = moment.parts()
        game.go_on(state, moment.given_until)
        self.before = before
        # it is what the next rewind passes first
        self.past.append(moment)
        play.show(shades)

    def came_back(self, game: Played, before: Optional[Moment]) -> None:
        """Has a game that was replaced by its state be what is undone to."""
        if before is not None and game.state() != before.parts()[0]:
            self.before = before

    def reset(self, play: Held, game: Played) -> None:
        """Switches the power off and on, if the player agrees."""
        if stays(play, game):
            return
        game.save_all()
        if not play.ask(words.asked('reset')):
            return
        before = Moment(game, play.shades)
        game.power()
        self.before = before
        play.show(game.picture().shades)
        play.say(words.said('reset'))

    def undo(self, play: Held, game: Played) -> None:
        if stays(play, game):
            return
        if self.before is None:
            play.say(words.said('nothing to undo'))
            return
        self.go_on(play, game, self.before, Moment(game, play.shades))
        play.say(words.said('undone'))


def stays(play: Held, game: Played) -> bool:
    """Whether a game is recorded, and so does not go back; the play says so."""
    if game.command == 'record':
        play.say(words.said('recorded'), WARNING_SECONDS)
    return game.command == 'record'
