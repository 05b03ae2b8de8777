"""A game that goes on while it is saved, also where a sync takes long.

Two programs play it: `gbkeep stream` or `gbkeep record` on SAVE, by a thread that waits for it, and `gbkeep debug` on a copy of SAVE in memory, which is given
the same inputs and draws the pictures. What it is given, the other one is given too, in the same order, and `saved` is what that one has told."""
import contextlib
import os
import queue
import shutil
import tempfile
import threading
import time
from array import array
from typing import Optional, Union

from .game import DebugMachine, Picture, Refused, ignore_signals
from .input_files import PathLike
from .timed_game import TimedGame

# so few seconds are given to the clock while the game goes on: a power cut right then may lose them, since the line of SAVE.time has a count too small
FEW_SECONDS = 5
# a save that takes so long is told
SLOW_SECONDS = 5
# the calls that give a game an input
INPUTS = ('frame', 'seconds', 'power', 'restore')
# of the inputs of a recorded game each is a number: the buttons of a frame, or so much and the seconds of the clock
SECONDS = 256
# inputs that wait for a save: so many, and the game waits, too
MOST_WAITING = 20_000


def memory_folder() -> Optional[str]:
    """A folder that is in memory, where there is one; None is where other temporary files are."""
    for folder in (os.environ.get('XDG_RUNTIME_DIR', ''), '/dev/shm'):
        if folder.startswith('/') and os.path.isdir(folder) and os.access(folder, os.W_OK):
            return folder
    return None


class Player(DebugMachine):
    """The game of a SAVE, of which nothing is kept."""

    def __init__(self, cart: PathLike, save: PathLike, program: PathLike):
        with tempfile.NamedTemporaryFile(prefix='gbkeep-', dir=memory_folder()) as copy:
            with open(save, 'rb') as file:
                shutil.copyfileobj(file, copy)
            copy.flush()
            # it has read the copy once it has told its inputs, and writes to none
            super().__init__(cart, copy.name, program)

    def _start(self, words: list[str], **how: object) -> None:
        super()._start(words, preexec_fn=ignore_signals, **how)


class ShownGame:
    """A game of the window's. Its calls are those of TimedGame; `begin_save` waits for nothing."""

    def __init__(self, game: TimedGame, player: Player):
        self.game, self.player, self.count = game, player, game.count
        self.header, self.notice, self.command = game.header, game.notice, game.command
        # those of a recorded game since it was opened
        self.inputs = array('Q')
        # what the thread has to do; what became of the claim of seconds that it was last given
        self.work: queue.SimpleQueue = queue.SimpleQueue()
        self.is_claimed: Optional[bool] = None
        self.is_saving, self.since = False, 0.0
        self.failed: Optional[BaseException] = None
        self.thread = threading.Thread(target=self._work, daemon=True)
        self.thread.start()

    @property
    def saved(self) -> int:
        return self.game.saved

    @property
    def given_until(self) -> int:
        return self.game.given_until

    @property
    def trouble(self) -> Optional[str]:
        if self.is_saving and time.monotonic() > self.since + SLOW_SECONDS:
            return f'the disk is slow: nothing is saved for {SLOW_SECONDS} seconds'
        return self.game.trouble

    def frame(self, buttons: int = 0) -> None:
        self._look()
        while self.work.qsize() > MOST_WAITING:
            time.sleep(0.01)
            self._look()
        self.player.frame(buttons)
        self._give('frame', buttons)

    def frames(self, buttons: int, count: int) -> None:
        for _ in range(count):
            self.frame(buttons)

    def picture(self) -> Picture:
        return self.player.picture()

    def state(self) -> bytes:
        return self.player.state()

    def power(self) -> None:
        """The power switch, off and on: one input."""
        self._look()
        self.player.power()
        self._give('power')

    def go_on(self, state: bytes, given_until: int) -> None:
        """Goes on with the machine of a state, one input; its clock was given the time until then, and is given the time since."""
        has_clock = self.header.has_clock()
        if has_clock:
            # no claim of seconds is under way
            self._settle()
        self._look()
        self.player.restore(state)
        self._give('restore', state)
        if has_clock:
            # the thread claims nothing of itself, and both inputs are saved at once
            self.game.clock.go_back(given_until)
            self.save_all()

    def begin_save(self) -> None:
        """Begins a save, where the last one is done."""
        self._look()
        if self.is_saving:
            return
        moment = self.game.moment()
        passed = self.game.due(moment)
        if passed > FEW_SECONDS:
            self.save_all()
            return
        self.is_saving, self.since = True, time.monotonic()
        if passed > 0:
            self.work.put(('claim', self.count, moment))
        else:
            self.work.put(('save', True))

    def save_all(self) -> int:
        """Gives the clock the seconds that have passed, saves, and answers the count of inputs."""
        self._settle()
        # the thread has nothing to do now
        moment = self.game.moment()
        is_due = self.game.due(moment) > 0
        if is_due and self.game.claim(self.count, moment):
            self._seconds()
        self.is_saving, self.since = True, time.monotonic()
        self.work.put(('save', not is_due))
        self._settle()
        return self.saved

    def close(self) -> None:
        self._settle()
        self.work.put(('end',))
        self.thread.join()
        self.player.process.kill()
        with contextlib.suppress(Refused):
            self.player.close()
        self.game.close()

    def _seconds(self) -> None:
        """Gives the seconds that were claimed."""
        passed = self.game.clock.give()
        self.player.seconds(passed)
        self._give('seconds', passed)

    def _give(self, *order) -> None:
        """Has the thread give the game an input, as a call."""
        self.work.put(order)
        self.count += 1
        if self.command == 'record':
            self.inputs.append(int(order[1]) + (0 if order[0] == 'frame' else SECONDS))

    def _settle(self) -> None:
        """Waits until nothing is left to do."""
        while self.is_saving or not self.work.empty():
            self._look()
            time.sleep(0.001)
        done = threading.Event()
        self.work.put(('tell', done))
        while not done.wait(0.1):
            self._look()
        self._look()

    def _look(self) -> None:
        """Takes what the thread has done meanwhile."""
        if self.failed is not None:
            raise self.failed
        if self.is_claimed is not None:
            is_claimed, self.is_claimed = self.is_claimed, None
            if is_claimed:
                self._seconds()
            self.work.put(('save', False))

    def _work(self) -> None:
        try:
            while True:
                order, *words = self.work.get()
                if order in INPUTS:
                    getattr(self.game, order)(*words)
                elif order == 'claim':
                    self.is_claimed = self.game.claim(*words)
                elif order == 'save':
                    self.game.save()
                    if words[0]:
                        self.game.note()
                    self.is_saving = False
                elif order == 'tell':
                    words[0].set()
                else:
                    return
        except BaseException as error:
            self.failed = error


Played = Union[ShownGame, TimedGame]


def shown(game: TimedGame, cart: PathLike, save: PathLike, program: PathLike) -> Played:
    """The game with a second program for its pictures; the game itself, which waits for each save, where there can be none."""
    game.save_all()
    try:
        player = Player(cart, save, program)
    except (OSError, Refused):
        return game
    if player.resumed != game.count:
        player.process.kill()
        return game
    return ShownGame(game, player)
