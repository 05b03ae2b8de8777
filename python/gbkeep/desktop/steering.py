"""What a person holds and wants, between the thread that hears it and the one that plays."""
import threading
from typing import Optional

from .actions import BUTTONS, HELD


class Steering:
    """What is held down on keyboard, gamepad and screen, and what was pressed and is not done yet. Each call is safe from any thread."""

    def __init__(self):
        self.lock = threading.Condition()
        self.held: dict[str, str] = {}
        self.taken = 0
        self.wanted: list[tuple[str, object]] = []
        self.is_paused = self.stays_fast = self.is_closed = False
        # dialogs and menus that the game waits for
        self.waits = 0

    def press(self, action: str, by: str) -> None:
        """Something went down: a key, a button of a gamepad or of the window."""
        with self.lock:
            if action in HELD:
                self.held[by] = action
                if action in BUTTONS:
                    self.taken |= 1 << BUTTONS.index(action)
            if action == 'Pause':
                self.is_paused = not self.is_paused
            elif action == 'Stay fast':
                self.stays_fast = not self.stays_fast
            elif action not in BUTTONS and action != 'Fast':
                self.wanted.append((action, None))
            self.lock.notify_all()

    def let_go(self, by: str) -> None:
        with self.lock:
            self.held.pop(by, None)

    def want(self, action: str, what: object = None) -> None:
        """Something is to be done that has no key, or is to be done with something."""
        with self.lock:
            self.wanted.append((action, what))
            self.lock.notify_all()

    def let_all_go(self) -> None:
        """Nothing is held any more: the window is behind another one."""
        with self.lock:
            self.held.clear()
            self.taken = 0

    def wait(self, by: int) -> None:
        """So many more dialogs are open."""
        with self.lock:
            self.waits += by
            self.held.clear()
            self.taken = 0
            self.lock.notify_all()

    def close(self) -> None:
        with self.lock:
            self.is_closed = True
            self.lock.notify_all()

    def next_wanted(self) -> Optional[tuple[str, object]]:
        with self.lock:
            return self.wanted.pop(0) if self.wanted else None

    def forget(self) -> None:
        """What was pressed while something was asked is not for the game."""
        with self.lock:
            self.wanted.clear()
            self.taken = 0

    def buttons(self) -> int:
        """The buttons of a frame: one that was down since the last frame counts, also where it is up again."""
        with self.lock:
            buttons, self.taken = self.taken, 0
            for action in self.held.values():
                if action in BUTTONS:
                    buttons |= 1 << BUTTONS.index(action)
            return buttons

    def is_held(self, action: str) -> bool:
        with self.lock:
            return action in self.held.values()

    def rest(self, seconds: float) -> None:
        """Waits so long, or until something is pressed."""
        with self.lock:
            if not self.wanted and not self.is_closed:
                self.lock.wait(seconds)
