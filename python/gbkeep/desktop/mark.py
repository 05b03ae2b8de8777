"""How far a game was played, in memory that outlives the window: so one that was killed can say from where the game goes on."""
import contextlib
import hashlib
import mmap
import os
import stat
from typing import Optional

from .words import FRAMES_A_SECOND

LENGTH = 16
MOST_UNNOTED = 60


class Mark:
    """The count of the inputs that were given to the game in SAVE; nothing where there is no memory for it."""

    def __init__(self, save: str):
        self.map: Optional[mmap.mmap] = None
        self.path = self.left = None
        runtime = os.environ.get('XDG_RUNTIME_DIR', '')
        folder = runtime if runtime.startswith('/') and os.path.isdir(runtime) else '/dev/shm'
        name = hashlib.sha256(os.fsencode(os.path.realpath(save))).hexdigest()[:24]
        with contextlib.suppress(OSError, ValueError):
            path = f'{folder}/gbkeep-played-{os.geteuid()}-{name}'
            descriptor = os.open(path, os.O_RDWR | os.O_CREAT | os.O_NOFOLLOW | os.O_CLOEXEC | os.O_NONBLOCK, 0o600)
            try:
                held = os.fstat(descriptor)
                if not stat.S_ISREG(held.st_mode) or held.st_uid != os.geteuid() or held.st_size not in (0, LENGTH):
                    return
                if held.st_size == 0:
                    os.ftruncate(descriptor, LENGTH)
                self.map = mmap.mmap(descriptor, LENGTH)
                self.path = path
                count = int.from_bytes(self.map[:8], 'little')
                # what a kill has left
                self.left = count if held.st_size else None
            finally:
                os.close(descriptor)

    def lost(self, resumed: int) -> Optional[float]:
        """How many seconds of play are gone with a window that was killed; None where none was."""
        # the program saves what it was given also where the window alone was killed, which has not noted the last of it
        if self.left is None or self.left + MOST_UNNOTED < resumed:
            return None
        return max(0, self.left - resumed) / FRAMES_A_SECOND

    def note(self, count: int) -> None:
        if self.map is not None:
            self.map[:8] = count.to_bytes(8, 'little')

    def remove(self) -> None:
        """The game was closed."""
        if self.map is not None and self.path is not None:
            self.map.close()
            self.map = None
            with contextlib.suppress(OSError):
                os.unlink(self.path)
