"""The last hour of play: a moment each ten seconds, with its picture. It is a cache beside this user's other caches, in one file for each game: it is never
synced, what can't be read of it is passed over, and it may be deleted at any time. That of a recorded game has all of it (recorded.py)."""
import contextlib
import hashlib
import json
import os
import struct
import threading
import time
import zlib
from collections import deque
from collections.abc import MutableSequence
from pathlib import Path
from typing import Optional

from ..game import HEIGHT, MOST_STATE, WIDTH
from ..going_back import Moment
from ..input_files import WrongInput, open_plain, owners_beside, read_bytes
from ..new_files import Unsafe, new_file
from ..shown_game import Played
from .refusals import Stopped
from .shelf import folder_of
from .words import FRAMES_A_SECOND

FRAMES_BETWEEN, MOST_MOMENTS = round(10 * FRAMES_A_SECOND), 360
# a game that runs fast has one each two seconds
SECONDS_BETWEEN = 2
MOST_BYTES = 24 << 20
HEAD = b'# timeline of gbkeep\n'
# a moment by its length, its SHA-256 and what it says of itself
RECORD = struct.Struct('<I32sI')


class Stamped(Moment):
    """A moment of the timeline: how many frames were played up to it, and when; of a recorded game also the SHA-256 of its inputs."""

    def __init__(self, packed: bytes, count: int, given_until: int, frames: int, wall: float = 0, inputs: str = ''):
        self.packed, self.count, self.given_until, self.frames, self.wall, self.inputs = packed, count, given_until, frames, wall, inputs

    def picture(self) -> Optional[bytes]:
        """Its picture; None where it has none."""
        with contextlib.suppress(zlib.error):
            shades = self.parts()[1]
            return shades if len(shades) == WIDTH * HEIGHT else None
        return None

    def record(self) -> bytes:
        about = json.dumps([self.count, self.given_until, self.frames, self.wall, self.inputs]).encode()
        data = about + self.packed
        return RECORD.pack(len(data), hashlib.sha256(data).digest(), len(about)) + data


def records_in(data: bytes) -> list[Stamped]:
    """The moments that are whole, of a file's bytes."""
    found, at = [], len(HEAD) + 32
    while at + RECORD.size <= len(data):
        length, digest, about = RECORD.unpack_from(data, at)
        part = data[at + RECORD.size:at + RECORD.size + length]
        at += RECORD.size + length
        if len(part) != length or hashlib.sha256(part).digest() != digest:
            break
        with contextlib.suppress(ValueError, TypeError):
            count, given_until, frames, wall, inputs = json.loads(part[:about])
            found.append(Stamped(part[about:], int(count), int(given_until), int(frames), float(wall), str(inputs)))
    return found


class Timeline:
    """The moments of a game. `cart` is the SHA-256 of its cartridge, which the file has to name."""
    most = MOST_BYTES
    # a file that lies beside another one has its owner, and is no link
    beside: Optional[str] = None

    def __init__(self, save: str, cart: bytes):
        self.moments: MutableSequence[Stamped] = deque(maxlen=MOST_MOMENTS)
        # frames up to where the game was opened, and since
        self.cart, self.before, self.since, self.last, self.time = cart, 0, 0, 0, float('-inf')
        self.unwritten: list[Stamped] = []
        # who writes the file, which may take long, and who looks at the moments
        self.writing, self.lock = threading.Lock(), threading.Lock()
        self.path = self.place(save)

    def place(self, save: str) -> Optional[Path]:
        try:
            return folder_of('XDG_CACHE_HOME', '.cache') / 'timeline' / hashlib.sha256(os.fsencode(os.path.realpath(save))).hexdigest()[:32]
        except Stopped:
            return None

    @property
    def frames(self) -> int:
        return self.before + self.since

    def held(self) -> list[Stamped]:
        """What the file has of this cartridge."""
        with contextlib.suppress(WrongInput):
            data = read_bytes(self.path, self.most + MOST_STATE, owners_beside(self.beside) if self.beside else None) if self.path else b''
            return records_in(data) if data.startswith(HEAD + self.cart) else []
        return []

    def read(self, count: int) -> None:
        """Takes what the file has of this game, which now has so many inputs."""
        self.moments.extend(one for one in self.held() if one.count <= count)
        self.before = max((one.frames for one in self.moments), default=0)

    def note(self, game: Played, shades: bytes) -> bool:
        """Counts a frame, and keeps a moment where one is due; True where it did."""
        self.since += 1
        now = time.monotonic()
        if self.since - self.last < FRAMES_BETWEEN or now - self.time < SECONDS_BETWEEN:
            return False
        self.last, self.time = self.since, now
        self.keep(Stamped(self.state(game, shades), game.count, game.given_until, self.frames, time.time()))
        return True

    def state(self, game: Played, shades: bytes) -> bytes:
        return Moment(game, shades).packed

    def keep(self, moment: Stamped) -> None:
        with self.lock:
            self.moments.append(moment)
            self.unwritten.append(moment)
        threading.Thread(target=self.write, daemon=True).start()

    def write(self) -> None:
        """Adds the moments that are not there yet to the file; one that has become too long, or is of another cartridge, is written anew."""
        with self.writing, contextlib.suppress(OSError, Unsafe, WrongInput):
            with self.lock:
                more, self.unwritten, moments = self.unwritten, [], list(self.moments)
            if self.path is None or not more:
                return
            if not self.beside:
                self.path.parent.mkdir(parents=True, exist_ok=True)
            data = b''.join(one.record() for one in more)
            if not self.path.exists() or not self.is_added(data):
                with new_file(self.path, begins=(HEAD,), save=self.beside) as file:
                    file.write(HEAD + self.cart + b''.join(one.record() for one in self.thinned(moments)))

    def is_added(self, data: bytes) -> bool:
        """Whether the file is of this cartridge and had room for this, which it then has."""
        assert self.path is not None
        with open(open_plain(self.path, owners_beside(self.beside or self.path), os.O_RDWR), 'r+b', 0) as file:
            size = os.fstat(file.fileno()).st_size
            if file.read(len(HEAD) + 32) != HEAD + self.cart or size + len(data) > self.most:
                return False
            file.seek(size)
            return file.write(data) == len(data)

    def thinned(self, moments: list[Stamped]) -> list[Stamped]:
        """The moments that stay where there is no room for all."""
        return moments[-MOST_MOMENTS // 2:]

    def shown(self) -> list[tuple[Stamped, float]]:
        """The moments, the oldest first, each with how many seconds of play it lies behind."""
        return [(one, max(0.0, (self.frames - one.frames) / FRAMES_A_SECOND)) for one in list(self.moments)]
