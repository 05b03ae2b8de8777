"""The timeline of a recorded game: all of it. Its moments are machines as they were, each ten seconds, in a cache beside the recording, RECORDING.timeline,
which may be deleted at any time. Each has the SHA-256 of the inputs up to it, and the file that of the cartridge, so that a recording that was edited meets
none of another. From the moment before it, any input is played up to; what is passed on the way there is kept as moments, too."""
import bisect
import contextlib
import hashlib
import shutil
import tempfile
import threading
import time
import zlib
from array import array
from collections.abc import Callable, Iterable
from itertools import groupby
from pathlib import Path
from typing import Optional

from ..game import DebugMachine, Refused
from ..input_files import WrongInput
from ..machines import NoState
from ..notes import notes_of
from ..script import recorded_moves
from ..shown_game import SECONDS, Played, ShownGame, memory_folder
from .timeline import FRAMES_BETWEEN, FRAMES_A_SECOND, Stamped, Timeline

# a recording of ten hours has 3,600 moments, of the demo 3 KiB each
MOST_BYTES = 32 << 20


def inputs_of(moves: Iterable[tuple]) -> array:
    """The inputs of moves, a number each: the buttons of a frame, or SECONDS and how many of them the clock was given."""
    inputs = array('Q')
    for move in moves:
        if move[0] == 'frames':
            inputs.extend(array('Q', (move[1],)) * move[2])
        elif move[0] == 'seconds':
            inputs.append(SECONDS + move[1])
    return inputs


class RecordedTimeline(Timeline):
    """The moments of a recorded game that is open, and its inputs, which a thread reads from a copy of the recording."""
    most = MOST_BYTES

    def __init__(self, cart: str, digest: bytes, recording: str, program: str, game: ShownGame):
        self.recording = self.beside = recording
        super().__init__(recording, digest)
        self.rom, self.program, self.game, self.moments = cart, program, game, []
        # the inputs before the game was opened; up to where the SHA-256 of all was made last; where the clock was given seconds, and how many with those before
        self.inputs, self.hashed, self.hash = array('Q'), 0, hashlib.sha256()
        self.looked, self.sums = 0, [0]
        self.given: list[int] = []
        self.is_read, self.is_known, self.rerecords = threading.Event(), False, 0
        copy = tempfile.NamedTemporaryFile(prefix='gbkeep-', dir=memory_folder())
        with open(recording, 'rb') as file:
            shutil.copyfileobj(file, copy)
        copy.flush()
        threading.Thread(target=self.take, args=(copy, game.count), daemon=True).start()

    def place(self, save: str) -> Optional[Path]:
        return Path(f'{save}.timeline')

    def take(self, copy, count: int) -> None:
        """Reads the inputs, and those moments of the file that are of them."""
        with contextlib.suppress(WrongInput):
            self.rerecords = notes_of(self.recording).rerecords
        with copy, self.lock, contextlib.suppress(Refused, OSError):
            self.inputs = inputs_of(recorded_moves(self.rom, copy.name, self.program))
            self.before, self.is_known = self.frames_of(len(self.inputs)), len(self.inputs) == count
            self.moments = [one for one in sorted(self.held(), key=by_count) if self.is_known and one.count <= count and one.inputs == self.digest(one.count)]
        self.is_read.set()

    @property
    def count(self) -> int:
        return len(self.inputs) + len(self.game.inputs)

    def part(self, begin: int, end: int) -> array:
        """The inputs from one count of them to another one."""
        first = len(self.inputs)
        return self.inputs[begin:end] + self.game.inputs[max(begin - first, 0):max(end - first, 0)]

    def digest(self, count: int) -> str:
        """The SHA-256 of the first inputs."""
        if count < self.hashed:
            self.hashed, self.hash = 0, hashlib.sha256()
        self.hash.update(self.part(self.hashed, count).tobytes())
        self.hashed = count
        return self.hash.hexdigest()

    def seconds_before(self, count: int) -> int:
        """How often the clock was given seconds up to there."""
        for number, one in enumerate(self.part(self.looked, count), self.looked):
            if one >= SECONDS:
                self.given.append(number)
                self.sums.append(self.sums[-1] + one - SECONDS)
        self.looked = max(self.looked, count)
        return bisect.bisect_left(self.given, count)

    def frames_of(self, count: int) -> int:
        return count - self.seconds_before(count)

    def at(self, count: int) -> Stamped:
        """The place behind so many inputs, as a branch begins there: until when its clock was given, and how many frames it has."""
        self.seconds_before(self.count)
        given = self.sums[-1] - self.sums[self.seconds_before(count)]
        return Stamped(b'', count, self.game.given_until - given, self.frames_of(count), time.time())

    def state(self, game: Played, shades: bytes) -> bytes:
        return zlib.compress(game.state() + shades, 1)

    def keep(self, moment: Stamped) -> None:
        threading.Thread(target=self.take_in, args=(moment, self.since), daemon=True).start()

    def take_in(self, moment: Stamped, since: Optional[int] = None) -> None:
        """Keeps a moment, once the inputs up to it are known; `since`: it lies so many frames behind where the game was opened."""
        self.is_read.wait()
        with self.lock:
            place = bisect.bisect_left(self.moments, moment.count, key=by_count)
            if not self.is_known or place < len(self.moments) and self.moments[place].count == moment.count:
                return
            if since is not None:
                moment.frames = self.before + since
            moment.inputs = self.digest(moment.count)
            self.moments.insert(place, moment)
            self.unwritten.append(moment)
        self.write()

    def drop(self, moment: Stamped) -> None:
        with self.lock:
            self.moments.remove(moment)

    def thinned(self, moments: list[Stamped]) -> list[Stamped]:
        """Half of the moments, those that lie closest together gone, where all of them take too much."""
        if sum(len(one.packed) for one in moments) > self.most // 2:
            step, kept = 2 * moments[-1].count // len(moments), moments[:1]
            for one in moments:
                if one.count - kept[-1].count >= step:
                    kept.append(one)
            gone = {*map(id, moments)} - {*map(id, kept)}
            with self.lock:
                self.moments = [one for one in self.moments if id(one) not in gone]
            return kept
        return moments

    def moment_before(self, count: int) -> Optional[Stamped]:
        """The last moment that has no more inputs."""
        with self.lock:
            place = bisect.bisect_right(self.moments, count, key=by_count)
            return self.moments[place - 1] if place else None


def by_count(moment: Stamped) -> int:
    return moment.count


class Seeker(threading.Thread):
    """Plays up to the input that was asked for last, in a program of its own, and tells its picture."""

    def __init__(self, timeline: RecordedTimeline, tell: Callable[[int, bytes], object]):
        super().__init__(daemon=True, name='seeker')
        self.timeline, self.tell, self.wanted, self.is_over = timeline, tell, -1, False
        timeline.seconds_before(timeline.count)
        self.asked = threading.Condition()

    def seek(self, count: int) -> None:
        with self.asked:
            self.wanted = count
            self.asked.notify_all()

    def end(self) -> None:
        with self.asked:
            self.is_over = True
            self.asked.notify_all()

    def run(self) -> None:
        self.timeline.is_read.wait()
        at, told = 0, -1
        with contextlib.suppress(Refused), DebugMachine(self.timeline.rom, program=self.timeline.program) as machine:
            machine.keep(0)
            while True:
                with self.asked:
                    self.asked.wait_for(lambda: self.is_over or self.wanted != told)
                    wanted = self.wanted
                if self.is_over:
                    return
                at = self.play(machine, at, wanted)
                if at == wanted:
                    told = wanted
                    self.tell(wanted, machine.picture().shades)

    def play(self, machine: DebugMachine, at: int, wanted: int) -> int:
        """Has the machine play up to an input, as long as no other one is wanted; answers how far it came."""
        moment = self.timeline.moment_before(wanted)
        begin = moment.count if moment else 0
        if not begin <= at <= wanted:
            at = begin
            if moment is None:
                machine.back(0)
            else:
                try:
                    machine.restore(moment.parts()[0])
                except (NoState, zlib.error):
                    # of the right inputs, and no state of this cartridge: somebody has made it
                    self.timeline.drop(moment)
                    return -1
        while at < wanted and self.wanted == wanted and not self.is_over:
            end = min(wanted, at + FRAMES_BETWEEN)
            for one, run in groupby(self.timeline.part(at, end)):
                count = len(list(run))
                if one < SECONDS:
                    machine.frames(one, count)
                for _ in range(count if one >= SECONDS else 0):
                    machine.seconds(one - SECONDS)
            at = end
            if at - begin >= FRAMES_BETWEEN:
                begin, place = at, self.timeline.at(at)
                place.packed = zlib.compress(machine.state() + machine.picture().shades, 1)
                self.timeline.take_in(place)
        return at


def clock(frames: int) -> str:
    """Where so many frames lie from power-on."""
    seconds = int(frames / FRAMES_A_SECOND)
    return f'{seconds // 3600}:{seconds // 60 % 60:02}:{seconds % 60:02}'
