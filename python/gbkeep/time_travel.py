"""The time of a debugged machine, in which it goes back: what was done since the beginning, and machines that are kept on the way.

A run is the same every time. So a place in time is the nearest machine that is kept before it, and what was done from there on, done again. It is a number,
its tick: a step has one, a line such as `set` has one, and a frame that is played as a whole has `FRAME_TICKS`, of which its steps are the first once
somebody looks into it. What is done in the past takes the place of what was done behind it, where it is something else."""
import bisect
import collections
from collections.abc import Callable, Iterable, Iterator, Sequence
from dataclasses import dataclass, replace
from typing import Optional

from .debug_program import FRAME_CYCLES, FREE_SLOTS, Debuggee, Place, Ran, Stop, Wrong

# more than a frame has steps
FRAME_TICKS = FRAME_CYCLES + 4
# a machine is kept each so many ticks, while there are fewer than these machines or bytes of them; then those go that lie closest for how long ago they are
CHECKPOINT_TICKS, MOST_CHECKPOINTS, MOST_CHECKPOINT_BYTES = 1 << 17, 600, 64 << 20
# beyond so many moves the past begins anew
MOST_MOVES = 1 << 20
# going back, a machine is kept where less than this is left to be done again, and so on
NEAR = 1 << 10
# as many frames of a script are played as a whole, where none of their steps meets a stop
FRAMES_AT_ONCE = 16
STEPS, FRAMES, LINE, HOLD, PRESS, END = 'steps', 'frames', 'line', 'hold', 'press', 'end'


@dataclass(frozen=True)
class Move:
    """Something that was done: steps, frames as a whole, a line with its bytes, buttons alone, buttons that a frame begins with, or the end of a frame."""
    kind: str
    start: int
    ticks: int
    # buttons of frames, or by how many M-cycles a frame overran
    value: int = 0
    line: str = ''
    data: bytes = b''
    # how many frames were played before it, and how many inputs of the script
    frames: int = 0
    inputs: int = 0
    is_input: bool = False

    @property
    def end(self) -> int:
        return self.start + self.ticks

    def frames_to(self, tick: int) -> int:
        """How many of its frames have ended by then."""
        return (tick - self.start) // FRAME_TICKS if self.kind == FRAMES else int(self.kind == END and tick >= self.end)

    def inputs_to(self, tick: int) -> int:
        return int(tick >= self.end) if self.kind == LINE else self.frames_to(tick)


class Timeline:
    """A machine with its past. All that moves the machine goes through it."""

    def __init__(self, debuggee: Debuggee, script: Iterable[tuple] = ()):
        self.debuggee = debuggee
        # where it is, and what was done; moves behind `now` are still known
        self.now = 0
        self.moves: list[Move] = []
        self.starts: list[int] = []
        # what goes on by itself: frames with their buttons, seconds, the power switch
        self.script = [one for move in script for one in inputs_of(move)]
        self.ends = [0]
        for _, count, _ in self.script:
            self.ends.append(self.ends[-1] + count)
        # the machine at tick 0, from the first move on
        self.origin = b''
        # the ticks of which a machine is kept, in order, and under which number
        self.kept: list[int] = []
        self.slots: dict[int, int] = {}
        self.free: list[int] = []
        # of the frame of the script that goes on: where it began, after how many moves, where it ends, and by how much it overruns
        self.measured = (-1, 0, 0, 0)

    def begin(self) -> None:
        """Notes the machine that the time begins with."""
        if not self.origin:
            self.origin = self.debuggee.state()
            self.free = list(range(min(MOST_CHECKPOINTS, FREE_SLOTS, max(MOST_CHECKPOINT_BYTES // len(self.origin), 8))))

    # ---- what is known of a place in time

    @property
    def end(self) -> int:
        return self.moves[-1].end if self.moves else 0

    def move_at(self, tick: int) -> Optional[Move]:
        """The move that goes on from there."""
        at = bisect.bisect_right(self.starts, tick) - 1
        return self.moves[at] if at >= 0 and tick < self.moves[at].end else None

    def move_before(self, tick: int) -> Optional[Move]:
        """The move that led there."""
        at = bisect.bisect_left(self.starts, tick) - 1
        return self.moves[at] if at >= 0 else None

    def frame(self, tick: Optional[int] = None) -> int:
        """How many frames were played before a place in time."""
        tick = self.now if tick is None else tick
        move = self.move_before(tick)
        return move.frames + move.frames_to(tick) if move else 0

    def inputs(self, tick: Optional[int] = None) -> int:
        """How many inputs of the script were done before it; a frame that has begun is not done."""
        tick = self.now if tick is None else tick
        move = self.move_before(tick)
        return move.inputs + (move.inputs_to(tick) if move.is_input else 0) if move else 0

    def begun(self) -> Optional[Move]:
        """What the frame of the script began with that goes on now."""
        if not self.script:
            return None
        at = bisect.bisect_left(self.starts, self.now) - 1
        while at >= 0 and self.moves[at].kind not in (END, FRAMES):
            if self.moves[at].kind == PRESS:
                return self.moves[at] if self.moves[at].is_input else None
            at -= 1
        return None

    # ---- what is done

    def steps(self, count: int) -> Iterator[str]:
        """So many steps, each with its line, which have to be read."""
        self.begin()
        while count:
            room = self.room()
            part = count if room is None else min(count, room)
            for line in self.debuggee.steps(part):
                self.passed(1, keeps=False)
                yield line
            self.keep()
            count -= part

    def step_to(self, stops: Iterable[Stop]) -> tuple[str, tuple[Stop, ...]]:
        """One step, with its line, and the stops that are met behind it."""
        self.begin()
        self.room()
        line, met = self.debuggee.step_to(stops)
        self.passed(1)
        return line, met

    def do(self, line: str, data: bytes = b'') -> str:
        """A line that moves the machine, and its answer. A wrong one is none."""
        self.begin()
        answer = self.debuggee.give(line, data)
        self.add(Move(LINE, self.now, 1, line=line, data=data))
        return answer

    def press(self, buttons: int) -> None:
        """Presses buttons, which stay so."""
        self.begin()
        self.debuggee.press(buttons)
        self.add(Move(HOLD, self.now, 1, buttons))

    def frames(self, buttons: int, count: int, is_input: bool = False) -> str:
        """So many frames as a whole."""
        self.begin()
        answer = self.debuggee.give(f'frames {buttons:02X} {count}')
        self.add(Move(FRAMES, self.now, count * FRAME_TICKS, buttons, is_input=is_input))
        return answer

    def run(self, most: Optional[int], stops: Iterable[Stop], goes_on: Callable[[], bool] = lambda: True, looks_at_last: bool = True) -> Ran:
        """Runs to a stop, `most` steps at most; without a bound, as long as `goes_on` answers True. The script goes on meanwhile."""
        self.begin()
        stops, made = list(stops), 0
        while most is None or made < most:
            if most is None and self.begun() is None and self.due() is not None:
                ran = self.frames_of_script(stops, goes_on)
                if ran:
                    return replace(ran, steps=made + ran.steps)
                continue
            room = self.room(begins=most is not None)
            if room == 0:
                continue
            part = min(one for one in (room, None if most is None else most - made, 1 << 31) if one is not None)

            def told(count: int) -> bool:
                self.passed(count)
                return goes_on()
            ran = self.debuggee.run(part, stops, told, looks_at_last or most is None or made + part < most)
            self.passed(ran.untold)
            made += ran.steps
            if ran.met or ran.is_ended:
                return replace(ran, steps=made)
            if not goes_on():
                return Ran(made, 0, is_ended=True)
        return Ran(made, 0)

    def profile(self, count: int, places: Sequence[Place] = ()) -> tuple[str, int, dict[tuple[int, int], int]]:
        """What `profile` of the program does and tells. The script goes on meanwhile."""
        self.begin()
        elsewhere, cycles = 0, collections.Counter()
        while True:
            room = self.room()
            part, here = count if room is None else min(count, room), self.now
            answer, more, others = self.profile_of_frame(part, places)
            elsewhere += more
            cycles.update(others)
            count -= part
            if answer.startswith('stopped ') or count == 0:
                return answer, elsewhere, dict(cycles)
            if self.now > here and any(self.debuggee.is_at(one) for one in places):
                return answer.replace('limit', 'stopped'), elsewhere, dict(cycles)

    def profile_of_frame(self, count: int, places: Sequence[Place]) -> tuple[str, int, dict[tuple[int, int], int]]:
        """The same within a frame. Its steps are counted behind it, by going there again."""
        self.keep(always=True)
        here = self.now
        self.debuggee.collect()
        answer = self.debuggee.profile(count, [one.word() for one in places])
        if answer[0].startswith('limit '):
            self.passed(count)
            return answer
        self.back_to(here)
        self.debuggee.told()
        ran = self.debuggee.run(count, places, lambda made: self.passed(made) or True)
        self.passed(ran.untold)
        return answer

    def passed(self, count: int, keeps: bool = True) -> None:
        """The machine has made steps."""
        if count == 0:
            return
        move = self.move_at(self.now)
        if move and move.kind == STEPS and self.now + count <= move.end:
            self.now += count
        else:
            self.cut()
            last = self.moves[-1] if self.moves else None
            if last and last.kind == STEPS:
                self.moves[-1] = replace(last, ticks=last.ticks + count)
                self.now += count
            else:
                self.add(Move(STEPS, self.now, count))
        if keeps:
            self.keep()

    def add(self, move: Move) -> None:
        """Notes a move that was done, in place of what was done here before."""
        same = self.move_at(move.start)
        if same and is_done_again(same, move):
            self.now = move.end
            self.keep()
            return
        self.cut()
        last = self.moves[-1] if self.moves else None
        if last and move.kind == FRAMES == last.kind and (last.value, last.is_input) == (move.value, move.is_input):
            self.moves[-1] = replace(last, ticks=last.ticks + move.ticks)
        else:
            if len(self.moves) >= MOST_MOVES:
                raise Wrong('the past is too long: begin anew')
            self.moves.append(replace(move, frames=self.frame(move.start), inputs=self.inputs(move.start)))
            self.starts.append(move.start)
        self.now = move.end
        self.keep()

    def cut(self) -> None:
        """Forgets what was done behind now."""
        if self.now >= self.end:
            return
        at = bisect.bisect_right(self.starts, self.now) - 1
        move = self.moves[at]
        if move.start < self.now:
            self.moves[at] = replace(move, ticks=self.now - move.start)
            at += 1
        del self.moves[at:], self.starts[at:]
        for tick in self.kept[bisect.bisect_right(self.kept, self.now):]:
            self.forget(tick)

    # ---- the script

    def due(self) -> Optional[tuple[str, int, int]]:
        """What the script has next: its kind, how many of it are left, and its value."""
        done = self.inputs()
        at = bisect.bisect_right(self.ends, done) - 1
        if at >= len(self.script):
            return None
        kind, count, value = self.script[at]
        return kind, count - (done - self.ends[at]), value

    def room(self, begins: bool = True) -> Optional[int]:
        """How many steps the frame of the script has left, once what is due is begun; None where the script goes on no more. Where it `begins` nothing, 0 at
        the end of a frame."""
        while True:
            begun = self.begun()
            if begun is not None:
                left, overrun = self.rest_of_frame(begun)
                if left:
                    return left
                self.debuggee.begin_count(overrun)
                self.add(Move(END, self.now, max(begun.start + FRAME_TICKS - self.now, 1), overrun, is_input=True))
                if not begins:
                    return 0
                continue
            due = self.due()
            if due is None:
                return None
            kind, _, value = due
            if kind == FRAMES:
                self.debuggee.press(value)
                self.add(Move(PRESS, self.now, 1, value, is_input=True))
            else:
                self.line_of_script(kind, value)

    def line_of_script(self, kind: str, value: int) -> None:
        line = kind if kind == 'power' else f'{kind} {value}'
        self.debuggee.give(line)
        self.add(Move(LINE, self.now, 1, line=line, is_input=True))

    def rest_of_frame(self, begun: Move) -> tuple[int, int]:
        """How many steps are left in the frame that began so, and by how many M-cycles it overruns."""
        here = self.now
        known = self.move_at(here)
        after = self.move_at(known.end) if known and known.kind == STEPS else known
        if after and after.kind == END:
            return after.start - here, after.value
        if self.measured[:2] == (begun.start, len(self.moves)) and self.measured[2] >= here:
            return self.measured[2] - here, self.measured[3]
        self.debuggee.collect()
        cycles = FRAME_CYCLES
        self.goto(begun.end)
        cycles -= self.debuggee.overrun()
        for move in self.moves_between(begun.end, here):
            if move.kind == STEPS:
                cycles -= self.debuggee.cycles_of(move.ticks)
            else:
                self.replay(move, move.ticks)
        self.now = here
        self.keep(always=True)
        if cycles <= 0:
            self.debuggee.told()
            return 0, -cycles
        left, overrun = self.debuggee.steps_within(cycles)
        self.back_to(here)
        self.debuggee.told()
        # it stays so until something else than a step is done
        self.measured = begun.start, len(self.moves) + (self.moves[-1].kind != STEPS), here + left, overrun
        return left, overrun

    def frames_of_script(self, stops: list[Stop], goes_on: Callable[[], bool]) -> Optional[Ran]:
        """Plays what the script has next, frames as a whole as long as none of their steps meets a stop."""
        kind, count, value = self.due()
        if kind != FRAMES:
            self.line_of_script(kind, value)
            return None
        count = min(count, FRAMES_AT_ONCE)
        if stops:
            self.debuggee.collect()
            self.keep(always=True)
            here = self.now
            while True:
                self.debuggee.press(value)
                ran = self.debuggee.run(count * FRAME_CYCLES, stops, lambda _: goes_on())
                self.back_to(here)
                self.debuggee.told()
                if ran.is_ended:
                    return Ran(0, 0, is_ended=True)
                if not ran.met or count == 1:
                    break
                count = 1
            if ran.met:
                self.room()
                left, _ = self.rest_of_frame(self.begun())
                if ran.steps <= left:
                    self.debuggee.pass_steps(ran.steps)
                    self.passed(ran.steps)
                    return ran
                self.back_to(here)
                self.cut()
        self.frames(value, count, is_input=True)
        return None if goes_on() else Ran(0, 0, is_ended=True)

    # ---- machines that are kept

    def keep(self, always: bool = False) -> None:
        """Keeps the machine as it is now, where it is time to."""
        self.begin()
        at = bisect.bisect_right(self.kept, self.now)
        before = self.kept[at - 1] if at else 0
        if before == self.now and (at or not always) or not always and self.now - before < CHECKPOINT_TICKS:
            return
        if not self.free:
            self.thin()
        slot = self.free.pop()
        self.debuggee.keep(slot)
        bisect.insort(self.kept, self.now)
        self.slots[self.now] = slot

    def thin(self) -> None:
        """Forgets the machine whose neighbours lie closest for how long ago it is."""
        around = [0, *self.kept, max(self.end, self.now)]
        self.forget(min(zip(around, around[1:], around[2:]), key=lambda one: (one[2] - one[0]) / (abs(self.now - one[1]) + 1))[1])

    def forget(self, tick: int) -> None:
        self.kept.remove(tick)
        self.free.append(self.slots.pop(tick))

    def back_to(self, tick: int) -> None:
        """Makes the machine one that is kept, or the first one."""
        if tick in self.slots:
            self.debuggee.back(self.slots[tick])
        elif tick == 0:
            self.debuggee.restore(self.origin)
        else:
            # it had to make room meanwhile
            self.back_to(self.base_of(tick))
            self.go_on_to(tick)
        self.now = tick

    # ---- to another place in time

    def moves_between(self, first: int, last: int) -> list[Move]:
        """What was done between two places, cut to what lies between them."""
        found, at = [], max(bisect.bisect_right(self.starts, first) - 1, 0)
        while at < len(self.moves) and self.moves[at].start < last:
            move = self.moves[at]
            start, end = max(move.start, first), min(move.end, last)
            if start < end:
                found.append(replace(move, start=start, ticks=end - start))
            at += 1
        return found

    def replay(self, move: Move, ticks: int) -> None:
        """Does a move again, or so much of it."""
        if move.kind == STEPS:
            self.debuggee.pass_steps(ticks)
        elif move.kind == FRAMES:
            self.debuggee.give(f'frames {move.value:02X} {ticks // FRAME_TICKS}')
        elif move.kind in (HOLD, PRESS):
            self.debuggee.press(move.value)
        elif move.kind == END:
            self.debuggee.begin_count(move.value)
        else:
            self.debuggee.give(move.line, move.data)

    def base_of(self, tick: int) -> int:
        """The nearest machine that is kept, at a place in time or before it."""
        at = bisect.bisect_right(self.kept, tick)
        return self.kept[at - 1] if at else 0

    def goto(self, tick: int) -> None:
        """Goes to a place in time, from 0 to `end`. In a frame that was played as a whole its steps become known."""
        if not 0 <= tick <= self.end:
            raise ValueError(f'{tick} lies beyond what was done')
        # what was sent and is sent again is told once
        self.debuggee.collect()
        tick = self.reached(tick)
        base = self.base_of(tick)
        if not base <= self.now <= tick:
            self.back_to(base)
        self.go_on_to(tick)

    def go_on_to(self, tick: int) -> None:
        """Does again what was done from now on, with machines kept the more, the nearer it comes."""
        for move in self.moves_between(self.now, tick):
            left = move.ticks
            while left:
                to_go = tick - self.now
                part = min(left, to_go - to_go // 4 if to_go > NEAR else to_go)
                if move.kind == FRAMES:
                    part = min(left, -(-part // FRAME_TICKS) * FRAME_TICKS)
                elif move.kind != STEPS:
                    part = left
                self.replay(move, part)
                self.now += part
                left -= part
                if NEAR < tick - self.now or self.now == tick and to_go > NEAR:
                    self.keep(always=True)
        self.debuggee.told()

    def reached(self, tick: int) -> int:
        """The place in time that a tick means: none lies within the end of a frame, and within a frame that was played as a whole it is one of its steps."""
        move = self.move_at(tick)
        if move and move.kind == FRAMES and (tick - move.start) % FRAME_TICKS:
            self.open(move.start + (tick - move.start) // FRAME_TICKS * FRAME_TICKS)
            move = self.move_at(tick)
        return move.start if move and move.kind == END else tick

    def open(self, start: int) -> None:
        """Makes the steps of a frame known that was played as a whole."""
        self.goto(start)
        self.keep(always=True)
        at = bisect.bisect_right(self.starts, start) - 1
        whole = self.moves[at]
        cycles = FRAME_CYCLES - self.debuggee.overrun()
        self.debuggee.press(whole.value)
        count, overrun = self.debuggee.steps_within(cycles)
        self.back_to(start)
        done = whole.frames_to(start)
        frames, inputs = whole.frames + done, whole.inputs + (done if whole.is_input else 0)
        parts = [replace(whole, ticks=start - whole.start)] if start > whole.start else []
        parts += [Move(PRESS, start, 1, whole.value, frames=frames, inputs=inputs, is_input=whole.is_input),
                  Move(STEPS, start + 1, count, frames=frames, inputs=inputs),
                  Move(END, start + 1 + count, FRAME_TICKS - 1 - count, overrun, frames=frames, inputs=inputs, is_input=whole.is_input)]
        if whole.end > start + FRAME_TICKS:
            parts.append(replace(whole, start=start + FRAME_TICKS, ticks=whole.end - start - FRAME_TICKS, frames=frames + 1, inputs=inputs + whole.is_input))
        self.moves[at:at + 1] = parts
        self.starts[at:at + 1] = [one.start for one in parts]

    def before(self, tick: int) -> Optional[int]:
        """The place in time before the last step, or line, that led to a tick; None at the beginning."""
        while tick > 0:
            move = self.move_before(tick)
            if move.kind == FRAMES:
                self.open(tick - FRAME_TICKS)
            elif move.kind in (HOLD, PRESS, END):
                tick = move.start
            else:
                return tick - 1 if move.kind == STEPS else move.start
        return None

    def step_back(self, count: int = 1) -> int:
        """Goes back by so many steps, or to the beginning, and answers how many they were."""
        tick, made = self.now, 0
        while made < count:
            move = self.move_before(tick)
            if move and move.kind == STEPS:
                part = min(count - made, tick - move.start)
                tick, made = tick - part, made + part
                continue
            before = self.before(tick)
            if before is None:
                break
            tick, made = before, made + 1
        self.goto(tick)
        return made

    def history(self, count: int) -> list[str]:
        """The last instructions that ran since something else than a step was done: their steps are made once more."""
        here, move = self.now, self.move_before(self.now)
        known = here - move.start if move and move.kind == STEPS else 0
        back = min(known, 2 * count)
        while True:
            self.goto(here - back)
            self.debuggee.collect()
            if back:
                # with none of those that are made again, it would go on behind what ran before
                self.keep(always=True)
                self.debuggee.back(self.slots[self.now])
            self.debuggee.pass_steps(back)
            self.debuggee.told()
            self.now = here
            lines = self.debuggee.history(count) if back else []
            if len(lines) >= count or back == known:
                return lines
            back = min(known, 16 * back)

    def tick_of_frame(self, number: int) -> Optional[int]:
        """Where a frame begins that was played, from 0; or where the last one has ended."""
        at = bisect.bisect_left([move.frames for move in self.moves], number) - 1
        if at < 0:
            return 0 if number == 0 else None
        move, left = self.moves[at], number - self.moves[at].frames
        if move.kind == FRAMES:
            return move.start + left * FRAME_TICKS if left * FRAME_TICKS <= move.ticks else None
        return move.end if move.kind == END and left == 1 else None

    # ---- stops in the past

    def first_met(self, first: int, last: int, stops: list[Stop], is_wanted: Callable[[tuple[Stop, ...]], bool], goes_on: Callable[[], bool]) -> Optional[int]:
        """The first place behind `first`, up to `last`, at which a stop is met that is wanted. The machine is there then."""
        self.goto(first)
        while self.now < last:
            if not goes_on():
                raise Ended
            move = self.moves_between(self.now, last)[0]
            if move.kind == FRAMES and move.ticks < FRAME_TICKS:
                self.open(self.now)
                continue
            if move.kind == FRAMES:
                self.keep(always=True)
                start = self.now
                self.debuggee.press(move.value)
                # an input of the frames does not change what stops within one
                ran = self.debuggee.run(min(move.ticks // FRAME_TICKS, FRAMES_AT_ONCE) * FRAME_CYCLES, stops, lambda _: goes_on())
                self.back_to(start)
                if ran.met:
                    self.open(start)
                else:
                    self.go_on_to(start + min(move.ticks // FRAME_TICKS, FRAMES_AT_ONCE) * FRAME_TICKS)
                continue
            if move.kind != STEPS:
                self.replay(move, move.ticks)
                self.now = self.now + move.ticks
                continue
            start = self.now

            def told(count: int) -> bool:
                self.now += count
                return goes_on()
            ran = self.debuggee.run(move.ticks, stops, told)
            self.now += ran.untold
            if ran.met and is_wanted(ran.met):
                return self.now
            if self.now == start:
                raise Ended
        return None

    def last_met(self, stops: Iterable[Stop], is_wanted: Callable[[tuple[Stop, ...]], bool] = lambda met: True,
                 goes_on: Callable[[], bool] = lambda: True) -> Optional[int]:
        """Goes to the last place before now at which a stop is met that is wanted, and answers its tick; None: there is none, and it is where it was."""
        stops, here = list(stops), self.now
        self.keep(always=True)
        last = here - 1
        try:
            while last > 0:
                first = self.base_of(last - 1)
                found = self.first_met(first, last, stops, is_wanted, goes_on)
                if found is not None:
                    return self.latest(found, last, stops, is_wanted, goes_on)
                last = first
        except Ended:
            self.goto(here)
            raise
        self.goto(here)
        return None

    def latest(self, found: int, last: int, stops: list[Stop], is_wanted: Callable[[tuple[Stop, ...]], bool], goes_on: Callable[[], bool]) -> int:
        """The last place up to `last` at which a stop is met, where `found` is one."""
        while found < last:
            # a look from there finds what lies behind it
            middle = self.reached((found + last) // 2)
            if middle < found:
                middle = found
            later = self.first_met(middle, last, stops, is_wanted, goes_on)
            if later is not None:
                found = later
            elif middle == found:
                break
            else:
                last = middle
        self.goto(found)
        return found


def is_done_again(known: Move, move: Move) -> bool:
    """Whether a move is what is known to have been done there."""
    if (known.kind, known.value, known.line, known.data, known.is_input) != (move.kind, move.value, move.line, move.data, move.is_input):
        return False
    if move.kind == FRAMES:
        return move.end <= known.end and (move.start - known.start) % FRAME_TICKS == 0
    return (known.start, known.ticks) == (move.start, move.ticks)


class Ended(Exception):
    """A look into the past was ended from outside."""


def inputs_of(move: tuple) -> list[tuple[str, int, int]]:
    """A move of a script as its kind, how many inputs it is, and its value; a `save` is none."""
    if move[0] == 'frames':
        return [(FRAMES, move[2], move[1])]
    return [] if move[0] == 'save' else [(move[0], 1, move[1] if len(move) > 1 else 0)]
