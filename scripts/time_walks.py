"""Tries going back against going forth: random walks in time over ROMs, in which each machine that is come to again has the digest that it had.

usage: time_walks.py GBKEEP WALKS [SEED]

The ROMs are those of examples, and programs of scripts/second_machine/feature_roms.py. A walk steps, runs to places and accesses, plays frames and scripts,
sets bytes, presses buttons, and goes back by steps, to stops, and to any place in time. The status is 1 where a digest differs; the walk is told then."""
import random
import sys
import tempfile
from pathlib import Path
from typing import Optional

from gbkeep.debug_program import Access, Change, Debuggee, Place, Program
from gbkeep.time_travel import FRAME_TICKS, Timeline
from scripts.second_machine import feature_roms

TOP = Path(__file__).resolve().parent.parent
OF_EXAMPLES = ('examples/demo/demo.gb', 'examples/test_roms/prints.gb', 'examples/test_roms/passes.gb')
FEATURES = 8
MOVES = 14
BUTTONS = (0, 1, 0x10, 0x80)


class Walk:
    """A walk over a ROM, with the digests of the places in time that it came to."""

    def __init__(self, program: str, cart: Path, seed: int):
        self.rnd = random.Random(seed)
        self.program = Program(program, cart)
        script = [('frames', self.rnd.choice(BUTTONS), self.rnd.randrange(1, 20)) for _ in range(3)] + [('seconds', 3), ('frames', 0, 5)] if seed % 2 else []
        self.time = Timeline(Debuggee(self.program), script)
        self.seen: dict[int, str] = {}
        self.seen[0] = self.time.debuggee.digest()

    def stops(self) -> list:
        """Some places that are run, and what is accessed."""
        rnd, pc = self.rnd, self.time.debuggee.registers().PC
        return rnd.sample([Place(pc), Place(rnd.choice((0x40, 0x100, 0x150, 0x200))), Access(True, 0xc000, 0xc0ff), Access(False, 0xff00, 0xff7f), Access(True, 0x9800, 0x9bff),
                           Change(0xff44), Change(rnd.randrange(0xc000, 0xe000))], rnd.randrange(1, 4))

    def move(self) -> None:
        rnd, time = self.rnd, self.time
        kind = rnd.randrange(11)
        if kind == 0:
            time.frames(rnd.choice(BUTTONS), rnd.randrange(1, 5))
        elif kind == 1:
            list(time.steps(rnd.randrange(1, 60)))
        elif kind == 2:
            time.run(rnd.randrange(1, 60_000), [])
        elif kind == 3:
            time.run(rnd.randrange(1, 30_000), self.stops())
        elif kind == 4:
            left = iter(range(rnd.randrange(1, 8)))
            time.run(None, self.stops(), lambda: next(left, None) is not None)
        elif kind == 5:
            time.do(f'set {rnd.randrange(0xc000, 0xe000):04X} {rnd.randrange(256):02X}')
        elif kind == 6:
            time.press(rnd.choice(BUTTONS))
        elif kind == 7:
            time.step_back(rnd.choice((1, 2, 100, rnd.randrange(1, 20_000))))
        elif kind == 8:
            time.last_met(self.stops())
        elif kind == 9:
            time.profile(rnd.randrange(1, 2_000), [Place(0x150)] * rnd.randrange(2))
        else:
            time.goto(rnd.choice(list(self.seen)) if rnd.random() < 0.6 else rnd.randrange(time.end + 1))

    def wrong(self) -> Optional[str]:
        """Walks, and answers what is wrong."""
        for number in range(MOVES):
            known = sum(move.ticks for move in self.time.moves), len(self.time.moves)
            before = dict(self.seen)
            cut, here = self.time.cut, self.time.now

            def cuts() -> None:
                if self.time.now < self.time.end:
                    for tick in [tick for tick in self.seen if tick > self.time.now]:
                        del self.seen[tick]
                cut()
            self.time.cut = cuts
            self.move()
            self.time.cut = cut
            digest, now = self.time.debuggee.digest(), self.time.now
            if self.seen.setdefault(now, digest) != digest:
                return f'move {number} from {here} to {now}, of {known}, {len(before)} seen'
        for tick in self.rnd.sample(list(self.seen), len(self.seen)):
            self.time.goto(tick)
            if self.time.debuggee.digest() != self.seen[tick]:
                return f'at the end, to {tick} of {self.time.end}, {tick / FRAME_TICKS:.3f} frames'
        return None


def main() -> int:
    program, walks, seed = sys.argv[1], int(sys.argv[2]), int(sys.argv[3]) if len(sys.argv) > 3 else 1
    wrong = count = 0
    with tempfile.TemporaryDirectory(prefix='walks-') as folder:
        carts = [TOP / name for name in OF_EXAMPLES]
        for number in range(FEATURES):
            cart = Path(folder) / f'feature_{number}.gb'
            cart.write_bytes(feature_roms.Rom(number).build())
            carts.append(cart)
        for number in range(seed, seed + walks):
            walk = Walk(program, carts[number % len(carts)], number)
            try:
                found = walk.wrong()
                count += len(walk.seen)
            finally:
                walk.program.kill()
            if found:
                print(f'walk {number} over {carts[number % len(carts)].name}: {found}')
                wrong += 1
    print(f'walks in time: {walks}, by {count} digests, {wrong} wrong')
    return 1 if wrong else 0


if __name__ == '__main__':
    sys.exit(main())
