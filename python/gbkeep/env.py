"""A game as an environment for learning and search, in the form of Gymnasium, over the machine of the library:

    from gbkeep import RIGHT
    from gbkeep.env import Environment

    with Environment('examples/demo/demo.gb', watch=[(0xc001, 2)], reward=lambda before, after: after[0] - before[0]) as env:
        picture, about = env.reset(seed=1)
        picture, reward, is_over, is_cut_short, about = env.step(1)

The same seed and the same actions give the same pictures, bytes and rewards. Where Gymnasium is installed, `Environment` is a `gymnasium.Env` and
`Environments` a `gymnasium.vector.VectorEnv`; else they stand alone, with the same calls and spaces. numpy is needed.

usage: python3 -m gbkeep.env --measure CART [--seconds N] [--threads N]     tells how many frames a second they play"""
import itertools
import operator
import os
import sys
import time
from collections.abc import Callable, Iterator, Sequence
from concurrent.futures import ThreadPoolExecutor, wait
from types import TracebackType
from typing import Any, NamedTuple, Optional, SupportsIndex, Union

from .game import A, B, DOWN, HEIGHT, LEFT, RIGHT, SELECT, START, UP, WIDTH
from .library import Machine
from .machines import MOST_ADDRESS, MOST_BUTTONS, MOST_GIVEN, MOST_MEMORY, Buffer, Cart, number, rom_of
from .system import IS_POSIX
from .tools import Words, count_word, run_tool

try:
    import numpy
except ImportError:
    INSTALL = "install Debian's package python3-numpy, and start it by that Python (/usr/bin/python3)" if IS_POSIX else 'pip install numpy'
    MISSING = f'gbkeep.env needs numpy, which is missing: {INSTALL}'
    if __name__ == '__main__':
        sys.exit(MISSING)
    raise ImportError(MISSING) from None

from .spaces import NEXT_STEP, Box, Dict, Discrete, Env, MultiDiscrete, VectorEnv

# nothing, and each button alone
ACTIONS = (0, RIGHT, LEFT, UP, DOWN, A, B, SELECT, START)
OBSERVED, SHRINKS, MODES = ('picture', 'memory', 'both'), (1, 2, 4, 8), (None, 'rgb_array')
# from a shade to a grey, and from the sum of the shades of a block to their mean grey
GREY = 85
GREYS = {shrink: (numpy.arange(256) * GREY // shrink ** 2).astype(numpy.uint8) for shrink in SHRINKS}
FRAMES_A_SECOND = 4_194_304 / 70_224
MOST_ENVIRONMENTS = 4_096
# of a step of fewer seconds, threads take longer to wait for each other's Python than they save
SHORT = 200e-6

# a picture, the bytes that are watched, or both by name
Observation = Union[numpy.ndarray, dict[str, numpy.ndarray]]
# an address, or an address and how many bytes from there on
Watched = Union[SupportsIndex, tuple[SupportsIndex, SupportsIndex]]


class State(NamedTuple):
    """All that the steps of an environment to come hang on. Another one that was made in the same way takes it, in another process, too."""
    machine: bytes
    steps: int
    is_over: bool
    chance: dict[str, Any]


class Environment(Env):
    """A game, a step of which is some frames with the buttons of an action held.

    - `actions`: the buttons of each action, a sum each. An action is the number of one of them.
    - `frames`: how many frames a step has.
    - `begin`: where an episode begins: a state of the machine, or a call that plays a machine there from power-on, once. Without it, at power-on.
    - `waits`: so many frames at most pass then without buttons, by chance.
    - `watch`: the memory that is read behind each step: addresses, and pairs of an address and a count.
    - `reward`: is given what is watched, as bytes, before and after a step, and answers what the step was worth. Without it, nothing.
    - `ends`: is given what is watched, and answers whether the episode is over.
    - `most_steps`: after so many steps an episode is cut short.
    - `observe`: 'picture' gives greys, 0 (black) to 255 (white), in 144 rows of 160; 'memory' what is watched; 'both' both, by these names.
    - `shrink`: 2, 4 or 8 makes one pixel of so many rows of so many, of their mean grey.
    - `render_mode`: 'rgb_array' has `render` answer the picture."""
    metadata = {'render_modes': ['rgb_array'], 'render_fps': FRAMES_A_SECOND}

    def __init__(self, rom: Cart, *, actions: Sequence[SupportsIndex] = ACTIONS, frames: SupportsIndex = 4,
                 begin: Union[Buffer, Callable[[Machine], object], None] = None, waits: SupportsIndex = 0, watch: Sequence[Watched] = (),
                 reward: Optional[Callable[[bytes, bytes], float]] = None, ends: Optional[Callable[[bytes], bool]] = None,
                 most_steps: Optional[SupportsIndex] = None, observe: str = 'picture', shrink: int = 1, render_mode: Optional[str] = None):
        self.actions = [number('buttons', buttons, 0, MOST_BUTTONS) for buttons in actions]
        number('actions', len(self.actions), 1, MOST_GIVEN)
        self.frames, self.waits = number('frames', frames, 1, MOST_GIVEN), number('waits', waits, 0, MOST_GIVEN)
        self.most_steps = None if most_steps is None else number('steps', most_steps, 1, MOST_GIVEN)
        self.reward, self.ends = reward, ends
        for what, given, known in (('observe', observe, OBSERVED), ('shrink', shrink, SHRINKS), ('render_mode', render_mode, MODES)):
            if given not in known:
                raise ValueError(f'{what}: {given!r} is none of {known}')
        self.observe, self.shrink, self.render_mode = observe, shrink, render_mode
        # each range that is watched, and where its bytes lie among all
        self.ranges, length = [], 0
        for one in watch:
            address, count = one if isinstance(one, tuple) else (one, 1)
            address, count = number('address', address, 0, MOST_ADDRESS), number('bytes', count, 1, MOST_MEMORY)
            self.ranges.append((address, slice(length, length + count)))
            length += count
        if observe != 'picture' and not length:
            raise ValueError('no memory is watched that could be observed')
        spaces = {'picture': Box(0, 255, (HEIGHT // shrink, WIDTH // shrink), numpy.uint8), 'memory': Box(0, 255, (length,), numpy.uint8)}
        self.action_space = Discrete(len(self.actions))
        self.observation_space = Dict(spaces) if observe == 'both' else spaces[observe]
        self._row, self._shades = numpy.empty(length, numpy.uint8), numpy.empty((HEIGHT, WIDTH), numpy.uint8)
        self.machine = Machine(rom)
        if callable(begin):
            begin(self.machine)
        elif begin is not None:
            self.machine.restore(begin)
        self.first = self.machine.state()
        self._at(0, False)

    def reset(self, *, seed: Optional[int] = None, options: Optional[dict[str, Any]] = None) -> tuple[Observation, dict[str, Any]]:
        """Begins an episode, where episodes begin or at the 'state', of the machine, that `options` has. A seed is that of all that is drawn from then on."""
        self._begin(seed, options)
        return self.observed(), self._about()

    def step(self, action: SupportsIndex) -> tuple[Observation, float, bool, bool, dict[str, Any]]:
        """Plays a step: what is observed, the reward, whether the episode is over, whether it is cut short, and what is watched."""
        self.machine.frames(self.buttons_of(action), self.frames)
        observation = self.observed()
        return observation, *self._judged(), self._about()

    def observed(self) -> Observation:
        """What is to be observed now, in arrays of their own."""
        observation = empty(self.observation_space)
        self._draw(observation)
        if self.observe != 'memory':
            make_greys(self._shades, picture_of(observation), self.shrink)
        self._note(observation)
        return observation

    def state(self) -> State:
        """All that the steps to come hang on, for `restore`."""
        return State(self.machine.state(), self.steps, self.is_over, self.np_random.bit_generator.state)

    def restore(self, state: State) -> None:
        """Goes on from there, as if what came since had not been."""
        self.machine.restore(state.machine)
        self.np_random.bit_generator.state = state.chance
        self._at(state.steps, state.is_over)

    def render(self) -> Optional[numpy.ndarray]:
        """The picture in red, green and blue, where `render_mode` asks for it."""
        if self.render_mode is None:
            return None
        self.machine.picture_into(self._shades)
        return numpy.repeat((self._shades * numpy.uint8(GREY))[:, :, None], 3, 2)

    def close(self) -> None:
        self.machine.close()

    def buttons_of(self, action: SupportsIndex) -> int:
        return self.actions[number('action', action, 0, len(self.actions) - 1)]

    def _begin(self, seed: Optional[int] = None, options: Optional[dict[str, Any]] = None) -> None:
        # Gymnasium takes a number of Python's own alone
        super().reset(seed=None if seed is None else operator.index(seed))
        state = (options or {}).get('state')
        self.machine.restore(self.first if state is None else state)
        if self.waits:
            self.machine.frames(0, self.np_random.integers(self.waits, endpoint=True))
        self._at(0, False)

    def _at(self, steps: int, is_over: bool) -> None:
        self.steps, self.is_over = steps, is_over
        self._read()
        self.watched = self._row.tobytes()

    def _judged(self) -> tuple[float, bool, bool]:
        """What the step that was observed is worth, and whether the episode ends by it."""
        before, self.watched = self.watched, self._row.tobytes()
        self.steps += 1
        reward = 0.0 if self.reward is None else float(self.reward(before, self.watched))
        is_over = self.ends is not None and bool(self.ends(self.watched))
        is_cut_short = self.most_steps is not None and self.steps >= self.most_steps
        self.is_over = is_over or is_cut_short
        return reward, is_over, is_cut_short

    def _about(self) -> dict[str, Any]:
        return {'memory': self._row.copy(), 'steps': self.steps}

    def _read(self) -> None:
        for address, place in self.ranges:
            self.machine.memory_into(address, self._row[place])

    def _note(self, into: Observation) -> None:
        """Reads what is watched, and leaves it in what is observed."""
        self._read()
        if self.observe != 'picture':
            (into['memory'] if self.observe == 'both' else into)[:] = self._row

    def _draw(self, into: Observation) -> None:
        """Leaves the shades of the picture where greys are made of them."""
        if self.observe != 'memory':
            self.machine.picture_into(picture_of(into) if self.shrink == 1 else self._shades)


class Environments(VectorEnv):
    """So many of the same environment, whose machines play at once in so many threads; where they are not said, in as many as there are processors if a step is
    long enough for that, and else in one. Each of them has an action and a seed of its own; one seed stands for the numbers from it on. One whose episode
    is over begins the next one in its next step, whose action is not played.

    `reward` and `ends` are called in the thread of the caller, one after another. `envs` are the environments."""
    metadata = {'render_modes': ['rgb_array'], 'render_fps': FRAMES_A_SECOND, 'autoreset_mode': NEXT_STEP}
    # what there is to close where one can't be made
    envs: Sequence[Environment] = ()
    _pool: Optional[ThreadPoolExecutor] = None
    _shades: Optional[numpy.ndarray] = None

    def __init__(self, rom: Cart, count: SupportsIndex, *, threads: Optional[SupportsIndex] = None, **how: Any):
        self.num_envs = number('environments', count, 1, MOST_ENVIRONMENTS)
        threads = None if threads is None else number('threads', threads, 1, MOST_ENVIRONMENTS)
        rom = rom_of(rom)
        # each of them reads these anew
        how.update((name, list(how[name])) for name in ('actions', 'watch') if name in how)
        self.envs = [Environment(rom, **how)]
        # the way to where episodes begin is played once
        how['begin'] = self.envs[0].first
        self.envs += [Environment(rom, **how) for _ in range(1, self.num_envs)]
        self.render_mode = self.envs[0].render_mode
        self.single_action_space, self.single_observation_space = self.envs[0].action_space, self.envs[0].observation_space
        self.action_space = MultiDiscrete([self.single_action_space.n] * self.num_envs)
        self.observation_space = batch_of(self.single_observation_space, self.num_envs)
        if self.envs[0].shrink > 1:
            # side by side
            self._shades = numpy.empty((self.num_envs, HEIGHT, WIDTH), numpy.uint8)
            for env, shades in zip(self.envs, self._shades):
                env._shades = shades
        if threads is None:
            threads = 1 if step_time(self.envs[0]) < SHORT else os.cpu_count() or 1
        threads = min(threads, self.num_envs)
        self._parts = [range(at * self.num_envs // threads, (at + 1) * self.num_envs // threads) for at in range(threads)]
        self._pool = ThreadPoolExecutor(threads, 'gbkeep')

    def reset(self, *, seed: Union[int, Sequence[Optional[int]], None] = None, options: Optional[dict[str, Any]] = None) -> tuple[Observation, dict[str, Any]]:
        """Begins an episode in each of them."""
        if seed is None:
            seeds = [None] * self.num_envs
        else:
            seeds = [operator.index(seed) + at for at in range(self.num_envs)] if numpy.ndim(seed) == 0 else list(seed)
        self._as_many('seeds', seeds)
        return self._at_once(lambda at: self.envs[at]._begin(seeds[at], options)), self._about()

    def step(self, actions: Sequence[SupportsIndex]) -> tuple[Observation, numpy.ndarray, numpy.ndarray, numpy.ndarray, dict[str, Any]]:
        """Plays a step of each of them: what is observed, the rewards, which episodes are over, which are cut short, and what is watched."""
        self._as_many('actions', actions)
        buttons = [env.buttons_of(action) for env, action in zip(self.envs, actions)]
        begins = [env.is_over for env in self.envs]

        def play(at: int) -> None:
            env = self.envs[at]
            if begins[at]:
                env._begin()
            else:
                env.machine.frames(buttons[at], env.frames)
        observations = self._at_once(play)
        judged = [(0.0, False, False) if is_begun else env._judged() for env, is_begun in zip(self.envs, begins)]
        rewards, over, short = zip(*judged)
        return observations, numpy.array(rewards, numpy.float64), numpy.array(over, numpy.bool_), numpy.array(short, numpy.bool_), self._about()

    def state(self) -> list[State]:
        """That of each of them."""
        return [env.state() for env in self.envs]

    def restore(self, states: Sequence[State]) -> None:
        """Has each of them go on from a state."""
        self._as_many('states', states)
        for env, state in zip(self.envs, states):
            env.restore(state)

    def render(self) -> Optional[tuple[numpy.ndarray, ...]]:
        """The picture of each of them, where `render_mode` asks for it."""
        return None if self.render_mode is None else tuple(env.render() for env in self.envs)

    def close_extras(self, **how: Any) -> None:
        if self._pool is not None:
            self._pool.shutdown()
        for env in self.envs:
            env.close()

    def __enter__(self) -> 'Environments':
        return self

    def __exit__(self, kind: Optional[type], error: Optional[BaseException], trace: Optional[TracebackType]) -> None:
        self.close()

    def _as_many(self, what: str, given: Sequence[object]) -> None:
        if len(given) != self.num_envs:
            raise ValueError(f'{len(given)} {what}, and there are {self.num_envs} environments')

    def _at_once(self, play: Callable[[int], object]) -> Observation:
        """Has each of them play, and what is observed of all."""
        observations = empty(self.observation_space)
        each = [{name: rows[at] for name, rows in observations.items()} if isinstance(observations, dict) else observations[at] for at in range(self.num_envs)]

        def some(part: range) -> None:
            for at in part:
                play(at)
                self.envs[at]._draw(each[at])
        others = [self._pool.submit(some, part) for part in self._parts[1:]]
        try:
            some(self._parts[0])
        finally:
            wait(others)
        for done in others:
            done.result()
        # what is short costs the least where no other thread waits for Python
        if self.envs[0].observe != 'memory':
            make_greys(self._shades, picture_of(observations), self.envs[0].shrink)
        for env, observation in zip(self.envs, each):
            env._note(observation)
        return observations

    def _about(self) -> dict[str, Any]:
        about = {'memory': numpy.stack([env._row for env in self.envs]), 'steps': numpy.array([env.steps for env in self.envs])}
        # of which of them each is told: of all
        return {**about, **{f'_{name}': numpy.ones(self.num_envs, numpy.bool_) for name in about}}


def step_time(env: Environment) -> float:
    """How many seconds a step takes where episodes begin, at least."""
    least = float('inf')
    for _ in range(3):
        begins = time.perf_counter()
        env.machine.frames(0, env.frames)
        env.observed()
        least = min(least, time.perf_counter() - begins)
        if least > 10 * SHORT:
            break
    env.machine.restore(env.first)
    env._at(0, False)
    return least


def picture_of(observation: Observation) -> numpy.ndarray:
    return observation['picture'] if isinstance(observation, dict) else observation


def make_greys(shades: Optional[numpy.ndarray], into: numpy.ndarray, shrink: int) -> None:
    """Makes greys of the shades of pictures, or of those that are there already where nothing is shrunk."""
    # eight pixels are one number: no product and no sum of theirs is above 255
    if shrink == 1:
        eights = into.view(numpy.uint64)
        numpy.multiply(eights, numpy.uint64(GREY), out=eights)
        return
    eights = shades.view(numpy.uint64)
    rows = eights[..., ::shrink, :].copy()
    for at in range(1, shrink):
        rows += eights[..., at::shrink, :]
    rows = rows.view(numpy.uint8)
    sums = rows[..., ::shrink].copy()
    for at in range(1, shrink):
        sums += rows[..., at::shrink]
    numpy.take(GREYS[shrink], sums, out=into, mode='clip')


def batch_of(space: Union[Box, Dict], count: int) -> Union[Box, Dict]:
    """The space of so many observations."""
    if isinstance(space, Dict):
        return Dict({name: batch_of(one, count) for name, one in space.spaces.items()})
    return Box(0, 255, (count, *space.shape), space.dtype)


def empty(space: Union[Box, Dict]) -> Observation:
    """Arrays for an observation, with any bytes."""
    return {name: empty(one) for name, one in space.spaces.items()} if isinstance(space, Dict) else numpy.empty(space.shape, space.dtype)


# ---- how fast they are

def rate(step: Callable[[], object], frames: int, seconds: float) -> float:
    """How many frames a second are played by this, which plays so many."""
    step()
    steps, begins, passed = 0, time.perf_counter(), 0.0
    while steps == 0 or passed < seconds:
        step()
        steps, passed = steps + 1, time.perf_counter() - begins
    return steps * frames / passed


def measured(cart: Cart, seconds: float, threads: int) -> Iterator[str]:
    """Frames a second from power-on, with actions by chance."""
    rom, many, chance = rom_of(cart), 4 * threads, numpy.random.default_rng(1)
    with Machine(rom) as machine:
        yield f'the machine alone, 60 frames a call: {rate(lambda: machine.frames(0, 60), 60, seconds):,.0f} frames a second'
    memory = {'watch': [(0xc000, 16)], 'observe': 'memory'}
    for what, frames, how in (('a frame a step, each with its picture', 1, {}), ('four frames a step, 16 bytes of memory and no picture', 4, memory)):
        with Environment(rom, frames=frames, **how) as env:
            env.reset(seed=1)
            actions = itertools.cycle(chance.integers(len(ACTIONS), size=10_000))
            yield f'{what}: {rate(lambda: env.step(next(actions)), frames, seconds):,.0f}'
        for some in sorted({1, threads}):
            with Environments(rom, many, threads=some, frames=frames, **how) as envs:
                envs.reset(seed=1)
                rows = itertools.cycle(chance.integers(len(ACTIONS), size=(1_000, many)))
                told = rate(lambda: envs.step(next(rows)), many * frames, seconds)
                yield f'{what}, {many} environments, {some} thread{"s" * (some > 1)}: {told:,.0f}'


def main(words: list[str]) -> None:
    asked = Words(prog='gbkeep.env', description='Tells how many frames a second an environment of CART plays.')
    asked.add_argument('--measure', metavar='CART', required=True, help='the cartridge')
    asked.add_argument('--seconds', type=count_word(0, 3_600, '--seconds'), default=2, metavar='N', help='for each line: 2')
    asked.add_argument('--threads', type=count_word(1, 256, '--threads'), default=min(os.cpu_count() or 1, 256), metavar='N',
                       help='as many as there are processors')
    given = asked.parse_args(words)
    for line in measured(given.measure, given.seconds, given.threads):
        print(line, flush=True)


if __name__ == '__main__':
    run_tool(main)
