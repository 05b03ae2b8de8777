"""Tries the environments of gbkeep.env on the library: steps, rewards, ends, seeds, states, threads, and the form of Gymnasium, with what the package has of
its own, with a stand-in for Gymnasium, and with a real one where it is installed; and a session whose process was started with closed streams.

usage: test_env.py [TEST..]     GBKEEP_LIBRARY names the library, or it is bin/libgbkeep.so

The status is 1 where a test fails. Without numpy nothing is tried, and it says so."""
import importlib.util
import inspect
import os
import pickle
import re
import shlex
import subprocess
import sys
import threading
import unittest
from unittest import mock

from gbkeep import A, DOWN, LEFT, RIGHT, START, UP, Machine, NoState, Refused, Session
from gbkeep_tests import support
from gbkeep_tests.support import CART, TOP, expect
from scripts.doctor import told

try:
    import numpy
    from gbkeep import env as module, spaces
    from gbkeep.env import ACTIONS, Environment, Environments
except ImportError:
    numpy = None
WAYS = (RIGHT, LEFT, UP, DOWN)
# the player's place, the coin's, the score, the best one, and the seconds that are left
WATCH = [(0xc001, 2), 0xc003, 0xc004, (0xc005, 3)]


def begin(machine):
    machine.frames(0, 60)
    machine.frames(START, 4)


def needs_numpy():
    if numpy is None:
        raise unittest.SkipTest(f"with arrays: {told('numpy')}")


def played(env, seed, actions):
    """All that an episode shows."""
    shown = [env.reset(seed=seed)]
    for action in actions:
        shown.append(env.step(action))
    return shown


def same(one, other):
    """Whether what two of them show is the same."""
    if isinstance(one, (tuple, list)):
        return type(one) is type(other) and len(one) == len(other) and all(map(same, one, other))
    if isinstance(one, dict):
        return one.keys() == other.keys() and all(same(one[name], other[name]) for name in one)
    if isinstance(one, numpy.ndarray):
        return one.dtype == other.dtype and one.shape == other.shape and bool((one == other).all())
    return type(one) is type(other) and one == other


def test_steps(folder):
    """A step is the frames of the machine with the buttons of the action; the picture is the machine's, in greys."""
    needs_numpy()
    for how in ({}, {'frames': 1}, {'frames': numpy.int64(7), 'actions': [numpy.uint8(A), RIGHT | A, 0]}):
        with Environment(CART, **how) as env, Machine(CART) as machine:
            buttons, frames = list(how.get('actions', ACTIONS)), how.get('frames', 4)
            expect('actions', (int(env.action_space.n), env.actions), (len(buttons), [int(one) for one in buttons]))
            picture, about = env.reset()
            for step, action in enumerate([0, 1, 2, numpy.int64(1), 2, 0] * 20):
                expect('in its space', env.observation_space.contains(picture), True)
                expect(f'{how} before step {step}', picture.tobytes(), machine.picture().shades.translate(bytes(one * 85 & 255 for one in range(256))))
                picture, reward, is_over, is_cut_short, about = env.step(action)
                machine.frames(buttons[action], frames)
                expect('what no one asks for', (reward, is_over, is_cut_short, about['steps'], about['memory'].shape), (0.0, False, False, step + 1, (0,)))
            expect('the machine', env.machine.state(), machine.state())
    for action, kind in ((-1, ValueError), (9, ValueError), (1.0, TypeError), ('1', TypeError)):
        with Environment(CART) as env:
            state = env.machine.state()
            expect(f'the action {action!r}', support.refusal(lambda: env.step(action), kind) is not None, True)
            expect('nothing is done', env.machine.state() == state, True)
    for wrong in ({'frames': 0}, {'actions': []}, {'actions': [256]}, {'shrink': 3}, {'observe': 'sound'}, {'observe': 'memory'}, {'watch': [0x10000]},
                  {'watch': [(0, 0)]}, {'waits': -1}, {'most_steps': 0}, {'render_mode': 'human'}):
        expect(f'{wrong}', support.refusal(lambda: Environment(CART, **wrong), ValueError) is not None, True)
    expect('no cartridge', support.refusal(lambda: Environment(folder / 'none.gb'), Refused), f'{folder}/none.gb: No such file or directory')
    env = Environment(CART)
    env.close()
    env.close()
    expect('what is closed', [support.refusal(call, ValueError) for call in (lambda: env.step(0), env.reset, env.state)], ['the machine is closed'] * 3)


def test_observations(folder):
    """A pixel of a shrunk picture is the mean grey of its block; memory is what is watched; a caller keeps what it was given."""
    needs_numpy()
    actions = [0, 1, 3, 0, 0, 2] * 5
    with Environment(CART, actions=WAYS, begin=begin, watch=WATCH, observe='both') as env:
        whole = played(env, 1, actions)
        kept = [one[0]['picture'].copy() for one in whole]
    expect('pictures differ', len({one[0]['picture'].tobytes() for one in whole}) > 10, True)
    expect('what was given stays', all((one[0]['picture'] == was).all() for one, was in zip(whole, kept)), True)
    for shrink in (1, 2, 4, 8):
        with Environment(CART, actions=WAYS, begin=begin, shrink=shrink, render_mode='rgb_array') as env:
            for one, (picture, *_) in zip(whole, played(env, 1, actions)):
                blocks = one[0]['picture'].astype(int).reshape(144 // shrink, shrink, 160 // shrink, shrink).sum((1, 3)) // shrink ** 2
                expect(f'shrunk by {shrink}', (same(picture, blocks.astype(numpy.uint8)), env.observation_space.contains(picture)), (True, True))
            shown = env.render()
            expect('what is rendered', (shown.shape, shown.dtype, (shown == whole[-1][0]['picture'][:, :, None]).all()), ((144, 160, 3), numpy.uint8, True))
    with Environment(CART, actions=WAYS, begin=begin, watch=WATCH, observe='memory') as env, Machine(CART) as machine:
        begin(machine)
        expect('nothing to render', env.render(), None)
        for at, (held, *_, about) in enumerate(played(env, 1, actions)):
            expect('memory', (held.tobytes(), env.observation_space.contains(held)), (machine.memory(0xc001, 7), True))
            expect('and beside a picture', same(whole[at][0]['memory'], held) and same(about['memory'], held), True)
            machine.frames(WAYS[(actions + [0])[at]], 4)


def test_rewards(folder):
    """The reward, and the end, are what the caller's functions make of what is watched before and behind a step; an episode is cut short by its steps."""
    needs_numpy()
    given = []

    def reward(before, after):
        given.append((before, after))
        return after[0] - before[0]
    with Environment(CART, actions=WAYS, begin=begin, watch=[(0xc001, 2)], reward=reward, ends=lambda held: held[0] >= 120, most_steps=8) as env:
        _, about = env.reset(seed=3)
        expect('where it begins', list(about['memory']), [80, 80])
        steps = [env.step(action)[1:] for action in (1, 2, 0, 0, 0, 0, 0, 0)]
        expect('what is given', (given[0], given[-1]), ((bytes([80, 80]), bytes([72, 80])), (bytes([112, 72]), bytes([120, 72]))))
        expect('rewards', [one[0] for one in steps], [-8.0, 0.0, 8.0, 8.0, 8.0, 8.0, 8.0, 8.0])
        expect('kinds', {(type(one[0]), type(one[1]), type(one[2])) for one in steps}, {(float, bool, bool)})
        expect('ends', [one[1:3] for one in steps], [(False, False)] * 7 + [(True, True)])
        _, about = env.reset()
        expect('it begins again', (list(about['memory']), about['steps'], env.step(1)[1:4]), ([80, 80], 0, (-8.0, False, False)))
        state = env.machine.state()
        env.step(1)
        _, about = env.reset(options={'state': state})
        expect('at a state', (list(about['memory']), env.machine.state() == state), ([72, 80], True))
        expect('one that is none', support.refusal(lambda: env.reset(options={'state': state[:-1]}), NoState) is not None, True)
    with Environment(CART, begin=state, watch=[0xc001]) as env:
        expect('begun at a state', list(env.reset()[1]['memory']), [72])
    expect('at none', support.refusal(lambda: Environment(CART, begin=b'x'), NoState) is not None, True)


def test_seeds(folder):
    """The same seed and actions have the same result; a seed is that of the episodes that come, and another one is another game."""
    needs_numpy()
    rnd = numpy.random.default_rng(4)
    how = {'begin': begin, 'waits': 40, 'watch': [(0xc000, 16)], 'observe': 'both', 'frames': 3, 'reward': lambda before, after: float(after[1])}
    actions = rnd.integers(len(ACTIONS), size=40)
    with Environment(CART, **how) as env, Environment(CART, **how) as other:
        first = [played(env, 9, actions), played(env, None, actions)]
        expect('an environment', same(first, [played(env, 9, actions), played(env, None, actions)]), True)
        expect('another one', same(first, [played(other, 9, actions), played(other, None, actions)]), True)
        expect('the next episode, and another seed', (same(first[0], first[1]), same(first[0], played(other, 12, actions))), (False, False))
        waited = {env.reset(seed=seed)[1]['memory'].tobytes() for seed in range(60)}
        expect('waits', 20 < len(waited) <= 41, True)
    with Environment(CART, begin=begin, watch=[(0xc000, 16)]) as env:
        expect('no chance where nobody waits', len({env.reset(seed=seed)[1]['memory'].tobytes() for seed in range(5)}), 1)
    words = [sys.executable, '-B', '-c', f'''
import hashlib
from gbkeep_tests.test_env import *
how = { {**how, 'begin': None, 'reward': None} }
with Environment(CART, **how) as env:
    shown = played(env, 9, {actions.tolist()})
print(hashlib.sha256(repr([(one[0]['picture'].tobytes(), one[0]['memory'].tobytes()) for one in shown]).encode()).hexdigest())''']
    told = [subprocess.run(words, cwd=TOP, capture_output=True, text=True).stdout for _ in range(2)]
    expect('in other processes', (told[0] == told[1], len(told[0])), (True, 65))


def other_cart(folder):
    """The demo with a byte of its code changed: its controller and its RAM are the same."""
    rom = bytearray(CART.read_bytes())
    rom[0x0150] ^= 1
    path = folder / 'changed.gb'
    path.write_bytes(rom)
    return path


def test_states(folder):
    """An environment goes on from a state as if nothing had come since, in another process, too; a search tries all ways from each place."""
    needs_numpy()
    how = {'actions': WAYS, 'begin': begin, 'waits': 9, 'watch': WATCH, 'observe': 'both', 'most_steps': 30,
           'reward': lambda before, after: after[0] - before[0]}
    with Environment(CART, **how) as env, Environment(CART, **how) as other:
        played(env, 5, [0, 1, 2])
        state = env.state()
        wanted = [*(env.step(action) for action in (0, 3, 3)), env.reset(), *(env.step(action) for action in (1, 1))]
        for again in (env, other):
            again.restore(pickle.loads(pickle.dumps(state)))
            expect('what is observed', again.observed().keys(), wanted[0][0].keys())
            got = [*(again.step(action) for action in (0, 3, 3)), again.reset(), *(again.step(action) for action in (1, 1))]
            expect('from a state', same(got, wanted), True)
        expect('no state', support.refusal(lambda: env.restore(state._replace(machine=b'x')), NoState) is not None, True)
        with Environment(other_cart(folder), **how) as another:
            before = another.machine.state()
            for call in (lambda: another.restore(state), lambda: another.reset(options={'state': state.machine}), lambda: another.machine.restore(state.machine)):
                expect('of another ROM', (support.refusal(call, NoState), another.machine.state() == before), ('other cartridge', True))
        expect('to begin with', support.refusal(lambda: Environment(other_cart(folder), begin=state.machine), NoState), 'other cartridge')
        best, places = (0.0, ()), [((), 0.0, state)]
        for _ in range(3):
            found = []
            for ways, value, place in places:
                for way in range(len(WAYS)):
                    env.restore(place)
                    found.append(((*ways, way), value + env.step(way)[1], env.state()))
            places, best = found, max((value, ways) for ways, value, _ in found)
        expect('a search', best, (24.0, (0, 0, 0)))


def test_many(folder):
    """Many environments at once show what each of them shows alone, whatever the threads; one whose episode is over begins the next one in its next step."""
    needs_numpy()
    for observe in ('picture', 'memory', 'both'):
        how = {'actions': WAYS, 'begin': begin, 'waits': 20, 'watch': WATCH, 'observe': observe, 'shrink': 2, 'frames': 2, 'most_steps': 7,
               'reward': lambda before, after: after[0] - before[0], 'ends': lambda held: held[0] > 90}
        rows = numpy.random.default_rng(6).integers(len(WAYS), size=(40, 5))
        alone = [Environment(CART, **how) for _ in range(5)]
        for threads in (1, 2, 5, None):
            with Environments(CART, 5, threads=threads, **how) as envs:
                expect('how many', (envs.num_envs, len(envs.envs)), (5, 5))
                for seed in (1, [9, 3, None, 2, 2]):
                    if seed != 1:
                        for env, one in zip(envs.envs, alone):
                            one.restore(env.state())
                    seeds = [1 + at for at in range(5)] if seed == 1 else seed
                    shown, wanted = envs.reset(seed=seed), [env.reset(seed=one) for env, one in zip(alone, seeds)]
                    expect('in their space', envs.observation_space.contains(shown[0]), True)
                    begun, over = [False] * 5, set()
                    for number, row in enumerate([None, *rows]):
                        if row is not None:
                            shown = envs.step(row if number % 2 else row.tolist())
                            wanted = [(*env.reset(), None) if is_over else env.step(action) for env, action, is_over in zip(alone, row, begun)]
                            wanted = [(one[0], 0.0, False, False, one[1]) if one[2] is None else one for one in wanted]
                            expect('rewards', (shown[1].dtype, shown[1].tolist()), (numpy.float64, [one[1] for one in wanted]))
                            for part in (2, 3):
                                expect('ends', (shown[part].dtype, shown[part].tolist()), (numpy.bool_, [one[part] for one in wanted]))
                            begun = [one[2] or one[3] for one in wanted]
                            over |= {(one[2], one[3]) for one in wanted}
                        for at, one in enumerate(wanted):
                            picked = {name: part[at] for name, part in shown[0].items()} if observe == 'both' else shown[0][at]
                            expect(f'environment {at} of step {number}', same(picked, one[0]), True)
                            expect('what is told beside it', same({name: shown[-1][name][at] for name in ('memory', 'steps')},
                                                                  {'memory': one[-1]['memory'], 'steps': numpy.int64(one[-1]['steps'])}), True)
                        expect('of all of them', (shown[-1]['_memory'].tolist(), shown[-1]['_steps'].tolist()), ([True] * 5, [True] * 5))
                    expect('both ends, and none', {(True, False), (False, True), (False, False)} - over, set())
                states = envs.state()
                wanted = [envs.step(row) for row in rows[:9]]
                envs.restore(states)
                expect('from states', same([envs.step(row) for row in rows[:9]], wanted), True)
                for call in (lambda: envs.step([0] * 4), lambda: envs.step([0, 0, 0, 0, 4]), lambda: envs.reset(seed=[1, 2]), lambda: envs.restore(states[:2])):
                    expect('another number', support.refusal(call, ValueError) is not None, True)
            expect('what is closed', (envs.closed, support.refusal(envs.envs[0].reset, ValueError)), (True, 'the machine is closed'))
            envs.close()
        for env in alone:
            env.close()
    with Environments(CART, 3, watch=iter(WATCH), actions=iter(WAYS), observe='memory') as envs:
        expect('what can be read once', [(env.actions, env.ranges) for env in envs.envs], [(list(WAYS), envs.envs[0].ranges)] * 3)
    expect('no environments', support.refusal(lambda: Environments(CART, 0), ValueError) is not None, True)


def test_threads(folder):
    """The machines of many environments play in threads of their own, and the functions of the caller in the caller's."""
    needs_numpy()
    seen, called = set(), set()

    def reward(before, after):
        called.add(threading.get_ident())
        return 0
    with Environments(CART, 4, threads=4, frames=600, watch=[0xc001], observe='memory', reward=reward) as envs:
        for env in envs.envs:
            play = env.machine.frames
            env.machine.frames = lambda buttons, count, play=play: [seen.add(threading.get_ident()), play(buttons, count)]
        envs.reset(seed=1)
        for _ in range(20):
            envs.step([1, 2, 3, 4])
    expect('threads', (len(seen) > 1, called), (True, {threading.get_ident()}))

    how = {'waits': 9, 'watch': [0xc008], 'observe': 'memory'}
    for short, wanted in ((float('inf'), 1), (0, min(2, os.cpu_count()))):
        with mock.patch.object(module, 'SHORT', short), Environments(CART, 2, **how) as envs, Environments(CART, 2, threads=2, **how) as others:
            expect('threads that are not said', (len(envs._parts), len(others._parts)), (wanted, 2))
            shown = [[env.step([0, 1]), env.reset(seed=2), env.step([0, 1])] for env in (envs, others)]
            expect('and what that takes leaves nothing', same(*shown), True)

    def fails(before, after):
        raise KeyError('of the caller')
    with Environments(CART, 3, threads=2, watch=[0xc001], reward=fails) as envs:
        envs.reset()
        expect('what the caller raises', support.refusal(lambda: envs.step([0, 0, 0]), KeyError) is not None, True)
    with Environments(CART, 3, threads=2) as envs:
        envs.envs[2].close()
        expect('what a thread raises', support.refusal(envs.reset, ValueError), 'the machine is closed')


def test_spaces(folder):
    """The spaces draw what they contain, by their seed alone, and know what they don't contain."""
    needs_numpy()
    Box, Dict, Discrete, MultiDiscrete = spaces.Box, spaces.Dict, spaces.Discrete, spaces.MultiDiscrete
    for make, wrong in ((lambda: Discrete(9), [9, -1, 1.0, '1', None]), (lambda: MultiDiscrete([3, 4]), [numpy.array([3, 0]), numpy.array([0]), 1]),
                        (lambda: Box(0, 255, (2, 3), numpy.uint8), [numpy.zeros((3, 2), numpy.uint8), numpy.zeros((2, 3)), 7]),
                        (lambda: Dict({'a': Discrete(3), 'b': Box(0, 9, (4,), numpy.uint8)}), [{}, {'a': 1}, {'a': 3, 'b': numpy.zeros(4, numpy.uint8)}, 7])):
        one, other = make(), make()
        one.seed(7)
        other.seed(7)
        drawn = [one.sample() for _ in range(50)]
        expect(f'{one}: drawn by its seed', same(drawn, [other.sample() for _ in range(50)]) and one == other, True)
        expect(f'{one}: what it contains', [one.contains(each) and each in one for each in drawn], [True] * 50)
        expect(f'{one}: what it does not', [one.contains(each) for each in wrong], [False] * len(wrong))
        expect(f'{one}: more than one', len({repr(each) for each in drawn}) > 2, True)


# the names that Gymnasium 1 has, as far as they are taken of it
GYMNASIUM = {'gymnasium/__init__.py': '''
from gbkeep_fake import chance, spaces_of
class Env:
    metadata, render_mode, spec, _np_random = {'render_modes': []}, None, None, None
    def reset(self, *, seed=None, options=None):
        if seed is not None:
            assert type(seed) is int
            self._np_random = chance(seed)
    @property
    def np_random(self):
        if self._np_random is None:
            self._np_random = chance(None)
        return self._np_random
    @property
    def unwrapped(self):
        return self
    def __enter__(self):
        return self
    def __exit__(self, *args):
        self.close()
        return False
''', 'gymnasium/spaces.py': 'from gbkeep_fake import spaces_of\nglobals().update(spaces_of)\n', 'gymnasium/vector.py': '''
import enum
class AutoresetMode(enum.Enum):
    NEXT_STEP = 'NextStep'
class VectorEnv:
    metadata, spec, render_mode, closed = {}, None, None, False
    def close(self, **kwargs):
        if self.closed:
            return
        self.close_extras(**kwargs)
        self.closed = True
    def __del__(self):
        if not getattr(self, 'closed', True):
            self.close()
''', 'gbkeep_fake.py': '''
import numpy
def chance(seed):
    return numpy.random.Generator(numpy.random.PCG64(numpy.random.SeedSequence(seed)))
class Space:
    def __init__(self, *words, seed=None):
        self.words = words
    def sample(self):
        raise NotImplementedError
class Discrete(Space):
    def __init__(self, n, seed=None, start=0):
        self.n = numpy.int64(n)
class MultiDiscrete(Space):
    def __init__(self, nvec, dtype=numpy.int64, seed=None, start=None):
        self.nvec = numpy.array(nvec, dtype)
class Box(Space):
    def __init__(self, low, high, shape=None, dtype=numpy.float32, seed=None):
        self.low, self.high, self.shape, self.dtype = numpy.full(shape, low, dtype), numpy.full(shape, high, dtype), tuple(shape), numpy.dtype(dtype)
class Dict(Space):
    def __init__(self, spaces=None, seed=None, **more):
        self.spaces = dict(spaces)
spaces_of = {one.__name__: one for one in (Discrete, MultiDiscrete, Box, Dict)}
'''}


def test_gymnasium(folder):
    """Where there is a Gymnasium, the environments are its own, and show the same; a real one checks them, too."""
    needs_numpy()
    for name, text in GYMNASIUM.items():
        (folder / name).parent.mkdir(exist_ok=True)
        (folder / name).write_text(text)
    says = '''
import hashlib, numpy
from gbkeep import env as module
from gbkeep_tests.support import CART
shown = []
with module.Environment(CART, waits=30, watch=[(0xc000, 16)], observe='both', reward=lambda before, after: after[1] - before[1]) as env:
    shown.append(env.reset(seed=numpy.int64(3)))
    shown += [env.step(action) for action in (1, 2, 3, 4, 0)]
for how in ({'count': 0}, {'count': 2, 'threads': 0}, {'count': 2, 'shrink': 3}):
    try:
        module.Environments(CART, **how)
    except ValueError:
        shown.append(1)
envs = module.Environments(CART, 3, threads=2, waits=30, watch=[(0xc000, 16)])
shown += [envs.reset(seed=3), envs.reset(seed=numpy.int32(4)), envs.reset(seed=numpy.array([5, 6, 7]))]
shown += [envs.step([1, 2, 3]) for _ in range(5)]
envs.close()
def flat(one):
    if isinstance(one, (tuple, list)):
        return [flat(each) for each in one]
    if isinstance(one, dict):
        return {name: flat(each) for name, each in one.items()}
    return one.tobytes() if hasattr(one, 'tobytes') else one
bases = [kind.__mro__[1].__module__.partition('.')[0] for kind in (module.Environment, module.Environments)]
print(*bases, type(module.NEXT_STEP).__name__, module.Environments.metadata['autoreset_mode'] == module.NEXT_STEP, envs.closed)
print(hashlib.sha256(repr(flat(shown)).encode()).hexdigest())
'''
    told = {}
    for name, path in (('its own', []), ('a Gymnasium', [str(folder)])):
        if name == 'its own' and importlib.util.find_spec('gymnasium') is not None:
            continue
        env = {**os.environ, 'PYTHONPATH': os.pathsep.join([*path, os.environ['PYTHONPATH']])}
        done = subprocess.run([sys.executable, '-B', '-c', says], env=env, cwd=TOP, capture_output=True, text=True)
        expect(f'{name}: no error', done.stderr, '')
        told[name] = done.stdout.split()
    expect('of a Gymnasium', told['a Gymnasium'][:5], ['gymnasium', 'gymnasium', 'AutoresetMode', 'True', 'True'])
    if 'its own' in told:
        expect('of its own', told['its own'][:5], ['gbkeep', 'gbkeep', 'str', 'True', 'True'])
        expect('the same is shown', told['its own'][5], told['a Gymnasium'][5])
    if importlib.util.find_spec('gymnasium') is None:
        return
    from gymnasium.utils.env_checker import check_env
    for observe in ('picture', 'memory', 'both'):
        with Environment(CART, waits=9, watch=[(0xc000, 16)], observe=observe) as env:
            check_env(env, skip_render_check=True)


def test_measure(folder):
    """The measurement tells frames a second, a line each."""
    needs_numpy()
    measure = [*support.tool_words('env'), '--measure']
    done = subprocess.run([*measure, str(CART), '--seconds', '0', '--threads', '2'], capture_output=True, text=True)
    expect('its end', (done.returncode, done.stderr), (0, ''))
    lines = done.stdout.splitlines()
    expect('its lines', [bool(re.fullmatch(r'[a-z0-9, ]+: [1-9][0-9,]*( frames a second)?', line)) for line in lines], [True] * 7)
    done = subprocess.run([*measure, str(folder / 'none.gb')], capture_output=True, text=True)
    expect('no cartridge', (done.returncode, done.stdout, done.stderr.count('\n'), 'No such file' in done.stderr), (1, '', 1, True))
    done = subprocess.run(measure[:-1], capture_output=True, text=True)
    expect('no words', (done.returncode, done.stdout, done.stderr.count('\n')), (2, '', 1))


def test_learning(folder):
    """The example learns to collect coins, the same way each time."""
    needs_numpy()
    learn = [sys.executable, '-B', str(TOP / 'examples/learn.py')]
    told = [subprocess.run([*learn, *words], capture_output=True, text=True, timeout=120) for words in ([], ['--threads', '2'])]
    expect('no error', [one.returncode for one in told], [0, 0])
    expect('the same with other threads', told[0].stdout, told[1].stdout)
    learned, by_chance = map(int, re.fullmatch(r'as learned (\d+) coins in \d+ seconds, by chance (\d+) coins in 60 seconds\n', told[0].stdout).groups())
    expect(f'{learned} coins, {by_chance} by chance', learned >= 30 and learned >= 4 * by_chance, True)


# a game on a file of the caller's, while lines are written to the streams
KEEPS = '''
import os
from gbkeep import Session
with open({save!r}, 'w+b', buffering=0) as file, Session({cart!r}) as session:
    for _ in range(3):
        session.frames(1, 10)
        session.save()
        session.make_calls(file)
        for stream in (1, 2):
            os.write(stream, b'a line of somebody else\\n')
'''


def test_closed_streams(folder):
    """Where the streams were closed, a file that is opened behind `import gbkeep` has none of their numbers."""
    save = str(folder / 'game.gbkeep')
    code = KEEPS.format(save=save, cart=str(CART))
    for closed in ('>&- 2>&-', '>&- 2>&- <&-'):
        done = subprocess.run(['sh', '-c', f'{shlex.quote(sys.executable)} -B -c {shlex.quote(code)} {closed}'], timeout=120)
        left = (folder / 'game.gbkeep').read_bytes()
        expect(f'{closed}: what is said is in no game', (b'somebody else' in left, done.returncode), (False, 0))
        with Session(CART, left) as session:
            expect('a game', session.count, 30)


def test_types(folder):
    """Each call of an environment has types, and says what it does."""
    needs_numpy()
    for kind in (Environment, Environments):
        for name, call in vars(kind).items():
            if inspect.isfunction(call) and call.__code__.co_filename == module.__file__:
                given = call.__code__.co_varnames[:call.__code__.co_argcount + call.__code__.co_kwonlyargcount]
                missing = {*given, *(['return'] if name != '__init__' else [])} - {'self'} - set(call.__annotations__)
                expect(f'{kind.__name__}.{name}: without a type', missing, set())


if __name__ == '__main__':
    support.run_tests('environments', support.tests_in(globals()), lambda folder: (folder,), sys.argv[1:])
