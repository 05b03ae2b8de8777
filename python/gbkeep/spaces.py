"""What `gbkeep.env` takes of Gymnasium: its own where it is installed, and else these few of the same names, attributes and answers.

It needs numpy."""
from collections.abc import Sequence
from typing import Any, Optional

import numpy

try:
    from gymnasium import Env
    from gymnasium.spaces import Box, Dict, Discrete, MultiDiscrete
    from gymnasium.vector import VectorEnv
    try:
        from gymnasium.vector import AutoresetMode
        NEXT_STEP = AutoresetMode.NEXT_STEP
    except ImportError:
        NEXT_STEP = 'NextStep'
except ImportError:
    NEXT_STEP = 'NextStep'

    def chance_of(seed: Optional[int]) -> tuple[numpy.random.Generator, int]:
        """What Gymnasium draws from for a seed, and the seed; without one, of a seed of the system's."""
        drawn = numpy.random.SeedSequence(seed)
        return numpy.random.Generator(numpy.random.PCG64(drawn)), drawn.entropy

    class Space:
        """What has a shape and a kind of number, and draws one of its own by `sample`."""

        def __init__(self, shape: Optional[tuple[int, ...]], dtype: Any, seed: Optional[int] = None):
            self.shape, self.dtype = shape, None if dtype is None else numpy.dtype(dtype)
            self.seed(seed)

        def seed(self, seed: Optional[int] = None) -> int:
            self.np_random, drawn = chance_of(seed)
            return drawn

        def sample(self) -> Any:
            raise NotImplementedError

        def contains(self, x: Any) -> bool:
            raise NotImplementedError

        def __contains__(self, x: Any) -> bool:
            return self.contains(x)

        def __eq__(self, other: object) -> bool:
            return type(self) is type(other) and repr(self) == repr(other)

    class Discrete(Space):
        """The numbers from 0 to below n."""

        def __init__(self, n: int, seed: Optional[int] = None):
            self.n = numpy.int64(n)
            super().__init__((), numpy.int64, seed)

        def sample(self) -> numpy.int64:
            return self.np_random.integers(self.n)

        def contains(self, x: Any) -> bool:
            return isinstance(x, (int, numpy.integer)) and 0 <= x < self.n

        def __repr__(self) -> str:
            return f'Discrete({self.n})'

    class MultiDiscrete(Space):
        """A row of such numbers."""

        def __init__(self, nvec: Sequence[int], seed: Optional[int] = None):
            self.nvec = numpy.array(nvec, numpy.int64)
            super().__init__(self.nvec.shape, numpy.int64, seed)

        def sample(self) -> numpy.ndarray:
            return self.np_random.integers(self.nvec)

        def contains(self, x: Any) -> bool:
            return isinstance(x, numpy.ndarray) and x.shape == self.shape and x.dtype.kind in 'iu' and bool((0 <= x).all() and (x < self.nvec).all())

        def __repr__(self) -> str:
            return f'MultiDiscrete({self.nvec})'

    class Box(Space):
        """Arrays of whole numbers from `low` to `high`."""

        def __init__(self, low: int, high: int, shape: tuple[int, ...], dtype: Any = numpy.uint8, seed: Optional[int] = None):
            super().__init__(tuple(shape), dtype, seed)
            self.low, self.high = (numpy.full(shape, bound, dtype) for bound in (low, high))

        def sample(self) -> numpy.ndarray:
            return self.np_random.integers(self.low, self.high, endpoint=True, dtype=self.dtype)

        def contains(self, x: Any) -> bool:
            return isinstance(x, numpy.ndarray) and x.shape == self.shape and x.dtype == self.dtype and bool((self.low <= x).all() and (x <= self.high).all())

        def __repr__(self) -> str:
            return f'Box({self.low.min()}, {self.high.max()}, {self.shape}, {self.dtype})'

    class Dict(Space):
        """Several of them by name."""

        def __init__(self, spaces: dict[str, Space], seed: Optional[int] = None):
            self.spaces = dict(spaces)
            super().__init__(None, None, seed)

        def seed(self, seed: Optional[int] = None) -> int:
            drawn = super().seed(seed)
            for space in self.spaces.values():
                space.seed(int(self.np_random.integers(1 << 31)))
            return drawn

        def __getitem__(self, name: str) -> Space:
            return self.spaces[name]

        def sample(self) -> dict[str, Any]:
            return {name: space.sample() for name, space in self.spaces.items()}

        def contains(self, x: Any) -> bool:
            return isinstance(x, dict) and x.keys() == self.spaces.keys() and all(space.contains(x[name]) for name, space in self.spaces.items())

        def __repr__(self) -> str:
            return f'Dict({self.spaces})'

    class Seeded:
        """What draws by chance, from a seed that `reset` is given."""
        metadata: dict[str, Any] = {}
        render_mode: Optional[str] = None
        spec = None
        _np_random: Optional[numpy.random.Generator] = None

        @property
        def np_random(self) -> numpy.random.Generator:
            if self._np_random is None:
                self._np_random, _ = chance_of(None)
            return self._np_random

        @property
        def unwrapped(self) -> 'Seeded':
            return self

        def reset(self, *, seed: Optional[int] = None, options: Optional[dict] = None) -> Any:
            if seed is not None:
                self._np_random, _ = chance_of(seed)

    class Env(Seeded):
        """An environment."""

        def __enter__(self) -> 'Env':
            return self

        def __exit__(self, *_: object) -> None:
            self.close()

    class VectorEnv(Seeded):
        """Several of them that take their steps at once."""
        closed = False

        def close(self, **how: Any) -> None:
            if not self.closed:
                self.close_extras(**how)
                self.closed = True

        def close_extras(self, **how: Any) -> None:
            pass
