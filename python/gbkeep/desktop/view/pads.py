"""Gamepads, by libmanette where it is there: their buttons by Linux's codes, as a standard pad has them."""
import os
from collections.abc import Callable
from typing import Optional

import gi

from ..actions import PAD_DOWN, PAD_LEFT, PAD_RIGHT, PAD_UP

try:
    gi.require_version('Manette', '0.2')
    from gi.repository import Manette
except (ImportError, ValueError):
    # a window without gamepads
    Manette = None

STICK = 0.49
# the axes of the left stick and of the pad, and which way each of them goes
ACROSS, DOWN = (0, 16), (1, 17)


class Pads:
    """Tells which buttons go down and up, also those of a stick or a pad that is told as an axis."""

    def __init__(self, press: Callable[[int, str], None], let_go: Callable[[int, str], None]):
        self.press, self.let_go = press, let_go
        self.ways: dict[tuple[int, int], Optional[int]] = {}
        self.monitor = None
        # libmanette fails where the system has no input devices at all
        if Manette is None or not os.path.isdir('/dev/input'):
            return
        self.monitor = Manette.Monitor()
        self.monitor.connect('device-connected', lambda _, device: self.take(device))
        devices = self.monitor.iterate()
        while True:
            there, device = devices.next()
            if not there:
                break
            self.take(device)

    def take(self, device: 'Manette.Device') -> None:
        device.connect('button-press-event', lambda one, event: self.button(one, event, self.press))
        device.connect('button-release-event', lambda one, event: self.button(one, event, self.let_go))
        device.connect('hat-axis-event', lambda one, event: self.axis(id(one), *event.get_hat()))
        device.connect('absolute-axis-event', lambda one, event: self.axis(id(one), *event.get_absolute()))

    def button(self, device: 'Manette.Device', event: 'Manette.Event', tell: Callable[[int, str], None]) -> None:
        there, code = event.get_button()
        if there:
            tell(code, f'pad {id(device)} {code}')

    def axis(self, device: int, there: bool, axis: int, value: float) -> None:
        """A stick or a pad is at a value from -1 to 1."""
        if not there or axis not in ACROSS + DOWN:
            return
        ways = (PAD_LEFT, PAD_RIGHT) if axis in ACROSS else (PAD_UP, PAD_DOWN)
        code = ways[0] if value < -STICK else ways[1] if value > STICK else None
        before, self.ways[device, axis] = self.ways.get((device, axis)), code
        if before != code:
            if before is not None:
                self.let_go(before, f'axis {device} {axis}')
            if code is not None:
                self.press(code, f'axis {device} {axis}')
