"""Plays Game Boy games from Python, by the program `gbkeep` or by its library.

`Game` is a game in a save file, which `gbkeep stream` plays: what `save` has answered no power cut can lose. `DebugMachine` is a machine to try things out
with, by `gbkeep debug`. `Machine` and `Session` are those of the library for C, in this process. All of them have the calls of `AnyMachine`, and those with
inputs that are saved the calls of `AnyGame`. A refusal is raised as `Refused`.

The tools, such as `gbkeep-window`, are modules of this package: `python3 -m gbkeep.window`. `gbkeep.env` is an environment for learning, `gbkeep.script` and
`gbkeep.movie` read and write scripts and movies, `gbkeep.pictures` pictures, and `gbkeep.save_files` is a second reader of save files."""
from . import loading

loading.watch()
from .game import (A, B, DOWN, HEIGHT, LEFT, RIGHT, SELECT, START, UP, WIDTH, DebugMachine, Game, Header, Picture, Position, begin,  # noqa: E402
                   begin_recording, find_program, header_of)
from .library import Call, Machine, Session, find_library, sectors_needed  # noqa: E402
from .machines import SLOTS, AnyGame, AnyMachine, MissingProgram, NoState, Refused  # noqa: E402
from .streams import take_streams  # noqa: E402

take_streams()
__version__ = '0.1.0'
__all__ = ['A', 'B', 'DOWN', 'HEIGHT', 'LEFT', 'RIGHT', 'SELECT', 'SLOTS', 'START', 'UP', 'WIDTH', 'AnyGame', 'AnyMachine', 'Call', 'DebugMachine', 'Game',
           'Header', 'Machine', 'MissingProgram', 'NoState', 'Picture', 'Position', 'Refused', 'Session', 'begin', 'begin_recording', 'find_library',
           'find_program', 'header_of', 'sectors_needed']
