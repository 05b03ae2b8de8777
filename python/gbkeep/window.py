"""Plays games in a window: each is saved every second, and no power cut loses more than the last one.

usage: gbkeep-window [--gbkeep PROGRAM] [--scale N] [--keys FILE] [--palette N] [--record RECORDING | --import BATTERY] [CART] [SAVE]

Without a CART it shows the games that were played. CART may be a cartridge (.gb, .gbc), a zip with one, a battery file (.sav, .srm) or a SAVE (.gbkeep);
each of them can be dropped on the window, too. SAVE is made where there is none; without SAVE, a cartridge has one of its own in ~/.local/share/gbkeep. A
SAVE is best called NAME.gbkeep: other emulators take NAME.sav and NAME.srm for their battery files, and write over them. Keys:

    arrows                 the pad
    X, Z                   A, B (by their places on the keyboard)
    Enter, Backspace       Start, Select
    Tab, while it is held  fast; G keeps it on
    P, N                   pause, and on; the next frame in a pause, or a pause
    R, while it is held    goes back, up to a minute
    T                      the timeline: pictures of the last hour, to go on from; of a recorded game any frame of it, and marks
    F5, F9                 saves the game to the chosen state, and loads it
    F7, F4                 the next of ten states; all of them, with pictures
    F8                     undoes the last R, T, F3, F9 or F8
    F3                     the power switch, off and on; it asks first
    S                      a screenshot, in the colours that are shown, in the folder of pictures
    F2                     the next palette, of four
    F1                     shows the keys
    F11, Esc               full screen, and back; Esc shows the menu otherwise

Keys and a gamepad's buttons are changed in the preferences, by pressing them; --keys FILE changes keys for once, by lines as `A = space`.

A state is a copy of the game, SAVE.slot1 to SAVE.slot10; a game that a state replaces is kept as SAVE.before, SAVE.before.2 and so on. With --record every
input is kept in RECORDING, too, which is made along with SAVE. A recorded game does not go back, since its recording goes on; rewind and timeline ask, and
begin a branch: a new game beside it, SAVE-2, with a recording of its own. With --import a game is begun in a new SAVE with the battery file of another
emulator; one that lies beside a new game is asked about.

A cartridge with a clock is given the seconds that have passed since the window last saved the game (SAVE.time); of more than a year it asks first. Closing
the window, Ctrl-C or a SIGTERM saves and ends. The status is 1 where what was named could not be played.

It needs gi (Debian's package python3-gi) with GTK 4 (Debian's package gir1.2-gtk-4.0) and with libadwaita (Debian's package gir1.2-adw-1). Gamepads are
heard by libmanette (Debian's package gir1.2-manette-0.2). It never writes into SAVE itself: all of that is the program's."""
import argparse
import os
import sys
from typing import NoReturn

from .desktop import preferences
from .desktop.playing import Asked
from .game import find_program, starting
from .library import loaded
from .machines import Refused
from .palettes import PALETTES
from .system import IS_POSIX
from .tools import Words, count_word, name_of_tool, say


def words_of(given: list[str]) -> argparse.Namespace:
    words = Words(prog=name_of_tool(), description='Plays games in a window.', epilog=__doc__, formatter_class=argparse.RawDescriptionHelpFormatter)
    words.add_argument('--gbkeep', metavar='PROGRAM', default=find_program(), help='the program (default: %(default)s)')
    words.add_argument('--scale', metavar='N', type=count_word(1, 8, 'scale'), help='how large a pixel is at first, 1 to 8 (default: as it was closed, or 4)')
    words.add_argument('--keys', metavar='FILE', help='a file that changes keys, by lines as `A = space`')
    words.add_argument('--palette', metavar='N', type=count_word(1, len(PALETTES), 'palette'), help='the colours, 1 to 4 (default: those of the last time)')
    files = words.add_mutually_exclusive_group()
    files.add_argument('--record', metavar='RECORDING', help='the file for every input since power-on')
    files.add_argument('--import', metavar='BATTERY', dest='battery', help='begins a game with the battery file of another emulator')
    words.add_argument('cart', metavar='CART', nargs='?')
    words.add_argument('save', metavar='SAVE', nargs='?')
    asked = words.parse_args(given)
    if asked.cart is None and (asked.record or asked.battery):
        words.error('--record and --import need a CART')
    return asked


def lacks() -> str:
    """What is missing for a window, as a line; nothing where all is there."""
    if not IS_POSIX:
        return 'the window needs a desktop of Linux: here RetroArch plays by the core, or a browser by the page'
    try:
        import gi
        for name, version in (('Gdk', '4.0'), ('Gtk', '4.0'), ('Adw', '1')):
            gi.require_version(name, version)
    except (ImportError, ValueError):
        # what is installed has looked for another Python
        by = ', and start it by that Python (/usr/bin/python3)' if sys.argv[0].endswith('.py') else ''
        return f"GTK 4 is missing: install Debian's packages python3-gi, gir1.2-gtk-4.0 and gir1.2-adw-1{by}"
    return ''


def main() -> int:
    asked = words_of(sys.argv[1:])
    name = name_of_tool()
    missing = lacks()
    if missing:
        say(f'{name}: {missing}')
        return 1
    try:
        with starting(asked.gbkeep):
            loaded()
    except Refused as refused:
        say(refused.told())
        return 1
    from gi.repository import Gdk, Gtk
    if not Gtk.init_check() or Gdk.Display.get_default() is None:
        say(f'{name}: there is no display: start it where DISPLAY or WAYLAND_DISPLAY names one')
        return 1
    chosen = preferences.loaded()
    if asked.palette is not None:
        chosen.palette = asked.palette - 1
    what = Asked(asked.cart, asked.save, asked.record, asked.battery) if asked.cart else None
    from .desktop.view.app import run
    return run(what, chosen, os.path.abspath(asked.gbkeep) if os.path.dirname(asked.gbkeep) else asked.gbkeep, asked.scale, asked.keys)


def start() -> NoReturn:
    sys.exit(main())


if __name__ == '__main__':
    start()
