"""The program of the window."""
import signal
from typing import Optional

from ...game import prefix
from ...tools import say
from ..actions import Keys, WrongKeys, keys_in
from ..files import battery_name
from ..playing import Asked
from ..preferences import Preferences
from ..refusals import Told, told_of
from ..shelf import Shelf
from .toolkit import Adw, Gio, GLib, Gtk
from .window import MainWindow

# how large a pixel is at first
SCALE = 4


class App(Adw.Application):
    """Opens the window and what was named, and ends with a status."""

    def __init__(self, asked: Optional[Asked], chosen: Preferences, program: str, scale: Optional[int], keys_file: Optional[str]):
        super().__init__(flags=Gio.ApplicationFlags.NON_UNIQUE)
        self.asked, self.chosen, self.gbkeep, self.scale, self.keys_file = asked, chosen, program, scale, keys_file
        self.window: Optional[MainWindow] = None
        self.is_first = True
        for one in (signal.SIGINT, signal.SIGTERM, signal.SIGHUP):
            GLib.unix_signal_add(GLib.PRIORITY_HIGH, one, self.end)

    def do_activate(self) -> None:
        theme = Gtk.IconTheme.get_for_display(Gtk.Window().get_display())
        if not theme.has_icon('gbkeep'):
            theme.add_search_path(str(prefix() / 'packaging'))
        wrong = None

        def given(keys: Keys) -> Keys:
            return keys_in(self.keys_file, keys) if self.keys_file else keys
        try:
            self.window = self.made(given if self.keys_file else None)
        except WrongKeys as error:
            wrong = told_of(error)
            self.window = self.made(None)
        self.window.show_home()
        self.window.present()
        if wrong:
            self.window.has_failed = True
            self.complain(wrong)
            self.window.dialogs.tell(wrong)
        elif self.asked:
            asked = self.asked
            warning = battery_name(asked.save) if asked.save else None
            if warning:
                say(f'gbkeep-window: {warning}')
            if asked.save or asked.recording or asked.battery:
                self.window.begin(asked)
            else:
                self.window.take([asked.cart])
        self.is_first = False

    def made(self, given) -> MainWindow:
        return MainWindow(self, self.chosen, Shelf(), self.gbkeep, self.scale or SCALE, self.scale is not None, given)

    def complain(self, told: Told) -> None:
        """Says on standard error what a dialog says."""
        say(told.in_a_line())

    def end(self) -> bool:
        if self.window:
            self.window.close_window()
        else:
            self.quit()
        return True


def run(asked: Optional[Asked], chosen: Preferences, program: str, scale: Optional[int], keys_file: Optional[str]) -> int:
    """Runs the window to its end: the status."""
    GLib.set_prgname('gbkeep')
    GLib.set_application_name('gbkeep')
    app = App(asked, chosen, program, scale, keys_file)
    app.run([])
    return 1 if app.window is None or app.window.has_failed else 0



