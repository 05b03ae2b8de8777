"""Questions and refusals, as dialogs of one style."""
from collections.abc import Callable
from typing import Optional

from ..refusals import Told
from ..words import Question
from .toolkit import Adw, Gdk, GLib, Gtk

Answer = Callable[[Optional[bool]], None]


def if_yes(*calls: Callable[[], object]) -> Answer:
    """An answer that does this where it was agreed to."""
    def answer(given: Optional[bool]) -> None:
        for call in calls if given else ():
            call()
    return answer


class Dialogs:
    """The dialogs of a window. One that is open answers once; where the window is closed, each answers None."""

    def __init__(self, window: Gtk.Window, waits: Callable[[int], None]):
        self.window, self.waits = window, waits
        self.open: list[tuple[Adw.MessageDialog, Answer]] = []

    def ask(self, question: Question, answer: Answer) -> None:
        dialog = self.made(question.head, question.body)
        dialog.add_response('no', question.no)
        dialog.add_response('yes', question.yes)
        dialog.set_response_appearance('yes', Adw.ResponseAppearance.DESTRUCTIVE if question.is_grave else Adw.ResponseAppearance.SUGGESTED)
        dialog.set_default_response('no' if question.is_grave else 'yes')
        dialog.set_close_response('no')
        self.shown(dialog, answer)

    def tell(self, told: Told, answer: Answer = lambda _: None) -> None:
        dialog = self.made(told.head, told.body)
        dialog.add_response('no', 'Close')
        dialog.set_default_response('no')
        dialog.set_close_response('no')
        self.shown(dialog, answer)

    def made(self, head: str, body: str) -> Adw.MessageDialog:
        dialog = Adw.MessageDialog(transient_for=self.window, modal=True, heading=head, body=body)
        keys = Gtk.EventControllerKey()
        keys.connect('key-pressed', self.key, dialog)
        dialog.add_controller(keys)
        return dialog

    def shown(self, dialog: Adw.MessageDialog, answer: Answer) -> None:
        self.open.append((dialog, answer))
        self.waits(1)
        dialog.connect('response', lambda _, response: self.answered(dialog, response == 'yes'))
        dialog.present()

    def key(self, _controller: Gtk.EventControllerKey, value: int, _code: int, _state: Gdk.ModifierType, dialog: Adw.MessageDialog) -> bool:
        """Y and N answer, too."""
        name = (Gdk.keyval_name(value) or '').lower()
        if name not in ('y', 'n') or name == 'y' and dialog.get_response_label('yes') is None:
            return False
        dialog.response('yes' if name == 'y' else 'no')
        return True

    def press(self, is_yes: bool) -> bool:
        """Answers the dialog that was opened last, by a gamepad; False where none is open."""
        if not self.open:
            return False
        self.open[-1][0].response('yes' if is_yes else 'no')
        return True

    def answered(self, dialog: Adw.MessageDialog, given: Optional[bool]) -> None:
        for one in [one for one in self.open if one[0] is dialog]:
            self.open.remove(one)
            self.waits(-1)
            # a dialog closes itself behind its response
            GLib.idle_add(one[0].destroy)
            one[1](given)

    def close_all(self) -> None:
        for dialog, _ in list(self.open):
            self.answered(dialog, None)
