"""What is said over the window for some seconds, one line at a time: a new one takes the place of the last."""
from typing import Optional

from .toolkit import GLib, Gtk, Pango, icon_button


class Toast(Gtk.Revealer):
    """A line with a button, if a file is to be shown. (libadwaita 1.2 has toasts, and crashes where they follow one another quickly.)"""

    def __init__(self):
        super().__init__(halign=Gtk.Align.CENTER, valign=Gtk.Align.END, margin_bottom=18, margin_start=12, margin_end=12, transition_type=Gtk.RevealerTransitionType.CROSSFADE,
                         visible=False)
        box = Gtk.Box(spacing=6, css_classes=['osd', 'said'], accessible_role=Gtk.AccessibleRole.ALERT)
        self.label = Gtk.Label(css_classes=['heading'], wrap=True, wrap_mode=Pango.WrapMode.WORD_CHAR, natural_wrap_mode=Gtk.NaturalWrapMode.NONE, xalign=0, max_width_chars=70)
        self.button = Gtk.Button(label='Show', visible=False, focus_on_click=False)
        self.button.set_action_target_value(GLib.Variant.new_string(''))
        self.button.set_action_name('win.show-file')
        close = icon_button('window-close-symbolic', 'Dismiss', css_classes=['flat', 'circular'], focus_on_click=False)
        close.connect('clicked', lambda _: self.dismiss())
        for one in (self.label, self.button, close):
            box.append(one)
        self.set_child(box)
        self.timer = 0

    def say(self, line: str, seconds: float, file: Optional[str]) -> None:
        self.dismiss()
        self.label.set_label(line)
        self.button.set_visible(file is not None)
        if file is not None:
            self.button.set_action_target_value(GLib.Variant.new_string(file))
        self.set_visible(True)
        self.set_reveal_child(True)
        self.timer = GLib.timeout_add(round(1000 * seconds), self.over)

    def over(self) -> bool:
        self.timer = 0
        self.set_reveal_child(False)
        self.set_visible(False)
        return False

    def dismiss(self) -> None:
        if self.timer:
            GLib.source_remove(self.timer)
            self.over()
