"""The page of the game that is played: its picture, its header, and what is shown over the picture."""
from collections.abc import Callable

from ..actions import BUTTONS
from ..steering import Steering
from ..words import Standing
from .screen import Screen
from .toolkit import Adw, Gio, GLib, Gtk, icon_button

SIGNS = {'Right': '→', 'Left': '←', 'Up': '↑', 'Down': '↓'}
# how long the header stays in full screen once nothing moves
HIDES_AFTER = 2500


class GamePage(Gtk.Box):
    """Shows a play. In full screen the header hides until the pointer moves."""

    def __init__(self, steering: Callable[[], Steering], menu: Gio.MenuModel, waits: Callable[[int], None]):
        super().__init__(orientation=Gtk.Orientation.VERTICAL)
        self.steering, self.waits = steering, waits
        self.title = Adw.WindowTitle(title='gbkeep')
        self.header = Adw.HeaderBar(title_widget=self.title)
        self.header.pack_start(icon_button('go-previous-symbolic', 'Save and close: back to your games', action_name='win.home'))
        self.menu = icon_button('open-menu-symbolic', 'Menu', Gtk.MenuButton, menu_model=menu)
        self.menu.get_popover().connect('show', lambda _: self.waits(1))
        self.menu.get_popover().connect('hide', lambda _: self.waits(-1))
        self.full = icon_button('view-fullscreen-symbolic', 'Full screen', action_name='win.full')
        self.fast = icon_button('media-seek-forward-symbolic', 'Fast, on and off', Gtk.ToggleButton)
        self.pause = icon_button('media-playback-pause-symbolic', 'Pause', action_name='win.pause')
        self.rewind = icon_button('media-seek-backward-symbolic', 'Rewind, while held')
        for pack, widgets in ((self.header.pack_start, (self.rewind, self.pause, self.fast)), (self.header.pack_end, (self.menu, self.full))):
            for one in widgets:
                one.set_focus_on_click(False)
                pack(one)
        self.fast.connect('toggled', self.fast_toggled)
        hold = Gtk.GestureClick(propagation_phase=Gtk.PropagationPhase.CAPTURE)
        hold.connect('pressed', lambda *_: self.steering().press('Rewind', 'rewind button'))
        for name in ('released', 'unpaired-release', 'cancel'):
            hold.connect(name, lambda *_: self.steering().let_go('rewind button'))
        self.rewind.add_controller(hold)
        self.screen = Screen()
        self.held = Gtk.Label(css_classes=['osd', 'pill-label'], halign=Gtk.Align.CENTER, valign=Gtk.Align.START, margin_top=12, visible=False)
        self.counter = Gtk.Label(css_classes=['osd', 'pill-label', 'numeric'], halign=Gtk.Align.END, valign=Gtk.Align.END, margin_end=8, margin_bottom=8, visible=False)
        self.inputs = Gtk.Label(css_classes=['osd', 'pill-label'], halign=Gtk.Align.START, valign=Gtk.Align.END, margin_start=8, margin_bottom=8, visible=False)
        self.over = Gtk.Overlay(child=self.screen)
        for label in (self.held, self.counter, self.inputs):
            label.set_can_target(False)
            self.over.add_overlay(label)
        self.revealer = Gtk.Revealer(valign=Gtk.Align.START, transition_type=Gtk.RevealerTransitionType.SLIDE_DOWN, reveal_child=True)
        self.append(self.header)
        self.append(self.over)
        self.is_full, self.timer, self.is_filling = False, 0, False
        self.shows_counter = self.shows_inputs = False
        motion = Gtk.EventControllerMotion()
        motion.connect('motion', self.moved)
        self.over.add_controller(motion)
        self.place = (-1.0, -1.0)
        self.pause_key = 'P'

    @property
    def is_menu_open(self) -> bool:
        return self.menu.get_popover().get_visible()

    def fast_toggled(self, button: Gtk.ToggleButton) -> None:
        if not self.is_filling and button.get_active() != self.steering().stays_fast:
            self.steering().press('Stay fast', 'button')

    def stands(self, standing: Standing) -> None:
        """Shows how the play stands."""
        if self.title.get_title() != standing.title:
            self.title.set_title(standing.title)
        line = standing.line(self.pause_key) + (', recorded' if standing.is_recorded else '')
        if self.title.get_subtitle() != line:
            self.title.set_subtitle(line)
        self.is_filling = True
        self.fast.set_active(self.steering().stays_fast)
        self.is_filling = False
        icon, label = ('media-playback-start-symbolic', 'Continue') if standing.is_paused else ('media-playback-pause-symbolic', 'Pause')
        if self.pause.get_icon_name() != icon:
            self.pause.set_icon_name(icon)
            self.pause.set_tooltip_text(label)
            self.pause.update_property([Gtk.AccessibleProperty.LABEL], [label])
        self.counter.set_visible(self.shows_counter)
        if self.shows_counter:
            self.counter.set_label(standing.counter())
        held = ' '.join(SIGNS.get(name, name) for bit, name in enumerate(BUTTONS) if standing.buttons >> bit & 1)
        self.inputs.set_visible(self.shows_inputs and bool(held))
        if self.shows_inputs:
            self.inputs.set_label(held)

    def say_held(self, line: str) -> None:
        self.held.set_visible(bool(line))
        if line:
            self.held.set_label(line)

    # ---- full screen

    def fill(self, is_full: bool) -> None:
        """The header lies over the picture in full screen, and hides."""
        if is_full == self.is_full:
            return
        self.is_full = is_full
        self.full.set_icon_name('view-restore-symbolic' if is_full else 'view-fullscreen-symbolic')
        self.header.set_show_end_title_buttons(not is_full)
        if is_full:
            self.remove(self.header)
            self.revealer.set_child(self.header)
            self.over.add_overlay(self.revealer)
            self.reveal()
        else:
            self.stop_timer()
            self.revealer.set_child(None)
            self.over.remove_overlay(self.revealer)
            self.prepend(self.header)
            self.screen.set_cursor(None)

    def moved(self, _controller: Gtk.EventControllerMotion, x: float, y: float) -> None:
        if (x, y) != self.place:
            self.place = (x, y)
            if self.is_full:
                self.reveal()

    def reveal(self) -> None:
        self.revealer.set_reveal_child(True)
        self.screen.set_cursor(None)
        self.stop_timer()
        self.timer = GLib.timeout_add(HIDES_AFTER, self.hide)

    def stop_timer(self) -> None:
        if self.timer:
            GLib.source_remove(self.timer)
            self.timer = 0

    def hide(self) -> bool:
        self.timer = 0
        if self.is_full and not self.is_menu_open:
            self.revealer.set_reveal_child(False)
            self.screen.set_cursor_from_name('none')
        return False
