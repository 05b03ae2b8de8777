"""The first page: the games that were played, as cards."""
import os
import time
from collections.abc import Callable
from pathlib import Path
from typing import Optional

from ...game import prefix
from .. import words
from ..shelf import Entry, Shelf, picture_file, picture_in
from .toolkit import Adw, Gio, Gtk, Pango, icon_button, picture_of, show_page

CARD, MOST_IN_A_LINE = 232, 5


def demo_cart() -> Optional[str]:
    """The demo cartridge of the clone, where this is one."""
    path = prefix() / 'examples/demo/demo.gb'
    return str(path) if path.exists() else None


def about(entry: Entry) -> str:
    if not os.path.exists(entry.cart):
        return 'its file is not there'
    if not entry.is_there:
        return 'not begun'
    return words.when(entry.played, time.time())


class Home(Gtk.Box):
    """Cards, or where there are none, what to do first."""

    def __init__(self, shelf: Shelf, play: Callable[[Entry], None], act: Callable[[str, Entry], None], palette: Callable[[], int], menu: Gio.MenuModel):
        super().__init__(orientation=Gtk.Orientation.VERTICAL)
        self.shelf, self.play, self.act, self.palette = shelf, play, act, palette
        header = Adw.HeaderBar(title_widget=Adw.WindowTitle(title='gbkeep'))
        open_button = Gtk.Button(label='Open', action_name='win.open', css_classes=['suggested-action'], tooltip_text='Open a game, or a file of one')
        header.pack_start(open_button)
        self.more = icon_button('open-menu-symbolic', 'Menu', Gtk.MenuButton, menu_model=menu, primary=True)
        header.pack_end(self.more)
        self.append(header)
        self.stack = Gtk.Stack(vexpand=True)
        self.append(self.stack)
        self.stack.add_named(self.empty_page(), 'empty')
        self.flow = Gtk.FlowBox(selection_mode=Gtk.SelectionMode.NONE, homogeneous=True, row_spacing=18, column_spacing=18, min_children_per_line=1,
                                max_children_per_line=MOST_IN_A_LINE, valign=Gtk.Align.START, halign=Gtk.Align.CENTER, margin_top=24, margin_bottom=12, margin_start=18, margin_end=18)
        inner = Gtk.Box(orientation=Gtk.Orientation.VERTICAL)
        inner.append(self.flow)
        inner.append(Gtk.Label(label=words.said('hint'), css_classes=['dim-label', 'caption'], wrap=True, justify=Gtk.Justification.CENTER, margin_start=18, margin_end=18,
                               margin_bottom=18))
        self.stack.add_named(Gtk.ScrolledWindow(child=inner, hscrollbar_policy=Gtk.PolicyType.NEVER), 'games')

    def empty_page(self) -> Gtk.Widget:
        page = Adw.StatusPage(icon_name='gbkeep', title='gbkeep', description=words.said('claim') + '\n\n' + words.said('empty'))
        row = Gtk.Box(spacing=12, halign=Gtk.Align.CENTER)
        row.append(Gtk.Button(label='Open a game', action_name='win.open', css_classes=['pill', 'suggested-action']))
        if demo_cart():
            row.append(Gtk.Button(label='Play the demo', action_name='win.demo', css_classes=['pill']))
        page.set_child(row)
        return page

    def fill(self) -> None:
        """Shows the games as they are now."""
        self.shelf.read()
        while child := self.flow.get_first_child():
            self.flow.remove(child)
        rows = self.shelf.rows()
        self.flow.set_max_children_per_line(max(1, min(MOST_IN_A_LINE, len(rows))))
        for entry in rows:
            self.flow.append(self.card(entry, rows))
        show_page(self.stack, 'games' if rows else 'empty')
        first = self.flow.get_first_child()
        if first:
            first.get_child().get_child().grab_focus()

    def card(self, entry: Entry, rows: list[Entry]) -> Gtk.Widget:
        box = Gtk.Box(orientation=Gtk.Orientation.VERTICAL, spacing=2)
        box.append(picture_of(picture_in(picture_file(entry.save)), self.palette(), CARD))
        box.append(Gtk.Label(label=entry.name, css_classes=['heading'], xalign=0, ellipsize=Pango.EllipsizeMode.END, max_width_chars=20, margin_top=8, margin_start=10,
                             margin_end=44))
        twice = sum(one.name == entry.name for one in rows) > 1
        below = about(entry) + (f', {Path(entry.save).name}' if twice else '')
        box.append(Gtk.Label(label=below, css_classes=['dim-label', 'caption'], xalign=0, ellipsize=Pango.EllipsizeMode.MIDDLE, max_width_chars=24, margin_bottom=10, margin_start=10,
                             margin_end=44))
        button = Gtk.Button(child=box, css_classes=['card', 'game-card'], tooltip_text=entry.cart, overflow=Gtk.Overflow.HIDDEN)
        button.update_property([Gtk.AccessibleProperty.LABEL], [f'{"Continue" if entry.is_there else "Begin"} {entry.name}, {below}'])
        button.connect('clicked', lambda _: self.play(entry))
        overlay = Gtk.Overlay(child=button)
        more = icon_button('view-more-symbolic', f'More of {entry.name}', Gtk.MenuButton, css_classes=['flat', 'circular'], halign=Gtk.Align.END, valign=Gtk.Align.END,
                           margin_bottom=10, margin_end=6)
        menu, group = Gio.Menu(), Gio.SimpleActionGroup()
        for section in (('play', 'Continue' if entry.is_there else 'Begin'),), (('anew', 'Start over…'), ('battery', 'Begin with a battery file…'),
                                                                               ('earlier', 'States and earlier games…')), (('folder', 'Show its files'), ('forget', 'Take off the list…')):
            part = Gio.Menu()
            for name, label in section:
                part.append(label, f'card.{name}')
                action = Gio.SimpleAction(name=name)
                action.connect('activate', lambda _a, _p, name=name: self.act(name, entry))
                group.add_action(action)
            menu.append_section(None, part)
        more.set_menu_model(menu)
        overlay.add_overlay(more)
        overlay.insert_action_group('card', group)
        return overlay
