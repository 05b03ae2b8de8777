"""The ten save states, with pictures; and the games that were replaced."""
import os
import time
from collections.abc import Callable
from pathlib import Path
from typing import Optional

from ...input_files import printable
from ..files import earlier_games, states_of
from ..words import when
from .toolkit import Adw, Gtk, icon_button, labelled, picture_of

WIDE = 160
# of a game that can be played: what it is called, its file, its picture, and its number, of a state
Row = tuple[str, str, Optional[bytes], Optional[int]]


class StatesWindow(Adw.Window):
    """The states of the game that is played."""

    def __init__(self, parent: Gtk.Window, save: str, palette: int, chosen: int, is_recorded: bool, act: Callable[[str, int], None]):
        super().__init__(transient_for=parent, modal=True, title='Save states', default_width=940, default_height=600)
        self.save, self.palette, self.chosen, self.is_recorded, self.act = save, palette, chosen, is_recorded, act
        box = Gtk.Box(orientation=Gtk.Orientation.VERTICAL)
        box.append(Adw.HeaderBar())
        self.flow = Gtk.FlowBox(selection_mode=Gtk.SelectionMode.NONE, homogeneous=True, min_children_per_line=2, max_children_per_line=5, row_spacing=12, column_spacing=12,
                                margin_top=12, margin_bottom=12, margin_start=18, margin_end=18, valign=Gtk.Align.START)
        inner = Gtk.Box(orientation=Gtk.Orientation.VERTICAL)
        inner.append(self.flow)
        inner.append(Gtk.Label(label='A state is a copy of the game, and stays on the disk. What a save or a load replaces is kept beside it.', wrap=True,
                               css_classes=['dim-label', 'caption'], margin_bottom=18, margin_start=18, margin_end=18))
        box.append(Gtk.ScrolledWindow(child=inner, vexpand=True, hscrollbar_policy=Gtk.PolicyType.NEVER))
        self.set_content(box)
        self.add_controller(closed_by_escape(self))
        self.fill()

    def fill(self) -> None:
        while child := self.flow.get_first_child():
            self.flow.remove(child)
        for state in states_of(self.save):
            said = when(state.time, time.time()) if state.time is not None else 'empty'
            box = Gtk.Box(orientation=Gtk.Orientation.VERTICAL, spacing=6)
            box.append(picture_of(state.picture, self.palette, WIDE))
            about = Gtk.Box(spacing=6)
            about.set_size_request(-1, 34)
            about.append(Gtk.Label(label=f'{state.number}', css_classes=['heading'] + (['accent'] if state.number == self.chosen else [])))
            about.append(Gtk.Label(label=said, css_classes=['dim-label', 'caption'], hexpand=True, xalign=0))
            if state.time is not None:
                remove = icon_button('user-trash-symbolic', f'Delete state {state.number}', css_classes=['flat', 'circular'])
                remove.connect('clicked', lambda _b, number=state.number: self.act('delete', number))
                about.append(remove)
            box.append(about)
            row = Gtk.Box(spacing=6, homogeneous=True)
            for word, is_on in (('Load', state.time is not None and not self.is_recorded), ('Save', True)):
                button = Gtk.Button(label=word, sensitive=is_on)
                labelled(button, f'{word} state {state.number}, {said}')
                button.connect('clicked', lambda _b, word=word, number=state.number: self.act(word.lower(), number))
                row.append(button)
            box.append(row)
            self.flow.append(box)


class EarlierWindow(Adw.Window):
    """The states and the replaced games of a game that is not open, each of which can be played."""

    def __init__(self, parent: Gtk.Window, name: str, save: str, palette: int, play: Callable[[str, Optional[int]], None]):
        super().__init__(transient_for=parent, modal=True, title=name, default_width=460, default_height=520)
        box = Gtk.Box(orientation=Gtk.Orientation.VERTICAL)
        box.append(Adw.HeaderBar(title_widget=Adw.WindowTitle(title=name, subtitle='States and earlier games')))
        page = Adw.PreferencesPage(vexpand=True)
        states: list[Row] = [(f'State {one.number}', one.path, one.picture, one.number) for one in states_of(save) if one.time is not None]
        earlier: list[Row] = [(printable(Path(path).name), path, None, None) for path in earlier_games(save)]
        for title, rows in (('States', states), ('Games that were replaced', earlier)):
            group = Adw.PreferencesGroup(title=title)
            for label, path, picture, number in rows:
                row = Adw.ActionRow(title=label, subtitle=when(os.lstat(path).st_mtime, time.time()), use_markup=False)
                if picture is not None:
                    row.add_prefix(picture_of(picture, palette, 64))
                button = Gtk.Button(label='Play', valign=Gtk.Align.CENTER)
                button.connect('clicked', lambda _b, path=path, number=number: (self.close(), play(path, number)))
                row.add_suffix(button)
                row.set_activatable_widget(button)
                group.add(row)
            if rows:
                page.add(group)
        if not states and not earlier:
            page = Adw.StatusPage(title='There are none yet', description='A state is saved by F5. What a load replaces is kept, too.', vexpand=True)
        box.append(page)
        self.set_content(box)
        self.add_controller(closed_by_escape(self))


def closed_by_escape(window: Gtk.Window) -> Gtk.ShortcutController:
    controller = Gtk.ShortcutController()
    controller.add_shortcut(Gtk.Shortcut(trigger=Gtk.ShortcutTrigger.parse_string('Escape'), action=Gtk.CallbackAction.new(lambda *_: window.close() or True)))
    return controller
