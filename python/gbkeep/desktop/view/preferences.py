"""The window of preferences. What is chosen counts at once, and is kept."""
from collections.abc import Callable
from typing import Optional

from ...input_files import printable
from ...palettes import NAMES
from ..actions import ACTIONS, Keys, Pad, one_key, shown_button, shown_keys, with_button, with_key
from ..files import pictures_folder
from ..playing import usual_folder
from ..preferences import CLOCKS, SPEEDS, Preferences
from .toolkit import Adw, Gdk, Gio, Gtk, picture_of

SPEED_WORDS = {2: '2 times', 4: '4 times', 8: '8 times', 0: 'as fast as it goes'}
CLOCK_WORDS = {'ask': 'ask', 'give': 'give it the time', 'stand': 'let it stand'}


class PreferencesWindow(Adw.PreferencesWindow):
    """Pages of what can be chosen."""

    def __init__(self, parent: Gtk.Window, chosen: Preferences, shades: bytes, keys: Callable[[], Keys], pad: Callable[[], Pad], changed: Callable[[], None]):
        super().__init__(transient_for=parent, modal=True, default_width=620, default_height=640, search_enabled=False)
        self.chosen, self.shades, self.keys, self.pad, self.changed = chosen, shades, keys, pad, changed
        # the row that waits for a key or a button
        self.waiting: Optional[str] = None
        self.choosing: Optional[Gtk.FileChooserNative] = None
        self.rows: dict[str, tuple[Gtk.Button, Gtk.Button]] = {}
        self.add(self.general())
        self.keys_page = self.of_keys()
        self.add(self.keys_page)
        controller = Gtk.EventControllerKey(propagation_phase=Gtk.PropagationPhase.CAPTURE)
        controller.connect('key-pressed', self.key)
        self.add_controller(controller)

    def set(self, name: str, value: object) -> None:
        setattr(self.chosen, name, value)
        self.changed()

    def general(self) -> Adw.PreferencesPage:
        page = Adw.PreferencesPage(title='General', icon_name='preferences-system-symbolic')
        colours = Adw.PreferencesGroup(title='Palette')
        page.add(colours)
        look = Adw.PreferencesGroup(title='Picture')
        page.add(look)
        palettes = Gtk.Box(spacing=12, homogeneous=True)
        first: Optional[Gtk.ToggleButton] = None
        for number, name in enumerate(NAMES):
            box = Gtk.Box(orientation=Gtk.Orientation.VERTICAL, spacing=6, margin_top=6, margin_bottom=6)
            box.append(picture_of(self.shades, number, 112))
            box.append(Gtk.Label(label=name))
            button = Gtk.ToggleButton(child=box, group=first, active=number == self.chosen.palette, css_classes=['flat'])
            button.update_property([Gtk.AccessibleProperty.LABEL], [f'Palette {name}'])
            first = first or button
            button.connect('toggled', self.palette_toggled, number)
            palettes.append(button)
        colours.add(palettes)
        look.add(self.switch('Whole multiples', 'All pixels have one size, with a border where the window has another one', 'is_whole'))
        look.add(self.switch('Speed and frames', 'Shows them over the picture', 'shows_counter'))
        look.add(self.switch('Buttons', 'Shows those that are held over the picture', 'shows_inputs'))
        play = Adw.PreferencesGroup(title='Play')
        page.add(play)
        play.add(self.combo('Fast is', '', 'fast', [(one, SPEED_WORDS[one]) for one in SPEEDS]))
        play.add(self.combo('After more than a year away', 'What a game\'s clock is given', 'clock', [(one, CLOCK_WORDS[one]) for one in CLOCKS]))
        files = Adw.PreferencesGroup(title='Folders')
        page.add(files)
        files.add(self.folder('New games', 'games', lambda: usual_folder(self.chosen)))
        files.add(self.folder('Screenshots', 'pictures', lambda: str(pictures_folder(self.chosen.pictures))))
        return page

    def palette_toggled(self, button: Gtk.ToggleButton, number: int) -> None:
        if button.get_active():
            self.set('palette', number)

    def switch(self, title: str, subtitle: str, name: str) -> Adw.ActionRow:
        row = Adw.ActionRow(title=title, subtitle=subtitle)
        switch = Gtk.Switch(active=getattr(self.chosen, name), valign=Gtk.Align.CENTER)
        switch.connect('notify::active', lambda one, _: self.set(name, one.get_active()))
        row.add_suffix(switch)
        row.set_activatable_widget(switch)
        return row

    def combo(self, title: str, subtitle: str, name: str, choices: list[tuple[object, str]]) -> Adw.ComboRow:
        row = Adw.ComboRow(title=title, subtitle=subtitle, model=Gtk.StringList.new([words for _, words in choices]))
        values = [value for value, _ in choices]
        row.set_selected(values.index(getattr(self.chosen, name)))
        row.connect('notify::selected', lambda one, _: self.set(name, values[one.get_selected()]))
        return row

    def folder(self, title: str, name: str, now: Callable[[], str]) -> Adw.ActionRow:
        row = Adw.ActionRow(title=title, subtitle=printable(now()), use_markup=False)
        choose = Gtk.Button(label='Choose…', valign=Gtk.Align.CENTER)

        def chose(dialog: Gtk.FileChooserNative, response: int) -> None:
            file = dialog.get_file()
            if response == Gtk.ResponseType.ACCEPT and file and file.get_path():
                self.set(name, file.get_path())
                row.set_subtitle(printable(now()))
            self.choosing = None

        def ask(_button: Gtk.Button) -> None:
            dialog = self.choosing = Gtk.FileChooserNative(title=title, transient_for=self, modal=True, action=Gtk.FileChooserAction.SELECT_FOLDER)
            dialog.set_current_folder(Gio.File.new_for_path(now()))
            dialog.connect('response', chose)
            dialog.show()
        choose.connect('clicked', ask)
        row.add_suffix(choose)
        return row

    # ---- keys and gamepad

    def of_keys(self) -> Adw.PreferencesPage:
        page = Adw.PreferencesPage(title='Keys and gamepad', icon_name='input-gaming-symbolic')
        groups: dict[str, Adw.PreferencesGroup] = {}
        for action in ACTIONS:
            if action.group not in groups:
                groups[action.group] = Adw.PreferencesGroup(title=action.group)
                if not self.rows:
                    groups[action.group].set_description('Press a button here, and then the key or the button of the gamepad that it is to be.')
                page.add(groups[action.group])
            row = Adw.ActionRow(title=action.words)
            buttons = []
            for kind in ('key', 'pad'):
                button = Gtk.Button(valign=Gtk.Align.CENTER, css_classes=['flat'], sensitive=action.name != 'Menu')
                button.connect('clicked', lambda _b, name=f'{kind} {action.name}': self.begin(name))
                row.add_suffix(button)
                buttons.append(button)
            self.rows[action.name] = (buttons[0], buttons[1])
            groups[action.group].add(row)
        reset = Gtk.Button(label='All to the usual ones', halign=Gtk.Align.CENTER, css_classes=['pill'], margin_top=12)
        reset.connect('clicked', lambda _: self.reset())
        last = Adw.PreferencesGroup()
        last.add(reset)
        page.add(last)
        self.fill()
        return page

    def fill(self) -> None:
        keys, pad = self.keys(), self.pad()
        for action in ACTIONS:
            for kind, button, said in zip(('key', 'pad'), self.rows[action.name], (shown_keys(keys, action.name), shown_button(pad.get(action.name)))):
                is_waiting = self.waiting == f'{kind} {action.name}'
                button.set_label(('press a key' if kind == 'key' else 'press a button') if is_waiting else said)
                button.update_property([Gtk.AccessibleProperty.LABEL], [f'{"Key" if kind == "key" else "Button"} of {action.words}: {said}'])
                (button.add_css_class if is_waiting else button.remove_css_class)('suggested-action')

    def begin(self, name: str) -> None:
        self.waiting = None if self.waiting == name else name
        self.fill()

    def key(self, _controller: Gtk.EventControllerKey, value: int, _code: int, _state: Gdk.ModifierType) -> bool:
        if not self.waiting:
            return False
        kind, _, action = self.waiting.partition(' ')
        name = one_key(Gdk.keyval_name(Gdk.keyval_to_lower(value)) or '')
        if name == 'Escape' or kind == 'pad':
            self.waiting = None
        elif name:
            self.set('keys', with_key(self.keys(), action, name))
            self.waiting = None
        self.fill()
        return True

    def press(self, code: int) -> bool:
        """A button of a gamepad; False where none is waited for."""
        if not self.waiting or not self.waiting.startswith('pad '):
            return False
        self.set('pad', with_button(self.pad(), self.waiting[4:], code))
        self.waiting = None
        self.fill()
        return True

    def reset(self) -> None:
        self.chosen.keys, self.chosen.pad, self.waiting = {}, {}, None
        self.changed()
        self.fill()
