"""The window: its pages, its actions, what is dropped on it, and the face that a play speaks to."""
import os
import threading
import time
from collections.abc import Callable, Iterable
from dataclasses import replace
from pathlib import Path
from typing import Optional

from ...input_files import printable
from ...palettes import NAMES
from .. import intake, words
from ..actions import BUTTONS, HELD, Keys, Pad, by_button, by_key, one_key, shown_keys, usual_keys, usual_pad
from ..files import LINE_SECONDS, STATES, delete_state
from ..playing import Asked, Play
from ..preferences import Preferences, keep
from ..refusals import Told, told_of
from ..shelf import Entry, Shelf, own_save
from ..steering import Steering
from ..timeline import Stamped
from ..words import Question, Standing
from .dialogs import Dialogs, if_yes
from .game import GamePage
from .home import Home, demo_cart
from .pads import Pads
from .preferences import SPEED_WORDS, PreferencesWindow
from .shortcuts import shortcuts_window
from .states import EarlierWindow, StatesWindow
from .timeline import TimelineWindow
from .toast import Toast
from .toolkit import HEIGHT, WIDTH, Adw, Gdk, Gio, GLib, Gtk, show_page

CSS = b'''
.screen { background: black; }
.thumb { border-radius: 6px; }
.thumb.empty { background: alpha(currentColor, 0.08); }
.game-card { padding: 0; }
.game-card .thumb { border-radius: 12px 12px 0 0; }
.said { border-radius: 18px; padding: 4px 6px 4px 16px; }
.pill-label { border-radius: 9999px; padding: 4px 14px; }
.strip { background: transparent; }
.drop-here { background: alpha(@accent_bg_color, 0.85); color: @accent_fg_color; font-size: 1.3em; font-weight: bold; }
'''
# where X and Z lie on a keyboard, by X11's codes, and Linux's with eight more
CODE_X, CODE_Z = 53, 52
OURS = {'Full screen', 'Keys', 'Menu', 'Palette', 'States', 'Timeline', 'Next state'}


class Face:
    """What a play speaks to. Each call comes from its thread, and is done in the view's."""

    def __init__(self, window: 'MainWindow'):
        self.window = window
        self.newest: Optional[bytes] = None
        self.is_coming = False

    def later(self, call: Callable, *words: object) -> None:
        def once() -> bool:
            call(*words)
            return False
        GLib.idle_add(once, priority=GLib.PRIORITY_DEFAULT)

    def show(self, shades: bytes) -> None:
        self.newest = shades
        if not self.is_coming:
            self.is_coming = True
            self.later(self.draw)

    def draw(self) -> None:
        self.is_coming = False
        if self.newest is not None:
            self.window.game.screen.show_picture(self.newest)

    def say(self, line: str, seconds: float = LINE_SECONDS, file: Optional[str] = None) -> None:
        self.later(self.window.say, line, seconds, file)

    def say_held(self, line: str) -> None:
        self.later(self.window.game.say_held, line)

    def stands(self, standing: Standing) -> None:
        self.later(self.window.stands, standing)

    def began(self, save: str) -> None:
        self.later(self.window.began, save)

    def ended(self, told: Optional[Told]) -> None:
        self.later(self.window.ended, self, told)

    def waited(self, show: Callable, what: object) -> Optional[bool]:
        done, answers = threading.Event(), []

        def answer(given: Optional[bool]) -> None:
            answers.append(given)
            done.set()
        self.later(lambda: answer(None) if self.window.steering.is_closed else show(what, answer))
        done.wait()
        return answers[0]

    def ask(self, question: Question) -> Optional[bool]:
        return self.waited(self.window.dialogs.ask, question)

    def tell(self, told: Told) -> None:
        self.waited(self.window.dialogs.tell, told)


class MainWindow(Adw.ApplicationWindow):
    """The one window of the program."""

    def __init__(self, app: Adw.Application, chosen: Preferences, shelf: Shelf, program: str, scale: int, is_scale_given: bool, given_keys: Optional[Callable[[Keys], Keys]]):
        super().__init__(application=app, title='gbkeep', icon_name='gbkeep')
        self.app = app
        self.chosen, self.shelf, self.program = chosen, shelf, program
        self.steering, self.save = Steering(), ''
        self.play: Optional[Play] = None
        self.face: Optional[Face] = None
        self.next: Optional[Asked] = None
        self.is_closing = self.has_failed = self.has_begun = False
        self.is_recorded = False
        self.choosing: Optional[Gtk.FileChooserNative] = None
        self.side: Optional[Gtk.Window] = None
        self.down: dict[int, str] = {}
        self.dialogs = Dialogs(self, lambda by: self.steering.wait(by))
        provider = Gtk.CssProvider()
        provider.load_from_data(CSS)
        Gtk.StyleContext.add_provider_for_display(self.get_display(), provider, Gtk.STYLE_PROVIDER_PRIORITY_APPLICATION)
        self.given_keys = given_keys
        self.keys = self.keys_now()
        self.pad = self.pad_now()
        self.actions()
        self.home = Home(shelf, self.play_entry, self.card_act, lambda: self.chosen.palette, self.home_menu())
        self.game = GamePage(lambda: self.steering, self.game_menu(), self.menu_waits)
        self.stack = Gtk.Stack()
        self.stack.add_named(self.home, 'home')
        self.stack.add_named(self.game, 'game')
        self.drop_sign = Gtk.Label(label='Drop it to open it', css_classes=['drop-here'], visible=False, can_target=False)
        over = Gtk.Overlay(child=self.stack)
        over.add_overlay(self.drop_sign)
        self.toast = Toast()
        over.add_overlay(self.toast)
        self.set_content(over)
        self.listen()
        self.pads = Pads(self.pad_press, lambda code, by: self.steering.let_go(by))
        self.apply()
        self.size(scale, is_scale_given)
        self.connect('close-request', lambda _: self.close_window())
        self.connect('notify::is-active', lambda *_: None if self.is_active() else self.let_all_go())
        self.connect('notify::fullscreened', lambda *_: self.game.fill(self.is_fullscreen() and self.stack.get_visible_child_name() == 'game'))

    # ---- what is chosen

    def keys_now(self) -> Keys:
        def at(code: int, usual: str) -> str:
            found, keys, values = self.get_display().map_keycode(code)
            name = one_key(Gdk.keyval_name(values[0]) or '') if found and values else usual
            return name if len(name) == 1 or name.isalpha() else usual
        keys = {**usual_keys(at(CODE_X, 'x'), at(CODE_Z, 'z')), **self.chosen.keys}
        return self.given_keys(keys) if self.given_keys else keys

    def pad_now(self) -> Pad:
        return {**usual_pad(), **self.chosen.pad}

    def size(self, scale: int, is_given: bool) -> None:
        """The size of the last time, or that of a picture so many times as large; never larger than the screen."""
        self.wanted = scale if is_given or not self.chosen.width else 0
        head = self.game.header.measure(Gtk.Orientation.VERTICAL, -1)[1] or 47
        width, height = (WIDTH * scale, HEIGHT * scale + head) if is_given or not self.chosen.width else (self.chosen.width, self.chosen.height)
        monitors = self.get_display().get_monitors()
        if monitors.get_n_items():
            area = monitors.get_item(0).get_geometry()
            while scale > 1 and is_given and (width > area.width or height > area.height):
                scale -= 1
                self.wanted = scale
                width, height = WIDTH * scale, HEIGHT * scale + head
            width, height = min(width, area.width), min(height, area.height)
        self.set_default_size(width, height)

    def fit(self) -> bool:
        """A window that has a border of its own is made larger by that, once, so that the picture has the size that it is to have."""
        screen = self.game.screen
        if screen.get_width() <= 1:
            return True
        scale, self.wanted = self.wanted, 0
        width, height = self.get_default_size()
        width, height = width + WIDTH * scale - screen.get_width(), height + HEIGHT * scale - screen.get_height()
        if scale and not self.is_fullscreen() and not self.is_maximized():
            self.set_default_size(width, height)
        return False

    def apply(self) -> None:
        """Shows what is chosen."""
        chosen = self.chosen
        self.keys, self.pad = self.keys_now(), self.pad_now()
        self.by_key, self.by_button = by_key(self.keys), by_button(self.pad)
        self.game.screen.look(chosen.palette, chosen.is_whole)
        self.game.shows_counter, self.game.shows_inputs = chosen.shows_counter, chosen.shows_inputs
        self.game.pause_key = shown_keys(self.keys, 'Pause')
        for name, value in (('palette', chosen.palette), ('fast', chosen.fast), ('state', chosen.state)):
            self.lookup_action(name).set_state(GLib.Variant.new_int32(value))

    def changed(self) -> None:
        """Something was chosen."""
        self.apply()
        keep(self.chosen)

    # ---- actions and menus

    def actions(self) -> None:
        plain = {'open': self.choose, 'demo': self.play_demo, 'home': self.go_home, 'full': self.toggle_full, 'pause': lambda: self.steering.press('Pause', 'button'),
                 'states': self.show_states, 'timeline': self.show_timeline, 'picture': lambda: self.steering.want('Picture'), 'reset': lambda: self.steering.want('Reset'),
                 'undo': lambda: self.steering.want('Undo'), 'preferences': self.show_preferences, 'gamepad': lambda: self.show_preferences(True), 'keys': self.show_keys, 'about': self.show_about,
                 'save-copy': lambda: self.take_out(False), 'save-battery': lambda: self.take_out(True)}
        for name, call in plain.items():
            action = Gio.SimpleAction(name=name)
            action.connect('activate', lambda _a, _p, call=call: call())
            self.add_action(action)
        opened = Gio.SimpleAction(name='show-file', parameter_type=GLib.VariantType('s'))
        opened.connect('activate', lambda _a, path: Gtk.show_uri(self, Gio.File.new_for_path(path.get_string()).get_uri(), Gdk.CURRENT_TIME))
        self.add_action(opened)
        for name in ('palette', 'fast', 'state'):
            action = Gio.SimpleAction.new_stateful(name, GLib.VariantType('i'), GLib.Variant.new_int32(getattr(self.chosen, name)))
            action.connect('activate', lambda _a, value, name=name: self.choose_value(name, value.get_int32()))
            self.add_action(action)
        self.app.set_accels_for_action('win.open', ['<Control>o'])
        self.app.set_accels_for_action('win.preferences', ['<Control>comma'])
        self.app.set_accels_for_action('window.close', ['<Control>q', '<Control>w'])

    def choose_value(self, name: str, value: int) -> None:
        setattr(self.chosen, name, value)
        self.changed()
        if name == 'state':
            self.say(f'State {value} is chosen.', 2)
        elif name == 'palette':
            self.say(f'Palette: {NAMES[value]}', 2)

    def radio(self, name: str, choices: Iterable[tuple[int, str]]) -> Gio.Menu:
        menu = Gio.Menu()
        for value, label in choices:
            item = Gio.MenuItem.new(label, None)
            item.set_action_and_target_value(f'win.{name}', GLib.Variant.new_int32(value))
            menu.append_item(item)
        return menu

    def menu_of(self, *sections: Iterable[tuple[str, object]]) -> Gio.Menu:
        menu = Gio.Menu()
        for section in sections:
            part = Gio.Menu()
            for label, what in section:
                if isinstance(what, Gio.Menu):
                    part.append_submenu(label, what)
                else:
                    part.append(label, f'win.{what}')
            menu.append_section(None, part)
        return menu

    def home_menu(self) -> Gio.Menu:
        demo = [('Play the demo', 'demo')] if demo_cart() else []
        return self.menu_of([('Open…', 'open'), *demo], [('Palette', self.radio('palette', enumerate(NAMES))), ('Preferences', 'preferences'),
                                                        ('Keys and gamepad', 'gamepad'), ('Keyboard shortcuts', 'keys'), ('About gbkeep', 'about')])

    def game_menu(self) -> Gio.Menu:
        return self.menu_of([('Save states…', 'states'), ('Timeline…', 'timeline'), ('Undo the last step', 'undo'), ('Screenshot', 'picture')],
                            [('Fast is', self.radio('fast', SPEED_WORDS.items())), ('Palette', self.radio('palette', enumerate(NAMES)))],
                            [('Open…', 'open'), ('Save a copy…', 'save-copy'), ('Save a battery file (.sav)…', 'save-battery')],
                            [('Preferences', 'preferences'), ('Keys and gamepad', 'gamepad'), ('Keyboard shortcuts', 'keys'), ('About gbkeep', 'about')],
                            [('Reset…', 'reset'), ('Save and close', 'home')])

    def menu_waits(self, by: int) -> None:
        self.steering.wait(by)
        if by < 0:
            self.game.screen.grab_focus()

    # ---- keys, gamepads, files that are dropped

    def listen(self) -> None:
        keys = Gtk.EventControllerKey(propagation_phase=Gtk.PropagationPhase.CAPTURE)
        keys.connect('key-pressed', self.key_pressed)
        keys.connect('key-released', self.key_released)
        self.add_controller(keys)
        drop = Gtk.DropTarget.new(Gdk.FileList, Gdk.DragAction.COPY)
        drop.connect('enter', lambda *_: self.drop_sign.set_visible(True) or Gdk.DragAction.COPY)
        drop.connect('leave', lambda *_: self.drop_sign.set_visible(False))
        drop.connect('drop', self.dropped)
        self.add_controller(drop)

    @property
    def is_playing(self) -> bool:
        return self.stack.get_visible_child_name() == 'game'

    def key_pressed(self, _controller: Gtk.EventControllerKey, value: int, code: int, state: Gdk.ModifierType) -> bool:
        if state & (Gdk.ModifierType.CONTROL_MASK | Gdk.ModifierType.ALT_MASK | Gdk.ModifierType.SUPER_MASK) and one_key(Gdk.keyval_name(value) or '') not in self.by_key:
            return False
        name = one_key(Gdk.keyval_name(Gdk.keyval_to_lower(value)) or '')
        if not self.is_playing:
            if name == 'F1':
                self.show_keys()
            elif name == 'F11':
                self.toggle_full()
            return name in ('F1', 'F11')
        if self.game.is_menu_open or state & Gdk.ModifierType.CONTROL_MASK and name not in ('Control_L', 'Control_R'):
            return False
        action = self.by_key.get(name)
        if action is None:
            return False
        # a key that is held down comes again and again
        if code not in self.down:
            self.down[code] = action
            self.does(action, f'key {code}')
        return True

    def key_released(self, _controller: Gtk.EventControllerKey, _value: int, code: int, _state: Gdk.ModifierType) -> None:
        if self.down.pop(code, None):
            self.steering.let_go(f'key {code}')

    def let_all_go(self) -> None:
        """Another window has the keys: what goes up there is not heard here."""
        self.down.clear()
        self.steering.let_all_go()

    def pad_press(self, code: int, by: str) -> None:
        if isinstance(self.side, PreferencesWindow) and self.side.press(code):
            return
        action = self.by_button.get(code)
        if self.dialogs.open:
            if action in ('Start', 'Select'):
                self.dialogs.press(action == 'Start')
        elif action and self.is_playing and self.is_active():
            self.does(action, by)

    def does(self, action: str, by: str) -> None:
        """Does what a key stands for."""
        ours = {'Full screen': self.toggle_full, 'Keys': self.show_keys, 'States': self.show_states, 'Timeline': self.show_timeline, 'Menu': self.escape,
                'Palette': lambda: self.choose_value('palette', (self.chosen.palette + 1) % len(NAMES)),
                'Next state': lambda: self.choose_value('state', self.chosen.state % STATES + 1)}
        if action in ours:
            ours[action]()
        else:
            self.steering.press(action, by)

    def escape(self) -> None:
        if self.is_fullscreen():
            self.unfullscreen()
        else:
            self.game.menu.popup()

    def dropped(self, _target: Gtk.DropTarget, value: Gdk.FileList, _x: float, _y: float) -> bool:
        self.drop_sign.set_visible(False)
        self.take([file.get_path() for file in value.get_files() if file.get_path()])
        return True

    # ---- what a play tells

    def say(self, line: str, seconds: float = LINE_SECONDS, file: Optional[str] = None) -> None:
        self.toast.say(line, seconds, file)

    def stands(self, standing: Standing) -> None:
        self.is_recorded = standing.is_recorded
        self.game.stands(standing)
        if self.get_title() != standing.title:
            self.set_title(standing.title)

    def began(self, save: str) -> None:
        self.save, self.has_begun = save, True
        show_page(self.stack, 'game')
        self.game.screen.grab_focus()
        if self.wanted:
            GLib.timeout_add(50, self.fit)

    def ended(self, face: Face, told: Optional[Told]) -> None:
        """A play is over."""
        if face is not self.face:
            return
        self.play = self.face = None
        self.save = ''
        if told:
            if not self.has_begun:
                self.has_failed = True
            self.app.complain(told)
        if self.is_closing:
            if told and self.has_begun:
                # what went wrong at the end is said before the window goes
                self.is_closing = False
                self.steering = Steering()
                self.dialogs.tell(told, lambda _: self.finish())
            else:
                self.finish()
            return
        self.steering = Steering()
        asked, self.next = self.next, None
        self.unfullscreen()
        self.set_title('gbkeep')
        if asked and not told:
            self.begin(asked)
            return
        self.show_home()
        if told:
            self.dialogs.tell(told)

    def finish(self) -> None:
        self.is_closing = True
        self.destroy()
        self.app.quit()

    # ---- what is played

    def begin(self, asked: Asked) -> None:
        """Plays this; what is played now is saved and closed before."""
        if self.play is not None:
            self.next = asked
            self.steering.close()
            self.dialogs.close_all()
            return
        self.steering = Steering()
        self.down.clear()
        self.toast.dismiss()
        self.game.say_held('')
        self.face = Face(self)
        play = self.play = Play(asked, self.face, self.chosen, self.steering, self.shelf, self.program)
        play.start()

    def play_entry(self, entry: Entry) -> None:
        if not os.path.exists(entry.cart):
            self.dialogs.ask(words.asked('where is', cart=printable(entry.cart)), if_yes(lambda: self.find_cart(entry)))
            return
        self.begin(self.asked_for(entry))

    def asked_for(self, entry: Entry) -> Asked:
        return Asked(entry.cart, entry.save, entry.recording if entry.recording and not entry.is_there else None)

    def find_cart(self, entry: Entry) -> None:
        def found(paths: list[str]) -> None:
            try:
                self.begin(self.asked_for(self.shelf.moved(entry, intake.look(paths[0]).path)))
            except Exception as error:
                self.dialogs.tell(told_of(error, paths[0], entry.save))
        self.choose_files(f'Where is {Path(entry.cart).name} now?', found, intake.CARTS + ('.zip',))

    def play_demo(self) -> None:
        cart = demo_cart()
        if cart:
            self.begin(Asked(cart))

    def take(self, paths: list[str]) -> None:
        """Opens files that were chosen, dropped or named: a wrong one changes nothing."""
        try:
            found = [intake.look(path) for path in paths]
            plan = intake.plan_of(found, self.shelf, self.play.files.cart if self.play and self.play.files else None)
            title = intake.check_cart(plan.cart) or printable(Path(plan.cart).stem)
            save = plan.save or own_save(plan.cart, self.chosen.games)
        except intake.MissingCart as missing:
            self.ask_cart(missing)
            return
        except Exception as error:
            self.has_failed = self.has_failed or not self.has_begun and self.app.is_first
            told = told_of(error, paths[0] if paths else None)
            self.app.complain(told)
            self.dialogs.tell(told)
            return
        asked = Asked(plan.cart, plan.save, battery=plan.battery)

        play = if_yes(lambda: self.begin(asked))
        if plan.battery and os.path.lexists(save):
            asked = replace(asked, save=save, is_anew=True)
            self.dialogs.ask(words.asked('new with battery', title=title, battery=printable(Path(plan.battery).name)), play)
        elif self.play is not None:
            self.dialogs.ask(words.asked('play instead', title=title, played=self.get_title() or ''), play)
        else:
            self.begin(asked)

    def ask_cart(self, missing: intake.MissingCart) -> None:
        def found(paths: list[str]) -> None:
            self.take([paths[0], missing.save])

        self.dialogs.ask(words.asked('where is the cartridge', save=printable(Path(missing.save).name)), if_yes(lambda: self.choose_files('The cartridge', found, intake.CARTS + ('.zip',))))

    def card_act(self, name: str, entry: Entry) -> None:
        """What the menu of a card does."""
        if name == 'play':
            self.play_entry(entry)
        elif name == 'anew':
            self.dialogs.ask(words.asked('start over', title=entry.name), if_yes(lambda: self.begin(Asked(entry.cart, entry.save, is_anew=True))))
        elif name == 'battery':
            self.choose_files('A battery file', lambda paths: self.begin(Asked(entry.cart, entry.save, battery=paths[0], is_anew=True)), intake.BATTERIES)
        elif name == 'earlier':
            def play(save: str, number: Optional[int]) -> None:
                # a state stays as it is: it is loaded, and the game that it replaces is kept
                self.begin(Asked(entry.cart, entry.save if number else save, state=number))
            self.show_side(EarlierWindow(self, entry.name, entry.save, self.chosen.palette, play))
        elif name == 'folder':
            Gtk.show_uri(self, Gio.File.new_for_path(os.path.dirname(entry.save)).get_uri(), Gdk.CURRENT_TIME)
        elif name == 'forget':
            self.dialogs.ask(words.asked('forget game', title=entry.name), if_yes(lambda: self.shelf.remove(entry), self.home.fill))

    def choose(self) -> None:
        self.choose_files('Open a game', self.take, intake.ENDINGS, True)

    def choose_files(self, title: str, chose: Callable[[list[str]], object], endings: Iterable[str], is_many: bool = False) -> None:
        kinds = Gtk.FileFilter(name=' '.join(endings))
        for ending in endings:
            kinds.add_suffix(ending[1:])
        every = Gtk.FileFilter(name='All files')
        every.add_pattern('*')
        self.choosing = Gtk.FileChooserNative(title=title, transient_for=self, modal=True, action=Gtk.FileChooserAction.OPEN, select_multiple=is_many)
        self.choosing.add_filter(kinds)
        self.choosing.add_filter(every)

        def response(dialog: Gtk.FileChooserNative, given: int) -> None:
            paths = [file.get_path() for file in dialog.get_files()]
            self.choosing = None
            steering.wait(-1)
            if given == Gtk.ResponseType.ACCEPT and any(paths):
                chose([path for path in paths if path])
        self.choosing.connect('response', response)
        steering = self.steering
        steering.wait(1)
        self.choosing.show()

    def take_out(self, is_battery: bool) -> None:
        if not self.save:
            return
        self.choosing = Gtk.FileChooserNative(title='Save a battery file' if is_battery else 'Save a copy', transient_for=self, modal=True, action=Gtk.FileChooserAction.SAVE)
        stem = Path(self.play.files.cart).stem if self.play and self.play.files else 'game'
        self.choosing.set_current_name(f'{stem}.sav' if is_battery else f'{stem} {time.strftime("%Y-%m-%d")}.gbkeep')

        def response(dialog: Gtk.FileChooserNative, given: int) -> None:
            file = dialog.get_file()
            self.choosing = None
            steering.wait(-1)
            if given == Gtk.ResponseType.ACCEPT and file and file.get_path():
                steering.want('Take out', (file.get_path(), is_battery))
        self.choosing.connect('response', response)
        steering = self.steering
        steering.wait(1)
        self.choosing.show()

    # ---- what is shown

    def show_home(self) -> None:
        show_page(self.stack, 'home')
        self.home.fill()

    def go_home(self) -> None:
        if self.play is not None:
            self.toast.dismiss()
            self.game.title.set_subtitle('saving')
            self.steering.close()
            self.dialogs.close_all()

    def toggle_full(self) -> None:
        if self.is_fullscreen():
            self.unfullscreen()
        else:
            self.fullscreen()

    def show_side(self, window: Gtk.Window) -> None:
        """Shows a window of its own, which the game waits for."""
        steering = self.steering
        steering.wait(1)
        self.side = window

        def gone(_window: Gtk.Window) -> bool:
            if self.side is window:
                self.side = None
            steering.wait(-1)
            return False
        window.connect('close-request', gone)
        window.present()

    def show_states(self) -> None:
        if not self.save or self.side:
            return
        window = StatesWindow(self, self.save, self.chosen.palette, self.chosen.state, self.is_recorded, lambda what, number: self.state_act(window, what, number))
        self.show_side(window)

    def state_act(self, window: StatesWindow, what: str, number: int) -> None:
        if what == 'delete':
            dialogs = Dialogs(window, lambda by: self.steering.wait(by))
            dialogs.ask(words.asked('delete state', True, number=number), if_yes(lambda: delete_state(self.save, number), window.fill))
            return
        window.close()
        self.chosen.state = number
        self.changed()
        self.steering.want('Go back' if what == 'load' else 'Keep slot', number)

    def show_timeline(self) -> None:
        if self.play and self.play.timeline and not self.side:
            self.show_side(TimelineWindow(self, self.play.timeline, self.chosen.palette, self.go_to))

    def go_to(self, moment: Stamped) -> None:
        self.steering.want('Go to', moment)

    def show_preferences(self, is_of_keys: bool = False) -> None:
        if not self.side:
            window = PreferencesWindow(self, self.chosen, self.game.screen.shades if self.play else sample(), self.keys_now, self.pad_now, self.changed)
            if is_of_keys:
                window.set_visible_page(window.keys_page)
            self.show_side(window)

    def show_keys(self) -> None:
        if not self.side:
            self.show_side(shortcuts_window(self, self.keys))

    def show_about(self) -> None:
        from ... import __version__
        about = Adw.AboutWindow(transient_for=self, modal=True, application_name='gbkeep', application_icon='gbkeep', version=__version__, comments=words.said('claim'))
        self.show_side(about)

    def close_window(self) -> bool:
        """Closes the window once the game is saved."""
        # one that no game has been fitted into would leave a border around the next one
        if not self.wanted and not self.is_fullscreen() and not self.is_maximized():
            self.chosen.width, self.chosen.height = self.get_default_size()
            keep(self.chosen)
        if self.play is None:
            self.finish()
            return False
        self.is_closing = True
        self.game.title.set_subtitle('saving')
        self.steering.close()
        self.dialogs.close_all()
        return True


def sample() -> bytes:
    """A picture that shows the four shades."""
    return bytes((x // 40 + y // 36) % 4 for y in range(HEIGHT) for x in range(WIDTH))


assert OURS.isdisjoint(HELD) and OURS.isdisjoint(BUTTONS)
