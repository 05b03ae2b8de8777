"""Drives the window on a display of its own: by its accessibility tree, by keys, and by looking at pictures of it."""
import atexit
import contextlib
import os
import re
import select
import shutil
import signal
import subprocess
import sys
import tempfile
import time
import warnings
from collections.abc import Callable
from pathlib import Path

from gbkeep_tests.support import TOP, tool_words, wrong

DEMO = TOP / 'examples/demo'
NEEDS = (('Xvfb', 'xvfb'), ('xdotool', 'xdotool'), ('openbox', 'openbox'), ('dbus-run-session', 'dbus-daemon'), ('import', 'imagemagick'))
# names the folder of a session's bus that was made for the tests
BUS = 'GBKEEP_TEST_BUS'


def needs() -> None:
    """Ends where something is missing; goes on with a bus of its own, and one of accessibility, whose socket lies in the folder of the session."""
    missing = [package for program, package in NEEDS if not shutil.which(program)]
    code = "import gi\nfor one in (('Gtk', '4.0'), ('Adw', '1'), ('Atspi', '2.0')): gi.require_version(*one)"
    if subprocess.run([sys.executable, '-c', code], capture_output=True).returncode != 0:
        missing.append(f'python3-gi, gir1.2-gtk-4.0, gir1.2-adw-1, gir1.2-atspi-2.0, at-spi2-core (for {sys.executable})')
    if missing:
        sys.exit("test_window.py needs Debian's " + ', '.join(missing))
    if BUS not in os.environ:
        folder = tempfile.mkdtemp(prefix='session-')
        os.execvpe('dbus-run-session', ['dbus-run-session', '--', sys.executable, *sys.argv], dict(os.environ, **{BUS: folder, 'XDG_RUNTIME_DIR': folder}))
    atexit.register(shutil.rmtree, os.environ[BUS], ignore_errors=True)


class Screen:
    """A display of its own, with a window manager."""

    def __init__(self, room: object, size: str = '1280x960', scale: int = 1, is_dark: bool = False):
        reader, writer = os.pipe()
        self.process = subprocess.Popen(['Xvfb', '-displayfd', str(writer), '-screen', '0', f'{size}x24', '-nolisten', 'tcp', '-noreset'], pass_fds=[writer],
                                        stdout=subprocess.DEVNULL, stderr=subprocess.DEVNULL)
        os.close(writer)
        if not select.select([reader], [], [], 20)[0]:
            sys.exit('Xvfb shows no display')
        self.room = Path(str(room))
        self.env = dict(os.environ, DISPLAY=':' + os.read(reader, 20).decode().strip(), XDG_CONFIG_HOME=f'{room}/config', XDG_DATA_HOME=f'{room}/data',
                        XDG_CACHE_HOME=f'{room}/cache', HOME=str(room), GDK_SCALE=str(scale), GDK_BACKEND='x11', GTK_A11Y='atspi')
        self.env.pop('WAYLAND_DISPLAY', None)
        if is_dark:
            self.env['ADW_DEBUG_COLOR_SCHEME'] = 'prefer-dark'
        self.manager = subprocess.Popen(['openbox'], env=self.env, stdout=subprocess.DEVNULL, stderr=subprocess.DEVNULL)

    def do(self, *words: str) -> str:
        return subprocess.run(['xdotool', *words], env=self.env, capture_output=True, text=True).stdout

    def shot(self, path: object) -> None:
        subprocess.run(['import', '-window', 'root', str(path)], env=self.env, check=True, stderr=subprocess.DEVNULL)

    def end(self) -> None:
        for one in (self.manager, self.process):
            one.kill()
            one.wait()


class Player:
    """A window that is open."""

    def __init__(self, screen: Screen, gbkeep: object, *words: object, is_shown: bool = True, closed: str = ''):
        self.screen = screen
        redirected = ['sh', '-c', f'exec "$@" {closed}', 'sh'] if closed else []
        program = ['--gbkeep', gbkeep] if '--gbkeep' not in words else []
        self.process = subprocess.Popen([*redirected, *tool_words('window'), *map(str, program), *[one if isinstance(one, bytes) else str(one) for one in words]],
                                        env=screen.env, start_new_session=True, stdout=subprocess.PIPE, stderr=subprocess.PIPE, text=True)
        self.began = time.monotonic()
        if is_shown:
            try:
                self.wait(self.app, 'no window came up')
            except AssertionError:
                self.kill()
                raise

    # ---- the tree

    def app(self):
        import gi
        gi.require_version('Atspi', '2.0')
        from gi.repository import Atspi
        # a busy computer answers late
        Atspi.set_timeout(5000, 15000)
        desktop = Atspi.get_desktop(0)
        for at in range(desktop.get_child_count()):
            one = desktop.get_child_at_index(at)
            try:
                if one and one.get_process_id() == self.process.pid:
                    return one
            except Exception:
                continue
        return None

    def nodes(self, is_shown: bool = True) -> list:
        """What is in the windows, each with its name and its role; those parts alone that are shown. It is read again where it has changed meanwhile."""
        for _ in range(5):
            found, is_whole = self.read(is_shown)
            if is_whole:
                break
        return found

    def read(self, is_shown: bool) -> tuple[list, bool]:
        from gi.repository import Atspi
        found, left, is_whole = [], [self.app()], True
        while left:
            one = left.pop()
            try:
                if one is None:
                    is_whole = False
                    continue
                if one.get_role_name() != 'application' and is_shown and not one.get_state_set().contains(Atspi.StateType.VISIBLE):
                    continue
                found.append((one, one.get_name() or '', one.get_role_name()))
                left += [one.get_child_at_index(at) for at in range(one.get_child_count())][::-1]
            except Exception:
                # it is gone, or the window is busy
                is_whole = False
        return found, is_whole

    def texts(self) -> list[str]:
        """What can be read in the windows."""
        return [name for _, name, _ in self.nodes() if name]

    def found(self, pattern: str, role: str = '') -> list:
        """What has that name, and a role with that in its own. (A button of a dialog has its name twice.)"""
        return [one for one, name, kind in self.nodes() if re.fullmatch(f'({pattern})( ({pattern}))?', name) and role in kind]

    def chosen_card(self) -> bool:
        """Whether one of a strip of cards is the chosen one."""
        from gi.repository import Atspi
        return any('list item' in role and one.get_state_set().contains(Atspi.StateType.SELECTED) for one, _, role in self.nodes())

    def press(self, pattern: str, role: str = 'button') -> None:
        """Clicks a button by its name."""
        def clicked() -> bool:
            with warnings.catch_warnings():
                warnings.simplefilter('ignore')
                for one in self.found(pattern, role):
                    actions = one.get_action_iface()
                    for at in range(actions.get_n_actions() if actions else 0):
                        if actions.get_action_name(at) in ('click', 'activate', 'toggle'):
                            return actions.do_action(at)
            return False
        self.wait(clicked, f'there is no {role} {pattern!r}')

    def act(self, name: str) -> None:
        """Does an action of the window's, by its name."""
        def done() -> bool:
            with warnings.catch_warnings():
                warnings.simplefilter('ignore')
                for one, _, _ in self.nodes(False):
                    actions = one.get_action_iface()
                    for at in range(actions.get_n_actions() if actions else 0):
                        if actions.get_action_name(at) == name:
                            return actions.do_action(at)
            return False
        self.wait(done, f'there is no action {name}')

    # ---- keys and looks

    def keys(self, kind: str, *names: str) -> None:
        for name in names:
            self.screen.do(kind, name)

    def pressed(self, name: str, what: Callable, or_else: str):
        """Presses a key until that is so: one that comes while a question goes is not for the game."""
        for _ in range(10):
            self.keys('key', name)
            with contextlib.suppress(AssertionError):
                return self.wait(what, or_else, 5)
        wrong(or_else)

    def hold(self, name: str, seconds: float) -> None:
        self.keys('keydown', name)
        time.sleep(seconds)
        self.keys('keyup', name)

    def wait(self, what: Callable, or_else: str, seconds: float = 90):
        until = time.monotonic() + seconds
        while time.monotonic() < until:
            got = what()
            if got:
                return got
            if self.process.poll() is not None:
                wrong(f'{or_else}: it ended with {self.process.returncode}, {self.process.communicate()}')
            time.sleep(0.05)
        wrong(f'{or_else}; what is shown: {self.texts()}')

    def find_state(self, pattern: str) -> bool:
        """Whether something is shown that has this in it."""
        return any(re.search(pattern, text) for text in self.texts())

    def until(self, pattern: str, seconds: float = 90) -> str:
        """Waits until something is shown that has this in it."""
        return self.wait(lambda: next((text for text in self.texts() if re.search(pattern, text)), None), f'{pattern!r} was never shown', seconds)

    def until_gone(self, pattern: str, seconds: float = 90) -> None:
        self.wait(lambda: not any(re.search(pattern, text) for text in self.texts()), f'{pattern!r} stays', seconds)

    def frame_count(self) -> int:
        """The frames of the counter, which `shows_counter` shows."""
        found = next((re.search(r'frame ([\d,]+)', text) for text in self.texts() if 'frame ' in text), None)
        return int(found[1].replace(',', '')) if found else -1

    def processor_seconds(self) -> list[float]:
        """Of the window, and of the programs that it started."""
        group, spent = os.getpgid(self.process.pid), [0.0, 0.0]
        for stat in Path('/proc').glob('[0-9]*/stat'):
            try:
                fields = stat.read_text().rpartition(')')[2].split()
            except OSError:
                continue
            if int(fields[2]) == group:
                spent[int(stat.parent.name) != self.process.pid] += (int(fields[11]) + int(fields[12])) / os.sysconf('SC_CLK_TCK')
        return spent

    def kill(self) -> None:
        os.killpg(self.process.pid, signal.SIGKILL)
        self.process.communicate()

    def close(self, status: int = 0) -> str:
        """Ends it as a session does that ends: it saves."""
        self.process.terminate()
        return self.ended(status)

    def ended(self, status: int = 0) -> str:
        """It ends so, and says nothing on standard output; answers what it says on the other."""
        try:
            out, err = self.process.communicate(timeout=90)
        except subprocess.TimeoutExpired:
            wrong('the window does not end')
        if self.process.returncode != status or out or 'Traceback' in err:
            wrong(f'the window ended with status {self.process.returncode} and {out!r}, {err!r}')
        return err
