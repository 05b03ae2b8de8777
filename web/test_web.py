#!/usr/bin/python3
"""Plays in a browser: Debian's Chromium, without a window, on the page of web/page, served from this computer.

usage: test_web.py GBKEEP [NAME ..]     NAME: of a test, as kills; all are run where none is given
       test_web.py GBKEEP measure       prints times
       test_web.py GBKEEP shots         leaves docs/browser.png, docs/browser_home.png and docs/browser_phone.png

It needs Debian's packages chromium, chromium-driver and python3-selenium, and installs nothing. What the page plays is compared with what the program plays. The whole browser is killed with SIGKILL at random moments. KILLS is how often (20); SEED says when;
PAGE names another folder than web/page."""
import contextlib
import functools
import hashlib
import http.server
import os
import random
import re
import shutil
import signal
import statistics
import subprocess
import sys
import tempfile
import threading
import time
import unittest
from pathlib import Path

from examples.demo.assemble import Assembler
from examples.demo.check import SAYS, glyphs, letters
from examples.speed import build as speed_roms
from gbkeep.palettes import PALETTES
from gbkeep.pictures import shades_of
from gbkeep.timed_game import SaveTime, TimedGame, milliseconds
from scripts.page import list_files

HERE = Path(__file__).resolve().parent
TOP = HERE.parent

NEEDED = []
for program, package in (('chromium', 'chromium'), ('chromedriver', 'chromium-driver')):
    if not shutil.which(program):
        NEEDED.append(package)
try:
    from selenium import webdriver
    from selenium.common.exceptions import WebDriverException
    from selenium.webdriver.chrome.options import Options
    from selenium.webdriver.chrome.service import Service
    from selenium.webdriver.common.action_chains import ActionChains
    from selenium.webdriver.common.by import By
    from selenium.webdriver.common.keys import Keys
except ImportError:
    NEEDED.append(f'python3-selenium (for {sys.executable})')
if NEEDED:
    sys.exit("test_web.py needs Debian's " + ', '.join(NEEDED))

DIST = Path(os.environ.get('PAGE', TOP / 'web/page'))
DEMO = TOP / 'examples/demo/demo.gb'
TEST_ROMS = sorted((TOP / 'examples/test_roms').glob('*.gb'))
SECTOR = 512
BITS = {'Right': 1, 'Left': 2, 'Up': 4, 'Down': 8, 'A': 16, 'B': 32, 'Select': 64, 'Start': 128}
GBKEEP = 'bin/gbkeep'
SEED = int(os.environ.get('SEED', '1'))
CLOCK = '''
        org $100
        jp start
        org $134
        db "CLOCK"
        org $147
        db $10, $00, $02
        org $150
start:  di
again:  jr again
'''


class Quiet(http.server.SimpleHTTPRequestHandler):
    def log_message(self, *_):
        pass

    def end_headers(self):
        # what the browser has without the server, the page has kept
        self.send_header('Cache-Control', 'no-store')
        super().end_headers()


class Noting(Quiet):
    """Notes the writes of an image, (place, old bytes, new bytes), that no flush has followed yet. Where the server is to hold, it lets the page wait in
    the middle of its calls."""

    def do_POST(self):
        body = self.rfile.read(int(self.headers.get('Content-Length', 0)))
        what, _, place = self.path.partition('?')
        server = self.server
        with server.guard:
            if what == '/flush':
                server.unflushed.clear()
            else:
                server.unflushed.append((int(place), body[:len(body) // 2], body[len(body) // 2:]))
            server.calls_left -= 1
            is_held = server.calls_left == 0
        if is_held:
            server.held.set()
            server.released.wait(60)
        with contextlib.suppress(OSError):
            self.send_response(204)
            self.end_headers()


# tells a noting server of each write of an image before it is made, and of each flush after it
NOTES = '''
{
  const tell = (path, bytes) => { const ask = new XMLHttpRequest(); ask.open('POST', path, false); ask.send(bytes); };
  const images = new WeakSet();
  const { createSyncAccessHandle } = FileSystemFileHandle.prototype;
  FileSystemFileHandle.prototype.createSyncAccessHandle = async function () {
    const handle = await createSyncAccessHandle.call(this);
    if (this.name.endsWith('.gbkeep')) { images.add(handle); }
    return handle;
  };
  const { write, flush } = FileSystemSyncAccessHandle.prototype;
  FileSystemSyncAccessHandle.prototype.write = function (bytes, { at }) {
    if (images.has(this)) {
      const both = new Uint8Array(2 * bytes.length);
      this.read(both.subarray(0, bytes.length), { at });
      both.set(bytes, bytes.length);
      tell(`/write?${at}`, both);
    }
    return write.call(this, bytes, { at });
  };
  FileSystemSyncAccessHandle.prototype.flush = function () {
    flush.call(this);
    if (images.has(this)) { tell('/flush', ''); }
  };
}
'''


class Server:
    """Serves a folder on this computer."""

    def __init__(self, folder, port=0, kind=Quiet):
        self.server = http.server.ThreadingHTTPServer(('127.0.0.1', port), functools.partial(kind, directory=str(folder)))
        self.server.guard, self.server.unflushed, self.server.calls_left = threading.Lock(), [], -1
        self.server.held, self.server.released = threading.Event(), threading.Event()
        self.port = self.server.server_port
        threading.Thread(target=self.server.serve_forever, daemon=True).start()

    def url(self, words=''):
        return f'http://localhost:{self.port}/index.html{words}'

    def close(self):
        self.server.shutdown()
        self.server.server_close()


class Browser:
    """A browser with a profile of its own."""

    def __init__(self, profile, *more):
        options = Options()
        options.binary_location = shutil.which('chromium')
        for word in ('--headless=new', '--no-sandbox', '--disable-gpu', '--no-first-run', '--disable-dev-shm-usage', '--window-size=900,800', f'--user-data-dir={profile}', *more):
            options.add_argument(word)
        options.set_capability('goog:loggingPrefs', {'browser': 'ALL'})
        self.profile = str(profile)
        self.driver = webdriver.Chrome(service=Service(shutil.which('chromedriver')), options=options)
        self.driver.set_script_timeout(120)

    def __getattr__(self, name):
        return getattr(self.driver, name)

    def processes(self):
        """The processes of this browser alone: those that name its profile."""
        found = []
        for folder in Path('/proc').iterdir():
            if folder.name.isdigit():
                with contextlib.suppress(OSError):
                    if f'--user-data-dir={self.profile}'.encode() in (folder / 'cmdline').read_bytes().split(b'\0'):
                        found.append(int(folder.name))
        return found

    def main_processes(self):
        """The process that the others of this browser are below."""
        words = {one: Path(f'/proc/{one}/cmdline').read_bytes() for one in self.processes()}
        return [one for one, line in words.items() if b'--type=' not in line and b'chromedriver' not in line]

    def kill(self):
        """Kills the whole browser."""
        main = self.main_processes()
        if not main:
            raise AssertionError('there is no browser to be killed')
        # children of the main process, as the renderer, name no profile
        children = descendants(main)
        for one in main + children:
            with contextlib.suppress(ProcessLookupError):
                os.kill(one, signal.SIGKILL)
        self.end()

    def end(self):
        with contextlib.suppress(Exception):
            self.driver.service.process.kill()
            self.driver.service.process.wait()

    def close(self):
        with contextlib.suppress(WebDriverException):
            self.driver.quit()


def descendants(roots):
    """The processes below these."""
    parents = {}
    for folder in Path('/proc').iterdir():
        if folder.name.isdigit():
            with contextlib.suppress(OSError, IndexError, ValueError):
                parents[int(folder.name)] = int((folder / 'stat').read_text().rsplit(')', 1)[1].split()[1])
    found, more = [], list(roots)
    while more:
        more = [child for child, parent in parents.items() if parent in more]
        found += more
    return found


class Page:
    """The page in a browser."""

    def __init__(self, browser):
        self.browser = browser

    def open(self, url, is_anew=True):
        """Opens the page as a new tab does, or else as a tab that had a game open."""
        if is_anew:
            with contextlib.suppress(WebDriverException):
                self.js('sessionStorage.clear()')
        self.browser.get(url)
        self.until(lambda: self.js('return document.documentElement.dataset.ready'), 'the page was never ready', 30)
        return self

    def js(self, text, *words):
        return self.browser.execute_script(text, *words)

    def wait_for(self, text, *words):
        """What a promise keeps."""
        got = self.browser.execute_async_script(
            'const done = arguments[arguments.length - 1]; const given = [...arguments].slice(0, -1);'
            f'(async () => {{ {text} }})().then((kept) => done([true, kept]), (error) => done([false, String(error)]));', *words)
        if not got[0]:
            raise AssertionError(f'{text}: {got[1]}')
        return got[1]

    def until(self, what, or_else, seconds=20):
        end = time.monotonic() + seconds
        while time.monotonic() < end:
            got = what()
            if got:
                return got
            time.sleep(0.03)
        raise AssertionError(f'{or_else}; the status is {self.status()}')

    def status(self):
        return self.js("const s = document.getElementById('status'); return {...s.dataset, text: s.textContent}")

    def state_of(self):
        return self.js("return document.getElementById('status').dataset.state")

    def saved(self):
        return int(self.js("return document.getElementById('status').dataset.saved"))

    def count(self):
        return int(self.js("return document.getElementById('status').dataset.count"))

    def text(self):
        return self.js("return document.getElementById('status').textContent")

    def until_state(self, state):
        self.until(lambda: self.state_of() == state, f'the state was never {state}')

    def until_text(self, words):
        """Waits until the page says this, in large or small letters."""
        return self.until(lambda: words.lower() in self.text().lower() and self.text(), f'{words!r} was never said')

    def press(self, buttons, frames):
        return self.wait_for('return await gbkeep.press(given[0], given[1])', buttons, frames)

    def save(self):
        return self.wait_for('return await gbkeep.save()')

    def state(self):
        return self.wait_for('return await gbkeep.state()')

    def picture(self):
        return bytes(self.wait_for('return [...await gbkeep.picture()]'))

    def export(self):
        return bytes.fromhex(self.wait_for("return [...await gbkeep.exportSave()].map((one) => one.toString(16).padStart(2, '0')).join('')"))

    def battery(self):
        return bytes.fromhex(self.wait_for("return [...await gbkeep.exportBattery()].map((one) => one.toString(16).padStart(2, '0')).join('')"))

    def click(self, where):
        self.browser.find_element(By.CSS_SELECTOR, where).click()

    def menu(self, where):
        """Presses what the menu of the game has."""
        self.click('#menu-open')
        self.click(where)

    def states(self, slot, what):
        """Presses what the dialog of save states has for one: load, keep, undo or delete."""
        self.menu('[data-act=States]')
        where = f'#states-list [data-slot="{slot}"] [data-state-act={what}]'
        self.until(lambda: self.js('return document.querySelector(arguments[0]) !== null', where), f'{where} is never there')
        self.click(where)

    def keep(self, slot=1):
        self.states(slot, 'keep')
        return self.until_text(f'Saved to state {slot}')

    def load(self, slot=1):
        self.states(slot, 'load')
        return self.until_text(f'Loaded state {slot}')

    def toggle_pause(self):
        self.click('#pause')

    def demo(self):
        if self.js("return document.getElementById('demo').offsetParent === null"):
            self.click('#more')
            self.click('#about-demo')
        else:
            self.click('#demo')

    def close(self):
        """Saves and closes the game, and waits for the list."""
        number = "return Number(document.getElementById('list').dataset.number ?? 0)"
        before = self.js(number)
        self.click('#close')
        self.until_state('closed')
        self.until(lambda: self.js(number) > before and self.rows(), 'nothing is listed')

    def is_open(self, dialog):
        return self.js('return document.getElementById(arguments[0]).open', dialog)

    def question(self):
        """The words of the question that is asked."""
        self.until(lambda: self.is_open('question'), 'nothing is asked')
        return self.js("return document.getElementById('question-text').textContent")

    def answer(self, agrees):
        self.question()
        self.click('#yes' if agrees else '#no')
        self.until(lambda: not self.is_open('question'), 'the question stays')

    def reset(self, agrees):
        self.menu('#power')
        self.answer(agrees)

    def card(self, name, what=None):
        """Opens the menu of a card, by the name of its file or by its title, and presses what it has: play, save, battery, anew, begin-with or delete."""
        self.until(lambda: self.js("""
            const one = [...document.querySelectorAll('#list > li')].find((li) => [li.dataset.name, li.dataset.title].includes(arguments[0]));
            one?.querySelector('.more').click();
            return one !== undefined""", name), f'{name} is not listed')
        if what:
            self.click(f'#card [data-card={what}]')

    def image(self, name, number, what):
        """Presses what a card's menu has for an earlier game or a state: play, save or delete; where the number is None, for the first of them."""
        self.card(name)
        which = '' if number is None else f'[data-number="{number}"] '
        self.click(f'#card .kept {which}[data-image={what}]')

    def give(self, *paths):
        """Chooses files, as the picker does."""
        self.browser.find_element(By.ID, 'file').send_keys('\n'.join(map(str, paths)))

    def rows(self):
        """Of each card its title and file, whether it was begun, and how many more games are kept of it."""
        return self.js("""return [...document.querySelectorAll('#list > li')].map(({ dataset }) => `${dataset.title || dataset.name} (${dataset.name}), `
            + (dataset.begun === undefined ? 'not begun' : 'begun') + (dataset.kept === '0' ? '' : `, ${dataset.kept} more kept`))""")

    def shot(self, path):
        self.browser.save_screenshot(str(path))


def run(*words):
    return subprocess.run([str(word) for word in words], capture_output=True, text=True, timeout=120)


class Program:
    """The program on files of a folder."""

    def __init__(self, folder):
        self.folder = Path(folder)

    def do(self, *words):
        done = run(GBKEEP, *words)
        if done.returncode != 0:
            raise AssertionError(f'{words}: {done.stderr}')
        return done.stdout

    def after(self, cart, inputs, save=None):
        """What a game of the program shows after these inputs, (buttons, frames) each: its state and its picture."""
        if save is None:
            save = self.folder / 'program.gbkeep'
            save.unlink(missing_ok=True)
            self.do('new', cart, save)
        script = self.folder / 'script'
        script.write_text(''.join(f'frames {buttons:02x} {frames}\n' for buttons, frames in inputs))
        self.do('play', cart, save, script)
        return self.shows(cart, save), self.picture(cart, save)

    def shows(self, cart, save):
        return dict(line.split(' ', 1) for line in self.do('show', cart, save).splitlines())

    def picture(self, cart, save):
        out = self.folder / 'picture.pgm'
        out.unlink(missing_ok=True)
        self.do('frame', cart, save, out)
        return shades_of(out.read_bytes())


def any_inputs(chance, count, most=40):
    return [(chance.choice([0, 0, 1, 2, 4, 8, 16, 32, 64, 128, chance.randrange(256)]), chance.randint(1, most)) for _ in range(count)]


class WithBrowser(unittest.TestCase):
    """A folder that is served, and a browser."""
    more = ()

    @classmethod
    def setUpClass(cls):
        cls.room = Path(tempfile.mkdtemp(prefix='web-'))
        cls.addClassCleanup(shutil.rmtree, cls.room, ignore_errors=True)
        cls.site = cls.room / 'site'
        shutil.copytree(DIST, cls.site)
        cls.carts = {'demo': DEMO, **{path.stem: path for path in TEST_ROMS}}
        cls.carts.update(speed_roms.write(cls.room))
        (cls.room / 'clock.gb').write_bytes(Assembler().assemble(CLOCK))
        cls.carts['clock'] = cls.room / 'clock.gb'
        for name, cart in cls.carts.items():
            shutil.copy(cart, cls.site / f'{name}.gb')
        cls.server = Server(cls.site)
        cls.addClassCleanup(cls.server.close)
        cls.browser = Browser(cls.room / 'profile', *cls.more)
        cls.addClassCleanup(lambda: cls.browser.close())
        cls.program = Program(cls.room)

    def setUp(self):
        self.page = Page(self.browser)

    def play(self, name, more='&paused=1'):
        self.page.open(self.server.url(f'?cart={name}.gb{more}'))
        self.assertIn(self.page.state_of(), ('playing', 'paused'), self.page.status())
        return self.page

    def hold(self, key, seconds=0.2):
        ActionChains(self.browser.driver).key_down(key).pause(seconds).key_up(key).perform()

    def listed(self):
        """The page with the list of games."""
        return self.page.open(self.server.url())


# frames until a round of the demo is over
ROUND = 3_700
KNOWN = glyphs((TOP / 'examples/demo/demo.asm').read_text())


def asks_for_start(shades):
    """Whether PRESS START stands in the middle of the demo's field, where the player or a coin may cover letters."""
    said = letters(' '.join(['P2', '160', '144', '3', *map(str, shades)]), KNOWN, 8, range(3, 16))
    return said.count('?') < 5 and all(letter in (wanted, '?') for letter, wanted in zip(said, SAYS))


class Playing(WithBrowser):
    def test_keys(self):
        """The demo is played by keys: a round begins, and the player walks; the state is the program's."""
        page = self.listed()
        page.demo()
        page.until_state('playing')
        page.until(lambda: page.saved() > 60, 'nothing was ever saved')
        page = self.play('demo')
        page.press(0, ROUND)
        self.assertTrue(asks_for_start(page.picture()))
        page.click('#pause')
        page.until_state('playing')
        self.hold(Keys.ENTER)
        page.until(lambda: not asks_for_start(page.picture()), 'Start does nothing')
        for key in (Keys.ARROW_RIGHT, Keys.ARROW_DOWN, Keys.ARROW_LEFT, Keys.ARROW_UP):
            field = page.picture()[:160 * 136]
            self.hold(key)
            page.until(lambda: page.picture()[:160 * 136] != field, f'{key!r} does nothing')
        # held, they bring the player from wall to wall: a key that counts once alone moves it by a pixel
        fields = []
        for key in (Keys.ARROW_RIGHT, Keys.ARROW_LEFT):
            self.hold(key, 3)
            fields.append(page.picture())
        for columns in (range(8, 18), range(142, 152)):
            self.assertTrue(any(fields[0][160 * y + x] != fields[1][160 * y + x] for y in range(16, 128) for x in columns), columns)
        for key in ('x', 'z', Keys.BACKSPACE):
            self.hold(key)
        ActionChains(self.browser.driver).send_keys('p').perform()
        page.until_state('paused')
        image, state, shades = page.export(), page.state(), page.picture()
        save = self.room / 'keys.gbkeep'
        save.write_bytes(image)
        shown = self.program.shows(DEMO, save)
        self.assertEqual((shown['inputs'], shown['state']), (str(page.count()), state))
        self.assertEqual(self.program.picture(DEMO, save), shades)
        count = page.count()
        time.sleep(0.3)
        self.assertEqual(page.count(), count)
        page.click('#pause')
        page.until(lambda: page.count() > count, 'the game never goes on')

    def test_speed_of_a_game_boy(self):
        """59.7 frames a second, by the clock, on screens of any rate; held F runs fast."""
        page = self.play('demo', '')
        self.browser.find_element(By.ID, 'screen').click()
        page.until(lambda: page.count() > 30, 'it never runs')
        text = "return [performance.now(), Number(document.getElementById('status').dataset.count)]"
        for period in (None, 1000 / 144, 1000 / 120, 1000 / 30):
            if period:
                page.js('window.requestAnimationFrame = (run) => setTimeout(run, arguments[0])', period)
                time.sleep(0.5)
            before = page.js(text)
            time.sleep(5)
            after = page.js(text)
            self.assertAlmostEqual(1000 * (after[1] - before[1]) / (after[0] - before[0]), 59.73, delta=1.0, msg=period)
        ActionChains(self.browser.driver).key_down('f').perform()
        before = page.js(text)
        time.sleep(1)
        after = page.js(text)
        ActionChains(self.browser.driver).key_up('f').perform()
        self.assertGreater(1000 * (after[1] - before[1]) / (after[0] - before[0]), 150)

    def test_as_the_program(self):
        """States and pictures after the same inputs, of each cartridge."""
        chance = random.Random(SEED)
        for name, cart in self.carts.items():
            with self.subTest(cart=name):
                page, inputs = self.play(name), any_inputs(chance, 12)
                for buttons, frames in inputs:
                    page.press(buttons, frames)
                shown, picture = self.program.after(cart, inputs)
                self.assertEqual(page.save(), sum(frames for _, frames in inputs))
                self.assertEqual(page.state(), shown['state'])
                self.assertEqual(page.picture(), picture)
                self.assertEqual(page.saved(), int(shown['inputs']))

    def test_long_presses(self):
        """More frames than can be unsaved, and names of buttons."""
        page = self.play('busy_hram', '&paused=1')
        begun = page.count()
        self.assertEqual(page.press(['A', 'Up'], 7_000), begun + 7_000)
        self.assertGreater(page.saved(), begun)
        self.assertEqual(page.save(), begun + 7_000)
        with self.assertRaisesRegex(AssertionError, 'no button'):
            page.press(['Q'], 1)


LONG_PLAY = '''
const { Library, SECTOR, Session, sectorsNeeded } = await import('./library.js');
const library = await Library.load('gbkeep.wasm.gz');
const rom = new Uint8Array(await (await fetch('demo.gb')).arrayBuffer());
const sectors = sectorsNeeded(library, rom);
const disk = new Uint8Array(SECTOR * sectors);
let session = Session.begin(library, rom, sectors);
let calls = 0;
let first = 0;
const make = () => {
  for (let call = session.nextCall(); call !== null; call = session.nextCall()) {
    if (call.bytes !== null) { disk.set(call.bytes, SECTOR * call.sector); }
    calls += 1;
  }
};
make();
for (let k = 0; k < 10000; k += 1) {
  session.frames(k & 255, 1);
  session.save();
  make();
  if (calls > 4000) {
    session.free();
    session = Session.resume(library, rom, disk);
    calls = 0;
    make();
  }
  if (k === 5000) { first = library.calls.memory.buffer.byteLength; }
}
return [first, library.calls.memory.buffer.byteLength, Number(session.count())];'''


class Files(WithBrowser):
    def test_to_the_program_and_back(self):
        """A SAVE goes from the page to the program and back, and both go on."""
        page = self.play('demo')
        first, second, third = (any_inputs(random.Random(SEED + one), 6) for one in range(3))
        for buttons, frames in first:
            page.press(buttons, frames)
        save = self.room / 'out.gbkeep'
        save.write_bytes(page.export())
        shown, picture = self.program.after(DEMO, second, save)
        page = self.listed()
        page.give(save)
        self.assertIn('out.gbkeep is a game of GBKEEP DEMO', page.question())
        page.answer(True)
        page.until_state('playing')
        page.close()
        page.until(lambda: '1 more kept' in ''.join(page.rows()), 'the game that was replaced is not kept')
        page = self.play('demo')
        self.assertEqual(page.count(), page.saved())
        # the page played some frames before it was closed, and the program plays as many
        more = page.count() - int(shown['inputs'])
        self.assertGreaterEqual(more, 0)
        for buttons, frames in third:
            page.press(buttons, frames)
        page.save()
        shown, picture = self.program.after(DEMO, ([(0, more)] if more else []) + third, save)
        self.assertEqual((page.state(), page.picture()), (shown['state'], picture))

    def test_wrong_files(self):
        """What is no cartridge or no SAVE is refused in words, and leaves nothing."""
        rom = bytearray(DEMO.read_bytes())
        cases = {'short.gb': (b'no cartridge', 'rom length'), 'kind.gb': (bytes(rom[:0x147]) + b'\xfc' + bytes(rom[0x148:]), 'cartridge type'),
                 'ram.gb': (bytes(rom[:0x149]) + b'\x09' + bytes(rom[0x14a:]), 'ram code'), 'empty.gb': (b'', 'rom length'),
                 'long.gb': (bytes((8 << 20) + 512), 'rom length'), 'cut.gbkeep': (b'GBKPROOT' + bytes(100), 'the cartridge of this SAVE is not here')}
        page = self.listed()
        before = page.rows()
        for name, (content, words) in cases.items():
            with self.subTest(name=name):
                path = self.room / name
                path.write_bytes(content)
                page.give(path)
                page.until_text(words)
                self.assertEqual(page.state_of(), 'refused')
                page = self.listed()
                self.assertEqual(page.rows(), before)
        self.page.open(self.server.url('?cart=missing.gb'))
        self.page.until_text("the cartridge can't be fetched")

    def other_cart(self, of, name):
        """A cartridge that no other test has: another one, but for the sum in its header."""
        content = bytearray(self.carts[of].read_bytes())
        content[0x14e:0x150] = hashlib.sha256(name.encode()).digest()[:2]
        path = self.room / f'{name}.gb'
        path.write_bytes(content)
        return path

    def downloads(self):
        """A new folder, in which the browser leaves what is taken out."""
        folder = Path(tempfile.mkdtemp(dir=self.room))
        self.browser.execute_cdp_cmd('Browser.setDownloadBehavior', {'behavior': 'allow', 'downloadPath': str(folder)})
        return folder

    def imported(self, cart, file):
        """A save file of the program that begins with a battery file."""
        save = cart.with_suffix('.gbkeep')
        save.unlink(missing_ok=True)
        self.program.do('import', cart, file, save)
        return save

    def exported(self, cart, save):
        """The battery file that the program takes out of a save file."""
        out = cart.with_suffix('.exported')
        out.unlink(missing_ok=True)
        self.program.do('export', cart, save, out)
        return out.read_bytes()

    def test_battery_files(self):
        """A game begins with the battery file that is chosen with its cartridge, and gives its own, as by the program."""
        chance = random.Random(SEED)
        for of, length in (('demo', 32768), ('clock', 8192 + 48)):
            with self.subTest(of=of):
                cart, downloads = self.other_cart(of, f'kept_{of}'), self.downloads()
                file = cart.with_suffix('.sav')
                file.write_bytes(chance.randbytes(length))
                save = self.imported(cart, file)
                page = self.page.open(self.server.url('?paused=1'))
                page.give(cart, file)
                page.until_text('The game begins with the battery file.')
                inputs = any_inputs(chance, 6)
                for buttons, frames in inputs:
                    page.press(buttons, frames)
                shown, picture = self.program.after(cart, inputs, save)
                self.assertEqual((page.state(), page.picture(), str(page.count())), (shown['state'], picture, shown['inputs']))
                want = self.exported(cart, save)
                self.assertEqual(len(want), length)
                self.assertEqual(page.battery(), want)
                page.menu('#export-battery')
                page.until_text('is among your downloads')
                page.until((downloads / file.name).exists, 'nothing is among the downloads')
                self.assertEqual((downloads / file.name).read_bytes(), want)
                (downloads / file.name).unlink()
                page.close()
                page.card(cart.name, 'battery')
                page.until_text('is among your downloads')
                [left] = page.until(lambda: list(downloads.glob('*.sav')), 'nothing is among the downloads')
                self.assertEqual(left.read_bytes(), want)

    def test_battery_file_of_the_list(self):
        """A game of the list is begun anew with a battery file; the one before is kept."""
        cart = self.other_cart('demo', 'listed')
        file = cart.with_suffix('.srm')
        file.write_bytes(random.Random(SEED).randbytes(32768))
        page = self.page.open(self.server.url('?paused=1'))
        page.give(cart)
        page.until_state('paused')
        page.press(1, 77)
        page.close()
        self.browser.execute_cdp_cmd('Page.enable', {})
        self.browser.execute_cdp_cmd('Page.setInterceptFileChooserDialog', {'enabled': True})
        page.card(cart.name, 'begin-with')
        self.browser.find_element(By.ID, 'battery-file').send_keys(str(file))
        page.until_text('The game begins with the battery file.')
        self.browser.execute_cdp_cmd('Page.setInterceptFileChooserDialog', {'enabled': False})
        self.assertEqual((page.count(), page.state()), (0, self.program.shows(cart, self.imported(cart, file))['state']))
        page.close()
        page.until(lambda: any(cart.name in one and '1 more kept' in one for one in page.rows()), 'the game before is not kept')
        # chosen alone, it belongs to the game of its name, and nothing is done unasked
        before = page.rows()
        page.give(file)
        self.assertEqual(page.question(), 'listed.srm belongs to GBKEEP DEMO in your list: begin a new game with it?')
        self.browser.switch_to.active_element.send_keys(Keys.ESCAPE)
        page.until(lambda: not page.is_open('question'), 'the question stays')
        self.assertEqual((page.state_of(), page.rows()), ('closed', before))
        other = file.with_name('nobody.sav')
        other.write_bytes(file.read_bytes())
        page.give(other)
        page.until(lambda: page.is_open('pick'), 'nothing is asked')
        self.assertIn('Which game is nobody.sav of?', page.js("return document.getElementById('pick').textContent"))
        page.click('#pick [data-close]')
        self.assertEqual((page.state_of(), page.rows()), ('closed', before))

    def test_wrong_battery_files(self):
        """What is no battery file of the cartridge is refused in words, and leaves nothing."""
        cart, plain = self.other_cart('demo', 'refusing'), self.room / 'plain.gb'
        content = bytearray(cart.read_bytes())
        content[0x147] = 0x01
        plain.write_bytes(content)
        right, short, empty = (self.room / name for name in ('right.sav', 'short.sav', 'empty.srm'))
        for path, length in ((right, 32768), (short, 32767), (empty, 0)):
            path.write_bytes(bytes(length))
        before = self.listed().rows()
        for words, *paths in (('battery length', cart, short), ('battery length', cart, empty), ('no battery', plain, right)):
            with self.subTest(words=words):
                page = self.listed()
                page.give(*paths)
                page.until_text(words)
                self.assertEqual(page.state_of(), 'refused')
                self.assertEqual(self.listed().rows(), before)
        # a game without battery goes on when its file is refused
        page = self.page.open(self.server.url('?paused=1'))
        page.give(plain)
        page.until_state('paused')
        page.press(0, 10)
        page.menu('#export-battery')
        page.until_text('no battery')
        page.press(0, 10)
        self.assertEqual((page.state_of(), page.save()), ('paused', 20))

    def test_damaged_saves(self):
        """A damaged SAVE is refused, from outside and where it lies, and nothing is lost."""
        page = self.play('passes')
        page.press(0, 300)
        image = page.export()
        count = page.count()
        # an area: 32 sectors of the log, then the snapshot
        area = (len(image) // SECTOR - 2) // 2
        snapshots = [SECTOR * (2 + area * number + 32) for number in range(2)]
        content = bytearray(image)
        for place in snapshots:
            content[place:place + 64] = bytes(byte ^ 0xff for byte in content[place:place + 64])
        damaged = self.room / 'damaged.gbkeep'
        damaged.write_bytes(content)
        page = self.listed()
        before = page.rows()
        page.give(damaged)
        page.until(lambda: page.is_open('question') or page.state_of() == 'refused', 'nothing is said')
        if page.is_open('question'):
            page.answer(True)
        page.until_text('damaged snapshot')
        self.assertEqual(page.state_of(), 'refused')
        page = self.listed()
        self.assertEqual(page.rows(), before)
        page = self.play('passes')
        self.assertEqual(page.count(), count)
        self.listed()
        ident = hashlib.sha256(self.carts['passes'].read_bytes()).hexdigest()
        image_there = '''
            const folder = await (await (await navigator.storage.getDirectory()).getDirectoryHandle('games')).getDirectoryHandle(given[0]);
            const place = await folder.getFileHandle('1.gbkeep');'''
        digest_there = image_there + '''
            const bytes = await (await place.getFile()).arrayBuffer();
            return [...new Uint8Array(await crypto.subtle.digest('SHA-256', bytes))].join();'''
        page.wait_for(image_there + '''
            const file = await place.createWritable({ keepExistingData: true });
            for (const position of given[1]) { await file.write({ type: 'write', position, data: new Uint8Array(64).fill(0xa5) }); }
            await file.close();''', ident, snapshots)
        there = page.wait_for(digest_there, ident)
        page.open(self.server.url('?cart=passes.gb'))
        page.until_text('damaged snapshot')
        self.assertEqual(page.state_of(), 'refused')
        self.assertEqual(page.wait_for(digest_there, ident), there)
        # what is kept of it can be taken out and deleted
        page.card('passes.gb')
        self.assertTrue(page.js("return ['save', 'delete'].every((one) => document.querySelector(`#card [data-card=${one}]`)?.offsetParent)"))

    def test_save_states(self):
        """A save state is a copy; loading one loses no game, and each step is undone."""
        page = self.play('fails')
        page.press(0, 100)
        self.browser.find_element(By.ID, 'screen').send_keys(Keys.F9)
        page.until_text('empty')
        self.assertEqual((page.state_of(), page.count()), ('paused', 100))
        page.keep(1)
        state = page.state()
        page.press(1, 50)
        page.save()
        there = page.state()
        page.load(1)
        self.assertEqual((page.count(), page.state()), (100, state))
        page.click('#toasts .toast:last-child button')
        page.until_text('Back in the game before')
        self.assertEqual((page.count(), page.state()), (150, there))
        page.load(1)
        page.press(2, 10)
        self.assertEqual(page.save(), 110)
        self.browser.find_element(By.ID, 'screen').send_keys(Keys.F5)
        page.until_text('Saved to state 1')
        page.keep(10)
        page.click('#toasts .toast:last-child button')
        page.until_text('State 10 is as it was before')
        page.menu('[data-act=States]')
        page.until(lambda: page.js("return document.querySelectorAll('#states-list li').length") == 10, 'there are not ten')
        self.assertEqual(page.js("return document.querySelectorAll('#states-list li.empty').length"), 9)
        self.assertTrue(page.js("return document.querySelector('#states-list [data-slot=\"10\"] [data-state-act=load]').disabled"))
        page.click('#states-list [data-slot="1"] [data-state-act=undo]')
        page.until_text('State 1 is as it was before')
        page.load(1)
        self.assertEqual((page.count(), page.state()), (100, state))
        page.states(1, 'delete')
        page.until_text('State 1 was deleted')
        self.browser.find_element(By.ID, 'screen').send_keys(Keys.F9)
        page.until_text('empty')

    def test_new_game(self):
        """A new game of a cartridge is begun beside the present one, which is kept and can be played again."""
        page = self.play('copy')
        page.press(0, 77)
        page.save()
        page = self.listed()
        page.card('copy.gb', 'anew')
        page.answer(False)
        self.assertEqual(page.state_of(), 'closed')
        page.card('copy.gb', 'anew')
        self.assertIn('over?', page.question())
        page.answer(True)
        page.until_state('playing')
        page.click('#pause')
        page.until_state('paused')
        self.assertLess(page.count(), 77)
        page.close()
        page.until(lambda: any('copy.gb' in one and '1 more kept' in one for one in page.rows()), 'the game before is not kept')
        page.image('copy.gb', None, 'play')
        page.until_state('playing')
        page.click('#pause')
        self.assertGreaterEqual(page.count(), 77)

    def test_two_tabs(self):
        """A second tab of a game is told so, and changes nothing."""
        page = self.play('prints')
        page.press(0, 200)
        page.save()
        image = page.export()
        first = self.browser.current_window_handle
        self.browser.switch_to.new_window('tab')
        try:
            page.open(self.server.url('?cart=prints.gb'))
            page.until_text('another tab has this game')
            self.assertEqual(page.state_of(), 'refused')
        finally:
            self.browser.driver.close()
            self.browser.switch_to.window(first)
        self.assertEqual(page.export(), image)
        self.assertEqual(page.press(0, 5), 205)
        self.assertEqual(page.save(), 205)

    def test_delete(self):
        page = self.play('halting')
        page.press(0, 10)
        page.save()
        page = self.listed()
        page.card('halting.gb', 'delete')
        page.question()
        self.assertEqual([page.js(f"return document.getElementById('{one}').textContent") for one in ('yes', 'no')], ['Delete', 'Cancel'])
        page.answer(False)
        self.assertTrue(any('halting' in one.lower() for one in page.rows()))
        page.card('halting.gb', 'delete')
        page.answer(True)
        page.until_text('was deleted')
        self.assertFalse(any('halting' in one.lower() for one in page.rows()))

    def test_long_play(self):
        """Ten thousand saves, with the session taken up anew as the page does it, take no more memory than the first thousands."""
        first, last, count = self.listed().wait_for(LONG_PLAY)
        self.assertEqual(count, 10_000)
        self.assertEqual(last, first)

    def test_pictures(self):
        """A PNG, three times as large, in four greys."""
        page = self.play('scrolling')
        page.press(0, 120)
        png = bytes(page.wait_for('''
            const { pngOf } = await import('./picture.js');
            return [...new Uint8Array(await (await pngOf(await gbkeep.picture())).arrayBuffer())];'''))
        got = page.wait_for('''
            const image = await createImageBitmap(new Blob([new Uint8Array(given[0])], { type: 'image/png' }));
            const canvas = new OffscreenCanvas(image.width, image.height);
            const context = canvas.getContext('2d');
            context.drawImage(image, 0, 0);
            return [image.width, image.height, [...context.getImageData(0, 0, image.width, image.height).data].filter((_, k) => k % 4 === 0)];''', list(png))
        self.assertEqual(got[:2], [480, 432])
        shades = page.picture()
        self.assertEqual(bytes(got[2]), bytes(85 * shades[160 * (y // 3) + x // 3] for y in range(432) for x in range(480)))

    def test_clock(self):
        """The clock is given the seconds that pass, also while the game is closed, and no more."""
        page, began = self.play('clock', ''), time.time()
        page.until(lambda: page.saved() > 70, 'nothing was ever saved')
        page.close()
        time.sleep(4)
        page = self.play('clock', '')
        page.until(lambda: page.saved() > 150, 'nothing was ever saved')
        page.click('#pause')
        page.until_state('paused')
        image, ended = page.export(), time.time()
        save = self.room / 'clock.gbkeep'
        save.write_bytes(image)
        seconds = clock_of(self.program, self.carts['clock'], save)
        self.assertLessEqual(seconds, ended - began + 1)
        self.assertGreaterEqual(seconds, 5)
        # more than a year away is asked: no gives nothing, yes gives it all
        ident = hashlib.sha256(self.carts['clock'].read_bytes()).hexdigest()
        for answer, least, most in (('#no', 0, 300), ('#yes', 400 * 86_400, 400 * 86_400 + 300)):
            self.listed().wait_for('''
                const folder = await (await (await navigator.storage.getDirectory()).getDirectoryHandle('games')).getDirectoryHandle(given[0]);
                const file = await (await folder.getFileHandle('1.time')).createWritable();
                await file.write(`0 ${given[1]}`.padEnd(512));
                await file.close();''', ident, int(time.time()) - 400 * 86_400)
            self.browser.get(self.server.url('?cart=clock.gb'))
            page.until(lambda: page.js("return document.getElementById('question').open"), 'nothing was asked')
            self.assertIn('1 year and 35 days', page.js("return document.getElementById('question-text').textContent"))
            page.click(answer)
            page.until(lambda: page.saved() > 0 and page.state_of() == 'playing', 'the game never goes on')
            save.write_bytes(page.export())
            seconds = clock_of(self.program, self.carts['clock'], save)
            self.assertTrue(least <= seconds <= most, (answer, seconds))


def clock_of(program, cart, save):
    """How many seconds the clock of a game shows, by the file that `gbkeep export` writes."""
    out = save.with_suffix('.sav')
    out.unlink(missing_ok=True)
    program.do('export', cart, save, out)
    data = out.read_bytes()
    fields = data[-48:-28] if len(data) % 8192 == 48 else data[-44:-24]
    seconds, minutes, hours, days, high = (int.from_bytes(fields[4 * k:4 * k + 4], 'little') for k in range(5))
    return seconds + 60 * minutes + 3600 * hours + 86_400 * (days + 256 * (high & 1))


CLOCK_TRACES = '''
const { Clock } = await import('./clock.js');
const { Library, MODULE } = await import('./library.js');
const library = await Library.load(MODULE);
const out = [];
for (const { text: begun, count: inputs, now, answer, steps } of given[0]) {
  let [text, date, ran, count, saved] = [begun, now, 500.25, BigInt(inputs), BigInt(inputs)];
  const clock = new Clock(library, { read: () => text, write: (other) => { text = other; } }, count, () => date, () => ran);
  const asked = [];
  const notice = await clock.begin((question) => { asked.push(question); return answer; });
  const row = [notice !== null, asked.length];
  for (const [passes, frames] of steps) {
    date += passes;
    ran += passes;
    count += BigInt(frames);
    const passed = clock.claim(count);
    if (passed > 0) {
      count += 1n;
      clock.given();
    }
    if (count > saved) {
      saved = count;
      clock.saved(count);
    }
    row.push(passed, text.trim());
  }
  out.push(row);
}
return out;'''


class OtherClock(TimedGame):
    """The window's clock, over no program."""

    def __init__(self, path, trace):
        self.header = type('Header', (), {'has_clock': staticmethod(lambda: True)})
        self.time, self.notice, self.trouble, self.asked, self.passed = SaveTime(path), None, None, 0, 0
        self.date, self.ran = trace['now'], 500.25
        self.resumed = self.count = self.saved = trace['count']
        self.elapsed = lambda: self.ran

        def answered(_, question):
            self.asked += 1
            return trace['answer']
        self.ask = answered
        self._begin_clock(False, milliseconds(self.date), self.moment())

    def seconds(self, count):
        self.passed, self.count = count, self.count + 1

    def save(self):
        self.saved = self.count
        return self.count


class Clocks(WithBrowser):
    def test_clock_rules(self):
        """The page's clock and the window's give the same seconds, ask the same questions, and keep the same lines."""
        chance, traces, wanted = random.Random(SEED), [], []
        path = self.room / 'rules'
        for _ in range(400):
            now, count = chance.choice([1_000_000.5, 2_000_000_000.25]), chance.choice([0, 5, 1_000])
            lines = [(max(0, count + chance.choice([-200, -3, 0, 1, 3, 200])), int(now) + chance.choice([-40_000_000, -86_400, -5, 0, 5, 59, 61, 90_000, 40_000_000]))
                     for _ in range(chance.choice([0, 1, 1, 2, 3]))]
            text = chance.choice(['nonsense', '1 2 3', '5']) if chance.random() < 0.1 else '\n'.join(f'{least} {max(seconds, 0)}' for least, seconds in lines)
            steps = [(0, 0)] + [(chance.choice([0, 0.5, 1, 3, 100]), chance.choice([0, 1, 60])) for _ in range(5)]
            trace = {'text': text, 'count': count, 'now': now, 'answer': chance.choice([True, False, None]), 'steps': steps}
            Path(f'{path}.time').write_text(text + '\n' if text else '')
            other = OtherClock(path, trace)
            row = [other.notice is not None, other.asked]
            for passes, frames in steps:
                other.date, other.ran, other.count, other.passed = other.date + passes, other.ran + passes, other.count + frames, 0
                other.save_all()
                row += [other.passed, Path(f'{path}.time').read_text().strip()]
            traces.append(trace)
            wanted.append(row)
        page = self.listed()
        got = page.wait_for(CLOCK_TRACES, traces)
        for trace, ours, theirs in zip(traces, got, wanted):
            self.assertEqual(ours, theirs, trace)
        self.assertGreater(len({tuple(row[:2]) for row in wanted}), 3)


class Rewound(WithBrowser):
    def rewind(self, states):
        return self.page.wait_for('return await gbkeep.rewind(given[0])', states)

    def saved_as_shown(self, name):
        """Whether the SAVE of the page is, for the program, the game that the page shows."""
        save = self.room / 'rewound.gbkeep'
        save.write_bytes(self.page.export())
        shown = self.program.shows(self.carts[name], save)
        self.assertEqual((int(shown['inputs']), shown['state']), (self.page.count(), self.page.state()))

    def at_power_on(self):
        """A SAVE that begins with what the battery of the page's demo keeps."""
        save, battery, begun = (self.room / f'power.{end}' for end in ('gbkeep', 'sav', 'begun'))
        for path in (battery, begun):
            path.unlink(missing_ok=True)
        save.write_bytes(self.page.export())
        self.program.do('export', DEMO, save, battery)
        self.assertTrue(any(battery.read_bytes()), 'the battery keeps nothing')
        self.program.do('import', DEMO, battery, begun)
        return begun

    def test_power(self):
        """Power off and on: the machine is the one at power-on with the battery's RAM, and goes on as the program. The button asks first."""
        page, inputs = self.play('demo'), any_inputs(random.Random(SEED), 8)
        for buttons, frames in ((0, 200), (['Start'], 5), (['Right'], 400)):
            page.press(buttons, frames)
        begun = self.at_power_on()
        count, state = page.count(), page.state()
        self.assertEqual(page.wait_for('return await gbkeep.power()'), count + 1)
        self.assertEqual(page.state(), self.program.shows(DEMO, begun)['state'])
        self.assertNotEqual(page.state(), state)
        for buttons, frames in inputs:
            page.press(buttons, frames)
        shown, picture = self.program.after(DEMO, inputs, begun)
        self.assertEqual((page.save(), page.state(), page.picture()), (count + 1 + sum(frames for _, frames in inputs), shown['state'], picture))
        self.saved_as_shown('demo')
        begun, count, state = self.at_power_on(), page.count(), page.state()
        page.reset(False)
        self.assertEqual((page.save(), page.state()), (count, state))
        page.reset(True)
        page.until_text('The game was reset')
        self.assertEqual((page.save(), page.state(), page.state_of()), (count + 1, self.program.shows(DEMO, begun)['state'], 'paused'))
        # a power switch that was not meant
        self.assertEqual(self.rewind(1), count + 2)
        self.assertEqual(page.state_of(), 'paused')
        self.saved_as_shown('demo')

    def test_rewind(self):
        """A rewound game has the states that it had, goes on from them as the program plays, and is the same game after a SIGKILL."""
        kind, cart = type(self), self.carts['scrolling']
        page, inputs = self.play('scrolling'), [(1 << number % 8, 6) for number in range(12)]
        states = [page.state()]
        for buttons, frames in inputs:
            page.press(buttons, frames)
            states.append(page.state())
        self.assertGreater(len(set(states)), 6)
        page.press(0, 4)
        self.assertEqual(self.rewind(1), 77)
        self.assertEqual(page.state(), states[12])
        self.assertEqual(self.rewind(5), 78)
        self.assertEqual(page.state(), states[7])
        page.press(0x81, 9)
        shown, picture = self.program.after(cart, [*inputs[:7], (0x81, 9)])
        self.assertEqual((page.state(), page.picture()), (shown['state'], picture))
        self.assertEqual(page.save(), 87)
        self.saved_as_shown('scrolling')
        # not saved by a call: the second's save does it
        self.assertEqual(self.rewind(3), 88)
        self.assertEqual(page.state(), states[6])
        page.until(lambda: page.saved() == 88, 'a rewound game is never saved')
        kind.browser.kill()
        kind.browser = Browser(kind.room / 'profile', *kind.more)
        self.page = page = Page(kind.browser)
        self.play('scrolling')
        self.assertEqual((page.count(), page.saved(), page.state()), (88, 88, states[6]))
        self.saved_as_shown('scrolling')
        with self.assertRaisesRegex(AssertionError, 'no older state'):
            self.rewind(1)

    def test_rewind_a_minute(self):
        """597 states are kept, and no more."""
        page, cart = self.play('busy'), self.carts['busy']
        page.press(0, 4_000)
        self.assertEqual(self.rewind(10_000), 4_001)
        there, before, behind = (self.program.after(cart, [(0, 3_996 - 6 * states)])[0]['state'] for states in (596, 597, 595))
        self.assertEqual(page.state(), there)
        self.assertNotIn(there, (before, behind))
        with self.assertRaisesRegex(AssertionError, 'no older state'):
            self.rewind(1)
        self.assertEqual(page.press(0, 3), 4_004)
        self.assertEqual(self.rewind(1), 4_005)
        self.assertEqual(page.state(), there)

    def plays(self, frames):
        count = self.page.count()
        self.page.until(lambda: self.page.count() > count + frames, 'it never runs')

    def rewinds(self):
        self.page.until(lambda: re.search(r'^back [0-9.]+ s', self.page.js("return document.getElementById('saved').innerText.trim()")), 'it never rewinds')

    def rewound_by(self):
        line = self.page.until_text('Rewound by')
        return float(re.search(r'by ([0-9.]+) seconds', line)[1])

    def test_rewind_by_hand(self):
        """R, the button and the trigger rewind while they are held; the count and what is saved only grow."""
        page = self.play('demo', '')
        self.browser.find_element(By.ID, 'screen').click()
        begun = page.count()
        self.plays(240)
        ActionChains(self.browser.driver).key_down('r').perform()
        self.rewinds()
        count = saved = 0
        until = time.monotonic() + 2.5
        while time.monotonic() < until:
            status = page.status()
            self.assertGreaterEqual(int(status['count']), count)
            self.assertGreaterEqual(int(status['saved']), saved)
            count, saved = int(status['count']), int(status['saved'])
        ActionChains(self.browser.driver).key_up('r').perform()
        self.assertGreater(self.rewound_by(), 1)
        self.assertGreater(saved, begun + 240)
        self.plays(180)
        button = self.browser.find_element(By.ID, 'rewind')
        ActionChains(self.browser.driver).click_and_hold(button).pause(0.7).release().perform()
        self.assertGreater(self.rewound_by(), 0.2)
        self.assertEqual(page.js('return document.activeElement.id'), 'screen')
        self.plays(180)
        page.js("""
            window.held = new Set([6]);
            navigator.getGamepads = () => [{ mapping: 'standard', axes: [0, 0, 0, 0], buttons: [...Array(17).keys()].map((one) => ({ pressed: held.has(one) })) }];""")
        self.rewinds()
        time.sleep(0.5)
        page.js('held.clear()')
        self.assertGreater(self.rewound_by(), 0.2)
        self.plays(60)
        page.click('#pause')
        page.until_state('paused')
        self.saved_as_shown('demo')
        # in a pause: by the key, and a second by the button
        page.js("document.getElementById('screen').focus()")
        count = page.count()
        self.hold('r', 0.5)
        self.rewound_by()
        self.assertGreater(page.count(), count)
        self.assertEqual(page.state_of(), 'paused')
        page = self.play('passes')
        page.press(0, 90)
        page.js("document.getElementById('rewind').focus()")
        ActionChains(self.browser.driver).send_keys(Keys.ENTER).perform()
        self.assertEqual(self.rewound_by(), 1.0)
        self.assertEqual((page.count(), page.js('return document.activeElement.id')), (91, 'rewind'))
        self.assertEqual(page.state(), self.program.after(self.carts['passes'], [(0, 30)])[0]['state'])

    def test_rewound_clock(self):
        """The seconds since the state are given again."""
        began = time.time()
        page, opened = self.play('clock', ''), time.time()
        page.until(lambda: page.saved() > 540, 'nothing was ever saved', 60)
        page.click('#pause')
        page.until_state('paused')
        self.rewind(70)
        page.save()
        image, ended = page.export(), time.time()
        save = self.room / 'clock.gbkeep'
        save.write_bytes(image)
        seconds = clock_of(self.program, self.carts['clock'], save)
        self.assertTrue(ended - opened - 3 <= seconds <= ended - began + 1, (seconds, ended - opened, ended - began))

    def test_clock_lines(self):
        """Of a game that is rewound, wherever it is killed, what stands beside it says until when the clock of its SAVE was given."""
        chance = random.Random(SEED)
        traces = [[(chance.choice(['wait', 'frames', 'state', 'back', 'save']), chance.randrange(60)) for _ in range(50)] for _ in range(300)]
        found = self.listed().wait_for(CLOCK_LINES, traces)
        self.assertGreater(len(found), 3_000)
        for text, count, until in found:
            lines = [tuple(map(int, line.split())) for line in text.split('\n')]
            self.assertEqual(max(seconds for least, seconds in lines if least <= count), until, (text, count))


CLOCK_LINES = '''
const { Clock } = await import('./clock.js');
const { Library, MODULE } = await import('./library.js');
const library = await Library.load(MODULE);
// what stands beside a game, how many inputs its SAVE has, and until when the clock of that SAVE was given
const found = [];
for (const trace of given[0]) {
  let [text, ran, count] = ['', 500.25, 0n];
  let saved = null;
  const write = (other) => {
    text = other;
    if (saved !== null) { found.push([text, Number(saved.count), saved.until]); }
  };
  const clock = new Clock(library, { read: () => text, write }, count, () => 1000000.5, () => ran);
  await clock.begin(() => null);
  let until = clock.until;
  saved = { count, until };
  let states = [until];
  for (const [what, number] of trace) {
    if (what === 'wait') {
      ran += number / 16;
    } else if (what === 'frames') {
      count += BigInt(number);
    } else if (what === 'state') {
      states.push(until);
    } else if (what === 'back') {
      states = states.slice(0, 1 + number % states.length);
      until = states.at(-1);
      count += 1n;
      clock.goBack(until);
    } else {
      const passed = clock.claim(count);
      if (passed > 0) {
        until += passed;
        count += 1n;
        clock.given();
      }
      if (until !== Math.floor(1000000.5 + ran - 500.25)) { throw new Error(`the clock was given ${until}`); }
      if (count > saved.count) {
        saved = { count, until };
        found.push([text, Number(count), until]);
        clock.saved(count);
      }
    }
  }
}
return found;'''


class Killed(WithBrowser):
    def test_kills(self):
        """Killed at random moments during play, the page goes on with at least what it had shown as saved."""
        chance, told, kills = random.Random(SEED), 0, int(os.environ.get('KILLS', '20'))
        kind = type(self)
        for number in range(kills):
            page = Page(kind.browser)
            page.open(self.server.url('?cart=demo.gb' + ('&speed=max' if number % 2 else '')))
            self.assertEqual(page.state_of(), 'playing', page.status())
            self.assertGreaterEqual(page.saved(), told, f'kill {number}: what was shown as saved is gone')
            begun, until = page.saved(), time.monotonic() + chance.uniform(0.3, 3)
            while time.monotonic() < until:
                told = max(told, page.saved())
                if number % 4 == 2:
                    page.js('gbkeep.rewind(2).catch(() => {})')
            kind.browser.kill()
            self.assertGreaterEqual(told, begun)
            kind.browser = Browser(kind.room / 'profile', *kind.more)
        page = Page(kind.browser).open(self.server.url('?cart=demo.gb&paused=1'))
        self.assertGreaterEqual(page.saved(), told)
        save = self.room / 'killed.gbkeep'
        save.write_bytes(page.export())
        shown = self.program.shows(DEMO, save)
        self.assertEqual((int(shown['inputs']), shown['state']), (page.count(), page.state()))
        print(f'killed {kills} times, {told} inputs were told as saved', file=sys.stderr)


    def test_undone_writes(self):
        """Killed in the middle of its calls, and with some of the writes undone that no flush had followed: as a power cut of the computer may leave the
        file."""
        chance, told, site = random.Random(SEED + 1), 0, self.room / 'noting'
        shutil.copytree(self.site, site)
        (site / 'worker.js').write_text((site / 'worker.js').read_text() + NOTES)
        list_files(site)
        server, profile, undone, kept_some, kind = Server(site, kind=Noting), self.room / 'undone-0', 0, 0, type(self)
        notes = server.server
        kind.browser.close()
        kind.browser = Browser(profile)
        try:
            for number in range(int(os.environ.get('KILLS', '20'))):
                page = Page(kind.browser)
                notes.held.clear()
                notes.released.clear()
                if number % 2:
                    # in the calls of a new checkpoint, as the game is taken up
                    notes.calls_left = chance.randint(1, 110)
                    kind.browser.get(server.url('?cart=demo.gb&speed=max'))
                else:
                    page.open(server.url('?cart=demo.gb&speed=max'))
                    self.assertEqual(page.state_of(), 'playing', page.status())
                    self.assertGreaterEqual(page.saved(), told, f'kill {number}: what was shown as saved is gone')
                    # in a save of frames, or in one behind a power switch, which writes a whole state
                    notes.calls_left = chance.randint(1, 90 if number % 4 else 6)
                    if number % 4:
                        page.js('gbkeep.power().catch(() => {})')
                self.assertTrue(notes.held.wait(20), 'the page makes no calls')
                told = max(told, page.saved())
                kind.browser.kill()
                with notes.guard:
                    writes = list(notes.unflushed)
                    notes.unflushed.clear()
                    notes.calls_left = -1
                notes.released.set()
                other = self.room / f'undone-{number + 1}'
                shutil.copytree(profile, other, symlinks=True, ignore=shutil.ignore_patterns('Singleton*'))
                kept = [write for write in writes if number % 4 > 1 and chance.random() < 0.5]
                with image_in(other).open('r+b') as file:
                    for place, old, _ in reversed(writes):
                        file.seek(place)
                        file.write(old)
                    for place, _, new in kept:
                        file.seek(place)
                        file.write(new)
                undone += len(writes) - len(kept)
                kept_some += len(kept)
                profile = other
                kind.browser = Browser(profile)
            page = Page(kind.browser).open(server.url('?cart=demo.gb&paused=1'))
            self.assertGreaterEqual(page.saved(), told)
            save = self.room / 'undone.gbkeep'
            save.write_bytes(page.export())
            shown = self.program.shows(DEMO, save)
            self.assertEqual((int(shown['inputs']), shown['state']), (page.count(), page.state()))
            self.assertGreater(undone, 20)
            print(f'{undone} writes were undone, {kept_some} others kept, {told} inputs were told as saved', file=sys.stderr)
        finally:
            notes.released.set()
            server.close()


def image_in(profile):
    """The file of a profile that is the image of a game."""
    found = []
    for path in Path(profile).rglob('File System/**/*'):
        if path.is_file():
            with path.open('rb') as file:
                head = file.read(2 * SECTOR)
            if b'GBKPROOT' in (head[:8], head[SECTOR:SECTOR + 8]):
                found.append(path)
    if len(found) != 1:
        raise AssertionError(f'{len(found)} files of the profile are images')
    return found[0]


class Traced(WithBrowser):
    def test_calls_of_the_system(self):
        """Each call of a save is a call of the system on one file of the profile: a write of 512 bytes, then an fdatasync."""
        if not shutil.which('strace'):
            self.skipTest('there is no strace')
        page, saves = self.play('demo'), 10
        page.press(0, 50)
        page.save()
        out, main = self.room / 'trace', self.browser.main_processes()
        processes = [word for one in main + descendants(main) for word in ('-p', str(one))]
        tracer = subprocess.Popen(['strace', '-ff', '-y', '-e', 'trace=write,pwrite64,pwritev,fsync,fdatasync', '-o', out, *processes], stderr=subprocess.DEVNULL)
        try:
            time.sleep(2)
            for number in range(saves):
                page.press(1 << (number % 8), 7)
                page.save()
            time.sleep(1)
        finally:
            tracer.terminate()
            tracer.wait()
        image = image_in(self.room / 'profile')
        # a file for each thread: one of them makes the calls of the image
        calls = [line for path in self.room.glob('trace.*') for line in path.read_text(errors='replace').splitlines() if f'<{image}>' in line]
        found = [(call.split('(')[0], re.search(r'(?:, 512, (\d+))?\)\s+= (\d+)$', call)) for call in calls]
        self.assertEqual([name for name, _ in found], ['pwrite64', 'fdatasync'] * saves)
        for name, end in found:
            self.assertEqual(end[2], '512' if name == 'pwrite64' else '0')
            self.assertEqual(int(end[1] or 0) % SECTOR, 0)


class Room(WithBrowser):
    def quota(self, size):
        self.browser.execute_cdp_cmd('Storage.overrideQuotaForOrigin', {'origin': f'http://localhost:{self.server.port}', **({'quotaSize': size} if size else {})})

    def leave_room(self, size):
        """Leaves the page this room beyond what it has."""
        self.quota(self.page.wait_for('return (await navigator.storage.estimate()).usage') + size)

    def test_small_quota(self):
        """Where there is no room, nothing is begun, and a game goes on."""
        page = self.play('demo')
        page.press(0, 50)
        page.save()
        page.wait_for('await navigator.serviceWorker.ready; return 1')
        time.sleep(1)
        self.leave_room(20_000)
        try:
            page.press(1, 200)
            self.assertEqual(page.save(), 250)
            page.states(1, 'keep')
            page.until_text('there is no room')
            self.assertEqual(page.state_of(), 'paused')
            self.assertEqual(page.press(0, 5), 255)
            self.assertEqual(page.save(), 255)
            # not even its folder; its cartridge; its image; most of it
            for room in (2_000, 15_000, 40_000, 80_000, 120_000):
                # what is open has room beside that of its bytes
                self.listed()
                time.sleep(1)
                self.leave_room(room)
                self.page.open(self.server.url('?cart=passes.gb'))
                page.until_text('there is no room')
                self.assertEqual(page.state_of(), 'refused')
                rows = self.listed().rows()
                self.assertEqual(len(rows), 1, (room, rows))
            page = self.play('demo')
            self.assertEqual(page.count(), 255)
        finally:
            self.quota(None)
        page = self.play('passes')
        page.press(0, 3)
        self.assertEqual(page.save(), 3)

    def test_full_disk(self):
        """A disk that fills up while a game is played: the game goes on and saves, what is new is refused in words and leaves nothing, and once there is room
        again all is there."""
        profile = self.room / 'full'
        # the files of pages alone lie on it: a browser without room for its own files ends
        disk = profile / 'Default/File System'
        disk.mkdir(parents=True)
        if run('mount', '-t', 'tmpfs', '-o', 'size=4m', 'none', disk).returncode != 0:
            self.skipTest('no disk can be mounted here')
        other, filler = None, disk / 'filler'
        try:
            other = Browser(profile)
            page = Page(other).open(self.server.url('?cart=demo.gb&paused=1'))
            page.press(1, 100)
            page.keep(1)
            kept = page.state()
            with contextlib.suppress(OSError), filler.open('wb', buffering=0) as file:
                while True:
                    file.write(bytes(4096))
            # the image has all its room
            for count in range(200, 1200, 100):
                page.press(2, 100)
                self.assertEqual(page.save(), count)
            state = page.state()
            # nothing can be made; the file can, and not all of its bytes
            for left in (0, 1 << 16):
                os.truncate(filler, filler.stat().st_size - left)
                for slot, act in ((2, 'keep'), (1, 'load')):
                    number = page.status()['number']
                    page.states(slot, act)
                    page.until(lambda: page.status()['number'] != number, 'nothing is said')
                    self.assertIn('There is no room', page.text())
            self.assertEqual((page.state_of(), page.save(), page.state()), ('paused', 1100, state))
            page = Page(other).open(self.server.url('?cart=passes.gb'))
            page.until_text('there is no room')
            self.assertEqual(page.state_of(), 'refused')
            self.assertEqual(len(page.open(self.server.url()).rows()), 1)
            page = Page(other).open(self.server.url('?cart=demo.gb&paused=1'))
            self.assertEqual((page.count(), page.state()), (1100, state))
            filler.unlink()
            page.press(4, 100)
            self.assertEqual(page.save(), 1200)
            state = page.state()
            page.keep(2)
            page.load(1)
            self.assertEqual(page.state(), kept)
            page.load(2)
            self.assertEqual(page.state(), state)
            other.kill()
            other = Browser(profile)
            page = Page(other).open(self.server.url('?cart=demo.gb&paused=1'))
            self.assertEqual((page.count(), page.state()), (1200, state))
        finally:
            if other:
                other.close()
            time.sleep(0.5)
            run('umount', '-l', disk)


class Around(WithBrowser):
    def test_drop(self):
        """A cartridge that is dropped is played."""
        page = self.listed()
        page.js("""
            const given = new DataTransfer();
            given.items.add(new File([new Uint8Array(arguments[0])], 'dropped.gb'));
            document.dispatchEvent(new DragEvent('drop', { dataTransfer: given, bubbles: true, cancelable: true }));""", list(self.carts['passes'].read_bytes()))
        page.until_state('playing')
        page.close()
        page.until(lambda: 'dropped.gb' in ''.join(page.rows()), 'the game is not listed')

    def test_gamepad(self):
        """Start of a gamepad begins a round of the demo."""
        page = self.play('demo')
        page.press(0, ROUND)
        self.assertTrue(asks_for_start(page.picture()))
        page.js("""
            window.held = new Set();
            navigator.getGamepads = () => [null, { mapping: 'standard', axes: [0, 0, 0, 0], buttons: [...Array(17).keys()].map((one) => ({ pressed: held.has(one) })) }];""")
        page.click('#pause')
        page.until_state('playing')
        time.sleep(0.3)
        self.assertTrue(asks_for_start(page.picture()))
        page.js('held.add(9)')
        page.until(lambda: not asks_for_start(page.picture()), 'Start does nothing')
        page.js('held.clear()')
        field = page.picture()[:160 * 136]
        page.js('held.add(15)')
        page.until(lambda: page.picture()[:160 * 136] != field, 'the pad does nothing')

    def test_palettes(self):
        """The palettes are the window's, and a pixel is a whole number of the screen's."""
        page = self.play('scrolling')
        page.press(0, 100)
        shades, there = page.picture(), """
            const canvas = document.getElementById('screen');
            const data = canvas.getContext('2d').getImageData(0, 0, 160, 144).data;
            return [[...data].filter((_, k) => k % 4 < 3), parseFloat(canvas.style.width) * devicePixelRatio / 160];"""
        chosen = "return Number(document.querySelector('[name=palette]:checked').value)"
        number = page.js(chosen)
        for _ in range(len(PALETTES)):
            self.browser.find_element(By.ID, 'screen').send_keys(Keys.F2)
            number = (number + 1) % len(PALETTES)
            self.assertEqual(page.js(chosen), number)
            colours, scale = page.js(there)
            self.assertEqual(bytes(colours), bytes(one for shade in shades for one in PALETTES[number][shade]))
            self.assertEqual(scale % 1, 0)
            self.assertGreaterEqual(scale, 2)

    def test_offline(self):
        """Once opened, the page plays without a network."""
        page = self.listed()
        page.wait_for('await navigator.serviceWorker.ready; return 1')
        page.open(self.server.url())
        page.until(lambda: page.js('return navigator.serviceWorker.controller !== null'), 'the page is never kept for later')
        port = self.server.port
        self.server.close()
        try:
            page.open(self.server.url())
            page.demo()
            page.until_state('playing')
            page.until(lambda: page.saved() > 60, 'nothing was ever saved')
            page.open(self.server.url('?cart=elsewhere.gb'))
            page.until_text("the cartridge can't be fetched")
        finally:
            type(self).server = Server(self.site, port)

    def test_old_browser(self):
        """A browser without SIMD is told so in a sentence, with what to do."""
        other = self.room / 'other'
        shutil.copytree(self.site, other)
        text = (other / 'library.js').read_text()
        self.assertEqual(text.count('0xfd, 98, 0x0b'), 1)
        (other / 'library.js').write_text(text.replace('0xfd, 98, 0x0b', '0xfd, 255, 0x0b'))
        list_files(other)
        server = Server(other)
        try:
            self.page.open(server.url())
            self.page.until_text('this browser is too old')
            self.assertIn('take Chromium', self.page.text())
            self.assertEqual(self.page.state_of(), 'refused')
        finally:
            server.close()

    def test_not_secure(self):
        """From another computer by plain http, a browser keeps no files, and the page says so."""
        other = Browser(self.room / 'not-secure', '--host-resolver-rules=MAP games.test 127.0.0.1')
        try:
            page = Page(other)
            for words in ('', '?cart=demo.gb'):
                page.open(self.server.url(words).replace('localhost', 'games.test'))
                page.until_text('this address is not secure')
                self.assertEqual(page.state_of(), 'refused')
        finally:
            other.close()

    def test_only_itself(self):
        """The page takes nothing from elsewhere, and evaluates no text."""
        page = self.listed()
        self.assertIsNone(page.js("const s = document.createElement('script'); s.textContent = 'window.evil = 1'; document.body.append(s); return window.evil ?? null"))
        self.assertIn('failed', page.wait_for("return fetch('http://127.0.0.1:9/').then(() => 'fetched', () => 'failed')"))
        self.assertIn("default-src 'none'", page.js("return document.querySelector('meta[http-equiv]').content"))

    def test_header(self):
        """The page plays with the header that its README has, which covers the worker, too."""
        policy = re.search('Content-Security-Policy: (.*)', (DIST / 'README').read_text())[1]

        class Strict(Quiet):
            def end_headers(self):
                self.send_header('Content-Security-Policy', policy)
                super().end_headers()
        server = Server(self.site, kind=Strict)
        try:
            page = self.page.open(server.url('?cart=demo.gb'))
            page.until(lambda: page.saved() > 60, 'nothing was ever saved')
        finally:
            server.close()

    def test_nothing_is_logged(self):
        page = self.play('demo', '')
        page.until(lambda: page.saved() > 0, 'nothing was ever saved')
        wrong = [entry['message'] for entry in self.browser.get_log('browser') if entry['level'] == 'SEVERE' and 'favicon' not in entry['message']
                 and '404' not in entry['message'] and '127.0.0.1:9' not in entry['message'] and 'Content Security Policy' not in entry['message'] and 'ERR_CONNECTION' not in entry['message']]
        self.assertEqual(wrong, [])


# the module by itself: each frame with its picture
ALONE = '''
const { Library, Session, sectorsNeeded } = await import('./library.js');
const library = await Library.load('gbkeep.wasm.gz');
const rom = new Uint8Array(await (await fetch(given[0])).arrayBuffer());
const session = Session.begin(library, rom, sectorsNeeded(library, rom));
session.frames(0, 1200);
const times = [];
for (let k = 0; k < 600; k += 1) {
  const begun = performance.now();
  session.frames(0, 1);
  session.picture();
  times.push(performance.now() - begun);
}
session.free();
times.sort((a, b) => a - b);
return [times[300], times.at(-1)];'''


class Measured(WithBrowser):
    def processor(self):
        """The seconds of a processor that this browser has taken."""
        main, ticks = self.browser.main_processes(), 0
        for one in main + descendants(main):
            with contextlib.suppress(OSError):
                ticks += sum(map(int, Path(f'/proc/{one}/stat').read_text().rsplit(')', 1)[1].split()[11:13]))
        return ticks / os.sysconf('SC_CLK_TCK')

    def shown(self):
        """What a game takes that is shown at 4 times its size."""
        self.browser.execute_cdp_cmd('Emulation.setDeviceMetricsOverride', {'width': 760, 'height': 640, 'deviceScaleFactor': 1, 'mobile': False})
        page = self.play('demo', '')
        time.sleep(3)
        shares = []
        for _ in range(3):
            taken, count, begun = self.processor(), page.count(), time.monotonic()
            time.sleep(8)
            took = time.monotonic() - begun
            shares.append(100 * (self.processor() - taken) / took)
            rate = (page.count() - count) / took
        width = page.js("return document.getElementById('screen').getBoundingClientRect().width")
        print(f'shown at {width / 160:.0f} times, {rate:.1f} frames a second: {min(shares):.0f} to {max(shares):.0f} % of a processor')
        self.browser.execute_cdp_cmd('Emulation.clearDeviceMetricsOverride', {})

    def runTest(self):
        ready = [int(self.listed().js('return document.documentElement.dataset.ready')) for _ in range(5)]
        print(f'ready after {min(ready)} ms at best, {statistics.median(ready):.0f} as the median of {len(ready)}')
        self.shown()
        for name in ('busy', 'scrolling', 'halting', 'demo'):
            page = self.play(name)
            page.press(0, 600)
            rates, saves = [], []
            for _ in range(5):
                took = page.wait_for('const t = performance.now(); await gbkeep.press(0, 1200); return performance.now() - t')
                rates.append(1_200_000 / took)
                page.save()
            for _ in range(30):
                page.press(1, 60)
                saves.append(page.wait_for('const t = performance.now(); await gbkeep.save(); return performance.now() - t'))
            both = page.wait_for(ALONE, f'{name}.gb')
            print(f'{name}: frames a second {max(rates):.0f} at best, {min(rates):.0f} at least of 5; a frame and its picture {both[0]:.3f} ms as the median of 600, '
                  f'{both[1]:.3f} at most; a save of 60 frames {statistics.median(saves):.2f} ms as the median of 30, {max(saves):.2f} at most')
            page = self.play(name, '&speed=max')
            time.sleep(1)
            text = "return [performance.now(), Number(document.getElementById('status').dataset.count)]"
            before = page.js(text)
            time.sleep(4)
            after = page.js(text)
            print(f'{name}: {1000 * (after[1] - before[1]) / (after[0] - before[0]):.0f} frames a second shown and saved, at speed=max')
        print(f'web/page: {sum(path.stat().st_size for path in DIST.iterdir()):,} bytes')


class Shots(WithBrowser):
    def tour(self, steps):
        page = self.play('demo')
        for words in [line.split() for line in (TOP / 'examples/demo/tour.txt').read_text().splitlines()][:steps]:
            if words[0] == 'frames':
                page.press(int(words[1], 16), int(words[2]))
        page.save()

    def runTest(self):
        self.browser.execute_cdp_cmd('Emulation.setEmulatedMedia', {'features': [{'name': 'prefers-color-scheme', 'value': 'light'}]})
        self.browser.execute_cdp_cmd('Emulation.setDeviceMetricsOverride', {'width': 800, 'height': 640, 'deviceScaleFactor': 1, 'mobile': False})
        self.tour(25)
        for name, frames in (('wave', 13_000), ('scrolling', 9_000)):
            self.play(name).press(0, frames)
            self.page.save()
        page = self.play('demo', '')
        page.until(lambda: page.count() > page.saved() > 500, 'nothing was ever saved')
        page.shot(TOP / 'docs/browser.png')
        page.close()
        self.browser.execute_cdp_cmd('Emulation.setDeviceMetricsOverride', {'width': 800, 'height': 500, 'deviceScaleFactor': 1, 'mobile': False})
        page.until(lambda: page.text() == '' and page.js("return document.querySelectorAll('.toast').length") == 0, 'a line stays')
        page.shot(TOP / 'docs/browser_home.png')
        self.browser.execute_cdp_cmd('Emulation.setDeviceMetricsOverride', {'width': 390, 'height': 760, 'deviceScaleFactor': 1.5, 'mobile': True})
        self.browser.execute_cdp_cmd('Emulation.setTouchEmulationEnabled', {'enabled': True})
        page = self.play('demo', '')
        page.until(lambda: page.count() > page.saved() > 0, 'nothing was ever saved')
        page.shot(TOP / 'docs/browser_phone.png')


def main(usage, kinds, others=None):
    """Runs the tests of these classes, or those that are named; `others` are cases that run only where they are named, alone."""
    global GBKEEP
    script = Path(sys.argv[0]).name
    if len(sys.argv) < 2:
        sys.exit(usage)
    GBKEEP = str(Path(sys.argv[1]).resolve())
    if not (DIST / 'gbkeep.wasm.gz').exists():
        sys.exit(f'{script}: {DIST} has no gbkeep.wasm.gz: make web leaves one in web/page')
    wanted, suite, loader = sys.argv[2:], unittest.TestSuite(), unittest.TestLoader()
    if len(wanted) == 1 and wanted[0] in (others or {}):
        suite.addTest(others[wanted[0]]())
    else:
        for kind in kinds:
            names = [name for name in loader.getTestCaseNames(kind) if not wanted or name.removeprefix('test_') in wanted]
            suite.addTests(map(kind, names))
    if suite.countTestCases() == 0:
        sys.exit(f'{script}: there is no test of the name {" ".join(wanted)}')
    return 0 if unittest.TextTestRunner(verbosity=2).run(suite).wasSuccessful() else 1


if __name__ == '__main__':
    sys.exit(main(__doc__, (Playing, Files, Clocks, Rewound, Traced, Room, Around, Killed), {'measure': Measured, 'shots': Shots}))
