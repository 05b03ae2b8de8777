"""Plays by the page, or by its module, where the engine is another one than Chromium's: in Node, Debian's Firefox, and WebKitGTK, the engine of Safari.

usage: test_engines.py GBKEEP [NAME ..]     NAME: of a test, as firefox; all are run where none is given

Of Debian's packages nodejs, firefox-esr, and webkit2gtk-driver with xvfb it takes those that are there, and says which are not. Firefox has no driver in
Debian: the page itself reports to the server of this test. PAGE names another folder than web/page."""
import base64
import contextlib
import functools
import http.server
import json
import os
import random
import shutil
import signal
import socket
import subprocess
import sys
import tempfile
import threading
import time
import unittest
import urllib.error
import urllib.request
from pathlib import Path

from examples.speed import build as speed_roms
from gbkeep.pictures import shades_of
from scripts.doctor import tries
from scripts.page import list_files

HERE = Path(__file__).resolve().parent
TOP = HERE.parent
SITE = Path(os.environ.get('PAGE', HERE / 'page'))
DEMO = TOP / 'examples/demo/demo.gb'
GBKEEP = 'bin/gbkeep'
SEED = int(os.environ.get('SEED', '1'))
SHOTS = Path(os.environ.get('SHOTS', TOP / 'bin/screenshots'))
MINI_BROWSERS = sorted(Path('/usr/lib').glob('*/webkit2gtk-4.*/MiniBrowser'))
# a game by window.gbkeep: buttons and frames
INPUTS = [(1 << (number % 8), 60) for number in range(10)]


class Reporting(http.server.SimpleHTTPRequestHandler):
    """Serves a page that reports: what it posts, as JSON."""

    def log_message(self, *_):
        pass

    def end_headers(self):
        self.send_header('Cache-Control', 'no-store')
        super().end_headers()

    def do_POST(self):
        self.server.reports.append(json.loads(self.rfile.read(int(self.headers['Content-Length']))))
        self.send_response(204)
        self.end_headers()


class Server:
    """Serves a folder on this computer, and keeps what its pages report."""

    def __init__(self, folder):
        self.server = http.server.ThreadingHTTPServer(('127.0.0.1', 0), functools.partial(Reporting, directory=str(folder)))
        self.server.daemon_threads = True
        self.reports = self.server.reports = []
        threading.Thread(target=self.server.serve_forever, daemon=True).start()

    def url(self, words=''):
        return f'http://localhost:{self.server.server_port}/{words}'

    def wait_for(self, wanted, seconds=240):
        """The first report of which `wanted` is true."""
        until = time.monotonic() + seconds
        while time.monotonic() < until:
            for report in list(self.reports):
                if 'failed' in report:
                    raise AssertionError(report['failed'])
                if wanted(report):
                    return report
            time.sleep(0.05)
        raise AssertionError(f'nothing of this was reported: {self.reports[-3:]}')

    def close(self):
        self.server.shutdown()
        self.server.server_close()


class Program:
    """What the program shows after the same inputs."""

    def __init__(self, folder):
        self.folder = Path(folder)

    def do(self, *words):
        done = subprocess.run([GBKEEP, *map(str, words)], capture_output=True, text=True)
        if done.returncode != 0:
            raise AssertionError(f'{words}: {done.stderr}')
        return done.stdout

    def played(self, cart, inputs):
        """The SAVE of a new game after these inputs."""
        save, script = self.folder / 'program.gbkeep', self.folder / 'script'
        save.unlink(missing_ok=True)
        self.do('new', cart, save)
        script.write_text(''.join(f'frames {buttons:02x} {frames}\n' for buttons, frames in inputs))
        self.do('play', cart, save, script)
        return save

    def shown(self, cart, save):
        return dict(line.split(' ', 1) for line in self.do('show', cart, save).splitlines())

    def picture(self, cart, save):
        out = self.folder / 'picture.pgm'
        out.unlink(missing_ok=True)
        self.do('frame', cart, save, out)
        return shades_of(out.read_bytes())

    def state(self, cart, inputs):
        return self.shown(cart, self.played(cart, inputs))['state']


class WithRoom(unittest.TestCase):
    def setUp(self):
        self.room = Path(tempfile.mkdtemp(prefix='web-'))
        self.addCleanup(shutil.rmtree, self.room, ignore_errors=True)
        self.program = Program(self.room)
        self.chance = random.Random(SEED)

    def carts(self):
        made = speed_roms.write(self.room)
        roms = {path.stem: path for path in sorted((TOP / 'examples/test_roms').glob('*.gb'))}
        return {'demo': DEMO, **roms, **{name: made[name] for name in ('busy', 'scrolling', 'halting', 'banks', 'timer', 'compiled', 'game')}}

    def site(self, script, **files):
        """A copy of the page that runs a script of its own, too."""
        site = self.room / 'site'
        shutil.copytree(SITE, site)
        page = (site / 'index.html').read_text(encoding='utf-8')
        self.assertEqual(page.count('</head>'), 1)
        (site / 'index.html').write_text(page.replace('</head>', '<script type="module" src="reports.js"></script>\n</head>'), encoding='utf-8')
        (site / 'reports.js').write_text(script, encoding='utf-8')
        for name, path in files.items():
            shutil.copyfile(path, site / f'{name}.gb')
        list_files(site)
        server = Server(site)
        self.addCleanup(server.close)
        return server

    def start(self, words, **how):
        """Starts a program in a session of its own, which ends with this test."""
        process = subprocess.Popen([str(word) for word in words], start_new_session=True, stdin=subprocess.DEVNULL, stdout=subprocess.DEVNULL, stderr=subprocess.DEVNULL, **how)
        self.addCleanup(self.kill, process)
        return process

    def kill(self, process):
        with contextlib.suppress(ProcessLookupError):
            os.killpg(process.pid, signal.SIGKILL)
        process.wait()


class Node(WithRoom):
    def test_node(self):
        """The module alone, by no flag: on each ROM its state, its picture and its SAVE are those of the program."""
        if not tries('the module of the page, in Node', 'node'):
            self.skipTest('there is no node')
        for name, cart in self.carts().items():
            inputs = [(self.chance.choice([0, 1, 2, 4, 8, 16, 32, 64, 128]), self.chance.randint(1, 40)) for _ in range(10)]
            save, picture = self.room / 'node.gbkeep', self.room / 'node.picture'
            ran = subprocess.run(['node', HERE / 'play.mjs', SITE / 'gbkeep.wasm.gz', cart, save, picture, *(f'{buttons:02x}:{frames}' for buttons, frames in inputs)],
                                 capture_output=True, text=True)
            with self.subTest(cart=name):
                self.assertEqual(ran.returncode, 0, ran.stderr)
                said = json.loads(ran.stdout)
                played = self.program.played(cart, inputs)
                self.assertEqual(said['state'], self.program.shown(cart, played)['state'])
                self.assertEqual(picture.read_bytes(), bytes(self.program.picture(cart, played)))
                # the program takes up the SAVE where the module has left it
                shown = self.program.shown(cart, save)
                self.assertEqual((shown['state'], int(shown['inputs'])), (said['state'], said['count']))


# ---- Firefox

# what the page reports: how far it was when it was ready, what it plays by calls, and then, as it plays on, what it shows as saved
REPORTS = '''
const report = (what) => fetch('/report', { method: 'POST', body: JSON.stringify(what) });
const status = () => document.getElementById('status').dataset;
const number = (name) => Number(status()[name] ?? 0);
(async () => {
  while (!window.gbkeep || !['playing', 'paused', 'refused'].includes(status().state)) { await new Promise((done) => { setTimeout(done, 50); }); }
  await report({ life: Number(new URLSearchParams(location.search).get('life')), begun: number('count'), state: await window.gbkeep.state() });
  if (location.search.includes('paused')) {
    for (const [buttons, frames] of INPUTS) { await window.gbkeep.press(buttons, frames); }
    await report({ played: await window.gbkeep.save(), state: await window.gbkeep.state() });
  } else {
    setInterval(() => report({ saved: number('saved') }), 100);
  }
})().catch((error) => report({ failed: String(error) }));
'''


class Firefox(WithRoom):
    def open(self, server, words):
        return self.start(['firefox-esr', '--headless', '--no-remote', '--profile', self.room, server.url(f'index.html?{words}')],
                          env={**os.environ, 'HOME': str(self.room), 'MOZ_DISABLE_CONTENT_SANDBOX': '1'})

    def test_firefox(self):
        """It plays as the program does; killed by SIGKILL at any moment of play, it goes on with what was shown as saved."""
        if not tries('the page in Firefox', 'firefox-esr'):
            self.skipTest('there is no firefox-esr')
        server = self.site(REPORTS.replace('INPUTS', json.dumps(INPUTS)))
        process = self.open(server, 'cart=demo.gb&paused=1&life=1')
        played = server.wait_for(lambda report: 'played' in report)
        self.assertEqual(played, {'played': 600, 'state': self.program.state(DEMO, INPUTS)})
        saved = played['played']
        self.kill(process)
        for life in range(2, 5):
            process = self.open(server, f'cart=demo.gb&life={life}')
            begun = server.wait_for(lambda report: report.get('life') == life)
            self.assertGreaterEqual(begun['begun'], saved)
            # no button was pressed since
            server.wait_for(lambda report: report.get('saved', 0) > begun['begun'])
            time.sleep(self.chance.uniform(0, 3))
            self.kill(process)
            saved = max(report.get('saved', 0) for report in server.reports)
        self.open(server, 'cart=demo.gb&paused=1&life=5')
        begun = server.wait_for(lambda report: report.get('life') == 5)
        self.assertGreaterEqual(begun['begun'], saved)
        self.assertEqual(begun['state'], self.program.state(DEMO, [*INPUTS, (0, begun['begun'] - 600)]))


# ---- WebKit

IN_A_WORKER = '''
import { Library, Session, sectorsNeeded } from './library.js';

onmessage = async ({ data: { name, inputs } }) => {
  try {
    const library = await Library.load('gbkeep.wasm.gz');
    const rom = new Uint8Array(await (await fetch(name)).arrayBuffer());
    const session = Session.begin(library, rom, sectorsNeeded(library, rom));
    const image = {};
    for (const [buttons, frames] of inputs) {
      session.frames(buttons, frames);
      session.save();
      for (let call = session.nextCall(); call !== null; call = session.nextCall()) {
        if (call.bytes !== null) { image[call.sector] = call.bytes[0]; }
      }
    }
    const digest = new Uint8Array(await crypto.subtle.digest('SHA-256', session.snapshot()));
    postMessage({ state: [...digest].map((byte) => byte.toString(16).padStart(2, '0')).join(''), count: Number(session.count()) });
  } catch (error) {
    postMessage({ failed: String(error) });
  }
};
'''


# the page in a view of a size: a window of WebKitGTK can't be as narrow as a phone
FRAME = '''<!doctype html><title>frame</title><style>body { margin: 0 } iframe { border: 0; display: block }</style><body><script>
const [width, height, isTouched] = location.search.slice(1).split('&').map(Number);
localStorage.setItem('gbkeep.touch', String(isTouched));
const frame = document.createElement('iframe');
Object.assign(frame, { width, height, src: 'index.html?cart=demo.gb&paused=1' });
document.body.append(frame);
</script>'''
FRAMES = {'1280x800': (1280, 800, False), '760x500': (760, 500, False), '390x844': (390, 844, True), '844x390': (844, 390, True)}
IN_THE_FRAME = '''
const view = document.querySelector('iframe').contentWindow;
const status = () => view.document.getElementById('status')?.dataset ?? {};
const until = performance.now() + 60000;
while (!view.gbkeep || !['playing', 'paused', 'refused'].includes(status().state)) {
  if (performance.now() > until) { throw new Error(`the page never plays: ${status().state}`); }
  await new Promise((next) => setTimeout(next, 50));
}
if (status().state === 'refused') { throw new Error(view.document.body.innerText.slice(0, 500)); }
for (const [buttons, frames] of given[0]) { await view.gbkeep.press(buttons, frames); }
const box = (id) => { const { x, y, width, height } = view.document.getElementById(id).getBoundingClientRect(); return width > 0 ? [x, y, width, height] : null; };
const state = await view.gbkeep.state();
view.document.getElementById('pause').click();
await new Promise((next) => setTimeout(next, 1000));
const said = view.document.getElementById('saved').textContent;
view.document.getElementById('pause').click();
await new Promise((next) => setTimeout(next, 500));
done({ state, saved: said, screen: box('screen'), pad: box('pad'),
  wide: view.document.documentElement.scrollWidth - view.innerWidth });'''
# plays, and notes what is held in each tick that the page asks for
HELD = '''
const view = document.querySelector('iframe').contentWindow;
window.held = [];
const { postMessage } = view.Worker.prototype;
view.Worker.prototype.postMessage = function (data, ...more) {
  if (data.ask === 'tick') { window.held.push(data.data.held); }
  return postMessage.call(this, data, ...more);
};
view.document.getElementById('pause').click();'''


class WebKitSession:
    """A session of WebKit's driver, by the calls of WebDriver that are needed here."""

    def __init__(self, port, binary):
        self.base = f'http://127.0.0.1:{port}'
        options = {'binary': str(binary), 'args': ['--automation']}
        answer = self.until(lambda: self.call('POST', '/session', {'capabilities': {'alwaysMatch': {'browserName': 'MiniBrowser', 'webkitgtk:browserOptions': options}}}))
        self.base += f'/session/{answer["sessionId"]}'

    def until(self, run, seconds=60):
        """What a call answers, once the driver listens."""
        end = time.monotonic() + seconds
        while True:
            try:
                return run()
            except (ConnectionError, urllib.error.URLError):
                if time.monotonic() > end:
                    raise
                time.sleep(0.2)

    def call(self, how, path, given=None):
        ask = urllib.request.Request(self.base + path, method=how, data=None if given is None else json.dumps(given).encode(), headers={'Content-Type': 'application/json'})
        try:
            with urllib.request.urlopen(ask, timeout=180) as answer:
                return json.loads(answer.read())['value']
        except urllib.error.HTTPError as error:
            raise AssertionError(f'{path}: {error.read().decode(errors="replace")[:500]}') from error

    def get(self, url):
        self.call('POST', '/url', {'url': url})

    def close(self):
        with contextlib.suppress(AssertionError, OSError):
            self.call('DELETE', '')

    def shot(self, path):
        path.parent.mkdir(parents=True, exist_ok=True)
        path.write_bytes(base64.b64decode(self.call('GET', '/screenshot')))

    def js(self, script, *given):
        return self.call('POST', '/execute/sync', {'script': script, 'args': list(given)})

    def later(self, script, *given):
        """What a script answers, which ends with `done(..)`."""
        return self.call('POST', '/execute/async', {'script': f'const done = arguments[arguments.length - 1]; const given = arguments; (async () => {{ {script} }})()'
                                                    '.catch((error) => done({ failed: String(error) }));', 'args': list(given)})


class WebKit(WithRoom):
    """WebKitGTK, in a screen of its own. Its port has no synchronous handles of files, so that the page keeps nothing and says so."""

    def setUp(self):
        super().setUp()
        if not tries('the page in WebKit', 'WebKitWebDriver', 'Xvfb') or not MINI_BROWSERS:
            self.skipTest('there is no WebKit')
        screen = subprocess.Popen(['Xvfb', '-displayfd', '1', '-screen', '0', '1600x1300x24', '-nolisten', 'tcp'], stdout=subprocess.PIPE, stderr=subprocess.DEVNULL,
                                  start_new_session=True)
        self.addCleanup(screen.stdout.close)
        self.addCleanup(self.kill, screen)
        display = screen.stdout.readline().decode().strip()
        with socket.socket() as free:
            free.bind(('127.0.0.1', 0))
            port = free.getsockname()[1]
        home = self.room / 'home'
        home.mkdir(mode=0o700)
        self.start(['WebKitWebDriver', f'--port={port}'], env={**os.environ, 'DISPLAY': f':{display}', 'HOME': str(home), 'XDG_RUNTIME_DIR': str(home),
                                                                'WEBKIT_DISABLE_SANDBOX_THIS_IS_DANGEROUS': '1', 'LIBGL_ALWAYS_SOFTWARE': '1', 'GDK_BACKEND': 'x11'})
        self.browser = WebKitSession(port, MINI_BROWSERS[-1])
        self.addCleanup(self.browser.close)
        self.browser.call('POST', '/window/rect', {'width': 1500, 'height': 1200})

    def test_webkit_worker(self):
        """The module in a worker: on each ROM its state is that of the program."""
        carts = self.carts()
        server = self.site('', **carts)
        (self.room / 'site/worker_alone.js').write_text(IN_A_WORKER)
        (self.room / 'site/alone.html').write_text('<!doctype html><title>alone</title>')
        self.browser.get(server.url('alone.html'))
        for name, cart in carts.items():
            inputs = [(self.chance.choice([0, 1, 2, 4, 8, 16, 32, 64, 128]), self.chance.randint(1, 40)) for _ in range(10)]
            said = self.browser.later('''
                const worker = new Worker('worker_alone.js', { type: 'module' });
                worker.onmessage = ({ data }) => { worker.terminate(); done(data); };
                worker.onerror = (event) => done({ failed: event.message });
                worker.postMessage({ name: given[0], inputs: given[1] });''', f'{name}.gb', inputs)
            with self.subTest(cart=name):
                self.assertEqual(said, {'state': self.program.state(cart, inputs), 'count': sum(frames for _, frames in inputs)})

    def test_webkit_page(self):
        """The page plays the demo as the program does, keeps nothing and says so; the picture fills the view, and a finger on the pad is given to the game."""
        server = self.site('')
        (self.room / 'site/frame.html').write_text(FRAME)
        for name, (width, height, is_touched) in FRAMES.items():
            with self.subTest(size=name):
                self.browser.get(server.url(f'frame.html?{width}&{height}&{int(is_touched)}'))
                said = self.browser.later(IN_THE_FRAME, INPUTS)
                self.assertNotIn('failed', said)
                self.browser.shot(SHOTS / f'webkit_{name}.png')
                self.assertEqual(said['state'], self.program.state(DEMO, INPUTS))
                self.assertIn('not kept', said['saved'])
                self.assertLessEqual(said['wide'], 0, 'the page is wider than the view')
                x, y, wide, high = said['screen']
                self.assertTrue(x > -1 and y > -1 and x + wide < width + 1 and y + high < height + 1, said['screen'])
                # of the largest picture that fits
                self.assertGreaterEqual(wide / min(width, height * 160 / 144), 0.85 if height > width else 0.6)
                self.assertEqual(said['pad'] is not None, is_touched)
                if is_touched:
                    self.touched(said['pad'])

    def test_webkit_home(self):
        """The home view: its demo is offered, and nothing is wider than the view."""
        server = self.site('')
        self.browser.get(server.url('index.html'))
        said = self.browser.later('''
            const until = performance.now() + 60000;
            while (!document.documentElement.dataset.ready && performance.now() < until) { await new Promise((next) => setTimeout(next, 50)); }
            const { width } = document.getElementById('demo').getBoundingClientRect();
            done({ ready: Boolean(document.documentElement.dataset.ready), wide: document.documentElement.scrollWidth - innerWidth, demo: width > 0,
              text: document.body.innerText });''')
        self.browser.shot(SHOTS / 'webkit_home.png')
        self.assertEqual((said['ready'], said['wide'], said['demo']), (True, 0, True), said)
        self.assertNotIn('too old', said['text'])

    def touched(self, pad):
        """A finger at the right of the pad, and then at its upper right corner: what is held, as the game is given it."""
        x, y, wide, high = pad
        self.browser.js(HELD)
        finger = {'type': 'pointer', 'id': 'finger', 'parameters': {'pointerType': 'touch'}}
        for place, wanted in (((0.85, 0.5), 1), ((0.85, 0.15), 1 | 4)):
            at = {'type': 'pointerMove', 'duration': 0, 'x': int(x + wide * place[0]), 'y': int(y + high * place[1])}
            self.browser.call('POST', '/actions', {'actions': [{**finger, 'actions': [at, {'type': 'pointerDown', 'button': 0}]}]})
            self.browser.later('const until = performance.now() + 10000;'
                               'while (!window.held.includes(given[0]) && performance.now() < until) { await new Promise((next) => setTimeout(next, 20)); }'
                               'done(null);', wanted)
            held = self.browser.js('return [...new Set(window.held)]')
            self.browser.call('DELETE', '/actions')
            self.assertIn(wanted, held)


def main():
    global GBKEEP
    if len(sys.argv) < 2:
        sys.exit(__doc__)
    GBKEEP = str(Path(sys.argv[1]).resolve())
    wanted, suite, loader = sys.argv[2:], unittest.TestSuite(), unittest.TestLoader()
    for kind in (Node, Firefox, WebKit):
        suite.addTests(kind(name) for name in loader.getTestCaseNames(kind) if not wanted or name.removeprefix('test_') in wanted)
    if suite.countTestCases() == 0:
        sys.exit(f'test_engines.py: there is no test of the name {" ".join(wanted)}')
    return 0 if unittest.TextTestRunner(verbosity=2).run(suite).wasSuccessful() else 1


if __name__ == '__main__':
    sys.exit(main())
