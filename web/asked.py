"""The worker of the page, asked by tests: a page of their own beside a copy of the page, which hands on what is asked and has no buttons."""
import shutil
import time

from scripts.page import list_files
from web.test_web import Page, WithBrowser

# what is asked is answered by {answer} or {refused}; bytes go as hexadecimal text, and counts as numbers, or as text where a number can't hold them
ASKS = '''<!doctype html>
<meta charset="utf-8">
<title>asks</title>
<script type="module">
const hex = (bytes) => Array.from(bytes, (byte) => byte.toString(16).padStart(2, '0')).join('');
const bytesOf = (text) => Uint8Array.from(text.match(/../g) ?? [], (pair) => parseInt(pair, 16));
const plain = (value) => {
  if (typeof value === 'bigint') { return value <= BigInt(Number.MAX_SAFE_INTEGER) ? Number(value) : String(value); }
  if (value instanceof Uint8Array) { return value.length === 23040 ? `picture ${value.reduce((sum, shade, at) => (sum * 31 + shade * (at + 1)) % 1000003, 7)}` : hex(value); }
  if (Array.isArray(value)) { return value.map(plain); }
  return value && typeof value === 'object' ? Object.fromEntries(Object.entries(value).map(([name, one]) => [name, plain(one)])) : value;
};
const given = (value) => {
  if (value instanceof Uint8Array) { return value; }
  if (value && typeof value === 'object' && typeof value.hex === 'string') { return bytesOf(value.hex); }
  if (Array.isArray(value)) { return value.map(given); }
  return value && typeof value === 'object' ? Object.fromEntries(Object.entries(value).map(([name, one]) => [name, given(one)])) : value;
};
const worker = new Worker('worker.js', { type: 'module' });
const waiting = new Map();
let calls = 0;
// what was told: the newest count that was shown as saved, and lines
window.shown = { count: 0, saved: 0, stopped: null, troubles: [], questions: [] };
const note = (place) => { if (typeof place?.saved === 'bigint') { shown.count = plain(place.count); shown.saved = plain(place.saved); } };
worker.onmessage = ({ data }) => {
  if (data.tell) {
    note(data);
    if (data.tell === 'stopped') { shown.stopped = data.refused; }
    if (data.tell === 'trouble') { shown.troubles.push(data.line); }
    if (data.tell === 'question') {
      shown.questions.push(data.question);
      worker.postMessage({ ask: 'answered', data: { number: data.number, said: false }, call: 0 });
    }
    return;
  }
  const done = waiting.get(data.call);
  waiting.delete(data.call);
  if (!data.refused) { note(data.answer); }
  done?.(data.refused ? { refused: data.refused } : { answer: plain(data.answer) });
};
worker.onerror = (event) => { shown.stopped = { line: String(event.message) }; };
window.ask = (what, data = {}) => new Promise((done) => {
  calls += 1;
  waiting.set(calls, done);
  worker.postMessage({ ask: what, data: given(data), call: calls });
});
window.fetched = async (name) => { const answer = await fetch(name); return { name, bytes: new Uint8Array(await answer.arrayBuffer()) }; };
// a whole page's moments, at 60 frames a second
window.ticking = 0;
const tick = async () => {
  requestAnimationFrame(tick);
  if (ticking && !window.isTicking) { window.isTicking = true; await ask('tick', { held: ticking.held ?? 0, speed: ticking.speed ?? 1, isBack: false }); window.isTicking = false; }
};
tick();
addEventListener('pagehide', () => { if (ticking) { ask('save', { leaving: true }); } });
window.begin = async (cart, how) => {
  const { name, bytes } = cart ? await fetched(cart) : { name: null, bytes: null };
  return ask('open', { rom: bytes, name, paused: true, test: true, ...how });
};
ask('load').then((got) => { window.loaded = got; document.documentElement.dataset.ready = '1'; });
</script>
'''


class Refused(Exception):
    """What the worker refused."""

    def __init__(self, told):
        super().__init__(f"{told['line']}. {told.get('means')}. {told.get('advice')}")
        self.told, self.kind, self.line = told, told.get('kind'), told['line']


def given(content):
    """Bytes as the page of asks takes them."""
    return {'hex': bytes(content).hex()}


class Asks(Page):
    """The page of asks in a browser."""

    def hears(self, text, *words):
        got = self.wait_for(text, *words)
        if got.get('refused'):
            raise Refused(got['refused'])
        return got['answer']

    def ask(self, what, **data):
        return self.hears('return ask(given[0], given[1])', what, data)

    def begin(self, cart, **how):
        """Opens a cartridge of the server."""
        return self.hears('return begin(given[0], given[1])', cart, how)

    def press(self, buttons, frames):
        return self.ask('press', held=buttons, frames=frames)['count']

    def save(self):
        return self.ask('save')['saved']

    def state(self):
        return self.ask('state')

    def image(self):
        return bytes.fromhex(self.ask('image'))

    def row(self, ident):
        """The game in the list; None where there is none."""
        return next((row for row in self.ask('list') if row['id'] == ident), None)

    def shown(self):
        return self.js('return shown')

    def count(self):
        return self.shown()['count']

    def saved(self):
        return self.shown()['saved']

    def status(self):
        return self.shown()


def with_asks(site):
    """Has a folder that is served hold the page of asks."""
    (site / 'asks.html').write_text(ASKS)
    return site


class Asking(WithBrowser):
    """A folder that is served, and a browser on its page of asks."""

    @classmethod
    def setUpClass(cls):
        super().setUpClass()
        with_asks(cls.site)

    def setUp(self):
        self.page = Asks(self.browser)

    @classmethod
    def changed_site(cls, name, more, files=()):
        """A server of the same page, whose worker has something behind it."""
        site = cls.room / name
        shutil.copytree(cls.site, site)
        for file, old, new in files:
            (site / file).write_text((site / file).read_text().replace(old, new))
        (site / 'worker.js').write_text((site / 'worker.js').read_text() + more)
        list_files(site)
        return site

    def asks(self, server=None, browser=None):
        """The page of asks, opened."""
        page = Asks(browser or self.browser)
        url = (server or self.server).url().replace('index.html', 'asks.html')
        page.browser.get(url)
        page.until(lambda: page.js('return document.documentElement.dataset.ready'), 'the page of asks was never ready', 30)
        self.page = page
        return page

    def again(self, cart, server=None, browser=None, **how):
        """The page of asks, opened anew, with a game; an older worker may have it for a moment."""
        until = time.monotonic() + 15
        while True:
            page = self.asks(server, browser)
            try:
                self.opened = page.begin(cart, **how)
                return page
            except Refused as refused:
                if refused.kind != 'other' or time.monotonic() > until:
                    raise
