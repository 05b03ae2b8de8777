#!/usr/bin/python3
"""Has the calls that the page makes on files of the browser fail, one in each life: by an exception, by a write that is cut, or by never coming back. What
failed is told in words; opened again, the game has each input that was shown as saved, with the state that it had, and each state that was kept. In
Debian's Chromium, by what the page asks its worker.

usage: test_page_faults.py GBKEEP [NAME ..]     NAME: of a test, as faults_of_a_new_game; all are run where none is given

Of each kind of call on each kind of file one is taken, and of those that save several: the first, the last, and one between, by SEED. With ALL=1 that
many are taken of each."""
import contextlib
import hashlib
import json
import os
import random
import sys
import threading
import time

from web.asked import Asking
from web.test_kept_games import IMAGES
from web.test_web import SEED, Quiet, Server, main

IS_ALL = os.environ.get('ALL') == '1'
SAVING = {'write index', 'flush index', 'write N.gbkeep', 'flush N.gbkeep', 'createSyncAccessHandle N.gbkeep'}

# what is failing is in the server's plan: {key, number, how}, where `key` is a kind of call and a kind of file
FAULTS = '''
{
  const server = (path, body = '') => {
    const ask = new XMLHttpRequest();
    ask.open('POST', path, false);
    ask.send(body);
    return ask.responseText;
  };
  const plan = JSON.parse(server('/plan'));
  const calls = {};
  new BroadcastChannel('calls').onmessage = () => server('/calls', JSON.stringify(calls));
  const kindOf = (name) => name.replace(/^[0-9]+[.]/, 'N.').replace(/^[0-9a-f]{64}$/, 'ID');
  const names = new WeakMap();
  const made = (prototype, kind, isSync, named = (value) => value) => {
    const call = prototype[kind];
    prototype[kind] = function (...words) {
      const name = typeof words[0] === 'string' ? kindOf(words[0]) : names.get(this) ?? kindOf(this.name ?? '');
      const note = (value) => { if (typeof value === 'object' && value !== null) { names.set(value, name); } return value; };
      const key = `${kind} ${name}`;
      calls[key] = (calls[key] ?? 0) + 1;
      if (key === plan.key && calls[key] === plan.number) {
        server('/fired');
        if (plan.how === 'short') {
          const half = words[0].subarray(0, words[0].length >> 1);
          return call.call(this, half, words[1]);
        }
        if (plan.how === 'hang') {
          if (!isSync) { return new Promise(() => {}); }
          server('/hang');
        }
        throw new DOMException('it fails', plan.error);
      }
      const value = call.apply(this, words);
      return value instanceof Promise ? value.then(note) : note(value);
    };
  };
  made(StorageManager.prototype, 'getDirectory', false);
  for (const kind of ['getDirectoryHandle', 'getFileHandle', 'removeEntry', 'keys']) { made(FileSystemDirectoryHandle.prototype, kind, kind === 'keys'); }
  for (const kind of ['getFile', 'createSyncAccessHandle']) { made(FileSystemFileHandle.prototype, kind, false); }
  for (const kind of ['read', 'write', 'flush', 'truncate', 'getSize']) { made(FileSystemSyncAccessHandle.prototype, kind, true); }
  made(Blob.prototype, 'slice', true);
  made(Blob.prototype, 'arrayBuffer', false);
}
'''
# one life, step by step, until the fault was met: each step with what the worker answered, and the state of the game behind it
LIFE = '''
const [steps, isFaulty] = given;
const pause = (time) => new Promise((done) => { setTimeout(done, time); });
const fired = async () => (await (await fetch('/fired')).json());
const does = {
  // the page waits for it, too, before a game is opened
  async load() {
    while (!window.loaded) { await pause(10); }
    return window.loaded;
  },
  open: (cart, how) => begin(cart, how),
  async play(buttons, frames) {
    const pressed = await ask('press', { held: buttons, frames });
    return pressed.refused ? pressed : ask('save');
  },
  // an image that nothing names, where there is one
  async remove() {
    const listed = await ask('list');
    if (listed.answer?.some((row) => row.isUnread)) { return listed; }
    const one = listed.answer?.find((row) => row.id === steps.ident)?.images.find((image) => image.number !== listed.answer[0].play && image.slot === 0 && !image.isUndo);
    return one ? ask('deleteImage', { id: steps.ident, number: one.number }) : listed;
  },
  wait: async (time) => { window.ticking = {}; await pause(time); window.ticking = 0; return {}; },
};
const log = [];
for (const [name, ...words] of [['load'], ...steps.acts]) {
  let got = null;
  (does[name] ? does[name](...words) : ask(name, words[0])).then((answer) => { got = answer; });
  let met = false;
  for (const begun = performance.now(); got === null && performance.now() - begun < 20000; await pause(10)) {
    met = isFaulty && await fired();
    // what never comes back is waited for no longer
    if (met && performance.now() - begun > 1500 && steps.hangs) { break; }
  }
  met ||= isFaulty && await fired();
  const state = got && !got.refused && !met && ['play', 'keepState', 'loadState', 'undoLoad'].includes(name) ? (await ask('state')).answer : null;
  log.push({ name, words, refused: got?.refused ?? null, isDone: got !== null, met, state, isTold: Boolean(got?.refused || shown.stopped || shown.troubles.length || got?.answer?.notice),
    isUnread: Boolean(got?.answer?.some?.((row) => row.isUnread || row.isOpen)), text: JSON.stringify([got?.refused, shown.stopped, shown.troubles, got?.answer?.notice]), count: shown.count, saved: shown.saved });
  if (met || got === null) { break; }
}
if (!isFaulty) { new BroadcastChannel('calls').postMessage(0); await pause(300); }
return log;
'''


class Failing(Quiet):
    """Has the page's plan, and lets a call wait that is never to come back. Each new cartridge that is asked for is the demo with another sum."""

    def answer(self, content, kind='application/json'):
        with contextlib.suppress(OSError):
            self.send_response(200)
            self.send_header('Content-Type', kind)
            self.send_header('Content-Length', str(len(content)))
            self.end_headers()
            self.wfile.write(content)

    def do_GET(self):
        if self.path == '/fired':
            self.answer(json.dumps(self.server.fired).encode())
        else:
            super().do_GET()

    def do_POST(self):
        body = self.rfile.read(int(self.headers.get('Content-Length', 0)))
        if self.path == '/fired':
            self.server.fired = True
        elif self.path == '/calls':
            self.server.counts = json.loads(body)
        elif self.path == '/hang':
            self.server.released.wait(30)
        self.answer(json.dumps(self.server.plan).encode())


class PageFaults(Asking):
    @classmethod
    def setUpClass(cls):
        super().setUpClass()
        cls.site_of_faults = cls.changed_site('failing', FAULTS)
        cls.failing = Server(cls.site_of_faults, kind=Failing)
        cls.plan({})
        cls.addClassCleanup(cls.failing.close)

    @classmethod
    def plan(cls, plan):
        notes = cls.failing.server
        notes.plan, notes.fired, notes.counts, notes.released = plan, False, {}, threading.Event()

    def life(self, steps, plan=None):
        """A life of the page, with a fault or without one: what each step left."""
        self.plan(plan or {})
        self.page.browser.get(self.failing.url().replace('index.html', 'asks.html'))
        self.page.until(lambda: self.page.js("return typeof ask === 'function'"), 'the page of asks was never there')
        log = self.page.wait_for(LIFE, {**steps, 'hangs': bool(plan) and plan['how'] == 'hang'}, plan is not None)
        # what hangs is let go when nobody waits for it
        self.page.browser.get('about:blank')
        self.failing.server.released.set()
        return log

    def counted(self, steps):
        """The calls of a life without a fault: of each kind how many."""
        for step in self.life(steps):
            self.assertTrue(step['isDone'] and not step['isTold'], step)
        until = time.monotonic() + 5
        while not self.failing.server.counts and time.monotonic() < until:
            time.sleep(0.05)
        self.assertTrue(self.failing.server.counts)
        return dict(self.failing.server.counts)

    def plans(self, counts, chance):
        """Faults for lives that make so many calls of each kind."""
        for key, last in sorted(counts.items()):
            kind = key.split(' ')[0]
            numbers = sorted({1, last, chance.randint(1, last)})
            found = [{'key': key, 'number': number, 'how': 'throw', 'error': chance.choice(['InvalidStateError', 'UnknownError', 'QuotaExceededError'])} for number in numbers]
            # a blob is in memory once it is there
            if kind not in ('slice', 'getSize', 'keys'):
                found.append({'key': key, 'number': chance.choice(numbers), 'how': 'hang', 'error': 'UnknownError'})
            if kind == 'write':
                found.append({'key': key, 'number': chance.choice(numbers), 'how': 'short', 'error': ''})
            yield from found if IS_ALL or key in SAVING else [chance.choice(found)]

    def opened_again(self, cart):
        """The game without faults: an older worker may have it for a moment."""
        self.plan({})
        return self.again(cart, self.failing)

    def told(self, log, plan):
        """What was told as saved and is to be there: states in slots, and games, each as [inputs, state]; and the one that is played, or None where the fault
        was met in what changes that."""
        slots, games, played = {}, [], None
        for step in log:
            if not step['isDone'] or step['refused'] or step['met']:
                continue
            if step['name'] == 'play':
                played = [step['saved'], step['state']]
            elif step['name'] == 'keepState':
                slots[step['words'][0]['slot']] = [step['saved'], step['state']]
            elif step['name'] == 'loadState':
                games.append(played)
                played = [step['saved'], step['state']]
            elif step['name'] == 'undoLoad':
                games.append(played)
                played = [step['saved'], step['state']]
            elif step['name'] == 'deleteState':
                slots.pop(step['words'][0]['slot'], None)
        met = [step for step in log if step['met']]
        self.assertTrue(all(step['isDone'] or step['met'] for step in log), (plan, log[-1]))
        key = plan['key']
        if met and plan['how'] == 'hang':
            # the page itself tells of what is never answered
            self.assertTrue(not met[-1]['isDone'] or is_courtesy(key) or key.startswith(('removeEntry', 'getDirectory')), (plan, met[-1]))
        elif met and not is_courtesy(key) and not (plan['error'] != 'UnknownError' and met[-1]['name'] in ('keepState', 'loadState')) \
                and not (met[-1]['name'] == 'load' and key == 'getDirectory '):
            # where there was no room for a state, the timeline gives its own, and it is kept; what is looked at first of a browser is tried again later
            self.assertTrue(met[-1]['isTold'] or met[-1]['isUnread'], (plan, met[-1]))
        changes = met and met[-1]['name'] in ('loadState', 'undoLoad', 'playImage')
        return bool(met), [*slots.values(), *filter(None, games), *([played] if played else [])], None if changes or any(step['name'] == 'playImage' for step in log) else played

    def there(self, ident, told, played, plan):
        """Whether each game that was told as saved is there, and the one that is played is the last."""
        count = self.page.count()
        images = list(self.page.wait_for(IMAGES, ident).values())
        for one in told:
            self.assertTrue(one in images or any(other and other[0] > one[0] for other in images), (plan, one, images))
        if played:
            self.assertGreaterEqual(count, played[0], plan)

    def tried(self, plans, steps, cart_of, name, least=0.8):
        """A life with each fault, and one without behind it."""
        met = 0
        for number, plan in enumerate(plans):
            with self.subTest(plan=plan):
                cart = cart_of(number)
                ident = hashlib.sha256((self.site_of_faults / cart).read_bytes()).hexdigest()
                was_met, told, played = self.told(self.life(steps(cart, ident), plan), plan)
                met += was_met
                self.opened_again(cart)
                self.there(ident, told, played, plan)
                self.page.ask('close')
        print(f'{met} of {len(plans)} faults of {name}', file=sys.stderr)
        self.assertGreater(met, least * len(plans))

    def test_faults_of_a_game(self):
        """A game that goes on: it is played, kept in slots, loaded, undone, gone back in, closed; an older one is deleted, another one played."""
        chance, cart = random.Random(SEED), 'demo.gb'
        ident = hashlib.sha256((self.site_of_faults / cart).read_bytes()).hexdigest()
        acts = [['open', cart], ['play', 1, 20], ['keepState', {'slot': 1}], ['play', 2, 20], ['keepState', {'slot': 1}], ['undoKeep', {'slot': 1}], ['play', 2, 20], ['loadState', {'slot': 1}],
                ['play', 4, 320], ['keepState', {'slot': 2}], ['undoLoad'], ['timeline'], ['goToMoment', {'number': 1}], ['play', 8, 5], ['deleteState', {'slot': 2}], ['states'], ['image'], ['close'],
                ['list'], ['imageOf', {'id': ident, 'number': 1}], ['remove'], ['playImage', {'id': ident, 'number': 1}]]
        # a moment may be gone in a later life: it is then refused
        quiet = {'acts': [act for act in acts if act[0] != 'goToMoment'], 'ident': ident}
        self.life(quiet)
        counts = self.counted(quiet)
        plans = list(self.plans(counts, chance))
        self.tried(plans, lambda cart, ident: quiet, lambda number: cart, f'a game, of {sum(counts.values())} calls')

    def test_faults_of_a_new_game(self):
        """A new game of a cartridge that the browser does not have."""
        chance = random.Random(SEED + 1)
        steps = lambda cart, ident: {'acts': [['open', cart], ['play', 1, 20], ['goToMoment', {'number': 1}], ['play', 2, 20], ['close']], 'ident': ident}
        counts = self.counted(steps(self.new_cart(0), ''))
        plans = [plan for plan in self.plans(counts, chance) if not plan['key'].endswith(' trial')]
        self.tried(plans, steps, lambda number: self.new_cart(number + 1), f'a new game, of {sum(counts.values())} calls')

    def test_faults_of_the_clock(self):
        """A game with a clock: where what stands beside it can't be written, the clock stands still, in words."""
        chance, cart = random.Random(SEED + 2), 'clock.gb'
        steps = lambda cart, ident: {'acts': [['open', cart, {'paused': False, 'test': False}], ['wait', 1200], ['save'], ['close']], 'ident': ident}
        self.life(steps(cart, ''))
        counts = self.counted(steps(cart, ''))
        plans = [plan for plan in self.plans(counts, chance) if plan['key'].endswith('.time')]
        self.tried(plans, steps, lambda number: cart, 'what stands beside a game with a clock')

    def new_cart(self, number):
        name = f'new-{number}.gb'
        content = bytearray(self.carts['demo'].read_bytes())
        content[0x14e:0x150] = (40_000 + number).to_bytes(2, 'big')
        (self.site_of_faults / name).write_bytes(content)
        return name


def is_courtesy(key):
    """Whether a file is one that nothing depends on: what fails of it need not be told."""
    return key.split(' ')[1] in ('played', 'N.about', 'timeline', 'trial') or key == 'removeEntry N.time'


if __name__ == '__main__':
    sys.exit(main(__doc__, (PageFaults,)))
