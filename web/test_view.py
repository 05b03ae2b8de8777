#!/usr/bin/python3
"""Looks at the page as a player does: each size, by touch, by keys alone and by the tree of a screen reader, in light and dark.

usage: test_view.py GBKEEP [NAME ..]     NAME: of a test, as sizes; all are run where none is given

Pictures of each size and dialog are left in SHOTS (bin/screenshots). It needs what test_web.py needs."""
import base64
import contextlib
import json
import os
import shutil
import sys
import time
import zipfile
from pathlib import Path

from web.test_web import BITS, ROUND, TOP, ActionChains, Browser, By, Keys, Page, Server, WithBrowser, asks_for_start, list_files, main

SHOTS = Path(os.environ.get('SHOTS', TOP / 'bin/screenshots'))
TOUR = [line.split() for line in (TOP / 'examples/demo/tour.txt').read_text().splitlines()][:25]
# name: width, height, device pixels a pixel, whether it is touched
SIZES = {'1920x1080': (1920, 1080, 1, False), '1280x800': (1280, 800, 1, False), '1280x800_at_200': (640, 400, 2, False), '760x500': (760, 500, 1, False),
         '390x844': (390, 844, 3, True), '390x664': (390, 664, 3, True), '844x390': (844, 390, 3, True), '360x640': (360, 640, 3, True),
         'tablet': (820, 1180, 2, True), 'tablet_sideways': (1180, 820, 2, True)}

# of what is seen below a place: the controls, texts that are cut, and controls that are small
LOOK = '''
const root = document.querySelector(arguments[0]);
const boxOf = (one) => { const { x, y, width, height } = one.getBoundingClientRect(); return { x, y, width, height }; };
const isSeen = (one) => one.checkVisibility({ checkOpacity: true, checkVisibilityCSS: true }) && one.getBoundingClientRect().width > 0;
const scrolls = (one) => one !== null && (/auto|scroll/.test(getComputedStyle(one).overflow) || scrolls(one.parentElement));
const nameOf = (one) => one.id || one.getAttribute('aria-label') || one.textContent.trim();
const cut = [];
for (const one of root.querySelectorAll('*')) {
  const own = [...one.childNodes].filter((node) => node.nodeType === 3).map((node) => node.data).join('').trim();
  if (own === '' || !isSeen(one)) { continue; }
  const range = document.createRange();
  range.selectNodeContents(one);
  const text = range.getBoundingClientRect();
  const box = one.getBoundingClientRect();
  const style = getComputedStyle(one);
  const isInline = style.display === 'inline';
  if (!isInline && (one.scrollWidth > one.clientWidth + 1 || text.width > box.width + 1.5)) { cut.push(`${own}: wider than its place`); }
  const button = one.closest('button');
  if (button && (text.left < button.getBoundingClientRect().left - 1 || text.right > button.getBoundingClientRect().right + 1)) { cut.push(`${own}: wider than its button`); }
  if (!scrolls(one) && (text.left < -1 || text.right > innerWidth + 1 || (arguments[1] && (text.top < -1 || text.bottom > innerHeight + 1)))) { cut.push(`${own}: out of view`); }
}
const controls = [...root.querySelectorAll('button, #pad, #letters, summary')].filter(isSeen).map((one) => ({ name: nameOf(one), ...boxOf(one) }));
return { cut, controls, small: controls.filter(({ width, height }) => width < 43.5 || height < 43.5).map(({ name, width, height }) => `${name}: ${width} by ${height}`),
  screen: boxOf(document.getElementById('screen')), wide: document.documentElement.scrollWidth - innerWidth };'''

# notes what is held in each tick that the page asks for
TICKS = '''
window.ticks = [];
const { postMessage } = Worker.prototype;
Worker.prototype.postMessage = function (data, ...more) {
  if (data.ask === 'tick') { window.ticks.push(data.data); }
  return postMessage.call(this, data, ...more);
};'''


class Viewed(WithBrowser):
    def cdp(self, what, **words):
        return self.browser.execute_cdp_cmd(what, words)

    def size(self, name):
        width, height, ratio, is_touched = SIZES[name]
        self.cdp('Emulation.setDeviceMetricsOverride', width=width, height=height, deviceScaleFactor=ratio, mobile=is_touched)
        self.cdp('Emulation.setTouchEmulationEnabled', enabled=is_touched)

    def scheme(self, name):
        self.cdp('Emulation.setEmulatedMedia', features=[{'name': 'prefers-color-scheme', 'value': name}])

    def tearDown(self):
        with contextlib.suppress(Exception):
            self.cdp('Emulation.clearDeviceMetricsOverride')
            self.cdp('Emulation.setTouchEmulationEnabled', enabled=False)
            self.cdp('Emulation.setEmulatedMedia', features=[])
            self.page.js('localStorage.clear()')

    def shot(self, name):
        SHOTS.mkdir(parents=True, exist_ok=True)
        time.sleep(0.25)
        (SHOTS / f'{name}.png').write_bytes(base64.b64decode(self.cdp('Page.captureScreenshot', format='png')['data']))

    def tour(self):
        for words in TOUR:
            if words[0] == 'frames':
                self.page.press(int(words[1], 16), int(words[2]))

    def touch(self, what, *places):
        self.cdp('Input.dispatchTouchEvent', type=what, touchPoints=[{'x': x, 'y': y, 'id': number} for number, (x, y) in enumerate(places)])

    def box(self, where):
        return self.page.js('const { x, y, width, height } = document.querySelector(arguments[0]).getBoundingClientRect(); return [x, y, width, height]', where)

    def middle(self, where):
        x, y, width, height = self.box(where)
        return x + width / 2, y + height / 2

    def ticks(self):
        return self.page.js('return window.ticks.splice(0)')

    def is_held(self, *names):
        """Waits until the game is given these buttons, and no others."""
        wanted = sum(BITS[name] for name in names)
        self.page.until(lambda: any(tick['held'] == wanted for tick in self.ticks()), f'{names} are never given')

    def key(self, code, *, up=True):
        """A key by its place, whatever is printed on it."""
        keys = {'Enter': 'Enter', 'Escape': 'Escape', 'Tab': 'Tab', 'Backspace': 'Backspace', 'Space': ' '}
        numbers = {'Enter': 13, 'Escape': 27, 'Tab': 9, 'Backspace': 8, 'Space': 32, 'ArrowUp': 38, 'ArrowDown': 40, 'ArrowLeft': 37, 'ArrowRight': 39,
                   **{f'F{number}': 111 + number for number in range(1, 13)}}
        number = numbers.get(code) or ord(code[-1])
        words = {'code': code, 'key': keys.get(code, code[-1].lower() if code.startswith('Key') else code), 'windowsVirtualKeyCode': number}
        self.cdp('Input.dispatchKeyEvent', type='rawKeyDown', **words)
        if code == 'Enter':
            self.cdp('Input.dispatchKeyEvent', type='char', text='\r', **words)
        if up:
            time.sleep(0.05)
            self.cdp('Input.dispatchKeyEvent', type='keyUp', **words)

    def key_up(self, code):
        self.cdp('Input.dispatchKeyEvent', type='keyUp', code=code, key=code)

    def playing(self, more=''):
        """The demo, played, with a note of each tick."""
        self.play('demo', more)
        self.page.js(TICKS)
        return self.page

    def dialog(self, name):
        self.page.until(lambda: self.page.is_open(name), f'{name} is never open')


def covers(one, other):
    return one['x'] + 0.5 < other['x'] + other['width'] and other['x'] + 0.5 < one['x'] + one['width'] and one['y'] + 0.5 < other['y'] + other['height'] \
        and other['y'] + 0.5 < one['y'] + one['height']


class Seen(Viewed):
    def seen(self, root, name, is_whole=False):
        """Looks at what is below a place: no text is cut, no control is small."""
        self.shot(name)
        found = self.page.js(LOOK, root, is_whole)
        self.assertEqual(found['cut'], [], name)
        self.assertEqual(found['small'], [], name)
        self.assertLessEqual(found['wide'], 0, name)
        return found

    def test_sizes(self):
        """At each size the picture is large, no control covers it or another one, no text is cut, and each control is large enough for a thumb."""
        for size, (width, height, _, is_touched) in SIZES.items():
            for scheme in ('light', 'dark') if size in ('1280x800', '390x844', '844x390') else ('dark',):
                with self.subTest(size=size, scheme=scheme):
                    self.size(size)
                    self.scheme(scheme)
                    page = self.play('demo')
                    if size == '1920x1080':
                        self.tour()
                        page.save()
                    name = f'{size}_{scheme}'
                    found = self.seen('#game', f'{name}_playing', is_whole=True)
                    screen, largest = found['screen'], min(width / 160, height / 144)
                    share = screen['width'] / 160 / largest
                    self.assertGreaterEqual(share, 0.85 if height > width else 0.6)
                    self.assertEqual([one['name'] for one in found['controls'] if covers(one, screen)], [])
                    for one in found['controls']:
                        self.assertEqual([other['name'] for other in found['controls'] if other is not one and covers(one, other)], [], one)
                    names = {one['name'] for one in found['controls']}
                    self.assertLessEqual({'pause', 'menu-open', 'close', 'full'} | ({'pad', 'letters', 'touch-rewind', 'touch-fast'} if is_touched else {'rewind', 'fast'}), names)
                    print(f'{name}: the picture is {screen["width"]:.1f} by {screen["height"]:.1f}, {100 * share:.0f} % of the largest side', file=sys.stderr)
                    page.click('#menu-open')
                    self.dialog('menu')
                    self.seen('#menu', f'{name}_menu')
                    self.key('Escape')
                    page.until(lambda: not page.is_open('menu'), 'the menu stays')
                    page.keep(1)
                    self.shot(f'{name}_toast')
                    page.menu('[data-act=States]')
                    page.until(lambda: page.js("return document.querySelectorAll('#states-list li').length") == 10, 'there are not ten')
                    self.seen('#states', f'{name}_states')
                    self.key('Escape')
                    page.menu('[data-act=Timeline]')
                    self.dialog('timeline')
                    time.sleep(0.3)
                    self.seen('#timeline', f'{name}_timeline')
                    self.key('Escape')
                    page.menu('#help')
                    self.dialog('keys')
                    self.seen('#keys', f'{name}_keys')
                    self.key('Escape')
                    page.close()
                    self.seen('#games', f'{name}_home')
                    page.card('demo.gb')
                    self.seen('#card', f'{name}_card')
                    page.click('#card [data-card=delete]')
                    page.question()
                    self.seen('#question', f'{name}_question')
                    page.answer(False)
                    page.click('#more')
                    self.seen('#about', f'{name}_about')
                    self.key('Escape')

    def test_large_letters(self):
        """Where the browser's letters are twice as large, no text is cut, and no control covers the picture."""
        for size in ('390x844', '360x640', '844x390', '1280x800', '760x500'):
            with self.subTest(size=size):
                self.size(size)
                page = self.play('demo')
                page.js("document.documentElement.style.fontSize = '200%'")
                found = self.seen('#game', f'{size}_large_playing', is_whole=True)
                self.assertEqual([one['name'] for one in found['controls'] if covers(one, found['screen'])], [])
                page.click('#menu-open')
                self.dialog('menu')
                self.seen('#menu', f'{size}_large_menu')
                self.key('Escape')
                page.close()
                self.seen('#games', f'{size}_large_home')
                self.assertGreater(page.js("return document.querySelector('#list .name').clientWidth"), 100)

    def test_first_start(self):
        """The first page says what it is, in one line, that there is no sound, and has the demo."""
        other = Browser(self.room / 'first')
        try:
            page = Page(other).open(self.server.url())
            text = page.js("return document.getElementById('games').innerText")
            self.assertIn('A Game Boy emulator. Your games stay in this browser and survive crashes.', text)
            self.assertIn('There is no sound.', text)
            self.assertNotIn('delete', text)
            kind, self.browser = type(self), other
            self.page = page
            for size in SIZES:
                for scheme in ('light', 'dark'):
                    self.size(size)
                    self.scheme(scheme)
                    page.open(self.server.url())
                    self.seen('#games', f'{size}_{scheme}_first')
            self.browser = kind.browser
            self.assertTrue(page.js("return document.getElementById('demo').offsetParent !== null"))
        finally:
            other.close()
            with contextlib.suppress(AttributeError):
                del self.browser

    def test_contrast(self):
        """Words have a contrast of 4.5 to what is behind them, in light and in dark."""
        page = self.listed()
        for scheme in ('light', 'dark'):
            self.scheme(scheme)
            got = page.js('''
                const canvas = new OffscreenCanvas(1, 1).getContext('2d', { willReadFrequently: true });
                const rgb = (colour) => { canvas.clearRect(0, 0, 1, 1); canvas.fillStyle = colour; canvas.fillRect(0, 0, 1, 1); return [...canvas.getImageData(0, 0, 1, 1).data]; };
                const light = (colour) => { const [r, g, b] = colour.slice(0, 3).map((one) => one / 255).map((one) => (one <= 0.03928 ? one / 12.92 : ((one + 0.055) / 1.055) ** 2.4));
                  return 0.2126 * r + 0.7152 * g + 0.0722 * b; };
                const contrast = (one, other) => { const [a, b] = [light(one), light(other)].sort((x, y) => y - x); return (a + 0.05) / (b + 0.05); };
                const behind = (one) => { for (let at = one; at !== null; at = at.parentElement) { const colour = rgb(getComputedStyle(at).backgroundColor); if (colour[3] === 255) { return colour; } }
                  return rgb('Canvas'); };
                document.querySelectorAll('dialog').forEach((one) => one.show());
                document.getElementById('game').hidden = false;
                const out = [];
                for (const one of document.querySelectorAll('body *')) {
                  const has = [...one.childNodes].some((node) => node.nodeType === 3 && node.data.trim() !== '');
                  if (!has || one.closest(':disabled, [hidden], noscript, #drop') || !one.checkVisibility()) { continue; }
                  const found = contrast(rgb(getComputedStyle(one).color), behind(one));
                  if (found < 4.5) { out.push(`${one.tagName} ${one.id} ${one.className} ${one.textContent.trim().slice(0, 30)}: ${found.toFixed(2)}`); }
                }
                document.querySelectorAll('dialog').forEach((one) => one.close());
                document.getElementById('game').hidden = true;
                return out;''')
            self.assertEqual(got, [], scheme)


class Pressed(Viewed):
    def test_keys_anywhere(self):
        """Keys play wherever the focus is: after a click beside the picture, on a control of the bar, and behind the menu."""
        page = self.playing()
        self.is_held()
        ActionChains(self.browser.driver).move_by_offset(4, 300).click().perform()
        for where in (None, '#pause', '#fast', '#full', '#menu-open', '#close', '#screen'):
            if where:
                page.js('document.querySelector(arguments[0]).focus()', where)
            for code, name in (('ArrowRight', 'Right'), ('KeyX', 'A')):
                self.key(code, up=False)
                self.is_held(name)
                self.key_up(code)
                self.is_held()
        # Enter presses the button that was reached by Tab; elsewhere it is Start
        page.js("document.getElementById('pause').focus()")
        self.key('Enter')
        page.until_state('paused')
        page.click('#pause')
        page.until_state('playing')
        self.assertEqual(page.js('return document.activeElement.id'), 'screen')
        self.key('Enter', up=False)
        self.is_held('Start')
        self.key_up('Enter')
        # a palette of the menu is chosen, and arrows play behind it
        page.menu('#palettes label:nth-of-type(2)')
        self.assertEqual(page.state_of(), 'paused')
        self.key('Escape')
        page.until_state('playing')
        self.ticks()
        self.key('ArrowDown', up=False)
        self.is_held('Down')
        self.key_up('ArrowDown')
        self.assertEqual(page.js("return document.querySelector('[name=palette]:checked').value"), '1')

    def test_menus_never_trap(self):
        """Escape opens the menu and closes each dialog; the game goes on as it was, also behind the keys."""
        page = self.playing()
        for was_paused in (False, True):
            if was_paused:
                self.key('KeyP')
                page.until_state('paused')
            for code, name in (('Escape', 'menu'), ('F7', 'states'), ('KeyT', 'timeline'), ('F1', 'keys')):
                self.key(code)
                self.dialog(name)
                self.assertEqual(page.state_of(), 'paused')
                self.key('Escape')
                page.until(lambda: not page.is_open(name), f'{name} stays')
                page.until_state('paused' if was_paused else 'playing')
                self.assertEqual(page.js('return document.activeElement.id'), 'screen')
        self.key('KeyP')
        page.until_state('playing')

    def test_remap(self):
        """A key and a gamepad's button are given to another action by pressing them, stay so, and are set back."""
        page = self.playing()
        self.key('F1')
        self.dialog('keys')
        page.click('[data-remap="key A"]')
        self.key('KeyK')
        page.until(lambda: page.js("return document.querySelector('[data-remap=\"key A\"]').textContent") == 'K', 'the key is not shown')
        # taken from another action
        page.click('[data-remap="key B"]')
        self.key('KeyK')
        page.until(lambda: 'Without a key: A' in page.js("return document.getElementById('keys-say').textContent"), 'nobody says that A has none')
        page.click('[data-remap="key A"]')
        self.key('Escape')
        self.assertTrue(page.is_open('keys'))
        page.click('[data-remap="key A"]')
        self.key('KeyJ')
        page.js("""
            window.held = new Set();
            navigator.getGamepads = () => [{ mapping: 'standard', axes: [0, 0, 0, 0], buttons: [...Array(17).keys()].map((one) => ({ pressed: held.has(one) })) }];""")
        page.click('[data-remap="pad Save state"]')
        time.sleep(0.2)
        page.js('held.add(3)')
        page.until(lambda: 'upper face button' in page.js("return document.querySelector('[data-remap=\"pad Save state\"]').textContent"), 'the button is not taken')
        page.js('held.clear()')
        self.key('Escape')
        page.until_state('playing')
        for code, name in (('KeyJ', 'A'), ('KeyK', 'B')):
            self.key(code, up=False)
            self.is_held(name)
            self.key_up(code)
        self.ticks()
        self.key('KeyX')
        time.sleep(0.2)
        self.assertEqual({tick['held'] for tick in self.ticks()}, {0})
        page.js('held.add(3)')
        page.until_text('Saved to state 1')
        page.js('held.clear()')
        page = self.playing()
        self.key('KeyJ', up=False)
        self.is_held('A')
        self.key_up('KeyJ')
        self.key('F1')
        self.dialog('keys')
        page.click('#keys-reset')
        self.key('Escape')
        page.until_state('playing')
        self.key('KeyX', up=False)
        self.is_held('A')
        self.key_up('KeyX')

    def test_gamepad_in_menus(self):
        """A gamepad opens the menu, moves in it, presses, and leaves it; what leaves it is not given to the game."""
        page = self.playing()
        page.js("""
            window.held = new Set();
            navigator.getGamepads = () => [{ mapping: 'standard', axes: [0, 0, 0, 0], buttons: [...Array(17).keys()].map((one) => ({ pressed: held.has(one) })) }];""")

        def press(button):
            page.js('held.add(arguments[0])', button)
            time.sleep(0.15)
        press(4)
        self.dialog('menu')
        page.js('held.clear()')
        there = page.js('return document.activeElement.id')
        self.assertEqual(there, 'continue')
        time.sleep(0.1)
        press(13)
        page.until(lambda: page.js('return document.activeElement.dataset.act') == 'States', 'the focus never moves')
        page.js('held.clear()')
        time.sleep(0.1)
        self.ticks()
        press(0)
        page.until_state('playing')
        time.sleep(0.3)
        self.assertEqual({tick['held'] for tick in self.ticks()}, {0})
        page.js('held.clear()')
        time.sleep(0.1)
        press(0)
        self.is_held('B')
        page.js('held.clear()')

    def test_fast(self):
        """Fast is held or stays, twice, four times, or as fast as it goes."""
        page = self.playing()
        text = "return [performance.now(), Number(document.getElementById('status').dataset.count)]"

        def rate():
            before = page.js(text)
            time.sleep(1.2)
            after = page.js(text)
            return 1000 * (after[1] - before[1]) / (after[0] - before[0])
        for value, least, most in (('2', 110, 130), ('4', 215, 260), ('0', 300, 1_000_000)):
            page.menu(f'#speeds [value="{value}"]')
            self.key('Escape')
            page.until_state('playing')
            self.key('KeyG')
            page.until(lambda: page.js("return document.getElementById('fast').getAttribute('aria-pressed')") == 'true', 'it does not stay fast')
            time.sleep(0.3)
            found = rate()
            self.assertTrue(least <= found <= most, (value, found))
            page.click('#fast')
            time.sleep(0.3)
            self.assertAlmostEqual(rate(), 59.73, delta=4)
        self.key('KeyF', up=False)
        time.sleep(0.2)
        self.assertGreater(rate(), 150)
        self.key_up('KeyF')


class Touched(Viewed):
    def test_diagonals(self):
        """A thumb in a corner of the pad holds both directions; it slides to others; A and B are pressed by one thumb."""
        self.size('390x844')
        page = self.playing()
        x, y, width, _ = self.box('#pad')
        at = lambda across, down: (x + across * width, y + down * width)
        self.touch('touchStart', at(0.85, 0.15))
        self.is_held('Right', 'Up')
        self.assertEqual(page.js("return [...document.querySelectorAll('.arm.held')].map((one) => one.dataset.arm).sort()"), ['1', '4'])
        for place, names in ((at(0.9, 0.5), ['Right']), (at(0.88, 0.9), ['Right', 'Down']), (at(0.5, 0.9), ['Down']), (at(0.1, 0.9), ['Left', 'Down']), (at(-0.3, 0.5), ['Left']),
                             (at(0.5, 0.5), [])):
            self.touch('touchMove', place)
            self.is_held(*names)
        self.touch('touchEnd')
        self.is_held()
        there, size = self.box('#letters')[:2], self.box('#letters')[2]
        letters = lambda across, down: (there[0] + across * size, there[1] + down * size)
        self.touch('touchStart', letters(0.76, 0.32))
        self.is_held('A')
        self.touch('touchMove', letters(0.5, 0.5))
        self.is_held('A', 'B')
        self.touch('touchMove', letters(0.24, 0.68))
        self.is_held('B')
        self.touch('touchEnd')
        # two thumbs at once
        self.touch('touchStart', at(0.9, 0.5), letters(0.76, 0.32))
        self.is_held('Right', 'A')
        self.touch('touchEnd')
        self.is_held()

    def test_phone(self):
        """Start begins a round, by touch; pause, menu, rewind and fast are reached."""
        self.size('390x844')
        page = self.play('demo')
        page.press(0, ROUND)
        self.assertTrue(asks_for_start(page.picture()))
        page.click('#pause')
        page.until_state('playing')
        self.touch('touchStart', self.middle('[data-button=Start]'))
        self.assertTrue(page.js("return document.querySelector('[data-button=Start]').classList.contains('held')"))
        time.sleep(0.3)
        self.touch('touchEnd')
        self.assertFalse(page.js("return document.querySelector('[data-button=Start]').classList.contains('held')"))
        page.until(lambda: not asks_for_start(page.picture()), 'Start does nothing')
        time.sleep(1.5)
        self.touch('touchStart', self.middle('#touch-rewind'))
        page.until(lambda: 'back' in page.js("return document.getElementById('saved').innerText"), 'it never rewinds')
        self.touch('touchEnd')
        page.until_text('Rewound by')
        self.touch('touchStart', self.middle('#touch-fast'))
        self.touch('touchEnd')
        page.until(lambda: page.js("return document.getElementById('touch-fast').getAttribute('aria-pressed')") == 'true', 'a tap does not turn it on')

    def test_full_screen_by_touch(self):
        """In full screen by touch the bar hides and comes back at a touch, pause, menu and rewind are reached, and there is a way out."""
        for size in ('844x390', '390x844'):
            with self.subTest(size=size):
                self.size(size)
                page = self.playing()
                self.touch('touchStart', self.middle('#full'))
                self.touch('touchEnd')
                page.until(lambda: page.js('return document.fullscreenElement !== null'), 'it is never full')
                page.until(lambda: page.js("return getComputedStyle(document.getElementById('bar-tools')).opacity") == '0', 'the bar stays')
                screen = self.box('#screen')
                # a thumb on the pad plays, and brings no bar
                x, y, width, _ = self.box('#pad')
                self.touch('touchStart', (x + 0.9 * width, y + 0.5 * width))
                self.is_held('Right')
                self.touch('touchEnd')
                self.assertEqual(page.js("return document.getElementById('game').classList.contains('bare')"), True)
                self.assertTrue(page.js("return document.getElementById('touch-rewind').checkVisibility()"))
                self.touch('touchStart', self.middle('#screen'))
                self.touch('touchEnd')
                page.until(lambda: page.js("return getComputedStyle(document.getElementById('bar-tools')).opacity") == '1', 'the bar never comes back')
                self.assertEqual(self.box('#screen'), screen)
                for where, wanted in (('#pause', 'paused'), ('#pause', 'playing')):
                    self.touch('touchStart', self.middle(where))
                    self.touch('touchEnd')
                    page.until_state(wanted)
                self.assertEqual(page.js("return document.getElementById('full').getAttribute('aria-label')"), 'Leave full screen')
                self.touch('touchStart', self.middle('#full'))
                self.touch('touchEnd')
                page.until(lambda: page.js('return document.fullscreenElement === null'), 'there is no way out')

    def test_help_on_a_phone(self):
        """The help of a phone shows touch; keys are there for who has some, called by what they are."""
        self.size('390x844')
        page = self.playing()
        page.menu('#help')
        self.dialog('keys')
        self.assertIn('slide your thumb', page.js("return document.getElementById('keys').innerText"))
        self.assertFalse(page.js("return document.getElementById('keys-list').checkVisibility()"))
        self.assertIn('Touch', page.js("return document.getElementById('keys-head').textContent"))
        self.key('Escape')
        self.cdp('Emulation.clearDeviceMetricsOverride')
        self.cdp('Emulation.setTouchEmulationEnabled', enabled=False)
        page = self.playing()
        self.key('F1')
        self.dialog('keys')
        self.assertNotIn('thumb', page.js("return document.getElementById('keys').innerText"))
        self.assertEqual(page.js("return [...document.querySelectorAll('#keys th[scope=col]')].map((one) => one.textContent)"), ['Does', 'Key', 'Gamepad'])
        rows = page.js("return [...document.querySelectorAll('#keys-list tr')].map((one) => [...one.children].map((cell) => cell.textContent))")
        self.assertIn(['A', 'X', 'right face button'], rows)
        self.assertEqual([row for row in rows if row[0].lower() == row[1].lower()], [])


class Said(Viewed):
    def drop(self, name, content):
        self.page.js("""
            const given = new DataTransfer();
            given.items.add(new File([new Uint8Array(arguments[1])], arguments[0]));
            document.dispatchEvent(new DragEvent('dragenter', { dataTransfer: given, bubbles: true, cancelable: true }));
            window.wasLit = getComputedStyle(document.getElementById('drop')).display !== 'none';
            document.dispatchEvent(new DragEvent('drop', { dataTransfer: given, bubbles: true, cancelable: true }));""", name, list(content))

    def test_second_refusal(self):
        """Each refusal is shown, also the second and the third, and one with the words of the one before."""
        rom = bytearray(self.carts['demo'].read_bytes())
        rom[0x147] = 0xfc
        files = {'kind.gb': bytes(rom), 'alone.sav': bytes(100), 'foreign.gbkeep': b'GBKPROOT' + bytes(1100), 'large.zip': bytes((32 << 20) + 1)}
        for name, content in files.items():
            (self.room / name).write_bytes(content)
        other = Browser(self.room / 'refusals')
        try:
            page = Page(other).open(self.server.url())
            for name, words in (('kind.gb', 'kind.gb: cartridge type'), ('alone.sav', 'alone.sav: the cartridge of this battery file is not known'),
                                ('foreign.gbkeep', 'foreign.gbkeep: the cartridge of this SAVE is not here'), ('foreign.gbkeep', 'foreign.gbkeep: the cartridge'),
                                ('large.zip', 'large.zip: this file is too large')):
                before = int(page.status()['number'])
                page.give(self.room / name)
                page.until(lambda: int(page.status()['number']) > before and words in page.text(), f'{name}: nothing is said')
                self.assertEqual(page.js("return [...document.querySelectorAll('.toast.refused p')].at(-1).textContent").split('.')[0], page.text().split('.')[0])
                self.assertEqual(page.state_of(), 'refused')
            # a save file that is none of the cartridge beside it
            page.give(self.carts['demo'], self.room / 'foreign.gbkeep')
            page.until_state('playing')
            page.until_text('foreign.gbkeep: the cartridge of this SAVE is not here')
            # the first game of this browser is in the list as soon as it is played
            page.give(self.room / 'alone.sav')
            page.until(lambda: page.is_open('pick'), 'nobody asks whose it is')
            self.assertEqual(page.js("return [...document.querySelectorAll('#pick-list button')].map((one) => one.textContent)"), ['GBKEEP DEMO'])
        finally:
            other.close()

    def test_wrong_file_in_play(self):
        """A wrong file that is dropped while a game is played is named, and the game goes on; while it is dragged, the page lights up."""
        page = self.playing()
        for name, content in (('letter.txt', b'no cartridge'), ('alone.gbkeep', b'GBKPROOT' + bytes(1100))):
            count = page.count()
            self.drop(name, content)
            self.assertTrue(page.js('return wasLit'))
            page.until_text(name)
            self.assertEqual(page.state_of(), 'playing')
            page.until(lambda: page.count() > count + 30, 'the game does not go on')
            self.assertEqual(page.js("return getComputedStyle(document.getElementById('drop')).display"), 'none')
        # words that are dragged are no file
        self.page.js("""
            const given = new DataTransfer();
            given.setData('text/plain', 'words');
            document.dispatchEvent(new DragEvent('dragenter', { dataTransfer: given, bubbles: true, cancelable: true }));""")
        self.assertEqual(page.js("return getComputedStyle(document.getElementById('drop')).display"), 'none')
        # a battery file of its name that is none of its cartridge
        self.drop('demo.sav', bytes(77))
        self.assertIn('demo.sav belongs to GBKEEP DEMO', page.question())
        page.answer(True)
        page.until_text('demo.sav: battery length')
        self.assertEqual(page.state_of(), 'playing')
        # another game is asked for
        count = page.count()
        self.drop('passes.gb', self.carts['passes'].read_bytes())
        self.assertIn('passes.gb is', page.question())
        self.assertEqual(page.js("return document.getElementById('yes').textContent"), 'Play')
        page.answer(False)
        page.until(lambda: page.count() > count + 30, 'the game does not go on')
        self.assertEqual(page.js("return document.getElementById('title').textContent"), 'GBKEEP DEMO')
        # what is asked last is what is answered
        for name in ('passes', 'prints'):
            self.drop(f'{name}.gb', self.carts[name].read_bytes())
            page.until(lambda: f'{name}.gb is' in page.question(), f'{name}.gb is not asked about')
        page.answer(True)
        page.until(lambda: page.js("return document.getElementById('title').textContent") == 'TEST PRINTS', 'it is not played')

    def test_zip(self):
        """A game in a zip is played; a game for the Color alone is told so, and a zip without a game."""
        rom = bytearray(self.carts['passes'].read_bytes())
        rom[0x14e:0x150] = b'zi'
        colour = bytes(rom[:0x143]) + b'\xc0' + bytes(rom[0x144:])
        for name, inside in (('game.zip', {'folder/read.txt': b'words', 'folder/zipped.gb': bytes(rom)}), ('none.zip', {'read.txt': b'words'})):
            with zipfile.ZipFile(self.room / name, 'w', zipfile.ZIP_DEFLATED) as archive:
                for path, content in inside.items():
                    archive.writestr(path, content)
        (self.room / 'colour.gbc').write_bytes(colour)
        page = self.listed()
        for name, words in (('colour.gbc', 'for the Game Boy Color alone'), ('none.zip', 'the zip has no cartridge')):
            page.give(self.room / name)
            page.until_text(words)
            self.assertTrue(page.text().startswith(name), page.text())
        page.give(self.room / 'game.zip')
        page.until_state('playing')
        page.close()
        self.assertTrue([one for one in page.rows() if '(zipped.gb)' in one], page.rows())

    def test_lines_go(self):
        """What is said goes; nothing sticks."""
        page = self.play('demo', '')
        page.until(lambda: page.count() > 200, 'it never runs')
        self.browser.find_element(By.ID, 'screen').send_keys(Keys.F5)
        page.until_text('Saved to state 1')
        self.key('KeyR', up=False)
        time.sleep(0.5)
        self.key_up('KeyR')
        page.until_text('Rewound by')
        page.until(lambda: page.text() == '' and page.js("return document.querySelectorAll('.toast').length") == 0, 'lines stay', 20)

    def test_late(self):
        """A file that is read or written for ever is told of after ten seconds, and the game goes on."""
        site = self.room / 'late'
        shutil.copytree(self.site, site)
        text = (site / 'worker.js').read_text()
        (site / 'worker.js').write_text(text + "\nconst was = self.onmessage; self.onmessage = (event) => { if (event.data.ask !== 'image') { was(event); } };\n")
        list_files(site)
        server = Server(site)
        try:
            page = self.page.open(server.url('?cart=demo.gb'))
            begun = time.monotonic()
            page.menu('#export')
            page.until_text('The browser does not answer')
            self.assertGreater(time.monotonic() - begun, 9)
            count = page.count()
            page.until(lambda: page.count() > count + 30, 'the game does not go on')
        finally:
            server.close()

    def test_saved_line(self):
        """The line under the title says quietly that it is saved, and that it waits."""
        page = self.play('demo', '')
        line = lambda: page.js("const one = document.getElementById('saved'); return [one.innerText.trim(), one.dataset.kind]")
        page.until(lambda: line() == ['saved 1 s ago', 'kept'], f'it says {line()}')
        self.key('KeyP')
        page.until(lambda: line() == ['Paused: P goes on', 'plain'], f'it says {line()}')

    def test_reload(self):
        """A tab that is loaded anew goes on with its game, at the first key; one whose game was closed has the list."""
        page = self.listed()
        page.demo()
        page.until_state('playing')
        page.until(lambda: page.count() > 100, 'it never runs')
        told = page.saved()
        page.open(self.server.url(), is_anew=False)
        self.assertEqual(page.state_of(), 'paused')
        self.assertGreaterEqual(page.count(), told)
        self.assertEqual(page.js("return document.getElementById('saved').innerText.trim()"), 'Press a key to go on')
        count = page.count()
        time.sleep(0.5)
        self.assertEqual(page.count(), count)
        self.key('ArrowLeft')
        page.until_state('playing')
        page.close()
        page.open(self.server.url(), is_anew=False)
        self.assertEqual(page.state_of(), 'closed')
        self.assertTrue(page.js("return document.getElementById('list').checkVisibility()"))

    def test_welcome_back(self):
        """After a kill the page says from where the game goes on; after an orderly end it does not."""
        kind, page = type(self), self.play('demo', '')
        page.until(lambda: page.saved() > 60, 'nothing was ever saved')
        kind.browser.kill()
        kind.browser = Browser(kind.room / 'profile', *kind.more)
        self.page = page = Page(kind.browser)
        page.open(self.server.url())
        page.click('#list .play')
        said = page.until_text('Welcome back: the game goes on from')
        self.assertRegex(said, r'from ([0-9.]+ s before it|where it) was closed')
        page.until_state('playing')
        page.close()
        page.click('#list .play')
        page.until_state('playing')
        time.sleep(0.3)
        self.assertNotIn('Welcome', page.text())

    def test_home(self):
        """A card has its picture, title and when it was played; a click continues; its menu has the rest in plain words."""
        page = self.play('demo')
        self.tour()
        page.save()
        page = self.listed()
        card = '#list [data-name="demo.gb"]'
        self.assertRegex(page.js(f"return document.querySelector('{card} .words').innerText"), r'GBKEEP DEMO\n(just now|\d+ s ago)')
        self.assertGreater(page.js(f"const c = document.querySelector('{card} canvas'); return new Set(c.getContext('2d').getImageData(0, 0, 160, 144).data).size"), 5)
        page.card('demo.gb')
        self.assertEqual(page.js("return [...document.querySelectorAll('#card-items > button')].map((one) => one.textContent)"),
                         ['Continue', 'Download save file', 'Download battery file (.sav)', 'Start over', 'Begin with a battery file (.sav)', 'Delete'])
        self.key('Escape')
        page.click(f'{card} canvas')
        page.until_state('playing')
        page.close()
        page.until_text('nothing is lost')
        page.click('#more')
        self.assertIn('without sound', page.js("return document.getElementById('about').innerText"))
        page.click('#about-demo')
        page.until_state('playing')

    def test_timeline(self):
        """The timeline goes back, as one input of the game, and says what it takes."""
        page = self.play('scrolling', '&speed=max')
        page.until(lambda: page.count() > 20_000, 'it never runs', 60)
        page.open(self.server.url('?cart=scrolling.gb'))
        page.menu('[data-act=Timeline]')
        page.until(lambda: page.js("return document.querySelectorAll('#timeline-list li').length") > 1, 'there is nothing')
        self.assertRegex(page.js("return document.getElementById('timeline-room').textContent"), r'It takes [\d.,]+ [KM]iB here, and [\d.,]+ [KM]iB at most')
        count = page.count()
        page.click('#timeline-list li:first-child button')
        page.until_text('Back by')
        self.assertGreater(page.count(), count)
        page.until(lambda: page.saved() > count, 'it is never saved')


class NotKept(Viewed):
    def test_not_kept(self):
        """A browser that keeps no files plays in memory: 'not kept' stands in place of 'saved', and the save file can be downloaded."""
        site = self.room / 'memory'
        shutil.copytree(self.site, site)
        text = (site / 'worker.js').read_text()
        (site / 'worker.js').write_text(text + '\ndelete FileSystemFileHandle.prototype.createSyncAccessHandle;\n')
        list_files(site)
        server = Server(site)
        try:
            page = self.page.open(server.url())
            self.assertIn('keeps no files', page.js("return document.getElementById('warnings').textContent"))
            self.shot('not_kept_home')
            page.demo()
            page.until_state('playing')
            page.until(lambda: page.count() > 100, 'it never runs')
            line = "const one = document.getElementById('saved'); return [one.innerText.trim(), one.dataset.kind]"
            page.until(lambda: page.js(line) == ['not kept', 'loud'], 'nobody says that it is not kept')
            self.shot('not_kept_playing')
            page.keep(3)
            self.assertTrue(page.export().startswith(b'GBKPROOT') or b'GBKPROOT' in page.export()[:1024])
            folder = self.room / 'taken'
            folder.mkdir()
            self.cdp('Browser.setDownloadBehavior', behavior='allow', downloadPath=str(folder))
            page.menu('#export')
            page.until_text('is among your downloads')
            page.until((folder / 'demo.gbkeep').exists, 'nothing is among the downloads')
            page.close()
            self.assertIn('demo.gb', ''.join(page.rows()))
        finally:
            server.close()


    def test_private_window(self):
        """A private window says that games are kept until it is closed, on the first page and in place of 'saved'."""
        other = Browser(self.room / 'private', '--incognito')
        try:
            page = Page(other).open(self.server.url())
            self.assertIn('private window', page.js("return document.getElementById('warnings').textContent"))
            page.demo()
            page.until_state('playing')
            line = "const one = document.getElementById('saved'); return [one.innerText.trim(), one.dataset.kind]"
            page.until(lambda: page.js(line) == ['kept until this window is closed', 'loud'], f'it says {page.js(line)}')
            self.assertIn('kept until this window is closed', page.js("return document.getElementById('count').textContent"))
        finally:
            other.close()


class Spoken(Viewed):
    def names(self, dialog=None):
        """The controls of the page as a screen reader has them: each has a name."""
        nodes = self.cdp('Accessibility.getFullAXTree')['nodes']
        kinds = ('button', 'checkbox', 'switch', 'radio', 'combobox', 'application', 'dialog', 'img', 'listitem', 'textbox')
        controls = [node for node in nodes if node.get('role', {}).get('value') in kinds and not node.get('ignored')]
        wrong = [node['role']['value'] for node in controls if node['role']['value'] != 'listitem' and not node.get('name', {}).get('value')]
        self.assertEqual(wrong, [], dialog)
        return [f"{node['role']['value']}: {node.get('name', {}).get('value')}" for node in controls]

    def test_tree(self):
        """Each control has a name, on each page and in each dialog, and a dialog has the focus while it is open."""
        page = self.playing()
        found = self.names()
        for name in ('button: Pause', 'button: Menu', 'button: Fast', 'application: The picture of the game'):
            self.assertIn(name, found)
        for code, name in (('Escape', 'menu'), ('F7', 'states'), ('KeyT', 'timeline'), ('F1', 'keys')):
            self.key(code)
            self.dialog(name)
            time.sleep(0.3)
            self.assertTrue([one for one in self.names(name) if one.startswith('dialog: ')], name)
            self.assertTrue(page.js('return document.getElementById(arguments[0]).contains(document.activeElement)', name), name)
            self.key('Escape')
            page.until(lambda: not page.is_open(name), f'{name} stays')
        page.close()
        self.assertTrue([one for one in self.names() if one.startswith('button: Continue GBKEEP DEMO')])
        page.card('demo.gb', 'delete')
        page.question()
        self.assertIn('button: Cancel', self.names('question'))
        page.answer(False)
        nodes = self.cdp('Accessibility.getFullAXTree')['nodes']
        self.assertTrue([node for node in nodes if node.get('role', {}).get('value') == 'status'])

    def test_by_keys_alone(self):
        """Tab and Enter alone open a game, keep a state, leave it, and delete it."""
        page = self.play('copy')
        page.press(0, 5)
        page.close()

        def tab_to(what):
            for _ in range(40):
                if page.js(f'return document.activeElement?.matches?.({json.dumps(what)}) ?? false'):
                    return
                self.key('Tab')
            self.fail(f'{what} is not reached')
        tab_to('[data-name="copy.gb"] .play')
        self.key('Enter')
        page.until(lambda: page.state_of() in ('playing', 'paused'), 'it is never opened')
        self.assertEqual(page.js('return document.activeElement.id'), 'screen')
        self.key('Escape')
        self.dialog('menu')
        tab_to('[data-act=States]')
        self.key('Enter')
        self.dialog('states')
        page.until(lambda: page.js("return document.querySelectorAll('#states-list li').length") == 10, 'there are not ten')
        tab_to('[data-slot="2"] [data-state-act=keep]')
        self.key('Enter')
        page.until_text('Saved to state 2')
        for where in ('#close', '#rewind', '#pause', '#fast', '#full', '#menu-open'):
            tab_to(where)
        tab_to('#close')
        self.key('Enter')
        page.until_state('closed')
        page.until(page.rows, 'nothing is listed')
        tab_to('[data-name="copy.gb"] .more')
        self.key('Enter')
        self.dialog('card')
        tab_to('[data-card=delete]')
        self.key('Enter')
        page.question()
        tab_to('#yes')
        self.key('Enter')
        page.until_text('was deleted')


if __name__ == '__main__':
    sys.exit(main(__doc__, (Seen, Pressed, Touched, Said, NotKept, Spoken)))
