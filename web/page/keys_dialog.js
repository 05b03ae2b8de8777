// What keys and buttons do, and how each is given another one: pressed.
import { pressedButton } from './held.js';
import { $, button, made } from './dom.js';
import { ROWS, nameOfButton, nameOfKey, usualKeys, usualPad, withButton, withKey } from './keys.js';
import { remember } from './settings.js';

const USUAL = 'Press one of them, then the key or the button that it is to be.';
const LOOK = 50;

export class KeysDialog {
  #page;
  /** @type {{ action: string, kind: 'key' | 'pad' } | null} what waits for a press */
  #waits = null;
  #timer = 0;
  #wasPressed = false;

  /** @param {Page} page */
  constructor(page) {
    this.#page = page;
    const { store } = page;
    store.view(['keys', 'pad', 'printed'], () => this.#draw());
    $('keys').addEventListener('keydown', (event) => this.#pressed(event));
    $('keys-reset').addEventListener('click', () => {
      this.#set({ keys: usualKeys(), pad: usualPad() });
      this.#say('All are the usual ones again.');
    });
    $('keys-more').addEventListener('toggle', () => $('keys').classList.toggle('has-keys', $('keys-more', HTMLDetailsElement).open));
    store.view(['isTouch'], ({ isTouch }) => {
      $('keys').classList.toggle('by-touch', isTouch);
      $('touch-help').hidden = !isTouch;
      $('keys-more', HTMLDetailsElement).open = !isTouch;
      $('keys-head').textContent = isTouch ? 'Touch, keys and gamepad' : 'Keys and gamepad';
    });
  }

  begin() {
    this.#say(USUAL);
    this.#timer = setInterval(() => this.#lookAtPads(), LOOK);
  }

  end() {
    clearInterval(this.#timer);
    this.#wait(null);
  }

  /** @param {Partial<import('./state.js').PageState>} changes */
  #set(changes) {
    this.#page.store.change(changes);
    if (changes.keys) {
      remember('keys', JSON.stringify(changes.keys));
    }
    if (changes.pad) {
      remember('pad', JSON.stringify(changes.pad));
    }
  }

  /** @param {string} text */
  #say(text) {
    $('keys-say').textContent = text;
  }

  #draw() {
    const { keys, pad, printed } = this.#page.store.now;
    const focused = document.activeElement?.getAttribute('data-remap');
    $('keys-list').replaceChildren(...ROWS.map(({ action, means }) => {
      const one = (/** @type {'key' | 'pad'} */ kind, /** @type {string} */ name) => (
        button(null, name, () => this.#wait({ action, kind }), { 'data-remap': `${kind} ${action}`, class: 'remap' }));
      const key = one('key', nameOfKey(keys[action] ?? '', printed));
      const other = one('pad', nameOfButton(pad[action] ?? null));
      key.setAttribute('aria-label', `${means}: key ${key.textContent}`);
      other.setAttribute('aria-label', `${means}: gamepad ${other.textContent}`);
      key.disabled = action === 'Menu';
      return made('tr', {}, made('th', { scope: 'row' }, means), made('td', {}, key), made('td', {}, other));
    }));
    const again = focused && $('keys-list').querySelector(`[data-remap="${focused}"]`);
    if (again instanceof HTMLElement) {
      again.focus();
    }
  }

  /** @param {{ action: string, kind: 'key' | 'pad' } | null} what */
  #wait(what) {
    this.#waits = what;
    this.#wasPressed = true;
    for (const one of $('keys-list').querySelectorAll('.remap')) {
      one.classList.toggle('waits', what !== null && one.getAttribute('data-remap') === `${what.kind} ${what.action}`);
    }
    if (what !== null) {
      const means = ROWS.find(({ action }) => action === what.action)?.means ?? what.action;
      this.#say(`${means}: press its ${what.kind === 'key' ? 'key' : 'button on the gamepad'}. Esc leaves it as it is.`);
    }
  }

  /** @param {KeyboardEvent} event */
  #pressed(event) {
    const waits = this.#waits;
    if (waits === null || event.code === 'Tab') {
      return;
    }
    event.preventDefault();
    event.stopPropagation();
    if (event.code === 'Escape') {
      this.#wait(null);
      this.#say('It is as it was.');
    } else if (waits.kind === 'key') {
      const keys = withKey(this.#page.store.now.keys, waits.action, event.code);
      this.#wait(null);
      if (keys !== null) {
        this.#set({ keys });
        this.#say(this.#without(keys) ?? `${nameOfKey(event.code, this.#page.store.now.printed)} it is.`);
      }
    }
  }

  /**
   * What has no key any more.
   * @param {import('./keys.js').Keys} keys
   */
  #without(keys) {
    const names = ROWS.filter(({ action }) => keys[action] === '').map(({ means }) => means);
    return names.length > 0 ? `Without a key: ${names.join('; ')}.` : null;
  }

  #lookAtPads() {
    const found = pressedButton();
    if (found !== null && !this.#wasPressed && this.#waits?.kind === 'pad') {
      const { action } = this.#waits;
      this.#wait(null);
      this.#set({ pad: withButton(this.#page.store.now.pad, action, found) });
      this.#say(`${nameOfButton(found)} it is.`);
    }
    this.#wasPressed = found !== null;
  }
}
