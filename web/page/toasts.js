// Lines that are shown for a while: what happened, which file, what to do.
import { button, icon, made, $ } from './dom.js';

const SECONDS = { said: 4, refused: 12 };
const WITH_ACTION = 8;
const MOST = 3;

export class Toasts {
  /** @type {ToastShown[]} */
  #shown = [];
  #ended;

  /** @param {(text: string) => void} ended what is called when a line goes */
  constructor(ended) {
    this.#ended = ended;
    // while a dialog is open, nobody reads them
    setInterval(() => {
      if (!document.querySelector('dialog[open]') && document.visibilityState === 'visible') {
        this.#shown.forEach((one) => { one.left -= 0.25; });
        this.#shown.filter(({ left }) => left <= 0).forEach((one) => this.#remove(one));
      }
    }, 250);
  }

  /**
   * @param {string} text
   * @param {ToastHow} [how]
   */
  show(text, how = {}) {
    const { kind = 'said', actions = [], stays = false, name } = how;
    // what was said before gives way to what is said then; a refusal stays until it was read
    this.#shown.filter((one) => one.text === text || (name !== undefined && one.name === name) || (kind === 'said' && one.isSaid))
      .forEach((one) => this.#remove(one));
    const element = made('div', { class: `toast ${kind}` }, ...(kind === 'refused' ? [icon('warn')] : []), made('p', {}, text));
    const left = stays ? Infinity : SECONDS[kind] + (actions.length > 0 ? WITH_ACTION : 0);
    const one = { element, text, name: name ?? null, isSaid: kind === 'said' && !stays, left };
    for (const { label, run } of actions) {
      element.append(button(null, label, () => {
        this.#remove(one);
        run();
      }));
    }
    if (kind === 'refused' || stays) {
      const close = button('close', '', () => this.#remove(one), { class: 'icon', 'aria-label': 'Close this message' });
      element.append(close);
    }
    this.#shown.push(one);
    this.#shown.slice(0, -MOST).forEach((old) => this.#remove(old));
    $('toasts').append(element);
  }

  /** @param {ToastShown} one */
  #remove(one) {
    if (this.#shown.includes(one)) {
      this.#shown = this.#shown.filter((other) => other !== one);
      one.element.remove();
      this.#ended(one.text);
    }
  }

  /**
   * What was said by this name is no more so.
   * @param {string} name
   */
  take(name) {
    this.#shown.filter((one) => one.name === name).forEach((one) => this.#remove(one));
  }

  clear() {
    [...this.#shown].forEach((one) => this.#remove(one));
  }
}
