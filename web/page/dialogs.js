// Dialogs: each is a <dialog> of index.html, closed by Escape, by its button, and by a click beside it.
import { $, button } from './dom.js';

/** @param {string} id */
const dialogOf = (id) => $(id, HTMLDialogElement);

/** Whether a dialog is open. */
export const isAnyOpen = () => document.querySelector('dialog[open]') !== null;

export class Dialogs {
  #hold;
  /** @type {HTMLDialogElement[]} */
  #open = [];

  /** @param {(change: number) => void} hold has the game wait for one dialog more or less */
  constructor(hold) {
    this.#hold = hold;
    for (const dialog of document.querySelectorAll('dialog')) {
      dialog.addEventListener('click', (event) => {
        const box = dialog.getBoundingClientRect();
        const isBeside = event.target === dialog && event.detail > 0
          && (event.clientX < box.left || event.clientX > box.right || event.clientY < box.top || event.clientY > box.bottom);
        if (isBeside || (event.target instanceof Element && event.target.closest('[data-close]'))) {
          dialog.close();
        }
      });
    }
  }

  /**
   * Opens a dialog, and waits until it is closed.
   * @param {string} id
   * @returns {Promise<void>}
   */
  show(id) {
    const dialog = dialogOf(id);
    if (dialog.open) {
      return Promise.resolve();
    }
    this.#hold(1);
    this.#open.push(dialog);
    return new Promise((done) => {
      dialog.addEventListener('close', () => {
        this.#open = this.#open.filter((one) => one !== dialog);
        this.#hold(-1);
        done();
      }, { once: true });
      dialog.showModal();
      const first = dialog.querySelector('[autofocus]') ?? dialog.querySelector('.primary');
      if (first instanceof HTMLElement) {
        first.focus({ preventScroll: true });
      }
      dialog.scrollTop = 0;
    });
  }

  /** @param {string} id */
  close(id) {
    const dialog = dialogOf(id);
    if (dialog.open) {
      dialog.close();
    }
  }

  closeAll() {
    [...this.#open].forEach((dialog) => dialog.close());
  }

  /**
   * Leaves a dialog without an answer where it is open: what is asked last is what is meant.
   * @param {string} id
   */
  async #leave(id) {
    const dialog = dialogOf(id);
    if (dialog.open) {
      const left = new Promise((done) => dialog.addEventListener('close', done, { once: true }));
      dialog.close();
      await left;
    }
  }

  /**
   * Asks a question: true, false, or null where it was left without an answer.
   * @param {Question} question
   * @returns {Promise<boolean | null>}
   */
  async ask({ text, more = '', yes, no = 'Cancel', isGrave = false }) {
    await this.#leave('question');
    $('question-text').textContent = text;
    $('question-more').textContent = more;
    $('question-more').hidden = more === '';
    /** @type {boolean | null} */
    let said = null;
    for (const [id, label, value] of /** @type {[string, string, boolean][]} */ ([['yes', yes, true], ['no', no, false]])) {
      $(id).textContent = label;
      $(id).onclick = () => {
        said = value;
        this.close('question');
      };
    }
    $('yes').classList.toggle('grave', isGrave);
    $('yes').classList.toggle('primary', !isGrave);
    await this.show('question');
    return said;
  }

  /**
   * Has the player take one of some: its place in the list, or null.
   * @param {string} text
   * @param {string[]} labels
   * @returns {Promise<number | null>}
   */
  async pick(text, labels) {
    await this.#leave('pick');
    $('pick-text').textContent = text;
    /** @type {number | null} */
    let taken = null;
    $('pick-list').replaceChildren(...labels.map((label, place) => button(null, label, () => {
      taken = place;
      this.close('pick');
    })));
    await this.show('pick');
    return taken;
  }
}
