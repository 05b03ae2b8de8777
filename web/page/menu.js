// The menus: of the game that is played, and of the page; and the dialogs that they lead to.
import { $ } from './dom.js';
import { KeysDialog } from './keys_dialog.js';
import { nameOfKey } from './keys.js';
import { MODULE } from './made.js';
import { remember } from './settings.js';
import { showStates } from './states_dialog.js';
import { showTimeline } from './timeline_dialog.js';

/** @param {string} name */
const radios = (name) => /** @type {HTMLInputElement[]} */ ([...document.querySelectorAll(`input[name="${name}"]`)]);

export class Menus {
  #page;
  #keys;

  /** @param {Page} page */
  constructor(page) {
    this.#page = page;
    this.#keys = new KeysDialog(page);
    this.#connect();
    this.#view();
  }

  #connect() {
    const { dialogs, playing, store, tried } = this.#page;
    for (const item of document.querySelectorAll('[data-act]')) {
      item.addEventListener('click', () => {
        dialogs.close('menu');
        playing.act(item.getAttribute('data-act') ?? '');
      });
    }
    const clicks = /** @type {[string, () => unknown][]} */ ([
      ['continue', () => playing.pause(false)], ['export', () => playing.takeOut()], ['export-battery', () => playing.takeBatteryOut()],
      ['open-other', () => $('file').click()], ['power', () => playing.reset()], ['menu-close', () => playing.close()],
      ['undo-load', () => playing.undoLoad()],
      ['about-demo', () => this.#page.demo()], ['about-open', () => $('file').click()], ['about-keys', () => this.openKeys()],
    ]);
    for (const [id, run] of clicks) {
      $(id).addEventListener('click', () => {
        dialogs.closeAll();
        tried(async () => run());
      });
    }
    for (const radio of radios('palette')) {
      radio.addEventListener('change', () => {
        store.change({ palette: Number(radio.value) });
        remember('palette', radio.value);
      });
    }
    for (const radio of radios('speed')) {
      radio.addEventListener('change', () => {
        store.change({ speed: Number(radio.value) });
        remember('speed', radio.value);
      });
    }
    $('touch').addEventListener('change', () => {
      const isTouch = $('touch', HTMLInputElement).checked;
      store.change({ isTouch });
      remember('touch', isTouch ? '1' : '0');
    });
    $('more').addEventListener('click', () => dialogs.show('about'));
    $('about-module').hidden = MODULE.isOfSources;
    // an iPhone has no full screen for pages
    $('full').hidden = !document.fullscreenEnabled;
  }

  #view() {
    const { store } = this.#page;
    store.view(['palette'], ({ palette }) => radios('palette').forEach((radio) => { radio.checked = Number(radio.value) === palette; }));
    store.view(['speed'], ({ speed }) => radios('speed').forEach((radio) => { radio.checked = Number(radio.value) === speed; }));
    store.view(['isTouch'], ({ isTouch }) => {
      $('touch', HTMLInputElement).checked = isTouch;
      document.documentElement.classList.toggle('no-keys', isTouch);
    });
    store.view(['keys', 'printed'], ({ keys, printed }) => {
      for (const item of document.querySelectorAll('[data-act]')) {
        const hint = item.querySelector('kbd');
        const code = keys[item.getAttribute('data-act') ?? ''] ?? '';
        if (hint) {
          hint.textContent = code === '' ? '' : nameOfKey(code, printed);
        }
      }
    });
    store.view(['count', 'saved', 'keeps'], ({ count, saved, keeps }) => {
      const words = keeps === 'window' ? 'kept until this window is closed:' : keeps === 'memory' ? 'not kept:' : 'saved';
      $('count').textContent = `${words} ${saved.toLocaleString('en')} of ${count.toLocaleString('en')} inputs.`;
    });
    store.view(['isPaused', 'game'], ({ game }) => { $('menu-head').textContent = game?.title ?? 'Menu'; });
  }

  openMenu() {
    return this.#show('menu');
  }

  openStates() {
    return this.#show('states', () => showStates(this.#page));
  }

  openTimeline() {
    return this.#show('timeline', () => showTimeline(this.#page));
  }

  openKeys() {
    return this.#show('keys', () => this.#keys.begin()).then(() => this.#keys.end());
  }

  /**
   * Shows a dialog, and goes back to the picture behind it.
   * @param {string} id
   * @param {() => unknown} [fill]
   */
  async #show(id, fill) {
    const { dialogs, held, store } = this.#page;
    held.clear();
    const shown = dialogs.show(id);
    await fill?.();
    await shown;
    if (store.now.game !== null && !document.querySelector('dialog[open]')) {
      $('screen').focus({ preventScroll: true });
    }
  }
}
