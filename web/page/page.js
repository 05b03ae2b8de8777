// The page begins: its parts, and what connects them. Everything that plays is in the worker.
import { keepAwake } from './awake.js';
import { Client } from './client.js';
import { Dialogs, isAnyOpen } from './dialogs.js';
import { $, made } from './dom.js';
import { Gamepads, Held, Keyboard } from './held.js';
import { Home } from './home.js';
import { stored, usualKeys, usualPad } from './keys.js';
import { Menus } from './menu.js';
import { PALETTES } from './palettes.js';
import { Playing } from './playing.js';
import { forPrograms } from './programs.js';
import { Refused } from './refusals.js';
import { noteOpen, openBefore, remember, remembered } from './settings.js';
import { Stage } from './stage.js';
import { steer } from './steering.js';
import { Store } from './state.js';
import { Taking, refusalLine } from './taking.js';
import { Ticking } from './ticking.js';
import { Toasts } from './toasts.js';
import { connectTouch } from './touch.js';
import { look } from './versions.js';
import { KEEPS } from './words.js';

const DEMO = 'demo.gb';
const SPEEDS = [2, 4, 0];

export class Page {
  store = new Store();
  held = new Held();
  /** the files of the page were looked at: it may be loaded anew until then, and no game is opened before */
  looked = Promise.resolve();
  #given = new URLSearchParams(location.search);
  /** how many questions of the worker's the player has before them */
  #asking = 0;

  constructor() {
    const isMax = this.#given.get('speed') === 'max';
    const isTest = this.#given.get('paused') === '1';
    this.toasts = new Toasts((text) => {
      if (this.store.now.said?.text === text && !this.store.now.isRefused) {
        this.store.change({ said: { text: '', kind: 'said', number: this.store.now.said.number + 1 } });
      }
    });
    this.client = new Client('worker.js', this.#told());
    this.dialogs = new Dialogs((change) => this.store.change({ holds: this.store.now.holds + change }));
    this.#remembered();
    this.stage = new Stage(this.store);
    this.playing = new Playing(this, { isTest, isMax });
    this.home = new Home(this);
    this.taking = new Taking(this);
    this.menus = new Menus(this);
    const act = (/** @type {string} */ action) => this.playing.act(action);
    const isFree = () => !isAnyOpen();
    this.keyboard = new Keyboard(this.held, () => this.store.now.keys, () => this.store.now.game !== null && isFree(), act);
    this.gamepads = new Gamepads(this.held, () => this.store.now.pad, act, steer);
    this.ticking = new Ticking(this.client, this.store, this.held, this.gamepads, {
      shown: (place) => this.playing.shown(place),
      say: (text) => this.say(text),
      goOn: () => this.store.change({ isWaiting: false }),
      isFree,
    });
    keepAwake(this.store);
    this.#connect();
  }

  // ---- what is said

  /**
   * @param {string} text
   * @param {ToastHow} [how]
   */
  say = (text, how = {}) => {
    // first, as it may take away a line of the same words
    this.toasts.show(text, how);
    this.store.change({ said: { text, kind: how.kind ?? 'said', number: (this.store.now.said?.number ?? 0) + 1 } });
  };

  /**
   * Shows a refusal. `file` is the name of the file that it is about.
   * @param {unknown} error
   * @param {string | null} [file]
   */
  refuse(error, file = null) {
    if (this.store.now.game === null) {
      this.store.change({ isRefused: true });
    }
    this.say(refusalLine(error, file), { kind: 'refused' });
  }

  /**
   * Does what a control says; a refusal is shown, and the game goes on if it is open.
   * @param {() => Promise<unknown>} run
   */
  tried = async (run) => {
    try {
      await run();
    } catch (error) {
      this.refuse(error);
    }
  };

  /**
   * Says something of this browser or of the page that stays.
   * @param {string} name
   * @param {string} text
   */
  warn(name, text) {
    const there = document.getElementById(name) ?? made('p', { id: name });
    there.textContent = text;
    $('warnings').append(there);
    if (this.store.now.view === 'game') {
      this.toasts.show(text, { kind: 'refused', name });
    }
  }

  // ---- the worker

  /** @returns {import('./client.js').Told} */
  #told() {
    return {
      picture: ({ shades, ...place }) => {
        this.stage.picture(shades);
        this.playing.shown(place);
      },
      saved: (place) => this.playing.shown(place),
      trouble: ({ line }) => {
        this.warn('trouble', line);
      },
      closed: () => this.playing.over(),
      stopped: ({ refused }) => {
        this.playing.over();
        this.store.change({ isRefused: true });
        const actions = [{ label: 'To your games', run: () => this.tried(() => this.playing.close()) }];
        this.say(refusalLine(refused, null), { kind: 'refused', stays: true, actions });
      },
      question: async ({ question, number, yes, no }) => {
        this.#asking += 1;
        const said = await this.dialogs.ask({ text: question, yes, no });
        this.#asking -= 1;
        this.client.tell('answered', { number, said });
      },
    };
  }

  // ---- the beginning

  #remembered() {
    const palette = Math.floor(Number(remembered('palette')));
    const speed = Number(remembered('speed') ?? 0);
    const touch = remembered('touch');
    this.store.change({
      palette: palette >= 0 && palette < PALETTES.length ? palette : 0, speed: SPEEDS.includes(speed) ? speed : 0,
      isTouch: touch === null ? matchMedia('(pointer: coarse)').matches : touch === '1',
      keys: stored(remembered('keys'), usualKeys(), (value) => typeof value === 'string'),
      pad: stored(remembered('pad'), usualPad(), (value) => value === null || Number.isSafeInteger(value)),
    });
  }

  #connect() {
    const { playing, store } = this;
    const clicks = /** @type {[string, () => unknown][]} */ ([
      ['pause', () => playing.act('Pause')], ['full', () => playing.act('Full screen')], ['menu-open', () => playing.act('Menu')],
      ['close', () => this.tried(() => playing.close())], ['demo', () => this.tried(() => this.demo())],
    ]);
    for (const [id, run] of clicks) {
      $(id).addEventListener('click', (event) => {
        run();
        // a mouse or a finger goes on with the game; a keyboard stays at its button
        if (event.detail > 0 && store.now.game !== null && !isAnyOpen()) {
          $('screen').focus({ preventScroll: true });
        }
      });
    }
    connectTouch(this.held, {
      toggleFast: () => playing.toggleFast(),
      back: () => this.tried(() => playing.back()),
      left: () => $('screen').focus({ preventScroll: true }),
    });
    $('game').addEventListener('pointerdown', (event) => {
      if (event.pointerType === 'touch' && !store.now.isTouch && remembered('touch') === null) {
        store.change({ isTouch: true });
      }
      if (store.now.isWaiting && !(event.target instanceof Element && event.target.closest('button'))) {
        playing.pause(false);
      }
    });
    document.addEventListener('visibilitychange', () => {
      if (document.visibilityState === 'hidden') {
        this.#left();
      }
    });
    addEventListener('pagehide', () => this.#left());
    const keyboard = /** @type {any} */ (navigator).keyboard;
    keyboard?.getLayoutMap?.().then((/** @type {ReadonlyMap<string, string>} */ printed) => store.change({ printed }), () => {});
  }

  /** The page is hidden or closed: everything is saved. */
  #left() {
    if (this.store.now.game !== null) {
      this.held.clear();
      this.client.ask('save', { leaving: true }).then((place) => this.playing.shown(place), () => {});
    }
  }

  async demo() {
    const { bytes, name } = await this.fetched(DEMO);
    await this.playing.open({ rom: bytes, name });
  }

  /** @param {string} url */
  async fetched(url) {
    /** @type {Response} */
    let answer;
    try {
      answer = await fetch(url);
    } catch {
      throw Refused.own('fetch');
    }
    if (!answer.ok) {
      throw Refused.own('fetch');
    }
    const name = decodeURIComponent(new URL(url, location.href).pathname.split('/').at(-1) ?? '');
    return { name, bytes: new Uint8Array(await answer.arrayBuffer()) };
  }

  /** Asks the browser once to keep what is here. */
  async askToKeep() {
    const { keeps } = this.store.now;
    if (!navigator.storage?.persist || keeps === 'window' || keeps === 'memory') {
      return;
    }
    let isKept = await navigator.storage.persisted();
    if (!isKept && remembered('asked') === null) {
      remember('asked', '1');
      isKept = await navigator.storage.persist();
    }
    this.store.change({ keeps: isKept ? 'kept' : 'unsure' });
  }

  /** What the worker found of this browser: where games stay. */
  async #loaded() {
    const { keepsNothing, isKept } = await this.client.ask('load');
    if (isKept === false) {
      this.store.change({ keeps: 'memory' });
      this.warn('keeps-nothing', KEEPS.memory);
    } else if (keepsNothing) {
      this.store.change({ keeps: 'window' });
      this.warn('keeps-nothing', KEEPS.window);
    } else if (navigator.storage?.persisted) {
      this.store.change({ keeps: await navigator.storage.persisted() ? 'kept' : 'unsure' });
    }
  }

  async begin() {
    this.looked = look().then((mixture) => {
      if (mixture !== null) {
        this.warn('mixture', mixture);
      }
      navigator.serviceWorker?.register('service_worker.js', { updateViaCache: 'none' }).catch(() => {});
    });
    this.ticking.begin();
    this.client.watch(() => this.#asking > 0, (isLate) => {
      if (isLate) {
        this.say(refusalLine(Refused.own('late'), null), { kind: 'refused', stays: true, name: 'late' });
      } else {
        this.toasts.take('late');
        this.say('The browser goes on.');
      }
    });
    await this.#loaded();
    const cart = this.#given.get('cart');
    const before = openBefore();
    if (cart !== null) {
      const { bytes, name } = await this.fetched(cart);
      await this.playing.open({ rom: bytes, name });
    } else if (before !== null) {
      await this.playing.open({ id: before }, true).catch((error) => {
        // it was deleted since, or kept nowhere
        if (error.kind !== 'gone') {
          throw error;
        }
        noteOpen(null);
        this.store.change({ isRefused: false });
      });
    } else {
      await this.home.show();
    }
  }
}

const page = new Page();
Object.assign(window, { gbkeep: forPrograms(page.client, (place) => page.playing.shown(place)) });
page.tried(() => page.begin()).then(async () => {
  if (page.store.now.view === 'start') {
    await page.tried(() => page.home.show());
  }
  document.documentElement.dataset.ready = String(Math.round(performance.now()));
});
