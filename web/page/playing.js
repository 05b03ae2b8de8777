// The game that is open: what buttons, keys and menus do to it.
import { sha256 } from './digest.js';
import { $ } from './dom.js';
import { leave } from './downloads.js';
import { PALETTES } from './palettes.js';
import { pngOf } from './picture.js';
import { Refused } from './refusals.js';
import { noteOpen, remember } from './settings.js';
import { isStill } from './state.js';
import { fileName, rewoundBy, said, span, welcome } from './words.js';

const FRAMES_A_SECOND = 4194304 / 70224;
// a second of play is about as many of the states that a game can be rewound to
const STATES_A_SECOND = 10;

export class Playing {
  #page;
  #given;
  #wasStill = false;

  /**
   * @param {Page} page
   * @param {{ isTest: boolean, isMax: boolean }} given how the page was called
   */
  constructor(page, given) {
    this.#page = page;
    this.#given = given;
    page.store.view(['game', 'isPaused', 'isWaiting', 'holds'], () => this.#tellStill());
  }

  /** Tells the worker where the game is to stand still, or to go on. */
  #tellStill() {
    const { store, client } = this.#page;
    const still = isStill(store.now);
    if (store.now.game !== null && still !== this.#wasStill) {
      this.#wasStill = still;
      client.ask('pause', { paused: still }).then((place) => this.shown(place), () => {});
    }
  }

  /**
   * How far the game is, and how much of it is saved.
   * @param {{ count?: bigint, saved?: bigint } | null} place
   */
  shown(place) {
    if (place?.count === undefined || place.saved === undefined) {
      return;
    }
    const { count, saved } = place;
    const { store } = this.#page;
    const { dataset } = $('status');
    dataset.count = String(count);
    dataset.saved = String(saved);
    const isCounting = saved === store.now.saved && store.now.unsavedSince > 0;
    const since = isCounting ? store.now.unsavedSince : performance.now();
    store.change({ count, saved, unsavedSince: count === saved ? 0 : since });
  }

  /**
   * Opens a game. Where it is refused, the one that was open goes on.
   * @param {OpenWhat} what
   * @param {boolean} [isWaiting] it goes on at the first key or touch
   */
  async open(what, isWaiting = false) {
    const page = this.#page;
    const { store } = page;
    const { isTest, isMax } = this.#given;
    store.change({ isOpening: true });
    const old = store.now.game;
    /** @type {any} */
    let got;
    let id = what.id ?? null;
    try {
      await page.looked;
      id ??= what.rom ? await sha256(what.rom) : null;
      const moved = [what.rom, what.battery].flatMap((bytes) => (bytes ? [bytes.buffer] : []));
      got = await page.client.ask('open', { ...what, paused: isTest || isWaiting, max: isMax, test: isTest }, moved);
    } catch (error) {
      if (store.now.game === null) {
        store.change({ isOpening: false, isRefused: true });
        await page.home.show(error instanceof Refused && error.kind === 'older' ? id : null);
      }
      throw error;
    } finally {
      store.change({ isOpening: false });
    }
    page.held.clear();
    page.dialogs.closeAll();
    page.toasts.clear();
    this.#wasStill = isTest || isWaiting;
    store.change({
      game: { title: got.title, name: got.name, isKept: got.isKept !== false }, view: 'game', isRefused: false, isPaused: isTest, isWaiting,
      rewound: null, isFast: false, unsavedSince: 0, count: got.count, saved: got.saved,
    });
    this.shown(got);
    noteOpen(id);
    // once it is drawn: what is hidden takes no focus
    await Promise.resolve();
    page.stage.place();
    page.stage.showBar();
    $('screen').focus({ preventScroll: true });
    const lines = [what.battery ? 'The game begins with the battery file.' : null, welcome(got.welcome), got.notice,
      old !== null && old.name !== got.name ? `${old.title} is saved.` : null].filter(Boolean);
    if (lines.length > 0) {
      page.say(lines.join(' '));
    }
    page.askToKeep();
  }

  /** Saves and closes the game that is open, and shows the others. */
  async close() {
    const { store, client, held, home, dialogs, toasts } = this.#page;
    const isOpen = store.now.game !== null;
    dialogs.closeAll();
    try {
      noteOpen(null);
      toasts.clear();
      if (isOpen) {
        held.clear();
        const { isKept } = store.now.game ?? {};
        store.change({ game: null });
        await client.ask('close');
        this.#page.say(isKept ? 'Saved: nothing is lost.' : 'It is there until this page is closed.');
      }
    } finally {
      if (document.fullscreenElement) {
        await document.exitFullscreen().catch(() => {});
      }
      await home.show(null, true);
    }
  }

  /** The worker says that the game is over. */
  over() {
    this.#page.held.clear();
    this.#page.store.change({ game: null });
  }

  /** @param {boolean} isPaused */
  pause(isPaused) {
    const { store, held } = this.#page;
    if (store.now.game !== null) {
      held.forget();
      store.change({ isPaused, isWaiting: false });
    }
  }

  toggleFast() {
    const { store } = this.#page;
    if (store.now.game !== null) {
      store.change({ isFast: !store.now.isFast });
    }
  }

  /** Goes back by a second, for who can't hold a button. */
  async back() {
    const got = await this.#page.client.ask('rewind', { states: STATES_A_SECOND });
    this.shown(got);
    this.#page.say(rewoundBy(got.rewound / FRAMES_A_SECOND, false));
  }

  async screenshot() {
    const { client, store, say } = this.#page;
    const blob = await pngOf(await client.ask('picture'), store.now.palette);
    leave(blob, fileName(store.now.game?.name ?? 'game', `-${store.now.count}.png`));
    say('The screenshot is among your downloads.');
  }

  async reset() {
    const { client, dialogs, say, store } = this.#page;
    const agrees = await dialogs.ask({
      text: 'Reset the game?',
      more: 'It begins at its title, as when the power is switched off and on. What it saved by its battery stays, and it can be rewound.',
      yes: 'Reset',
    });
    if (agrees && store.now.game) {
      this.shown(await client.ask('power'));
      say(said('reset'));
    }
  }

  async takeOut() {
    const { client, store, say } = this.#page;
    const name = fileName(store.now.game?.name ?? 'game', '.gbkeep');
    leave(await client.ask('image'), name);
    say(`The save file ${name} is among your downloads.`);
  }

  async takeBatteryOut() {
    const { client, store, say } = this.#page;
    const name = fileName(store.now.game?.name ?? 'game', '.sav');
    leave(await client.ask('battery'), name);
    say(`The battery file ${name} is among your downloads.`);
  }

  /** @param {number} slot */
  async keepState(slot) {
    const { client, say } = this.#page;
    this.shown(await client.ask('keepState', { slot }));
    say(`Saved to state ${slot}.`, { actions: [{ label: 'Undo', run: () => this.#page.tried(() => this.undoKeep(slot)) }] });
  }

  /** @param {number} slot */
  async undoKeep(slot) {
    this.shown(await this.#page.client.ask('undoKeep', { slot }));
    this.#page.say(`State ${slot} is as it was before.`);
  }

  /** @param {number} slot */
  async loadState(slot) {
    const { client, say } = this.#page;
    const got = await client.ask('loadState', { slot });
    this.shown(got);
    const actions = [{ label: 'Undo', run: () => this.#page.tried(() => this.undoLoad()) }];
    say([`Loaded state ${slot}. The game before is kept.`, got.notice].filter(Boolean).join(' '), { actions });
  }

  async undoLoad() {
    const got = await this.#page.client.ask('undoLoad');
    this.shown(got);
    this.#page.say(['Back in the game before.', got.notice].filter(Boolean).join(' '));
  }

  /** @param {number} slot */
  async deleteState(slot) {
    await this.#page.client.ask('deleteState', { slot });
    this.#page.say(`State ${slot} was deleted.`, { actions: [{ label: 'Undo', run: () => this.#page.tried(() => this.undoKeep(slot)) }] });
  }

  /** @param {number} number */
  async goToMoment(number) {
    const got = await this.#page.client.ask('goToMoment', { number });
    this.shown(got);
    this.#page.say(`Back by ${span(got.rewound / FRAMES_A_SECOND)}.`);
  }

  async fullScreen() {
    if (document.fullscreenElement) {
      await document.exitFullscreen();
    } else if (document.fullscreenEnabled) {
      await document.documentElement.requestFullscreen({ navigationUI: 'hide' });
    } else {
      this.#page.say('This browser has no full screen for pages: add the page to your home screen.');
    }
  }

  nextPalette() {
    const { store } = this.#page;
    const palette = (store.now.palette + 1) % PALETTES.length;
    store.change({ palette });
    remember('palette', palette);
  }

  /**
   * What a key, a gamepad's button or a menu asks for.
   * @param {string} action
   */
  act(action) {
    const { store, menus, tried } = this.#page;
    /** @type {Record<string, () => unknown>} */
    const does = {
      Pause: () => this.pause(!(store.now.isPaused || store.now.isWaiting)),
      Menu: () => menus.openMenu(),
      'Stay fast': () => this.toggleFast(),
      'Save state': () => this.keepState(1),
      'Load state': () => this.loadState(1),
      States: () => menus.openStates(),
      Timeline: () => menus.openTimeline(),
      'Full screen': () => this.fullScreen(),
      Palette: () => this.nextPalette(),
      Screenshot: () => this.screenshot(),
      Keys: () => menus.openKeys(),
    };
    if (store.now.game !== null) {
      tried(async () => does[action]?.());
    }
  }
}
