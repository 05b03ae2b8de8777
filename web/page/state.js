// What the page shows, as data. Each view is drawn from it, and again where something that it names has changed.

export class PageState {
  /** @type {'start' | 'home' | 'game'} */
  view = 'start';
  /** @type {GameRow[] | null} the games, or null where they are not known yet */
  rows = null;
  /** @type {OpenGame | null} */
  game = null;
  /** a game is being opened */
  isOpening = false;
  /** what was asked for was refused, and no game is open */
  isRefused = false;
  /** the player paused it */
  isPaused = false;
  /** it goes on at the first key or touch: the page was loaded anew */
  isWaiting = false;
  /** how many dialogs it waits for */
  holds = 0;
  count = 0n;
  saved = 0n;
  /** since when it is not all saved, by performance.now(); 0 where it is */
  unsavedSince = 0;
  /** @type {number | null} while it is rewound: by how many frames so far */
  rewound = null;
  /** it stays fast until it is told otherwise */
  isFast = false;
  /** it runs fast at this moment */
  runsFast = false;
  isFull = false;
  isBarShown = true;
  /** @type {'kept' | 'unsure' | 'window' | 'memory' | null} where games stay: here; maybe; until this window is closed; not at all */
  keeps = null;
  /** @type {SaidLine | null} */
  said = null;
  palette = 0;
  isTouch = false;
  /** how many times as fast: 2, 4, or 0 for as fast as it goes */
  speed = 0;
  /** @type {import('./keys.js').Keys} */
  keys = {};
  /** @type {import('./keys.js').Pad} */
  pad = {};
  /** @type {ReadonlyMap<string, string> | null} what is printed on the keys */
  printed = null;
}

export class Store {
  /** @type {PageState} */
  now = new PageState();
  /** @type {{ names: (keyof PageState)[], draw: (state: PageState) => void }[]} */
  #views = [];
  /** @type {Set<keyof PageState>} */
  #changed = new Set();

  /**
   * Draws something now, and whenever one of these has changed.
   * @param {(keyof PageState)[]} names
   * @param {(state: PageState) => void} draw
   */
  view(names, draw) {
    this.#views.push({ names, draw });
    draw(this.now);
  }

  /** @param {Partial<PageState>} part */
  change(part) {
    const names = /** @type {(keyof PageState)[]} */ (Object.keys(part)).filter((name) => this.now[name] !== part[name]);
    if (names.length === 0) {
      return;
    }
    Object.assign(this.now, part);
    if (this.#changed.size === 0) {
      queueMicrotask(() => this.#draw());
    }
    names.forEach((name) => this.#changed.add(name));
  }

  #draw() {
    const changed = this.#changed;
    this.#changed = new Set();
    for (const { names, draw } of this.#views) {
      if (names.some((name) => changed.has(name))) {
        draw(this.now);
      }
    }
  }
}

/**
 * Whether the game that is open stands still.
 * @param {PageState} state
 */
export const isStill = (state) => state.isPaused || state.isWaiting || state.holds > 0;

/**
 * How the page stands, in a word for programs.
 * @param {PageState} state
 */
export function standing(state) {
  if (state.game !== null) {
    return isStill(state) ? 'paused' : 'playing';
  }
  return state.isOpening ? 'opening' : state.isRefused ? 'refused' : 'closed';
}
