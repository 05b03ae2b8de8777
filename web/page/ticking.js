// The moments of the page: what is held goes to the worker, one moment at a time. A game that stands still can be rewound, too.
import { isStill } from './state.js';
import { rewoundBy } from './words.js';

const FRAMES_A_SECOND = 4194304 / 70224;

export class Ticking {
  #client;
  #store;
  #held;
  #gamepads;
  #does;
  #isAsked = false;
  #isOldest = false;

  /**
   * @param {import('./client.js').Client} client
   * @param {Store} store
   * @param {import('./held.js').Held} held
   * @param {import('./held.js').Gamepads} gamepads
   * @param {{ shown: (place: any) => void, say: (text: string) => void, goOn: () => void, isFree: () => boolean }} does
   */
  constructor(client, store, held, gamepads, does) {
    this.#client = client;
    this.#store = store;
    this.#held = held;
    this.#gamepads = gamepads;
    this.#does = does;
  }

  begin() {
    requestAnimationFrame(() => this.begin());
    this.#moment();
  }

  async #moment() {
    const store = this.#store;
    this.#gamepads.look(store.now.game !== null && this.#does.isFree());
    const { game, isWaiting, rewound } = store.now;
    if (game === null || this.#isAsked || document.visibilityState !== 'visible') {
      return;
    }
    const isBack = this.#held.isBack();
    if (rewound !== null && !isBack) {
      store.change({ rewound: null });
      this.#does.say(rewoundBy(rewound / FRAMES_A_SECOND, this.#isOldest));
    }
    if (isWaiting && this.#held.isPressed()) {
      this.#does.goOn();
    }
    if (isStill(store.now) && !isBack) {
      return;
    }
    this.#isAsked = true;
    try {
      const held = this.#held.look();
      const isFast = held.isFast || store.now.isFast;
      store.change({ runsFast: held.isFast });
      const got = await this.#client.ask('tick', { held: held.held, speed: isFast ? store.now.speed : 1, isBack: held.isBack });
      this.#does.shown(got);
      if (store.now.game !== null && got.rewound !== undefined) {
        this.#isOldest = (store.now.rewound !== null && this.#isOldest) || got.rewound === null;
        store.change({ rewound: (store.now.rewound ?? 0) + (got.rewound ?? 0) });
      }
    } catch {
      // the worker has told why it stopped
    }
    this.#isAsked = false;
  }
}
