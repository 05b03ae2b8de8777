// How the game that is open is played: frames by the clock, as fast as it goes, or as many as were asked for; and saves between them.
import { refusalOf } from './disk.js';
import { FRAMES_A_SECOND } from './played.js';
import { Refused } from './refusals.js';

// a save a second; with more unsaved inputs than this, a save before
const FRAMES_A_SAVE = 60n;
const MOST_UNSAVED = 3000n;
// how long frames are played in one piece, in milliseconds, and how much of them is made up for where the page was late
const PIECE = 8;
const FAST_PIECE = 11;
const MOST_LATE = 250;
const PICTURE_TIME = 1000 / 60;
// how long each state is shown while the game is rewound, in milliseconds: a second of play goes by in a third of one
const REWIND_TIME = 1000 / 30;
// of a game that runs faster: how many of its frames are played at once
const MOST_AT_ONCE = 4;

const now = () => performance.now();

/** Tells the page what nobody asked for.
 * @param {string} what
 * @param {object} more
 * @param {Transferable[]} moved
 */
export function tell(what, more = {}, moved = []) {
  postMessage({ tell: what, ...more }, { transfer: moved });
}

export class Player {
  /** The game that is open.
   * @type {Game | null} */
  game = null;
  /** Why the game that was open stopped.
   * @type {Refused | null} */
  stopped = null;
  isPaused = false;
  /** It runs without the page's moments, as fast as it goes. */
  isMax = false;
  /** Something is done that no frame may come between. */
  isBusy = false;
  /** @type {Order[]} */
  orders = [];
  buttons = 0;
  speed = 1;
  // since when frames are counted by time, and how many were played since
  since = 0;
  played = 0;
  // when it was saved, drawn and rewound last
  kept = 0;
  drawn = 0;
  wentBack = 0;
  pump = new MessageChannel();
  isPumping = false;

  /** @param {() => void} failed a game was ended by what can't be undone: the next one has a module of its own */
  constructor(failed) {
    this.failed = failed;
    this.pump.port1.onmessage = () => this.pumped();
    // what was pressed and not saved is saved a second later, also in a pause
    setInterval(() => this.saveWhereLate(), 500);
  }

  /** The game that is open. */
  get open() {
    if (this.game === null) {
      throw this.stopped ?? Refused.own('closed');
    }
    return this.game;
  }

  /**
   * Where the game stands.
   * @returns {GamePlace}
   */
  get place() {
    const { count, saved } = this.open;
    return { count, saved };
  }

  /**
   * A game is played from now on.
   * @param {Game} game
   * @param {{paused: boolean, max: boolean}} how
   */
  begin(game, { paused, max }) {
    this.game = game;
    this.stopped = null;
    this.isPaused = paused;
    this.isMax = max;
    this.buttons = 0;
    this.kept = now();
    this.changed();
  }

  /** Saves and closes the game that is open. */
  close() {
    const closing = this.game;
    if (closing !== null) {
      this.game = null;
      this.stopped = null;
      this.refuseOrders(Refused.own('closed'));
      tell('closed');
      try {
        closing.close();
      } finally {
        this.tellTroubles(closing);
      }
    }
  }

  /**
   * Ends the game after what can't be undone: what was saved stays saved, and what was not is lost.
   * @param {unknown} error
   */
  stop(error) {
    const stopped = refusalOf(error);
    const over = this.game;
    this.stopped = stopped;
    this.game = null;
    this.failed();
    try {
      over?.drop();
    } finally {
      this.refuseOrders(stopped);
      tell('stopped', { refused: stopped.told() });
    }
  }

  /** @param {Refused} refused */
  refuseOrders(refused) {
    this.orders.splice(0).forEach(({ call }) => postMessage({ call, refused: refused.told() }));
  }

  /**
   * Does something with the game that is open; where it fails, the game is over.
   * @template Kept
   * @param {(game: Game) => Kept} run
   * @returns {Kept}
   */
  guarded(run) {
    try {
      return run(this.open);
    } catch (error) {
      if (this.game !== null) {
        this.stop(error);
      }
      throw this.stopped ?? error;
    }
  }

  /** Saves. */
  keep() {
    this.guarded((game) => {
      this.kept = now();
      game.keep();
      this.tellTroubles(game);
    });
  }

  /**
   * What went wrong, and the game goes on.
   * @param {Game} game
   */
  tellTroubles(game) {
    game.troubles.splice(0).forEach((line) => tell('trouble', { line }));
  }

  /**
   * Does something with the files of the game that is open, once everything is saved; where nobody knows then which game is played, it is over.
   * @param {(game: Game) => Promise<void>} run
   */
  async change(run) {
    this.keep();
    const changing = this.open;
    try {
      await run(changing);
    } catch (error) {
      if (changing.isOver && this.game === changing) {
        this.stop(error);
      }
      throw error;
    }
  }

  keepWhereDue() {
    const { count, saved } = this.open;
    const unsaved = count - saved;
    if (unsaved >= MOST_UNSAVED || (unsaved >= FRAMES_A_SAVE && now() - this.kept >= 1000)) {
      this.keep();
    }
  }

  saveWhereLate() {
    const { game } = this;
    if (game !== null && !this.isBusy && game.count > game.saved && now() - this.kept >= 1000) {
      try {
        this.keep();
        tell('saved', this.place);
      } catch {
        // the page was told
      }
    }
  }

  showPicture() {
    const shades = this.open.picture();
    this.drawn = now();
    tell('picture', { ...this.place, shades }, [shades.buffer]);
  }

  /** Begins to count frames by time from now on. */
  countAnew() {
    this.since = now();
    this.played = 0;
  }

  /** The game is another one, or elsewhere: it is shown, and frames are counted from now on. */
  changed() {
    this.countAnew();
    this.showPicture();
    this.tellTroubles(this.open);
  }

  /**
   * A frame, or some where they are alike; then a save where one is due.
   * @param {number} held
   * @param {number} count
   */
  play(held, count) {
    this.open.frames(held, count);
    this.keepWhereDue();
  }

  /**
   * The frames that were asked for, or else frames with the buttons that are held, until this time or after so many. Answers how many.
   * @param {number} time
   * @param {number} most
   */
  playUntil(time, most) {
    let count = 0;
    while (count < most && now() < time) {
      const [order] = this.orders;
      if (order) {
        const some = Math.min(order.left, MOST_AT_ONCE, most - count);
        this.play(order.buttons, some);
        order.left -= some;
        count += some;
        if (order.left === 0) {
          this.orders.shift();
          postMessage({ call: order.call, answer: this.place });
        }
      } else {
        this.play(this.buttons, 1);
        count += 1;
      }
    }
    return count;
  }

  /** Whether frames are to be played without a moment of the page's. */
  isFree() {
    return this.game !== null && !this.isBusy && ((this.isMax && !this.isPaused) || (this.isPaused && this.orders.length > 0));
  }

  pumps() {
    if (!this.isPumping && this.isFree()) {
      this.isPumping = true;
      this.pump.port2.postMessage(null);
    }
  }

  pumped() {
    this.isPumping = false;
    if (!this.isFree()) {
      return;
    }
    try {
      this.guarded(() => {
        const until = now() + PIECE;
        if (this.isPaused) {
          while (this.orders.length > 0 && now() < until) {
            this.playUntil(until, this.orders[0].left);
          }
        } else {
          this.playUntil(until, Infinity);
        }
        if (now() - this.drawn >= PICTURE_TIME || !this.isFree()) {
          this.showPicture();
        }
      });
    } catch {
      // the page was told
    }
    this.pumps();
  }

  /**
   * A moment in which the game is to be rewound: it goes to the state before, where the last was shown for long enough. `rewound` is by how many frames it
   * went back; null where there is no older state.
   */
  rewindABit() {
    /** @type {number | null} */
    let rewound = 0;
    if (now() - this.wentBack >= REWIND_TIME) {
      this.wentBack = now();
      rewound = this.open.rewind(1);
      if (rewound !== null) {
        this.keepWhereDue();
        this.showPicture();
      }
    }
    this.countAnew();
    return { ...this.place, rewound };
  }

  /** How many frames are due by the clock. */
  due() {
    const rate = this.speed * FRAMES_A_SECOND / 1000;
    const late = now() - this.since - this.played / rate;
    if (late > MOST_LATE) {
      this.countAnew();
      this.played = -1;
    }
    return Math.floor((now() - this.since) * rate) - this.played;
  }

  /**
   * A moment of the page's: the frames that are due by the clock, or, fast, as many as there is time for; or the state before.
   * @param {Tick} moment
   */
  tick({ held, speed, isBack }) {
    this.buttons = held;
    if (this.game === null || this.isBusy || this.isMax || (this.isPaused && !isBack)) {
      return this.game === null ? {} : this.place;
    }
    return this.guarded(() => {
      if (isBack) {
        return this.rewindABit();
      }
      if (speed !== this.speed) {
        this.speed = speed;
        this.countAnew();
        this.played = -1;
      }
      if (speed === 0) {
        this.playUntil(now() + FAST_PIECE, Infinity);
        this.countAnew();
      } else {
        const due = this.due();
        if (due <= 0) {
          return this.place;
        }
        // a computer that is too slow for the speed plays as fast as it goes, and one that is too slow for the game is late
        this.played += this.playUntil(speed === 1 ? Infinity : now() + FAST_PIECE, due);
      }
      this.showPicture();
      return this.place;
    });
  }
}
