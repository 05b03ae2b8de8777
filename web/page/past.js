// The states that a game can be rewound to: one at each sixth frame, of a minute at most. They stand in one piece of memory, which is taken when a game
// is opened; the newest takes the place of the oldest.

const FRAMES_BETWEEN = 6;
// a minute has 3,584 frames
const MOST_STATES = 597;
const MOST_BYTES = 64 << 20;

/**
 * Memory for so many states of this length, or for fewer where there is no more.
 * @param {number} states
 * @param {number} length
 */
function roomFor(states, length) {
  for (let count = states; ; count = Math.floor(count / 2)) {
    try {
      return new Uint8Array(count * length);
    } catch (error) {
      if (count < 2) {
        throw error;
      }
    }
  }
}

export class Past {
  /** The place of the newest state, and how many there are. */
  newest = -1;
  count = 0;
  /** How many frames were played. */
  frame = 0;

  /**
   * For states of this length.
   * @param {number} length
   */
  constructor(length) {
    this.length = length;
    this.bytes = roomFor(Math.min(MOST_STATES, Math.floor(MOST_BYTES / length)), length);
    this.room = this.bytes.length / length;
    // of each state: the frame after which it was kept, and until when the clock had been given then
    this.frames = new Float64Array(this.room);
    this.until = new Float64Array(this.room);
  }

  /** Forgets all states: the game is another one. */
  clear() {
    this.newest = -1;
    this.count = 0;
    this.frame = 0;
  }

  /** How many frames have been played since the newest state. */
  since() {
    return this.frame - this.frames[this.newest];
  }

  /** How many frames can be played until a state is due, from 1 on. */
  left() {
    return FRAMES_BETWEEN - this.since();
  }

  /**
   * So many frames were played: whether a state is due.
   * @param {number} count
   */
  played(count) {
    this.frame += count;
    return this.left() === 0;
  }

  /**
   * Keeps the state in which the game is; `write` leaves it in the bytes that it is given.
   * @param {number} until
   * @param {(bytes: Uint8Array) => void} write
   */
  keep(until, write) {
    const place = (this.newest + 1) % this.room;
    write(this.at(place));
    this.frames[place] = this.frame;
    this.until[place] = until;
    this.newest = place;
    this.count = Math.min(this.count + 1, this.room);
  }

  /** @param {number} place */
  at(place) {
    return this.bytes.subarray(place * this.length, (place + 1) * this.length);
  }

  /**
   * The state that is so many states before the game, or the oldest. Null where the game is in the oldest.
   * @param {number} states
   * @returns {PastState | null}
   */
  before(states) {
    // a game that was played on from the newest state goes back to that one first
    const first = this.since() > 0 ? 1 : 0;
    const steps = Math.min(states - first, this.count - 1);
    if (steps + first === 0) {
      return null;
    }
    const place = (this.newest - steps + this.room) % this.room;
    return { place, steps, bytes: this.at(place), until: this.until[place] };
  }

  /**
   * The game is in this state: those behind it are forgotten.
   * @param {PastState} state
   */
  goTo({ place, steps }) {
    this.newest = place;
    this.count -= steps;
    this.frame = this.frames[place];
  }
}
