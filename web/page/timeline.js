// The last hour of play of a game that is open: moments in the file `timeline` of its folder. It is a cache: it is written beside the game and never flushed,
// what can't be read of it is skipped, and it may be deleted at any time.
import { closeAll, partOf, put, wholeOf } from './disk.js';
import { digest, hex } from './digest.js';
import { SECTOR } from './library.js';
import { bytesOf, HEAD_LENGTH, momentAt, momentsIn, played, roomFor, sectorsOf, thinned } from './moments.js';
import { deflated, inflated, packed, PACKED_LENGTH, unpacked } from './pack.js';
import { FRAMES_A_SECOND } from './played.js';
import { Refused } from './refusals.js';

/** The timeline of a game takes so many bytes at most. */
export const MOST_BYTES = 6 << 20;
// a moment each ten seconds of play; a game that runs fast has one each two seconds
const FRAMES_BETWEEN = Math.floor(10 * FRAMES_A_SECOND);
const TIME_BETWEEN = 2000;

export class Timeline {
  /** @type {Handle | null} */
  handle;
  /** Oldest first.
   * @type {Moment[]} */
  moments = [];
  /** The packed pictures that were read or written, by the numbers of their moments.
   * @type {Map<number, Uint8Array>} */
  pictures = new Map();
  /** The greatest number that a moment had. */
  last = 0;
  /** How many frames of the game had been played in all when a moment was kept last, and when that was. */
  frames = 0;
  time = -Infinity;
  /** What is being written, one after another.
   * @type {Promise<void>} */
  writing = Promise.resolve();
  isWriting = false;
  /** Something could not be written, and nothing more is. */
  isOver = false;
  /** Nobody was told yet that it is over. */
  hasFailed = false;
  /** What the file takes. */
  bytes = 0;

  /** @param {Handle | null} handle */
  constructor(handle) {
    this.handle = handle;
    if (handle === null) {
      this.isOver = true;
      return;
    }
    try {
      if (handle.getSize() > MOST_BYTES) {
        handle.truncate(0);
      }
      const bytes = wholeOf(handle);
      this.bytes = bytes.length;
      this.moments = momentsIn(bytes);
      this.last = Math.max(0, ...this.moments.map(({ number }) => number));
    } catch {
      this.fail();
    }
  }

  fail() {
    this.hasFailed = !this.isOver;
    this.isOver = true;
  }

  /**
   * The game goes on with an image with so many inputs: moments behind are dropped. Answers how many frames of the game were played in all, at least.
   * @param {number} image
   * @param {bigint} count
   */
  goOn(image, count) {
    this.moments = played(this.moments, image, count);
    this.frames = Math.max(0, ...this.moments.map((moment) => moment.frames));
    return this.frames;
  }

  /**
   * Whether a moment is due, when so many frames were played in all.
   * @param {number} frames
   */
  isDue(frames) {
    return !this.isOver && !this.isWriting && frames - this.frames >= FRAMES_BETWEEN && performance.now() - this.time >= TIME_BETWEEN;
  }

  /**
   * Keeps a moment: a copy of the state and of the picture. It is packed and written while the game goes on.
   * @param {MomentTold} told
   * @param {Uint8Array} state
   * @param {Uint8Array} shades
   */
  keep(told, state, shades) {
    this.frames = told.frames;
    this.time = performance.now();
    this.isWriting = true;
    this.writing = this.writing.then(async () => {
      try {
        await this.write(told, packed(shades), await deflated(state));
      } catch {
        this.fail();
      } finally {
        this.isWriting = false;
      }
    });
    return this.writing;
  }

  /**
   * @param {MomentTold} told
   * @param {Uint8Array} picture
   * @param {Uint8Array} state
   */
  async write(told, picture, state) {
    const number = this.last + 1;
    const bytes = await bytesOf(number, told, await deflated(picture), state);
    const moment = momentAt(bytes, 0);
    if (this.handle === null || this.isOver || moment === null) {
      return;
    }
    const { moments, sector } = roomFor(thinned(this.moments, told.frames), sectorsOf(bytes.length), MOST_BYTES / SECTOR);
    if (sector < 0) {
      return;
    }
    this.last = number;
    this.moments = moments;
    put(this.handle, bytes, sector * SECTOR);
    this.bytes = Math.max(this.bytes, sector * SECTOR + bytes.length);
    this.moments.push({ ...moment, sector });
    this.pictures.set(number, picture);
    const there = new Set(this.moments.map((one) => one.number));
    for (const one of this.pictures.keys()) {
      if (!there.has(one)) {
        this.pictures.delete(one);
      }
    }
  }

  /**
   * The packed picture and the packed state of a moment; null where they are not what was written, and then it is dropped.
   * @param {Moment} moment
   */
  async partsOf(moment) {
    try {
      if (this.handle !== null) {
        const bytes = partOf(this.handle, moment.sector * SECTOR + HEAD_LENGTH, moment.pictureLength + moment.stateLength);
        if (hex(await digest(bytes)) === moment.digest) {
          return { picture: bytes.subarray(0, moment.pictureLength), state: bytes.subarray(moment.pictureLength) };
        }
      }
    } catch {
      // it is none
    }
    this.drop(moment);
    return null;
  }

  /** @param {Moment} moment */
  drop(moment) {
    this.moments = this.moments.filter((one) => one !== moment);
    this.pictures.delete(moment.number);
  }

  /**
   * The packed picture of a moment; null where there is none.
   * @param {Moment} moment
   */
  async pictureOf(moment) {
    const there = this.pictures.get(moment.number);
    if (there !== undefined) {
      return there;
    }
    const parts = await this.partsOf(moment);
    try {
      const picture = parts && await inflated(parts.picture, PACKED_LENGTH);
      if (picture?.length === PACKED_LENGTH) {
        this.pictures.set(moment.number, picture);
        return picture;
      }
    } catch {
      // it is none
    }
    this.drop(moment);
    return null;
  }

  /**
   * What is shown of the timeline, when so many frames were played in all.
   * @param {number} frames
   */
  async shown(frames) {
    await this.writing;
    const moments = [];
    for (const moment of thinned(this.moments, frames)) {
      const picture = await this.pictureOf(moment);
      if (picture !== null) {
        moments.push({ number: moment.number, seconds: (frames - moment.frames) / FRAMES_A_SECOND, picture: unpacked(picture) });
      }
    }
    return { moments, bytes: this.bytes, most: MOST_BYTES };
  }

  /**
   * A moment and its state, which is so long. Refused where it is gone.
   * @param {number} number
   * @param {number} length
   * @returns {Promise<{moment: Moment, state: Uint8Array}>}
   */
  async stateOf(number, length) {
    await this.writing;
    const moment = this.moments.find((one) => one.number === number);
    if (moment !== undefined) {
      const parts = await this.partsOf(moment);
      try {
        const state = parts && await inflated(parts.state, length);
        if (state?.length === length) {
          return { moment, state };
        }
      } catch {
        // it is none
      }
      this.drop(moment);
    }
    throw Refused.own('moment');
  }

  /** Gives its room back, where the browser has no more: it is a cache. Answers whether there was any. */
  clear() {
    const had = this.bytes > 0;
    try {
      this.handle?.truncate(0);
    } catch {
      return false;
    }
    this.moments = [];
    this.pictures.clear();
    this.bytes = 0;
    return had;
  }

  close() {
    closeAll([this.handle]);
    this.handle = null;
  }
}
