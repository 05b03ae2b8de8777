// How far a game was played: the file `played` of its folder, a sector that is written some times a second and never flushed. It is a courtesy: a file that
// is missing, torn or wrong says nothing, and no game depends on it. After a kill it tells by how much the game was set back.
import { closeAll, put, sectorOf, textOf, wholeOf } from './disk.js';
import { crc32 } from './digest.js';
import { SECTOR } from './library.js';

export const FRAMES_A_SECOND = 4194304 / 70224;
// between two writes, in milliseconds
const BETWEEN = 100;

/**
 * A record as a sector.
 * @param {PlayedRecord} record
 */
export function sectorWith({ image, count, frames, time, isClosed }) {
  const text = JSON.stringify({ image, count: String(count), frames, time, isClosed });
  return sectorOf(`${text} ${crc32(new TextEncoder().encode(text))}`);
}

/**
 * What a sector says; null where it says nothing that can be.
 * @param {Uint8Array | null} sector
 * @returns {PlayedRecord | null}
 */
export function recordIn(sector) {
  const found = sector && /^(\{.*\}) ([0-9]+)$/.exec(textOf(sector.subarray(0, SECTOR)));
  if (!found || Number(found[2]) !== crc32(new TextEncoder().encode(found[1]))) {
    return null;
  }
  try {
    const { image, count, frames, time, isClosed } = JSON.parse(found[1]);
    const isNumber = [image, frames, time].every((one) => Number.isSafeInteger(one) && one >= 0);
    return isNumber && /^[0-9]{1,20}$/.test(count) ? { image, count: BigInt(count), frames, time, isClosed: isClosed === true } : null;
  } catch {
    return null;
  }
}

/**
 * How many seconds before its end an image with so many inputs goes on: null where it was closed in order, or nobody knows.
 * @param {PlayedRecord | null} record
 * @param {number} image
 * @param {bigint} count
 */
export function welcomeOf(record, image, count) {
  if (record === null || record.image !== image) {
    return null;
  }
  if (record.count > count) {
    return Number(record.count - count) / FRAMES_A_SECOND;
  }
  return record.isClosed ? null : 0;
}

/** The file of a game that is open. */
export class Played {
  /** @type {Handle | null} */
  handle;
  /** What stood in the file when the game was opened.
   * @type {PlayedRecord | null} */
  found = null;
  /** When it was written last, and what.
   * @type {PlayedRecord | null} */
  written = null;
  /** How many frames were played in all. */
  frames = 0;
  shown = -Infinity;

  /** @param {Handle | null} handle */
  constructor(handle) {
    this.handle = handle;
    try {
      this.found = handle && recordIn(wholeOf(handle, SECTOR));
    } catch {
      // it says nothing
    }
    this.frames = this.found?.frames ?? 0;
  }

  /**
   * The game stands there. It is written where that is due, or at once where the game was saved.
   * @param {number} image
   * @param {bigint} count
   * @param {boolean} isSaved
   * @param {boolean} isClosed nobody plays it from then on
   */
  note(image, count, isSaved = false, isClosed = false) {
    const { written } = this;
    const isSame = written !== null && written.image === image && written.count === count && written.isClosed === isClosed;
    const now = performance.now();
    if (this.handle === null || isSame || (!isSaved && now - this.shown < BETWEEN)) {
      return;
    }
    this.shown = now;
    this.written = { image, count, frames: this.frames, time: Date.now(), isClosed };
    try {
      put(this.handle, sectorWith(this.written), 0);
    } catch {
      this.close();
    }
  }

  close() {
    closeAll([this.handle]);
    this.handle = null;
  }
}
