// The moments of a timeline as bytes, which of them stay, and where they lie. Nothing here is a promise: a moment that is torn, foreign or made up is not
// taken, and the library takes the legal states of this ROM alone.
import { crc32, digest, hex } from './digest.js';
import { SECTOR } from './library.js';
import { FRAMES_A_SECOND } from './played.js';

const MAGIC = 'GBMOMENT';
const VERSION = 1;
/** The length of what stands in front of picture and state. */
export const HEAD_LENGTH = 96;
const DIGEST_AT = 56;
const TURN_AT = 88;
const SUM_AT = 92;
const MOST_PICTURE = 1 << 14;
const MOST_STATE = 1 << 20;

const MINUTE = 60 * FRAMES_A_SECOND;
/** So far back the timeline goes, in frames. */
export const REACH = 60 * MINUTE;
// of a moment that is older than so many frames: so many frames at least lie between it and the one before
const SPACES = [[30 * MINUTE, 40], [10 * MINUTE, 20], [0, 10]].map(([age, seconds]) => ({ age, frames: Math.floor(seconds * FRAMES_A_SECOND) }));
// a moment in which the game went elsewhere stays for so long, however near to others
const TURNS = 30 * MINUTE;

/** @param {number} length */
export const sectorsOf = (length) => Math.ceil(length / SECTOR);

/** @param {Moment} moment */
export const lengthOf = ({ pictureLength, stateLength }) => HEAD_LENGTH + pictureLength + stateLength;

/** @param {Moment} moment */
const endOf = (moment) => moment.sector + sectorsOf(lengthOf(moment));

/**
 * A moment as bytes, in front of a packed picture and a packed state.
 * @param {number} number
 * @param {MomentTold} told
 * @param {Uint8Array} picture
 * @param {Uint8Array} state
 * @returns {Promise<Uint8Array>}
 */
export async function bytesOf(number, { image, count, frames, until, isTurn }, picture, state) {
  const bytes = new Uint8Array(HEAD_LENGTH + picture.length + state.length);
  bytes.set(new TextEncoder().encode(MAGIC));
  bytes.set(picture, HEAD_LENGTH);
  bytes.set(state, HEAD_LENGTH + picture.length);
  bytes.set(await digest(bytes.subarray(HEAD_LENGTH)), DIGEST_AT);
  const view = new DataView(bytes.buffer);
  [VERSION, picture.length, state.length, image].forEach((word, k) => view.setUint32(8 + 4 * k, word, true));
  [count, BigInt(frames), BigInt(until), BigInt(number)].forEach((long, k) => view.setBigUint64(24 + 8 * k, long, true));
  view.setUint32(TURN_AT, Number(isTurn), true);
  view.setUint32(SUM_AT, crc32(bytes.subarray(0, SUM_AT)), true);
  return bytes;
}

/**
 * The moment that begins at a sector; null where none does.
 * @param {Uint8Array} bytes
 * @param {number} sector
 * @returns {Moment | null}
 */
export function momentAt(bytes, sector) {
  const at = sector * SECTOR;
  if (at + HEAD_LENGTH > bytes.length || [...MAGIC].some((letter, k) => bytes[at + k] !== letter.charCodeAt(0))) {
    return null;
  }
  const view = new DataView(bytes.buffer, bytes.byteOffset + at, HEAD_LENGTH);
  const [version, pictureLength, stateLength, image] = [0, 1, 2, 3].map((k) => view.getUint32(8 + 4 * k, true));
  const [count, frames, until, number] = [0, 1, 2, 3].map((k) => view.getBigUint64(24 + 8 * k, true));
  const isSmall = [frames, until, number].every((long) => long <= BigInt(Number.MAX_SAFE_INTEGER));
  if (version !== VERSION || view.getUint32(SUM_AT, true) !== crc32(bytes.subarray(at, at + SUM_AT)) || !isSmall || pictureLength > MOST_PICTURE
    || stateLength > MOST_STATE || at + HEAD_LENGTH + pictureLength + stateLength > bytes.length) {
    return null;
  }
  const isTurn = view.getUint32(TURN_AT, true) !== 0;
  const sum = hex(bytes.subarray(at + DIGEST_AT, at + DIGEST_AT + 32));
  return { number: Number(number), image, count, frames: Number(frames), until: Number(until), isTurn, pictureLength, stateLength, digest: sum, sector };
}

/**
 * The moments of a file, oldest first. Of two that lie on one another the later one counts.
 * @param {Uint8Array} bytes
 * @returns {Moment[]}
 */
export function momentsIn(bytes) {
  /** @type {Moment[]} */
  const found = [];
  for (let sector = 0; sector * SECTOR < bytes.length; sector += 1) {
    const moment = momentAt(bytes, sector);
    if (moment !== null) {
      found.push(moment);
    }
  }
  found.sort((a, b) => b.number - a.number);
  /** @type {Moment[]} */
  const whole = [];
  for (const moment of found) {
    if (whole.every((later) => later.number !== moment.number && (later.sector >= endOf(moment) || endOf(later) <= moment.sector))) {
      whole.push(moment);
    }
  }
  return whole.reverse();
}

/**
 * The moments that were played, of an image with so many inputs that is gone on with: those behind are dropped.
 * @param {Moment[]} moments
 * @param {number} image
 * @param {bigint} count
 */
export function played(moments, image, count) {
  return moments.filter((moment) => moment.image !== image || moment.count <= count);
}

/**
 * The moments that stay, oldest first, when so many frames were played in all: of the last hour, and further back fewer of them.
 * @param {Moment[]} moments
 * @param {number} frames
 * @returns {Moment[]}
 */
export function thinned(moments, frames) {
  /** @type {Moment[]} */
  const kept = [];
  moments.forEach((moment, k) => {
    const age = frames - moment.frames;
    const space = SPACES.find((one) => age >= one.age)?.frames ?? 0;
    const before = kept.at(-1);
    const isTurn = moment.isTurn && age < TURNS;
    if (age <= REACH && (before === undefined || k === moments.length - 1 || isTurn || moment.frames - before.frames >= space)) {
      kept.push(moment);
    }
  });
  return kept;
}

/**
 * The first sector from which so many are free, below `most`; -1 where there is none.
 * @param {Moment[]} moments
 * @param {number} sectors
 * @param {number} most
 */
export function freeSector(moments, sectors, most) {
  let free = 0;
  for (const moment of [...moments].sort((a, b) => a.sector - b.sector)) {
    if (moment.sector - free >= sectors) {
      return free;
    }
    free = Math.max(free, endOf(moment));
  }
  return most - free >= sectors ? free : -1;
}

/**
 * Makes room for so many sectors: the moments that stay, and where the room begins, -1 where it can't be had. The oldest go first.
 * @param {Moment[]} moments
 * @param {number} sectors
 * @param {number} most
 * @returns {{moments: Moment[], sector: number}}
 */
export function roomFor(moments, sectors, most) {
  for (let gone = 0; gone <= moments.length; gone += 1) {
    const left = moments.slice(gone);
    const sector = freeSector(left, sectors, most);
    if (sector >= 0) {
      return { moments: left, sector };
    }
  }
  return { moments, sector: -1 };
}
