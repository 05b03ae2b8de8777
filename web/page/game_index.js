// Which image of a game is played, and which are its slots: the file `index` of its folder.
//
// It has two sectors, each with a number and a digest. The one with the greater number counts, and the other is the next that is written: it counts once
// it is written and flushed, and a write that is cut, or that no flush follows, leaves the one before. The file is written in place and never renamed,
// since whoever plays the game has it open, and nobody else can open it then.
//
// A sector is a line of JSON between its number and its digest. Version 2 says {version, play, slot, slots, undo, back, last}. Other versions of the page
// write {play, slot} alone, where `slot` is the first slot, and read no more than these of a sector of version 2: so each reads what the other leaves. Of
// a sector without a version, the slots behind the first are those that the other sector tells of. The oldest pages leave one sector of plain JSON,
// {play, slot}. It counts wherever it stands first, and goes over to two when something is to be written.
import { sha256 } from './digest.js';
import { alone, closeAll, put, sectorOf, textOf, wholeOf } from './disk.js';
import { SECTOR } from './library.js';
import { Refused } from './refusals.js';

/** How many slots a game has. */
export const SLOTS = 10;
const VERSION = 2;
const PLACES = [0, 1];
/** The length of an index, in bytes. */
export const LENGTH = PLACES.length * SECTOR;
const HEAD = 'gbkeep index ';
const MOST_NUMBER = 999_999_999;

/**
 * What is said of a game that has nothing but an image that is played.
 * @param {number} play
 * @returns {Said}
 */
export function saidOf(play) {
  return { play, slots: Array(SLOTS).fill(0), undo: Array(SLOTS).fill(null), back: 0, last: play };
}

/**
 * The images that an index names, and 0.
 * @param {Said} said
 * @returns {Set<number>}
 */
export function namedBy({ play, slots, undo, back }) {
  return new Set([play, ...slots, ...undo.map((one) => one ?? 0), back]);
}

/** @param {unknown} one */
const isNumber = (one) => typeof one === 'number' && Number.isSafeInteger(one) && one >= 0 && one <= MOST_NUMBER;

/**
 * What the text of a sector says; null where it says nothing that can be. `isWhole` tells whether it tells of each slot.
 * @param {string} text
 * @returns {{said: Said, isWhole: boolean} | null}
 */
function saidBy(text) {
  try {
    const { version, play, slot, slots, undo, back, last } = JSON.parse(text);
    if (!isNumber(play) || !isNumber(slot) || play === 0) {
      return null;
    }
    const said = saidOf(play);
    said.slots[0] = slot;
    said.last = Math.max(play, slot);
    if (version === undefined) {
      return { said, isWhole: false };
    }
    const isList = (/** @type {unknown} */ list) => Array.isArray(list) && list.length === SLOTS;
    if (!isList(slots) || !isList(undo) || !slots.every(isNumber) || !undo.every((/** @type {unknown} */ one) => one === null || isNumber(one))
      || slots[0] !== slot || !isNumber(back) || !isNumber(last)) {
      // a later version is read as far as it is known
      return version > VERSION ? { said, isWhole: false } : null;
    }
    return { said: { play, slots, undo, back, last: Math.max(last, ...namedBy({ play, slots, undo, back, last })) }, isWhole: true };
  } catch {
    return null;
  }
}

/**
 * A sector with this number.
 * @param {number} number
 * @param {Said} said
 */
async function written(number, { play, slots, undo, back, last }) {
  const text = `${HEAD}${number}\n${JSON.stringify({ version: VERSION, play, slot: slots[0], slots, undo, back, last })}\n`;
  return sectorOf(text + await sha256(new TextEncoder().encode(text)));
}

/**
 * What a sector says; null where its digest is not that of its text.
 * @param {Uint8Array} sector
 */
async function read(sector) {
  const found = /^(gbkeep index ([0-9]{1,15})\n(.*)\n)([0-9a-f]{64})$/.exec(textOf(sector));
  if (sector.length !== SECTOR || found === null || await sha256(new TextEncoder().encode(found[1])) !== found[4]) {
    return null;
  }
  const got = saidBy(found[3]);
  return got && { number: Number(found[2]), ...got };
}

/**
 * What the sector that counts says, with what the other one knows of slots that it does not tell of.
 * @param {{said: Said, isWhole: boolean} | null} newer
 * @param {{said: Said, isWhole: boolean} | null} older
 * @returns {Said | null}
 */
function together(newer, older) {
  if (newer === null || newer.isWhole || !older?.isWhole) {
    return newer?.said ?? null;
  }
  const { said } = newer;
  const last = Math.max(said.last, older.said.last);
  return { play: said.play, slots: [said.slots[0], ...older.said.slots.slice(1)], undo: [null, ...older.said.undo.slice(1)], back: 0, last };
}

/**
 * @param {Uint8Array} bytes
 * @returns {Promise<IndexFound>}
 */
export async function indexOf(bytes) {
  const sectors = PLACES.map((place) => bytes.slice(place * SECTOR, (place + 1) * SECTOR));
  const found = await Promise.all(sectors.map(read));
  const old = saidBy(textOf(sectors[0]));
  const isBlank = (/** @type {Uint8Array} */ sector) => sector.every((byte) => byte === 0 || byte === 0x20);
  const isDamaged = PLACES.some((place) => !found[place] && !isBlank(sectors[place]) && !(place === 0 && old));
  const place = (found[0]?.number ?? -1) > (found[1]?.number ?? -1) ? 0 : 1;
  const number = found[place]?.number ?? 0;
  if (old) {
    return { said: together(old, found[1]), before: found[1]?.said ?? null, place: 0, number, isOld: true, isDamaged };
  }
  return { said: together(found[place], found[1 - place]), before: found[1 - place]?.said ?? null, place, number, isOld: false, isDamaged };
}

/** The index of a game that is open. */
export class GameIndex {
  /** @type {FileSystemSyncAccessHandle | null} */
  handle;
  /** What stands in the file. */
  bytes = new Uint8Array(LENGTH);
  /** @type {Said | null} */
  said;
  /** What counts where a cut undoes the last write.
   * @type {Said | null} */
  before;
  /** @type {number} */
  place;
  /** @type {number} */
  number;
  /** @type {boolean} */
  isOld;
  /** @type {boolean} */
  isDamaged;

  /**
   * @param {FileSystemSyncAccessHandle} handle
   * @param {Uint8Array} bytes
   * @param {IndexFound} found
   */
  constructor(handle, bytes, { said, before, place, number, isOld, isDamaged }) {
    this.handle = handle;
    this.bytes.set(bytes);
    this.said = said;
    this.before = before;
    this.place = place;
    this.number = number;
    this.isOld = isOld;
    this.isDamaged = isDamaged;
  }

  /**
   * Opens the index of a folder; nobody else can open it until it is closed.
   * @param {FileSystemDirectoryHandle} folder
   */
  static async open(folder) {
    const handle = await alone(folder, 'index');
    try {
      if (handle.getSize() > LENGTH) {
        handle.truncate(LENGTH);
      }
      const bytes = wholeOf(handle, LENGTH);
      return new GameIndex(handle, bytes, await indexOf(bytes));
    } catch (error) {
      closeAll([handle]);
      throw error;
    }
  }

  get open() {
    if (this.handle === null) {
      throw Refused.own('closed');
    }
    return this.handle;
  }

  /** Takes the room of both sectors. Where that fails, the index is as it was. */
  reserve() {
    if (this.open.getSize() < LENGTH) {
      this.open.truncate(LENGTH);
    }
  }

  /**
   * Says durably what is played and what is in the slots. Where that fails, nobody knows which of the two counts: the game has to end.
   * @param {Said} said
   */
  async write(said) {
    this.reserve();
    if (this.isOld && this.said) {
      await this.put(1, this.said);
      this.isOld = false;
    } else if (this.isDamaged && this.said === null) {
      await this.put(1 - this.place, said);
    }
    await this.put(1 - this.place, said);
  }

  /**
   * @param {number} place
   * @param {Said} said
   */
  async put(place, said) {
    const number = this.number + 1;
    const sector = await written(number, said);
    try {
      put(this.open, sector, place * SECTOR);
      this.open.flush();
    } catch {
      this.undo(place);
      throw Refused.own('index');
    }
    this.bytes.set(sector, place * SECTOR);
    this.place = place;
    this.number = number;
    this.before = this.said;
    this.said = said;
    this.isDamaged = false;
  }

  /**
   * Puts back what stood there, where that can be done.
   * @param {number} place
   */
  undo(place) {
    try {
      put(this.open, this.bytes.subarray(place * SECTOR, (place + 1) * SECTOR), place * SECTOR);
      this.open.flush();
    } catch {
      // the game ends all the same
    }
  }

  close() {
    closeAll([this.handle]);
    this.handle = null;
  }
}
