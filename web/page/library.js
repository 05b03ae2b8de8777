// The calls of gbkeep.h, over gbkeep.wasm. An address has 64 bits, and is a BigInt; those of the memory are below 4 GiB.
import { Refused } from './refusals.js';

/**
 * @typedef {object} Calls
 * @property {WebAssembly.Memory} memory
 * @property {(length: bigint) => bigint} malloc
 * @property {(at: bigint) => void} free
 * @property {(rom: bigint, length: bigint, out: bigint) => number} gbkeep_session_sectors
 * @property {(rom: bigint, length: bigint, sectors: number, out: bigint) => number} gbkeep_session_begin
 * @property {(rom: bigint, length: bigint, battery: bigint, more: bigint, sectors: number, out: bigint) => number} gbkeep_session_import
 * @property {(rom: bigint, length: bigint, image: bigint, more: bigint, out: bigint) => number} gbkeep_session_resume
 * @property {(session: bigint) => void} gbkeep_session_free
 * @property {(session: bigint, buttons: number, count: number) => number} gbkeep_session_frames
 * @property {(session: bigint, seconds: number) => number} gbkeep_session_seconds
 * @property {(session: bigint) => number} gbkeep_session_power
 * @property {(session: bigint, state: bigint, length: bigint) => number} gbkeep_session_restore
 * @property {(session: bigint, saved: bigint) => number} gbkeep_session_save
 * @property {(session: bigint, call: bigint) => void} gbkeep_session_next_call
 * @property {(session: bigint, shades: bigint, length: bigint) => number} gbkeep_session_picture
 * @property {(session: bigint) => bigint} gbkeep_session_state_length
 * @property {(session: bigint, bytes: bigint, length: bigint) => number} gbkeep_session_state
 * @property {(session: bigint) => bigint} gbkeep_session_battery_length
 * @property {(session: bigint, bytes: bigint, length: bigint) => number} gbkeep_session_battery
 * @property {(session: bigint) => bigint} gbkeep_session_count
 * @property {(text: bigint, length: bigint, count: bigint, between: bigint, date: bigint, out: bigint) => number} gbkeep_clock_look
 * @property {(text: bigint, length: bigint, count: bigint, date: bigint, moment: bigint, answer: number, out: bigint) => number} gbkeep_clock_open
 * @property {(line: bigint, text: bigint) => bigint} gbkeep_clock_text
 * @property {(clock: bigint, moment: bigint) => number} gbkeep_clock_due
 * @property {(clock: bigint, count: bigint, moment: bigint, line: bigint, text: bigint) => bigint} gbkeep_clock_claim
 * @property {(clock: bigint, line: bigint) => void} gbkeep_clock_claimed
 * @property {(clock: bigint) => number} gbkeep_clock_give
 * @property {(clock: bigint, saved: bigint, line: bigint, text: bigint) => bigint} gbkeep_clock_note
 * @property {(clock: bigint, line: bigint) => void} gbkeep_clock_noted
 * @property {(clock: bigint, until: bigint) => void} gbkeep_clock_go_back
 */

/** The module's file beside this one, packed by gzip. */
export const MODULE = 'gbkeep.wasm.gz';
export const PICTURE_LENGTH = 160 * 144;
export const SECTOR = 512;
const DONE = 0;
const NO_MEMORY = 1;
const NO_TIME = 22;
const WRITE = 1;
const SYNC = 2;
// how what gzip has packed begins
const GZIP = 0x1f;
// a call: kind, sector, bytes
const CALL_LENGTH = 8 + SECTOR;
// what a state has in front of the snapshot
const HEADER_LENGTH = 40;
// a clock: numbers of 64 bits, of which the first is until when it was given; the line that SAVE.time has is behind three
const CLOCK_LENGTH = 64;
const WRITTEN = 24n;
const LINE_LENGTH = 16;
const FOUND_LENGTH = 32;
const CLOCK_TEXT = 384;

// a module with a function of vectors: i8x16.popcnt of a splat of 0
const OF_VECTORS = new Uint8Array([
  0, 0x61, 0x73, 0x6d, 1, 0, 0, 0, 1, 5, 1, 0x60, 0, 1, 0x7b, 3, 2, 1, 0, 10, 10, 1, 8, 0, 0x41, 0, 0xfd, 15, 0xfd, 98, 0x0b,
]);

/** Whether this browser has what the module needs: WebAssembly with vectors (SIMD), and BigInt for its numbers of 64 bits. */
export function canRun() {
  return typeof WebAssembly === 'object' && typeof BigInt === 'function' && WebAssembly.validate(OF_VECTORS);
}

/** A module's bytes: unpacked, where they are packed by gzip and the server did not unpack them.
 * @param {Uint8Array} bytes */
export async function unpacked(bytes) {
  if (bytes[0] !== GZIP) {
    return bytes;
  }
  const whole = new Blob([bytes]).stream().pipeThrough(new DecompressionStream('gzip'));
  return new Uint8Array(await new Response(whole).arrayBuffer());
}

/** The memory of the library, and its calls. */
export class Library {
  /** @type {Calls} */
  calls;

  /** @param {WebAssembly.Exports} exports */
  constructor(exports) {
    this.calls = /** @type {Calls} */ (/** @type {unknown} */ (exports));
  }

  /** The module at this address, compiled.
   * @param {URL | string} url */
  static async compiled(url) {
    if (!canRun()) {
      throw Refused.own('memory');
    }
    try {
      const answer = await fetch(url);
      if (!answer.ok) {
        throw Refused.own('load');
      }
      return await WebAssembly.compile(await unpacked(new Uint8Array(await answer.arrayBuffer())));
    } catch {
      throw Refused.own('load');
    }
  }

  /** A library of its own, of a compiled module.
   * @param {WebAssembly.Module} module */
  static async of(module) {
    try {
      return new Library((await WebAssembly.instantiate(module, {})).exports);
    } catch {
      throw Refused.own('load');
    }
  }

  /** @param {URL | string} url */
  static async load(url) {
    return Library.of(await Library.compiled(url));
  }

  /** So many bytes of the memory. They are moved where it grows: take them anew after each call that takes memory.
   * @param {bigint} at
   * @param {number} length */
  bytes(at, length) {
    return new Uint8Array(this.calls.memory.buffer, Number(at), length);
  }

  /** @param {number} length */
  take(length) {
    const at = this.calls.malloc(BigInt(length));
    if (at === 0n) {
      throw Refused.of(NO_MEMORY);
    }
    return at;
  }

  /** @param {bigint} at */
  give(at) {
    this.calls.free(at);
  }

  /** Runs something with places in the memory, each of as many bytes as given or with a copy of the bytes given, and gives the places back.
   * @template T
   * @param {(number | Uint8Array)[]} places
   * @param {(...places: bigint[]) => T} run
   * @returns {T} */
  with(places, run) {
    /** @type {bigint[]} */
    const taken = [];
    try {
      for (const place of places) {
        const length = typeof place === 'number' ? place : place.length;
        const at = this.take(Math.max(length, 1));
        taken.push(at);
        if (typeof place !== 'number') {
          this.bytes(at, length).set(place);
        }
      }
      return run(...taken);
    } finally {
      taken.forEach((at) => this.give(at));
    }
  }

  /** @param {bigint} at */
  word(at) {
    return new DataView(this.calls.memory.buffer).getUint32(Number(at), true);
  }

  /** @param {bigint} at */
  long(at) {
    return new DataView(this.calls.memory.buffer).getBigUint64(Number(at), true);
  }
}

/** @param {number} code */
function check(code) {
  if (code !== DONE) {
    throw Refused.of(code);
  }
}

/** How many sectors a game of this ROM needs.
 * @param {Library} library
 * @param {Uint8Array} rom
 * @returns {number} */
export function sectorsNeeded(library, rom) {
  return library.with([rom, 4], (at, out) => {
    check(library.calls.gbkeep_session_sectors(at, BigInt(rom.length), out));
    return library.word(out);
  });
}

/** A session: a machine, and inputs whose saves are handed out as calls for a disk. */
export class Session {
  /** @type {Library} */
  library;

  /** @type {bigint} */
  at;

  /** @type {number} */
  stateLength;

  /** @type {bigint} */
  call;

  /** @type {bigint} */
  picturePlace;

  /**
   * @param {Library} library
   * @param {bigint} at
   */
  constructor(library, at) {
    this.library = library;
    this.at = at;
    this.stateLength = Number(library.calls.gbkeep_session_state_length(at));
    this.call = library.take(CALL_LENGTH);
    this.picturePlace = library.take(PICTURE_LENGTH);
  }

  /** A new game on a disk of so many sectors of zeros.
   * @param {Library} library
   * @param {Uint8Array} rom
   * @param {number} sectors */
  static begin(library, rom, sectors) {
    return library.with([rom, 8], (at, out) => {
      check(library.calls.gbkeep_session_begin(at, BigInt(rom.length), sectors, out));
      return new Session(library, library.long(out));
    });
  }

  /** A new game that begins with a battery file, on a disk of so many sectors of zeros.
   * @param {Library} library
   * @param {Uint8Array} rom
   * @param {Uint8Array} battery
   * @param {number} sectors */
  static import(library, rom, battery, sectors) {
    return library.with([rom, battery, 8], (at, file, out) => {
      check(library.calls.gbkeep_session_import(at, BigInt(rom.length), file, BigInt(battery.length), sectors, out));
      return new Session(library, library.long(out));
    });
  }

  /** The game that an image of a disk holds.
   * @param {Library} library
   * @param {Uint8Array} rom
   * @param {Uint8Array} image */
  static resume(library, rom, image) {
    return library.with([rom, image, 8], (at, disk, out) => {
      check(library.calls.gbkeep_session_resume(at, BigInt(rom.length), disk, BigInt(image.length), out));
      return new Session(library, library.long(out));
    });
  }

  free() {
    this.library.calls.gbkeep_session_free(this.at);
    this.library.give(this.call);
    this.library.give(this.picturePlace);
  }

  /**
   * @param {number} buttons
   * @param {number} count
   */
  frames(buttons, count) {
    check(this.library.calls.gbkeep_session_frames(this.at, buttons, count));
  }

  /** @param {number} seconds */
  seconds(seconds) {
    check(this.library.calls.gbkeep_session_seconds(this.at, seconds));
  }

  /** Switches the power off and on, as one input. */
  power() {
    check(this.library.calls.gbkeep_session_power(this.at));
  }

  /** Goes on with the machine of a state, as one input. Bytes that are no state of this ROM are refused, and nothing changes.
   * @param {Uint8Array} bytes */
  restore(bytes) {
    this.library.with([bytes], (at) => check(this.library.calls.gbkeep_session_restore(this.at, at, BigInt(bytes.length))));
  }

  /** How many inputs it has, saved and unsaved: a BigInt, as there may be more than a number counts. */
  count() {
    return BigInt.asUintN(64, this.library.calls.gbkeep_session_count(this.at));
  }

  /** Saves: the count of all inputs, which may be told once all calls that are then handed out were made. */
  save() {
    return this.library.with([8], (saved) => {
      check(this.library.calls.gbkeep_session_save(this.at, saved));
      return this.library.long(saved);
    });
  }

  /** The next call to be made on the disk, {sector, bytes}, where `bytes` is null for a sync; null where there is none. */
  nextCall() {
    this.library.calls.gbkeep_session_next_call(this.at, this.call);
    const kind = this.library.word(this.call);
    if (kind === WRITE) {
      return { sector: this.library.word(this.call + 4n), bytes: this.library.bytes(this.call + 8n, SECTOR) };
    }
    return kind === SYNC ? { sector: 0, bytes: null } : null;
  }

  /** A copy of the picture: shades, 0 the darkest and 3 the lightest, row by row. */
  picture() {
    check(this.library.calls.gbkeep_session_picture(this.at, this.picturePlace, BigInt(PICTURE_LENGTH)));
    return this.library.bytes(this.picturePlace, PICTURE_LENGTH).slice();
  }

  /** A copy of the snapshot of the machine. */
  snapshot() {
    const bytes = new Uint8Array(this.stateLength);
    this.stateInto(bytes);
    return bytes.subarray(HEADER_LENGTH);
  }

  /** A copy of the battery file, as other emulators read it. Refused for a cartridge without battery. */
  battery() {
    const length = Number(this.library.calls.gbkeep_session_battery_length(this.at));
    return this.library.with([length], (at) => {
      check(this.library.calls.gbkeep_session_battery(this.at, at, BigInt(length)));
      return this.library.bytes(at, length).slice();
    });
  }

  /** Copies the state into bytes of its length.
   * @param {Uint8Array} bytes */
  stateInto(bytes) {
    this.library.with([this.stateLength], (at) => {
      check(this.library.calls.gbkeep_session_state(this.at, at, BigInt(this.stateLength)));
      bytes.set(this.library.bytes(at, this.stateLength));
    });
  }
}

/** What is found in a text of SAVE.time where a game with so many inputs is opened at this date, in milliseconds since 1970, and up to `between` inputs come
 * between two saves; null where it is no such text.
 * @param {Library} library
 * @param {string} text
 * @param {bigint} count
 * @param {bigint} between
 * @param {bigint} date
 * @returns {ClockFound | null} */
export function lookAtClock(library, text, count, between, date) {
  const bytes = new TextEncoder().encode(text);
  return library.with([bytes, FOUND_LENGTH], (at, out) => {
    const code = library.calls.gbkeep_clock_look(at, BigInt(bytes.length), count, between, date, out);
    if (code === NO_TIME) {
      return null;
    }
    check(code);
    const [lines, away, seconds, played] = [0n, 8n, 16n, 24n].map((place) => Number(library.long(out + place)));
    return { lines, away, seconds, played };
  });
}

/** The clock of a cartridge. `claim` and `note` answer what SAVE.time is to have, or nothing; once it has that, `claimed` and `noted` say so. */
export class CartridgeClock {
  /** Its numbers, and the first line of the last text. */
  clock = new Uint8Array(CLOCK_LENGTH);
  line = new Uint8Array(LINE_LENGTH);

  /** @param {Library} library */
  constructor(library) {
    this.library = library;
  }

  /** That of a game with so many inputs that is opened at this date and this moment, in milliseconds, with this text of SAVE.time.
   * @param {Library} library
   * @param {string} text
   * @param {bigint} count
   * @param {bigint} date
   * @param {bigint} moment
   * @param {number} answer */
  static open(library, text, count, date, moment, answer) {
    const made = new CartridgeClock(library);
    const bytes = new TextEncoder().encode(text);
    library.with([bytes], (at) => made.by((calls, clock) => check(calls.gbkeep_clock_open(at, BigInt(bytes.length), count, date, moment, answer, clock))));
    return made;
  }

  /** Runs something with the clock and the line in the memory, and takes them back.
   * @template T
   * @param {(calls: Calls, clock: bigint, line: bigint, text: bigint) => T} run
   * @returns {T} */
  by(run) {
    return this.library.with([this.clock, this.line, CLOCK_TEXT], (clock, line, text) => {
      const result = run(this.library.calls, clock, line, text);
      this.clock.set(this.library.bytes(clock, CLOCK_LENGTH));
      this.line.set(this.library.bytes(line, LINE_LENGTH));
      return result;
    });
  }

  /** The text that a call leaves.
   * @param {(calls: Calls, clock: bigint, line: bigint, text: bigint) => bigint} run */
  textBy(run) {
    return this.by((calls, clock, line, text) => {
      const length = Number(run(calls, clock, line, text));
      return new TextDecoder().decode(this.library.bytes(text, length));
    });
  }

  /** Until when it was given, in seconds since 1970. */
  get until() {
    return Number(new DataView(this.clock.buffer).getBigUint64(0, true));
  }

  /** What SAVE.time is to have as the game is opened. */
  text() {
    return this.textBy((calls, clock, line, text) => calls.gbkeep_clock_text(clock + WRITTEN, text));
  }

  /** How many seconds are due.
   * @param {bigint} moment */
  due(moment) {
    return this.by((calls, clock) => calls.gbkeep_clock_due(clock, moment) >>> 0);
  }

  /** For the seconds that are due to a game of so many inputs.
   * @param {bigint} count
   * @param {bigint} moment */
  claim(count, moment) {
    return this.textBy((calls, clock, line, text) => calls.gbkeep_clock_claim(clock, count, moment, line, text));
  }

  claimed() {
    this.by((calls, clock, line) => calls.gbkeep_clock_claimed(clock, line));
  }

  /** How many seconds the next input gives: those that were claimed. */
  give() {
    return this.by((calls, clock) => calls.gbkeep_clock_give(clock) >>> 0);
  }

  /** For so many inputs that are saved, where no second was due.
   * @param {bigint} saved */
  note(saved) {
    return this.textBy((calls, clock, line, text) => calls.gbkeep_clock_note(clock, saved, line, text));
  }

  noted() {
    this.by((calls, clock, line) => calls.gbkeep_clock_noted(clock, line));
  }

  /** The game goes on with the machine of a state whose clock had been given until then.
   * @param {number} until */
  goBack(until) {
    this.by((calls, clock) => calls.gbkeep_clock_go_back(clock, BigInt(until)));
  }
}
