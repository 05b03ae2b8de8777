// The clock of a cartridge, which is given the seconds that pass, also while nobody plays.
//
// Beside an image stands until when its clock was given, in the text of SAVE.time, which the library reads and makes: which seconds are due, and what is
// written before they are given, is its clock's. Here are the place of that text, the two clocks of the browser, and the words.
import { CartridgeClock, lookAtClock } from './library.js';

const INPUTS_BETWEEN = 125n;
// how far away, and where played
const BEHIND = 1;
const FAR_BEHIND = 2;
const BEFORE = 3;
const FAR_BEFORE = 4;
const OLDER = 1;
const ELSEWHERE = 2;
// what the player says of more than a year away
const NO_ANSWER = 0;
const GIVE = 1;
const LEAVE = 2;

/** @type {[string, number][]} */
const UNITS = [['year', 365 * 86400], ['day', 86400], ['hour', 3600], ['minute', 60], ['second', 1]];

/**
 * Whether a cartridge has a clock, by its type.
 * @param {Uint8Array} rom
 */
export function hasClock(rom) {
  return rom[0x147] === 0x0f || rom[0x147] === 0x10;
}

/**
 * So many seconds in words: the two greatest units of them.
 * @param {number} seconds
 */
export function span(seconds) {
  const words = [];
  let left = seconds;
  for (const [name, size] of UNITS) {
    const count = Math.floor(left / size);
    left %= size;
    if (count > 0) {
      words.push(`${count.toLocaleString('en')} ${name}${count === 1 ? '' : 's'}`);
    }
  }
  return words.slice(0, 2).join(' and ') || '0 seconds';
}

/** @param {number} seconds */
const milliseconds = (seconds) => BigInt(Math.max(0, Math.floor(seconds * 1000)));

export class Clock {
  /** It is given no time. */
  isStill = false;
  /** A write has failed. */
  hasFailed = false;

  /**
   * The clock of an image with so many inputs. `place` reads and writes the text that stands beside it.
   * @param {Library} library
   * @param {ClockText} place
   * @param {bigint} count
   */
  constructor(library, place, count, now = () => Date.now() / 1000, elapsed = () => performance.now() / 1000) {
    this.library = library;
    this.place = place;
    this.count = count;
    this.elapsed = elapsed;
    this.date = milliseconds(now());
    this.began = elapsed();
    this.held = this.opened('', NO_ANSWER);
  }

  /** Until when it was given, in seconds since 1970. */
  get until() {
    return this.held.until;
  }

  /**
   * @param {string} text
   * @param {number} answer
   */
  opened(text, answer) {
    return CartridgeClock.open(this.library, text, this.count, this.date, milliseconds(this.began), answer);
  }

  /**
   * Looks up until when the clock was given. Answers what the player is to be told.
   * @param {AskPlayer} ask
   * @returns {Promise<string | null>}
   */
  async begin(ask) {
    const text = this.place.read();
    const found = lookAtClock(this.library, text, this.count, INPUTS_BETWEEN, this.date);
    if (found === null) {
      this.isStill = true;
      return "What stands beside the game about its clock can't be read: the clock is given no time.";
    }
    let notice = null;
    if (found.lines > 0) {
      notice = await this.takeUp(text, found, ask);
    } else if (this.count > 0n) {
      notice = "Nothing says until when the cartridge's clock was given: it goes on from where it stood.";
    }
    this.write(this.held.text());
    return notice;
  }

  /**
   * @param {string} text
   * @param {ClockFound} found
   * @param {AskPlayer} ask
   */
  async takeUp(text, found, ask) {
    const passed = found.away === BEHIND || found.away === FAR_BEHIND ? found.seconds : 0;
    let notice = null;
    let answer = NO_ANSWER;
    if (found.played === OLDER) {
      notice = `The game has fewer inputs than it had: it is an older copy. Its clock is given the ${passed.toLocaleString('en')} seconds since it was last saved here.`;
    } else if (found.played === ELSEWHERE) {
      notice = `The game was played elsewhere. Its clock is given the ${passed.toLocaleString('en')} seconds since it was last saved here.`;
    }
    if (found.away === FAR_BEHIND) {
      notice = null;
      const agrees = await ask(`By the computer's date, ${span(passed)} have passed since this game was played. Shall the cartridge's clock be given them?`, 'Give the time', 'Leave the clock');
      if (agrees !== null) {
        answer = agrees ? GIVE : LEAVE;
      }
    } else if (found.away === BEFORE || found.away === FAR_BEFORE) {
      notice = `The computer's date is ${span(found.seconds)} before the time until which the cartridge's clock was given: the clock goes on from where it stood.`;
      if (found.away === FAR_BEFORE && await ask(`${notice} Shall the time away be counted from the present date on?`, 'Count anew', 'Leave the clock')) {
        return null;
      }
    }
    this.held = this.opened(text, answer);
    return notice;
  }

  /**
   * The text that says so of the image. False where it can't be written: the clock stands still then.
   * @param {string} text
   */
  write(text) {
    try {
      this.place.write(text.trimEnd());
      return true;
    } catch {
      this.hasFailed = true;
      return false;
    }
  }

  /**
   * How many seconds have passed, which the next input of a game of so many is to give, once this is written; 0 for none.
   * @param {bigint} count
   */
  claim(count) {
    const moment = milliseconds(this.elapsed());
    const text = this.isStill ? '' : this.held.claim(count, moment);
    if (text === '' || !this.write(text)) {
      return 0;
    }
    this.held.claimed();
    return this.held.due(moment);
  }

  /** The seconds that were claimed were given. */
  given() {
    this.held.give();
  }

  /**
   * The game goes back to a state whose clock had been given until then: the seconds since are given again, in front of the next save.
   * @param {number} until
   */
  goBack(until) {
    this.held.goBack(until);
  }

  /**
   * So many inputs are saved: an older copy can be told from the game.
   * @param {bigint} count
   */
  saved(count) {
    const text = this.isStill ? '' : this.held.note(count);
    if (text !== '' && this.write(text)) {
      this.held.noted();
    }
  }
}
