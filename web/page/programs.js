// For tests, and for anybody who plays by program: window.gbkeep.
import { byteOf } from './keys.js';

/**
 * A count for a program: a number where one can hold it, else a BigInt.
 * @param {bigint} count
 */
function counted(count) {
  return count <= BigInt(Number.MAX_SAFE_INTEGER) ? Number(count) : count;
}

/**
 * @param {unknown} number
 * @param {string} name
 */
function checkCount(number, name) {
  if (!Number.isSafeInteger(number) || Number(number) < 1) {
    throw new TypeError(`${name} is a number from 1 on`);
  }
}

/**
 * @param {import('./client.js').Client} client
 * @param {(place: any) => void} shown
 */
export function forPrograms(client, shown) {
  const placed = async (/** @type {string} */ what, /** @type {object} */ data = {}) => {
    const place = await client.ask(what, data);
    shown(place);
    return place;
  };
  return {
    /**
     * Plays frames with these buttons, a byte or names; kept when they were played.
     * @param {number | string[]} buttons
     */
    press(buttons, frames = 1) {
      checkCount(frames, 'frames');
      const held = typeof buttons === 'number' ? buttons & 0xff : byteOf(buttons);
      return placed('press', { held, frames }).then(({ count }) => counted(count));
    },
    /** Switches the power off and on; kept, with the count of inputs, when it was. */
    power: () => placed('power').then(({ count }) => counted(count)),
    /** Goes back by so many of the states that are kept, or to the oldest; kept, with the count of inputs, when it did. */
    rewind(states = 1) {
      checkCount(states, 'states');
      return placed('rewind', { states }).then(({ count }) => counted(count));
    },
    /** Saves; kept, with the count of inputs, when all calls were made. */
    save: () => placed('save').then(({ saved }) => counted(saved)),
    /** The SHA-256 of the machine's snapshot, as `gbkeep show` prints it of the SAVE. */
    state: () => client.ask('state'),
    /** 23,040 shades, 0 the darkest and 3 the lightest, row by row. */
    picture: () => client.ask('picture'),
    /** The bytes of the SAVE, with everything saved. */
    exportSave: () => client.ask('image'),
    /** The bytes of the battery file. */
    exportBattery: () => client.ask('battery'),
  };
}
