// What the page says, but for refusals (refusals.js): short, and what people say. What the window says, too, stands in messages.js.

import { MESSAGES } from './messages.js';

const MINUTE = 60;
const HOUR = 3600;
const DAY = 86400;

/**
 * A text with what is filled in.
 * @param {string} text
 * @param {Record<string, string | number>} given
 */
const filled = (text, given) => text.replace(/\{(\w+)\}/g, (_, word) => String(given[word]));

/**
 * @param {keyof typeof MESSAGES.said} name
 * @param {Record<string, string | number>} given
 */
export const said = (name, given = {}) => filled(MESSAGES.said[name], given);

/**
 * A question, and what agrees to it.
 * @param {keyof typeof MESSAGES.asked} name
 * @param {Record<string, string | number>} given
 * @returns {{ text: string, more: string, yes: string }}
 */
export function asked(name, given = {}) {
  const { head, body, yes } = /** @type {{ head: string, body?: string, yes: string }} */ (MESSAGES.asked[name]);
  return { text: filled(head, given), more: filled(body ?? '', given), yes };
}

/**
 * So many seconds of play, in short; less than a minute is nothing.
 * @param {number} seconds
 */
export function playedFor(seconds) {
  if (seconds < MINUTE) {
    return '';
  }
  const hours = Math.floor(seconds / HOUR);
  const minutes = Math.floor((seconds % HOUR) / MINUTE);
  const words = [hours > 0 ? `${hours.toLocaleString('en')} h` : '', minutes > 0 || hours === 0 ? `${minutes} min` : ''];
  return `played for ${words.filter(Boolean).join(' ')}`;
}

/**
 * When something was, as seen from another moment; both in milliseconds since 1970.
 * @param {number} time
 * @param {number} now
 * @param {string} [locale]
 */
export function when(time, now, locale) {
  const seconds = Math.floor((now - time) / 1000);
  if (seconds < HOUR) {
    return seconds < 5 ? said('just now') : before(seconds < MINUTE ? seconds : seconds - (seconds % MINUTE));
  }
  const clock = new Date(time).toLocaleTimeString(locale, { hour: 'numeric', minute: '2-digit' });
  const days = Math.round((new Date(now).setHours(0, 0, 0, 0) - new Date(time).setHours(0, 0, 0, 0)) / (DAY * 1000));
  if (days === 0) {
    return said('today', { clock });
  }
  if (days === 1) {
    return said('yesterday', { clock });
  }
  return new Date(time).toLocaleDateString(locale, { day: 'numeric', month: 'short', year: 'numeric' });
}

/**
 * So many seconds before this moment.
 * @param {number} seconds
 */
export function before(seconds) {
  if (seconds < 1) {
    return said('just now');
  }
  return seconds < MINUTE ? said('seconds ago', { count: Math.round(seconds) }) : said('minutes ago', { count: Math.round(seconds / MINUTE) });
}

/** @param {number} seconds */
export function span(seconds) {
  return seconds < MINUTE ? `${seconds.toFixed(1)} seconds` : `${Math.floor(seconds / MINUTE)} min ${Math.round(seconds % MINUTE)} s`;
}

/** @param {number} bytes */
export function sizeOf(bytes) {
  return bytes < 1 << 20 ? `${Math.ceil(bytes / 1024).toLocaleString('en')} KiB` : `${(bytes / (1 << 20)).toFixed(1)} MiB`;
}

/**
 * What stands under the title while a game is open: its words, and whether they are loud.
 * @param {Standing} of
 * @returns {{ text: string, kind: 'kept' | 'plain' | 'loud' }}
 */
export function standingLine({ keeps, isPaused, isWaiting, isTouch, isAllSaved, unsaved, rewound, pauseKey }) {
  if (rewound !== null) {
    return { text: `back ${rewound.toFixed(1)} s`, kind: 'plain' };
  }
  if (isWaiting) {
    return { text: isTouch ? 'Touch to go on' : 'Press a key to go on', kind: 'plain' };
  }
  if (isPaused) {
    return { text: isTouch ? said('paused') : said('paused, with its key', { key: pauseKey }), kind: 'plain' };
  }
  if (keeps === 'memory') {
    return { text: 'not kept', kind: 'loud' };
  }
  if (unsaved >= 5) {
    return { text: said('not saved', { count: Math.floor(unsaved) }), kind: 'loud' };
  }
  const saved = isAllSaved ? said('saved') : said('saved before', { count: Math.max(1, Math.floor(unsaved)) });
  return keeps === 'window' ? { text: 'kept until this window is closed', kind: 'loud' } : { text: saved, kind: 'kept' };
}

/**
 * After a game was opened: from where it goes on.
 * @param {number | null | undefined} seconds
 */
export function welcome(seconds) {
  if (seconds === null || seconds === undefined) {
    return null;
  }
  return said('welcome', { where: seconds < 0.05 ? said('where it was closed') : said('before it was closed', { seconds: seconds.toFixed(1) }) });
}

/**
 * @param {number} seconds
 * @param {boolean} isOldest
 */
export function rewoundBy(seconds, isOldest) {
  if (isOldest && seconds < 0.05) {
    return said('nothing to go back to');
  }
  return `Rewound by ${seconds.toFixed(1)} seconds${isOldest ? ', as far as it goes' : ''}.`;
}

/** What a browser does with games, for the home page. */
export const KEEPS = {
  kept: 'This browser keeps the games until you delete them.',
  unsure: 'This browser may delete all games when the disk is full: download the save file of each that you would miss.',
  window: 'This is a private window: games are kept until it is closed. Download the save file of each that you would keep.',
  memory: 'This browser keeps no files for a page: games are gone when it is closed. Download their save files before, or take another browser.',
};

/**
 * A name for a file, of what a game is called.
 * @param {string} name
 * @param {string} end
 */
export function fileName(name, end) {
  const stem = name.replace(/\.gbc?$/i, '').replace(/[^\w .-]+/g, '_').trim() || 'game';
  return `${stem}${end}`;
}

/**
 * What to do with files that were chosen or dropped: nothing, a question, or something at once.
 * @param {Looked} look what they are
 * @param {number} games how many games are in the list
 * @param {string | null} played the title of the game that is played, or null
 * @returns {Plan}
 */
export function planOf({ cart, battery, save }, games, played) {
  const kept = 'The game that is there is kept: it stands in the menu of its card.';
  if (cart && battery) {
    return cart.isKnown
      ? { what: 'begin', ...asked('new with battery', { title: cart.title, battery: battery.name }), more: kept }
      : { what: 'begin', text: '', more: '', yes: '' };
  }
  const another = save && { text: `${save.name} is a game of ${save.title}: play it?`, more: kept, yes: 'Play it' };
  if (cart) {
    const what = save ? 'take in behind' : 'play';
    if (another && save.id !== null) {
      return { what, ...another };
    }
    const text = `${cart.name} is ${cart.title || 'a game'}: play it?`;
    return played === null ? { what, text: '', more: '', yes: '' } : { what, ...asked('play instead', { title: '', played }), text };
  }
  if (another) {
    return save.id === null ? { what: 'no cartridge', text: '', more: '', yes: '' } : { what: 'take in', ...another };
  }
  if (battery) {
    if (battery.of) {
      const title = battery.of.title || battery.of.name;
      const text = `${battery.name} belongs to ${title} in your list: begin a new game with it?`;
      return { what: 'battery of the list', text, more: kept, yes: 'Begin new game' };
    }
    return { what: games > 0 ? 'which game' : 'no cartridge', text: `Which game is ${battery.name} of?`, more: kept, yes: '' };
  }
  return { what: 'nothing', text: '', more: '', yes: '' };
}
