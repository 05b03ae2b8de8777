// What can be refused, and what to do about it.
import { FAULTS } from './faults.js';

/**
 * @typedef {{ line: string, means: string, advice: string, kind: string }} Told
 */

/** Refusals of the page itself: what happened, what it means, and what to do; those of the library are in faults.js.
 * @type {Record<string, [string, string, string]>} */
const OWN = {
  memory: ['this browser is too old', 'it has no WebAssembly with SIMD, by which games run', 'update it, or take Chromium 111, Firefox 114, Safari 16.4, or a later one'],
  insecure: ['this address is not secure', 'a browser keeps files for https and for localhost alone', 'serve the folder over https, or open it at http://localhost'],
  files: ['this browser keeps no files for a page', 'a game is kept in the private file system of this page', 'take another browser, or leave its private mode'],
  other: ['another tab has this game', 'nothing was changed', 'go on there, or close it and try again'],
  room: ['there is no room', 'the browser or the disk has no more room for this page; the game is as it was', 'delete games or make room on the disk, and try again'],
  disk: ['there is no room, or the disk fails', 'the browser could not read or write a file of this page; what was saved stays saved', 'delete games or make room on the disk, and try again'],
  write: ['the game can\'t be saved', 'the browser could not write it; what was saved stays saved', 'make room on the disk, then go on with the game'],
  read: ['the file can\'t be read', 'the browser could not read it', 'choose it again'],
  late: ['the browser does not answer', 'a file of this page has been read or written for ten seconds; what was saved stays saved', 'wait, or open the page anew'],
  fetch: ['the cartridge can\'t be fetched', 'the server does not answer with it', 'check the address after ?cart='],
  gone: ['the game is not there', 'it was deleted meanwhile', 'open its cartridge'],
  load: ['gbkeep.wasm.gz can\'t be loaded', 'it is missing on the server, or the browser refuses it', 'serve the whole folder, and open the page anew'],
  cartridge: ['the cartridge of this SAVE is not here', 'a save file (.gbkeep) holds the game alone', 'open the cartridge first, then the save file; or choose both together'],
  battery: ['the cartridge of this battery file is not known', 'a battery file (.sav) does not name it', 'choose both files together'],
  empty: ['the slot is empty', 'no state was saved there', 'save one first'],
  index: ['the index failed', 'the browser could not write down which game is played, so that it is over; all that was saved is kept', 'open it again: where another one is played then, this one stands in the menu of its card'],
  rom: ['the cartridge of this game is missing or damaged here', 'what the browser has is not the file that was opened; the game itself is kept', 'open the cartridge again, and the game goes on'],
  played: ['nothing was deleted', 'this one is played, or is a save state', 'play another one first'],
  oldest: ['there is no older state', 'a game can be rewound by a minute at most, and not to before it was opened; the timeline goes further', 'play on'],
  closed: ['no game is open', 'there is nothing to play', 'open a cartridge'],
  long: ['device size', 'a save file has 65,536 sectors of 512 bytes at most', 'choose a save file'],
  large: ['this file is too large', 'no game and no save file is larger than 32 MiB', 'choose another file'],
  colour: ['this game is for the Game Boy Color alone', 'this page plays the games of the first Game Boy, and those that run on both', 'choose another game'],
  strange: ['this file is no game', 'it is no cartridge (.gb, .gbc), no zip with one, no battery file (.sav) and no save file (.gbkeep)', 'choose another file'],
  more: ['it was left out', 'another file of its kind was chosen with it', 'choose one of each kind'],
  zip_none: ['the zip has no cartridge', 'none of its files is a .gb or a .gbc', 'choose a zip with a game, or the game itself'],
  zip_several: ['the zip has several cartridges', 'one is opened at a time', 'unpack it, and choose one of them'],
  zip_locked: ['the zip is encrypted', 'its cartridge can\'t be read without the password', 'unpack it, and choose the game itself'],
  zip_kind: ['the zip is packed in another way', 'files that are stored or deflated are read, and no zip64', 'unpack it, and choose the game itself'],
  zip_damaged: ['the zip is damaged', 'its list of files or its cartridge can\'t be read', 'download or copy it again'],
  zip_long: ['the cartridge in the zip is too long', 'a cartridge has 8 MiB at most', 'choose another game'],
  undo: ['there is nothing to undo', 'nothing was kept or loaded before, or it was undone', 'play on'],
  moment: ['this moment is gone', 'the timeline has it no more, or it is damaged', 'choose another one'],
};

/** A refusal: a line, what it means, and what to do about it. */
export class Refused extends Error {
  /**
   * @param {string} line
   * @param {string} means
   * @param {string} advice
   * @param {string} name
   */
  constructor(line, means, advice, name) {
    super(line);
    this.line = line;
    this.means = means;
    this.advice = advice;
    this.kind = name;
  }

  /**
   * The same refusal with other advice, and another name.
   * @param {string} advice
   * @param {string} name
   */
  instead(advice, name) {
    return new Refused(this.line, this.means, advice, name);
  }

  /**
   * The refusal as a plain object, which goes from worker to page.
   * @returns {Told}
   */
  told() {
    return { line: this.line, means: this.means, advice: this.advice, kind: this.kind };
  }

  /**
   * The refusal of a code of the library.
   * @param {number} code
   */
  static of(code) {
    const [line, means, advice] = FAULTS[code] ?? ['unknown', `the library answers ${code}`, 'open the page anew'];
    return new Refused(line, means, advice, 'library');
  }

  /**
   * A refusal of the page.
   * @param {string} name
   */
  static own(name) {
    const [line, means, advice] = OWN[name] ?? ['the page failed', name, 'open the page anew'];
    return new Refused(line, means, advice, name);
  }
}

/**
 * A refusal as sentences; `file` is the name of the file that it is about.
 * @param {Told} told
 * @param {string | null} [file]
 */
export function lineOf(told, file = null) {
  const sentence = (/** @type {string} */ text) => (text ? `${text[0]?.toUpperCase()}${text.slice(1)}.` : '');
  const first = file === null ? sentence(told.line) : `${file}: ${told.line}.`;
  return [first, sentence(told.means), sentence(told.advice)].filter(Boolean).join(' ');
}
