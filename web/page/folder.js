// The folder of a game, `games/ID` in the origin private file system, where ID is the SHA-256 of the cartridge:
//
//   cart.gb     the cartridge
//   about       its name, as JSON
//   index       which image is played, and which are its slots (game_index.js). Whoever plays the game has this file open, and nobody else can open it then
//   N.gbkeep    an image of the game, N.time and N.about beside it (images.js)
//   picture     the last picture, as shades
//   played      how far it was played (played.js)
//   timeline    the last hour of play (timeline.js)
//
// What is played and what is in a slot is changed by one write of the index, so that a cut leaves the old or the new.
import { access, closeAll, namesIn, readWhereThere, refusalOf, textOf } from './disk.js';
import { sha256 } from './digest.js';
import { GameIndex } from './game_index.js';
import { numbersIn } from './images.js';
import { MemoryFolder } from './memory_disk.js';
import { Refused } from './refusals.js';

/** What a game without a name is called. */
export const NAMELESS = { title: '', name: 'a cartridge' };

const TRIAL = 'trial';

/** Files in memory, where this browser keeps none for this page.
 * @type {any} */
let memory = null;

/** Opens a file, as each game does. */
async function openTrial() {
  const root = await navigator.storage.getDirectory();
  closeAll([await access(root, TRIAL, true)]);
  await root.removeEntry(TRIAL);
}

/** Whether this browser keeps files for this page: else games are played in memory. What fails otherwise is no reason for that: the games are there. */
export async function keepsFiles() {
  const hasCalls = typeof navigator.storage?.getDirectory === 'function' && typeof FileSystemFileHandle === 'function'
    && 'createSyncAccessHandle' in FileSystemFileHandle.prototype;
  const isRefused = (/** @type {unknown} */ error) => error instanceof Error && ['SecurityError', 'NotSupportedError'].includes(error.name);
  if (!hasCalls || await openTrial().then(() => false, isRefused)) {
    memory ??= new MemoryFolder();
  }
  return memory === null;
}

/**
 * The folder of the games. Refused where the address is not secure: a browser gives a page neither files nor digests there.
 * @returns {Promise<Folder>}
 */
export async function gamesFolder() {
  if (!isSecureContext) {
    throw Refused.own('insecure');
  }
  if (memory !== null) {
    return memory;
  }
  try {
    const root = await navigator.storage.getDirectory();
    return await root.getDirectoryHandle('games', { create: true });
  } catch {
    throw Refused.own('files');
  }
}

/**
 * The cartridge of a game, where it is the one that the folder is named after.
 * @param {Folder} folder
 * @param {string} id
 */
export async function cartridgeIn(folder, id) {
  const rom = await readWhereThere(folder, 'cart.gb');
  if (rom === null || await sha256(rom) !== id) {
    throw Refused.own('rom');
  }
  return rom;
}

/**
 * What a game is called.
 * @param {Folder} folder
 */
export async function nameOf(folder) {
  const bytes = await readWhereThere(folder, 'about');
  try {
    const { title, name } = JSON.parse(textOf(bytes ?? new Uint8Array()));
    return { title: String(title), name: String(name) };
  } catch {
    return NAMELESS;
  }
}

/**
 * The title that a cartridge has in its header.
 * @param {Uint8Array} rom
 */
export function titleOf(rom) {
  const bytes = [...rom.subarray(0x134, 0x144)];
  const end = bytes.indexOf(0);
  return bytes.slice(0, end < 0 ? 16 : end).map((byte) => (byte >= 0x20 && byte < 0x7f ? String.fromCharCode(byte) : ' ')).join('').trim();
}

/**
 * Does something with the folder of a game and its index, which is open then; with `create`, of a game that may not be there, and where that fails, none is
 * there.
 * @template Kept
 * @param {string} id
 * @param {boolean} create
 * @param {(folder: Folder, index: GameIndex) => Promise<Kept> | Kept} run
 * @returns {Promise<Kept>}
 */
export async function locked(id, create, run) {
  const root = await gamesFolder();
  let folder = null;
  let index = null;
  try {
    folder = await root.getDirectoryHandle(id, { create });
    index = await GameIndex.open(folder);
    return await run(folder, index);
  } catch (error) {
    index?.close();
    const refused = refusalOf(error);
    if (create && folder !== null && refused.kind !== 'other' && numbersIn(await namesIn(folder)).length === 0) {
      await root.removeEntry(id, { recursive: true }).catch(() => {});
    }
    throw refused;
  }
}

/**
 * Does something with a game that nobody plays.
 * @template Kept
 * @param {string} id
 * @param {(folder: Folder, index: GameIndex) => Promise<Kept> | Kept} run
 * @returns {Promise<Kept>}
 */
export async function withGame(id, run) {
  return locked(id, false, async (folder, index) => {
    const kept = await run(folder, index);
    index.close();
    return kept;
  });
}
