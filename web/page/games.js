// The games of this browser that nobody plays: what is shown of them, and what is done with them.
import { namesIn, readFile, readWhereThere, refusalOf } from './disk.js';
import { NAMELESS, cartridgeIn, gamesFolder, nameOf, withGame } from './folder.js';
import { indexOf, saidOf } from './game_index.js';
import { MOST_SECTORS, aboutIn, aboutOf, cartridgeOf, deleteImage as deleteFiles, isImage, newImage, nextNumber, numberOf } from './images.js';
import { PICTURE_LENGTH, SECTOR, Session, sectorsNeeded } from './library.js';
import { unpacked } from './pack.js';
import { FRAMES_A_SECOND, recordIn } from './played.js';
import { Refused } from './refusals.js';
import { loaded, without } from './states.js';

/**
 * What the list shows of a game.
 * @param {Folder} root
 * @param {string} id
 * @returns {Promise<GameRow>}
 */
async function rowOf(root, id) {
  const folder = await root.getDirectoryHandle(id);
  /** @type {GameRow} */
  const row = {
    id, ...NAMELESS, size: 0, saved: 0, played: 0, seconds: 0, isOpen: false, isUnread: false, isBegun: false, picture: null, images: [], play: 0, slot: 0,
  };
  /** @type {Map<number, About>} */
  const abouts = new Map();
  /** @type {Said | null} */
  let said = null;
  for (const name of await namesIn(folder)) {
    try {
      const file = await (await folder.getFileHandle(name)).getFile();
      const bytes = async () => new Uint8Array(await file.arrayBuffer());
      row.size += file.size;
      const number = numberOf(name);
      if (number > 0) {
        if (await isImage(file)) {
          row.images.push({ number, saved: file.lastModified, size: file.size, slot: 0, isUndo: false, count: null, picture: null });
        }
      } else if (name === 'about') {
        Object.assign(row, await nameOf(folder));
      } else if (name === 'index') {
        ({ said } = await indexOf(await bytes()));
      } else if (name === 'picture' && file.size === PICTURE_LENGTH) {
        row.picture = await bytes();
      } else if (name === 'played') {
        const record = recordIn(await bytes());
        row.played = record?.time ?? 0;
        row.seconds = Math.floor((record?.frames ?? 0) / FRAMES_A_SECOND);
      } else if (name.endsWith('.about')) {
        const about = aboutIn(await bytes());
        if (about) {
          abouts.set(parseInt(name, 10), about);
        }
      }
    } catch (error) {
      const kind = error instanceof Error ? error.name : '';
      const isOpen = kind === 'NoModificationAllowedError' || kind === 'NotReadableError';
      row.isOpen ||= isOpen;
      row.isUnread ||= !isOpen && kind !== 'NotFoundError';
    }
  }
  row.images.sort((a, b) => b.saved - a.saved || b.number - a.number);
  row.play = said?.play ?? row.images[0]?.number ?? 0;
  row.slot = said?.slots[0] ?? 0;
  for (const image of row.images) {
    const about = abouts.get(image.number);
    image.slot = (said?.slots.indexOf(image.number) ?? -1) + 1;
    image.isUndo = said !== null && (said.undo.includes(image.number) || said.back === image.number);
    image.count = about ? about.left ?? (about.kind === 'state' ? about.begun : null) : null;
    image.picture = about?.picture ? unpacked(about.picture) : null;
  }
  row.isBegun = row.images.length > 0 || row.isOpen;
  row.saved = row.images.find((image) => image.number === row.play)?.saved ?? 0;
  row.played ||= row.saved;
  return row;
}

/** The games of this browser, the one that was saved last first. */
export async function listGames() {
  const root = await gamesFolder();
  const rows = [];
  for (const id of await namesIn(root)) {
    if (/^[0-9a-f]{64}$/.test(id)) {
      rows.push(await rowOf(root, id));
    }
  }
  return rows.sort((a, b) => b.saved - a.saved);
}

/**
 * Deletes a game with all that is kept of it.
 * @param {string} id
 */
export async function deleteGame(id) {
  const root = await gamesFolder();
  await withGame(id, () => {});
  try {
    await root.removeEntry(id, { recursive: true });
  } catch (error) {
    throw refusalOf(error);
  }
}

/**
 * Deletes an image that is neither played nor in a slot.
 * @param {string} id
 * @param {number} number
 */
export async function deleteImage(id, number) {
  await withGame(id, async (folder, index) => {
    const { said } = index;
    if (said === null || number === said.play || said.slots.includes(number)) {
      throw Refused.own('played');
    }
    if (said.back === number || said.undo.includes(number)) {
      await index.write(without(said, number));
    }
    await deleteFiles(folder, number);
  });
}

/**
 * Plays another image of a game from now on, or a copy of one that was kept in a slot. The one that was played is kept.
 * @param {string} id
 * @param {number} number
 */
export async function playImage(id, number) {
  await withGame(id, async (folder, index) => {
    const said = index.said ?? saidOf(number);
    const about = await aboutOf(folder, number);
    let play = number;
    if (said.slots.includes(number) || said.undo.includes(number) || about?.kind === 'state') {
      index.reserve();
      play = nextNumber(await namesIn(folder), said);
      await newImage(folder, play, await readFile(folder, `${number}.gbkeep`), await readWhereThere(folder, `${number}.time`), null);
    } else {
      await folder.getFileHandle(`${number}.gbkeep`);
    }
    await index.write(play === said.play ? said : loaded(said, play));
  });
}

/**
 * The bytes of an image of a game that nobody plays.
 * @param {string} id
 * @param {number} number
 */
export async function imageOf(id, number) {
  return withGame(id, (folder) => readFile(folder, `${number}.gbkeep`));
}

/**
 * The battery file of an image of a game that nobody plays.
 * @param {Library} library
 * @param {string} id
 * @param {number} number
 */
export async function batteryOf(library, id, number) {
  return withGame(id, async (folder) => {
    // the calls of this session are not made
    const session = Session.resume(library, await cartridgeIn(folder, id), await readFile(folder, `${number}.gbkeep`));
    try {
      return session.battery();
    } finally {
      session.free();
    }
  });
}

/**
 * Whether a cartridge is for the Game Boy Color alone, by its header.
 * @param {Uint8Array} rom
 */
export function isForColour(rom) {
  return rom[0x143] === 0xc0;
}

/**
 * Looks whether a cartridge, and a battery file for it, can be played. The calls of this session are not made.
 * @param {Library} library
 * @param {Uint8Array} rom
 * @param {Uint8Array | null} battery
 */
export function tryCartridge(library, rom, battery) {
  if (isForColour(rom)) {
    throw Refused.own('colour');
  }
  const sectors = sectorsNeeded(library, rom);
  if (battery) {
    Session.import(library, rom, battery, sectors).free();
  }
}

/**
 * Looks whether a SAVE from outside can be played. Answers the ID of its game. The calls of this session are not made.
 * @param {Library} library
 * @param {Uint8Array} image
 */
export async function trySave(library, image) {
  if (image.length > MOST_SECTORS * SECTOR) {
    throw Refused.own('long');
  }
  const id = cartridgeOf(image);
  const root = await gamesFolder();
  let folder = null;
  try {
    folder = await root.getDirectoryHandle(id);
    await folder.getFileHandle('cart.gb');
  } catch (error) {
    throw error instanceof Error && error.name === 'NotFoundError' ? Refused.own('cartridge') : error;
  }
  Session.resume(library, await cartridgeIn(folder, id), image).free();
  return id;
}

/**
 * Takes a SAVE in beside its cartridge, as the image that is played from now on. It was tried.
 * @param {string} id
 * @param {Uint8Array} image
 */
export async function takeIn(id, image) {
  await withGame(id, async (folder, index) => {
    index.reserve();
    const play = nextNumber(await namesIn(folder), index.said);
    await newImage(folder, play, image, null, null);
    await index.write(index.said ? loaded(index.said, play) : saidOf(play));
  });
}
