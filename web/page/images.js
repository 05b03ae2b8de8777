// The images of a game: `N.gbkeep`, each a SAVE of the program, with what stands beside it in the folder.
//
//   N.time    of a cartridge with a clock: until when the clock of that image was given, a sector
//   N.about   what that image is, a sector, and its last picture, packed. It is a courtesy, and may be missing or torn
//
// An image is never written over by another one, and no number is given twice.
import { courtesyFile, namesIn, newFile, readFile, readWhereThere, remove, sectorOf, textOf } from './disk.js';
import { crc32, hex } from './digest.js';
import { namedBy } from './game_index.js';
import { SECTOR } from './library.js';
import { PACKED_LENGTH } from './pack.js';
import { forgettable, isSmall } from './states.js';

/** An image has so many sectors at most. */
export const MOST_SECTORS = 65536;
const ROOT = [...'GBKPROOT'].map((letter) => letter.charCodeAt(0));
const ROOTS = [0, SECTOR];

/** @param {Uint8Array} head */
function hasRoot(head) {
  return ROOTS.some((at) => head.length >= at + ROOT.length && ROOT.every((byte, k) => head[at + k] === byte));
}

/**
 * Whether these bytes are a SAVE, and not a cartridge.
 * @param {Uint8Array} bytes
 */
export function isSave(bytes) {
  return hasRoot(bytes.subarray(0, 2 * SECTOR));
}

/**
 * The cartridge that a SAVE names: its SHA-256.
 * @param {Uint8Array} image
 */
export function cartridgeOf(image) {
  const at = ROOTS.find((place) => hasRoot(image.subarray(place, place + SECTOR))) ?? 0;
  return hex(image.subarray(at + 20, at + 52));
}

/**
 * Whether a file is the image of a game, by its first sectors.
 * @param {Blob} file
 */
export async function isImage(file) {
  return hasRoot(new Uint8Array(await file.slice(0, 2 * SECTOR).arrayBuffer()));
}

/**
 * The number of a file that is an image; 0 for any other one.
 * @param {string} name
 */
export function numberOf(name) {
  return Number(/^([1-9][0-9]{0,8})\.gbkeep$/.exec(name)?.[1] ?? 0);
}

/**
 * The numbers of the images of a folder.
 * @param {string[]} names
 */
export function numbersIn(names) {
  return names.map(numberOf).filter((number) => number > 0).sort((a, b) => a - b);
}

/**
 * A number that no image has or had, and that nothing beside an image has.
 * @param {string[]} names
 * @param {Said | null} said
 */
export function nextNumber(names, said) {
  const there = names.map((name) => Number(/^([1-9][0-9]{0,8})\./.exec(name)?.[1] ?? 0));
  return Math.max(0, said?.last ?? 0, ...(said ? namedBy(said) : []), ...there) + 1;
}

/**
 * What stands beside an image, as bytes.
 * @param {About} about
 */
export function bytesOf({ kind, time, begun, left, picture }) {
  const text = JSON.stringify({ kind, time, begun: String(begun), left: left === null ? null : String(left) });
  const bytes = new Uint8Array(SECTOR + (picture?.length ?? 0));
  bytes.set(sectorOf(`${text} ${crc32(new TextEncoder().encode(text))}`));
  bytes.set(picture ?? [], SECTOR);
  return bytes;
}

/**
 * What bytes beside an image say; null where they say nothing that can be.
 * @param {Uint8Array | null} bytes
 * @returns {About | null}
 */
export function aboutIn(bytes) {
  const found = bytes && /^(\{.*\}) ([0-9]+)$/.exec(textOf(bytes.subarray(0, SECTOR)));
  if (!bytes || !found || Number(found[2]) !== crc32(new TextEncoder().encode(found[1]))) {
    return null;
  }
  try {
    const { kind, time, begun, left } = JSON.parse(found[1]);
    const picture = bytes.length === SECTOR + PACKED_LENGTH ? bytes.slice(SECTOR) : null;
    const isKnown = ['state', 'load', 'game'].includes(kind) && Number.isSafeInteger(time);
    return isKnown ? { kind, time, begun: BigInt(begun), left: left === null ? null : BigInt(left), picture } : null;
  } catch {
    return null;
  }
}

/**
 * What stands beside an image; null where that is missing or can't be read.
 * @param {Folder} folder
 * @param {number} number
 */
export async function aboutOf(folder, number) {
  try {
    return aboutIn(await readWhereThere(folder, `${number}.about`));
  } catch {
    return null;
  }
}

/**
 * @param {Folder} folder
 * @param {number} number
 * @param {About} about
 */
export async function noteAbout(folder, number, about) {
  await courtesyFile(folder, `${number}.about`, bytesOf(about));
}

/**
 * A new image with these bytes, with what says until when its clock was given, or null, and what stands beside it, or null.
 * @param {Folder} folder
 * @param {number} number
 * @param {Uint8Array} image
 * @param {Uint8Array | null} time
 * @param {About | null} about
 */
export async function newImage(folder, number, image, time, about) {
  try {
    if (about) {
      await noteAbout(folder, number, about);
    }
    if (time) {
      await newFile(folder, `${number}.time`, time);
    }
    await newFile(folder, `${number}.gbkeep`, image);
  } catch (error) {
    await folder.removeEntry(`${number}.time`).catch(() => {});
    await folder.removeEntry(`${number}.about`).catch(() => {});
    throw error;
  }
}

/**
 * The bytes of an image; null where it is not there.
 * @param {Folder} folder
 * @param {number} number
 */
export async function imageOf(folder, number) {
  return number === 0 ? null : readWhereThere(folder, `${number}.gbkeep`);
}

/**
 * Deletes an image and what stands beside it. A cut leaves what says nothing without its image.
 * @param {Folder} folder
 * @param {number} number
 */
export async function deleteImage(folder, number) {
  await folder.removeEntry(`${number}.gbkeep`);
  await remove(folder, `${number}.time`);
  await remove(folder, `${number}.about`);
}

/**
 * Deletes the images that may go, as far as that can be done: nothing depends on it.
 * @param {Folder} folder
 * @param {(Said | null)[]} named what stands in the index, durably, and stood in it before
 * @param {(image: Uint8Array) => bigint} countOf how many inputs an image has
 */
export async function sweep(folder, named, countOf) {
  try {
    const names = await namesIn(folder);
    const images = await Promise.all(numbersIn(names).map(async (number) => ({ number, about: await aboutOf(folder, number) })));
    for (const { number, about } of forgettable(images, named)) {
      // what stands beside it may be wrong, and the image itself is not
      const count = countOf(await readFile(folder, `${number}.gbkeep`));
      if (isSmall(about, count)) {
        await deleteImage(folder, number);
      } else if (about) {
        await noteAbout(folder, number, { ...about, kind: 'game', left: count });
      }
    }
    // what stands beside no image was left by a cut
    for (const name of names) {
      const [, number] = /^([1-9][0-9]{0,8})\.(time|about)$/.exec(name) ?? [];
      if (number && !names.includes(`${number}.gbkeep`)) {
        await remove(folder, name);
      }
    }
  } catch {
    // they go another time
  }
}

/**
 * Of these images the one that was written last; 0 where there is none.
 * @param {Folder} folder
 * @param {number[]} numbers
 */
export async function newest(folder, numbers) {
  let found = { number: 0, saved: -1 };
  for (const number of numbers) {
    const file = await (await folder.getFileHandle(`${number}.gbkeep`)).getFile();
    if (await isImage(file) && file.lastModified >= found.saved) {
      found = { number, saved: file.lastModified };
    }
  }
  return found.number;
}
