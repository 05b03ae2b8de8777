// What files are that were chosen or dropped. Nothing is opened or changed.
import { refusalOf } from './disk.js';
import { sha256 } from './digest.js';
import { titleOf } from './folder.js';
import { listGames, tryCartridge } from './games.js';
import { cartridgeOf, isSave } from './images.js';
import { Refused } from './refusals.js';
import { cartridgeIn, isZip } from './zip.js';

/**
 * What a file is called without its folder and its ending, whatever the case of its letters.
 * @param {string} name
 */
export function stemOf(name) {
  return name.slice(Math.max(name.lastIndexOf('/'), name.lastIndexOf('\\')) + 1).replace(/\.(gbc?|sgb|sav|srm|zip|gbkeep)$/i, '').normalize('NFC').trim().toLowerCase();
}

/**
 * What a file is by its name and its first bytes.
 * @param {GivenFile} file
 * @returns {'zip' | 'save' | 'battery' | 'cart'}
 */
export function kindOf({ name, bytes }) {
  if (isZip(bytes)) {
    return 'zip';
  }
  if (isSave(bytes)) {
    return 'save';
  }
  return /\.(sav|srm)$/i.test(name) ? 'battery' : 'cart';
}

/**
 * The game of a list whose cartridge has the name of a battery file; null where there is none.
 * @template {{name: string}} One
 * @param {One[]} rows
 * @param {string} name
 * @returns {One | null}
 */
export function gameOf(rows, name) {
  const stem = stemOf(name);
  return rows.find((row) => stemOf(row.name) === stem) ?? null;
}

/**
 * A cartridge, tried.
 * @param {Library} library
 * @param {GivenFile} file
 * @param {GameRow[]} rows
 */
async function cartOf(library, file, rows) {
  try {
    tryCartridge(library, file.bytes, null);
  } catch (error) {
    // what is not called a cartridge is none
    throw /\.(gbc?|sgb|zip)$/i.test(file.name) || refusalOf(error).kind === 'colour' ? error : Refused.own('strange');
  }
  const id = await sha256(file.bytes);
  return { ...file, id, title: titleOf(file.bytes) || file.name, isKnown: rows.some((row) => row.id === id) };
}

/**
 * Looks at files: zips are unpacked. Of each kind the first counts.
 * @param {Library} library
 * @param {GivenFile[]} files
 * @returns {Promise<Looked>}
 */
export async function look(library, files) {
  const rows = await listGames();
  /** @type {Looked} */
  const found = { cart: null, battery: null, save: null, refused: [] };
  for (const given of files) {
    try {
      const file = kindOf(given) === 'zip' ? await cartridgeIn(given.bytes) : given;
      const kind = file === given ? kindOf(file) : 'cart';
      if (kind === 'save' && found.save === null) {
        const id = cartridgeOf(file.bytes);
        const row = rows.find((one) => one.id === id);
        found.save = { ...file, id: row ? id : null, title: row ? row.title || row.name : '' };
      } else if (kind === 'battery' && found.battery === null) {
        const row = gameOf(rows, file.name);
        found.battery = { ...file, of: row && { id: row.id, title: row.title, name: row.name } };
      } else {
        const cart = kind === 'cart' ? await cartOf(library, file, rows) : null;
        if (cart === null || found.cart !== null) {
          throw Refused.own('more');
        }
        found.cart = cart;
      }
    } catch (error) {
      found.refused.push({ ...refusalOf(error).told(), name: given.name });
    }
  }
  return found;
}
