// The one cartridge of a zip: found by the zip's list of files, stored or deflated.
import { crc32 } from './digest.js';
import { TooLong, inflated } from './pack.js';
import { Refused } from './refusals.js';

/** A cartridge has 8 MiB at most. */
export const MOST_ROM = 8 << 20;
const LOCAL = 0x04034b50;
const ENTRY = 0x02014b50;
const END = 0x06054b50;
const END_LENGTH = 22;
const ENTRY_LENGTH = 46;
const LOCAL_LENGTH = 30;
const MOST_COMMENT = 0xffff;
const STORED = 0;
const DEFLATED = 8;
// of a length, a place or a count: it stands elsewhere, as zip64 has it
const ELSEWHERE_WORD = 0xffffffff;
const ELSEWHERE = 0xffff;
// flags of an entry
const ENCRYPTED = 1;
const IN_UTF8 = 1 << 11;

/**
 * Whether these bytes are a zip, by its first ones: those of a file, or of a zip that has none.
 * @param {Uint8Array} bytes
 */
export function isZip(bytes) {
  return bytes.length >= 4 && bytes[0] === 0x50 && bytes[1] === 0x4b && ((bytes[2] === 3 && bytes[3] === 4) || (bytes[2] === 5 && bytes[3] === 6));
}

/**
 * @param {string} path
 */
function withoutFolders(path) {
  return path.slice(Math.max(path.lastIndexOf('/'), path.lastIndexOf('\\')) + 1);
}

/**
 * @param {Uint8Array} bytes
 * @param {number} flags
 */
function nameOf(bytes, flags) {
  try {
    return new TextDecoder('utf-8', { fatal: true }).decode(bytes);
  } catch {
    // of an old table of letters, those that all of them have
    return flags & IN_UTF8 ? new TextDecoder().decode(bytes) : Array.from(bytes, (byte) => (byte >= 0x20 && byte < 0x7f ? String.fromCharCode(byte) : '_')).join('');
  }
}

/**
 * Where the list of files ends: the last place that says so, and whose comment reaches the end.
 * @param {Uint8Array} bytes
 * @param {DataView} view
 */
function endOf(bytes, view) {
  for (let at = bytes.length - END_LENGTH; at >= Math.max(0, bytes.length - END_LENGTH - MOST_COMMENT); at -= 1) {
    if (view.getUint32(at, true) === END && at + END_LENGTH + view.getUint16(at + 20, true) === bytes.length) {
      return at;
    }
  }
  throw Refused.own('zip_damaged');
}

/**
 * The files of a zip.
 * @param {Uint8Array} bytes
 * @returns {ZipEntry[]}
 */
export function entriesOf(bytes) {
  const view = new DataView(bytes.buffer, bytes.byteOffset, bytes.length);
  const end = endOf(bytes, view);
  const [disk, first, here, count] = [4, 6, 8, 10].map((offset) => view.getUint16(end + offset, true));
  const [length, begin] = [12, 16].map((offset) => view.getUint32(end + offset, true));
  if (count === ELSEWHERE || length === ELSEWHERE_WORD || begin === ELSEWHERE_WORD) {
    throw Refused.own('zip_kind');
  }
  if (disk !== 0 || first !== 0 || here !== count || begin + length > end) {
    throw Refused.own('zip_damaged');
  }
  /** @type {ZipEntry[]} */
  const entries = [];
  let at = begin;
  for (let number = 0; number < count; number += 1) {
    if (at + ENTRY_LENGTH > end || view.getUint32(at, true) !== ENTRY) {
      throw Refused.own('zip_damaged');
    }
    const flags = view.getUint16(at + 8, true);
    const [name, extra, comment] = [28, 30, 32].map((offset) => view.getUint16(at + offset, true));
    const next = at + ENTRY_LENGTH + name + extra + comment;
    if (next > end) {
      throw Refused.own('zip_damaged');
    }
    entries.push({
      name: withoutFolders(nameOf(bytes.subarray(at + ENTRY_LENGTH, at + ENTRY_LENGTH + name), flags)),
      flags,
      method: view.getUint16(at + 10, true),
      sum: view.getUint32(at + 16, true),
      packed: view.getUint32(at + 20, true),
      length: view.getUint32(at + 24, true),
      at: view.getUint32(at + 42, true),
    });
    at = next;
  }
  return entries;
}

/**
 * The bytes of a file of a zip, as they lie there.
 * @param {Uint8Array} bytes
 * @param {ZipEntry} entry
 */
function packedOf(bytes, entry) {
  const view = new DataView(bytes.buffer, bytes.byteOffset, bytes.length);
  if (entry.at + LOCAL_LENGTH > bytes.length || view.getUint32(entry.at, true) !== LOCAL) {
    throw Refused.own('zip_damaged');
  }
  const begin = entry.at + LOCAL_LENGTH + view.getUint16(entry.at + 26, true) + view.getUint16(entry.at + 28, true);
  if (begin + entry.packed > bytes.length) {
    throw Refused.own('zip_damaged');
  }
  return bytes.subarray(begin, begin + entry.packed);
}

/**
 * The one cartridge of a zip. At most 8 MiB and a byte of it are unpacked.
 * @param {Uint8Array} bytes
 * @param {(bytes: Uint8Array, most: number) => Promise<Uint8Array>} unpack raw deflate
 * @returns {Promise<{name: string, bytes: Uint8Array}>}
 */
export async function cartridgeIn(bytes, unpack = inflated) {
  // what a Mac leaves beside each file has its name behind a mark
  const carts = entriesOf(bytes).filter(({ name }) => /\.gbc?$/i.test(name) && !name.startsWith('._'));
  if (carts.length !== 1) {
    throw Refused.own(carts.length === 0 ? 'zip_none' : 'zip_several');
  }
  const [cart] = carts;
  if (cart.flags & ENCRYPTED) {
    throw Refused.own('zip_locked');
  }
  if (![STORED, DEFLATED].includes(cart.method) || [cart.packed, cart.length, cart.at].includes(ELSEWHERE_WORD)) {
    throw Refused.own('zip_kind');
  }
  if (cart.length > MOST_ROM) {
    throw Refused.own('zip_long');
  }
  const packed = packedOf(bytes, cart);
  let rom;
  try {
    rom = cart.method === STORED ? packed.slice(0, MOST_ROM + 1) : await unpack(packed, MOST_ROM);
  } catch (error) {
    throw Refused.own(error instanceof TooLong ? 'zip_long' : 'zip_damaged');
  }
  if (rom.length !== cart.length || crc32(rom) !== cart.sum) {
    throw Refused.own('zip_damaged');
  }
  return { name: cart.name, bytes: rom };
}
