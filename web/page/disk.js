// Files in the origin private file system: what is read and written of them, and what is said where that fails.
import { SECTOR } from './library.js';
import { Refused } from './refusals.js';

// a file that a closed tab had open is free a moment later
const WAITS = 15;
const WAIT = 100;

/** @type {Record<string, string>} */
const KINDS = {
  QuotaExceededError: 'room',
  NoModificationAllowedError: 'other',
  NotFoundError: 'gone',
  SecurityError: 'files',
  NotReadableError: 'read',
  // what Chromium throws where its disk is full, before it asks for the room
  InvalidStateError: 'disk',
};

/** @param {number} time */
const sleep = (time) => new Promise((done) => { setTimeout(done, time); });

/**
 * What the browser throws, as a refusal.
 * @param {any} error
 * @returns {Refused}
 */
export function refusalOf(error) {
  if (error instanceof Refused) {
    return error;
  }
  const own = KINDS[error?.name];
  return own ? Refused.own(own) : new Refused('the page failed', String(error?.message ?? error), 'open the page anew: what was saved stays saved', 'failed');
}

/** @param {unknown} error */
function isMissing(error) {
  return error instanceof Error && error.name === 'NotFoundError';
}

/**
 * @param {Folder} folder
 * @returns {Promise<string[]>}
 */
export async function namesIn(folder) {
  const names = [];
  for await (const name of folder.keys()) {
    names.push(name);
  }
  return names;
}

/**
 * @param {Folder} folder
 * @param {string} name
 * @returns {Promise<Handle>}
 */
export async function access(folder, name, create = false) {
  const file = await folder.getFileHandle(name, { create });
  return file.createSyncAccessHandle();
}

/**
 * A file that nobody else can open until it is closed; it is waited for a while where another has it.
 * @param {Folder} folder
 * @param {string} name
 * @returns {Promise<Handle>}
 */
export async function alone(folder, name) {
  for (let wait = 0; ; wait += 1) {
    try {
      return await access(folder, name, true);
    } catch (error) {
      if (!(error instanceof Error) || error.name !== 'NoModificationAllowedError' || wait === WAITS) {
        throw error;
      }
      await sleep(WAIT);
    }
  }
}

/**
 * Closes what is open of these; one that fails keeps none of the others open.
 * @param {(Handle | null | undefined)[]} handles
 */
export function closeAll(handles) {
  for (const handle of handles) {
    try {
      handle?.close();
    } catch {
      // what was flushed stays
    }
  }
}

/**
 * @param {Handle} handle
 * @param {Uint8Array} bytes
 * @param {number} at
 */
export function put(handle, bytes, at) {
  if (handle.write(bytes, { at }) !== bytes.length) {
    throw Refused.own('room');
  }
}

/**
 * Some bytes of an open file.
 * @param {Handle} handle
 * @param {number} at
 * @param {number} length
 * @returns {Uint8Array}
 */
export function partOf(handle, at, length) {
  const bytes = new Uint8Array(length);
  if (handle.read(bytes, { at }) !== length) {
    throw Refused.own('read');
  }
  return bytes;
}

/**
 * The bytes of an open file, at most so many of them.
 * @param {Handle} handle
 * @returns {Uint8Array}
 */
export function wholeOf(handle, most = Infinity) {
  return partOf(handle, 0, Math.min(handle.getSize(), most));
}

/**
 * A new file with these bytes. The first two sectors are written when the others are durable: a file that has a root has all.
 * @param {Folder} folder
 * @param {string} name
 * @param {Uint8Array} bytes
 */
export async function newFile(folder, name, bytes) {
  let handle = null;
  try {
    handle = await access(folder, name, true);
    handle.truncate(0);
    const head = Math.min(2 * SECTOR, bytes.length);
    put(handle, new Uint8Array(head), 0);
    put(handle, bytes.subarray(head), head);
    handle.flush();
    put(handle, bytes.subarray(0, head), 0);
    handle.flush();
    handle.close();
  } catch (error) {
    closeAll([handle]);
    await folder.removeEntry(name).catch(() => {});
    throw error;
  }
}

/**
 * A file with these bytes, as far as that can be had: it may be missing or torn. What failed is not told.
 * @param {Folder} folder
 * @param {string} name
 * @param {Uint8Array} bytes
 */
export async function courtesyFile(folder, name, bytes) {
  let handle = null;
  try {
    handle = await access(folder, name, true);
    handle.truncate(0);
    put(handle, bytes, 0);
  } catch {
    // whoever reads it takes it for missing
  } finally {
    closeAll([handle]);
  }
}

/**
 * @param {Folder} folder
 * @param {string} name
 * @returns {Promise<Uint8Array>}
 */
export async function readFile(folder, name) {
  const file = await (await folder.getFileHandle(name)).getFile();
  return new Uint8Array(await file.arrayBuffer());
}

/**
 * The bytes of a file; null where it is not there.
 * @param {Folder} folder
 * @param {string} name
 * @returns {Promise<Uint8Array | null>}
 */
export async function readWhereThere(folder, name) {
  try {
    return await readFile(folder, name);
  } catch (error) {
    if (isMissing(error)) {
      return null;
    }
    throw error;
  }
}

/**
 * Removes a file, where it is there.
 * @param {Folder} folder
 * @param {string} name
 */
export async function remove(folder, name) {
  try {
    await folder.removeEntry(name);
  } catch (error) {
    if (!isMissing(error)) {
      throw error;
    }
  }
}

/**
 * Text in a sector, with blanks behind it.
 * @param {string} text
 */
export function sectorOf(text) {
  return new TextEncoder().encode(text.padEnd(SECTOR));
}

/** @param {Uint8Array} sector */
export function textOf(sector) {
  return new TextDecoder().decode(sector).trimEnd();
}
