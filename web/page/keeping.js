// Whether this browser keeps files beyond the window, where that can be told.
import { alone, closeAll, put } from './disk.js';
import { SECTOR } from './library.js';

// a private window was given a part of the memory, and another one a part of the disk, which is more
const SMALL_QUOTA = 2 ** 31;
// of a file in memory: each write goes through another process, and a flush has nothing to do
const ROUNDS = 2;
const WRITES = 16;
const LEAST_WRITES = 2;
const FREE = 10;
const NAME = 'trial';

/**
 * Writes and flushes a sector some times: whether the flushes cost nothing beside the writes, so that they bring nothing to any disk.
 * @param {FileSystemSyncAccessHandle} handle
 */
function flushesAreFree(handle) {
  const sector = new Uint8Array(SECTOR);
  for (let round = 0; round < ROUNDS; round += 1) {
    let writes = 0;
    let flushes = 0;
    for (let k = 0; k < WRITES; k += 1) {
      const begun = performance.now();
      put(handle, sector, 0);
      const written = performance.now();
      handle.flush();
      writes += written - begun;
      flushes += performance.now() - written;
      if (flushes > LEAST_WRITES) {
        return false;
      }
    }
    if (writes < LEAST_WRITES || flushes * FREE > writes) {
      return false;
    }
  }
  return true;
}

/** Whether what is written is surely gone with this window. */
export async function keepsNothing() {
  if (await navigator.storage.persisted()) {
    return false;
  }
  const { quota = Infinity } = await navigator.storage.estimate();
  if (quota < SMALL_QUOTA) {
    return true;
  }
  const root = await navigator.storage.getDirectory();
  let handle = null;
  try {
    handle = await alone(root, NAME);
    return flushesAreFree(handle);
  } finally {
    closeAll([handle]);
    await root.removeEntry(NAME).catch(() => {});
  }
}
