// A private file system in memory, in place of a browser's: each call on a file can be the last before a kill, and writes that no flush has followed can be
// undone, as by a power cut.
import './browser.mjs';

/** @param {string} name */
function fault(name) {
  return new DOMException(name, name);
}

/** A disk: each file by its path, with the writes that no flush has followed. */
export class Disk {
  constructor(files = new Map()) {
    this.files = files;
    // how many calls there may be yet; what is called then fails for ever
    this.left = Infinity;
    this.calls = 0;
    this.log = [];
    // how many bytes all files may take
    this.room = Infinity;
    this.locks = new Set();
    this.folders = new Set(['']);
    for (const path of files.keys()) {
      this.folders.add(path.slice(0, path.lastIndexOf('/')));
    }
    this.root = new Folder(this, '');
  }

  /** A call that changes something. */
  step(what) {
    if (this.left <= 0) {
      throw fault('AbortError');
    }
    this.left -= 1;
    this.calls += 1;
    this.log.push(what);
  }

  size() {
    return [...this.files.values()].reduce((sum, file) => sum + file.bytes.length, 0);
  }

  /** The disk that a kill leaves; where `chance` is given, that of a power cut, which undoes some of the writes that no flush has followed. */
  after(chance = null) {
    const files = new Map();
    for (const [path, { bytes, synced, writes, time }] of this.files) {
      let left = bytes;
      if (chance !== null && writes.length > 0) {
        const all = chance() < 0.3;
        left = synced;
        for (const write of writes) {
          if (!all && chance() < 0.5) {
            left = applied(left, write);
          }
        }
      }
      // no bytes are changed in place: each write makes others
      files.set(path, { bytes: left, synced: left, writes: [], time });
    }
    return new Disk(files);
  }

  copy() {
    return this.after();
  }
}

let time = 1_000;
/** Each file that is written is newer than the others. */
function tick() {
  time += 1_000;
  return time;
}

function applied(bytes, { at, part, length }) {
  const longer = new Uint8Array(length ?? Math.max(bytes.length, at + part.length));
  longer.set(bytes.subarray(0, longer.length));
  if (part) {
    longer.set(part, at);
  }
  return longer;
}

class Handle {
  constructor(disk, path) {
    this.disk = disk;
    this.path = path;
    this.file = disk.files.get(path);
  }

  change(what, write) {
    if (!this.disk.locks.has(this.path)) {
      throw fault('InvalidStateError');
    }
    this.disk.step(`${what} ${this.path.split('/').at(-1)}`);
    const after = applied(this.file.bytes, write);
    if (this.disk.size() - this.file.bytes.length + after.length > this.disk.room) {
      throw fault('QuotaExceededError');
    }
    this.file.bytes = after;
    this.file.writes.push(write);
    this.file.time = tick();
  }

  write(bytes, { at = 0 } = {}) {
    this.change('write', { at, part: bytes.slice() });
    return bytes.length;
  }

  truncate(length) {
    this.change('truncate', { at: 0, length });
  }

  read(bytes, { at = 0 } = {}) {
    const part = this.file.bytes.subarray(at, at + bytes.length);
    bytes.set(part);
    return part.length;
  }

  getSize() {
    return this.file.bytes.length;
  }

  flush() {
    this.disk.step(`flush ${this.path.split('/').at(-1)}`);
    this.file.synced = this.file.bytes;
    this.file.writes = [];
  }

  close() {
    this.disk.locks.delete(this.path);
  }
}

class FileHandle {
  constructor(disk, path) {
    this.disk = disk;
    this.path = path;
    this.name = path.split('/').at(-1);
  }

  async createSyncAccessHandle() {
    if (this.disk.locks.has(this.path)) {
      throw fault('NoModificationAllowedError');
    }
    this.disk.locks.add(this.path);
    return new Handle(this.disk, this.path);
  }

  async getFile() {
    const file = this.disk.files.get(this.path);
    if (!file) {
      throw fault('NotFoundError');
    }
    const { bytes, time: lastModified } = file;
    const slice = (from, to) => new Blob([bytes.subarray(from, to)]);
    return { name: this.name, size: bytes.length, lastModified, slice, arrayBuffer: async () => bytes.slice().buffer };
  }
}

class Folder {
  constructor(disk, path) {
    this.disk = disk;
    this.path = path;
  }

  at(name) {
    return this.path ? `${this.path}/${name}` : name;
  }

  async getDirectoryHandle(name, { create = false } = {}) {
    const path = this.at(name);
    if (!this.disk.folders.has(path) && ![...this.disk.folders].some((one) => one.startsWith(`${path}/`))) {
      if (!create) {
        throw fault('NotFoundError');
      }
      this.disk.step(`create ${name}`);
      this.disk.folders.add(path);
    }
    return new Folder(this.disk, path);
  }

  async getFileHandle(name, { create = false } = {}) {
    const path = this.at(name);
    if (!this.disk.files.has(path)) {
      if (!create) {
        throw fault('NotFoundError');
      }
      this.disk.step(`create ${name}`);
      this.disk.files.set(path, { bytes: new Uint8Array(), synced: new Uint8Array(), writes: [], time: tick() });
    }
    return new FileHandle(this.disk, path);
  }

  async removeEntry(name, { recursive = false } = {}) {
    const path = this.at(name);
    const below = [...this.disk.files.keys()].filter((one) => one === path || (recursive && one.startsWith(`${path}/`)));
    if (below.length === 0 && !this.disk.folders.has(path)) {
      throw fault('NotFoundError');
    }
    if (below.some((one) => this.disk.locks.has(one))) {
      throw fault('NoModificationAllowedError');
    }
    this.disk.step(`remove ${name}`);
    below.forEach((one) => this.disk.files.delete(one));
    this.disk.folders.delete(path);
  }

  async* keys() {
    const below = new Set();
    for (const path of [...this.disk.files.keys(), ...this.disk.folders]) {
      if (path !== this.path && path.startsWith(this.path ? `${this.path}/` : '')) {
        below.add(path.slice(this.path ? this.path.length + 1 : 0).split('/')[0]);
      }
    }
    yield* below;
  }
}

/** Has the page's scripts use this disk. */
export function use(disk) {
  globalThis.isSecureContext = true;
  globalThis.FileSystemFileHandle = FileHandle;
  Object.defineProperty(globalThis, 'navigator', { value: { storage: { getDirectory: async () => disk.root } }, configurable: true, writable: true });
  return disk;
}

/** Numbers from 0 to 1 that look like chance, the same each time. */
export function chanceOf(seed) {
  let state = seed >>> 0;
  return () => {
    state = (Math.imul(state, 1664525) + 1013904223) >>> 0;
    return state / 2 ** 32;
  };
}
