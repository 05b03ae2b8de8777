// Files in memory, in place of a browser that keeps none for a page: folders, files and handles with the calls that the page makes. All of it is gone with
// the page.

/** @param {string} name */
const fault = (name) => new DOMException(name, name);

/** A file, and who has it open. */
class Content {
  bytes = new Uint8Array();
  /** How much of the bytes is the file's: they grow by more than is asked for. */
  length = 0;
  lastModified = Date.now();
  isOpen = false;

  /** @param {number} length */
  resize(length) {
    if (length > this.bytes.length) {
      const more = new Uint8Array(Math.max(length, 2 * this.bytes.length));
      more.set(this.bytes.subarray(0, this.length));
      this.bytes = more;
    } else if (length < this.length) {
      this.bytes.fill(0, length, this.length);
    }
    this.length = length;
    this.lastModified = Date.now();
  }
}

/** @implements {FileSystemSyncAccessHandle} */
class MemoryHandle {
  /** @param {Content} content */
  constructor(content) {
    this.content = content;
  }

  getSize() {
    return this.content.length;
  }

  /**
   * @param {Uint8Array} bytes
   * @param {FileSystemReadWriteOptions} how
   */
  read(bytes, { at = 0 } = {}) {
    const part = this.content.bytes.subarray(at, Math.min(at + bytes.length, this.content.length));
    bytes.set(part);
    return part.length;
  }

  /**
   * @param {Uint8Array} bytes
   * @param {FileSystemReadWriteOptions} how
   */
  write(bytes, { at = 0 } = {}) {
    this.content.resize(Math.max(this.content.length, at + bytes.length));
    this.content.bytes.set(bytes, at);
    return bytes.length;
  }

  /** @param {number} length */
  truncate(length) {
    this.content.resize(length);
  }

  flush() {}

  close() {
    this.content.isOpen = false;
  }
}

class MemoryFile {
  /**
   * @param {string} name
   * @param {Content} content
   */
  constructor(name, content) {
    this.name = name;
    this.content = content;
  }

  async getFile() {
    const { bytes, length, lastModified } = this.content;
    return new File([bytes.subarray(0, length)], this.name, { lastModified });
  }

  async createSyncAccessHandle() {
    if (this.content.isOpen) {
      throw fault('NoModificationAllowedError');
    }
    this.content.isOpen = true;
    return new MemoryHandle(this.content);
  }
}

export class MemoryFolder {
  /** @type {Map<string, MemoryFolder | Content>} */
  entries = new Map();

  /**
   * @param {string} name
   * @param {{create?: boolean}} how
   */
  async getDirectoryHandle(name, { create = false } = {}) {
    const there = this.entries.get(name) ?? (create ? new MemoryFolder() : null);
    if (!(there instanceof MemoryFolder)) {
      throw fault('NotFoundError');
    }
    this.entries.set(name, there);
    return there;
  }

  /**
   * @param {string} name
   * @param {{create?: boolean}} how
   */
  async getFileHandle(name, { create = false } = {}) {
    const there = this.entries.get(name) ?? (create ? new Content() : null);
    if (!(there instanceof Content)) {
      throw fault('NotFoundError');
    }
    this.entries.set(name, there);
    return new MemoryFile(name, there);
  }

  /** @param {string} name */
  async removeEntry(name) {
    const there = this.entries.get(name);
    if (there === undefined) {
      throw fault('NotFoundError');
    }
    if (there instanceof Content ? there.isOpen : [...there.entries.values()].some((one) => one instanceof Content && one.isOpen)) {
      throw fault('NoModificationAllowedError');
    }
    this.entries.delete(name);
  }

  async* keys() {
    yield* [...this.entries.keys()];
  }
}
