// What a browser has, and Debian's node (18) has not.
import { webcrypto } from 'node:crypto';
import { deflateRawSync, inflateRawSync } from 'node:zlib';

globalThis.crypto ??= webcrypto;

/** @param {string} name @param {(bytes: Buffer) => Buffer} pack */
function withRaw(name, pack) {
  const Known = globalThis[name];
  try {
    return new Known('deflate-raw') && Known;
  } catch {
    return class {
      constructor(format) {
        const parts = [];
        const raw = () => new TransformStream({
          transform(part) { parts.push(part); },
          flush(out) { out.enqueue(new Uint8Array(pack(Buffer.concat(parts)))); },
        });
        const { readable, writable } = format === 'deflate-raw' ? raw() : new Known(format);
        Object.assign(this, { readable, writable });
      }
    };
  }
}

globalThis.CompressionStream = withRaw('CompressionStream', deflateRawSync);
globalThis.DecompressionStream = withRaw('DecompressionStream', inflateRawSync);
