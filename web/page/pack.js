// Bytes made smaller: raw deflate, and pictures of two bits a pixel.

const PIXELS = 160 * 144;
/** The length of a packed picture. */
export const PACKED_LENGTH = PIXELS / 4;

/** There was more to unpack than was asked for. */
export class TooLong extends Error {}

/**
 * What comes out of a stream that bytes are written to, as far as it is no longer than `most`.
 * @param {Uint8Array} bytes
 * @param {CompressionStream | DecompressionStream} stream
 * @param {number} most
 * @returns {Promise<Uint8Array>}
 */
async function through(bytes, stream, most) {
  const writer = stream.writable.getWriter();
  // what fails is thrown by the reader
  writer.write(bytes).catch(() => {});
  writer.close().catch(() => {});
  const reader = stream.readable.getReader();
  /** @type {Uint8Array[]} */
  const parts = [];
  let length = 0;
  for (;;) {
    const { done, value } = await reader.read();
    if (done) {
      break;
    }
    parts.push(value);
    length += value.length;
    if (length > most) {
      await reader.cancel().catch(() => {});
      throw new TooLong();
    }
  }
  if (parts.length === 1) {
    return parts[0];
  }
  const whole = new Uint8Array(length);
  let at = 0;
  for (const part of parts) {
    whole.set(part, at);
    at += part.length;
  }
  return whole;
}

/**
 * @param {Uint8Array} bytes
 * @returns {Promise<Uint8Array>}
 */
export function deflated(bytes) {
  return through(bytes, new CompressionStream('deflate-raw'), Infinity);
}

/**
 * What was deflated. Throws `TooLong` where that is more than `most` bytes, and another error where it is nothing that was deflated.
 * @param {Uint8Array} bytes
 * @param {number} most
 * @returns {Promise<Uint8Array>}
 */
export function inflated(bytes, most) {
  return through(bytes, new DecompressionStream('deflate-raw'), most);
}

/**
 * A picture of shades, four in a byte.
 * @param {Uint8Array} shades
 * @returns {Uint8Array}
 */
export function packed(shades) {
  const bytes = new Uint8Array(PACKED_LENGTH);
  for (let at = 0; at < PACKED_LENGTH; at += 1) {
    bytes[at] = (shades[4 * at] & 3) | ((shades[4 * at + 1] & 3) << 2) | ((shades[4 * at + 2] & 3) << 4) | ((shades[4 * at + 3] & 3) << 6);
  }
  return bytes;
}

/**
 * The shades of a packed picture; null where it is none.
 * @param {Uint8Array} bytes
 * @returns {Uint8Array | null}
 */
export function unpacked(bytes) {
  return bytes.length === PACKED_LENGTH ? Uint8Array.from({ length: PIXELS }, (_, at) => (bytes[at >> 2] >> (2 * (at & 3))) & 3) : null;
}

/**
 * Whether a picture has one shade alone, as behind a reset.
 * @param {Uint8Array} shades
 */
export function isBlank(shades) {
  return shades.every((shade) => shade === shades[0]);
}
