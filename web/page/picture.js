// Pictures: shades, 0 the darkest and 3 the lightest, on a canvas.
import { PALETTES } from './palettes.js';

export const WIDTH = 160;
export const HEIGHT = 144;
const MOST_SHADE = 3;

export const GREY = 1;

// of each palette its four colours as words in the order of bytes that a canvas has
const WORDS = PALETTES.map((colours) => new Uint32Array(new Uint8Array(colours.flatMap((colour) => [...colour, 255])).buffer));
const image = typeof ImageData === 'function' ? new ImageData(WIDTH, HEIGHT) : null;
const pixels = new Uint32Array(image?.data.buffer ?? new ArrayBuffer(0));

/**
 * Draws a picture on a canvas of 160 by 144.
 * @param {HTMLCanvasElement | OffscreenCanvas} canvas
 * @param {Uint8Array} shades
 * @param {number} palette
 */
export function draw(canvas, shades, palette) {
  const context = /** @type {CanvasRenderingContext2D | null} */ (canvas.getContext('2d'));
  const words = WORDS[palette];
  if (!context || !image || !words) {
    return;
  }
  for (let k = 0; k < pixels.length; k += 1) {
    pixels[k] = words[(shades[k] ?? 0) & MOST_SHADE] ?? 0;
  }
  context.putImageData(image, 0, 0);
}

/**
 * A picture as PNG, three times as large, in four greys or in a palette.
 * @param {Uint8Array} shades
 * @param {number} [palette]
 */
export async function pngOf(shades, palette = GREY) {
  const small = new OffscreenCanvas(WIDTH, HEIGHT);
  draw(small, shades, palette);
  const large = new OffscreenCanvas(3 * WIDTH, 3 * HEIGHT);
  const context = large.getContext('2d');
  if (context) {
    context.imageSmoothingEnabled = false;
    context.drawImage(/** @type {any} */ (small), 0, 0, large.width, large.height);
  }
  return large.convertToBlob({ type: 'image/png' });
}
