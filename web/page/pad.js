// The eight-way pad, and buttons under a thumb: geometry alone.

export const RIGHT = 1;
export const LEFT = 2;
export const UP = 4;
export const DOWN = 8;

// from the middle to the edge is 1: nearer to the middle than this, nothing is held
const STILL = 0.18;
// an eighth of a turn for each direction would make straight ways hard: a straight one has 50 degrees, a corner 40
const STRAIGHT = Math.tan((25 * Math.PI) / 180);

// of A and B, in sizes of their field: how far from both a thumb holds neither, and how near to the middle between them it holds both
const FAR = 0.75;
const BOTH = 0.1;

/**
 * The directions that a touch at this place of a square pad holds, as bits. A thumb that has slid beyond the edge still holds what it
 * points at.
 * @param {number} x
 * @param {number} y
 * @param {number} size
 */
export function directionsAt(x, y, size) {
  const across = (2 * x) / size - 1;
  const down = (2 * y) / size - 1;
  if (Math.hypot(across, down) < STILL) {
    return 0;
  }
  const isAcross = Math.abs(across) > STRAIGHT * Math.abs(down);
  const isDown = Math.abs(down) > STRAIGHT * Math.abs(across);
  return (isAcross ? (across > 0 ? RIGHT : LEFT) : 0) | (isDown ? (down > 0 ? DOWN : UP) : 0);
}

/**
 * Of A and B, as they lie in a square field (B lower left, A upper right), those that a touch holds: the nearer one, and both in the gap
 * between them, so that one thumb presses both.
 * @param {number} x
 * @param {number} y
 * @param {number} size
 * @returns {('A' | 'B')[]}
 */
export function lettersAt(x, y, size) {
  const a = Math.hypot(x / size - 0.76, y / size - 0.32);
  const b = Math.hypot(x / size - 0.24, y / size - 0.68);
  if (Math.min(a, b) > FAR) {
    return [];
  }
  if (Math.abs(a - b) < BOTH) {
    return ['A', 'B'];
  }
  return [a < b ? 'A' : 'B'];
}
