// What a thumb holds.
import assert from 'node:assert/strict';
import test from 'node:test';
import { DOWN, LEFT, RIGHT, UP, directionsAt, lettersAt } from '../page/pad.js';

const at = (turn, far, size = 160) => directionsAt(size / 2 + (size / 2) * far * Math.cos(turn), size / 2 - (size / 2) * far * Math.sin(turn), size);

test('eight directions, and nothing in the middle', () => {
  const around = [RIGHT, RIGHT | UP, UP, UP | LEFT, LEFT, LEFT | DOWN, DOWN, DOWN | RIGHT];
  around.forEach((wanted, eighth) => {
    for (const far of [0.3, 0.8, 1.3]) {
      assert.equal(at((eighth * Math.PI) / 4, far), wanted, `${eighth} eighths of a turn, ${far} from the middle`);
    }
  });
  assert.equal(at(0, 0.1), 0);
  assert.equal(directionsAt(80, 80, 160), 0);
});

test('a corner of the square is a diagonal', () => {
  assert.equal(directionsAt(150, 10, 160), RIGHT | UP);
  assert.equal(directionsAt(4, 156, 160), LEFT | DOWN);
});

test('each turn of a thumb goes through all, none is opposite to another, and a straight way is wider than a corner', () => {
  const found = new Map();
  for (let step = 0; step < 3600; step += 1) {
    const bits = at((step / 3600) * 2 * Math.PI, 0.7);
    assert.ok(bits !== 0 && (bits & (LEFT | RIGHT)) !== (LEFT | RIGHT) && (bits & (UP | DOWN)) !== (UP | DOWN));
    found.set(bits, (found.get(bits) ?? 0) + 1);
  }
  assert.equal(found.size, 8);
  assert.ok(found.get(UP) > found.get(UP | LEFT));
  assert.ok(found.get(UP | LEFT) > 300);
});

test('A, B, and both between them', () => {
  assert.deepEqual(lettersAt(76, 32, 100), ['A']);
  assert.deepEqual(lettersAt(24, 68, 100), ['B']);
  assert.deepEqual(lettersAt(50, 50, 100), ['A', 'B']);
  assert.deepEqual(lettersAt(99, 1, 100), ['A']);
  assert.deepEqual(lettersAt(300, -200, 100), []);
});
