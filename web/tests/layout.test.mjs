// Where everything of a game lies: in each view the picture is large, in whole pixels where they are large, and nothing covers anything.
import assert from 'node:assert/strict';
import test from 'node:test';
import { layoutOf, scaleFor } from '../page/layout.js';

const NONE = { top: 0, right: 0, bottom: 0, left: 0 };
const NOTCH = { top: 47, right: 0, bottom: 34, left: 0 };
const SIDEWAYS = { top: 0, right: 47, bottom: 21, left: 47 };
// width, height, device pixels a pixel, whether it is touched, insets
const VIEWS = [
  [1920, 1080, 1, false, NONE], [1280, 800, 1, false, NONE], [640, 400, 2, false, NONE], [760, 500, 1, false, NONE], [1366, 625, 1, false, NONE],
  [390, 844, 3, true, NONE], [390, 844, 3, true, NOTCH], [390, 664, 3, true, NONE], [844, 390, 3, true, NONE], [844, 390, 3, true, SIDEWAYS],
  [360, 640, 3, true, NONE], [360, 640, 2, true, NONE], [390, 844, 2, true, NONE], [640, 360, 3, true, NONE], [667, 375, 2, true, NONE],
  [820, 1180, 2, true, NONE], [1180, 820, 2, true, NONE], [1920, 1080, 1, true, NONE], [500, 900, 1, false, NONE], [1024, 768, 1.25, false, NONE],
  [2560, 1080, 1.5, false, NONE], [320, 568, 2, true, NONE],
];

const largest = (width, height) => Math.min(width / 160, height / 144);
const boxesOf = (layout) => ['picture', 'title', 'tools', 'pad', 'letters', 'left', 'right'].map((name) => [name, layout[name]]).filter(([, box]) => box !== null);
const covers = (one, other) => one.x + 0.5 < other.x + other.width && other.x + 0.5 < one.x + one.width && one.y + 0.5 < other.y + other.height
  && other.y + 0.5 < one.y + one.height;

for (const [width, height, ratio, isTouch, insets] of VIEWS) {
  const name = `${width} by ${height} at ${ratio}${isTouch ? ', touched' : ''}${insets === NONE ? '' : ', with a notch'}`;
  test(name, () => {
    const layout = layoutOf({ width, height, ratio, isTouch, insets });
    const room = [width - insets.left - insets.right, height - insets.top - insets.bottom];
    const share = layout.scale / ratio / largest(...room);
    assert.ok(share >= (height > width ? 0.85 : 0.6), `the picture has ${share.toFixed(2)} of the largest side`);
    assert.ok(share <= 1.001);
    if (layout.scale >= 3 && !(height > width)) {
      assert.equal(layout.scale % 1, 0);
    }
    assert.ok(Math.abs(layout.picture.width / layout.picture.height - 160 / 144) < 1e-9);
    const boxes = boxesOf(layout);
    assert.equal(boxes.length, isTouch ? 7 : 3);
    for (const [one, box] of boxes) {
      assert.ok(box.x >= insets.left - 0.5 && box.y >= insets.top - 0.5, `${one} begins in the view`);
      assert.ok(box.x + box.width <= width - insets.right + 0.5 && box.y + box.height <= height - insets.bottom + 0.5, `${one} ends in the view: ${JSON.stringify(box)}`);
      for (const [other, there] of boxes) {
        assert.ok(one === other || !covers(box, there), `${one} covers ${other}: ${JSON.stringify([box, there])}`);
      }
    }
    if (isTouch) {
      assert.ok(layout.pad.width >= 108, `the pad has ${layout.pad.width}`);
      assert.ok(layout.left.width / 2 >= 44 && layout.left.height >= 44);
      assert.equal(layout.pad.y, layout.letters.y);
    }
  });
}

test('a pixel is a whole number of device pixels from 3 on', () => {
  assert.equal(scaleFor(800, 720, 1, false), 5);
  assert.equal(scaleFor(799, 720, 1, false), 4);
  assert.equal(scaleFor(400, 360, 2, false), 5);
  assert.equal(scaleFor(360, 1000, 1, true), 2.25);
  // upright, a whole number that leaves more than a seventh is not taken
  assert.equal(scaleFor(390, 1000, 2, true), 4.875);
  assert.equal(scaleFor(390, 1000, 3, true), 7);
});

test('the bar lies beside the picture where the view is low', () => {
  const of = (width, height, ratio, isTouch = false) => layoutOf({ width, height, ratio, isTouch, insets: NONE }).kind;
  assert.equal(of(640, 400, 2), 'beside');
  assert.equal(of(1280, 800, 1), 'above');
  assert.equal(of(844, 390, 3, true), 'beside');
  assert.equal(of(390, 844, 3, true), 'above');
});
