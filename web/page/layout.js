// Where everything of a game lies in the view: arithmetic alone, in CSS pixels.

export const WIDTH = 160;
export const HEIGHT = 144;

const GAP = 8;
const BAR = 52;
// a button for a thumb, and two of them in a row
const THUMB = 44;
const MINOR = 2 * 64 + GAP;
const LEAST_PAD = 116;
const MOST_PAD = 208;
// how narrow the room beside a picture may be: for a column of symbols, and for a pad
const LEAST_COLUMN = 64;
const LEAST_TOUCH_COLUMN = LEAST_PAD + GAP;
const MOST_EDGE = 40;
// thumbs are below the middle of what they hold: of the room above and below a pad, so much is above it
const LOW = 0.6;
// a message of one line
const LINE = 52;
// from so many device pixels a pixel on, a whole number of them is sharp
const LEAST_WHOLE = 3;
const LEAST_UPRIGHT = 0.85;
const NO_TOUCH = { pad: null, letters: null, left: null, right: null, messages: null };

const middle = (/** @type {number} */ start, /** @type {number} */ room, /** @type {number} */ length) => start + (room - length) / 2;
const between = (/** @type {number} */ least, /** @type {number} */ number, /** @type {number} */ most) => (
  Math.max(least, Math.min(number, most)));

/**
 * How many device pixels a pixel of the game takes in this room: a whole number from 3 on, else the exact ratio. An upright view, which is
 * narrow, has the exact ratio also where a whole number would leave more than a seventh of it.
 * @param {number} width
 * @param {number} height
 * @param {number} ratio
 * @param {boolean} isUpright
 */
export function scaleFor(width, height, ratio, isUpright) {
  const exact = Math.max(0.1, Math.min(width * ratio / WIDTH, height * ratio / HEIGHT));
  const whole = Math.floor(exact);
  return whole < LEAST_WHOLE || (isUpright && whole < LEAST_UPRIGHT * exact) ? exact : whole;
}

/**
 * The picture in the middle of a room, at whole device pixels.
 * @param {Box} room
 * @param {number} scale
 * @param {number} ratio
 * @returns {Box}
 */
function pictureIn(room, scale, ratio) {
  const width = WIDTH * scale / ratio;
  const height = HEIGHT * scale / ratio;
  const whole = (/** @type {number} */ place) => Math.round(place * ratio) / ratio;
  return { x: whole(middle(room.x, room.width, width)), y: whole(middle(room.y, room.height, height)), width, height };
}

/**
 * @param {Box} area
 * @param {View} view
 * @param {boolean} isUpright
 * @returns {Layout}
 */
function above(area, { ratio, isTouch }, isUpright) {
  const controls = isTouch ? LEAST_PAD + THUMB + 3 * GAP : 0;
  const room = { x: area.x, y: area.y + BAR, width: area.width, height: area.height - BAR - controls };
  const scale = scaleFor(room.width, room.height, ratio, isUpright);
  const tools = isTouch ? 3 * THUMB : 5 * THUMB;
  const bar = {
    title: { x: area.x, y: area.y, width: area.width - tools - GAP, height: BAR },
    tools: { x: area.x + area.width - tools - GAP, y: area.y, width: tools + GAP, height: BAR },
  };
  if (!isTouch) {
    return { kind: 'above', scale, ...bar, picture: pictureIn(room, scale, ratio), ...NO_TOUCH };
  }
  const picture = pictureIn({ ...room, height: HEIGHT * scale / ratio }, scale, ratio);
  const top = picture.y + picture.height;
  const below = area.y + area.height - top;
  const half = area.width / 2;
  const size = between(LEAST_PAD, Math.min(half - 2 * GAP, below - THUMB - 3 * GAP), MOST_PAD);
  const free = below - size - THUMB;
  const first = between(GAP, free * 0.4, 120);
  const second = between(GAP, (free - first) * 0.5, 56);
  const edge = between(GAP, (half - size) / 2, MOST_EDGE);
  const pad = { x: area.x + edge, y: top + first, width: size, height: size };
  const minor = { y: pad.y + size + second, width: MINOR, height: THUMB };
  return {
    kind: 'above', scale, ...bar, picture, pad, letters: { ...pad, x: area.x + area.width - edge - size },
    left: { ...minor, x: area.x + half - GAP - MINOR }, right: { ...minor, x: area.x + half + GAP },
    // between picture and pad where there is room, else over the upper edge of the picture
    messages: { x: area.x, y: first >= LINE ? top + GAP : picture.y + GAP, width: area.width, height: LINE },
  };
}

/**
 * @param {Box} area
 * @param {View} view
 * @returns {Layout}
 */
function beside(area, { ratio, isTouch }) {
  const least = isTouch ? LEAST_TOUCH_COLUMN : LEAST_COLUMN;
  const room = { x: area.x + least, y: area.y, width: area.width - 2 * least, height: area.height };
  const scale = scaleFor(room.width, room.height, ratio, false);
  const picture = pictureIn(room, scale, ratio);
  const width = picture.x - area.x;
  const right = picture.x + picture.width;
  const column = { y: area.y, width, height: isTouch ? BAR + GAP : area.height };
  const title = { ...column, x: area.x };
  const tools = { ...column, x: right };
  if (!isTouch) {
    return { kind: 'beside', scale, picture, title, tools, ...NO_TOUCH };
  }
  const minor = { y: area.y + area.height - THUMB - GAP, width: Math.min(MINOR, width - GAP), height: THUMB };
  const top = title.y + title.height;
  const size = between(0, Math.min(width - GAP, minor.y - top - GAP), MOST_PAD);
  const edge = between(GAP / 2, (width - size) / 2, MOST_EDGE);
  const pad = { x: area.x + edge, y: top + LOW * (minor.y - top - size), width: size, height: size };
  const inner = Math.max(area.x, middle(pad.x, size, minor.width));
  return {
    kind: 'beside', scale, picture, title, tools, pad, letters: { ...pad, x: area.x + area.width - edge - size },
    left: { ...minor, x: inner }, right: { ...minor, x: 2 * area.x + area.width - inner - minor.width },
    messages: { ...picture, y: picture.y + GAP, height: LINE },
  };
}

/**
 * Where everything lies: the bar above or beside the picture, as the picture is larger; on a screen that is touched the pad and the
 * buttons below it, or beside it.
 * @param {View} view
 * @returns {Layout}
 */
export function layoutOf(view) {
  const { width, height, insets, ratio } = view;
  const area = { x: insets.left, y: insets.top, width: width - insets.left - insets.right, height: height - insets.top - insets.bottom };
  const isUpright = height > width;
  const [one, other] = [above(area, view, isUpright), beside(area, view)];
  const tops = Math.max(scaleFor(area.width, area.height, ratio, false), 0.1);
  // a bar above is what people look for: it stays there where it costs less than a tenth of the picture
  return other.scale > one.scale + 0.1 * tops ? other : one;
}
