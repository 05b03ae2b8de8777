// The slots of a game: what its index says after each act, and which images may go. Each act is one new index. No file is touched here.
import { SLOTS, namedBy } from './game_index.js';
import { Refused } from './refusals.js';

/** What was loaded and played for fewer inputs than this is no game to go back to: Load was pressed twice. */
export const SHORT = 300n;
// what was loaded and played for fewer inputs than this, some ten minutes, may go once ten more were left, as may what was kept in a slot
const SMALL = 36_000n;
const MOST_LEFT = 10;

/**
 * The place of a slot, from 1 on, in a list.
 * @param {number} slot
 */
export function placeOf(slot) {
  if (!Number.isInteger(slot) || slot < 1 || slot > SLOTS) {
    throw new TypeError(`a slot is a number from 1 to ${SLOTS}`);
  }
  return slot - 1;
}

/**
 * @template One
 * @param {One[]} list
 * @param {number} place
 * @param {One} one
 */
const changed = (list, place, one) => list.map((other, k) => (k === place ? one : other));

/**
 * The index with its greatest number.
 * @param {Said} said
 * @returns {Said}
 */
function counted(said) {
  return { ...said, last: Math.max(said.last, ...namedBy(said)) };
}

/**
 * The game was copied to a slot, as this image.
 * @param {Said} said
 * @param {number} slot
 * @param {number} image
 */
export function kept(said, slot, image) {
  const place = placeOf(slot);
  return counted({ ...said, slots: changed(said.slots, place, image), undo: changed(said.undo, place, said.slots[place]) });
}

/**
 * A slot is emptied.
 * @param {Said} said
 * @param {number} slot
 */
export function emptied(said, slot) {
  if (said.slots[placeOf(slot)] === 0) {
    throw Refused.own('empty');
  }
  return kept(said, slot, 0);
}

/**
 * What was in a slot before it was kept last is there again.
 * @param {Said} said
 * @param {number} slot
 */
export function unkept(said, slot) {
  const place = placeOf(slot);
  const before = said.undo[place];
  if (before === null) {
    throw Refused.own('undo');
  }
  return { ...said, slots: changed(said.slots, place, before), undo: changed(said.undo, place, null) };
}

/**
 * Another image is played. The one before can be gone back to, or where it was hardly played since it was loaded, the one before that.
 * @param {Said} said
 * @param {number} image
 */
export function loaded(said, image, wasShort = false) {
  return counted({ ...said, play: image, back: wasShort && said.back !== 0 ? said.back : said.play });
}

/**
 * The image that was played before the last load is played again, and the other can be gone back to.
 * @param {Said} said
 */
export function unloaded(said) {
  if (said.back === 0) {
    throw Refused.own('undo');
  }
  return loaded(said, said.back);
}

/**
 * An image is no more: nothing names it, but what is played.
 * @param {Said} said
 * @param {number} image
 * @returns {Said}
 */
export function without(said, image) {
  return {
    ...said,
    slots: said.slots.map((one) => (one === image ? 0 : one)),
    undo: said.undo.map((one) => (one === image ? null : one)),
    back: said.back === image ? 0 : said.back,
  };
}

/**
 * The index without the images that are not there, other than what is played.
 * @param {Said} said
 * @param {number[]} there
 * @returns {Said}
 */
export function present(said, there) {
  const missing = [...namedBy(said)].filter((number) => number !== 0 && !there.includes(number));
  return { ...missing.reduce(without, said), play: said.play };
}

/**
 * Whether an image with so many inputs, once nothing names it, may go after others: it was kept in a slot, where something else was kept twice since or it was
 * undone; or it was loaded from a slot, and hardly played. Of any other one nobody can say that its player does not miss it.
 * @param {About | null} about
 * @param {bigint | null} count
 */
export function isSmall(about, count) {
  if (about === null || count === null || about.kind === 'game') {
    return false;
  }
  return about.kind === 'state' ? count === about.begun : count >= about.begun && count - about.begun < SMALL;
}

/**
 * The images that are to be deleted: of those that nothing names and that are small, by what stands beside them, all but the last ten.
 * @template {{number: number, about: About | null}} Image
 * @param {Image[]} images
 * @param {(Said | null)[]} named what is in the index, and was in it before: a cut may bring that back
 * @returns {Image[]}
 */
export function forgettable(images, named) {
  const stay = new Set(named.flatMap((said) => (said ? [...namedBy(said)] : [])));
  const small = images.filter(({ number, about }) => !stay.has(number) && isSmall(about, about && (about.kind === 'state' ? about.begun : about.left)));
  return small.sort((a, b) => b.number - a.number).slice(MOST_LEFT);
}
