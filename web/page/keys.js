// What keys and a gamepad's buttons do, and how that is changed: data and arithmetic alone.

import { MESSAGES } from './messages.js';

export const BUTTONS = ['Right', 'Left', 'Up', 'Down', 'A', 'B', 'Select', 'Start'];
/** What is done for as long as a key is held. */
const HELD = [...BUTTONS, 'Fast', 'Rewind'];

/**
 * @typedef {{ action: string, means: string, key: string, pad: number | null }} Row
 */

/**
 * Each action with its key (KeyboardEvent.code, the place of a key whatever is printed on it) and its button of a gamepad in the
 * standard layout; A and B as they lie on a Game Boy. Tab moves the focus, as on any page.
 * @type {Row[]}
 */
export const ROWS = [
  { action: 'Up', means: MESSAGES.actions.Up, key: 'ArrowUp', pad: 12 },
  { action: 'Down', means: MESSAGES.actions.Down, key: 'ArrowDown', pad: 13 },
  { action: 'Left', means: MESSAGES.actions.Left, key: 'ArrowLeft', pad: 14 },
  { action: 'Right', means: MESSAGES.actions.Right, key: 'ArrowRight', pad: 15 },
  { action: 'A', means: MESSAGES.actions.A, key: 'KeyX', pad: 1 },
  { action: 'B', means: MESSAGES.actions.B, key: 'KeyZ', pad: 0 },
  { action: 'Start', means: MESSAGES.actions.Start, key: 'Enter', pad: 9 },
  { action: 'Select', means: MESSAGES.actions.Select, key: 'Backspace', pad: 8 },
  { action: 'Rewind', means: MESSAGES.actions.Rewind, key: 'KeyR', pad: 6 },
  { action: 'Fast', means: MESSAGES.actions.Fast, key: 'KeyF', pad: 7 },
  { action: 'Stay fast', means: MESSAGES.actions['Stay fast'], key: 'KeyG', pad: 5 },
  { action: 'Pause', means: MESSAGES.actions.Pause, key: 'KeyP', pad: 11 },
  { action: 'Menu', means: 'Menu', key: 'Escape', pad: 4 },
  { action: 'Save state', means: 'Save state 1', key: 'F5', pad: null },
  { action: 'Load state', means: 'Load state 1', key: 'F9', pad: null },
  { action: 'States', means: 'Save states', key: 'F7', pad: null },
  { action: 'Timeline', means: MESSAGES.actions.Timeline, key: 'KeyT', pad: null },
  { action: 'Full screen', means: MESSAGES.actions['Full screen'], key: 'F11', pad: null },
  { action: 'Palette', means: MESSAGES.actions.Palette, key: 'F2', pad: null },
  { action: 'Screenshot', means: MESSAGES.actions.Picture, key: 'KeyS', pad: null },
  { action: 'Keys', means: 'Keys and gamepad', key: 'F1', pad: null },
];

export const ACTIONS = ROWS.map(({ action }) => action);
// keys that can't be given away: the focus moves by Tab, and Escape has to lead out
const FIXED = ['Tab', 'Escape'];
const STICK = 0.49;

/** @typedef {Record<string, string>} Keys of each action its key, '' where it has none */
/** @typedef {Record<string, number | null>} Pad of each action its button of a gamepad */

/** @returns {Keys} */
export const usualKeys = () => Object.fromEntries(ROWS.map(({ action, key }) => [action, key]));

/** @returns {Pad} */
export const usualPad = () => Object.fromEntries(ROWS.map(({ action, pad }) => [action, pad]));

/** @param {string} action */
export const isHeld = (action) => HELD.includes(action);

/** @param {string | null} name */
export const bitOf = (name) => (name !== null && BUTTONS.includes(name) ? 1 << BUTTONS.indexOf(name) : 0);

/**
 * The buttons as a byte that a list of names stands for, as `['A', 'Up']`.
 * @param {string[]} names
 */
export function byteOf(names) {
  return names.reduce((byte, name) => {
    if (!BUTTONS.includes(name)) {
      throw new TypeError(`'${name}' is no button: ${BUTTONS.join(', ')}`);
    }
    return byte | bitOf(name);
  }, 0);
}

/**
 * What a key does; null for nothing. The second Enter is as the first, where it has nothing else to do.
 * @param {Keys} keys
 * @param {string} code
 * @returns {string | null}
 */
export function actionOf(keys, code) {
  const found = ACTIONS.find((action) => keys[action] === code);
  return found ?? (code === 'NumpadEnter' ? actionOf(keys, 'Enter') : null);
}

/**
 * The keys once an action has this one: who had it has none. Null where the key can't be given.
 * @param {Keys} keys
 * @param {string} action
 * @param {string} code
 * @returns {Keys | null}
 */
export function withKey(keys, action, code) {
  if (code === '' || FIXED.includes(code) || keys[action] === undefined || FIXED.includes(keys[action] ?? '')) {
    return null;
  }
  const others = Object.entries(keys).map(([name, has]) => [name, has === code ? '' : has]);
  return { ...Object.fromEntries(others), [action]: code };
}

/**
 * @param {Pad} pad
 * @param {string} action
 * @param {number} button
 * @returns {Pad}
 */
export function withButton(pad, action, button) {
  const others = Object.entries(pad).map(([name, has]) => [name, has === button ? null : has]);
  return { ...Object.fromEntries(others), [action]: button };
}

/**
 * Keys or buttons as they were stored, those that are not there as usual. What is no such text is passed over.
 * @template {string | number | null} T
 * @param {string | null} text
 * @param {Record<string, T>} usual
 * @param {(value: unknown) => boolean} isRight
 * @returns {Record<string, T>}
 */
export function stored(text, usual, isRight) {
  try {
    const found = JSON.parse(text ?? '{}');
    const read = Object.fromEntries(ACTIONS.filter((action) => isRight(found[action])).map((action) => [action, found[action]]));
    // an action that this version has and the stored ones have not may have a key that was given to another
    const taken = Object.values(read);
    const rest = Object.entries(usual).filter(([action]) => !(action in read));
    const free = rest.map(([action, value]) => [action, value !== null && taken.includes(value) ? blank(value) : value]);
    return { ...Object.fromEntries(free), ...read };
  } catch {
    return usual;
  }
}

/** @param {string | number} value */
const blank = (value) => (typeof value === 'string' ? '' : null);

const NAMES = new Map([
  ['ArrowUp', '↑'], ['ArrowDown', '↓'], ['ArrowLeft', '←'], ['ArrowRight', '→'], ['Escape', 'Esc'], ['Space', 'Space'],
  ['ShiftLeft', 'Left Shift'], ['ShiftRight', 'Right Shift'], ['ControlLeft', 'Left Ctrl'], ['ControlRight', 'Right Ctrl'],
  ['AltLeft', 'Alt'], ['AltRight', 'Alt Gr'],
]);

/**
 * What a key is called: by what is printed on it, where the browser tells, else by its place.
 * @param {string} code
 * @param {ReadonlyMap<string, string> | null} printed
 */
export function nameOfKey(code, printed) {
  if (code === '') {
    return 'none';
  }
  const named = NAMES.get(code) ?? printed?.get(code) ?? code.replace(/^(Key|Digit)/, '').replace(/^Numpad/, 'Keypad ');
  return named.replace(/^[a-zà-ÿ]$/u, (letter) => letter.toUpperCase());
}

const PAD_NAMES = [
  'lower face button', 'right face button', 'left face button', 'upper face button', 'left shoulder', 'right shoulder',
  'left trigger', 'right trigger', 'Select', 'Start', 'left stick', 'right stick', 'pad up', 'pad down', 'pad left', 'pad right', 'Home',
];

/** @param {number | null} button */
export const nameOfButton = (button) => (button === null ? 'none' : PAD_NAMES[button] ?? `button ${button + 1}`);

/**
 * What is held on a gamepad: the actions of its buttons, and of its stick.
 * @param {Pad} pad
 * @param {boolean[]} pressed
 * @param {readonly number[]} axes
 * @returns {string[]}
 */
export function actionsOf(pad, pressed, axes) {
  const [across = 0, down = 0] = axes;
  /** @type {[boolean, string][]} */
  const stick = [[across > STICK, 'Right'], [across < -STICK, 'Left'], [down < -STICK, 'Up'], [down > STICK, 'Down']];
  const buttons = ACTIONS.filter((action) => pressed[pad[action] ?? -1]);
  return [...buttons, ...stick.filter(([isHere]) => isHere).map(([, name]) => name)];
}
