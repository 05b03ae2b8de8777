// What is held, on keys, on a gamepad and by fingers, and what was pressed since it was looked at last.
import { actionOf, actionsOf, bitOf, isHeld } from './keys.js';

export class Held {
  /** @type {Map<string, string[]>} of each key, finger or pad what it holds */
  #held = new Map();
  /** what was pressed since the last look, also where it is up again */
  #taken = 0;
  #isBackTaken = false;

  /**
   * This holds these actions, and no others.
   * @param {string} source
   * @param {string[]} actions
   */
  hold(source, actions) {
    this.#held.set(source, actions);
    this.#taken |= actions.reduce((bits, action) => bits | bitOf(action), 0);
    this.#isBackTaken ||= actions.includes('Rewind');
  }

  /** @param {string} source */
  release(source) {
    this.#held.delete(source);
  }

  /** @param {string} source */
  actionsOf(source) {
    return this.#held.get(source) ?? [];
  }

  /** @param {string} action */
  #has(action) {
    return [...this.#held.values()].some((actions) => actions.includes(action));
  }

  /** Whether the game is to be rewound. */
  isBack() {
    return this.#isBackTaken || this.#has('Rewind');
  }

  /** Whether a button of the game is held or was pressed. */
  isPressed() {
    return this.#taken !== 0;
  }

  /** The buttons that are held or were pressed since the last look, and whether the game is to run fast, or to be rewound. */
  look() {
    const isBack = this.isBack();
    this.#isBackTaken = false;
    const held = [...this.#held.values()].flat().reduce((bits, action) => bits | bitOf(action), this.#taken);
    this.#taken = 0;
    return { held, isFast: this.#has('Fast'), isBack };
  }

  /** What was pressed and is up again was not meant for the game. */
  forget() {
    this.#taken = 0;
    this.#isBackTaken = false;
  }

  /** Nothing is held: the game was left. */
  clear() {
    this.#held.clear();
    this.forget();
  }
}

/** Keys, wherever the focus is while a game is played; dialogs, fields and a button that was reached by Tab keep theirs. */
export class Keyboard {
  #held;
  #act;
  #keys;
  #isPlaying;

  /**
   * @param {Held} held
   * @param {() => import('./keys.js').Keys} keys
   * @param {() => boolean} isPlaying whether a game is open and no dialog is
   * @param {(action: string) => void} act
   */
  constructor(held, keys, isPlaying, act) {
    this.#held = held;
    this.#keys = keys;
    this.#isPlaying = isPlaying;
    this.#act = act;
    addEventListener('keydown', (event) => this.#down(event));
    addEventListener('keyup', (event) => held.release(`key ${event.code}`));
    addEventListener('blur', () => held.clear());
  }

  /** @param {KeyboardEvent} event */
  #down(event) {
    const action = actionOf(this.#keys(), event.code);
    if (!this.#isPlaying() || action === null || event.ctrlKey || event.altKey || event.metaKey || isWanted(event)) {
      return;
    }
    event.preventDefault();
    if (event.repeat) {
      return;
    }
    if (isHeld(action)) {
      this.#held.hold(`key ${event.code}`, [action]);
    } else {
      this.#act(action);
    }
  }
}

/**
 * Whether what has the focus needs this key itself: a field of text, or a button under Enter or the space bar.
 * @param {KeyboardEvent} event
 */
function isWanted({ target, code }) {
  if (!(target instanceof Element)) {
    return false;
  }
  const presses = ['Enter', 'NumpadEnter', 'Space'].includes(code);
  return target.matches('input, select, textarea') || (presses && target.matches('button, summary, a'));
}

/** Gamepads: those in the standard layout. */
export class Gamepads {
  #held;
  #pad;
  #act;
  #steer;
  /** @type {string[]} */
  #before = [];
  #wasPlaying = false;
  /** @type {string[]} what was held when a game or a dialog was left: it means nothing until it is let go */
  #old = [];

  /**
   * @param {Held} held
   * @param {() => import('./keys.js').Pad} pad
   * @param {(action: string) => void} act
   * @param {(action: string) => void} steer what a press does where no game is played
   */
  constructor(held, pad, act, steer) {
    this.#held = held;
    this.#pad = pad;
    this.#act = act;
    this.#steer = steer;
  }

  /**
   * Looks at them once; `isPlaying` says whether what is pressed goes to the game.
   * @param {boolean} isPlaying
   */
  look(isPlaying) {
    /** @type {string[]} */
    const actions = [];
    for (const one of navigator.getGamepads?.() ?? []) {
      if (one?.mapping === 'standard') {
        actions.push(...actionsOf(this.#pad(), one.buttons.map(({ pressed }) => pressed), one.axes));
      }
    }
    const pressed = actions.filter((action) => !this.#before.includes(action));
    this.#before = actions;
    this.#old = (isPlaying === this.#wasPlaying ? this.#old : actions).filter((action) => actions.includes(action));
    this.#wasPlaying = isPlaying;
    const meant = actions.filter((action) => isPlaying && isHeld(action) && !this.#old.includes(action));
    if (meant.length > 0) {
      this.#held.hold('gamepad', meant);
    } else {
      this.#held.release('gamepad');
    }
    pressed.filter((action) => !isPlaying || !isHeld(action)).forEach((action) => (isPlaying ? this.#act : this.#steer)(action));
  }
}

/** The first button that is pressed on any gamepad; null where none is. */
export function pressedButton() {
  for (const one of navigator.getGamepads?.() ?? []) {
    const found = one?.mapping === 'standard' ? one.buttons.findIndex(({ pressed }) => pressed) : -1;
    if (found >= 0) {
      return found;
    }
  }
  return null;
}
