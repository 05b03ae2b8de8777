// Fingers: the pad, the letters, and buttons that are held.
import { $ } from './dom.js';
import { DOWN, LEFT, RIGHT, UP, directionsAt, lettersAt } from './pad.js';

const NAMES = /** @type {[number, string][]} */ ([[RIGHT, 'Right'], [LEFT, 'Left'], [UP, 'Up'], [DOWN, 'Down']]);
const BUZZ = 8;
// a press that is shorter than this is a tap, in milliseconds
const TAP = 300;
const KINDS = /** @type {const} */ (['pointerdown', 'pointermove', 'pointerup', 'pointercancel', 'lostpointercapture']);

function buzz() {
  navigator.vibrate?.(BUZZ);
}

/**
 * A surface that fingers slide on: `found` says what a touch at a place of it holds, `show` draws what is held.
 * @param {HTMLElement} surface
 * @param {import('./held.js').Held} held
 * @param {(x: number, y: number, size: number) => string[]} found
 * @param {(actions: string[]) => void} show
 */
function slides(surface, held, found, show) {
  /** @type {Set<string>} */
  const fingers = new Set();
  const each = (/** @type {PointerEvent} */ event) => {
    const source = `${surface.id} ${event.pointerId}`;
    event.preventDefault();
    if (event.type === 'pointerdown') {
      fingers.add(source);
      surface.setPointerCapture(event.pointerId);
    } else if (!fingers.has(source)) {
      return;
    }
    if (event.type === 'pointerdown' || event.type === 'pointermove') {
      const box = surface.getBoundingClientRect();
      const actions = found(event.clientX - box.x, event.clientY - box.y, box.width);
      if (actions.some((action) => !held.actionsOf(source).includes(action))) {
        buzz();
      }
      held.hold(source, actions);
    } else {
      fingers.delete(source);
      held.release(source);
    }
    show([...fingers].flatMap((one) => held.actionsOf(one)));
  };
  KINDS.forEach((kind) => surface.addEventListener(kind, each));
  surface.addEventListener('contextmenu', (event) => event.preventDefault());
}

/**
 * A button that holds an action while it is held. `tapped` is called where it was pressed for a moment alone, and by a keyboard, or by
 * what speaks the page.
 * @param {HTMLElement} button
 * @param {import('./held.js').Held} held
 * @param {string} action
 * @param {((isByHand: boolean) => void) | null} tapped
 */
function holds(button, held, action, tapped) {
  const source = button.id || `button ${action}`;
  let since = 0;
  const each = (/** @type {PointerEvent} */ event) => {
    if (event.type === 'pointerdown' && event.button === 0) {
      event.preventDefault();
      since = event.timeStamp;
      button.setPointerCapture(event.pointerId);
      buzz();
      held.hold(source, [action]);
    } else if (event.type !== 'pointermove' && event.type !== 'pointerdown' && since > 0) {
      held.release(source);
      if (event.type === 'pointerup' && event.timeStamp - since < TAP) {
        tapped?.(true);
      }
      since = 0;
    }
    button.classList.toggle('held', since > 0);
  };
  KINDS.forEach((kind) => button.addEventListener(kind, each));
  button.addEventListener('contextmenu', (event) => event.preventDefault());
  button.addEventListener('click', (event) => {
    if (event.detail === 0) {
      tapped?.(false);
    }
  });
}

/**
 * Connects what is touched to what is held.
 * @param {import('./held.js').Held} held
 * @param {{ toggleFast: () => void, back: () => void, left: () => void }} does `left`: a control of the bar was used by hand
 */
export function connectTouch(held, { toggleFast, back, left }) {
  const arms = [...$('pad').querySelectorAll('[data-arm]')];
  slides($('pad'), held, (x, y, size) => {
    const bits = directionsAt(x, y, size);
    return NAMES.filter(([bit]) => bits & bit).map(([, name]) => name);
  }, (actions) => {
    const bits = NAMES.reduce((all, [bit, name]) => all | (actions.includes(name) ? bit : 0), 0);
    arms.forEach((arm) => arm.classList.toggle('held', (bits & Number(arm.getAttribute('data-arm'))) !== 0));
    $('pad').classList.toggle('held', bits !== 0);
  });
  const letters = [...$('letters').querySelectorAll('[data-letter]')];
  slides($('letters'), held, lettersAt, (actions) => {
    letters.forEach((letter) => letter.classList.toggle('held', actions.includes(letter.getAttribute('data-letter') ?? '')));
  });
  for (const button of document.querySelectorAll('[data-button]')) {
    if (button instanceof HTMLElement) {
      holds(button, held, button.dataset.button ?? '', null);
    }
  }
  for (const [id, isBar] of /** @type {[string, boolean][]} */ ([['rewind', true], ['touch-rewind', false]])) {
    holds($(id), held, 'Rewind', (isByHand) => (isByHand ? isBar && left() : back()));
  }
  for (const [id, isBar] of /** @type {[string, boolean][]} */ ([['fast', true], ['touch-fast', false]])) {
    holds($(id), held, 'Fast', (isByHand) => {
      toggleFast();
      if (isByHand && isBar) {
        left();
      }
    });
  }
}
