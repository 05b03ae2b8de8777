// A gamepad outside of a game: it moves the focus, presses what has it, and closes what is open.

const PRESSED = 'button:not(:disabled), input:not([hidden]), summary';

/**
 * @param {string} action what the pad's button does in a game
 */
export function steer(action) {
  const root = [...document.querySelectorAll('dialog[open]')].at(-1) ?? document.querySelector('main:not([hidden])');
  // a button that is to be given another action is waited for
  if (!root || !document.hasFocus() || root.querySelector('.waits')) {
    return;
  }
  const all = /** @type {HTMLElement[]} */ ([...root.querySelectorAll(PRESSED)].filter((one) => one.getClientRects().length > 0));
  const at = all.findIndex((one) => one === document.activeElement);
  if (action === 'Down' || action === 'Right') {
    all[(at + 1) % all.length]?.focus();
  } else if (action === 'Up' || action === 'Left') {
    all.at(Math.max(at, 0) - 1)?.focus();
  } else if (action === 'A' || action === 'Start') {
    all[at]?.click();
  } else if ((action === 'B' || action === 'Menu') && root instanceof HTMLDialogElement) {
    root.close();
  }
}
