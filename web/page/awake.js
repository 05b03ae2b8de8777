// A screen stays on while a game runs, where the browser lets it: who plays by a gamepad touches nothing.
import { isStill } from './state.js';

/** @param {Store} store */
export function keepAwake(store) {
  const { wakeLock } = /** @type {any} */ (navigator);
  if (!wakeLock) {
    return;
  }
  /** @type {Promise<any> | null} */
  let held = null;
  const look = () => {
    const isWanted = store.now.game !== null && !isStill(store.now) && document.visibilityState === 'visible';
    if (isWanted && held === null) {
      held = wakeLock.request('screen').catch(() => null);
    } else if (!isWanted && held !== null) {
      held.then((lock) => lock?.release());
      held = null;
    }
  };
  store.view(['game', 'isPaused', 'isWaiting', 'holds'], look);
  document.addEventListener('visibilitychange', look);
}
