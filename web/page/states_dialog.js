// The ten save states, with their pictures.
import { $, button, made } from './dom.js';
import { draw } from './picture.js';
import { when } from './words.js';

/**
 * @param {Page} page
 * @param {StateRow} row
 */
function itemOf(page, { slot, saved, picture, canUndo }) {
  const { dialogs, playing, store, tried } = page;
  const does = (/** @type {() => unknown} */ run) => () => {
    dialogs.close('states');
    tried(async () => run());
  };
  const canvas = made('canvas', { width: 160, height: 144, 'aria-hidden': 'true' });
  if (picture) {
    draw(canvas, picture, store.now.palette);
  }
  const isThere = saved > 0;
  const words = isThere ? when(saved, Date.now()) : 'empty';
  const load = button(null, 'Load', does(() => playing.loadState(slot)),
    { 'data-state-act': 'load', 'aria-label': `Load state ${slot}, ${words}` });
  const save = button(null, 'Save', does(() => playing.keepState(slot)),
    { 'data-state-act': 'keep', 'aria-label': `Save to state ${slot}, ${words}` });
  load.disabled = !isThere;
  const more = [];
  if (canUndo) {
    more.push(button('undo', '', does(() => playing.undoKeep(slot)),
      { class: 'icon', 'data-state-act': 'undo', 'aria-label': `Undo: state ${slot} as it was before it was saved last` }));
  }
  if (isThere) {
    more.push(button('trash', '', does(() => playing.deleteState(slot)),
      { class: 'icon', 'data-state-act': 'delete', 'aria-label': `Delete state ${slot}` }));
  }
  const frame = made('div', { class: 'frame' }, canvas, made('span', { class: 'number' }, String(slot)));
  const about = made('div', { class: 'about' }, made('span', {}, words), ...more);
  return made('li', { 'data-slot': slot, class: isThere ? null : 'empty' }, frame, about, made('div', { class: 'row' }, load, save));
}

/** @param {Page} page */
export async function showStates(page) {
  $('states-list').replaceChildren();
  await page.tried(async () => {
    /** @type {{ states: StateRow[], canUndoLoad: boolean }} */
    const { states, canUndoLoad } = await page.client.ask('states');
    $('states-list').replaceChildren(...states.map((row) => itemOf(page, row)));
    $('undo-load').hidden = !canUndoLoad;
    const first = $('states-list').querySelector('.row button:not(:disabled)');
    if (first instanceof HTMLElement) {
      first.focus({ preventScroll: true });
    }
  });
}
