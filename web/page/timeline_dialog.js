// The last hour, as a strip of pictures to go back to.
import { $, button, made } from './dom.js';
import { isBlank } from './pack.js';
import { draw } from './picture.js';
import { before, sizeOf } from './words.js';

/**
 * @param {Page} page
 * @param {{ number: number, seconds: number, picture: Uint8Array | null }} moment
 */
function itemOf(page, { number, seconds, picture }) {
  const isSeen = picture !== null && !isBlank(picture);
  const canvas = made('canvas', { width: 160, height: 144, 'aria-hidden': 'true' });
  if (isSeen) {
    draw(canvas, picture, page.store.now.palette);
  }
  const one = button(null, before(seconds), () => {
    page.dialogs.close('timeline');
    page.tried(() => page.playing.goToMoment(number));
  }, { 'data-moment': String(number), 'aria-label': `Go back to ${before(seconds)}` });
  one.prepend(isSeen ? canvas : made('span', { class: 'blank' }, 'blank screen'));
  return made('li', {}, one);
}

/** @param {Page} page */
export async function showTimeline(page) {
  const list = $('timeline-list');
  list.replaceChildren();
  $('timeline-room').textContent = '';
  await page.tried(async () => {
    /** @type {{ moments: { number: number, seconds: number, picture: Uint8Array }[], bytes: number, most: number }} */
    const { moments, bytes, most } = await page.client.ask('timeline');
    list.replaceChildren(...moments.map((moment) => itemOf(page, moment)));
    list.scrollLeft = list.scrollWidth;
    const last = list.querySelector('li:last-child button');
    if (last instanceof HTMLElement) {
      last.focus();
    }
    $('timeline-room').textContent = moments.length === 0
      ? 'There is nothing yet: it begins a moment after the game.'
      : `The last hour of play. It takes ${sizeOf(bytes)} here, and ${sizeOf(most)} at most. Nothing that is saved is lost by going back.`;
  });
}
