// The games of this browser, as cards.
import { $, button, icon, made } from './dom.js';
import { leave } from './downloads.js';
import { draw } from './picture.js';
import { KEEPS, asked, fileName, playedFor, sizeOf, when } from './words.js';

const LOOK = 30000;

/** @param {GameRow} row */
const nameOf = (row) => row.title || row.name;

/**
 * What stands under the name of a game.
 * @param {GameRow} row
 */
function aboutOf(row) {
  if (row.isOpen) {
    return 'open in another tab';
  }
  if (!row.isBegun) {
    return 'not begun';
  }
  const words = [when(row.played || row.saved, Date.now()), playedFor(row.seconds ?? 0)];
  return words.filter(Boolean).join(', ');
}

/** @param {ImageRow} image */
const isState = ({ slot }) => slot > 0;

/**
 * What an image of a game is, beside the one that is played.
 * @param {ImageRow} image
 */
function imageWords(image) {
  const what = isState(image) ? `State ${image.slot}` : image.isUndo ? 'Before a save or a load' : 'An earlier game';
  return `${what}, ${when(image.saved, Date.now())}`;
}

export class Home {
  #page;
  /** @type {string | null} the game that a battery file is being chosen for */
  #batteryIsFor = null;

  /** @param {Page} page */
  constructor(page) {
    this.#page = page;
    const { store } = page;
    store.view(['rows', 'palette'], ({ rows }) => this.#draw(rows));
    store.view(['keeps', 'rows'], ({ keeps }) => {
      if (keeps === 'memory') {
        $('claim').textContent = 'A Game Boy emulator.';
      }
      $('by-itself').hidden = keeps === 'memory';
      // who has no game yet has nothing to lose
      $('kept').textContent = (keeps !== 'kept' && keeps !== 'unsure') || store.now.rows?.length === 0 ? '' : KEEPS[keeps];
    });
    $('battery-file').addEventListener('change', () => page.tried(async () => {
      const input = $('battery-file', HTMLInputElement);
      const [file] = input.files ?? [];
      if (file && this.#batteryIsFor !== null) {
        const { bytes } = await page.taking.read(file);
        input.value = '';
        await page.playing.open({ id: this.#batteryIsFor, battery: bytes });
      }
    }));
    // 'just now' is so for a moment
    setInterval(() => {
      if (store.now.view === 'home' && !document.querySelector('dialog[open]')) {
        store.now.rows?.forEach((row) => {
          const about = $('list').querySelector(`[data-id="${row.id}"] .about`);
          if (about) {
            about.textContent = aboutOf(row);
          }
        });
      }
    }, LOOK);
  }

  /**
   * Shows the games; `open` is the one whose menu is to be open, or null; `isBack` says whether a game was left.
   * @param {string | null} [open]
   */
  async show(open = null, isBack = false) {
    const { store } = this.#page;
    store.change({ view: 'home' });
    await this.list();
    const first = $('list').querySelector('button');
    if (isBack && first && !document.querySelector('dialog[open]')) {
      first.focus({ preventScroll: true });
    }
    const row = open && store.now.rows?.find(({ id }) => id === open);
    if (row) {
      this.menuOf(row);
    }
  }

  async list() {
    this.#page.store.change({ rows: await this.#page.client.ask('list') });
  }

  /** @param {GameRow[] | null} rows */
  #draw(rows) {
    $('none').hidden = rows === null || rows.length > 0;
    $('hint').hidden = rows === null || rows.length === 0;
    $('choose').hidden = rows === null || rows.length === 0;
    $('list').hidden = rows === null || rows.length === 0;
    if (rows !== null) {
      $('list').replaceChildren(...rows.map((row) => this.#card(row, rows)));
      $('list').dataset.number = String(Number($('list').dataset.number ?? 0) + 1);
    }
  }

  /**
   * @param {GameRow} row
   * @param {GameRow[]} rows
   */
  #card(row, rows) {
    const name = nameOf(row);
    const isTwice = rows.some((other) => other !== row && nameOf(other) === name);
    const canvas = made('canvas', { width: 160, height: 144, 'aria-hidden': 'true' });
    if (row.picture) {
      draw(canvas, row.picture, this.#page.store.now.palette);
    }
    const lines = [made('span', { class: 'name' }, name), made('span', { class: 'about' }, aboutOf(row))];
    if (isTwice) {
      lines.splice(1, 0, made('span', { class: 'about file' }, row.name));
    }
    const label = `${row.isBegun ? 'Continue' : 'Begin'} ${name}, ${aboutOf(row)}`;
    const frame = made('span', { class: 'frame' }, canvas, made('span', { class: 'sign' }, icon('play')));
    const words = made('span', { class: 'words' }, ...lines);
    const main = made('button', { type: 'button', class: 'play', 'aria-label': label, title: row.name }, frame, words);
    main.addEventListener('click', () => this.#page.tried(() => this.#page.playing.open({ id: row.id })));
    const menu = { class: 'icon more', 'aria-label': `More of ${name}`, 'aria-haspopup': 'dialog' };
    const more = made('button', { type: 'button', ...menu }, icon('dots'));
    more.addEventListener('click', () => this.menuOf(row));
    const kept = row.images.filter(({ number }) => number !== row.play).length;
    const data = { 'data-id': row.id, 'data-name': row.name, 'data-title': row.title, 'data-kept': kept, 'data-begun': row.isBegun };
    return made('li', data, main, more);
  }

  /**
   * The menu of a game.
   * @param {GameRow} row
   */
  menuOf(row) {
    const { client, dialogs, playing, say, tried } = this.#page;
    const name = nameOf(row);
    const does = (/** @type {() => unknown} */ run) => () => {
      dialogs.close('card');
      tried(async () => run());
    };
    const first = row.isBegun ? 'Continue' : 'Begin';
    const items = [button('play', first, does(() => playing.open({ id: row.id })), { class: 'primary', 'data-card': 'play' })];
    if (row.play) {
      items.push(
        button('down', 'Download save file', does(() => this.#takeOut(row, row.play)), { 'data-card': 'save' }),
        button('battery', 'Download battery file (.sav)', does(async () => {
          const file = fileName(row.name || name, '.sav');
          leave(await client.ask('batteryOf', { id: row.id, number: row.play }), file);
          say(`The battery file ${file} is among your downloads.`);
        }), { 'data-card': 'battery' }),
        button('new', 'Start over', does(() => this.#startOver(row)), { 'data-card': 'anew' }),
      );
    }
    items.push(
      button('open', 'Begin with a battery file (.sav)', () => {
        dialogs.close('card');
        this.#batteryIsFor = row.id;
        $('battery-file').click();
      }, { 'data-card': 'begin-with' }),
      button('trash', 'Delete', does(() => this.#delete(row)), { 'data-card': 'delete', class: 'grave' }),
    );
    const others = row.images.filter(({ number }) => number !== row.play);
    const list = others.map((image) => this.#imageItem(row, image, does));
    $('card-head').textContent = name;
    const kept = list.length > 0 ? [made('h3', {}, 'Kept games'), made('ul', { class: 'kept' }, ...list)] : [];
    $('card-items').replaceChildren(...items, ...kept);
    $('card-about').textContent = [row.name, sizeOf(row.size), row.isUnread ? 'some of it can\'t be read' : ''].filter(Boolean).join(', ');
    dialogs.show('card');
  }

  /**
   * @param {GameRow} row
   * @param {ImageRow} image
   * @param {(run: () => unknown) => () => void} does
   */
  #imageItem(row, image, does) {
    const { client, dialogs, say } = this.#page;
    const what = imageWords(image);
    const parts = [
      button('play', '', does(async () => {
        await client.ask('playImage', { id: row.id, number: image.number });
        await this.#page.playing.open({ id: row.id });
      }), { class: 'icon', 'aria-label': `Play: ${what}. The present game is kept`, 'data-image': 'play' }),
      button('down', '', does(() => this.#takeOut(row, image.number)),
        { class: 'icon', 'aria-label': `Download: ${what}`, 'data-image': 'save' }),
    ];
    if (!isState(image)) {
      parts.push(button('trash', '', does(async () => {
        const more = `It was played last ${when(image.saved, Date.now())}. This can't be undone.`;
        if (await dialogs.ask({ text: `Delete this earlier game of ${nameOf(row)}?`, more, yes: 'Delete', isGrave: true })) {
          await client.ask('deleteImage', { id: row.id, number: image.number });
          await this.list();
          say('The earlier game was deleted.');
        }
      }), { class: 'icon', 'aria-label': `Delete: ${what}`, 'data-image': 'delete' }));
    }
    const picture = made('canvas', { width: 160, height: 144, 'aria-hidden': 'true' });
    if (image.picture) {
      draw(picture, image.picture, this.#page.store.now.palette);
    }
    return made('li', { 'data-number': image.number }, picture, made('span', {}, what), ...parts);
  }

  /** @param {GameRow} row */
  async #startOver(row) {
    const agrees = await this.#page.dialogs.ask(asked('start over', { title: nameOf(row) }));
    if (agrees) {
      await this.#page.playing.open({ id: row.id, anew: true });
    }
  }

  /** @param {GameRow} row */
  async #delete(row) {
    const { client, dialogs, say } = this.#page;
    const agrees = await dialogs.ask({
      text: `Delete ${nameOf(row)}?`,
      more: 'Its game, its save states and all that is kept of it go, too. This can\'t be undone.',
      yes: 'Delete',
      isGrave: true,
    });
    if (agrees) {
      await client.ask('deleteGame', { id: row.id });
      await this.list();
      say(`${nameOf(row)} was deleted.`);
    }
  }

  /**
   * @param {GameRow} row
   * @param {number} number
   */
  async #takeOut(row, number) {
    const file = fileName(row.name || nameOf(row), '.gbkeep');
    leave(await this.#page.client.ask('imageOf', { id: row.id, number }), file);
    this.#page.say(`The save file ${file} is among your downloads.`);
  }
}
