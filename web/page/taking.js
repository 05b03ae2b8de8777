// Files that were chosen or dropped: what they are, and what the player wants of them.
import { $ } from './dom.js';
import { Refused, lineOf } from './refusals.js';
import { planOf } from './words.js';

const MOST_FILE = 65536 * 512;

export class Taking {
  #page;

  /** @param {Page} page */
  constructor(page) {
    this.#page = page;
    const input = $('file', HTMLInputElement);
    input.addEventListener('change', () => page.tried(async () => {
      const files = [...input.files ?? []];
      input.value = '';
      await this.take(files);
    }));
    for (const id of ['choose', 'choose-first']) {
      $(id).addEventListener('click', () => input.click());
    }
    let depth = 0;
    const over = (/** @type {boolean} */ isOver) => document.documentElement.classList.toggle('dropping', isOver);
    // words and links are dragged, too, and are none
    const moved = (/** @type {DragEvent} */ event, /** @type {number} */ by) => {
      if (event.dataTransfer?.types.includes('Files')) {
        depth += by;
        over(depth > 0);
      }
    };
    document.addEventListener('dragenter', (event) => {
      event.preventDefault();
      moved(event, 1);
    });
    document.addEventListener('dragover', (event) => event.preventDefault());
    document.addEventListener('dragleave', (event) => moved(event, -1));
    document.addEventListener('drop', (event) => {
      event.preventDefault();
      depth = 0;
      over(false);
      const files = [...event.dataTransfer?.files ?? []];
      if (files.length > 0) {
        page.tried(() => this.take(files));
      }
    });
  }

  /**
   * A file of the visitor's: its name and its bytes.
   * @param {File} file
   */
  async read(file) {
    if (file.size > MOST_FILE) {
      throw Refused.own('large');
    }
    try {
      return { name: file.name, bytes: new Uint8Array(await file.arrayBuffer()) };
    } catch {
      throw Refused.own('read');
    }
  }

  /** @param {File[]} given */
  async take(given) {
    const { client, dialogs, home, store } = this.#page;
    const files = [];
    for (const file of given) {
      try {
        files.push(await this.read(file));
      } catch (error) {
        this.#page.refuse(error, file.name);
      }
    }
    if (files.length === 0) {
      return;
    }
    /** @type {Looked} */
    const look = await client.ask('look', { files });
    look.refused.forEach((one) => this.#page.refuse(one, one.name));
    if (look.battery && !look.cart) {
      // the list is older than the game that is played
      await home.list();
    }
    const rows = store.now.rows ?? [];
    const plan = planOf(look, rows.length, store.now.game?.title ?? null);
    const { cart, battery, save } = look;
    if (plan.what === 'no cartridge') {
      this.#page.refuse(Refused.own(save ? 'cartridge' : 'battery'), (save ?? battery)?.name ?? null);
      return;
    }
    if (plan.text !== '' && plan.yes !== '' && !await dialogs.ask({ text: plan.text, more: plan.more, yes: plan.yes })) {
      return;
    }
    let name = cart?.name ?? battery?.name ?? save?.name ?? null;
    try {
      await this.#does(plan.what, look, plan.text, (file) => { name = file.name; });
    } catch (error) {
      this.#page.refuse(error, name);
    }
  }

  /**
   * @param {Plan['what']} what
   * @param {Looked} look
   * @param {string} text
   * @param {(file: GivenFile) => void} begins a file is taken, behind another one
   */
  async #does(what, { cart, battery, save }, text, begins) {
    const { client, dialogs, playing, store } = this.#page;
    if (cart) {
      await playing.open({ rom: cart.bytes, name: cart.name, battery: battery?.bytes ?? null });
    }
    if (save && (what === 'take in' || what === 'take in behind')) {
      begins(save);
      await playing.open({ id: await client.ask('takeIn', { image: save.bytes }) });
    }
    if (battery && what === 'battery of the list' && battery.of) {
      await playing.open({ id: battery.of.id, battery: battery.bytes });
    }
    if (battery && what === 'which game') {
      const rows = store.now.rows ?? [];
      const taken = rows[await dialogs.pick(text, rows.map((row) => row.title || row.name)) ?? -1];
      if (taken) {
        await playing.open({ id: taken.id, battery: battery.bytes });
      }
    }
  }
}

/**
 * A refusal as it is shown, of a file or of none.
 * @param {unknown} error
 * @param {string | null} file
 */
export function refusalLine(error, file) {
  if (error instanceof Refused || (error instanceof Object && 'line' in error)) {
    return lineOf(/** @type {import('./refusals.js').Told} */ (error), file);
  }
  return lineOf({ line: 'the page failed', means: String(error), advice: 'open the page anew', kind: 'failed' });
}
