// What the tests play: the module of the page, cartridges, and games on a disk in memory.
import './browser.mjs';
import { existsSync, readFileSync } from 'node:fs';
import { Game } from '../page/game.js';
import { sha256 } from '../page/digest.js';
import { Library, Session, unpacked } from '../page/library.js';
import { use } from './opfs.mjs';

const MODULE = process.env.MODULE ?? new URL('../page/gbkeep.wasm.gz', import.meta.url);
/** Why nothing can be played; false where it can. */
export const skip = existsSync(MODULE) ? false : 'there is no gbkeep.wasm.gz in web/page';

const compiled = skip ? null : await WebAssembly.compile(await unpacked(new Uint8Array(readFileSync(MODULE))));

/** A library of its own. */
export async function library() {
  return Library.of(compiled);
}

export const DEMO = new Uint8Array(readFileSync(new URL('../../examples/demo/demo.gb', import.meta.url)));

/** A cartridge with a clock, that does nothing. */
export function clockCart() {
  const rom = new Uint8Array(32768);
  rom.set([0xc3, 0x50, 0x01], 0x100);
  rom.set(new TextEncoder().encode('CLOCK'), 0x134);
  rom.set([0x10, 0x00, 0x02], 0x147);
  rom.set([0xf3, 0x18, 0xfe], 0x150);
  return rom;
}

export const MADE = { name: 'demo.gb', isNew: false, battery: null, isTimed: false, hasPast: false, ask: () => null };

/** Opens a game of a cartridge on a disk. */
export async function opened(made, disk, rom = DEMO, how = {}) {
  use(disk);
  return Game.open(made, { ...MADE, id: await sha256(rom), rom, ...how });
}

// what images hold, by their digests
const held = new Map();

/** What an image holds: its count of inputs and its state; null where it can't be played. */
async function holding(made, rom, bytes) {
  const digest = await sha256(bytes);
  if (!held.has(digest)) {
    try {
      const session = Session.resume(made, rom, bytes);
      held.set(digest, `${session.count()} ${(await sha256(session.snapshot())).slice(0, 12)}`);
      session.free();
    } catch {
      held.set(digest, null);
    }
  }
  return held.get(digest);
}

/** Each image of a game by its name, with what it holds. */
export async function imagesOf(made, disk, rom = DEMO) {
  const found = {};
  for (const [path, { bytes }] of disk.files) {
    const name = path.split('/').at(-1);
    if (name.endsWith('.gbkeep')) {
      found[name] = await holding(made, rom, bytes);
    }
  }
  return found;
}

/** What a game that is open stands at. */
export async function standing(game) {
  return `${game.count} ${(await game.state()).slice(0, 12)}`;
}
