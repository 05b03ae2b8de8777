// Kills and power cuts at each call on a file, of each act that changes what is played or what is in a slot: the page goes on with the old or the new, and no
// image is lost. Calls on files are those of the page's own scripts, over a disk in memory; the game is played by the page's module.
//
// Of a long row of writes to one file, as a checkpoint is, its ends are cut, and some between, by SEED (1). ALL=1 cuts at each call. CUTS is how many power
// cuts there are of each (1).
import assert from 'node:assert/strict';
import { test } from 'node:test';
import { deleteImage, playImage, takeIn } from '../page/games.js';
import { sha256 } from '../page/digest.js';
import { GameIndex } from '../page/game_index.js';
import { isSave } from '../page/images.js';
import { Disk, chanceOf, use } from './opfs.mjs';
import { DEMO, clockCart, imagesOf, library, opened, skip, standing } from './play.mjs';

const CUTS = Number(process.env.CUTS ?? 1);
const SEED = Number(process.env.SEED ?? 1);
const IS_ALL = process.env.ALL === '1';
const BETWEEN = 2;
const made = skip ? null : await library();
const id = await sha256(DEMO);

/** After how many of these calls an act is cut: at each, but in the middle of a long row of the same. Which those are is told. */
function cutsOf(log, t) {
  const chance = chanceOf(1000 * SEED + log.length);
  const cuts = [];
  for (let begin = 0; begin < log.length;) {
    let end = begin + 1;
    while (end < log.length && log[end] === log[begin]) {
      end += 1;
    }
    const row = Array.from({ length: end - begin }, (_, k) => begin + k);
    const middle = row.slice(2, -1);
    if (!IS_ALL && middle.length > BETWEEN) {
      const chosen = Array.from({ length: BETWEEN }, () => middle[Math.floor(chance() * middle.length)]);
      cuts.push(...new Set([...row.slice(0, 2), ...chosen.sort((a, b) => a - b), ...row.slice(-1)]));
    } else {
      cuts.push(...row);
    }
    begin = end;
  }
  t.diagnostic(`cut after ${cuts.length === log.length ? 'each' : cuts.join(', ')} of ${log.length} calls${IS_ALL ? '' : `, by SEED=${SEED}`}`);
  return cuts;
}

/** A game with states in slots 1 and 2, one behind slot 2, one to go back to, and a moment. */
async function based(rom = DEMO, how = {}) {
  const disk = new Disk();
  const game = await opened(made, disk, rom, how);
  const kept = async (buttons, frames, slot) => {
    game.frames(buttons, frames);
    game.keep();
    await game.keepSlot(slot);
  };
  await kept(1, 10, 1);
  await kept(2, 10, 2);
  await kept(4, 10, 2);
  game.frames(8, 20);
  game.keep();
  await game.loadSlot(2);
  game.frames(1, 330);
  game.close();
  return disk;
}

/** What stands on a disk: what is played, what each slot holds, and what is to be brought back, as contents of images. */
async function stands(disk, rom = DEMO) {
  use(disk);
  const images = await imagesOf(made, disk, rom);
  const folder = await (await disk.root.getDirectoryHandle('games')).getDirectoryHandle(await sha256(rom));
  const index = await GameIndex.open(folder);
  index.close();
  const { play, slots, undo, back } = index.said;
  const of = (number) => (number ? images[`${number}.gbkeep`] ?? `no ${number}` : number);
  return { images: Object.values(images), said: JSON.stringify([of(play), slots.map(of), undo.map(of), of(back)]) };
}

/** Each file that has a root is a whole image. */
async function looksWhole(disk, rom, where) {
  const images = await imagesOf(made, disk, rom);
  for (const [path, { bytes }] of disk.files) {
    const name = path.split('/').at(-1);
    assert.ok(!name.endsWith('.gbkeep') || !isSave(bytes) || images[name] !== null, `${where}: ${name} has a root, and is not whole`);
  }
}

/** Each act. */
const ACTS = {
  'keep in a slot': (game) => game.keepSlot(1),
  'keep in an empty slot': (game) => game.keepSlot(7),
  'keep in a slot that has an undo': (game) => game.keepSlot(2),
  'undo a keep': (game) => game.undoKeep(2),
  'undo a keep in an empty slot': (game) => game.undoKeep(1),
  'delete a state': (game) => game.deleteState(1),
  'load a slot': (game) => game.loadSlot(1),
  'undo a load': (game) => game.undoLoad(),
  'take a SAVE in': (game) => game.takeIn(game.bytes()),
  async 'go to a moment'(game) {
    await game.goToMoment((await game.moments()).moments[0].number);
    game.keep();
  },
};

// those that write what stands beside an image about its clock, or go back in time
const CLOCKED = ['keep in a slot', 'load a slot', 'undo a load', 'go to a moment'];

/** One life: a game is opened and does something, and after so many calls of that it is killed. Answers the disk, and how many calls there were. */
async function life(base, act, calls = Infinity, rom = DEMO, how = {}) {
  const disk = base.copy();
  const game = await opened(made, disk, rom, how);
  game.frames(16, 20);
  game.keep();
  await game.timeline.writing;
  disk.calls = 0;
  disk.log = [];
  disk.left = calls;
  try {
    await act(game);
  } catch (error) {
    if (calls === Infinity) {
      throw error;
    }
  }
  return { disk, calls: disk.calls, log: disk.log, game };
}

for (const [name, act] of Object.entries(ACTS)) {
  const kinds = [['', DEMO, {}], [', of a game with a clock', clockCart(), { isTimed: true }]];
  for (const [kind, rom, how] of CLOCKED.includes(name) ? kinds : kinds.slice(0, 1)) {
    test(`${name}${kind}: each cut leaves the old or the new`, { skip }, async (t) => {
      const base = await based(rom, how);
      const none = await life(base, async () => {}, Infinity, rom, how);
      const old = await stands(none.disk.after(), rom);
      const whole = await life(base, act, Infinity, rom, how);
      const next = await stands(whole.disk.after(), rom);
      if (name !== 'go to a moment') {
        assert.notEqual(old.said, next.said);
      }
      assert.ok(whole.calls > 1, whole.log.join());
      const chance = chanceOf(name.length);
      for (const calls of cutsOf(whole.log, t)) {
        const { disk } = await life(base, act, calls, rom, how);
        for (let cut = 0; cut <= CUTS; cut += 1) {
          const left = disk.after(cut === 0 ? null : chance);
          const where = `${calls} of ${whole.log.join()}, cut ${cut}`;
          await looksWhole(left, rom, where);
          const game = await opened(made, left, rom, how);
          assert.doesNotMatch(game.notice ?? '', /not there/, where);
          const at = await standing(game);
          // what was torn of the index is told, and the other sector counts
          const found = JSON.stringify([game.number, game.said]);
          await game.timeline.writing;
          game.drop();
          const now = await stands(left.after(), rom);
          if (!how.isTimed) {
            assert.ok(name === 'go to a moment' || now.said === old.said || now.said === next.said, `${where}: ${now.said} is neither ${old.said} nor ${next.said}; ${found}`);
            for (const image of old.images) {
              assert.ok(now.images.includes(image) || name === 'go to a moment', `${where}: ${image} is lost`);
            }
          }
          assert.ok(at.length > 0);
        }
      }
    });
  }
}

/** What the list does with a game that nobody plays. */
const LISTED = {
  'play an older game': (images) => playImage(id, images.back),
  'play a copy of a slot': (images) => playImage(id, images.slot),
  'delete what an undo brings back': (images) => deleteImage(id, images.undo),
  'take a SAVE in': (images, bytes) => takeIn(id, bytes),
};

for (const [name, act] of Object.entries(LISTED)) {
  test(`${name}, in the list: each cut leaves the old or the new`, { skip }, async (t) => {
    const base = await based();
    const old = await stands(base.copy());
    const run = async (calls) => {
      const disk = use(base.copy());
      const folder = await (await disk.root.getDirectoryHandle('games')).getDirectoryHandle(id);
      const index = await GameIndex.open(folder);
      index.close();
      const { play, slots, undo, back } = index.said;
      const [bytes] = [...disk.files].filter(([path]) => path.endsWith(`${play}.gbkeep`)).map(([, file]) => file.bytes);
      disk.calls = 0;
      disk.log = [];
      disk.left = calls;
      try {
        await act({ back, slot: slots[1], undo: undo[1] }, bytes);
      } catch (error) {
        if (calls === Infinity) {
          throw error;
        }
      }
      return disk;
    };
    const whole = await run(Infinity);
    const next = await stands(whole.after());
    assert.notEqual(next.said, old.said);
    const chance = chanceOf(7);
    for (const calls of cutsOf(whole.log, t)) {
      const disk = await run(calls);
      for (let cut = 0; cut <= CUTS; cut += 1) {
        const now = await stands(disk.after(cut === 0 ? null : chance));
        assert.ok([old.said, next.said].includes(now.said), `${calls} of ${whole.log.join()}: ${now.said}`);
        if (!name.startsWith('delete')) {
          old.images.forEach((image) => assert.ok(now.images.includes(image)));
        }
      }
    }
  });
}

test('a new game: each cut leaves the old game, or the new one and the old one to go back to', { skip }, async (t) => {
  const base = await based();
  const old = await stands(base.copy());
  const run = async (calls) => {
    const disk = base.copy();
    disk.left = calls;
    try {
      const game = await opened(made, disk, DEMO, { isNew: true });
      await game.timeline.writing;
    } catch (error) {
      if (calls === Infinity) {
        throw error;
      }
    }
    return disk;
  };
  const whole = await run(Infinity);
  const next = await stands(whole.after());
  assert.equal(JSON.parse(next.said)[3], JSON.parse(old.said)[0]);
  const chance = chanceOf(8);
  for (const calls of cutsOf(whole.log, t)) {
    const disk = await run(calls);
    for (let cut = 0; cut <= CUTS; cut += 1) {
      const now = await stands(disk.after(cut === 0 ? null : chance));
      assert.ok([old.said, next.said].includes(now.said), `${calls} of ${whole.log.join()}: ${now.said}`);
      old.images.forEach((image) => assert.ok(now.images.includes(image)));
    }
  }
});

test('where new files are not found again, the newest game that is there is played', { skip }, async () => {
  const base = await based();
  for (const name of ['load a slot', 'keep in a slot', 'take a SAVE in']) {
    const { disk } = await life(base, ACTS[name]);
    const left = disk.after();
    for (const path of left.files.keys()) {
      if (!base.files.has(path)) {
        left.files.delete(path);
      }
    }
    const game = await opened(made, left);
    assert.ok(game.count > 0n);
    assert.equal((await game.states()).length, 10);
    game.close();
    const images = (await stands(left.after())).images;
    (await stands(base.copy())).images.forEach((image) => assert.ok(images.some((one) => one === image || Number(one.split(' ')[0]) > Number(image.split(' ')[0])), `${name}: ${image}`));
  }
});
