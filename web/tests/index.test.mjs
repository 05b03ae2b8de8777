// The index of a game: what it says, each cut of its two sectors, and what other versions of the page leave and read.
import assert from 'node:assert/strict';
import { test } from 'node:test';
import { sha256 } from '../page/digest.js';
import { GameIndex, LENGTH, indexOf, saidOf } from '../page/game_index.js';
import { Disk, chanceOf, use } from './opfs.mjs';

const SECTOR = 512;
const FULL = { play: 999_999_999, slots: Array(10).fill(999_999_998), undo: Array(10).fill(999_999_997), back: 999_999_996, last: 999_999_999 };
const ANY = { play: 7, slots: [3, 0, 4, 0, 0, 0, 0, 0, 0, 5], undo: [2, null, 0, null, null, null, null, null, null, null], back: 1, last: 9 };

const padded = (text) => new TextEncoder().encode(text.padEnd(SECTOR));

/** A sector as pages write it that have one slot. */
async function oldSector(number, play, slot) {
  const text = `gbkeep index ${number}\n${JSON.stringify({ play, slot })}\n`;
  return padded(text + await sha256(new TextEncoder().encode(text)));
}

/** What such a page reads of an index. */
async function oldPageReads(bytes) {
  const found = [];
  for (const at of [0, SECTOR]) {
    const sector = bytes.slice(at, at + SECTOR);
    const got = /^(gbkeep index ([0-9]{1,15})\n(.*)\n)([0-9a-f]{64})$/.exec(new TextDecoder().decode(sector).trimEnd());
    if (got && sector.length === SECTOR && await sha256(new TextEncoder().encode(got[1])) === got[4]) {
      const { play, slot } = JSON.parse(got[3]);
      if ([play, slot].every((one) => Number.isSafeInteger(one) && one >= 0) && play > 0) {
        found.push({ number: Number(got[2]), play, slot });
      }
    }
  }
  found.sort((a, b) => b.number - a.number);
  return found[0] && { play: found[0].play, slot: found[0].slot };
}

/** An index on a disk of its own, with these bytes. */
async function opened(bytes = null) {
  const disk = use(new Disk());
  if (bytes) {
    disk.files.set('index', { bytes: bytes.slice(), synced: bytes.slice(), writes: [], time: 1 });
  }
  return { disk, index: await GameIndex.open(disk.root) };
}

const bytesOf = (disk) => disk.files.get('index').bytes;

test('what is written is read, and fits a sector', async () => {
  const { disk, index } = await opened();
  for (const said of [saidOf(1), ANY, FULL, ANY]) {
    await index.write(said);
    const found = await indexOf(bytesOf(disk));
    assert.deepEqual([found.said, found.isDamaged, bytesOf(disk).length], [said, false, LENGTH]);
  }
});

test('each cut of a write leaves the old or the new', async () => {
  const { disk, index } = await opened();
  await index.write(saidOf(1));
  await index.write(ANY);
  const before = bytesOf(disk).slice();
  await index.write(FULL);
  const after = bytesOf(disk).slice();
  const at = before.subarray(0, SECTOR).every((byte, k) => byte === after[k]) ? SECTOR : 0;
  for (let length = 0; length <= SECTOR; length += 1) {
    for (const isBackwards of [false, true]) {
      const torn = before.slice();
      const [from, to] = isBackwards ? [SECTOR - length, SECTOR] : [0, length];
      torn.set(after.subarray(at + from, at + to), at + from);
      const { said } = await indexOf(torn);
      const isNew = JSON.stringify(said) === JSON.stringify(FULL);
      assert.ok(isNew || JSON.stringify(said) === JSON.stringify(ANY), `${length}`);
      assert.ok(!isNew || torn.every((byte, k) => byte === after[k]));
    }
  }
});

test('each changed byte of an index leaves what one of its sectors says', async () => {
  const { disk, index } = await opened();
  await index.write(ANY);
  await index.write(FULL);
  for (let at = 0; at < LENGTH; at += 1) {
    const other = bytesOf(disk).slice();
    other[at] ^= 1 << (at % 8);
    const { said } = await indexOf(other);
    assert.ok([ANY, FULL].some((one) => JSON.stringify(one) === JSON.stringify(said)), `${at}`);
  }
});

test('writes that no flush has followed may be undone', async () => {
  const chance = chanceOf(3);
  for (let calls = 0; calls < 6; calls += 1) {
    for (let round = 0; round < 20; round += 1) {
      const { disk, index } = await opened();
      await index.write(saidOf(1));
      await index.write(ANY);
      disk.left = calls;
      const isWhole = await index.write(FULL).then(() => true, () => false);
      const { said } = await indexOf(bytesOf(disk.after(chance)));
      assert.ok([ANY, FULL].some((one) => JSON.stringify(one) === JSON.stringify(said)));
      assert.ok(!isWhole || JSON.stringify(said) === JSON.stringify(FULL));
    }
  }
});

test('a page with one slot reads what is played and the first slot', async () => {
  const { disk, index } = await opened();
  await index.write(saidOf(1));
  await index.write(ANY);
  assert.deepEqual(await oldPageReads(bytesOf(disk)), { play: 7, slot: 3 });
  // and what it leaves is read, with the other slots, as long as one sector tells of them
  const bytes = bytesOf(disk).slice();
  const place = 1 - index.place;
  bytes.set(await oldSector(index.number + 1, 12, 3), place * SECTOR);
  const first = (await indexOf(bytes)).said;
  assert.deepEqual(first, { play: 12, slots: ANY.slots, undo: [null, ...ANY.undo.slice(1)], back: 0, last: 12 });
  bytes.set(await oldSector(index.number + 2, 12, 13), (1 - place) * SECTOR);
  const second = await indexOf(bytes);
  assert.deepEqual(second.said, { ...saidOf(12), slots: [13, ...Array(9).fill(0)], last: 13 });
  assert.equal(second.isDamaged, false);
});

test('two sectors with one slot are taken', async () => {
  const bytes = new Uint8Array(LENGTH);
  bytes.set(await oldSector(4, 5, 2), 0);
  bytes.set(await oldSector(3, 1, 2), SECTOR);
  const { disk, index } = await opened(bytes);
  assert.deepEqual(index.said, { ...saidOf(5), slots: [2, ...Array(9).fill(0)] });
  await index.write({ ...index.said, play: 6, last: 6 });
  assert.deepEqual((await indexOf(bytesOf(disk))).said.play, 6);
});

test('one sector of plain JSON is taken, whatever stands behind it, and goes over to two, at each cut', async () => {
  for (const behind of [0, 700, SECTOR]) {
    const bytes = new Uint8Array(SECTOR + behind).fill(0x20);
    bytes.set(padded('{"play":1,"slot":2}'));
    const old = { ...saidOf(1), slots: [2, ...Array(9).fill(0)], last: 2 };
    for (let calls = 0; calls < 12; calls += 1) {
      const { disk, index } = await opened(bytes);
      assert.deepEqual(index.said, old);
      disk.left = calls;
      await index.write(ANY).catch(() => {});
      const chance = chanceOf(calls);
      for (let round = 0; round < 8; round += 1) {
        const { said } = await indexOf(bytesOf(disk.after(round === 0 ? null : chance)));
        assert.ok([old, ANY].some((one) => JSON.stringify(one) === JSON.stringify(said)), `${behind} ${calls}`);
      }
    }
  }
});

test('what can not be is taken for nothing', async () => {
  const texts = ['{}', '{"play":0,"slot":0}', '{"version":2,"play":1,"slot":0}', '{"version":2,"play":1,"slot":0,"slots":[1],"undo":[],"back":0,"last":1}', '[]', '7', 'null',
    JSON.stringify({ version: 2, ...ANY, slot: 4 }), JSON.stringify({ version: 2, ...ANY, slot: 3, play: 1.5 }),
    JSON.stringify({ version: 2, ...ANY, slot: 3, back: -1 })];
  for (const text of texts) {
    const head = `gbkeep index 1\n${text}\n`;
    const bytes = new Uint8Array(LENGTH);
    bytes.set(padded(head + await sha256(new TextEncoder().encode(head))));
    assert.deepEqual((({ said, isDamaged }) => ({ said, isDamaged }))(await indexOf(bytes)), { said: null, isDamaged: true }, text);
  }
});

test('of a later version that is not known, what is played and the first slot', async () => {
  const head = 'gbkeep index 1\n{"version":3,"play":4,"slot":2,"slots":{"1":2}}\n';
  const bytes = new Uint8Array(LENGTH);
  bytes.set(padded(head + await sha256(new TextEncoder().encode(head))));
  assert.deepEqual((await indexOf(bytes)).said, { ...saidOf(4), slots: [2, ...Array(9).fill(0)] });
});
