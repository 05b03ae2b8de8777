// The moments of a timeline: which stay, where they lie, what is taken of a file with whatever in it, and what a game does with them.
import assert from 'node:assert/strict';
import { test } from 'node:test';
import { Disk, chanceOf, use } from './opfs.mjs';
import { DEMO, clockCart, library, opened, skip, standing } from './play.mjs';
import { bytesOf, freeSector, momentAt, momentsIn, played, roomFor, thinned } from '../page/moments.js';
import { FRAMES_A_SECOND } from '../page/played.js';

const SECTOR = 512;
const chance = chanceOf(11);
const junk = (length) => Uint8Array.from({ length }, () => Math.floor(256 * chance()));
const seconds = (count) => Math.round(count * FRAMES_A_SECOND);
const moment = (number, more = {}) => ({ number, image: 1, count: BigInt(number), frames: number, until: 0, isTurn: false, pictureLength: 300, stateLength: 5000, digest: '', sector: 0, ...more });

test('an hour of play: ten seconds apart, and further back more', () => {
  let moments = [];
  for (let second = 10; second <= 7200; second += 10) {
    moments.push(moment(second / 10, { frames: seconds(second) }));
    moments = thinned(moments, seconds(second));
  }
  const ages = moments.map(({ frames }) => (seconds(7200) - frames) / FRAMES_A_SECOND);
  assert.ok(ages[0] <= 3600.1 && ages[0] > 3500, `${ages[0]}`);
  assert.ok(Math.abs(ages.at(-1)) < 0.1);
  const within = (from, to) => ages.filter((age) => age >= from && age < to).length;
  assert.ok(within(0, 595) >= 59, `${within(0, 600)} in the last ten minutes`);
  assert.ok(within(605, 1795) >= 40 && within(605, 1795) <= 62, `${within(600, 1800)} in the twenty before`);
  assert.ok(within(1805, 3600) >= 30 && within(1805, 3600) <= 47, `${within(1800, 3600)} in the half hour before`);
  assert.ok(moments.length < 175);
});

test('a moment before the game went elsewhere stays for half an hour', () => {
  const moments = [
    moment(1, { frames: seconds(100) }), moment(2, { frames: seconds(101), isTurn: true }),
    moment(3, { frames: seconds(102) }), moment(4, { frames: seconds(112) }),
  ];
  const numbers = (frames) => thinned(moments, frames).map(({ number }) => number);
  assert.deepEqual(numbers(seconds(200)), [1, 2, 4]);
  assert.deepEqual(numbers(seconds(2000)), [1, 4]);
});

test('moments that were not saved before a kill are dropped, and those of other images stay', () => {
  const moments = [moment(1, { image: 1, count: 900n }), moment(2, { image: 2, count: 50n }), moment(3, { image: 2, count: 51n })];
  assert.deepEqual(played(moments, 2, 50n).map(({ number }) => number), [1, 2]);
});

test('room is found between moments, and the oldest go where there is none', () => {
  const at = (number, sector) => moment(number, { sector, pictureLength: 16, stateLength: 4 * SECTOR - 96 - 16 });
  const moments = [at(1, 0), at(2, 8), at(3, 12)];
  assert.equal(freeSector(moments, 4, 16), 4);
  assert.equal(freeSector(moments, 5, 16), -1);
  assert.equal(freeSector(moments, 5, 21), 16);
  assert.deepEqual(roomFor(moments, 8, 16), { moments: moments.slice(1), sector: 0 });
  assert.equal(roomFor(moments, 17, 16).sector, -1);
});

test('what was written is read, and what is torn, foreign or made up is not', async () => {
  const told = { image: 3, count: 2n ** 53n + 1n, frames: 700, until: 1_796_041_788, isTurn: true };
  const [picture, state] = [junk(400), junk(1800)];
  const bytes = await bytesOf(5, told, picture, state);
  const read = momentAt(bytes, 0);
  assert.deepEqual({ ...read, digest: '' }, { ...told, number: 5, pictureLength: 400, stateLength: 1800, sector: 0, digest: '' });
  for (let at = 0; at < 96; at += 1) {
    const other = bytes.slice();
    other[at] ^= 4;
    assert.equal(momentAt(other, 0), null, `byte ${at}`);
  }
  assert.equal(momentAt(bytes.slice(0, 1000), 0), null);
  for (let length = 0; length < 9; length += 1) {
    assert.deepEqual(momentsIn(junk(length * 311)), []);
  }
  // an older one that a later one lies on counts no more
  const file = new Uint8Array(12 * SECTOR);
  file.set(bytes, 0);
  file.set(await bytesOf(6, told, picture, state), 5 * SECTOR);
  file.set(await bytesOf(9, told, junk(10), junk(20)), 2 * SECTOR);
  file.set(await bytesOf(9, told, junk(10), junk(20)), 11 * SECTOR);
  const found = momentsIn(file).map(({ number }) => number);
  assert.ok(found.length === 2 && found.includes(6) && found.includes(9), found.join());
});

const made = skip ? null : await library();

/** A game of some ten minutes, with a moment each ten seconds. */
async function minutes(disk, rom = DEMO, how = {}, count = 60) {
  const game = await opened(made, disk, rom, how);
  await game.timeline.writing;
  for (let k = 0; k < count; k += 1) {
    game.frames(k % 5 === 0 ? 128 : 1 << (k % 4), 600);
    game.keep();
    game.timeline.time = -Infinity;
    await game.timeline.writing;
  }
  return game;
}

test('a game goes to a moment, by one input, and back', { skip }, async () => {
  const disk = new Disk();
  const game = await minutes(disk);
  const { moments, bytes, most } = await game.moments();
  assert.ok(moments.length >= 58 && moments.every(({ picture }) => picture.length === 23040), `${moments.length}`);
  assert.ok(moments[0].seconds > 500 && moments.at(-1).seconds < 11);
  assert.ok(bytes > 0 && bytes < most && bytes === disk.files.get([...disk.files.keys()].find((path) => path.endsWith('timeline'))).bytes.length);
  console.log(`# ${moments.length} moments take ${bytes} bytes: ${Math.round(bytes / moments.length)} each`);
  const [before, count] = [await game.state(), game.count];
  const goal = moments[10];
  const rewound = await game.goToMoment(goal.number);
  assert.equal(Math.round(rewound / FRAMES_A_SECOND), Math.round(goal.seconds));
  assert.deepEqual([game.count, game.picture().join()], [count + 1n, goal.picture.join()]);
  game.frames(1, 5);
  game.keep();
  // and the game can be killed then
  const again = await opened(made, disk.after());
  assert.equal(await standing(again), await standing(game));
  again.drop();
  use(disk);
  const [turn] = (await game.moments()).moments.slice(-1);
  await game.goToMoment(turn.number);
  assert.equal(await game.state(), before);
  game.close();
});

test('the timeline goes on behind a kill with what was saved, and behind a load with all of it', { skip }, async () => {
  const disk = new Disk();
  const game = await minutes(disk);
  await game.keepSlot(1);
  game.frames(0, 650);
  game.timeline.time = -Infinity;
  game.frames(0, 1);
  await game.timeline.writing;
  const numbers = (await game.moments()).moments.map(({ number }) => number);
  const again = await opened(made, disk.after());
  const left = (await again.moments()).moments.map(({ number }) => number);
  // opened, it keeps the moment in which it is
  assert.deepEqual(left.slice(0, -1), numbers.slice(0, left.length - 1));
  assert.ok(!left.includes(numbers.at(-1)) || left.at(-1) === numbers.at(-1));
  assert.ok(again.count < game.count);
  await again.loadSlot(1);
  const behind = (await again.moments()).moments;
  assert.ok(behind.length >= left.length);
  await again.goToMoment(behind[3].number);
  again.close();
});

test('a timeline of nonsense, of a foreign cartridge, or none, is no fault', { skip }, async () => {
  const disk = new Disk();
  const game = await minutes(disk, DEMO, {}, 12);
  game.close();
  const standingAt = await standing(await opened(made, disk.after()));
  const other = new Disk();
  const foreign = await minutes(other, clockCart(), {}, 10);
  foreign.close();
  const fileOf = (one) => one.files.get([...one.files.keys()].find((path) => path.endsWith('timeline')));
  const whole = fileOf(disk).bytes;
  const torn = whole.slice();
  for (let at = 700; at < torn.length; at += 2500) {
    torn[at] ^= 0xff;
  }
  for (const bytes of [new Uint8Array(), junk(5000), new Uint8Array(7 << 20), whole.slice(0, whole.length - 700), torn, fileOf(other).bytes]) {
    const left = disk.after();
    fileOf(left).bytes = bytes.slice();
    const again = await opened(made, left);
    assert.equal(await standing(again), standingAt);
    assert.equal(again.notice, null);
    let went = 0;
    for (const { number } of (await again.moments()).moments) {
      try {
        const before = again.count;
        await again.goToMoment(number);
        assert.equal(again.count, before + 1n);
        went += 1;
      } catch (error) {
        assert.equal(error.kind, 'moment');
      }
    }
    assert.ok(went >= 1, `${bytes.length}`);
    again.frames(1, 10);
    again.keep();
    again.close();
  }
});

test('a moment of which any byte is another one is gone', { skip }, async () => {
  const disk = new Disk();
  const game = await minutes(disk, DEMO, {}, 3);
  const file = disk.files.get([...disk.files.keys()].find((path) => path.endsWith('timeline')));
  const [last] = game.timeline.moments.slice(-1);
  const { moments } = game.timeline;
  const begin = last.sector * SECTOR + 96 + last.pictureLength;
  for (let at = begin; at < begin + last.stateLength; at += 3) {
    file.bytes[at] ^= 1;
    await assert.rejects(game.timeline.stateOf(last.number, game.playing.stateLength), { kind: 'moment' });
    file.bytes[at] ^= 1;
    game.timeline.moments = moments;
  }
  await game.timeline.stateOf(last.number, game.playing.stateLength);
  game.close();
});

test('the clock of a cartridge is given the seconds since a moment again', { skip }, async () => {
  const disk = new Disk();
  const game = await opened(made, disk, clockCart(), { isTimed: true });
  const { until } = game.clock;
  game.clock.elapsed = () => game.clock.began + 100;
  game.keep();
  assert.equal(game.clock.until, until + 100);
  await game.timeline.writing;
  const [first] = (await game.moments()).moments;
  await game.goToMoment(first.number);
  assert.equal(game.clock.until, until);
  game.keep();
  assert.equal(game.clock.until, until + 100);
  game.close();
});

test('a timeline that can not be written is told once, and the game goes on', { skip }, async () => {
  const disk = new Disk();
  const game = await opened(made, disk);
  game.frames(1, 1);
  game.keep();
  await game.timeline.writing;
  disk.room = disk.size();
  game.frames(1, 700);
  game.timeline.time = -Infinity;
  game.frames(1, 1);
  await game.timeline.writing;
  game.keep();
  assert.deepEqual(game.troubles, ['The timeline of this game could not be kept.']);
  game.frames(1, 700);
  game.keep();
  assert.equal(game.troubles.length, 1);
  game.close();
});

test('where there is no room for a state, the timeline gives its own', { skip }, async () => {
  const disk = new Disk();
  const game = await minutes(disk);
  disk.room = disk.size() + 147_000;
  await game.keepSlot(1);
  disk.room = disk.size() + 146_000 - game.timeline.bytes;
  await assert.rejects(game.keepSlot(2), { kind: 'room' }).catch(() => {});
  disk.room = Infinity;
  game.frames(1, 1);
  game.keep();
  await game.keepSlot(3);
  assert.equal((await game.states())[2].count, game.count);
  game.close();
});
