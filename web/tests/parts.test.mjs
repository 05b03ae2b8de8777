// Small parts: what slots become, what may be deleted, what a game is welcomed with, names of files, pictures, the clock, and what can be rewound.
import assert from 'node:assert/strict';
import { test } from 'node:test';
import './opfs.mjs';
import { library, skip } from './play.mjs';
import { Clock, hasClock, span } from '../page/clock.js';
import { crc32, sha256 } from '../page/digest.js';
import { namedBy, saidOf } from '../page/game_index.js';
import { aboutIn, bytesOf, cartridgeOf, isSave, nextNumber, numbersIn } from '../page/images.js';
import { gameOf, kindOf, stemOf } from '../page/look.js';
import { packed, unpacked } from '../page/pack.js';
import { Past } from '../page/past.js';
import { FRAMES_A_SECOND, recordIn, sectorWith, welcomeOf } from '../page/played.js';
import { emptied, forgettable, isSmall, kept, loaded, placeOf, present, unkept, unloaded, without } from '../page/states.js';

test('a slot that is kept, and undone', () => {
  const one = kept(saidOf(1), 3, 2);
  assert.deepEqual([one.slots[2], one.undo[2], one.last], [2, 0, 2]);
  const two = kept(one, 3, 3);
  assert.deepEqual([two.slots[2], two.undo[2]], [3, 2]);
  const back = unkept(two, 3);
  assert.deepEqual([back.slots[2], back.undo[2], back.last], [2, null, 3]);
  assert.throws(() => unkept(back, 3), { kind: 'undo' });
  const gone = emptied(two, 3);
  assert.deepEqual([gone.slots[2], gone.undo[2]], [0, 3]);
  assert.deepEqual(unkept(gone, 3).slots[2], 3);
  assert.throws(() => emptied(gone, 3), { kind: 'empty' });
  for (const slot of [0, 11, 1.5, '1', undefined]) {
    assert.throws(() => placeOf(slot), TypeError);
  }
});

test('what was loaded can be gone back from, also where it was loaded twice', () => {
  const one = loaded(saidOf(1), 2);
  assert.deepEqual([one.play, one.back], [2, 1]);
  const twice = loaded(one, 3, true);
  assert.deepEqual([twice.play, twice.back], [3, 1]);
  const later = loaded(one, 3, false);
  assert.deepEqual([later.play, later.back], [3, 2]);
  assert.deepEqual([unloaded(twice).play, unloaded(twice).back], [1, 3]);
  assert.throws(() => unloaded(saidOf(1)), { kind: 'undo' });
});

test('images that are not there are named no more', () => {
  const said = { play: 9, slots: [1, 2, 0, 0, 0, 0, 0, 0, 0, 0], undo: [3, 0, null, null, null, null, null, null, null, null], back: 4, last: 9 };
  const slots = [0, 2, 0, 0, 0, 0, 0, 0, 0, 0];
  const undo = [null, 0, null, null, null, null, null, null, null, null];
  assert.deepEqual(present(said, [2]), { play: 9, slots, undo, back: 0, last: 9 });
  assert.deepEqual([...namedBy(without(said, 1))].sort(), [0, 2, 3, 4, 9]);
  assert.equal(nextNumber(['7.gbkeep', '12.time', '3.about', 'index'], said), 13);
  assert.equal(nextNumber(['7.gbkeep'], { ...said, last: 40 }), 41);
  assert.equal(nextNumber([], null), 1);
  assert.deepEqual(numbersIn(['2.gbkeep', '0.gbkeep', '10.gbkeep', 'x.gbkeep', '1.gbkeep.old']), [2, 10]);
});

test('only small images go, only where nothing names them, and the last ten stay', () => {
  const about = (kind, begun, left) => ({ kind, time: 1, begun: BigInt(begun), left: left === null ? null : BigInt(left), picture: null });
  const images = [{ number: 1, about: null }, { number: 2, about: about('game', 0, 5) }, { number: 3, about: about('load', 100, 100_000) }, { number: 4, about: about('load', 100, null) }];
  for (let number = 5; number < 30; number += 1) {
    images.push({ number, about: number % 2 ? about('state', 10, null) : about('load', 10, 900) });
  }
  const said = { ...saidOf(29), slots: [5, 0, 0, 0, 0, 0, 0, 0, 0, 0], undo: [6, null, null, null, null, null, null, null, null, null], back: 7, last: 29 };
  const gone = forgettable(images, [said, null, { ...saidOf(8) }]).map(({ number }) => number);
  assert.deepEqual(gone.sort((a, b) => a - b), [9, 10, 11, 12, 13, 14, 15, 16, 17, 18]);
  assert.equal(isSmall(about('state', 10, null), 11n), false);
  assert.equal(isSmall(about('load', 10, null), 36_010n), false);
  assert.equal(isSmall(about('load', 10, null), 9n), false);
  assert.equal(isSmall(null, 9n), false);
});

test('what stands beside an image', () => {
  const picture = packed(Uint8Array.from({ length: 23040 }, (_, k) => (k * 7) & 3));
  for (const about of [{ kind: 'state', time: 5, begun: 2n ** 60n, left: null, picture }, { kind: 'load', time: 5, begun: 0n, left: 7n, picture: null }]) {
    assert.deepEqual(aboutIn(bytesOf(about)), about);
    const bytes = bytesOf(about);
    for (let at = 0; at < 60; at += 1) {
      const other = bytes.slice();
      other[at] ^= 2;
      assert.equal(aboutIn(other), null);
    }
  }
  for (const bytes of [null, new Uint8Array(), new Uint8Array(512), new Uint8Array(6272).fill(0x7b)]) {
    assert.equal(aboutIn(bytes), null);
  }
  assert.deepEqual(packed(unpacked(picture)), picture);
  assert.equal(unpacked(new Uint8Array(5)), null);
});

test('how many seconds before its end a game goes on', () => {
  const record = { image: 2, count: 1_000n, frames: 5_000, time: 7, isClosed: false };
  assert.deepEqual(recordIn(sectorWith(record)), record);
  assert.deepEqual(recordIn(sectorWith({ ...record, count: 2n ** 64n - 1n, isClosed: true })), { ...record, count: 2n ** 64n - 1n, isClosed: true });
  assert.equal(welcomeOf(record, 2, 976n), 24 / FRAMES_A_SECOND);
  assert.equal(welcomeOf(record, 2, 1_000n), 0);
  assert.equal(welcomeOf(record, 2, 1_001n), 0);
  assert.equal(welcomeOf({ ...record, isClosed: true }, 2, 1_000n), null);
  assert.equal(welcomeOf({ ...record, isClosed: true }, 2, 940n), 60 / FRAMES_A_SECOND);
  assert.equal(welcomeOf(record, 3, 976n), null);
  assert.equal(welcomeOf(null, 2, 976n), null);
  const bytes = sectorWith(record);
  for (let at = 0; at < 100; at += 1) {
    const other = bytes.slice();
    other[at] ^= 1;
    const read = recordIn(other);
    assert.ok(read === null || JSON.stringify(read, String) === JSON.stringify(record, String), `byte ${at}`);
  }
  assert.equal(recordIn(new Uint8Array()), null);
  assert.equal(recordIn(null), null);
});

test('what a file is, and whose battery it is', () => {
  const save = new Uint8Array(1024);
  save.set(new TextEncoder().encode('GBKPROOT'), 512);
  save.fill(0xab, 512 + 20, 512 + 52);
  assert.ok(isSave(save));
  assert.equal(cartridgeOf(save), 'ab'.repeat(32));
  assert.equal(kindOf({ name: 'x.sav', bytes: save }), 'save');
  assert.equal(kindOf({ name: 'x.SRM', bytes: new Uint8Array(8) }), 'battery');
  assert.equal(kindOf({ name: 'x.gb', bytes: new Uint8Array(8) }), 'cart');
  assert.equal(kindOf({ name: 'x.gb', bytes: Uint8Array.from([0x50, 0x4b, 3, 4]) }), 'zip');
  assert.equal(stemOf('a/b\\Ünïcode (E) [!].GBC'), 'ünïcode (e) [!]');
  assert.equal(stemOf('Cafe\u0301.sav'), stemOf('Café.gb'));
  const rows = [{ name: 'Other.gb' }, { name: 'Game (World).gb' }];
  assert.equal(gameOf(rows, 'GAME (World).sav'), rows[1]);
  assert.equal(gameOf(rows, 'Game.sav'), null);
});

test('digests', async () => {
  assert.equal(crc32(new TextEncoder().encode('123456789')), 0xcbf43926);
  assert.equal(await sha256(new Uint8Array()), 'e3b0c44298fc1c149afbf4c8996fb92427ae41e4649b934ca495991b7852b855');
});

test('the clock of an image', { skip }, async () => {
  const made = await library();
  assert.equal(span(3_600 + 61), '1 hour and 1 minute');
  assert.ok(hasClock(Uint8Array.from({ length: 0x150 }, (_, at) => (at === 0x147 ? 0x10 : 0))));
  let text = '';
  const place = { read: () => text, write: (other) => { text = other; } };
  const clock = (count, now) => new Clock(made, place, count, () => now, () => 0);
  await clock(0n, 1_000).begin(() => null);
  assert.equal(text, '0 1000');
  const later = clock(200n, 1_100);
  assert.match(await later.begin(() => null), /played elsewhere/);
  assert.equal(later.claim(200n), 100);
  assert.equal(text, '201 1100\n200 1000');
  later.given();
  later.goBack(1_050);
  assert.equal(later.claim(201n), 50);
  // a question that is answered by no gives nothing
  text = '5 1000';
  const verbs = [];
  const away = clock(5n, 1_000 + 400 * 86400);
  await away.begin((question, yes, no) => { verbs.push(yes, no); return false; });
  assert.deepEqual(verbs, ['Give the time', 'Leave the clock']);
  assert.equal(away.claim(5n), 0);
  text = 'no line';
  assert.match(await clock(5n, 2_000).begin(() => null), /can't be read/);
});

test('states that a game can be rewound to', () => {
  const past = new Past(16);
  const state = (k) => (bytes) => bytes.fill(k);
  past.keep(0, state(0));
  for (let k = 1; k < 700; k += 1) {
    assert.equal(past.left(), 6);
    assert.equal(past.played(6), true);
    past.keep(k, state(k & 0xff));
  }
  assert.equal(past.count, 597);
  assert.equal(past.before(1).bytes[0], 698 & 0xff);
  past.played(3);
  assert.equal(past.before(1).bytes[0], 699 & 0xff);
  const oldest = past.before(10_000);
  assert.equal(oldest.until, 103);
  past.goTo(oldest);
  assert.equal(past.before(1), null);
  past.clear();
  past.keep(9, state(9));
  assert.equal(past.before(1), null);
});
