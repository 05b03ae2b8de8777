// How frames are counted: by the clock at each speed, as fast as it goes, by orders, and back.
import assert from 'node:assert/strict';
import { after, test } from 'node:test';
import { Refused } from '../page/refusals.js';
import { FRAMES_A_SECOND } from '../page/played.js';

let time = 1_000;
const told = [];
Object.defineProperty(globalThis, 'performance', { value: { now: () => time }, configurable: true });
globalThis.postMessage = (data) => { told.push(data); };
globalThis.setInterval = () => 0;
const { Player } = await import('../page/player.js');
const ports = [];

/** A game that only counts; a frame takes so many milliseconds. */
class Counting {
  count = 0n;
  saved = 0n;
  troubles = [];
  isOver = false;
  dropped = 0;
  older = 3;

  constructor(cost = 0.1) {
    this.cost = cost;
  }

  frames(held, count) {
    this.count += BigInt(count);
    time += this.cost * count;
  }

  keep() {
    this.saved = this.count;
  }

  rewind() {
    this.older -= 1;
    this.count += 1n;
    return this.older < 0 ? null : 6;
  }

  picture() {
    return new Uint8Array(4);
  }

  drop() {
    this.dropped += 1;
  }

  close() {
    this.keep();
  }
}

function begun(cost, how = { paused: false, max: false }) {
  const failed = [];
  const player = new Player(() => failed.push(1));
  ports.push(player.pump.port1);
  player.begin(new Counting(cost), how);
  return { player, game: player.game, failed };
}

after(() => ports.forEach((port) => port.close()));

/** So many seconds of a screen of so many moments a second. */
function seconds(player, count, speed, rate = 60) {
  const begin = time;
  for (let k = 1; k <= count * rate; k += 1) {
    time = Math.max(time, begin + 1000 * k / rate);
    player.tick({ held: 0, speed, isBack: false });
  }
}

test('a game runs at its speed on each screen, and twice and four times as fast', () => {
  for (const rate of [30, 60, 75, 144]) {
    for (const speed of [1, 2, 4]) {
      const { player, game } = begun(0.1);
      seconds(player, 10, speed, rate);
      const wanted = 10 * speed * FRAMES_A_SECOND;
      assert.ok(Math.abs(Number(game.count) - wanted) < 8, `${game.count} of ${wanted} at ${rate}`);
    }
  }
});

test('as fast as it goes, and no faster than there is time', () => {
  const { player, game } = begun(0.1);
  seconds(player, 1, 0);
  assert.ok(game.count > 60n * 90n && game.count < 60n * 130n, `${game.count}`);
  // a computer that is too slow for the speed
  const slow = begun(5);
  seconds(slow.player, 2, 4);
  assert.ok(slow.game.count > 100n && slow.game.count < 440n, `${slow.game.count}`);
});

test('a change of the speed, and a page that was away, make up for nothing', () => {
  const { player, game } = begun(0.1);
  seconds(player, 2, 1);
  let before = game.count;
  player.tick({ held: 0, speed: 4, isBack: false });
  assert.ok(game.count - before <= 2n);
  time += 60_000;
  before = game.count;
  player.tick({ held: 0, speed: 4, isBack: false });
  assert.ok(game.count - before <= 2n);
});

test('a pause, and going back', () => {
  const { player, game } = begun(0.1);
  player.isPaused = true;
  seconds(player, 1, 1);
  assert.equal(game.count, 0n);
  const rewound = [];
  for (let k = 0; k < 8; k += 1) {
    time += 34;
    rewound.push(player.tick({ held: 0, speed: 1, isBack: true }).rewound);
  }
  assert.deepEqual(rewound, [6, 6, 6, null, null, null, null, null]);
});

test('a save each second, and before there is much unsaved', () => {
  const { player, game } = begun(0.001);
  player.playUntil(Infinity, 2_999);
  assert.equal(game.saved, 0n);
  player.playUntil(Infinity, 2);
  assert.equal(game.saved, 3_000n);
  seconds(player, 3, 1);
  assert.ok(game.count - game.saved < 70n);
});

test('what fails ends the game, in words, and its orders', () => {
  const { player, game, failed } = begun(0.1);
  player.orders.push({ buttons: 0, left: 5, call: 77 });
  game.frames = () => { throw Refused.own('write'); };
  time += 100;
  assert.throws(() => player.tick({ held: 0, speed: 1, isBack: false }), { kind: 'write' });
  assert.deepEqual([player.game, game.dropped, failed.length], [null, 1, 1]);
  assert.ok(told.some((one) => one.call === 77 && one.refused.kind === 'write'));
  assert.ok(told.some((one) => one.tell === 'stopped'));
  assert.throws(() => player.open, { kind: 'write' });
  assert.deepEqual(player.tick({ held: 0, speed: 1, isBack: false }), {});
});

test('what changes files fails without ending the game, where it is known which is played', async () => {
  const { player, game } = begun(0.1);
  await assert.rejects(player.change(async () => { throw Refused.own('room'); }), { kind: 'room' });
  assert.equal(player.game, game);
  await assert.rejects(player.change(async (one) => {
    one.isOver = true;
    throw Refused.own('index');
  }), { kind: 'index' });
  assert.equal(player.game, null);
});
