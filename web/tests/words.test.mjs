// What is said, and what is asked of files.
import assert from 'node:assert/strict';
import test from 'node:test';
import { before, fileName, planOf, playedFor, rewoundBy, sizeOf, standingLine, welcome, when } from '../page/words.js';

const CALM = { keeps: 'kept', isPaused: false, isWaiting: false, isTouch: false, isAllSaved: false, unsaved: 0.4, rewound: null, pauseKey: 'P' };

test('the line under the title', () => {
  const line = (more) => standingLine({ ...CALM, ...more });
  assert.deepEqual(line({}), { text: 'saved 1 s ago', kind: 'kept' });
  assert.deepEqual(line({ unsaved: 3.7 }), { text: 'saved 3 s ago', kind: 'kept' });
  assert.deepEqual(line({ unsaved: 7.2 }), { text: 'not saved for 7 s', kind: 'loud' });
  assert.deepEqual(line({ isAllSaved: true, unsaved: 0 }), { text: 'saved', kind: 'kept' });
  assert.equal(line({ isPaused: true }).text, 'Paused: P goes on');
  assert.equal(line({ isPaused: true, isTouch: true }).text, 'Paused');
  assert.equal(line({ isWaiting: true }).text, 'Press a key to go on');
  assert.equal(line({ rewound: 2.44, isPaused: true }).text, 'back 2.4 s');
  assert.deepEqual(line({ keeps: 'memory' }), { text: 'not kept', kind: 'loud' });
  assert.equal(line({ keeps: 'window' }).text, 'kept until this window is closed');
});

test('how far a game was rewound', () => {
  assert.equal(rewoundBy(2.44, false), 'Rewound by 2.4 seconds.');
  assert.equal(rewoundBy(2.44, true), 'Rewound by 2.4 seconds, as far as it goes.');
  assert.equal(rewoundBy(0, true), 'There is nothing to go back to.');
});

test('when, and for how long', () => {
  const now = new Date(2026, 4, 12, 15, 30).getTime();
  assert.equal(when(now - 2000, now), 'just now');
  assert.equal(when(now - 42000, now), '42 s ago');
  assert.equal(when(now - 5 * 60000, now), '5 min ago');
  assert.match(when(now - 3 * 3600000, now, 'en'), /^today, 12:30/);
  assert.match(when(now - 16 * 3600000, now, 'en'), /^yesterday, 11:30/);
  assert.equal(when(new Date(2026, 1, 3).getTime(), now, 'en'), 'Feb 3, 2026');
  assert.equal(playedFor(0), '');
  assert.equal(playedFor(59), '');
  assert.equal(playedFor(3600), 'played for 1 h');
  assert.equal(playedFor(7980), 'played for 2 h 13 min');
  assert.equal(before(0.2), 'just now');
  assert.equal(before(90), '2 min ago');
  assert.equal(sizeOf(1000), '1 KiB');
  assert.equal(sizeOf(3 << 20), '3.0 MiB');
});

test('a welcome', () => {
  assert.equal(welcome(null), null);
  assert.equal(welcome(undefined), null);
  assert.equal(welcome(0.42), 'Welcome back: the game goes on from 0.4 s before it was closed.');
  assert.match(welcome(0), /from where it was closed/);
});

test('names of files', () => {
  assert.equal(fileName('a/b: c.gb', '.sav'), 'a_b_ c.sav');
  assert.equal(fileName('.gb', '.sav'), 'game.sav');
});

test('what is done with files', () => {
  const bytes = new Uint8Array(1);
  const cart = { name: 'x.gb', bytes, id: 'x', title: 'X', isKnown: false };
  const battery = { name: 'x.sav', bytes, of: null };
  const save = { name: 'x.gbkeep', bytes, id: 'x', title: 'X' };
  const none = { cart: null, battery: null, save: null, refused: [] };
  const what = (look, games = 1) => planOf({ ...none, ...look }, games, null).what;
  assert.equal(what({}), 'nothing');
  assert.equal(what({ cart }), 'play');
  assert.equal(planOf({ ...none, cart }, 0, null).yes, '');
  assert.equal(planOf({ ...none, cart }, 1, 'Y').text, 'x.gb is X: play it?');
  // a game that is there is never replaced unasked
  assert.equal(planOf({ ...none, cart, battery }, 0, null).yes, '');
  assert.equal(planOf({ ...none, cart: { ...cart, isKnown: true }, battery }, 1, null).yes, 'Begin new game');
  assert.equal(what({ battery }), 'which game');
  assert.equal(what({ battery }, 0), 'no cartridge');
  const asked = planOf({ ...none, battery: { ...battery, of: { id: 'x', title: '', name: 'x.gb' } } }, 1, null);
  assert.equal(asked.text, 'x.sav belongs to x.gb in your list: begin a new game with it?');
  assert.equal(asked.what, 'battery of the list');
  assert.equal(what({ save }), 'take in');
  assert.equal(planOf({ ...none, save }, 1, 'Y').yes, 'Play it');
  assert.equal(what({ save: { ...save, id: null } }), 'no cartridge');
  assert.equal(what({ cart, save: { ...save, id: null } }), 'take in behind');
  assert.equal(planOf({ ...none, cart, save: { ...save, id: null } }, 0, null).yes, '');
  assert.equal(planOf({ ...none, cart, save }, 1, null).yes, 'Play it');
});
