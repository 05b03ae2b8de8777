// What keys and a gamepad's buttons do, and how they are changed.
import assert from 'node:assert/strict';
import test from 'node:test';
import { ACTIONS, ROWS, actionOf, actionsOf, bitOf, byteOf, nameOfButton, nameOfKey, stored, usualKeys, usualPad, withButton, withKey } from '../page/keys.js';
import { Held } from '../page/held.js';

const isKey = (value) => typeof value === 'string';

test('each usual key and button has one action', () => {
  for (const values of [Object.values(usualKeys()), Object.values(usualPad()).filter((one) => one !== null)]) {
    assert.equal(new Set(values).size, values.length);
  }
  assert.equal(new Set(ACTIONS).size, ROWS.length);
  assert.ok(!Object.values(usualKeys()).includes('Tab'));
});

test('a key is given to another action, and taken from the one before', () => {
  const keys = withKey(usualKeys(), 'A', 'KeyZ');
  assert.equal(actionOf(keys, 'KeyZ'), 'A');
  assert.equal(keys.B, '');
  assert.equal(actionOf(keys, 'KeyX'), null);
  assert.equal(withKey(usualKeys(), 'A', 'Tab'), null);
  assert.equal(withKey(usualKeys(), 'A', 'Escape'), null);
  assert.equal(withKey(usualKeys(), 'Menu', 'KeyM'), null);
  assert.equal(withKey(usualKeys(), 'nothing', 'KeyM'), null);
  assert.deepEqual(withKey(usualKeys(), 'A', 'KeyX'), usualKeys());
});

test('the second Enter is as the first, until it is given away', () => {
  assert.equal(actionOf(usualKeys(), 'NumpadEnter'), 'Start');
  assert.equal(actionOf(withKey(usualKeys(), 'Select', 'NumpadEnter'), 'NumpadEnter'), 'Select');
  assert.equal(actionOf(withKey(usualKeys(), 'Start', 'Space'), 'NumpadEnter'), null);
});

test('what is stored is read again, and what is no such text is passed over', () => {
  const keys = withKey(usualKeys(), 'Fast', 'Space');
  assert.deepEqual(stored(JSON.stringify(keys), usualKeys(), isKey), keys);
  for (const text of [null, '', 'nonsense', 'null', '[]', '5', '{"A": 5}']) {
    assert.deepEqual(stored(text, usualKeys(), isKey), usualKeys(), String(text));
  }
  // a stored key that is the usual one of another action has one action
  const some = stored('{"A": "KeyZ"}', usualKeys(), isKey);
  assert.equal(actionOf(some, 'KeyZ'), 'A');
  assert.equal(some.B, '');
});

test('a gamepad', () => {
  const pressed = (...buttons) => Array.from({ length: 17 }, (_, button) => buttons.includes(button));
  assert.deepEqual(actionsOf(usualPad(), pressed(1, 9), [0, 0]), ['A', 'Start']);
  assert.deepEqual(actionsOf(usualPad(), pressed(), [1, -1]), ['Right', 'Up']);
  const pad = withButton(usualPad(), 'Save state', 1);
  assert.deepEqual(actionsOf(pad, pressed(1), []), ['Save state']);
  assert.equal(pad.A, null);
  assert.equal(nameOfButton(null), 'none');
  assert.equal(nameOfButton(20), 'button 21');
});

test('a key is called by what is printed on it', () => {
  assert.equal(nameOfKey('KeyZ', null), 'Z');
  assert.equal(nameOfKey('KeyZ', new Map([['KeyZ', 'y']])), 'Y');
  assert.equal(nameOfKey('Digit1', null), '1');
  assert.equal(nameOfKey('ArrowUp', new Map()), '↑');
  assert.equal(nameOfKey('', null), 'none');
  assert.equal(nameOfKey('NumpadAdd', null), 'Keypad Add');
});

test('names of buttons are a byte', () => {
  assert.equal(byteOf(['A', 'Up']), 0x14);
  assert.equal(bitOf('Fast'), 0);
  assert.throws(() => byteOf(['Q']), /no button/);
});

test('what is held, and what was pressed for a moment', () => {
  const held = new Held();
  held.hold('key KeyX', ['A']);
  held.hold('finger', ['Up', 'Left']);
  held.release('key KeyX');
  assert.equal(held.look().held, byteOf(['A', 'Up', 'Left']));
  assert.equal(held.look().held, byteOf(['Up', 'Left']));
  held.hold('finger', ['Up']);
  assert.equal(held.look().held, byteOf(['Up']));
  held.hold('key KeyR', ['Rewind']);
  held.release('key KeyR');
  assert.ok(held.isBack());
  assert.ok(held.look().isBack);
  assert.ok(!held.look().isBack);
  held.hold('key KeyF', ['Fast']);
  assert.ok(held.look().isFast);
  held.clear();
  assert.deepEqual(held.look(), { held: 0, isFast: false, isBack: false });
});
