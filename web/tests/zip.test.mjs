// Zips as they are made, and as they are wrong.
import assert from 'node:assert/strict';
import { test } from 'node:test';
import { deflateRawSync, inflateRawSync } from 'node:zlib';
import { crc32 } from '../page/digest.js';
import { TooLong } from '../page/pack.js';
import { MOST_ROM, cartridgeIn, entriesOf, isZip } from '../page/zip.js';

const UTF8 = 1 << 11;

/** As a browser unpacks: older nodes have no raw deflate among their streams. */
async function unpack(bytes, most) {
  try {
    return new Uint8Array(inflateRawSync(bytes, { maxOutputLength: most }));
  } catch (error) {
    throw error.code === 'ERR_BUFFER_TOO_LARGE' ? new TooLong() : error;
  }
}

/** A zip of files: {name, bytes, method, flags}, with what is to be wrong of it. */
function zipOf(files, { comment = '', sums = {}, lengths = {} } = {}) {
  const parts = [];
  const list = [];
  let at = 0;
  for (const { name, bytes, method = 8, flags = UTF8 } of files) {
    const path = typeof name === 'string' ? new TextEncoder().encode(name) : name;
    const packed = method === 8 ? deflateRawSync(bytes) : bytes;
    const fields = Buffer.alloc(26);
    fields.writeUInt16LE(20, 0);
    fields.writeUInt16LE(flags, 2);
    fields.writeUInt16LE(method, 4);
    fields.writeUInt32LE(sums[name] ?? crc32(bytes), 10);
    fields.writeUInt32LE(packed.length, 14);
    fields.writeUInt32LE(lengths[name] ?? bytes.length, 18);
    fields.writeUInt16LE(path.length, 22);
    parts.push(Buffer.from('PK\x03\x04'), fields, path, packed);
    const more = Buffer.alloc(14);
    more.writeUInt32LE(at, 10);
    list.push(Buffer.from('PK\x01\x02\x14\x00', 'latin1'), fields, more, path);
    at += 30 + path.length + packed.length;
  }
  const length = list.reduce((sum, one) => sum + one.length, 0);
  const end = Buffer.alloc(18);
  end.writeUInt16LE(files.length, 4);
  end.writeUInt16LE(files.length, 6);
  end.writeUInt32LE(length, 8);
  end.writeUInt32LE(at, 12);
  end.writeUInt16LE(comment.length, 16);
  return new Uint8Array(Buffer.concat([...parts, ...list, Buffer.from('PK\x05\x06'), end, Buffer.from(comment)]));
}

const rom = Uint8Array.from({ length: 32768 }, (_, k) => (k * k) >> 3);
const text = { name: 'read me.txt', bytes: new TextEncoder().encode('a game') };

/** @param {string} kind */
async function refused(bytes, kind) {
  await assert.rejects(cartridgeIn(bytes, unpack), (error) => error.kind === kind || assert.fail(`${error.kind ?? error} and not ${kind}`));
}

test('the one cartridge of a zip, stored or deflated', async () => {
  for (const method of [0, 8]) {
    for (const name of ['game.gb', 'GAME.GBC', 'a folder/of mine/game.gb', 'ポケット.gb', 'x\\y.gb']) {
      const bytes = zipOf([text, { name, bytes: rom, method }, { name: '__MACOSX/._game.gb', bytes: text.bytes }], { comment: 'PK\x05\x06 is no end' });
      assert.ok(isZip(bytes));
      const found = await cartridgeIn(bytes, unpack);
      assert.equal(found.name, name.split(/[/\\]/).at(-1));
      assert.deepEqual(found.bytes, rom);
    }
  }
});

test('a name of an old table of letters', async () => {
  const name = Uint8Array.from([...'caf\x82.gb'].map((letter) => letter.charCodeAt(0)));
  assert.equal((await cartridgeIn(zipOf([{ name, bytes: rom, flags: 0 }]), unpack)).name, 'caf_.gb');
});

test('what is no zip with one cartridge is told', async () => {
  await refused(zipOf([]), 'zip_none');
  await refused(zipOf([text]), 'zip_none');
  await refused(zipOf([{ name: 'a.gb', bytes: rom }, { name: 'b.gbc', bytes: rom }]), 'zip_several');
  await refused(zipOf([{ name: 'a.gb', bytes: rom, flags: UTF8 | 1 }]), 'zip_locked');
  await refused(zipOf([{ name: 'a.gb', bytes: rom, method: 14 }]), 'zip_kind');
  await refused(zipOf([{ name: 'a.gb', bytes: rom }], { sums: { 'a.gb': 1 } }), 'zip_damaged');
  await refused(zipOf([{ name: 'a.gb', bytes: rom }], { lengths: { 'a.gb': 5 } }), 'zip_damaged');
  const other = zipOf([{ name: 'a.gb', bytes: rom }]);
  const end = other.length - 22;
  new DataView(other.buffer).setUint32(end + 16, 0xffffffff, true);
  await refused(other, 'zip_kind');
});

test('no more than 8 MiB and a byte are unpacked', async () => {
  const long = new Uint8Array(MOST_ROM + 1);
  let most = 0;
  const noting = (bytes, limit) => {
    most = Math.max(most, limit);
    return unpack(bytes, limit);
  };
  await assert.rejects(cartridgeIn(zipOf([{ name: 'a.gb', bytes: long }]), noting), { kind: 'zip_long' });
  assert.equal(most, 0);
  await assert.rejects(cartridgeIn(zipOf([{ name: 'a.gb', bytes: long }], { lengths: { 'a.gb': 100 } }), noting), { kind: 'zip_long' });
  assert.equal(most, MOST_ROM);
  await assert.rejects(cartridgeIn(zipOf([{ name: 'a.gb', bytes: long, method: 0 }], { lengths: { 'a.gb': 100 } }), noting), (error) => error.kind.startsWith('zip_'));
  const whole = await cartridgeIn(zipOf([{ name: 'a.gb', bytes: long.subarray(1) }]), unpack);
  assert.equal(whole.bytes.length, MOST_ROM);
});

test('whatever is cut or changed of a zip, it is a cartridge with its sum or a refusal', async () => {
  const bytes = zipOf([text, { name: 'game.gb', bytes: rom.subarray(0, 700) }]);
  for (let length = 0; length < bytes.length; length += 1) {
    await assert.rejects(cartridgeIn(bytes.slice(0, length), unpack), (error) => error.kind?.startsWith('zip_'));
  }
  for (let at = 0; at < bytes.length; at += 1) {
    for (const change of [1, 0xff]) {
      const other = bytes.slice();
      other[at] ^= change;
      try {
        assert.deepEqual((await cartridgeIn(other, unpack)).bytes, rom.subarray(0, 700));
      } catch (error) {
        assert.ok(error.kind?.startsWith('zip_'), `${at}: ${error}`);
      }
    }
  }
});

test('nonsense behind the first bytes of a zip', () => {
  for (let length = 4; length < 300; length += 7) {
    const bytes = Uint8Array.from({ length }, (_, k) => (k < 4 ? [0x50, 0x4b, 3, 4][k] : (k * 31) & 0xff));
    assert.throws(() => entriesOf(bytes), { kind: 'zip_damaged' });
  }
});
