// What a game that is open leaves for the list, and what it says of a disk without room.
import assert from 'node:assert/strict';
import { test } from 'node:test';
import { refusalOf } from '../page/disk.js';
import { Disk } from './opfs.mjs';
import { library, opened, skip } from './play.mjs';

const made = skip ? null : await library();

/** The picture that the list has. */
function pictureOn(disk) {
  const path = [...disk.files.keys()].find((one) => one.endsWith('/picture'));
  return disk.files.get(path).bytes;
}

test('behind a reset the list has the last picture before it, also where no frame follows', { skip }, async () => {
  const disk = new Disk();
  const game = await opened(made, disk);
  game.frames(0, 30);
  game.keep();
  // the last one that was kept is less than five seconds old
  game.frames(1, 90);
  const before = game.picture();
  assert.notDeepEqual(pictureOn(disk), before);
  game.power();
  assert.equal(new Set(game.picture()).size, 1);
  game.close();
  assert.deepEqual(pictureOn(disk), before);
  // taken up again, and left at once
  const again = await opened(made, disk);
  again.close();
  assert.deepEqual(pictureOn(disk), before);
  const third = await opened(made, disk);
  third.frames(0, 60);
  const later = third.picture();
  third.close();
  assert.notDeepEqual(later, before);
  assert.deepEqual(pictureOn(disk), later);
});

test('a full disk is told as that, whatever the browser calls it, and the timeline gives its room', { skip }, async () => {
  assert.equal(refusalOf(new DOMException('it fails', 'InvalidStateError')).kind, 'disk');
  const disk = new Disk();
  const game = await opened(made, disk);
  game.frames(1, 60);
  game.keep();
  await game.timeline.writing;
  assert.ok(game.timeline.bytes > 0);
  // Chromium makes no file while its disk is full
  const { getFileHandle } = game.folder;
  let hasRoom = () => game.timeline.bytes === 0;
  game.folder.getFileHandle = async (name, how) => {
    if (how?.create && !hasRoom()) {
      throw new DOMException('it is full', 'InvalidStateError');
    }
    return getFileHandle.call(game.folder, name, how);
  };
  const played = (frames) => {
    game.frames(1, frames);
    game.keep();
    return game.count;
  };
  const first = played(1);
  await game.keepSlot(1);
  assert.equal(game.timeline.bytes, 0);
  hasRoom = () => false;
  assert.equal(played(2), game.saved);
  await assert.rejects(game.keepSlot(2), { kind: 'disk' });
  hasRoom = () => true;
  const third = played(3);
  await game.keepSlot(3);
  assert.deepEqual((await game.states()).slice(0, 3).map(({ count }) => count), [first, 0n, third]);
  game.close();
});
