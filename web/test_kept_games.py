#!/usr/bin/python3
"""What the page keeps of a game, and what it takes up: the index, slots, images, the timeline, the cartridge, counts, and files that are wrong. In Debian's
Chromium, by what the page asks its worker.

usage: test_kept_games.py GBKEEP [NAME ..]     NAME: of a test, as cut_cartridge; all are run where none is given"""
import contextlib
import hashlib
import json
import os
import random
import re
import shutil
import sys
import time
import zipfile
from pathlib import Path

from web.asked import Asking, Refused, given
from web.test_web import HERE, SECTOR, SEED, Browser, Quiet, Server, any_inputs, main

FOLDER = '''
const folder = await (await (await navigator.storage.getDirectory()).getDirectoryHandle('games')).getDirectoryHandle(given[0], { create: true });
const bytesOf = async (name) => [...new Uint8Array(await (await (await folder.getFileHandle(name)).getFile()).arrayBuffer())];
const replace = async (name, bytes) => {
  const file = await (await folder.getFileHandle(name, { create: true })).createWritable();
  await file.write(new Uint8Array(bytes));
  await file.close();
};
'''
# each image of a game: how many inputs it has, and its state; null where it can't be played
IMAGES = FOLDER + '''
const { Library, Session } = await import('./library.js');
const { sha256 } = await import('./digest.js');
const library = await Library.load('gbkeep.wasm.gz');
const rom = new Uint8Array(await bytesOf('cart.gb'));
const found = {};
for await (const name of folder.keys()) {
  if (name.endsWith('.gbkeep')) {
    try {
      const session = Session.resume(library, rom, new Uint8Array(await bytesOf(name)));
      found[name] = [Number(session.count()), await sha256(session.snapshot())];
      session.free();
    } catch {
      found[name] = null;
    }
  }
}
return found;
'''
# fails the calls of the index that the test names, from then on until it names others
FAILING = '''
{
  let failing = [];
  new BroadcastChannel('failing').onmessage = ({ data }) => { failing = data; };
  const indexes = new WeakSet();
  const { createSyncAccessHandle } = FileSystemFileHandle.prototype;
  FileSystemFileHandle.prototype.createSyncAccessHandle = async function () {
    const handle = await createSyncAccessHandle.call(this);
    if (this.name === 'index') { indexes.add(handle); }
    return handle;
  };
  for (const name of ['write', 'flush']) {
    const made = FileSystemSyncAccessHandle.prototype[name];
    FileSystemSyncAccessHandle.prototype[name] = function (...words) {
      if (indexes.has(this) && failing.includes(name)) { throw new DOMException('it fails', 'InvalidStateError'); }
      return made.apply(this, words);
    };
  }
}
'''




def old_index(play, slot):
    """An index as the page of other versions leaves it."""
    return json.dumps({'play': play, 'slot': slot}, separators=(',', ':')).ljust(SECTOR).encode()


def said_in(index):
    """What the sectors of an index say, the newest first."""
    found = [re.match(rb'gbkeep index (\d+)\n(.*)\n[0-9a-f]{64} *$', index[at:at + SECTOR]) for at in (0, SECTOR)]
    return [json.loads(one[2]) for one in sorted(filter(None, found), key=lambda one: -int(one[1]))]


class KeptGames(Asking):
    @classmethod
    def setUpClass(cls):
        super().setUpClass()
        cls.failing = cls.changed_site('failing', FAILING)
        cls.failing_server = Server(cls.failing)
        cls.addClassCleanup(cls.failing_server.close)

    def other_cart(self, of, name, behind=b''):
        """A cartridge that no other test has: another one, but for the sum in its header, and what stands behind it."""
        content = bytearray(self.carts[of].read_bytes() + behind)
        content[0x14e:0x150] = hashlib.sha256(name.encode()).digest()[:2]
        path = self.room / f'{name}.gb'
        path.write_bytes(content)
        for site in (self.site, self.failing):
            shutil.copy(path, site)
        self.ident = hashlib.sha256(content).hexdigest()
        return path

    def there(self, name):
        """The bytes of a file of the game."""
        return bytes(self.page.wait_for(FOLDER + 'return bytesOf(given[1])', self.ident, name))

    def put_there(self, name, content):
        self.page.wait_for(FOLDER + 'await replace(given[1], given[2])', self.ident, name, list(content))

    def names(self):
        return sorted(self.page.wait_for(FOLDER + 'const names = []; for await (const name of folder.keys()) { names.push(name); } return names;', self.ident))

    def images(self):
        """Each image of the game, with its count of inputs and its state."""
        return self.page.wait_for(IMAGES, self.ident)

    def counts(self):
        return sorted(one[0] for one in self.images().values() if one)

    def begun(self, name, of='demo', server=None, behind=b'', **how):
        """A new game of a cartridge that no other test has."""
        self.cart_name = f'{name}.gb'
        self.other_cart(of, name, behind)
        return self.on(server, **how)

    def on(self, server=None, **how):
        """The game opened anew."""
        return self.again(self.cart_name, server, **how)

    def closed(self):
        """The page without a game."""
        self.page.ask('close')
        return self.page

    def fails(self, *calls):
        self.page.js("new BroadcastChannel('failing').postMessage(arguments[0])", list(calls))
        time.sleep(0.3)

    def slot_and_more(self, name, server=None):
        """A game with 100 inputs in its first slot, and 3,700 in all."""
        page = self.begun(name, server=server)
        page.press(0, 100)
        page.ask('keepState', slot=1)
        page.press(1, 3_600)
        self.assertEqual(page.save(), 3_700)
        return page

    def refuses(self, kind, what, **data):
        with self.assertRaises(Refused) as caught:
            self.page.ask(what, **data)
        self.assertEqual(caught.exception.kind, kind, caught.exception)
        return str(caught.exception)

    def test_states(self):
        """Ten slots, each with its picture and its time, and undo of each keep and of the last load, also in another life of the page."""
        page = self.begun('states')
        known = {}
        for slot in range(1, 11):
            page.press(1 << (slot % 8), 20)
            got = page.ask('keepState', slot=slot)
            known[slot] = (got['count'], page.state(), page.ask('picture'))
            self.assertEqual(got['saved'], got['count'])
        rows = got['states']
        self.assertEqual([(row['slot'], row['count'], row['picture'], row['canUndo']) for row in rows], [(slot, known[slot][0], known[slot][2], True) for slot in range(1, 11)])
        self.assertLess(abs(max(row['saved'] for row in rows) / 1000 - time.time()), 60)
        page.press(4, 30)
        last = page.count(), page.state()
        got = page.ask('loadState', slot=3)
        self.assertEqual((got['count'], page.state(), got['canUndoLoad']), (*known[3][:2], True))
        page.press(2, 5)
        # pressed twice, the game before is still the one to go back to
        page.ask('loadState', slot=3)
        page = self.on()
        self.assertTrue(self.opened['canUndoLoad'])
        self.assertEqual((page.count(), page.state()), known[3][:2])
        page.ask('undoLoad')
        self.assertEqual((page.count(), page.state()), last)
        page.ask('undoLoad')
        self.assertEqual((page.count(), page.state()), known[3][:2])
        page.press(8, 3)
        page.ask('keepState', slot=5)
        page.ask('deleteState', slot=6)
        page = self.on()
        rows = page.ask('states')['states']
        self.assertEqual((rows[4]['count'], rows[5]['saved'], rows[5]['picture'], rows[5]['canUndo']), (page.count(), 0, None, True))
        rows = page.ask('undoKeep', slot=5)['states']
        self.assertEqual((rows[4]['count'], rows[4]['picture'], rows[4]['canUndo']), (known[5][0], known[5][2], False))
        rows = page.ask('undoKeep', slot=6)['states']
        self.assertEqual(rows[5]['picture'], known[6][2])
        self.refuses('undo', 'undoKeep', slot=5)
        self.refuses('empty', 'loadState', slot=8) if page.ask('deleteState', slot=8) else None
        # what is kept twice alike leaves what can be undone
        self.assertEqual(page.ask('keepState', slot=1)['states'], page.ask('keepState', slot=1)['states'])
        self.assertEqual(page.ask('undoKeep', slot=1)['states'][0]['count'], known[1][0])
        self.closed()
        self.assertNotIn(None, self.images().values())

    def test_states_are_bounded(self):
        """However often a slot is kept and loaded, the game takes no more room; one that was played for long is never deleted."""
        page = self.begun('bounded')
        page.press(0, 2_000)
        page.save()
        long_ = [page.count(), page.state()]
        for number in range(14):
            page.press(1 << (number % 8), 3)
            page.ask('keepState', slot=1)
            page.press(2, 4)
            page.ask('keepState', slot=2)
            page.ask('loadState', slot=1)
            page.press(1, 310)
            page.ask('loadState', slot=1)
        self.closed()
        images = self.images()
        self.assertLess(len(images), 20, images)
        self.assertTrue(any(one[0] >= long_[0] for one in images.values()))
        self.assertEqual([name for name in self.names() if name.split('.')[-1] in ('about', 'time') and f"{name.split('.')[0]}.gbkeep" not in images and name[0].isdigit()], [])
        first = min((one for one in images.values() if one[0] >= 2_000), default=None)
        self.assertIsNotNone(first)

    def test_index_is_not_flushed(self):
        """Where the index can't be flushed, the game ends in words, and goes on with all inputs that were shown as saved."""
        for number, (what, data) in enumerate((('loadState', {'slot': 1}), ('keepState', {'slot': 2}), ('undoKeep', {'slot': 1}), ('deleteState', {'slot': 1}))):
            with self.subTest(what=what):
                page = self.slot_and_more(f'unflushed-{number}', self.failing_server)
                self.fails('flush')
                self.refuses('index', what, **data)
                self.assertEqual(page.shown()['stopped']['kind'], 'index')
                page = self.on(self.failing_server)
                self.assertEqual((page.count(), page.saved()), (3_700, 3_700))
                self.assertEqual(page.ask('loadState', slot=1)['count'], 100)

    def test_index_is_not_written(self):
        """Where nothing of the index can be written, not even what stood there, the game ends, and no game is lost."""
        for calls in (['write'], ['write', 'flush']):
            for what, data in (('loadState', {'slot': 1}), ('keepState', {'slot': 1}), ('deleteState', {'slot': 1})):
                with self.subTest(calls=calls, what=what):
                    page = self.slot_and_more(f'unwritten-{len(calls)}{what}', self.failing_server)
                    self.fails(*calls)
                    self.refuses('index', what, **data)
                    self.assertEqual(page.shown()['stopped']['kind'], 'index')
                    page = self.on(self.failing_server)
                    self.assertEqual(page.count(), 3_700)
                    self.assertEqual(page.ask('loadState', slot=1)['count'], 100)

    def test_old_index(self):
        """The index of other versions is read, also where something stands behind it, and goes over to two sectors."""
        for behind in (b'', b' ' * 700, b'\0' * 512, random.Random(1).randbytes(5_000)):
            with self.subTest(behind=len(behind)):
                self.slot_and_more(f'old-index-{len(behind)}-{sum(behind[:1])}')
                self.closed()
                self.put_there('index', old_index(1, 2) + behind)
                page = self.on()
                self.assertEqual(page.count(), 3_700)
                self.assertEqual([row['count'] for row in page.ask('states')['states']], [100, *[0] * 9])
                self.assertEqual(page.ask('loadState', slot=1)['count'], 100)
                page.press(1, 400)
                self.assertEqual(page.ask('loadState', slot=1)['count'], 100)
                self.closed()
                index = self.there('index')
                self.assertEqual(len(index), 2 * SECTOR)
                said = said_in(index)
                self.assertEqual([(one['play'], one['slot'], one['version']) for one in said], [(4, 2, 2), (3, 2, 2)])
                self.assertEqual(self.on().count(), 100)

    def test_kept_folders(self):
        """The folders of a game with a clock, as pages of other versions left them, are taken as they are: the slot is the first one, and each game is there."""
        for name in ('kept_folder.zip', 'kept_folder_2.zip'):
            with self.subTest(name=name):
                with zipfile.ZipFile(HERE / name) as kept:
                    files = {one.split('/')[1]: kept.read(one) for one in kept.namelist()}
                    self.ident = kept.namelist()[0].split('/')[0]
                page = self.asks()
                if page.row(self.ident):
                    page.ask('deleteGame', id=self.ident)
                for one, content in files.items():
                    self.put_there(one, content)
                before = self.images()
                self.assertNotIn(None, before.values())
                play, slot = (said_in(files['index']) or [json.loads(files['index'])])[0].values()
                row = page.row(self.ident)
                self.assertEqual((row['name'], row['play'], row['slot'], len(row['images'])), ('clock.gb', play, slot, len(before)))
                page.ask('open', id=self.ident, paused=True, test=True)
                self.assertEqual([page.count(), page.state()], before[f'{play}.gbkeep'])
                rows = page.ask('states')['states']
                self.assertEqual([one['count'] for one in rows], [before[f'{slot}.gbkeep'][0], *[0] * 9])
                self.assertIsNotNone(rows[0]['picture'])
                page.ask('loadState', slot=1)
                self.assertEqual([page.count(), page.state()], before[f'{slot}.gbkeep'])
                page.ask('undoLoad')
                self.assertEqual([page.count(), page.state()], before[f'{play}.gbkeep'])
                self.closed()
                after = list(self.images().values())
                for one in before.values():
                    self.assertIn(one, after)
                # with its clock, which may have been away for long
                page.ask('open', id=self.ident)
                page.js('window.ticking = {}')
                page.until(lambda: page.saved() > before[f'{play}.gbkeep'][0] + 60, 'nothing was ever saved')
                page.js('window.ticking = 0')
                self.closed()

    def test_torn_index(self):
        """A sector of the index that is torn counts for nothing; the other one does, and the player is told."""
        page = self.slot_and_more('torn')
        page.ask('loadState', slot=1)
        page.press(2, 7)
        page.save()
        self.closed()
        whole = self.there('index')
        numbers = [int(re.match(rb'gbkeep index (\d+)', whole[at:])[1]) for at in (0, SECTOR)]
        newest = SECTOR * numbers.index(max(numbers))
        for at, count in ((SECTOR - newest, 107), (newest, 3_700)):
            for torn in (whole[at:at + 20].ljust(SECTOR, b'\0'), whole[at:at + 40] + b'x' + whole[at + 41:at + SECTOR], b'\xff' * SECTOR):
                self.put_there('index', whole[:at] + torn + whole[at + SECTOR:])
                page = self.on()
                self.assertEqual(page.count(), count)
                self.assertIn('was damaged', self.opened['notice'])
                self.assertEqual(page.ask('states')['states'][0]['count'], 100)
                # it is whole again
                self.closed()
                page = self.on()
                self.assertEqual((page.count(), self.opened['notice']), (count, None))
                self.closed()
        for nothing in (b'', bytes(2 * SECTOR), b'\xff' * 2 * SECTOR, b'{"play":0}'.ljust(SECTOR)):
            self.put_there('index', nothing)
            self.assertIn(self.on().count(), (107, 3_700))
            self.closed()

    def damage(self, name):
        """Damages each root and each snapshot of an image, but for the words by which it is known."""
        content = bytearray(self.there(name))
        area = (len(content) // SECTOR - 2) // 2
        for place in [SECTOR * (2 + area * number + 32) for number in range(2)]:
            content[place:place + 64] = bytes(byte ^ 0xff for byte in content[place:place + 64])
        for place in (0, SECTOR):
            content[place + 20:place + 52] = bytes(32)
        self.put_there(name, content)
        return bytes(content)

    def test_damaged_newest(self):
        """Where the newest image is damaged, also with an index that says nothing, older ones are offered, and one of them is played."""
        for behind in (b'', b'x' * 600):
            with self.subTest(behind=len(behind)):
                page = self.slot_and_more(f'newest-{len(behind)}')
                page.ask('loadState', slot=1)
                page.press(2, 7)
                page.save()
                self.closed()
                damaged = self.damage('3.gbkeep')
                if behind:
                    self.put_there('index', old_index(3, 2) + behind)
                with self.assertRaises(Refused) as caught:
                    self.on()
                self.assertEqual(caught.exception.kind, 'older')
                [older] = [image['number'] for image in self.page.row(self.ident)['images'] if image['number'] == 1]
                self.page.ask('playImage', id=self.ident, number=older)
                self.assertEqual(self.on().count(), 3_700)
                self.assertEqual(self.there('3.gbkeep'), damaged)

    def test_only_the_slot_is_whole(self):
        """Where only the slot is whole, a copy of it is played."""
        self.slot_and_more('slot-alone')
        self.closed()
        self.damage('1.gbkeep')
        slot = self.there('2.gbkeep')
        with self.assertRaises(Refused) as caught:
            self.on()
        self.assertEqual(caught.exception.kind, 'older')
        self.page.ask('playImage', id=self.ident, number=2)
        page = self.on()
        self.assertEqual(page.count(), 100)
        page.press(0, 5)
        page.save()
        self.closed()
        self.assertEqual(self.there('2.gbkeep'), slot)

    def test_damaged_state(self):
        """A state that is damaged is refused, and the game that is played goes on; what stands beside it may be anything."""
        page = self.slot_and_more('damaged-state')
        page.ask('keepState', slot=2)
        self.closed()
        self.damage('2.gbkeep')
        for name, content in (('3.about', b''), ('3.about', b'\xff' * 6272), ('2.about', b'{}')):
            self.put_there(name, content)
            page = self.on()
            self.refuses('library', 'loadState', slot=1)
            self.assertEqual(page.press(1, 1), page.saved() + 1)
            rows = page.ask('states')['states']
            self.assertEqual((rows[0]['saved'] > 0, rows[1]['count'], rows[1]['picture'] is not None), (True, 3_700, True))
            page.save()
            self.closed()

    def test_large_counts(self):
        """A game with more inputs than a JavaScript number counts is played and saved one by one."""
        chance = random.Random(2)
        for base in (2 ** 53 - 3, 2 ** 53 + 1, 2 ** 63 + 12_345):
            with self.subTest(base=base):
                page = self.begun(f'large-{base}')
                page.press(0, 20)
                image = bytearray(page.image())
                for at in (0, SECTOR):
                    if image[at:at + 8] == b'GBKPROOT':
                        image[at + 52:at + 60] = base.to_bytes(8, 'little')
                self.closed()
                page.ask('takeIn', image=given(image))
                page = self.on()
                begun = int(page.count())
                self.assertGreaterEqual(begun, base)
                inputs = any_inputs(chance, 4, 9)
                for buttons, frames in inputs:
                    page.press(buttons, frames)
                page.save()
                total, state = begun + sum(frames for _, frames in inputs), page.state()
                self.assertEqual((int(page.count()), int(page.saved())), (total, total))
                page.ask('keepState', slot=4)
                page.press(1, 1)
                page.save()
                page = self.on()
                self.assertEqual(int(page.count()), total + 1)
                self.assertEqual(int(page.ask('states')['states'][3]['count']), total)
                page.ask('loadState', slot=4)
                self.assertEqual((int(page.count()), page.state()), (total, state))
                self.closed()

    def test_large_counts_of_the_clock(self):
        """What stands beside such a game says exactly how many inputs it has."""
        found = self.asks().wait_for("""
            const { Clock } = await import('./clock.js');
            const { Library, MODULE } = await import('./library.js');
            const library = await Library.load(MODULE);
            const count = 2n ** 53n + 1n;
            let text = `${count} 1000000`;
            const clock = new Clock(library, { read: () => text, write: (other) => { text = other; } }, count, () => 1000100.5, () => 7);
            const notice = await clock.begin(() => null);
            const passed = clock.claim(count);
            clock.given();
            return [notice, passed, text];""")
        self.assertEqual(found, [None, 100, f'{2 ** 53 + 2} 1000100\n{2 ** 53 + 1} 1000000'])

    def test_cut_cartridge(self):
        """A cartridge that is not what it was is asked for again, and begins no game."""
        page = self.begun('cut', behind=bytes(32768))
        page.press(0, 40)
        page.save()
        self.closed()
        cart = self.there('cart.gb')
        changed = bytearray(cart)
        changed[0x200] ^= 1
        # two of them are whole ROMs for the machine
        for wrong in (cart[:32768], bytes(changed), b'', cart + bytes(512)):
            with self.subTest(length=len(wrong)):
                self.put_there('cart.gb', wrong)
                before = {name: self.there(name) for name in self.names()}
                self.assertIn('the cartridge again', self.refuses('rom', 'open', id=self.ident))
                self.refuses('rom', 'open', id=self.ident, anew=True)
                self.refuses('rom', 'batteryOf', id=self.ident, number=1)
                self.assertEqual({name: self.there(name) for name in self.names()}, before)
                # another cartridge heals nothing
                self.page.begin('passes.gb')
                self.closed()
                self.assertEqual({name: self.there(name) for name in self.names()}, before)
                self.assertEqual(self.on().count(), 40)
                self.closed()
                self.assertEqual(self.there('cart.gb'), cart)

    def test_wrong_files_in_play(self):
        """What is looked at changes nothing, and a wrong file that is opened while a game is played is refused, and the game goes on."""
        page = self.begun('in-play')
        page.press(1, 30)
        image, cart = page.image(), (self.room / self.cart_name).read_bytes()
        colour = bytearray(cart)
        colour[0x143] = 0xc0
        unknown = image[:20] + bytes(32) + image[52:532] + bytes(32) + image[564:]
        zipped, ident = self.room / 'zipped.zip', self.ident
        inner = self.other_cart('passes', 'in-a-zip').read_bytes()
        inner_ident, self.ident = self.ident, ident
        with zipfile.ZipFile(zipped, 'w', zipfile.ZIP_DEFLATED) as packed:
            packed.writestr('read me.txt', 'a game')
            packed.writestr('a folder/Zelda é.gb', inner)
        looked = lambda *files: page.ask('look', files=[{'name': name, 'bytes': given(content)} for name, content in files])
        got = looked(('zipped.zip', zipped.read_bytes()), ('In-Play.SAV', bytes(8192)), ('x.gbkeep', image), ('what.png', b'no game'))
        self.assertEqual((got['cart']['name'], got['cart']['id'], got['cart']['isKnown']), ('Zelda é.gb', inner_ident, False))
        self.assertEqual(got['cart']['bytes'], inner.hex())
        self.assertEqual((got['battery']['of']['id'], got['battery']['of']['name']), (self.ident, self.cart_name))
        self.assertEqual((got['save']['id'], got['save']['bytes']), (self.ident, image.hex()))
        self.assertEqual([(one['name'], one['kind']) for one in got['refused']], [('what.png', 'strange')])
        got = looked(('colour.gbc', colour), ('unknown.gbkeep', unknown), ('alone.sav', bytes(9)), ('again.sav', bytes(9)), ('short.gb', b'no cartridge'))
        self.assertEqual((got['cart'], got['battery']['of'], got['save']['id']), (None, None, None))
        self.assertEqual([(one['name'], one['kind'], one['line']) for one in got['refused']],
                         [('colour.gbc', 'colour', 'this game is for the Game Boy Color alone'), ('again.sav', 'more', 'it was left out'), ('short.gb', 'library', 'rom length')])
        self.assertTrue(looked(('known.gb', cart))['cart']['isKnown'])
        count = 30
        for kind, data in (('library', {'rom': given(b'no cartridge'), 'name': 'short.gb'}), ('colour', {'rom': given(colour), 'name': 'colour.gbc'}),
                           ('library', {'rom': given(cart), 'name': 'battery.gb', 'battery': given(bytes(5))})):
            with self.subTest(kind=kind):
                self.refuses(kind, 'open', paused=True, test=True, **data)
                self.assertEqual((page.press(2, 3), page.save()), (count + 3, count + 3))
                count += 3
        for kind, content in (('cartridge', unknown), ('library', image[:2 * SECTOR])):
            with self.subTest(kind=kind):
                self.refuses(kind, 'takeIn', image=given(content))
                self.assertEqual((page.press(2, 3), page.save()), (count + 3, count + 3))
                count += 3
        # a right one takes its place
        page.begin('passes.gb')
        self.assertEqual(page.count(), 0)
        self.closed()
        self.assertEqual(self.on().count(), count)

    def test_save_in_play(self):
        """A SAVE of the game that is played takes its place, and the game before is kept, and can be gone back to."""
        page = self.begun('save-in-play')
        page.press(1, 30)
        image = page.image()
        page.press(1, 12)
        page.save()
        page.ask('takeIn', image=given(image))
        page = self.on()
        self.assertEqual(page.count(), 30)
        page.press(1, 1)
        self.assertEqual(page.save(), 31)
        page.ask('undoLoad')
        self.assertEqual(page.count(), 42)
        self.closed()
        self.assertEqual(self.counts(), [31, 42])

    def test_new_game(self):
        """A new game can be undone, as a load can."""
        page = self.slot_and_more('anew')
        page = self.on(anew=True)
        self.assertEqual((page.count(), self.opened['welcome'], self.opened['canUndoLoad']), (0, None, True))
        self.assertEqual(page.ask('states')['states'][0]['count'], 100)
        self.assertEqual(page.ask('undoLoad')['count'], 3_700)
        self.closed()
        row = page.row(self.ident)
        self.assertEqual([(image['slot'], image['isUndo'], image['count']) for image in sorted(row['images'], key=lambda one: one['number'])],
                         [(0, False, None), (1, False, 100), (0, True, 0)])
        self.assertGreater(row['seconds'], 60)
        self.assertLess(abs(row['played'] / 1000 - time.time()), 60)
        # what an undo would bring back is deleted in the list, and is brought back no more
        page.ask('deleteImage', id=self.ident, number=3)
        self.refuses('played', 'deleteImage', id=self.ident, number=2)
        page = self.on()
        self.assertFalse(self.opened['canUndoLoad'])
        self.closed()

    def test_welcome(self):
        """A game that is killed says how many seconds before it goes on; one that was closed says nothing; one that is loaded anew has lost nothing."""
        kind = type(self)
        self.other_cart('demo', 'welcome')
        self.cart_name = 'welcome.gb'
        lost, count = [], 0
        for number in range(6):
            page = self.on(paused=False, test=False)
            if number:
                self.assertIsNotNone(self.opened['welcome'])
                lost.append(self.opened['welcome'])
                self.assertLess(abs(count - page.count() - lost[-1] * 59.7275), 20, (count, page.count(), lost))
            page.js('window.ticking = {}')
            page.until(lambda: page.saved() > 60, 'nothing was ever saved')
            time.sleep(0.4 + 0.3 * number)
            count = page.count()
            kind.browser.kill()
            kind.browser = Browser(kind.room / 'profile')
        self.assertTrue(all(0 <= one < 3 for one in lost), lost)
        print(f'{len(lost)} kills, the game went on from {", ".join(f"{one:.2f}" for one in lost)} s before', file=sys.stderr)
        page = self.on(paused=False, test=False)
        page.js('window.ticking = {}')
        page.until(lambda: page.saved() > 60, 'nothing was ever saved')
        self.closed()
        page = self.on(paused=False, test=False)
        self.assertIsNone(self.opened['welcome'])
        for number in range(5):
            page.js('window.ticking = {}')
            begun = page.count()
            page.until(lambda: page.count() > begun + 40, 'it is not played')
            count = page.count()
            page = self.on(paused=False, test=False)
            print(f'loaded anew at {count}: goes on at {page.count()}, {self.opened["welcome"]}', file=sys.stderr)
        self.closed()

    def test_timeline(self):
        """Moments of play are kept while it is played, and gone to, also in another life of the page; and nonsense in their place changes nothing."""
        page = self.begun('timeline')
        for number in range(8):
            page.press(1 << (number % 4), 650)
            time.sleep(2.1)
            page.press(0, 1)
        page.save()
        got = page.ask('timeline')
        self.assertGreaterEqual(len(got['moments']), 6)
        self.assertEqual(got['most'], 6 << 20)
        self.assertLess(got['bytes'], 100_000)
        self.assertEqual(sorted((one['seconds'] for one in got['moments']), reverse=True), [one['seconds'] for one in got['moments']])
        page = self.on()
        again = page.ask('timeline')['moments']
        self.assertEqual([(one['number'], one['picture']) for one in again[:len(got['moments'])]], [(one['number'], one['picture']) for one in got['moments']])
        count, state, goal = page.count(), page.state(), again[3]
        went = page.ask('goToMoment', number=goal['number'])
        self.assertEqual((went['count'], page.ask('picture')), (count + 1, goal['picture']))
        self.assertLess(abs(went['rewound'] / 59.7275 - goal['seconds']), 0.1)
        page.save()
        page = self.on()
        self.assertEqual(page.count(), count + 1)
        [turn] = [one for one in page.ask('timeline')['moments'] if one['seconds'] == 0][:1]
        page.ask('goToMoment', number=turn['number'])
        self.assertEqual(page.state(), state)
        self.refuses('moment', 'goToMoment', number=10_000)
        self.closed()
        whole, chance, count = self.there('timeline'), random.Random(SEED), page.count()
        for content in (b'', chance.randbytes(70_000), bytes(8 << 20), whole[:3_000], bytes(byte ^ (number % 700 == 699) for number, byte in enumerate(whole))):
            self.put_there('timeline', content)
            page = self.on()
            self.assertEqual((page.count(), self.opened['notice']), (count, None))
            page.ask('timeline')
            page.press(1, 2)
            count = page.save()
            self.closed()

    def test_timeline_in_play(self):
        """Moments are written while a game is played at its speed, and no frame waits for them noticeably."""
        page = self.begun('timed-timeline', paused=False, test=False)
        page.js("""window.times = []; window.ticking = {}; let last = performance.now();
            const look = () => { const now = performance.now(); times.push(now - last); last = now; requestAnimationFrame(look); }; look();""")
        time.sleep(25)
        page.js('window.ticking = 0')
        moments = page.ask('timeline')
        self.assertGreaterEqual(len(moments['moments']), 2)
        times = page.js('return times')
        print(f"{len(moments['moments'])} moments in 25 s of play take {moments['bytes']} bytes; {len(times)} moments of the page, the longest {max(times[30:]):.0f} ms", file=sys.stderr)
        self.closed()

    def test_speeds(self):
        """A game runs at its speed, twice and four times as fast, and as fast as it goes."""
        page = self.begun('speeds', paused=False, test=False)
        rates = {}
        for speed in (1, 2, 4, 0):
            page.js('window.ticking = { speed: arguments[0] }', speed)
            time.sleep(0.5)
            begun, since = page.count(), time.monotonic()
            time.sleep(3)
            rates[speed] = (page.count() - begun) / (time.monotonic() - since)
        page.js('window.ticking = 0')
        print(f'frames a second: {rates}', file=sys.stderr)
        for speed in (1, 2, 4):
            self.assertLess(abs(rates[speed] / 59.7275 / speed - 1), 0.12, rates)
        self.assertGreater(rates[0], 4.5 * 59.7)
        self.closed()

    def said_of_keeping(self, page):
        return page.js('return loaded.answer')

    def test_private_window(self):
        """A private window says that nothing is kept; any other window says nothing of it."""
        self.assertEqual(self.said_of_keeping(self.asks()), {'keepsNothing': False, 'isKept': True})
        with other_browser(self.room / 'private', '--incognito') as other:
            self.assertEqual(self.said_of_keeping(self.asks(browser=other)), {'keepsNothing': True, 'isKept': True})

    def test_in_memory(self):
        """A browser that keeps no files plays in memory: all that a game has it has, until the page is closed."""
        refusing = "FileSystemFileHandle.prototype.createSyncAccessHandle = async () => { throw new DOMException('Backend does not support this operation', 'NotSupportedError'); };"
        for number, more in enumerate(('delete FileSystemFileHandle.prototype.createSyncAccessHandle;', refusing, "StorageManager.prototype.getDirectory = async () => { throw new DOMException('no', 'SecurityError'); };")):
            server = Server(self.changed_site(f'memory-{number}', more))
            try:
                page = self.asks(server)
                self.assertEqual(self.said_of_keeping(page), {'keepsNothing': False, 'isKept': False})
                page.begin('demo.gb')
                page.press(1, 30)
                page.ask('keepState', slot=1)
                page.press(2, 30)
                self.assertEqual((page.save(), b'GBKPROOT' in page.image()[:SECTOR + 8]), (60, True))
                self.assertEqual(page.ask('loadState', slot=1)['count'], 30)
                page.ask('close')
                self.assertEqual([(row['name'], len(row['images'])) for row in page.ask('list')], [('demo.gb', 3)])
                page.begin('demo.gb')
                self.assertEqual(page.ask('undoLoad')['count'], 60)
                page.ask('close')
                page.ask('deleteGame', id=page.ask('list')[0]['id'])
                self.assertEqual(page.ask('list'), [])
            finally:
                server.close()

    def test_small_quota_is_said(self):
        """Storage that is not persistent and has a small quota keeps nothing beyond the window."""
        for quota, is_persisted, is_said in ((300 << 20, False, True), (300 << 20, True, False), (6 << 30, False, False)):
            with self.subTest(quota=quota, is_persisted=is_persisted):
                server = Server(self.changed_site(f'quota-{quota}-{is_persisted}', f"""
                    StorageManager.prototype.estimate = async () => ({{ quota: {quota}, usage: 0 }});
                    StorageManager.prototype.persisted = async () => {json.dumps(is_persisted)};"""))
                try:
                    self.assertEqual(self.said_of_keeping(self.asks(server))['keepsNothing'], is_said)
                finally:
                    server.close()

    def test_full_disk(self):
        """Where there is no room, no state is kept, in words; the game goes on, and so do its states."""
        page = self.slot_and_more('full')
        quota = lambda size: self.browser.execute_cdp_cmd('Storage.overrideQuotaForOrigin', {'origin': f'http://localhost:{self.server.port}', **({'quotaSize': size} if size else {})})
        try:
            for room in (20_000, 60_000, 100_000):
                quota(page.wait_for('return (await navigator.storage.estimate()).usage') + room)
                self.refuses('room', 'keepState', slot=2)
                self.refuses('room', 'loadState', slot=1)
                count = page.press(1, 5)
                self.assertEqual(page.save(), count)
                self.assertEqual([row['count'] for row in page.ask('states')['states']], [100, *[0] * 9])
                # what needs no room is done
                page.ask('deleteState', slot=1)
                page.ask('undoKeep', slot=1)
        finally:
            quota(None)
        self.assertEqual(page.ask('loadState', slot=1)['count'], 100)
        self.closed()
        self.assertNotIn(None, self.images().values())


class Noted(Quiet):
    """Notes what files hold, and the writes that no flush has followed yet. Where the server is to hold, it lets the worker wait in front of a call."""

    def do_POST(self):
        body = self.rfile.read(int(self.headers.get('Content-Length', 0)))
        what, _, words = self.path.partition('?')
        name, _, place = words.partition('&')
        notes = self.server
        with notes.guard:
            if what == '/open':
                notes.files[name] = body
                notes.writes.setdefault(name, [])
            notes.calls_left -= 1
            notes.calls += 1
            is_held = notes.calls_left == 0
            if not is_held:
                if what == '/flush':
                    notes.writes[name] = []
                elif what in ('/write', '/truncate'):
                    notes.writes[name].append((notes.files[name], what, int(place), body))
                    notes.files[name] = changed(notes.files[name], what, int(place), body)
        if is_held:
            notes.held.set()
            notes.released.wait(60)
        with contextlib.suppress(OSError):
            self.send_response(204)
            self.end_headers()


def changed(content, what, place, body):
    """Bytes of a file behind a write or a truncation."""
    if what == '/truncate':
        return content[:place].ljust(place, b'\0')
    return content[:place].ljust(place, b'\0') + body + content[place + len(body):]


# tells the server of each call on a file that changes it, before it is made
NOTING = '''
{
  const tell = (path, bytes) => { const ask = new XMLHttpRequest(); ask.open('POST', path, false); ask.send(bytes); };
  const names = new WeakMap();
  const { createSyncAccessHandle } = FileSystemFileHandle.prototype;
  FileSystemFileHandle.prototype.createSyncAccessHandle = async function () {
    const handle = await createSyncAccessHandle.call(this);
    names.set(handle, this.name);
    const bytes = new Uint8Array(handle.getSize());
    handle.read(bytes, { at: 0 });
    tell(`/open?${this.name}`, bytes);
    return handle;
  };
  const { write, flush, truncate } = FileSystemSyncAccessHandle.prototype;
  FileSystemSyncAccessHandle.prototype.write = function (bytes, how) {
    tell(`/write?${names.get(this)}&${how?.at ?? 0}`, bytes.slice());
    return write.call(this, bytes, how);
  };
  FileSystemSyncAccessHandle.prototype.truncate = function (length) {
    tell(`/truncate?${names.get(this)}&${length}`, '');
    return truncate.call(this, length);
  };
  FileSystemSyncAccessHandle.prototype.flush = function () {
    flush.call(this);
    tell(`/flush?${names.get(this)}`, '');
  };
}
'''
ACTS = [('keepState', {'slot': 1}), ('keepState', {'slot': 7}), ('undoKeep', {'slot': 2}), ('deleteState', {'slot': 1}), ('loadState', {'slot': 1}), ('undoLoad', {}), ('goToMoment', {'number': 1})]


class KilledActs(Asking):
    def test_killed_acts(self):
        """Killed between any two calls of what changes slots and what is played, and with some of the writes undone that no flush had followed: the game has
        the old or the new, and each state that was there is there."""
        chance, kind, kills = random.Random(SEED), type(self), int(os.environ.get('KILLS', '14'))
        server = Server(self.changed_site('noting', NOTING), kind=Noted)
        notes = server.server
        notes.files, notes.writes, notes.calls = {}, {}, 0
        base = self.room / 'acts'
        kind.browser.close()
        kind.browser = Browser(base)
        ident = hashlib.sha256(self.carts['demo'].read_bytes()).hexdigest()
        undone, olds, news, whole = 0, 0, 0, []
        try:
            page = self.again('demo.gb', server)
            for slot, frames in ((1, 30), (2, 40), (2, 50)):
                page.press(slot, frames)
                page.ask('keepState', slot=slot)
            page.press(8, 60)
            page.ask('loadState', slot=2)
            page.press(1, 320)
            page.ask('close')
            images = page.wait_for(IMAGES, ident)
            self.assertEqual(len(images), 5)
            kind.browser.close()

            def stands(page):
                return json.dumps([page.count(), [(row['count'], row['picture'], row['canUndo']) for row in page.ask('states')['states']]])

            def life(what, data, profile, calls):
                """A life that is killed in front of so many calls of the act."""
                kind.browser = Browser(profile)
                page = self.again('demo.gb', server)
                old = stands(page)
                with notes.guard:
                    notes.writes = {name: [] for name in notes.files}
                    notes.held.clear()
                    notes.released.clear()
                    notes.calls, notes.calls_left = 0, calls
                if calls < 0:
                    page.ask(what, **data)
                    return old, stands(page), notes.calls
                page.js('ask(arguments[0], arguments[1])', what, data)
                self.assertTrue(notes.held.wait(30), f'{what} makes no {calls} calls')
                return old, None, calls

            for number in range(kills):
                what, data = ACTS[number % len(ACTS)]
                with self.subTest(number=number, what=what, data=data):
                    if number < len(ACTS):
                        profile = self.room / f'acts-{number}-whole'
                        shutil.copytree(base, profile, symlinks=True, ignore=shutil.ignore_patterns('Singleton*'))
                        _, ends, calls = life(what, data, profile, -1)
                        kind.browser.close()
                        whole.append((ends, calls))
                    ends, calls = whole[number % len(ACTS)]
                    profile = self.room / f'acts-{number}'
                    shutil.copytree(base, profile, symlinks=True, ignore=shutil.ignore_patterns('Singleton*'))
                    at = chance.randint(1, calls)
                    old, _, _ = life(what, data, profile, at)
                    kind.browser.kill()
                    with notes.guard:
                        notes.calls_left = -1
                        files, writes = dict(notes.files), {name: list(some) for name, some in notes.writes.items() if some}
                    notes.released.set()
                    # all of them undone, or some, or none
                    for name, some in writes.items() if number % 3 else ():
                        kept = [write for write in some if number % 3 == 1 and chance.random() < 0.5]
                        content = some[0][0]
                        for _, call, place, body in kept:
                            content = changed(content, call, place, body)
                        found = holding(profile, files[name])
                        if found:
                            found.write_bytes(content)
                            undone += len(some) - len(kept)
                    kind.browser = Browser(profile)
                    page = self.again('demo.gb', server)
                    now = stands(page)
                    olds += now == old
                    news += now == ends
                    if what == 'goToMoment':
                        self.assertIn(json.loads(now)[0], (json.loads(old)[0], json.loads(old)[0] + 1))
                    else:
                        self.assertIn(now, (old, ends), f'killed in front of call {at} of {calls}')
                    page.ask('close')
                    there = list(page.wait_for(IMAGES, ident).values())
                    for one in images.values():
                        self.assertTrue(one in there or any(other and other[0] > one[0] for other in there), (one, there))
                    kind.browser.close()
            print(f'{kills} kills in acts, {undone} writes were undone; {olds} times the old, {news} times the new', file=sys.stderr)
            self.assertGreater(undone, kills // 4)
        finally:
            notes.released.set()
            server.close()
            kind.browser = Browser(self.room / 'behind')


def holding(profile, content):
    """The file of a profile that holds these bytes, the one that was written last; None where there is none."""
    found = [path for path in Path(profile).rglob('File System/**/*') if path.is_file() and path.stat().st_size == len(content) and path.read_bytes() == content]
    return max(found, key=lambda path: path.stat().st_mtime_ns, default=None)


@contextlib.contextmanager
def other_browser(profile, *more):
    other = Browser(profile, *more)
    try:
        yield other
    finally:
        other.close()


if __name__ == '__main__':
    sys.exit(main(__doc__, (KeptGames, KilledActs)))
