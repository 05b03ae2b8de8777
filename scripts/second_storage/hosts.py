"""The kind `hosts` of hostile.py: a host plays by libgbkeep, with the power switch and states among its inputs, and its disk is cut behind any of the
calls that it was handed out, with any of the writes since the last sync.

What is left stands for at least what was told as saved, and for no more than was given: by the second reader behind each call, and by the program and by
the library, which take it up, behind some of them. The machine is the one that so many inputs lead to. A cut, or the end of a life, is where the next
life begins, by the library or after a play of the program. Bytes of each kind that debug_lines.py has are given as a state, and those that are refused
change nothing."""
import hashlib, os
from gbkeep import save_files as ref
from batteries import WITH_BATTERY, battery_of, random_battery, taken
from hostile import CART, ROOM, SAVE, SCRIPT, differs, gbkeep, random_rom
from gbkeep.save_files import SECTOR, get, put
from gbkeep import library
from scripts.not_tried import note
from scripts.second_machine import debug_lines
from scripts.second_machine.debug_lines import HEADER

EXPORTED = os.path.join(ROOM, 'exported.sav')


class Wrong(Exception):
    pass


def has_library():
    try:
        library.loaded()
    except library.Refused as why:
        note('hostile files, hosts of the library', why.line)
        return False
    return True


def want(what, is_so):
    if not is_so:
        raise Wrong(what)


class Inputs:
    """The inputs of a game from its first machine on, and the machines that they lead to."""

    def __init__(self, rom, first):
        self.machine, self.marks, self.given = library.Machine(rom), {0: first}, []

    def state(self, count):
        """The machine after so many of them."""
        if count not in self.marks:
            at = max(mark for mark in self.marks if mark < count)
            self.machine.restore(self.marks[at])
            for kind, value in self.given[at:count]:
                getattr(self.machine, kind)(*value)
            self.marks[count] = self.machine.state()
        return self.marks[count]

    def cut(self, count):
        """Only so many of them are left."""
        self.state(count)
        del self.given[count:]
        self.marks = {mark: state for mark, state in self.marks.items() if mark <= count}


class Disk:
    """What the calls of a session leave: the sectors as they were synced last, and the writes since then."""

    def __init__(self, image):
        self.synced, self.since = bytearray(image), []

    def make(self, call):
        if call.bytes is None:
            self.synced, self.since = self.left(self.since), []
        else:
            self.since.append(call)

    def left(self, writes):
        image = bytearray(self.synced)
        for write in writes:
            image[write.sector * SECTOR:(write.sector + 1) * SECTOR] = write.bytes
        return image

    def cut(self, rnd):
        """A disk that a power cut may leave now."""
        likely = rnd.choice([0, 0.1, 0.5, 0.9, 1])
        return self.left([write for write in self.since if rnd.random() < likely])


class Host:
    """A host that gives random inputs, and looks at what its disk would be."""

    def __init__(self, rnd, rom):
        self.rnd, self.rom, self.cart = rnd, rom, ref.Cartridge(rom)
        self.told, self.begun, self.is_chosen = 0, False, 0.02

    def begin(self):
        """A new game on a disk of zeros, with a battery file or without."""
        rnd, rom, cart = self.rnd, self.rom, self.cart
        sectors = ref.need_of(cart.length) + rnd.choice([0, 0, 1, 2, 31])
        with library.Machine(rom) as machine:
            first = machine.state()
        battery = random_battery(rnd, cart) if rnd.random() < 0.5 else None
        if battery is not None:
            try:
                first = first[:HEADER] + taken(first[HEADER:], battery, cart, rom[0x147])
            except ref.Refused as why:
                try:
                    library.Session(rom, battery=battery, sectors=sectors).close()
                except library.Refused as refused:
                    want('import: %s, wanted %s' % (refused.line, why), str(why).startswith(refused.line))
                    battery = None
                else:
                    raise Wrong('import: a file is taken: %s' % why)
        self.inputs = Inputs(rom, first)
        self.disk = Disk(bytes(SECTOR * sectors))
        self.session = library.Session(rom, battery=battery, sectors=sectors)
        self.make_calls(0)
        self.begun = True

    def resume(self, image):
        """Goes on from what was left."""
        self.disk = Disk(image)
        self.session = library.Session(self.rom, image)
        self.make_calls(self.session.count)

    def give(self, kind, *value):
        getattr(self.session, kind)(*value)
        self.inputs.given.append((kind, value))

    def give_some(self):
        """Inputs of any kind, no more than can be unsaved."""
        rnd, left = self.rnd, rnd_count(self.rnd)
        while left > 0:
            choice = rnd.random()
            if choice < 0.5:
                buttons = rnd.choice([0, 1, rnd.randrange(256)])
                for _ in range(min(left, rnd.choice([1, 2, 83, 85, 400]))):
                    self.give('frames', buttons)
                    left -= 1
            elif choice < 0.8:
                for _ in range(min(left, rnd.choice([1, 5, 90]))):
                    self.give('seconds', rnd.choice([0, 1, 60, 4294967295]))
                    left -= 1
            elif choice < 0.9:
                self.give('power')
                left -= 1
            else:
                self.give('restore', self.inputs.state(rnd.choice(sorted(self.inputs.marks))))
                left -= 1

    def give_states(self):
        """Bytes of each kind as a state: one that is the game's is an input, and any other is refused, with nothing changed."""
        own, others = [self.inputs.state(mark) for mark in self.inputs.marks], []
        for rom in (debug_lines.changed(self.rnd, self.rom), random_rom(self.rnd)):
            with library.Machine(rom) as machine:
                others.append(machine.state())
        for kind in debug_lines.GIVEN:
            given, before = debug_lines.given_as(self.rnd, kind, own, others), (self.session.state(), self.session.count)
            try:
                self.session.restore(given)
            except library.NoState as refused:
                want('%s: %s' % (kind, refused.line), refused.line in debug_lines.GIVEN[kind] and (self.session.state(), self.session.count) == before)
            else:
                want('%s is taken' % kind, None in debug_lines.GIVEN[kind] and (self.session.state(), self.session.count) == (given, before[1] + 1))
                self.inputs.given.append(('restore', (given,)))

    def save(self):
        """Saves, and tells it once all calls were made."""
        count = self.session.save()
        want('save: %d, %d were given' % (count, len(self.inputs.given)), count == len(self.inputs.given) == self.session.count)
        self.make_calls(count)
        want('the calls of a save end with no sync', not self.disk.since)
        self.told = count

    def make_calls(self, most):
        for call in self.session.calls():
            self.disk.make(call)
            for _ in range(2):
                self.look(self.disk.cut(self.rnd), most)

    def look(self, image, most):
        """What is left can be taken up, and has what was told."""
        try:
            count, _, _ = ref.looked_at(image, self.cart)
        except ref.Refused as why:
            want('%d were told, and it is refused: %s' % (self.told, why), not self.begun and str(why) == 'no session')
            count = None
        want('%s of %d that were told, %d given' % (count, self.told, most), count is None or self.told <= count <= most)
        if self.rnd.random() < self.is_chosen:
            self.take_up(image, count)

    def take_up(self, image, count):
        """The program and the library take it up, to the machine of so many inputs."""
        put(SAVE, image)
        put(SCRIPT, b'')
        got = gbkeep('play', CART, SAVE, SCRIPT)
        if count is None:
            want('play: %r' % (got,), got == (1, b'', b'gbkeep: no session\n'))
            return
        want('play: %r, wanted %d' % (got, count), got == (0, b'resumed %d\n' % count, b''))
        state = self.inputs.state(count)
        shown = gbkeep('show', CART, SAVE)[1].decode().split('\n')
        want('show: %r' % shown, shown[0] == 'inputs %d' % count and shown[-2] == 'state ' + hashlib.sha256(state[HEADER:]).hexdigest())
        with library.Session(self.rom, bytes(image)) as session:
            want('the library takes up another game', (session.count, session.state()) == (count, state))

    def battery(self):
        """The battery file of the session is what the program exports of its disk."""
        put(SAVE, self.disk.synced)
        if os.path.exists(EXPORTED):
            os.remove(EXPORTED)
        got = gbkeep('export', CART, SAVE, EXPORTED)
        if self.rom[0x147] not in WITH_BATTERY:
            want('export: %r' % (got,), got == (1, b'', b'gbkeep: no battery\n'))
            try:
                self.session.battery()
            except library.Refused as refused:
                return want('battery: %s' % refused.line, refused.line == 'no battery')
            raise Wrong('a cartridge without battery gives a file')
        want('export: %r' % (got,), got == (0, b'exported %d\n' % self.told, b''))
        want('battery differs', self.session.battery() == get(EXPORTED) == battery_of(self.inputs.state(self.told)[HEADER:], self.cart))

    def life(self):
        """Plays for some saves, and leaves the disk as it is at the end, or as a cut left it."""
        rnd = self.rnd
        for _ in range(rnd.choice([1, 2, 3])):
            self.give_some()
            self.save()
            want('another machine', self.session.state() == self.inputs.state(self.told))
        if rnd.random() < 0.5:
            self.give_states()
            self.save()
        self.battery()
        self.give_some()
        self.session.save()
        calls = list(self.session.calls())
        for call in calls[:rnd.randrange(len(calls) + 1)]:
            self.disk.make(call)
        self.session.close()
        image = self.disk.cut(rnd)
        self.look(image, len(self.inputs.given))
        count = ref.looked_at(image, self.cart)[0]
        self.inputs.cut(count)
        self.take_up(image, count)
        if rnd.random() < 0.5:
            # the program goes on with it
            put(SAVE, image)
            put(SCRIPT, b'frames 01 30\nseconds 7\nsave\n')
            want('play', gbkeep('play', CART, SAVE, SCRIPT) == (0, b'resumed %d\nsaved %d\n' % (count, count + 31), b''))
            self.inputs.given += [('frames', (1,))] * 30 + [('seconds', (7,))]
            image = get(SAVE)
            count += 31
        self.told = count
        return bytes(image)


def rnd_count(rnd):
    return rnd.choice([1, 2, 5, 30, 90, 90, 300, 300, 1000, 3200])


def hosts(rnd, seed):
    if not has_library():
        return False
    rom = random_rom(rnd)
    put(CART, rom)
    host = Host(rnd, rom)
    try:
        host.begin()
        for _ in range(2):
            host.resume(host.life())
        host.session.close()
    except (Wrong, library.Refused, ref.Refused) as why:
        differs('hosts', seed, getattr(why, 'line', str(why)))
