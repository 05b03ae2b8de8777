"""Looks from outside at what gbkeep does to a save file, and compares each write and each sync with what save_files.py would write.

usage: traced.py GBKEEP [GAMES [SEED [FAILED_SYNCS]]]    FAILED_SYNCS is the built crate failed_syncs

It needs Debian's package strace. No clause can say that the program's file calls are those that a FileDevice notes: this shows that each write has the
offset and the bytes that the second writer has (but for the snapshots of machines that were given inputs, which have their places and lengths), in its
order, and that each sync of the record is an fsync of the file, before any line that tells of it goes out. `new`, `play`, `stream` and `frame` are
followed, `export` with the file that it writes, and `new-recording` and `record` with both of their files: the recording is synced before the save file is written. Of a device that has had a sync fail it shows that each later one fails too, without a call of the file."""
import os, random, re, shutil, subprocess, sys, tempfile
sys.argv, words = sys.argv[:1], sys.argv[1:]
import hostile
import batteries
import recorded
import recordings
from gbkeep import save_files as ref
from gbkeep.save_files import get, put
from scripts.doctor import tries

CALL = re.compile(r'^\d*\s*(\w+)\((.*)\)\s+= (-?\d+)')


class Recorded(ref.Game):
    """A game that notes its writes and syncs, as (offset, bytes or None where they are a snapshot's) and 'sync'."""

    def __init__(self, image, cart):
        super().__init__(image, cart)
        self.calls = []

    def note(self, sectors, unknown=()):
        for sector in sectors:
            at = sector * 512
            data = bytes(self.image[at:at + 512])
            self.calls.append((at, None if any(low < at + 512 and at < high for low, high in unknown) else data))

    def begin(self, generation, base, snapshot):
        super().begin(generation, base, snapshot)
        first, _ = ref.area_of(self.image, generation)
        pages = (self.cart.length + 511) // 512
        self.note(range(first, first + 32))
        self.note(range(first + 32, first + 32 + pages), self.unknown)
        self.calls.append('sync')
        self.note([generation % 2])
        self.calls.append('sync')

    def create(self):
        self.note(range(len(self.image) // 512))
        # the file, its entry in the folder, and the log as it is opened
        self.calls += ['sync', 'sync of the folder', 'sync']
        self.begin(1, 0, None)
        # the whole file gets its name
        self.calls += ['named', 'sync of the folder', 'begun 0\n']

    def resume(self):
        # one as the file is attached, and one as the log is opened
        self.calls += ['sync', 'sync']
        super().resume()
        self.calls.append('resumed %d\n' % self.count)

    def append(self, entries):
        full = ref.ENTRIES[2]
        first, _ = ref.area_of(self.image, self.generation)
        before = list(self.entries)
        super().append(entries)
        changed = [index for index in range((len(entries) + full - 1) // full) if before[index * full:(index + 1) * full] != entries[index * full:(index + 1) * full]]
        self.note([first + index for index in changed])
        self.calls.append('sync')

    def save(self):
        super().save()
        self.calls.append('saved %d\n' % self.count)


class Pair(Recorded, recordings.RecordedGame):
    """A game and its recording, whose calls are noted in one order; those of the recording begin with R, that of the mark with M."""

    def __init__(self, image, recording, cart):
        recordings.RecordedGame.__init__(self, image, recording, cart, mark=recorded.mark(), name=recorded.RECORDING.encode())
        self.calls = []

    def resume(self):
        ref.Game.resume(self)

    def take_up(self):
        # both files as they are attached, and as they are opened to be compared, the recording as it is compared with the mark, and both as they are
        # opened to be played
        before = self.mark
        recordings.RecordedGame.take_up(self)
        given, self.calls = self.calls, ['sync', 'R sync', 'sync', 'R sync', 'R sync']
        if self.mark != before:
            self.calls += ['M sync', 'M named', 'sync of the folder']
        self.calls += ['sync', 'R sync', *given, 'resumed %d\n' % self.count]

    def save(self):
        before = len(self.recording.writes)
        self.recording.append(self.pending)
        for one in self.recording.writes[before:]:
            self.calls.append('R sync' if one == 'sync' else ('R', one[0] * 512, one[1]))
        ref.Game.save(self)
        self.calls.append('saved %d\n' % self.count)


class NewRecording:
    """The calls of `new-recording`."""

    def __init__(self, sectors, cart):
        self.calls = [('R', at * 512, bytes(512)) for at in range(sectors)]
        # the file, its entry in the folder, and before it is looked at
        self.calls += ['R sync', 'sync of the folder', 'R sync', ('R', 0, recordings.head_of(cart)), 'R sync', 'named', 'sync of the folder', 'begun 0\n']


def hexadecimal(text):
    """As strace prints it."""
    return ''.join('\\x%02x' % byte for byte in text.encode())


def unescaped(text):
    return bytes.fromhex(text.replace('\\x', ''))


def calls_of(trace, save, other=recorded.RECORDING):
    """What a trace shows of the save file, of the recording, of the mark of a recorded game and of standard output, in order. A file that is made
    has another name until it is whole."""
    calls, fd, folder, at, second, mark, made = [], None, None, 0, None, None, None
    hidden = ['"%s"' % hexadecimal(path) for path in (save, os.path.dirname(save), other, recorded.MARK)]
    part = hexadecimal(recorded.MARK + '.')
    for row in open(trace):
        found = CALL.match(row)
        if not found:
            continue
        name, words, answer = found[1], found[2], int(found[3])
        if name == 'openat' and hexadecimal('/.gbkeep-') in words and answer >= 0:
            if made == save:
                fd = answer
            else:
                second = answer
        elif name == 'openat' and hidden[0] in words and answer >= 0:
            fd, made = answer, save
        elif name == 'openat' and hidden[2] in words and answer >= 0:
            second, made = answer, other
        elif name == 'openat' and part in words and answer >= 0:
            mark = answer
        elif name == 'rename' and answer == 0 and part in words and words.endswith(hidden[3]):
            calls.append('M named')
        elif name == 'rename' and answer == 0 and hexadecimal('/.gbkeep-') in words and words.endswith('"%s"' % hexadecimal(made)):
            calls.append('named')
        elif name == 'openat' and hidden[1] in words and answer >= 0:
            folder = answer
        elif name in ('write', 'pwrite64') and answer >= 0:
            to, text, *rest = re.match(r'(\d+), "([^"]*)", (.*)', words).groups()
            data = unescaped(text)[:answer]
            if int(to) == fd:
                place = int(rest[0].rpartition(', ')[2]) if name == 'pwrite64' else at
                calls.append((place, data))
                at = place + len(data)
            elif int(to) == second:
                if name != 'pwrite64':
                    sys.exit('a write without a place: ' + row)
                calls.append(('R', int(rest[0].rpartition(', ')[2]), data))
            elif int(to) == 1:
                calls.append(data.decode())
        elif name == 'lseek' and words.split(',')[0] == str(fd):
            at = answer
        elif name == 'read' and words.split(',')[0] == str(fd) and answer > 0:
            at += answer
        elif name in ('fsync', 'fdatasync') and words == str(fd):
            if answer != 0:
                sys.exit('a sync failed: ' + row)
            calls.append('sync')
        elif name in ('fsync', 'fdatasync') and words == str(second):
            if answer != 0:
                sys.exit('a sync failed: ' + row)
            calls.append('R sync')
        elif name == 'fsync' and words == str(mark):
            calls.append('M sync')
        elif name == 'fsync' and words == str(folder):
            if answer != 0:
                sys.exit('a sync failed: ' + row)
            calls.append('sync of the folder')
        elif name == 'close' and words == str(fd):
            fd = None
        elif name == 'close' and words == str(folder):
            folder = None
        elif name == 'close' and words == str(second):
            second = None
        elif name == 'close' and words == str(mark):
            mark = None
    return calls


def is_same(got, want):
    if isinstance(want, str) or isinstance(got, str) or 'R' in (want[0], got[0]):
        return got == want
    return got[0] == want[0] and (len(got[1]) == 512 if want[1] is None else got[1] == want[1])


def trace(words, text=b'', file=hostile.SAVE):
    path = os.path.join(hostile.ROOM, 'trace')
    done = subprocess.run(['strace', '-f', '-o', path, '-xx', '-s', '140000', '-e', 'trace=openat,read,write,pread64,pwrite64,lseek,fsync,fdatasync,close,rename', hostile.GB, *words],
                          capture_output=True, timeout=60, input=text)
    if done.returncode != 0:
        sys.exit('%s: %r' % (words, done))
    return calls_of(path, file)


def compare(words, want, text=b''):
    """Compares the calls of a command with those of the second writer, and answers how many there are."""
    got = trace(words, text)
    for at, (one, other) in enumerate(zip(got + ['end'], want.calls + ['end'])):
        if not is_same(one, other):
            sys.exit('%s: call %d of %d: %r, wanted %r' % (words[0], at, len(want.calls), one, other))
    if len(got) != len(want.calls):
        sys.exit('%s: %d calls, wanted %d' % (words[0], len(got), len(want.calls)))
    return len(got)


def game(rnd):
    rom = hostile.random_rom(rnd)
    cart = ref.Cartridge(rom)
    put(hostile.CART, rom)
    hostile.gone(hostile.SAVE)
    sectors = ref.need_of(cart.length) + rnd.choice([0, 1, 31])
    want = Recorded(bytes(512 * sectors), cart)
    want.create()
    shown = compare(['new', hostile.CART, hostile.SAVE, str(sectors)], want)
    for command in ('play', 'stream', 'frame', 'play'):
        script = b'' if command == 'frame' else hostile.random_script(rnd, rnd.choice([30, 300, 4000]))
        put(hostile.SCRIPT, script)
        want = Recorded(get(hostile.SAVE), cart)
        want.resume()
        want.play(ref.moves_of(script))
        last = {'play': [hostile.SCRIPT], 'stream': [], 'frame': [hostile.OUT]}[command]
        shown += compare([command, hostile.CART, hostile.SAVE, *last], want, script if command == 'stream' else b'')
    return shown + exported(rom, cart) + recorded_game(rnd, cart)


def exported(rom, cart):
    """The battery file of the game: all of it is written and synced, and its folder too, before the line that tells of it."""
    if rom[0x147] not in batteries.WITH_BATTERY:
        return 0
    hostile.gone(batteries.EXPORTED)
    count, root, _ = ref.looked_at(get(hostile.SAVE), cart, is_resumed=False)
    calls = trace(['export', hostile.CART, hostile.SAVE, batteries.EXPORTED], file=batteries.EXPORTED)
    data = b''.join(one[1] for one in calls if not isinstance(one, str))
    others = [one for one in calls if isinstance(one, str)]
    wanted = ['sync', 'named', 'sync of the folder', 'exported %d\n' % count]
    if others != wanted or calls[-4:] != wanted or len(data) != len(batteries.battery_of(ref.snapshot_of(get(hostile.SAVE), root), cart)):
        sys.exit('export: %r, wanted %r' % (others, wanted))
    return len(calls)


def recorded_game(rnd, cart):
    """A new game with its recording, recorded in pieces, once with a recording that is ahead."""
    hostile.gone(hostile.SAVE), hostile.gone(recorded.RECORDING)
    sectors = rnd.choice([3, 60])
    shown = compare(['new-recording', hostile.CART, recorded.RECORDING, str(sectors)], NewRecording(sectors, cart))
    hostile.gbkeep('new', hostile.CART, hostile.SAVE)
    for turn in range(3):
        before = get(hostile.SAVE)
        script = hostile.random_script(rnd, rnd.choice([0, 30, 300]), switches=False)
        want = Pair(before, get(recorded.RECORDING), cart)
        try:
            want.take_up()
            want.play(ref.moves_of(script))
        except ref.Refused:
            return shown
        shown += compare(['record', hostile.CART, hostile.SAVE, recorded.RECORDING], want, script)
        if turn == 1:
            put(hostile.SAVE, before)
    return shown


def failed_syncs(program):
    """After a sync that failed no later one succeeds, and the file is asked for none."""
    for first, answers, calls in ((None, b'done\ndone\n', 4), (3, b'device failed\ndevice failed\n', 3)):
        path = os.path.join(hostile.ROOM, 'syncs')
        how = [] if first is None else ['-e', 'inject=fsync:error=EIO:when=%d' % first]
        done = subprocess.run(['strace', '-f', '-qq', '-o', path, '-e', 'trace=fsync', *how, program], capture_output=True, timeout=20, cwd=tempfile.mkdtemp(dir=hostile.ROOM))
        asked = sum('fsync(' in row for row in open(path))
        if done.stdout != answers or asked != calls:
            sys.exit('%s: %r with %d syncs, wanted %r with %d' % (program, done.stdout, asked, answers, calls))


def main():
    if not words:
        print(__doc__)
        return 2
    if not tries('calls of the save file', 'strace'):
        return 0
    hostile.GB = os.path.abspath(words[0])
    games, seed = int(words[1]) if len(words) > 1 else 10, int(words[2]) if len(words) > 2 else 1
    try:
        shown = sum(game(random.Random('traced-%d-%d' % (seed, number))) for number in range(games))
        if len(words) > 3:
            failed_syncs(os.path.abspath(words[3]))
    finally:
        shutil.rmtree(hostile.ROOM)
    print('%d games, seed %d: %d writes, syncs and lines as they should be' % (games, seed, shown))
    return 0


if __name__ == '__main__':
    sys.exit(main())
