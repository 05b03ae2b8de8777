"""Gives gbkeep damaged save files, wrong scripts and refused ROMs, kills it, and compares what it answers and leaves with save_files.py.

usage: hostile.py GBKEEP SECONDS [SEED]       each kind for so many seconds, from a seed that it prints
       hostile.py GBKEEP fuzz SECONDS [SEED]  saves, scripts and bytes for so many seconds in all
       hostile.py GBKEEP KIND SECONDS SEED    one kind

Kinds: saves (random games, damaged in random places), scripts (random scripts, some of them wrong), bytes (arbitrary bytes as ROM,
save file and script), kills (a play is killed at a random moment, and taken up again), holds (a save file that another process
holds), places (no plain file, no room or no leave where one is wanted), pipes (an output that nobody reads to its end, or that has no
room), shrinks (a save file that another process cuts, removes or replaces while it is played), names (OUT is SAVE or CART by another name, or another
file that is no picture; a SAVE with the name of a battery file), closed (a standard
stream is closed, also in a root without /dev), streams (lines as they come, whole, in pieces, wrong ones, pictures, and a kill), states (streams with states of the ROM and of others, byte for byte, by a second machine), injected (a
system call fails, is cut short, or is the last; needs strace), recordings (a game with its recording, damaged, full, of another ROM, ahead, behind,
killed), batteries (battery files that are taken and written, and what `show` prints), debugs (lines of `debug`, right and wrong, from power-on and over
games, sound and damaged), hosts (a host that plays by libgbkeep, with its disk cut behind each call that it was handed out; needs bin/libgbkeep.so, or the
one that GBKEEP_LIBRARY names). The status is 1 where anything differs, where gbkeep dies by a signal, or where it takes longer than 10
seconds, or 60 where GBKEEP_EMULATED is set: where another processor is emulated."""
import fcntl, os, random, re, resource, shutil, signal, subprocess, sys, tempfile, threading, time
from gbkeep import save_files as ref
from gbkeep.save_files import get, put
from scripts.doctor import tries

GB = os.path.abspath(sys.argv[1]) if len(sys.argv) > 1 else ''
ROOM = tempfile.mkdtemp(prefix='hostile-')
CART, SAVE, SCRIPT, OUT = (os.path.join(ROOM, name) for name in ('rom.gb', 'game.gbkeep', 'moves.script', 'out.pgm'))
TYPES = {0x00: 2, 0x08: 2, 0x09: 2, 0x01: 4, 0x03: 4, 0x06: 4, 0x10: 4, 0x0F: 2, 0x13: 4, 0x1B: 4, 0x1E: 4}
LONGEST = 60 if 'GBKEEP_EMULATED' in os.environ else 10
differences = 0


def differs(kind, seed, what):
    global differences
    differences += 1
    print('DIFFERS kind=%s seed=%d %s' % (kind, seed, what), flush=True)


def gbkeep(*words, **how):
    """Status, output and errors; a status below 0 is a signal."""
    done = subprocess.run([GB] + list(words), capture_output=True, timeout=LONGEST, **how)
    return done.returncode, done.stdout, done.stderr


def line(why):
    return ('gbkeep: %s\n' % why).encode()


# ---- what is played

def random_rom(rnd):
    kind = rnd.choice(sorted(TYPES))
    rom = bytearray(TYPES[kind] * 16384)
    code = rnd.choice([b'\x18\xfe', b'\x23\x18\xfd', b'\x76\x18\xfd', rnd.randbytes(64)])
    rom[0x100:0x100 + len(code)] = code
    rom[0x134:0x144] = rnd.randbytes(16)
    rom[0x147] = kind
    rom[0x149] = rnd.choice([0, 2, 3])
    return bytes(rom)


def random_script(rnd, most=4000, switches=True):
    lines, left = [], rnd.choice([0, 3, 30, 300, most])
    while left > 0:
        choice = rnd.random()
        if choice < 0.35:
            lines.append('frame %02x' % rnd.choice([0, 1, rnd.randrange(256)]))
            left -= 1
        elif choice < 0.6:
            times = min(left, rnd.choice([1, 2, 83, 84, 85, 200, 3199, 3200, 3201]))
            lines.append('frames %02X %d' % (rnd.choice([0, 1, rnd.randrange(256)]), times))
            left -= times
        elif choice < 0.85:
            for _ in range(rnd.choice([1, 5, 90, 260])):
                lines.append('seconds %d' % rnd.choice([0, 1, 60, 4294967295]))
                left -= 1
        elif choice < 0.95:
            lines.append('save')
        elif choice < 0.97 and switches:
            lines.append('power')
            left -= 1
        else:
            lines.append('')
    text = '\n'.join(lines)
    return (text + rnd.choice(['', '\n'])).encode()


WRONG = [b'frame', b'frame 1G', b'frame 001', b' frame 00', b'frame 00 ', b'frame  00', b'frames 00 0', b'frames 00 1000001', b'frames 00',
         b'frames 00 +1', b'frames 00 00000000001', b'seconds -1', b'seconds 4294967296', b'seconds', b'seconds 1 1', b'save ', b'Save', b'wait',
         b'\r', b'save\r', b'power ', b'power 1', b'Power', b'powers', b'\0', b'frame\t00', b'\xff\xfe', b'frame 0x', b'seconds 0x10', b'frames 00 1 1', b' ', b'seconds 12345678901']


def wrong_script(rnd, switches=True):
    """Where no power switch is taken, one is as wrong as the others."""
    lines = random_script(rnd, 30, switches).split(b'\n')
    for _ in range(rnd.choice([1, 1, 2])):
        lines.insert(rnd.randrange(len(lines) + 1), rnd.choice(WRONG if switches else WRONG + [b'power'] * 5))
    return b'\n'.join(lines)


# ---- damage

def damaged(rnd, image, cart, other):
    """The image with something wrong, or nothing."""
    image = bytearray(image)
    root = ref.chosen_root(image)
    first, size = ref.area_of(image, root['generation'])
    slot = root['generation'] % 2

    def flip(low, high):
        if high > low:
            image[rnd.randrange(low, high)] ^= 1 << rnd.randrange(8)

    def set_root(**fields):
        new = dict(root, **fields)
        data = b'GBKPROOT' + new['version'].to_bytes(4, 'little') + new['generation'].to_bytes(8, 'little') + new['id']
        data += new['base'].to_bytes(8, 'little') + new['length'].to_bytes(4, 'little')
        at = (new['generation'] % 2) * 512
        image[at:at + 512] = data + bytes(448)

    def log_sector(index):
        return (first + index) * 512

    choice = rnd.randrange(17)
    if choice == 0:
        for _ in range(rnd.choice([1, 2, 40])):
            flip(0, len(image))
    elif choice == 1:
        flip(slot * 512, slot * 512 + 64)
    elif choice == 2:
        flip(log_sector(0), log_sector(rnd.choice([1, 2, 32])))
    elif choice == 3:
        at = (first + 32) * 512
        flip(at, at + 128)
    elif choice == 4:
        set_root(base=rnd.choice([ref.MOST, ref.MOST - 1, ref.MOST - 40, ref.MOST - 3200, 2 ** 63, 0]))
    elif choice == 5:
        generation = rnd.choice([ref.MOST, ref.MOST - 1, ref.MOST - 2, root['generation'] + 1, root['generation'] + 2, 0])
        set_root(generation=generation)
        if generation % 2 != slot:
            there = image[first * 512:(first + size) * 512]
            at = ref.area_of(image, generation)[0] * 512
            image[at:at + len(there)] = there
    elif choice == 6:
        set_root(length=rnd.choice([0, 1, root['length'] - 1, root['length'] + 1, 40000, 2 ** 32 - 1, size * 512, (size - 32) * 512, (size - 32) * 512 + 1]))
    elif choice == 7:
        a, b = rnd.randrange(len(image) // 512) * 512, rnd.randrange(len(image) // 512) * 512
        image[a:a + 512], image[b:b + 512] = image[b:b + 512], image[a:a + 512]
    elif choice == 8:
        image = image[:rnd.choice([0, 1, 511, 512, 513, 1024, 1536, len(image) - 512, len(image) - 1, rnd.randrange(len(image))])]
    elif choice == 9:
        image += bytes(rnd.choice([1, 512, 1024, 100 * 512]))
    elif choice == 10:
        at = rnd.randrange(len(image) // 512) * 512
        image[at:at + 512] = rnd.choice([bytes(512), rnd.randbytes(512), b'\xff' * 512])
    elif choice == 11:      # an entry of any kind
        at = log_sector(rnd.randrange(2)) + 8 + 6 * rnd.randrange(84)
        image[at:at + 6] = rnd.choice([b'\2\0\0\0\0\0', b'\0\0\0\0\0\0', b'\0\1' + (216000).to_bytes(4, 'little'), b'\0\1' + (216001).to_bytes(4, 'little'),
                                       b'\1\1\0\0\0\1', b'\1\0\0\0\0\0', b'\0\7\1\0\0\0', rnd.randbytes(6)])
    elif choice == 12:      # version 1, of the same or other entries
        set_root(version=1)
        codes = []
        for _ in range(rnd.choice([0, 1, 99, 100, 101, 250])):
            codes.append(rnd.choice([b'\0\1\0\0\0', b'\1' + rnd.randbytes(4), b'\0' + rnd.randbytes(1) + b'\0\0\0']))
        if codes and rnd.random() < 0.3:
            codes[rnd.randrange(len(codes))] = rnd.choice([b'\0\1\1\0\0', b'\2\0\0\0\0', rnd.randbytes(5)])
        for index in range(32):
            held = codes[index * 100:index * 100 + 100]
            data = b'GBL1' + index.to_bytes(2, 'little') + len(held).to_bytes(2, 'little') + b''.join(held) if held else b''
            image[log_sector(index):log_sector(index + 1)] = data + bytes(512 - len(data))
    elif choice == 13:      # a field of the snapshot
        at = (first + 32) * 512 + rnd.choice([at for at, size, legal in ref.fields_of(cart)])
        image[at] = rnd.choice([0, 1, 0xFF, rnd.randrange(256)])
    elif choice == 14:
        set_root(id=rnd.choice([other.id, rnd.randbytes(32)]))
    elif choice == 15:      # a log sector's number or index
        at = log_sector(rnd.randrange(3))
        image[at + rnd.choice([4, 6])] = rnd.choice([0, 1, 83, 84, 85, 100, 101, rnd.randrange(256)])
    return bytes(image)


def played(image, cart, script):
    """Status, output, errors and the save file that a play leaves."""
    game = ref.Game(image, cart)
    try:
        if len(image) % 512:
            raise ref.Refused('device size %d' % len(image))
        moves = ref.moves_of(script)
        game.resume()
        game.play(moves)
    except ref.Refused as why:
        return 1, game.report, line(why), game
    return 0, game.report, b'', game


def same_file(got, game):
    want = bytearray(game.image)
    if len(got) != len(want):
        return False
    for low, high in game.unknown:
        if not ref.is_legal(got[low:high], game.cart):
            return False
        want[low:high] = got[low:high]
    return got == bytes(want)


def compare_play(kind, seed, image, cart, script, note=''):
    """Plays it in both; answers whether they agree."""
    put(SAVE, image)
    put(SCRIPT, script)
    status, out, err, game = played(image, cart, script)
    got = gbkeep('play', CART, SAVE, SCRIPT)
    left = get(SAVE)
    good = got == (status, out, err) and same_file(left, game)
    if not good:
        differs(kind, seed, '%s wanted %r got %r, file %s' % (note, (status, out[-60:], err), (got[0], got[1][-60:], got[2]),
                                                              'as wanted' if same_file(left, game) else 'differs'))
    return good


# ---- kinds

def new_game(rnd, rom, cart):
    put(CART, rom)
    if os.path.exists(SAVE):
        os.remove(SAVE)
    sectors = ref.need_of(cart.length) + rnd.choice([0, 0, 1, 2, 31])
    return sectors, gbkeep('new', CART, SAVE, str(sectors))


def saves(rnd, seed):
    rom = random_rom(rnd)
    cart = ref.Cartridge(rom)
    other = ref.Cartridge(random_rom(rnd))
    sectors, got = new_game(rnd, rom, cart)
    if got != (0, b'begun 0\n', b''):
        return differs('saves', seed, 'new: %r' % (got,))
    made = ref.Game(bytes(512 * sectors), cart)
    made.begin(1, 0, None)
    if not same_file(get(SAVE), made):
        return differs('saves', seed, 'new leaves another file')
    for _ in range(rnd.choice([1, 2, 3])):
        if not compare_play('saves', seed, get(SAVE), cart, random_script(rnd), 'sound'):
            return
    sound = get(SAVE)
    for turn in range(6):
        if not compare_play('saves', seed, damaged(rnd, sound, cart, other), cart, random_script(rnd, 300), 'damage %d' % turn):
            shutil.copy(SAVE, 'differs.gbkeep')
            return
        again = get(SAVE)
        # what was taken up is taken up again, with the same snapshot
        if gbkeep('frame', CART, SAVE, OUT)[0] == 0:
            first = get(OUT)
            compare_play('saves', seed, get(SAVE), cart, b'', 'again')
            drawn = gbkeep('frame', CART, SAVE, OUT)
            # the damage may have left few generations
            if drawn != (1, b'', line('generations used up')) and (drawn[0] != 0 or get(OUT) != first):
                return differs('saves', seed, 'another picture')
        elif get(SAVE) != again:
            return differs('saves', seed, 'frame was refused and wrote')


def scripts(rnd, seed):
    rom = random_rom(rnd)
    cart = ref.Cartridge(rom)
    new_game(rnd, rom, cart)
    for _ in range(5):
        script = wrong_script(rnd) if rnd.random() < 0.7 else random_script(rnd)
        if rnd.random() < 0.05:
            script = b'\n' * rnd.choice([1048576, 1048577])
        if not compare_play('scripts', seed, get(SAVE), cart, script):
            return


def arbitrary(rnd, seed):
    """No answer is known but its form: one line on standard error where it refuses, and nothing done."""
    rom = bytearray(random_rom(rnd))
    for _ in range(rnd.choice([0, 1, 3])):
        rom[rnd.randrange(0x134, 0x150)] = rnd.randrange(256)
    rom = bytes(rom[:rnd.choice([0, 1, 0x7FFF, len(rom), len(rom)])]) + rnd.choice([b'', b'', b'\0', bytes(16384)])
    save = rnd.randbytes(rnd.choice([0, 512, 1024, 80000, 512 * 200, 12345]))
    if rnd.random() < 0.5:
        save = b'GBKPROOT\2\0\0\0' + bytes(8) + save
        save = save[:len(save) // 512 * 512]
    script = rnd.randbytes(rnd.choice([0, 1, 50, 1000])) if rnd.random() < 0.5 else random_script(rnd, 30)
    put(CART, rom), put(SAVE, save), put(SCRIPT, script)
    for words in (('info', CART), ('list', CART, '%x' % rnd.randrange(65536), '9'), ('step', CART, '9'), ('play', CART, SAVE, SCRIPT), ('frame', CART, SAVE, OUT)):
        status, out, err = gbkeep(*words)
        if status == 0 and not err:
            continue
        if status != 1 or out or not err.startswith(b'gbkeep: ') or err.count(b'\n') != 1 or not err.endswith(b'\n') or get(SAVE) != save:
            return differs('bytes', seed, '%s: %r' % (words[0], (status, out[-60:], err)))


def kills(rnd, seed):
    """What was told as saved before the kill is there at the next play, and no more than was given."""
    rom = random_rom(rnd)
    cart = ref.Cartridge(rom)
    new_game(rnd, rom, cart)
    told = given = 0
    for _ in range(8):
        script = b''.join(b'frames %02x %d\nseconds 3\nsave\n' % (rnd.randrange(256), rnd.choice([1, 7, 100])) for _ in range(60))
        inputs = sum(len(ref.inputs_of(move)) for move in ref.moves_of(script))
        put(SCRIPT, script)
        play = subprocess.Popen([GB, 'play', CART, SAVE, SCRIPT], stdout=subprocess.PIPE, stderr=subprocess.PIPE)
        time.sleep(rnd.random() * rnd.choice([0.002, 0.05, 0.3]))
        play.send_signal(signal.SIGKILL)
        out, err = play.communicate()
        lines = out.split(b'\n')[:-1]
        if err or play.returncode not in (0, -signal.SIGKILL):
            return differs('kills', seed, 'status %d, %r' % (play.returncode, err))
        counts = [int(one.split(b' ')[1]) for one in lines]
        if counts and not told <= counts[0] <= given:
            return differs('kills', seed, 'resumed at %d of %d given, %d told' % (counts[0], given, told))
        given = (counts[0] if counts else given) + inputs
        told = max([told] + counts)
    put(SCRIPT, b'')
    status, out, err = gbkeep('play', CART, SAVE, SCRIPT)
    count = int(out.split()[1]) if status == 0 else -1
    if not told <= count <= given or not compare_play('kills', seed, get(SAVE), cart, random_script(rnd, 300), 'at last'):
        return differs('kills', seed, 'resumed at %d of %d given, %d told' % (count, given, told))


def holds(rnd, seed):
    """A save file that is held is refused, and not a byte of it changed."""
    rom = random_rom(rnd)
    cart = ref.Cartridge(rom)
    new_game(rnd, rom, cart)
    image = get(SAVE)
    put(SCRIPT, b'frame 00\n')
    with open(SAVE, 'rb+') as held:
        fcntl.flock(held, fcntl.LOCK_EX)
        for words in (('play', CART, SAVE, SCRIPT), ('frame', CART, SAVE, OUT), ('debug', CART, SAVE)):
            got = gbkeep(*words, stdin=subprocess.DEVNULL)
            if got != (1, b'', b'gbkeep: device failed\n') or get(SAVE) != image:
                return differs('holds', seed, '%s: %r' % (words[0], got))
    if gbkeep('play', CART, SAVE, SCRIPT) != (0, b'resumed 0\nsaved 1\n', b''):
        differs('holds', seed, 'refused when it is free again')


# ---- what no plain file is

def short_script(rnd):
    """Its last line leaves an input, so that another game is left than before."""
    return random_script(rnd, 30).rstrip(b'\n') + b'\nsave\nframe 01\n'


def a_game(rnd):
    """A game with some inputs: its cartridge and its save file."""
    rom = random_rom(rnd)
    cart = ref.Cartridge(rom)
    new_game(rnd, rom, cart)
    put(SCRIPT, short_script(rnd))
    gbkeep('play', CART, SAVE, SCRIPT)
    put(SCRIPT, b'frame 00\n')
    return cart, get(SAVE)


def count_of(image, cart):
    game = ref.Game(image, cart)
    game.resume()
    return game.count


def gone(path):
    """Removes what stands there."""
    if os.path.isdir(path) and not os.path.islink(path):
        os.rmdir(path)
    elif os.path.lexists(path):
        os.remove(path)


def parts():
    """How many files there are that were never whole; they are taken away."""
    found = [name for name in os.listdir(ROOM) if name.startswith('.gbkeep-') and name.endswith('.part')]
    for name in found:
        os.remove(os.path.join(ROOM, name))
    return len(found)


def with_room(most, handler=signal.SIG_IGN):
    """Files end there: a write behind it fails, or by the default handler, as a shell starts a program, ends the program."""
    def limit():
        signal.signal(signal.SIGXFSZ, handler)
        resource.setrlimit(resource.RLIMIT_FSIZE, (most, most))
    return {'preexec_fn': limit}


def as_nobody():
    """Without root's leave to write everywhere."""
    if os.geteuid() != 0:
        return {}
    own = os.path.join(ROOM, 'gbkeep')
    if not os.path.exists(own):
        shutil.copy(GB, own)
        os.chmod(ROOM, 0o755)
    return {'executable': own, 'user': 65534, 'group': 65534, 'extra_groups': []}


def refuses(kind, seed, image, want, *words, **how):
    """It answers so, and SAVE, where it is a plain file, has not one other byte."""
    got = gbkeep(*words, **how)
    left = get(SAVE) if os.path.isfile(SAVE) and not os.path.islink(SAVE) else image
    if got != (1, b'', line(want)) or left != image:
        differs(kind, seed, '%s: %r, SAVE %s' % (words, got, 'as it was' if left == image else 'changed'))


def no_save_file(rnd, seed, image):
    """What stands at SAVE is no plain file: a folder, a pipe, a device."""
    def all_refuse(save):
        refuses('places', seed, image, 'device failed', 'play', CART, save, SCRIPT)
        refuses('places', seed, image, 'device failed', 'frame', CART, save, OUT)
        refuses('places', seed, image, 'device failed', 'trace', CART, save, '1')
        refuses('places', seed, image, 'device failed', 'debug', CART, save)
        refuses('places', seed, image, 'device failed', 'new', CART, save, '300')

    gone(SAVE)
    os.mkdir(SAVE)
    all_refuse(SAVE)
    gone(SAVE)
    os.mkfifo(SAVE)
    all_refuse(SAVE)
    gone(SAVE)
    os.symlink(os.path.join(ROOM, 'nothing'), SAVE)
    all_refuse(SAVE)
    if os.path.exists(os.path.join(ROOM, 'nothing')):
        differs('places', seed, 'a file was made behind a link')
    gone(SAVE)
    for save in ('/dev/null', '/dev/full', '/dev/zero', os.path.join(ROOM, 'missing', 'game.gbkeep')):
        all_refuse(save)
    put(SAVE, image)


def no_leave(seed, image):
    """SAVE may only be read; then its folder too."""
    os.chmod(SAVE, 0o444)
    for words in (('play', CART, SAVE, SCRIPT), ('frame', CART, SAVE, OUT), ('trace', CART, SAVE, '1'), ('debug', CART, SAVE)):
        refuses('places', seed, image, 'device failed', *words, **as_nobody())
    os.chmod(SAVE, 0o644)
    if tries('hostile files, what may not be written', 'root'):
        other = os.path.join(ROOM, 'other.gbkeep')
        refuses('places', seed, image, 'device failed', 'new', CART, other, '300', **as_nobody())
        if os.path.exists(other):
            differs('places', seed, 'a file was made without leave')


def other_files(seed, image):
    """CART, SCRIPT or OUT is no file that can be read or made."""
    folder = os.path.join(ROOM, 'folder')
    os.makedirs(folder, exist_ok=True)
    for path in (folder, os.path.join(folder, 'missing')):
        refuses('places', seed, image, 'file failed', 'play', path, SAVE, SCRIPT)
        refuses('places', seed, image, 'file failed', 'play', CART, SAVE, path)
        refuses('places', seed, image, 'file failed', 'info', path)
    for path in (folder, os.path.join(folder, 'missing', 'out.pgm'), os.path.join(CART, 'out.pgm')):
        refuses('places', seed, image, 'file failed', 'frame', CART, SAVE, path)
    pipe = os.path.join(ROOM, 'pipe')
    gone(pipe)
    os.mkfifo(pipe)
    for path in ('/dev/zero', '/dev/null', pipe):
        for words in (('info', path), ('step', path, '1'), ('list', path, '0', '1'), ('play', path, SAVE, SCRIPT), ('play', CART, SAVE, path),
                      ('frame', path, SAVE, OUT), ('trace', path, SAVE, '1'), ('stream', path, SAVE), ('debug', path, SAVE), ('debug', path),
                      ('new', path, SAVE, '300')):
            refuses('places', seed, image, 'file failed', *words)
    refuses('places', seed, image, 'file failed', 'frame', CART, SAVE, pipe)
    gone(pipe)
    for words in (('play', folder, folder, SCRIPT), ('frame', folder, folder, OUT), ('trace', folder, folder, '1'), ('stream', folder, folder),
                  ('debug', folder, folder)):
        refuses('places', seed, image, 'file failed', *words)
    large = os.path.join(ROOM, 'large')
    put(large, rnd_bytes(600000))
    refuses('places', seed, image, 'script line 0', 'play', CART, SAVE, large)
    gone(large)


def rnd_bytes(size):
    return b'frame\n' * (size // 3)


def sizes(seed):
    """A SAVE of more than 65,536 sectors is refused by its size alone, before it is read."""
    great = os.path.join(ROOM, 'great.gbkeep')
    for size in (1 << 30, 65537 * 512):
        with open(great, 'wb') as file:
            file.truncate(size)
        start = time.time()
        got = gbkeep('play', CART, great, SCRIPT)
        if got != (1, b'', line('device size %d' % size)) or time.time() - start > 2:
            differs('places', seed, 'a SAVE of %d bytes: %r in %.1f s' % (size, got, time.time() - start))
    gone(great)


def links(rnd, seed, image, cart):
    """A game behind a link of either kind is played as any other."""
    target = os.path.join(ROOM, 'target.gbkeep')
    for link in (os.symlink, os.link):
        gone(SAVE)
        put(target, image)
        link(target, SAVE)
        refuses('places', seed, image, 'device failed', 'new', CART, SAVE, '300')
        compare_play('places', seed, image, cart, short_script(rnd), 'behind a link')
        if get(target) != get(SAVE) or not os.path.samefile(target, SAVE):
            differs('places', seed, 'the link is another file')
    gone(SAVE)
    gone(target)
    put(SAVE, image)


def interrupted_new(rnd, seed, image):
    """Where the size of files is limited `new` ends by a signal, and leaves an empty file, which the next `new` takes up. What else stands there
    stays, whatever it has."""
    other = os.path.join(ROOM, 'other.gbkeep')
    words = ['new', CART, other, str(len(image) // 512)]
    got = gbkeep(*words, **with_room(rnd.choice([0, 512, len(image) - 1]), signal.SIG_DFL))
    if got != (-signal.SIGXFSZ, b'', b'') or get(other) != b'' or parts() != 1 or gbkeep(*words) != (0, b'begun 0\n', b''):
        differs('places', seed, 'new where the size of files is limited: %r' % (got,))
    made = get(other)
    first = 2 + (len(made) // 512 - 2) // 2
    blob = (first + 32) * 512
    unfinished = bytes(blob) + made[blob:blob + rnd.choice([0, 512, 5120])]
    unfinished += bytes(len(made) - len(unfinished))
    for left, taken in ((b'', True), (bytes(len(made)), False), (unfinished, False), (made, False), (b'x', False), (bytes(len(made) - 512), False),
                        (bytes(len(made) - 1) + b'x', False), (bytes(600) + b'x' + bytes(len(made) - 601), False), (bytes(len(made) + 512), False),
                        (bytes(512) + made[512:1024] + bytes(len(made) - 1024), False)):
        put(other, left)
        os.chmod(other, 0o644)
        got = gbkeep(*words)
        want = (0, b'begun 0\n', b'') if taken else (1, b'', line('device failed'))
        if got != want or get(other) != (made if taken else left):
            differs('places', seed, 'new where %d bytes stand, %d of them zeros: %r' % (len(left), left.count(0), got))
    with open(other, 'wb') as held:
        fcntl.flock(held, fcntl.LOCK_EX)
        refuses('places', seed, image, 'device failed', *words)
        if get(other) != b'':
            differs('places', seed, 'an empty file that is held was taken')
    gone(other)


def small_disk(seed, image):
    """On a file system that has no room for all sectors `new` is refused, and leaves nothing."""
    if not tries('hostile files, a small disk', 'root', 'unshare'):
        return
    disk = os.path.join(ROOM, 'disk')
    os.makedirs(disk, exist_ok=True)
    text = 'mount -t tmpfs -o size=%d none "$1" || exit 9; "$2" new "$3" "$1/game.gbkeep" %d; echo "$?" "$(ls -A "$1")"' % (len(image) * 7 // 8 // 4096 * 4096, len(image) // 512)
    done = subprocess.run(['unshare', '--mount', 'sh', '-c', text, 'sh', disk, GB, CART], capture_output=True, timeout=LONGEST)
    if done.returncode == 0 and (done.stdout, done.stderr) != (b'1 \n', line('device failed')):
        differs('places', seed, 'new on a small disk: %r' % ((done.stdout, done.stderr),))


def full_disk(rnd, seed, image, cart):
    """Where the disk is full no file is left of `new`, and a play keeps what it told."""
    other = os.path.join(ROOM, 'other.gbkeep')
    room = rnd.choice([0, 1, 511, 512, len(image) - 1, rnd.randrange(len(image))])
    refuses('places', seed, image, 'device failed', 'new', CART, other, str(len(image) // 512), **with_room(room))
    if os.path.exists(other):
        differs('places', seed, 'a file is left where there was no room')
    before = count_of(image, cart)
    script = short_script(rnd)
    put(SCRIPT, script)
    status, out, err = gbkeep('play', CART, SAVE, SCRIPT, **with_room(rnd.choice([0, 512, 1024, rnd.randrange(len(image))])))
    told = [int(one.split(b' ')[1]) for one in out.split(b'\n')[:-1]]
    given = before + sum(len(ref.inputs_of(move)) for move in ref.moves_of(script))
    count = count_of(get(SAVE), cart)
    answers = (status, err) in ((1, line('device failed')), (0, b''))
    if not answers or not max([before] + told) <= count <= given or status == 0 and count != given:
        differs('places', seed, 'on a full disk: %r, %d inputs, %d told' % ((status, out[-60:], err), count, max([before] + told)))
    compare_play('places', seed, get(SAVE), cart, short_script(rnd), 'after a full disk')
    put(SAVE, image)
    status, out, err = gbkeep('frame', CART, SAVE, '/dev/full')
    if (status, out, err) != (1, b'resumed %d\n' % before, line('output failed')) or count_of(get(SAVE), cart) != before:
        differs('places', seed, 'frame to a full disk: %r' % ((status, out, err),))


def places(rnd, seed):
    cart, image = a_game(rnd)
    no_save_file(rnd, seed, image)
    no_leave(seed, image)
    other_files(seed, image)
    links(rnd, seed, image, cart)
    sizes(seed)
    interrupted_new(rnd, seed, image)
    small_disk(seed, image)
    full_disk(rnd, seed, image, cart)


def pipes(rnd, seed):
    """Standard output is a pipe that nobody reads, or not to its end, or a device without room."""
    cart, image = a_game(rnd)
    before = count_of(image, cart)
    other = os.path.join(ROOM, 'other.gbkeep')
    for words in (('info', CART), ('list', CART, '0', '4096'), ('step', CART, '3'), ('trace', CART, SAVE, '9'), ('debug', CART, SAVE),
                  ('play', CART, SAVE, SCRIPT), ('frame', CART, SAVE, OUT), ('new', CART, other, str(len(image) // 512)), ('--help',)):
        reader, writer = os.pipe()
        os.close(reader)
        with open('/dev/full', 'wb') as full:
            for out in (writer, full):
                gone(other)
                done = subprocess.run([GB] + list(words), stdout=out, stderr=subprocess.PIPE, timeout=LONGEST)
                if (done.returncode, done.stderr) != (1, line('output failed')):
                    differs('pipes', seed, '%s: %r' % (words, (done.returncode, done.stderr)))
        os.close(writer)
    gone(other)
    if count_of(get(SAVE), cart) != before:
        differs('pipes', seed, 'inputs were taken behind a report that failed')
    script = b'frames 00 5\nsave\n' * 100
    put(SCRIPT, script)
    play = subprocess.Popen([GB, 'play', CART, SAVE, SCRIPT], stdout=subprocess.PIPE, stderr=subprocess.PIPE)
    read = play.stdout.read(rnd.choice([1, 10, 100]))
    play.stdout.close()
    err = play.stderr.read()
    status = play.wait(10)
    told = max([before] + [int(one.split(b' ')[1]) for one in read.split(b'\n')[:-1]])
    count = count_of(get(SAVE), cart)
    if (status, err) not in ((1, line('output failed')), (0, b'')) or not told <= count <= before + 500:
        differs('pipes', seed, 'read %r, then %r; %d inputs' % (read[-30:], (status, err), count))
    compare_play('pipes', seed, get(SAVE), cart, short_script(rnd), 'after a pipe that was closed')


def shrinks(rnd, seed):
    """No promise holds for a save file that another process cuts, but gbkeep ends, and answers a line of its own from then on."""
    cart, image = a_game(rnd)
    put(SCRIPT, b'frames 00 5\nsave\n' * 100)
    play = subprocess.Popen([GB, 'play', CART, SAVE, SCRIPT], stdout=subprocess.PIPE, stderr=subprocess.PIPE)
    play.stdout.readline()
    os.truncate(SAVE, rnd.choice([0, 512, 1024, len(image) - 512, rnd.randrange(len(image))]))
    out, err = play.communicate(timeout=LONGEST)
    if (play.returncode, err) not in ((0, b''), (1, line('device failed'))):
        differs('shrinks', seed, 'the play: %r' % ((play.returncode, err),))
    put(SCRIPT, b'')
    status, out, err = gbkeep('play', CART, SAVE, SCRIPT)
    if (status, err) != (0, b'') and (status != 1 or out or not err.startswith(b'gbkeep: ') or err.count(b'\n') != 1):
        differs('shrinks', seed, 'the next one: %r' % ((status, out, err),))
    no_longer_named(rnd, seed)


def no_longer_named(rnd, seed):
    """A save file that loses its name or its length while it is open: no `saved` is told from then on, and it has what was told before."""
    cart, image = a_game(rnd)
    aside, other = SAVE + '.aside', SAVE + '.other'
    gone(aside)
    how = rnd.choice(('removed', 'replaced', 'lengthened', 'shortened', 'moved'))
    play = subprocess.Popen([GB, 'stream', CART, SAVE], stdin=subprocess.PIPE, stdout=subprocess.PIPE, stderr=subprocess.PIPE)
    play.stdin.write(b'frames 01 %d\nsave\n' % rnd.choice([1, 60, 3199]))
    play.stdin.flush()
    play.stdout.readline()
    told = int(play.stdout.readline().split()[1])
    if how == 'removed':
        os.link(SAVE, aside), os.unlink(SAVE), os.rename(aside, other), os.unlink(other)
    elif how == 'replaced':
        put(other, image)
        os.rename(other, SAVE)
    elif how == 'moved':
        os.rename(SAVE, aside)
    else:
        os.truncate(SAVE, len(image) + (512 if how == 'lengthened' else -512))
    out, err = play.communicate(b'frames 02 %d\nsave\n' % rnd.choice([1, 60, 3199]), timeout=LONGEST)
    want = (0, b'') if how == 'moved' else (1, line('device failed'))
    if (play.returncode, err) != want or (out != b'') != (how == 'moved'):
        differs('shrinks', seed, 'a save file that is %s: %r' % (how, (play.returncode, out, err)))
    if how == 'lengthened':
        os.truncate(SAVE, len(image))
    left = {'moved': aside, 'lengthened': SAVE}.get(how)
    if left and count_of(get(left), cart) < max([told] + [int(one.split()[1]) for one in out.split(b'\n')[:-1]]):
        differs('shrinks', seed, 'a save file that is %s has not what was told' % how)
    gone(aside)


def is_emptied(old):
    """Whether `frame` takes the place of such a file: one that is empty, or begins as its pictures do."""
    return old == b'' or old.startswith(b'P2\n160 144\n3\n')


def drawn_over(rnd, seed):
    """OUT is a file with something in it: a picture takes the place of a picture, or of nothing, alone."""
    cart, image = a_game(rnd)
    put(SCRIPT, b'frame 00\n')
    gbkeep('play', CART, SAVE, SCRIPT)
    image = get(SAVE)
    gone(OUT)
    status, first, err = gbkeep('frame', CART, SAVE, OUT)
    if status:
        return          # a game whose generations are used up
    picture = get(OUT)
    for old in (b'', b'P2', b'P2, said he', b'P2\n1 1\n1\n0\n', picture + rnd.randbytes(99), picture[:rnd.randint(10, 16)], b'P', b'p2\n', b'P5\n160 144\n3\n', b' P2', b'P1\n', image[:rnd.choice([1, 2, 512, len(image)])],
                rnd.randbytes(rnd.choice([1, 2, 3, 512])), b'GBKPROOT', get(CART)[:rnd.choice([1, 2, 0x8000])]):
        put(OUT, old)
        put(SAVE, image)
        got = gbkeep('frame', CART, SAVE, OUT)
        if is_emptied(old):
            if got[0] or got[2] or get(OUT) != picture:
                differs('names', seed, 'OUT with %r is not drawn over: %r' % (old[:12], got))
        elif got != (1, b'', line('file failed')) or get(OUT) != old or get(SAVE) != image:
            differs('names', seed, 'OUT with %r: %r, and it has %r' % (old[:12], got, get(OUT)[:12]))
    gone(OUT)


def silent(rnd, seed):
    """`new` says nothing of a name that other emulators take for their battery file, and makes the same file."""
    rom = random_rom(rnd)
    put(CART, rom)
    files = []
    for name in ('one', 'one.sav', 'two.srm', 'one.SAV', '.sav', 'sav', 'one.sav.x', 'one.sa', 'srm.', 'one..srm'):
        path = os.path.join(ROOM, name)
        gone(path)
        status, out, err = gbkeep('new', CART, path)
        if (status, out, err) != (0, b'begun 0\n', b''):
            differs('names', seed, 'new of %s: %r' % (name, (status, out, err)))
        files.append(get(path))
        gone(path)
    if len(set(files)) != 1:
        differs('names', seed, 'new makes another file for another name')


def names(rnd, seed):
    """OUT is SAVE or CART, whatever it is called: it is refused before it is emptied."""
    cart, image = a_game(rnd)
    rom = get(CART)
    soft, hard = os.path.join(ROOM, 'soft'), os.path.join(ROOM, 'hard')
    for kept in (SAVE, CART):
        gone(soft), gone(hard)
        os.symlink(kept, soft), os.link(kept, hard)
        name = os.path.basename(kept)
        for path in (kept, os.path.join(ROOM, '.', name), ROOM + '//' + name, soft, hard):
            put(SAVE, image)
            refuses('names', seed, image, 'file failed', 'frame', CART, SAVE, path)
            if get(CART) != rom:
                return differs('names', seed, 'CART is lost by OUT %s' % path)
    gone(soft), gone(hard)
    drawn_over(rnd, seed)
    silent(rnd, seed)


def closed(rnd, seed):
    """A standard stream is closed: no line gets into SAVE or OUT in its place, and the game is there."""
    bare(rnd, seed)
    cart, image = a_game(rnd)
    put(SCRIPT, b'')
    gbkeep('play', CART, SAVE, SCRIPT)
    put(SCRIPT, b'frame 00\n')
    for image in (image, get(SAVE)):        # the last root is in either slot
        before = count_of(image, cart)
        for streams in ((1,), (2,), (0,), (1, 2), (0, 1), (0, 1, 2)):
            for words in (('play', CART, SAVE, SCRIPT), ('frame', CART, SAVE, OUT), ('trace', CART, SAVE, '9'), ('debug', CART, SAVE),
                          ('play', CART, SAVE, ROOM)):
                put(SAVE, image)
                gone(OUT)
                without = {'preexec_fn': lambda: [os.close(stream) for stream in streams], 'stdin': subprocess.DEVNULL}
                done = subprocess.run([GB] + list(words), stdout=subprocess.DEVNULL, stderr=subprocess.DEVNULL, timeout=LONGEST, **without)
                left = get(SAVE)
                roots = [left[at:at + 8] for at in (0, 512)]
                whole = all(root in (bytes(8), b'GBKPROOT') for root in roots) and count_of(left, cart) in (before, before + 1)
                picture = get(OUT) if os.path.exists(OUT) else b''
                if done.returncode not in (0, 1) or not whole or picture[:2] not in (b'', b'P2'):
                    differs('closed', seed, '%s without streams %s: status %d, roots %r, picture %r' % (words[0], streams, done.returncode, roots, picture[:12]))


def bare_root():
    """A folder with gbkeep, what it loads, and no /dev."""
    root = os.path.join(ROOM, 'root')
    if not os.path.exists(root):
        os.makedirs(root)
        listed = subprocess.run(['ldd', GB], capture_output=True).stdout.decode()
        for path in re.findall(r'(/\S+) \(0x', listed):
            os.makedirs(root + os.path.dirname(path), exist_ok=True)
            shutil.copy(path, root + path)
        shutil.copy(GB, root + '/gbkeep')
    return root


def bare(rnd, seed):
    """The same in a root without /dev; and one that can't be read either, where nothing is done."""
    if not tries('hostile files, a root without /dev', 'root'):
        return
    root = bare_root()
    cart, image = a_game(rnd)
    put(root + '/rom.gb', get(CART))
    put(root + '/moves.script', b'frame 01\n' * 3)
    for mode, streams in ((0o755, (1,)), (0o755, (0, 1, 2)), (0o755, (2,)), (0o711, (1,)), (0o711, (0, 1, 2))):
        def enter():
            os.chroot(root)
            os.chdir('/')
            for stream in streams:
                os.close(stream)
            if mode == 0o711:
                os.setuid(65534)
        put(root + '/game.gbkeep', image)
        os.chmod(root + '/game.gbkeep', 0o666)
        os.chmod(root, mode)
        for _ in range(3):
            done = subprocess.run(['/gbkeep', 'play', '/rom.gb', '/game.gbkeep', '/moves.script'], executable='/gbkeep', stdin=subprocess.DEVNULL,
                                  stdout=subprocess.DEVNULL, stderr=subprocess.DEVNULL, preexec_fn=enter, timeout=LONGEST)
        left = get(root + '/game.gbkeep')
        roots = [left[at:at + 8] for at in (0, 512)]
        if done.returncode not in (0, 1) or any(root not in (bytes(8), b'GBKPROOT') for root in roots) or mode == 0o711 and left != image:
            differs('closed', seed, 'in a root without /dev, mode %o, without streams %s: status %d, roots %r' % (mode, streams, done.returncode, roots))
    os.chmod(root, 0o755)


# ---- lines as they come

def state_moves(line, kept):
    """The moves of a line of a kept state, which no script has; None of any other one, and of a number under which none is kept."""
    found = re.fullmatch(rb'(keep|back) ([0-9]{1,10})', line)
    if not found or int(found[2]) > 999:
        return None
    if found[1] == b'keep':
        kept.add(int(found[2]))
        return [('told', b'kept %d\n' % int(found[2]))]
    return [('other',), ('told', b'back %d\n' % int(found[2]))] if int(found[2]) in kept else None


def moves_before(lines, switches=True):
    """The moves of the lines before the first wrong one, and its number; None where no line is wrong. A `picture` is no move."""
    moves, kept = [], set()
    for number, line in enumerate(lines, 1):
        if line == b'picture':
            continue
        others = state_moves(line, kept)
        if others is not None:
            moves += others
            continue
        try:
            if len(line) > 64 or line == b'power' and not switches:
                raise ref.Refused('no line of this')
            moves += ref.moves_of(line)
        except ref.Refused:
            return moves, number
    return moves, None


def streamed(image, cart, lines):
    """Status, output without its pictures, errors and the save file that a stream leaves."""
    game = ref.Game(image, cart)
    moves, wrong = moves_before(lines)
    try:
        game.resume()
        game.play(moves)
    except ref.Refused as why:
        return 1, game.report, line(why), game
    return (1, game.report, line('script line %d' % wrong), game) if wrong else (0, game.report, b'', game)


def without_pictures(out):
    """The lines of an output, and its pictures."""
    told, pictures, at = b'', [], 0
    while at < len(out):
        end = out.find(b'\n', at) + 1 or len(out)
        if out[at:end] == b'P2\n':
            end = at + 46093
            pictures.append(out[at:end])
        else:
            told += out[at:end]
        at = end
    return told, pictures


def streams(rnd, seed):
    """Whole, in pieces, with wrong lines and pictures; then line by line, each answer waited for; then killed."""
    cart, image = a_game(rnd)
    text = wrong_script(rnd) if rnd.random() < 0.5 else random_script(rnd, 300)
    lines = text.split(b'\n')
    for _ in range(rnd.choice([0, 1, 3])):
        lines.insert(rnd.randrange(len(lines) + 1), rnd.choice([b'picture', b'picture', b'', b'p' * 64, b'save' + b' ' * 61, b'0' * 70]))
    for _ in range(rnd.choice([0, 0, 4, 12])):
        lines.insert(rnd.randrange(len(lines) + 1), rnd.choice([b'power', b'keep 0', b'keep 7', b'back 0', b'back 7', b'back 007', b'keep 1000', b'power ']))
    text = b'\n'.join(lines)
    want = streamed(image, cart, lines)
    put(SAVE, image)
    stream = subprocess.Popen([GB, 'stream', CART, SAVE], stdin=subprocess.PIPE, stdout=subprocess.PIPE, stderr=subprocess.PIPE)
    if rnd.random() < 0.5:
        with open(SCRIPT, 'wb') as file:
            file.write(text)
        stream.stdin.close()
        stream.wait(10)
        put(SAVE, image)
        with open(SCRIPT, 'rb') as file:
            stream = subprocess.Popen([GB, 'stream', CART, SAVE], stdin=file, stdout=subprocess.PIPE, stderr=subprocess.PIPE)
            out, err = stream.communicate(timeout=LONGEST)
    else:
        out, err = stream.communicate(text, timeout=LONGEST)
    told, pictures = without_pictures(out)
    if (stream.returncode, told, err) != want[:3] or not same_file(get(SAVE), want[3]) or any(len(one) != 46093 for one in pictures):
        return differs('streams', seed, 'wanted %r got %r' % ((want[0], want[1][-60:], want[2]), (stream.returncode, told[-60:], err)))
    put(SAVE, image)
    put(SCRIPT, b'')
    right = [one for one in random_script(rnd, 30).split(b'\n') if one] + [b'save', b'picture', b'frame 00']
    stream = subprocess.Popen([GB, 'stream', CART, SAVE], stdin=subprocess.PIPE, stdout=subprocess.PIPE, stderr=subprocess.PIPE)
    # a line that is not answered before more is read would be waited for without end
    patience = threading.Timer(10, stream.kill)
    patience.start()
    report, shown = stream.stdout.readline(), b''
    answered = report.endswith(b'\n')
    for one in right:
        if not answered:
            break
        stream.stdin.write(one + b'\n')
        stream.stdin.flush()
        if one == b'save':
            report += stream.stdout.readline()
            answered = report.endswith(b'\n')
        elif one == b'picture':
            shown = stream.stdout.read(46093)
            answered = len(shown) == 46093
    patience.cancel()
    if not answered:
        stream.communicate()
        return differs('streams', seed, 'a line is not answered before more is read')
    told = int(report.split()[-1])
    if rnd.random() < 0.5:
        stream.send_signal(signal.SIGKILL)
        stream.communicate()
        if not told <= count_of(get(SAVE), cart) <= told + 1:
            return differs('streams', seed, 'killed: %d inputs, %d told' % (count_of(get(SAVE), cart), told))
        return
    rest, err = stream.communicate(timeout=LONGEST)
    want = streamed(image, cart, right)
    if (stream.returncode, report + rest, err) != want[:3] or not same_file(get(SAVE), want[3]):
        return differs('streams', seed, 'line by line: wanted %r got %r' % (want[:3], (stream.returncode, report + rest, err)))
    # the script of the same lines leaves the same bytes, and its picture is the one before the last input
    left = get(SAVE)
    put(SAVE, image)
    put(SCRIPT, b'\n'.join(one for one in right if one != b'picture'))
    got = gbkeep('play', CART, SAVE, SCRIPT)
    if got != (0, want[1], b'') or get(SAVE) != left:
        return differs('streams', seed, 'a play of the same lines: %r' % (got,))
    put(SAVE, image)
    put(SCRIPT, b'\n'.join(one for one in right[:-1] if one != b'picture'))
    gbkeep('play', CART, SAVE, SCRIPT)
    if gbkeep('frame', CART, SAVE, OUT)[0] != 0 or get(OUT) != shown:
        differs('streams', seed, 'another picture')


def injected(rnd, seed):
    if not tries('hostile files, calls of the system that fail', 'strace'):
        return False
    import injected as kind
    kind.injected(rnd, seed)


def recordings(rnd, seed):
    import recorded as kind
    kind.recordings(rnd, seed)


def batteries(rnd, seed):
    import batteries as kind
    kind.batteries(rnd, seed)


def debugs(rnd, seed):
    import debugs as kind
    kind.debugs(rnd, seed)


def states(rnd, seed):
    import states as kind
    kind.states(rnd, seed)


def hosts(rnd, seed):
    import hosts as kind
    return kind.hosts(rnd, seed)


KINDS = {'saves': saves, 'scripts': scripts, 'bytes': arbitrary, 'kills': kills, 'holds': holds, 'places': places, 'pipes': pipes,
         'shrinks': shrinks, 'names': names, 'closed': closed, 'streams': streams, 'injected': injected, 'recordings': recordings,
         'batteries': batteries, 'debugs': debugs, 'states': states, 'hosts': hosts}


def run(kind, seconds, first):
    start, seed, before = time.time(), first, differences
    while time.time() - start < seconds:
        try:
            # one that answers so has told why it tries nothing
            if KINDS[kind](random.Random('%s-%d' % (kind, seed)), seed) is False:
                return
        except subprocess.TimeoutExpired:
            differs(kind, seed, 'takes longer than %d seconds' % LONGEST)
        seed += 1
    print('kind=%s seeds %d..%d differences=%d' % (kind, first, seed - 1, differences - before), flush=True)


FUZZ = ('saves', 'scripts', 'bytes')


def main(words):
    is_fuzz = words[:1] == ['fuzz']
    words = words[1:] if is_fuzz else words
    if len(words) in (1, 2):
        first = int(words[1]) if len(words) == 2 else int(time.time())
        for kind in FUZZ if is_fuzz else KINDS:
            run(kind, float(words[0]) / (len(FUZZ) if is_fuzz else 1), first)
    elif len(words) == 3 and words[0] in KINDS:
        run(words[0], float(words[1]), int(words[2]))
    else:
        print(__doc__)
        return 2
    return 1 if differences else 0


if __name__ == '__main__':
    sys.modules['hostile'] = sys.modules['__main__']
    try:
        sys.exit(main(sys.argv[2:]))
    finally:
        shutil.rmtree(ROOM)
