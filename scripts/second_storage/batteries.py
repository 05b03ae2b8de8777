"""The kind `batteries` of hostile.py: battery files of any length that are taken and written again, what `show` prints, damaged games, and an `import`
that is killed and asked for once more."""
import hashlib, os, signal, subprocess, time
import hostile
from hostile import CART, ROOM, SAVE, OUT, SCRIPT, damaged, differs, gbkeep, line, random_rom, random_script
from gbkeep.save_files import FIXED, Cartridge, Refused, area_of, get, log_of, looked_at, need_of, put, snapshot_of

BATTERY = os.path.join(ROOM, 'game.battery')
EXPORTED = os.path.join(ROOM, 'exported.battery')
OTHER = os.path.join(ROOM, 'other.gbkeep')
WITH_BATTERY = {0x03, 0x06, 0x09, 0x0F, 0x10, 0x13, 0x1B, 0x1E}
MASKS = (0x3F, 0x3F, 0x1F, 0xFF, 0xC1)


def is_as(seed, what, got, want):
    if got != want:
        differs('batteries', seed, '%s: wanted %r got %r' % (what, want, got) if len(repr(want)) < 400 else '%s differs' % what)
    return got == want


def gone(path):
    if os.path.exists(path):
        os.remove(path)


def battery_of(snapshot, cart):
    """The battery file of the machine with this snapshot."""
    clock = b''.join(bytes([register, 0, 0, 0]) for register in snapshot[57:67]) + bytes(8) if cart.kind == 4 else b''
    return bytes(snapshot[FIXED:]) + clock


def taken(start, battery, cart, kind):
    """The snapshot of the machine at power-on with a battery file in it; else why the file is not taken."""
    if kind not in WITH_BATTERY:
        raise Refused('no battery')
    if len(battery) not in {cart.ram} | ({cart.ram + 44, cart.ram + 48} if cart.kind == 4 else set()):
        raise Refused('battery length %d, %d needed' % (len(battery), cart.ram))
    snapshot = bytearray(start)
    snapshot[FIXED:] = bytes(byte % 16 for byte in battery[:cart.ram]) if cart.kind == 2 else battery[:cart.ram]
    if len(battery) > cart.ram:
        snapshot[57:67] = bytes(battery[cart.ram + 4 * at] & MASKS[at % 5] for at in range(10))
    return bytes(snapshot)


def random_battery(rnd, cart):
    length = rnd.choice([cart.ram] * 4 + [cart.ram + 48] * 3 + [cart.ram + 44] * 2 + [0, 1, 512, cart.ram + 1, cart.ram + 47, cart.ram * 2, 8192, 32768])
    return rnd.randbytes(length)


def looks(seed, rom, cart, note):
    """What `show` and `export` answer of SAVE, and that neither writes a byte of it."""
    image = get(SAVE)
    gone(EXPORTED)
    shown, exported = gbkeep('show', CART, SAVE), gbkeep('export', CART, SAVE, EXPORTED)
    is_as(seed, note + ', SAVE', get(SAVE), image)
    if len(image) % 512:
        is_as(seed, note + ', show', shown, (1, b'', line('device size %d' % len(image))))
        return is_as(seed, note + ', export', exported, shown)
    try:
        count, root, entries = looked_at(image, cart, is_resumed=False)
    except Refused as why:
        is_as(seed, note + ', show', shown, (1, b'', line(why)))
        is_as(seed, note + ', export', exported, (1, b'', line(why if rom[0x147] in WITH_BATTERY else 'no battery')))
        return is_as(seed, note + ', OUT', os.path.exists(EXPORTED), False)
    text = shown[1].decode().split('\n')
    logged = sum(log_of(image, root)[1])
    is_as(seed, note + ', show', (shown[0], text[:5], shown[2], len(text)), (0, ['inputs %d' % count, 'logged %d' % logged, 'generation %d' % root['generation'],
          'sectors %d' % (len(image) // 512), 'rom ' + hashlib.sha256(rom).hexdigest()], b'', 7))
    snapshot = snapshot_of(image, root)
    if not logged:
        is_as(seed, note + ', state', text[5], 'state ' + hashlib.sha256(snapshot).hexdigest())
    if rom[0x147] not in WITH_BATTERY:
        return is_as(seed, note + ', export', exported, (1, b'', line('no battery')))
    is_as(seed, note + ', export', exported, (0, b'exported %d\n' % count, b''))
    if not logged:
        is_as(seed, note + ', OUT', get(EXPORTED), battery_of(snapshot, cart))
    left = get(EXPORTED)
    is_as(seed, note + ', export again', gbkeep('export', CART, SAVE, EXPORTED),
          # a file with nothing in it is taken up
          (1, b'', line('file failed')) if left else (0, b'exported %d\n' % count, b''))
    is_as(seed, note + ', OUT again', get(EXPORTED), left)


def killed(rnd, words):
    """Starts the program and kills it after a moment."""
    running = subprocess.Popen([hostile.GB] + words, stdout=subprocess.DEVNULL, stderr=subprocess.DEVNULL)
    time.sleep(rnd.random() * 0.02)
    running.send_signal(signal.SIGKILL)
    running.wait()


def batteries(rnd, seed):
    rom = bytearray(random_rom(rnd))
    if rnd.random() < 0.7:
        rom[0x147] = rnd.choice([kind for kind in (0x03, 0x06, 0x10, 0x13, 0x1B, 0x1E)])
    rom = bytes(rom)
    cart = Cartridge(rom)
    put(CART, rom)
    battery = random_battery(rnd, cart)
    put(BATTERY, battery)
    gone(SAVE), gone(OTHER)
    gbkeep('new', CART, OTHER)
    first = get(OTHER)
    start = snapshot_of(first, {'generation': 1, 'length': cart.length})
    need = need_of(cart.length)
    sectors = rnd.choice([None, None, need, need + 3, need - 1])
    words = ['import', CART, BATTERY, SAVE] + ([] if sectors is None else [str(sectors)])
    if rnd.random() < 0.2:
        killed(rnd, words)
        if os.path.exists(SAVE) and get(SAVE)[512:528] == b'GBKPROOT' + bytes([2, 0, 0, 0, 1, 0, 0, 0]):
            gone(SAVE)      # it was begun before it was killed
    got = gbkeep(*words)
    try:
        snapshot = taken(start, battery, cart, rom[0x147])
        if sectors == need - 1:
            raise Refused('too small, %d sectors needed' % need)
    except Refused as why:
        is_as(seed, 'import', got, (1, b'', line(why)))
        is_as(seed, 'a refused import, SAVE', os.path.exists(SAVE), False)
        return
    if not is_as(seed, 'import', got, (0, b'begun 0\n', b'')):
        return
    image = get(SAVE)
    is_as(seed, 'sectors', len(image), 512 * (sectors or need))
    is_as(seed, 'snapshot', snapshot_of(image, {'generation': 1, 'length': cart.length}), snapshot)
    if sectors in (None, need):
        at = (2 + area_of(image, 1)[1] + 32) * 512
        is_as(seed, 'the rest', image[:at] + image[at + cart.length:], first[:at] + first[at + cart.length:])
    looks(seed, rom, cart, 'imported')
    put(SCRIPT, random_script(rnd, 300))
    gbkeep('play', CART, SAVE, SCRIPT)
    looks(seed, rom, cart, 'played')
    gbkeep('frame', CART, SAVE, OUT)
    looks(seed, rom, cart, 'resumed')
    put(SAVE, damaged(rnd, get(SAVE), cart, Cartridge(random_rom(rnd))))
    looks(seed, rom, cart, 'damaged')
