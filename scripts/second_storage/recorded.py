"""The kind `recordings` of hostile.py: a game and its recording, compared byte for byte with recordings.py, damaged, cut, full, of another ROM, and
killed in the middle."""
import os, signal, subprocess, time
import hostile
import recordings as ref
from hostile import CART, ROOM, SAVE, OUT, a_game, differs, gbkeep, line, moves_before, random_script, same_file, without_pictures
from gbkeep.save_files import Cartridge, Refused, get, inputs_of, looked_at, moves_of, put

RECORDING = os.path.join(ROOM, 'game.recording')
OTHER = os.path.join(ROOM, 'other.recording')
MARK = SAVE + '.recorded'


def is_as(kind, seed, what, got, want):
    if got != want:
        differs('recordings', seed, '%s: wanted %r got %r' % (what, want, got))
    return got == want


def new_recording(rnd, seed, cart, sectors):
    if os.path.exists(RECORDING):
        os.remove(RECORDING)
    got = gbkeep('new-recording', CART, RECORDING, str(sectors))
    return is_as('recordings', seed, 'new-recording', got, (0, b'begun 0\n', b'')) and is_as(
        'recordings', seed, 'a new recording', get(RECORDING), bytes(ref.new_recording(sectors, cart)))


def mark():
    """The bytes of the mark; None where there is none."""
    return get(MARK) if os.path.exists(MARK) else None


def recorded(image, recording, cart, lines, agree):
    """Status, output without its pictures, errors, and the game with its files that `record` leaves. `agree`: the machine of the game is the one
    after the recorded inputs, which this reader can't see."""
    game = ref.RecordedGame(image, recording, cart, agree, mark(), RECORDING.encode())
    moves, wrong = moves_before(lines, switches=False)
    try:
        game.take_up()
        game.play(moves)
    except Refused as why:
        return 1, game.report, line(why), game
    return (1, game.report, line('script line %d' % wrong), game) if wrong else (0, game.report, b'', game)


def compare_record(seed, cart, lines, note, agree=True):
    """Records the lines in both; says whether they agree."""
    image, recording = get(SAVE), get(RECORDING)
    want = recorded(image, recording, cart, lines, agree)
    done = subprocess.run([hostile.GB, 'record', CART, SAVE, RECORDING], input=b'\n'.join(lines), capture_output=True, timeout=hostile.LONGEST)
    if wrong_size():
        is_as('recordings', seed, note, (done.returncode, done.stdout, done.stderr), wrong_size())
        return is_as('recordings', seed, note + ', files', (get(SAVE), get(RECORDING)), (image, recording))
    told, _ = without_pictures(done.stdout)
    files = same_file(get(SAVE), want[3]), get(RECORDING) == want[3].recorded(), mark() == want[3].mark
    good = (done.returncode, told, done.stderr) == want[:3] and all(files)
    if not good:
        files = 'SAVE %s, RECORDING %s, its mark %s' % tuple('as wanted' if one else 'differs' for one in files)
        differs('recordings', seed, '%s wanted %r got %r, %s' % (note, (want[0], want[1][-60:], want[2]), (done.returncode, told[-60:], done.stderr), files))
    return good


def wrong_size():
    """The answer where a file is not of whole sectors: both are opened, SAVE first, before either is read."""
    for length in map(len, map(get, (SAVE, RECORDING))):
        if length % 512:
            return 1, b'', line('device size %d' % length)
    return None


def compare_looks(seed, cart, note):
    """What `recorded` prints, and that neither it nor `verify` writes a byte; says whether the two agree."""
    image, recording = get(SAVE), get(RECORDING)
    try:
        inputs = ref.Recording(recording, cart).inputs
        want = (0, ref.script_of(inputs), b'')
    except Refused as why:
        inputs, want = None, (1, b'', line(why))
    is_as('recordings', seed, note + ', recorded', gbkeep('recorded', CART, RECORDING), want)
    status, out, err = gbkeep('verify', CART, SAVE, RECORDING)
    if (get(SAVE), get(RECORDING)) != (image, recording):
        differs('recordings', seed, note + ': a look wrote')
    if wrong_size():
        return is_as('recordings', seed, note + ', verify', (status, out, err), wrong_size())
    try:
        count, _, _ = looked_at(image, cart, is_resumed=False)
    except Refused as why:
        return is_as('recordings', seed, note + ', verify', (status, out, err), (1, b'', line(why)))
    if inputs is None:
        return is_as('recordings', seed, note + ', verify', (status, out, err), want)
    if len(inputs) < count:
        return is_as('recordings', seed, note + ', verify', (status, out, err), (1, b'', line('recording behind, %d inputs' % len(inputs))))
    if (status, out, err) not in ((0, b'agree %d\n' % count, b''), (1, b'', line('machines differ'))):
        differs('recordings', seed, '%s, verify: %r' % (note, (status, out, err)))
    return status == 0


def random_lines(rnd, most):
    text = hostile.wrong_script(rnd, switches=False) if rnd.random() < 0.15 else random_script(rnd, most, switches=False)
    lines = text.split(b'\n')
    for _ in range(rnd.choice([0, 0, 1])):
        lines.insert(rnd.randrange(len(lines) + 1), rnd.choice([b'picture', b'', b'p' * 64]))
    return lines


def damaged(rnd, recording, cart, other):
    """The recording with something wrong, or nothing."""
    image = bytearray(recording)
    choice, sectors = rnd.randrange(9), len(recording) // 512
    if choice == 0:
        for _ in range(rnd.choice([1, 2, 40])):
            image[rnd.randrange(len(image))] ^= 1 << rnd.randrange(8)
    elif choice == 1:
        image[rnd.randrange(64)] ^= 1 << rnd.randrange(8)
    elif choice == 2:
        image[:512] = ref.head_of(other)
    elif choice == 3:
        image = image[:rnd.choice([0, 1, 511, 512, 1024, 1025, len(image) - 512, rnd.randrange(len(image))])]
    elif choice == 4:
        a, b = rnd.randrange(sectors) * 512, rnd.randrange(sectors) * 512
        image[a:a + 512], image[b:b + 512] = image[b:b + 512], image[a:a + 512]
    elif choice == 5:       # what an append that was cut may leave after the end
        held = ref.Recording(recording, cart)
        number = held.full + rnd.choice([2, 3])
        if number < sectors:
            image[number * 512:(number + 1) * 512] = ref.list_sector(number, [b'\0\7\1\0\0\0'] * rnd.choice([1, 83]))
    elif choice == 6 and sectors > 1:
        at = 512 + 10 + 6 * rnd.randrange(83)
        image[at:at + 6] = rnd.choice([b'\2\0\0\0\0\0', b'\0\0\0\0\0\0', b'\0\1' + (216001).to_bytes(4, 'little'), b'\1\1\0\0\0\1', rnd.randbytes(6)])
    elif choice == 7:
        image += bytes(rnd.choice([1, 512, 3 * 512]))
    return bytes(image)


def killed(rnd, seed, cart):
    """`record` is killed: the two files agree, and hold what was told."""
    lines = b''.join(b'frames %02x %d\nseconds 3\nsave\n' % (rnd.randrange(256), rnd.choice([1, 7, 100])) for _ in range(200))
    given = len(ref.Recording(get(RECORDING), cart).inputs) + sum(len(inputs_of(move)) for move in moves_of(lines))
    play = subprocess.Popen([hostile.GB, 'record', CART, SAVE, RECORDING], stdin=subprocess.PIPE, stdout=subprocess.PIPE, stderr=subprocess.PIPE)
    play.stdin.write(lines)
    play.stdin.flush()
    time.sleep(rnd.random() * rnd.choice([0.002, 0.05, 0.3]))
    play.send_signal(signal.SIGKILL)
    out, err = play.communicate()
    counts = [int(one.split(b' ')[1]) for one in out.split(b'\n')[:-1]]
    told = max([0] + counts)
    count, _, _ = looked_at(get(SAVE), cart)
    inputs = len(ref.Recording(get(RECORDING), cart).inputs)
    if err or not told <= count <= inputs <= given:
        return differs('recordings', seed, 'killed: %d told, %d in SAVE, %d in RECORDING, %d given, %r' % (told, count, inputs, given, err))
    if not compare_looks(seed, cart, 'killed'):
        return differs('recordings', seed, 'killed: the two do not agree')
    return compare_record(seed, cart, [b'save', b'frame 01'], 'after a kill')


def same_again(seed, cart):
    """What `recorded` prints, played on a new SAVE, gives the same game."""
    script = gbkeep('recorded', CART, RECORDING)[1]
    other = os.path.join(ROOM, 'again.gbkeep')
    if os.path.exists(other):
        os.remove(other)
    gbkeep('new', CART, other)
    done = subprocess.run([hostile.GB, 'stream', CART, other], input=script, capture_output=True, timeout=hostile.LONGEST)
    first, second = gbkeep('frame', CART, SAVE, OUT), None
    drawn = get(OUT)
    second = gbkeep('frame', CART, other, OUT)
    if done.returncode or first[:2] != second[:2] or get(OUT) != drawn:
        differs('recordings', seed, 'the recording played again is another game: %r %r' % (first, second))


def other_mark(rnd, inputs):
    """A mark, or what is none: None where the file goes."""
    name = rnd.choice([b'game.rec', RECORDING.encode(), b'', b'two\nlines'])
    known = rnd.randint(0, len(inputs))
    whole = ref.mark_of(name, inputs[:known])
    wrong = ref.mark_of(name, inputs[:known][:-1] + [b'\0\x5a'])
    return rnd.choice([None, whole, wrong, name + b'\ngbkeep record\n', whole[:rnd.randrange(len(whole))], whole.replace(b'\n%d ' % known, b'\n%d ' % (known + 1)), b'', rnd.randbytes(9)])


def recordings(rnd, seed):
    try:
        of_a_pair(rnd, seed)
    finally:
        hostile.gone(MARK)


def of_a_pair(rnd, seed):
    cart, _ = a_game(rnd)
    hostile.gone(SAVE)
    gbkeep('new', CART, SAVE)
    if not new_recording(rnd, seed, cart, rnd.choice([2, 3, 5, 40, 200])):
        return
    for _ in range(rnd.choice([1, 2, 3])):
        if not compare_record(seed, cart, random_lines(rnd, 2000), 'sound') or not compare_looks(seed, cart, 'sound'):
            return
    same_again(seed, cart)
    sound, recording = get(SAVE), get(RECORDING)
    for _ in range(3):
        put(SAVE, sound), put(RECORDING, recording)
        other = other_mark(rnd, ref.Recording(recording, cart).inputs)
        hostile.gone(MARK) if other is None else put(MARK, other)
        compare_record(seed, cart, [b'frames 01 3'], 'the mark %r' % other)
        compare_record(seed, cart, [b'frames 02 3'], 'after the mark %r' % other)
    put(SAVE, sound), put(RECORDING, recording), hostile.gone(MARK)
    other = Cartridge(hostile.random_rom(rnd))
    # a recording that is ahead: the rest of it is given to the game
    compare_record(seed, cart, [b'frames 01 9', b'seconds 2', b'save'], 'one save more')
    put(SAVE, sound)
    compare_record(seed, cart, [b'frame 02'], 'ahead')
    # one that is further ahead than a power cut leaves it
    put(SAVE, sound)
    for _ in range(2):
        compare_record(seed, cart, [b'frames %02x %d' % (rnd.randrange(256), rnd.choice([1, 1600, 3200]))], 'more')
    put(SAVE, sound)
    compare_record(seed, cart, [b'frame 02'], 'far ahead')
    for turn in range(5):
        # of the older recording the mark does not know
        if turn:
            hostile.gone(MARK)
        put(SAVE, sound if rnd.random() < 0.7 else hostile.damaged(rnd, sound, cart, other))
        put(RECORDING, damaged(rnd, recording, cart, other))
        agree = compare_looks(seed, cart, 'damage %d' % turn)
        compare_record(seed, cart, random_lines(rnd, 300), 'damage %d' % turn, agree)
    put(SAVE, sound), put(RECORDING, recording)
    for words in (('record', CART, SAVE, SAVE), ('verify', CART, SAVE, SAVE)):
        status, out, err = gbkeep(*words, stdin=subprocess.DEVNULL)
        if (status, out, err) != (1, b'', line('file failed')) or get(SAVE) != sound:
            differs('recordings', seed, '%s with one file for both: %r' % (words[0], (status, out, err)))
    if len(recording) > 40 * 512:
        killed(rnd, seed, cart)
