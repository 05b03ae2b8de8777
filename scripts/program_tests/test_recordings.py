"""What `record` leaves in a game and in its recording, how the two are compared, what `recorded` prints, and what `show` says of a game that it
doesn't change.

What a game has to be is not read from its file: a debugger that begins at power-on is given the inputs, and prints the digest of its machine."""
import hashlib
from contextlib import contextmanager

from room import LOOP

# turns the display off and halts, so that many frames take no time
HALTS = '3e00 e040 76 18fd'
# what a game of a cartridge with a clock and 8 KiB of RAM has
CLOCK_SECTORS = 188
# bytes of a sector, entries that fit in one of a recording, and frames of the longest run
SECTOR, FULL, LONGEST = 512, 83, 216_000


# ---- games and recordings

def cartridge(room, name='game.gb', title='A'):
    """One with a clock and RAM, so that each frame and each second leaves another machine."""
    room.rom(name, HALTS, {0x134: ord(title), 0x147: 0x10, 0x149: 0x02})


def new_pair(room, save, recording, sectors=8, cart='game.gb'):
    room.done(f'new {cart} {save}', 'begun 0\n')
    room.done(f'new-recording {cart} {recording} {sectors}', 'begun 0\n')


def copy(room, old, new):
    room.write(new, room.read(old))


def seconds_of(count):
    """Lines of seconds that each leave another machine."""
    return [f'seconds {at % 7 + 1}' for at in range(count)]


def text_of(lines):
    return ''.join(f'{line}\n' for line in lines)


def new_recording_of(room, recording, lines, cart='game.gb'):
    """A recording of these inputs, made by `record` along with a game of its own."""
    new_pair(room, f'{recording}.gbkeep', recording, 20, cart)
    room.done(f'record {cart} {recording}.gbkeep {recording}', f'resumed 0\nsaved {len(lines)}\n', text_of(lines))


@contextmanager
def unchanged(room, *names):
    """No byte of these files is another after the runs inside. Which calls a run makes of a file is not seen here: it may sync it."""
    before = [room.read(name) for name in names]
    yield
    for name, bytes_before in zip(names, before):
        room.expect(f'{name} is unchanged', room.read(name) == bytes_before, True)


# ---- what the files hold

def inputs_of(script):
    """The inputs that a script asks for, each as a line."""
    inputs = []
    for line in script.splitlines():
        words = line.split()
        inputs += [f'frame {words[1]}'] * int(words[2]) if words[0] == 'frames' else [line]
    return inputs


def state_after(room, inputs):
    """The line of `show` with the digest of the machine after these inputs from power-on."""
    answers = room.printed('debug game.gb', text_of([*inputs, 'digest'])).decode().splitlines()
    room.expect(f'what is answered before the digest of {len(inputs)} inputs', answers[:-1], ['done'] * len(inputs))
    return ''.join(answers[-1:]).replace('digest', 'state')


def agree(room, save, recording, count, recorded):
    """The game has so many inputs and the recording has so many, and the machine of the game is the one after the first of them. `verify` says so,
    and a debugger that is given the recorded inputs. Neither file is changed."""
    with unchanged(room, save, recording):
        room.done(f'verify game.gb {save} {recording}', f'agree {count}\n')
        inputs = inputs_of(room.printed(f'recorded game.gb {recording}').decode())
        shown = room.printed(f'show game.gb {save}').decode().splitlines()
    room.expect(f'how many inputs {recording} has', len(inputs), recorded)
    room.expect(f'how many inputs {save} has', shown[:1], [f'inputs {count}'])
    room.expect(f'the machine of {save}', shown[-1:], [state_after(room, inputs[:count])])


def shows(room, save, inputs, logged, generation):
    """`show` prints these numbers and the digests of the ROM and of the machine after these inputs, and changes nothing."""
    rom = hashlib.sha256(room.read('game.gb')).hexdigest()
    with unchanged(room, save):
        room.done(f'show game.gb {save}', f'''\
inputs {len(inputs)}
logged {logged}
generation {generation}
sectors {CLOCK_SECTORS}
rom {rom}
{state_after(room, inputs)}
''')


# ---- files byte by byte

def frames(buttons, times):
    return bytes([0, buttons]) + times.to_bytes(4, 'little')


def seconds(count):
    return b'\1' + count.to_bytes(4, 'little') + b'\0'


def recording_of(rom, sectors, entries):
    """A recording of this ROM with these entries."""
    parts = [b'GBKPRECD' + (1).to_bytes(4, 'little') + hashlib.sha256(rom).digest()]
    for at in range(0, len(entries), FULL):
        held = entries[at:at + FULL]
        parts.append(b'GBR1' + len(parts).to_bytes(4, 'little') + len(held).to_bytes(2, 'little') + b''.join(held))
    return b''.join(part.ljust(SECTOR, b'\0') for part in parts).ljust(sectors * SECTOR, b'\0')


def give_to_the_first_generation(room, save, entries):
    """Writes inputs into the log of a new game: the program itself begins another generation before it does."""
    image = bytearray(room.read(save))
    log = b'GBL2' + (0).to_bytes(2, 'little') + len(entries).to_bytes(2, 'little') + b''.join(entries)
    # generation 1 has the second of the two areas
    at = (2 + (CLOCK_SECTORS - 2) // 2) * SECTOR
    image[at:at + len(log)] = log
    room.write(save, bytes(image))


# ---- recorded plays

def test_a_play_is_recorded(room):
    lines, report = 'frames 01 3\nsave\nseconds 5\n\nframe 80\nsave\nseconds 7', 'resumed 0\nsaved 3\nsaved 5\nsaved 6\n'
    cartridge(room)
    new_pair(room, 'game.gbkeep', 'game.rec')
    copy(room, 'game.gbkeep', 'streamed.gbkeep')
    room.done('record game.gb game.gbkeep game.rec', report, lines)
    agree(room, 'game.gbkeep', 'game.rec', 6, 6)
    # the report is that of a stream, and so is the game
    room.done('stream game.gb streamed.gbkeep', report, lines)
    agree(room, 'streamed.gbkeep', 'game.rec', 6, 6)
    # and it is played on
    room.done('record game.gb game.gbkeep game.rec', 'resumed 6\nsaved 8\n', 'frames 02 2\n')
    agree(room, 'game.gbkeep', 'game.rec', 8, 8)
    room.done('recorded game.gb game.rec', 'frames 01 3\nseconds 5\nframes 80 1\nseconds 7\nframes 02 2\n')


def test_a_recording_ahead_is_caught_up_with(room):
    cartridge(room)
    new_pair(room, 'played.gbkeep', 'game.rec')
    copy(room, 'played.gbkeep', 'first.gbkeep')
    copy(room, 'played.gbkeep', 'second.gbkeep')
    room.done('record game.gb played.gbkeep game.rec', 'resumed 0\nsaved 4\nsaved 6\n', 'frames 01 3\nseconds 5\nsave\nframes 02 2\n')
    agree(room, 'first.gbkeep', 'game.rec', 0, 6)
    with unchanged(room, 'game.rec'):
        room.done('record game.gb first.gbkeep game.rec', 'resumed 6\n')
    agree(room, 'first.gbkeep', 'game.rec', 6, 6)
    room.done('record game.gb second.gbkeep game.rec', 'resumed 6\nsaved 7\n', 'seconds 9')
    agree(room, 'second.gbkeep', 'game.rec', 7, 7)


def test_many_inputs_are_recorded_once(room):
    """More than 3,200 inputs are saved on the way. What a power cut leaves the game behind is at most what one save holds."""
    cartridge(room)
    new_pair(room, 'game.gbkeep', 'game.rec')
    copy(room, 'game.gbkeep', 'first.gbkeep')
    room.done('record game.gb game.gbkeep game.rec', 'resumed 0\nsaved 100\n', 'frames 01 100\n')
    copy(room, 'game.gbkeep', 'old.gbkeep')
    room.done('record game.gb game.gbkeep game.rec', 'resumed 100\nsaved 3300\n', 'frames 01 3200\n')
    agree(room, 'game.gbkeep', 'game.rec', 3300, 3300)
    with unchanged(room, 'first.gbkeep', 'game.rec'):
        room.refused('record game.gb first.gbkeep game.rec', 'gbkeep: recording ahead, 3300 inputs\n', given='frame 01\n')
    room.done('record game.gb old.gbkeep game.rec', 'resumed 3300\n')
    agree(room, 'old.gbkeep', 'game.rec', 3300, 3300)
    room.done('recorded game.gb game.rec', 'frames 01 3300\n')
    room.done('record game.gb game.gbkeep game.rec', 'resumed 3300\nsaved 6500\nsaved 6600\n', 'frames 01 3300\n')
    agree(room, 'game.gbkeep', 'game.rec', 6600, 6600)


def test_a_recording_that_does_not_belong_is_refused(room):
    lines = 'seconds 1\nseconds 2\nsave\nseconds 3\n'
    cartridge(room)
    cartridge(room, 'other.gb', 'B')
    new_pair(room, 'new.gbkeep', 'new.rec')
    new_pair(room, 'played.gbkeep', 'played.rec')
    room.done('new-recording other.gb other.rec 8', 'begun 0\n')
    room.write('blank.rec', bytes(8 * SECTOR))
    room.done('record game.gb played.gbkeep played.rec', 'resumed 0\nsaved 2\nsaved 3\n', lines)
    for words, why in (
        ('game.gb played.gbkeep new.rec', 'recording behind, 0 inputs'),
        # of another ROM is first the recording, and then the game
        ('game.gb played.gbkeep other.rec', 'other cartridge'),
        ('other.gb played.gbkeep other.rec', 'other cartridge'),
        ('game.gb new.gbkeep played.gbkeep', 'no recording'),
        ('game.gb new.gbkeep blank.rec', 'no recording'),
    ):
        with unchanged(room, *words.split()):
            room.refused(f'record {words}', f'gbkeep: {why}\n', given=lines)


def test_a_full_recording_stops_the_play(room):
    """It stops before anything of that save is written."""
    fits = 41 * 'seconds 1\nframe 01\n' + 'save\n'
    cartridge(room)
    new_pair(room, 'game.gbkeep', 'game.rec', 2)
    new_pair(room, 'before.gbkeep', 'before.rec', 2)
    room.refused('record game.gb game.gbkeep game.rec', 'gbkeep: recording full\n', given=fits + 'seconds 1\nseconds 2\nsave\n',
                 out='resumed 0\nsaved 82\n')
    agree(room, 'game.gbkeep', 'game.rec', 82, 82)
    room.done('record game.gb before.gbkeep before.rec', 'resumed 0\nsaved 82\n', fits)
    for name, before in (('game.gbkeep', 'before.gbkeep'), ('game.rec', 'before.rec')):
        room.expect(f'{name} is as the save before left it', room.read(name) == room.read(before), True)


def test_a_wrong_line_ends_the_play(room):
    """What came before it is saved and recorded."""
    cartridge(room)
    new_pair(room, 'game.gbkeep', 'game.rec')
    room.refused('record game.gb game.gbkeep game.rec', 'gbkeep: script line 3\n', given='frame 01\nseconds 2\nfram 01\nframe 02\n',
                 out='resumed 0\nsaved 2\n')
    agree(room, 'game.gbkeep', 'game.rec', 2, 2)


# ---- recordings as scripts

def test_runs_and_seconds(room):
    cartridge(room)
    new_pair(room, 'game.gbkeep', 'game.rec', 20)
    room.done('recorded game.gb game.rec', '')
    # each save is an append
    room.done('record game.gb game.gbkeep game.rec', 'resumed 0\nsaved 3\nsaved 5\nsaved 7\nsaved 8\n',
              'frames 00 3\nsave\nframes A5 2\nsave\nseconds 4294967295\nseconds 0\nsave\nframe A5\n')
    room.done('recorded game.gb game.rec', 'frames 00 3\nframes A5 2\nseconds 4294967295\nseconds 0\nframes A5 1\n')
    entries = [frames(0, 3), frames(0xa5, 2), seconds(4_294_967_295), seconds(0), frames(0xa5, 1)]
    room.expect('the recording', room.read('game.rec'), recording_of(room.read('game.gb'), 20, entries))


def test_a_run_of_many_entries_is_in_lines_of_a_million(room):
    room.rom('loop.gb', LOOP)
    # two and a half million frames, in runs that are no longer than the longest
    entries = 11 * [frames(1, LONGEST)] + [frames(1, 2_500_000 - 11 * LONGEST), frames(2, 1)]
    room.write('long.rec', recording_of(room.read('loop.gb'), 20, entries))
    room.done('recorded loop.gb long.rec', 'frames 01 1000000\nframes 01 1000000\nframes 01 500000\nframes 02 1\n')


def test_a_run_goes_on_in_the_next_sector(room):
    wanted = 82 * 'seconds 9\n' + 'frames 03 300000\n'
    cartridge(room)
    # with the first run the first sector is full
    written = 82 * [seconds(9)] + [frames(3, LONGEST), frames(3, 300_000 - LONGEST)]
    room.write('written.rec', recording_of(room.read('game.gb'), 20, written))
    room.done('recorded game.gb written.rec', wanted)
    # the program saves 3,200 frames at a time, and never writes a full sector again, so that the first run stays as short
    played = 82 * [seconds(9)] + [frames(3, 3200), frames(3, LONGEST), frames(3, 300_000 - 3200 - LONGEST)]
    new_pair(room, 'game.gbkeep', 'game.rec', 20)
    saves = ['resumed 0', *(f'saved {82 + count}' for count in (*range(0, 300_000, 3200), 300_000))]
    room.done('record game.gb game.gbkeep game.rec', text_of(saves), 82 * 'seconds 9\n' + 'save\nframes 03 300000\n')
    room.done('recorded game.gb game.rec', wanted)
    room.expect('the recording', room.read('game.rec'), recording_of(room.read('game.gb'), 20, played))
    room.done('verify game.gb game.gbkeep game.rec', 'agree 300082\n')


# ---- games against recordings

def played_seconds(room, save, count):
    """A game that was given so many seconds by `play`."""
    room.write('seconds', text_of(seconds_of(count)))
    room.done(f'new game.gb {save}', 'begun 0\n')
    room.done(f'play game.gb {save} seconds', f'resumed 0\nsaved {count}\n')


def test_a_recording_with_as_many_inputs_or_more_agrees(room):
    cartridge(room)
    played_seconds(room, 'game.gbkeep', 4)
    for more in range(3):
        new_recording_of(room, f'{more}.rec', seconds_of(4 + more))
        agree(room, 'game.gbkeep', f'{more}.rec', 4, 4 + more)


def test_what_does_not_agree_is_refused(room):
    cartridge(room)
    cartridge(room, 'other.gb', 'B')
    played_seconds(room, 'game.gbkeep', 4)
    new_recording_of(room, 'behind.rec', seconds_of(3))
    new_recording_of(room, 'same.rec', seconds_of(4))
    new_recording_of(room, 'other.rec', seconds_of(4), 'other.gb')
    room.write('blank.rec', bytes(20 * SECTOR))
    room.write('blank.gbkeep', bytes(CLOCK_SECTORS * SECTOR))
    for files, why in (
        ('game.gbkeep behind.rec', 'recording behind, 3 inputs'),
        ('game.gbkeep blank.rec', 'no recording'),
        ('game.gbkeep other.rec', 'other cartridge'),
        ('blank.gbkeep same.rec', 'no session'),
    ):
        with unchanged(room, *files.split()):
            room.refused(f'verify game.gb {files}', f'gbkeep: {why}\n')
    # the recording that was not reached agrees with the game
    agree(room, 'game.gbkeep', 'same.rec', 4, 4)


def test_machines_differ(room):
    cartridge(room)
    played_seconds(room, 'game.gbkeep', 4)
    new_recording_of(room, 'game.rec', 4 * ['seconds 1'])
    with unchanged(room, 'game.gbkeep', 'game.rec'):
        room.refused('verify game.gb game.gbkeep game.rec', 'gbkeep: machines differ\n')


# ---- looks at games

def test_a_look_writes_nothing(room):
    cartridge(room)
    room.done('new game.gb game.gbkeep', 'begun 0\n')
    shows(room, 'game.gbkeep', [], 0, 1)
    give_to_the_first_generation(room, 'game.gbkeep', [seconds(count) for count in range(1, 6)])
    shows(room, 'game.gbkeep', seconds_of(5), 5, 1)
    # one that the program played is in its second generation
    played_seconds(room, 'played.gbkeep', 5)
    shows(room, 'played.gbkeep', seconds_of(5), 5, 2)


def test_a_look_is_resumed(room):
    cartridge(room)
    room.done('new game.gb game.gbkeep', 'begun 0\n')
    give_to_the_first_generation(room, 'game.gbkeep', [seconds(count) for count in range(1, 6)])
    shows(room, 'game.gbkeep', seconds_of(5), 5, 1)
    room.done('stream game.gb game.gbkeep', 'resumed 5\nsaved 7\n', 'seconds 6\nseconds 7\n')
    shows(room, 'game.gbkeep', seconds_of(7), 2, 2)


def test_looks_are_refused(room):
    cartridge(room)
    cartridge(room, 'other.gb', 'B')
    played_seconds(room, 'game.gbkeep', 1)
    room.write('blank.gbkeep', bytes(CLOCK_SECTORS * SECTOR))
    for words, why in (('game.gb blank.gbkeep', 'no session'), ('other.gb game.gbkeep', 'other cartridge')):
        with unchanged(room, *words.split()):
            room.refused(f'show {words}', f'gbkeep: {why}\n')
