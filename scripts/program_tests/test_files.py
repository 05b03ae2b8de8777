"""Files that the program must not lose: whatever stands where it would write, whatever is done to a file while it is open, and wherever it is ended."""
import hashlib
import os
import resource
import subprocess
import time

from room import LOOP, PGM, PICTURE, SECONDS
from scripts.doctor import tries
from test_recordings import cartridge, copy, new_pair, unchanged

# what `export` writes of a cartridge with 32 KiB of RAM and a battery
RAM = 32_768


def battery_cartridge(room, name='kept.gb'):
    room.rom(name, LOOP, {0x147: 0x03, 0x149: 0x03})


def names(room):
    return sorted(path.name for path in room.folder.iterdir())


def without_parts(room):
    """The names in the folder but those of files that were never whole, and how many of these there are."""
    found = names(room)
    parts = [name for name in found if name.startswith('.gbkeep-') and name.endswith('.part')]
    return [name for name in found if name not in parts], len(parts)


def limited(room, words, most):
    """Runs a command that may write no more than so many bytes to a file: a longer write ends it by a signal."""
    def limit():
        resource.setrlimit(resource.RLIMIT_CORE, (0, 0))
        resource.setrlimit(resource.RLIMIT_FSIZE, (most, most))
    room.runs += 1
    done = subprocess.run([room.program, *words.split()], capture_output=True, cwd=room.folder, timeout=SECONDS, preexec_fn=limit)
    return done.returncode, done.stdout


def test_a_file_that_is_no_picture_is_not_emptied(room):
    cartridge(room)
    battery_cartridge(room)
    new_pair(room, 'game.gbkeep', 'game.rec')
    room.done('new kept.gb kept.gbkeep', 'begun 0\n')
    room.done('new game.gb plain.gbkeep', 'begun 0\n')
    room.done('export kept.gb kept.gbkeep kept.sav', 'exported 0\n')
    room.write('notes.txt', 'P1\n1 1\n0\n')
    room.write('one.txt', 'P')
    # what only begins as a picture does
    room.write('plan.txt', 'P2, as we said, is the second part\n')
    room.write('other.pgm', 'P2\n160 144\n15\n')
    room.write('cut.pgm', PGM[:-1])
    room.rom('p2.gb', '', {0: ord('P'), 1: ord('2')})
    files = 'game.rec', 'kept.gbkeep', 'kept.gb', 'kept.sav', 'notes.txt', 'one.txt', 'plan.txt', 'other.pgm', 'cut.pgm', 'p2.gb', 'game.gb', 'plain.gbkeep'
    with unchanged(room, *files):
        for out in files:
            room.refused(f'frame game.gb plain.gbkeep {out}', 'gbkeep: file failed\n')
        # two words that changed places
        room.refused('frame pic.pgm plain.gbkeep game.gb', 'gbkeep: file failed\n')
        room.write('pic.pgm', PGM)
        room.refused('frame pic.pgm plain.gbkeep game.gb', 'gbkeep: file failed\n')
    for old in (None, b'', PGM, PGM + bytes(PICTURE)):
        if old is not None:
            room.write('out.pgm', old)
        room.done('frame game.gb game.gbkeep out.pgm', 'resumed 0\n')
        room.expect('the picture', (room.read('out.pgm')[:len(PGM)], room.size('out.pgm')), (PGM, PICTURE))


def test_what_stands_at_a_name_is_not_replaced(room):
    """Neither a file of zeros as long as what would be made, nor one of another owner or that others may write, nor a link, even to nothing."""
    cartridge(room)
    battery_cartridge(room)
    room.done('new game.gb game.gbkeep', 'begun 0\n')
    room.done('new kept.gb kept.gbkeep', 'begun 0\n')
    room.done('export kept.gb kept.gbkeep kept.sav', 'exported 0\n')
    room.expect('the battery file is of zeros', room.read('kept.sav'), bytes(RAM))
    copy(room, 'kept.gbkeep', 'zeros.gbkeep')
    room.write('zeros.gbkeep', bytes(room.size('kept.gbkeep')))
    for name, mode in (('group', 0o664), ('all', 0o666)):
        room.write(name, b'')
        os.chmod(room.folder / name, mode)
    os.symlink('nowhere', room.folder / 'link')
    os.symlink('all', room.folder / 'link2')
    os.mkdir(room.folder / 'folder')
    taken = ['kept.sav', 'zeros.gbkeep', 'game.gbkeep', 'game.gb', 'group', 'all', 'link', 'link2', 'folder']
    if tries('program, files of others', 'root'):
        room.write('other', b'')
        os.chown(room.folder / 'other', 65534, 65534)
        taken.append('other')
    files = [name for name in taken if name not in ('link', 'folder')]
    before = names(room)
    with unchanged(room, *files):
        for name in taken:
            for words in (f'new game.gb {name} {RAM // 512 + 200}', f'new kept.gb {name}', f'import kept.gb kept.sav {name}',
                          f'new-recording game.gb {name} {RAM // 512}'):
                room.refused(words, 'gbkeep: device failed\n')
            room.refused(f'export kept.gb kept.gbkeep {name}', 'gbkeep: file failed\n')
    room.expect('the files in the folder', names(room), before)
    room.write('empty', b'')
    os.chmod(room.folder / 'empty', 0o644)
    room.done('export kept.gb kept.gbkeep empty', 'exported 0\n')
    room.expect('a file of its own that was empty', room.read('empty'), bytes(RAM))


def test_a_file_gets_its_name_when_it_is_whole(room):
    """Where a command is ended, the next one makes the file."""
    cartridge(room)
    battery_cartridge(room)
    room.done('new kept.gb kept.gbkeep', 'begun 0\n')
    room.done('export kept.gb kept.gbkeep kept.sav', 'exported 0\n')
    for words, name, said in (
        ('export kept.gb kept.gbkeep {}', 'again.sav', 'exported 0\n'),
        ('new kept.gb {}', 'again.gbkeep', 'begun 0\n'),
        ('import kept.gb kept.sav {}', 'imported.gbkeep', 'begun 0\n'),
        ('new-recording game.gb {} 40', 'again.rec', 'begun 0\n'),
    ):
        words = words.format(name)
        for most in (0, 512, 8_192):
            status, out = limited(room, words, most)
            room.expect(f'{words} within {most} bytes', (status < 0, out), (True, b''))
            room.expect(f'what {words} leaves within {most} bytes', room.size(name), 0)
        room.done(words, said)
        room.expect(f'the mode of {name}', (room.folder / name).stat().st_mode & 0o777, 0o666 & ~umask())
    room.expect('parts are left, and nothing else', without_parts(room)[0],
                ['again.gbkeep', 'again.rec', 'again.sav', 'game.gb', 'imported.gbkeep', 'kept.gb', 'kept.gbkeep', 'kept.sav'])
    room.done('show kept.gb again.gbkeep', room.printed('show kept.gb kept.gbkeep').decode())


def umask():
    mask = os.umask(0)
    os.umask(mask)
    return mask


def with_stack(room, words, given, kibibytes):
    """Runs a command with so small a stack."""
    def limit():
        resource.setrlimit(resource.RLIMIT_CORE, (0, 0))
        resource.setrlimit(resource.RLIMIT_STACK, (kibibytes * 1024, kibibytes * 1024))
    room.runs += 1
    done = subprocess.run([room.program, *words.split()], input=given.encode(), capture_output=True, cwd=room.folder, timeout=SECONDS, preexec_fn=limit)
    return done.returncode, done.stdout, done.stderr


def test_a_small_stack_loses_nothing(room):
    """With 256 KiB, `debug` with 320, each command does what it does with more. With less it may end by a signal, and what was saved stays."""
    cartridge(room)
    room.write('one.script', 'frames 01 60\n')
    room.done('new game.gb game.gbkeep', 'begun 0\n')
    room.done('play game.gb game.gbkeep one.script', 'resumed 0\nsaved 60\n')
    copy(room, 'game.gbkeep', 'kept.gbkeep')
    lines = ('until 1000 FFFF\nregisters\nhistory 5\nframes 00 2\npicture\ndigest\nstep 9\nprofile 9\nset C000 01\nset-register HL 1\nkeep 1\nback 1\npower\n'
             'memory 0 32\nlist 100 5\nuntil-write 9 0 FFFF\nstate\n')
    commands = (('debug game.gb game.gbkeep', lines, 320), ('stream game.gb game.gbkeep', 'frame 01\npicture\nkeep 1\nback 1\npower\nmemory 0 32\nstate\n', 256),
                ('play game.gb game.gbkeep one.script', '', 256), ('frame game.gb game.gbkeep out.pgm', '', 256), ('trace game.gb game.gbkeep 5', '', 256),
                ('show game.gb game.gbkeep', '', 256))
    for words, given, enough in commands:
        copy(room, 'kept.gbkeep', 'game.gbkeep')
        wanted = room.run(words, given)
        room.expect(f'{words}: the status with the stack that is usual', wanted[0], 0)
        for kibibytes in (enough, 240, 224, 200, 160, 128, 96, 64):
            copy(room, 'kept.gbkeep', 'game.gbkeep')
            got = with_stack(room, words, given, kibibytes)
            is_cut = got[0] < 0 and wanted[1].startswith(got[1]) and kibibytes < enough
            room.expect(f'{words} with {kibibytes} KiB of stack', got if not is_cut else wanted, wanted)
            counts = [int(line.split()[1]) for line in got[1].split(b'\n') if line.startswith((b'resumed ', b'saved '))]
            held = room.printed('show game.gb game.gbkeep').split()[1]
            room.expect(f'{words} with {kibibytes} KiB of stack: what was told is there', int(held) >= max(counts, default=60), True)


def test_a_refused_command_leaves_no_file(room):
    battery_cartridge(room)
    room.rom('small.gb', LOOP)
    room.done('new kept.gb kept.gbkeep', 'begun 0\n')
    before = names(room)
    room.refused('new kept.gb other.gbkeep 20', 'gbkeep: too small, 284 sectors needed\n')
    room.refused('new kept.gb missing/other.gbkeep', 'gbkeep: device failed\n')
    room.refused('export small.gb kept.gbkeep other.sav', 'gbkeep: no battery\n')
    room.refused('export kept.gb kept.gbkeep missing/other.sav', 'gbkeep: file failed\n')
    room.expect('the files in the folder', names(room), before)


def talk(room, words):
    room.runs += 1
    return subprocess.Popen([room.program, *words.split()], stdin=subprocess.PIPE, stdout=subprocess.PIPE, stderr=subprocess.PIPE, cwd=room.folder)


def test_nothing_is_told_of_a_file_that_is_gone(room):
    """A file that is removed, replaced or cut short while it is open is a device that failed: no `saved` is told of it."""
    cartridge(room)

    def remove(path):
        path.unlink()

    def replace(path):
        os.replace(path.with_name('old.copy'), path)

    def cut(path):
        os.truncate(path, 4096)

    def lengthen(path):
        with open(path, 'ab') as file:
            file.write(bytes(512))
    for change in (remove, replace, cut, lengthen):
        for command, spoilt in (('stream', 'game.gbkeep'), ('record', 'game.gbkeep'), ('record', 'game.rec')):
            what = f'{command}, where {spoilt} was {change.__name__}d'
            for name in ('game.gbkeep', 'game.rec', 'game.gbkeep.recorded', 'old.copy'):
                (room.folder / name).unlink(missing_ok=True)
            new_pair(room, 'game.gbkeep', 'game.rec', 40)
            copy(room, spoilt, 'old.copy')
            words = f'{command} game.gb game.gbkeep' + (' game.rec' if command == 'record' else '')
            process = talk(room, words)
            process.stdin.write(b'frames 01 60\nsave\n')
            process.stdin.flush()
            told = process.stdout.readline() + process.stdout.readline()
            room.expect(f'{what}: before', told, b'resumed 0\nsaved 60\n')
            change(room.folder / spoilt)
            out, err = process.communicate(b'frames 02 60\nsave\n', timeout=SECONDS)
            room.expect(f'{what}: after', (process.returncode, out, err), (1, b'', b'gbkeep: device failed\n'))
    # a name of its own is enough, whichever it is
    room.done('new game.gb moved.gbkeep', 'begun 0\n')
    process = talk(room, 'stream game.gb moved.gbkeep')
    room.expect('the first line', process.stdout.readline(), b'resumed 0\n')
    (room.folder / 'moved.gbkeep').rename(room.folder / 'found.gbkeep')
    out, err = process.communicate(b'frames 02 60\nsave\n', timeout=SECONDS)
    room.expect('a file that was moved', (process.returncode, out, err), (0, b'saved 60\n', b''))
    room.done('stream game.gb found.gbkeep', 'resumed 60\n')


def test_a_recorded_game_is_played_by_record_alone(room):
    cartridge(room)
    room.write('one.script', 'frame 01\n')
    new_pair(room, 'game.gbkeep', 'game.rec')
    new_pair(room, 'plain.gbkeep', 'plain.rec')
    os.symlink('game.gbkeep', room.folder / 'link.gbkeep')
    room.done('record game.gb game.gbkeep game.rec', 'resumed 0\nsaved 1\n', 'frame 01\n')
    room.expect('the mark', room.read('game.gbkeep.recorded'), mark_of('game.rec', 1, 0))
    with unchanged(room, 'game.gbkeep', 'game.rec', 'game.gbkeep.recorded'):
        for name in ('game.gbkeep', 'link.gbkeep', './game.gbkeep'):
            room.refused(f'play game.gb {name} one.script', 'gbkeep: recorded game: play it by record\n')
            room.refused(f'stream game.gb {name}', 'gbkeep: recorded game: play it by record\n', given='frame 01\n')
        room.done('show game.gb game.gbkeep', room.printed('show game.gb game.gbkeep').decode())
        room.done('verify game.gb game.gbkeep game.rec', 'agree 1\n')
    # what gives a game nothing takes it up
    room.done('frame game.gb game.gbkeep picture.pgm', 'resumed 1\n')
    room.done('trace game.gb game.gbkeep 1', room.printed('trace game.gb game.gbkeep 1').decode())
    room.done('record game.gb game.gbkeep game.rec', 'resumed 1\nsaved 2\n', 'frame 01\n')
    # a mark is the game's own: a new game has none, and a file that is no mark stays
    for name in ('game.gbkeep', 'plain.gbkeep'):
        (room.folder / name).unlink()
    room.write('plain.gbkeep.recorded', 'of mine\n')
    room.done('new game.gb game.gbkeep', 'begun 0\n')
    room.done('new game.gb plain.gbkeep', 'begun 0\n')
    room.expect('the mark of the game before', room.size('game.gbkeep.recorded'), None)
    room.expect('a file that is no mark', room.read('plain.gbkeep.recorded'), b'of mine\n')
    room.done('play game.gb game.gbkeep one.script', 'resumed 0\nsaved 1\n')


def test_a_recording_of_another_play_is_refused(room):
    """Before either file is written to: where it is too far ahead, and where its inputs lead to another machine."""
    cartridge(room)
    battery_cartridge(room)
    room.write('other.script', 'frames 02 94\n')
    new_pair(room, 'game.gbkeep', 'game.rec', 40)
    room.done('record game.gb game.gbkeep game.rec', 'resumed 0\nsaved 3200\nsaved 3300\n', 'frames 01 3300\n')
    room.done('new game.gb other.gbkeep', 'begun 0\n')
    room.done('play game.gb other.gbkeep other.script', 'resumed 0\nsaved 94\n')
    new_pair(room, 'short.gbkeep', 'short.rec')
    room.done('record game.gb short.gbkeep short.rec', 'resumed 0\nsaved 100\n', 'frames 01 100\n')
    with unchanged(room, 'game.rec', 'short.rec', 'other.gbkeep'):
        room.refused('record game.gb other.gbkeep game.rec', 'gbkeep: recording ahead, 3300 inputs\n', given='frame 01\n')
        room.refused('record game.gb other.gbkeep short.rec', 'gbkeep: machines differ\n', given='frame 01\n')
    room.expect('a game that was not taken has no mark', room.size('other.gbkeep.recorded'), None)
    # an imported game begins with another machine than the one at power-on
    room.write('some.sav', bytes([1]) + bytes(RAM - 1))
    room.done('import kept.gb some.sav imported.gbkeep', 'begun 0\n')
    room.done('new-recording kept.gb imported.rec 8', 'begun 0\n')
    with unchanged(room, 'imported.gbkeep', 'imported.rec'):
        room.refused('record kept.gb imported.gbkeep imported.rec', 'gbkeep: machines differ\n', given='frame 01\n')


def test_import_alone_warns_of_a_name_of_battery_files(room):
    battery_cartridge(room)
    room.write('some.bat', bytes(RAM))
    room.write('none', '')
    warning = 'gbkeep: warning: other emulators write battery files of this name\n'
    for command in ('new kept.gb', 'import kept.gb some.bat'):
        for name, told in (('a.gbkeep', ''), ('a.sav', warning), ('a.srm', warning), ('.sav', warning), ('a.sav.gbkeep', ''), ('asav', ''), ('sav', '')):
            room.compared(f'{command} {name}', '', 0, b'begun 0\n', told.encode() if command.startswith('import') else b'')
            room.refused(f'{command} {name}', 'gbkeep: device failed\n')
            room.done(f'play kept.gb {name} none', 'resumed 0\n')
            (room.folder / name).unlink()


# ---- the mark of a recorded game

def long_pair(room, name, lines):
    """A game of 21,000 inputs, more than are replayed when it is taken up, and its recording."""
    new_pair(room, f'{name}.gbkeep', f'{name}.rec', 40)
    saved = ''.join(f'saved {count}\n' for count in (*range(3200, 21_000, 3200), 21_000))
    room.done(f'record game.gb {name}.gbkeep {name}.rec', f'resumed 0\n{saved}', lines)


def mark_of(recording, buttons, count):
    """A mark as it is after a game of these frames was taken up: each input is five bytes."""
    return f'{recording}\ngbkeep record\n{count} {hashlib.sha256(bytes([0, buttons, 0, 0, 0]) * count).hexdigest()}\n'.encode()


def test_a_mark_knows_its_recording(room):
    """The recording of another play is refused, however long the game is, and one that was moved or lengthened is taken."""
    cartridge(room)
    long_pair(room, 'game', 'frames 01 21000\n')
    long_pair(room, 'other', 'frames 01 20998\nseconds 5\nframe 01\n')
    room.expect('a mark of a new game', room.read('game.gbkeep.recorded'), mark_of('game.rec', 1, 0))
    # a mark that knows no input: one of another name is compared by its machine, however long the game is
    with unchanged(room, 'game.gbkeep', 'game.rec', 'other.gbkeep', 'other.rec', 'game.gbkeep.recorded'):
        room.refused('record game.gb game.gbkeep other.rec', 'gbkeep: machines differ\n', given='frame 01\n')
    (room.folder / 'game.rec').rename(room.folder / 'first.rec')
    room.done('record game.gb game.gbkeep first.rec', 'resumed 21000\n')
    (room.folder / 'first.rec').rename(room.folder / 'game.rec')
    room.done('record game.gb game.gbkeep game.rec', 'resumed 21000\nsaved 21001\n', 'frame 01\n')
    room.expect('the mark', room.read('game.gbkeep.recorded'), mark_of('game.rec', 1, 21_000))
    room.done('record game.gb other.gbkeep other.rec', 'resumed 21000\nsaved 21002\n', 'frames 01 2\n')
    # one of as many inputs, whose machine is compared as long as the mark does not know all of the game's
    for refusal in ('machines differ', 'other recording'):
        with unchanged(room, 'game.gbkeep', 'game.rec', 'other.gbkeep', 'other.rec', 'game.gbkeep.recorded'):
            room.refused('record game.gb game.gbkeep other.rec', f'gbkeep: {refusal}\n', given='frame 01\n')
        room.done('record game.gb game.gbkeep game.rec', 'resumed 21001\n')
    # a recording that has fewer inputs than the mark knows is an older copy, of a game that is one
    copy(room, 'game.gbkeep', 'old.gbkeep')
    copy(room, 'game.rec', 'old.rec')
    room.done('record game.gb game.gbkeep game.rec', 'resumed 21001\nsaved 21002\n', 'frame 01\n')
    room.done('record game.gb game.gbkeep game.rec', 'resumed 21002\n')
    copy(room, 'old.gbkeep', 'game.gbkeep')
    with unchanged(room, 'game.gbkeep', 'old.rec', 'game.gbkeep.recorded'):
        room.refused('record game.gb game.gbkeep old.rec', 'gbkeep: other recording\n', given='frame 01\n')
    (room.folder / 'game.rec').rename(room.folder / 'moved.rec')
    room.done('record game.gb game.gbkeep moved.rec', 'resumed 21002\nsaved 21003\n', 'frame 01\n')
    room.expect('the mark of a recording that was moved', room.read('game.gbkeep.recorded'), mark_of('moved.rec', 1, 21_001))
    room.expect('no other file is left', [name for name in names(room) if 'part' in name], [])


def test_a_mark_of_two_lines_is_completed(room):
    cartridge(room)
    new_pair(room, 'game.gbkeep', 'game.rec')
    room.done('record game.gb game.gbkeep game.rec', 'resumed 0\nsaved 3\n', 'frames 01 3\n')
    room.write('game.gbkeep.recorded', 'game.rec\ngbkeep record\n')
    room.done('record game.gb game.gbkeep game.rec', 'resumed 3\n')
    room.expect('the mark', room.read('game.gbkeep.recorded'), mark_of('game.rec', 1, 3))
    # a name may have lines of its own
    name = 'two\nlines\ngbkeep record\n0 0.rec'
    (room.folder / 'game.rec').rename(room.folder / name)
    room.compared(['record', 'game.gb', 'game.gbkeep', name], 'frame 01\n', 0, b'resumed 3\nsaved 4\n', b'')
    room.expect('the mark of such a name', room.read('game.gbkeep.recorded'), mark_of(name, 1, 3))
    room.compared(['record', 'game.gb', 'game.gbkeep', name], 'frame 01\n', 0, b'resumed 4\nsaved 5\n', b'')


def test_what_is_no_mark_is_refused(room):
    cartridge(room)
    new_pair(room, 'game.gbkeep', 'game.rec')
    room.done('record game.gb game.gbkeep game.rec', 'resumed 0\nsaved 3\n', 'frames 01 3\n')
    mark, whole = room.folder / 'game.gbkeep.recorded', mark_of('game.rec', 1, 3)
    wrong = [b'', b'of mine\n', b'game.rec\n', whole[:-1], whole + b'\n', whole.replace(b'3 ', b'03 '), whole.replace(b'3 ', b'18446744073709551616 '),
             whole.upper(), whole.replace(b'gbkeep record', b'gbkeep records'), whole[:-2] + b'\n', b'\xff' + bytes(9000)]
    for junk in wrong:
        mark.write_bytes(junk)
        with unchanged(room, 'game.gbkeep', 'game.rec', 'game.gbkeep.recorded'):
            room.refused('record game.gb game.gbkeep game.rec', 'gbkeep: file failed\n', given='frame 01\n')
            room.refused('stream game.gb game.gbkeep', 'gbkeep: recorded game: play it by record\n', given='frame 01\n')
    mark.unlink()
    os.mkdir(mark)
    room.refused('record game.gb game.gbkeep game.rec', 'gbkeep: file failed\n', given='frame 01\n')
    os.rmdir(mark)
    os.symlink('nowhere', mark)
    room.refused('record game.gb game.gbkeep game.rec', 'gbkeep: file failed\n', given='frame 01\n')
    room.expect('a link to nothing stays one', (os.readlink(mark), room.size('nowhere')), ('nowhere', None))
    mark.unlink()
    room.done('record game.gb game.gbkeep game.rec', 'resumed 3\nsaved 4\n', 'frame 01\n')
    room.expect('the mark', mark.read_bytes(), whole)


# ---- calls of the system that fail

def traced(room, words, *injected):
    """Status, output and errors of a command of which some calls fail, or end it."""
    room.runs += 1
    done = subprocess.run(['strace', '-f', '-qq', '-o', '/dev/null', *injected, room.program, *words.split()], capture_output=True, cwd=room.folder, timeout=SECONDS)
    return done.returncode, done.stdout, done.stderr


def test_a_mark_stays_until_the_new_game_has_its_name(room):
    if not tries('program, calls of the system that fail', 'strace'):
        return
    cartridge(room)
    battery_cartridge(room)
    room.write('some.bat', bytes(RAM))
    # of three lines and of two
    for mark in (mark_of('game.rec', 1, 3), b'game.rec\ngbkeep record\n'):
        for command in ('new kept.gb', 'import kept.gb some.bat'):
            for how in ('error=EIO', 'signal=KILL'):
                room.write('game.gbkeep.recorded', mark)
                status, out, _ = traced(room, f'{command} game.gbkeep', '-e', 'trace=rename', '-e', f'inject=rename:{how}')
                room.expect(f'{command}, {how} at the rename', (status != 0, out, room.read('game.gbkeep.recorded')), (True, b'', mark))
                (room.folder / 'game.gbkeep').unlink(missing_ok=True)
            room.done(f'{command} game.gbkeep', 'begun 0\n')
            room.expect(f'{command}: the mark of the game before', room.size('game.gbkeep.recorded'), None)
            (room.folder / 'game.gbkeep').unlink()


def test_a_file_that_was_moved_to_the_name_stays(room):
    """Where the folder's sync fails behind the rename, only the file that was made goes."""
    if not tries('program, calls of the system that fail', 'strace'):
        return
    cartridge(room)
    battery_cartridge(room)
    room.write('some.bat', bytes(RAM))
    room.done('new kept.gb kept.gbkeep', 'begun 0\n')
    for command, name, fault in (('new kept.gb', 'made.gbkeep', 'device failed'), ('import kept.gb some.bat', 'made.gbkeep', 'device failed'),
                                 ('new-recording kept.gb', 'made.rec', 'device failed'), ('export kept.gb kept.gbkeep', 'made.sav', 'file failed')):
        words, path = f'{command} {name}' + ' 8' * command.startswith('new-'), room.folder / name
        calls = room.folder / 'calls'
        subprocess.run(['strace', '-f', '-qq', '-o', calls, '-e', 'trace=fsync', room.program, *words.split()], capture_output=True, cwd=room.folder, timeout=SECONDS)
        last = calls.read_text().count('fsync(')
        path.unlink()
        fails = f'inject=fsync:error=EIO:delay_enter=400000:when={last}'
        status, out, err = traced(room, words, '-e', 'trace=fsync', '-e', fails)
        room.expect(f'{command}: refused, and no file is left', (status, out, err, path.exists()), (1, b'', f'gbkeep: {fault}\n'.encode(), False))
        room.write('another', b'of mine')
        slow = subprocess.Popen(['strace', '-f', '-qq', '-o', '/dev/null', '-e', 'trace=fsync', '-e', fails, room.program, *words.split()], cwd=room.folder,
                                stdout=subprocess.PIPE, stderr=subprocess.PIPE)
        room.runs += 1
        until = time.monotonic() + SECONDS
        while not (path.exists() and path.stat().st_size) and time.monotonic() < until:
            time.sleep(0.01)
        os.replace(room.folder / 'another', path)
        out, err = slow.communicate(timeout=SECONDS)
        room.expect(f'{command}: a file that was moved there', (slow.returncode, out, err, room.read(name)), (1, b'', f'gbkeep: {fault}\n'.encode(), b'of mine'))
        path.unlink(missing_ok=True)


def test_no_command_waits_for_a_file(room):
    """A file of the system whose length says nothing, one that gives less than its length says, and one that would wait for ever."""
    cartridge(room)
    battery_cartridge(room)
    room.done('new kept.gb kept.gbkeep', 'begun 0\n')
    room.write('empty', b'')
    room.refused('info empty', 'gbkeep: rom length 0\n')
    files = ['/proc/version']
    if tries('program, a file of the system that waits', 'root'):
        files.append('/proc/kmsg')
    files += [path for path in ('/sys/kernel/uevent_seqnum', '/sys/kernel/mm/transparent_hugepage/enabled') if os.path.exists(path)][:1]
    for path in files:
        with unchanged(room, 'kept.gbkeep'):
            for words in (f'info {path}', f'step {path} 1', f'play kept.gb kept.gbkeep {path}', f'import kept.gb {path} new.gbkeep', f'new {path} new.gbkeep'):
                room.refused(words, 'gbkeep: file failed\n')
        room.expect('no file is made', room.size('new.gbkeep'), None)
