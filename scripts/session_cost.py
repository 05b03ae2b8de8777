"""What a session costs on a file: the calls that the program makes of a save file, and how long a save, a play and a resume take.

usage: session_cost.py GBKEEP

Calls are the reads, writes and syncs of the save file alone, counted by strace (Debian's package; without it they are left out), on new games of a cartridge
with a clock and 8 KiB of RAM, whose snapshot has 30,799 bytes and whose save file 188 sectors. Of `new`, and of `play` of an empty script, which is a resume
with nothing unsaved, those before the second sync make or attach the file, and those from it on are the game's. Of a save they are what a `stream` of these
inputs and `save` makes more than one without both, so that what starts it does not count, and a call that an input made would. 3,200 inputs are saved
before `save` is read, which then has nothing to do. The last save has one input more than a log of 2,688 inputs that all differ can take, so that the
log is replaced by a snapshot.

Times: 200 saves of 60 inputs in one `stream`, from the line `save` to its answer. The 60 frames are given before, with `picture`, and the picture is read,
so that they have been played and the program waits. After each save `debug` plays as many and draws a picture, and then Python writes 512 bytes to a file
beside the save file, and syncs it. 200 saves of nothing, also after a picture each, make no call: they are the way to the program and back. Where a sync
takes now a tenth of a millisecond and now some, the medians jump, and the fastest tenth less. Then, of a busy loop: wall and processor time of `play` of
36,000 frames with a save after every 60, and of the same frames in one line; and the processor time of a resume whose log has 216,000 frames, which is full,
and of the `stream` that gave it these frames. Each of these is the least of three, since whatever else the computer does only adds to it."""
import os
import re
import resource
import shutil
import statistics
import subprocess
import sys
import tempfile
import time
from pathlib import Path

# JR 0100, with a clock and 8 KiB of RAM
CLOCK = {0x100: [0x18, 0xfe], 0x147: [0x10], 0x149: [0x02]}
# LD B,03; then for ever ADD A,B; INC B; XOR A,C; LD C,A; RL C; INC HL; JR 0102
BUSY = {0x100: [0x06, 0x03, 0x80, 0x04, 0xa9, 0x4f, 0xcb, 0x11, 0x23, 0x18, 0xf7]}
READS, WRITES, SYNCS = ('read', 'pread64'), ('write', 'pwrite64'), ('fsync', 'fdatasync')
CALL = re.compile(r'\d+ +(\w+)\(.*\) += (\d+)$')
SAVES = 200
PICTURE = 46_093
FULL = 216_000


class Room:
    """A folder with a cartridge, its save file, another file, a script and a trace."""

    def __init__(self, gbkeep, folder, cartridge):
        self.gbkeep = gbkeep
        self.cart, self.save, self.bare, self.script, self.trace = (os.path.join(folder, name) for name in ('rom.gb', 'game.gbkeep', 'bare', 'moves', 'trace'))
        rom = bytearray(0x8000)
        for at, code in cartridge.items():
            rom[at:at + len(code)] = code
        Path(self.cart).write_bytes(rom)

    def words(self, command, *more):
        return [self.gbkeep, command, self.cart, self.save, *more]

    def new(self, *sectors, under=()):
        Path(self.save).unlink(missing_ok=True)
        subprocess.run([*under, *self.words('new', *sectors)], check=True, capture_output=True)

    def play(self, script):
        Path(self.script).write_bytes(script)
        return self.words('play', self.script)


# ---- calls

def strace(room, *of):
    names = ','.join(READS + WRITES + SYNCS)
    return ['strace', '-f', '-qq', '-s', '0', *(of or ('-P', room.save)), '-e', 'trace=' + names, '-o', room.trace]


def traced(room, name=''):
    """The names and answers of the calls of the last trace, in order: those of a file whose name has this in it."""
    found = [(row, CALL.match(row)) for row in open(room.trace) if name in row]
    for row, call in found:
        if not call:
            sys.exit('a call that failed, or that strace did not print whole: ' + row)
    return [(call[1], int(call[2])) for _, call in found]


def counted(calls):
    """Reads, writes, syncs, and bytes written."""
    return [sum(name in names for name, _ in calls) for names in (READS, WRITES, SYNCS)] + [sum(answer for name, answer in calls if name in WRITES)]


def parted(calls):
    """Those before the second sync, and those from it on."""
    second = [at for at, (name, _) in enumerate(calls) if name in SYNCS][1]
    return calls[:second], calls[second:]


def streamed(room, text):
    """What a stream of this text makes of a new game's file."""
    room.new('188')
    subprocess.run([*strace(room), *room.words('stream')], check=True, capture_output=True, input=text)
    return counted(traced(room))


def frames(count, run):
    """So many frames, with other buttons after every so many."""
    return b''.join(b'frames %02x %d\n' % (at // run % 2, run) for at in range(0, count, run))


def print_calls(what, counts):
    print('%s: %d reads, %d writes, %d syncs, %d bytes' % (what, *counts))


def count_calls(room):
    # a new game has another name until it is whole
    room.new('188', under=strace(room, '-y'))
    made, begun = parted(traced(room, '.part>'))
    print_calls('new on 188 sectors, its file', counted(made))
    print_calls('new on 188 sectors, its game', counted(begun))
    subprocess.run([*strace(room), *room.play(b'')], check=True, capture_output=True)
    attached, resumed = parted(traced(room))
    print_calls('resume with nothing unsaved, its file', counted(attached))
    print_calls('resume with nothing unsaved, its game', counted(resumed))
    one, full = frames(1, 1) + b'save\n', frames(2688, 1) + b'save\n'
    for what, before, more in (('save of 1 input', b'', one),
                               ('save of 60 inputs that all differ', b'', frames(60, 1) + b'save\n'),
                               ('save of 3200 frames in runs of ten', b'', frames(3200, 10) + b'save\n'),
                               ('save of 3200 frames in one run', b'', frames(3200, 3200) + b'save\n'),
                               ('save of 2688 inputs that all differ, a whole log', b'', full),
                               ('save of nothing', one, b'save\n'),
                               ('save of 1 input behind a whole log, a replace by a snapshot', full, one)):
        print_calls(what, [many - few for many, few in zip(streamed(room, before + more), streamed(room, before))])


# ---- times

def started(words, answer):
    process = subprocess.Popen(words, stdin=subprocess.PIPE, stdout=subprocess.PIPE)
    if process.stdout.read(len(answer)) != answer:
        sys.exit('%s: not begun' % words[1])
    return process


def wait_for(process, text, head=b''):
    """Gives lines, and reads the picture that comes after all that they ask for: the program waits then."""
    process.stdin.write(text + b'picture\n')
    process.stdin.flush()
    answer = process.stdout.read(len(head) + PICTURE)
    if len(answer) != len(head) + PICTURE or not answer.startswith(head + b'P2\n'):
        sys.exit('%r: no picture' % text)


def timed_save(stream, inputs):
    before = time.perf_counter()
    stream.stdin.write(b'save\n')
    stream.stdin.flush()
    answer = stream.stdout.readline()
    after = time.perf_counter()
    if answer != b'saved %d\n' % inputs:
        sys.exit('stream: %r, wanted the save of %d inputs' % (answer, inputs))
    return after - before


def timed_write(file):
    before = time.perf_counter()
    os.pwrite(file, b'\7' * 512, 188 * 512)
    os.fsync(file)
    return time.perf_counter() - before


def timed_saves(stream, other, file):
    """Of each round the save and the bare write; and the saves of nothing."""
    rounds, nothings = [], []
    for done in range(SAVES):
        second = b'frames %02x 60\n' % (done % 2)
        wait_for(stream, second)
        a_save = timed_save(stream, 60 * done + 60)
        # so that neither finds the processor's memory warmer, or the disk less long at rest
        wait_for(other, second, b'done\n')
        rounds.append((a_save, timed_write(file)))
    for _ in range(SAVES):
        wait_for(stream, b'')
        nothings.append(timed_save(stream, 60 * SAVES))
    return [*zip(*rounds), nothings]


def time_saves(room):
    room.new()
    # as long as a save file and a sector more, so that no write lengthens it
    Path(room.bare).write_bytes(bytes(189 * 512))
    with open(room.bare, 'r+b') as bare, started(room.words('stream'), b'resumed 0\n') as stream, started([room.gbkeep, 'debug', room.cart], b'') as other:
        os.fsync(bare.fileno())
        columns = timed_saves(stream, other, bare.fileno())
    medians = [1e6 * statistics.median(column) for column in columns]
    tenths = [1e6 * statistics.quantiles(column, n=10)[0] for column in columns]
    names = 'save of 60 inputs', 'bare write of 512 bytes and its sync', 'save of nothing, the way there and back'
    for name, median, tenth in zip(names, medians, tenths):
        print('%s: median of %d %.0f us; a tenth takes no more than %.0f us' % (name, SAVES, median, tenth))
    print('a save less its way, of a bare write: %.0f %%; by the tenths %.0f %%'
          % tuple(100 * (save - nothing) / write for save, write, nothing in (medians, tenths)))


def times(words, answer, text=b''):
    """Wall and processor time of a command, whose last line is this answer."""
    before, start = resource.getrusage(resource.RUSAGE_CHILDREN), time.monotonic()
    done = subprocess.run(words, check=True, capture_output=True, input=text)
    wall, after = time.monotonic() - start, resource.getrusage(resource.RUSAGE_CHILDREN)
    if done.stdout.splitlines()[-1] != answer:
        sys.exit('%s: %r, wanted %r' % (words[1], done.stdout[-80:], answer))
    return wall, after.ru_utime - before.ru_utime + after.ru_stime - before.ru_stime


def played(room, script):
    """Wall and processor time of a play of 36,000 frames on a new game."""
    def once():
        room.new()
        return times(room.play(script), b'saved 36000')
    return [min(column) for column in zip(*(once() for _ in range(3)))]


def time_play(room):
    often = played(room, b''.join(b'frames %02x 60\nsave\n' % (at % 2) for at in range(600)))
    once = played(room, b'frames 00 36000\n')
    print('play of 36000 frames with a save every 60: %.2f s, of the processor %.2f s; in one line %.2f s, of the processor %.2f s' % (*often, *once))


def time_resume(room):
    given, resumed = [], []
    for _ in range(3):
        room.new()
        given.append(times(room.words('stream'), b'saved %d' % FULL, b'frames 00 %d\nsave\n' % FULL)[1])
        if not resumed:
            shown = subprocess.run(room.words('show'), check=True, capture_output=True).stdout.splitlines()
            if b'logged %d' % FULL not in shown:
                sys.exit('show: %r, wanted a log of %d inputs' % (shown, FULL))
        resumed.append(times(room.play(b''), b'resumed %d' % FULL)[1])
    print('resume of a log of %d frames: %.2f s of the processor; the stream that gave them %.2f s; ratio %.2f'
          % (FULL, min(resumed), min(given), min(resumed) / min(given)))


def main():
    if len(sys.argv) != 2:
        sys.exit(__doc__)
    gbkeep = os.path.abspath(sys.argv[1])
    # where the caller is: a folder for temporary files may lie in memory, where a sync takes no time; strace wants no symbolic link
    with tempfile.TemporaryDirectory(prefix='session-', dir=os.path.realpath('.')) as folder:
        room = Room(gbkeep, folder, CLOCK)
        if shutil.which('strace'):
            count_calls(room)
        else:
            print('there is no strace: no call is counted')
        time_saves(room)
        room = Room(gbkeep, folder, BUSY)
        time_play(room)
        time_resume(room)
    return 0


if __name__ == '__main__':
    sys.exit(main())
