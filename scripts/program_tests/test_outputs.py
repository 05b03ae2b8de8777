"""Standard input that can't be read from some byte on, and outputs that can't be written: what went before stands, and a line says so."""
import ctypes
import fcntl
import mmap
import os
import resource
import signal
import socket
import subprocess
import time

from room import LOOP, PICTURE, SECONDS
from test_batteries import kept, titled

# no file of a test is as long: standard output begins so many bytes before it as there is room for
MOST = 1 << 20

REPORT = b'resumed 5\nsaved 6\nsaved 8\nsaved 9\n'
TRACE = b'resumed 0\n0100 18FE   JR -02\n0100 18FE   JR -02\n'

# what a state of a ROM begins with that nobody has
OF_ANOTHER = b'GBSTATE1' + bytes(32)

LINES = b'''\
step 2
registers

wait
until 9 100
until-op 1 00
history 2
list 100 1
memory fffe 20
serial
seconds 1
digest
'''
ANSWERS = b'''\
0100 18FE   JR -02
0100 18FE   JR -02
A=01 F=80 B=00 C=13 D=00 E=D8 H=01 L=4D SP=FFFE PC=0100 IME=0
wrong 4
stopped 0100
limit 0100
history 2
0100 18FE   JR -02
0100 18FE   JR -02
0100 18FE   JR -02
FFFE 00 00 00 00 00 00 00 00 00 00 00 00 00 00 00 00
000E 00 00 00 00
serial 0

done
digest 7dfcfa765a7b584768255af000363b76704ea319d67eb66de4bb4b2d03e618a1
'''
# how many bytes of the answers are those to so many lines
ENDS = [0, 38, 100, 100, 108, 121, 132, 180, 199, 269, 279, 284, 356]


def failing(text):
    """A file of this text, behind which a read fails: the end of the last page that this process has there."""
    libc, page = ctypes.CDLL(None), mmap.PAGESIZE
    libc.mmap.restype = ctypes.c_void_p
    libc.mmap.argtypes = [ctypes.c_void_p, ctypes.c_size_t, ctypes.c_int, ctypes.c_int, ctypes.c_int, ctypes.c_long]
    libc.munmap.argtypes = [ctypes.c_void_p, ctypes.c_size_t]
    start = libc.mmap(None, 2 * page, mmap.PROT_READ | mmap.PROT_WRITE, mmap.MAP_PRIVATE | mmap.MAP_ANONYMOUS, -1, 0)
    libc.munmap(start + page, page)
    ctypes.memmove(start + page - len(text), text, len(text))
    memory = os.open('/proc/self/mem', os.O_RDONLY)
    os.lseek(memory, start + page - len(text), os.SEEK_SET)
    return memory


def byte_by_byte(text):
    """A socket from which each read takes one byte of this text."""
    ours, theirs = socket.socketpair(socket.AF_UNIX, socket.SOCK_SEQPACKET)
    for byte in text:
        ours.send(bytes([byte]))
    ours.close()
    return theirs.detach()


def whole(text):
    reader, writer = os.pipe()
    os.write(writer, text)
    os.close(writer)
    return reader


def ended(room, words, left=MOST, given=None):
    """Status, standard output and standard error of a run whose output has room for so many bytes."""
    def limit():
        signal.signal(signal.SIGXFSZ, signal.SIG_IGN)
        resource.setrlimit(resource.RLIMIT_FSIZE, (MOST, MOST))

    room.runs += 1
    name = 'ended.out'
    given = whole(b'') if given is None else given
    try:
        with open(room.folder / name, 'wb') as out:
            out.seek(MOST - left)
            done = subprocess.run([room.program, *words.split()], stdin=given, stdout=out, stderr=subprocess.PIPE, cwd=room.folder, timeout=SECONDS, preexec_fn=limit)
    except subprocess.TimeoutExpired as late:
        return f'none in {SECONDS} seconds', room.read(name)[MOST - left:], late.stderr or b''
    finally:
        os.close(given)
    return done.returncode, room.read(name)[MOST - left:], done.stderr


def cut(text, left):
    """What a run gives whose output ends behind so many bytes of this text."""
    return (0, text, b'') if left >= len(text) else (1, text[:left], b'gbkeep: output failed\n')


def digest(room, cart, save):
    """The count of a game, and the digest of its machine."""
    return room.printed(f'debug {cart} {save}', 'digest\n')


def test_the_report_may_end_in_any_byte(room):
    """Each line of a report is written behind its save: what it told is there, and so is a save whose line failed."""
    titled(room, 'A')
    lines = ['seconds 6\n', 'save\n', 'seconds 7\n', 'seconds 1\n', 'save\n', 'seconds 2\n']
    room.write('all.txt', ''.join(lines))
    kept(room, 'game.gbkeep', 188, 5)
    old, wanted = room.read('game.gbkeep'), {}
    for count, front in ((5, 0), (6, 1), (8, 4), (9, 6)):
        room.write('game.gbkeep', old)
        room.write('front.txt', ''.join(lines[:front]))
        room.printed('play A.gb game.gbkeep front.txt')
        wanted[count] = digest(room, 'A.gb', 'game.gbkeep')
        room.expect(f'the game of {count} inputs', wanted[count].startswith(b'resumed %d\n' % count), True)
    for left in range(len(REPORT) + 1):
        room.write('game.gbkeep', old)
        room.expect(f'a report of {left} bytes', ended(room, 'play A.gb game.gbkeep all.txt', left), cut(REPORT, left))
        count = 5 if left < 10 else 6 if left < 18 else 8 if left < 26 else 9
        room.expect(f'the game behind {left} bytes', digest(room, 'A.gb', 'game.gbkeep'), wanted[count])


def test_a_trace_may_end_in_any_byte(room):
    room.rom('loop.gb', LOOP)
    room.done('new loop.gb loop.gbkeep', 'begun 0\n')
    for left in range(len(TRACE) + 1):
        room.expect(f'a trace of {left} bytes', ended(room, 'trace loop.gb loop.gbkeep 2', left), cut(TRACE, left))


def test_a_stream_may_end_in_any_byte(room):
    """Also within its picture."""
    titled(room, 'A')
    kept(room, 'game.gbkeep', 188, 1)
    old, lines = room.read('game.gbkeep'), b'seconds 1\nsave\nseconds 2\npicture\n'
    text = room.printed('stream A.gb game.gbkeep', lines)
    room.expect('a stream', (text[:18], len(text), text[-8:]), (b'resumed 1\nsaved 2\n', 18 + PICTURE + 8, b'saved 3\n'))
    for left in sorted({*range(60), *range(60, len(text), 997), *range(len(text) - 30, len(text) + 1)}):
        room.write('game.gbkeep', old)
        room.expect(f'a stream of {left} bytes', ended(room, 'stream A.gb game.gbkeep', left, whole(lines)), cut(text, left))
        count = 1 if left < 10 else 2 if left < 18 + PICTURE else 3
        room.expect(f'the game behind {left} bytes', digest(room, 'A.gb', 'game.gbkeep').startswith(b'resumed %d\n' % count), True)


def test_the_picture_may_end_in_any_byte(room):
    """The program waits in the write of its report, since the pipe is full; then it may write no longer file than so many bytes."""
    titled(room, 'A')
    room.done('new A.gb game.gbkeep', 'begun 0\n')
    room.done('frame A.gb game.gbkeep whole.pgm', 'resumed 0\n')
    before = room.read('whole.pgm')
    room.expect('a whole picture', len(before), PICTURE)
    for left in (0, 1, 12, 13, 14, 4096, *range(5000, PICTURE, 4111), PICTURE - 1, PICTURE):
        reader, writer = os.pipe()
        size = fcntl.fcntl(writer, fcntl.F_SETPIPE_SZ, mmap.PAGESIZE)
        os.write(writer, bytes(size))
        room.runs += 1
        with subprocess.Popen([room.program, 'frame', 'A.gb', 'game.gbkeep', 'cut.pgm'], stdout=writer, stderr=subprocess.PIPE, cwd=room.folder,
                              preexec_fn=lambda: signal.signal(signal.SIGXFSZ, signal.SIG_IGN)) as process:
            os.close(writer)
            late = time.monotonic() + SECONDS
            while time.monotonic() < late and process.poll() is None and not waits_for_output(process.pid):
                time.sleep(0.001)
            resource.prlimit(process.pid, resource.RLIMIT_FSIZE, (left, left))
            with open(reader, 'rb') as pipe:
                out = pipe.read()[size:]
            err = process.stderr.read()
        told = (0, b'resumed 0\n', b'') if left == PICTURE else (1, b'resumed 0\n', b'gbkeep: output failed\n')
        room.expect(f'a picture of {left} bytes', (process.returncode, out, err), told)
        room.expect(f'the file of {left} bytes', room.read('cut.pgm'), before[:left])
        (room.folder / 'cut.pgm').unlink()


def waits_for_output(pid):
    """Whether a process is within a write of its standard output."""
    try:
        with open(f'/proc/{pid}/syscall') as file:
            return file.read().split()[:2] == [str(WRITE), '0x1']
    except OSError:
        return False


# the number of the system call
WRITE = 1 if os.uname().machine == 'x86_64' else 64


def test_lines_of_a_stream_are_answered_or_refused(room):
    """Whatever a read gives, and where one fails."""
    titled(room, 'A')
    kept(room, 'game.gbkeep', 188, 2)
    old, failed, damaged = room.read('game.gbkeep'), 'input failed', 'damaged snapshot'
    for lines, fails, fault, text in (
            (b'', False, '', 'resumed 2\n'),
            (b'\n\n', False, '', 'resumed 2\n'),
            (b'seconds 1\nsave\nseconds 2', False, '', 'resumed 2\nsaved 3\nsaved 4\n'),
            (b'\nseconds 1\nsecond 2\nseconds 3\n', False, 'script line 3', 'resumed 2\nsaved 3\n'),
            (b'seconds 1\nsave\nsave ', False, 'script line 3', 'resumed 2\nsaved 3\n'),
            (b'seconds 1\nseconds ' + b'0' * 57 + b'1', True, 'script line 2', 'resumed 2\nsaved 3\n'),
            (b'picture of it', False, 'script line 1', 'resumed 2\n'),
            (b'seconds 1\nseconds 2\nsecon', True, failed, 'resumed 2\nsaved 4\n'),
            (b'', True, failed, 'resumed 2\n'),
            (b'keep 0\nframe 01\nback 0\nback 0\nsave\n', False, '', 'resumed 2\nkept 0\nback 0\nback 0\nsaved 5\n'),
            (b'power\nkeep 999\npower\n', False, '', 'resumed 2\nkept 999\nsaved 4\n'),
            (b'frame 01\nkeep 1\nback 2\nframe 02\n', False, 'script line 3', 'resumed 2\nkept 1\nsaved 3\n'),
            (b'frame 01\nkeep 1000\n', False, 'script line 2', 'resumed 2\nsaved 3\n'),
            (b'frame 01\nrestore 3\nabcframe 02\n', False, damaged, 'resumed 2\nsaved 3\n'),
            (b'frame 01\nrestore 30000\nabc', False, damaged, 'resumed 2\nsaved 3\n'),
            (b'frame 01\nrestore 30000\nabc', True, failed, 'resumed 2\nsaved 3\n'),
            (b'frame 01\nrestore 40\n' + OF_ANOTHER + b'frame 02\n', False, 'other cartridge', 'resumed 2\nsaved 3\n'),
            (b'frame 01\nrestore 41\n' + OF_ANOTHER, False, damaged, 'resumed 2\nsaved 3\n'),
            (b'frame 01\nrestore 41\n' + OF_ANOTHER, True, failed, 'resumed 2\nsaved 3\n'),
            (b'frame 01\nrestore 40\n' + OF_ANOTHER[:39], True, failed, 'resumed 2\nsaved 3\n'),
            (b'frame 01\nrestore 1048577\nabc', False, 'script line 2', 'resumed 2\nsaved 3\n'),
            (b'memory 134 3\nmemory FFFF 2\nmemory 0\n', False, 'script line 3', 'resumed 2\n0134 41 00 00\nFFFF 00 00\n')):
        wanted = (1 if fault else 0, text.encode(), f'gbkeep: {fault}\n'.encode() if fault else b'')
        for given in [failing] if fails else [whole, byte_by_byte]:
            room.write('game.gbkeep', old)
            room.expect(f'{lines!r} by {given.__name__}', ended(room, 'stream A.gb game.gbkeep', given=given(lines)), wanted)


def debugs(room, words, begun):
    """Each whole line is answered before the input fails, and the answers go out up to where the output ends."""
    room.expect(f'{words}', ended(room, words, given=whole(LINES)), (0, begun + ANSWERS, b''))
    for end in range(len(LINES)):
        text = begun + ANSWERS[:ENDS[LINES[:end].count(b'\n')]]
        room.expect(f'{words}: {end} bytes of input', ended(room, words, given=failing(LINES[:end])), (1, text, b'gbkeep: input failed\n'))
    text = begun + ANSWERS
    for left in sorted({*range(12), *range(0, len(text), 6), *(max(0, len(begun) + end - 1) for end in ENDS)}):
        room.expect(f'{words}: {left} bytes of output', ended(room, words, left, whole(LINES)), cut(text, left))


def test_input_or_output_of_a_debugger_may_end(room):
    room.rom('debug.gb', LOOP, {0x147: 0x10, 0x149: 0x02})
    debugs(room, 'debug debug.gb', b'')
    room.done('new debug.gb debug.gbkeep', 'begun 0\n')
    debugs(room, 'debug debug.gb debug.gbkeep', b'resumed 0\n')
    # the game is there after all that
    room.done('debug debug.gb debug.gbkeep', 'resumed 0\n' + ANSWERS.decode(), LINES)
