"""What the program costs: a stream beside the frames and the pictures that it is asked for, recording beside a stream, a recording that is printed, a
test ROM beside its frames, and a debugger's steps up to a place.

usage: program_cost.py GBKEEP [FRAMES]

Of the demo cartridge: the processor time of so many frames, each with its picture, line by line through a pipe; and of the same frames in one line, and
as many pictures of one machine. The ratio is the first by the sum of the others. Then, of 3,000 saves of two frames each: the wall time of `stream`, and of
`record`, which writes and syncs one file more. Then of `recorded`, of 2,000,000 inputs. Of a busy loop: the processor time of `test`, of 36,000 frames, and of
`stream`, of the same frames. Of `busy` of examples/speed: the processor time of `debug`, of `until` with eight addresses that the loop does not meet. Then,
where valgrind is there, the host's instructions of a step of each kind, and of a frame of `debug`."""
import os
import shutil
import subprocess
import sys
import tempfile
import time
from pathlib import Path

from examples.speed import build
from gbkeep import save_files
from scripts import shipped
from scripts.second_storage import recordings

DEMO = Path(__file__).resolve().parent.parent / 'examples/demo/demo.gb'
UNTIL = 'until {} 0000 0038 0040 0101 0107 01FF 4000 D000'
# what makes so many steps that meet nothing: a ROM of examples/speed, and a line of the debugger, or the program's own `step`; each as often as shows it
STEPS = [
    *(('busy', line, 100_000) for line in (
        'step', UNTIL, UNTIL.replace('until', 'continue'), 'until-op {} 40', 'until-change {} D000', 'until-write {} D000 DFFF', 'until-read {} D000',
        'continue {} 4000 write D000-DFFF', 'continue {} 1:4000 op 40 write D000-DFFF change D000')),
    *((rom, line, 100_000) for rom in ('copy', 'calls') for line in ('until-write {} D000 DFFF', 'until-read {} D000')),
    ('busy', 'profile {}', 2_000), ('busy', 'frames 00 {}', 40),
]


def processor_seconds(words, text=b'', status=0):
    """The processor time of a command that reads this text."""
    before = os.times()
    process = subprocess.Popen(words, stdin=subprocess.PIPE, stdout=subprocess.DEVNULL, stderr=subprocess.DEVNULL)
    process.communicate(text)
    after = os.times()
    if process.returncode != status:
        sys.exit('%s ended with status %d' % (words[1], process.returncode))
    return after.children_user - before.children_user + after.children_system - before.children_system


def seconds(gbkeep, room, text, cart=DEMO):
    """The processor time of a stream of this text, on a new game."""
    save = os.path.join(room, 'new.gbkeep')
    if os.path.exists(save):
        os.remove(save)
    subprocess.run([gbkeep, 'new', cart, save], check=True, capture_output=True)
    return processor_seconds([gbkeep, 'stream', cart, save], text)


def cartridge(room, code):
    """A cartridge with this code at 0100."""
    rom = bytearray(0x8000)
    rom[0x100:0x100 + len(code)] = code
    path = os.path.join(room, 'code.gb')
    Path(path).write_bytes(rom)
    return path


def busy_loop(room):
    """A cartridge that adds for ever, with interrupts off."""
    return cartridge(room, bytes([0x3c, 0x80, 0x47, 0xa8, 0x18, 0xfa]))     # INC A; ADD A,B; LD B,A; XOR A,B; JR 0100


def a_step(gbkeep, cart, line, steps):
    """The host's instructions of a step of a line, without what begins and ends the program."""
    def whole(many):
        if line == 'step':
            return shipped.instructions([gbkeep, 'step', cart, many])
        # behind the ROM's beginning, which lies at one of the addresses
        return shipped.instructions([gbkeep, 'debug', cart], f'frame 00\n{line.format(many)}\n'.encode())
    return (whole(2 * steps) - whole(steps)) / steps


def long_recording(room, count):
    """A recording of the demo with so many inputs, no two of which are one run."""
    cart = save_files.Cartridge(DEMO.read_bytes())
    entries = [bytes([0, at % 2, 1, 0, 0, 0]) for at in range(count)]
    most = recordings.ENTRIES
    sectors = [recordings.list_sector(1 + at // most, entries[at:at + most]) for at in range(0, count, most)]
    path = os.path.join(room, 'long.rec')
    Path(path).write_bytes(recordings.head_of(cart) + b''.join(sectors) + bytes(512))
    return path


def wall_seconds(gbkeep, room, words, text):
    """The wall time of a command on a new game with a new recording."""
    save, recording = os.path.join(room, 'saves.gbkeep'), os.path.join(room, 'saves.rec')
    for path in (save, recording):
        if os.path.exists(path):
            os.remove(path)
    subprocess.run([gbkeep, 'new', DEMO, save], check=True, capture_output=True)
    subprocess.run([gbkeep, 'new-recording', DEMO, recording, '4800'], check=True, capture_output=True)
    before = time.monotonic()
    subprocess.run([gbkeep, words, DEMO, save] + [recording] * (words == 'record'), check=True, capture_output=True, input=text)
    return time.monotonic() - before


def main():
    gbkeep, frames = sys.argv[1], int(sys.argv[2]) if len(sys.argv) > 2 else 10000
    with tempfile.TemporaryDirectory(prefix='stream-') as room:
        both = min(seconds(gbkeep, room, b'frame 00\npicture\n' * frames) for _ in range(3))
        alone = min(seconds(gbkeep, room, b'frames 00 %d\n' % frames) for _ in range(3))
        pictures = min(seconds(gbkeep, room, b'frame 00\n' + b'picture\n' * frames) for _ in range(3))
    print('%d frames with their pictures: %.2f s; the frames %.2f s, the pictures %.2f s; ratio %.2f' % (frames, both, alone, pictures, both / (alone + pictures)))
    with tempfile.TemporaryDirectory(prefix='record-') as room:
        saves = b'frame 00\nframe 01\nsave\n' * 3000
        plain, recorded = (min(wall_seconds(gbkeep, room, words, saves) for _ in range(3)) for words in ('stream', 'record'))
    print('3000 saves: stream %.2f s, record %.2f s' % (plain, recorded))
    with tempfile.TemporaryDirectory(prefix='recorded-') as room:
        path = long_recording(room, 2_000_000)
        print('recorded, 2,000,000 inputs: %.2f s' % min(processor_seconds([gbkeep, 'recorded', DEMO, path]) for _ in range(3)))
    with tempfile.TemporaryDirectory(prefix='busy-') as room:
        busy, frames = busy_loop(room), 36_000
        # it says neither that it has passed nor that it has failed
        test = min(processor_seconds([gbkeep, 'test', busy, str(frames)], status=1) for _ in range(3))
        alone = min(seconds(gbkeep, room, b'frames 00 %d\n' % frames, busy) for _ in range(3))
        print('test of %d frames: %.2f s; the frames alone %.2f s; ratio %.2f' % (frames, test, alone, test / alone))
    with tempfile.TemporaryDirectory(prefix='steps-') as room:
        carts, steps = build.write(Path(room)), 100_000_000
        text = f'frame 00\n{UNTIL.format(steps)}\n'.encode()
        spent = min(processor_seconds([gbkeep, 'debug', carts['busy']], text) for _ in range(3))
        print('debug, until of %d steps: %.2f s, %.1f ns a step' % (steps, spent, 1e9 * spent / steps))
        for rom, line, many in STEPS if shutil.which('valgrind') else ():
            print(f'{rom}, {line}: {a_step(gbkeep, carts[rom], line, many):,.1f} instructions', flush=True)
    return 0


if __name__ == '__main__':
    sys.exit(main())
