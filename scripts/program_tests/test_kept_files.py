"""Files as people have them, in files.tar.xz: each is taken as it is, and goes on.

A game with a clock has a checkpoint and a log behind it, SAVE.time and a slot; one began with a battery file; and one is recorded, with a mark that does
not know its recording."""
import tarfile
from pathlib import Path

from test_files import battery_cartridge, mark_of
from test_recordings import cartridge

FILES = Path(__file__).with_name('files.tar.xz')
GAME, KEPT = 'c5ce39af0ad15fd06549ba228706e1cc42c67183cdf532a522a80019556bb53d', 'ab5725edfa3454111580563ff706bf85f13b3f7672f44e46aacd665041008345'
# what `show` prints of each
SHOWN = {
    'clock.gbkeep': ('game.gb', 3371, 3306, 3, 188, GAME, 'aad4313937703a40f834544e7292b414393eefc5ea614b4aba4062cb5efd32d8'),
    'clock.gbkeep.slot': ('game.gb', 65, 65, 2, 188, GAME, '892922139cbf7883f92b018dbf2e33a7c6693409c366e1b0869a07d516cab49a'),
    'kept.gbkeep': ('kept.gb', 65, 65, 2, 284, KEPT, '2ac009295bd8d594da953fe7c9ce44adc6f803e3cd12616f1e9c895939b4f18b'),
    'run.gbkeep': ('game.gb', 68, 68, 2, 188, GAME, 'e1e327a4f84f6ff916ff1a3b191e3214b6109942ae43d606c82d61c6177acaa4'),
}
RUN = 'frames 01 60\nseconds 9\nframes 80 7\n'


def brought(room):
    """The files and their cartridges."""
    cartridge(room)
    battery_cartridge(room)
    with tarfile.open(FILES) as files:
        for member in files:
            room.write(member.name, files.extractfile(member).read())


def test_kept_games_are_taken_and_go_on(room):
    brought(room)
    for name, (cart, *values) in SHOWN.items():
        words = 'inputs', 'logged', 'generation', 'sectors', 'rom', 'state'
        room.done(f'show {cart} {name}', ''.join(f'{word} {value}\n' for word, value in zip(words, values)))
    room.write('more.script', 'frames 01 10\n')
    for name, (cart, count, *_) in SHOWN.items():
        if name != 'run.gbkeep':
            room.done(f'play {cart} {name} more.script', f'resumed {count}\nsaved {count + 10}\n')
            room.done(f'frame {cart} {name} {name}.pgm', f'resumed {count + 10}\n')
    room.done('export kept.gb kept.gbkeep kept.sav', 'exported 75\n')
    room.expect('the RAM that the game began with', room.read('kept.sav'), bytes(range(256)) * 128)


def test_a_kept_recording_goes_on(room):
    brought(room)
    room.done('verify game.gb run.gbkeep run.rec', 'agree 68\n')
    room.done('recorded game.gb run.rec', RUN)
    room.refused('stream game.gb run.gbkeep', 'gbkeep: recorded game: play it by record\n', given='frame 01\n')
    room.done('record game.gb run.gbkeep run.rec', 'resumed 68\nsaved 69\n', 'frame 80\n')
    room.done('recorded game.gb run.rec', RUN.replace('80 7', '80 8'))
    room.expect('the mark is completed', room.read('run.gbkeep.recorded').split(b'\n')[:2], mark_of('run.rec', 0, 0).split(b'\n')[:2])
    room.expect('by how many inputs', room.read('run.gbkeep.recorded').split(b'\n')[2].split()[0], b'68')
