"""Registers and listings, games and scripts, streams, recordings, battery files, debuggers, traces, and what words the program understands."""
import hashlib
import os
import resource
import subprocess

from room import COUNTS, DISPATCHES, LOOP, PGM, PICTURE, SECONDS, SECTORS, SENDS, SUM, WAKES


# ---- registers, listings and headers

def test_steps_print_the_registers(room):
    room.rom('sum.gb', SUM)
    room.rom('increment.gb', '3e05 04')
    room.rom('checksum.gb', header={0x14d: 1})
    room.rom('undefined.gb', 'd3')
    room.done('step sum.gb 2', 'A=00 F=B0 B=00 C=13 D=00 E=D8 H=01 L=4D SP=FFFE PC=0104 IME=0\n')
    room.done('step checksum.gb 0', 'A=01 F=B0 B=00 C=13 D=00 E=D8 H=01 L=4D SP=FFFE PC=0100 IME=0\n')
    room.done('step increment.gb 0', 'A=01 F=80 B=00 C=13 D=00 E=D8 H=01 L=4D SP=FFFE PC=0100 IME=0\n')
    room.done('step increment.gb 1', 'A=05 F=80 B=00 C=13 D=00 E=D8 H=01 L=4D SP=FFFE PC=0102 IME=0\n')
    room.done('step increment.gb 2', 'A=05 F=00 B=01 C=13 D=00 E=D8 H=01 L=4D SP=FFFE PC=0103 IME=0\n')
    room.done('step undefined.gb 3', 'A=01 F=80 B=00 C=13 D=00 E=D8 H=01 L=4D SP=FFFE PC=0101 IME=0\n')


def test_every_controller_is_run(room):
    for kind in (0x00, 0x03, 0x06, 0x10, 0x13, 0x1e):
        room.rom('controller.gb', '3e05', {0x147: kind, 0x149: 0x02})
        room.done('step controller.gb 1', 'A=05 F=80 B=00 C=13 D=00 E=D8 H=01 L=4D SP=FFFE PC=0102 IME=0\n')
        room.done('list controller.gb 100 1', '0100 3E05   LD A,05\n')


def test_lists_and_headers_are_printed(room):
    room.rom('jump.gb', '00 c35001')
    room.rom('mbc2.gb', header={0x134: ord('H'), 0x135: 0x01, 0x136: ord('i'), 0x147: 0x05, 0x149: 0x07})
    room.done('list jump.gb 0100 2', '0100 00     NOP\n0101 C35001 JP 0150\n')
    room.done('list jump.gb ffff 2', 'FFFF 00     NOP\n0000 00     NOP\n')
    room.done('list jump.gb FF00 1', 'FF00 CF     RST 08\n')
    room.done('info jump.gb', '''\
title []
type 00 none
rom 32768 bytes 2 banks code 00
ram 0 bytes code 00
checksum stored 00 computed E7
sectors 156
''')
    room.done('info mbc2.gb', '''\
title [H.i]
type 05 MBC2
rom 32768 bytes 2 banks code 00
ram 512 bytes code 07
checksum stored 00 computed 29
sectors 158
''')


def test_faults_are_one_line(room):
    room.rom('code1.gb', header={0x147: 1, 0x149: 1})
    room.rom('unknown.gb', header={0x147: 0xff})
    room.write('short.gb', bytes(100))
    room.write('four.gb', bytes(0x1_0000))
    room.write('large.gb', bytes(0x80_0002))
    room.refused('step code1.gb 1', 'gbkeep: ram code 01\n')
    room.refused('info unknown.gb', 'gbkeep: cartridge type FF\n')
    room.refused('info short.gb', 'gbkeep: rom length 100\n')
    room.refused('info four.gb', 'gbkeep: too many banks 4\n')
    room.refused('step large.gb 1', 'gbkeep: rom length 8388609\n')
    room.refused('info missing.gb', 'gbkeep: file failed\n')
    room.refused('list missing.gb 12345 1', 'gbkeep: address\n', 2)
    room.refused('list missing.gb +12 1', 'gbkeep: address\n', 2)
    room.refused(['list', 'missing.gb', '', '1'], 'gbkeep: address\n', 2)
    room.refused('list missing.gb 12G 1', 'gbkeep: address\n', 2)


# ---- words

def test_help_and_the_version_go_to_the_output(room):
    room.done('--version', 'gbkeep 0.1.0\n')
    room.done('-V', 'gbkeep 0.1.0\n')
    room.begins('--help', 0, 'A Game Boy emulator', '')
    room.begins('help step', 0, 'Prints the registers', '')
    room.begins('step -h', 0, 'Prints the registers', '')
    room.begins('step rom.gb many', 2, '', "error: invalid value 'many' for '<COUNT>'")
    room.begins('fly', 2, '', "error: unrecognized subcommand 'fly'")


def test_behind_two_hyphens_a_word_is_a_path(room):
    room.rom('-plain.gb', '3e05')
    room.done('list -- -plain.gb 100 +1', '0100 3E05   LD A,05\n')
    room.refused('info -', 'gbkeep: file failed\n')


def test_reads_each_command(room):
    """How each operand was read is seen by what the run does."""
    room.rom('a.gb', COUNTS, {0x134: ord('A')})
    room.write('moves', 'frames 00 3\n')
    room.done('info a.gb', '''\
title [A]
type 00 none
rom 32768 bytes 2 banks code 00
ram 0 bytes code 00
checksum stored 00 computed A6
sectors 156
''')
    room.done('step a.gb 0', 'A=01 F=80 B=00 C=13 D=00 E=D8 H=01 L=4D SP=FFFE PC=0100 IME=0\n')
    # HL is 014D and half a million more
    room.done('step a.gb 1000000', 'A=01 F=80 B=00 C=13 D=00 E=D8 H=A2 L=6D SP=FFFE PC=0100 IME=0\n')
    # behind the two instructions there are no others but zeros and the title
    rest = ''.join(f'{at:04X} 41     LD B,C\n' if at == 0x134 else f'{at:04X} 00     NOP\n' for at in range(0x103, 0x103 + 4094))
    room.done('list a.gb 0100 4096', '0100 23     INC HL\n0101 18FD   JR -03\n' + rest)
    room.done('new a.gb a.gbkeep 65536', 'begun 0\n')
    room.expect('the size of a.gbkeep', room.size('a.gbkeep'), 33_554_432)
    room.done('new a.gb b.gbkeep', 'begun 0\n')
    room.expect('the size of b.gbkeep', room.size('b.gbkeep'), SECTORS * 512)
    room.done('new-recording a.gb a.rec 2', 'begun 0\n')
    room.expect('the size of a.rec', room.size('a.rec'), 1024)
    room.done('trace a.gb a.gbkeep 1024', 'resumed 0\n' + 512 * '0100 23     INC HL\n0101 18FD   JR -03\n')
    room.done('play a.gb a.gbkeep moves', 'resumed 0\nsaved 3\n')
    room.done('frame a.gb a.gbkeep a.pgm', 'resumed 3\n')
    picture = room.read('a.pgm')
    room.expect('the picture', (len(picture), picture[:len(PGM)]), (PICTURE, PGM))
    room.done('stream a.gb a.gbkeep', 'resumed 3\nsaved 4\n', 'frame 00\n')
    room.done('record a.gb b.gbkeep a.rec', 'resumed 0\nsaved 2\n', 'frames 01 2\n')
    room.done('recorded a.gb a.rec', 'frames 01 2\n')
    room.done('debug a.gb', '0100 23     INC HL\n', 'step 1\n')
    room.done('debug a.gb a.gbkeep', 'resumed 4\ndone\n', 'frame 00\n')
    room.done('debug a.gb b.gbkeep', 'resumed 2\ndone\n', 'frame 00\n')


def test_does_not_understand_what_is_out_of_range(room):
    # the cartridge is there, so that a word which is taken would be seen by what it does
    room.rom('a')
    for words in ('list a 0 0', 'list a 0 4097', 'step a 1000001', 'step a -1', 'step a x', 'fly a', 'new a b 0', 'new a b 65537', 'trace a b 0',
                  'trace a b 1025', 'trace a b', 'play a b', 'frame a b', 'step a', 'stream a', 'debug a b c', 'debug', ''):
        room.begins(words, 2, '', 'error: ')
    room.begins('--help', 0, 'A Game Boy emulator', '')
    room.begins('help step', 0, 'Prints the registers', '')
    room.begins('step --help', 0, 'Prints the registers', '')
    room.expect('the files', sorted(os.listdir(room.folder)), ['a'])


# ---- save files

def test_a_game_is_begun_and_played_on(room):
    room.rom('loop.gb', LOOP)
    room.rom('other.gb', LOOP, {0x134: ord('B')})
    room.write('first', 'frames 00 3\nseconds 60\nsave\n')
    room.write('second', 'frame 01')
    room.write('empty', '')
    room.write('wrong', 'save\nframe 1G\n')
    room.done('new loop.gb loop.gbkeep', 'begun 0\n')
    room.done('play loop.gb loop.gbkeep first', 'resumed 0\nsaved 4\n')
    room.done('play loop.gb loop.gbkeep second', 'resumed 4\nsaved 5\n')
    room.done('play loop.gb loop.gbkeep empty', 'resumed 5\n')
    room.refused('play loop.gb loop.gbkeep wrong', 'gbkeep: script line 2\n')
    room.refused('play loop.gb loop.gbkeep missing', 'gbkeep: file failed\n')
    room.done('frame loop.gb loop.gbkeep loop.pgm', 'resumed 5\n')
    room.refused('frame loop.gb loop.gbkeep missing/loop.pgm', 'gbkeep: file failed\n')
    room.refused('frame loop.gb loop.gbkeep loop.gbkeep', 'gbkeep: file failed\n')
    room.refused('play other.gb loop.gbkeep first', 'gbkeep: other cartridge\n')
    room.refused('frame other.gb loop.gbkeep other.pgm', 'gbkeep: other cartridge\n')
    room.refused('new loop.gb loop.gbkeep 156', 'gbkeep: device failed\n')
    room.done('play loop.gb loop.gbkeep empty', 'resumed 5\n')
    picture = room.read('loop.pgm')
    room.expect('the picture', (len(picture), picture[:len(PGM)]), (PICTURE, PGM))
    room.expect('the size of other.pgm', room.size('other.pgm'), 0)


def test_save_files_are_refused(room):
    room.rom('still.gb', LOOP)
    room.rom('code.gb', header={0x147: 1, 0x149: 1})
    room.write('odd.gbkeep', bytes(1000))
    room.write('blank.gbkeep', bytes(2048))
    room.write('nothing', '')
    room.refused('new still.gb small.gbkeep 100', 'gbkeep: too small, 156 sectors needed\n')
    room.refused('new code.gb small.gbkeep 100', 'gbkeep: ram code 01\n')
    room.refused('new missing.gb small.gbkeep 156', 'gbkeep: file failed\n')
    room.refused('play still.gb small.gbkeep nothing', 'gbkeep: device failed\n')
    room.refused('play still.gb odd.gbkeep missing', 'gbkeep: device size 1000\n')
    room.refused('play still.gb blank.gbkeep nothing', 'gbkeep: no session\n')
    room.expect('the size of small.gbkeep', room.size('small.gbkeep'), None)


# ---- streams

def test_lines_are_obeyed_and_answered(room):
    room.rom('stream.gb', LOOP)
    room.refused('stream stream.gb stream.gbkeep', 'gbkeep: device failed\n')
    room.done('new stream.gb stream.gbkeep 156', 'begun 0\n')
    room.done('stream stream.gb stream.gbkeep', 'resumed 0\nsaved 4\n', 'frames 00 3\n\nseconds 60\nsave\n')
    room.done('stream stream.gb stream.gbkeep', 'resumed 4\nsaved 5\nsaved 5\nsaved 6\n', 'frame 01\nsave\nsave\nframe 02')
    room.refused('stream stream.gb stream.gbkeep', 'gbkeep: script line 3\n', given='frame 00\n\nframe 1G\nframe 00\n', out='resumed 6\nsaved 7\n')
    room.refused('stream stream.gb stream.gbkeep', 'gbkeep: script line 1\n', given='wait', out='resumed 7\n')
    room.done('stream stream.gb stream.gbkeep', 'resumed 7\n')


def test_a_picture_is_what_frame_writes(room):
    room.rom('drawn.gb', LOOP)
    room.done('new drawn.gb drawn.gbkeep 156', 'begun 0\n')
    streamed = room.printed('stream drawn.gb drawn.gbkeep', 'frames 00 2\npicture\nsave\n')
    room.done('frame drawn.gb drawn.gbkeep drawn.pgm', 'resumed 2\n')
    picture = room.read('drawn.pgm')
    room.expect('the size of the picture', len(picture), PICTURE)
    room.expect('the stream', streamed, b'resumed 0\n' + picture + b'saved 2\n')


def test_states_go_through_a_stream(room):
    """A state that is told is taken by another stream, in which it is an input; what was given before bytes that are none is saved."""
    room.rom('states.gb', LOOP)
    room.done('new states.gb states.gbkeep 156', 'begun 0\n')
    head = b'resumed 0\nkept 0\nback 0\n'
    told = room.printed('stream states.gb states.gbkeep', 'frames 01 2\nkeep 0\nframe 02\nback 0\npower\nframes 03 2\nstate\n')
    room.expect('the answers', (told[:len(head)], told[-8:]), (head, b'saved 7\n'))
    state = told[len(head):-8]
    line, state = state[:state.index(b'\n')], state[state.index(b'\n') + 1:]
    room.expect('the state', (line, len(state), state[:48]), (b'state 22647', 22_647, room.header('states.gb') + b'GBSNAP01'))
    given = b'frame 00\nrestore %d\n' % len(state) + state + b'state\n'
    room.expect('the state that was taken', room.printed('stream states.gb states.gbkeep', given), b'resumed 7\nrestored\n' + line + b'\n' + state + b'saved 9\n')
    other = state[:40] + bytes([state[40] ^ 1]) + state[41:]
    room.refused('stream states.gb states.gbkeep', 'gbkeep: damaged snapshot\n', given=b'frame 00\nrestore %d\n' % len(state) + other, out='resumed 9\nsaved 10\n')
    room.refused('stream states.gb states.gbkeep', 'gbkeep: damaged snapshot\n', given=b'restore %d\n' % len(state) + state[:-1], out='resumed 10\n')
    room.refused('stream states.gb states.gbkeep', 'gbkeep: script line 2\n', given='frame 00\nback 1\n', out='resumed 10\nsaved 11\n')
    room.done('stream states.gb states.gbkeep', 'resumed 11\n0147 00 00 00\n', 'memory 147 3\n')
    room.done('new-recording states.gb states.rec 20', 'begun 0\n')
    room.done('new states.gb recorded.gbkeep 156', 'begun 0\n')
    room.refused('record states.gb recorded.gbkeep states.rec', 'gbkeep: script line 2\n', given='frame 00\npower\n', out='resumed 0\nsaved 1\n')
    room.refused('record states.gb recorded.gbkeep states.rec', 'gbkeep: script line 2\n', given=b'frame 00\nrestore 22647\n' + state, out='resumed 1\nsaved 2\n')


def test_a_state_names_its_rom(room):
    """It is 40 bytes, which are those of its ROM, and the snapshot, whose digest is told: by a stream, by a recorded game and by a debugger."""
    for kind, code, length in ((0x00, 0, 22_647), (0x06, 0, 23_159), (0x03, 2, 30_839), (0x10, 3, 55_415), (0x1b, 5, 88_183), (0x1b, 4, 153_719)):
        room.rom('named.gb', COUNTS, {0x147: kind, 0x149: code, 0x14f: code})
        for name in ('named.gbkeep', 'reel.gbkeep', 'reel.rec', 'reel.gbkeep.recorded'):
            (room.folder / name).unlink(missing_ok=True)
        room.done('new named.gb named.gbkeep', 'begun 0\n')
        room.done('new named.gb reel.gbkeep', 'begun 0\n')
        room.done('new-recording named.gb reel.rec 2', 'begun 0\n')
        debugged = room.printed('debug named.gb', 'frames 01 3\ndigest\nstate\n').removeprefix(b'done\n')
        digest, line, state = debugged.split(b'\n', 2)
        room.expect(f'a state of {length} bytes', (line, len(state), state[:48]), (b'state %d' % length, length, room.header('named.gb') + b'GBSNAP01'))
        room.expect('its digest', digest, b'digest ' + hashlib.sha256(state[40:]).hexdigest().encode())
        for words in ('stream named.gb named.gbkeep', 'record named.gb reel.gbkeep reel.rec'):
            room.expect(words, room.printed(words, 'frames 01 3\nstate\n'), b'resumed 0\n' + line + b'\n' + state + b'saved 3\n')
        for name in ('named.gbkeep', 'reel.gbkeep'):
            room.expect(f'what is shown of {name}', room.printed(f'show named.gb {name}').split(b'\n')[5], digest.replace(b'digest', b'state'))


def test_a_state_of_another_rom_is_refused(room):
    """By a stream, which saves what was given before, and by a debugger, which goes on: of a ROM that differs in one byte, and of any length. A snapshot
    without a header is damaged, and so is what ends before all its bytes were there."""
    room.rom('mine.gb', COUNTS, {0x147: 0x03, 0x149: 2})
    # counts down
    room.rom('theirs.gb', '2b 18fd', {0x147: 0x03, 0x149: 2})
    room.rom('longer.gb', COUNTS, {0x147: 0x03, 0x149: 3})
    room.rom('shorter.gb', COUNTS)
    mine, theirs = (room.read(f'{name}.gb') for name in ('mine', 'theirs'))
    room.expect('where the two ROMs differ', [at for at, both in enumerate(zip(mine, theirs)) if both[0] != both[1]], [0x100])
    own, other, longer, shorter = (room.printed(f'debug {name}.gb', 'frames 00 3\nstate\n').split(b'\n', 2)[2] for name in ('mine', 'theirs', 'longer', 'shorter'))
    room.expect('their lengths', (len(own), len(other), len(longer), len(shorter)), (30_839, 30_839, 55_415, 22_647))
    header, damaged, of_another = own[:40], 'damaged snapshot', 'other cartridge'
    given = [('the state of the other ROM', other, of_another), ('a longer one', longer, of_another), ('a shorter one', shorter, of_another),
             ('one with a byte more', other + b'\0', of_another), ('one with a byte less', other[:-1], of_another), ('its header alone', other[:40], of_another),
             ('its header and one byte', other[:40] + b'\n', of_another), ('its header before this snapshot', other[:40] + own[40:], of_another),
             ('its header before as much as there can be', other[:40] + bytes((1 << 20) - 40), of_another),
             ('a snapshot of this ROM', own[40:], damaged), ('a snapshot of the other ROM', other[40:], damaged), ('two headers', header + own, damaged),
             ('this header alone', header, damaged), ('this header and one byte', header + b'\n', damaged), ('a byte less', own[:-1], damaged),
             ('a byte more', own + b'\0', damaged), ('this header before a longer snapshot', header + longer[40:], damaged),
             ('a field that is not legal', own[:60] + b'\xff' + own[61:], damaged), ('zeros', bytes(len(own)), damaged)]
    given += [(f'{size} bytes of this header', own[:size], damaged) for size in range(1, 40)]
    given += [(f'{size} bytes of the other header', other[:size], damaged) for size in (1, 8, 39)]
    given += [(f'another byte {at}', own[:at] + bytes([own[at] ^ 1]) + own[at + 1:], damaged if at < 8 else of_another) for at in range(40)]
    # as many bytes are asked for as a state has, and the input ends before
    ends = [(f'{size} bytes of {what} state, and the end', one[:size]) for what, one in (('this', own), ('the other', other)) for size in (0, 1, 8, 39, 40, 41, 30_838)]
    room.done('new mine.gb mine.gbkeep', 'begun 0\n')
    image = room.read('mine.gbkeep')
    room.done('stream mine.gb mine.gbkeep', 'resumed 0\nsaved 2\n', 'frames 01 2\n')
    played = room.read('mine.gbkeep')
    for what, data, fault in [*((what, b'restore %d\n' % len(data) + data + b'frame 02\n', fault) for what, data, fault in given),
                              *((what, b'restore 30839\n' + data, damaged) for what, data in ends)]:
        room.write('mine.gbkeep', image)
        told = room.run('stream mine.gb mine.gbkeep', b'frames 01 2\n' + data)
        room.expect(f'{what}: by a stream', (*told, room.read('mine.gbkeep') == played), (1, b'resumed 0\nsaved 2\n', f'gbkeep: {fault}\n'.encode(), True))
    told = room.printed('debug mine.gb mine.gbkeep', b'digest\n' + b''.join(b'restore %d\n' % len(data) + data + b'digest\n' for _, data, _ in given)).splitlines()
    digest = room.printed('debug mine.gb', 'frames 01 2\ndigest\n').splitlines()[1]
    room.expect('the game', told[:2], [b'resumed 2', digest])
    for number, (what, _, _) in enumerate(given):
        room.expect(f'{what}: by a debugger', told[2 + 2 * number:4 + 2 * number], [b'wrong %d' % (2 + 2 * number), digest])
    for what, data in ends:
        room.expect(f'{what}: by a debugger', room.printed('debug mine.gb', b'frames 01 2\ndigest\nrestore 30839\n' + data), b'done\n' + digest + b'\nwrong 3\n')
    # each is taken where it belongs
    for name, state in (('mine', own), ('theirs', other), ('longer', longer), ('shorter', shorter)):
        room.expect(f'of {name}', room.printed(f'debug {name}.gb', b'restore %d\n' % len(state) + state + b'state\n'), b'restored\nstate %d\n' % len(state) + state)


def test_the_greatest_count_takes_no_state(room):
    """At the greatest count the power switch and a state are refused as a frame is: not as if memory were short, and not as if the bytes were wrong."""
    room.rom('full.gb', LOOP)
    room.done('new full.gb full.gbkeep 156', 'begun 0\n')
    image, most = bytearray((room.folder / 'full.gbkeep').read_bytes()), 2 ** 64 - 1
    slots = [at for at in (0, 512) if image[at:at + 8] == b'GBKPROOT']
    for at in slots:
        # how many inputs the snapshot stands for
        image[at + 52:at + 60] = most.to_bytes(8, 'little')
    told = room.printed('debug full.gb', 'state\n')
    state = told[told.index(b'\n') + 1:]
    for given, answers in ((b'frame 00\n', ''), (b'power\n', ''), (b'restore %d\n' % len(state) + state, ''), (b'keep 7\nback 7\n', 'kept 7\n')):
        room.write('full.gbkeep', image)
        room.refused('stream full.gb full.gbkeep', 'gbkeep: count full\n', given=given, out=f'resumed {most}\n{answers}')
    # one below it there is room for one
    for at in slots:
        image[at + 52:at + 60] = (most - 1).to_bytes(8, 'little')
    room.write('full.gbkeep', image)
    room.done('stream full.gb full.gbkeep', f'resumed {most - 1}\nsaved {most}\n', 'power\n')


def test_a_script_has_the_power_switch(room):
    """It is one input, which a save of 3,200 counts. RAM stays where there is a battery; a test makes it, and a recording has no such line."""
    # opens RAM, counts up at A001 and in B, and counts in A for good
    code, lines = '3e0a ea0000 fa01a0 3c ea01a0 47 3c 18fd', 'frame 00\npower\nframe 00\n'
    for kind, counted in ((0x03, '02'), (0x02, '01')):
        cart, save = f'switch{kind}.gb', f'switch{kind}.gbkeep'
        room.rom(cart, code, {0x147: kind, 0x149: 2})
        room.done(f'new {cart} {save}', 'begun 0\n')
        room.write('switch.script', lines)
        room.done(f'play {cart} {save} switch.script', 'resumed 0\nsaved 3\n')
        debugged = room.printed(f'debug {cart}', lines + 'digest\n').decode().splitlines()[-1]
        shown = room.printed(f'show {cart} {save}').decode().splitlines()[-1]
        room.expect(f'the machine of type {kind:02X}', shown, debugged.replace('digest', 'state'))
        room.done(f'stream {cart} {save}', f'resumed 3\nA001 {counted}\n', 'memory A001 1\n')
        room.write('switch.script', 'frame 00\npower\n')
        status, out, _ = room.run(f'test {cart} 2 switch.script')
        *_, registers, frames, end = out.decode().splitlines()
        room.expect(f'the test of type {kind:02X}', (status, registers.split()[2], frames, end), (1, f'B={counted}', 'frames 2', 'ended frames'))
    room.write('switch.script', 'frames 00 3198\npower\npower\npower\n')
    room.done('play switch3.gb switch3.gbkeep switch.script', 'resumed 3\nsaved 3203\nsaved 3204\n')
    for line in ('power ', 'power 1', 'Power', ' power', 'powers'):
        room.write('switch.script', f'power\n{line}\n')
        room.refused('play switch3.gb switch3.gbkeep switch.script', 'gbkeep: script line 2\n')
    room.done('new switch3.gb taken.gbkeep', 'begun 0\n')
    room.done('new-recording switch3.gb switch.rec 20', 'begun 0\n')
    room.refused('record switch3.gb taken.gbkeep switch.rec', 'gbkeep: script line 1\n', given='power\n', out='resumed 0\n')


# ---- recordings

def test_a_recording_is_begun_read_and_compared(room):
    room.rom('tape.gb', LOOP)
    room.rom('tape-other.gb', LOOP, {0x134: ord('B')})
    room.write('tape.script', 'frames 00 3\n')
    room.write('tape.blank', bytes(2048))
    room.refused('new-recording tape.gb tape.rec 1', 'gbkeep: too small, 2 sectors needed\n')
    room.done('new-recording tape.gb tape.rec 4', 'begun 0\n')
    room.refused('new-recording tape.gb tape.rec 4', 'gbkeep: device failed\n')
    room.refused('new-recording tape.gb tape.blank 4', 'gbkeep: device failed\n')
    room.done('recorded tape.gb tape.rec', '')
    room.refused('recorded tape-other.gb tape.rec', 'gbkeep: other cartridge\n')
    room.refused('recorded tape.gb tape.gb', 'gbkeep: no recording\n')
    room.refused('recorded tape.gb tape.script', 'gbkeep: device size 12\n')
    room.done('new tape.gb tape.gbkeep', 'begun 0\n')
    room.done('verify tape.gb tape.gbkeep tape.rec', 'agree 0\n')
    room.refused('verify tape.gb tape.gbkeep tape.gbkeep', 'gbkeep: file failed\n')
    os.link(room.folder / 'tape.gbkeep', room.folder / 'tape.other')
    room.refused('verify tape.gb tape.gbkeep tape.other', 'gbkeep: file failed\n')
    room.refused('record tape.gb tape.gbkeep tape.other', 'gbkeep: file failed\n')
    (room.folder / 'tape.other').unlink()
    room.refused('verify tape.gb tape.rec tape.gbkeep', 'gbkeep: no session\n')
    room.refused('verify tape-other.gb tape.gbkeep tape.rec', 'gbkeep: other cartridge\n')
    room.done('play tape.gb tape.gbkeep tape.script', 'resumed 0\nsaved 3\n')
    room.refused('verify tape.gb tape.gbkeep tape.rec', 'gbkeep: recording behind, 0 inputs\n')


def test_what_is_played_is_recorded(room):
    room.rom('reel.gb', COUNTS)
    room.done('new reel.gb reel.gbkeep', 'begun 0\n')
    room.done('new-recording reel.gb reel.rec 2', 'begun 0\n')
    room.write('reel.old', room.read('reel.gbkeep'))
    room.refused('record reel.gb reel.gbkeep reel.rec', 'gbkeep: script line 5\n', given='frames 01 3\nframe 01\nsave\nseconds 60\nframe 1G\n',
                 out='resumed 0\nsaved 4\nsaved 5\n')
    room.done('recorded reel.gb reel.rec', 'frames 01 4\nseconds 60\n')
    room.done('verify reel.gb reel.gbkeep reel.rec', 'agree 5\n')
    # the same game before its inputs: the recording is ahead
    room.done('verify reel.gb reel.old reel.rec', 'agree 0\n')
    room.done('record reel.gb reel.old reel.rec', 'resumed 5\nsaved 6\n', 'frame 10\n')
    room.refused('record reel.gb reel.gbkeep reel.gbkeep', 'gbkeep: file failed\n')
    room.done('verify reel.gb reel.old reel.rec', 'agree 6\n')


# ---- battery files, and what a save file holds

def battery(ram, registers=(), time=0):
    """RAM, and behind it the registers of the live clock and of the latched one, and a time of so many bytes."""
    return bytes(at % 251 for at in range(ram)) + b''.join(bytes([register, 0, 0, 0]) for register in registers) + bytes(time)


def test_a_battery_file_comes_back(room):
    room.rom('plain.gb', LOOP, {0x147: 0x03, 0x149: 0x02})
    room.rom('clock.gb', LOOP, {0x147: 0x10, 0x149: 0x02})
    registers = 59, 58, 23, 255, 0xc1, 1, 2, 3, 4, 0
    room.write('plain.sav', battery(8192))
    room.write('clock.sav', battery(8192, registers, 4))
    room.done('import plain.gb plain.sav plain.gbkeep', 'begun 0\n')
    room.done('export plain.gb plain.gbkeep plain.out', 'exported 0\n')
    room.done('import clock.gb clock.sav clock.gbkeep', 'begun 0\n')
    room.done('export clock.gb clock.gbkeep clock.out', 'exported 0\n')
    room.expect('plain.out', room.read('plain.out'), battery(8192))
    room.expect('clock.out', room.read('clock.out'), battery(8192, registers, 8))


def test_of_mbc2_the_lower_bits_count(room):
    room.rom('half.gb', LOOP, {0x147: 0x06})
    room.write('half.sav', b'\xab' * 512)
    room.write('half.frames', 'frames 00 3\n')
    room.done('import half.gb half.sav half.gbkeep 200', 'begun 0\n')
    room.done('play half.gb half.gbkeep half.frames', 'resumed 0\nsaved 3\n')
    room.done('export half.gb half.gbkeep half.out', 'exported 3\n')
    room.refused('export half.gb half.gbkeep half.out', 'gbkeep: file failed\n')
    room.expect('half.out', room.read('half.out'), b'\x0b' * 512)


def test_battery_files_are_refused(room):
    room.rom('bare.gb', LOOP, {0x147: 0x02, 0x149: 0x02})
    room.rom('kept.gb', LOOP, {0x147: 0x03, 0x149: 0x02})
    room.rom('wrong.gb', LOOP, {0x147: 0x03, 0x149: 0x01})
    room.write('kept.sav', b'\x07' * 8192)
    room.write('long.sav', b'\x07' * 8240)
    room.write('taken.gbkeep', 'x')
    room.done('new bare.gb bare.gbkeep', 'begun 0\n')
    room.refused('export bare.gb bare.gbkeep never.out', 'gbkeep: no battery\n')
    room.refused('export kept.gb bare.gbkeep never.out', 'gbkeep: other cartridge\n')
    room.refused('import wrong.gb kept.sav never.gbkeep', 'gbkeep: ram code 01\n')
    room.refused('import bare.gb kept.sav never.gbkeep', 'gbkeep: no battery\n')
    room.refused('import kept.gb missing.sav never.gbkeep', 'gbkeep: file failed\n')
    room.refused('import kept.gb long.sav never.gbkeep', 'gbkeep: battery length 8240, 8192 needed\n')
    room.refused('import kept.gb kept.sav never.gbkeep 9', 'gbkeep: too small, 188 sectors needed\n')
    room.refused('import kept.gb kept.sav taken.gbkeep', 'gbkeep: device failed\n')
    room.expect('the sizes of never.gbkeep and never.out', (room.size('never.gbkeep'), room.size('never.out')), (None, None))


def test_a_save_file_is_shown_as_it_is(room):
    room.rom('seen.gb', LOOP)
    room.rom('unseen.gb', LOOP, {0x134: ord('B')})
    room.write('seen.frames', 'frames 00 3\n')
    room.done('new seen.gb seen.gbkeep', 'begun 0\n')
    room.done('play seen.gb seen.gbkeep seen.frames', 'resumed 0\nsaved 3\n')
    # what `show` prints of the game is this and two digests, and its file stays as it was
    before, start = room.read('seen.gbkeep'), b'inputs 3\nlogged 3\ngeneration 2\nsectors 156\nrom '
    text = room.printed('show seen.gb seen.gbkeep')
    again = room.printed('show seen.gb seen.gbkeep')
    room.expect('how it begins', text[:len(start)], start)
    room.expect('its length', len(text), 183)
    room.expect('what is shown again', again, text)
    room.expect('seen.gbkeep', room.read('seen.gbkeep'), before)
    room.refused('show unseen.gb seen.gbkeep', 'gbkeep: other cartridge\n')


# ---- debuggers: the answers, with each digest of a machine, are those of a second machine

LINES = '''\
registers
digest
step 2
digest
until 9 0109
until 3 0109
until 1 0109 0108
until-op 9 40
until-op 2 40
history 3
list 0100 3
list FFFF 2
memory fffe 4
memory 00f0 33
memory FE00 1
memory ff40 2
digest
digest
serial
until 2000 0000
serial
serial
frame 80
history 5
registers
frames 00 2
digest
seconds 5
digest
until 4294967295 0 1 2 3 4 5 6 7 8 9 A b C d E 108
registers'''

ANSWERS = '''\
A=01 F=80 B=00 C=13 D=00 E=D8 H=01 L=4D SP=FFFE PC=0100 IME=0
digest d410e79829d52fafe20561f5f2ab78db12d1324a6061ad1b13a1d65f63e56e3b
0100 3E41   LD A,41
0102 E001   LDH (01),A
digest 16b3dc432bf0ff8db755781f0d822cda6ac15e87c7d9040bb82f5dafac02e0a8
stopped 0109
stopped 0109
limit 0108
stopped 0108
limit 0108
history 3
0109 18FD   JR -03
0108 40     LD B,B
0109 18FD   JR -03
0100 3E41   LD A,41
0102 E001   LDH (01),A
0104 3E81   LD A,81
FFFF 00     NOP
0000 AB     XOR A,E
FFFE 00 00 AB 00
00F0 00 00 00 00 00 00 00 00 00 00 00 00 00 00 00 00
0100 3E 41 E0 01 3E 81 E0 02 40 18 FD 00 00 00 00 00
0110 00
FE00 00
FF40 91 87
digest 64cd953f9646b970757a219d6009951686288edfe3bebe97aa91fbef6ee82371
digest 64cd953f9646b970757a219d6009951686288edfe3bebe97aa91fbef6ee82371
serial 0

limit 0108
serial 1
A
serial 0

done
history 0
A=81 F=80 B=00 C=13 D=00 E=D8 H=01 L=4D SP=FFFE PC=0108 IME=0
done
digest eae0496214bbc7ba2aef6d3acbbd992f28bb43ffad0eb4312e99480ffd374e18
done
digest 9d1130d4dcf3683fe8c8b8a9568605d1fc37ed2b2442cdec79a126f6f69af3f9
stopped 0108
A=81 F=80 B=00 C=13 D=00 E=D8 H=01 L=4D SP=FFFE PC=0108 IME=0
'''

# an empty line, lines that are wrong, one that is not, another empty one, and a wrong one without its newline
WRONG = '''
step
step 0
step 4294967296
step +1
step 1 1
step 1\x20
 step 1
step  1
Step 1
step 1\r
until 1
until 1 10000
until 0 100
until 1 1 1 1 1 1 1 1 1 1 1 1 1 1 1 1 1 1
until-op 1
until-op 1 4
until-op 0 40
continue 1
continue 0 101
continue 9 op
continue 9 read 2-1
frame
frame 1G
frames 00 1000001
seconds -1
registers\x20
history 0
history 65537
list 100
list 10000 1
memory 0 65537
memory 0x1 1
serial 1
save
\0
registers

nothing'''

WRONG_ANSWERS = ''.join(f'wrong {line}\n' for line in range(2, 37)) + '''\
A=01 F=80 B=00 C=13 D=00 E=D8 H=01 L=4D SP=FFFE PC=0100 IME=0
wrong 39
'''


def test_lines_are_answered_from_power_on(room):
    room.rom('debug.gb', SENDS, {0: 0xab, 0x147: 0x10})
    room.rom('debug.dispatch.gb', DISPATCHES)
    room.rom('debug.halt.gb', '76')
    room.rom('debug.wake.gb', WAKES)
    room.done('debug debug.gb', ANSWERS, LINES)
    room.done('debug debug.gb', WRONG_ANSWERS, WRONG)
    room.done('debug debug.gb', '')
    room.done('debug debug.dispatch.gb', '''\
0100 3E01   LD A,01
0102 E0FF   LDH (FF),A
0104 FB     EI
0105 00     NOP
interrupt 40
0040 00     NOP
history 5
0100 3E01   LD A,01
0102 E0FF   LDH (FF),A
0104 FB     EI
0105 00     NOP
0040 00     NOP
history 2
0105 00     NOP
0040 00     NOP
limit 004A
''', 'step 6\nhistory 9\nhistory 2\nuntil 9 40\n')
    room.done('debug debug.halt.gb', '''\
limit 0101
stopped 0101
limit 0101
wait
wait
limit 0101
history 1
0100 76     HALT
''', 'until 1 101\nuntil 3 0101\nuntil 3 0102\nstep 2\nuntil-op 3 00\nhistory 65536\n')
    # the step that ends the halt runs the instruction
    room.done('debug debug.wake.gb', 'stopped 010C\n010C 40     LD B,B\n', 'until-op 1100 40\nstep 1\n')


# pushes 1234, pops it, writes 00 where 00 stands, adds one to it, and with that starts a copy of page 01 to OAM
ACCESSES = '3102c0 013412 c5 d1 2100d0 3600 34 7e ea46ff 00 18fd'
# halts until the timer's interrupt
INTERRUPTED = 'af e00f 3e04 e0ff 3e05 e007 fb 76'
# calls 4000 in bank 2, then in bank 3, for ever
BANKED = '3e02 ea0020 cd0040 3e03 ea0020 cd0040 18ee'


def test_a_run_stops_before_an_access(room):
    room.rom('access.gb', ACCESSES)
    for line, answer in {
        # both bytes of a push and of a pop, and each address of a span
        'until-write 99 C001': 'stopped 0106', 'until-write 99 C000': 'stopped 0106', 'until-write 99 A000 C000': 'stopped 0106',
        'until-write 99 C001 FFFF': 'stopped 0106', 'until-read 99 C000': 'stopped 0107', 'until-read 99 c001': 'stopped 0107',
        # a byte that stays the same is written, and one that is read is not
        'until-write 99 D000': 'stopped 010B', 'until-read 99 D000': 'stopped 010D', 'until-change 99 D000': 'stopped 010E',
        # the copy begins in the step that starts it, and its last byte is the third M-cycle of a jump
        'until-write 99 FF46': 'stopped 010F', 'until-write 99 FE00': 'stopped 010F', 'until-write 99 FE03': 'stopped 010F',
        'until-write 99 FE04': 'stopped 0112', 'until-write 999 FE9F': 'stopped 0113', 'until-write 999 FEA0': 'limit 0112',
        # its source is read, and the bytes of an instruction are not
        'until-read 99 0100': 'stopped 010F', 'until-read 99 0104': 'stopped 0112', 'until-read 999 019F': 'stopped 0113',
        'until-read 99 0000 00FF': 'limit 0112', 'until-read 99 0200 BFFF': 'limit 0112',
        # an echo has its own address
        'until-write 99 F000': 'limit 0112', 'until-change 99 F000': 'stopped 010E',
        # the last step of a run is not looked behind
        'until-write 6 D000': 'stopped 010B', 'until-write 5 D000': 'limit 010B', 'until-change 8 D000': 'stopped 010E',
        'until-change 7 D000': 'limit 010E', 'until-read 1 C000': 'limit 0103',
        # the first step is made whatever it accesses
        'until 9 10B\nuntil-write 99 D000\nuntil-write 99 D000': 'stopped 010B\nstopped 010D\nlimit 0112',
        'until 9 10D\nuntil-read 99 D000\nuntil-read 99 D000': 'stopped 010D\nstopped 010E\nlimit 0113',
        # several conditions: of those that hold the first is told
        'continue 99 write C001': 'stopped 0106 1', 'continue 99 read C000 write C001': 'stopped 0106 2', 'continue 99 op c5 write C001': 'stopped 0106 1',
        'continue 99 0107 write C000-C001 op C5': 'stopped 0106 2', 'continue 99 change D000': 'stopped 010E 1', 'continue 99 change D000 read D000': 'stopped 010D 2',
        'continue 99 1:0103 0:103': 'stopped 0103 2', 'continue 1 0103': 'limit 0103', 'continue 8 change D000': 'stopped 010E 1', 'continue 7 change D000': 'limit 010E',
        'continue 99 D000 write D001-FE02': 'stopped 010F 2', 'continue 99 F000 read F000 write F000 change D001 op 40': 'limit 0112',
        'continue 99 ' + ' '.join(['D000'] * 15) + ' 106': 'stopped 0106 16',
        'until 9 10D\ncontinue 99 010D change D000': 'stopped 010D\nstopped 010E 2',
    }.items():
        room.done('debug access.gb', answer + '\n', line + '\n')
    room.rom('interrupted.gb', INTERRUPTED)
    for address in ('FFFC', 'FFFD'):
        room.done('debug interrupted.gb', 'stopped 010D\ninterrupt 50\n', f'until-write 2000 {address}\nstep 1\n')
    room.done('debug interrupted.gb', 'stopped 0050\n', 'until-change 2000 FFFC\n')


def test_a_position_is_told(room):
    """By hand: NOP takes an M-cycle and JR three, so that a frame ends with a step."""
    room.rom('position.gb', '00 18fd')
    room.done('debug position.gb', '''\
position 0 0 0 0 2
0100 00     NOP
0101 18FD   JR -03
0100 00     NOP
position 5 0 0 5 2
limit 0100
position 112 0 0 112 0
done
done
done
position 35224 2 0 112 0
kept 1
0100 00     NOP
position 35225 2 0 113 0
back 1
position 35225 2 0 112 0
limit 0100
elsewhere 0
profile 2
0000:0100 1
0000:0101 3
position 35229 2 1 2 2
stopped 0101 1
position 35230 2 1 3 2
done
position 35230 2 0 0 2
''', '''\
position
step 3
position
until 53 0500
position
frames 00 2
seconds 9
set C000 00
position
keep 1
step 1
position
back 1
position
profile 2
position
continue 9 101
position
power
position
''')
    # a wait takes an M-cycle
    room.rom('position.halt.gb', '76')
    room.done('debug position.halt.gb', 'limit 0101\nposition 5 0 0 5 2\ndone\nposition 17561 1 0 5 2\n', 'until 5 0\nposition\nframe 00\nposition\n')
    # with the LCD off no line goes on
    room.rom('position.off.gb', '3e00 e040 18fe')
    room.done('debug position.off.gb', 'limit 0104\nposition 5 0 0 0 0\ndone\nposition 52673 3 0 0 0\n', 'until 2 0\nposition\nframes 00 3\nposition\n')


def test_a_place_has_a_bank(room):
    rom = bytearray(0x10000)
    code = bytes.fromhex(BANKED)
    rom[0x100:0x100 + len(code)], rom[0x147] = code, 1
    for bank in (1, 2, 3):
        rom[0x4000 * bank] = 0xc9
    room.write('banked.gb', bytes(rom))
    room.done('debug banked.gb', 'bank 0001\nbank 0000\nbank 0000\nbank 0000\n', 'bank 4000\nbank 3FFF\nbank A000\nbank FFFF\n')
    room.done('debug banked.gb', 'stopped 4000\nbank 0002\nstopped 4000\nbank 0003\n', 'until 99 4000\nbank 7fff\nuntil 99 4000\nbank 4000\n')
    room.done('debug banked.gb', 'stopped 4000\nbank 0003\nhistory 1\n010D CD0040 CALL 4000\n', 'until 99 3:4000\nbank 4000\nhistory 1\n')
    room.done('debug banked.gb', 'stopped 4000\nbank 0003\n', 'until 99 1:4000 003:4000 2:4001\nbank 4000\n')
    room.done('debug banked.gb', 'stopped 4000\nbank 0002\n', 'until 99 1:4000 3:108 2:4000\nbank 4000\n')
    room.done('debug banked.gb', 'stopped 0108\nlimit 0108\nwrong 3\nwrong 4\n', 'until 99 0:108\nuntil 9 1:4000\nuntil 9 1000:4000\nbank 1:4000\n')


def test_a_state_is_given_back(room):
    """The machine goes on from a state as it would have gone on, be it in another process; bytes that are no state of the cartridge change nothing."""
    room.rom('state.gb', SENDS, {0x147: 0x10, 0x149: 2})
    room.rom('state.other.gb', COUNTS)
    told = room.printed('debug state.gb', 'frames 01 2\nseconds 61\nstate\nframes 80 3\nhistory 9\ndigest\n')
    head, size, ram = b'done\ndone\nstate 30839\n', 30_839, 8_192
    state, rest = told[len(head):len(head) + size], told[len(head) + size:]
    room.expect('how a state is told', (told[:len(head)], len(rest)), (head, len(b'done\nhistory 0\n') + 72))
    given = b'restore 30839\n' + state
    room.expect('what follows a state', room.printed('debug state.gb', given + b'frames 80 3\nhistory 9\ndigest\n'), b'restored\n' + rest)
    # the history is empty then, and what was sent before is told still
    room.done('debug state.gb', 'done\nrestored\nhistory 0\nserial 1\nA\nserial 0\n\n', b'frames 00 2\n' + given + b'history 9\nserial\nserial\n')
    # the last bytes of a state are of RAM, and may be newlines; the line behind them is the next one
    lines = given[:-ram] + ram * b'\n'
    room.expect('a state that ends in newlines', room.printed('debug state.gb', lines + b'state\nwrong'), b'restored\nstate 30839\n' + lines[14:] + b'wrong 3\n')
    digest = room.printed('debug state.gb', 'digest\n')
    for what, bad, lines in (('a byte of the mark', b'X' + state[1:], 1), ('a byte of the magic', state[:40] + b'X' + state[41:], 1),
                             ('a register that is not legal', state[:60] + b'\xff' + state[61:], 1), ('a byte that is unused', state[:140] + b'\1' + state[141:], 1),
                             ('fewer bytes', state[:-1], 1), ('more bytes', state + b'\0', 1), ('one byte', b'\n', 1)):
        room.expect(what, room.printed('debug state.gb', b'restore %d\n' % len(bad) + bad + b'digest\n'), b'wrong 1\n' + digest)
    room.expect('a state of another cartridge', room.printed('debug state.other.gb', given + b'registers\n')[:8], b'wrong 1\n')
    room.expect('the end within the bytes', room.printed('debug state.gb', given[:-1]), b'wrong 1\n')
    room.expect('the end behind the line', room.printed('debug state.gb', 'digest\nrestore 30839'), digest + b'wrong 2\n')
    room.done('debug state.gb', 'wrong 1\nwrong 2\nwrong 3\nwrong 4\nwrong 5\nwrong 6\n', 'restore\nrestore 0\nrestore 1048577\nrestore x\nrestore 1 1\nrestore 4294967297\n')
    room.rom('state.2.gb', SENDS, {0x147: 0x10, 0x149: 2, 0x14f: 1})
    room.expect('a state of a ROM that was changed', room.printed('debug state.2.gb', given + b'digest\n'), b'wrong 1\n' + digest)


def test_states_are_kept(room):
    """A machine that is kept is gone on from as often as is wanted; a number has the one that was kept last; there are 1,000 numbers."""
    room.rom('kept.gb', SENDS, {0x147: 0x10, 0x149: 2})
    digests = [room.printed('debug kept.gb', text + 'digest\n').splitlines()[-1] for text in ('', 'frames 00 2\n', 'frames 00 2\nframe 80\n', 'frames 00 2\nseconds 9\n')]
    room.expect('four states', len(set(digests)), 4)
    lines = 'keep 0\nframes 00 2\nkeep 999\nframe 80\ndigest\nback 999\ndigest\nseconds 9\nkeep 7\ndigest\nback 0\ndigest\nback 999\ndigest\nback 7\ndigest\nkeep 0\nback 0\ndigest\n'
    names = iter(digests[at].decode() for at in (2, 1, 3, 0, 1, 3, 3))
    words = {'digest': lambda: next(names), 'frame': lambda: 'done', 'frames': lambda: 'done', 'seconds': lambda: 'done'}
    wanted = [words[line.split()[0]]() if line.split()[0] in words else line.replace('keep', 'kept') for line in lines.splitlines()]
    room.done('debug kept.gb', ''.join(f'{line}\n' for line in wanted), lines)
    # the history is empty then, and what was sent before is told still
    room.done('debug kept.gb', 'kept 1\n0100 3E41   LD A,41\nhistory 1\n0100 3E41   LD A,41\ndone\nback 1\nhistory 0\nserial 1\nA\nserial 0\n\n',
              'keep 1\nstep 1\nhistory 9\nframe 00\nback 1\nhistory 9\nserial\nserial\n')
    room.done('debug kept.gb', 'wrong 1\nkept 5\nwrong 3\nback 5\nwrong 5\n', 'back 5\nkeep 5\nback 6\nback 0000000005\nback 4\n')
    wrong = ['keep', 'keep ', 'keep 1000', 'keep -1', 'keep x', 'keep 1 1', 'keep 4294967296', 'keep 00000000001', 'Keep 1', 'back', 'back 1000', 'back  1', 'back 1 ', 'power 1', 'power ', 'Power']
    room.done('debug kept.gb', ''.join(f'wrong {number}\n' for number in range(1, len(wrong) + 1)), '\n'.join(wrong))
    every = ''.join(f'keep {number}\nseconds 1\n' for number in range(1000)) + ''.join(f'back {number}\ndigest\n' for number in (0, 1, 2, 998, 999))
    told = room.printed('debug kept.gb', every).splitlines()
    room.expect('each number', (told[:4], told[2000::2], told[2001], told[2005]),
                ([b'kept 0', b'done', b'kept 1', b'done'], [b'back 0', b'back 1', b'back 2', b'back 998', b'back 999'], digests[0], room.printed('debug kept.gb', 'seconds 2\ndigest\n').splitlines()[-1]))
    # a thousand states take 30 MB: where they are refused, each line before is answered, and no part of that one; an emulator of another
    # processor takes more for itself
    for most, whole in () if 'GBKEEP_EMULATED' in os.environ else ((24, False), (200, True)):
        done = subprocess.run([room.program, 'debug', 'kept.gb'], input=every.encode(), capture_output=True, cwd=room.folder, timeout=SECONDS,
                              preexec_fn=lambda: resource.setrlimit(resource.RLIMIT_AS, (most << 20, most << 20)))
        answers = done.stdout.splitlines()
        room.expect(f'within {most} MiB', (done.returncode, done.stderr, answers == told[:len(answers)], len(answers) % 2, 0 < len(answers) < len(told)),
                    (0, b'', True, 0, False) if whole else (1, b'gbkeep: no memory\n', True, 0, True))


def test_the_power_is_switched(room):
    """RAM and clock stay where there is a battery; all else is as at power-on, and the debugger keeps what it has."""
    # opens RAM, counts up at A001 and C001, and waits
    code = '3e0a ea0000 fa01a0 3c ea01a0 ea01c0 18fe'
    start = 'A=01 F=80 B=00 C=13 D=00 E=D8 H=01 L=4D SP=FFFE PC=0100 IME=0'
    for kind, has_battery in ((0x02, False), (0x03, True), (0x06, True), (0x05, False), (0x08, False), (0x09, True), (0x10, True), (0x12, False), (0x13, True), (0x1a, False), (0x1b, True), (0x1d, False), (0x1e, True)):
        room.rom('power.gb', code, {0x147: kind, 0x149: 2})
        counted = [('F' if kind in (0x05, 0x06) else '0') + str(count) for count in (1, 2 if has_battery else 1)]
        out = room.printed('debug power.gb', 'frame 00\nmemory A001 1\nmemory C001 1\nstep 1\npower\nhistory 9\nmemory C001 1\nregisters\nframe 00\nmemory A001 1\n').decode().splitlines()
        room.expect(f'the switch of type {kind:02X}', [*out[1:3], *out[4:8], out[9]],
                    [f'A001 {counted[0]}', f'C001 {counted[0]}', 'done', 'history 0', 'C001 00', start, f'A001 {counted[1]}'])
    room.rom('power.clock.gb', LOOP, {0x147: 0x10, 0x149: 2})
    state = room.printed('debug power.clock.gb', 'seconds 3661\npower\nstate\n')
    state = state[state.index(b'GBSNAP01'):]
    room.expect('the clock goes on', state[57:62], bytes([1, 1, 1, 0, 0]))
    room.rom('power.none.gb', SENDS)
    room.expect('all else is as at power-on', room.printed('debug power.none.gb', 'frames 80 9\npower\ndigest\n').splitlines()[-1], room.printed('debug power.none.gb', 'digest\n').splitlines()[-1])
    room.done('debug power.none.gb', 'done\nkept 3\ndone\nserial 1\nA\nback 3\n', 'frames 00 2\nkeep 3\npower\nserial\nback 3\n')


def test_bytes_and_registers_are_set(room):
    """A byte is written as the program writes it, and a register gets its value, in no time; the history is empty then."""
    room.rom('set.gb', LOOP, {0x147: 0x13, 0x149: 3})
    for lines, answers in {
        # what a write reaches, and what it does not: ROM, OAM in mode 2, RAM that is shut, and FEA0 to FEFF
        'set C000 5A\nset E001 a5\nset FF80 01\nset ffff 1F\nmemory C000 2\nmemory FF80 1\nmemory FFFF 1': 'done\ndone\ndone\ndone\nC000 5A A5\nFF80 01\nFFFF 1F',
        'set 100 00\nset FE00 11\nset A000 22\nset FEA0 33\nmemory 100 2\nmemory FE00 1\nmemory A000 1\nmemory FEA0 1':
            'done\ndone\ndone\ndone\n0100 18 FE\nFE00 00\nA000 FF\nFEA0 00',
        # RAM is opened, and a bank of it chosen
        'set 0 0A\nset 4000 03\nset A000 22\nbank A000\nmemory A000 1\nset 4000 02\nmemory A000 1\nset 0 00\nmemory A000 1':
            'done\ndone\ndone\nbank 0003\nA000 22\ndone\nA000 00\ndone\nA000 FF',
        # what a register does when it is written
        'set FF04 55\nmemory FF04 1': 'done\nFF04 00',
        'set FF0F FF\nset FF41 FF\nset FF44 12\nmemory FF0F 1\nmemory FF41 1\nmemory FF44 1': 'done\ndone\ndone\nFF0F FF\nFF41 FE\nFF44 00',
        'set C100 77\nset FF46 C1\nmemory FE00 1\nstep 1\nmemory FE00 1': 'done\ndone\nFE00 00\n0100 18FE   JR -02\nFE00 77',
        'set FF01 42\nset FF02 81\nserial\nframe 00\nserial': 'done\ndone\nserial 0\n\ndone\nserial 1\nB',
        # an interrupt that is let in is taken by the next step
        'set FFFF 04\nset FF0F 04\nset C000 FB\nset C001 00\nset-register PC C000\nstep 3': 'done\ndone\ndone\ndone\ndone\nC000 FB     EI\nC001 00     NOP\ninterrupt 50',
        # no step is made, and none is kept
        'step 1\nhistory 9\nset C000 01\nhistory 9\nstep 1\nset-register A 7\nhistory 9':
            '0100 18FE   JR -02\nhistory 1\n0100 18FE   JR -02\ndone\nhistory 0\n0100 18FE   JR -02\ndone\nhistory 0',
        'set-register A 1\nset-register B 23\nset-register C 4\nset-register D 56\nset-register E 7\nset-register H 89\nset-register L a\nset-register F FF\nregisters':
            'done\ndone\ndone\ndone\ndone\ndone\ndone\ndone\nA=01 F=F0 B=23 C=04 D=56 E=07 H=89 L=0A SP=FFFE PC=0100 IME=0',
        'set-register AF 125F\nset-register BC 3456\nset-register DE 789\nset-register HL ab\nset-register SP c\nset-register PC DEF0\nregisters':
            'done\ndone\ndone\ndone\ndone\ndone\nA=12 F=50 B=34 C=56 D=07 E=89 H=00 L=AB SP=000C PC=DEF0 IME=0',
    }.items():
        room.done('debug set.gb', answers + '\n', lines + '\n')
    wrong = ['set', 'set C000', 'set C000 5', 'set C000 005', 'set 10000 00', 'set C000 5G', 'set C000 00 00', 'Set C000 00', 'set  C000 00', 'set-register', 'set-register A', 'set-register A 100',
             'set-register A 000', 'set-register a 00', 'set-register G 00', 'set-register AF 10000', 'set-register PC 00000', 'set-register FA 00', 'set-register IME 1', 'set-register A 1 1', 'set-register HL  1']
    room.done('debug set.gb', ''.join(f'wrong {number}\n' for number in range(1, len(wrong) + 1)), '\n'.join(wrong))
    # a processor that waits goes on waiting where PC is set
    room.rom('set.halt.gb', '76')
    room.done('debug set.halt.gb', '0100 76     HALT\nwait\ndone\nwait\ndone\ndone\n0200 00     NOP\n', 'step 2\nset-register PC 0200\nstep 1\nset FFFF 04\nset FF0F 04\nstep 1\n')


def test_a_run_is_measured(room):
    """The M-cycles of a run, by the byte of ROM with which each instruction began; what waits, takes an interrupt or runs in RAM is elsewhere."""
    room.rom('profile.gb', '00 c30601 00 00 20fe 18fc')
    lines = 'profile 9\nhistory 2\nprofile 100 0000 106\nprofile 1 106\nregisters\n'
    answers = '''\
limit 0108
elsewhere 0
profile 4
0000:0100 1
0000:0101 4
0000:0106 8
0000:0108 9
history 2
0108 18FC   JR -04
0106 20FE   JR NZ,-02
stopped 0106
elsewhere 0
profile 1
0000:0108 3
limit 0108
elsewhere 0
profile 1
0000:0106 2
A=01 F=80 B=00 C=13 D=00 E=D8 H=01 L=4D SP=FFFE PC=0108 IME=0
'''
    room.done('debug profile.gb', answers, lines)
    # HALT waits until the timer overflows, and the interrupt takes 5 M-cycles
    room.rom('profile.halt.gb', INTERRUPTED)
    told = room.printed('debug profile.halt.gb', 'profile 9\nprofile 1\nprofile 1000000 50\nprofile 1').decode().splitlines()
    room.expect('a wait and an interrupt', (told[0:3:2], told[10:14], told[-4:]), (['limit 010D', 'profile 8'], ['0000:010C 1', 'limit 010D', 'elsewhere 1', 'profile 0'], ['limit 0051', 'elsewhere 0', 'profile 1', '0000:0050 1']))
    # code in RAM is elsewhere
    room.done('debug profile.gb', 'done\ndone\ndone\nlimit C000\nelsewhere 3\nprofile 0\n', 'set C000 18\nset C001 FE\nset-register PC C000\nprofile 1\n')
    # each bank has its own bytes
    rom = bytearray(0x10000)
    code = bytes.fromhex(BANKED)
    rom[0x100:0x100 + len(code)], rom[0x147] = code, 1
    for bank in (1, 2, 3):
        rom[0x4000 * bank] = 0xc9
    room.write('profile.banked.gb', bytes(rom))
    told = room.printed('debug profile.banked.gb', 'profile 9\n').decode().splitlines()
    room.expect('banks', told[-2:], ['0002:4000 4', '0003:4000 4'])
    wrong = ['profile', 'profile ', 'profile 0', 'profile 4294967296', 'profile x', 'profile 1 10000', 'profile 1 g', 'profile 1  1', 'profile 1 ', 'Profile 1', 'profile 1' + 17 * ' 1', 'profile 1 1:2:3', 'profile on']
    room.done('debug profile.gb', ''.join(f'wrong {number}\n' for number in range(1, len(wrong) + 1)), '\n'.join(wrong))


def test_a_game_keeps_nothing_of_a_debugger(room):
    room.rom('debugged.gb', SENDS, {0: 0xab, 0x147: 0x10})
    room.rom('debugged.other.gb', SENDS)
    room.rom('debugged.kind.gb', SENDS, {0x147: 0xff})
    room.write('debugged.script', 'frame 80\nseconds 5\n')
    room.write('debugged.blank.gbkeep', '')
    room.refused('debug debugged.gb debugged.gbkeep', 'gbkeep: device failed\n', given='registers\n')
    room.done('new debugged.gb debugged.gbkeep 156', 'begun 0\n')
    room.done('debug debugged.gb debugged.gbkeep', '''\
resumed 0
digest d410e79829d52fafe20561f5f2ab78db12d1324a6061ad1b13a1d65f63e56e3b
done
wrong 3
''', 'digest\nframes 80 9\nsave')
    room.done('play debugged.gb debugged.gbkeep debugged.script', 'resumed 0\nsaved 2\n')
    # the byte was sent in a frame of the game
    room.done('debug debugged.gb debugged.gbkeep', '''\
resumed 2
A=81 F=80 B=00 C=13 D=00 E=D8 H=01 L=4D SP=FFFE PC=0108 IME=0
digest 56a98b8432e3d67b541dad5d4dc9b02837fcf36dcdee8bf6a7b2a6de5680ff71
0108 40     LD B,B
0109 18FD   JR -03
done
done
digest 2139144cc93a51cd76db78b3a8fb049075bd90ca308f6c4c3b763211f494cf17
serial 0

''', 'registers\ndigest\nstep 2\nframes 01 3\nseconds 9\ndigest\nserial\n')
    room.done('debug debugged.gb debugged.gbkeep', '''\
resumed 2
digest 56a98b8432e3d67b541dad5d4dc9b02837fcf36dcdee8bf6a7b2a6de5680ff71
''', 'digest\n')
    room.done('trace debugged.gb debugged.gbkeep 1', 'resumed 2\n0108 40     LD B,B\n')
    room.refused('debug debugged.other.gb debugged.gbkeep', 'gbkeep: other cartridge\n', given='registers\n')
    room.refused('debug debugged.kind.gb debugged.gbkeep', 'gbkeep: cartridge type FF\n', given='registers\n')
    room.refused('debug debugged.kind.gb', 'gbkeep: cartridge type FF\n', given='registers\n')
    room.refused('debug debugged.gb debugged.blank.gbkeep', 'gbkeep: no session\n', given='registers\n')
    room.refused('debug missing.gb debugged.gbkeep', 'gbkeep: file failed\n', given='registers\n')
    room.refused('debug missing.gb', 'gbkeep: file failed\n', given='registers\n')
    room.done('show debugged.gb debugged.gbkeep', '''\
inputs 2
logged 0
generation 6
sectors 156
rom 9d34dff3c42a3d9b1374602e88a79db7eedaa7d326b28d079d638320436ddf13
state 56a98b8432e3d67b541dad5d4dc9b02837fcf36dcdee8bf6a7b2a6de5680ff71
''')


def test_pictures_are_what_frame_writes(room):
    # the first colour of the background becomes the second lightest shade
    room.rom('grey.gb', '3e01 e047 18fe')
    room.write('grey.script', 'frames 00 2\n')
    room.done('new grey.gb grey.gbkeep 156', 'begun 0\n')
    debugged = room.printed('debug grey.gb grey.gbkeep', 'picture\nframe 00\nframe 00\npicture\n')
    room.done('play grey.gb grey.gbkeep grey.script', 'resumed 0\nsaved 2\n')
    room.done('frame grey.gb grey.gbkeep grey.pgm', 'resumed 2\n')
    picture = room.read('grey.pgm')
    # two pictures, one of power-on and one of two frames after it, with the lines around them
    lines, first, between, last = debugged[:10], debugged[10:10 + PICTURE], debugged[10 + PICTURE:20 + PICTURE], debugged[20 + PICTURE:]
    room.expect('the length of all', len(debugged), 92_206)
    room.expect('the lines around the pictures', (lines, between), (b'resumed 0\n', b'done\ndone\n'))
    room.expect('how the first picture begins', first[:len(PGM) + 6], PGM + b'3 3 3 ')
    room.expect('how the last picture begins', picture[:len(PGM) + 6], PGM + b'2 2 2 ')
    room.expect('the last picture', last, picture)


def test_a_line_has_512_bytes_at_most(room):
    room.rom('long.gb', SENDS)
    for length in (1, 127, 128, 129, 511, 512, 513, 896, 1408, 5000):
        room.done('debug long.gb', 'wrong 1\nlimit 0102\nwrong 3\n', ' ' * length + '\nuntil 1 0102\nuntil')
    # sixteen of the longest conditions have 287 bytes; a count of steps has ten digits at most, so that no right line is longer
    conditions = ' '.join(['write FEA0-FEFF'] * 16)
    room.done('debug long.gb', 'limit 0102\nwrong 2\n', f'continue 0000000001 {conditions}\ncontinue 1 {conditions} 0\n')


def test_looks_are_the_same_bytes(room):
    """`bytes` and `shades` are what `memory` and `picture` tell, in a stream, of a recorded game and in a debugger."""
    room.rom('looks.gb', SENDS, {0: 0xab})
    room.done('new looks.gb looks.gbkeep', 'begun 0\n')
    room.done('new looks.gb recorded.gbkeep', 'begun 0\n')
    room.done('new-recording looks.gb looks.rec 20', 'begun 0\n')
    lines = 'frames 00 2\npicture\nshades\nmemory 0 65536\nbytes 0 65536\nbytes FFFE 3\nbytes 0 65537\n'
    for words in ('stream looks.gb looks.gbkeep', 'record looks.gb recorded.gbkeep looks.rec', 'debug looks.gb'):
        is_debug = words.startswith('debug')
        begun, behind = (b'done\n', b'wrong 7\n') if is_debug else (b'resumed 0\n', b'saved 2\n')
        status, out, err = room.run(words, lines)
        room.expect(f'{words}: how it ends', (status, err), (0, b'') if is_debug else (1, b'gbkeep: script line 7\n'))
        parts = []
        for length in (len(begun), PICTURE, 13, 23_040, 65_536 * 3 + 4_096 * 5, 12, 65_536, 8, 3, len(behind)):
            parts.append(out[:length])
            out = out[length:]
        heads = [parts[at] for at in (0, 2, 5, 7, 9)] + [out]
        room.expect(f'{words}: the lines around the bytes', heads, [begun, b'shades 23040\n', b'bytes 65536\n', b'bytes 3\n', behind, b''])
        room.expect(f'{words}: the shades', parts[3], bytes(int(shade) for shade in parts[1][len(PGM):].split()))
        room.expect(f'{words}: the bytes', parts[6], b''.join(bytes.fromhex(row[5:].decode()) for row in parts[4].splitlines()))
        room.expect(f'{words}: bytes that wrap', parts[8], parts[6][0xfffe:] + parts[6][:1])


# ---- traces

def test_the_next_steps_are_printed(room):
    room.rom('trace.sum.gb', SUM)
    room.rom('trace.halt.gb', '76')
    room.rom('trace.dispatch.gb', DISPATCHES)
    room.write('trace.empty', '')
    room.write('trace.frame', 'frame 00\nseconds 60\n')
    room.done('new trace.sum.gb trace.sum.gbkeep 156', 'begun 0\n')
    room.done('trace trace.sum.gb trace.sum.gbkeep 2', 'resumed 0\n0100 3E3A   LD A,3A\n0102 C6C6   ADD A,C6\n')
    # nothing was saved
    room.done('play trace.sum.gb trace.sum.gbkeep trace.empty', 'resumed 0\n')
    room.done('trace trace.sum.gb trace.sum.gbkeep 1', 'resumed 0\n0100 3E3A   LD A,3A\n')
    room.done('new trace.halt.gb trace.halt.gbkeep 156', 'begun 0\n')
    room.done('trace trace.halt.gb trace.halt.gbkeep 2', 'resumed 0\n0100 76     HALT\nwait\n')
    room.done('play trace.halt.gb trace.halt.gbkeep trace.frame', 'resumed 0\nsaved 2\n')
    room.done('trace trace.halt.gb trace.halt.gbkeep 1', 'resumed 2\nwait\n')
    room.done('new trace.dispatch.gb trace.dispatch.gbkeep 156', 'begun 0\n')
    room.done('trace trace.dispatch.gb trace.dispatch.gbkeep 6', '''\
resumed 0
0100 3E01   LD A,01
0102 E0FF   LDH (FF),A
0104 FB     EI
0105 00     NOP
interrupt 40
0040 00     NOP
''')


def test_traces_are_refused(room):
    room.rom('untraced.gb', '76')
    room.rom('untraced.other.gb', '76', {0x134: ord('B')})
    room.rom('untraced.kind.gb', '76', {0x147: 0xff})
    room.write('untraced.blank.gbkeep', '')
    room.write('untraced.odd.gbkeep', bytes(1000))
    room.done('new untraced.gb untraced.gbkeep 156', 'begun 0\n')
    room.refused('trace untraced.other.gb untraced.gbkeep 1', 'gbkeep: other cartridge\n')
    room.refused('trace untraced.kind.gb untraced.gbkeep 1', 'gbkeep: cartridge type FF\n')
    room.refused('trace missing.gb missing.gbkeep 1', 'gbkeep: file failed\n')
    # the save file is opened before the cartridge is read
    room.refused('trace untraced.kind.gb missing.gbkeep 1', 'gbkeep: device failed\n')
    room.refused('trace untraced.kind.gb untraced.odd.gbkeep 1', 'gbkeep: device size 1000\n')
    room.refused('trace untraced.gb untraced.blank.gbkeep 1', 'gbkeep: no session\n')
    room.done('trace untraced.gb untraced.gbkeep 1', 'resumed 0\n0100 76     HALT\n')


def test_a_jump_to_itself_ends_a_test(room):
    """Also where its bytes are the last ones of ROM, WRAM or HRAM; not where one of them lies behind these."""
    room.rom('rom.gb', 'f3 c3fe7f', {0x7ffe: 0x18, 0x7fff: 0xfe})
    room.rom('wram.gb', 'f3 3e18 eafedf 3efe eaffdf c3fedf')
    room.rom('hram.gb', 'f3 3e18 e0fd 3efe e0fe c3fdff')
    room.rom('absolute.gb', 'f3 c3fd7f', {0x7ffd: 0xc3, 0x7ffe: 0xfd, 0x7fff: 0x7f})
    # writes FE to 8000 and jumps to the 18 before it
    room.rom('behind.gb', 'f3 3efe ea0080 c3ff7f', {0x7fff: 0x18})
    for name, end in (('rom', 'loop'), ('wram', 'loop'), ('hram', 'loop'), ('absolute', 'loop'), ('behind', 'frames')):
        status, out, err = room.run(f'test {name}.gb 3')
        room.expect(f'how {name}.gb ended', (status, out.splitlines()[-1:], err), (1, [f'ended {end}'.encode()], b'gbkeep: test undecided\n'))
