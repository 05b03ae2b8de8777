"""The kind `debugs` of hostile.py: lines of `debug`, right and wrong, whole, in pieces and one by one, from power-on and over games, sound and damaged.

Each line is read and answered by second_machine/debug_lines.py, byte for byte. SAVE is left as save_files.py says, and byte for byte as `trace` leaves it:
it has one checkpoint more, and nothing of what was run."""
import hashlib, signal, subprocess, threading
import hostile
from hostile import CART, SAVE, SCRIPT, damaged, differs, gbkeep, random_rom, same_file
from gbkeep.save_files import Cartridge, Game, get, put
from scripts.second_machine import debug_lines, reference


def first_difference(want, got):
    at = next((at for at, (one, other) in enumerate(zip(want, got)) if one != other), min(len(want), len(got)))
    return 'from byte %d of %d on: wanted %r got %r' % (at, len(want), want[max(at - 40, 0):at + 60], got[max(at - 40, 0):at + 60])


def is_as(seed, what, got, want):
    """Compares statuses, outputs and errors, or files."""
    if got != want:
        if isinstance(want, tuple) and (got[0], got[2]) == (want[0], want[2]):
            got, want = got[1], want[1]
        differs('debugs', seed, '%s: %s' % (what, first_difference(want, got) if isinstance(want, bytes) else 'wanted %r got %r' % (want, got)))
    return got == want


def given(rnd, words, text):
    """Status, output and errors of a debugger that reads this text whole, from a file, or in pieces."""
    how = rnd.randrange(3)
    if how == 0:
        return gbkeep(*words, input=text)
    if how == 1:
        put(SCRIPT, text)
        with open(SCRIPT, 'rb') as file:
            return gbkeep(*words, stdin=file)
    debug = subprocess.Popen([hostile.GB, *words], stdin=subprocess.PIPE, stdout=subprocess.PIPE, stderr=subprocess.PIPE)
    at = 0
    try:
        while at < len(text) and at < 30000:
            size = rnd.choice([1, 2, 7, 128, 129, 896, 1024])
            debug.stdin.write(text[at:at + size])
            debug.stdin.flush()
            at += size
        out, err = debug.communicate(text[at:], timeout=hostile.LONGEST)
    except BrokenPipeError:
        out, err = debug.communicate()
    return debug.returncode, out, err


def lines_for(rnd, rom, most):
    return debug_lines.random_lines(rnd, rnd.choice([0, 1, 4, 12]), rnd.choice([20, most]), rnd.choice([0.1, 0.3, 0.8]), debug_lines.seen_in(rom, 100))


def played(rnd, rom):
    """A short script, and the machine after it."""
    machine, moves = reference.Machine(rom), []
    machine.draws = True
    for _ in range(rnd.choice([0, 1, 2, 3])):
        if rnd.random() < 0.5:
            buttons = rnd.choice([0, 1, rnd.randrange(256)])
            machine.frame(buttons)
            moves.append('frame %02x' % buttons)
        else:
            count = rnd.choice([0, 1, 60, 86399, 4294967295])
            debug_lines.pass_seconds(machine, count)
            moves.append('seconds %d' % count)
    return '\n'.join(moves).encode(), machine


def line_by_line(rnd, seed, rom, image, cart, count, machine):
    """Each answer is there before more is read. Then the debugger is killed, or its input ends."""
    put(SAVE, image)
    debugger, shown = debug_lines.Debugger(machine), b''
    debug = subprocess.Popen([hostile.GB, 'debug', CART, SAVE], stdin=subprocess.PIPE, stdout=subprocess.PIPE, stderr=subprocess.PIPE)
    # a line that is not answered before more is read would be waited for without end
    patience = threading.Timer(10, debug.kill)
    patience.start()
    report = debug.stdout.readline()
    answered = report == b'resumed %d\n' % count
    lines = debug_lines.lines_of(lines_for(rnd, rom, 300)) + [(b'registers', b''), (b'save', b'')]
    for number, (line, given) in enumerate(lines, 1):
        if not answered:
            break
        want = debugger.answer(line, given, number)
        try:
            debug.stdin.write(line + b'\n' + given)
            debug.stdin.flush()
        except BrokenPipeError:
            answered = False
            break
        shown = debug.stdout.read(len(want))
        answered = shown == want
    patience.cancel()
    if not answered:
        debug.kill()
        debug.communicate()
        return differs('debugs', seed, 'a line is not answered before more is read: %r, %r' % (report, shown[-60:]))
    if rnd.random() < 0.5:
        debug.send_signal(signal.SIGKILL)
        debug.communicate()
        status, rest, err = 0, b'', b''
    else:
        rest, err = debug.communicate(timeout=hostile.LONGEST)
        status = debug.returncode
    is_as(seed, 'the end of lines one by one', (status, rest, err), (0, b'', b''))
    is_as(seed, 'the game after lines one by one', hostile.count_of(get(SAVE), cart), count)


def over_a_game(rnd, seed, rom, cart):
    """A game that was played; answers its save file, or None where something differs."""
    hostile.new_game(rnd, rom, cart)
    script, machine = played(rnd, rom)
    put(SCRIPT, script)
    gbkeep('play', CART, SAVE, SCRIPT)
    image = get(SAVE)
    game = Game(image, cart)
    game.resume()
    digest = hashlib.sha256(debug_lines.snapshot(machine)).hexdigest()
    text = lines_for(rnd, rom, 1000)
    want = game.report + b''.join(debug_lines.Debugger(machine).answers(text))
    good = is_as(seed, 'over a game, %r' % script, given(rnd, ['debug', CART, SAVE], text), (0, want, b''))
    left = get(SAVE)
    if not same_file(left, game):
        return differs('debugs', seed, 'SAVE is left with other bytes')
    put(SAVE, image)
    gbkeep('trace', CART, SAVE, '9')
    good = is_as(seed, 'SAVE beside the one that a trace leaves', get(SAVE), left) and good
    shown = gbkeep('show', CART, SAVE)[1].decode().split('\n')
    good = is_as(seed, 'the game after it', (shown[0], shown[5:]), ('inputs %d' % game.count, ['state ' + digest, ''])) and good
    again = gbkeep('debug', CART, SAVE, input=b'digest')
    if is_as(seed, 'the game again', again, (0, game.report + b'digest %s\n' % digest.encode(), b'')) and good:
        return image, game.count, script


def over_damage(rnd, seed, image, cart, rom):
    """A game with something wrong is refused as a play refuses it; one that is taken up is left as a trace leaves it."""
    put(SAVE, image)
    traced = gbkeep('trace', CART, SAVE, '1')
    left = get(SAVE)
    put(SAVE, image)
    status, out, err = gbkeep('debug', CART, SAVE, input=b'registers\nwait\nframes 00 2\ndigest\n')
    wanted = hostile.played(image, cart, b'')
    is_as(seed, 'a damaged game', (status, out[:len(wanted[1])], err), wanted[:3])
    is_as(seed, 'a damaged game beside a trace', (status, err), (traced[0], traced[2]))
    is_as(seed, 'SAVE of a damaged game beside the one that a trace leaves', get(SAVE), left)
    if not same_file(left, wanted[3]):
        differs('debugs', seed, 'SAVE of a damaged game is left with other bytes')
    if status == 1 and out or status == 0 and [row.split()[0] for row in out.decode().split('\n')[2:-1]] != ['wrong', 'done', 'digest']:
        differs('debugs', seed, 'of a damaged game %r' % out)


def from_power_on(rnd, seed, rom, text):
    want = b''.join(debug_lines.Debugger(reference.Machine(rom)).answers(text))
    good = is_as(seed, 'from power-on', given(rnd, ['debug', CART], text), (0, want, b''))
    if not good:
        put('differs.lines', text), put('differs.gb', rom)
    return good


def with_states(rnd, rom, other):
    """Lines with bytes of each kind that debug_lines.py has, more of them with a bit of a state turned than of the others: of this machine, of one whose
    ROM differs in one bit, and of another cartridge; with a count that is none, or that is not theirs; and the last one may be cut off by the end of the
    input."""
    text, states = b'', []
    for image in (rom, debug_lines.changed(rnd, rom), other):
        machine = reference.Machine(image)
        for _ in range(rnd.randrange(300)): machine.step()
        states.append(debug_lines.state(machine))
    own, others = states[:1], states[1:]
    kinds = [*debug_lines.GIVEN, None, None] + ['field'] * 6
    for kind in rnd.sample(kinds, len(kinds)):
        text += debug_lines.a_restore(rnd, own, others, kind) if kind else debug_lines.miscounted(rnd, own, others)
        text += rnd.choice([b'', b'\n', b'registers\n', b'digest\n', b'digest\n'])
    return text[:-rnd.randrange(1, 2000)] if rnd.random() < 0.5 else text


def debugs(rnd, seed):
    rom, other_rom = random_rom(rnd), random_rom(rnd)
    cart, other = Cartridge(rom), Cartridge(other_rom)
    put(CART, rom)
    wrong = rnd.sample(debug_lines.WRONG, len(debug_lines.WRONG))
    wrong[rnd.randrange(len(wrong))] = b''
    if not from_power_on(rnd, seed, rom, with_states(rnd, rom, other_rom)) or not from_power_on(rnd, seed, rom, b'\n'.join(wrong)) or not from_power_on(rnd, seed, rom, lines_for(rnd, rom, 1000)):
        return
    game = over_a_game(rnd, seed, rom, cart)
    if game is None:
        return
    image, count, script = game
    machine = reference.Machine(rom)
    machine.draws = True
    for move in script.split(b'\n'):
        if move.startswith(b'frame'): machine.frame(int(move.split()[1], 16))
        elif move: debug_lines.pass_seconds(machine, int(move.split()[1]))
    line_by_line(rnd, seed, rom, image, cart, count, machine)
    for _ in range(3):
        over_damage(rnd, seed, damaged(rnd, image, cart, other), cart, rom)
