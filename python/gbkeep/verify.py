"""Compares a game with its recording, by `gbkeep verify`, and tells a terminal how far that may be.

usage: gbkeep-verify CART SAVE RECORDING

It prints what `gbkeep verify` prints, with its status: `agree N`, or a line on standard error. If standard error is a terminal, a second program
plays the same inputs meanwhile, by `gbkeep debug`, and answers each piece of them: how many it has played is told. Neither writes to a file."""
import subprocess
import sys
from collections.abc import Iterable, Iterator
from typing import NoReturn

from .branch import first_of
from .game import Refused, ended, find_program, line_of, run, started
from .input_files import printable
from .script import Wrong, recorded_moves
from .tools import WrongWords, operands, run_tool

# frames of one line: a tenth of a second, or less
PIECE = 3_000


def pieces_of(moves: Iterable[tuple]) -> Iterator[tuple[str, int]]:
    """The moves as lines of `gbkeep debug`, with the count of inputs of each."""
    for move in moves:
        if move[0] == 'seconds':
            yield f'seconds {move[1]}\n', 1
            continue
        left = move[2]
        while left:
            times = min(left, PIECE)
            yield f'frames {move[1]:02x} {times}\n', times
            left -= times


def inputs_to_play(program: str, cart: str, save: str, recording: str) -> tuple[Iterable[tuple], int]:
    """The moves that are played again, those of the recording up to the count of the game, and that count. None where the program refuses to tell."""
    try:
        count = int(run(program, 'show', cart, save).split()[1])
        return first_of(recorded_moves(cart, recording), count), count
    except (Refused, ValueError, IndexError):
        return [], 0


def told_pieces(moves: Iterable[tuple]) -> Iterator[tuple]:
    """The pieces up to the last that is there: whether it is enough, `gbkeep verify` says."""
    try:
        yield from pieces_of(moves)
    except (Wrong, Refused):
        return


def tell(program: str, cart: str, moves: Iterable[tuple], count: int, verify: subprocess.Popen) -> None:
    """Plays the moves beside `verify`, and tells how many of `count` inputs are played, until one of both ends."""
    played = 0
    beside = started([program, 'debug', '--', cart], stdin=subprocess.PIPE, stdout=subprocess.PIPE, stderr=subprocess.DEVNULL)
    try:
        for line, inputs in told_pieces(moves):
            beside.stdin.write(line.encode())
            beside.stdin.flush()
            if beside.stdout.readline(16) != b'done\n' or verify.poll() is not None:
                break
            played += inputs
            print(f'\r{played:,} of {count:,} inputs', end='', file=sys.stderr, flush=True)
    except BrokenPipeError:
        pass
    finally:
        beside.kill()
        beside.communicate()
        # the line is cleared
        print('\r\x1b[K', end='', file=sys.stderr, flush=True)


def verified(program: str, cart: str, save: str, recording: str) -> str:
    """What `gbkeep verify` prints."""
    moves, count = inputs_to_play(program, cart, save, recording) if sys.stderr and sys.stderr.isatty() else ([], 0)
    verify = started([program, 'verify', '--', cart, save, recording], stdin=subprocess.DEVNULL, stdout=subprocess.PIPE, stderr=subprocess.PIPE, text=True, errors='replace')
    with ended(verify):
        if count:
            tell(program, cart, moves, count, verify)
        out, err = verify.communicate()
    if verify.returncode != 0:
        raise Refused(line_of(err, verify.returncode), 'verify')
    return out


def main(words: list[str]) -> None:
    words = operands(words)
    if len(words) != 3:
        raise WrongWords
    print(printable(verified(find_program(), *words).rstrip('\n')))


def start() -> NoReturn:
    run_tool(main, __doc__)


if __name__ == '__main__':
    start()
