"""Goes on with a script where a SAVE stands: what the SAVE counts already is left out, and a run of frames that it has in part is split.

usage: gbkeep-rest [--record RECORDING] CART SAVE SCRIPT

For whoever keeps the whole script of a game: play it by this again and again, while it grows or after a power cut. SCRIPT is a script of
gbkeep's, a friendly one (see gbkeep-script), or a recording. With --record the game is one that is recorded, and is played by `gbkeep record`. Only
the inputs are counted: that those in SAVE came from this script, nobody can see."""
from collections.abc import Iterable, Iterator
from itertools import chain
from typing import NoReturn

from .script import Wrong, inputs_of, moves_to_play, opened_game, play
from .tools import WrongWords, operands, option, run_tool


def rest_of(moves: Iterable[tuple], count: int) -> Iterator[tuple]:
    """The moves after the first `count` inputs."""
    moves = iter(moves)
    for move in moves:
        if count == 0:
            return chain([move], moves)
        if inputs_of(move) > count:
            return chain([('frames', move[1], move[2] - count)], moves)
        count -= inputs_of(move)
    if count > 0:
        raise Wrong(f'SAVE has {count} inputs more than SCRIPT')
    return iter(())


def main(words: list[str]) -> None:
    recording, words = option(words, '--record')
    words = operands(words)
    if len(words) != 3:
        raise WrongWords
    cart, save, script = words
    moves = moves_to_play(cart, script)
    with opened_game(cart, save, recording) as game:
        rest = rest_of(moves, game.resumed)
        print(f'resumed {game.resumed}', flush=True)
        play(game, rest)


def start() -> NoReturn:
    run_tool(main, __doc__)


if __name__ == '__main__':
    start()
