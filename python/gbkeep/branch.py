"""Begins a new game that has the first inputs of a recording, and a recording of its own.

usage: gbkeep-branch CART RECORDING COUNT NEW_SAVE NEW_RECORDING

NEW_SAVE and NEW_RECORDING are made; neither may be there, nor NEW_SAVE.recorded. NEW_RECORDING has as many sectors as RECORDING, which is
only read. The new game is played by `gbkeep record`, and goes on by it. NEW_RECORDING.notes has the notes of RECORDING, with the marks up to there, and a
rerecord more (see gbkeep-movie)."""
import contextlib
import os
from collections.abc import Iterable, Iterator
from typing import NoReturn, Optional

from .game import Game, begin, begin_recording
from .input_files import MOST_SECTORS, SECTOR, PathLike, WrongInput, is_there, number, printable, read_bytes
from .notes import keep_notes, notes_file, notes_of
from .script import Wrong, inputs_of, is_recording, recorded_moves
from .tools import WrongWords, operands, run_tool

MOST_INPUTS = 2 ** 64 - 1
# a mark has the name of a recording and a few words
MOST_MARK = 1 << 14


def first_of(moves: Iterable[tuple], count: int) -> Iterator[tuple]:
    """The moves up to the first `count` inputs."""
    for move in moves:
        if count == 0:
            return
        if inputs_of(move) > count:
            move = ('frames', move[1], count)
        count -= inputs_of(move)
        yield move
    if count > 0:
        raise Wrong(f'RECORDING has {count} inputs fewer')


def must_be_free(path: PathLike) -> None:
    if is_there(path):
        raise Wrong(f'{printable(path)} exists already: take a name that is free')


def mark_of(save: PathLike) -> str:
    """The name of SAVE.recorded."""
    return f'{os.path.realpath(os.fsdecode(save))}.recorded'


class Made:
    """The files that were made, so that no other one is removed that has come to their names."""

    def __init__(self):
        self.files = []

    def note(self, path: PathLike) -> None:
        with contextlib.suppress(OSError):
            self.files.append((path, os.lstat(path)))

    def remove(self) -> None:
        for path, made in self.files:
            with contextlib.suppress(OSError):
                if os.path.samestat(os.lstat(path), made):
                    os.unlink(path)


def branch(cart: PathLike, recording: PathLike, count: int, new_save: PathLike, new_recording: PathLike, program: Optional[PathLike] = None) -> int:
    """Begins a game in two new files that has the first `count` inputs of a recording, and answers how many are saved. Where it fails, neither file is left."""
    mark, made, may_be_marked = mark_of(new_save), Made(), False
    # the game that is begun would take it away
    must_be_free(mark)
    must_be_free(notes_file(new_recording))
    notes = notes_of(recording).up_to(count)
    # whether there are so many, before anything is made
    for _ in first_of(recorded_moves(cart, recording, program), count):
        pass
    try:
        begin_recording(cart, new_recording, min(os.path.getsize(recording) // SECTOR, MOST_SECTORS), program)
        made.note(new_recording)
        must_be_free(mark)
        begin(cart, new_save, program)
        made.note(new_save)
        must_be_free(mark)
        may_be_marked = True
        with Game(cart, new_save, program, recording=new_recording) as game:
            for move in first_of(recorded_moves(cart, recording, program), count):
                getattr(game, move[0])(*move[1:])
            saved = game.save()
        keep_notes(new_recording, notes)
        return saved
    except BaseException:
        # they were made for this game alone
        if may_be_marked and is_mark(mark, new_recording):
            made.note(mark)
        made.remove()
        raise


def is_mark(mark: str, recording: PathLike) -> bool:
    """Whether this is the mark of a game that is recorded there."""
    with contextlib.suppress(WrongInput):
        return read_bytes(mark, MOST_MARK).split(b'\n')[0] == os.fsencode(recording)
    return False


def main(words: list[str]) -> None:
    words = operands(words)
    if len(words) != 5:
        raise WrongWords
    cart, recording, wanted, new_save, new_recording = words
    try:
        count = number(wanted, 0, MOST_INPUTS, 'COUNT')
    except WrongInput:
        raise WrongWords from None
    if not is_recording(recording):
        raise Wrong(f'{printable(recording)}: this is no recording')
    for path in (new_save, new_recording):
        must_be_free(path)
    print(f'saved {branch(cart, recording, count, new_save, new_recording)}')


def start() -> NoReturn:
    run_tool(main, __doc__)


if __name__ == '__main__':
    start()
