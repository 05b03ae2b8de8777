"""Save slots: files that take one another's place so that no game is lost, whatever a player presses and whenever the power is cut.

A slot of SAVE is SAVE.slot1 to SAVE.slot10, a copy that is made while nothing is unsaved; a SAVE.slot is the first, where there is no SAVE.slot1. Going back
puts a copy of the slot in the place of SAVE. A game that is
replaced, in SAVE or in the slot, is kept as SAVE.before, SAVE.before.2 and so on, unless it stands in one of these or in the other one already.

Each copy is made under a name that nobody has, synced, and only then renamed; before a slot takes the place of SAVE, `gbkeep show` has to take its
copy. What is replaced is held by the lock that `gbkeep` takes of it, from before it is read until its place is taken durably; a `gbkeep` that opened
it before sees then that it has no name. A SAVE with more names than one is not replaced, since the others would keep the game that goes.

SAVE may be a link, which stays one. Of the files beside it no link is followed, and none of another user is taken: whoever may write the folder could
have put it there."""
import contextlib
import hashlib
import os
import re
import stat
from collections.abc import Container, Iterator
from pathlib import Path
from typing import Optional

from .game import Refused, run
from .input_files import MOST_CART, MOST_SAVE, SECTOR, Planted, WrongInput, is_there, open_plain, owners_beside, printable, read_bytes, reason
from .new_files import Unsafe, give_name, give_owner, has_name, is_locked, name_beside, open_new, sync_folder
from .system import EXCLUSIVE, SHARED
from .timed_game import SaveTime, WrongTime, merged

PIECE = 1 << 20
MOST_COPIES = 9_999


class NotReplaced(Exception):
    """Nothing was replaced: why, in a line."""


def slot_of(save: object, number: int = 0) -> Path:
    """The file of a slot, from 1 on; without a number SAVE.slot, which is the first one where that has no file of its own."""
    plain = f'{os.fsdecode(save)}.slot'
    is_plain = number == 0 or number == 1 and os.path.lexists(plain) and not os.path.lexists(f'{plain}1')
    return Path(plain if is_plain else f'{plain}{number}')


def short(path: object) -> str:
    return printable(os.path.basename(os.fsdecode(path)))


@contextlib.contextmanager
def told_in_a_line() -> Iterator[None]:
    try:
        yield
    except Planted as error:
        raise NotReplaced(f'{error}: take it away') from None
    except (Unsafe, WrongInput, WrongTime) as error:
        raise NotReplaced(str(error)) from None
    except OSError as error:
        name = f'{short(error.filename)}: ' if error.filename else ''
        raise NotReplaced(name + reason(error)) from None


class Held:
    """A plain file that is open, locked as `gbkeep` locks it where a kind of lock is given, and what it held then. With `owners` no link is followed, and the
    file has to be of one of these users."""

    def __init__(self, path: str, kind: Optional[int] = None, owners: Optional[Container[int]] = None):
        self.path = path
        self.descriptor = open_plain(path, owners, os.O_RDWR if kind == EXCLUSIVE else os.O_RDONLY, short(path))
        try:
            if kind is not None and not is_locked(self.descriptor, kind):
                raise NotReplaced(f'{short(path)} is in use')
            self.status = os.fstat(self.descriptor)
            self.content = self.read()
            self.check()
        except BaseException:
            self.close()
            raise

    def read(self) -> bytes:
        pieces, at = [], 0
        while piece := os.pread(self.descriptor, PIECE, at):
            pieces.append(piece)
            at += len(piece)
            if at > MOST_SAVE:
                raise NotReplaced(f'{short(self.path)} is longer than a save file')
        return b''.join(pieces)

    def is_at(self, path: str) -> bool:
        """Whether this file has that name."""
        try:
            return os.path.samestat(os.stat(path), os.fstat(self.descriptor))
        except OSError:
            return False

    def check(self) -> None:
        """Raises NotReplaced where this is no longer what it was."""
        if not self.is_at(self.path) or self.read() != self.content:
            raise NotReplaced(f'{short(self.path)} was changed meanwhile by something else')

    def close(self) -> None:
        os.close(self.descriptor)

    def __enter__(self) -> 'Held':
        return self

    def __exit__(self, *_: object) -> None:
        self.close()


@contextlib.contextmanager
def copy_beside(path: str, content: bytes, like: Held) -> Iterator[str]:
    """A synced copy in the folder of `path`, under a name that nobody has, with the mode of another file; it is removed where it still has that name as
    the block ends."""
    made = name_beside(path)
    descriptor = open_new(made, 0o600)
    try:
        with open(descriptor, 'wb') as file:
            # where root plays the game of a user, it stays the user's
            give_owner(like.status, descriptor)
            os.fchmod(descriptor, stat.S_IMODE(like.status.st_mode) & 0o777)
            file.write(content)
            file.flush()
            os.fsync(descriptor)
        yield made
    finally:
        with contextlib.suppress(OSError):
            os.unlink(made)


def name_it(made: str, name: str) -> None:
    """Gives a copy a name that nobody has."""
    try:
        give_name(made, name, short(name))
    except Unsafe:
        raise NotReplaced(f'{short(name)} was made meanwhile by something else') from None
    sync_folder(os.path.dirname(os.path.abspath(name)))


class Slots:
    """A slot of a game, and the copies of games that were replaced."""

    def __init__(self, cart: object, save: object, program: object, has_clock: bool, number: int = 0):
        self.cart, self.save, self.program, self.has_clock = os.fsdecode(cart), os.fsdecode(save), str(program), has_clock
        self.slot = str(slot_of(save, number))

    def keep(self) -> Optional[str]:
        """Copies SAVE to its slot: the program has it open, and has nothing unsaved. Answers the name of the copy of the slot before, if one was
        made."""
        with told_in_a_line(), contextlib.ExitStack() as until_done:
            game = until_done.enter_context(Held(self.save))
            old, before = None, None
            if is_there(self.slot):
                if has_name(game.descriptor, self.slot):
                    raise NotReplaced(f'{short(self.slot)} is {short(self.save)} itself')
                old = until_done.enter_context(Held(self.slot, EXCLUSIVE, owners_beside(self.save)))
                if old.content:
                    self.check_kind(old)
                    before = self.keep_before(old, self.slot, game.content)
            made = until_done.enter_context(copy_beside(self.slot, game.content, old or game))
            game.check()
            self.put(made, self.save, self.slot, self.slot, old)
            return before

    def left(self) -> Held:
        """SAVE as its program leaves it, which has it open and has nothing unsaved."""
        with told_in_a_line():
            return Held(self.save)

    def go_back(self, left: Held) -> Optional[str]:
        """Puts a copy of the slot in the place of SAVE, whose program has ended. Answers the name of the copy of the game that it replaces, if one was
        made."""
        target = os.path.realpath(self.save)
        with told_in_a_line(), Held(target, EXCLUSIVE) as old, Held(self.slot, SHARED, owners_beside(self.save)) as slot:
            if not left.is_at(target) or left.content != old.content:
                raise NotReplaced(f'{short(self.save)} was changed meanwhile by something else')
            if old.status.st_nlink > 1:
                raise NotReplaced(f'{short(self.save)} has {old.status.st_nlink} names, of which the others would keep the game that goes: leave it one name')
            with copy_beside(target, slot.content, old) as made:
                self.check_game(made)
                before = self.keep_before(old, self.save, slot.content)
                self.put(made, self.slot, self.save, target, old)
                return before

    def check_kind(self, old: Held) -> None:
        """Raises NotReplaced where the slot that is there holds no game of this cartridge: a root of a save file names it."""
        named = hashlib.sha256(read_bytes(self.cart, MOST_CART)).digest()
        if not any(old.content[at:at + 8] == b'GBKPROOT' and old.content[at + 20:at + 52] == named for at in (0, SECTOR)):
            raise NotReplaced(f'{short(self.slot)} exists already and is another kind of file: take it away')

    def check_game(self, copy: str) -> None:
        """Raises NotReplaced where `gbkeep show` does not take a copy of the slot."""
        try:
            run(self.program, 'show', self.cart, copy)
        except Refused as refused:
            raise NotReplaced(f'{short(self.slot)}: {printable(refused.line.removeprefix("gbkeep: "))}') from None

    def keep_before(self, old: Held, name: str, stays: bytes) -> Optional[str]:
        """Keeps the game that is about to be replaced, unless what stays is that, or one of the copies is. Answers the name of the copy, if one was
        made."""
        there = self.copies_before()
        owners = owners_beside(self.save)
        if old.content == stays or any(stands_in(old.content, path, old.path, owners) for path in there.values()):
            return None
        number = max(there, default=0) + 1
        if number > MOST_COPIES:
            raise NotReplaced(f'there are {MOST_COPIES:,} copies of replaced games: take some of them away')
        made = self.name_before(number)
        with copy_beside(self.save, old.content, old) as copy:
            lines = SaveTime(name).read() if self.has_clock else []
            if lines:
                SaveTime(made, name).write(lines, must_be_new=True)
            name_it(copy, made)
        return made

    def name_before(self, number: int) -> str:
        return f'{self.save}.before' if number == 1 else f'{self.save}.before.{number}'

    def copies_before(self) -> dict[int, str]:
        """The copies of games that were replaced, by their numbers."""
        folder, name = os.path.split(os.path.abspath(self.save))
        named = re.compile(re.escape(name) + r'\.before(?:\.([1-9][0-9]{0,3}))?(?:\.time)?', re.DOTALL | re.ASCII)
        numbers = {int(found[1] or 1) for found in map(named.fullmatch, os.listdir(folder)) if found}
        return {number: self.name_before(number) for number in numbers}

    def put(self, made: str, source: str, name: str, target: str, old: Optional[Held]) -> None:
        """Gives the copy of `source` the name `target`, and its time that of `name`.

        In between, the time of `name` says of either game how far its clock was given."""
        lines, time = SaveTime(source).read() if self.has_clock else [], SaveTime(name)
        replaced = time.read() if self.has_clock else []
        if replaced and lines != replaced:
            time.write(merged(lines, replaced))
        if old is None:
            name_it(made, target)
        else:
            old.check()
            os.replace(made, target)
            sync_folder(os.path.dirname(os.path.abspath(target)))
        if lines != replaced:
            # where this fails, what is there is right of the game that has come
            with contextlib.suppress(WrongTime, OSError):
                time.write(lines) if lines else time.remove()


def stands_in(content: bytes, path: str, replaced: str, owners: Container[int]) -> bool:
    """Whether a file that nobody plays has these bytes, durably, and goes on to have them when another one is replaced: a link may lead to that one, and
    another user may take his file away."""
    try:
        if os.path.realpath(path) == replaced or os.path.getsize(path) != len(content):
            return False
        with Held(path, SHARED, owners) as copy:
            if copy.content != content:
                return False
            os.fsync(copy.descriptor)
            return True
    except (NotReplaced, WrongInput, OSError):
        return False
