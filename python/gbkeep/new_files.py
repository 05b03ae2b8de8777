"""Files that a tool makes, so that no other file is lost by it.

A new file is made beside the wanted name under a name that nobody has, written, synced, and then renamed. So whoever has the old file open keeps it,
and a cut leaves the old one or the new one. One whose name must be new gets it by a link, which takes no other file's. What the tool was given to read, and
whatever is a file of gbkeep's, is never replaced. Of files beside SAVE no link is followed, and none of another user is taken."""
import contextlib
import errno
import os
import stat
from collections.abc import Iterable, Iterator
from typing import IO, Optional

from .input_files import ANOTHER_USER, LINK, SECTOR, PathLike, WrongInput, open_plain, owners_beside, printable, reason
from .system import EXCLUSIVE, IS_POSIX, flags, lock, user

# what a root of a SAVE begins with, in the first sector or in the second, and a RECORDING
OURS = b'GBKP'


class Unsafe(Exception):
    """A file that is not to be written: its name, and why."""


def check_target(path: PathLike, inputs: Iterable[PathLike] = (), begins: tuple[bytes, ...] = (), must_be_new: bool = False,
                 save: Optional[PathLike] = None) -> None:
    """Raises Unsafe where `path` is one of `inputs` by any name, or is there and begins with `GBKP`, or is there and no plain file.

    With `begins`, a file that is there and not empty has to begin with one of these: another one was made by something else. With `must_be_new`
    nothing may be there but an empty file of one's own, which a kill may leave. Beside a SAVE that is named no link may be there, and no file of another
    user."""
    name = printable(path)
    try:
        if os.path.islink(path):
            if save is not None:
                raise Unsafe(f'{name}: {LINK}: take it away')
            if not os.path.exists(path):
                raise Unsafe(f'{name}: this is a link that leads nowhere')
        held = os.stat(path)
    except FileNotFoundError:
        check_folder(path, name)
        return
    except (OSError, ValueError) as error:
        raise Unsafe(f'{name}: {reason(error)}') from None
    if not stat.S_ISREG(held.st_mode):
        raise Unsafe(f'{name}: this is no plain file')
    check_inputs(held, name, inputs)
    if must_be_new and (os.path.islink(path) or not is_empty(held)):
        raise Unsafe(f'{name} exists already: take a name that is free')
    if save is not None and held.st_uid not in owners_beside(save):
        raise Unsafe(f'{name}: {ANOTHER_USER}: take it away')
    if not os.access(path, os.W_OK):
        raise Unsafe(f'{name}: this file may not be written')
    if held.st_size == 0:
        return
    head = head_of(path, SECTOR + max(map(len, (OURS, *begins))))
    if head.startswith(OURS) or head[SECTOR:].startswith(OURS):
        raise Unsafe(f'{name}: this is a file of gbkeep, which is never written over')
    if begins and not head.startswith(begins):
        raise Unsafe(f'{name} exists already and is another kind of file: take a name that is free')


def is_free(path: PathLike) -> bool:
    """Whether a new file may have this name: nothing has it, or an empty file of one's own."""
    try:
        return is_empty(os.lstat(path))
    except FileNotFoundError:
        return True


def is_empty(held: os.stat_result) -> bool:
    """Whether this is an empty file of one's own, which has no other name."""
    return stat.S_ISREG(held.st_mode) and (held.st_size, held.st_uid, held.st_nlink) == (0, user(), 1)


def check_folder(path: PathLike, name: str) -> None:
    folder = os.path.dirname(os.path.realpath(os.fsdecode(path)))
    if os.path.basename(os.fsdecode(path)) in ('', '.', '..') or not os.path.isdir(folder):
        raise Unsafe(f'{name}: there is no such folder')
    if not os.access(folder, os.W_OK | os.X_OK):
        raise Unsafe(f'{name}: no file may be made in its folder')


def check_inputs(held: os.stat_result, name: str, inputs: Iterable[PathLike]) -> None:
    for one in inputs:
        try:
            given = os.stat(one)
        except (OSError, ValueError):
            continue
        if (given.st_dev, given.st_ino) == (held.st_dev, held.st_ino):
            same = '' if printable(one) == name else f', as {printable(one)}'
            raise Unsafe(f'{name}: this file is read{same}, and is not written over')


def head_of(path: PathLike, count: int) -> bytes:
    try:
        descriptor = open_plain(path)
    except WrongInput as error:
        raise Unsafe(str(error)) from None
    try:
        return os.read(descriptor, count)
    finally:
        os.close(descriptor)


def check_standard_output(descriptor: int, inputs: Iterable[PathLike]) -> None:
    """Raises Unsafe where an open file that is to be written is one of `inputs`."""
    held = os.fstat(descriptor)
    if stat.S_ISREG(held.st_mode):
        check_inputs(held, 'standard output', inputs)


def sync_folder(path: PathLike) -> None:
    if not IS_POSIX:
        # no call does so there
        return
    folder = os.open(path, os.O_RDONLY | os.O_DIRECTORY)
    try:
        os.fsync(folder)
    except OSError as error:
        # a file system that has no such call
        if error.errno not in (errno.EINVAL, errno.ENOTSUP):
            raise
    finally:
        os.close(folder)


def name_beside(path: PathLike) -> str:
    """A name in the folder of a file that nobody has."""
    return os.path.join(os.path.dirname(os.path.abspath(os.fsdecode(path))), f'.gbkeep-{os.urandom(8).hex()}.new')


def open_new(path: str, mode: int) -> int:
    """A descriptor of a file that was not there, also not as a link."""
    return os.open(path, os.O_RDWR | os.O_CREAT | os.O_EXCL | flags('NOFOLLOW'), mode)


@contextlib.contextmanager
def new_file(path: PathLike, inputs: Iterable[PathLike] = (), text: bool = False, begins: tuple[bytes, ...] = (), must_be_new: bool = False,
             save: Optional[PathLike] = None) -> Iterator[IO]:
    """A file to be written that takes the place of `path` when the block ends, and leaves what is there as it was where the block is left by an exception.

    Raises Unsafe, before anything is made, where `path` is not to be written, or is there and `must_be_new`. A link stays, and the file that it leads to
    is replaced, but for a name that must be new, and for one beside a SAVE that is named."""
    inputs = tuple(inputs)
    check_target(path, inputs, begins, must_be_new, save)
    target = os.path.realpath(os.fsdecode(path)) if save is None and not must_be_new else in_its_folder(path)
    made = name_beside(target)
    # from here on whoever ends the tool leaves nothing
    is_made = True
    try:
        try:
            descriptor = open_new(made, 0o666)
        except OSError as error:
            is_made = False
            raise Unsafe(f'{printable(path)}: {reason(error)}') from None
        with open(descriptor, 'w' if text else 'wb', **({'encoding': 'utf-8', 'newline': '\n'} if text else {})) as file:
            if IS_POSIX:
                if not must_be_new:
                    keep_mode(target, descriptor)
                keep_owner(target if save is None else save, descriptor)
            yield file
            file.flush()
            os.fsync(descriptor)
        check_target(path, inputs, begins, must_be_new, save)
        if must_be_new:
            give_name(made, target, printable(path))
        else:
            os.replace(made, target)
    except BaseException:
        if is_made:
            with contextlib.suppress(OSError):
                os.unlink(made)
        raise
    sync_folder(os.path.dirname(target))


def in_its_folder(path: PathLike) -> str:
    """A name in the folder that it leads to, where what has it is not followed."""
    folder, name = os.path.split(os.path.abspath(os.fsdecode(path)))
    return os.path.join(os.path.realpath(folder), name)


def give_name(made: str, target: str, name: str) -> None:
    """Gives a file a name that nobody has: unlike a rename, a link takes the place of nothing. An empty file of one's own is replaced."""
    if not IS_POSIX:
        rename_to_free(made, target, name)
        return
    try:
        os.link(made, target, follow_symlinks=False)
    except OSError:
        # the name is taken, or this is a file system without links: where this is killed, the next run takes up the empty file
        with empty_file(target, name):
            os.replace(made, target)
    else:
        with contextlib.suppress(OSError):
            os.unlink(made)


def rename_to_free(made: str, target: str, name: str) -> None:
    """Gives a file a name that nobody has, where no rename takes the place of anything. An empty file of one's own goes before."""
    with contextlib.suppress(FileNotFoundError):
        if is_empty(os.lstat(target)):
            os.unlink(target)
    try:
        os.rename(made, target)
    except FileExistsError:
        raise Unsafe(f'{name} exists already: take a name that is free') from None


@contextlib.contextmanager
def empty_file(target: str, name: str) -> Iterator[None]:
    """While the block is done, an empty file has this name, locked as `gbkeep` locks it: one that is made, or one of one's own."""
    is_made = not os.path.lexists(target)
    try:
        descriptor = open_new(target, 0o666) if is_made else os.open(target, os.O_RDWR | flags('NONBLOCK', 'NOFOLLOW'))
    except OSError as error:
        raise Unsafe(f'{name}: {reason(error)}') from None
    try:
        if not is_locked(descriptor, EXCLUSIVE) or not is_empty(os.fstat(descriptor)) or not has_name(descriptor, target):
            raise Unsafe(f'{name} exists already: take a name that is free')
        try:
            yield
        except BaseException:
            if is_made and has_name(descriptor, target):
                with contextlib.suppress(OSError):
                    os.unlink(target)
            raise
    finally:
        os.close(descriptor)


def has_name(descriptor: int, path: PathLike) -> bool:
    """Whether an open file has that name itself, and not by a link."""
    try:
        return os.path.samestat(os.lstat(path), os.fstat(descriptor))
    except OSError:
        return False


def is_locked(descriptor: int, kind: int) -> bool:
    """Locks an open file as `gbkeep` does; False where another one has locked it."""
    try:
        lock(descriptor, kind)
    except BlockingIOError:
        return False
    except OSError as error:
        # a file system without locks protects nothing, and gbkeep goes on there
        if error.errno not in (errno.EOPNOTSUPP, errno.ENOSYS):
            raise
    return True


def keep_mode(target: str, descriptor: int) -> None:
    # a file that is new has the mode that any new file has, and some file systems keep no modes
    with contextlib.suppress(FileNotFoundError, PermissionError):
        os.fchmod(descriptor, stat.S_IMODE(os.stat(target).st_mode) & 0o777)


def keep_owner(like: PathLike, descriptor: int) -> None:
    """Where root makes a file, it is the user's whose file it replaces, or whose SAVE it lies beside."""
    if os.geteuid() == 0:
        with contextlib.suppress(FileNotFoundError):
            give_owner(os.stat(like), descriptor)


def give_owner(held: os.stat_result, descriptor: int) -> None:
    try:
        os.fchown(descriptor, held.st_uid, held.st_gid)
    except OSError as error:
        # one who may not, a user whom this system does not know, or a file system that keeps no owners
        if error.errno not in (errno.EPERM, errno.EACCES, errno.EINVAL, errno.ENOSYS, errno.ENOTSUP):
            raise
