"""Files that a person names, read so that none of them can do harm: a FIFO, a device, one that is too long or is no text is refused with a line.

What a file may have is bounded before it is read, and what is shown of it can't steer a terminal."""
import contextlib
import os
import re
import stat
from collections.abc import Container
from typing import Optional, Union

from .streams import take_streams
from .system import flags, user

PathLike = Union[str, bytes, os.PathLike]

# as many characters of a name as are shown, and of a whole line
MOST_SHOWN, MOST_LINE = 200, 2000
PIECE = 1 << 20
# a save file, a recording, and a cartridge
SECTOR, MOST_SECTORS = 512, 65_536
MOST_SAVE, MOST_CART = MOST_SECTORS * SECTOR, 8 << 20
# why a file beside SAVE is not taken
LINK, ANOTHER_USER = 'this is a link, and none is followed here', 'this file is of another user, and is not taken'


class WrongInput(Exception):
    """A file or a word that can't be used: where, and why."""


class Planted(WrongInput):
    """A file beside SAVE that is not taken, since somebody else may have put it there."""


def printable(text: Union[PathLike, object], most: int = MOST_SHOWN) -> str:
    """A text, a name or bytes as they may be shown in one line: what is no printing character is escaped, and what is long is cut."""
    if isinstance(text, (bytes, bytearray)):
        text = bytes(text[:4 * most]).decode(errors='surrogateescape')
    if isinstance(text, str) and len(text) <= most and text.isprintable():
        return text
    shown = ''.join(one if one.isprintable() else escaped(one) for one in str(text)[:most + 1])
    return shown if len(shown) <= most else shown[:most - 3] + '...'


def escaped(one: str) -> str:
    code = ord(one)
    if 0xdc80 <= code <= 0xdcff:
        # a byte that is not UTF-8, as Python keeps it in a name
        return f'\\x{code - 0xdc00:02x}'
    return f'\\x{code:02x}' if code < 0x100 else f'\\u{code:04x}' if code < 0x10000 else f'\\U{code:08x}'


def reason(error: Exception) -> str:
    """What an error of the system says, without the name, which is shown beside it."""
    return printable(getattr(error, 'strerror', None) or error)


def open_plain(path: PathLike, owners: Optional[Container[int]] = None, how: int = os.O_RDONLY, name: str = '') -> int:
    """A descriptor of a plain file. Anything else is refused, by its path or this name, and nothing waits for it. With `owners` no link is followed, and the
    file has to be of one of these users."""
    take_streams()
    name = name or printable(path)
    try:
        descriptor = os.open(path, how | flags('NONBLOCK', 'NOCTTY', *(() if owners is None else ('NOFOLLOW',))))
    except (OSError, ValueError) as error:
        if owners is not None and os.path.islink(path):
            raise Planted(f'{name}: {LINK}') from None
        raise WrongInput(f'{name}: {reason(error)}') from None
    try:
        held = os.fstat(descriptor)
        if not stat.S_ISREG(held.st_mode):
            raise WrongInput(f'{name}: this is no plain file')
        if owners is not None and held.st_uid not in owners:
            raise Planted(f'{name}: {ANOTHER_USER}')
    except BaseException:
        os.close(descriptor)
        raise
    return descriptor


def is_there(path: PathLike) -> bool:
    """Whether anything has this name, also a link to nothing. Raises OSError where that can't be seen."""
    try:
        os.lstat(path)
    except (FileNotFoundError, NotADirectoryError):
        return False
    return True


def owners_beside(save: PathLike) -> set[int]:
    """Whose files beside SAVE are taken: this user's, and those of the user whose SAVE it is."""
    owners = {user()}
    with contextlib.suppress(OSError, ValueError):
        owners.add(os.stat(save).st_uid)
    return owners


def read_bytes(path: PathLike, most: int, owners: Optional[Container[int]] = None) -> bytes:
    """The bytes of a plain file, which has `most` of them at most; with `owners` as `open_plain` opens it."""
    descriptor, parts, left = open_plain(path, owners), [], most + 1
    try:
        # a file of another kind than it says, as one below /proc, may give more than its size
        while left > 0:
            part = os.read(descriptor, min(left, PIECE))
            if not part:
                return b''.join(parts)
            parts.append(part)
            left -= len(part)
    except OSError as error:
        raise WrongInput(f'{printable(path)}: {reason(error)}') from None
    finally:
        os.close(descriptor)
    raise WrongInput(f'{printable(path)}: the file has more than {most:,} bytes')


def read_text(path: PathLike, most: int, owners: Optional[Container[int]] = None) -> str:
    """The text of a plain file in UTF-8, with its line ends as they are; with `owners` as `open_plain` opens it."""
    try:
        return read_bytes(path, most, owners).decode()
    except UnicodeDecodeError as error:
        raise WrongInput(f'{printable(path)}: byte {error.start:,} is not UTF-8') from None


def number(text: str, low: int, high: int, what: str) -> int:
    """A number in decimal digits, from `low` to `high`."""
    if not re.fullmatch('[0-9]+', text, re.ASCII):
        raise WrongInput(f"{what}: '{printable(text)}' is no decimal number")
    digits = text.lstrip('0') or '0'
    if len(digits) > len(str(high)) or not low <= int(digits) <= high:
        raise WrongInput(f"{what}: '{printable(text)}' is no number from {low:,} to {high:,}")
    return int(digits)
