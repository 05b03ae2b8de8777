"""What is of the system that Python runs on. Windows has no locks, owners and modes of files as POSIX has them, and no program `gbkeep`: there the library plays,
and a tool that needs more says so in a line."""
import os

try:
    import fcntl
except ImportError:
    fcntl = None

IS_POSIX = fcntl is not None
EXCLUSIVE, SHARED = (fcntl.LOCK_EX, fcntl.LOCK_SH) if IS_POSIX else (2, 1)
NO_PROGRAM = 'there is none for Windows, where the library plays: gbkeep.Machine, gbkeep.Session, gbkeep.env'


def flags(*names: str) -> int:
    """These flags of `os.open`, as far as the system has them, for a file that is bytes."""
    found = 0
    for name in ('BINARY', 'CLOEXEC', *names):
        found |= getattr(os, f'O_{name}', 0)
    return found


def user() -> int:
    """The user that files of this process are of."""
    return os.geteuid() if IS_POSIX else 0


def lock(descriptor: int, kind: int) -> None:
    """Locks an open file; raises OSError as `flock` does."""
    if IS_POSIX:
        fcntl.flock(descriptor, kind | fcntl.LOCK_NB)
