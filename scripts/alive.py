"""Says at once what a command does, and each minute that it is still at it. Its output and its status are its own.

usage: alive.py SAYS COMMAND [WORD]..

What is said goes to standard error, so that standard output is the command's."""
import contextlib
import os
import signal
import subprocess
import sys
import threading
import time
from collections.abc import Callable, Iterator
from typing import Optional, Union

# how long nothing is said; tests make it shorter
SECONDS = float(os.environ.get('ALIVE_SECONDS', '') or 60)


def minutes(seconds: float) -> str:
    """A span in words: in seconds up to two minutes."""
    return f'{seconds:.0f} seconds' if seconds < 120 else f'{seconds / 60:.0f} minutes'


@contextlib.contextmanager
def alive(says: Union[str, Callable[[], str]], to: Optional[object] = None) -> Iterator[None]:
    """Until the block ends, says each minute what is being done: a text behind which the time so far stands, or what a call answers by then."""
    begun, is_over = time.monotonic(), threading.Event()

    def run() -> None:
        while not is_over.wait(SECONDS):
            line = says() if callable(says) else f'{says}: {minutes(time.monotonic() - begun)} so far'
            print(line, file=to or sys.stderr, flush=True)
    thread = threading.Thread(target=run, daemon=True)
    thread.start()
    try:
        yield
    finally:
        is_over.set()
        thread.join()


def main(words: list[str]) -> int:
    if len(words) < 2:
        sys.exit(__doc__)
    says, *command = words
    print(says, file=sys.stderr, flush=True)
    try:
        child = subprocess.Popen(command)
    except OSError as error:
        sys.exit(f'alive.py: {command[0]}: {error.strerror}')
    # a terminal signals both, and what the child makes of it counts
    signal.signal(signal.SIGINT, signal.SIG_IGN)
    signal.signal(signal.SIGTERM, lambda *_: child.terminate())
    with alive(os.path.basename(command[0]) + ' is at it'):
        status = child.wait()
    return status if status >= 0 else 128 - status


if __name__ == '__main__':
    sys.exit(main(sys.argv[1:]))
