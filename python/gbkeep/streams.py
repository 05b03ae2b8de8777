"""The numbers of the three standard streams, which no file may have: what is written to a stream that was closed would go into that file."""
import os

STREAMS = 3


def take_streams() -> None:
    """Opens nothing on each of the three that is closed; what this process starts has it, too."""
    for number in range(STREAMS):
        try:
            os.fstat(number)
        except OSError:
            take(number)


def take(number: int) -> None:
    try:
        descriptor = os.open(os.devnull, os.O_RDWR)
    except OSError:
        # where there is no such file, the root folder takes no byte either
        descriptor = os.open('/', os.O_RDONLY)
    if descriptor < STREAMS:
        os.set_inheritable(descriptor, True)
    else:
        # another thread was quicker
        os.close(descriptor)
