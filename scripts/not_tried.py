"""What the gate did not try, and why: a line each in the file that NOT_TRIED names, which `make test` begins and, as its last lines, tells.

usage: not_tried.py WHAT WHY    notes one more; without NOT_TRIED it is said alone
       not_tried.py begins      there is no note yet
       not_tried.py ends        tells the notes, each once

Each test that leaves something out calls `note`, and goes on. A test that fails is another thing: it ends the gate."""
import os
import sys
from pathlib import Path

NAME = 'NOT_TRIED'


def line_of(text: object) -> str:
    """A text in one line, which steers no terminal."""
    return ' '.join(''.join(one if one.isprintable() else ' ' for one in str(text)).split())


def note(what: object, why: object) -> None:
    """Says what is not tried, and why, and keeps it for the end of the gate. It is said once, however often the process comes by."""
    told = f'{line_of(what)}: {line_of(why)}'
    if told in SAID:
        return
    SAID.add(told)
    print(f'not tried: {told}', flush=True)
    place = os.environ.get(NAME)
    if place:
        # one write, so that lines of tests side by side stay whole
        with open(place, 'ab', buffering=0) as file:
            file.write(f'{told}\n'.encode(errors='replace'))


SAID: 'set[str]' = set()


def ends(place: Path) -> str:
    """What is told at the end."""
    notes = dict.fromkeys(place.read_text(encoding='utf-8', errors='replace').splitlines()) if place.exists() else {}
    if not notes:
        return 'all was tried'
    return '\n'.join(f'not tried: {one}' for one in notes)


def main(words: 'list[str]') -> None:
    place = Path(os.environ.get(NAME) or 'bin/not_tried')
    if words == ['begins']:
        place.parent.mkdir(parents=True, exist_ok=True)
        place.unlink(missing_ok=True)
    elif words == ['ends']:
        print(ends(place))
    elif len(words) == 2:
        note(*words)
    else:
        sys.exit(__doc__)


if __name__ == '__main__':
    try:
        main(sys.argv[1:])
    except OSError as error:
        sys.exit(f'not_tried.py: {error.filename}: {error.strerror}')
