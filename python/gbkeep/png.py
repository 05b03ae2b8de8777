"""Writes a picture that `gbkeep frame` wrote as PNG, three times as large, in four greys.

usage: gbkeep-png PGM PNG

PNG is a file that is not there, or a PNG, which is replaced."""
from typing import NoReturn

from .input_files import printable, read_bytes
from .new_files import new_file
from .pictures import PGM_HEAD, PNG_HEAD, png_of, shades_of
from .tools import Failed, WrongWords, name_of_tool, operands, run_tool

# the program's own picture has 46,093 bytes; other blanks are taken, too
MOST_PGM = 1 << 20


def main(words: list[str]) -> None:
    words = operands(words)
    if len(words) != 2:
        raise WrongWords
    try:
        data = read_bytes(words[0], MOST_PGM)
        if not data.startswith(PGM_HEAD):
            raise ValueError('no picture of 160 by 144 as `gbkeep frame` writes it')
        made = png_of(shades_of(data))
    except ValueError as error:
        raise Failed(f'{name_of_tool()}: {printable(words[0])}: {error}') from None
    with new_file(words[1], inputs=[words[0]], begins=(PNG_HEAD,)) as file:
        file.write(made)


def start() -> NoReturn:
    run_tool(main, __doc__)


if __name__ == '__main__':
    start()
