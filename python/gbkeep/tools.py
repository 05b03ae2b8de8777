"""How a tool begins and ends: its help, its words, a line for what goes wrong, and its status.

The status is 0 if it did what it was asked, 1 if it refused, with one line on standard error, and 2 if the words were not understood."""
import argparse
import os
import signal
import sys
from collections.abc import Callable
from pathlib import Path
from typing import NoReturn, Optional

from .input_files import MOST_LINE, WrongInput, number, printable, reason
from .new_files import Unsafe
from .system import IS_POSIX


class WrongWords(Exception):
    """The words of a command line are not understood."""


class Failed(Exception):
    """What a tool refuses: str() is the line, as it is told."""


class Ended(BaseException):
    """Somebody has ended the tool."""


def name_of_tool() -> str:
    """The name that a tool is installed by, also where Python runs its module."""
    path = Path(sys.argv[0])
    return printable(f'gbkeep-{path.stem.replace("_", "-")}' if path.suffix == '.py' else path.name)


def operands(words: list[str]) -> list[str]:
    """The words without a `--`, before which none may be an option."""
    before, dashes, after = words, [], []
    if '--' in words:
        at = words.index('--')
        before, dashes, after = words[:at], ['--'], words[at + 1:]
    if any(word.startswith('-') and word != '-' for word in before):
        raise WrongWords
    return before + after if dashes else before


def option(words: list[str], name: str) -> tuple[Optional[str], list[str]]:
    """The word behind an option, where it stands before a `--`, and the other words."""
    before = words[:words.index('--')] if '--' in words else words
    if name not in before:
        return None, words
    at = before.index(name)
    if at + 1 == len(before):
        raise WrongWords
    return words[at + 1], words[:at] + words[at + 2:]


class Words(argparse.ArgumentParser):
    """The words of a tool that has options. What is wrong with them is said in one line, whatever is in them."""

    def error(self, message: str) -> NoReturn:
        say(f'{self.prog}: {printable(message, MOST_LINE)}')
        raise SystemExit(2)


def count_word(low: int, high: int, what: str) -> Callable[[str], int]:
    """The reader of a number in the words of a tool."""
    def read(word: str) -> int:
        try:
            return number(word, low, high, what)
        except WrongInput as error:
            raise argparse.ArgumentTypeError(str(error)) from None
    return read


def ends(*_: object) -> NoReturn:
    raise Ended


def run_tool(main: Callable[[list[str]], Optional[int]], usage: Optional[str] = None) -> NoReturn:
    """Runs a tool on the words of its process, and ends it. Without `usage` the tool tells its help itself."""
    for sign in (signal.SIGTERM, *([signal.SIGHUP] if IS_POSIX else [])):
        # one that is ignored stays so, as of what `nohup` starts
        if signal.getsignal(sign) == signal.SIG_DFL:
            signal.signal(sign, ends)
    if sys.stdout is None:
        say(f'{name_of_tool()}: standard output is closed')
        sys.exit(1)
    for stream in (sys.stdout, sys.stderr):
        if stream is not None:
            # the same bytes on each system
            stream.reconfigure(errors='backslashreplace', newline='\n', **({} if IS_POSIX else {'encoding': 'utf-8'}))
    status = told(main, usage, sys.argv[1:])
    try:
        sys.stdout.flush()
    except BrokenPipeError:
        status = status or 1
        forget_output()
    except OSError as error:
        if status == 0:
            say(f'{name_of_tool()}: standard output: {reason(error)}')
        status = status or 1
        forget_output()
    sys.exit(status)


def say(line: str) -> None:
    """Says a line on standard error, if it is open."""
    if sys.stderr is not None:
        print(line, file=sys.stderr)


def forget_output() -> None:
    """Whoever read standard output is gone, or the disk is full: what is left is not tried again."""
    os.dup2(os.open(os.devnull, os.O_WRONLY), sys.stdout.fileno())


def told(main: Callable[[list[str]], Optional[int]], usage: Optional[str], words: list[str]) -> int:
    """The status of a tool, whose refusal is told."""
    from .game import Refused

    before = words[:words.index('--')] if '--' in words else words
    try:
        if usage is not None and ('--help' in before or '-h' in before):
            print(usage)
            return 0
        return main(words) or 0
    except WrongWords:
        say(usage)
        return 2
    except Refused as refused:
        say(refused.told())
    except Failed as error:
        say(printable(error, MOST_LINE))
    except (WrongInput, Unsafe) as error:
        say(f'{name_of_tool()}: {printable(error, MOST_LINE)}')
    except BrokenPipeError:
        say(f'{name_of_tool()}: nobody reads what is written')
        forget_output()
    except OSError as error:
        name = f'{printable(error.filename)}: ' if error.filename is not None else ''
        say(f'{name_of_tool()}: {name}{reason(error)}')
    except (MemoryError, RuntimeError) as error:
        # a thread that can't be begun has no memory for its stack
        if isinstance(error, RuntimeError) and "can't start new thread" not in str(error):
            raise
        say(f'{name_of_tool()}: no memory')
    except KeyboardInterrupt:
        return 130
    except Ended:
        return 143
    return 1
