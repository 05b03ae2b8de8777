"""What is said where a tool can't be loaded for want of memory: it has not begun yet, and a traceback helps nobody."""
import os
import sys

LINE = b'gbkeep: no memory\n'


def is_tool() -> bool:
    """Whether this process was started as a tool, by its name or as a module of this package."""
    words = sys.orig_argv
    if any(word == '-m' and module.startswith('gbkeep.') for word, module in zip(words, words[1:])):
        return True
    # a process that Python is only a part of may have no words
    return any(os.path.basename(word).startswith('gbkeep-') for word in getattr(sys, 'argv', [])[:1])


def say_it(kind: type, error: BaseException, trace: object) -> None:
    # an extension that finds no room is no error of memory
    if issubclass(kind, MemoryError) or issubclass(kind, ImportError) and ('failed to map' in str(error) or 'allocate memory' in str(error)):
        try:
            os.write(2, LINE)
        except OSError:
            pass
    else:
        sys.__excepthook__(kind, error, trace)


def watch() -> None:
    if is_tool():
        sys.excepthook = say_it
