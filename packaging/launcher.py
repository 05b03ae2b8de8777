"""Starts a tool by a Python that has what the tool needs: by this one, or else by /usr/bin/python3, or else by the first such `python3` on the search path.
Where none has it, this one goes on, and the tool says what it lacks.

It is installed beside the tools, as gbkeep_launcher.py. Any Python 3 reads it."""
import importlib
import importlib.util
import os
import subprocess
import sys

LEAST = (3, 10)
SYSTEM = '/usr/bin/python3'
# set for the one that was chosen, which chooses no other one
CHOSEN = 'GBKEEP_PYTHON_IS_CHOSEN'
# a file in the present folder is no package
HAS = '''
import importlib, sys
sys.path = [one for one in sys.path if one]
sys.exit(sys.version_info < {least} or not all(map(importlib.import_module, sys.argv[1:])))
'''.format(least=LEAST)
# a Python that does not answer for so long has nothing
SECONDS = 30


def imports(name):
    """Whether this Python has a package that works."""
    try:
        return bool(importlib.import_module(name))
    except ImportError:
        return False


def has(python, wanted):
    """Whether another Python is new enough, and has such packages."""
    try:
        nothing = subprocess.DEVNULL
        return subprocess.call([python, '-c', HAS] + list(wanted), stdin=nothing, stdout=nothing, stderr=nothing, timeout=SECONDS) == 0
    except (OSError, subprocess.TimeoutExpired):
        return False


def others():
    """Each other Python that is looked at, once."""
    seen = {sys.executable}
    for path in [SYSTEM] + [os.path.join(folder, 'python3') for folder in os.environ.get('PATH', '').split(os.pathsep) if folder]:
        if path not in seen and os.access(path, os.X_OK):
            seen.add(path)
            yield path


def go_on_elsewhere(wanted):
    """Goes on by another Python that has what is wanted, if there is one."""
    if os.environ.pop(CHOSEN, None):
        return
    for python in others():
        if has(python, wanted):
            try:
                os.execve(python, [python] + sys.argv, dict(os.environ, **{CHOSEN: '1'}))
            except OSError:
                continue


def start(module, *wanted):
    """Starts the tool that is this module of the package, which wants these other packages."""
    if sys.version_info < LEAST:
        go_on_elsewhere(wanted)
        sys.exit('%s: this is Python %d.%d, and %d.%d or a later one is needed' % ((os.path.basename(sys.argv[0]),) + sys.version_info[:2] + LEAST))
    # to look for a package is quicker than to import it
    is_found = all(importlib.util.find_spec(name) for name in wanted)
    if not is_found:
        go_on_elsewhere(wanted)
    tool = importlib.import_module('gbkeep.' + module)
    if is_found and not all(map(imports, wanted)):
        go_on_elsewhere(wanted)
    os.environ.pop(CHOSEN, None)
    tool.start()
