"""The package as Python for Windows finds it: each of its modules is imported, a machine plays, a session makes its calls, files are made, and each tool that needs
more than that says so in a line. What that system lacks is taken away here: Python for Windows itself is not at hand.

usage: test_other_system.py [LIBRARY]     LIBRARY: bin/libgbkeep.so"""
import contextlib
import hashlib
import importlib
import importlib.abc
import importlib.util
import io
import ntpath
import os
import pathlib
import posixpath
import runpy
import signal
import sys
import tempfile
import unittest

TOP = pathlib.Path(__file__).resolve().parent.parent.parent
DEMO = TOP / 'examples/demo/demo.gb'
# a desktop of GTK among it
MODULES = {'fcntl', 'gi', 'grp', 'posix', 'pty', 'pwd', 'readline', 'resource', 'spwd', 'syslog', 'termios', 'tty'}
CALLS = '''chown fchmod fchown fdatasync fork forkpty getegid geteuid getgid getpgid getpgrp getsid getuid killpg lchown lockf memfd_create mkfifo mknod nice openpty
    pipe2 posix_fallocate posix_spawn pread preadv pwrite pwritev sched_getaffinity sendfile set_blocking setsid statvfs sync uname wait3 wait4
    O_CLOEXEC O_DIRECTORY O_DSYNC O_NOCTTY O_NOFOLLOW O_NONBLOCK O_PATH O_SYNC WNOHANG'''.split()
SIGNALS = 'SIGALRM SIGCHLD SIGCONT SIGHUP SIGKILL SIGPIPE SIGQUIT SIGSTOP SIGTSTP SIGUSR1 SIGUSR2 SIGWINCH SIGXFSZ alarm pause pthread_sigmask setitimer sigwait'.split()
# what is of Python itself, and is imported before
OF_PYTHON = '''argparse concurrent.futures ctypes.util html http.client multiprocessing select selectors shutil socket subprocess tempfile urllib.request
    xml.etree.ElementTree xml.sax.saxutils zipfile'''.split()
# those that play by the program, or show a window, and those that do neither; each with words that it understands
NEED_MORE = {'branch': ['game.gb', 'RECORDING', '5', 'NEW', 'NEW2'], 'debug': ['game.gb'], 'film': ['game.gb', 'script', 'film.apng'], 'rest': ['game.gb', 'SAVE', 'script'],
             'run_tests': ['game.gb'], 'verify': ['game.gb', 'SAVE', 'RECORDING'], 'window': ['game.gb'], 'battery': ['to-mgba', 'game.gb', 'SAVE', 'NEW']}
LINES = ('there is none for Windows', 'the window needs a desktop of Linux')


class Missing(importlib.abc.MetaPathFinder):
    def find_spec(self, name, path=None, target=None):
        if name in MODULES:
            raise ModuleNotFoundError(f'No module named {name!r}', name=name)


@contextlib.contextmanager
def other_system(has_other_paths=False):
    """Takes away what Windows lacks. What Python itself needs of it is imported before, and goes on with it. Its paths find no file here: so they are those of a
    test that imports alone."""
    for name in OF_PYTHON:
        importlib.import_module(name)
    with contextlib.suppress(ImportError):
        importlib.import_module('numpy')
    kept = dict(vars(os)), dict(vars(signal)), dict(sys.modules), sys.platform, dict(vars(ntpath))
    finder = Missing()
    sys.meta_path.insert(0, finder)
    for name in MODULES:
        sys.modules.pop(name, None)
    for module, names in ((os, CALLS), (signal, SIGNALS)):
        for name in names:
            vars(module).pop(name, None)
    if has_other_paths:
        ntpath.realpath = posixpath.realpath
        os.path = sys.modules['os.path'] = ntpath
        os.sep, os.altsep, os.pathsep, os.linesep = '\\', '/', ';', '\r\n'
    sys.platform = 'win32'
    try:
        yield
    finally:
        sys.meta_path.remove(finder)
        vars(os).update(kept[0]), vars(signal).update(kept[1]), vars(ntpath).update(kept[4])
        sys.platform = kept[3]
        for name in set(sys.modules) - set(kept[2]):
            del sys.modules[name]
        sys.modules.update(kept[2])


def modules():
    package = TOP / 'python/gbkeep'
    return sorted('.'.join(path.relative_to(package.parent).with_suffix('').parts).removesuffix('.__init__') for path in package.rglob('*.py'))


class OtherSystem(unittest.TestCase):
    def setUp(self):
        room = tempfile.TemporaryDirectory()
        self.addCleanup(room.cleanup)
        self.room = pathlib.Path(room.name)
        if self._testMethodName != 'test_each_module_is_imported':
            system = other_system()
            system.__enter__()
            self.addCleanup(system.__exit__, None, None, None)

    def test_each_module_is_imported(self):
        names = modules()
        self.assertGreater(len(names), 40)
        with other_system(has_other_paths=True):
            for name in names:
                with self.subTest(name=name):
                    try:
                        importlib.import_module(name)
                    except ImportError as error:
                        # what is neither Python's own nor the system's
                        self.assertRegex(str(error), r"'(numpy|gi|gymnasium)'|needs numpy, .*: pip install numpy$")

    def test_the_library_plays(self):
        from gbkeep import START, Machine, Session
        from gbkeep.library import NAME
        self.assertEqual(NAME, 'gbkeep.dll')
        cart = str(DEMO)
        with Machine(cart) as machine:
            machine.frames(START, 4)
            machine.frames(0, 60)
            state = machine.state()
            shades = machine.picture().shades
        with open(self.room / 'SAVE', 'w+b', buffering=0) as file, Session(cart) as session:
            session.frames(START, 4)
            session.frames(0, 60)
            self.assertEqual(session.save(), 64)
            session.make_calls(file)
            self.assertEqual((session.state(), session.picture().shades), (state, shades))
        with Session(cart, (self.room / 'SAVE').read_bytes()) as session:
            self.assertEqual((session.count, hashlib.sha256(session.state()).digest()), (64, hashlib.sha256(state).digest()))

    @unittest.skipIf(importlib.util.find_spec('numpy') is None, 'numpy is missing')
    def test_an_environment_plays(self):
        from gbkeep import RIGHT
        from gbkeep.env import Environment
        with Environment(str(DEMO), actions=(0, RIGHT), frames=4, watch=[(0xc001, 2)], reward=lambda before, after: after[0] - before[0]) as env:
            first, _ = env.reset(seed=1)
            place = env.state()
            steps = [env.step(1) for _ in range(20)]
            env.restore(place)
            again = [env.step(1) for _ in range(20)]
        self.assertEqual([(one[0].tolist(), *one[1:4]) for one in steps], [(one[0].tolist(), *one[1:4]) for one in again])

    def told(self, module, *words):
        """The status of a tool, and its lines on standard error."""
        err, was = io.StringIO(), (sys.argv, sys.stderr)
        sys.argv, sys.stderr = [f'gbkeep-{module.replace("_", "-")}', *map(str, words)], io.TextIOWrapper(io.BytesIO(), encoding='utf-8')
        try:
            with contextlib.redirect_stdout(io.TextIOWrapper(io.BytesIO(), encoding='utf-8')):
                runpy.run_module(f'gbkeep.{module}', run_name='__main__')
            status = None
        except SystemExit as ended:
            status = ended.code
        finally:
            sys.stderr.seek(0)
            err = sys.stderr.read()
            sys.argv, sys.stderr = was
        return status, err.splitlines()

    def test_a_tool_that_makes_a_file(self):
        (self.room / 'in.pgm').write_bytes(b'P2\n160 144\n3\n' + (b'3 ' * 159 + b'3\n') * 144)
        for _ in range(2):
            self.assertEqual(self.told('png', self.room / 'in.pgm', self.room / 'out.png'), (0, []))
        self.assertEqual((self.room / 'out.png').read_bytes()[:4], b'\x89PNG')
        (self.room / 'in.sav').write_bytes(bytes(range(256)) * 32)
        self.assertEqual(self.told('battery', 'to-mgba', self.room / 'in.sav', self.room / 'out.sav'), (0, []))
        self.assertEqual((self.room / 'out.sav').read_bytes(), bytes(range(256)) * 32)
        status, lines = self.told('battery', 'to-mgba', self.room / 'in.sav', self.room / 'out.sav')
        self.assertEqual((status, 'take a name that is free' in lines[0]), (1, True))
        self.assertEqual(sorted(path.name for path in self.room.iterdir()), ['in.pgm', 'in.sav', 'out.png', 'out.sav'])

    def test_a_name_that_must_be_new(self):
        from gbkeep.new_files import Unsafe, new_file
        (self.room / 'empty').touch()
        for name in ('new', 'empty'):
            with new_file(str(self.room / name), must_be_new=True) as file:
                file.write(b'whole')
            self.assertEqual((self.room / name).read_bytes(), b'whole')
            with self.assertRaises(Unsafe), new_file(str(self.room / name), must_be_new=True) as file:
                file.write(b'another')

    def test_what_needs_more_says_so_in_a_line(self):
        for module, words in NEED_MORE.items():
            recording = b'GBKPRECD\1\0\0\0' + hashlib.sha256(DEMO.read_bytes()).digest() + bytes(1024 - 44)
            there = {'game.gb': DEMO.read_bytes(), 'SAVE': bytes(1024), 'RECORDING': recording, 'script': b'frames 00 5\n'}
            for name, data in there.items():
                (self.room / name).write_bytes(data)
            with self.subTest(module=module):
                status, lines = self.told(module, *(self.room / word if word in there or word[:3] in ('NEW', 'fil') else word for word in words))
                self.assertEqual((status, len(lines)), (1, 1), lines)
                self.assertTrue(any(line in lines[0] for line in LINES), lines)


def main():
    os.environ['GBKEEP_LIBRARY'] = os.path.abspath((sys.argv[1:] or [str(TOP / 'bin/libgbkeep.so')])[0])
    result = unittest.TextTestRunner(stream=sys.stdout, verbosity=0).run(unittest.defaultTestLoader.loadTestsFromTestCase(OtherSystem))
    print(f'the package without what Windows lacks: {result.testsRun} tests, {len(result.failures) + len(result.errors)} failed')
    sys.exit(0 if result.wasSuccessful() else 1)


if __name__ == '__main__':
    main()
