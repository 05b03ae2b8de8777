"""Tries the wheels: by pip, without a network, in an environment of its own; and those for other systems by what pip takes for them.

usage: test_wheels.py     makes wheels of what bin has, in a folder of its own"""
import hashlib
import json
import os
import subprocess
import sys
import tempfile
import unittest
import zipfile
from pathlib import Path

import wheels
from scripts.doctor import missing

TOP = Path(__file__).resolve().parent.parent
DEMO = TOP / 'examples/demo/demo.gb'
# plays in the environment, and tells which library that is
PLAYS = '''
import json, sys
from gbkeep import START, Machine, Session
from gbkeep.library import find_library
with Machine(sys.argv[1]) as machine, open(sys.argv[2], 'w+b', buffering=0) as file, Session(sys.argv[1]) as session:
    for one in (machine, session):
        one.frames(START, 4)
        one.frames(0, 60)
    session.save()
    session.make_calls(file)
    print(json.dumps([find_library(), machine.state() == session.state(), session.count]))
'''


def ran(*words, **how):
    """Status, output and errors of a command that no folder of the clone helps."""
    env = {name: value for name, value in os.environ.items() if name not in ('PYTHONPATH', 'GBKEEP', 'GBKEEP_LIBRARY')}
    done = subprocess.run([str(word) for word in words], capture_output=True, text=True, env=env, **how)
    return done.returncode, done.stdout, done.stderr


class Wheels(unittest.TestCase):
    @classmethod
    def setUpClass(cls):
        room = tempfile.TemporaryDirectory()
        cls.addClassCleanup(room.cleanup)
        cls.room = Path(room.name)
        os.chdir(TOP)
        cls.names = {name: made[0] for name in wheels.BUILT if (made := wheels.make(cls.room / 'dist', name))}
        if subprocess.run([sys.executable, '-m', 'venv', cls.room / 'own']).returncode != 0:
            raise AssertionError('no environment can be made')
        cls.bin = cls.room / 'own/bin'

    def wheel(self, name):
        if name not in self.names:
            self.skipTest(f'the wheel for {name}: {wheels.BUILT[name][0]} is not built')
        return self.room / 'dist' / self.names[name]

    def test_it_is_installed_and_plays(self):
        pip = self.bin / 'pip'
        self.assertEqual(ran(pip, 'install', '--no-index', '--disable-pip-version-check', self.wheel('x86_64'))[::2], (0, ''))
        status, out, err = ran(self.bin / 'python', '-c', PLAYS, DEMO, self.room / 'SAVE', cwd=self.room)
        self.assertEqual((status, err), (0, ''))
        library, is_same, count = json.loads(out)
        self.assertTrue(Path(library).is_relative_to(self.room / 'own'), library)
        self.assertEqual((is_same, count), (True, 64))
        self.assertEqual(ran(pip, 'check', '--disable-pip-version-check')[0], 0)
        tools = sorted(path.name for path in self.bin.glob('gbkeep-*'))
        self.assertEqual(tools, sorted(wheels.installed.tools()))
        for tool in tools:
            with self.subTest(tool=tool):
                status, out, err = ran(self.bin / tool, '--help')
                self.assertEqual((status, err), (0, ''))
        # without the program that is a line
        status, out, err = ran(self.bin / 'gbkeep-run-tests', DEMO, cwd=self.room)
        self.assertEqual((status, err.count('\n'), "can't be run" in err), (1, 1, True), err)
        # the example's test: a picture is made, then compared, and another one is told
        same = [self.bin / 'python', TOP / 'examples/wheels/same_picture.py', DEMO]
        for frames, status, line in (('60', 0, 'title.png is made'), ('60', 0, 'shows title.png'), ('0', 1, 'shows another picture after 0 frames')):
            code, out, err = ran(*same, frames, 'title.png', cwd=self.room)
            self.assertEqual((code, line in out + err, (out + err).count('\n')), (status, True, 1), out + err)
        (self.room / 'in.pgm').write_bytes(b'P2\n160 144\n3\n' + (b'3 ' * 159 + b'3\n') * 144)
        self.assertEqual(ran(self.bin / 'gbkeep-png', self.room / 'in.pgm', self.room / 'out.png')[::2], (0, ''))
        self.assertEqual(ran(pip, 'uninstall', '-y', '--disable-pip-version-check', 'gbkeep')[::2], (0, ''))
        self.assertEqual([path.name for path in (self.room / 'own').rglob('*gbkeep*')], [])

    def test_what_pip_takes_for_other_systems(self):
        for name in ('windows', 'aarch64'):
            with self.subTest(name=name):
                wheel, place = self.wheel(name), self.room / name
                platform = wheel.stem.rsplit('-', 1)[1]
                words = [self.bin / 'pip', 'install', '--no-index', '--no-deps', '--only-binary=:all:', '--disable-pip-version-check', '--target', place]
                self.assertEqual(ran(*words, '--platform', platform, wheel)[::2], (0, ''))
                library = place / 'gbkeep' / wheels.BUILT[name][1]
                self.assertEqual(library.read_bytes(), Path(wheels.BUILT[name][0]).read_bytes())
                # and for no other
                self.assertNotEqual(ran(self.bin / 'pip', 'install', '--no-index', wheel)[0], 0)

    def test_what_they_hold(self):
        for name in self.names:
            with self.subTest(name=name), zipfile.ZipFile(self.wheel(name)) as wheel:
                files = {one: wheel.read(one) for one in wheel.namelist()}
                about = next(one.partition('/')[0] for one in files if one.endswith('/RECORD'))
                self.assertEqual(sum(one.startswith('gbkeep/libgbkeep') or one.endswith('.dll') for one in files), 1)
                self.assertIn(b'No licence is given yet', files[f'{about}/METADATA'])
                self.assertEqual({one.partition('/')[0] for one in files}, {'gbkeep', about})
                record = dict(line.split(',', 1) for line in files[f'{about}/RECORD'].decode().splitlines())
                self.assertEqual(sorted(record), sorted(files))
                tag = files[f'{about}/WHEEL'].decode().split('Tag: ')[1].strip()
                self.assertTrue(self.names[name].endswith(f'-{tag}.whl'))
                if 'manylinux' in tag:
                    asked = wheels.libc_needed([Path(wheels.BUILT[name][0]).read_bytes()])
                    self.assertGreaterEqual(tuple(map(int, tag.split('_')[1:3])), asked[:2])

    def test_the_same_bytes(self):
        again = self.room / 'again'
        for name, wheel in self.names.items():
            wheels.make(again, name)
            self.assertEqual(hashlib.sha256((again / wheel).read_bytes()).digest(), hashlib.sha256(self.wheel(name).read_bytes()).digest())

    def test_a_library_of_another_processor(self):
        before = dict(wheels.BUILT)
        self.addCleanup(wheels.BUILT.update, before)
        (self.room / 'other').write_bytes(b'\x7fELF' + bytes(14) + b'\xf3\0')
        wheels.BUILT['x86_64'] = (str(self.room / 'other'), *before['x86_64'][1:])
        self.assertEqual(wheels.make(self.room / 'none', 'x86_64'), [])


def main():
    lines = missing('venv')
    if lines:
        sys.exit('\n'.join(lines))
    result = unittest.TextTestRunner(stream=sys.stdout, verbosity=0).run(unittest.defaultTestLoader.loadTestsFromTestCase(Wheels))
    print(f'wheels: {result.testsRun} tests, {len(result.failures) + len(result.errors)} failed; made: {", ".join(sorted(Wheels.names))}')
    sys.exit(0 if result.wasSuccessful() else 1)


if __name__ == '__main__':
    if sys.argv[1:]:
        sys.exit(__doc__)
    main()
