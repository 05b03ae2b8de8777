"""Tries the gate on the speed of what ships (`shipped.py gate`), with stand-ins for valgrind and objdump: what got dearer, or is no longer in line, ends it.

usage: test_shipped.py [TEST..]"""
import os
import subprocess
import sys
from pathlib import Path
from unittest import mock

from gbkeep_tests import support
from gbkeep_tests.support import TOP, expect
from scripts.shipped import LOOPS, TABLE, wrong_loops

# counts as many instructions as the table says, times what DEARER names
VALGRIND = f'''#!{sys.executable}
import csv, os, re, sys
words = [word for word in sys.argv[1:] if not word.startswith('--')]
text = sys.stdin.read() + (open(words[4]).read() if words[1] == 'play' else '')
name, more = os.path.basename(words[2])[:-3], os.environ['DEARER'].split()
with open({str(TABLE)!r}, newline='') as file:
    table = {{row['name']: int(row['program']) * (float(more[1]) if row['name'] == more[0] else 1) for row in csv.DictReader(file)}}
frames = sum(map(int, re.findall(r'^frames 00 (\\d+)$', text, re.M))) + text.count('frame 00')
kinds = (('picture', 'picture_'), ('keep 1', 'state_'))
print('Collected :', round(frames * table[name] + sum(text.count(line) * table[kind + name] for line, kind in kinds if line in text)), file=sys.stderr)
'''
MATCH = '  401000:\tcall   402000 <sm83_processor::processor::Processor::{}::<#245554ff4d9427bf>>\n'


def code(without='', calling=None):
    """What objdump says of a program: its loops, but for one copy of one of them, and with a call in a copy."""
    text = ''
    for loop, count in LOOPS['program'].items():
        for number in range(count - (loop == without)):
            text += f'\n0000000000401000 <machine::frame::{loop}::<={number}>>:\n  401000:\tcall   403000 <memory_map::bus::Bus::pass>\n'
            text += MATCH.format(calling[1]) if calling and calling[0] == loop and not number else ''
    return text


def stand_ins(folder, text):
    """What has its place on the search path for a program of this code."""
    (folder / 'code').write_text(text)
    for name, script in (('valgrind', VALGRIND), ('objdump', f'#!/bin/sh\ncat {folder}/code\n'), ('program', '#!/bin/sh\n')):
        (folder / name).write_text(script)
        (folder / name).chmod(0o755)
    # what is left out here is none of the gate's
    return {**os.environ, 'PATH': f'{folder}:{os.environ["PATH"]}', 'NOT_TRIED': ''}


def test_gate(folder):
    """A twentieth more passes; what costs more ends it, and so does a loop that calls the match on all opcodes."""
    calls = 'the loop machine::frame::run_fast_steps_by::<=0> calls sm83_processor::processor::Processor::run_instruction::<'
    for dearer, calling, wanted in (('busy 1.04', None, []), ('scrolling 1.06', None, ['scrolling by the program costs']),
                                    ('picture_scrolling 1.06', ('run_fast_steps_by', 'run_instruction'), ['picture_scrolling by the program costs', calls])):
        done = subprocess.run([sys.executable, '-B', 'scripts/shipped.py', 'gate', folder / 'program'], cwd=TOP, capture_output=True, text=True,
                              env={**stand_ins(folder, code(calling=calling)), 'DEARER': dearer})
        lines = done.stderr.splitlines()
        expect(f'{dearer}: {lines}', (done.returncode, [one in line for one, line in zip(wanted, lines, strict=True)]), (bool(wanted), [True] * len(wanted)))


def test_loops(folder):
    """What is wrong with a loop is told of each, and a loop that is not there is wrong, too."""
    path = folder / 'program'
    for loop, count in LOOPS['program'].items():
        for called in ('run_instruction', 'run_opcode', 'run_bit_opcode'):
            with mock.patch.dict(os.environ, stand_ins(folder, code(calling=(loop, called)))):
                lines = list(wrong_loops(path, LOOPS['program']))
            expect(f'{loop} calls {called}: {lines}', (len(lines), f'the loop machine::frame::{loop}::<=0> calls ' in lines[0], f'::{called}::' in lines[0]), (1, True, True))
        with mock.patch.dict(os.environ, stand_ins(folder, code(loop))):
            expect(f'{loop} lacks a copy', list(wrong_loops(path, LOOPS['program'])),
                   [f'{path}: {count - 1} copies of the loop {loop}, where {count} are expected'])


if __name__ == '__main__':
    support.run_tests('the gate on speed', support.tests_in(globals()), lambda folder: (Path(folder),), sys.argv[1:])
