#!/usr/bin/env python3
"""Runs the program over files of a folder that each test has to itself, and compares the status, standard output and standard error of every run
with those that are written in the tests beside this file, to the last byte.

usage: run.py GBKEEP

It needs nothing but Python. Each difference is printed, and the status is 1 if there was any."""
import os
import sys
import tempfile

import test_batteries
import test_commands
import test_files
import test_kept_files
import test_outputs
import test_recordings
from room import Room


def main():
    if len(sys.argv) != 2:
        sys.exit(__doc__)
    tests = [test for module in (test_commands, test_recordings, test_batteries, test_files, test_kept_files, test_outputs) for name, test in vars(module).items() if name.startswith('test_')]
    runs = differences = 0
    for test in tests:
        with tempfile.TemporaryDirectory(prefix='program-') as folder:
            room = Room(os.path.abspath(sys.argv[1]), folder, test.__name__)
            test(room)
        runs, differences = runs + room.runs, differences + room.differences
    if differences:
        print(f'program: {differences} differences')
        return 1
    print(f'program: {len(tests)} tests, {runs} runs')
    return 0


if __name__ == '__main__':
    sys.exit(main())
