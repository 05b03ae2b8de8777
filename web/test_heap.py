"""Compiles web/heap.c for this computer and fuzzes it, under the sanitizers where the compiler has them.

usage: test_heap.py [ROUNDS [SEED]]     CC names the C compiler"""
import os
import subprocess
import sys
import tempfile
from pathlib import Path

HERE = Path(__file__).resolve().parent
FLAGS = ['-std=c11', '-O1', '-g', '-Wall', '-Wextra', '-Werror', f'-I{HERE}']
CHECKED = ['-fsanitize=address,undefined', '-fno-sanitize-recover=all']
OWN_NAMES = ['-Dmalloc=heap_malloc', '-Dfree=heap_free']


def built(folder, compiler, flags):
    """The test as a program; None where it does not compile so."""
    heap, test = folder / 'heap.o', folder / 'test_heap'
    for words in ([*flags, *OWN_NAMES, '-c', HERE / 'heap.c', '-o', heap], [*flags, HERE / 'test_heap.c', heap, '-o', test]):
        made = subprocess.run([compiler, *map(str, words)], capture_output=True, text=True)
        if made.returncode != 0:
            return None, made.stderr
    return test, ''


def main():
    rounds, seed = (int(word) for word in (sys.argv[1:] + ['60000', '1'][len(sys.argv) - 1:]))
    compiler = os.environ.get('CC', 'cc')
    with tempfile.TemporaryDirectory() as name:
        for flags in (FLAGS + CHECKED, FLAGS):
            test, wrong = built(Path(name), compiler, flags)
            if test:
                break
        else:
            sys.exit(f'test_heap.py: {compiler} does not compile it: {wrong}')
        for one in range(seed, seed + 8):
            ran = subprocess.run([test, str(one), str(rounds)], capture_output=True, text=True)
            print(f'seed {one}: {ran.stdout.strip()}')
            if ran.returncode != 0:
                sys.exit(f'test_heap.py: seed {one}: {ran.stderr}')
    print('the heap is right' + (' under the sanitizers' if flags != FLAGS else ''))


if __name__ == '__main__':
    main()
