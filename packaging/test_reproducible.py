#!/usr/bin/env python3
"""Builds all that is given away again, in a clone of another name, and compares each byte with what `make dist` has left.

usage: test_reproducible.py [arm64]     at the top of a clone without changes, where `make dist` (ARCH=arm64) has run on the commit that is checked out

The clone has another name and place, other times and permissions of its files and another time zone. What was proved on this computer may be taken over: so
this compares what is compiled, linked and packed."""
import os
import subprocess
import sys
import tempfile
from pathlib import Path


def run(*words, **how):
    done = subprocess.run(words, stdout=subprocess.PIPE, stderr=subprocess.STDOUT, text=True, errors='replace', **how)
    if done.returncode != 0:
        sys.exit(f'{done.stdout[-4000:]}\n{" ".join(words)} ended with status {done.returncode}')
    return done.stdout


def main():
    if sys.argv[1:] not in ([], ['arm64']):
        sys.exit(__doc__)
    folder, more = ('dist/arm64', ['ARCH=arm64']) if sys.argv[1:] else ('dist', [])
    if run('git', 'status', '--porcelain').strip():
        sys.exit('test_reproducible.py: commit what has changed, and make dist again')
    commit = run('git', 'rev-parse', 'HEAD').strip()
    if not Path(folder, 'BUILT').exists() or f'commit: {commit}\n' not in Path(folder, 'BUILT').read_text():
        sys.exit(f'test_reproducible.py: {folder} is of another commit: make dist again')
    wanted = Path(folder, 'SHA256SUMS').read_text()
    with tempfile.TemporaryDirectory(prefix='another-') as room:
        clone = os.path.join(room, 'a clone of another name'.replace(' ', '-'))
        umask = os.umask(0o007)
        run('git', 'clone', '--quiet', '.', clone)
        for path in Path(clone).rglob('*'):
            if path.is_file() and '.git' not in path.parts:
                os.utime(path, (1_000_000_000, 1_000_000_000))
        env = dict(os.environ, TZ='Pacific/Kiritimati', LC_ALL='C', XDG_CACHE_HOME=os.path.join(room, 'cache'))
        env.pop('MAKEFLAGS', None)
        for target in ('build', 'library', 'libretro', 'dist'):
            run('make', target, *more, cwd=clone, env=env)
        os.umask(umask)
        got = Path(clone, folder, 'SHA256SUMS').read_text()
        if got != wanted:
            sys.exit(f'here:\n{wanted}there:\n{got}')
    print(f'{len(wanted.splitlines())} files have the same bytes in another clone')


if __name__ == '__main__':
    main()
