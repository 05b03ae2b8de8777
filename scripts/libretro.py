"""Leaves bin/gbkeep_libretro.so: a libretro core, for RetroArch and its kind, with libgbkeep.a and gbkeep.h of the same folder.

usage: libretro.py               for this computer
       libretro.py arm64         for aarch64, in bin/arm64
       libretro.py windows       gbkeep_libretro.dll, in bin/windows

CC names the C compiler, and LIBRETRO the folder of libretro.h (/usr/include/libretro-common)."""
import os
import re
import subprocess
import sys
import tempfile
from pathlib import Path

from scripts import windows
from scripts.arm64 import target
from scripts.doctor import needed

TOP = Path(__file__).resolve().parent.parent


def calls(headers):
    """What a core gives."""
    return re.findall(r'^RETRO_API [\w *]*?\b(retro_\w+)\(', (Path(headers) / 'libretro.h').read_text(encoding='utf-8'), re.M)


def main():
    words = sys.argv[1:]
    if words not in ([], ['arm64'], ['windows']):
        sys.exit(__doc__)
    headers = os.environ.get('LIBRETRO') or '/usr/include/libretro-common'
    needed('libretro.h', *(('gcc for Windows',) if words == ['windows'] else () if words else ('cc',)))
    compiler = {'arm64': target.compiler, 'windows': lambda: windows.CC}[words[0]]() if words else os.environ.get('CC') or 'cc'
    out = TOP / 'bin' / (words[0] if words else '')
    out.mkdir(parents=True, exist_ok=True)
    with tempfile.TemporaryDirectory(dir=out) as folder:
        made = Path(folder) / f'gbkeep_libretro.{"dll" if words == ["windows"] else "so"}'
        status = subprocess.run(['make', '-s', '-C', TOP / 'players/libretro', f'CC={compiler}', f'PYTHON={sys.executable}', f'GBKEEP={out}', f'LIBRETRO={headers}',
                                 f'BUILD={folder}', f'TARGET={made}', *(['platform=win'] if words == ['windows'] else [])]).returncode
        if status != 0:
            sys.exit(f'libretro.py: make ended with status {status}')
        if words == ['arm64']:
            target.needed(made)
        elif words:
            windows.check(made, calls(headers))
        os.replace(made, out / made.name)


if __name__ == '__main__':
    main()
