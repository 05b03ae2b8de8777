"""Leaves in dist what pip installs, a wheel for each library that is built: the package of Python, the tools, and the library.

usage: wheels.py            of bin/libgbkeep.so, bin/arm64/libgbkeep.so and bin/windows/gbkeep.dll, as far as they are there

A wheel for Linux names the oldest C library that its library is content with, by the symbols that it takes. The same files give the same bytes."""
import base64
import hashlib
import io
import re
import struct
import subprocess
import sys
import zipfile
from pathlib import Path

import installed

DIST = Path('dist')
# pip and the index of Python's packages name no older C library than this one
OLDEST_LIBC = (2, 17)
# where the library is built, its name in the package, and the tag of the system, in which LIBC stands for the C library
BUILT = {'x86_64': ('bin/libgbkeep.so', 'libgbkeep.so.0', 'manylinux_LIBC_x86_64'),
         'aarch64': ('bin/arm64/libgbkeep.so', 'libgbkeep.so.0', 'manylinux_LIBC_aarch64'),
         'windows': ('bin/windows/gbkeep.dll', 'gbkeep.dll', 'win_amd64')}
# ELF's numbers of the two processors
MACHINES = {62: 'x86_64', 183: 'aarch64'}
NO_LICENCE = 'No licence is given yet: ask before you copy, change or pass on gbkeep.'


def libc_needed(files):
    """The newest version of the C library that a symbol of these linked files asks for."""
    versions = {tuple(map(int, one.split(b'.'))) for data in files for one in re.findall(rb'GLIBC_(\d+(?:\.\d+)+)\0', data)}
    return max(versions, default=(2, 0))


def settings():
    """What pyproject.toml says that a wheel says, too: a line of words, and what is behind `requires-python` and the extras."""
    text = (installed.SOURCES / 'pyproject.toml').read_text(encoding='utf-8')

    def value(name):
        return re.search(rf'^{name} = "(.*)"$', text, re.M)[1]
    extras = dict(re.findall(r'^(\w+) = \[(.*)\]$', re.search(r'^\[project.optional-dependencies\]\n(.*?)\n\n', text, re.M | re.S)[1], re.M))
    return value('description'), value('requires-python'), {name: re.findall('"(.*?)"', listed) for name, listed in extras.items()}


def metadata():
    description, python, extras = settings()
    lines = ['Metadata-Version: 2.1', 'Name: gbkeep', f'Version: {installed.version()}', f'Summary: {description}', f'License: {NO_LICENCE}',
             f'Requires-Python: {python.replace(" ", "")}']
    for name, needs in sorted(extras.items()):
        lines += [f'Provides-Extra: {name}', *(f'Requires-Dist: {one.replace(" ", "")} ; extra == "{name}"' for one in needs)]
    lines += ['Description-Content-Type: text/plain', '',
              'The proved machine and the proved session of gbkeep, a Game Boy emulator, in this process: gbkeep.Machine, gbkeep.Session, gbkeep.env.',
              'What plays by the program gbkeep (gbkeep.Game, gbkeep.DebugMachine and most of the tools), or shows a window, needs that program, and says so.', NO_LICENCE]
    return '\n'.join(lines) + '\n'


def written(files):
    """The bytes of a wheel with these files, by their names."""
    out, record = io.BytesIO(), ''
    place = f'gbkeep-{installed.version()}.dist-info/RECORD'
    for name, data in sorted(files.items()):
        digest = base64.urlsafe_b64encode(hashlib.sha256(data).digest()).rstrip(b'=').decode()
        record += f'{name},sha256={digest},{len(data)}\n'
    with zipfile.ZipFile(out, 'w', zipfile.ZIP_DEFLATED) as wheel:
        for name, data in [*sorted(files.items()), (place, f'{record}{place},,\n'.encode())]:
            entry = zipfile.ZipInfo(name, (1980, 1, 1, 0, 0, 0))
            entry.external_attr, entry.compress_type, entry.create_system = 0o100644 << 16, zipfile.ZIP_DEFLATED, 3
            wheel.writestr(entry, data)
    return out.getvalue()


def machine_of(data):
    """The processor that a library is for, or Windows."""
    if data[:2] == b'MZ':
        return 'windows'
    return MACHINES.get(struct.unpack_from('<H', data, 18)[0]) if data[:4] == b'\x7fELF' else None


def wheel_of(path, name, tag):
    """The name of a wheel, and its bytes."""
    library, release = Path(path).read_bytes(), installed.version()
    tag = f'py3-none-{tag.replace("LIBC", "_".join(map(str, max(OLDEST_LIBC, libc_needed([library])[:2]))))}'
    about = f'gbkeep-{release}.dist-info'
    files = {str(one.relative_to(installed.SOURCES)): one.read_bytes() for one in (installed.SOURCES / 'gbkeep').rglob('*')
             if one.suffix == '.py' or one.name in ('py.typed', 'messages.json')}
    files |= {f'gbkeep/{name}': library, f'{about}/METADATA': metadata().encode(),
              f'{about}/WHEEL': f'Wheel-Version: 1.0\nGenerator: gbkeep\nRoot-Is-Purelib: false\nTag: {tag}\n'.encode(),
              f'{about}/entry_points.txt': ('[console_scripts]\n' + ''.join(f'{tool} = gbkeep.{module}:start\n' for tool, module in sorted(installed.tools().items()))).encode()}
    return f'gbkeep-{release}-{tag}.whl', written(files)


def make(folder, *machines):
    """Leaves the wheels for these in a folder, as far as their libraries are built; those of before go. Answers their names."""
    folder.mkdir(parents=True, exist_ok=True)
    names = []
    for machine in machines:
        path, name, tag = BUILT[machine]
        for older in folder.glob(f'gbkeep-*-py3-none-{tag.replace("LIBC", "*")}.whl'):
            older.unlink()
        if not Path(path).exists():
            continue
        # bin has what is for this computer, whichever that is
        if machine_of(Path(path).read_bytes()) != machine:
            print(f'without a wheel of {path}: it is not for {machine}')
            continue
        wheel, data = wheel_of(path, name, tag)
        (folder / wheel).write_bytes(data)
        names.append(wheel)
    return names


def main():
    for name in make(DIST, *BUILT):
        subprocess.run(['sha256sum', name], cwd=DIST, check=True)


if __name__ == '__main__':
    if sys.argv[1:]:
        sys.exit(__doc__)
    main()
