"""The one table of what is needed, by each target of the Makefile and by each part of the gate, and the name of Debian's package that has it.

usage: doctor.py                      tells what is there, what is missing, and what each missing thing costs
       doctor.py TARGET..             looks for what these targets need: a line for each thing that is missing, and then status 1
       doctor.py --try WHAT NEED..    status 0 where all is there; else notes that WHAT is not tried, and why
       doctor.py --packages TARGET..  Debian's packages of what these targets need or leave out, as far as it is missing

`make` looks by this before it proves or builds anything. What a file is built by is looked for only where that file is not up to date. RT, CC, LIBRETRO,
PYTHON, WEB_PYTHON, NUMPY_PYTHON, PIL_PYTHON, ARCH, KERNEL, CC_WINDOWS and WINE are those of the Makefile."""
from __future__ import annotations

import functools
import os
import shutil
import subprocess
import sys
from pathlib import Path

PYTHON = (3, 10)
# the clone that is made, also where its scripts are a link
TOP = Path(os.path.abspath(__file__)).parent.parent
# where programs of the system's are that a user does not have on his search path
ALSO = '/usr/sbin:/sbin'
BASH_COMPLETION = '/usr/share/bash-completion/bash_completion'
# another one makes other bytes of the same C
SDCC = '4.2.0'


# ---- how it is looked for

def word(name, default):
    """A variable of the Makefile's, as it was given."""
    return os.environ.get(name, '').strip() or default


def found(name):
    """Whether there is such a command."""
    return shutil.which(name, path='%s:%s' % (os.environ.get('PATH', os.defpath), ALSO)) is not None


def is_done(*words, **how):
    """Whether a command ends well."""
    try:
        done = subprocess.run([str(one) for one in words], stdout=subprocess.DEVNULL, stderr=subprocess.DEVNULL, stdin=subprocess.DEVNULL, **how)
        return done.returncode == 0
    except OSError:
        return False


def compiler():
    """The words of the C compiler."""
    return word('CC', 'cc').split()


def compiles(*flags):
    """Whether the C compiler makes a shared object of a file that asks for the C library."""
    return found(compiler()[0]) and is_done(*compiler(), *flags, '-shared', '-fPIC', '-x', 'c', '-include', 'stdlib.h', '-o', '/dev/null', '/dev/null')


def has_module(name, variable):
    """Whether the Python of a variable has a module, or else Debian's."""
    given = os.environ.get(variable)
    asks = 'import importlib.util, sys; sys.exit(importlib.util.find_spec("%s") is None)' % name
    return any(is_done(python, '-c', asks) for python in ([given] if given else ['python3', '/usr/bin/python3']))


def has_typelib(name, version):
    """Whether the Python of the window has a library of GTK's kind, or else Debian's."""
    given = os.environ.get('PYTHON')
    asks = 'import gi; gi.require_version("%s", "%s")' % (name, version)
    return any(is_done(python, '-c', asks) for python in ([given] if given else ['python3', '/usr/bin/python3']))


@functools.lru_cache(None)
def kit():
    """The toolchain's folder, or None."""
    try:
        said = subprocess.run([word('RT', 'rt'), 'doc'], stdout=subprocess.PIPE, stderr=subprocess.DEVNULL, stdin=subprocess.DEVNULL, universal_newlines=True)
    except OSError:
        return None
    return Path(said.stdout.strip()).parent if said.returncode == 0 and said.stdout.strip() else None


def in_kit(*names):
    return kit() is not None and all(os.access(str(kit() / name), os.X_OK) for name in names)


def has_terminals():
    """Whether a process can be given a terminal of its own."""
    try:
        for one in os.openpty():
            os.close(one)
        return True
    except OSError:
        return False


def has_sdcc():
    """Whether the sdcc is there by which a ROM was made that is kept with its source."""
    return found('sdcc') and f' {SDCC} ' in subprocess.run(['sdcc', '--version'], capture_output=True, text=True).stdout


def cross_libc():
    return 'CC_ARM64' in os.environ or any(map(os.path.exists, ('/usr/aarch64-linux-gnu/include/errno.h', '/usr/include/aarch64-linux-gnu/errno.h')))


class Need:
    """A thing that is looked for: Debian's packages that have it, and what more is to be said where it is missing: in what other way it may be, and a hint."""

    def __init__(self, packages, look, hint='', other_way=''):
        self.packages, self.look, self.hint, self.other_way = packages.split(), look, hint, other_way


def command(packages, *names):
    return Need(packages, lambda: all(map(found, names)))


NEEDS = {
    'rt': Need('', lambda: found(word('RT', 'rt')),
               "the command of Rattle's toolchain, a folder that is not part of Debian (README.md, Install); RT=PATH names it"),
    'clang of rt': Need('', lambda: in_kit('bin/rattle', 'toolchain/bin/clang', 'toolchain/bin/ld.lld'),
                        "the compiler in the folder of Rattle's toolchain, which is not whole"),
    'cc': Need('gcc libc6-dev', compiles, 'CC=NAME names another compiler', 'or it finds no C library'),
    'sanitizers': Need('gcc', lambda: compiles('-fsanitize=address,undefined'), 'CC=NAME names another compiler', 'or not those of the C compiler'),
    'ar': command('binutils', 'ar'),
    'strip': command('binutils', 'strip'),
    'objdump': command('binutils', 'objdump'),
    'dpkg-deb': command('dpkg', 'dpkg-deb', 'dpkg'),
    'libretro.h': Need('retroarch-dev', lambda: os.path.exists(word('LIBRETRO', '/usr/include/libretro-common') + '/libretro.h'),
                       'LIBRETRO=FOLDER names where it is'),
    'gcc for aarch64': Need('gcc-aarch64-linux-gnu', lambda: found(word('CC_ARM64', 'aarch64-linux-gnu-gcc'))),
    'C library for aarch64': Need('libc6-dev-arm64-cross', cross_libc),
    'binutils for aarch64': command('binutils-aarch64-linux-gnu', *('aarch64-linux-gnu-' + name for name in ('ar', 'objdump', 'readelf', 'strip'))),
    'gcc for Windows': Need('gcc-mingw-w64-x86-64', lambda: found(word('CC_WINDOWS', 'x86_64-w64-mingw32-gcc')), 'CC_WINDOWS=NAME names another one'),
    'wine': Need('wine64 wine', lambda: found(word('WINE', 'wine')), 'WINE=NAME names another one'),
    'venv': Need('python3-venv', lambda: is_done('python3', '-c', 'import ensurepip, venv')),
    'git': command('git', 'git'),
    'node': command('nodejs', 'node'),
    'tsc': command('node-typescript', 'tsc'),
    'eslint': command('eslint', 'eslint'),
    'sdcc': Need('sdcc', has_sdcc, other_way=f'or is not {SDCC}'),
    'pkg-config': command('pkg-config', 'pkg-config'),
    'bash': command('bash', 'bash'),
    'bash-completion': Need('bash-completion', lambda: os.path.exists(BASH_COMPLETION)),
    'fish': command('fish', 'fish'),
    'zsh': command('zsh', 'zsh'),
    'pyflakes3': command('pyflakes3', 'pyflakes3'),
    'mypy': command('mypy', 'mypy'),
    'a terminal': Need('', has_terminals, 'no process gets one of its own here: /dev/pts has to be mounted'),
    'strace': Need('strace', lambda: found('strace') and is_done('strace', '-o', '/dev/null', 'true'), other_way='or it may follow no process'),
    'unshare': Need('util-linux', lambda: found('unshare') and is_done('unshare', '--mount', 'true'), other_way='or it is refused here'),
    'valgrind': command('valgrind', 'valgrind'),
    'GTK': Need('python3-gi gir1.2-gtk-4.0 gir1.2-adw-1', lambda: has_typelib('Adw', '1'), 'PYTHON=NAME names the Python that has it'),
    'Atspi': Need('gir1.2-atspi-2.0 at-spi2-core', lambda: has_typelib('Atspi', '2.0'), 'PYTHON=NAME names the Python that has it'),
    'openbox': command('openbox', 'openbox'),
    'dbus-run-session': command('dbus-daemon', 'dbus-run-session'),
    'import': command('imagemagick', 'import'),
    'selenium': Need('python3-selenium', lambda: has_module('selenium', 'WEB_PYTHON'), 'WEB_PYTHON=NAME names the Python that has it'),
    'PIL': Need('python3-pil', lambda: has_module('PIL', 'PIL_PYTHON'), 'PIL_PYTHON=NAME names the Python that has it'),
    'numpy': Need('python3-numpy', lambda: has_module('numpy', 'NUMPY_PYTHON'), 'NUMPY_PYTHON=NAME names the Python that has it'),
    'pydevd': Need('python3-pydevd', lambda: os.path.exists('/usr/lib/python3/dist-packages/_pydevd_bundle/_debug_adapter/pydevd_schema.py')),
    'Xvfb': command('xvfb', 'Xvfb'),
    'xdotool': command('xdotool', 'xdotool'),
    'retroarch': command('retroarch', 'retroarch'),
    'chromium': command('chromium', 'chromium'),
    'chromedriver': command('chromium-driver', 'chromedriver'),
    'firefox-esr': command('firefox-esr', 'firefox-esr'),
    'WebKitWebDriver': command('webkit2gtk-driver', 'WebKitWebDriver'),
    'lintian': command('lintian', 'lintian'),
    'desktop-file-validate': command('desktop-file-utils', 'desktop-file-validate'),
    'debootstrap': command('debootstrap', 'debootstrap'),
    'qemu-aarch64-static': command('qemu-user-static', 'qemu-aarch64-static'),
    'qemu-aarch64': command('qemu-user', 'qemu-aarch64'),
    'qemu-system-x86_64': command('qemu-system-x86', 'qemu-system-x86_64'),
    'busybox': command('busybox-static', 'busybox'),
    'mkfs.exfat': command('exfatprogs', 'mkfs.exfat'),
    'mkfs.vfat': command('dosfstools', 'mkfs.vfat'),
    'mcopy': command('mtools', 'mcopy'),
    'mount.exfat-fuse': command('exfat-fuse', 'mount.exfat-fuse'),
    'KERNEL': Need('', lambda: os.path.isdir(word('KERNEL', '')), "KERNEL=FOLDER names a folder that a package linux-image-.. of Debian's was unpacked into"),
    'root': Need('', lambda: os.geteuid() == 0, 'this is run by another user, and sudo make TARGET by root'),
}

# ---- who needs it

ARM64 = ('rt', 'gcc for aarch64', 'C library for aarch64', 'binutils for aarch64')
# what a file is built by, and of which built files
FILES = {
    'bin/gbkeep': (('rt',), ()),
    'bin/arm64/gbkeep': (ARM64, ()),
    'bin/libgbkeep.so': (('rt', 'cc', 'ar'), ()),
    'bin/arm64/libgbkeep.so': (ARM64, ()),
    'bin/gbkeep_libretro.so': (('cc', 'libretro.h'), ('bin/libgbkeep.so',)),
    'bin/windows/gbkeep.dll': (('rt', 'clang of rt', 'gcc for Windows'), ()),
    'bin/windows/gbkeep_libretro.dll': (('gcc for Windows', 'libretro.h'), ('bin/windows/gbkeep.dll',)),
    'bin/arm64/gbkeep_libretro.so': (('gcc for aarch64', 'C library for aarch64', 'binutils for aarch64', 'libretro.h'), ('bin/arm64/libgbkeep.so',)),
}
WINDOW = ('Xvfb', 'xdotool', 'openbox', 'dbus-run-session', 'import', 'GTK', 'Atspi')
# what a target needs, and of which files it is made or run
TARGETS = {
    'build': ((), ('OUT/gbkeep',)),
    'demo': ((), ('bin/gbkeep',)),
    'play': (('GTK',), ('bin/gbkeep', 'bin/libgbkeep.so')),
    'install': ((), ('OUT/gbkeep',)),
    'uninstall': ((), ()),
    'libretro': ((), ('OUT/gbkeep_libretro.so',)),
    'library': ((), ('OUT/libgbkeep.so',)),
    'wheels': ((), ('bin/libgbkeep.so',)),
    'windows': ((), ('bin/windows/gbkeep_libretro.dll',)),
    'web': (('rt', 'clang of rt'), ()),
    'dist': (('rt', 'clang of rt', 'git', 'dpkg-deb', 'strip'), ('OUT/gbkeep', 'OUT/libgbkeep.so')),
    'run': (('rt',), ()),
    'check': (('rt',), ()),
    'edits': (('rt',), ()),
    'lint': (('pyflakes3',), ()),
    'refusals': ((), ()),
    'test': (('rt', 'bash'), ()),
    'bench': (('rt', 'valgrind'), ('bin/gbkeep', 'bin/gbkeep_libretro.so')),
    'compare': ((), ('bin/gbkeep',)),
    'hostile': ((), ('bin/gbkeep',)),
    'fuzz': ((), ('bin/gbkeep', 'bin/libgbkeep.so')),
    'faults': (('cc',), ('bin/gbkeep', 'bin/libgbkeep.so')),
    'strace': (('strace',), ('bin/gbkeep',)),
    'memory': (('rt', 'cc'), ('bin/gbkeep',)),
    'test-window': (WINDOW, ('bin/gbkeep', 'bin/libgbkeep.so')),
    'test-library': (('cc',), ('bin/gbkeep', 'bin/libgbkeep.so')),
    'test-arm64': (('qemu-aarch64-static', 'objdump', 'gcc for aarch64', 'C library for aarch64', 'binutils for aarch64'), ('bin/gbkeep', 'bin/arm64/gbkeep')),
    'test-windows': (('cc', 'wine', 'venv'), ('bin/gbkeep', 'bin/libgbkeep.so', 'bin/windows/gbkeep_libretro.dll')),
    'test-packages': (('root', 'dpkg-deb', 'lintian', 'desktop-file-validate', 'debootstrap'), ()),
    'test-reproducible': (('rt', 'git', 'dpkg-deb', 'strip', 'cc', 'ar', 'libretro.h'), ()),
    'test-slow-disk': (('cc', *WINDOW), ('bin/gbkeep', 'bin/gbkeep_libretro.so')),
    'test-cards': (('root', 'KERNEL', 'qemu-system-x86_64', 'busybox', 'mkfs.exfat', 'mkfs.vfat', 'mcopy', 'mount.exfat-fuse'), ('bin/gbkeep',)),
    'test-web': (('cc', 'selenium', 'chromium', 'chromedriver'), ('bin/gbkeep', 'bin/libgbkeep.so')),
    'test-libretro': (('cc', 'libretro.h', 'sanitizers'), ('bin/gbkeep', 'bin/gbkeep_libretro.so')),
    'test-retroarch': (('retroarch', 'Xvfb'), ('bin/gbkeep', 'bin/gbkeep_libretro.so')),
}
# those that need nothing but Python, and those that keep nothing from anybody
FREE = ('help', 'doctor', 'clean', 'clean-cache')
# what a target leaves out where a thing is missing that it does not need
LEFT_OUT = {
    'test': {
        'pyflakes3': 'no Python is looked at',
        'mypy': 'the types of the window are not looked at',
        'sdcc': 'the ROM in C of examples/speed is not made anew',
        'pkg-config': 'no program in C is made by the settings of the library',
        'bash-completion': 'what completes words for bash is not looked for where it is installed',
        'fish': 'nothing is typed in fish',
        'zsh': 'nothing is typed in zsh',
        'GTK': "the window is not started by the system's Python",
        'desktop-file-validate': "the window's entry of the desktop is looked at by no other program",
        'dpkg-deb': 'no package is made',
        'strip': 'no package is made',
        'a terminal': 'nothing is typed at a shell or a prompt',
        'git': 'no commit is told as the one that has passed, and no package is made',
        'node': 'no part of the page is run, and its module is not compared with one of 64 bits',
        'tsc': 'the types of the scripts of the page are not looked at',
        'strace': 'no system call is followed, or made to fail',
        'cc': "the library for C, the core and the window's files are not tried, no allocation is refused, no write is cut short, no call of a tool fails, "
              'no package is made',
        'ar': "the library for C, the core and the window's files are not tried, no call of a tool fails",
        'libretro.h': 'the core is not tried',
        'sanitizers': 'the core is given no garbage',
        'valgrind': 'the instructions of what ships are not counted',
        'objdump': 'the loops of what ships are not looked at',
        'root': 'files of others, a small disk and a root without /dev are not tried',
        'unshare': 'a small disk is not tried',
        'PIL': 'no picture is read by a second reader',
        'numpy': 'no array of a picture is tried',
        'pydevd': 'messages to editors are not compared with the schema of their protocol',
    },
    'bench': {'strace': 'no call of the save file is counted'},
    'hostile': {'strace': 'no system call is made to fail', 'cc': 'no write is cut short',
                'root': 'files of others, a small disk and a root without /dev are not tried'},
    'test-library': {'sanitizers': 'it is tried without them'},
    'test-web': {'strace': 'no call of a save is followed', 'firefox-esr': 'Firefox is not tried', 'WebKitWebDriver': 'WebKit is not tried',
                 'Xvfb': 'WebKit is not tried', 'node': 'Node is not tried, nor each cut of the acts on a game',
                 'eslint': 'the scripts of the page are not looked at by it', 'sanitizers': 'the heap is tried without them'},
    'test-arm64': {'qemu-aarch64': 'no instruction is counted', 'valgrind': 'no instruction of this computer is counted', 'libretro.h': 'the core is not tried',
                   'cc': 'the core is not tried'},
    'dist': {'libretro.h': 'there is no package of the core', 'cc': 'there is no package of the core', 'gcc for Windows': 'there is no wheel for Windows'},
}


# ---- what is answered

@functools.lru_cache(None)
def is_there(need):
    return NEEDS[need].look()


def told(need):
    """The line of a thing that is missing."""
    one = NEEDS[need]
    said = {'rt': word('RT', 'rt'), 'cc': word('CC', 'cc')}.get(need, need) + ' is missing' + ', ' * bool(one.other_way) + one.other_way
    if not one.packages:
        return f'{said}: {one.hint}'
    return f'{said}: install {" and ".join(one.packages)}' + (f' ({one.hint})' if one.hint else '')


def missing(*needs):
    """A line for each of these that is not there."""
    return [told(need) for need in dict.fromkeys(needs) if not is_there(need)]


def tries(what, *needs):
    """Whether all is there that a test needs. Where it is not, that is noted for the end of the gate."""
    from scripts.not_tried import note

    lines = missing(*needs)
    for line in lines:
        note(what, line)
    return not lines


def needed(*needs):
    """Ends a script that needs what is missing, with a line for each thing."""
    lines = missing(*needs)
    if lines:
        sys.exit('\n'.join(f'{Path(sys.argv[0]).name}: {line}' for line in lines))


def is_arm64():
    return word('ARCH', '') == 'arm64'


def parts_of(target, arm64):
    """What a target needs, and the files that it is made of, for this computer or for aarch64."""
    own, files = TARGETS.get(target) or ((), (target,) if target in FILES else ())
    if target == 'dist':
        # the package of the core is made where the core can be, and so is the wheel for Windows
        files += ('OUT/gbkeep_libretro.so',) * is_there('libretro.h') + ('bin/windows/gbkeep.dll',) * (is_there('gcc for Windows') and not arm64)
        # the page is made for all computers with what is made for this one
        own = tuple('binutils for aarch64' if arm64 and need == 'strip' else need for need in own if not (arm64 and need == 'clang of rt'))
    return own, [name.replace('OUT', 'bin/arm64' if arm64 else 'bin') for name in files]


@functools.lru_cache(None)
def is_up_to_date(name):
    """Whether make would leave a file as it is."""
    env = {one: value for one, value in os.environ.items() if one not in ('MAKEFLAGS', 'MFLAGS', 'MAKELEVEL', 'MAKEOVERRIDES')}
    return is_done('make', '-s', '-q', 'LOOK=', name, cwd=str(TOP), env=env)


def built_by(name):
    """What a file is built by, and the files that it is built of, where they are not up to date."""
    own, files = FILES[name]
    by = [*own, *(need for file in files for need in built_by(file))]
    # make is asked only where something is missing
    return [] if all(map(is_there, by)) or is_up_to_date(name) else by


def asked(target):
    """What a target, or a file, needs now."""
    own, files = parts_of(target, is_arm64())
    return [*own, *(need for name in files for need in built_by(name))]


def table():
    """A row for each thing, and below one that is missing what it costs."""
    print(f'there    {"python3":22} {".".join(map(str, sys.version_info[:3]))}')
    for need, one in NEEDS.items():
        print(f'{"there   " if is_there(need) else "missing "} {need:22} {" ".join(one.packages)}'.rstrip())
        if is_there(need):
            continue
        if not one.packages:
            print(wrapped(one.hint))
        # a target that needs what is there alone, since it was built already, can be run
        lost = [target for target in TARGETS if need in asked(target)]
        if need in ARM64[1:]:
            lost += [f'{target} ARCH=arm64' for target in TARGETS if any('OUT' in file for file in TARGETS[target][1])]
        if lost:
            print(wrapped("can't be run: make " + ', '.join(lost)))
        for target, costs in LEFT_OUT.items():
            if need in costs and target not in lost:
                print(wrapped(f'make {target}: {costs[need]}'))


def wrapped(text, width=80):
    """A text below a row, in lines of so many columns."""
    import textwrap
    return '\n'.join(textwrap.wrap(text, width, initial_indent=' ' * 9, subsequent_indent=' ' * 11, break_on_hyphens=False))


def main(words):
    if sys.version_info < PYTHON:
        sys.exit('python3 is %d.%d: gbkeep needs Python %d.%d or later' % (*sys.version_info[:2], *PYTHON))
    if words[:1] == ['--try'] and len(words) > 2 and all(need in NEEDS for need in words[2:]):
        sys.exit(0 if tries(*words[1:]) else 1)
    if words[:1] == ['--packages'] and all(target in TARGETS for target in words[1:]):
        needs = [need for target in words[1:] for need in (*asked(target), *LEFT_OUT.get(target, ()))]
        print(*dict.fromkeys(package for need in needs if not is_there(need) for package in NEEDS[need].packages))
        return
    if any(one.startswith('-') for one in words):
        sys.exit(__doc__)
    if not words:
        from scripts import clean
        table()
        print(clean.sizes())
        return
    lines = missing(*(need for target in words for need in asked(target)))
    if lines:
        sys.exit('\n'.join(lines))


if __name__ == '__main__':
    try:
        main(sys.argv[1:])
        sys.stdout.flush()
    except BrokenPipeError:
        # whoever reads the table has enough of it
        os.dup2(os.open(os.devnull, os.O_WRONLY), sys.stdout.fileno())
