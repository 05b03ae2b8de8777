#!/usr/bin/env python3
"""Makes each call by which a tool touches a file or a pipe fail, hang, or be the last one, and looks at what is left.

usage: tool_faults.py GBKEEP [COUNT [SEED]]     every call of every tool, or so many by chance

A library of some lines of C stands before the C library's calls, in the tool alone and once it is loaded. Where a call fails, the tool ends with status 0,
or with 1 and one line; where it hangs, a SIGTERM ends it, without a line; where it is the last one, the tool is killed there. Then each file that was there
is as it was, and what the tool makes or replaces is whole, or as it was: never empty, never a part. What is killed or ended can be done again. The window's
slots, clock, pictures and palette are tried as the tools are. The status is 1 where it is otherwise; files are kept then."""
import errno
import os
import random
import shutil
import signal
import subprocess
import sys
import tempfile
from collections.abc import Callable
from dataclasses import dataclass, field
from pathlib import Path
from typing import Optional

from gbkeep.input_files import SECTOR
from gbkeep.movie import frames_of_bk2
from gbkeep.pictures import png_of
from gbkeep.script import Wrong
from gbkeep.timed_game import WrongTime, lines_of
from gbkeep_tests.support import CART, clock_cart
from scripts.doctor import compiler, tries

SECONDS = 60
KILL, HANG = -1, -2
# what a call fails with
FAILS = {'open': [errno.EIO, errno.EACCES, errno.EMFILE], 'write': [errno.EIO, errno.ENOSPC], 'fsync': [errno.EIO, errno.ENOSPC], 'ftruncate': [errno.EIO, errno.ENOSPC],
         'link': [errno.EIO, errno.EPERM], 'mkdir': [errno.ENOSPC], 'stat': [errno.EIO, errno.EACCES], 'flock': [errno.EIO, errno.ENOLCK]}
# before these a kill is another one than before the call in front of them, and these can hang
CHANGES = ('open', 'write', 'fsync', 'ftruncate', 'fchmod', 'close', 'link', 'rename', 'unlink', 'mkdir', 'rmdir')
HANGS = ('open', 'read', 'write', 'fsync', 'flock', 'link', 'rename')
SHIM = r'''
#define _GNU_SOURCE
#include <dirent.h>
#include <dlfcn.h>
#include <errno.h>
#include <fcntl.h>
#include <signal.h>
#include <stdarg.h>
#include <stdlib.h>
#include <string.h>
#include <sys/stat.h>
#include <sys/syscall.h>
#include <unistd.h>

static const char *room;
static long wanted, asked;
static int fault, told = -1;
static pid_t tool;
static char is_file[1 << 12];

/* what the tool starts is not watched */
__attribute__((constructor)) static void begin(void) {
    unsetenv("LD_PRELOAD");
}

static int named(const char *path) {
    return tool && path && (path[0] != '/' || !strncmp(path, room, strlen(room)));
}

/* a file of the room or a pipe; what is said of a fault gets through */
static int held(int fd) {
    struct stat status;
    if (!tool || fd < 0 || fd == 2 || fd >= (int)sizeof is_file)
        return 0;
    return is_file[fd] || (syscall(SYS_fstat, fd, &status) == 0 && S_ISFIFO(status.st_mode));
}

static int noted(int fd, int counts) {
    if (tool && getpid() == tool && fd >= 0 && fd < (int)sizeof is_file)
        is_file[fd] = counts;
    return fd;
}

/* whether this call is the one, and does not come about; one that hangs goes on after a signal, or ends by it */
static int fails(const char *name, int counts, int ends_by_signal) {
    if (!counts || getpid() != tool)
        return 0;
    asked++;
    if (told >= 0) {
        syscall(SYS_write, told, name, strlen(name));
        syscall(SYS_write, told, "\n", 1);
    }
    if (asked != wanted)
        return 0;
    if (fault == -1)
        kill(tool, SIGKILL);
    if (fault == -2) {
        kill(tool, SIGSTOP);
        errno = EINTR;
        return ends_by_signal;
    }
    errno = fault;
    return 1;
}

#define CALL(type, name, kind, counts, by_signal, wrong, given, taken) \
type name given { \
    static type (*real) given; \
    if (!real) \
        real = dlsym(RTLD_NEXT, #name); \
    return fails(kind, counts, by_signal) ? wrong : real taken; \
}
#define OPEN(name) \
int name(const char *path, int how, ...) { \
    static int (*real)(const char *, int, ...); \
    if (!real) \
        real = dlsym(RTLD_NEXT, #name); \
    va_list more; \
    va_start(more, how); \
    int mode = va_arg(more, int); \
    va_end(more); \
    return fails("open", named(path), 1) ? -1 : noted(real(path, how, mode), named(path)); \
}
OPEN(open)
OPEN(open64)
CALL(ssize_t, read, "read", held(fd), 1, -1, (int fd, void *data, size_t size), (fd, data, size))
CALL(ssize_t, pread64, "read", held(fd), 1, -1, (int fd, void *data, size_t size, off64_t at), (fd, data, size, at))
CALL(ssize_t, write, "write", held(fd), 1, -1, (int fd, const void *data, size_t size), (fd, data, size))
CALL(int, fsync, "fsync", held(fd), 1, -1, (int fd), (fd))
CALL(int, ftruncate64, "ftruncate", held(fd), 0, -1, (int fd, off64_t size), (fd, size))
CALL(int, flock, "flock", held(fd), 0, -1, (int fd, int how), (fd, how))
CALL(int, fchmod, "fchmod", held(fd), 0, -1, (int fd, mode_t mode), (fd, mode))
CALL(int, fchown, "fchown", held(fd), 0, -1, (int fd, uid_t user, gid_t group), (fd, user, group))
CALL(int, fstat64, "stat", held(fd), 0, -1, (int fd, struct stat64 *into), (fd, into))
CALL(int, stat64, "stat", named(path), 0, -1, (const char *path, struct stat64 *into), (path, into))
CALL(int, lstat64, "stat", named(path), 0, -1, (const char *path, struct stat64 *into), (path, into))
CALL(int, fstatat64, "stat", named(path), 0, -1, (int at, const char *path, struct stat64 *into, int how), (at, path, into, how))
CALL(ssize_t, readlink, "readlink", named(path), 0, -1, (const char *path, char *into, size_t size), (path, into, size))
CALL(DIR *, opendir, "opendir", named(path), 0, NULL, (const char *path), (path))
CALL(int, rename, "rename", named(path), 0, -1, (const char *path, const char *other), (path, other))
CALL(int, link, "link", named(path), 0, -1, (const char *path, const char *other), (path, other))
CALL(int, linkat, "link", named(path), 0, -1, (int from, const char *path, int to, const char *other, int how), (from, path, to, other, how))
CALL(int, unlink, "unlink", named(path), 0, -1, (const char *path), (path))
CALL(int, unlinkat, "unlink", named(path), 0, -1, (int at, const char *path, int how), (at, path, how))
CALL(int, mkdir, "mkdir", named(path), 0, -1, (const char *path, mode_t mode), (path, mode))
CALL(int, rmdir, "rmdir", named(path), 0, -1, (const char *path), (path))

/* a file is closed also where that fails */
int close(int fd) {
    static int (*real)(int);
    if (!real)
        real = dlsym(RTLD_NEXT, "close");
    int counts = tool && fd >= 0 && fd < (int)sizeof is_file && is_file[fd], is_wrong = fails("close", counts, 0), why = errno, done = real(noted(fd, 0));
    errno = is_wrong ? why : errno;
    return is_wrong ? -1 : done;
}

/* how a tool says that it is loaded */
int access(const char *path, int how) {
    static int (*real)(const char *, int);
    if (!real)
        real = dlsym(RTLD_NEXT, "access");
    if (!strcmp(path, "/faults begin")) {
        room = getenv("FAULT_ROOM");
        wanted = atol(getenv("FAULT_AT"));
        fault = atoi(getenv("FAULT"));
        if (getenv("FAULT_LOG"))
            told = fcntl(open(getenv("FAULT_LOG"), O_WRONLY | O_CREAT | O_APPEND, 0644), F_DUPFD_CLOEXEC, 900);
        tool = getpid();
    }
    return fails("access", named(path), 0) ? -1 : real(path, how);
}
'''
# a tool, which says that it is loaded
STARTS = '''import os, sys
sys.path = [one for one in sys.path if one]
import gbkeep.{module} as module
sys.argv[0] = 'gbkeep-{module}'
os.access('/faults begin', 0)
module.start()
'''
# what the window does with its files, as a tool
DOES = '''import os, sys, types
sys.path = [one for one in sys.path if one]
from gbkeep import library, slots, timed_game, tools
from gbkeep.desktop import files, preferences
CART, SAVE, PROGRAM = sys.argv[1:]
said = []
window = types.SimpleNamespace(say=lambda line, seconds=0, file=None: said.append(line))

def keep():
    slots.Slots(CART, SAVE, PROGRAM, True).keep()

def back():
    one = slots.Slots(CART, SAVE, PROGRAM, True)
    with one.left() as left:
        one.go_back(left)

def clock():
    timed_game.SaveTime(SAVE).write([(40, 1700000100)])

def picture():
    files.leave_picture(window, bytes(160 * 144), 'clock', preferences.Preferences(pictures=os.getcwd()))
    if said[0].startswith('No screenshot'):
        raise tools.Failed(said[0])

def preferences_of():
    preferences.keep(preferences.Preferences(palette=3))

def main(words):
    try:
        {what}()
    except (slots.NotReplaced, timed_game.WrongTime) as error:
        raise tools.Failed(str(error)) from None
sys.argv[0] = 'gbkeep-window'
# as the window does before it has a file
library.loaded()
os.access('/faults begin', 0)
tools.run_tool(main)
'''


# ---- what is run

@dataclass
class Run:
    """A tool, its words, and what it makes or replaces: what each is once it is done, where that is not the same each time."""
    tool: str
    words: list[str]
    changes: dict[str, Optional[Callable[[bytes], bool]]] = field(default_factory=dict)
    # whether a run with status 0 has done all of it, also one behind another that was cut
    is_sure: bool = True

    def line(self) -> list[str]:
        is_window = self.tool.startswith('window ')
        text = DOES.replace('{what}', self.tool.removeprefix('window ')) if is_window else STARTS.format(module=self.tool)
        return [sys.executable, '-S', '-c', text, *self.words]

    def __str__(self) -> str:
        return f'{self.tool} {" ".join(self.words)}'


def is_game(data: bytes) -> bool:
    return len(data) > 64 * SECTOR and any(data[at:at + 8] == b'GBKPROOT' for at in (0, SECTOR))


def is_report(data: bytes) -> bool:
    return data.startswith(b'<testsuite') and data.endswith(b'</testsuite>\n')


def is_movie(data: bytes) -> bool:
    try:
        return len(frames_of_bk2(data)) > 0
    except Wrong:
        return False


def is_time(data: bytes) -> bool:
    try:
        return len(lines_of(data)) > 0
    except WrongTime:
        return False


def runs(program: str) -> list[Run]:
    window = ['clock.gb', 'clock.gbkeep', program]
    own = {'other.gbkeep': is_game}
    return [
        Run('png', ['picture.pgm', 'made.png'], {'made.png': None}),
        Run('png', ['picture.pgm', 'old.png'], {'old.png': None}),
        Run('battery', ['to-mgba', 'battery', 'made.sav'], {'made.sav': None}),
        Run('battery', ['of-save', 'other.gbkeep', 'made.sav'], {'made.sav': None}),
        Run('battery', ['to-mgba', 'demo.gb', 'other.gbkeep', 'made.sav'], {'made.sav': None}),
        # two files: where the second is not made, the first is a whole one
        Run('battery', ['to-gambatte', '--time', '1700000000', 'clock', 'made.srm'], {'made.srm': None, 'made.rtc': None}, False),
        Run('battery', ['from-mgba', 'demo.gb', 'battery', 'made.gbkeep'], {'made.gbkeep': is_game}),
        Run('movie', ['bk2', 'moves.txt', 'made.bk2'], {'made.bk2': is_movie}),
        Run('movie', ['bk2', 'demo.gb', 'run.rec', 'made.bk2'], {'made.bk2': is_movie}),
        Run('film', ['--to', '2', 'demo.gb', 'moves.txt', 'made.y4m'], {'made.y4m': None}),
        Run('film', ['--to', '2', 'demo.gb', 'run.rec', 'old.y4m'], {'old.y4m': None}),
        Run('script', ['own', 'moves.txt']),
        Run('script', ['play', 'demo.gb', 'other.gbkeep', 'moves.txt'], own),
        Run('rest', ['demo.gb', 'other.gbkeep', 'longer.txt'], own, False),
        Run('branch', ['demo.gb', 'run.rec', '40', 'made.gbkeep', 'made.rec'],
            {'made.gbkeep': is_game, 'made.rec': lambda data: data.startswith(b'GBKPRECD'), 'made.gbkeep.recorded': lambda data: data.startswith(b'made.rec\n'),
             'made.rec.notes': lambda data: data.endswith(b'\nrerecords 1\n')}, False),
        Run('verify', ['demo.gb', 'run.gbkeep', 'run.rec']),
        Run('run_tests', ['-j', '1', '--junit', 'report.xml', '--json', 'made.json', 'passes.gb'],
            {'report.xml': is_report, 'made.json': lambda data: data.endswith(b'\n]}\n')}),
        Run('run_tests', ['-j', '1', '--bless', 'list.txt'], {'old.png': None, 'made.pgm': None}),
        Run('debug', ['--do', 'frames 00 3', '--do', 'picture made.png', '--do', 'state made.state', 'demo.gb'], {'made.png': None, 'made.state': None}),
        Run('window keep', window, {'clock.gbkeep.slot': is_game, 'clock.gbkeep.before': is_game, 'clock.gbkeep.slot.time': is_time, 'clock.gbkeep.before.time': is_time}),
        Run('window back', window, {'clock.gbkeep': is_game, 'clock.gbkeep.before': is_game, 'clock.gbkeep.time': is_time, 'clock.gbkeep.before.time': is_time}),
        Run('window clock', window, {'clock.gbkeep.time': None}),
        Run('window picture', window, {'clock 1.png': None}, False),
        # a game goes on without it
        Run('window preferences_of', window, {'config/gbkeep/window': None}, False)]


class Room:
    """A folder as it is before each run, and the tools in it."""

    def __init__(self, program: str, top: Path):
        self.program, self.before, self.folder, self.shim = program, top / 'before', top / 'room', top / 'faults.so'
        source = top / 'faults.c'
        source.write_text(SHIM)
        subprocess.run([*compiler(), '-shared', '-fPIC', '-O1', '-Wno-unused-result', '-o', self.shim, source, '-ldl'], check=True)
        self.before.mkdir()
        shutil.copy(CART, self.before / 'demo.gb')
        shutil.copy(CART.parent.parent / 'test_roms/passes.gb', self.before)
        clock_cart(self.before)
        for folder in ('tmp', 'config/gbkeep'):
            (self.before / folder).mkdir(parents=True)
        png = png_of(bytes(160 * 144), 160, 144, 1)
        for name, data in (('moves.txt', b'wait 5\nstart 3\n'), ('longer.txt', b'wait 40\n'), ('picture.pgm', b'P2\n160 144\n3\n' + b'3 ' * (160 * 144)), ('old.png', png),
                           ('old.y4m', b'YUV4MPEG2 an old film'), ('report.xml', b'<testsuite></testsuite>\n'), ('battery', bytes(32768)), ('clock', bytes(32768 + 48)),
                           ('text.txt', b'A file of somebody.\n'), ('list.txt', b'demo.gb frames=2 picture=old.png\ndemo.gb frames=2 picture=made.pgm\n'),
                           ('config/gbkeep/window', b'# chosen in the window of gbkeep\n{}\n'), ('clock.gbkeep.time', b'40 1700000000\n'), ('clock.gbkeep.slot.time', b'7 1600000000\n')):
            (self.before / name).write_bytes(data)
        for words, typed in ((['new', 'demo.gb', 'other.gbkeep'], b''), (['new', 'demo.gb', 'run.gbkeep'], b''), (['new-recording', 'demo.gb', 'run.rec', '20'], b''),
                             (['record', 'demo.gb', 'run.gbkeep', 'run.rec'], b'frames 00 30\nframes 80 4\nframes 01 30\n'), (['stream', 'demo.gb', 'other.gbkeep'], b'frames 00 5\n'),
                             (['new', 'clock.gb', 'clock.gbkeep'], b''), (['new', 'clock.gb', 'clock.gbkeep.slot'], b''),
                             (['stream', 'clock.gb', 'clock.gbkeep'], b'frames 01 40\n'), (['stream', 'clock.gb', 'clock.gbkeep.slot'], b'frames 02 7\n')):
            subprocess.run([program, *words], cwd=self.before, input=typed, stdout=subprocess.DEVNULL, check=True)
        self.held = self.files(self.before)
        # what a tool takes of its surroundings
        self.env = dict(os.environ, GBKEEP=program, TMPDIR=str(self.folder / 'tmp'), XDG_CONFIG_HOME=str(self.folder / 'config'))

    def files(self, folder: Path) -> dict[str, bytes]:
        return {str(path.relative_to(folder)): path.read_bytes() for path in folder.rglob('*') if path.is_file() or path.is_symlink()}

    def fresh(self) -> None:
        shutil.rmtree(self.folder, ignore_errors=True)
        shutil.copytree(self.before, self.folder, symlinks=True)

    def run(self, run: Run, at: int = 0, fault: int = 0, log: Optional[Path] = None) -> tuple[int, str]:
        """The status of a tool and what it says on standard error; of a ROM that is not run the report says so."""
        env = dict(self.env, LD_PRELOAD=str(self.shim), FAULT_ROOM=str(self.folder), FAULT_AT=str(at), FAULT=str(fault))
        if log:
            env['FAULT_LOG'] = str(log)
        with subprocess.Popen(run.line(), cwd=self.folder, env=env, stdin=subprocess.DEVNULL, stdout=subprocess.PIPE, stderr=subprocess.PIPE) as process:
            if fault == HANG and os.waitid(os.P_PID, process.pid, os.WSTOPPED | os.WEXITED | os.WNOWAIT).si_code == os.CLD_STOPPED:
                process.send_signal(signal.SIGTERM)
                process.send_signal(signal.SIGCONT)
            out, err = process.communicate(timeout=SECONDS)
        told = err.decode(errors='replace')
        return process.returncode, told or out[out.find(b'FAIL'):].decode(errors='replace').split('\n')[0] + '\n' if b'FAIL' in out else told


# ---- what is left

def wrong_with(room: Room, run: Run, at: int, fault: int, name: str, done: dict[str, bytes]) -> str:
    """What is wrong with a run whose call with this number fails so, or nothing."""
    room.fresh()
    log = room.folder.with_name('calls')
    log.unlink(missing_ok=True)
    status, err = room.run(run, at, fault, log)
    # a pipe does not take as many reads each time: which call it was is told by the run itself
    name = dict(enumerate(log.read_text().split(), 1)).get(at, name) if log.exists() else name
    if 'Traceback' in err or 'Exception' in err or 'Error' in err:
        return err[-1500:]
    is_cut = fault in (KILL, HANG) and status in (-signal.SIGKILL, 128 + signal.SIGTERM)
    if not is_cut and status not in (0, 1) or err.count('\n') != (1 if status == 1 else 0):
        return f'status {status}: {err!r:.300}'
    left = room.files(room.folder)
    why = wrong_files(room, run, left, done, status == 0 and run.is_sure, is_cut or name in ('unlink', 'rmdir', 'opendir', 'stat', 'open', 'close'))
    if why or not is_cut:
        return why
    # what was cut is done again
    status, err = room.run(run)
    taken = [one for one in run.changes if one not in room.held and left.get(one)]
    if status != 0 and not (status == 1 and taken and any(f'{one} exists already' in err for one in taken)):
        return f'again: status {status}: {err!r:.300}'
    return wrong_files(room, run, room.files(room.folder), done, status == 0 and run.is_sure, True)


def wrong_files(room: Room, run: Run, left: dict[str, bytes], done: dict[str, bytes], is_done: bool, may_leave: bool) -> str:
    for name in sorted(room.held.keys() | left.keys()):
        before, after = room.held.get(name), left.get(name)
        if name in run.changes:
            is_whole = run.changes[name] or done[name].__eq__
            if after != before and (after is None or not is_whole(after)) or is_done and name in done and (after is None or not is_whole(after)):
                return f'{name} has {len(after or b"")} bytes, {after!r:.60}'
        # a picture that is made again has the next number
        elif after != before and not (before is None and may_leave and (name.startswith('tmp/') or '.gbkeep-' in name or name.startswith('clock.gbkeep.before') or
                                                                        name == 'clock 2.png' and after == done.get('clock 1.png'))):
            return f'{name} is gone' if after is None else f'{name} is changed' if before is not None else f'{name} is left'
    if run.tool in ('window keep', 'window back') and not set(games(room.held)) <= set(games(left)):
        return 'a game is lost'
    return ''


def games(files: dict[str, bytes]) -> list[bytes]:
    """The games of the window, whatever they are called."""
    return [data for name, data in files.items() if name.startswith('clock.gbkeep') and is_game(data)]


# ---- all of them, or some

def main() -> int:
    if len(sys.argv) not in (2, 3, 4):
        sys.exit(__doc__)
    if not tries('the faults of the tools', 'cc'):
        return 0
    program, count = os.path.abspath(sys.argv[1]), int(sys.argv[2]) if len(sys.argv) > 2 else 0
    rnd = random.Random(sys.argv[3] if len(sys.argv) > 3 else None)
    wrong = tried = 0
    with tempfile.TemporaryDirectory(prefix='tool-faults-') as top:
        # the modules are compiled once
        os.environ['PYTHONPYCACHEPREFIX'] = f'{top}/compiled'
        os.environ.pop('PYTHONDONTWRITEBYTECODE', None)
        room, faults = Room(program, Path(top)), []
        for run in runs(program):
            log = Path(top) / 'calls'
            log.unlink(missing_ok=True)
            room.fresh()
            status, err = room.run(run, log=log)
            calls, left = log.read_text().split(), room.files(room.folder)
            done = {name: data for name, data in left.items() if name in run.changes and data != room.held.get(name)}
            if status != 0 or err or (why := wrong_files(room, run, left, done, True, False)) or set(done) != set(run.changes):
                print(f'WRONG {run}, and nothing fails: status {status}: {err}{why if status == 0 else ""}, {sorted(done)}', flush=True)
                wrong += 1
                continue
            for at, name in enumerate(calls, 1):
                fails = FAILS.get(name, [errno.EIO])
                chosen = [fails[at % len(fails)], *[KILL] * (name in CHANGES), *[HANG] * (name in HANGS)]
                faults += [(run, at, fault, name, done) for fault in chosen]
        for run, at, fault, name, done in rnd.sample(faults, min(count, len(faults))) if count else faults:
            tried += 1
            why = wrong_with(room, run, at, fault, name, done)
            if why:
                wrong += 1
                what = {KILL: 'a kill', HANG: 'a hang'}.get(fault) or errno.errorcode[fault]
                kept = Path(tempfile.mkdtemp(prefix='tool-faults-kept-')) / 'room'
                shutil.copytree(room.folder, kept, symlinks=True)
                print(f'WRONG {run}: {what} at call {at}, {name}, kept={kept}: {why}', flush=True)
    print(f'faults of the tools: {tried} of {len(faults)} tried, {wrong} wrong')
    return 1 if wrong else 0


if __name__ == '__main__':
    sys.exit(main())
