"""Makes the system calls of gbkeep fail, one at a time, and looks at what each file holds afterwards. hostile.py has the kinds.

Debian's strace lets a chosen call of a command fail, or kills the program there, and a library of some lines of C, where there is a C
compiler, cuts a write short. The game in SAVE must be one that the second reader takes up, with every input that was told; CART and
SCRIPT keep their bytes; and what `new` leaves is a game, or an empty file, which the next `new` takes up, and the mark of the game before as long as there
is no new one."""
import os, re, subprocess
import hostile
import recordings
from gbkeep import save_files as ref
from gbkeep.save_files import get, put
from scripts.doctor import compiler, tries

MARK = hostile.SAVE + '.recorded'
CALLS = 'openat,read,pread64,write,pwrite64,fsync,flock,ftruncate,statx,rename,unlink'
FAULTS = {'openat': ['EIO', 'EMFILE', 'EINTR'], 'read': ['EIO', 'EINTR', 'EAGAIN'], 'pread64': ['EIO', 'EINTR'], 'write': ['EIO', 'ENOSPC', 'EINTR', 'EAGAIN'],
          'pwrite64': ['EIO', 'ENOSPC', 'EINTR', 'EDQUOT', 'EFBIG'], 'fsync': ['EIO', 'ENOSPC', 'EINTR'], 'flock': ['ENOLCK', 'EOPNOTSUPP', 'EINTR', 'EIO'],
          'ftruncate': ['EIO', 'ENOSPC', 'EINTR', 'EFBIG'], 'statx': ['EIO', 'EACCES'], 'rename': ['EIO', 'EXDEV', 'EACCES'], 'unlink': ['EIO', 'EROFS']}
LINES = [b''] + [hostile.line(why) for why in ('no memory', 'output failed', 'file failed', 'device failed', 'input failed')]
SHORT = r'''
#define _GNU_SOURCE
#include <dlfcn.h>
#include <stdlib.h>
#include <unistd.h>
static long wanted, asked;
static ssize_t (*real)(int, const void *, size_t, off64_t);
ssize_t pwrite64(int fd, const void *bytes, size_t size, off64_t at) {
    if (!real) {
        real = dlsym(RTLD_NEXT, "pwrite64");
        wanted = atol(getenv("SHORT"));
    }
    return real(fd, bytes, ++asked == wanted && size > 1 ? size / 2 : size, at);
}
ssize_t pwrite(int fd, const void *bytes, size_t size, off_t at) {
    return pwrite64(fd, bytes, size, at);
}
'''


def traced(words, options, text=b''):
    """Status, output and errors of a run under strace."""
    done = subprocess.run(['strace', '-f', '-qq', *options, hostile.GB, *words], capture_output=True, timeout=20, input=text)
    return done.returncode, done.stdout, done.stderr


def calls_of(words, text):
    """How often the command makes each call, and how many of these the loader makes before."""
    path = os.path.join(hostile.ROOM, 'calls')
    traced(words, ['-o', path, '-e', 'trace=' + CALLS], text)
    names, before = [], None
    for row in open(path, errors='replace'):
        found = re.match(r'^\d+ +(\w+)\(', row)
        if not found:
            continue
        if before is None and '/dev/null' in row:
            before = {name: names.count(name) for name in set(names)}
        names.append(found[1])
    return {name: (before.get(name, 0), names.count(name)) for name in set(names)}


def fault_of(rnd, counts):
    """The words of strace for a fault of one call, what it is called, and whether it may pass unseen."""
    name = rnd.choice(sorted(name for name in counts if counts[name][0] < counts[name][1]))
    first, last = counts[name]
    number = rnd.choice([first + 1, last, rnd.randint(first + 1, last), rnd.randint(first + 1, last)])
    fault = rnd.choice(FAULTS[name] + ['KILL'])
    how = 'signal=KILL' if fault == 'KILL' else 'error=' + fault
    return ['-o', '/dev/null', '-e', 'trace=' + name, '-e', 'inject=%s:%s:when=%d' % (name, how, number)], '%s at %s %d of %d' % (fault, name, number, last)


def script_of(rnd):
    return b''.join(rnd.choice([b'frame 01\n', b'frames 02 3\n', b'seconds 9\n', b'save\n']) for _ in range(rnd.choice([3, 12])))


def counts_told(out):
    return [int(count) for count in re.findall(rb'^(?:resumed|saved) (\d+)\n', out, re.M)]


def inputs_in(lines):
    """How many inputs the lines of a script or a stream are."""
    moves = b'\n'.join(line for line in lines.split(b'\n') if not re.fullmatch(rb'keep \d+|back \d+', line))
    return sum(len(ref.inputs_of(move)) for move in ref.moves_of(moves)) + len(re.findall(rb'^back \d+$', lines, re.M))


def is_as_it_should_be(seed, what, got, image, cart, rom, script):
    """Whether the game has what was told, and nothing else was touched."""
    status, out, err = got
    before = hostile.count_of(image, cart)
    given = inputs_in(script)
    if status not in (0, 1, -9, 137) or err not in LINES or (status == 1) != (err != b''):
        hostile.differs('injected', seed, '%s: %r' % (what, got))
        return False
    try:
        count = hostile.count_of(get(hostile.SAVE), cart)
    except ref.Refused as why:
        hostile.differs('injected', seed, '%s: SAVE is lost, %s, %r' % (what, why, got))
        return False
    told = max([before] + counts_told(out))
    good = told <= count <= before + given and (status != 0 or count == before + given)
    if not good or get(hostile.CART) != rom or get(hostile.SCRIPT) != script:
        hostile.differs('injected', seed, '%s: %d inputs, %d told, %d given behind %d, %r' % (what, count, told, given, before, got))
        return False
    return True


def of_a_game(rnd, seed):
    """A command over a game."""
    cart, image = hostile.a_game(rnd)
    rom = get(hostile.CART)
    script = script_of(rnd)
    words = rnd.choice([['play', hostile.CART, hostile.SAVE, hostile.SCRIPT], ['stream', hostile.CART, hostile.SAVE],
                        ['frame', hostile.CART, hostile.SAVE, hostile.OUT], ['trace', hostile.CART, hostile.SAVE, '5'], ['debug', hostile.CART, hostile.SAVE]])
    gives = script if words[0] in ('play', 'stream') else b''
    if words[0] == 'stream' and rnd.random() < 0.5:
        gives += b'\nkeep 1\nframe 01\nback 1\nsave\npower\nframe 02\n'
    text = b'step 3\nframes 01 2\nmemory 0 100\ndigest\n' if words[0] == 'debug' else gives
    put(hostile.SCRIPT, gives)
    counts = calls_of(words, text)
    for _ in range(6):
        put(hostile.SAVE, image)
        options, what = fault_of(rnd, counts)
        got = traced(words, options, text)
        if not is_as_it_should_be(seed, '%s, %s' % (words[0], what), got, image, cart, rom, gives):
            return
        if not hostile.compare_play('injected', seed, get(hostile.SAVE), cart, hostile.short_script(rnd), 'after ' + what):
            return
        put(hostile.SCRIPT, gives)


def of_new(rnd, seed):
    """`new`, and the next `new` of the same words."""
    rom = hostile.random_rom(rnd)
    cart = ref.Cartridge(rom)
    put(hostile.CART, rom)
    hostile.gone(hostile.SAVE)
    sectors = ref.need_of(cart.length) + rnd.choice([0, 1, 2])
    words = ['new', hostile.CART, hostile.SAVE, str(sectors)]
    made = ref.Game(bytes(512 * sectors), cart)
    made.begin(1, 0, None)
    mark = rnd.choice([b'game.rec\ngbkeep record\n', recordings.mark_of(b'game.rec', [b'\0\1'] * 3)])
    put(MARK, mark)
    counts = calls_of(words, b'')
    for _ in range(4):
        hostile.gone(hostile.SAVE)
        put(MARK, mark)
        options, what = fault_of(rnd, counts)
        status, out, err = traced(words, options)
        left = get(hostile.SAVE) if os.path.exists(hostile.SAVE) else None
        parts = hostile.parts()
        begun = left is not None and hostile.same_file(left, made)
        if status not in (0, 1, -9, 137) or err not in LINES or (out == b'begun 0\n') != (status == 0) or status == 0 and not begun:
            return hostile.differs('injected', seed, 'new, %s: %r' % (what, (status, out, err)))
        if left not in (None, b'') and not begun:
            return hostile.differs('injected', seed, 'new, %s: %r, and the file is not whole' % (what, (status, out, err)))
        if not begun and (not os.path.exists(MARK) or get(MARK) != mark):
            return hostile.differs('injected', seed, 'new, %s: %r, and the mark of the game before is gone' % (what, (status, out, err)))
        # a file that can't be looked at may be another's by now, and an empty one is taken up by the next `new`
        stays = 'unlink' in what or 'statx' in what and left == b''
        if status == 1 and err != hostile.line('output failed') and (left is not None or parts) and not stays:
            return hostile.differs('injected', seed, 'new, %s: %r, and it leaves a file' % (what, (status, out, err)))
        again = hostile.gbkeep(*words)
        if again != ((1, b'', hostile.line('device failed')) if begun else (0, b'begun 0\n', b'')) or not hostile.same_file(get(hostile.SAVE), made):
            return hostile.differs('injected', seed, 'the new behind %s: %r' % (what, again))
        if not begun and os.path.exists(MARK):
            return hostile.differs('injected', seed, 'the new behind %s leaves the mark of the game before' % what)


def of_import(rnd, seed):
    """An `import` whose sync fails takes away only what nobody else was given: as long as it holds its file no other program takes up a game there."""
    rom = bytearray(hostile.random_rom(rnd))
    rom[0x147], rom[0x149] = 0x03, 0x02
    put(hostile.CART, bytes(rom))
    battery = os.path.join(hostile.ROOM, 'some.bat')
    put(battery, bytes(8192))
    words = ['import', hostile.CART, battery, hostile.SAVE]
    hostile.gone(hostile.SAVE)
    _, last = calls_of(words, b'').get('fsync', (0, 0))
    number = rnd.randint(1, max(last, 1))
    hostile.gone(hostile.SAVE)
    # what is taken away is taken away late, so that the other program comes first
    slow = subprocess.Popen(['strace', '-f', '-qq', '-o', '/dev/null', '-e', 'trace=fsync,unlink', '-e', 'inject=fsync:error=EIO:when=%d' % number,
                             '-e', 'inject=unlink:delay_enter=300000', hostile.GB, *words], stdout=subprocess.PIPE, stderr=subprocess.PIPE)
    told = b''
    while slow.poll() is None:
        out = subprocess.run([hostile.GB, 'stream', hostile.CART, hostile.SAVE], input=b'frames 01 60\nsave\n', capture_output=True, timeout=20).stdout
        told = out if b'saved' in out else told
    slow.communicate()
    if told and not os.path.exists(hostile.SAVE):
        hostile.differs('injected', seed, 'import with sync %d of %d refused: another program was told %r, and SAVE is gone' % (number, last, told))
    hostile.parts()


def short_writes(rnd, seed):
    """A write of SAVE that takes half of what it is given is gone on with."""
    if not tries('hostile files, writes that are cut short', 'cc'):
        return
    source, library = os.path.join(hostile.ROOM, 'short.c'), os.path.join(hostile.ROOM, 'short.so')
    if not os.path.exists(library):
        put(source, SHORT.encode())
        subprocess.run([*compiler(), '-shared', '-fPIC', '-O1', '-o', library, source, '-ldl'], check=True)
    cart, image = hostile.a_game(rnd)
    script = script_of(rnd)
    for number in (1, 2, rnd.randrange(200)):
        put(hostile.SCRIPT, script)
        put(hostile.SAVE, image)
        want = hostile.played(image, cart, script)
        got = hostile.gbkeep('play', hostile.CART, hostile.SAVE, hostile.SCRIPT, env={'LD_PRELOAD': library, 'SHORT': str(number)})
        if got != want[:3] or not hostile.same_file(get(hostile.SAVE), want[3]):
            return hostile.differs('injected', seed, 'short write %d: %r, wanted %r' % (number, got, want[:3]))


def no_locks(rnd, seed):
    """Where the file system has no locks OUT is still never SAVE, and where a lock can't be had nothing is done."""
    cart, image = hostile.a_game(rnd)
    hard = os.path.join(hostile.ROOM, 'hard')
    hostile.gone(hard)
    os.link(hostile.SAVE, hard)
    for fault, path, want in (('EOPNOTSUPP', os.path.join(hostile.ROOM, '.', 'game.gbkeep'), 'file failed'), ('EOPNOTSUPP', hard, 'file failed'),
                              ('ENOLCK', hostile.OUT, 'device failed')):
        put(hostile.SAVE, image)
        got = traced(['frame', hostile.CART, hostile.SAVE, path], ['-o', '/dev/null', '-e', 'trace=flock', '-e', 'inject=flock:error=' + fault])
        if got != (1, b'', hostile.line(want)) or get(hostile.SAVE) != image:
            hostile.differs('injected', seed, '%s, OUT %s: %r, SAVE has %d bytes' % (fault, os.path.basename(path), got, os.path.getsize(hostile.SAVE)))
    hostile.gone(hard)


def injected(rnd, seed):
    for what in (of_a_game, of_new, of_import, of_a_game, short_writes, no_locks):
        what(rnd, seed)
        hostile.gone(MARK)
