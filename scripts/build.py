"""Proves and builds the program, its crates side by side, and leaves it at bin/gbkeep. A line for each crate that is proved: its place, its name, the
minutes so far and about how many are left; and each minute a line of what is being proved. The minutes left are those of the plan from there on, at the pace
at which this host has proved what is done.

usage: build.py          at the top of the repository
       build.py arm64    for aarch64: leaves bin/arm64/gbkeep and bin/arm64/gbkeep-static, which runs without a C library

RT is the toolchain's command. JOBS is how many crates are proved at once: as many as there are processors, and 2.5 GB of free memory for each, if it is
not given. Of those that need no other any more, the one with the longest way to the program is proved first. Several at once are proved in copies of the
program's crates alone, one copy for each, in ~/.cache/gbkeep (or XDG_CACHE_HOME), whose work stays there for the next build: how much that takes is told at
the end, and `make clean-cache` removes it. One at a time they are proved where they are."""
import contextlib
import filecmp
import functools
import math
import os
import shutil
import signal
import subprocess
import sys
import tempfile
import time
from pathlib import Path

from scripts import clean
from scripts.alive import alive
from scripts.arm64 import target
from scripts.doctor import needed

RT, PROGRAM = os.environ.get('RT', 'rt'), 'gbkeep_program'
BUILT = Path('bin/gbkeep')
BYTES_A_JOB = 2_500_000_000
# about how many seconds the proof of a crate took from nothing, by one process; and the bytes that others do in one
SECONDS = {'gbkeep': 530, 'sm83_processor': 510, 'debugging': 430, 'machine': 290, 'session': 260, 'commands': 260, 'embedding': 190, 'streaming': 185,
           'command_line': 175, 'memory_map': 170, 'opcode_table': 160, 'test_run': 160, 'recorded_play': 150, 'snapshot': 150, 'c_interface': 150,
           'picture_unit': 130, 'gbkeep_program': 130, 'replaying': 120, 'playing': 110, 'debugger': 105, 'battery_files': 90,
           'machine_lines': 80, 'script': 75}
BYTES_A_SECOND = 1500
# a crate whose libraries are as they were is looked at for so long; one that is proved over what an earlier proof of it has kept takes such a share
SECONDS_LOOKED, SHARE_OVER_KEPT = 1, 0.4
# as if so many seconds had been proved at the pace of the table, before anything is
SECONDS_KNOWN = 120
# what a proof does not read
LEFT_OUT = ('out', 'must-fail', 'wrong-bodies')


class Failed(Exception):
    """A command of the toolchain has ended with another status than 0."""


def crates(top=PROGRAM):
    """The program's crates, or those of another one, each behind those that it stands on, the line of each in crates.txt, and which of them it stands on."""
    needs, lines = {}, {}
    with open('crates.txt') as file:
        for line in file:
            name, colon, others = line.partition(':')
            if colon and not line.startswith('#'):
                name = name.split()[0]
                needs[name], lines[name] = others.split(), line
    order = []

    def add(name):
        for other in needs[name]:
            if other in needs and other not in order:
                add(other)
        order.append(name)

    add(top)
    return order, lines, {name: [other for other in needs[name] if other in needs] for name in order}


def jobs():
    """How many crates are proved at once."""
    given = os.environ.get('JOBS', '')
    if given:
        if not given.isdecimal() or not 1 <= int(given) <= 64:
            sys.exit('build.py: JOBS is a number from 1 to 64')
        return int(given)
    free = next((int(line.split()[1]) * 1024 for line in open('/proc/meminfo') if line.startswith('MemAvailable:')), BYTES_A_JOB)
    return max(1, min(len(os.sched_getaffinity(0)), free // BYTES_A_JOB))


def files_of(folder):
    """The files of a crate that a proof may read, as names below its folder."""
    found = []
    for place, folders, names in os.walk(folder):
        folders[:] = [name for name in folders if Path(place) != folder or name not in LEFT_OUT]
        found += [Path(place, name).relative_to(folder) for name in names]
    return set(found)


def bring(order, lines, root):
    """Makes the copy the same as the crates. A file that is the same stays as it is, so that what was proved of it counts."""
    (root / 'crates').mkdir(parents=True, exist_ok=True)
    for other in os.listdir(root / 'crates'):
        if other not in order:
            shutil.rmtree(root / 'crates' / other)
    for name in order:
        here, there = Path('crates', name), root / 'crates' / name
        there.mkdir(exist_ok=True)
        wanted = files_of(here)
        for gone in files_of(there) - wanted:
            (there / gone).unlink()
        for file in wanted:
            if not (there / file).exists() or not filecmp.cmp(here / file, there / file, shallow=False):
                (there / file).parent.mkdir(parents=True, exist_ok=True)
                shutil.copyfile(here / file, there / file)
    (root / 'crates.txt').write_text(''.join(lines[name] for name in order))
    shutil.copyfile('HANDLES', root / 'HANDLES')


def weights(order):
    """About how many seconds the proof of each crate takes."""
    size = {name: sum((Path('crates', name) / file).stat().st_size for file in files_of(Path('crates', name))) for name in order}
    return {name: SECONDS.get(name, size[name] / BYTES_A_SECOND) for name in order}


def is_built(folder):
    """Whether a crate was built, and none of its files is newer."""
    stamp = folder / 'out/rlib/stamp'
    return stamp.exists() and all((folder / file).stat().st_mtime <= stamp.stat().st_mtime for file in files_of(folder))


def changed_crates(order, needs, copies):
    """The crates of which anything is new since they were built, or of one that they stand on."""
    found = set()
    for name in order:
        if found.intersection(needs[name]) or not all(is_built(copy / 'crates' / name) for copy in copies):
            found.add(name)
    return found


def expected(order, needs, copies):
    """About how many seconds each crate takes now, at the pace of the table, and which of them say something of the pace."""
    weight, changed = weights(order), changed_crates(order, needs, copies)
    for name in order:
        if name not in changed:
            weight[name] = SECONDS_LOOKED
        elif any((copy / 'crates' / name / 'out/incremental').exists() for copy in copies):
            weight[name] *= SHARE_OVER_KEPT
    return weight, changed


class Plan:
    """Which crate is proved next, and how long what is left takes."""

    def __init__(self, order, needs, weight, lanes):
        self.order, self.needs, self.weight, self.lanes = order, needs, weight, lanes
        self.way = ways(order, needs, weight)

    def next(self, left, built, running):
        """The crate whose proof begins now, and by how many processes; None where each waits for another one, or a lane is not free."""
        if len(running) >= self.lanes:
            return None
        ready = [name for name in left if built.issuperset(self.needs[name])]
        if not ready:
            return None
        name = max(ready, key=self.way.get)
        # that on which the program waits longest has two processors, of more than two, and one that is alone has all
        is_first = self.lanes > 2 and all(self.way[name] > self.way[other] for other in (*left, *running) if other != name)
        return name, max(2 if is_first else 1, self.lanes // (len(ready) + len(running)))

    def seconds_left(self, built, spent, pace):
        """How many seconds the rest takes, where so much of each running proof is over. One that takes longer than was expected takes as much longer again, and
        no more than a tenth."""
        running = {name: ahead if (ahead := self.weight[name] * pace - seconds) > 0 else min(-ahead, seconds / 10) for name, seconds in spent.items()}
        left, built, now = [name for name in self.order if name not in built and name not in running], set(built), 0.0
        while left or running:
            while (one := self.next(left, built, running)) is not None:
                left.remove(one[0])
                running[one[0]] = self.weight[one[0]] * pace
            name = min(running, key=running.get)
            taken = running.pop(name)
            now += taken
            running = {other: seconds - taken for other, seconds in running.items()}
            built.add(name)
        return now


class Told:
    """Tells of each crate once, and each minute what is being proved."""

    def __init__(self, plan, telling, clock=time.monotonic, say=functools.partial(print, flush=True)):
        self.plan, self.telling, self.clock, self.say, self.begun = plan, telling, clock, say, clock()
        self.running, self.built, self.known, self.taken = {}, set(), SECONDS_KNOWN, SECONDS_KNOWN

    def minutes(self):
        return (self.clock() - self.begun) / 60

    def begins(self, name):
        self.running[name] = self.clock()

    def pace(self):
        """How many seconds this host takes for one of the table's. A proof that takes longer than it should tells so before it ends."""
        known, taken = self.known, self.taken
        for name, begun in dict(self.running).items():
            spent, weight = self.clock() - begun, self.plan.weight[name]
            if spent * known > weight * taken:
                known, taken = known + weight, taken + spent
        return taken / known

    def minutes_left(self):
        """About how many minutes are left, up to a whole one."""
        now = self.clock()
        return math.ceil(self.plan.seconds_left(set(self.built), {name: now - begun for name, begun in dict(self.running).items()}, self.pace()) / 60)

    def left(self):
        minutes = self.minutes_left()
        return f'about {minutes} left' if minutes else 'all is proved'

    def tell(self, name):
        if name in self.built:
            return
        if name in self.telling and name in self.running:
            self.known += self.plan.weight[name]
            self.taken += self.clock() - self.running[name]
        self.running.pop(name, None)
        self.built.add(name)
        self.say(f'{len(self.built)} of {len(self.plan.order)}, {name}: {self.minutes():.0f} minutes, {self.left()}')

    def life(self):
        """What is being proved by now, and for how long."""
        now = self.clock()
        proofs = ', '.join(f'{name} for {(now - begun) / 60:.0f}' for name, begun in dict(self.running).items())
        return f'{self.minutes():.0f} minutes: {"proving " + proofs if proofs else "looking at the crates"}; {self.left()}'


def done(words, folder):
    """Runs a command of the toolchain, whose words are told only where it fails."""
    ran = subprocess.run([RT, *words], cwd=folder, stdout=subprocess.DEVNULL, stderr=subprocess.PIPE, text=True)
    if ran.returncode:
        raise Failed(f'{ran.stderr}{folder}: {RT} {" ".join(words)} ended with status {ran.returncode}')


class Proof:
    """A crate that is proved in a copy, by a process group of its own."""

    def __init__(self, name, copy, processors):
        self.name, self.copy, self.said = name, copy, tempfile.TemporaryFile('w+', errors='replace')
        words = [RT, 'lib', '--jobs', str(processors)]
        self.process = subprocess.Popen(words, cwd=copy / 'crates' / name, stdout=self.said, stderr=subprocess.STDOUT, start_new_session=True)

    def is_over(self):
        return self.process.poll() is not None

    def end(self):
        """Fails with what the toolchain said, where the crate is not proved."""
        self.said.seek(0)
        with self.said as said:
            if self.process.returncode:
                told = ''.join(said.readlines()[-60:])
                raise Failed(f'{told}crates/{self.name}: {RT} lib ended with status {self.process.returncode}')

    def give_up(self):
        # one that has ended by itself, with all that it started, is no group any more
        with contextlib.suppress(ProcessLookupError):
            os.killpg(self.process.pid, signal.SIGKILL)
        self.process.wait()


def ways(order, needs, weight):
    """About how many seconds it is from the beginning of each crate's proof to the program, by the longest way."""
    found = {}
    for name in reversed(order):
        found[name] = weight[name] + max((found[other] for other in found if name in needs[other]), default=0)
    return found


def take_work(name, copy, copies):
    """Brings what an earlier build kept of a crate's proof, in whichever copy it was made."""
    here = copy / 'crates' / name / 'out/incremental'
    kept = next((it for it in (other / 'crates' / name / 'out/incremental' for other in copies) if it.exists()), here)
    if kept != here and not here.exists():
        here.parent.mkdir(exist_ok=True)
        os.replace(kept, here)


def share(name, copy, copies):
    """Gives each other copy a crate that is built."""
    made = copy / 'crates' / name / 'out/rlib'
    for other in copies:
        if other != copy:
            there = other / 'crates' / name / 'out/rlib'
            shutil.rmtree(there, ignore_errors=True)
            shutil.copytree(made, there, copy_function=os.link)


def prove_side_by_side(told, plan, copies):
    """Proves the libraries, each once those that it stands on are built, one at a time in each copy: the toolchain locks what it works in. Returns them."""
    left, built, running = [name for name in plan.order if name != PROGRAM], set(), []
    try:
        while left or running:
            while (one := plan.next(left, built, [proof.name for proof in running])) is not None:
                name, processes = one
                copy = next(copy for copy in copies if not any(proof.copy == copy for proof in running))
                left.remove(name)
                take_work(name, copy, copies)
                told.begins(name)
                running.append(Proof(name, copy, processes))
            time.sleep(0.1)
            for proof in [it for it in running if it.is_over()]:
                running.remove(proof)
                proof.end()
                share(proof.name, proof.copy, copies)
                built.add(proof.name)
                told.tell(proof.name)
    finally:
        for proof in running:
            proof.give_up()
    return built


def main():
    words = sys.argv[1:]
    if words not in ([], ['arm64']):
        sys.exit(__doc__)
    needed('rt')
    if words:
        target.compiler()
    order, lines, needs = crates()
    count, proved = jobs(), set()
    # what is running is to end with this
    for one in (signal.SIGINT, signal.SIGTERM):
        signal.signal(one, lambda number, frame: sys.exit(128 + number))
    root = clean.room() if count > 1 else Path('.')
    copies = [root, *(root / f'copy-{number}' for number in range(2, count + 1))]
    try:
        if count > 1:
            for copy in copies:
                bring(order, lines, copy)
            clean.named(root).write_bytes(os.fsencode(os.getcwd()))
        weight, changed = expected(order, needs, copies)
        plan = Plan(order, needs, weight, count)
        told = Told(plan, changed)
        place = f', in {root}' if count > 1 else ''
        print(f'{len(order)} crates, {len(changed)} of them to be proved, {count} at once{place}: about {told.minutes_left()} minutes', flush=True)
        with alive(told.life, sys.stdout):
            proved = prove_side_by_side(told, plan, copies) if count > 1 else set()
            for name in order:
                folder = root / 'crates' / name
                if name in proved or (name == PROGRAM and words):
                    continue
                told.begins(name)
                done(['run', '--', '--help'] if name == PROGRAM else ['lib'], folder)
                told.tell(name)
            if words:
                told.begins(PROGRAM)
                print(target.program(root, BUILT.parent / 'arm64'))
                print(f'bin/arm64/gbkeep: built in {told.minutes():.0f} minutes')
        if not words:
            BUILT.parent.mkdir(exist_ok=True)
            made = BUILT.with_name('gbkeep.new')
            shutil.copy(root / 'crates' / PROGRAM / 'out' / PROGRAM, made)
            os.replace(made, BUILT)
            print(f'{BUILT}: built in {told.minutes():.0f} minutes')
    except Failed as failed:
        sys.exit(str(failed))
    except OSError as error:
        sys.exit(f'build.py: {error.filename}: {error.strerror}')
    print(f'{clean.sizes()}, for the next build: make clean-cache removes both')


if __name__ == '__main__':
    main()
