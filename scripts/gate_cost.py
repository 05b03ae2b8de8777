#!/usr/bin/env python3
"""Runs a command, and tells behind it how many processor minutes its processes took, by kind of work and by crate.

usage: scripts/gate_cost.py COMMAND [WORD]...

The processes below the command are looked at once a second; what one took since it was last looked at is told as the rest. A loop is timed every
half minute, so that two hosts can be compared: the faster a host is, and the less runs beside it, the fewer milliseconds the loop takes. The status
is the command's, or 128 and the number of the signal that ended it.
"""
import os
import re
import resource
import signal
import subprocess
import sys
import threading
import time
from collections import defaultdict

KINDS = ("libraries", "tests", "edits", "programs")
PLACE_OF_EDITS = re.compile(r"/rt-edits?-\d")
SHOWN = 8
SECONDS_OF_WORK, SECONDS_OF_LOOP, TURNS = 1, 30, 500_000


def text_of(path):
    with open(path, errors="replace") as file:
        return file.read()


def processes():
    """Yields each process: its number, that of its parent, its start, and the processor seconds that it has taken."""
    ticks = os.sysconf("SC_CLK_TCK")
    for name in os.listdir("/proc"):
        if name.isdecimal():
            try:
                # the name before the last parenthesis may hold anything
                fields = text_of(f"/proc/{name}/stat").rpartition(")")[2].split()
            except OSError:
                continue
            yield int(name), int(fields[1]), int(fields[19]), (int(fields[11]) + int(fields[12])) / ticks


def below(root):
    """Returns the processes below that one, and itself, by number: start and processor seconds."""
    found = {number: (parent, start, seconds) for number, parent, start, seconds in processes()}
    wanted, more = {root}, {root}
    while more:
        more = {number for number, (parent, _, _) in found.items() if parent in more} - wanted
        wanted |= more
    return {number: found[number][1:] for number in wanted if number in found}


def work_of(words, folder):
    """Returns the kind of work of a command in a folder, and its crate or, where it is none of a crate, its name."""
    name = os.path.basename(words[0])
    crate = words[words.index("--crate-name") + 1] if "--crate-name" in words[:-1] else name
    if PLACE_OF_EDITS.search(folder):
        return "edits", crate
    if name == "rattle" and "--test" in words:
        return "tests", crate
    if name == "rattle" and "--statements" in words:
        return "libraries", crate
    return "programs", crate


class Watched:
    """What the processes below one have taken, and how long the loop took."""

    def __init__(self, root):
        self.root, self.seen, self.loops, self.is_over = root, {}, [], threading.Event()

    def look(self):
        for number, (start, seconds) in below(self.root).items():
            work, _ = self.seen.get((number, start), (("programs", "?"), 0))
            try:
                words = text_of(f"/proc/{number}/cmdline").split("\0")[:-1]
                # one that has ended, and is not waited for, has no words any more
                work = work_of(words, os.readlink(f"/proc/{number}/cwd")) if words else work
            except OSError:
                pass
            self.seen[number, start] = work, seconds

    def time_loop(self):
        before, sum_of_turns = time.thread_time(), 0
        for turn in range(TURNS):
            sum_of_turns = (sum_of_turns * 31 + turn) & 0xFFFF_FFFF
        self.loops.append(1000 * (time.thread_time() - before))

    def run(self):
        next_loop = time.monotonic()
        while not self.is_over.wait(SECONDS_OF_WORK):
            self.look()
            if time.monotonic() >= next_loop:
                self.time_loop()
                next_loop = time.monotonic() + SECONDS_OF_LOOP

    def lines(self, minutes, wall):
        """Yields what is told, given the processor minutes and those of the clock."""
        times = defaultdict(lambda: defaultdict(float))
        for (kind, name), seconds in self.seen.values():
            times[kind][name] += seconds / 60
        loop = f"; the loop took {sum(self.loops) / len(self.loops):.0f} ms, {min(self.loops):.0f} at the least" if self.loops else ""
        yield f"{minutes:.1f} processor minutes, {wall:.1f} by the clock{loop}"
        for kind in KINDS:
            dearest = sorted(times[kind].items(), key=lambda it: -it[1])[:SHOWN]
            named = ", ".join(f"{name} {taken:.1f}" for name, taken in dearest if taken >= 0.05)
            yield f"{sum(times[kind].values()):7.1f} {kind}{': ' if named else ''}{named}"
        yield f"{max(0.0, minutes - sum(sum(it.values()) for it in times.values())):7.1f} the rest"


def main():
    if len(sys.argv) < 2:
        sys.exit(__doc__)
    begun = time.monotonic()
    try:
        child = subprocess.Popen(sys.argv[1:])
    except OSError as error:
        sys.exit(f"gate_cost.py: {sys.argv[1]}: {error.strerror}")
    # a terminal signals both, and what the child makes of it counts
    signal.signal(signal.SIGINT, signal.SIG_IGN)
    signal.signal(signal.SIGTERM, lambda *_: child.terminate())
    watched = Watched(child.pid)
    thread = threading.Thread(target=watched.run, daemon=True)
    thread.start()
    status = child.wait()
    watched.is_over.set()
    thread.join()
    used = resource.getrusage(resource.RUSAGE_CHILDREN)
    print(*watched.lines((used.ru_utime + used.ru_stime) / 60, (time.monotonic() - begun) / 60), sep="\n", flush=True)
    return status if status >= 0 else 128 - status


if __name__ == "__main__":
    sys.exit(main())
