#!/usr/bin/env python3
"""Says where the time of a crate's proof went, by the times at which `rt check` kept each part of it.

usage: scripts/proof_times.py CRATE [LINES]    (after `rm -rf out/incremental && rt check --jobs 1` in the crate's folder)

A part is what a function's proof is made of: Lts its steps (each call, branch and element of a literal), Tie and Proof its goals, Answers what is
written of it; or a file of definitions or lemmas. The first part that uses something long, such as a contract of another crate, has its time too.
"""
import sys
from pathlib import Path

ROOT = Path(__file__).resolve().parent.parent


def parts(crate):
    """The seconds that each part took, in the order in which they were kept, and its name."""
    kept = [it for it in (ROOT / "crates" / crate / "out/incremental").glob("*/*.oantt")]
    if not kept:
        sys.exit(f"{crate} has no proof that is kept: run rt check in its folder")
    last = None
    for time, name in sorted((it.stat().st_mtime, it.stem) for it in kept):
        yield time - (last or time), name.split("-", 2)[-1]
        last = time


def main():
    if len(sys.argv) not in (2, 3):
        sys.exit(__doc__)
    found = [*parts(sys.argv[1])]
    lines = int(sys.argv[2]) if len(sys.argv) == 3 else 20
    kinds = {}
    for seconds, name in found:
        kind = name.rpartition(".")[2]
        kinds[kind] = kinds.get(kind, 0) + seconds
    print(f"{sum(seconds for seconds, _ in found):7.1f} s from the first part to the last")
    for kind in ("Lts", "Tie", "Proof", "Answers"):
        print(f"{kinds.get(kind, 0):7.1f} s in all {kind}")
    for seconds, name in sorted(found, reverse=True)[:lines]:
        print(f"{seconds:7.1f} s {name}")


if __name__ == "__main__":
    main()
