#!/usr/bin/env python3
"""Tries wrong bodies on a copy of the repository: a proof has to refuse each, at a goal that stays open.

usage: scripts/edits.py [CRATE | CRATE/NAME]...    (no word: every crate)
       scripts/edits.py --apply                    (tries none, and says in a second which no longer apply to the text)

The edits are those of crates/CRATE/must-fail/NAME.edit, and those of crates/CRATE/wrong-bodies/FILE.rt.toml: the wrong
bodies of src/FILE.rt, a table [NAME] each, with `old` (text that stands once in the file), `new`, further pairs in
[[NAME.then]], and from the last try `refused`, the goal, and `digest`, that of the function as it was then: another
digest says that the body is to be tried again. A run writes these two.

An edit counts only if it changes src/ and leaves a goal open: one that no proof was found for, or whose answer in a
proof file no longer proves it. One that is proved, that no longer applies, that does not compile, or that is refused
only because a proof file names what is gone, shows nothing, and fails this run. $RT is the command `rt`.
"""
import hashlib
import os
import re
import shutil
import subprocess
import sys
import tempfile
import time
import tomllib
from dataclasses import dataclass
from pathlib import Path

ROOT = Path(__file__).resolve().parent.parent
RT = os.environ.get("RT", "rt")
# the end of a file of wrong bodies, and of an edit that the toolchain reads
TABLE, EDIT = ".rt.toml", ".edit"
DIGITS, MOST_GOAL = 16, 300

AT_PLACE = re.compile(r"(?:\./)?(\S+?):\d+:\d+: error(?:\[[\w-]+\])?: (.*)")
OPEN_GOAL = re.compile(r"note: (src/\S+:\d+):\d+: (it is not proved that .*)")
FUNCTION = re.compile(r"fn [^:\s]+::(\S+): (not proved|no proof: .*)")
IS_GONE = re.compile(r"has no `|has no field|is not in scope|is no name|^`\S+`: record `\S+` \(nearest: ")
CLAUSE = re.compile(r"`(\S+?)-clause-\S+`")
UNCOVERED = re.compile(r"the borrow checker does not cover")
BEGINS = re.compile(r"( *)(?:pub(?:\([a-z]+\))? )?(?:const |unsafe |extern \"C\" )*fn ")
UNPROVED = re.compile(r"`[\w-]+`: `search`: no proof of |`[\w-]+-value`: (as printed|computed), ")
FOLLOWS = re.compile(r"which was (?:rejected|not admitted)|no proof: it calls")


class ShowsNothing(Exception):
    """The edit was not refused, or by no open goal."""


def libraries():
    """Returns what each crate of crates.txt stands on."""
    rows = [row.partition("#")[0].partition(":") for row in (ROOT / "crates.txt").read_text().splitlines()]
    return {row[0].split()[0]: row[2].split() for row in rows if row[0].strip()}


def with_those_below(names, below):
    found = set()
    while names:
        name = names.pop()
        if name in below and name not in found:
            found.add(name)
            names += below[name]
    return found


def copy_repository(names, to):
    """Copies the repository, with the kept proofs of these crates: only what an edit touches is then proved again."""
    def left_out(folder, files):
        place = Path(folder)
        is_crate = place.parent == ROOT / "crates"
        return [name for name in files if name == ".git" or name == "out" and is_crate and place.name not in names]

    shutil.copytree(ROOT, to, ignore=left_out, dirs_exist_ok=True)


@dataclass
class Edit:
    """A wrong body: pairs of a file below the crate, a text that stands once in it, and what stands there instead. `refused`
    and `digest` are those of the last try; a must-fail edit has none."""
    place: str
    name: str
    pairs: list
    refused: str = ""
    digest: str = ""

    def is_stale(self, crate):
        return bool(self.digest) and self.digest != self.digest_of(crate)

    def digest_of(self, crate):
        """Of the function that it changes first, with its contract; of the file where that text stands in none."""
        path, old, _ = self.pairs[0]
        return hashlib.sha256(part_of((crate / path).read_text(), old).encode()).hexdigest()[:DIGITS]


def part_of(text, old):
    """The function of a text in which `old` stands, or the whole text."""
    lines, at = text.split("\n"), text[:text.find(old)].count("\n")
    for first in range(at, -1, -1):
        begins = BEGINS.match(lines[first])
        if begins:
            end = next((number for number in range(first, len(lines)) if lines[number] == f"{begins[1]}}}"), -1)
            return "\n".join(lines[first:end + 1]) if end >= at else text
    return text


def pairs_of(edit):
    """The pairs of an edit that the toolchain reads."""
    path, old, pairs = None, None, []
    for line in edit.read_text().splitlines():
        word, _, text = line.partition(":")
        text = text[1:] if text.startswith(" ") else text
        if word == "file":
            path = text.strip()
        elif word == "old":
            old = text
        elif word == "new":
            pairs.append((path, old, text))
            old = None
    return pairs


def wrong_bodies(crate):
    """The tables of a crate, by their files."""
    found = {}
    for file in sorted((crate / "wrong-bodies").rglob(f"*{TABLE}")):
        source = f"src/{file.relative_to(crate / 'wrong-bodies')}".removesuffix(".toml")
        found[file] = [Edit("wrong-bodies", name, [(source, one["old"], one["new"]) for one in (row, *row.get("then", ()))], row.get("refused", ""), row.get("digest", ""))
                       for name, row in tomllib.loads(file.read_text()).items()]
    return found


def quoted(text):
    """A string of TOML, as it is where it can be."""
    if "\n" not in text and "'" not in text:
        return f"'{text}'"
    if "\n" not in text and "\\" not in text and '"' not in text:
        return f'"{text}"'
    return f"'''{text}'''" if "'''" not in text and not text.endswith("'") else '"' + text.replace("\\", "\\\\").replace('"', '\\"') + '"'


def written(edits):
    """The text of a file of wrong bodies."""
    parts = []
    for edit in edits:
        rows = [f"[{edit.name}]"]
        for number, (_, old, new) in enumerate(edit.pairs):
            rows += [f"[[{edit.name}.then]]"] * (number > 0) + [f"old = {quoted(old)}", f"new = {quoted(new)}"]
            if number == 0 and edit.refused:
                rows += [f"refused = {quoted(edit.refused)}", f"digest = '{edit.digest}'"]
        parts.append("\n".join(rows) + "\n")
    return "\n".join(parts)


def edited(edit, crate):
    """Returns the text of each file that the edit changes."""
    texts = {}
    for name, old, new in edit.pairs:
        path = crate / (name or "")
        if not name or not old:
            raise ShowsNothing("a line 'new:' comes before 'file:' and 'old:'")
        if path.parts[len(crate.parts)] != "src" or not path.is_file():
            raise ShowsNothing(f"no body is changed: {name} is no file of src/")
        before = texts.get(path) or path.read_text()
        if before.count(old) != 1:
            raise ShowsNothing(f"does not apply: its text is {before.count(old)} times in {name}")
        texts[path] = before.replace(old, new)
    if not texts:
        raise ShowsNothing("it has no pair of lines 'old:' and 'new:'")
    return texts


def open_goal(said):
    """Returns the first goal that stays open in what `rt check` said, as `function: goal`."""
    refused, gone, exits, goals, notes, first = {}, {}, {}, [], [], None
    for line in said.splitlines():
        error, note, function = AT_PLACE.match(line), OPEN_GOAL.match(line), FUNCTION.match(line)
        if error:
            path, what = error.groups()
            if path.startswith("src/") and UNPROVED.match(what):
                goals.append(f"{path}: {what}")
            elif path.startswith(("src/", "specs/")):
                raise ShowsNothing(f"it does not compile: {line}")
            first = first or line
            folder = os.path.dirname(path).removeprefix("proofs").lstrip("/")
            if IS_GONE.search(what):
                gone.setdefault(folder, what)
                exits.setdefault(folder, set()).update(CLAUSE.findall(what)[:1])
            elif not FOLLOWS.search(what):
                refused.setdefault(folder, what)
        elif note:
            notes.append(f"{note[1]}: {note[2]}")
        elif function:
            name, why = function.groups()
            folder = name.replace("::", "/")
            if UNCOVERED.search(why):
                raise ShowsNothing(f"its form is one that no proof can be given for: {why}")
            if not FOLLOWS.search(why) and folder not in gone:
                what = notes[0] if notes else refused.get(folder) or why
                goals.append(f"{name}: {what}")
            # where an answer names what is gone, its exit is still there, and another clause of it is open
            elif folder in gone:
                goals += [f"{name}: {note}" for note in notes if exits[folder].intersection(CLAUSE.findall(note))]
            notes = []
    if goals:
        return goals[0]
    if gone:
        raise ShowsNothing(f"a proof file names what is gone: {next(iter(gone.values()))}")
    raise ShowsNothing(f"no goal is open; the first error: {first or said.strip().splitlines()[-1]}")


def check(crate):
    ran = subprocess.run([RT, "check"], cwd=crate, stdout=subprocess.PIPE, stderr=subprocess.STDOUT, text=True, errors="replace")
    return ran.returncode == 0, ran.stdout


def try_edit(edit, crate, kept):
    """Returns the goal that refuses the edit. Each is tried over the proofs of the crate as it stands, and not over
    those of the edit before it."""
    before = {path: path.read_text() for path in edited(edit, crate)}
    shutil.rmtree(crate / "out/incremental", ignore_errors=True)
    shutil.copytree(kept, crate / "out/incremental")
    try:
        for path, text in edited(edit, crate).items():
            path.write_text(text)
        is_proved, said = check(crate)
    finally:
        for path, text in before.items():
            path.write_text(text)
    if is_proved:
        raise ShowsNothing("it is PROVED with this edit")
    if not re.search(r"^logic=not-proved", said, re.M) and not re.search(r"^src/\S+ error", said, re.M):
        raise ShowsNothing(f"the check gave no verdict: {said.strip().splitlines()[-1]}")
    return open_goal(said)


def edits_of(crate, chosen=()):
    found = [Edit("must-fail", it.stem, pairs_of(it)) for it in sorted((crate / "must-fail").glob(f"*{EDIT}"))]
    found += [one for edits in wrong_bodies(crate).values() for one in edits]
    lost = set(chosen) - {it.name for it in found}
    if lost:
        sys.exit(f"{crate.name} has no edit {min(lost)}")
    return [it for it in found if not chosen or it.name in chosen]


def keep(crate, tried):
    """Writes beside each wrong body that was tried which goal refused it."""
    for file, edits in wrong_bodies(crate).items():
        if not tried.keys().isdisjoint(one.name for one in edits):
            for one in edits:
                if one.name in tried:
                    one.refused, one.digest = tried[one.name], one.digest_of(crate)
            file.write_text(written(edits))


def try_crate(crate, chosen):
    """Returns the goals by which edits were refused, and how many were not."""
    edits, refused = edits_of(crate, chosen), {}
    if not edits:
        return {}, 0
    is_proved, said = check(crate)
    if not is_proved:
        print(f"{crate.name}: it is not proved as it stands\n{said}", flush=True)
        return {}, len(edits)
    kept = crate / "out/kept"
    shutil.copytree(crate / "out/incremental", kept)
    for edit in edits:
        start = time.monotonic()
        try:
            why = refused[edit.name] = try_edit(edit, crate, kept)[:MOST_GOAL]
        except ShowsNothing as error:
            why = f"SHOWS NOTHING: {error}"
        seconds = time.monotonic() - start
        print(f"{crate.name}/{edit.place}/{edit.name} ({seconds:.0f} s): {why[:MOST_GOAL]}", flush=True)
    shutil.rmtree(crate / "out/incremental")
    kept.rename(crate / "out/incremental")
    return refused, len(edits) - len(refused)


def apply_all():
    """Returns 1 if some edit does not apply to the text as it stands, or a file is not as this script writes it."""
    apply, stale, untried, lost = 0, 0, 0, []
    for crate in sorted((ROOT / "crates").iterdir()):
        for edit in edits_of(crate):
            try:
                unchanged = [path.name for path, text in edited(edit, crate).items() if path.read_text() == text]
                if unchanged:
                    raise ShowsNothing(f"it leaves {unchanged[0]} as it is")
                apply += 1
                stale += edit.is_stale(crate)
                untried += edit.place == "wrong-bodies" and not edit.refused
            except ShowsNothing as error:
                lost.append(f"{crate.name}/{edit.place}/{edit.name}: {error}")
        lost += [f"{file.relative_to(ROOT)} is not as a run writes it" for file, edits in wrong_bodies(crate).items() if file.read_text() != written(edits)]
        lost += [f"{file.relative_to(ROOT)}: a wrong body stands in a table" for file in (crate / "wrong-bodies").rglob(f"*{EDIT}")]
    print("\n".join([*lost, f"{apply} edits apply, {len(lost)} not; {untried} have no goal noted, and of {stale} the function has changed since"]))
    return 1 if lost else 0


def main():
    if sys.argv[1:] == ["--apply"]:
        return apply_all()
    below, wanted = libraries(), {}
    for word in sys.argv[1:] or below:
        name, _, edit = word.partition("/")
        if name not in below:
            sys.exit(f"crates.txt has no crate {name}")
        wanted.setdefault(name, []).extend([edit] if edit else [])
    refused = shown_nothing = 0
    with tempfile.TemporaryDirectory(prefix="edits-") as room:
        copy_repository(with_those_below([*wanted], below), room)
        for name, chosen in wanted.items():
            goals, others = try_crate(Path(room) / "crates" / name, chosen)
            keep(ROOT / "crates" / name, goals)
            refused, shown_nothing = refused + len(goals), shown_nothing + others
    print(f"{refused} refused, {shown_nothing} not")
    return 1 if shown_nothing else 0


if __name__ == "__main__":
    sys.exit(main())
