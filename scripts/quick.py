#!/usr/bin/env python3
"""Looks at what changed, in about five minutes on an idle machine of four cores: no gate, but soon.

    python3 scripts/quick.py [--rev REV]

What changed is told against the commit where this branch left REV (origin/HEAD); what isn't committed counts too. Then

- each crate that changed is checked, over the libraries below it. Where what these promise didn't change, their kept
  proofs of before serve as well: a proof above rests on what is promised, and not on how it is met;
- wrong bodies of these crates are tried that changed, or whose function did, and that aren't noted as refused;
- the program is built without proofs, with its checks (measure/optimised.py --checked), kept by a sum of its sources, so
  that the next run has it at once, and rows.py and examples.py are played at it.

It says which crates above need no proof, since nothing changed that they rest on, which would have to be proved (make
run), and what wasn't looked at for want of a library that is kept. Nothing is noted or kept as proved but libraries that
changed and that another changed crate uses. Needs rt, git and Python 3. Status 0: all that was looked at is as it has to
be.
"""

import argparse
import json
import os
import shutil
import subprocess
import sys
import tempfile
import time
from concurrent.futures import ThreadPoolExecutor
from pathlib import Path

from above import minutes_of
from check import check
from kept import TOP, files_of, keep, lay_out, place_of, said_by_rt, sums_of
from prove import prove, uses_of_all, with_all_below
from wrong_bodies.edits import edits_of, file_of, read
from wrong_bodies.refused import Grounds, files_below, proofs_of, sources_with, sum_over
from wrong_bodies.trying import REFUSED, try_crate
from wrong_bodies.workbench import Bench

BUILDER = TOP / "scripts" / "measure" / "optimised.py"
PLAYED = ("play/rows.py", "play/examples.py")
UNPROVED = "unproved"  # by what name the program is kept


def texts_of_crates():
    """Of each crate a sum of all that its proof reads of it, and one of what it promises: what stands outside of bodies,
    definitions and lemmas."""
    texts = {crate: [(str(path), read(path)) for path in files_of(crate)] for crate in uses_of_all()}
    told = {crate: [sources_with(crate), files_below(crate, "specs"), proofs_of(crate)] for crate in texts}
    return {crate: (sum_over(uses_of_all()[crate], [(path[len(str(TOP)):], text) for path, text in texts[crate]]),
                    sum_over(uses_of_all()[crate], told[crate])) for crate in texts}


class Before:
    """The crates as they were, in a folder, with the scripts as they are."""

    def __init__(self, rev, room):
        base = subprocess.run(["git", "merge-base", "HEAD", rev], cwd=TOP, capture_output=True, text=True, check=False)
        if base.returncode:
            sys.exit(f"quick: no commit {rev} that this branch began at: say REV=, as REV=HEAD~3")
        self.top, self.commit = Path(room, "before"), base.stdout.strip()
        self.top.mkdir()
        packed = subprocess.run(["git", "archive", self.commit, "crates", "crates.txt"], cwd=TOP, capture_output=True,
                                check=True)
        subprocess.run(["tar", "-x", "-C", self.top], input=packed.stdout, check=True)
        shutil.copytree(TOP / "scripts", self.top / "scripts")
        asks = "import json, quick; print(json.dumps([quick.texts_of_crates(), quick.uses_of_all()]))"
        said = subprocess.run([sys.executable, "-c", asks], cwd=self.top / "scripts", capture_output=True, text=True,
                              check=True).stdout
        self.texts, self.uses = json.loads(said)
        self.sums = sums_of(self.uses, self.uses, self.top)

    def text_at(self, path):
        """The text of a file as it was; none where it wasn't there."""
        old = self.top / Path(path).relative_to(TOP)
        return read(old) if old.is_file() else ""


class Change:
    """Which crates changed, and what that asks of those above them."""

    def __init__(self, before, uses):
        now = texts_of_crates()
        self.before, self.uses, self.sums = before, uses, sums_of(uses, uses)
        self.crates = [crate for crate in uses if now[crate][0] != before.texts.get(crate, [None])[0]]
        self.promising = [crate for crate in uses if now[crate][1] != before.texts.get(crate, [None, None])[1]]
        above = [crate for crate in uses if crate not in self.crates and set(self.below(crate)) & set(self.crates)]
        self.to_prove = [crate for crate in above if not self.rests_as_before(crate)]
        self.spared = [crate for crate in above if self.rests_as_before(crate)]
        self.edited = [crate for crate in uses if any(self.is_edited(edit) for edit in edits_of(crate))]

    def below(self, crate):
        return with_all_below(crate, self.uses, [])[:-1]

    def rests_as_before(self, crate):
        """Whether nothing changed that a proof of the crate rests on below it."""
        return not set(self.below(crate)) & set(self.promising)

    def is_edited(self, edit):
        """Whether a wrong body changed, or a function that it changes."""
        top = TOP / "crates" / edit.crate
        return self.before.text_at(file_of(edit)) != read(file_of(edit)) or \
            any(function.text not in self.before.text_at(top / function.file) for function in edit.functions)

    def libraries_for(self, crate, room):
        """A folder with the libraries below a crate, if they are kept, or only changed ones have to be proved for it:
        those of now, or those of before where nothing changed that the crate's proof rests on."""
        below, libraries = self.below(crate), os.path.join(room, f"below-{crate}")
        os.makedirs(libraries)
        missing = [it for it in below if not lay_out(libraries, it, self.sums[it])]
        if missing and self.rests_as_before(crate):
            of_before = os.path.join(room, f"before-{crate}")
            os.makedirs(of_before)
            if all(lay_out(of_before, it, self.before.sums[it]) for it in below):
                return of_before
        is_soon = set(missing) <= set(self.crates)
        return libraries if is_soon and (not missing or prove(below, self.uses, libraries)) else None


def program_of(uses):
    """The program without proofs, which is built where it isn't kept, as a path; none where it can't be built."""
    crates = with_all_below("holddesk", uses, [])
    total = sum_over(said_by_rt("version"), read(BUILDER), sums_of(crates, uses, parts=("src",))["holddesk"])
    program = place_of(UNPROVED, total) / UNPROVED
    if not program.is_file():
        with tempfile.TemporaryDirectory(prefix="quick-") as room:
            made = Path(room, UNPROVED)
            if subprocess.run([sys.executable, BUILDER, "--checked", made], check=False).returncode:
                return None
            keep(made, UNPROVED, total)
    return program


def try_edited(crate, change, libraries, grounds, room):
    """Tries the crate's wrong bodies that changed and aren't noted as refused. How many there are, and how many of them
    aren't refused."""
    edits = [edit for edit in edits_of(crate) if change.is_edited(edit) and not grounds.is_known(edit)]
    if edits:
        try_crate(edits, Bench(crate, change.uses, libraries, os.path.join(room, f"bench-{crate}")))
    return len(edits), sum(edit.verdict != REFUSED for edit in edits)


def look_at(change, room):
    """Checks the crates that changed, and tries their wrong bodies. What isn't as it has to be, and what wasn't looked
    at."""
    grounds, faults, left, tried = Grounds(change.uses), [], [], 0
    for crate in [crate for crate in change.uses if crate in change.crates or crate in change.edited]:
        libraries = change.libraries_for(crate, room)
        if libraries is None:
            left.append(crate)
            continue
        if crate in change.crates and check(crate, change.uses, libraries, []):
            faults.append(f"{crate} isn't proved")
            continue
        count, lost = try_edited(crate, change, libraries, grounds, room)
        tried += count
        faults += [f"{lost} wrong bodies of {crate} aren't refused"] if lost else []
    print(f"quick: {tried} wrong bodies tried that changed; make wrong tries all that aren't noted")
    return faults, left


def named(crates):
    return " ".join(crates) or "none"


def play(program):
    """Plays the scripts at the program. Which of them fail."""
    failed = []
    for script in PLAYED:
        begin = time.monotonic()
        done = subprocess.run([sys.executable, TOP / "scripts" / script, program], check=False)
        print(f"quick: {script} took {time.monotonic() - begin:.0f} s", flush=True)
        failed += [f"{script} fails"] if done.returncode else []
    return failed


def main():
    parser = argparse.ArgumentParser(description=__doc__, usage=argparse.SUPPRESS,
                                     formatter_class=argparse.RawDescriptionHelpFormatter)
    parser.add_argument("--rev", default="origin/HEAD", help="what it is told against (origin/HEAD)")
    asked, uses = parser.parse_args(), uses_of_all()
    with tempfile.TemporaryDirectory(prefix="quick-") as room, ThreadPoolExecutor(1) as beside:
        change = Change(Before(asked.rev, room), uses)
        built = beside.submit(program_of, uses)
        print(f"quick: changed since {change.before.commit[:8]}: {named(change.crates)}", flush=True)
        faults, left = look_at(change, room)
        program = built.result()
    faults += play(program) if program else ["the program isn't built"]
    print(f"quick: not proved, since nothing changed that they rest on: {named(change.spared)}")
    if change.to_prove:
        print(f"quick: not proved, and to be proved by make run (some {minutes_of(change.to_prove)} processor minutes): "
              f"{named(change.to_prove)}")
    if left:
        print(f"quick: not looked at, since libraries below aren't kept (make run): {named(left)}")
    print("\n".join([*(f"quick: {fault}" for fault in faults), f"quick: {len(faults)} faults"]))
    sys.exit(1 if faults else 0)


if __name__ == "__main__":
    main()
