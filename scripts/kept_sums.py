#!/usr/bin/env python3
"""Sees that what is kept as proved is kept by the sum of what was proved, also where files are changed meanwhile.

    python3 scripts/kept_sums.py

A copy of two crates is proved by a stand-in for the prover, which makes a library of the sources that it is given, and
changes the sources where one works meanwhile. prove.py has to keep what its own copy was made of; gate.py, beside which
rt ci works on the files themselves, has to keep nothing of a crate that is changed, or changed and put back, or that
stands above such a crate. Nothing is proved, and what is kept stands in a folder of its own. Needs Python 3 and rt.
Status 0: it is so.
"""

import argparse
import os
import shutil
import subprocess
import sys
import tempfile
from pathlib import Path

from kept import TOP
from server import Trouble, reported
from wrong_bodies.edits import read, write

CRATES = {"hd_day": "", "hd_date": "hd_day jiff_core"}
SOURCE = "crates/hd_date/src/lib.rt"
CHANGE = "// Changed meanwhile.\n"
# proves both crates: the stand-in changes a source of the upper one while the lower one is proved, and the library that
# it makes is the source that it then reads
PROVES = """
import os, sys, prove
from kept import TOP
def steps_of(name, uses, room, jobs):
    change = f"echo '{change}' >> {{TOP}}/{source}" if name == "hd_day" else "true"
    return [["sh", "-c", change + f" && cp src/lib.rt {{room}}/{{name}}.rlib"]]
prove.steps_of = steps_of
uses = prove.uses_of_all()
room = os.path.abspath("room")
os.makedirs(room)
sys.exit(0 if prove.prove(list(uses), uses, room) else 1)
"""
# keeps both crates as the gate does when rt ci says that they are proved; before the upper one a file is changed
KEEPS = """
import os, gate
from kept import TOP
from prove import uses_of_all
wrong = gate.WrongBodies(uses_of_all(), "gate-room", False)
for name in ("hd_day", "hd_date"):
    made = TOP / "crates" / name / "out" / "rlib"
    os.makedirs(made)
    (made / f"{{name}}.rlib").write_text("a library")
    if name == "hd_date":
        os.system({between!r})
    gate.keep_proved(name, wrong)
print(gate.said_of_losses(wrong))
"""
# what happens meanwhile, and what is then kept
MEANWHILE = {
    "nothing": ("true", ["hd_date", "hd_day"]),
    "a change": (f"echo '{CHANGE.strip()}' >> ../{SOURCE}", ["hd_day"]),
    "a change that is put back": (f"cp ../{SOURCE} as-it-was && echo >> ../{SOURCE} && cp as-it-was ../{SOURCE}",
                                  ["hd_day"]),
    "a change below": ("touch ../crates/hd_day/src/day.rt", ["hd_day"]),
}


def run(copy, asks):
    """Runs a script over the copy, with a folder of its own for what is kept. What it prints."""
    done = subprocess.run([sys.executable, "-c", asks], cwd=os.path.join(copy, "scripts"), capture_output=True, text=True,
                          env={**os.environ, "XDG_CACHE_HOME": os.path.join(copy, "kept")}, check=False)
    if done.returncode:
        raise Trouble(f"it ends with {done.returncode} and says\n{done.stdout}{done.stderr}")
    return done.stdout


def kept_in(copy):
    """The libraries that are kept, each with its text, by the names of their folders."""
    return {path.parent.name: read(path) for path in Path(copy, "kept", "holddesk", "crates").glob("*/*.rlib")}


def copied(copy):
    """Copies the crates and the scripts."""
    for folder in ("scripts", *(os.path.join("crates", name) for name in CRATES)):
        shutil.copytree(TOP / folder, os.path.join(copy, folder), ignore=shutil.ignore_patterns("out"))
    write(os.path.join(copy, "crates.txt"), "".join(f"{name}: {uses}\n" for name, uses in CRATES.items()))
    return os.path.join(copy, SOURCE)


def prove_meanwhile():
    """Looks that the upper crate is kept as it was when the proving began, and that it is proved anew when it changed."""
    with tempfile.TemporaryDirectory() as copy:
        source = copied(copy)
        before = read(source)
        asks = PROVES.format(change=CHANGE.strip(), source=SOURCE)
        run(copy, asks)
        of_date = [text for name, text in kept_in(copy).items() if name.startswith("hd_date-")]
        if read(source) == before or of_date != [before]:
            raise Trouble(f"a source is changed meanwhile, and kept is {of_date!r}")
        shutil.rmtree(os.path.join(copy, "scripts", "room"))
        run(copy, asks)
        if sorted(text for name, text in kept_in(copy).items() if name.startswith("hd_date-")) != [before, before + CHANGE]:
            raise Trouble("what was changed meanwhile isn't proved anew")


def keep_meanwhile():
    """Looks at what the gate keeps where files are changed beside it."""
    for what, (between, wanted) in MEANWHILE.items():
        with tempfile.TemporaryDirectory() as copy:
            copied(copy)
            said = run(copy, KEEPS.format(between=between))
            found = sorted(name.rpartition("-")[0] for name in kept_in(copy))
            if found != wanted or ("changed meanwhile" in said) == (len(wanted) == len(CRATES)):
                raise Trouble(f"{what}: kept are {found}, wanted {wanted}; it says\n{said}")


def compare():
    prove_meanwhile()
    keep_meanwhile()


def main():
    argparse.ArgumentParser(description=__doc__, usage=argparse.SUPPRESS,
                            formatter_class=argparse.RawDescriptionHelpFormatter).parse_args()
    reported("kept_sums", compare)
    print("kept_sums: what is changed while it is proved is kept by no other's sum")


if __name__ == "__main__":
    main()
