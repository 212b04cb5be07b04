#!/usr/bin/env python3
"""Tells where the time of a crate's proof goes: by function, and by what is checked of each.

    python3 scripts/measure/proof_times.py CRATE [--most N]

The crate is checked from nothing by one job, over the proved libraries below it. The prover keeps a file of each module
that it has checked, and from one file to the next it was at the later one: so the times are by the clock, and other
work on the machine lengthens them. The N functions (25) that took longest are told, and then the sums by kind of
module: Lts has the lifetimes and drops of a function, Tie and Layout what the borrow checker has of its code, Proof and
Answers the proof of its clauses, Mir and Code what it is lowered to. Needs Python 3 and rt.
"""

import argparse
import collections
import os
import re
import subprocess
import sys
import tempfile

sys.path.append(os.path.dirname(sys.path[0]))  # scripts/

from kept import TOP
from prove import libraries_in, steps_of, uses_of_all, with_all_below

MODULE = re.compile(r"Rattle-\w+-(?:proofs|specs)\.(.*)\.(\w+)$")


def check(name, uses, libraries, kept):
    """Checks the crate, and has the prover keep what it has checked. The last line that it says."""
    build, *_ = steps_of(name, uses, libraries, 1)
    words = [build[0], "check", *build[2:build.index("-o")], "--incremental", kept]
    words = [word for word in words if word != "--statements"]
    if "--toolchain" in words:
        at = words.index("--toolchain")
        del words[at:at + 2]
    done = subprocess.run(words, cwd=TOP / "crates" / name, stdin=subprocess.DEVNULL, capture_output=True, text=True,
                          errors="replace", check=False)
    return (done.stdout + done.stderr).rstrip().rpartition("\n")[2]


def times_of(kept):
    """Of each function and of each kind of module how many seconds its modules took."""
    found = []
    for folder, _, names in os.walk(kept):
        if os.path.basename(folder) != "records":
            found += [(os.stat(os.path.join(folder, it)).st_mtime, it[:-6]) for it in names if it.endswith(".oantt")]
    found.sort()
    functions, kinds = collections.Counter(), collections.Counter()
    for (before, _), (after, module) in zip(found, found[1:]):
        named = MODULE.match(module)
        functions[named[1] if named else "the rest"] += after - before
        kinds[named[2] if named else "the rest"] += after - before
    return functions, kinds


def main():
    parser = argparse.ArgumentParser(description="Tells where the time of a crate's proof goes.")
    parser.add_argument("crate")
    parser.add_argument("--most", type=int, default=25, metavar="N", help="how many functions are told (25)")
    asked, uses = parser.parse_args(), uses_of_all()
    if asked.crate not in uses:
        parser.error("no such crate in crates.txt")
    with tempfile.TemporaryDirectory(prefix="proof-times-") as room:
        below = with_all_below(asked.crate, uses, [])[:-1]
        libraries = libraries_in(room, below, uses)
        kept = os.path.join(room, "kept")
        os.makedirs(kept)
        said = check(asked.crate, uses, libraries, kept)
        functions, kinds = times_of(kept)
    for name, seconds in functions.most_common(asked.most):
        print(f"{seconds:7.1f}  {name.replace('.', '::')}")
    print(f"{sum(kinds.values()):7.1f}  in all:", ", ".join(f"{it} {n:.0f}" for it, n in kinds.most_common(10)))
    print(said)
    return 0 if said.startswith("logic=proved") else 1


if __name__ == "__main__":
    sys.exit(main())
