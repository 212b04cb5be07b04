#!/usr/bin/env python3
"""Checks one crate over the proved libraries below it: soon, where little of it changed.

    python3 scripts/check.py CRATE [--only PATH] [rattle check's other flags]

A library below it that isn't kept (kept.py) is proved first, as by prove.py; so after the first time it is a matter of
seconds. Of the crate itself what was checked before stays in its folder out/, and only what changed is checked again.
PATH is a module or a function, as copies or copies::of_title, and --only may stand more than once. Where a goal isn't
proved, it is printed with the names that its proof can use. Nothing is kept of the crate as proved: that does prove.py.
Needs Python 3 and rt. Status 0, and a last line with logic=proved (with --only: as many proved= as only=): all that was
looked at is proved.
"""

import argparse
import subprocess
import sys
import tempfile

from kept import TOP
from prove import CORES, libraries_in, uses_of_all, with_all_below, words_of

LOADED = ("library ", "statements ", "logic /")  # how lines begin that tell what the prover loads


def check(name, uses, libraries, flags):
    """Checks the crate over the libraries, and says what the prover says, but for what it loads. Its status."""
    checked = TOP / "crates" / name / "out" / "checked"
    checked.mkdir(parents=True, exist_ok=True)
    words = [*words_of("check", name, uses, libraries, min(2, CORES)), "--incremental", str(checked), *flags]
    running = subprocess.Popen(words, cwd=TOP / "crates" / name, stdin=subprocess.DEVNULL, stdout=subprocess.PIPE,
                               stderr=subprocess.STDOUT, text=True, errors="replace")
    for line in running.stdout:
        if not line.startswith(LOADED):
            print(line, end="", flush=True)
    return running.wait()


def main():
    parser = argparse.ArgumentParser(description=__doc__, usage=argparse.SUPPRESS,
                                     formatter_class=argparse.RawDescriptionHelpFormatter)
    parser.add_argument("crate", metavar="CRATE", help="a crate of crates.txt")
    (asked, flags), uses = parser.parse_known_args(), uses_of_all()
    if asked.crate not in uses:
        parser.error("no such crate in crates.txt")
    with tempfile.TemporaryDirectory(prefix="check-") as room:
        libraries = libraries_in(room, with_all_below(asked.crate, uses, [])[:-1], uses)
        sys.exit(check(asked.crate, uses, libraries, flags))


if __name__ == "__main__":
    main()
