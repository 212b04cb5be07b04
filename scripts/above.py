#!/usr/bin/env python3
"""Tells which crates are above one, and how long the proofs took that a change of it asks for.

    python3 scripts/above.py CRATE [CRATE ..]

The times are those of measure/gate.md, in processor minutes of the machine that is named there. Where what a crate
promises stays, no proof above rests on the change; but prove.py and the gate prove all above, since they compare files.
Needs Python 3.
"""

import argparse
import re

from kept import TOP
from prove import is_program, uses_of_all, with_all_below

# a cell of the table of crates in measure/gate.md: a crate's name without its hd_, and the seconds of its proof
CELL, GATE = re.compile(r"`(\w+)` (\d+)"), TOP / "scripts" / "measure" / "gate.md"


def minutes_of(crates):
    """How many processor minutes the proofs of these crates took."""
    seconds = dict(CELL.findall(GATE.read_text(encoding="utf-8")))
    return round(sum(int(seconds.get(crate.removeprefix("hd_"), 0)) for crate in crates) / 60)


def above(crate, uses):
    """The crates that use a crate, or one above it."""
    return [name for name in uses if crate in with_all_below(name, uses, [])[:-1]]


def main():
    parser = argparse.ArgumentParser(description=__doc__, usage=argparse.SUPPRESS,
                                     formatter_class=argparse.RawDescriptionHelpFormatter)
    parser.add_argument("crates", metavar="CRATE", nargs="+", help="a crate of crates.txt")
    asked, uses = parser.parse_args().crates, uses_of_all()
    for crate in asked:
        if crate not in uses:
            parser.error(f"no crate {crate} in crates.txt")
        found = above(crate, uses)
        libraries = [name for name in [crate, *found] if not is_program(name)]
        print(f"{crate}: {len(found)} crates above: {' '.join(found) or 'none'}")
        print(f"{crate}: the proofs of it and of those above took {minutes_of([crate, *found])} processor minutes, "
              f"{minutes_of(libraries)} of them for libraries")


if __name__ == "__main__":
    main()
