#!/usr/bin/env python3
"""Measures what it costs that a journal begins where the last one ended, and prints a table.

    python3 scripts/measure/measure_carry.py [PROGRAM] [--names N] [--loans N] [--holds N] [--runs N]

PROGRAM is crates/holddesk/out/holddesk where it isn't given. The library has N titles, copies and patrons each
(333333), and its journal, which has no turns, begins with an opening of so many loans (100000) and holds (100000),
three a title on average, drawn by a generator with a seed. Told are the processor time of holddesk carry to a catalogue
that has the same names in another order, and of a start (journal check) from the opening beside one without it: the
least of N runs (5) each; and the largest memory that each had. The files lie in the folder that TMPDIR names. Needs
nothing but Python 3.
"""

import hashlib
import multiprocessing
import os
import random
import sys
import tempfile

sys.path.append(os.path.dirname(sys.path[0]))  # scripts/

from make.make_library import Library, branch, copy, number_in, patron, title, write_lines
from measure import spend
from server import Trouble, begun, parser_of, reported

SEED = 1
HELD = 3  # how many holds a title has that has any, on average


def in_another_order(lines, draw):
    """The lines of a catalogue file, those of each kind in another order."""
    kinds = {}
    for line in lines:
        kinds.setdefault(line[0], []).append(line)
    for kind in kinds.values():
        draw.shuffle(kind)
        yield from kind


def opening_lines(library, catalogue, loans, holds, draw):
    """The lines of an opening of so many loans, one a copy, and holds, with their stamps in order."""
    with open(catalogue, "rb") as file:
        digest = hashlib.sha256(file.read()).hexdigest()
    yield f"H|opening|1|{loans + holds}|{digest}"
    for number in draw.sample(range(1, library.copies + 1), loans):
        yield f"L|{copy(number)}|{patron(draw.randrange(library.patrons) + 1)}|20260322|0"
    titles = draw.sample(range(1, library.titles + 1), max(1, holds // HELD))
    pairs = set()
    while len(pairs) < holds:
        pairs.add((draw.choice(titles), draw.randrange(library.patrons) + 1))
    for stamp, (held, by) in enumerate(sorted(pairs, key=lambda _: draw.random()), loans + 1):
        expiry = "20261231" if draw.random() < 0.5 else ""
        yield f"R|{title(held)}|{patron(by)}|{stamp}|any||{branch(draw.randrange(library.branches) + 1)}|{expiry}"


def cost(pool, words, runs, before=lambda: None):
    """The least processor time of a command in so many runs, in seconds, and its memory in megabytes."""
    costs = []
    for _ in range(runs):
        before()
        status, *used = pool.apply(spend, (words, os.devnull, os.devnull))
        if status:
            raise Trouble(f"{' '.join(words)} ends with {status}")
        costs.append(used)
    return min(costs)[0], max(memory for _, memory in costs) / 1024


def print_table(asked):
    draw = random.Random(SEED)
    library = Library(titles=asked.names, copies=asked.names, patrons=asked.names)
    with tempfile.TemporaryDirectory() as folder, multiprocessing.get_context("spawn").Pool(1) as pool:
        def path(name):
            return os.path.join(folder, name)

        def remove():
            if os.path.exists(path("into")):
                os.remove(path("into"))

        old = library.write(path("old"))
        new = write_lines(in_another_order(library.lines(), draw), path("new"))
        opening = write_lines(opening_lines(library, old, asked.loans, asked.holds, draw), path("opening"))
        fresh = ["--catalogue", old, "--journal", begun(asked.program, old, path("fresh"))]
        carried = ["--catalogue", old, "--opening", opening]
        carried += ["--journal", begun(asked.program, old, path("journal"), *carried[2:])]
        check = [asked.program, "journal", "check"]
        without, least = cost(pool, check + fresh, asked.runs)
        with_it, most = cost(pool, check + carried, asked.runs)
        carry = [asked.program, "carry", *carried, "--to", new, "--into", path("into")]
        taken, memory = cost(pool, carry, asked.runs, remove)
    rows = asked.loans + asked.holds
    print("| What | Figure |\n|---|---|")
    print(f"| a start without the opening | {without:.2f} s, {least:.0f} MB |")
    print(f"| a start with it | {with_it:.2f} s, {most:.0f} MB |")
    print(f"| what it takes more, a row | {(most - least) * 2**20 / rows:.0f} bytes |")
    print(f"| holddesk carry | {taken:.2f} s, {memory:.0f} MB |")


def main():
    parser = parser_of(__doc__)
    for name, usual, least, most in (("names", 333_333, 1, 1_000_000), ("loans", 100_000, 0, 1_000_000),
                                     ("holds", 100_000, 0, 1_000_000), ("runs", 5, 1, 1_000)):
        parser.add_argument(f"--{name}", type=number_in(least, most), default=usual, metavar="N", help=f"({usual})")
    reported("measure_carry", print_table, parser.parse_args())


if __name__ == "__main__":
    main()
