#!/usr/bin/env python3
"""Looks that the types refuse what must not be written: each row of a table, in a copy of the crates.

    python3 scripts/play/types_refuse.py

A row puts a text in the place of another one, which its file has once. What then reads the crates is the
front end of rattle check, at the sources of test_parts and of all crates below it. It stops before any proof:
nothing is proved or built, since there is an error each time. First that is one of a function that is added.
Then there has to be one error for each row, the row's, and no other. Takes two minutes of a processor. Needs
Python 3 and rt. Status 0: all rows are refused.
"""

import argparse
import os
import subprocess
import sys
import tempfile
from pathlib import Path
from typing import NamedTuple

sys.path.append(os.path.dirname(sys.path[0]))  # scripts/

from kept import copy_sources, said_by_rt
from prove import uses_of_all, with_all_below
from server import Trouble, reported

CRATE = "test_parts"  # what is read, with all crates below it: those of all rows are among them
SECONDS = 1_800  # for one reading, on a machine that has much else to do


class Row(NamedTuple):
    """What is put into a file of a crate, and the error that has to come of it."""

    what: str
    file: str
    old: str
    new: str
    error: str


FOREIGN_SEAT = """
/// A seat of one house at a hall of another.
pub(crate) fn foreign_seat<H: House, G: House, R: Wait>(
    rt: &R,
    hall: &Hall<H>,
    seat: &mut Seat<G>,
    ask: &hd_journal::Ask<'_>,
) {
    let _ = hall.submit(rt, seat, ask);
}
"""
# The crates as they are, but for one function in test_parts. Its error is the only one: so they have none.
AS_THEY_ARE = (
    Row("a value of any type, let go", "test_parts/src/halls/asking.rt",
        "use std::sync::Wait;\n", "use std::sync::Wait;\n\n/// Lets a value go.\nfn let_go<T>(_value: T) {}\n",
        "error[linear-value-let-go]: "),
)
# What is let go is looked at only where all names and types fit, so that these rows are put in apart.
FITTING = (
    Row("a seat of one house, at a hall of another", "test_parts/src/halls/asking.rt",
        "use std::sync::Wait;\n", f"use std::sync::Wait;\n{FOREIGN_SEAT}",
        "error[mismatched-types]: expected `&mut Seat<H>`, found `&mut Seat<G>`"),
    Row("a stop that nobody asked for", "hd_server/src/ending.rt",
        "self.standing.ask_to_end(self.rt)", "AskedToEnd { _of: () }",
        "error[private-field]: field `_of` of struct `AskedToEnd` is private"),
)
LET_GO = (
    Row("the seat of a connection, not kept", "hd_serve/src/worker.rt",
        "self.places.lock(visit.rt).keep(seat);", "let _ = seat;",
        "error[linear-value-let-go]: `seat` is let go where its block ends, and `ServedSeat<H>` is not `Drop`"),
    Row("a turn that couldn't be written, not passed on", "hd_serve/src/worker.rt",
        "self.standing.end_unwritten(visit.rt, unwritten);", "let _ = unwritten;",
        "error[linear-value-let-go]: `unwritten` is let go where its block ends, "
        "and `UnwrittenTurn` is not `Drop`"),
)


def words_of(uses):
    """How the crates are read, from the folder of the highest."""
    kit = os.path.dirname(said_by_rt("doc"))
    below = with_all_below(CRATE, uses, [])[:-1]
    words = [f"{kit}/bin/rattle", "check", "--crate-name", CRATE, "src/main.rt"]
    of_kit = {use for crate in (*below, CRATE) for use in uses[crate] if use not in uses}
    for use in sorted({"core", "std", *of_kit}):
        words += ["--extern", f"{use}={kit}/rlibs/{use}.rlib"]
    for crate in below:
        words += ["--lib", f"{crate}:{','.join(['core', 'std', *uses[crate]])}=../{crate}/src/lib.rt"]
    words += ["-L", f"dependency={kit}/rlibs", "--antt-project", f"{kit}/rattle/logic/antt-project.json"]
    return [*words, "--logic-built", f"{kit}/logic_built", "--jobs", "1", "--only", ""]


def errors_in(crates, uses):
    """What is wrong about the crates in a folder: a line for each error."""
    done = subprocess.run(words_of(uses), cwd=crates / CRATE, stdin=subprocess.DEVNULL, text=True, check=False,
                          stdout=subprocess.PIPE, stderr=subprocess.STDOUT, timeout=SECONDS)
    errors = [line for line in done.stdout.splitlines() if "error" in line]
    if not errors or done.returncode == 0:
        raise Trouble(f"it is read with {done.returncode} and\n{done.stdout}")
    return errors


def put_in(row, crates):
    """Puts a row into its file."""
    path = crates / row.file
    text = path.read_text(encoding="utf-8")
    if text.count(row.old) != 1:
        raise Trouble(f"{row.file} doesn't have once: {row.old}")
    path.write_text(text.replace(row.old, row.new), encoding="utf-8")


def is_of(error, row):
    """Whether an error is the one that has to come of a row."""
    begin = f"../{row.file}:".removeprefix(f"../{CRATE}/")
    return error.startswith(begin) and row.error in error


def compare_rows(rows, uses):
    """Looks that these rows are refused, each by an error of its own, and that there is no other error."""
    with tempfile.TemporaryDirectory(prefix="types-") as top:
        copy_sources(with_all_below(CRATE, uses, []), top)
        for row in rows:
            put_in(row, Path(top, "crates"))
        errors = errors_in(Path(top, "crates"), uses)
    if len(errors) != len(rows) or not all(any(is_of(error, row) for error in errors) for row in rows):
        raise Trouble(f"of {[row.what for row in rows]} come {errors}")


def compare():
    """Looks at the crates as they are, and at the rows."""
    uses = uses_of_all()
    for rows in (AS_THEY_ARE, FITTING, LET_GO):
        compare_rows(rows, uses)
        for row in rows:
            print(f"types_refuse: refused: {row.what}", flush=True)


def main():
    argparse.ArgumentParser(description=__doc__, usage=argparse.SUPPRESS,
                            formatter_class=argparse.RawDescriptionHelpFormatter).parse_args()
    reported("types_refuse", compare)
    print(f"types_refuse: the types refuse {len(FITTING) + len(LET_GO)} bodies")


if __name__ == "__main__":
    main()
