#!/usr/bin/env python3
"""Prints what each crate costs the gate, in seconds of processor time, of the figures that gate.py leaves.

    python3 scripts/measure/gate_table.py [--across N] [FILE]

FILE has the figures (out/gate.json). Those of what was proved or refused before are missing in it: so it wants a run of
gate.py --anew. With --across the table is a small one, of so many crates across:
of each its proof, with its tests' and its compilers', and behind a + all its wrong bodies. Needs Python 3.
"""

import argparse
import json
import os
import sys
from pathlib import Path

sys.path.append(os.path.dirname(sys.path[0]))  # scripts/

from kept import TOP
from prove import uses_of_all, with_all_below

TWO_CORES_BUSY = 0.98  # four checks of one job each kept two cores as busy as that
KINDS = ("proof", "must-fail", "wrong")


def print_table(rows):
    """Prints a line for each crate, and the sums."""
    print("| Crate | Source lines | Proof | `must-fail/` | `wrong/` | Wrong bodies |\n|---|---|---|---|---|---|")
    for name, row in rows.items():
        lines = sum(path.read_text(encoding="utf-8").count("\n") for path in (TOP / "crates" / name / "src").rglob("*.rt"))
        cells = [f"{row[kind]:.0f}" if kind in row else "" for kind in KINDS]
        print(f"| `{name}` | {lines} | {' | '.join(cells)} | {row.get('bodies', '')} |")


def print_cells(rows, across):
    """Prints so many crates in a line."""
    cells = []
    for name, row in rows.items():
        bodies = row.get("wrong", 0) + row.get("must-fail", 0)
        cells.append(f"`{name.removeprefix('hd_')}` {row.get('proof', 0):.0f}" + (f" + {bodies:.0f}" if bodies else ""))
    print("|" + " |" * across + "\n|" + "---|" * across)
    for at in range(0, len(cells), across):
        print("| " + " | ".join(cells[at:at + across] + [""] * (at + across - len(cells))) + " |")


def main():
    parser = argparse.ArgumentParser(description=__doc__, usage=argparse.SUPPRESS,
                                     formatter_class=argparse.RawDescriptionHelpFormatter)
    parser.add_argument("figures", nargs="?", type=Path, default=TOP / "out" / "gate.json", metavar="FILE")
    parser.add_argument("--across", type=int, metavar="N", help="print a small table, of so many crates across")
    asked, uses = parser.parse_args(), uses_of_all()
    figures = json.loads(asked.figures.read_text(encoding="utf-8"))
    rows = {name: figures["crates"].get(name, {}) for name in uses}
    if asked.across:
        print_cells(rows, asked.across)
    else:
        print_table(rows)
    sums = {kind: sum(row.get(kind, 0) for row in rows.values()) for kind in KINDS}
    beside = figures["rt ci"] - sums["proof"] - sums["must-fail"]
    everything = figures["rt ci"] + sums["wrong"]
    run = sum(rows[name].get("proof", 0) for name in with_all_below("holddesk", uses, []))
    print(f"\nProofs {sums['proof'] / 60:.0f} minutes of processor time ({run / 60:.0f} of them `holddesk` and what is below "
          f"it), `must-fail/` {sums['must-fail'] / 60:.0f}, what else `rt ci` does {beside / 60:.0f}, `wrong/` "
          f"{sums['wrong'] / 60:.0f}: in all {everything / 60:.0f}, which are {everything / 120 / TWO_CORES_BUSY:.0f} by the "
          f"clock on two cores that are as busy as {TWO_CORES_BUSY:.0%}.")


if __name__ == "__main__":
    main()
