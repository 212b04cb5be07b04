#!/usr/bin/env python3
"""Counts the instructions that a message takes, by valgrind's callgrind, and compares them with figures that are kept.

    python3 scripts/measure/instructions.py [PROGRAM] [--messages N] [--only WORD] [--functions N] [--most PERCENT]
                                            [--keep]

PROGRAM is crates/holddesk/out/holddesk where it isn't given; it has to be the one that make run builds, or one that
measure/optimised.py does, since callgrind can't run a program with a sanitizer. Each row is a mixed day of N messages
(20,000) that holddesk replay answers: the instructions, and the writes that miss the last cache, which are about its new
lines, of the day less those of a day with one login, so that the load is taken off. They are the same on a busy machine,
so that two builds can be compared. --functions tells also which functions the instructions of a row are of, so many of
them.

The figures that are kept, instructions.kept, are those of a program that measure/optimised.py --replay builds; those of
a proved one differ by up to 2 %. Beside each row stands by how much it differs. With --most the status is 1 where a row takes
more than so many percent more. --keep writes the figures anew. make measure builds such a program and counts. Needs
Python 3 and valgrind; without valgrind it says so, and counts nothing.
"""

import os
import re
import shutil
import subprocess
import sys
import tempfile
from pathlib import Path

sys.path.append(os.path.dirname(sys.path[0]))  # scripts/

from measure import DAY, LOGIN, library, mixed
from model.lines import checked
from server import Trouble, parser_of, reported

KEPT = Path(__file__).resolve().with_suffix(".kept")
HEAD = "# Instructions that a message takes: make measure compares with these, and instructions.py --keep writes them\n"


def sealed(messages):
    """The same messages, each with a sequence digit and its check number."""
    for place, message in enumerate(messages):
        session, text = message.rstrip("\n").split(" ", 1)
        yield f"{session} {checked(f'{text}AY{place % 10}'.encode()).decode()}\n"


def rows(count):
    """Each row: its name, its library, and its day."""
    small, large, few = library(2, 5, 3), library(10_000, 30_000, 10_000, is_even=True), library(20, 60, 10_000)
    yield "five copies", small, mixed(small, count, 0)
    yield "10,000 titles, 30,000 copies", large, mixed(large, count, 0)
    yield "the same, a tenth cancellations", large, mixed(large, count, 0.1)
    yield "20 titles, 60 copies", few, mixed(few, count, 0)
    yield "10,000 titles, 30,000 copies, sealed", large, sealed(mixed(large, count, 0))


def counted(program, catalogue, messages, folder):
    """Has callgrind run the program over the messages: how often each event was counted, and the file that says so."""
    given, told = os.path.join(folder, "input"), os.path.join(folder, "callgrind.out")
    with open(given, "w", encoding="ascii") as file:
        file.writelines(messages)
    words = ["valgrind", "--tool=callgrind", "--cache-sim=yes", f"--callgrind-out-file={told}", program, "replay",
             "--catalogue", catalogue, "--now", DAY]
    with open(given, "rb") as file:
        done = subprocess.run(words, stdin=file, stdout=subprocess.DEVNULL, stderr=subprocess.PIPE, check=False)
    if done.returncode:
        raise Trouble(f"{' '.join(words)} ends with {done.returncode} and says {done.stderr[-500:]!r}")
    with open(told, encoding="utf-8", errors="replace") as file:
        text = file.read()
    names, totals = (re.search(f"^{word}: (.*)$", text, re.M)[1].split() for word in ("events", "totals"))
    return dict(zip(names, map(int, totals))), told


def functions_in(told, most):
    """The lines of callgrind_annotate that name the functions with most instructions."""
    done = subprocess.run(["callgrind_annotate", "--show=Ir", "--threshold=100", told], capture_output=True, text=True,
                          errors="replace", check=True)
    return [line for line in done.stdout.splitlines() if re.match(r" *[\d,]+ \(", line)][1:most + 1]


def kept():
    """The figures that are kept, by row."""
    if not KEPT.exists():
        return {}
    lines = [line.rsplit(": ", 1) for line in KEPT.read_text().splitlines() if not line.startswith("#")]
    return {name: int(figure) for name, figure in lines}


def difference(now, before):
    """By how many percent a figure differs from the one that is kept, where there is one."""
    return 100 * (now - before) / before if before else 0.0


def print_table(asked):
    if not shutil.which("valgrind"):
        print("instructions: valgrind isn't here, so no instructions were counted")
        return
    before, now = kept(), {}
    print("| A mixed day | Instructions a message | Kept | Differs by | New cache lines written |\n|---|---|---|---|---|")
    with tempfile.TemporaryDirectory() as folder:
        for name, held, day in rows(asked.messages):
            if asked.only not in name:
                continue
            catalogue = held.write(os.path.join(folder, "catalogue"))
            load, _ = counted(asked.program, catalogue, [LOGIN], folder)
            whole, told = counted(asked.program, catalogue, [LOGIN, *day], folder)
            each = {event: (whole[event] - load[event]) / asked.messages for event in ("Ir", "DLmw")}
            now[name] = round(each["Ir"])
            print(f"| {name} | {now[name]:,} | {before.get(name, 0):,} | "
                  f"{difference(now[name], before.get(name)):+.1f} % | {each['DLmw']:.1f} |", flush=True)
            for line in functions_in(told, asked.functions) if asked.functions else []:
                print(line)
    if asked.keep:
        KEPT.write_text(HEAD + "".join(f"{name}: {figure}\n" for name, figure in {**before, **now}.items()))
    slower = [name for name in now if asked.most is not None and difference(now[name], before.get(name)) > asked.most]
    if slower:
        raise Trouble(f"a message takes more than {asked.most} % more instructions: {'; '.join(slower)}")


def main():
    parser = parser_of(__doc__)
    parser.add_argument("--messages", type=int, default=20_000, metavar="N", help="how many messages a day has (20000)")
    parser.add_argument("--only", default="", metavar="WORD", help="only the rows whose name has this")
    parser.add_argument("--functions", type=int, default=0, metavar="N", help="tell the N functions that take most")
    parser.add_argument("--most", type=float, metavar="PERCENT",
                        help="fail where a row takes more than so many percent more")
    parser.add_argument("--keep", action="store_true", help="keep the figures")
    reported("instructions", print_table, parser.parse_args())


if __name__ == "__main__":
    main()
