#!/usr/bin/env python3
"""Measures what commands cost where a day or a library is large, and prints a table.

    python3 scripts/measure/measure.py [PROGRAM] [--beside PROGRAM] [--runs N] [--only WORD] [--small]

PROGRAM is crates/holddesk/out/holddesk where it isn't given. Each row is a day of messages that holddesk replay
answers, of which the cost of one kind of message is told: the processor time of the day less that of the day without
them, the least of each in so many runs (3). With --beside the same is done by a second program, by turns, and its
output is compared byte for byte. Memory is the largest that the process had. --only takes the rows whose name has the
word; --small makes them twenty times smaller, to try the script. Needs nothing but Python 3.
"""

import multiprocessing
import os
import random
import subprocess
import sys
import tempfile

sys.path.append(os.path.dirname(sys.path[0]))  # scripts/

from make.make_library import InTurn, branch, copy, password, patron, terminal, title
from server import Trouble, parser_of, reported

DAY, LATER = "20260301    100000", "20260401    100000"
LOGIN = f"1 9300CN{terminal(1)}|CO{password(1)}|\n"
CANCELS = "BIY|"


def hold(p, t, mode="+", expiry="", day=DAY, pickup=1, kind=2):
    expiry = expiry and f"BW{expiry}|"
    return f"1 15{mode}{day}{expiry}BS{branch(pickup)}|BY{kind}|AOlib|AA{patron(p)}|AJ{title(t)}|\n"


def checkout(p, c, cancels=""):
    return f"1 11NN{DAY}{DAY}AOlib|AA{patron(p)}|AB{copy(c)}|AC|{cancels}\n"


def checkin(c, day=DAY, cancels=""):
    return f"1 09N{day}{day}AP{branch(1)}|AOlib|AB{copy(c)}|AC|{cancels}\n"


def renewal(p, c):
    return f"1 29NN{DAY}{DAY}AOlib|AA{patron(p)}|AB{copy(c)}|\n"


def item(c):
    return f"1 17{DAY}AOlib|AB{copy(c)}|\n"


def account(p, summary):
    return f"1 63001{DAY}{summary:10}AOlib|AA{patron(p)}|\n"


def library(titles, copies, patrons, is_even=False, is_local=False):
    """A library whose loans are long, many and renewed as often as one likes. Titles may have local priority."""
    return InTurn(titles=titles, copies=copies, patrons=patrons, terminals=1, is_even=is_even,
                  local_percent=100 if is_local else 0, loan_days=(3650,), renewals=(99,), loan_limits=(999,))


def mixed(held, count, cancels, seed=1):
    """A day at random: a fifth each of five kinds of messages, and cancellations of recent commands among them."""
    draw, recent = random.Random(seed), []
    for _ in range(count):
        p, c = draw.randrange(held.patrons) + 1, draw.randrange(held.copies) + 1
        if recent and draw.random() < cancels:
            yield recent.pop(draw.randrange(len(recent)))
            continue
        kind = draw.randrange(5)
        t = held.title_of(c)
        yield (hold(p, t), checkout(p, c), checkin(c), renewal(p, c), item(c))[kind]
        back = (hold(p, t, "-").rstrip("\n") + CANCELS + "\n", checkin(c, cancels=CANCELS), checkout(p, c, CANCELS),
                renewal(p, c).rstrip("\n") + CANCELS + "\n", None)[kind]
        if back:
            recent.append(back)
            del recent[:-50]


def rows(size):
    """Each row: its name, its library, the day before what is measured, what is measured, and how many there are."""
    def of(count):
        return max(20, count // size)

    one = library(1, of(5_000), of(110_000))
    for count in (of(10_000), of(20_000), of(40_000), of(80_000)):
        yield (f"a hold of a title that has up to {count}", one, [], [hold(p, 1) for p in range(1, count + 1)], count)
    for count in (of(20_000), of(40_000), of(80_000)):
        queue = [hold(p, 1) for p in range(1, count + 1)]
        some = random.Random(2).sample(range(1, count + 1), of(20_000))
        for what, other in (("expiry", {"expiry": LATER}), ("pickup", {"pickup": 2}), ("kind", {"kind": 4})):
            yield (f"a change of the {what} of one of {count} holds of a title", one, queue,
                   [hold(p, 1, "*", **other) for p in some], len(some))
        yield f"the deletion of one of {count} holds of a title", one, queue, [hold(p, 1, "-") for p in some], len(some)
    lent = [checkout(p, p) for p in range(1, of(5_000) + 1)]
    waiting = [hold(p, 1, expiry="20260315    100000" if p % 10 == 0 else "")
               for p in range(of(5_000) + 1, of(105_000) + 1)]
    back = [checkin(c, LATER) for c in range(1, of(2_000) + 1)]
    yield (f"a return to one of {len(waiting)} holds, a tenth expired", one, lent + waiting, back, len(back))
    local = library(1, of(5_000), of(110_000), is_local=True)
    elsewhere = [hold(p, 1, pickup=2) for p in range(of(5_000) + 1, of(105_000) + 1)]
    few = back[:max(20, len(back) // 20)]
    yield (f"the same with local priority, no hold of {len(elsewhere)} at the branch", local, lent + elsewhere, few,
           len(few))
    behind = elsewhere[:-len(few)] + [hold(p, 1) for p in range(of(105_000) - len(few) + 1, of(105_000) + 1)]
    yield (f"the same, the last of {len(behind)} at the branch", local, lent + behind, few, len(few))

    shelf, places = library(1, of(50_000), of(100_000)), of(50_000)
    stand = [checkout(p, p) for p in range(1, places + 1)] + [hold(places + p, 1) for p in range(1, places + 1)]
    stand += [checkin(c) for c in range(1, places + 1)]
    yield (f"a checkout from a hold shelf of {places} places, from the first on", shelf, stand,
           [checkout(places + c, c) for c in range(1, places + 1)], places)
    yield ("the same, from the last on", shelf, stand, [checkout(places + c, c) for c in range(places, 0, -1)], places)

    even = library(of(100_000), of(300_000), of(100_000), is_even=True)
    first = [checkout(p, p) for p in range(1, of(20_000) + 1)]
    others = [checkout(p, p) for p in range(of(20_000) + 1, of(100_000) + 1)]
    others += [checkout(p, of(100_000) + p) for p in range(of(20_000) + 1, of(40_000) + 1)]
    undo = [checkin(c, cancels=CANCELS) for c in range(1, of(20_000) + 1)]
    yield (f"a cancellation behind {len(others)} commands of other titles", even, first + others, undo, len(undo))
    aimless = [checkin(of(200_000) + c, cancels=CANCELS) for c in range(1, of(20_000) + 1)]
    yield ("a cancellation without a target, there", even, first + others, aimless, len(aimless))
    hot = [checkout(p, p) for p in range(1, of(1_000) + 21)]
    again = [renewal(p, p) for _ in range(99) for p in range(21, of(1_000) + 21)]  # as often as a title may have it
    taken = [checkin(p, cancels=CANCELS) for p in range(1, 21)]
    yield (f"a cancellation, for each of {len(again)} later commands of its title", one, hot + again, taken,
           20 * len(again))
    yield ("a message of a mixed day, large library", even, [], list(mixed(even, of(200_000), 0)), of(200_000))
    yield ("the same, a tenth of them cancellations", even, [], list(mixed(even, of(200_000), 0.1)), of(200_000))
    large = library(of(100_000), of(300_000), of(100_000))
    yield ("a message of a mixed day, two thirds of the copies of one title", large, [],
           list(mixed(large, of(200_000), 0)), of(200_000))
    small = library(2, 5, 3)
    yield ("a message of a mixed day, five copies", small, [], list(mixed(small, of(200_000), 0)), of(200_000))
    yield ("a renewal, and what is kept of it", one, hot, again, len(again))
    yield ("a query, and what is kept of it", one, hot, [item(c) for c in range(1, 101)] * (of(200_000) // 100),
           of(200_000) // 100 * 100)
    million = library(of(1_000_000), of(1_000_000), of(1_000_000))
    yield ("reading a million titles, copies and patrons, and opening the desk", million, None, [], 1)
    has = [checkout(1, c) for c in range(1, 51)] + [hold(1, t) for t in range(1_001, 1_051)]
    has += [checkin(c) for c in range(1_001, 1_026)]
    asked = [account(1, summary) for summary in ("", "Y", " Y", "  Y", "     Y")] * (of(100_000) // 5)
    yield ("an account (63) with 50 loans and 50 holds, half of them kept, there", million, has, asked, len(asked))


def spend(words, given, out):
    """Runs a program: its status, its processor time and its memory in kilobytes. It is called in a process of its own,
    which is small, since a child's largest memory counts from that of the process that began it."""
    with open(given, "rb") as messages, open(out, "wb") as replies:
        child = subprocess.Popen(words, stdin=messages, stdout=replies)
        _, status, used = os.wait4(child.pid, 0)
    return status, used.ru_utime + used.ru_stime, used.ru_maxrss


def run(pool, program, catalogue, messages, folder):
    """Has a program answer the messages: its output, its processor time and its memory in kilobytes."""
    given, out = os.path.join(folder, "input"), os.path.join(folder, "output")
    with open(given, "w", encoding="ascii") as file:
        file.writelines(messages)
    words = [program, "replay", "--catalogue", catalogue, "--now", DAY]
    if messages[-1].startswith("1 63"):
        words.append("--patron-messages")
    status, *cost = pool.apply(spend, (words, given, out))
    if status:
        raise Trouble(f"{' '.join(words)} ended with {status}")
    with open(out, "rb") as file:
        return file.read(), *cost


def measure(pool, programs, held, before, told, runs, folder):
    """Of each program the time and the memory that the messages told take beyond those before them; beyond nothing
    where there is no day before."""
    catalogue = held.write(os.path.join(folder, "catalogue"))
    least = [[(0, 0) if before is None else (1e9, 0), (1e9, 0)] for _ in programs]
    for _ in range(runs):
        outputs = set()
        for program, best in zip(programs, least):
            if before is not None:
                best[0] = min(best[0], run(pool, program, catalogue, [LOGIN] + before, folder)[1:])
            output, *cost = run(pool, program, catalogue, [LOGIN] + (before or []) + told, folder)
            best[1] = min(best[1], tuple(cost))
            outputs.add(output)
        if len(outputs) != 1:
            raise Trouble("the two programs answer otherwise")
    return [(full[0] - base[0], full[1] - base[1]) for base, full in least]


def print_table(asked):
    """Measures what is asked for, and prints each row when it is measured."""
    programs = [asked.program] + ([asked.beside] if asked.beside else [])
    print(f"| What | {' | '.join(['Microseconds each', 'Bytes each'] * len(programs))} |")
    print("|---|" + "---|---|" * len(programs))
    with tempfile.TemporaryDirectory() as folder, multiprocessing.get_context("spawn").Pool(1) as pool:
        for name, held, before, told, count in rows(20 if asked.small else 1):
            if asked.only in name:
                costs = measure(pool, programs, held, before, told, asked.runs, folder)
                cells = (f"{seconds * 1e6 / count:.3g} | {memory * 1024 // count}" for seconds, memory in costs)
                print(f"| {name} | {' | '.join(cells)} |", flush=True)


def main():
    parser = parser_of(__doc__)
    parser.add_argument("--beside", metavar="PROGRAM", help="a second program, by turns")
    parser.add_argument("--runs", type=int, default=3, metavar="N", help="how many runs each (3)")
    parser.add_argument("--only", default="", metavar="WORD", help="only the rows whose name has this")
    parser.add_argument("--small", action="store_true", help="twenty times smaller")
    reported("measure", print_table, parser.parse_args())


if __name__ == "__main__":
    main()
