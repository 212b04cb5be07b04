#!/usr/bin/env python3
"""Sees that what is noted of a refused wrong body counts no more once something changes that the refusal rests on.

    python3 scripts/wrong_bodies/refused_sums.py

A copy of some crates and of the scripts is changed in one place at a time, and the sum is asked for that refused.py has
of a wrong body of hd_date, `leap_day_of_1896_refused`, and of one that is shown by a row. A link among what a proof reads
has to end the script that asks. A wrong body that was refused has to be missed where its edit is gone, or has another text
that isn't refused. And each crate is due once in ten days. Nothing is proved. Needs Python 3 and rt. Status 0: the sum is
another one after each change that matters, and the same after each other one, and so is the rest.
"""

import argparse
import os
import shutil
import subprocess
import sys
import tempfile
from datetime import date, timedelta

sys.path.append(os.path.dirname(sys.path[0]))  # scripts/

from kept import TOP
from prove import uses_of_all
from server import Trouble, reported
from wrong_bodies.edits import read, write
from wrong_bodies.refused import DAYS, is_due

CRATES = {"hd_day": "", "hd_date": "hd_day jiff_core", "hd_replay": "hd_date"}
# prints what there is to note of a wrong body, by itself or beside the bodies of all functions
ASKS = """
from prove import uses_of_all
from wrong_bodies.edits import edits_of
from wrong_bodies.refused import Grounds
edit = next(edit for edit in edits_of("hd_date") if edit.name == "{name}")
print("it can't be put in" if edit.misfit else Grounds(uses_of_all()).sum_of(edit, {is_beside_all}))
"""
# prints which wrong bodies of the crate are missed, where none is refused now
MISSES = """
from wrong_bodies.edits import edits_of
from wrong_bodies.refused import lost_of
print(*(line.partition(":")[0] for line in lost_of(["hd_date"], edits_of("hd_date"), [])))
"""
# notes all wrong bodies of the crate as refused
NOTES = """
from prove import uses_of_all
from wrong_bodies.edits import edits_of
from wrong_bodies.refused import Grounds
edits = edits_of("hd_date")
Grounds(uses_of_all()).note("hd_date", edits)
"""
DATE, DAY = "crates/hd_date/", "crates/hd_day/"
CALENDAR, EDIT, NOTED = DATE + "src/calendar.rt", DATE + "wrong/leap_day_of_1896_refused.edit", DATE + "wrong/refused"
MORE = "\nmore : Type\n"
# what is changed: the file, which is made where it isn't there, a text that stands there once, or none, and what then
# stands there, or behind the others; and whether it matters
CHANGES = [
    ("the function's body", CALENDAR, "Err(_) => None", "Err(_) => Option::None", True),
    ("a clause of it, made weaker", CALENDAR, "IfSome result (IsCalendarDay year month day)",
     "IfSome result (λ day. day < end_of_days)", True),
    ("its proof", DATE + "proofs/calendar/day_of/Answers.antt", "", MORE, True),
    ("what another function promises", DATE + "src/offset.rt", "value { result ≡ self }", "value { self ≡ result }", True),
    ("another function's body", CALENDAR, "date.month, date.day)", "date.month, { date.day })", False),
    ("another function's proof", DATE + "proofs/calendar/date_of/Answers.antt", "", MORE, False),
    ("a constant", CALENDAR, "3_652_059", "3_652_060", True),
    ("a lemma", DATE + "proofs/DayLemmas.antt", "", MORE, True),
    ("a lemma in a module that is named as a proof's", DATE + "proofs/shared/Answers.antt", "", MORE, True),
    ("a definition", DATE + "specs/Offset.antt", "", MORE, True),
    ("a remark", CALENDAR, "", "\n// A remark.\n", False),
    ("a remark in its proof", DATE + "proofs/calendar/day_of/Answers.antt", "", "\n-- A remark.\n", False),
    ("a remark of a lemma", DATE + "proofs/DayLemmas.antt", "", "\n  -- A remark.\n--\n", False),
    ("what isn't one of a lemma, since it begins with a sign", DATE + "proofs/DayLemmas.antt", "", "  --> more\n", True),
    ("a remark of a definition below", DAY + "specs/Days.antt", "", "\n-- A remark.\n\n", False),
    ("a promise below", DAY + "src/day.rt", "ensures { result ≡ 0 }", "ensures { 0 ≡ result }", True),
    ("a definition below", DAY + "specs/Days.antt", "", MORE, True),
    ("a lemma below, named so", DAY + "proofs/Invariants.antt", "", MORE, True),
    ("a proof below", DAY + "proofs/day/Day/of_number/Answers.antt", "", MORE, False),
    ("a body below", DAY + "src/day.rt", "Day { number: 0 }", "Day { number: 1 - 1 }", False),
    ("what is put in", EDIT, "1896", "1892", True),
    ("how its goal is tried", EDIT, "clause-none", "clause-none by all means", True),
    ("what isn't proved besides", EDIT, "also: ", "also: returns ", True),
    ("a body that is tried with it", DATE + "same/no_day.edit", "",
     "file: src/calendar.rt\nold: Err(_) => None\nnew: Err(_) => Option::None\ngoal: returns\n", True),
    ("what it is put in the place of", CALENDAR, "match Date::new(year", "match Date::new( year", True),
    ("how it is tried", "scripts/wrong_bodies/workbench.py", '= "no_offers"', '= "none"', True),
    ("what is said of that", "scripts/wrong_bodies/workbench.py", "the processor seconds that this took.", "its seconds.",
     False),
    ("how what is below is proved", "scripts/prove.py", "GIGABYTES = 4", "GIGABYTES = 5", True),
    ("by what sums it is kept", "scripts/kept.py", "OLDER = 2", "OLDER = 3", True),
    ("how replies are compared", "scripts/wrong_bodies/witnesses.py", "if one != other", "if one == other", False),
    ("how a sum is made", "scripts/wrong_bodies/refused.py", "[:32]", "[:31] + 'x'", True),
    ("which the gate tries", "scripts/gate.py", "if edit.is_noted and edit.crate not in due:", "if edit.is_noted:", True),
    ("what the gate counts beside that", "scripts/gate.py", "self.look()\n            time", "time", False),
]
# a wrong body that is shown by a row, and the same of it
BY_ROW, ROW = DATE + "wrong/by_row.edit", "hold-and-cancellation"
SHOWS = f"file: src/calendar.rt\nold: Err(_) => None\nnew: Err(_) => Some(Day::first())\nshows: {ROW}\n"
CHANGES_BY_ROW = [
    ("a body below", DAY + "src/day.rt", "Day { number: 0 }", "Day { number: 1 - 1 }", True),
    ("a body above", "crates/hd_replay/src/replaying.rt", "65_536", "65_537", True),
    ("a remark below", DAY + "src/day.rt", "", "\n// A remark.\n", False),
    ("a definition", DATE + "specs/Offset.antt", "", MORE, False),
    ("its proof", DATE + "proofs/calendar/day_of/Answers.antt", "", MORE, False),
    ("what is put in", BY_ROW, "Day::first()", "Day::last()", True),
    ("its row", f"rows/{ROW}.row", "", "> 1 97\n", True),
    ("its catalogue", "rows/demonstration.catalogue", "", "B|south\n", True),
    ("a body that is tried with it", DATE + "same/by_row.edit", "", SHOWS.replace("None", "Option::None"), True),
    ("how the program is built", "scripts/measure/optimised.py", "SMALL = 100_000", "SMALL = 100_001", True),
    ("how replies are compared", "scripts/wrong_bodies/witnesses.py", "if one != other", "if one == other", True),
    ("how a goal is tried", "scripts/wrong_bodies/trying.py", "ROUNDS = 3", "ROUNDS = 4", False),
]
LINKS = ("specs/Linked", "proofs/linked", "src/linked")  # where a link may stand, to a folder elsewhere


def said_in(copy, asks):
    """What a script says over the copy."""
    done = subprocess.run([sys.executable, "-c", asks], cwd=os.path.join(copy, "scripts"), capture_output=True, text=True,
                          check=False)
    if done.returncode:
        raise Trouble(f"no sum is told:\n{done.stderr}")
    return done.stdout


def noted_in(copy, is_beside_all=False, name="leap_day_of_1896_refused"):
    """What there is to note over the copy."""
    return said_in(copy, ASKS.format(is_beside_all=is_beside_all, name=name))


def noted_after(copy, change, *asked):
    """The same after a change, which is undone again."""
    name, file, old, new, _ = change
    path = os.path.join(copy, file)
    is_there = os.path.isfile(path)
    text = read(path) if is_there else ""
    if old and text.count(old) != 1:
        raise Trouble(f"{name}: the text to change stands in {file} {text.count(old)} times")
    os.makedirs(os.path.dirname(path), exist_ok=True)
    write(path, text.replace(old, new) if old else text + new)
    found = noted_in(copy, *asked)
    if is_there:
        write(path, text)
    else:
        os.remove(path)
    return found


def compare_sums(copy):
    """Looks at what is noted after each change; beside the bodies of all functions each one in the crate matters,
    but for remarks."""
    for is_beside_all in (False, True):
        before = noted_in(copy, is_beside_all)
        for change in CHANGES:
            name, file, *_, matters = change
            matters |= is_beside_all and file.startswith(DATE) and "remark" not in name
            look_at(copy, change, before, matters, is_beside_all)
    before = noted_in(copy, False, "by_row")
    for change in CHANGES_BY_ROW:
        look_at(copy, change, before, change[-1], False, "by_row")


def look_at(copy, change, before, matters, *asked):
    """Looks that a change makes another sum where it matters, and else none."""
    if (noted_after(copy, change, *asked) != before) != matters:
        raise Trouble(f"{change[0]} is changed, and the sum is {'the same' if matters else 'another one'}")


def refuse_links(copy):
    """Looks that a link among what a proof reads, of the crate or below it, is told, and that no sum is made then."""
    for crate in CRATES:
        for place in LINKS:
            link = os.path.join(copy, "crates", crate, place)
            os.makedirs(os.path.dirname(link), exist_ok=True)
            os.symlink(copy, link)
            try:
                noted_in(copy)
            except Trouble as trouble:
                if f"crates/{crate}/{place} is a link" not in str(trouble):
                    raise
            else:
                raise Trouble(f"{place} of {crate} is a link, and that isn't told")
            os.remove(link)


def miss_the_lost(copy):
    """Looks that a wrong body that was refused is missed where its edit is gone, or has another text, until its line is
    deleted, and no other; and that to note others doesn't take its line away."""
    edit, text, name = os.path.join(copy, EDIT), read(os.path.join(copy, EDIT)), "hd_date/leap_day_of_1896_refused\n"
    said_in(copy, NOTES)
    before = said_in(copy, MISSES)
    write(edit, text.replace("1896", "1892"))
    reworded = said_in(copy, MISSES)
    os.remove(edit)
    gone = said_in(copy, MISSES)
    said_in(copy, NOTES)
    still_gone = said_in(copy, MISSES)
    noted = read(os.path.join(copy, NOTED)).splitlines(True)
    write(os.path.join(copy, NOTED), "".join(line for line in noted if not line.startswith("leap_day_of_1896_refused ")))
    if (before, reworded, gone, still_gone, said_in(copy, MISSES)) != ("\n", name, name, name, "\n"):
        raise Trouble(f"missed are {before!r}, {reworded!r} with another text, {gone!r}, {still_gone!r} where it is gone")


def come_again():
    """Looks that each crate is due on one of ten days, whichever."""
    days = [date(2026, 11, 26) + timedelta(days=later) for later in range(DAYS)]
    for crate in uses_of_all():
        if sum(is_due(crate, day) for day in days) != 1:
            raise Trouble(f"{crate} isn't due once in {DAYS} days")


def compare():
    come_again()
    with tempfile.TemporaryDirectory() as copy:
        for folder in ("scripts", *(os.path.join("crates", name) for name in CRATES)):
            shutil.copytree(os.path.join(TOP, folder), os.path.join(copy, folder), ignore=shutil.ignore_patterns("out"))
        write(os.path.join(copy, "crates.txt"), "".join(f"{name}: {uses}\n" for name, uses in CRATES.items()))
        shutil.copytree(TOP / "rows", os.path.join(copy, "rows"))
        write(os.path.join(copy, BY_ROW), SHOWS)
        compare_sums(copy)
        os.remove(os.path.join(copy, BY_ROW))
        refuse_links(copy)
        miss_the_lost(copy)


def main():
    argparse.ArgumentParser(description=__doc__, usage=argparse.SUPPRESS,
                            formatter_class=argparse.RawDescriptionHelpFormatter).parse_args()
    reported("refused_sums", compare)
    count = len(CHANGES) + len(CHANGES_BY_ROW)
    print(f"refused_sums: of {count} changes those that matter make another sum, and the others don't; links and lost wrong "
          "bodies are told")


if __name__ == "__main__":
    main()
