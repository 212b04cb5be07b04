#!/usr/bin/env python3
"""Puts wrong bodies into copies of the crates, many at a time, and sees that the prover refuses each.

    python3 scripts/wrong_bodies [--crate NAME] [--list] [--anew] [--name-goals] [--self-test] [--controls]

A wrong body is a file crates/NAME/wrong/*.edit, of the form that rt ci reads in must-fail/: a line 'file: src/x.rt',
then pairs of lines 'old: TEXT' and 'new: TEXT'; each old text stands in that file once. A line 'goal: NAME' names the
goal at which it is refused; what a line 'also: NAME ..' has isn't proved besides, and isn't tried.

The goal is tried alone. An answer that was written for it by hand never counts by itself: it may no longer fit though
the body means the same. By what means the goal is tried stands behind its name:

    (nothing)       the tactics that the prover begins with, with the lemmas that the function names for them, or, where
                    there is an answer written by hand, with those that it names
    by its facts    the tactics, with the facts that the answer is made of; where one can't be stated with the edit, that
                    tells nothing
    by all means    all that the prover has

An edit is refused where its goal isn't proved so, and one of these holds:

    proved without the edit    the same means prove the goal in the function as it is. They are tried at it in the same
                               check, once a function and goal; by all means it is proved with its crate, where no
                               answer to it stands in proofs/, and the check sees that it is there, or, where the edit
                               adds a way out, that the same promise is there at others, and so proved at each
    false at values            the prover tells values at which the goal is false

Arithmetic, a cast, an index or a step that isn't to be come to doesn't count.

In the place of a goal there may be a line 'shows: ROW', a stored row of rows/ that has no options and ends well: two
programs of replay alone are built without proofs, one with the edit, and it is refused where a reply differs. An edit
comes to one of these:

    refused            at its goal, or at another one of the edited function where its goal is proved, or shown by its
                       row: the line says so
    PROVED             the edit means the same as what it replaces, or the contract lets it through
    NOT TELLING        it isn't proved, but neither of the two holds, or it isn't for a name that is gone, say, or the
                       function hasn't the goal, or the replies are the same
    CAN'T BE PUT IN    the old text doesn't stand there once, or the edited crate doesn't compile
    NOT TRIED          there was no time left (gate.py)

Many edits are put in together, and a check looks at the edited functions alone (rattle check --only), over the proved
libraries below. Of several edits of one function, of no trait and that doesn't call itself, all but one go into copies
of it, which stand behind the others of its file: what isn't refused there is tried again in place. --name-goals tries
all goals of edits that name none, or one that tells nothing, and writes the lines. With a crate's edits those of
crates/NAME/same/*.edit are tried, bodies that mean the same as the right ones: where one of them counts as refused, no
edit of the crate does. --controls tries all these, and rewordings of the functions whose goal has an answer written by
hand.

What was refused is noted in crates/*/wrong/refused by a sum of all that it rests on (refused.py), so that another run
tries only what changed; --anew tries all. Needs Python 3 and rt. The last line is 'wrong bodies: N refused, K not'.
Status 0: K is 0.
"""

import argparse
import os
import sys
import tempfile

sys.path.append(os.path.dirname(os.path.dirname(os.path.abspath(__file__))))  # scripts/

from prove import uses_of_all
from wrong_bodies.edits import Edit, edits_of, file_of, homes_in, read, sources_of, write
from wrong_bodies.judging import CANNOT, NOT_TELLING, PROVED, REFUSED
from wrong_bodies.refused import Grounds
from wrong_bodies.rewordings import rewordings_of
from wrong_bodies.trying import over_crates, refused_of, said_of_all, sound_controls_of, try_all, try_together

# what --self-test tries: edits of hd_day's src/day.rt, what each must come to, and the goal that it names
SELF_TEST = [
    ("another_day", REFUSED, None, "Day { number: 0 }", "Day { number: 1 }"),
    ("another_day_at_its_goal", REFUSED, "returns", "Day { number: 0 }", "Day { number: 6 }"),
    ("same_day_at_its_goal", PROVED, "returns", "Day { number: 0 }", "Day { number: 7 - 7 }"),
    ("called_by_the_next", REFUSED, None, "        if number < DAYS {", "        if number < 7 {"),
    ("means_the_same_and_calls_it", PROVED, None, "        Day::of_number(self.number.checked_add(count)?)",
     "        let later = self.number.checked_add(count)?; Day::of_number(later)"),
    ("means_the_same", PROVED, None, "        if number < DAYS {", "        if !(DAYS <= number) {"),
    ("overflow_alone", NOT_TELLING, None, "        self.number",
     "        let _ = self.number + 4_294_967_000; self.number"),
    ("does_not_compile", CANNOT, None, "Day { number: 0 }", "Day { count: 0 }"),
    ("old_text_missing", CANNOT, None, "Day { number: 7 }", "Day { number: 8 }"),
]


def name_goal(edit):
    """Writes into the edit's file at which goal it was refused, and what wasn't proved besides, where it names another."""
    if not edit.found or edit.found[::2] == (edit.goal, edit.means):
        return
    lines = [line for line in read(file_of(edit)).rstrip("\n").split("\n") if not line.startswith(("goal: ", "also: "))]
    edit.goal, others, edit.means = edit.found
    lines += [f"goal: {edit.goal} {edit.means}".rstrip(), *[f"also: {' '.join(others)}"] * bool(others)]
    edit.others = set(others)
    write(file_of(edit), "\n".join(lines) + "\n")


def self_test(uses, room):
    """Whether edits of hd_day that mean the same, don't compile and so on come to what they must."""
    homes = homes_in(sources_of("hd_day"))
    edits = [Edit("hd_day", name, [("src/day.rt", old, new)], homes, goal) for name, _, goal, old, new in SELF_TEST]
    try_all(edits, uses, room)
    return all(edit.verdict == wanted for edit, (_, wanted, *_) in zip(edits, SELF_TEST))


def controls_hold(edits, uses, room):
    """Whether no body counts as refused that means the same as a right one: those of crates/*/same, and rewordings of
    the functions at goals that these edits name and that have an answer written by hand."""
    def try_over(some, bench):
        controls = [*sound_controls_of(bench.crate), *rewordings_of(some, bench)]
        try_together([control for control in controls if not control.misfit], bench)
        return controls

    tried = [control for controls in over_crates(edits, uses, room, try_over).values() for control in controls]
    count = {verdict: sum(control.verdict == verdict for control in tried) for verdict in (PROVED, REFUSED, CANNOT)}
    print(f"wrong bodies: of {len(tried)} bodies that mean the same as the right ones {count[REFUSED]} count as refused; "
          f"{count[CANNOT]} can't be put in")
    return not count[REFUSED] and not any(control.misfit for control in tried)


def try_new(edits, uses, room, is_anew, names_goals):
    """Tries the edits, but for those that are known to be refused as they stand, and notes which are refused."""
    grounds = Grounds(uses)

    def note(crate):
        for edit in refused_of(crate, edits) if names_goals else ():
            name_goal(edit)
        grounds.note(crate, refused_of(crate, edits))

    for edit in edits:
        edit.verdict = REFUSED if not is_anew and grounds.is_known(edit) else None
    left = [edit for edit in edits if not edit.verdict]
    seconds = try_all(left, uses, room, note) if left else {}
    for crate, used in seconds.items():
        print(f"{crate}: {sum(edit.crate == crate for edit in left)} tried in {used:.0f} processor seconds")
    minutes = sum(seconds.values()) / 60
    print(f"{len(left)} tried in {minutes:.1f} processor minutes; {len(edits) - len(left)} were refused before")


def main():
    parser = argparse.ArgumentParser(description="Puts wrong bodies in, and sees that the prover refuses each.")
    parser.add_argument("--crate", help="try the wrong bodies of this crate alone")
    parser.add_argument("--list", action="store_true", help="name the wrong bodies, and the functions that they change")
    parser.add_argument("--anew", action="store_true", help="try also those that were refused before")
    parser.add_argument("--name-goals", action="store_true", help="write into edits that name no goal what refuses them")
    parser.add_argument("--self-test", action="store_true", help="see that edits that mustn't count as refused don't")
    parser.add_argument("--controls", action="store_true", help="see that bodies that mean the same don't count as refused")
    chosen, uses = parser.parse_args(), uses_of_all()
    if chosen.crate and chosen.crate not in uses:
        parser.error("no such crate in crates.txt")
    with tempfile.TemporaryDirectory(prefix="wrong-bodies-") as room:
        if chosen.self_test:
            is_well = self_test(uses, room)
            print("wrong bodies: the script tells them apart" if is_well else "wrong bodies: the script is wrong")
            return 0 if is_well else 1
        edits = [edit for crate in uses if chosen.crate in (None, crate) for edit in edits_of(crate)]
        if chosen.controls:
            return 0 if controls_hold(edits, uses, room) else 1
        if chosen.list:
            print("\n".join(f"{edit.crate}/{edit.name}: {' '.join(edit.asks())}" for edit in edits))
            return 0
        for edit in edits:
            edit.is_sought |= chosen.name_goals
        try_new(edits, uses, room, chosen.anew, chosen.name_goals)
    return 0 if said_of_all(edits) else 1


if __name__ == "__main__":
    sys.exit(main())
