"""How wrong bodies are tried: those of a crate together, in rounds, and several crates side by side."""

import collections
import os
import re
import shutil
from concurrent.futures import ThreadPoolExecutor

from prove import CORES, GIGABYTES, MEMORY, libraries_in, with_all_below
from wrong_bodies.edits import controls_of, folder_of, put_into_copies, round_of, sound_of
from wrong_bodies.judging import CANNOT, NOT_TELLING, PROVED, REFUSED
from wrong_bodies.judging import aim, answers_for, compiles, decide, is_by_hand, last_of, learn, look, may_aim, settle, waits
from wrong_bodies.witnesses import try_by_row
from wrong_bodies.workbench import Bench

NOT_TRIED = "NOT TRIED"
# how often edits are tried together; what is open then is tried alone
ROUNDS = 3


def try_round(edits, sounds, bench):
    """Tries the edits in one check, and with them functions as they are. The edits that are still open, and can be tried
    otherwise."""
    if len(edits) == 1 and not sounds:
        edits[0].put_back()
    for edit in edits:
        edit.tries += 1
    said = bench.check([*edits, *sounds])
    if compiles(said):
        bench.in_place |= {sound.functions[0].path for sound in sounds if not learn(sound, said, bench)}
        left = [edit for edit in edits if look(edit, said, bench, len(edits) > 1)]
        for edit in left:
            edit.put_back()
        return left
    if len(edits) == 1 and not sounds:
        told = next((line for line in said.split("\n") if "error" in line), last_of(said))
        settle(edits[0], CANNOT, told[:200])
        return []
    places = {(file, int(line) - 1) for file, line in re.findall(r"^(?:\./)?(src/[^:]+):(\d+):\d+: error", said, re.M)}
    lost = [sound for sound in sounds if places & sound.places or not edits]
    for sound in lost:
        give_up(sound, bench)
    blamed = [edit for edit in edits if places & edit.places] or ([] if lost else edits)
    rest = [edit for edit in edits if edit not in blamed]
    left = [edit for one in blamed for edit in try_round([one], [], bench)]
    return left + (try_round(rest, [sound for sound in sounds if sound not in lost], bench) if rest else [])


def give_up(sound, bench):
    """Has a function as it is tried in place, where a copy doesn't compile, and else none of its goals proved."""
    bench.in_place.add(sound.functions[0].path)
    if not sound.copy:
        bench.sound |= {(sound.functions[0].path, goal, by): False for goal, by in sound.asked.items()}


def sounds_of(edits, bench):
    """The functions as they are, each to be tried at the goals that its edits are tried at, where nothing is known yet."""
    asked = {}
    for edit in edits:
        if edit.aim and edit.key() not in bench.sound and not is_by_hand(edit, bench):
            asked.setdefault(edit.functions[0].path, (edit, {}))[1].setdefault(edit.aim, edit.by)
    sounds = [sound_of(edit, goals) for edit, goals in asked.values()]
    for sound in sounds:
        function = sound.functions[0]
        if function.path in bench.in_place:
            sound.put_back()
        sound.pruned[f"{folder_of(function.path)}/Answers.antt"] = answers_for(function, bench, sound.asked)
    return sounds


def try_together(edits, bench):
    """Tries edits of a crate, as many in a check as fit together, and what is then still open alone."""
    bench.sound, bench.missing, bench.in_place = {}, set(), set()
    by_row, edits = [edit for edit in edits if edit.row], [edit for edit in edits if not edit.row]
    for edit in by_row:
        if not bench.is_over():
            try_by_row(edit, bench)
    for edit in edits:
        if edit.goal and may_aim(edit, bench):
            aim(edit, edit.goal, edit.means, bench)
    aimed = [edit for edit in edits if edit.aim and not bench.is_whole]
    put_into_copies(aimed, [edit for edit in edits if edit not in aimed])
    left = list(edits)
    while left and not bench.is_over():
        ready, sounds = [edit for edit in left if not waits(edit, bench)], sounds_of(left, bench)
        some = round_of([*sounds, *(edit for edit in ready if edit.tries < ROUNDS)]) or ready[:1]
        came = try_round([it for it in some if it in ready], [it for it in some if it not in ready], bench)
        left = [edit for edit in left if edit not in some] + came
        left = [edit for edit in left if edit.refusal is None or waits(edit, bench) or decide(edit, bench)]
    for edit in [*left, *(edit for edit in by_row if not edit.verdict)]:
        settle(edit, NOT_TRIED, "there was no time left; make wrong tries it")


def try_crate(edits, bench):
    """Tries all edits of a crate. What isn't refused is tried once more beside the bodies of all functions, but for what
    tells nothing at a goal. Where a body that means the same as the right one counts as refused, none does; by a row, none
    that has one."""
    for edit in edits:
        edit.is_beside_all = False
        if edit.misfit:
            settle(edit, CANNOT, edit.misfit)
    controls = [it for it in sound_controls_of(bench.crate) if not it.row or any(edit.row for edit in edits)]
    try_together([edit for edit in [*controls, *edits] if not edit.misfit], bench)
    left = [edit for edit in edits if edit.verdict not in (CANNOT, REFUSED, NOT_TRIED) and not edit.passed and not edit.row]
    if left:
        bench.put_bodies()
        for edit in left:
            edit.forget()
            edit.is_beside_all = True
        try_together(left, bench)
    for control in (control for control in controls if control.verdict != PROVED):
        verdict = NOT_TRIED if control.verdict == NOT_TRIED else NOT_TELLING
        for edit in (edit for edit in edits if bool(edit.row) == bool(control.row)):
            settle(edit, verdict, f"a body that means the same isn't seen to, {control.name}: {control.said}")


def sound_controls_of(crate):
    """Bodies of the crate that mean the same as the right ones, and which of them can't be put in."""
    controls = controls_of(crate)
    for control in controls:
        if control.misfit:
            settle(control, CANNOT, control.misfit)
    return controls


def over_crates(edits, uses, room, try_one):
    """What comes of a crate's edits, over a bench of the crate: several crates side by side, those with most first."""
    crates = sorted({edit.crate for edit in edits}, key=lambda name: -sum(edit.crate == name for edit in edits))
    below = with_those_below([use for crate in crates for use in uses[crate] if use in uses], uses)
    libraries = libraries_in(room, below, uses)

    def try_over(crate):
        bench = Bench(crate, uses, libraries, os.path.join(room, crate))
        came = try_one([edit for edit in edits if edit.crate == crate], bench)
        shutil.rmtree(bench.room)
        return came

    with ThreadPoolExecutor(max(1, min(CORES, int(MEMORY / GIGABYTES)))) as pool:
        return dict(zip(crates, pool.map(try_over, crates)))


def try_all(edits, uses, room, note=lambda crate: None):
    """Tries the edits, and has noted what came of each crate's. Each crate's processor seconds."""
    def seconds_of(some, bench):
        try_crate(some, bench)
        note(bench.crate)
        return bench.seconds

    return over_crates(edits, uses, room, seconds_of)


def with_those_below(crates, uses):
    """The crates and all below them, each behind those that it uses."""
    found = []
    for crate in crates:
        found = found if crate in found else with_all_below(crate, uses, found)
    return found


def refused_of(crate, edits):
    return [edit for edit in edits if edit.crate == crate and edit.verdict == REFUSED]


def said_of_all(edits):
    """Says which edits aren't refused, and how many are. Whether all are."""
    others = [edit for edit in edits if edit.verdict != REFUSED]
    for edit in others:
        print(edit)
    kinds = collections.Counter(edit.kind for edit in edits if edit.kind)
    print("tried now: " + "; ".join(f"{kind}: {count}" for kind, count in kinds.items()))
    print(f"wrong bodies: {len(edits) - len(others)} refused, {len(others)} not", flush=True)
    return not others
