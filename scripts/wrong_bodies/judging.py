"""What a check says of wrong bodies, and what each of them comes to by it."""

import os
import re

from wrong_bodies.answers import Hints, by_facts, by_tactics, holes_at, named_in, without_answers
from wrong_bodies.edits import BY_ALL, BY_FACTS, BY_TACTICS, folder_of, hints_of, read
from wrong_bodies.workbench import OFFERED

REFUSED, PROVED, NOT_TELLING, CANNOT = "refused", "PROVED", "NOT TELLING", "CAN'T BE PUT IN"
# why an edit is refused: the same means prove the goal in the function as it is, maybe where with the edit their search
# ends at one of its limits, or the goal is false at values
SOUND_ALONE, AT_LIMIT, AT_VALUES = "proved without the edit", "proved without the edit, left at a limit", "false at values"
# goals that say only that a step is safe, or isn't come to, and nothing of what the function does
SAFETY = re.compile(r"(overflow|cast|index|bounds|slice|div|rem|shift|neg|unwrap|expect|unreachable)(_\w+)?(-|$)")
OPEN_GOAL = re.compile(
    r"(?:note: )?(?:\./)?(src/[^:]+):(\d+):\d+: (?:it is not proved that |`search` (?=found no proof ))"
    r"(.*?) \(`([^`]+)`\)(.*)"
)
# how the line of a goal goes on that is false for some values, and what is said where a search ended at a limit
FALSE, LIMIT = "allow values at which", re.compile(r"gave up at one of its limits|stopped at its own limit|broke off")
# how a function's line goes on that isn't proved
UNPROVED = re.compile(r": (not proved|no proof|could not tell)")
# what the tactics say of a goal that they don't prove, but for one that isn't over what the function is generic in
NOT_FOUND = re.compile(r"`grind`|`omega`|`search`: no proof of `(?!\([gc] : )")
# what is said of an answer whose goal the function hasn't, and of the goals that it has
NO_GOAL = "`goal.{0}`: module `"
OWN_GOALS = "help: `Goals` has no `{0}`; rattle asks for "


class OpenGoal:
    """A goal that a check doesn't prove: where, what it says, its name, and what is said of it besides."""

    def __init__(self, found):
        self.file, line, self.what, self.name, more = found.groups()
        self.line, self.is_false, self.is_at_limit = int(line) - 1, FALSE in more, bool(LIMIT.search(more))

    def is_of(self, edit):
        return edit.is_apart or (self.file, self.line) in edit.places

    def is_of_safety(self):
        """Whether it says only that a step is safe, or that a loop ends."""
        return bool(SAFETY.match(self.name)) or self.what.startswith("the loop ends")

    def kind(self):
        """Why an edit is refused by it, if it tells."""
        return AT_VALUES if self.is_false else AT_LIMIT if self.is_at_limit else SOUND_ALONE

    def told_of(self, edit):
        """Where it stands in its file as it is, and what it says."""
        moved = edit.first_line - edit.functions[0].told.start if edit.copy else 0
        return f"{self.file}:{self.line + 1 - moved}: {self.what}"


def open_goals(edit, said):
    """The goals of the edited functions that the log doesn't see proved."""
    return [goal for goal in map(OpenGoal, filter(None, map(OPEN_GOAL.match, said.split("\n")))) if goal.is_of(edit)]


def compiles(said):
    return re.match(r"(only|logic)=", said.rstrip("\n").rpartition("\n")[2]) is not None


def is_told(edit, said):
    """Whether the log says what the edited function comes to."""
    return f"fn {edit.crate}::{edit.asks()[0]}: " in said


def errors_at(path, said):
    """What is said of the answers of a function that are refused: whether of a goal's, with its name, or of another part."""
    answers = re.escape(f"{folder_of(path)}/Answers.antt")
    found = re.findall(rf"^(?:\./)?{answers}:\d+:\d+: error: (.*(?:\n  \(.*)?)", said, re.M)
    return [" ".join(it.split()) for it in found if OFFERED not in it]


def misfit_of(path, goal, said):
    """Why what stands as the answer of a function's goal is refused, if it is."""
    of_goal = f"`{goal}`: "
    return next((it.removeprefix(of_goal) for it in errors_at(path, said) if it.startswith(of_goal)), None)


def holes_of(path, said):
    """The goals of a function that the log has with a hole as the answer."""
    answers = re.escape(f"{folder_of(path)}/Answers.antt")
    return set(re.findall(rf"^(?:\./)?{answers}:\d+:\d+: `([^`]+)` is not admitted", said, re.M))


def settle(edit, verdict, said, kind=None):
    """Notes what the edit came to, and says it. What isn't refused isn't said of one that mustn't be."""
    edit.verdict, edit.said, edit.kind = verdict, said, kind
    if not edit.is_control or verdict in (REFUSED, CANNOT):
        print(edit, flush=True)


def refuse(edit, kind, goal, said):
    """Notes that the edit is refused at this goal, and why that tells something."""
    others = (edit.others if edit.goal == goal else set()) | edit.left_open | edit.gone
    edit.found = goal, sorted(others - {goal}), edit.by
    named = "" if edit.goal in (None, goal) else f" (it names `{edit.goal}`)"
    settle(edit, REFUSED, f"{kind}: `{goal}`{named}, {said}", kind)


def promise_of(goal):
    """What a goal is about: a promise of the function, or an invariant, wherever that has to hold; None of others."""
    found = re.match(r"(returns|invariant_of-[^-]+)(?=-|$)", goal)
    return found and (found[1], goal.partition("-clause-")[2])


def learn(sound, said, bench):
    """Notes which of the goals that a function as it is was tried at are proved there, and of those that are tried by all
    means which it has, or else has the same promise at other places, each proved so. Whether it was looked at."""
    path, found, own = sound.asks()[0], is_told(sound, said), sound.functions[0].path
    is_whole = all(it.startswith(tuple(f"`{goal}`: " for goal in sound.asked)) for it in errors_at(path, said))
    holes, others = holes_of(path, said), {goal.name for goal in open_goals(sound, said)}
    for goal, by in sound.asked.items() if found or not sound.copy else ():
        like_it = {it for it in holes | others if promise_of(it) == promise_of(goal) is not None}
        is_well = goal in holes or bool(like_it) and not like_it & bench.answered_in(own)
        bench.missing |= {(own, goal)} if by == BY_ALL and found and goal not in holes | others else set()
        if by != BY_ALL:
            is_well = is_whole and goal not in others and not misfit_of(path, goal, said)
        bench.sound[own, goal, by] = found and is_well
    return found


def see_goal(edit, said):
    """Whether the goal that the edit is tried at alone isn't proved, so that the edit may be refused there; and None
    where that isn't seen."""
    path, goal = edit.asks()[0], edit.aim
    if edit.is_answered:
        misfit, errors = misfit_of(path, goal, said), errors_at(path, said)
        kind = AT_LIMIT if LIMIT.search(misfit or "") else SOUND_ALONE
        edit.refusal = misfit and (f"{place_of(edit)}: {misfit}", kind)
        is_its_own = all(it.startswith(f"`{goal}`: ") for it in errors)
        return bool(errors) if not errors or is_its_own and NOT_FOUND.match(misfit) else None
    found = next((it for it in open_goals(edit, said) if it.name == goal), None)
    edit.refusal = found and (found.told_of(edit), found.kind())
    return bool(found)


def has_no_goal(edit, said, bench):
    """Whether the edited function hasn't the goal that the edit names: where all means are tried at it, and it isn't open,
    whether it isn't there without the edit."""
    if edit.aim != edit.goal or edit.is_sought or edit.is_control:
        return False
    if edit.is_answered:
        return NO_GOAL.format(edit.aim) in (misfit_of(edit.asks()[0], edit.aim, said) or "")
    return (edit.functions[0].path, edit.aim) in bench.missing


def said_of_goals(goal, said):
    """That a function hasn't this goal, and, where the log says so, which it has."""
    has = re.search(rf"^{re.escape(OWN_GOALS.format(goal))}(.*?)(?:;|$)", said, re.M)
    return f"it names `{goal}`, which the function hasn't" + (f": name one of {has[1]}" if has else "") + \
        ", or have --name-goals try them all"


def place_of(edit):
    function = edit.functions[0]
    return f"{function.file}:{function.lines[0] + 1}"


def may_aim(edit, bench):
    """Whether the goals of what it changes can be tried alone."""
    return not edit.is_apart and len(edit.functions) == 1 and edit.functions[0].path not in bench.by_hand


def answers_for(function, bench, asked):
    """What stands in the place of a function's answers where goals are tried, each by its means: a hole where all that the
    prover has is to be tried elsewhere."""
    module = f"Rattle.{bench.crate}.{folder_of(function.path).replace('/', '.')}.Goals"
    by = {means: [goal for goal in asked if asked[goal] == means] for means in (BY_TACTICS, BY_FACTS, BY_ALL)}
    left, own = holes_at(by[BY_ALL], module), bench.answers_of(function.path)
    if by[BY_FACTS]:
        left = by_facts(own, by[BY_FACTS]) + "".join(left.split("\n", 1)[1:])
    lemmas, definitions = hints_of(function, bench.crate)
    hints = {}
    for goal in by[BY_TACTICS]:
        together, looked_into = named_in(own, goal) if goal in bench.answered_in(function.path) else ((), ())
        hints[goal] = Hints(lemmas, together, [*definitions, *looked_into])
    return by_tactics(left, hints, "g c" if function.is_generic else "c") if hints else left


def has_facts(goal, path, bench):
    """Whether the function's goal has an answer that is made of facts."""
    return goal in bench.answered_in(path) and by_facts(bench.answers_of(path), [goal]) is not None


def next_means(edit, bench):
    """By what means the edit's goal is tried where those by which it is tried don't prove it in the function as it is."""
    return BY_FACTS if edit.by == BY_TACTICS and has_facts(edit.aim, edit.functions[0].path, bench) else BY_ALL


def aim(edit, goal, by, bench):
    """Has one goal of the edit tried alone, by these means. What isn't proved besides is left open."""
    path = edit.functions[0].path
    by = BY_ALL if by == BY_FACTS and not has_facts(goal, path, bench) else by
    edit.aim, edit.by, edit.refusal = goal, by, None
    others = (bench.answered_in(path) | edit.others | edit.left_open) - {goal}
    asked = dict.fromkeys(others, BY_ALL) if by == BY_ALL else {goal: by}
    edit.pruned = {f"{folder_of(path)}/Answers.antt": answers_for(edit.functions[0], bench, asked)}
    return True


def aim_at_all(edit):
    """Has all goals of the edit tried, by the answers that there are, as far as they fit. Whether it is."""
    edit.aim, edit.by, edit.refusal, edit.pruned = None, BY_ALL, None, dict(edit.fitting)
    if edit.is_control:
        settle(edit, PROVED, "it isn't refused at its goal")
    return not edit.verdict


def is_by_hand(edit, bench):
    """Whether the goal that is tried by all means has an answer written by hand."""
    return edit.by == BY_ALL and edit.aim in bench.answered_in(edit.functions[0].path)


def waits(edit, bench):
    """Whether its goal isn't proved, and it isn't known yet whether that is so without the edit."""
    return edit.refusal is not None and edit.key() not in bench.sound


def look(edit, said, bench, is_with_others):
    """Notes what the log says of an edit. Whether there is more to try."""
    if edit.aim is None:
        return look_at_all(edit, said, bench, is_with_others)
    is_open = see_goal(edit, said)
    if is_open:
        return decide(edit, bench)
    if has_no_goal(edit, said, bench):
        settle(edit, NOT_TELLING, said_of_goals(edit.aim, said))
        return False
    if is_open is None:  # the tactics can't be tried at it as it stands
        return aim(edit, edit.aim, next_means(edit, bench), bench)
    return edit.copy and not is_told(edit, said) or aim_at_all(edit)


def decide(edit, bench):
    """Settles what an edit comes to whose goal isn't proved, once it is known whether it is without the edit. Whether
    there is more to try."""
    said, kind = edit.refusal
    if kind == AT_VALUES:
        refuse(edit, kind, edit.aim, said)
    elif is_by_hand(edit, bench):
        return pass_over(edit, "its proof is written by hand", bench)
    elif bench.sound.get(edit.key()):
        refuse(edit, kind, edit.aim, said)
    elif edit.key() in bench.sound and edit.is_answered:
        return aim(edit, edit.aim, next_means(edit, bench), bench)
    elif edit.key() in bench.sound:
        return pass_over(edit, "the function has no such goal as it is", bench)
    return not edit.verdict


def pass_over(edit, why, bench):
    """Goes on to another goal of an edit, where it names none, or goals are looked for. Whether there is one."""
    edit.passed.add(edit.aim)
    edit.said = f"`{edit.aim}` isn't proved, which tells nothing: {why}"
    edit.hopes = [hope for hope in edit.hopes if hope[0] not in edit.passed]
    if edit.hopes:
        return aim(edit, *edit.hopes[0], bench)
    if edit.is_sought or edit.is_control:
        return aim_at_all(edit)
    settle(edit, NOT_TELLING, edit.said)
    return False


def look_at_all(edit, said, bench, is_with_others):
    """Notes what the log says of an edit all of whose goals are tried: which of them may tell, or that all are proved.
    Whether there is more to try."""
    goals = open_goals(edit, said)
    edit.left_open |= {goal.name for goal in goals}
    errors = re.findall(r"^(?:\./)?((?:src|proofs)/\S+: error.*)", said, re.M)
    errors = [line for line in errors if line.startswith(tuple(folders_of(edit))) and OFFERED not in line]
    answered = set().union(*(bench.answered_in(function.path) for function in edit.functions))
    telling = [goal for goal in goals if not goal.is_of_safety() and goal.name not in edit.passed]
    telling = [goal for goal in telling if goal.is_false or goal.name not in answered]
    telling.sort(key=lambda goal: (not goal.is_false, goal.is_at_limit))
    if telling and may_aim(edit, bench):
        edit.hopes = [(goal.name, BY_ALL if goal.name in answered else BY_TACTICS) for goal in telling]
        return aim(edit, *edit.hopes[0], bench)
    if telling:
        refuse(edit, telling[0].kind(), telling[0].name, telling[0].told_of(edit))
    elif not goals and not errors and are_proved(edit, bench):
        settle(edit, PROVED, "it means the same as what it replaces, or the contract lets it through")
    elif not prune(edit, said, bench) and not is_with_others:
        told = [f"`{goal.name}` alone, {goal.told_of(edit)}" for goal in goals if goal.name not in edit.passed]
        settle(edit, NOT_TELLING, next(iter([*told, *filter(None, [edit.said]), *errors, last_of(said)]))[:300])
    return not edit.verdict


def last_of(said):
    return said.rstrip().rpartition("\n")[2]


def are_proved(edit, bench):
    """Whether a check of the edit alone says that the edited functions are proved, as far as holes tell."""
    said = bench.check([edit], is_short=False)
    told = [line for line in said.split("\n") if line.startswith(f"fn {bench.crate}::")]
    if not edit.is_apart:
        paths = tuple(f"fn {bench.crate}::{function.path}: " for function in edit.functions)
        told = [line for line in told if line.startswith(paths)]
    are_told = edit.is_apart or len(told) == len(edit.functions) > 0
    return compiles(said) and are_told and not any(UNPROVED.search(line) for line in told)


def folders_of(edit):
    """The folders of proofs/ that are of the edited functions."""
    return ["proofs/"] if edit.is_apart else [folder_of(function.path) + "/" for function in edit.functions]


def prune(edit, said, bench):
    """Takes out of the edited functions' proof files the answers that the log refuses. Whether there were any more."""
    folders, before = folders_of(edit), dict(edit.fitting)
    errors = re.findall(r"^(?:\./)?(proofs/\S+/Answers\.antt):(\d+):\d+: error: (.*)", said, re.M)
    errors = [it for it in errors if it[0].startswith(tuple(folders)) and OFFERED not in it[2]]
    for file in {file for file, _, _ in errors}:
        text = edit.fitting[file] if file in edit.fitting else read(os.path.join(bench.top, file))
        edit.fitting[file], gone = without_answers(text, {int(line) - 1 for other, line, _ in errors if other == file})
        edit.gone |= gone
    edit.pruned = dict(edit.fitting)
    return edit.fitting != before
