"""The turn machine: numbers, repeats, and cancellations by their definition (docs/desk-rules.md, "Numbers, cancellation
and dependence"; docs/protocol.md, "Cancellations" and "Repeats").

Written apart from the program, and naive on purpose: a cancellation runs all survivors from the opening desk, with its
target and without it, and compares the answers to each question of each later one.
"""

from collections import namedtuple

from .commands import Add, Change, Delete, Step
from .desk import answer

# A survivor's code is that of its message, with the mode of a 15.
Survivor = namedtuple("Survivor", "number terminal code command told")
Cancellation = namedtuple("Cancellation", "code subject")

CANCELLED_BY = {b"09": b"11", b"11": b"09", b"29": b"29", b"15+": b"15-", b"15-": b"15+", b"15*": b"15*"}


def subject_of(command):
    """What a cancellation of a command names: a copy, or a patron and a title."""
    is_of_hold = isinstance(command, (Add, Delete, Change))
    return (command.patron, command.title) if is_of_hold else command.copy


def run(survivor, desk):
    """Carries a survivor out on a desk, and gives the step."""
    step = Step(survivor.number, False, survivor.command, desk)
    step.carry_out()
    return step


class TurnMachine:
    """The journal and its desk. An outcome is ("done", what is told), ("cancelled", number) or ("refused", text)."""

    def __init__(self, desk, last):
        self.opening, self.desk = desk, desk.twin()
        self.survivors, self.last, self.limit = [], last, last + desk.catalogue.limit
        self.kept = {}  # by terminal: the line of its last changing message, and the outcome

    def change(self, terminal, code, ask, line):
        """A command or a cancellation; its line where that has a sequence digit, else None."""
        if line is not None and terminal in self.kept and self.kept[terminal][0] == line:
            return self.kept[terminal][1]
        outcome = self.cancel(terminal, ask) if isinstance(ask, Cancellation) else self.command(terminal, code, ask)
        self.kept.pop(terminal, None)
        if line is not None:
            self.kept[terminal] = (line, outcome)
        return outcome

    def command(self, terminal, code, command):
        number = self.last + 1
        step = Step(number, number > self.limit, command, self.desk)
        if step.refusal is not None:
            return "refused", step.refusal
        step.carry_out()
        self.last = number
        self.survivors.append(Survivor(number, terminal, code, command, step.told))
        return "done", step.told

    def target_of(self, terminal, cancellation):
        """The newest survivor that a cancellation may mean, or None."""
        wanted = terminal, CANCELLED_BY[cancellation.code], cancellation.subject
        targets = [it for it in self.survivors if (it.terminal, it.code, subject_of(it.command)) == wanted]
        return targets[-1] if targets else None

    def first_dependent(self, target):
        """The first later survivor of whose questions one is answered otherwise without the target, or None."""
        desk, without = self.opening.twin(), self.opening.twin()
        for survivor in self.survivors:
            if survivor.number > target.number:
                questions = Step(survivor.number, False, survivor.command, desk).questions
                if any(answer(question, desk) != answer(question, without) for question in questions):
                    return survivor
            run(survivor, desk)
            if survivor is not target:
                run(survivor, without)
        return None

    def cancel(self, terminal, cancellation):
        target = self.target_of(terminal, cancellation)
        if target is None:
            return "refused", b"NOTHING TO CANCEL"
        dependent = self.first_dependent(target)
        if dependent is not None:
            return "refused", b"DEPENDS %d" % dependent.number
        self.survivors = [it for it in self.survivors if it is not target]
        self.desk = self.opening.twin()
        for survivor in self.survivors:
            assert run(survivor, self.desk).told == survivor.told, "a surviving reply doesn't stand"
        return "cancelled", target.number
