"""Mistakes put into copies of the model of scripts/model, each by a text that stands once in one of its files.

No script of its own: at_random.py looks whether its scripts see each of them. Python 3.
"""

import importlib
import os
import shutil
import sys
import tempfile
from collections import namedtuple

MODEL = os.path.join(os.path.dirname(os.path.dirname(os.path.abspath(__file__))), "model")

Mistake = namedtuple("Mistake", "name file old new")

MISTAKES = (
    Mistake("a hold is given no copy on its last day", "desk.py", "hold.expiry < day", "hold.expiry <= day"),
    Mistake("a hold past its last day is given a copy", "desk.py", "hold.expiry < day", "False"),
    Mistake("the newest hold comes first", "desk.py", "return min(candidates", "return max(candidates"),
    Mistake("local priority goes by the copy's home", "desk.py", "if hold.pickup == branch]",
            "if hold.pickup == catalogue.home_of(copy)]"),
    Mistake("places are never used again", "desk.py", "while number in taken", "while number <= max(taken, default=0)"),
    Mistake("there is room at the limit", "desk.py", "len(desk.loans_of(patron)) <", "len(desk.loans_of(patron)) <="),
    Mistake("a hold that is kept isn't counted in positions", "desk.py", "if hold.stamp < stamp)",
            "if hold.stamp < stamp and hold.copy is None)"),
    Mistake("a checkout doesn't ask for room", "commands.py", 'if not self.ask("room", asked.patron):',
            'if not answer(("room", asked.patron), self.desk):'),
    Mistake("an add doesn't ask for its position", "commands.py", 'self.ask("position", asked.title, self.number)',
            'answer(("position", asked.title, self.number), self.desk)'),
    Mistake("settling doesn't ask for the choice", "commands.py", 'first = self.ask("choice", copy, branch, day)',
            'first = answer(("choice", copy, branch, day), self.desk)'),
    Mistake("a copy that is kept takes a new place", "commands.py",
            'self.ask("place", branch) if standing is None else standing', 'self.ask("place", branch)'),
    Mistake("an off-line checkout leaves a hold that waits", "commands.py",
            "if hold.copy == asked.copy or is_filled:", "if hold.copy == asked.copy:"),
    Mistake("a change puts a hold last", "commands.py", "new = hold._replace(",
            "new = hold._replace(stamp=self.number, "),
    Mistake("the oldest command is cancelled", "turns.py", "return targets[-1]", "return targets[0]"),
    Mistake("another terminal's command is cancelled", "turns.py",
            "(it.terminal, it.code, subject_of(it.command)) == wanted",
            "(it.code, subject_of(it.command)) == wanted[1:]"),
    Mistake("no survivor depends", "turns.py", "if survivor.number > target.number:", "if False:"),
    Mistake("every later survivor depends", "turns.py",
            "any(answer(question, desk) != answer(question, without) for question in questions)", "True"),
    Mistake("a cancelled number is given again", "turns.py", '        return "cancelled", target.number',
            '        self.last = max((it.number for it in self.survivors), default=0)\n'
            '        return "cancelled", target.number'),
    Mistake("a line without a digit leaves the kept one", "turns.py", "self.kept.pop(terminal, None)", "pass"),
    Mistake("a login that isn't taken ends the one before", "sessions.py", 'return b"940"\n        session.terminal',
            'session.terminal = None\n            return b"940"\n        session.terminal'),
    Mistake("of a repeated field the last counts", "lines.py",
            "fields.setdefault(identifier, part[start:end])", "fields[identifier] = part[start:end]"),
    Mistake("a copy due on the day is overdue", "kiosks.py", ".due < day]", ".due <= day]"),
    Mistake("a list has no end", "kiosks.py", "len(reply) + len(item) > LONGEST_REPLY", "False"),
    Mistake("a name of a catalogue may be defined twice", "files.py", 'refuse(b"DOUBLE", values[1] in table)', "pass"),
)


def with_mistake(mistake, folder, number):
    """The module replay of a copy of the model with a mistake in it; the copy is put into a folder."""
    package = f"model_with_mistake_{number}"
    copy = shutil.copytree(MODEL, os.path.join(folder, package), ignore=shutil.ignore_patterns("__pycache__"))
    path = os.path.join(copy, mistake.file)
    with open(path, encoding="utf-8") as file:
        text = file.read()
    if text.count(mistake.old) != 1:
        raise ValueError(f"{mistake.old!r} stands {text.count(mistake.old)} times in {mistake.file}")
    with open(path, "w", encoding="utf-8") as file:
        file.write(text.replace(mistake.old, mistake.new))
    return importlib.import_module(f"{package}.replay")


def models_with_mistakes():
    """Each mistake with the module replay that has it."""
    with tempfile.TemporaryDirectory() as folder:
        sys.path.insert(0, folder)
        try:
            return [(it, with_mistake(it, folder, number)) for number, it in enumerate(MISTAKES)]
        finally:
            sys.path.remove(folder)
