"""Bodies that mean the same as the right ones, made by a script: none of them may count as refused."""

import re

from wrong_bodies.edits import Edit, homes_in, sources_of

VALUE = r"[a-z_][\w.]*(?:\(\))?|\d[\d_]*"  # a name, a field, a call without arguments, or a number
BEFORE, AFTER = r"(?<=[(\[{] )|(?<=[(\[])|(?<== )|(?<=, )|(?<=> )|(?<=return )", r"(?=[;,)\]]| [{}]|$)"
# a text of a line, and what means the same
REWORDINGS = [
    ("sum", re.compile(rf"({BEFORE})({VALUE}) \+ ({VALUE}){AFTER}"), r"\1\3 + \2"),
    ("least", re.compile(rf"({BEFORE})([a-z_][\w.]*)\.min\(([a-z_][\w.]*)\){AFTER}"), r"\1\3.min(\2)"),
    ("choice", re.compile(r"\bif ((?!let )[^{}]+) \{ ([^{}]+) \} else \{ ([^{}]+) \}"), r"if !(\1) { \3 } else { \2 }"),
    ("less", re.compile(rf"\bif ({VALUE}) < ({VALUE}) \{{"), r"if \2 > \1 {"),
    ("equal", re.compile(rf"\bif ({VALUE}) == ({VALUE}) \{{"), r"if \2 == \1 {"),
]
RESULT = re.compile(r"^( +)([\w&*][^;{}]*[^;{},\s])$")  # the last line of a body, where it is an expression by itself


def reworded(line, is_last):
    """The rewordings of a line of a body, each with its kind."""
    found = [(kind, pattern.sub(new, line, count=1)) for kind, pattern, new in REWORDINGS if pattern.search(line)]
    if is_last and RESULT.match(line) and "unreachable!" not in line:
        found.append(("let", RESULT.sub(r"\1let reworded = \2; reworded", line)))
    return found


def rewordings_of(edits, bench):
    """For each function and goal that has an answer written by hand and that an edit names, a rewording of each kind."""
    named = {(edit.functions[0].path, edit.goal): edit for edit in edits if len(edit.functions) == 1 and not edit.is_apart}
    found = []
    for (path, goal), edit in named.items():
        if goal in bench.answered_in(path):
            found += [Edit(bench.crate, f"{edit.name}, {kind}", [pair], homes_in(sources_of(bench.crate)), goal)
                      for kind, pair in pairs_of(edit.functions[0], bench.crate).items()]
    for control in found:
        control.is_control = True
    return [control for control in found if not control.misfit]


def pairs_of(function, crate):
    """Of each kind one rewording of a line of the function's body that stands once in its file."""
    lines, file = function.text.split("\n"), sources_of(crate)[function.file]
    body, pairs = [lines[at - function.lines.start] for at in function.body], {}
    for at, line in enumerate(body):
        is_alone = at == len(body) - 1 and (at == 0 or body[at - 1].endswith((";", "}")))
        for kind, new in reworded(line, is_alone) if file.count(line) == 1 else ():
            pairs.setdefault(kind, (function.file, line, new))
    return pairs
