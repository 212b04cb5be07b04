"""What one run of replay is given, drawn at random: by its number, and by what it is to look at."""

import hashlib
import random
from collections import namedtuple

from drawn.library import DIGEST, Library, few_of_all, full_shelves, long_lists, whole_library
from drawn.script import COMMANDS, Script
from model.replay import Given

NOW = b"20260301    120000"
EDGES = (b"20260301   Z233000", b"00000101    000000", b"99991231    235959", b"00000101   Z000000",
         b"99991231   Z235900")

# The lines of the files and of the input, or None where there is no such file. An opening has no digest yet.
Case = namedtuple("Case", "catalogue now script patron_messages sorter_fields patrons opening")


def text_of(lines):
    return None if lines is None else b"".join(line + b"\n" for line in lines)


def given_by(case):
    """What replay is given beside its input."""
    catalogue, opening = text_of(case.catalogue), text_of(case.opening)
    if opening is not None:
        opening = opening.replace(DIGEST, hashlib.sha256(catalogue).hexdigest().encode())
    return Given(catalogue, case.now, case.patron_messages, case.sorter_fields, text_of(case.patrons), opening)


def case_of(draw, library, has_options=False, has_opening=False):
    """A case of a library, whose script is still empty."""
    patron_messages, sorter_fields = has_options and draw.random() < 0.7, has_options and draw.random() < 0.5
    patrons = list(library.patrons_file()) if patron_messages and draw.random() < 0.6 else None
    opening = library.opening() if has_opening and library.branches else None
    now = draw.choice(EDGES) if draw.random() < 0.03 else NOW
    return Case(list(library.catalogue()), now, [], patron_messages, sorter_fields, patrons, opening)


def mixed(draw, has_options=None, has_opening=None, lengths=(10, 30, 60, 100, 200, 300)):
    """All kinds of messages, with options and an opening or without."""
    library = Library(draw)
    case = case_of(draw, library, draw.random() < 0.4 if has_options is None else has_options,
                   draw.random() < 0.15 if has_opening is None else has_opening)
    script = Script(draw, library, given_by(case))
    for session in sorted(set(script.sessions)):
        if library.terminals and draw.random() < 0.97:
            script.send(session, script.messages.login())
    oddness = script.messages.oddness
    script.play(draw.choice(lengths), {
        script.likely_command: 50, script.likely_cancellation: draw.choice((6, 12, 25)), script.any_command: 13,
        script.item: 6, script.again: 6, script.resend: 3, script.login: 1, script.damaged: 60 * oddness,
        script.strange: 40 * oddness, script.of_patron: 20 if case.patron_messages else 1})
    script.ask_for_all()
    return case._replace(script=script.lines)


def standard(draw):
    return mixed(draw, False, False)


def options(draw):
    return mixed(draw, True, False)


def opening(draw):
    return mixed(draw, False, True)


def undo(draw):
    """Sensible commands at a small desk, and very many cancellations of them."""
    library, shape = whole_library(draw), draw.random()
    if shape < 0.65:
        (few_of_all if shape < 0.3 else full_shelves)(library)
    case = case_of(draw, library, False, draw.random() < 0.2)
    script = Script(draw, library, given_by(case))
    script.messages.oddness = script.messages.edges = 0
    script.messages.guarded = draw.choice((0, 0, 0.2))
    script.sessions = draw.choice(([1], [1, 2], [1, 1, 1, 2]))
    script.weights = {code: draw.choice((0, 1, 1, 2, 4)) for code in COMMANDS}
    script.log_in_all()
    script.play(draw.choice((20, 60, 120, 200)), {
        script.likely_command: 50, script.likely_cancellation: draw.choice((5, 15, 30, 50)), script.any_command: 3,
        script.item: 3, script.again: 20 * script.messages.guarded})
    script.ask_for_all()
    return case._replace(script=script.lines)


def repeats(draw):
    """Terminals of two sessions each, whose lines mostly carry a sequence digit, and are often sent again."""
    library = whole_library(draw)
    library.limit = draw.choice((library.limit, 1000, 1000, 1000, draw.choice((1, 3, 8))))
    case = case_of(draw, library)._replace(patron_messages=draw.random() < 0.3)
    script = Script(draw, library, given_by(case))
    script.messages.oddness = script.messages.edges = 0
    script.messages.guarded = draw.choice((0.6, 0.9, 1))
    script.sessions = [1, 2, 3, 4]
    library.terminals = dict(list(library.terminals.items())[:2])
    script.log_in_all()
    script.play(draw.choice((30, 80, 150)), {
        script.likely_command: 30, script.likely_cancellation: 10, script.again: 25, script.again_behind_another: 10,
        script.item: 12, script.resend: 8, script.login: 2, script.of_patron: 5})
    script.ask_for_all()
    return case._replace(script=script.lines)


def lists(draw):
    """Patrons with many loans and holds of long names, and questions about them."""
    library = whole_library(draw)
    long_lists(library)
    case = case_of(draw, library, True, draw.random() < 0.8)._replace(patron_messages=True)
    if case.opening and draw.random() < 0.3:  # nearly all is on loan to one
        holds = [line for line in case.opening if line[:1] in (b"H", b"R")]
        patron, due = draw.choice(list(library.patrons)), draw.choice((b"20260228", b"20260301"))
        case = case._replace(opening=holds + [b"L|%s|%s|%s|0" % (copy, patron, due) for copy in library.copies])
    script = Script(draw, library, given_by(case))
    script.log_in_all()
    script.play(draw.choice((5, 40, 80)), {script.likely_command: 5, script.likely_cancellation: 1, script.of_patron: 3,
                                           script.item: 1})
    script.play(len(script.lines) + draw.choice((10, 30, 60)), {script.of_patron: 1})
    return case._replace(script=script.lines)


def files(draw):
    """A file with a fault or some, or none."""
    case = mixed(draw, True, draw.random() < 0.5, (10, 20))
    name = draw.choice([name for name in ("catalogue", "patrons", "opening") if getattr(case, name) is not None])
    return case._replace(**{name: spoiled(draw, getattr(case, name))})


# Values that are none, or at a limit, or belong elsewhere; and such lines.
VALUES = (b"", b"0", b"01", b"-1", b"1", b"x" * 60, b"x" * 61, b"\x7f", b"\x80", b"\x1f", b" ", b"3650", b"3651", b"99",
          b"100", b"999", b"1000", b"1439", b"1440", b"-1440", b"-0", b"L", b"N", b"\r", b"20260301", b"20260230",
          b"1000001", b"1000002", b"4294967296", b"18446744073709551616", b"1" * 1024, b"any", b"copy", b"branch")
LINES = (b"", b"|", b"H", b"Z|a", b"B", b"B|", b"P|p1|1", b"C|c1|ta|north", b"\r", b"R", b"K|a")


def spoiled(draw, lines):
    """The lines of a file with one to three faults."""
    lines = list(lines)
    for _ in range(draw.choice((1, 1, 1, 2, 3))):
        at, other = draw.randrange(len(lines)), draw.randrange(len(lines))
        values, every = lines[at].split(b"|"), b"|".join(lines).split(b"|")
        which = draw.randrange(len(values))
        how = draw.choice(("less", "twice", "mixed", "line", "value more", *["value"] * 4))
        if how == "twice":
            lines.insert(other, lines[at])
        elif how == "mixed":
            lines[at], lines[other] = lines[other], lines[at]
        elif how == "line":
            lines.insert(at, draw.choice(LINES))
        elif how == "less" and len(values) > 1:
            lines[at] = b"|".join(values[:which] + values[which + 1:])
        elif how == "less" and len(lines) > 1:
            del lines[at]
        elif how == "value more":
            lines[at] = b"|".join(values[:which] + [draw.choice((b"", b"1", b"p1"))] + values[which:])
        else:
            lines[at] = b"|".join(values[:which] + [draw.choice([*every, *VALUES])] + values[which + 1:])
    return lines


FOCUSES = {it.__name__: it for it in (standard, undo, repeats, options, opening, lists, files, mixed)}


def case_by(number, focus):
    """The case of a number and a focus, which is always the same."""
    return FOCUSES[focus](random.Random(f"{focus} {number}"))
