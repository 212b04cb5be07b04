#!/usr/bin/env python3
"""Plays small libraries and scripts drawn at random through holddesk replay, and compares each reply with a model.

    python3 scripts/play/at_random.py [--scripts N] [--seed N] [--focus NAME].. [--wrong] [PROGRAM]

PROGRAM is crates/holddesk/out/holddesk where it isn't given. The model of scripts/model is written apart from the
program; each reply, each fault and each status has to be as it says, byte for byte. What is drawn is told by the seed:
N scripts, in turn of each focus that is named, or of all: standard; undo (very many cancellations); repeats (lines sent
again); options (kiosks and sorters); opening; lists (long ones, of patrons); files (with faults); mixed.
Where something differs the script is made as short as it can be while it still differs, and printed as commands of a
shell that play it by hand. First the same is done with the model and copies of it that each have a mistake: one that
isn't seen within a hundred scripts ends the script with status 1. --wrong does that alone, and says by which script
each was seen; it needs no program. Needs nothing but Python 3. Status 0: nothing differs.
"""

import os
import shlex
import sys
import tempfile

sys.path.append(os.path.dirname(sys.path[0]))  # scripts/

from drawn.cases import FOCUSES, case_by, given_by, text_of
from model.replay import Said, replay
from model_mistakes import models_with_mistakes
from rows import replayed
from server import Trouble, parser_of, reported

SCRIPTS, SEED = 700, 1
MOST_DIFFERENCES = 3  # then it stops
SCRIPTS_FOR_MISTAKES = 100  # within so many each has to be seen
OPENLY = {byte: chr(byte) for byte in range(0x20, 0x7F)} | {0x0A: r"\n", 0x25: "%%", 0x27: r"\047", 0x5C: r"\\"}
FILES = ("catalogue", "patrons", "opening")


def said_by_model(case, by=replay):
    """What a model says, its fault as it stands on standard error."""
    said = by(given_by(case), text_of(case.script))
    return said._replace(fault=b"" if said.fault is None else said.fault + b"\n")


def words_of(case, path_of):
    """The options of replay beside the catalogue and the present; path_of says where a file is."""
    options = {"--patron-messages": case.patron_messages, "--sorter-fields": case.sorter_fields}
    words = [word for word, is_given in options.items() if is_given]
    for name in ("patrons", "opening"):
        if getattr(case, name) is not None:
            words += [f"--{name}", path_of(name)]
    return words


def said_by_program(program, case):
    """What the program says, as the model says it."""
    given = given_by(case)
    with tempfile.TemporaryDirectory() as folder:
        for name in FILES:
            if getattr(given, name) is not None:
                with open(os.path.join(folder, name), "wb") as file:
                    file.write(getattr(given, name))

        def path_of(name):
            return os.path.join(folder, name)

        status, output, said = replayed(program, path_of("catalogue"), case.now.decode(), words_of(case, path_of),
                                        text_of(case.script))
    return Said(output, said, status)


def fewer(items, first, still):
    """As few of a list's items, from the first on, as a test allows: pieces are left out that get smaller."""
    size = max(1, len(items) // 2)
    while size:
        at = first
        while at < len(items):
            rest = items[:at] + items[at + size:]
            if still(rest):
                items = rest
            else:
                at += size
        size //= 2
    return items


def with_fewer(case, name, first, differs):
    """A case with as few lines of its script or a file as still differs."""
    items = fewer(getattr(case, name), first, lambda rest: differs(case._replace(**{name: rest})))
    return case._replace(**{name: items})


def with_shorter_line(case, at, differs):
    """A case with as few parts of a line of its script as still differs."""
    def with_parts(parts):
        return case._replace(script=[*case.script[:at], b"|".join(parts), *case.script[at + 1:]])

    return with_parts(fewer(case.script[at].split(b"|"), 1, lambda parts: differs(with_parts(parts))))


def shortened(case, differs):
    """A case of which as little is left as still differs: lines, options, and parts of the messages."""
    for _ in range(2):
        for change in ({"opening": None}, {"patrons": None}, {"sorter_fields": False}, {"patron_messages": False}):
            without = case._replace(**change)
            is_given = without.patron_messages or without.patrons is None  # the file needs the messages
            if without != case and is_given and differs(without):
                case = without
        case = with_fewer(case, "script", 0, differs)
        for name in FILES:
            if getattr(case, name):
                case = with_fewer(case, name, 1, differs)
    for at in range(len(case.script)):
        case = with_shorter_line(case, at, differs)
    return case


def openly(text):
    """Bytes as the format of a shell's printf."""
    told = "".join(OPENLY.get(byte, f"\\{byte:03o}") for byte in text)
    return r"\055" + told[1:] if told.startswith("-") else told


def by_hand(program, case, wanted, found):
    """A shell's commands that play a case, and what was wanted and found."""
    given, lines = given_by(case), []
    for name, text in (*((name, getattr(given, name)) for name in FILES), ("messages", text_of(case.script))):
        if text is not None:
            lines += ["{", *(f"  printf '{openly(line)}'" for line in text.splitlines(True) or [b""]), f"}} > {name}"]
    words = [program, "replay", "--catalogue", "catalogue", "--now", case.now.decode(), *words_of(case, str)]
    lines.append(f"{shlex.join(words)} < messages")
    for who, said in (("the model", wanted), ("the program", found)):
        lines.append(f"# {who} ends with {said.status}, and says:")
        lines += [f"#   {openly(line)}" for line in said.output.split(b"\n")[:-1]]
        lines += [f"#   on standard error: {openly(line)}" for line in said.fault.splitlines()]
    return "\n".join(lines)


def play(program, scripts, seed, focuses):
    """Compares so many scripts. How many messages they have."""
    def differs(case):
        return said_by_model(case) != said_by_program(program, case)

    messages, differing = 0, []
    for number in range(seed, seed + scripts):
        focus = focuses[number % len(focuses)]
        case = case_by(number, focus)
        messages += len(case.script)
        if differs(case):
            case = shortened(case, differs)
            differing.append(f"--seed {number} --scripts 1 --focus {focus}")
            print(f"# {differing[-1]} differs:")
            print(by_hand(program, case, said_by_model(case), said_by_program(program, case)), flush=True)
            if len(differing) == MOST_DIFFERENCES:
                break
    if differing:
        raise Trouble(f"not each reply is as the model says: {', '.join(differing)}")
    return messages


def is_seen(model, case, wanted):
    """Whether a model with a mistake says something else of a case, or finds that its own replies don't stand."""
    try:
        return said_by_model(case, model.replay) != wanted
    except AssertionError:
        return True


def try_mistakes(seed):
    """Each mistake with the number of scripts until it was seen."""
    focuses, cases, seen = list(FOCUSES), [], {}
    for mistake, model in models_with_mistakes():
        for number in range(SCRIPTS_FOR_MISTAKES):
            if number == len(cases):
                case = case_by(seed + number, focuses[number % len(focuses)])
                cases.append((case, said_by_model(case)))
            if is_seen(model, *cases[number]):
                seen[mistake.name] = number + 1
                break
        else:
            raise Trouble(f"a mistake put into the model isn't seen in {SCRIPTS_FOR_MISTAKES} scripts: {mistake.name}")
    return seen


def main():
    parser = parser_of(__doc__)
    parser.add_argument("--scripts", type=int, default=SCRIPTS, metavar="N", help=f"how many scripts ({SCRIPTS})")
    parser.add_argument("--seed", type=int, default=SEED, metavar="N", help=f"the number of the first script ({SEED})")
    parser.add_argument("--focus", action="append", choices=FOCUSES, help="what the scripts look at (all)")
    parser.add_argument("--wrong", action="store_true", help="try the mistakes alone, and tell how soon each is seen")
    asked = parser.parse_args()
    seen = reported("at_random", try_mistakes, SEED)
    if asked.wrong:
        print("".join(f"{number:>5}: {name}\n" for name, number in seen.items()), end="")
    print(f"at_random: {len(seen)} mistakes put into the model: each is seen, within {max(seen.values())} scripts")
    if not asked.wrong:
        messages = reported("at_random", play, asked.program, asked.scripts, asked.seed, asked.focus or list(FOCUSES))
        print(f"at_random: {asked.scripts} scripts, {messages} messages: each reply as the model says")


if __name__ == "__main__":
    main()
