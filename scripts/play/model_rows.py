#!/usr/bin/env python3
"""Plays the stored rows of messages and replies with the model of scripts/model alone, and compares each reply.

    python3 scripts/play/model_rows.py

No program is asked: this tells of the model, with which at_random.py compares one, that it answers as is stored. Played
are the rows of rows/, as rows.py reads them, and how many gaps their sessions have counted, which no reply tells; the
files of rows/catalogues; an input with a line of no session; and the lists of a patron behind a name of each length.
Needs nothing but Python 3. Status 0: all is as it is stored.
"""

import glob
import os
import sys

sys.path.append(os.path.dirname(sys.path[0]))  # scripts/

import rows
from model.files import Fault
from model.replay import Given, Replay, input_lines, replay
from rows import LIBRARY, LIST, LOANS, LONGEST_NAME, NO_SESSION, ROWS, Row, compare_output, wanted_list
from server import CATALOGUE, Trouble

NOW = rows.NOW.encode()


def text_of(path):
    with open(path, "rb") as file:
        return file.read()


def given_to(row):
    """What replay is given for a row."""
    words = row.options()
    patrons = text_of(words[words.index("--patrons") + 1]) if "--patrons" in words else None
    return Given(text_of(row.catalogue()), row.values[b"now"], "--patron-messages" in words, "--sorter-fields" in words,
                 patrons)


def play_row(row):
    """Has the model answer a row, and compares."""
    said = replay(given_to(row), row.input())
    if said.fault != row.values.get(b"error"):
        raise Trouble(f"it says {said.fault!r}, wanted {row.values.get(b'error')!r}")
    compare_output(row, said.output)
    if row.gaps:
        program = Replay(given_to(row))
        for line in input_lines(row.input()):
            program.read(line)
        for session, gaps in row.gaps:
            if program.sessions[session].gaps != gaps:
                raise Trouble(f"session {session} has counted {program.sessions[session].gaps} gaps, wanted {gaps}")


def read_file(text, told):
    """Has the model read a catalogue file, and compares what it says of it."""
    said, wanted = replay(Given(text, NOW), b"").fault, None if told == b"well" else b"catalogue " + told
    if said != wanted:
        raise Trouble(f"it says {said!r}, wanted {wanted!r}")


def stop(line):
    """Gives the model an input with a line of no session, and compares."""
    said = replay(Given(text_of(CATALOGUE), NOW), b"1 97\n" + line + b"\n1 97\n")
    if said != (b"1 96\n", b"input line 2: no session", 1):
        raise Trouble(f"it says {said!r}")


def cut_list(name):
    """Asks the model for the list of a patron of this name without a password and with theirs."""
    lines = [*LOANS, LIST, LIST + "ADotter|"]
    given = Given("".join(f"{line}\n" for line in LIBRARY).encode(), NOW, patron_messages=True,
                  patrons=f"H|patrons|1\nP|p1|otter||{name}\n".encode())
    said = replay(given, "".join(f"{line}\n" for line in lines).encode()).output.decode().splitlines()
    wanted = [f"1 {wanted_list(name, password)}" for password in ("", "CQY|")]
    if said[len(LOANS):] != wanted:
        raise Trouble(f"it says {said[len(LOANS):]!r}, wanted {wanted!r}")


def play(what, play_case, cases):
    """Plays cases, each with its name. How many there are, of what."""
    failed = []
    for name, *given in cases:
        try:
            play_case(*given)
        except (Trouble, Fault) as trouble:
            failed.append(f"{name}: {trouble}")
    if failed:
        sys.exit("\n".join([f"model_rows: {len(failed)} of {len(cases)} {what} failed:", *failed]))
    return f"{len(cases)} {what}"


def main():
    names = [os.path.basename(path).removesuffix(".row") for path in sorted(glob.glob(os.path.join(ROWS, "*.row")))]
    stored = [Row(name) for name in names]
    told = [play("rows", play_row, [(row.name, row) for row in stored]),
            f"{sum(1 for row in stored if row.gaps)} of them with gaps",
            play("catalogue files", read_file, [(repr(it[0][-60:]), *it) for it in rows.files()]),
            play("inputs that stop it", stop, [(repr(line), line) for line in NO_SESSION]),
            play("lists", cut_list, [(f"behind {size} bytes", "n" * size) for size in range(1, LONGEST_NAME + 1)])]
    print(f"model_rows: {', '.join(told)}: the model answers as is stored")


if __name__ == "__main__":
    main()
