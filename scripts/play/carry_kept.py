#!/usr/bin/env python3
"""Carries a library over to catalogues that lack what is still needed, with holddesk carry --keep-used and --most-gone.

    python3 scripts/play/carry_kept.py [PROGRAM]

PROGRAM is crates/holddesk/out/holddesk where it isn't given. A small library in a folder gets loans, holds, a copy on a
hold shelf, one on its way and one on another branch's open shelf. The next export lacks half of what is needed for them.
Without --keep-used each such thing is in the way, and nothing is written. With it the carry goes on: what is kept is
listed, nothing of the desk is lost, and the next carry to the whole export keeps nothing. A copy that is another title's
in the export stays in the way. With --most-gone a carry is refused in which more names of a kind go. Needs Python 3.
Status 0: all is as it has to be.
"""

import os
import sys
import tempfile

sys.path.append(os.path.dirname(sys.path[0]))  # scripts/

from carry_rows import content, wanted
from server import CATALOGUE, Server, Trouble, ask, begun_folder, connect, parser_of, reported

DAY = "20260301    100000"
# p1 has a1; p2 holds ta, and a2 is kept for p2 at north; p3 has b1; a3 is on south's open shelf, which isn't its home
MESSAGES = ["9300CNt1|COpw|", f"11NN{DAY}{DAY}AOlib|AAp1|ABa1|AC|", f"11NN{DAY}{DAY}AOlib|AAp1|ABa2|AC|",
            f"11NN{DAY}{DAY}AOlib|AAp3|ABb1|AC|", f"11NN{DAY}{DAY}AOlib|AAp2|ABa3|AC|",
            f"15+{DAY}BSnorth|BY2|AOlib|AAp2|AJta|", f"09N{DAY}{DAY}APnorth|AOlib|ABa2|AC|"]
# what the export lacks: a borrower, who is another's as well, a lent copy, a held copy's card, and a name nobody needs
LACKING = ["P|p1|", "C|a1|", "P|p2|", "C|b2|"]
IN_THE_WAY = ["copy a1 is on loan to p1, and the new catalogue lacks it",
              "patron p1 has copy a1 on loan, and the new catalogue lacks them",
              "patron p2 has copy a3 on loan, and the new catalogue lacks them",
              "patron p2 holds title ta, and the new catalogue lacks them"]
KEPT = ["kept: patron p1", "kept: patron p2", "kept: copy a1"]
COUNTS = ["branches: 0 came, 0 went, 0 kept", "terminals: 0 came, 0 went, 0 kept", "patrons: 1 came, 0 went, 2 kept",
          "titles: 0 came, 0 went, 0 kept", "copies: 0 came, 1 went, 1 kept",
          "carried over: 3 loans, 1 holds, 1 places on hold shelves, 0 transits"]


def lines_of(path):
    with open(path, encoding="ascii") as file:
        return file.read().splitlines()


def written(folder, name, lines):
    """Writes a catalogue, and gives its path."""
    path = os.path.join(folder, name)
    with open(path, "w", encoding="ascii") as file:
        file.writelines(f"{line}\n" for line in lines)
    return path


def play_day(program, library):
    """Sends the messages of a day to a server over the library."""
    server = Server(program, None, 1, "--connections", "1", "--library", library)
    connection = connect(server.port)
    for message in MESSAGES:
        reply = ask(connection, message.encode()).decode()
        if reply[2:3] not in "11Y":
            raise Trouble(f"{message!r} is answered {reply!r}")
    connection.close()
    status, _, said = server.end()
    if status:
        raise Trouble(f"the server ends with {status} and says {said!r}")


def same(what, found, expected):
    if found != expected:
        raise Trouble(f"{what}: {found!r}, wanted {expected!r}")


def refused(program, library, words, said):
    """Looks that a carry is refused with these lines, and that the folder stays as it is."""
    before = content(library)
    wanted(program, words, 1, "".join(f"{line}\n" for line in said))
    same("the folder after a refused carry", content(library), before)


def play(program, folder):
    whole = lines_of(CATALOGUE)
    library = begun_folder(program, CATALOGUE, os.path.join(folder, "library"))
    play_day(program, library)
    export = [line for line in whole if not line.startswith(tuple(LACKING))] + ["P|p9|3"]
    to = written(folder, "export", export)
    carry = ["carry", "--library", library, "--to", to]
    refused(program, library, carry, IN_THE_WAY)
    refused(program, library, [*carry, "--keep-used", "--most-gone", "19"], ["1 of 5 copies would go"])
    other = [line.replace("C|a2|ta|", "C|a2|tb|") for line in export]
    refused(program, library, ["carry", "--library", library, "--to", written(folder, "other", other), "--keep-used"],
            ["copy a2 is kept for p2 at north, and is of another title there"])
    printed = wanted(program, [*carry, "--keep-used", "--most-gone", "20"], 0, "").splitlines()
    same("what is kept", [line for line in printed if line.startswith("kept")], KEPT)
    same("what is counted", printed[-6:], COUNTS)
    kept = [line for line in whole if line.startswith(("P|p1|", "P|p2|", "C|a1|"))]
    same("the catalogue", lines_of(os.path.join(library, "0002.catalogue")), [*export, *kept])
    wanted(program, ["journal", "check", "--library", library], 0, f"checking 0002 of {library}\n")
    printed = wanted(program, ["carry", "--library", library, "--to", written(folder, "whole", whole), "--keep-used"], 0, "")
    same("what a whole export keeps", [line for line in printed.splitlines() if line.startswith("kept")], [])
    return len(KEPT)


def play_once(program):
    with tempfile.TemporaryDirectory() as folder:
        return play(program, folder)


def main():
    asked = parser_of(__doc__).parse_args()
    count = reported("carry_kept", play_once, asked.program)
    print(f"carry_kept: {count} names kept in a carry, and refused otherwise")


if __name__ == "__main__":
    main()
