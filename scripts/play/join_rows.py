#!/usr/bin/env python3
"""Has names join a library with holddesk journal join, and looks what comes of it: replies, files, faults and stops.

    python3 scripts/play/join_rows.py [--every N] [PROGRAM]

PROGRAM is crates/holddesk/out/holddesk where it isn't given. A loan is made over the demonstration library in a folder.
The server ends, a card, a title and a copy join, and the server begins again: the loan of before is cancelled, and the
new reader borrows the new copy after its first check-in. A second join finds nothing new. A join is refused while the
library is served, for each fault of its file and of the catalogue that would come of it, and where the lines that
joined before were changed; each time the folder stays as it is. A carry takes what joined over. Then a join is killed
before each of its calls that write, sync, rename or take away a file (--every N: before each Nth), as carry_stops.py
does it: what is left has to be the old library or the new one, and a second join gives the same file as an undisturbed
one. Needs Python 3; the stops need Linux and strace, and are told as skipped where there is none that may trace.
Status 0: all is as it has to be.
"""

import os
import shutil
import sys
import tempfile

sys.path.append(os.path.dirname(sys.path[0]))  # scripts/

from carry_rows import content, wanted
from carry_stops import is_killed, may_trace
from server import CATALOGUE, Server, Trouble, ask, begun_folder, connect, parser_of, reported

LENT = "121NNY20260301    100000AOlib|AAp1|ABa1|AJta|AH20260322    235900|"
BEFORE = [("9300CNt1|COpw|", "941"), ("11NN20260301    10000020260301    100000AOlib|AAp1|ABa1|AC|", LENT),
          ("11NN20260301    10000020260301    100000AOlib|AAp4|ABa2|AC|",
           "120NNN20260301    100000AOlib|AAp4|ABa2|AJ|AH|AFUNKNOWN PATRON|")]
AFTER = [("9300CNt1|COpw|", "941"),
         ("09N20260301    10000020260301    100000APnorth|AOlib|ABa1|AC|BIY|",
          "101YNN20260301    100000AOlib|ABa1|AQnorth|AJta|AFCANCELLED 1|"),
         ("11NN20260301    10000020260301    100000AOlib|AAp4|ABc1|AC|",
          "120NNN20260301    100000AOlib|AAp4|ABc1|AJ|AH|AFIN TRANSIT|"),
         ("09N20260301    10000020260301    100000APnorth|AOlib|ABc1|AC|", None),
         ("11NN20260301    10000020260301    100000AOlib|AAp4|ABc1|AC|",
          "121NNY20260301    100000AOlib|AAp4|ABc1|AJtc|AH20260308    235900|")]
JOINING = ["P|p4|2", "T|tc|7|0", "C|c1|tc|north"]
STAYING = """patrons that the file lacks, kept: 1 (p3)
patrons with other values in the file, unchanged here: 1 (p2)
copies with other values in the file, unchanged here: 1 (a3)
"""
JOINED = """joined branches: 0
joined terminals: 0
joined patrons: 1
joined titles: 1
joined copies: 1
"""
NOTHING = "nothing joins: the library has all these names\n"
WITH = "with the names that join, the library's "


def lines_of(path):
    """The lines of a file."""
    with open(path, encoding="ascii") as file:
        return file.read().splitlines()


def written(path, lines):
    """The path of a file, which is written with these lines."""
    with open(path, "w", encoding="ascii") as file:
        file.writelines(f"{line}\n" for line in lines)
    return path


def whole_catalogue():
    """The lines of a whole catalogue: three names more than the library's, one less, and two with other values."""
    lines = [line for line in lines_of(CATALOGUE) if line != "P|p3|1"]
    lines[lines.index("P|p2|3")] = "P|p2|5"
    lines[lines.index("C|a3|ta|south")] = "C|a3|ta|north"
    return lines + JOINING


def join_words(program, folder, path):
    """The words that have the names of a file join a folder's library."""
    return [program, "journal", "join", "--library", folder, "--catalogue", path]


def joined(program, folder, path, printed, number="0001"):
    """Has the names of a file join, which prints this."""
    told = wanted(program, join_words(program, folder, path)[1:], 0, f"joining {number} of {folder}\n")
    if told != printed:
        raise Trouble(f"a join prints {told!r}, wanted {printed!r}")


def kept_in(folder):
    """The files of a folder, each with its bytes, without the journal and its log: these are tidied by each reader."""
    return {name: file for name, file in content(folder).items() if ".journal" not in name}


def refused(program, folder, path, fault):
    """Looks that a join is refused for this fault, and that nothing changes."""
    before = kept_in(folder)
    wanted(program, join_words(program, folder, path)[1:], 1, f"joining 0001 of {folder}\n{fault}\n")
    if kept_in(folder) != before:
        raise Trouble(f"a join that is refused with {fault!r} changes something")


def played(program, folder, messages, meanwhile=None):
    """Plays messages at a server over a folder, each with its reply, where one is stored; then something else."""
    with Server(program, None, 1, "--connections", "1", "--library", folder) as server:
        connection = connect(server.port)
        for message, reply in messages:
            answer = ask(connection, message.encode()).decode()
            if reply is not None and answer != reply:
                raise Trouble(f"{message!r} is answered {answer!r}, wanted {reply!r}")
        if meanwhile is not None:
            meanwhile()
        connection.close()
        status, _, said = server.end()
        if status:
            raise Trouble(f"the server ends with {status} and says {said!r}")


def faults(program, room, folder):
    """Plays the faults of a file, and of the catalogue that would come of it."""
    lines = whole_catalogue()
    path = os.path.join(room, "faulty")
    refused(program, folder, os.path.join(room, "none"),
            f"cannot read the catalogue {room}/none: No such file or directory (os error 2)")
    for more, fault in ((["P|p4|2"], "catalogue line 18: DOUBLE"), (["P|p5|x"], "catalogue line 18: NUMBER"),
                        (["C|c2|td|north"], "catalogue line 18: UNKNOWN"), (["X|x"], "catalogue line 18: KIND"),
                        (["P|p\x015|1"], "catalogue line 18: TEXT")):
        refused(program, folder, written(path, lines + more), fault)
    version = [f"{line}|L" if line.startswith("T|") else line for line in lines]
    refused(program, folder, written(path, ["H|2|" + version[0][4:], *version[1:]]),
            f"{WITH}catalogue line 17: FIELDS")
    many = [lines[0], *(f"B|other{at}" for at in range(999))]
    refused(program, folder, written(path, many), f"{WITH}catalogue line 1013: LIMIT")


def whole_day(program, room):
    """Plays a day in which names join, and the carry behind it."""
    folder, path = os.path.join(room, "library"), written(os.path.join(room, "whole"), whole_catalogue())
    begun_folder(program, CATALOGUE, folder)
    played(program, folder, BEFORE, lambda: refused(program, folder, path, "another program has the journal open"))
    faults(program, room, folder)
    before = kept_in(folder)
    joined(program, folder, path, JOINED + STAYING)
    file = os.path.join(folder, "0001.joined")
    if lines_of(file)[1:] != JOINING or not lines_of(file)[0].startswith("H|joined|1|"):
        raise Trouble(f"what joined is kept as {lines_of(file)}")
    after = kept_in(folder)
    if {**after, **before} != after or set(after) - set(before) != {"0001.joined"}:
        raise Trouble("another file of the library changes")
    joined(program, folder, path, NOTHING + STAYING)
    if kept_in(folder) != after:
        raise Trouble("a second join changes something")
    told = wanted(program, ["check", "--library", folder], 0, f"checking 0001 of {folder}\n" + warned(folder))
    if "\npatrons: 4\n" not in told or "\ncopies in transit: 1\n" not in told:
        raise Trouble(f"check says {told!r} of a library that names joined")
    again = os.path.join(room, "again")
    shutil.copytree(folder, again)
    changed(program, again, path)
    played(program, folder, AFTER)
    told = wanted(program, ["journal", "check", "--library", folder], 0, f"checking 0001 of {folder}\n")
    if not told.startswith("turns: 5\nsurvivors: 2\ncopies on loan: 1\n"):
        raise Trouble(f"journal check says {told!r} of a journal that names joined")
    third = written(os.path.join(room, "third"), [*whole_catalogue(), "B|east", "C|c2|tc|east"])
    joined(program, folder, third, "joined branches: 1\njoined terminals: 0\njoined patrons: 0\njoined titles: 0\n"
           "joined copies: 1\n" + STAYING)
    if lines_of(file)[1:] != [*JOINING, "B|east", "C|c2|tc|east"]:
        raise Trouble(f"what joined second is kept as {lines_of(file)}")
    carried(program, folder, third)


def warned(folder):
    """What check warns of a catalogue, where others may read it."""
    path = os.path.join(folder, "0001.catalogue")
    others = os.stat(path).st_mode & 0o004
    return f"{path}: warning: others may read it, and it has the terminals' passwords\n" if others else ""


def changed(program, folder, path):
    """Alters a byte of what joined, which each command has to see."""
    file = os.path.join(folder, "0001.joined")
    lines = lines_of(file)
    written(file, [line.replace("P|p4|2", "P|p4|9") for line in lines])
    fault = f"the names that joined were changed: {file}"
    refused(program, folder, path, fault)
    wanted(program, ["journal", "check", "--library", folder], 1, f"checking 0001 of {folder}\n{fault}\n")


def carried(program, folder, path):
    """Carries a library that names joined over to a catalogue that has them and all others."""
    lines = lines_of(path)
    written(path, [*lines, "P|p3|1"])
    wanted(program, ["carry", "--library", folder, "--to", path], 0, "")
    told = sorted(lines_of(os.path.join(folder, "0002.opening"))[1:])
    if told != ["L|c1|p4|20260308|0", "O|a3|south", "U|c2|east|east"]:
        raise Trouble(f"a carry behind a join has the opening {told}")
    if os.path.exists(os.path.join(folder, "0002.joined")):
        raise Trouble("a carry has what joined before")
    joined(program, folder, path, NOTHING, "0002")


def stop(program, folder, number, path, whole):
    """Has names join a folder and kills that before its call of this number. Whether there was one."""
    if not is_killed(join_words(program, folder, path), number):
        return False
    file = os.path.join(folder, "0001.joined")
    is_new = os.path.exists(file)
    told = wanted(program, ["check", "--library", folder], 0, f"checking 0001 of {folder}\n" + warned(folder))
    if f"\npatrons: {4 if is_new else 3}\n" not in told:
        raise Trouble(f"before call {number} of a join check says {told!r}")
    told = wanted(program, ["journal", "check", "--library", folder], 0, f"checking 0001 of {folder}\n")
    if not told.startswith("turns: 1\n"):
        raise Trouble(f"before call {number} of a join the journal has {told!r}")
    joined(program, folder, path, (NOTHING if is_new else JOINED) + STAYING)
    if lines_of(file) != whole:
        raise Trouble(f"before call {number} of a join another file is kept")
    return True


def stops(program, room, every):
    """Kills a join before each of its calls. How many there were, or none where that can't be played."""
    if not may_trace():
        return None
    old, path = os.path.join(room, "old"), written(os.path.join(room, "file"), whole_catalogue())
    begun_folder(program, CATALOGUE, old)
    played(program, old, BEFORE[:2])
    new = os.path.join(room, "new")
    shutil.copytree(old, new)
    joined(program, new, path, JOINED + STAYING)
    whole, number = lines_of(os.path.join(new, "0001.joined")), 1
    while True:
        folder = os.path.join(room, str(number))
        shutil.copytree(old, folder)
        is_stopped = stop(program, folder, number, path, whole)
        shutil.rmtree(folder)
        if not is_stopped:
            return number
        number += every


def play(program, every):
    """Plays all. How many calls of a join there were, or none where stops can't be played."""
    with tempfile.TemporaryDirectory() as room:
        whole_day(program, room)
        return stops(program, room, every)


def main():
    parser = parser_of(__doc__)
    parser.add_argument("--every", type=int, default=1, metavar="N", help="stop before each Nth call alone (1)")
    asked = parser.parse_args()
    count = reported("join_rows", play, asked.program, asked.every)
    stopped = "stops are skipped, since there is no strace that may trace" if count is None else (
        f"stopped before its calls up to the {count}th, the old library or the new one each time")
    print(f"join_rows: names join, and the journal goes on; {stopped}")


if __name__ == "__main__":
    main()
