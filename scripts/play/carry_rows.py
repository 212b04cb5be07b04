#!/usr/bin/env python3
"""Plays stored days of which each begins where the last one ended, and compares replies, files and faults.

    python3 scripts/play/carry_rows.py [PROGRAM]

PROGRAM is crates/holddesk/out/holddesk where it isn't given. carry_rows.days has the rows: `row` begins one, over the
demonstration library; `+` adds a line to its catalogue and `-` takes one out; `>` is a message to holddesk serve and
`<` its reply; `carry` ends the day and carries the library over to the catalogue with the lines that were added and
taken out since. Behind it each `off` is a copy that is listed to be written off, each `!` a line that is in the way,
and each `=` a line of the opening behind its first, where any is stored. A row is played over files that are named one
by one, some over a folder too. Needs nothing but Python 3. Status 0: all is as it is stored.
"""

import concurrent.futures
import os
import sys
import tempfile

sys.path.append(os.path.dirname(sys.path[0]))  # scripts/

from server import CATALOGUE, Server, Trouble, ask, connect, parser_of, reported, said_by

DAYS = os.path.splitext(os.path.abspath(__file__))[0] + ".days"


def rows():
    """The stored rows: each its name, and its steps as their mark and text."""
    with open(DAYS, encoding="ascii") as file:
        lines = [line.rstrip("\n").partition(" ") for line in file if line.strip() and not line.startswith("#")]
    found = []
    for mark, _, text in lines:
        if mark == "row":
            found.append((text, []))
        else:
            found[-1][1].append((mark, text))
    return found


def ran(program, *words):
    """What the program says: its status, its output and its standard error."""
    return said_by([program, *words])


def wanted(program, words, status, said):
    """Looks that a command ends with this status and says this on standard error. What it printed."""
    code, printed, told = ran(program, *words)
    if (code, told) != (status, said):
        raise Trouble(f"{' '.join(words)} ends with {code} and says {told!r}, wanted {status} and {said!r}")
    return printed


def content(folder):
    """The files of a folder, each with its bytes; of a journal, whose log is tidied by each reader, the name alone."""
    found = {}
    for name in sorted(os.listdir(folder)):
        with open(os.path.join(folder, name), "rb") as file:
            found[name] = None if ".journal" in name else file.read()
    return found


class Files:
    """A library in files that are named one by one."""

    def __init__(self, program, folder, lines):
        self.program, self.folder, self.inside, self.number = program, folder, folder, 1
        self.write(1, lines)
        self.begin()

    def path(self, kind, number=None):
        """The path of the file of this kind, of the period now or of another."""
        return os.path.join(self.folder, f"{number or self.number}.{kind}")

    def write(self, number, lines):
        """Writes a catalogue, and gives its path."""
        with open(self.path("catalogue", number), "w", encoding="ascii") as file:
            file.writelines(f"{line}\n" for line in lines)
        return self.path("catalogue", number)

    def library(self):
        """The words for the library."""
        opening = ["--opening", self.path("opening")] if self.number > 1 else []
        return ["--catalogue", self.path("catalogue"), *opening, "--journal", self.path("journal")]

    def begin(self):
        """Begins the journal of the period now."""
        wanted(self.program, ["journal", "begin", *self.library()], 0, "")

    def words_to(self, lines):
        """The words that carry the library over to a catalogue of these lines."""
        to = self.write(self.number + 1, lines)
        return ["carry", *self.library(), "--to", to, "--into", self.opening()]

    def words_off(self, names):
        """The words that write the loans of these copies off, if there are any."""
        if not names:
            return []
        with open(self.path("off"), "w", encoding="ascii") as file:
            file.writelines(f"{name}\n" for name in names)
        return ["--write-off", self.path("off")]

    def opening(self):
        """The path of the next period's opening."""
        return self.path("opening", self.number + 1)

    def carried(self):
        """Goes on with the next period."""
        self.number += 1
        self.begin()


class Folder(Files):
    """A library in a folder of numbered files."""

    def __init__(self, program, folder, lines):
        os.mkdir(os.path.join(folder, "library"))
        super().__init__(program, folder, lines)

    def library(self):
        return ["--library", self.inside]

    def begin(self):
        self.inside = os.path.join(self.folder, "library")
        words = ["journal", "begin", "--library", self.inside, "--catalogue", self.path("catalogue")]
        wanted(self.program, words, 0, "")

    def words_to(self, lines):
        return ["carry", "--library", self.inside, "--to", self.write(self.number + 1, lines)]

    def opening(self):
        return os.path.join(self.inside, f"{self.number + 1:04}.opening")

    def carried(self):
        self.number += 1


class Day:
    """A day of messages at a server over a library."""

    def __init__(self, program, library):
        self.program, self.library, self.server, self.message = program, library, None, None

    def send(self, message):
        """Sends a message; the first begins the day."""
        if self.server is None:
            words = [word for word in self.library.library()]
            self.server = Server(self.program, None, 1, "--connections", "1", *words)
            self.connection = connect(self.server.port)
        self.message = message
        self.reply = ask(self.connection, message.encode()).decode()

    def compare(self, reply):
        """Compares the reply to the last message."""
        if self.reply != reply:
            raise Trouble(f"{self.message!r} is answered {self.reply!r}, wanted {reply!r}")

    def end(self):
        """Ends the day, if it began."""
        if self.server is None:
            return
        self.connection.close()
        status, _, said = self.server.end()
        self.server = None
        if status:
            raise Trouble(f"the server ends with {status} and says {said!r}")


def refuse(program, library, lines, in_the_way):
    """Looks that a library isn't carried over for these reasons, and that nothing is written."""
    words = library.words_to(lines)
    before = content(library.inside)
    wanted(program, words, 1, "".join(f"{line}\n" for line in in_the_way))
    if content(library.inside) != before:
        raise Trouble("something was written though things are in the way")


def carry(program, library, lines, behind):
    """Carries a library over, with what is stored behind the carry by its mark. Whether it went on."""
    if behind["!"]:
        refuse(program, library, lines, behind["!"])
        return False
    wanted(program, library.words_to(lines) + library.words_off(behind["off"]), 0, "")
    with open(library.opening(), encoding="ascii") as file:
        told = file.read().splitlines()[1:]
    if behind["="] and told != behind["="]:
        raise Trouble(f"the opening says {told}, wanted {behind['=']}")
    library.carried()
    return True


def change(lines, mark, text):
    """Adds a line to a catalogue, the first line at its head, or takes it out."""
    if mark == "-":
        lines.remove(text)
    else:
        lines.insert(0 if text.startswith("H|") else len(lines), text)


def play(program, steps, kind, folder):
    """Plays the steps of a row over a library of this kind."""
    with open(CATALOGUE, encoding="ascii") as file:
        lines = file.read().splitlines()
    library, day, at = None, None, 0
    while at < len(steps):
        mark, text = steps[at]
        at += 1
        if mark in "+-":
            change(lines, mark, text)
        elif mark == "carry":
            day.end()
            behind = {"!": [], "off": [], "=": []}
            while at < len(steps) and (steps[at][0] in behind or steps[at][0] in "+-"):
                mark, text = steps[at]
                at += 1
                if mark in behind:
                    behind[mark].append(text)
                else:
                    change(lines, mark, text)
            if not carry(program, library, lines, behind):
                return
        else:
            if library is None:
                library = kind(program, folder, lines)
                day = Day(program, library)
            (day.send if mark == ">" else day.compare)(text)
    day.end()


def play_row(program, name, steps, kind):
    """Plays a row over a library of this kind."""
    with tempfile.TemporaryDirectory() as folder:
        try:
            play(program, steps, kind, folder)
        except Trouble as trouble:
            raise Trouble(f"{name}, {kind.__name__.lower()}: {trouble}") from trouble


def play_rows(program, only):
    """Plays each row whose name has the word over files, and the first and those of two carries over a folder too,
    several at once. How many there are."""
    chosen = [row for row in rows() if only in row[0]]
    with concurrent.futures.ThreadPoolExecutor(os.cpu_count()) as threads:
        played = [threads.submit(play_row, program, *row, kind) for at, row in enumerate(chosen)
                  for kind in ((Files, Folder) if at == 0 or row[1].count(("carry", "")) > 1 else (Files,))]
        for it in played:
            it.result()
    return len(chosen)


def main():
    parser = parser_of(__doc__)
    parser.add_argument("--only", default="", metavar="WORD", help="the rows whose name has the word")
    asked = parser.parse_args()
    count = reported("carry_rows", play_rows, asked.program, asked.only)
    print(f"carry_rows: {count} rows, each of days that begin where the last one ended")


if __name__ == "__main__":
    main()
