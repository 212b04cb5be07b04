#!/usr/bin/env python3
"""Makes the catalogue file of a library of any size: the same words make the same file.

    python3 scripts/make/make_library.py --titles 100000 --copies 300000 --patrons 100000 > large.catalogue
    python3 scripts/make/make_library.py --of demonstration.catalogue --limit 1000000 > roomy.catalogue

Every title has a copy where there are as many copies as titles; the other copies' titles, the copies' homes, the loan
days, renewals and loan limits are drawn by a generator with a seed. Terminals stand at the branches in turn. Of each
kind the names are a word and a number from 1: branch-1, terminal-1 (whose password is password-1), patron-0000001,
title-0000001, copy-0000001. With --of the library is that of a file, and only the limit of commands is another.
docs/catalogue.md says what the lines mean and how many of each kind there may be. Needs nothing but Python 3.
"""

import argparse
import dataclasses
import random
import sys

MOST_COMMANDS = 1_000_000


def branch(number):
    return f"branch-{number}"


def terminal(number):
    return f"terminal-{number}"


def password(number):
    return f"password-{number}"


def patron(number):
    return f"patron-{number:07}"


def title(number):
    return f"title-{number:07}"


def copy(number):
    return f"copy-{number:07}"


@dataclasses.dataclass(frozen=True)
class Library:
    """A library: how many there are of each kind, and what is drawn for each of them."""

    titles: int = 100_000
    copies: int = 300_000
    patrons: int = 100_000
    branches: int = 3
    terminals: int = 16
    local_percent: int = 0  # with 0 the file is of version 1
    loan_days: tuple = (7, 14, 21, 28)
    renewals: tuple = (0, 1, 2, 3)
    loan_limits: tuple = (1, 3, 5, 10, 20, 50)
    institution: str = "lib"
    offset: int = 60
    limit: int = MOST_COMMANDS
    seed: int = 1

    def title_of(self, number, draw):
        """The title of a copy, by number: each title has one first, and the others' are drawn."""
        return number if number <= self.titles else draw.randrange(self.titles) + 1

    def home_of(self, _, draw):
        """The branch that a copy is at home at, by number."""
        return draw.randrange(self.branches) + 1

    def lines(self):
        """The lines of its catalogue file, in order."""
        draw = random.Random(self.seed)
        yield f"H|{2 if self.local_percent else 1}|{self.institution}|{self.offset}|{self.limit}"
        for number in range(1, self.branches + 1):
            yield f"B|{branch(number)}"
        for number in range(1, self.terminals + 1):
            yield f"S|{terminal(number)}|{password(number)}|{branch((number - 1) % self.branches + 1)}"
        for number in range(1, self.patrons + 1):
            yield f"P|{patron(number)}|{draw.choice(self.loan_limits)}"
        for number in range(1, self.titles + 1):
            line = f"T|{title(number)}|{draw.choice(self.loan_days)}|{draw.choice(self.renewals)}"
            is_local = self.local_percent and draw.randrange(100) < self.local_percent
            yield line + ("|L" if is_local else "|N") if self.local_percent else line
        for number in range(1, self.copies + 1):
            yield f"C|{copy(number)}|{title(self.title_of(number, draw))}|{branch(self.home_of(number, draw))}"

    def write(self, path):
        """Writes its catalogue file. The path."""
        return write_lines(self.lines(), path)


@dataclasses.dataclass(frozen=True)
class InTurn(Library):
    """A library whose copies stand at the branches in turn. Either each title has as many copies, or the last title all
    that are left."""

    is_even: bool = False

    def title_of(self, number, _=None):
        return (number - 1) % self.titles + 1 if self.is_even else min(number, self.titles)

    def home_of(self, number, _):
        return number % self.branches + 1


def lines_with_limit(path, limit):
    """The lines of a catalogue file, with another limit of commands."""
    with open(path, encoding="utf-8") as file:
        header, *others = file.read().splitlines()
    return [f"{header.rpartition('|')[0]}|{limit}", *others]


def write_lines(lines, path):
    """Writes a file. The path."""
    with open(path, "w", encoding="utf-8") as file:
        file.writelines(f"{line}\n" for line in lines)
    return path


def write_with_room(path, to):
    """Writes a catalogue file again, with room for as many commands as there may be. The path."""
    return write_lines(lines_with_limit(path, MOST_COMMANDS), to)


def number_in(least, most):
    """A reader of whole numbers from the least to the most."""
    def read(text):
        value = int(text)
        if not least <= value <= most:
            raise argparse.ArgumentTypeError(f"it is {least} to {most}")
        return value
    return read


def read_words():
    """What the command line asks for."""
    summary, _, rest = __doc__.partition("\n\n")
    parser = argparse.ArgumentParser(description=summary, epilog=rest,
                                     formatter_class=argparse.RawDescriptionHelpFormatter)
    add, usual = parser.add_argument, Library()

    def add_number(name, least, most, what, metavar="N"):
        default = getattr(usual, name)
        add("--" + name.partition("_")[0], dest=name, type=number_in(least, most), default=default, metavar=metavar,
            help=f"{what} ({default})")

    add_number("branches", 1, 999, "how many branches")
    add_number("terminals", 1, 9_999, "how many terminals")
    add_number("patrons", 1, 1_000_000, "how many patrons")
    add_number("titles", 1, 1_000_000, "how many titles")
    add_number("copies", 1, 1_000_000, "how many copies")
    add_number("local_percent", 0, 100, "how many of a hundred titles have local priority; with 0 the file is of "
               "version 1", "PERCENT")
    add_number("limit", 1, MOST_COMMANDS, "the limit of commands")
    add_number("offset", -1_439, 1_439, "how much later local time is than universal time", "MINUTES")
    add_number("seed", 0, 2**64 - 1, "the generator's seed")
    add("--institution", default=usual.institution, metavar="NAME", help="the institution (lib)")
    add("--of", metavar="FILE", help="the library of this file, of which only the limit is another")
    add("--out", metavar="FILE", help="where to write it (standard output)")
    return vars(parser.parse_args())


def main():
    asked = read_words()
    of, out = asked.pop("of"), asked.pop("out")
    lines = lines_with_limit(of, asked["limit"]) if of else Library(**asked).lines()
    if out:
        write_lines(lines, out)
    else:
        sys.stdout.writelines(f"{line}\n" for line in lines)


if __name__ == "__main__":
    main()
