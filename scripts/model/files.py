"""The catalogue and the patrons' file: what they say, or the first bad line and its cause (docs/catalogue.md,
docs/patrons.md).

Written apart from the program, and naive on purpose: a line is looked at for one cause after the other.
"""

import hashlib
from collections import namedtuple

from .dates import is_digits
from .lines import LONGEST_LINE

Title = namedtuple("Title", "loan_days renewals is_local")
Copy = namedtuple("Copy", "title home")
Terminal = namedtuple("Terminal", "password branch")
PatronFacts = namedtuple("PatronFacts", "password language name")


class Fault(Exception):
    """What ends the program with status 1; its text is the line on standard error."""


class Wrong(Exception):
    """The cause for which a line of a file isn't taken."""


def file_lines(text):
    """The lines of a file: each ends with LF or CR LF, the last may lack the whole end."""
    *lines, rest = text.split(b"\n")
    lines = [line[:-1] if line.endswith(b"\r") else line for line in lines]
    return lines + [rest] if rest else lines


def read_lines(file, text, read_first, read_other):
    """Has each line of a file read by its values, the first and the others; an empty file has an empty first line."""
    for number, line in enumerate(file_lines(text) or [b""], 1):
        try:
            read = read_first if number == 1 else read_other
            read(line.split(b"|"), len(line) > LONGEST_LINE)
        except Wrong as wrong:
            raise Fault(b"%s line %d: %s" % (file, number, wrong.args[0])) from wrong


def is_name(text):
    return 1 <= len(text) <= 60 and all((0x20 <= byte <= 0x7E or byte >= 0x80) and byte != 0x7C for byte in text)


def refuse(cause, is_wrong):
    """Refuses a line for a cause where that applies to it."""
    if is_wrong:
        raise Wrong(cause)


def read_number(text, least, most):
    """The number of decimal digits without leading zeros, refused where it is badly written or outside."""
    refuse(b"NUMBER", not is_digits(text) or (len(text) > 1 and text[:1] == b"0"))
    refuse(b"NUMBER", not least <= int(text) <= most)
    return int(text)


def read_offset(text):
    return -read_number(text[1:], 1, 1439) if text[:1] == b"-" else read_number(text, 0, 1439)


class Catalogue:
    """What a catalogue says. Everything stands by its name, in the order of the file: its place there is its number."""

    def __init__(self, text):
        self.digest = hashlib.sha256(text).hexdigest().encode()
        self.version, self.institution, self.offset, self.limit = b"", b"", 0, 0
        self.branches, self.terminals, self.patrons, self.titles, self.copies = {}, {}, {}, {}, {}
        read_lines(b"catalogue", text, self.read_first, self.read_other)

    def title_of(self, copy):
        return self.copies[copy].title

    def home_of(self, copy):
        return self.copies[copy].home

    def read_first(self, values, is_long):
        refuse(b"HEADER", len(values) != 5 or values[0] != b"H" or values[1] not in (b"1", b"2"))
        _, self.version, self.institution, offset, limit = values
        refuse(b"TEXT", is_long or not is_name(self.institution))
        self.offset, self.limit = read_offset(offset), read_number(limit, 1, 1_000_000)

    def read_other(self, values, is_long):
        kind = values[0]
        table, most, count, names = {
            b"B": (self.branches, 999, 2, values[1:]),
            b"S": (self.terminals, 9_999, 4, values[1:]),
            b"P": (self.patrons, 1_000_000, 3, values[1:2]),
            b"T": (self.titles, 1_000_000, 4 if self.version == b"1" else 5, values[1:2]),
            b"C": (self.copies, 1_000_000, 4, values[1:]),
        }.get(kind, ({}, 0, 0, []))
        refuse(b"KIND", count == 0)
        refuse(b"FIELDS", len(values) != count)
        refuse(b"TEXT", is_long or not all(is_name(name) for name in names))
        value = self.value(kind, values)
        refuse(b"DOUBLE", values[1] in table)
        refuse(b"UNKNOWN", kind == b"S" and value.branch not in self.branches)
        refuse(b"UNKNOWN", kind == b"C" and (value.title not in self.titles or value.home not in self.branches))
        refuse(b"LIMIT", len(table) == most)
        table[values[1]] = value

    def value(self, kind, values):
        """What a line says of the name that it defines."""
        if kind == b"S":
            return Terminal(values[2], values[3])
        if kind == b"C":
            return Copy(values[2], values[3])
        if kind == b"P":
            return read_number(values[2], 0, 999)
        if kind == b"T":
            priority = b"N" if self.version == b"1" else values[4]
            refuse(b"TEXT", priority not in (b"L", b"N"))
            return Title(read_number(values[2], 0, 3650), read_number(values[3], 0, 99), priority == b"L")
        return None


def read_patrons(text, catalogue):
    """The patrons' file: what it says of each patron."""
    facts = {}

    def read_first(values, _):
        refuse(b"HEADER", values != [b"H", b"patrons", b"1"])

    def read_other(values, is_long):
        refuse(b"KIND", values[0] != b"P")
        refuse(b"FIELDS", len(values) != 5)
        _, patron, password, language, name = values
        refuse(b"TEXT", is_long or not is_name(patron))
        refuse(b"TEXT", not all(value == b"" or is_name(value) for value in (password, name)))
        refuse(b"NUMBER", language != b"" and not (len(language) == 3 and is_digits(language)))
        refuse(b"UNKNOWN", patron not in catalogue.patrons)
        refuse(b"DOUBLE", patron in facts)
        facts[patron] = PatronFacts(password, language, name)

    read_lines(b"patrons", text, read_first, read_other)
    return facts
