"""The opening file: the desk and the last number with which a journal begins (docs/opening.md).

Written apart from the program, and naive on purpose. What one line says is looked at first, in every line; what stands
twice, and a hold that isn't there, afterwards.
"""

from .dates import read_day
from .desk import Desk, Hold, Kept, Loan, Shelf, Transit
from .files import Wrong, is_name, read_lines, read_number, refuse

VALUES = {b"L": 5, b"O": 3, b"R": 8, b"K": 4, b"W": 4, b"U": 4}  # how many values a line has
LAST_NUMBER, LAST_PLACE = 999_999_999, 1_000_001


class Opening:
    """What an opening file says: its last number, and the desk that its lines make."""

    def __init__(self, text, catalogue):
        self.catalogue, self.last, self.desk = catalogue, 0, Desk(catalogue)
        self.placed, self.stamps, self.places = set(), set(), set()  # what stands already
        read_lines(b"opening", text, self.read_first, self.read_other)
        read_lines(b"opening", text, lambda values, is_long: None, self.put)

    def read_first(self, values, is_long):
        refuse(b"HEADER", len(values) != 5 or values[:3] != [b"H", b"opening", b"1"])
        digest = values[4]
        refuse(b"TEXT", is_long or len(digest) != 64 or not all(byte in b"0123456789abcdef" for byte in digest))
        self.last = read_number(values[3], 0, LAST_NUMBER)
        refuse(b"OTHER", digest != self.catalogue.digest)

    def names(self, kind):
        """Which values of a line are names, and of what."""
        its = self.catalogue
        return {
            b"L": {1: its.copies, 2: its.patrons},
            b"O": {1: its.copies, 2: its.branches},
            b"R": {1: its.titles, 2: its.patrons, 6: its.branches},
            b"K": {1: its.copies, 2: its.patrons},
            b"W": {1: its.copies, 2: its.patrons, 3: its.branches},
            b"U": {1: its.copies, 2: its.branches, 3: its.branches},
        }[kind]

    def read_other(self, values, is_long):
        """Looks at what a line says by itself."""
        kind = values[0]
        refuse(b"KIND", kind not in VALUES)
        refuse(b"FIELDS", len(values) != VALUES[kind])
        names = self.names(kind)
        refuse(b"TEXT", is_long or not all(is_name(values[at]) for at in names))
        if kind == b"R":
            admitted, copy = values[4:6]
            refuse(b"TEXT", admitted not in (b"any", b"branch", b"copy"))
            refuse(b"TEXT", not (is_name(copy) if admitted == b"copy" else copy == b""))
        self.numbers(values)
        refuse(b"UNKNOWN", any(values[at] not in table for at, table in names.items()))
        refuse(b"UNKNOWN", kind == b"R" and values[4] == b"copy" and values[5] not in self.catalogue.copies)

    def numbers(self, values):
        """The numbers and days of a line."""
        kind = values[0]
        if kind == b"R":
            return read_number(values[3], 1, self.last), None if values[7] == b"" else day_of(values[7])
        if kind == b"L":
            return day_of(values[3]), read_number(values[4], 0, 99)
        return read_number(values[3], 1, LAST_PLACE) if kind == b"K" else None

    def put(self, values, _):
        """Puts what a line says on the desk."""
        kind, copy = values[0], values[1]
        if kind == b"R":
            self.put_hold(values)
            return
        if kind in (b"K", b"W"):
            value = self.tied(values)
        else:
            refuse(b"DOUBLE", copy in self.placed or kind == b"O" and values[2] == self.catalogue.home_of(copy))
            value = self.untied(values)
        self.desk.copies[copy] = value
        self.placed.add(copy)

    def put_hold(self, values):
        _, title, patron, _, admitted, copy, pickup, _ = values
        stamp, expiry = self.numbers(values)
        refuse(b"DOUBLE", (title, patron) in self.desk.holds or (title, stamp) in self.stamps)
        self.stamps.add((title, stamp))
        kind = ("copy", copy) if admitted == b"copy" else (admitted.decode(),)
        self.desk.holds[title, patron] = Hold(stamp, kind, pickup, expiry, None)

    def untied(self, values):
        """Where a copy is that is on loan, on a branch's open shelf, or on its way for nobody."""
        kind = values[0]
        if kind == b"L":
            due, renewals = self.numbers(values)
            return Loan(values[2], due, renewals)
        return Shelf(values[2]) if kind == b"O" else Transit(values[2], values[3], None)

    def tied(self, values):
        """Where a copy is that is kept, or on its way, for a hold; the hold then has it."""
        kind, copy, patron, rest = values
        pair = self.catalogue.title_of(copy), patron
        refuse(b"UNKNOWN", pair not in self.desk.holds)
        hold = self.desk.holds[pair]
        refuse(b"DOUBLE", copy in self.placed or hold.copy is not None)
        self.desk.holds[pair] = hold._replace(copy=copy)
        if kind == b"W":
            return Transit(rest, hold.pickup, patron)
        number = self.numbers(values)
        refuse(b"DOUBLE", (hold.pickup, number) in self.places)
        self.places.add((hold.pickup, number))
        return Kept(hold.pickup, number, patron)


def day_of(text):
    """The day of YYYYMMDD, refused where there is none."""
    day = read_day(text)
    if day is None:
        raise Wrong(b"NUMBER")
    return day
