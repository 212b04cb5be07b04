"""What an 11, 09, 15, 29 or 17 asks of the desk, or the first refusal that applies to it (docs/protocol.md, "Messages
read" and "Refusals").

Written apart from the program, and naive on purpose: the parts of a message are looked at in the order of the refusals.
"""

from collections import namedtuple

from .commands import Add, Change, Checkin, Checkout, Delete, OffLine, Refused, Renew
from .dates import read_date
from .turns import Cancellation

REQUIRED = {b"11": (b"AA", b"AB"), b"09": (b"AB",), b"15": (b"AA",), b"29": (b"AA", b"AB"), b"17": (b"AB",)}
MODES = (b"+", b"-", b"*")
NO_EXPIRY = (b"", b" " * 18)

Query = namedtuple("Query", "copy")
Days = namedtuple("Days", "day expiry due")
Names = namedtuple("Names", "patron copy title pickup")


class Request:
    """A message of a desk: what is asked, under which code a cancellation finds it, or the refusal."""

    def __init__(self, catalogue, terminal, message):
        self.catalogue, self.terminal, self.message = catalogue, terminal, message
        code = message.code
        self.mode = message.fixed[0] if code == b"15" else b""
        self.code = code + self.mode
        self.cancels = code != b"17" and message.get(b"BI") == b"Y"
        self.is_off_line = code == b"11" and message.fixed[1] == b"Y" and not self.cancels
        self.has_wishes = self.mode in (b"+", b"*") and not self.cancels  # BW, BS and BY are looked at
        self.ask, self.refusal = None, None
        try:
            if terminal is None:
                raise Refused(b"NOT LOGGED IN")
            if not self.is_readable():
                raise Refused(b"MESSAGE UNREADABLE")
            self.ask = self.asked(self.days(), self.names())
        except Refused as refused:
            self.refusal = refused.args[0]

    def is_readable(self):
        message = self.message
        if not message.is_whole or any(message.get(code) is None for code in REQUIRED[message.code]):
            return False
        if message.code == b"15":
            if self.mode not in MODES or (message.given(b"AB") is None and message.given(b"AJ") is None):
                return False
            if self.has_wishes and message.text(b"BY") not in (b"1", b"2", b"3", b"4", b" ", b""):
                return False
            if self.has_wishes and message.get(b"BY") == b"3" and message.given(b"AB") is None:
                return False
        return True

    def day_of(self, text):
        stamp = read_date(text, self.catalogue.offset)
        if stamp is None:
            raise Refused(b"DATE UNREADABLE")
        return stamp.day

    def days(self):
        """The transaction day, and where they are looked at the expiry day and the due day of an off-line checkout."""
        wished = self.has_wishes and self.message.text(b"BW") not in NO_EXPIRY
        return Days(self.day_of(self.message.date), self.day_of(self.message.get(b"BW")) if wished else None,
                    self.day_of(self.message.fixed[3]) if self.is_off_line else None)

    def names(self):
        """The names of the catalogue that the message has; its title may be told by a copy."""
        message, catalogue = self.message, self.catalogue
        patron = message.get(b"AA")
        if message.code in (b"11", b"15", b"29") and patron not in catalogue.patrons:
            raise Refused(b"UNKNOWN PATRON")
        copy = message.given(b"AB") if message.code == b"15" else message.get(b"AB")
        if copy is not None and copy not in catalogue.copies:
            raise Refused(b"UNKNOWN ITEM")
        title = message.given(b"AJ") if message.code in (b"15", b"29") else None
        if title is not None and title not in catalogue.titles:
            raise Refused(b"UNKNOWN TITLE")
        if title is not None and copy is not None and title != catalogue.title_of(copy):
            raise Refused(b"UNKNOWN TITLE")
        pickup = message.given(b"BS") if self.has_wishes else None
        if pickup is not None and pickup not in catalogue.branches:
            raise Refused(b"UNKNOWN BRANCH")
        return Names(patron, copy, catalogue.title_of(copy) if title is None else title, pickup)

    def asked(self, days, names):
        """The query, the cancellation or the command."""
        message, branch = self.message, self.catalogue.terminals[self.terminal].branch
        if message.code == b"17":
            return Query(names.copy)
        if self.cancels:
            return Cancellation(self.code, names.copy if self.mode == b"" else (names.patron, names.title))
        if self.is_off_line:
            return OffLine(names.patron, names.copy, days.due)
        if message.code == b"11":
            return Checkout(names.patron, names.copy, days.day, message.fixed[0] == b"Y")
        if message.code == b"29":
            return Renew(names.patron, names.copy, days.day)
        if message.code == b"09":
            at = message.get(b"AP")
            return Checkin(names.copy, at if at in self.catalogue.branches else branch, days.day)
        if self.mode == b"-":
            return Delete(names.patron, names.title, days.day)
        return self.wished(days, names, branch)

    def wished(self, days, names, branch):
        """An add or a change of a hold."""
        kinds = {b"2": ("any",), b"3": ("copy", names.copy), b"4": ("branch",)}
        kind = kinds.get(self.message.get(b"BY"))
        if self.mode == b"*":
            return Change(names.patron, names.title, days.day, kind, names.pickup, days.expiry)
        if kind is None:
            kind = ("any",) if names.copy is None else ("copy", names.copy)
        pickup = branch if names.pickup is None else names.pickup
        return Add(names.patron, names.title, days.day, kind, pickup, days.expiry)
