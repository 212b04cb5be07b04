"""Replies as texts: 12, 10, 16, 30 and 18 (docs/protocol.md, "Replies written" and "Sorter fields").

Written apart from the program, and naive on purpose.
"""

from .commands import Deleted
from .dates import print_due
from .desk import Kept, Loan, Shelf, Transit, tied_to
from .lines import field, optional

STATUS = {Shelf: b"03", Loan: b"04", Kept: b"08", Transit: b"10"}


def af(text):
    return field(b"AF", text)


class Replies:
    """The replies of a library; name_of gives the name that the patrons' file has of a patron, or nothing."""

    def __init__(self, catalogue, has_sorter_fields, name_of):
        self.catalogue, self.has_sorter_fields, self.name_of = catalogue, has_sorter_fields, name_of
        self.ao = field(b"AO", catalogue.institution)

    def refused(self, message, date, text):
        aa, ab = field(b"AA", message.text(b"AA")), field(b"AB", message.text(b"AB"))
        if message.code in (b"11", b"29"):
            code = b"12" if message.code == b"11" else b"30"
            return code + b"0NNN" + date + self.ao + aa + ab + b"AJ|AH|" + af(text)
        if message.code == b"09":
            return b"100NNN" + date + self.ao + ab + b"AQ|" + af(text)
        if message.code == b"15":
            wishes = optional(b"AB", message.given(b"AB")) + optional(b"AJ", message.given(b"AJ"))
            return b"160N" + date + self.ao + aa + wishes + af(text)
        return b"18010001" + date + ab + b"AJ|" + af(text)

    def title(self, message):
        """AJ of a message that names a title, or a copy of it."""
        named = message.given(b"AJ") if message.code == b"15" else None
        return field(b"AJ", self.catalogue.title_of(message.get(b"AB")) if named is None else named)

    def home(self, copy):
        return field(b"AQ", self.catalogue.home_of(copy))

    def cancelled(self, message, date, number):
        told = af(b"CANCELLED %d" % number)
        aa, ab, aj = field(b"AA", message.text(b"AA")), field(b"AB", message.text(b"AB")), self.title(message)
        if message.code == b"11":
            return b"121NNY" + date + self.ao + aa + ab + aj + b"AH|" + told
        if message.code == b"29":
            return b"301NNN" + date + self.ao + aa + ab + aj + b"AH|" + told
        if message.code == b"09":
            return b"101YNN" + date + self.ao + ab + self.home(message.get(b"AB")) + aj + told
        return b"161N" + date + self.ao + aa + optional(b"AB", message.given(b"AB")) + aj + told

    def done(self, message, date, told):
        """The reply to a command that was accepted."""
        aa, ab, aj = field(b"AA", message.text(b"AA")), field(b"AB", message.text(b"AB")), self.title(message)
        if message.code == b"11":
            is_renewal = b"Y" if told.is_renewal else b"N"
            return b"121" + is_renewal + b"NY" + date + self.ao + aa + ab + aj + field(b"AH", print_due(told.due))
        if message.code == b"29":
            return b"301YNN" + date + self.ao + aa + ab + aj + field(b"AH", print_due(told.due))
        if message.code == b"09":
            alert = b"N" if isinstance(told.value, Shelf) else b"Y"
            stands = self.home(message.get(b"AB")) + aj + self.whereabouts(told.value)
            return b"101YN" + alert + date + self.ao + ab + stands
        named = self.ao + aa + optional(b"AB", message.given(b"AB")) + aj
        if isinstance(told, Deleted):
            return b"161N" + date + named
        bw = b"" if told.expiry is None else field(b"BW", print_due(told.expiry))
        queue = bw + field(b"BR", b"%d" % told.position) + field(b"BS", told.pickup)
        return b"161" + (b"Y" if told.is_available else b"N") + date + queue + named

    def item(self, message, date, desk):
        """The reply to a 17: where a copy is."""
        copy = message.get(b"AB")
        value, waiting = desk.copies[copy], desk.holds_of_title(self.catalogue.title_of(copy))
        ah = field(b"AH", print_due(value.due)) if isinstance(value, Loan) else b""
        ap = field(b"AP", value.branch) if isinstance(value, (Shelf, Kept)) else b""
        reply = b"18" + STATUS[type(value)] + b"0001" + date + field(b"CF", b"%d" % len(waiting)) + ah
        reply += field(b"AB", copy) + self.title(message) + self.home(copy) + ap
        return reply + self.for_whom(value) if self.has_sorter_fields else reply

    def whereabouts(self, value):
        """The fields of a 10 behind AJ."""
        if isinstance(value, Shelf):
            return b""
        if not self.has_sorter_fields:
            return field(b"CL", b"H%d" % value.place if isinstance(value, Kept) else b"T" + value.to)
        if isinstance(value, Kept):
            return b"CLH|CV01|" + self.for_whom(value) + af(b"HOLD SHELF %d" % value.place)
        why = b"04" if value.patron is None else b"02"
        return field(b"CL", b"T" + value.to) + field(b"CV", why) + field(b"CT", value.to) + self.for_whom(value)

    def for_whom(self, value):
        """CY and DA of a copy that is tied to a patron."""
        patron = tied_to(value)
        if patron is None:
            return b""
        name = self.name_of(patron)
        return field(b"CY", patron) + (field(b"DA", name) if name else b"")
