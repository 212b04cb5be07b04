"""Patron messages, which kiosks send: 23, 63, 35, 01, 37 and 65 (docs/protocol.md, "Patron messages";
docs/desk-rules.md, "What a patron has").

Written apart from the program, and naive on purpose.
"""

from collections import namedtuple

from .dates import is_digits, read_date
from .desk import Kept
from .files import PatronFacts
from .lines import field

PATRON_MESSAGES = (b"23", b"63", b"35", b"01", b"37", b"65")
LONGEST_REPLY = 2038
NO_FACTS = PatronFacts(b"", b"", b"")
REFUSED_STATUS = b"YYYY" + b" " * 10

View = namedtuple("View", "kept waiting loans overdue")  # copies, but for waiting, which has titles


def four(number):
    return b"%04d" % min(number, 9999)


def decimal(text):
    return int(text) if is_digits(text) else 0


def view_of(desk, patron, day):
    """A patron's lists on a day."""
    copies, titles = list(desk.catalogue.copies), list(desk.catalogue.titles)
    loans = sorted(desk.loans_of(patron), key=copies.index)
    overdue = [copy for copy in loans if desk.copies[copy].due < day]
    own = [(hold.stamp, titles.index(title), hold.copy) for (title, holder), hold in desk.holds.items()
           if holder == patron]
    kept, waiting = [], []
    for _, title, copy in sorted(own, key=lambda it: it[:2]):
        if copy is not None and isinstance(desk.copies[copy], Kept):
            kept.append(copy)
        else:
            waiting.append(titles[title])
    return View(kept, waiting, loans, overdue)


def page_of(message, view):
    """The list that a 63 asks for, from BP to BQ, as fields."""
    lists = {0: (b"AS", view.kept), 1: (b"AT", view.overdue), 2: (b"AU", view.loans), 5: (b"CD", view.waiting)}
    identifier, items = lists.get(message.fixed[2].find(b"Y"), (b"", []))
    first = decimal(message.text(b"BP")) or 1
    last = decimal(message.text(b"BQ")) or len(items)
    return [field(identifier, item) for item in items[first - 1:last]]


class Kiosk:
    """What is told of patrons; the patrons' file is what it says of each, or None."""

    def __init__(self, catalogue, patrons_file):
        self.catalogue, self.patrons_file = catalogue, patrons_file
        self.ao = field(b"AO", catalogue.institution)

    def facts(self, patron):
        return (self.patrons_file or {}).get(patron, NO_FACTS)

    def name_of(self, patron):
        return self.facts(patron).name

    def refusal(self, terminal, message, stamp):
        """The first refusal that applies, or None."""
        if terminal is None:
            return b"NOT LOGGED IN"
        if not message.is_whole or message.get(b"AA") is None:
            return b"MESSAGE UNREADABLE"
        if stamp is None:
            return b"DATE UNREADABLE"
        if message.code != b"35" and message.get(b"AA") not in self.catalogue.patrons:
            return b"UNKNOWN PATRON"
        return None

    def reply(self, terminal, message, date, desk):
        """The reply to a patron message; date is what replies print."""
        stamp = read_date(message.date, self.catalogue.offset)
        refusal = self.refusal(terminal, message, stamp)
        aa, af = field(b"AA", message.text(b"AA")), b"" if refusal is None else field(b"AF", refusal)
        if message.code == b"35":
            return b"36" + (b"Y" if refusal is None else b"N") + date + self.ao + aa + af
        if message.code == b"37":
            return b"38N" + date + self.ao + aa + (af or b"AFNO FEES HERE|")
        if message.code == b"65":
            loans = 0 if refusal else len(desk.loans_of(message.get(b"AA")))
            return b"6600000" + four(loans) + date + self.ao + (af or b"AFRENEW EACH ITEM|")
        code = b"64" if message.code == b"63" else b"24"
        if refusal is not None:
            counts = b"0000" * 6 if message.code == b"63" else b""
            language = self.language(message, NO_FACTS)
            return code + REFUSED_STATUS + language + date + counts + self.ao + aa + b"AE|BLN|" + af
        if message.code == b"63":
            return self.information(message, date, desk, stamp.day)
        status = self.status(message.get(b"AA"), desk)
        af = b"AFCARD NOT BLOCKED|" if message.code == b"01" else b""
        language = self.language(message, self.facts(message.get(b"AA")))
        return b"24" + status + language + date + self.ao + aa + self.name(message) + b"BLY|" + self.cq(message) + af

    def language(self, message, facts):
        """The patron's, or the message's."""
        of_message = b"000" if message.code == b"01" or len(message.fixed[0]) != 3 else message.fixed[0]
        return facts.language or of_message

    def status(self, patron, desk):
        limit = self.catalogue.patrons[patron]
        if limit == 0:
            return b"Y" + b" " * 13
        return b" " * 14 if len(desk.loans_of(patron)) < limit else b"     Y        "

    def is_right(self, message):
        """Whether the password is right, or None where that isn't told."""
        if self.patrons_file is None or message.code == b"01" or message.given(b"AD") is None:
            return None
        password = self.facts(message.get(b"AA")).password
        return password != b"" and password == message.get(b"AD")

    def cq(self, message):
        return {None: b"", True: b"CQY|", False: b"CQN|"}[self.is_right(message)]

    def name(self, message):
        patron = message.get(b"AA")
        return field(b"AE", b"" if self.is_right(message) is False else self.name_of(patron) or patron)

    def information(self, message, date, desk, day):
        """A 64: the counts, and the list as far as it fits."""
        patron = message.get(b"AA")
        view = view_of(desk, patron, day)
        counts = four(len(view.kept)) + four(len(view.overdue)) + four(len(view.loans)) + b"00000000"
        counts += four(len(view.waiting))
        limit = field(b"CB", four(self.catalogue.patrons[patron]))
        reply = b"64" + self.status(patron, desk) + self.language(message, self.facts(patron)) + date + counts
        reply += self.ao + field(b"AA", patron) + self.name(message) + limit + b"BLY|" + self.cq(message)
        if self.is_right(message) is not False:
            for item in page_of(message, view):
                if len(reply) + len(item) > LONGEST_REPLY:
                    break
                reply += item
        return reply
