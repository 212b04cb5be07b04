"""The seven commands, each one step on a desk, and how a copy is settled (docs/desk-rules.md, "Settling a copy" and
"The commands").

Written apart from the program, and naive on purpose: a step writes down what it asks of the desk, each question as it
asks it, and what it changes.
"""

from collections import namedtuple

from .dates import LAST_DAY
from .desk import Hold, Kept, Loan, Shelf, Transit, admits, answer, tied_to

Checkout = namedtuple("Checkout", "patron copy day renews")  # renews: a renewal is asked for, where it is one
OffLine = namedtuple("OffLine", "patron copy due")
Checkin = namedtuple("Checkin", "copy branch day")
Renew = namedtuple("Renew", "patron copy day")
Add = namedtuple("Add", "patron title day kind pickup expiry")
Delete = namedtuple("Delete", "patron title day")
Change = namedtuple("Change", "patron title day kind pickup expiry")  # None: as it was

# What a reply tells of an accepted command.
Lent = namedtuple("Lent", "due is_renewal")
Returned = namedtuple("Returned", "value")
Held = namedtuple("Held", "is_available position pickup expiry")
Deleted = namedtuple("Deleted", "")


class Refused(Exception):
    """The text by which a message is refused."""


class Step:
    """A command on a desk that would get this number: its questions, its changes, and what it tells, or its refusal."""

    def __init__(self, number, is_full, command, desk):
        self.number, self.is_full = number, is_full
        self.desk, self.catalogue = desk, desk.catalogue
        self.questions, self.changes, self.told, self.refusal = [], [], None, None
        steps = {Checkout: self.checkout, OffLine: self.off_line, Checkin: self.checkin, Renew: self.renew,
                 Add: self.add, Delete: self.delete, Change: self.change}
        try:
            self.told = steps[type(command)](command)
        except Refused as refused:
            self.refusal, self.questions, self.changes = refused.args[0], [], []

    def ask(self, *question):
        self.questions.append(question)
        return answer(question, self.desk)

    def ask_copy(self, copy):
        return self.ask("cell", ("copy", copy))

    def ask_hold(self, title, patron):
        return self.ask("cell", ("hold", title, patron))

    def set_copy(self, copy, value):
        self.changes.append((("copy", copy), value))

    def set_hold(self, title, patron, value):
        self.changes.append((("hold", title, patron), value))

    def refuse_if_full(self):
        if self.is_full:
            raise Refused(b"JOURNAL FULL")

    def carry_out(self):
        """Makes its changes."""
        for cell, value in self.changes:
            self.desk.put(cell, value)

    # Loans

    def due_of_loan(self, copy, day):
        due = day + self.catalogue.titles[self.catalogue.title_of(copy)].loan_days
        if due > LAST_DAY:
            raise Refused(b"DUE DATE OUT OF RANGE")
        return due

    def checkout(self, asked):
        value, title = self.ask_copy(asked.copy), self.catalogue.title_of(asked.copy)
        ends_hold = False
        if isinstance(value, Loan):
            if value.patron == asked.patron and asked.renews:
                return self.prolong(asked, value)
            raise Refused(b"ON LOAN")
        if isinstance(value, Shelf):
            first = self.ask("choice", asked.copy, self.catalogue.home_of(asked.copy), asked.day)
            if first is not None and first[0] != asked.patron:
                raise Refused(b"KEPT FOR ANOTHER")
            ends_hold = first is not None
        elif isinstance(value, Kept):
            if value.patron != asked.patron:
                raise Refused(b"KEPT FOR ANOTHER")
            ends_hold = True
        else:
            raise Refused(b"IN TRANSIT")
        if not self.ask("room", asked.patron):
            raise Refused(b"LOAN LIMIT")
        due = self.due_of_loan(asked.copy, asked.day)
        self.refuse_if_full()
        self.set_copy(asked.copy, Loan(asked.patron, due, 0))
        if ends_hold:
            self.ask_hold(title, asked.patron)
            self.set_hold(title, asked.patron, None)
        return Lent(due, False)

    def prolong(self, asked, loan):
        """Renews a loan of the patron."""
        first = self.ask("choice", asked.copy, self.catalogue.home_of(asked.copy), asked.day)
        most = self.catalogue.titles[self.catalogue.title_of(asked.copy)].renewals
        if loan.renewals >= most or (first is not None and first[0] != asked.patron):
            raise Refused(b"NOT RENEWABLE")
        due = self.due_of_loan(asked.copy, asked.day)
        self.refuse_if_full()
        self.set_copy(asked.copy, Loan(asked.patron, due, loan.renewals + 1))
        return Lent(due, True)

    def renew(self, asked):
        value = self.ask_copy(asked.copy)
        if not isinstance(value, Loan) or value.patron != asked.patron:
            raise Refused(b"NOT ON LOAN TO PATRON")
        return self.prolong(asked, value)

    def off_line(self, asked):
        self.refuse_if_full()
        title = self.catalogue.title_of(asked.copy)
        value, hold = self.ask_copy(asked.copy), self.ask_hold(title, asked.patron)
        self.set_copy(asked.copy, Loan(asked.patron, asked.due, 0))
        if hold is not None:
            is_filled = hold.copy is None and admits(self.catalogue, hold.kind, hold.pickup, asked.copy)
            if hold.copy == asked.copy or is_filled:
                self.set_hold(title, asked.patron, None)
        other = tied_to(value)
        if other is not None and other != asked.patron:
            self.set_hold(title, other, self.ask_hold(title, other)._replace(copy=None))
        return Lent(asked.due, False)

    # Returns

    def checkin(self, asked):
        self.refuse_if_full()
        value, title = self.ask_copy(asked.copy), self.catalogue.title_of(asked.copy)
        patron = tied_to(value)
        if patron is None:
            new = self.settle_untied(asked.copy, asked.branch, asked.day, None)
        else:
            hold = self.ask_hold(title, patron)
            if hold.pickup != asked.branch:
                new = Transit(asked.branch, hold.pickup, patron)
            elif isinstance(value, Kept) and value.branch == asked.branch:
                new = value
            else:
                new = Kept(asked.branch, self.ask("place", asked.branch), patron)
        self.set_copy(asked.copy, new)
        return Returned(new)

    def settle_untied(self, copy, branch, day, standing):
        """Where a copy that is tied to nobody goes from a branch; standing is its place on that hold shelf, or None."""
        title, home = self.catalogue.title_of(copy), self.catalogue.home_of(copy)
        first = self.ask("choice", copy, branch, day)
        if first is None:
            return Shelf(branch) if branch == home else Transit(branch, home, None)
        patron, hold = first
        self.ask_hold(title, patron)
        self.set_hold(title, patron, hold._replace(copy=copy))
        if hold.pickup != branch:
            return Transit(branch, hold.pickup, patron)
        return Kept(branch, self.ask("place", branch) if standing is None else standing, patron)

    # Holds

    def add(self, asked):
        if self.ask_hold(asked.title, asked.patron) is not None:
            raise Refused(b"HOLD EXISTS")
        self.refuse_expired(asked)
        self.refuse_if_full()
        position = self.ask("position", asked.title, self.number)
        is_available = self.ask("on shelf", asked.title, asked.kind, asked.pickup)
        hold = Hold(self.number, asked.kind, asked.pickup, asked.expiry, None)
        self.set_hold(asked.title, asked.patron, hold)
        return Held(is_available, position, hold.pickup, hold.expiry)

    def refuse_expired(self, asked):
        if asked.expiry is not None and asked.expiry < asked.day:
            raise Refused(b"EXPIRY PASSED")

    def hold_of(self, asked):
        hold = self.ask_hold(asked.title, asked.patron)
        if hold is None:
            raise Refused(b"NO SUCH HOLD")
        return hold

    def delete(self, asked):
        hold = self.hold_of(asked)
        self.refuse_if_full()
        self.set_hold(asked.title, asked.patron, None)
        if hold.copy is not None:
            value = self.ask_copy(hold.copy)
            if isinstance(value, Kept):
                new = self.settle_untied(hold.copy, value.branch, asked.day, value.place)
            else:
                new = value._replace(patron=None)
            self.set_copy(hold.copy, new)
        return Deleted()

    def change(self, asked):
        hold = self.hold_of(asked)
        if hold.copy is not None:
            raise Refused(b"HOLD HAS ITS COPY")
        self.refuse_expired(asked)
        self.refuse_if_full()
        stated = {name: getattr(asked, name) for name in ("kind", "pickup", "expiry")}
        new = hold._replace(**{name: value for name, value in stated.items() if value is not None})
        position = self.ask("position", asked.title, hold.stamp)
        is_available = self.ask("on shelf", asked.title, new.kind, new.pickup)
        self.set_hold(asked.title, asked.patron, new)
        return Held(is_available, position, new.pickup, new.expiry)
