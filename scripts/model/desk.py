"""The desk: where each copy is, the holds, and the six questions that may be asked of it (docs/desk-rules.md, "State").

Written apart from the program, and naive on purpose: every question is answered by a walk over all copies or holds.
"""

from collections import namedtuple

# Where a copy is. One that is kept, or in transit with a patron, is tied to that patron.
Shelf = namedtuple("Shelf", "branch")
Loan = namedtuple("Loan", "patron due renewals")
Kept = namedtuple("Kept", "branch place patron")
Transit = namedtuple("Transit", "start to patron")

# Which copies a hold admits: ("any",), ("copy", copy) or ("branch",), which are those at home at the pickup.
Hold = namedtuple("Hold", "stamp kind pickup expiry copy")


class Desk:
    """The copies by name, and the holds by title and patron. A cell is ("copy", copy) or ("hold", title, patron)."""

    def __init__(self, catalogue, copies=None, holds=None):
        self.catalogue = catalogue
        at_home = {copy: Shelf(facts.home) for copy, facts in catalogue.copies.items()}
        self.copies = at_home if copies is None else dict(copies)
        self.holds = {} if holds is None else dict(holds)

    def twin(self):
        """Another desk that is the same."""
        return Desk(self.catalogue, self.copies, self.holds)

    def get(self, cell):
        return self.copies[cell[1]] if cell[0] == "copy" else self.holds.get(cell[1:])

    def put(self, cell, value):
        if cell[0] == "copy":
            self.copies[cell[1]] = value
        elif value is None:
            self.holds.pop(cell[1:], None)
        else:
            self.holds[cell[1:]] = value

    def loans_of(self, patron):
        return [copy for copy, value in self.copies.items() if isinstance(value, Loan) and value.patron == patron]

    def holds_of_title(self, title):
        """The holds of a title, each as its patron and the hold."""
        return [(patron, hold) for (held, patron), hold in self.holds.items() if held == title]


def tied_to(value):
    """The patron whom a copy is tied to, or None."""
    return value.patron if isinstance(value, (Kept, Transit)) else None


def admits(catalogue, kind, pickup, copy):
    """Whether a hold of this kind and pickup admits a copy of its title."""
    if kind[0] == "branch":
        return catalogue.home_of(copy) == pickup
    return kind[0] == "any" or kind[1] == copy


def choice(desk, copy, branch, day):
    """The patron and the hold that a copy at a branch is for, or None."""
    catalogue = desk.catalogue
    title = catalogue.title_of(copy)
    candidates = [
        (patron, hold) for patron, hold in desk.holds_of_title(title)
        if hold.copy is None
        and admits(catalogue, hold.kind, hold.pickup, copy)
        and not (hold.expiry is not None and hold.expiry < day)
    ]
    if catalogue.titles[title].is_local:
        here = [(patron, hold) for patron, hold in candidates if hold.pickup == branch]
        candidates = here or candidates
    return min(candidates, key=lambda candidate: candidate[1].stamp, default=None)


def place(desk, branch):
    """The least number from 1 at which nothing stands on a branch's hold shelf."""
    taken = {value.place for value in desk.copies.values() if isinstance(value, Kept) and value.branch == branch}
    number = 1
    while number in taken:
        number += 1
    return number


def has_room(desk, patron):
    """Whether a patron's loans are fewer than their limit."""
    return len(desk.loans_of(patron)) < desk.catalogue.patrons[patron]


def position(desk, title, stamp):
    """One more than the number of holds of a title with a smaller stamp."""
    return 1 + sum(1 for _, hold in desk.holds_of_title(title) if hold.stamp < stamp)


def is_on_shelf(desk, title, kind, pickup):
    """Whether some copy that a hold admits stands on an open shelf."""
    return any(isinstance(value, Shelf) and desk.catalogue.title_of(copy) == title
               and admits(desk.catalogue, kind, pickup, copy) for copy, value in desk.copies.items())


QUESTIONS = {"cell": Desk.get, "choice": choice, "place": place, "room": has_room, "position": position,
             "on shelf": is_on_shelf}


def answer(question, desk):
    """What is answered to a question: its name and what it is about."""
    name, *about = question
    return QUESTIONS[name](desk, *about)
