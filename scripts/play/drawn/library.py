"""A small library drawn at random: the lines of its catalogue, of its patrons' file and of an opening of it."""

DIGEST = b"DIGEST"  # stands in an opening where the digest of the catalogue goes

PLAIN = {
    "branch": (b"north", b"south", b"east"),
    "terminal": (b"t1", b"t2", b"t3", b"t4"),
    "patron": (b"p1", b"p2", b"p3", b"p4"),
    "title": (b"ta", b"tb", b"tc"),
    "copy": (b"c1", b"c2", b"c3", b"c4", b"c5"),
}
# Names that differ in little, are as long as they may be, or look like other parts of a message.
ODD = (b"a", b"A", b"b", b"ab", b"a ", b" ", b"\xff", b"\xc3\xa9", b"AZ0000", b"AY1AZFFFF", b"BIY", b"1", b"2", b"Y",
       b"x" * 60, b"y" * 59, b"~", b"0", b"north", b"H1", b"T")


class Library:
    """What stands in a catalogue, by names: passwords and branches of terminals, loan limits of patrons, loan days,
    renewals and priorities of titles, titles and homes of copies."""

    def __init__(self, draw):
        self.draw = draw
        names = PLAIN if draw.random() < 0.8 else {kind: draw.sample(ODD, len(plain)) for kind, plain in PLAIN.items()}

        def some(kind, *counts):
            return names[kind][:draw.choice(counts)]

        self.version = draw.choice((1, 2, 2))
        self.institution = draw.choice((b"lib", b"lib", b"L", b"\xe9t\xe9", b"i" * 60))
        self.offset = draw.choice((0, 60, 60, -300, 1439, -1439))
        self.limit = draw.choice([1, 3, 6, 12, 30] + [1000, 1_000_000] * 10)
        self.branches = list(some("branch", 1, 2, 2, 2, 3))
        self.terminals = {name: (draw.choice((b"pw", b"pw", b"P W")), draw.choice(self.branches))
                          for name in some("terminal", 1, 2, 2, 3, 4)}
        self.patrons = {name: draw.choice((0, 1, 1, 2, 3, 3, 999)) for name in some("patron", 1, 2, 2, 3, 3, 4)}
        days, renewals = (0, 1, 5, 14, 21, 3650), (0, 1, 1, 2, 99)
        self.titles = {name: (draw.choice(days), draw.choice(renewals), draw.choice((b"L", b"N")))
                       for name in some("title", 1, 1, 1, 2, 2, 3)}
        self.copies = {name: (draw.choice(list(self.titles)), draw.choice(self.branches))
                       for name in some("copy", 1, 2, 3, 3, 4, 5)}
        if draw.random() < 0.04:
            self.leave_out()

    def leave_out(self):
        """Leaves all of some kind out, and what needs it."""
        what = self.draw.choice(("copies", "titles", "patrons", "terminals", "branches"))
        if what == "branches":
            self.branches, self.terminals, self.copies = [], {}, {}
        elif what == "titles":
            self.titles, self.copies = {}, {}
        else:
            setattr(self, what, {})

    def is_whole(self):
        """Whether it has some of each kind, and takes many commands."""
        return bool(self.limit >= 1000 and self.terminals and self.patrons and self.copies)

    def copies_of(self, title):
        return [copy for copy, (its, _) in self.copies.items() if its == title]

    def catalogue(self):
        yield b"H|%d|%s|%d|%d" % (self.version, self.institution, self.offset, self.limit)
        yield from (b"B|" + branch for branch in self.branches)
        for title, (days, renewals, priority) in self.titles.items():
            yield b"T|%s|%d|%d" % (title, days, renewals) + (b"|" + priority if self.version == 2 else b"")
        yield from (b"P|%s|%d" % patron for patron in self.patrons.items())
        yield from (b"S|%s|%s|%s" % (terminal, *facts) for terminal, facts in self.terminals.items())
        yield from (b"C|%s|%s|%s" % (copy, *facts) for copy, facts in self.copies.items())

    def patrons_file(self):
        draw = self.draw
        yield b"H|patrons|1"
        for patron in self.patrons:
            if draw.random() < 0.7:
                yield b"|".join([b"P", patron, draw.choice((b"", b"1234", b"pin", b"\xe9")),
                                 draw.choice((b"", b"001", b"019", b"999")),
                                 draw.choice((b"", b"Ada", b"Bo Ek", b"z" * 60, b"\xe9"))])

    def opening(self):
        """The lines of a sound desk."""
        last = self.draw.choice((0, 5, 9, 40, 99, 999_999_999))
        pickups = {}
        holds = list(self.opening_holds(last, pickups)) if last else []
        return [b"H|opening|1|%d|%s" % (last, DIGEST), *holds, *self.opening_copies(pickups)]

    def opening_holds(self, last, pickups):
        """The lines of holds, each with a stamp of its own; and into pickups where each is picked up."""
        draw = self.draw
        for title in self.titles:
            stamps = list(range(1, min(last, 12) + 1))
            draw.shuffle(stamps)
            for patron in self.patrons:
                kind, copy = draw.choice((b"any", b"any", b"branch", b"copy")), b""
                if draw.random() < 0.5 or not stamps or (kind == b"copy" and not self.copies_of(title)):
                    continue
                if kind == b"copy":
                    copy = draw.choice(self.copies_of(title))
                pickup = pickups[title, patron] = draw.choice(self.branches)
                expiry = draw.choice((b"", b"", b"20260228", b"20260301", b"20260310"))
                yield b"R|%s|%s|%d|%s|%s|%s|%s" % (title, patron, stamps.pop(), kind, copy, pickup, expiry)

    def opening_copies(self, pickups):
        """The lines of copies, some for holds with these pickups."""
        draw, places = self.draw, set()
        for copy, (title, home) in self.copies.items():
            kind, branch = draw.choice(" LOKWU"), draw.choice(self.branches)
            waiting = [patron for its, patron in pickups if its == title]
            if kind == "L" and self.patrons:
                due = draw.choice((b"20260301", b"20260228", b"20260401", b"99991231"))
                yield b"L|%s|%s|%s|%d" % (copy, draw.choice(list(self.patrons)), due, draw.choice((0, 0, 1, 99)))
            elif kind == "O" and (branch != home or draw.random() < 0.1):
                yield b"O|%s|%s" % (copy, branch)
            elif kind == "U":
                yield b"U|%s|%s|%s" % (copy, branch, draw.choice(self.branches))
            elif kind == "W" and waiting:
                patron = draw.choice(waiting)
                del pickups[title, patron]
                yield b"W|%s|%s|%s" % (copy, patron, branch)
            elif kind == "K" and waiting:
                patron, place = draw.choice(waiting), draw.choice((1, 2, 3, 1_000_001))
                if (pickups[title, patron], place) not in places:
                    places.add((pickups.pop((title, patron)), place))
                    yield b"K|%s|%s|%d" % (copy, patron, place)


def whole_library(draw):
    """A library that has some of each kind, and takes many commands."""
    library = Library(draw)
    while not library.is_whole():
        library = Library(draw)
    return library


def few_of_all(library):
    """Makes a library one of a single title with one or two copies."""
    draw = library.draw
    library.titles = {b"ta": (draw.choice((0, 5, 21)), draw.choice((1, 3, 99)), draw.choice((b"L", b"N")))}
    library.copies = {b"c%d" % number: (b"ta", draw.choice(library.branches)) for number in range(draw.choice((1, 2)))}
    library.patrons = {b"p%d" % number: draw.choice((1, 2, 3)) for number in range(draw.choice((1, 2, 3)))}


def full_shelves(library):
    """Makes a library one of several titles, whose copies meet on few hold shelves."""
    draw = library.draw
    library.branches = library.branches[:2]
    library.terminals = {b"t1": (b"pw", library.branches[0]), b"t2": (b"pw", library.branches[-1])}
    library.titles = {b"ta": (21, 1, b"L"), b"tb": (1, 2, b"N"), b"tc": (0, 9, b"L")}
    library.copies = {b"c%d" % number: (draw.choice((b"ta", b"tb", b"tc")), draw.choice(library.branches))
                      for number in range(draw.choice((4, 6, 8)))}
    library.patrons = {b"p%d" % number: draw.choice((1, 1, 2, 3)) for number in range(draw.choice((2, 3, 5)))}


def long_lists(library):
    """Makes a library one of many titles and copies of long names, for few patrons."""
    draw = library.draw

    def names(letter, count):
        for number in range(count):
            text = letter + b"%d" % number
            room = 60 - len(text)
            yield text + b"." * draw.choice((room, room - draw.randrange(10), draw.randrange(room + 1)))

    library.institution, library.branches = draw.choice((b"lib", b"i" * 60)), list(names(b"b", 2))
    library.terminals = {b"t1": (b"pw", library.branches[0])}
    library.patrons = {name: draw.choice((0, 1, 20, 30, 999)) for name in names(b"p", draw.choice((1, 2, 3)))}
    library.titles = {name: (draw.choice((0, 21)), draw.choice((0, 1)), draw.choice((b"L", b"N")))
                      for name in names(b"t", draw.choice((5, 20, 60)))}
    library.copies = {name: (draw.choice(list(library.titles)), draw.choice(library.branches))
                      for name in names(b"c", draw.choice((20, 50, 80)))}
