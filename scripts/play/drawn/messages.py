"""The messages that terminals send, drawn at random: their parts, their order, and their trailers."""

from model.lines import checked

DATES = (
    *[b"20260301    100000"] * 12, *[b"20260302    090000"] * 3, *[b"20260310    235959"] * 2, b"20260228    000000",
    b"20260301   Z233000", b"20260301   Z003000", b"20260401    000000", b"20270101    120000",
)
EDGE_DATES = (
    b"99991231    235959", b"99991231   Z235959", b"00000101    000000", b"00000101   Z000000", b"00000229    000000",
    b"20240229    120000", b"19000229    120000", b"21000229    120000", b"20260229    100000", b"20000229    100000",
    b"20260301    240000", b"20260301    106000", b"20260301    100060", b"20261301    100000", b"20260001    100000",
    b"20260300    100000", b"20260431    100000", b"20260301EST 100000", b"20260301   z100000", b"20260301Z   100000",
    b" " * 18, b"2026030 1   100000", b"20260301    10000\xb2", b"99990101    000000", b"99991201    000000", b"0" * 18,
    b"x" * 18, b"99991217    100000", b"00001231    235959",
)
NO_DATE = b" " * 18
NO_NAMES = (b"", b"x", b"p", b"north ", b"\x00")
SHORT = {b"BI": 1, b"BO": 1, b"BY": 1, b"BW": 18}  # values that need no bar behind them
# First and last items of a list that a 63 asks for.
BOUNDS = (b"10", b"25", b"26", b"30", b"31", b"60", b"", b"0", b"1", b"2", b"3", b"9", b"01", b"00", b"-1", b"x",
          b"1x", b" 1", b"9" * 20, b"4294967297", b"18446744073709551616", b"18446744073709551617")


class Messages:
    """The messages of a library's terminals. How many have a trailer, a date at the edges, or something odd is drawn
    for the whole of a script."""

    def __init__(self, draw, library):
        self.draw, self.library, self.digit = draw, library, 0
        self.day = draw.choice(DATES)
        self.guarded = draw.choice((0, 0.3, 0.9))
        self.edges = draw.choice((0, 0.02, 0.1))
        self.oddness = draw.choice((0, 0, 0.03, 0.15))

    def is_so(self, chance):
        return self.draw.random() < chance

    def name(self, names):
        """A name of the library, mostly one of the first two, and now and then one that it lacks."""
        names = list(names)
        if not names or self.is_so(0.01 + self.oddness / 3):
            return self.draw.choice([*NO_NAMES, *names])
        return self.draw.choice(names[:2] if self.is_so(0.5) else names)

    def date(self):
        if self.is_so(self.edges):
            return self.draw.choice(EDGE_DATES)
        return self.day if self.is_so(0.6) else self.draw.choice(DATES)

    def cancels(self, chance):
        """BI: `Y` at this chance."""
        if self.is_so(chance):
            return b"Y"
        return self.draw.choice((None, None, None, b"N", b"") if self.is_so(0.9) else (b"y", b" ", b"1"))

    def sealed(self, body):
        """A body with a trailer, or without."""
        if not self.is_so(self.guarded):
            return body
        if self.is_so(0.9):
            self.digit = (self.digit + 1) % 10 if self.is_so(0.9) else self.draw.randrange(10)
            body += b"AY%d" % self.digit
        line = checked(body)
        if self.is_so(0.04):
            wrong = int(line[-4:], 16) + self.draw.choice((1, 255, 256))
            return line[:-4] + b"%04X" % (wrong % 65536)
        return line[:-4] + line[-4:].lower() if self.is_so(0.06) else line

    def fields(self, *pairs):
        """Fields in some order, with what terminals add, of which some are repeated, left out or lack their bar."""
        draw, pairs = self.draw, [pair for pair in pairs if pair[1] is not None]
        if self.is_so(0.2):
            pairs.append((b"AC", b""))
        if self.is_so(0.1):
            pairs.append((draw.choice((b"AD", b"CP", b"CH", b"BO", b"XX")), draw.choice((b"", b"1234", b"N", b"Y"))))
        if self.is_so(0.3):
            draw.shuffle(pairs)
        if self.is_so(self.oddness):
            identifier, value = draw.choice(pairs)
            again = identifier, draw.choice((value, b"", b"N", b"Y", b"c1", b"p1", b"1"))
            pairs.insert(draw.randrange(len(pairs) + 1), again)
        if self.is_so(self.oddness / 2):
            pairs.pop(draw.randrange(len(pairs)))
        text = b"AOlib|" if self.is_so(0.5) else b""
        for identifier, value in pairs:
            needs_bar = len(value) != SHORT.get(identifier) or self.is_so(0.8)
            text += identifier + value + (b"|" * draw.choice([1] * 30 + [2, 3]) if needs_bar else b"")
        if self.is_so(0.05):
            text = text.removesuffix(b"|")
        if self.is_so(self.oddness / 3):
            text = draw.choice((b"|", b"|X", b"X|", b"BIY", b"Q", b"BY2")) + text
        return text

    def command(self, code, patron, copy, title, cancels):
        """A command, or its like with BI=Y. `11-` is an off-line checkout, `15` has its mode behind it."""
        if code in (b"11", b"11-"):
            return self.checkout(code == b"11-", patron, copy, cancels)
        if code == b"09":
            return self.checkin(copy, cancels)
        if code == b"29":
            head = b"29" + self.draw.choice((b"NN", b"YN", b"NY")) + self.date() + NO_DATE
            title = None if self.is_so(0.7) else self.name(self.library.titles)
            return head + self.fields((b"AA", patron), (b"AB", copy), (b"AJ", title), (b"BI", cancels))
        return self.hold(code[2:], patron, self.name(self.library.titles) if title is None else title, cancels)

    def checkout(self, is_off_line, patron, copy, cancels):
        policy = self.draw.choice((b"N", b"N", b"Y")) if self.is_so(0.97) else b"x"
        block = b"Y" if is_off_line else self.draw.choice((b"N", b"N", b"N", b"n", b" "))
        due = self.date() if is_off_line or self.is_so(0.5) else NO_DATE
        fields = self.fields((b"AA", patron), (b"AB", copy), (b"BI", cancels))
        return b"11" + policy + block + self.date() + due + fields

    def checkin(self, copy, cancels):
        at = self.name(self.library.branches) if self.is_so(0.85) else self.draw.choice((None, b"", b"zz"))
        head = b"09" + self.draw.choice((b"N", b"Y")) + self.date() + self.draw.choice((self.date(), NO_DATE))
        return head + self.fields((b"AP", at), (b"AB", copy), (b"BI", cancels))

    def hold(self, mode, patron, title, cancels):
        draw, library = self.draw, self.library
        if self.is_so(self.oddness / 4):
            mode = draw.choice((b" ", b"?", b"Y"))
        copy, named, kind, pickup = None, title, None, draw.choice((None, None, b""))
        if self.is_so(0.25):
            own = library.copies_of(title)
            copy = draw.choice(own) if own and self.is_so(0.97) else self.name(library.copies)
            named = title if self.is_so(0.3) else draw.choice((None, b""))
        if self.is_so(0.55):
            kind = draw.choice((b"2", b"2", b"3" if copy else b"2", b"4", b"1", b" ", b""))
        elif self.is_so(self.oddness / 3):
            kind = draw.choice((b"3", b"5", b"Y", b"\xff"))
        if self.is_so(0.6):
            pickup = self.name(library.branches)
        return b"15" + mode + self.date() + self.fields(
            (b"BW", self.expiry() if self.is_so(0.2) else None), (b"BS", pickup), (b"BY", kind), (b"AA", patron),
            (b"AB", copy), (b"AJ", named), (b"BI", cancels))

    def expiry(self):
        if self.is_so(0.02 + self.oddness):
            return self.draw.choice((b" ", b"  ", b" " * 17, b"2026", b"20260305    00000", b"1"))
        return self.draw.choice((self.date(), NO_DATE, b"", b"20260305    000000", b"20260301    235959"))

    def item(self):
        return b"17" + self.date() + self.fields((b"AB", self.name(self.library.copies)))

    def login(self):
        name = self.name(self.library.terminals)
        password, _ = self.library.terminals.get(name, (b"pw", None))
        if self.is_so(0.05):
            password = self.draw.choice((b"", b"no", b"pw "))
        algorithms = b"00" if self.is_so(0.97) else self.draw.choice((b"01", b"10", b"0", b""))
        return b"93" + algorithms + self.fields((b"CN", name), (b"CO", password))

    def of_patron(self):
        """A message about a patron, of which two codes are never answered."""
        draw, date = self.draw, self.date()
        code = draw.choice((b"23", b"63", b"63", b"63", b"35", b"01", b"37", b"65", b"19", b"25"))
        pairs = [(b"AA", self.name(self.library.patrons))]
        if code in (b"23", b"63", b"35", b"01") and self.is_so(0.5):
            pairs.append((b"AD", draw.choice((b"", b"1234", b"pin", b"\xe9", b"x"))))
        before = draw.choice((b"000", b"001", b"Eng", b"   ")) if code in (b"23", b"63") else b""
        head = code + (draw.choice((b"N", b"Y")) if code == b"01" else before) + date
        if code == b"63":
            head += self.summary()
            pairs += [(bound, draw.choice(BOUNDS)) for bound in (b"BP", b"BQ") if self.is_so(0.3)]
        if code == b"37":
            head += b"0100EUR"
        return head[:draw.randrange(2, len(head))] if self.is_so(0.05) else head + self.fields(*pairs)

    def summary(self):
        """Which list a 63 asks for, or several."""
        summary = bytearray(b" " * 10)
        for _ in range(self.draw.choice((0, 1, 1, 1, 2))):
            summary[self.draw.choice((0, 1, 2, 5, 0, 1, 2, 5, 3, 4, 6, 9))] = self.draw.choice(b"YYYYYyN")
        return bytes(summary)
