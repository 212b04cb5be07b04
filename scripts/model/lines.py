"""Lines: trailers, check numbers, fields, and a message cut into its parts (docs/protocol.md, "Lines, trailers and
fields" and "Messages read").

Written apart from the program, and naive on purpose.
"""

from collections import namedtuple

from .dates import is_digits

LONGEST_LINE = 1024
WIDTHS = {b"BI": 1, b"BO": 1, b"BY": 1, b"BW": 18}  # of values that end there, if no bar comes before

# Of each message the widths of its fixed part, and which of these parts is the transaction date.
FIXED = {
    b"93": ((1, 1), None),
    b"11": ((1, 1, 18, 18), 2),
    b"09": ((1, 18, 18), 1),
    b"15": ((1, 18), 1),
    b"29": ((1, 1, 18, 18), 2),
    b"17": ((18,), 0),
    b"23": ((3, 18), 1),
    b"63": ((3, 18, 10), 1),
    b"35": ((18,), 0),
    b"01": ((1, 18), 1),
    b"37": ((18, 2, 2, 3), 0),
    b"65": ((18,), 0),
}

# What a trailer says of a line: plain, checked or wrong; the body; and the sequence digit, or None.
Guarded = namedtuple("Guarded", "kind body digit")


def is_hexadecimal(text):
    return all(byte in b"0123456789abcdefABCDEF" for byte in text)


def trailer(line):
    """What the last bytes of a line say of it."""
    if len(line) < 6 or line[-6:-4] != b"AZ" or not is_hexadecimal(line[-4:]):
        return Guarded("plain", line, None)
    if (sum(line[:-4]) + int(line[-4:], 16)) % 65536 != 0:
        return Guarded("wrong", b"", None)
    body = line[:-6]
    if len(body) >= 3 and body[-3:-1] == b"AY" and is_digits(body[-1:]):
        return Guarded("checked", body[:-3], body[-1:])
    return Guarded("checked", body, None)


def checked(text):
    """A text with its check number behind it."""
    text += b"AZ"
    return text + b"%04X" % (-sum(text) % 65536)


def seal(reply, guarded):
    """A reply with the trailer that answers that of the line."""
    if guarded.kind == "plain":
        return reply
    return checked(reply if guarded.digit is None else reply + b"AY" + guarded.digit)


def fields_of(part):
    """The values by identifier: of a repeated one the first."""
    fields, at = {}, 0
    while at < len(part):
        if part[at:at + 1] == b"|":
            at += 1
            continue
        if at + 1 == len(part):
            break
        identifier, start = part[at:at + 2], at + 2
        end = part.find(b"|", start)
        if end < 0:
            end = len(part)
        if identifier in WIDTHS:
            end = min(end, start + WIDTHS[identifier])
        fields.setdefault(identifier, part[start:end])
        at = end
    return fields


class Message:
    """The fixed part and the fields of a body whose code has a fixed part."""

    def __init__(self, body):
        self.code = body[:2]
        widths, date_at = FIXED[self.code]
        self.fixed, at = [], 2
        for width in widths:
            self.fixed.append(body[at:at + width])
            at += width
        self.is_whole = len(body) >= at
        self.fields = fields_of(body[at:]) if self.is_whole else {}
        self.date = None if date_at is None else self.fixed[date_at]

    def get(self, identifier):
        """The value, or None where it is absent."""
        return self.fields.get(identifier)

    def given(self, identifier):
        """The value, or None where it is absent or empty."""
        return self.fields.get(identifier) or None

    def text(self, identifier):
        """The value, empty where it is absent."""
        return self.fields.get(identifier, b"")


def field(identifier, value):
    return identifier + value + b"|"


def optional(identifier, value):
    """A field that is left out where it has no value."""
    return b"" if value is None else field(identifier, value)
