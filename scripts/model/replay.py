"""The program replay: files and options, then lines of sessions, and what is printed (docs/protocol.md, "The program
replay").

Written apart from the program, and naive on purpose.
"""

from collections import namedtuple

from .dates import is_digits, read_date
from .desk import Desk
from .files import Catalogue, Fault, read_patrons
from .openings import Opening
from .sessions import Server, Session
from .turns import TurnMachine

SESSIONS = 64

# What replay is given beside its input: the texts of its files, where there are any, and its options.
Given = namedtuple("Given", "catalogue now patron_messages sorter_fields patrons opening",
                   defaults=(False, False, None, None))
# What it says: its output, the line on standard error or None, and its status.
Said = namedtuple("Said", "output fault status")


def session_of(line):
    """The number of the session, and the message, of a line of the input."""
    number, blank, message = line.partition(b" ")
    if not blank or not is_digits(number) or number[:1] == b"0" or len(number) > 2 or int(number) > SESSIONS:
        return None
    return int(number), message


def input_lines(text):
    """The lines of an input, of which the last may lack its end."""
    *lines, rest = text.split(b"\n")
    return lines + [rest] if rest else lines


class Replay:
    """The program between the reading of its files and its end. Where a file has a fault, so has this."""

    def __init__(self, given):
        catalogue = Catalogue(given.catalogue)
        desk, last = Desk(catalogue), 0
        if given.opening is not None:
            opening = Opening(given.opening, catalogue)
            desk, last = opening.desk, opening.last
        # The rules don't say which of these two files is looked at first.
        patrons = None if given.patrons is None else read_patrons(given.patrons, catalogue)
        now = read_date(given.now, catalogue.offset)
        if now is None:
            raise Fault(b"bad --now")
        self.machine = TurnMachine(desk, last)
        self.server = Server(catalogue, now, self.machine, given.patron_messages, given.sorter_fields, patrons)
        self.sessions = {number: Session() for number in range(1, SESSIONS + 1)}
        self.lines = 0  # how many were read

    def read(self, line):
        """What is printed for a line of the input."""
        self.lines += 1
        found = session_of(line)
        if found is None:
            raise Fault(b"input line %d: no session" % self.lines)
        number, message = found
        session = self.sessions[number]
        replies = self.server.feed(session, message + b"\r")
        if session.has_ended:
            replies.append(b"ENDED")
        return b"".join(b"%d %s\n" % (number, reply) for reply in replies)


def replay(given, text):
    """What replay says of an input."""
    output = b""
    try:
        program = Replay(given)
        for line in input_lines(text):
            output += program.read(line)
    except Fault as fault:
        return Said(output, fault.args[0], 1)
    return Said(output, None, 0)
