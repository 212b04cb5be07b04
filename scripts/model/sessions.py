"""Sessions: from the bytes of a line to its reply (docs/protocol.md, "Asking again", "Sessions").

Written apart from the program, and naive on purpose.
"""

from .dates import print_stamp, read_date
from .kiosks import PATRON_MESSAGES, Kiosk
from .lines import LONGEST_LINE, Message, checked, field, seal, trailer
from .replies import Replies
from .requests import REQUIRED, Query, Request

ASK_AGAIN = b"96"


class Session:
    """What is kept of one connection."""

    def __init__(self):
        self.terminal = None
        self.last = None  # the last reply that isn't a 96
        self.digit = None  # the last sequence digit
        self.gaps = 0
        self.has_ended = False
        self.rest = b""  # what came behind the last CR
        self.is_behind_cr = False  # nothing but LFs came since the last CR

    def count_gap(self, digit):
        """Counts a gap where a digit isn't the one after the last."""
        if self.digit is not None and digit != (self.digit + 1) % 10:
            self.gaps += 1
        self.digit = digit


class Server:
    """Answers the lines of sessions, with one journal behind them. The present stands still."""

    def __init__(self, catalogue, now, machine, patron_messages=False, sorter_fields=False, patrons_file=None):
        self.catalogue, self.now, self.machine, self.patron_messages = catalogue, now, machine, patron_messages
        self.kiosk = Kiosk(catalogue, patrons_file)
        self.replies = Replies(catalogue, sorter_fields, self.kiosk.name_of)

    def feed(self, session, piece):
        """The replies, without their CRs, to the next bytes of a session."""
        replies = []
        for byte in piece:
            if session.has_ended:
                break
            if byte == 0x0D:
                replies.append(self.line(session, session.rest))
                session.rest, session.is_behind_cr = b"", True
            elif not (byte == 0x0A and session.is_behind_cr):
                session.rest += bytes([byte])
                session.is_behind_cr = False
                session.has_ended = len(session.rest) > LONGEST_LINE
        return [reply for reply in replies if reply is not None]

    def line(self, session, line):
        """The reply to a line, or None to an empty one."""
        if line == b"":
            return None
        guarded = trailer(line)
        if guarded.kind == "wrong":
            return checked(ASK_AGAIN)
        if guarded.digit is not None:
            session.count_gap(int(guarded.digit))
        if guarded.body[:2] == b"97" and session.last is not None:
            return session.last
        reply = self.body(session, guarded.body, line if guarded.digit is not None else None)
        if reply is None:
            return ASK_AGAIN if guarded.kind == "plain" else checked(ASK_AGAIN)
        session.last = seal(reply, guarded)
        return session.last

    def body(self, session, body, line):
        """The reply to a body, without a trailer, or None where it is asked for again; its line where that has a
        sequence digit, else None."""
        code = body[:2]
        if code == b"93":
            return self.login(session, Message(body))
        if code == b"99":
            messages = b"YYYNYYYYYNYNNYYN" if self.patron_messages else b"NYYNYYYNNNYNNYYN"
            status = b"98YYYYNY100003" + print_stamp(self.now) + b"2.00"
            return status + field(b"AO", self.catalogue.institution) + field(b"BX", messages)
        if self.patron_messages and code in PATRON_MESSAGES:
            message = Message(body)
            return self.kiosk.reply(session.terminal, message, self.date(message), self.machine.desk)
        if code in REQUIRED:
            return self.at_desk(session, Message(body), line)
        return None

    def date(self, message):
        """The date that a reply prints: the message's, or the present."""
        stamp = read_date(message.date, self.catalogue.offset)
        return print_stamp(self.now if stamp is None else stamp)

    def login(self, session, message):
        if not message.is_whole or message.fixed != [b"0", b"0"]:
            return b"940"
        terminal = self.catalogue.terminals.get(message.get(b"CN"))
        if terminal is None or message.get(b"CO") != terminal.password:
            return b"940"
        session.terminal = message.get(b"CN")
        return b"941"

    def at_desk(self, session, message, line):
        """The reply to an 11, 09, 15, 29 or 17."""
        request, date = Request(self.catalogue, session.terminal, message), self.date(message)
        if request.refusal is not None:
            return self.replies.refused(message, date, request.refusal)
        if isinstance(request.ask, Query):
            return self.replies.item(message, date, self.machine.desk)
        outcome, told = self.machine.change(session.terminal, request.code, request.ask, line)
        print_outcome = {"refused": self.replies.refused, "cancelled": self.replies.cancelled,
                         "done": self.replies.done}[outcome]
        return print_outcome(message, date, told)
