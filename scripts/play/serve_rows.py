#!/usr/bin/env python3
"""Plays what terminals do at holddesk serve, and compares what they hear, and how many turns and survivors that leaves.

    python3 scripts/play/serve_rows.py [PROGRAM]

PROGRAM is crates/holddesk/out/holddesk where it isn't given. Each row has a server of its own over the demonstration
library: all its terminals connect, do what the row says, one after the other, and go; the server then ends by itself.
A terminal goes without having read its replies; sends each byte alone; ends in the middle of a line, or behind a line
that is too long; waits for the only worker; is one of 64; sends 100 lines in one piece; falls silent in the middle of a
line beside one that is served; asks for the present, which is the clock's, in local time, and asks again. Needs nothing
but Python 3. Status 0: all is as it is stored.
"""

import contextlib
import os
import select
import socket
import sys
import time

sys.path.append(os.path.dirname(sys.path[0]))  # scripts/

from rows import PATIENCE, played
from server import CATALOGUE, Server, Trouble, connect, parser_of, reported

LOGIN_1, LOGIN_2, LOGGED_IN = b"9300CNt1|COpw|\r", b"9300CNt2|COpw|\r", b"941\r"

# Holds of any copy of ta by p1 and p2, to be fetched at north, and their replies by the place in the queue.
HOLD_1 = b"15+20260301    100000BSnorth|BY2|AOlib|AAp1|AJta|\r"
HOLD_2 = b"15+20260301    100000BSnorth|BY2|AOlib|AAp2|AJta|\r"
HELD_1_FIRST = b"161Y20260301    100000BR1|BSnorth|AOlib|AAp1|AJta|\r"
HELD_2_FIRST = b"161Y20260301    100000BR1|BSnorth|AOlib|AAp2|AJta|\r"
HELD_2_SECOND = b"161Y20260301    100000BR2|BSnorth|AOlib|AAp2|AJta|\r"
CANCEL_1 = b"15-20260301    100000AOlib|AAp1|AJta|BIY|\r"
CANCEL_2 = b"15-20260301    100000AOlib|AAp2|AJta|BIY|\r"
CANCELLED_1 = b"161N20260301    100000AOlib|AAp1|AJta|AFCANCELLED %d|\r"
CANCELLED_2 = b"161N20260301    100000AOlib|AAp2|AJta|AFCANCELLED 2|\r"

# What the first copy of ta is: on its open shelf, without a hold of its title and with one. The longest line asks for
# it too; its last field isn't looked at.
ITEM = b"1720260301    100000AOlib|ABa1|\r"
ON_SHELF = b"1803000120260301    100000CF0|ABa1|AJta|AQnorth|APnorth|\r"
ON_SHELF_HELD = b"1803000120260301    100000CF1|ABa1|AJta|AQnorth|APnorth|\r"
LONGEST = b"1720260301    100000AOlib|ABa1|AC".ljust(1_024, b"x")

RESEND = b"97\r"
STATUS = b"9900302.00\r"
BEFORE_DATE, AFTER_DATE = b"98YYYYNY100003", b"2.00AOlib|BXNYYNYYYNNNYNNYYN|\r"
OFFSET = 60 * 60  # how many seconds local time is later than universal time

PAIRS = 49  # of a hold and its cancellation, between a login and a look at a copy: 100 lines
IDLE = 2  # after so many idle seconds a connection is dropped


class Terminal:
    """A terminal's end of a connection."""

    def __init__(self, connection):
        self.connection = connection

    def says(self, *lines):
        self.connection.sendall(b"".join(lines))

    def spells(self, line):
        """Sends each byte alone."""
        for at in range(len(line)):
            self.connection.sendall(line[at:at + 1])
            time.sleep(0.001)

    def hears(self, *replies):
        """Just these come next."""
        for reply in replies:
            said = self.reply(len(reply))
            if said != reply:
                raise Trouble(f"{said!r} comes, wanted {reply!r}")

    def reply(self, length):
        """The bytes that come next, so many of them where the connection doesn't end before."""
        said = b""
        while len(said) < length and (piece := self.connection.recv(length - len(said))):
            said += piece
        return said

    def asks(self, line, reply):
        self.says(line)
        self.hears(reply)

    def has_unread(self, length):
        """So many bytes come to lie there, which it doesn't read."""
        end = time.monotonic() + PATIENCE
        while len(said := self.connection.recv(length, socket.MSG_PEEK)) < length:
            if not said or time.monotonic() > end:
                raise Trouble(f"of {length} bytes come {said!r}")
            time.sleep(0.01)

    def has_something(self, seconds):
        """Whether something comes in so many seconds, or the connection ends."""
        return bool(select.select([self.connection], [], [], seconds)[0])

    def ends(self):
        """It tells that it sends no more."""
        self.connection.shutdown(socket.SHUT_WR)

    def is_left(self):
        """The server ends its connection, and nothing comes before."""
        if said := self.connection.recv(4_096):
            raise Trouble(f"{said!r} comes, and no end")

    def goes(self):
        """It goes at once, which resets its connection where it hasn't read all."""
        self.connection.close()


def a_reset(first, second):
    """The hold of one that goes without having read its replies stays, and the other goes on."""
    second.asks(LOGIN_2, LOGGED_IN)
    first.says(LOGIN_1, HOLD_1)
    first.has_unread(len(LOGGED_IN + HELD_1_FIRST))
    first.goes()
    second.asks(ITEM, ON_SHELF_HELD)
    second.asks(HOLD_2, HELD_2_SECOND)


def byte_by_byte(terminal):
    """Each byte is sent alone, and each line gets its reply."""
    for line, reply in ((LOGIN_1, LOGGED_IN), (HOLD_1, HELD_1_FIRST), (ITEM, ON_SHELF_HELD)):
        terminal.spells(line)
        terminal.hears(reply)


def a_rest(terminal):
    """What is sent behind the last carriage return has no reply and makes no turn."""
    terminal.says(LOGIN_1, HOLD_1, ITEM[:-1])
    terminal.ends()
    terminal.hears(LOGGED_IN, HELD_1_FIRST)
    terminal.is_left()


def five_in_a_row(*terminals):
    """Each goes before the next one speaks: each is served, at one desk."""
    asked = [(LOGIN_1, HOLD_1, HELD_1_FIRST), (LOGIN_1, ITEM, ON_SHELF_HELD), (LOGIN_2, HOLD_2, HELD_2_SECOND),
             (LOGIN_2, CANCEL_2, CANCELLED_2), (LOGIN_1, ITEM, ON_SHELF_HELD)]
    for terminal, (login, line, reply) in zip(terminals, asked, strict=True):
        terminal.asks(login, LOGGED_IN)
        terminal.asks(line, reply)
        terminal.goes()


def sixty_four(*terminals):
    """None goes before all are answered: all are served side by side."""
    for line in (LOGIN_1, ITEM):
        for terminal in terminals:
            terminal.says(line)
    for reply in (LOGGED_IN, ON_SHELF):
        for terminal in terminals:
            terminal.hears(reply)


def a_long_line(first, second):
    """A line of a byte too many ends its connection without a reply, and the longest of another is answered."""
    second.asks(LOGIN_2, LOGGED_IN)
    first.asks(LOGIN_1, LOGGED_IN)
    first.says(LONGEST, b"x")
    first.is_left()
    second.asks(LONGEST + b"\r", ON_SHELF)


def hundred_lines(terminal):
    """All that come in one piece are answered, in order. Each hold is a command, with the next number."""
    terminal.says(LOGIN_1, (HOLD_1 + CANCEL_1) * PAIRS, ITEM)
    terminal.hears(LOGGED_IN)
    for pair in range(PAIRS):
        terminal.hears(HELD_1_FIRST, CANCELLED_1 % (pair + 1))
    terminal.hears(ON_SHELF)


def an_idle_one(silent, busy):
    """The one that falls silent in the middle of a line is left, in time, and the other is served before and after."""
    busy.asks(LOGIN_2, LOGGED_IN)
    silent.asks(LOGIN_1, LOGGED_IN)
    silent.says(ITEM[:10])
    began = time.monotonic()
    busy.asks(HOLD_2, HELD_2_FIRST)
    while not silent.has_something(IDLE / 10):
        busy.asks(RESEND, HELD_2_FIRST)
        if time.monotonic() - began > PATIENCE:
            raise Trouble("the silent one isn't left")
    if time.monotonic() - began < 0.9 * IDLE:
        raise Trouble("the silent one is left too early")
    silent.is_left()
    busy.asks(ITEM, ON_SHELF_HELD)


def second_told(terminal):
    """The second that a status message is told: one between the question and the answer."""
    began = int(time.time())
    terminal.says(STATUS)
    said = terminal.reply(len(BEFORE_DATE) + 18 + len(AFTER_DATE))
    for second in range(began, int(time.time()) + 1):
        date = time.strftime("%Y%m%d    %H%M%S", time.gmtime(second + OFFSET)).encode()
        if said == BEFORE_DATE + date + AFTER_DATE:
            return second
    raise Trouble(f"{said!r} doesn't tell the present")


def the_present(terminal):
    """The present is told in local time, and told anew."""
    first = second_told(terminal)
    while int(time.time()) <= first:
        time.sleep(0.01)
    if second_told(terminal) <= first:
        raise Trouble("the present isn't told anew")


# How many workers serve how many terminals, for how many idle seconds (0: any), and what the terminals do; how many
# turns and survivors that leaves.
ROWS = {
    "a connection reset": (2, 2, 0, a_reset, 3, 2),
    "byte by byte": (1, 1, 0, byte_by_byte, 2, 1),
    "a rest without its carriage return": (1, 1, 0, a_rest, 1, 1),
    "five connections at one worker": (1, 5, 0, five_in_a_row, 5, 1),
    "64 connections at 64 workers": (64, 64, 0, sixty_four, 64, 0),
    "a line that is too long": (2, 2, 0, a_long_line, 1, 0),
    "100 lines in one piece": (1, 1, 0, hundred_lines, 99, 0),
    "an idle connection": (2, 2, IDLE, an_idle_one, 2, 1),
    "the present": (1, 1, 0, the_present, 0, 0),
}


def play(program, workers, count, idle, row, turns, survivors):
    """Plays a row at a server of its own, and compares how that ends."""
    with Server(program, CATALOGUE, workers, "--connections", str(count), "--idle", str(idle)) as server:
        with contextlib.ExitStack() as stack:
            row(*(Terminal(stack.enter_context(connect(server.port, PATIENCE))) for _ in range(count)))
        status, printed, said = server.end()
    if (status, printed) != (0, f"closed: {turns} turns, {survivors} survivors\n"):
        raise Trouble(f"the server ends with {status}, prints {printed!r} and says {said!r}, wanted {turns} turns, "
                      f"{survivors} survivors")


def play_all(program):
    """Plays each row. What was played."""
    count, failed = played("rows of terminals", play, program, [(name, *row) for name, row in ROWS.items()])
    if failed:
        raise Trouble("\n".join(failed))
    return count


def main():
    count = reported("serve_rows", play_all, parser_of(__doc__).parse_args().program)
    print(f"serve_rows: {count}, each at a server of its own")


if __name__ == "__main__":
    main()
