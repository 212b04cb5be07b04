#!/usr/bin/env python3
"""Plays hostile clients against holddesk serve, beside one honest terminal that has to be answered.

    python3 scripts/play/serve_hostile.py [PROGRAM]

PROGRAM is crates/holddesk/out/holddesk where it isn't given. The server has 8 workers, and drops a connection that is
idle for 2 seconds. 56 hostile connections come at once and hold all workers but the honest terminal's: some send
nothing, half a line, a megabyte without an end, bytes at random, a login and a reset, a turn and a reset, or many lines
whose replies they never read. Then 8 that send nothing take all workers, and the honest terminal has to connect anew.
It makes 1,000 turns in all, whose replies are compared byte for byte, each within the idle limit and a second. At last
the server has to end by itself, with the turns and survivors that were made. Takes at most a minute, or two with the
checks of a program without proofs. Needs nothing but Python 3. Status 0: all is well.
"""

import os
import random
import re
import signal
import socket
import struct
import sys
import tempfile
import threading
import time

sys.path.append(os.path.dirname(sys.path[0]))  # scripts/

from make.make_library import write_with_room
from server import CATALOGUE, LOOPBACK, Server, Trouble, ask, connect, parser_of, replies_from, reported

WORKERS = 8
CONNECTIONS = 56 + WORKERS + 2
IDLE = 2
LIMIT = IDLE + 1
PATIENCE = 60  # seconds until a hostile client says that it isn't dropped
TURNS = 1_000
LAST_TURNS = 104  # those of the second connection, a whole number of rounds
SEED = 1
PAUSE = 0.01  # between two turns, so that they last as long as the hostile connections
DATE = "20260301    100000"
DUE = "20260322    235900"

# A round of the honest terminal: its messages and their replies (docs/protocol.md). It leaves the desk as it was. Five
# of the eight turns are commands that survive, and one is cancelled.
COMMANDS, CANCELLED = 6, 1
ROUND = [
    ("11NN{d}{d}AOlib|AAp1|ABa1|AC|", "121NNY{d}AOlib|AAp1|ABa1|AJta|AH{due}|"),
    ("17{d}AOlib|ABa1|", "18040001{d}CF0|AH{due}|ABa1|AJta|AQnorth|"),
    ("15+{d}BSsouth|BY2|AOlib|AAp2|AJta|", "161Y{d}BR1|BSsouth|AOlib|AAp2|AJta|"),
    ("15-{d}AOlib|AAp2|AJta|", "161N{d}AOlib|AAp2|AJta|"),
    ("29NN{d}{d}AOlib|AAp1|ABa1|", "301YNN{d}AOlib|AAp1|ABa1|AJta|AH{due}|"),
    ("09N{d}{d}APnorth|AOlib|ABa1|AC|", "101YNN{d}AOlib|ABa1|AQnorth|AJta|"),
    ("11NN{d}{d}AOlib|AAp1|ABa2|AC|", "121NNY{d}AOlib|AAp1|ABa2|AJta|AH{due}|"),
    ("09N{d}{d}APnorth|AOlib|ABa2|AC|BIY|", "101YNN{d}AOlib|ABa2|AQnorth|AJta|AFCANCELLED {n}|"),
]
LOGIN = b"9300CNt1|COpw|"
OTHER_LOGIN = b"9300CNt2|COpw|\r"
STATUS = b"9900302.00"
ITEM = b"1720260301    100000AOlib|ABb1|\r"
CHECKIN = b"09N20260301    10000020260301    100000APnorth|AOlib|ABb2|AC|\r"


class Hostile:
    """What the hostile connections did."""

    def __init__(self, port):
        self.port = port
        self.lock = threading.Lock()
        self.turns = 0  # of lines whose replies were waited for
        self.longest = 0.0  # how long the server took to drop one
        self.troubles = []

    def connect(self, small=False):
        """A connection; with a small room for what comes where it isn't to be read."""
        connection = socket.socket()
        if small:
            connection.setsockopt(socket.SOL_SOCKET, socket.SO_RCVBUF, 4_096)
        connection.settimeout(PATIENCE)
        connection.connect((LOOPBACK, self.port))
        return connection

    def play(self, kind, number):
        """Plays a kind of hostile client, and notes what went wrong."""
        began = time.monotonic()
        try:
            getattr(self, kind)(number)
        except (Trouble, OSError) as trouble:
            with self.lock:
                self.troubles.append(f"{kind} ({number}): {trouble}")
        with self.lock:
            self.longest = max(self.longest, time.monotonic() - began)

    def expect_end(self, connection, kind):
        """Waits until the server drops the connection, and returns what it said before."""
        said = b""
        try:
            while piece := connection.recv(65_536):
                said += piece
        except ConnectionError:
            pass
        except TimeoutError:
            raise Trouble(f"{kind} isn't dropped") from None
        finally:
            connection.close()
        return said

    def nothing(self, _):
        if said := self.expect_end(self.connect(), "a silent connection"):
            raise Trouble(f"silence is answered {said!r}")

    def half_a_line(self, _):
        connection = self.connect()
        connection.sendall(CHECKIN[:30])
        if said := self.expect_end(connection, "half a line"):
            raise Trouble(f"half a line is answered {said!r}")

    def megabyte(self, _):
        connection = self.connect()
        try:
            connection.sendall(b"A" * 1_048_576)
        except ConnectionError:
            pass
        if said := self.expect_end(connection, "a line of a megabyte"):
            raise Trouble(f"a line of a megabyte is answered {said!r}")

    def at_random(self, number):
        connection = self.connect()
        try:
            connection.sendall(random.Random(SEED * 1_000 + number).randbytes(4_096))
        except ConnectionError:
            pass
        said = self.expect_end(connection, "a sender of bytes at random")
        if not re.fullmatch(rb"(96(AZFEF6)?\r)*", said):
            raise Trouble(f"bytes at random are answered {said!r}")

    def reset(self, connection):
        connection.setsockopt(socket.SOL_SOCKET, socket.SO_LINGER, struct.pack("ii", 1, 0))
        connection.close()

    def login_and_reset(self, _):
        connection = self.connect()
        connection.sendall(OTHER_LOGIN)
        self.reset(connection)

    def turn_and_reset(self, _):
        connection = self.connect()
        connection.sendall(OTHER_LOGIN + ITEM)
        replies_from(connection, 2)
        with self.lock:
            self.turns += 1
        connection.sendall(CHECKIN[:30])
        self.reset(connection)

    def send_unread(self, lines, most):
        """Sends lines as long as the server takes them, reads nothing, and waits until it is dropped."""
        connection = self.connect(small=True)
        try:
            for _ in range(most // 100):
                connection.sendall(lines)
            raise Trouble(f"{most} lines were taken whose replies nobody reads")
        except ConnectionError:
            pass
        except TimeoutError:
            raise Trouble("one who reads no replies isn't dropped") from None
        finally:
            connection.close()

    def unread_status(self, _):
        self.send_unread((STATUS + b"\r") * 100, 1_000_000)

    def unread_turns(self, _):
        """Each of its lines that the server reads is a command: how many, the numbers of later commands tell."""
        self.send_unread(OTHER_LOGIN + CHECKIN * 99, 500_000)


class Honest:
    """The honest terminal."""

    def __init__(self, port):
        self.port = port
        self.turns = 0
        self.worst = 0.0
        self.late = 0  # replies that took over a tenth of a second
        self.number = 0  # the highest number of a command that it knows of
        self.again = 0.0  # how long its second login took
        self.connection = None

    def connect(self):
        """Connects and logs in. Where all workers are busy the login waits."""
        self.connection = connect(self.port, LIMIT)
        reply, seconds = self.ask(LOGIN)
        if reply != b"941":
            raise Trouble(f"the honest login is answered {reply!r}")
        return seconds

    def ask(self, message):
        """Sends a message, and waits for its reply: the reply, and how long it took."""
        began = time.monotonic()
        try:
            reply = ask(self.connection, message)
        except TimeoutError:
            raise Trouble(f"no reply to {message!r} in {LIMIT} seconds") from None
        seconds = time.monotonic() - began
        self.worst = max(self.worst, seconds)
        self.late += seconds > 0.1
        if seconds > LIMIT:
            raise Trouble(f"the reply to {message!r} took {seconds:.1f} seconds")
        return reply, seconds

    def rounds(self, count):
        """Makes so many rounds of turns, and compares the replies."""
        for _ in range(count):
            for message, wanted in ROUND:
                asked = message.format(d=DATE).encode()
                reply, _ = self.ask(asked)
                pattern = re.escape(wanted).replace(r"\{n\}", r"(\d+)").replace(r"\{d\}", DATE).replace(r"\{due\}", DUE)
                found = re.fullmatch(pattern, reply.decode("latin-1"))
                if not found:
                    raise Trouble(f"{asked!r} is answered {reply!r}, wanted {wanted!r}")
                self.turns += 1
                if found.groups():
                    self.number = int(found[1])
                time.sleep(PAUSE)

    def wait_for(self, threads):
        """Keeps the connection, by status messages as a terminal does, until the hostile ones have ended."""
        while any(thread.is_alive() for thread in threads):
            self.ask(STATUS)
            time.sleep(IDLE / 4)


def started(hostile, kinds):
    """A thread for each hostile client, started."""
    threads = [threading.Thread(target=hostile.play, args=(kind, number), daemon=True)
               for number, kind in enumerate(kinds)]
    for thread in threads:
        thread.start()
    return threads


def first_kinds():
    """The 56 that come at once, in an order at random."""
    kinds = (["nothing"] * 10 + ["half_a_line"] * 10 + ["megabyte"] * 8 + ["at_random"] * 10 + ["login_and_reset"] * 7
             + ["turn_and_reset"] * 7 + ["unread_status"] * 3 + ["unread_turns"])
    random.Random(SEED).shuffle(kinds)
    return kinds


def play(port):
    """Plays the honest terminal and the hostile clients: both, when all have ended."""
    honest, hostile = Honest(port), Hostile(port)
    honest.connect()
    threads = started(hostile, first_kinds())
    honest.rounds((TURNS - LAST_TURNS) // len(ROUND))
    honest.wait_for(threads)
    honest.connection.close()
    time.sleep(0.2)  # the worker is free again when it has seen the end
    threads = started(hostile, ["nothing"] * WORKERS)
    time.sleep(0.2)  # they have all workers now
    honest.again = honest.connect()
    honest.rounds(LAST_TURNS // len(ROUND))
    for thread in threads:
        thread.join()
    honest.connection.close()
    if hostile.troubles:
        raise Trouble("; ".join(hostile.troubles))
    return honest, hostile


def compare_end(honest, hostile, status, printed):
    """Compares how the server ended with what was made. The unread turns are those commands that the honest terminal
    didn't make: the number of its last command, which was cancelled, tells how many there were in all."""
    rounds = TURNS // len(ROUND)
    unread = honest.number - rounds * COMMANDS
    turns = honest.turns + hostile.turns + unread
    survivors = honest.number - rounds * CANCELLED
    wanted = f"closed: {turns} turns, {survivors} survivors\n"
    if (status, printed) != (0, wanted):
        raise Trouble(f"the server ends with {status} and {printed!r}, wanted 0 and {wanted!r}")
    if unread <= 0:
        raise Trouble("no line of one who reads no replies was taken")
    print(f"serve_hostile: {honest.turns} honest turns, the worst reply after {honest.worst:.3f} s, "
          f"{honest.late} after more than 0.1 s")
    print(f"serve_hostile: with all workers taken a login was answered after {honest.again:.2f} s")
    print(f"serve_hostile: 64 hostile connections, {hostile.turns + unread} turns of theirs ({unread} unread), "
          f"the last dropped after {hostile.longest:.1f} s")


def too_long(*_):
    raise Trouble("it takes too long")


def compare_all(program):
    """Starts the server, plays, and compares how it ends."""
    signal.signal(signal.SIGALRM, too_long)
    signal.alarm(2 * PATIENCE)
    with tempfile.TemporaryDirectory() as folder:
        catalogue = write_with_room(CATALOGUE, os.path.join(folder, "catalogue"))
        words = ["--idle", str(IDLE), "--connections", str(CONNECTIONS)]
        with Server(program, catalogue, WORKERS, *words) as server:
            honest, hostile = play(server.port)
            status, printed, _ = server.end()
    compare_end(honest, hostile, status, printed)


def main():
    reported("serve_hostile", compare_all, parser_of(__doc__).parse_args().program)


if __name__ == "__main__":
    main()
