"""What clients do to hold a server that is to end, one that has no descriptors, and one that doesn't answer, for
serve_door.py.

No script of its own. Needs nothing but Python 3.
"""

import contextlib
import os
import re
import socket
import subprocess
import threading
import time

import morning
from door import Seen, heard, stop
from door_log import SOON, ask_at_last, closed, opened
from server import CATALOGUE, LOOPBACK, SECONDS, Trouble, ask, begun, connect

DATE = morning.NOW
LOGIN = b"9300CNt1|COpw|"
CHECKOUT = f"11YN{DATE}{DATE}AOlib|AAp1|ABa1|AC|".encode()
STATUS = b"9900302.00"
LONGEST = 60  # bytes of a name
COPY = f"C|{'c' * LONGEST}|"
ITEM = f"17{DATE}AOlib|AB{'c' * LONGEST}|".encode()
LINES = 40_000  # that ask for the last reply again: more of it than the system keeps for who doesn't read
WAITS = 2.0  # seconds, longer than one write waits
PATIENCE = 60  # seconds that an answer is waited for
LONG = 2.5  # seconds, longer than an accept that fails is tried again where no connection is open


class Flood:
    """A client that keeps sending, and reads what it is answered, until its connection is ended."""

    def __init__(self, connection):
        self.connection, self.answered = connection, threading.Event()
        self.threads = [threading.Thread(target=it, daemon=True) for it in (self.send, self.read)]
        for thread in self.threads:
            thread.start()
        if not self.answered.wait(SOON):
            raise Trouble("a client that keeps sending isn't answered")

    def send(self):
        with contextlib.suppress(OSError):
            while True:
                self.connection.sendall((STATUS + b"\r") * 40)

    def read(self):
        with contextlib.suppress(OSError):
            while self.connection.recv(65_536):
                self.answered.set()

    def end(self):
        """Waits until it is ended."""
        for thread in self.threads:
            thread.join(SOON)
        if any(thread.is_alive() for thread in self.threads):
            raise Trouble("a client that keeps sending isn't ended")


def compare_tail(said, ends):
    """Looks that the log's last events are these ends of connections, in any order, and reasons of the server's."""
    told = [line.removeprefix("event=") for line in said if line.startswith("event=")]
    missing = [end for end in ends if not any(re.fullmatch(end, line) for line in told)]
    if missing or len(told) != len(ends):
        raise Trouble(f"of connections that hold a server that is to end the log tells {told!r}, and not {missing!r}")


def ended_soon(server, end):
    """What a server's end gives, which has to come soon."""
    begins = time.monotonic()
    watch = threading.Timer(SOON, server.process.kill)
    watch.start()
    try:
        told = end()
    finally:
        watch.cancel()
    if (taken := time.monotonic() - begins) > SOON:
        raise Trouble(f"a server that is to end is held for {taken:.1f} s")
    return told


def compare_flood(program, folder):
    """Has a client keep sending, and a server end by its door all the same. A third connection has said what it wants,
    and waits: it isn't begun."""
    with Seen(program, CATALOGUE, folder) as server:
        server.tells(".+")
        first, at_first = opened(server, 1)
        flood = Flood(first)
        second, at_second = opened(server, 2)
        third, at_third = opened(server, 3)
        server.tells(rf"waiting connection=3 {at_third}")
        third.sendall(LOGIN + b"\r" + CHECKOUT + b"\r")
        ask(second, LOGIN)
        server.tells(r'logged_in connection=2 terminal="t1"')
        printed, said = ended_soon(server, lambda: stop(server))
        flood.end()
        if heard(second) or heard(third) or printed != "closed: 0 turns, 0 survivors\n":
            raise Trouble(f"a connection is served behind a stop, which prints {printed!r}")
    compare_tail(said, [closed(1, at_first, "stop", r"[1-9]\d*"), closed(2, at_second, "stop", 1),
                        closed(3, at_third, "stop", 0)])


def compare_flood_unwritten(program, catalogue, folder):
    """Has a client keep sending while another's turns fill a journal's file beyond what its server may write. What a
    third has said that waits isn't answered."""
    journal = begun(program, catalogue, os.path.join(folder, "journal"))
    with Seen(program, catalogue, folder, "--journal", journal, largest=540_000) as server:
        server.tells(".+")
        first, at_first = opened(server, 1)
        ask(first, LOGIN)
        server.tells(r'logged_in connection=1 terminal="t1"')
        second, at_second = opened(server, 2)
        flood = Flood(second)
        third, at_third = opened(server, 3)
        server.tells(rf"waiting connection=3 {at_third}")
        third.sendall(LOGIN + b"\r" + CHECKOUT + b"\r")
        turns = 0
        with contextlib.suppress(ConnectionError):
            while turns < 100:
                ask(first, CHECKOUT)
                turns += 1
        status, printed, said = ended_soon(server, server.end)
        flood.end()
        if heard(third) or (status, printed) != (1, ""):
            raise Trouble(f"with a journal that can't be written it ends with {status} and {printed!r}")
    compare_tail(said, ['journal_unwritten why=".+"', closed(1, at_first, "journal_unwritten", turns + 1),
                        closed(2, at_second, "journal_unwritten", r"[1-9]\d*"),
                        closed(3, at_third, "journal_unwritten", 0)])


def library_of_long_names(folder):
    """The path of a catalogue, whose names are as long as may be, so that a reply is."""
    path, branch, title = os.path.join(folder, "long"), "b" * LONGEST, "t" * LONGEST
    with open(path, "w", encoding="ascii") as file:
        file.write(f"H|1|lib|60|100\nB|{branch}\nS|t1|pw|{branch}\nP|p1|3\nT|{title}|21|1\n{COPY}{title}|{branch}\n")
    return path


def worked(server):
    """For how many ticks a server has worked."""
    with open(f"/proc/{server.process.pid}/stat", encoding="ascii") as file:
        fields = file.read().rpartition(")")[2].split()
    return int(fields[11]) + int(fields[12])


def unread(server):
    """A client, and its address in the log, that has asked for more than it reads, and for which the server waits: it
    does nothing else, for longer than one write waits."""
    connection = socket.socket()
    connection.setsockopt(socket.SOL_SOCKET, socket.SO_RCVBUF, 4_096)
    connection.settimeout(SECONDS)
    connection.connect((LOOPBACK, server.port))
    address = re.escape(f'address="{LOOPBACK}:{connection.getsockname()[1]}"')
    server.tells(f"opened connection=1 {address}")
    ask(connection, LOGIN)
    server.tells(r'logged_in connection=1 terminal="t1"')
    connection.sendall(ITEM + b"\r" + b"97\r" * LINES)
    before, now = None, worked(server)
    while now != before:
        time.sleep(WAITS)
        before, now = now, worked(server)
    if server.has_told(rb"event=closed .*", 0):
        raise Trouble("a client that reads nothing is dropped before the idle time is over")
    return connection, address


def compare_unread(program, folder):
    """Has a client read nothing that it is answered, at a server that would wait for it for ever, and ends by its
    door."""
    with Seen(program, library_of_long_names(folder), folder, "--idle", "0") as server:
        server.tells(".+")
        first, at_first = unread(server)
        _, said = ended_soon(server, lambda: stop(server))
        first.close()
    compare_tail(said, [closed(1, at_first, "write_failed", r"[1-9]\d*")])


def compare_unread_idle(program, folder):
    """Has a client read nothing that it is answered, at a server that waits for it for eight seconds: so long it does."""
    with Seen(program, library_of_long_names(folder), folder, "--idle", "8") as server:
        server.tells(".+")
        first, at_first = unread(server)
        server.tells(closed(1, at_first, "write_failed", r"[1-9]\d*"))
        first.close()
        stop(server)


def compare_no_files(program, folder):
    """Has a server without descriptors wait for a connection's end, however long, and tell once that none is left."""
    told = re.compile(rb'event=cannot_accept times=\d+ why=".+"')
    for files in (48, 49, 50, 51):
        with Seen(program, CATALOGUE, folder, files=files, places=("--terminals", "64")) as server:
            with contextlib.ExitStack() as terminals:
                for _ in range(30):
                    terminals.enter_context(connect(server.port))
                time.sleep(LONG)
                if server.process.poll() is not None:
                    raise Trouble(f"a server ends that has no descriptors for a while, and says {server.told!r}")
                times = sum(bool(line and told.fullmatch(line)) for line in server.told)
            ask_at_last(server.port)
            stop(server)
            if times > 1:
                raise Trouble(f"{times} times is told that there is no descriptor: {server.told!r}")


def compare_patience(program, folder):
    """Asks where somebody listens who doesn't answer: a question is given up after a minute, and a stop isn't."""
    path = os.path.join(folder, "silent")
    with socket.socket(socket.AF_UNIX) as silent:
        silent.bind(path)
        silent.listen()
        begins = time.monotonic()
        question, end = (subprocess.Popen([program, word, "--door", path], stdout=subprocess.PIPE,
                                          stderr=subprocess.STDOUT) for word in ("status", "stop"))
        question.communicate(timeout=SECONDS)
        taken = time.monotonic() - begins
        with contextlib.suppress(subprocess.TimeoutExpired):
            end.wait(WAITS)
        waits = end.poll() is None
    end.communicate(timeout=SECONDS)  # its connection has ended with who listened
    if not PATIENCE - 1 < taken < PATIENCE + SOON or question.returncode != 1 or not waits:
        raise Trouble(f"without an answer a question is given up after {taken:.1f} s with {question.returncode}, and a "
                      f"stop {'waits' if waits else 'too'}")
