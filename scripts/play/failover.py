#!/usr/bin/env python3
"""Plays Pacemaker over two machines, while terminals go on: none loses an answer, and nothing is done twice.

    python3 scripts/play/failover.py [--rounds N] [--round-trip MS] [--county] [PROGRAM]

PROGRAM is crates/holddesk/out/holddesk where it isn't given; N is 10. The two machines are the folders of mirrored.py;
terminals know one address. 32 of them send commands and cancellations at random, with sequence digits. Every fifth of a
second a monitor asks the server's door for its health, and takes one that isn't well, or doesn't answer within a second,
for lost. Then it does what docs/availability.md has Pacemaker do, in that order: it fences the first machine (kill -9),
has the second check the library, and starts the server there, at the same address. In each second round the server is
killed at a random moment; in the others it is stopped by SIGSTOP, as a machine that hangs. A terminal that loses its
connection connects again, logs in, and sends the line again that wasn't answered.

At the end the server is stopped, and each terminal's rows have to be what it was answered, one by one: no turn is lost,
and none is made twice. Printed are the seconds from the loss to the first reply, and what of them was the monitor's, the
check's and the start's: the median and the longest. With --county the library has 1,000,000 copies, 400,000 titles and
patrons each, and 40 branches. Needs Linux, rt and Python 3. Status 0: all was as it has to be.
"""

import contextlib
import dataclasses
import itertools
import os
import random
import signal
import statistics
import sys
import tempfile
import threading
import time

sys.path.append(os.path.dirname(sys.path[0]))  # scripts/

from door import heard, knock, request_of
from make.make_library import InTurn, password, terminal
from mirrored import JOURNAL, Machines
from serve_crash import LIBRARY, drawn, opened_copy, outcome_of
from server import SECONDS, Server, Trouble, ask, connect, parser_of, reported, said_by
from unproved import free_port

ROUNDS, TERMINALS = 10, 32
ROUND_TRIP = 0.5  # milliseconds
SEED = 1
INTERVAL, PATIENCE = 0.2, 1.0  # seconds between two looks of the monitor, and for an answer
PHASES = ("until the loss is noticed", "the check", "the start, until it listens", "until the first reply")
SMALL = dataclasses.replace(LIBRARY, terminals=TERMINALS)
COUNTY = InTurn(titles=400_000, copies=1_000_000, patrons=400_000, branches=40, terminals=TERMINALS, is_even=True,
                loan_days=(21,), renewals=(1,), loan_limits=(5,))


def with_sequence(message, digit):
    """A message with a sequence digit and its checksum."""
    text = f"{message}AY{digit}AZ"
    return f"{text}{-sum(text.encode()) & 0xFFFF:04X}".encode()


class Terminal:
    """A terminal that goes on when its connection is lost, until it is to end."""

    def __init__(self, number, port, draw, library):
        self.number, self.port, self.draw, self.library = number, port, draw, library
        self.name, self.answered, self.replied = terminal(number), [], 0.0
        self.connection, self.is_ending, self.trouble = None, False, None
        self.thread = threading.Thread(target=self.work)

    def log_in(self):
        """Connects and logs in."""
        self.connection = connect(self.port, PATIENCE * 10)
        if not ask(self.connection, f"9300CN{self.name}|CO{password(self.number)}|".encode()).startswith(b"941"):
            raise Trouble(f"{self.name} can't log in")

    def answer(self, line):
        """The reply to a line, which is sent until it is answered."""
        end = time.monotonic() + SECONDS
        while time.monotonic() < end:
            try:
                if self.connection is None:
                    self.log_in()
                return ask(self.connection, line).decode()
            except OSError:
                with contextlib.suppress(AttributeError):
                    self.connection.close()
                self.connection = None
                time.sleep(0.05)
        raise Trouble(f"{self.name} isn't answered in {SECONDS} s")

    def work(self):
        """Sends one message after another."""
        try:
            for digit in itertools.cycle(range(10)):
                message, row = drawn(self.draw, self.library)
                reply = self.answer(with_sequence(message, digit))
                self.replied = time.monotonic()
                if row:
                    self.answered.append((*row, *outcome_of(reply)))
                if self.is_ending:
                    return
        except Trouble as trouble:
            self.trouble = trouble


class Cluster:
    """Two machines, and what Pacemaker does with them: one serves, is asked for its health, and gives way to the other."""

    def __init__(self, machines, folder):
        self.machines, self.port, self.door = machines, free_port(), os.path.join(folder, "door")
        self.start()

    def start(self):
        """Starts the server of the first machine."""
        if os.path.exists(self.door):
            os.remove(self.door)  # another machine has no file of this one's
        self.server = Server(self.machines.program, None, TERMINALS, "--library", self.machines.first, "--door", self.door,
                             port=self.port, environment=self.machines.environment())

    def is_well(self):
        """What the monitor finds."""
        with contextlib.suppress(OSError), knock(self.door, PATIENCE) as connection:
            connection.sendall(request_of("/health"))
            return heard(connection).startswith(b"HTTP/1.1 200 ")
        return False

    def lose(self, is_hanging):
        """Has the machine that serves be lost."""
        self.server.process.send_signal(signal.SIGSTOP if is_hanging else signal.SIGKILL)

    def fail_over(self):
        """Waits until a loss is noticed, and has the other machine serve: the seconds that it took to notice it, to
        check the library, and to start."""
        times = [time.monotonic()]
        while self.is_well():
            time.sleep(INTERVAL)
        times.append(time.monotonic())
        self.server.kill()  # the fence: nothing goes on before it is certain that the first machine is off
        self.machines.lose_first()
        times.append(time.monotonic())  # what a new machine's disk takes isn't a failover's
        status, _, told = said_by([self.machines.program, "check", "--library", self.machines.first])
        if status:
            raise Trouble(f"check on the second machine says {told!r}")
        times.append(time.monotonic())
        self.start()
        times.append(time.monotonic())
        return times[1] - times[0], times[3] - times[2], times[4] - times[3]


def play_round(cluster, terminals, draw, is_hanging):
    """Has the machine that serves be lost, at a random moment, and waits until each terminal is answered by the other:
    the seconds of each phase."""
    time.sleep(0.02 + draw.random() / 2)
    cluster.lose(is_hanging)
    phases = cluster.fail_over()
    begins = time.monotonic()
    while any(it.replied < begins and it.thread.is_alive() for it in terminals):
        time.sleep(0.002)
    return *phases, max(0.0, min(it.replied for it in terminals) - begins)


def compare_rows(connection, terminals):
    """Compares the rows with what the terminals were answered, one by one. How many there are."""
    rows = {it.name: [] for it in terminals}
    query = "SELECT terminal, act, patron, copy, title, outcome, number FROM turn ORDER BY at"
    for name, *row in connection.execute(query):
        rows[name].append(tuple(row))
    for it in terminals:
        if it.trouble:
            raise it.trouble
        told = [row if row[4] == "cancelled" else row[:5] for row in it.answered]
        kept = [row[:len(wanted)] for row, wanted in zip(rows[it.name], told)]
        if kept != told or len(rows[it.name]) != len(told):
            at = next((at for at, (row, wanted) in enumerate(zip(kept, told)) if row != wanted), len(kept))
            raise Trouble(f"{it.name} was answered {len(told)} turns, and the file has {len(rows[it.name])}; turn {at + 1} "
                          f"is the first that differs: {rows[it.name][at:at + 1]!r}, answered {told[at:at + 1]!r}")
    return sum(len(it.answered) for it in terminals)


def compare_all(program, rounds, round_trip, library):
    """Plays all of it: how many turns were answered, and the seconds of each phase, round by round."""
    with tempfile.TemporaryDirectory() as folder:
        catalogue = library.write(os.path.join(folder, "catalogue"))
        machines = Machines(program, catalogue, folder, round_trip)
        cluster, draw = Cluster(machines, folder), random.Random(SEED)
        terminals = [Terminal(at + 1, cluster.port, random.Random(draw.random()), library) for at in range(TERMINALS)]
        try:
            for it in terminals:
                it.thread.start()
            phases = [play_round(cluster, terminals, draw, number % 2 == 1) for number in range(rounds)]
            for it in terminals:
                it.is_ending = True
            for it in terminals:
                it.thread.join(SECONDS)
            ended = said_by([program, "stop", "--door", cluster.door])
            if ended[0] or cluster.server.end()[0]:
                raise Trouble(f"stop says {ended!r}")
        finally:
            for it in terminals:
                it.is_ending = True
            cluster.server.kill()
        return compare_rows(opened_copy(os.path.join(machines.second, JOURNAL), folder), terminals), phases


def main():
    parser = parser_of(__doc__)
    parser.add_argument("--rounds", type=int, default=ROUNDS, metavar="N", help=f"how often ({ROUNDS})")
    parser.add_argument("--round-trip", type=float, default=ROUND_TRIP, metavar="MS",
                        help=f"milliseconds that a sync takes more ({ROUND_TRIP})")
    parser.add_argument("--county", action="store_const", const=COUNTY, default=SMALL, dest="library",
                        help="a county's library")
    asked = parser.parse_args()
    answered, phases = reported("failover", compare_all, os.path.abspath(asked.program), asked.rounds, asked.round_trip,
                                asked.library)
    print(f"failover: {asked.rounds} failovers under {TERMINALS} terminals, {answered} turns answered, none lost, none "
          f"twice")
    for name, seconds in zip((*PHASES, "in all"), [*zip(*phases), [sum(each) for each in phases]]):
        print(f"failover: {name}: {statistics.median(seconds):.2f} s, at most {max(seconds):.2f} s")


if __name__ == "__main__":
    main()
