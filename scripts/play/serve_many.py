#!/usr/bin/env python3
"""Has many terminals at holddesk serve at once, and tells its memory and how long replies take.

    python3 scripts/play/serve_many.py [PROGRAM] [--terminals N] [--seconds S] [--pause P] [--latest L] [--library FOLDER]

PROGRAM is crates/holddesk/out/holddesk where it isn't given. 1,000 terminals, each with a name of its own, log in at a
server with --terminals, over a journal's file. For 30 seconds each sends a message every second or so: of four, a
checkout, a question about the copy, its return, and a heartbeat. Every message has to be answered as it has to be, and
within 10 seconds. Printed are how long replies took (50th and 99th percentile, and the worst), and what the server's
process takes of memory (resident, and at most); of a program without proofs the figures say nothing. At last the server
is ended by its door, and has to have all turns. A connection takes two descriptors of the server. Needs Linux and
Python 3. Status 0: all were answered.
"""

import heapq
import os
import random
import re
import resource
import selectors
import sys
import tempfile
import time

sys.path.append(os.path.dirname(sys.path[0]))  # scripts/

from door import Seen, stop
from server import SECONDS, Trouble, begun, connect, parser_of, reported

DATE = "20260301    100000"
SEED = 1


def catalogue_of(path, terminals):
    """The path of a catalogue, which is written: a terminal, a patron and a copy for each connection."""
    with open(path, "w", encoding="ascii") as file:
        file.write("H|1|lib|60|1000000\nB|north\n")
        file.writelines(f"S|t{number}|pw|north\n" for number in range(terminals))
        file.writelines(f"P|p{number}|9\n" for number in range(terminals))
        file.writelines(f"T|t{number}|21|1\nC|c{number}|t{number}|north\n" for number in range(terminals))
    return path


class Terminal:
    """A connection, what it waits for, and the turns that it has made."""

    def __init__(self, connection, number):
        self.connection, self.number = connection, number
        self.sent, self.said, self.since, self.turns = 0, b"", None, 0
        self.round = [(f"11NN{DATE}{' ' * 18}AOlib|AAp{number}|ABc{number}|AC|", "121"),
                      (f"17{DATE}AOlib|ABc{number}|", "1804"),
                      (f"09N{DATE}{DATE}APnorth|AOlib|ABc{number}|AC|", "101"), ("9900302.00", "98")]

    def send(self):
        """Sends its next message: a login first."""
        message, self.wanted = (f"9300CNt{self.number}|COpw|", "941") if not self.sent else self.round[(self.sent - 1) % 4]
        self.turns += self.wanted in ("121", "101")
        self.sent += 1
        self.said, self.since = b"", time.perf_counter()
        self.connection.sendall(message.encode() + b"\r")

    def hear(self, latest):
        """The seconds that its reply took, where it is whole. It has to come within so many."""
        piece = self.connection.recv(4_096)
        self.said += piece
        if not piece or self.said.count(b"\r") > 1:
            raise Trouble(f"terminal {self.number} hears {self.said!r}")
        if not self.said.endswith(b"\r"):
            return None
        took, self.since = time.perf_counter() - self.since, None
        if not self.said.startswith(self.wanted.encode()):
            raise Trouble(f"terminal {self.number} is answered {self.said!r}, wanted {self.wanted}")
        if took > latest:
            raise Trouble(f"terminal {self.number} is answered after {took:.1f} seconds")
        return took


def memory_of(process):
    """What a process takes of memory now, and at most so far, in MiB."""
    with open(f"/proc/{process}/status", encoding="ascii") as file:
        lines = dict(re.findall(r"^(Vm\w+):\s+(\d+) kB$", file.read(), re.M))
    return int(lines["VmRSS"]) / 1_024, int(lines["VmHWM"]) / 1_024


def play(port, count, seconds, pause, latest):
    """Has terminals log in and send messages: those, and how long each reply took. Each sends its next message a pause
    behind the last one's reply, more or less; one that isn't answered in time is trouble."""
    chance, took = random.Random(SEED), []
    terminals = [Terminal(connect(port, SECONDS), number) for number in range(count)]
    with selectors.DefaultSelector() as selector:
        for terminal in terminals:
            selector.register(terminal.connection, selectors.EVENT_READ, terminal)
        begin = time.perf_counter()
        due = [(begin + chance.random() * pause, number) for number in range(count)]
        heapq.heapify(due)
        waiting = 0
        while due or waiting:
            while due and due[0][0] <= time.perf_counter():
                terminals[heapq.heappop(due)[1]].send()
                waiting += 1
            wait = max(0, due[0][0] - time.perf_counter()) if due else latest
            heard = selector.select(min(wait, latest))
            for key, _ in heard:
                terminal = key.data
                if (one := terminal.hear(latest)) is not None:
                    waiting -= 1
                    took.append(one)
                    later = time.perf_counter() + pause * (0.5 + chance.random())
                    if later < begin + seconds:
                        heapq.heappush(due, (later, terminal.number))
            if not heard and any(it.since and time.perf_counter() - it.since > latest for it in terminals):
                raise Trouble(f"a terminal isn't answered within {latest} seconds")
    return terminals, took


def rows_of(took, memory, terminals, seconds):
    """What there is to tell, a line each."""
    took = sorted(took)
    at = {name: took[min(len(took) - 1, len(took) * part // 100)] * 1_000 for name, part in (("50th", 50), ("99th", 99))}
    now, most = memory
    return [f"{len(terminals)} terminals, {len(took)} replies in {seconds} seconds, {sum(it.turns for it in terminals)} turns",
            f"50th percentile {at['50th']:.2f} ms, 99th {at['99th']:.2f} ms, worst {took[-1] * 1_000:.2f} ms",
            f"memory {now:.0f} MiB, at most {most:.0f} MiB"]


def many(program, count, seconds, pause, latest, folder):
    """Plays so many terminals, and tells what there is to tell."""
    wanted = 2 * count + 256
    _, most = resource.getrlimit(resource.RLIMIT_NOFILE)
    if most != resource.RLIM_INFINITY and most < wanted:
        raise Trouble(f"{count} terminals need {wanted} descriptors, and {most} may be open (ulimit -n)")
    resource.setrlimit(resource.RLIMIT_NOFILE, (wanted, most))
    program = os.path.abspath(program)
    with tempfile.TemporaryDirectory(dir=folder) as below:
        catalogue = catalogue_of(os.path.join(below, "library"), count)
        journal = begun(program, catalogue, os.path.join(below, "journal"))
        places = ("--terminals", str(count))
        with Seen(program, catalogue, below, "--journal", journal, "--log", "quiet", places=places, files=wanted) as server:
            alone = memory_of(server.process.pid)[0]
            terminals, took = play(server.port, count, seconds, pause, latest)
            memory = memory_of(server.process.pid)
            for terminal in terminals:
                terminal.connection.close()
            printed, _ = stop(server)
    turns = int(re.match(r"closed: (\d+) turns", printed)[1])
    lines = rows_of(took, memory, terminals, seconds)
    if turns < sum(it.turns for it in terminals):
        raise Trouble(f"the server has {turns} turns, and {sum(it.turns for it in terminals)} were answered")
    return [*lines, f"memory before the first: {alone:.0f} MiB; {printed.strip()}"]


def main():
    parser = parser_of(__doc__)
    parser.add_argument("--terminals", type=int, default=1_000, metavar="N", help="how many (1000)")
    parser.add_argument("--seconds", type=float, default=30, metavar="S", help="for how many seconds (30)")
    parser.add_argument("--pause", type=float, default=1, metavar="P", help="seconds between two messages of one (1)")
    parser.add_argument("--latest", type=float, default=10, metavar="L", help="seconds that a reply may take (10)")
    parser.add_argument("--library", metavar="FOLDER", help="where the files lie for the time (the system's folder)")
    given = parser.parse_args()
    for line in reported("serve_many", many, given.program, given.terminals, given.seconds, given.pause, given.latest,
                         given.library):
        print(f"serve_many: {line}")


if __name__ == "__main__":
    sys.exit(main())
