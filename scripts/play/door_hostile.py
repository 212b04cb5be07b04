"""Hostile clients of a door beside a terminal, for serve_door.py, which plays them.

No script of its own. Needs nothing but Python 3.
"""

import contextlib
import os
import threading
import time

import morning
from door import Seen, asked, knock, read, request_of, stop
from door_refusals import compare_refusals
from server import PROGRAM, SECONDS, Trouble, ask, connect

LOGIN = b"9300CNt1|COpw|"
ITEM = f"17{morning.NOW}AOlib|ABa1|".encode()
LATER = 0.01  # seconds that a terminal's reply may be later beside hostile clients of the door
TRIES = 3  # the machine may have much else to do: one of these has to show it
HEAD = 5  # seconds that a head may take


class Terminal(threading.Thread):
    """A terminal that asks again and again, and notes when it was answered late."""

    def __init__(self, port):
        super().__init__(daemon=True)
        self.connection, self.worst, self.is_done = connect(port), 0.0, False
        ask(self.connection, LOGIN)

    def run(self):
        while not self.is_done:
            begins = time.monotonic()
            ask(self.connection, ITEM)
            self.worst = max(self.worst, time.monotonic() - begins)
            time.sleep(0.001)

    def worst_until(self, play):
        """What a play gives, and the worst reply meanwhile."""
        self.worst = 0.0
        given = play()
        return given, self.worst


def drip(path):
    """Sends a head of which a byte comes each second, until the door has enough of it: after how long."""
    begins = time.monotonic()
    with knock(path) as connection:
        for byte in b"GET /health HTTP/1.1\r\n":
            try:
                connection.sendall(bytes([byte]))
                connection.settimeout(1)
                if connection.recv(1):
                    raise Trouble("half a head is answered")
                return time.monotonic() - begins
            except TimeoutError:
                pass
            except ConnectionError:
                return time.monotonic() - begins
    raise Trouble("a client that sends a byte a second isn't dropped")


def play_hostile(path):
    """Plays hostile clients of the door: 4 that drip, 50 at once that say nothing, and many that are wrong. How many,
    and after how long the door answers again."""
    spent = []
    slow = [threading.Thread(target=lambda: spent.append(drip(path)), daemon=True) for _ in range(4)]
    for thread in slow:
        thread.start()
    time.sleep(0.2)  # they have all workers
    with contextlib.ExitStack() as silent:
        for _ in range(50):
            silent.enter_context(knock(path))
        for thread in slow:
            thread.join(SECONDS)
    if len(spent) != 4 or min(spent) < HEAD - 1 or max(spent) > HEAD + 3:
        raise Trouble(f"clients that send a byte a second are dropped after {spent!r} s")
    begins = time.monotonic()
    if read(path, "/health")[0] != 200:
        raise Trouble("the door doesn't answer behind hostile clients")
    again = time.monotonic() - begins
    count = 54 + compare_refusals(path)
    for number in range(200):
        if asked(path, request_of("/health" + "x" * number) * 20)[:12] not in (b"HTTP/1.1 200", b"HTTP/1.1 404"):
            raise Trouble("requests in one piece aren't answered by one answer")
    return count + 200, again


def compare_hostile(program, catalogue, folder):
    """Plays the hostile clients beside a terminal. What there is to tell of it."""
    with Seen(program, catalogue, folder, "--log", "quiet") as server:
        terminal = Terminal(server.port)
        terminal.start()
        for _ in range(TRIES):
            _, alone = terminal.worst_until(lambda: time.sleep(4))
            (count, again), beside = terminal.worst_until(lambda: play_hostile(server.path))
            is_late = os.path.abspath(program) == PROGRAM and beside > alone + LATER
            if not is_late:
                break
        terminal.is_done = True
        terminal.join(SECONDS)
        stop(server)
    if is_late:
        raise Trouble(f"a terminal's worst reply takes {beside:.3f} s beside hostile clients, and {alone:.3f} s without, "
                      f"at the last of {TRIES} tries")
    return (f"{count} hostile clients, a terminal's worst reply after {1000 * beside:.1f} ms beside them and "
            f"{1000 * alone:.1f} ms without; the door answers again after {again:.1f} s")
