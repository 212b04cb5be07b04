"""A holddesk serve with a door, for the scripts that look in: how one is started, asked and ended, and what it tells.

No script of its own: serve_door.py, serve_many.py and look_at_page.py import it. Needs nothing but Python 3.
"""

import json
import os
import re
import resource
import signal
import socket
import subprocess
import threading
from itertools import zip_longest

from server import LOOPBACK, SECONDS, Trouble, serve_words

# The fields of each answer, in order, but for its type, its length, which methods it allows and its policy.
FIXED = ["Cache-Control: no-store", "X-Content-Type-Options: nosniff", "Referrer-Policy: no-referrer",
         "Connection: close"]
JSON, PLAIN = "application/json", "text/plain; charset=utf-8"
METRICS = "text/plain; version=0.0.4; charset=utf-8"


class Seen:
    """A server with a door, in a folder, whose log is read as it comes. It is killed where it hasn't ended when the
    block that it is used in ends."""

    def __init__(self, program, catalogue, folder, *words, places=("--workers", "2"), files=None, largest=None):
        self.path = os.path.join(folder, "door")
        wanted = serve_words(program, catalogue, 1, "--door", self.path, *words)
        at = wanted.index("--workers")
        wanted[at:at + 2] = places

        def limit():
            """Has the server open and write no more than it may. A write that goes too far is to fail, not to kill. The
            umask takes no right from what the server makes."""
            os.umask(0)
            signal.signal(signal.SIGXFSZ, signal.SIG_IGN)
            for kind, most in ((resource.RLIMIT_NOFILE, files), (resource.RLIMIT_FSIZE, largest)):
                if most is not None:
                    resource.setrlimit(kind, (most, most))

        self.process = subprocess.Popen(wanted, stdin=subprocess.DEVNULL, stdout=subprocess.PIPE,
                                        stderr=subprocess.PIPE, preexec_fn=limit)
        self.told, self.read, self.news = [], 0, threading.Condition()
        self.reader = threading.Thread(target=self.listen, daemon=True)
        self.reader.start()
        begins = self.wait_for(rb"listening on " + re.escape(LOOPBACK).encode() + rb":(\d+), \d+ [a-z]+")
        self.port = int(begins[1])

    def __enter__(self):
        return self

    def __exit__(self, *_):
        if self.process.poll() is None:
            self.process.kill()
        self.process.wait(SECONDS)
        self.reader.join(SECONDS)

    def listen(self):
        """Takes down what it says on standard error, line by line."""
        for line in self.process.stderr:
            with self.news:
                self.told.append(line.rstrip(b"\n"))
                self.news.notify_all()
        with self.news:
            self.told.append(None)
            self.news.notify_all()

    def next_line(self):
        """The next line that it says on standard error; None where no more come."""
        with self.news:
            if not self.news.wait_for(lambda: self.read < len(self.told), SECONDS):
                raise Trouble(f"no more is told than {self.told!r}")
            line = self.told[self.read]
            self.read += line is not None
            return line

    def has_told(self, pattern, seconds):
        """Whether a line of this form has been told, or is within these seconds."""
        with self.news:
            return self.news.wait_for(lambda: any(line and re.fullmatch(pattern, line) for line in self.told), seconds)

    def wait_for(self, pattern):
        """Passes over lines until one is of this form."""
        while (line := self.next_line()) is not None:
            if found := re.fullmatch(pattern, line):
                return found
        raise Trouble(f"{pattern!r} isn't told, but {self.told!r}")

    def tells(self, *events):
        """Looks that the next lines of the log are these, whose patterns they are."""
        for event in events:
            line = self.next_line()
            while line is not None and not line.startswith(b"event="):
                line = self.next_line()
            if line is None or not re.fullmatch(f"event={event}".encode(), line):
                raise Trouble(f"the log tells {line!r}, wanted {event!r}")

    def end(self):
        """Waits until it ends by itself: its status, what it printed, and the lines of standard error that nobody
        asked for yet."""
        printed = self.process.stdout.read().decode()
        status = self.process.wait(SECONDS)
        self.reader.join(SECONDS)
        return status, printed, [line.decode("ascii") for line in self.told[self.read:] if line is not None]


def knock(path, seconds=SECONDS):
    """A connection to a door."""
    connection = socket.socket(socket.AF_UNIX)
    connection.settimeout(seconds)
    connection.connect(path)
    return connection


def heard(connection):
    """All that comes by a connection until its end."""
    said = b""
    try:
        while piece := connection.recv(65_536):
            said += piece
    except ConnectionError:
        pass
    return said


def asked(path, request):
    """What comes for the bytes of a request."""
    with knock(path) as connection:
        try:
            connection.sendall(request)
        except ConnectionError:
            pass  # it is refused before it is whole
        return heard(connection)


def request_of(target, method="GET", fields="Host: desk\r\n"):
    return f"{method} {target} HTTP/1.1\r\n{fields}\r\n".encode()


def parted(answer, is_sent=True):
    """The status of an answer, its fields by name, and its body. The fields have to be those of each answer, in
    order, and the body as long as is told, or left out."""
    head, mark, body = answer.partition(b"\r\n\r\n")
    begin, *lines = head.decode("ascii").split("\r\n")
    found = re.fullmatch(r"HTTP/1\.1 (\d{3}) [A-Z][A-Za-z ]+", begin)
    fields = dict(line.split(": ", 1) for line in lines)
    names = ["Content-Type", "Content-Length", *(["Allow"] if found and found[1] == "405" else []),
             "Content-Security-Policy", *(line.partition(": ")[0] for line in FIXED)]
    if not mark or not found or list(fields) != names or lines[-len(FIXED):] != FIXED:
        raise Trouble(f"{answer!r} is no answer of the door")
    if len(body) != (int(fields["Content-Length"]) if is_sent else 0):
        raise Trouble(f"of {fields['Content-Length']} bytes {len(body)} came: {answer!r}")
    return int(found[1]), fields, body


def read(path, target):
    """The status of what is answered to a target, its type, and its body."""
    status, fields, body = parted(asked(path, request_of(target)))
    return status, fields["Content-Type"], body


def rows_at(path, target):
    """The rows that are the answer to a target, each as its members in order: UTF-8 that no name breaks out of."""
    status, media, body = read(path, target)
    if (status, media) != (200, JSON) or re.search(rb"[^ -~\x80-\xff]|[<>&']", body):
        raise Trouble(f"{target} is answered {status} {media} {body!r}")
    return [list(row.items()) for row in json.loads(body.decode("utf-8"))]


def compare_rows(path, target, wanted):
    """Looks that the rows at a target are these, member by member in order."""
    rows, wanted = rows_at(path, target), [list(row.items()) for row in wanted]
    for row, other in zip_longest(rows, wanted):
        if row != other:
            raise Trouble(f"{target} has the row {row!r}, wanted {other!r}")


def stop(server):
    """Has a server end by its door, and waits for it: what it printed, and the rest of what it said."""
    if parted(asked(server.path, request_of("/stop", "POST", "")))[0] != 202:
        raise Trouble("a stop isn't taken")
    status, printed, said = server.end()
    if status != 0 or os.path.exists(server.path):
        raise Trouble(f"a stop ends with {status}, prints {printed!r} and says {said!r}; the socket's file is "
                      f"{'there' if os.path.exists(server.path) else 'gone'}")
    return printed, said
