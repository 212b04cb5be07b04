"""A holddesk serve for the scripts that ask it: how one is started, connected to, asked and ended.

No script of its own: unproved.py and most scripts of play/ and measure/ import it. Needs nothing but Python 3.
"""

import argparse
import os
import re
import socket
import subprocess
import sys

TOP = os.path.dirname(os.path.dirname(os.path.abspath(__file__)))
FOLDER = os.path.join(TOP, "crates", "holddesk")
PROGRAM = os.path.join(FOLDER, "out", "holddesk")
CATALOGUE = os.path.join(FOLDER, "data", "demonstration.catalogue")
LOOPBACK = "127.0.0.1"
SECONDS = 120  # the longest wait for anything


class Trouble(Exception):
    """What isn't as it has to be."""


def without_progress(told):
    """What a command says on standard error, but for how many turns it takes again: that is told where it takes ten
    seconds."""
    return "".join(line for line in told.splitlines(True) if not line.startswith("taking the journal's turns again: "))


def said_by(words, **more):
    """What a command says: its status, its output and its standard error, without progress."""
    done = subprocess.run(words, capture_output=True, text=True, timeout=SECONDS, check=False, **more)
    return done.returncode, done.stdout, without_progress(done.stderr)


def reported(name, play, *given):
    """What a script's play gives. What isn't as it has to be ends the script, by its name, with status 1."""
    try:
        return play(*given)
    except (Trouble, OSError, subprocess.SubprocessError) as trouble:
        sys.exit(f"{name}: {trouble}")


def parser_of(page):
    """The parser of a script whose page of help this is, and which takes the path of a program."""
    summary, _, rest = page.partition("\n\n")
    parser = argparse.ArgumentParser(description=summary, epilog=rest, usage=argparse.SUPPRESS,
                                     formatter_class=argparse.RawDescriptionHelpFormatter)
    parser.add_argument("program", nargs="?", default=PROGRAM, metavar="PROGRAM",
                        help="where the program is (crates/holddesk/out/holddesk)")
    return parser


def serve_words(program, catalogue, workers, *words, port=0):
    """The command line of a server at a port of the loopback, or at one that the system gives. Where there is no
    catalogue the words say where the library is."""
    return [program, "serve", *(["--catalogue", catalogue] if catalogue else []), "--listen", f"{LOOPBACK}:{port}",
            "--workers", str(workers), *words]


def begun(program, catalogue, journal, *words):
    """The path of a journal's file, which holddesk journal begin has made."""
    status, printed, told = said_by([program, "journal", "begin", "--catalogue", catalogue, "--journal", journal, *words])
    if (status, printed) != (0, f"begun: {journal}\n"):
        raise Trouble(f"journal begin ends with {status} and says {printed + told!r}")
    return journal


def begun_folder(program, catalogue, folder):
    """The path of a library's folder, which is made, and which holddesk journal begin has begun."""
    os.mkdir(folder)
    status, _, told = said_by([program, "journal", "begin", "--catalogue", catalogue, "--library", folder])
    if status:
        raise Trouble(f"journal begin ends with {status} and says {told!r}")
    return folder


class Server:
    """A server that listens, and tells no events. It is killed where it hasn't ended when the block that it is used in
    ends. What is to be done meanwhile is done as soon as it is started, and told has the lines that it said before it
    listened. Its port and its environment may be given."""

    def __init__(self, program, catalogue, workers, *words, meanwhile=None, port=0, environment=None):
        self.process = subprocess.Popen(serve_words(program, catalogue, workers, "--log", "quiet", *words, port=port),
                                        stdin=subprocess.DEVNULL, stdout=subprocess.PIPE, stderr=subprocess.PIPE,
                                        text=True, env=environment)
        self.told = []
        if meanwhile is not None:
            meanwhile()
        for line in self.process.stderr:
            listens = re.fullmatch(rf"listening on {re.escape(LOOPBACK)}:(\d+), {workers} workers?\n", line)
            if listens:
                self.port = int(listens[1])
                return
            self.told.append(line)
        self.kill()
        raise Trouble(f"the server doesn't listen, and says {self.told!r}")

    def __enter__(self):
        return self

    def __exit__(self, *_):
        if self.process.poll() is None:
            self.kill()

    def kill(self):
        """Ends it by kill -9."""
        self.process.kill()
        self.process.communicate(timeout=SECONDS)

    def end(self):
        """Waits until it ends by itself: its status, what it printed, and what it said on standard error."""
        printed, said = self.process.communicate(timeout=SECONDS)
        return self.process.returncode, printed, said


def connect(port, seconds=SECONDS):
    """A connection that waits so many seconds at most for whatever is asked of it."""
    connection = socket.create_connection((LOOPBACK, port), seconds)
    connection.setsockopt(socket.IPPROTO_TCP, socket.TCP_NODELAY, 1)
    return connection


def replies_from(connection, count, end=b"\r"):
    """So many replies, each without what ends it."""
    said = b""
    while said.count(end) < count:
        piece = connection.recv(4_096)
        if not piece:
            raise ConnectionError(f"a connection ended after {said!r}, in the place of {count} replies")
        said += piece
    *replies, rest = said.split(end)
    if len(replies) > count or rest:
        raise Trouble(f"more is answered than was asked: {said!r}")
    return replies


def ask(connection, message, end=b"\r"):
    """The reply to a message, both without what ends them."""
    connection.sendall(message + b"\r")
    return replies_from(connection, 1, end)[0]
