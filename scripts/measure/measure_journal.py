#!/usr/bin/env python3
"""Measures what a journal's file costs: turns a second with it and without, the time of a start, and its size.

    python3 scripts/measure/measure_journal.py [PROGRAM] [--turns N] [--seconds S]

PROGRAM is crates/holddesk/out/holddesk where it isn't given; N is 100,000, S is 5. Turns are made by bench/out/hd_load
drive (make bench/out/hd_load; rustc), over the demonstration library, by 1 and by 16 connections: with the journal in
memory, in a file, in one that sqlite3 made, so that its pages have no sums, and in one that is synced twice a turn. Then
a file is filled with at least N turns, holddesk journal check takes them again, and the views of holddesk journal views
are read from it. The file lies in the folder that TMPDIR names. Needs Python 3. Prints a table.
"""

import contextlib
import json
import os
import sqlite3
import subprocess
import sys
import tempfile
import time

sys.path.append(os.path.dirname(sys.path[0]))  # scripts/

from make.make_library import write_with_room
from server import CATALOGUE, LOOPBACK, TOP, Server, Trouble, begun, parser_of, reported

LOAD = os.path.join(TOP, "bench", "out", "hd_load")
PLAIN = "in a file whose pages have no sums"
WAYS = {"in memory": [], "in a file": ["--journal"], PLAIN: ["--journal"],
        "in a file, wary": ["--journal", "--journal-wary"]}


def figures_of(program, catalogue, connections, words, length):
    """The figures of hd_load that drives a server for so long."""
    with Server(program, catalogue, connections, "--connections", str(connections), *words) as server:
        done = subprocess.run(
            [LOAD, "drive", "--server", f"{LOOPBACK}:{server.port}", "--catalogue", catalogue,
             "--connections", str(connections), *length], capture_output=True, text=True, check=True)
        status, _, said = server.end()
    if status != 0:
        raise Trouble(f"the server ends with {status} and says {said!r}")
    return json.loads(done.stdout.splitlines()[-1])


def words_of(way, path):
    """The words of a way, with the file's path behind --journal."""
    return [it for word in WAYS[way] for it in ([word, path] if word == "--journal" else [word])]


def without_sums(path):
    """A journal's file, made again by sqlite3."""
    plain = f"{path}.plain"
    with contextlib.closing(sqlite3.connect(path)) as old, contextlib.closing(sqlite3.connect(plain)) as made:
        mark, = old.execute("PRAGMA user_version").fetchone()
        made.execute("PRAGMA journal_mode = WAL")
        made.executescript("\n".join(old.iterdump()))
        made.execute(f"PRAGMA user_version = {mark}")
    return plain


def print_speeds(program, catalogue, folder, seconds):
    """Prints the turns a second in each way."""
    for connections, counted in ((1, "1 connection"), (16, "16 connections")):
        for number, way in enumerate(WAYS):
            path = begun(program, catalogue, os.path.join(folder, f"speed-{connections}-{number}"))
            words = words_of(way, without_sums(path) if way == PLAIN else path)
            figures = figures_of(program, catalogue, connections, words, ["--seconds", str(seconds)])
            print(f"| turns a second, {counted}, journal {way} | {figures['turns_a_second']:.0f} |", flush=True)


def rows_of(path):
    """How many turns a journal's file has."""
    with contextlib.closing(sqlite3.connect(f"file:{path}?mode=ro", uri=True)) as connection:
        return connection.execute("SELECT count(*) FROM turn").fetchone()[0]


def print_restart(program, catalogue, folder, turns):
    """Prints how long so many turns take to be taken again, with how much memory, and how large their file is."""
    path, rows = begun(program, catalogue, os.path.join(folder, "long")), 0
    while rows < turns:
        length = ["--turns", str(max(1, (turns - rows) // 13))]  # of 16 connections; four of five turns have a row
        figures_of(program, catalogue, 16, ["--journal", path], length)
        rows = rows_of(path)
    start = time.monotonic()
    check = subprocess.Popen([program, "journal", "check", "--catalogue", catalogue, "--journal", path],
                             stdout=subprocess.DEVNULL)
    _, status, used = os.wait4(check.pid, 0)
    taken = time.monotonic() - start
    if status:
        raise Trouble(f"journal check ends with {status}")
    print(f"| {rows} turns taken again | {taken:.2f} s |")
    print(f"| the memory of that | {used.ru_maxrss // 1024} MB |")
    print(f"| the file, a turn | {os.path.getsize(path) // rows} bytes |", flush=True)
    print_views(program, path)


def print_views(program, path):
    """Prints how long it takes to read each view of a journal's file, by the SQLite that Python has."""
    views = subprocess.run([program, "journal", "views"], capture_output=True, text=True, check=True).stdout
    with contextlib.closing(sqlite3.connect(path)) as connection:
        connection.executescript(views)
        for view in ("surviving", "moved", "lent"):
            begun = time.process_time()
            count = sum(1 for _ in connection.execute(f"SELECT * FROM {view}"))
            print(f"| the view {view}, {count} rows | {time.process_time() - begun:.1f} s |", flush=True)


def print_table(asked):
    with tempfile.TemporaryDirectory() as folder:
        catalogue = write_with_room(CATALOGUE, os.path.join(folder, "catalogue"))
        print("| What | Figure |\n|---|---|")
        print_speeds(asked.program, catalogue, folder, asked.seconds)
        print_restart(asked.program, catalogue, folder, asked.turns)


def main():
    parser = parser_of(__doc__)
    parser.add_argument("--turns", type=int, default=100_000, metavar="N", help="how many turns to take again (100000)")
    parser.add_argument("--seconds", type=int, default=5, metavar="S", help="how long each speed is measured (5)")
    reported("measure_journal", print_table, parser.parse_args())


if __name__ == "__main__":
    main()
