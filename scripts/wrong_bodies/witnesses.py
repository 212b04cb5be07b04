"""Witnesses: stored rows of messages that the program answers otherwise with a wrong body than without it."""

import os
import subprocess
import sys
import tempfile
import threading
from itertools import zip_longest
from pathlib import Path

from kept import TOP, keep, place_of, sums_of
from prove import with_all_below
from wrong_bodies.edits import file_of
from wrong_bodies.judging import CANNOT, NOT_TELLING, PROVED, REFUSED, settle

SHOWN = "shown"  # why a wrong body counts as refused that has a row
ROWS, BUILDER, PROGRAM = TOP / "rows", TOP / "scripts" / "measure" / "optimised.py", "replay_alone"
BUILDING, LONGEST = threading.Lock(), 120  # one program is built at a time; seconds in which a row is answered


class Misfit(Exception):
    """Why a row can't be played, or a program can't be built."""


def parts_of(row):
    """The words for replay of a stored row that has no options and ends well, and what replay reads."""
    try:
        with open(ROWS / f"{row}.row", "rb") as file:
            lines = [line.partition(b" ")[::2] for line in file.read().split(b"\n")]
    except OSError as fault:
        raise Misfit(f"no row rows/{row}.row") from fault
    values = dict(lines)
    if b"options" in values or b"error" in values:
        raise Misfit(f"the row {row} has options, or doesn't end well")
    words = ["replay", "--catalogue", ROWS / values[b"catalogue"].decode(), "--now", values[b"now"].decode()]
    return words, b"".join(text + b"\n" for mark, text in lines if mark == b">")


def texts_of(row):
    """What a row rests on: itself, and its catalogue; or why it can't be played."""
    try:
        words, _ = parts_of(row)
    except Misfit as misfit:
        return [str(misfit)]
    return [path.read_bytes() for path in (ROWS / f"{row}.row", words[2])]


def build(to, bench, edit=None):
    """Builds a program of replay alone without proofs, with the edit in place where there is one."""
    words = [sys.executable, BUILDER, "--checked", "--replay", to, *(["--edit", file_of(edit)] if edit else [])]
    with BUILDING, tempfile.TemporaryFile("w+", errors="replace") as log:
        running = subprocess.Popen(words, stdin=subprocess.DEVNULL, stdout=log, stderr=log)
        _, status, used = os.wait4(running.pid, 0)
        running.returncode = os.waitstatus_to_exitcode(status)
        bench.seconds += used.ru_utime + used.ru_stime
        log.seek(0)
        if running.returncode:
            raise Misfit(next((line for line in log if "error" in line), "the program isn't built")[:200].rstrip())
    return to


def sound_program(bench, total):
    """The program as it is, which is kept by the sum of what it is built of."""
    program = place_of(PROGRAM, total) / PROGRAM
    if not program.is_file():
        with tempfile.TemporaryDirectory(prefix="sound-") as room:
            keep(build(Path(room, PROGRAM), bench), PROGRAM, total)
    return program


def replies_of(program, row):
    """What a program replies to a row, as lines."""
    words, given = parts_of(row)
    done = subprocess.run([program, *words], input=given, capture_output=True, timeout=LONGEST, check=False)
    if done.returncode:
        raise Misfit(f"replay ends with {done.returncode} at the row {row}")
    return done.stdout.decode("ascii", "replace").split("\n")


def try_by_row(edit, bench):
    """Compares what the program with the edit replies to its row, and the program without it."""
    below = with_all_below("hd_replay", bench.uses, [])
    total = sums_of(below, bench.uses, parts=("src",))["hd_replay"]
    try:
        sound = replies_of(sound_program(bench, total), edit.row)
        with tempfile.TemporaryDirectory(prefix="witness-") as room:
            others = replies_of(build(Path(room, PROGRAM), bench, edit), edit.row)
    except Misfit as misfit:
        settle(edit, CANNOT, str(misfit))
        return
    differing = next(((one, other) for one, other in zip_longest(sound, others) if one != other), None)
    if differing:
        settle(edit, REFUSED, f"{SHOWN}: `{edit.row}` is answered {differing[1]!r}, and not {differing[0]!r}", SHOWN)
    else:
        settle(edit, PROVED if edit.is_control else NOT_TELLING, f"the replies to `{edit.row}` are the same")
