#!/usr/bin/env python3
"""Stops holddesk carry and begin by kill -9 before each of their calls that change a file, and looks what is left.

    python3 scripts/play/carry_stops.py [--every N] [PROGRAM]

PROGRAM is crates/holddesk/out/holddesk where it isn't given. A day is played in a folder; then holddesk carry --library
is run on a copy of it for each of its calls that write, sync, rename or take away a file, and is killed before that
call (--every N: before each Nth). What is left has to be the old library or the new one: journal check takes it, and
where it is the old one a second carry succeeds; the opening then has the same bytes as that of an undisturbed carry. In
the same way an empty folder is begun with that opening, and one without: what is left has to be no library, which a
second begin makes, or the whole one. A carry waits before each rename: until the opening has its name the old journal
can't be opened, for what a server answered there would be lost. One whose opening is altered before it is read back has
to end as not carried over. A beginning with an opening waits before each rename too, and a second one beside it is
refused. Needs Linux, strace and Python 3; where there is no strace, or it may not trace, it is told as skipped. Status
0: nothing is lost.
"""

import os
import shutil
import subprocess
import sys
import tempfile
import time

sys.path.append(os.path.dirname(sys.path[0]))  # scripts/

from server import CATALOGUE, SECONDS, Server, Trouble, ask, begun_folder, connect, parser_of, reported
from server import said_by

RENAMES, WAITED = "rename,renameat,renameat2", 2_000_000  # microseconds before each
CALLS = "write,writev,pwrite64,fsync,fdatasync,ftruncate,rename,renameat,renameat2,unlink,unlinkat"
MESSAGES = """9300CNt1|COpw|
11NN20260301    10000020260301    100000AOlib|AAp1|ABa2|AC|
15+20260301    100000BSnorth|BY2|AOlib|AAp1|AJta|
15+20260301    100000BSsouth|BY2|AOlib|AAp2|AJta|
09N20260301    10000020260301    100000APnorth|AOlib|ABa1|AC|
15+20260301    100000BSsouth|BY2|AOlib|AAp3|AJtb|
09N20260301    10000020260301    100000APnorth|AOlib|ABb1|AC|"""


def play_day(program, folder):
    """Plays a day in a folder."""
    with Server(program, None, 1, "--connections", "1", "--library", folder) as server:
        connection = connect(server.port)
        for message in MESSAGES.splitlines():
            ask(connection, message.encode())
        connection.close()
        status, _, said = server.end()
    if status:
        raise Trouble(f"the server ends with {status} and says {said!r}")


def ended_well(words, told=""):
    """Looks that a command ends well, and says this on standard error. What it prints."""
    status, printed, said = said_by(words)
    if (status, said) != (0, told):
        raise Trouble(f"{' '.join(words)} ends with {status} and says {said!r}")
    return printed


def checked(program, folder):
    """What journal check prints of a folder, whose second number it takes where that has its opening."""
    number = "0001" if opening(folder) is None else "0002"
    return ended_well([program, "journal", "check", "--library", folder], f"checking {number} of {folder}\n")


def opening(folder):
    """The bytes of the second number's opening, or none."""
    try:
        with open(os.path.join(folder, "0002.opening"), "rb") as file:
            return file.read()
    except FileNotFoundError:
        return None


def is_killed(words, number):
    """Runs a command and kills it before its call of this number. Whether there was one."""
    done = subprocess.run(["strace", "-f", "-qq", "-o", os.devnull, "-e", f"trace={CALLS}", "-e",
                           f"inject={CALLS}:signal=KILL:when={number}", *words],
                          stdout=subprocess.DEVNULL, stderr=subprocess.DEVNULL, timeout=SECONDS, check=False)
    return done.returncode != 0


def stop(program, folder, number, wanted):
    """Carries a folder over and kills that before its call of this number. Whether there was one."""
    words = [program, "carry", "--library", folder, "--to", CATALOGUE]
    if not is_killed(words, number):
        return False
    printed = checked(program, folder)
    if opening(folder) is None:
        if not printed.startswith("turns: 6\n"):
            raise Trouble(f"before call {number} the old journal has {printed!r}")
        ended_well(words)
    elif not printed.startswith("turns: 0\n"):
        raise Trouble(f"before call {number} the new journal has {printed!r}")
    if opening(folder) != wanted:
        raise Trouble(f"before call {number} the opening is another one")
    return True


def stop_begin(program, folder, number, path):
    """Begins a folder with an opening and kills that before its call of this number. Whether there was one."""
    words = [program, "journal", "begin", "--library", folder, "--catalogue", CATALOGUE, "--opening", path]
    if not is_killed(words, number):
        return False
    if opening(folder) is None:
        check = [program, "journal", "check", "--library", folder]
        done = subprocess.run(check, capture_output=True, text=True, timeout=SECONDS, check=False)
        if (done.returncode, done.stderr) != (1, f"there is no library in {folder}\n"):
            raise Trouble(f"before call {number} of begin it is checked with {done.returncode}: {done.stderr!r}")
        ended_well(words)
    if not checked(program, folder).startswith("turns: 0\n"):
        raise Trouble(f"before call {number} of begin the journal isn't the new one")
    with open(path, "rb") as file:
        if opening(folder) != file.read():
            raise Trouble(f"before call {number} of begin the opening is another one")
    return True


def stop_first(program, folder, number):
    """Begins a folder without an opening and kills that before its call of this number. Whether there was one."""
    words = [program, "journal", "begin", "--library", folder, "--catalogue", CATALOGUE]
    if not is_killed(words, number):
        return False
    if said_by([program, "journal", "check", "--library", folder])[0]:
        ended_well(words)
    if not checked(program, folder).startswith("turns: 0\n"):
        raise Trouble(f"before call {number} of a first begin the journal isn't the new one")
    return True


def others_kept_out(program, folder):
    """Carries a folder over while others try to open its journal, which has to fail until the opening is there."""
    words = ["strace", "-f", "-qq", "-o", os.devnull, "-e", f"trace={RENAMES}", "-e",
             f"inject={RENAMES}:delay_enter={WAITED}", program, "carry", "--library", folder, "--to", CATALOGUE]
    tried, check = 0, [program, "journal", "check", "--library", folder]
    with subprocess.Popen(words, stdout=subprocess.DEVNULL, stderr=subprocess.DEVNULL) as carry:
        while carry.poll() is None:
            if not os.path.exists(os.path.join(folder, "0002.opening.part")):
                time.sleep(0.05)
                continue
            done = subprocess.run(check, capture_output=True, text=True, timeout=SECONDS, check=False)
            if opening(folder) is None:
                tried += 1
                if not done.stderr.endswith("\nanother program has the journal open\n"):
                    raise Trouble(f"while a carry goes on journal check ends with {done.returncode}: {done.stderr!r}")
    if carry.returncode or not tried or opening(folder) is None:
        raise Trouble(f"a carry that waits ends with {carry.returncode}, and {tried} have tried to open its journal")


def altered_refused(program, folder):
    """Alters the opening of a carry when it is written and before it is read back, which the carry has to see."""
    part, plain = os.path.join(folder, "0002.opening.part"), [program, "carry", "--library", folder, "--to", CATALOGUE]
    words = ["strace", "-f", "-qq", "-o", os.devnull, "-e", "trace=fsync", "-e", f"inject=fsync:delay_exit={WAITED}",
             *plain]
    with subprocess.Popen(words, stdout=subprocess.DEVNULL, stderr=subprocess.PIPE, text=True) as carry:
        while carry.poll() is None and not (os.path.exists(part) and os.path.getsize(part)):
            time.sleep(0.05)
        time.sleep(WAITED / 4_000_000)  # it is written by one call, and then synced
        with open(part, "r+b") as file:
            file.write(b"h")
        said = carry.stderr.read()
    if carry.returncode != 1 or not said.endswith("not carried over\n"):
        raise Trouble(f"a carry whose opening was altered ends with {carry.returncode} and says {said!r}")
    checked(program, folder)
    ended_well(plain)


def second_begin_kept_out(program, folder, path):
    """Begins a folder with an opening while another beginning of it waits before each rename, which is refused."""
    os.mkdir(folder)
    begin = [program, "journal", "begin", "--library", folder, "--catalogue", CATALOGUE, "--opening", path]
    words = ["strace", "-f", "-qq", "-o", os.devnull, "-e", f"trace={RENAMES}", "-e",
             f"inject={RENAMES}:delay_enter={WAITED}", *begin]
    with subprocess.Popen(words, stdout=subprocess.DEVNULL, stderr=subprocess.DEVNULL) as first:
        while first.poll() is None and not os.path.exists(os.path.join(folder, "0002.catalogue.part")):
            time.sleep(0.05)
        second = said_by(begin)
    if first.returncode or second != (1, "", "another program has the journal open\n"):
        raise Trouble(f"a beginning ends with {first.returncode}, and one beside it with {second}")
    if not checked(program, folder).startswith("turns: 0\n"):
        raise Trouble("the journal of a beginning beside another isn't the new one")


def may_trace():
    """Whether there is strace, and it may trace a program here."""
    return shutil.which("strace") is not None and not subprocess.run(
        ["strace", "-f", "-qq", "-o", os.devnull, "true"], stdin=subprocess.DEVNULL, capture_output=True, check=False
    ).returncode


def calls_of(room, every, stop, old=None):
    """Stops a command before each of its calls, each time in a folder of its own, which is a copy of an old one or
    empty. How many there were."""
    number = 1
    while True:
        folder = os.path.join(room, str(number))
        if old is None:
            os.mkdir(folder)
        else:
            shutil.copytree(old, folder)
        is_stopped = stop(folder, number)
        shutil.rmtree(folder)
        if not is_stopped:
            return number
        number += every


def stops(program, every):
    """Stops a carry, and then a beginning with an opening and one without, before each of its calls. How many there
    were of each."""
    if not may_trace():
        return None
    with tempfile.TemporaryDirectory() as room:
        old, whole = os.path.join(room, "old"), os.path.join(room, "whole")
        begun_folder(program, CATALOGUE, old)
        play_day(program, old)
        shutil.copytree(old, whole)
        ended_well([program, "carry", "--library", whole, "--to", CATALOGUE])
        waiting = os.path.join(room, "waiting")
        shutil.copytree(old, waiting)
        others_kept_out(program, waiting)
        given = os.path.join(whole, "0002.opening")
        altered = os.path.join(room, "altered")
        shutil.copytree(old, altered)
        altered_refused(program, altered)
        second_begin_kept_out(program, os.path.join(room, "second"), given)
        return (calls_of(room, every, lambda folder, number: stop(program, folder, number, opening(whole)), old),
                calls_of(room, every, lambda folder, number: stop_begin(program, folder, number, given)),
                calls_of(room, every, lambda folder, number: stop_first(program, folder, number)))


def main():
    parser = parser_of(__doc__)
    parser.add_argument("--every", type=int, default=1, metavar="N", help="stop before each Nth call alone (1)")
    asked = parser.parse_args()
    counts = reported("carry_stops", stops, asked.program, asked.every)
    print("carry_stops: skipped, since there is no strace that may trace" if counts is None else
          f"carry_stops: stopped before its calls up to the {counts[0]}th, the old library or the new one each time; "
          f"a beginning up to the {counts[1]}th, without an opening to the {counts[2]}th, no library or the whole one")


if __name__ == "__main__":
    main()
