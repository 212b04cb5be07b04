#!/usr/bin/env python3
"""Proves a crate and those below it, several at once, builds it where it is a program, and says how far it is.

    python3 scripts/prove.py [NAME]

NAME is a crate of crates.txt, a library or a program; holddesk where it isn't given. Each crate is proved from nothing by
the kit's rattle build, which makes a library, or the program, only of what is proved. The sources are copied first, so
that they may be changed meanwhile: what is proved is the copy. What is proved is kept below ~/.cache/holddesk (kept.py),
by a sum of all that it was made of, so that the next run proves what changed and the crates above it. A program is then
crates/NAME/out/NAME. This isn't the gate: that is rt ci. Needs Python 3 and rt.
"""

import argparse
import os
import shutil
import subprocess
import sys
import tempfile
import time
from concurrent.futures import FIRST_COMPLETED, ThreadPoolExecutor, wait
from graphlib import TopologicalSorter
from pathlib import Path

from kept import TOP, copy_sources, keep, lay_out, said_by_rt, sums_of

CORES, MEMORY = len(os.sched_getaffinity(0)), os.sysconf("SC_PAGE_SIZE") * os.sysconf("SC_PHYS_PAGES") / 1e9
GIGABYTES = 4  # what a crate's proof may take: hd_journal_file takes 4.0, most take 1 to 2


def uses_of_all():
    """What each crate of crates.txt uses, of the repository and of the kit."""
    with open(TOP / "crates.txt", encoding="utf-8") as lines:
        crates = [line.split("#")[0].partition(":") for line in lines]
    return {name.split()[0]: used.split() for name, colon, used in crates if colon}


def with_all_below(name, uses, found):
    """The crate and those of the repository below it, the lowest first, behind those found."""
    for use in uses[name]:
        if use in uses and use not in found:
            with_all_below(use, uses, found)
    found.append(name)
    return found


def is_program(name):
    return (TOP / "crates" / name / "src" / "main.rt").is_file()


def words_of(command, name, uses, room, jobs):
    """The kit's command over the crate, in whose folder it runs, and over the libraries in the room."""
    kit = os.path.dirname(said_by_rt("doc"))
    words = [f"{kit}/bin/rattle", command, "--crate-name", name, f"src/{'main' if is_program(name) else 'lib'}.rt"]
    for use in ["std", *uses[name]]:
        words += ["--extern", f"{use}={room if use in uses else f'{kit}/rlibs'}/{use}.rlib"]
    words += ["-L", f"dependency={kit}/rlibs", "-L", f"dependency={room}", "--jobs", str(jobs)]
    return [*words, "--antt-project", f"{kit}/rattle/logic/antt-project.json", "--logic-built", f"{kit}/logic_built"]


def steps_of(name, uses, room, jobs):
    """The commands that prove the crate over the libraries in the folder, and build it there."""
    kit, words = os.path.dirname(said_by_rt("doc")), words_of("build", name, uses, room, jobs)
    if not is_program(name):
        return [[*words, "--statements", "-o", f"{room}/{name}.rlib"]]
    link = [f"{kit}/bin/rattle-link", "--target", "x86_64-unknown-linux-gnu", "--toolchain", f"{kit}/toolchain"]
    return [[*words, "--toolchain", f"{kit}/toolchain", "-o", f"{room}/{name}.o"],
            [*link, "-o", f"{room}/{name}", f"{room}/{name}.o", f"{kit}/c/libos_c.a", f"{kit}/c/liblibc_c.a"]]


def build(name, uses, room, jobs, total, top):
    """Proves and builds the crate below the top, and keeps it by the sum of what it was made of. What was said, if it
    isn't proved."""
    for step in steps_of(name, uses, room, jobs):
        ran = subprocess.run(step, cwd=top / "crates" / name, stdin=subprocess.DEVNULL, stdout=subprocess.PIPE,
                             stderr=subprocess.STDOUT, text=True, errors="replace", check=False)
        if ran.returncode:
            return f"prove: {name} isn't proved:\n{ran.stdout}"
    made = Path(room, name)
    keep(made if made.is_file() else made.with_suffix(".rlib"), name, total)
    return None


def prove(names, uses, room):
    """Lays the crates into a folder, proves those that aren't kept, and says after each which of how many it is. Whether
    all are proved. Sums and proofs are of a copy of the sources, so that none is kept by another's sum."""
    with tempfile.TemporaryDirectory(prefix="sources-") as copy:
        copy_sources(names, copy)
        return prove_below(Path(copy), names, uses, room)


def prove_below(top, names, uses, room):
    """Proves the crates as they stand below the top."""
    begin, sums, running, proved = time.monotonic(), sums_of(names, uses, top), {}, 0
    left = [name for name in names if not lay_out(room, name, sums[name])]
    print(f"prove: {len(names) - len(left)} of {len(names)} are proved and haven't changed", file=sys.stderr)
    order = TopologicalSorter({name: [use for use in uses[name] if use in left] for name in left})
    order.prepare()
    with ThreadPoolExecutor(max(1, min(CORES, int(MEMORY / GIGABYTES)))) as pool:
        while order.is_active():
            ready = order.get_ready()
            # a crate has the cores that no other wants: with 2 jobs in place of 1 hd_open_shelf takes 18.9 s by the clock in
            # place of 25.3, but 17 % more processor time (hd_session with 4: 28 %)
            jobs = max(1, CORES // (len(running) + len(ready)))
            running |= {pool.submit(build, name, uses, room, jobs, sums[name], top): name for name in ready}
            for done in wait(running, return_when=FIRST_COMPLETED).done:
                if done.result():
                    print(done.result(), file=sys.stderr)
                    pool.shutdown(cancel_futures=True)
                    return False
                name, proved, took = running.pop(done), proved + 1, int(time.monotonic() - begin)
                order.done(name)
                print(f"prove: {proved} of {len(left)}, {name}, after {took // 60}:{took % 60:02}", file=sys.stderr)
    return True


def libraries_in(room, names, uses):
    """A folder with the libraries of those names, for scripts that check something over them."""
    libraries = os.path.join(room, "libraries")
    os.makedirs(libraries)
    if not prove(names, uses, libraries):
        sys.exit("prove: the libraries aren't proved")
    return libraries


def main():
    parser = argparse.ArgumentParser(description="Proves a crate and those below it, and builds it where it is a program.")
    parser.add_argument("name", nargs="?", default="holddesk", help="a library or a program of crates.txt (holddesk)")
    name, uses = parser.parse_args().name, uses_of_all()
    if name not in uses:
        parser.error("no such crate in crates.txt")
    with tempfile.TemporaryDirectory(prefix="prove-") as room:
        if not prove(with_all_below(name, uses, []), uses, room):
            sys.exit(1)
        if Path(room, name).is_file():
            (TOP / "crates" / name / "out").mkdir(exist_ok=True)
            shutil.copy(Path(room, name), TOP / "crates" / name / "out")


if __name__ == "__main__":
    main()
