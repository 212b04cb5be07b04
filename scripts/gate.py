#!/usr/bin/env python3
"""Runs rt ci, tries the wrong bodies beside it, and says what each crate cost.

    python3 scripts/gate.py [--anew] [--figures FILE] [--verdict FILE]

rt ci proves as many crates at once as there are processors, each by one job, and what it says is passed on. Each library
that it has proved is kept (kept.py), and once all below a crate are, its wrong bodies are tried: beside rt ci at the
lowest priority, since it leaves processors free where a crate waits for another, and as memory allows. Those that are
known to be refused as they stand (refused.py) aren't tried again, but for those of some crates, other ones each day, so
that all come in ten days; what is refused is noted. One that was refused once, and whose edit is gone, or has another
text that isn't refused, is told. With --anew nothing that was proved or refused before counts. rt ci works on the files
themselves: where one is changed meanwhile, what was proved of it isn't kept, and that is told. The file of --figures
(out/gate.json) has the processor seconds by crate, of which gate_table.py makes a table: those of rt ci's provers and
compilers are read from /proc twice a second. That of --verdict (out/verdict) has rt ci's last line, which is also the
last one here. Needs Linux, rt and Python 3.

Status 0: rt ci ends with 0, each wrong body is refused, none is gone that was refused, and no file was changed meanwhile.
"""

import argparse
import json
import os
import re
import shutil
import subprocess
import sys
import tempfile
import threading
import time
from concurrent.futures import ThreadPoolExecutor
from datetime import datetime, timezone
from pathlib import Path

from kept import TOP, keep, linked, said_by_rt, sums_of
from prove import CORES, GIGABYTES, MEMORY, uses_of_all, with_all_below
from wrong_bodies.edits import edits_of
from wrong_bodies.refused import Grounds, is_due, lost_of, stamps_of
from wrong_bodies.trying import NOT_TRIED, REFUSED, refused_of, said_of_all, try_crate
from wrong_bodies.workbench import Bench

BESIDE = max(1, CORES - 1)  # crates whose wrong bodies are tried beside rt ci
GIGABYTES_BESIDE = 8  # of memory that has to be free where one is begun: up to 3 for it, and what rt ci may come to take
PAUSE = 0.5  # seconds between two looks at the processes
MINUTES = 100  # after so many no wrong body is tried, but with --anew
TICKS = os.sysconf("SC_CLK_TCK")
PROVED = re.compile(r"rt: (\w+) (?:proved|is kept)")
EDITED = re.compile(r"/rt-edits?-")  # where rt ci checks a crate with an edit, or what edits are tried over


class Costs(threading.Thread):
    """The processor seconds of the prover's processes below one, by crate, its must-fail edits apart."""

    def __init__(self, process):
        super().__init__(daemon=True)
        self.process, self.used = process, {}

    def run(self):
        while True:
            self.look()
            time.sleep(PAUSE)

    def look(self):
        parents, used = {}, {}
        for entry in filter(str.isdigit, os.listdir("/proc")):
            try:
                stat = Path(f"/proc/{entry}/stat").read_text(errors="replace").rpartition(")")[2].split()
            except OSError:
                continue  # it has ended
            parents[int(entry)], used[int(entry)] = int(stat[1]), sum(map(int, stat[11:15])) / TICKS
        costs = {}
        for at, seconds in used.items():
            line = [at]
            while parents.get(line[-1], 0) not in (0, self.process):
                line.append(parents[line[-1]])
            of = parents.get(line[-1]) and next(((it, *found) for it in reversed(line) if (found := crate_of(it))), None)
            if of:
                costs[of] = costs.get(of, 0) + seconds
        self.used |= costs

    def by_crate(self):
        """Of each crate the seconds of its proof, with its tests' and its compilers', and of its must-fail edits."""
        found = {}
        for (_, crate, what), seconds in list(self.used.items()):
            found.setdefault(crate, {}).setdefault(what, 0)
            found[crate][what] += seconds
        return found


def crate_of(process):
    """Which crate a process of the prover's is about, and whether its proof or an edit; None of another process."""
    try:
        words = Path(f"/proc/{process}/cmdline").read_text(errors="replace").split("\0")
        folder = os.readlink(f"/proc/{process}/cwd")
    except OSError:
        return None
    if not words[0].endswith("/rattle") or "--crate-name" not in words:
        return None
    return words[words.index("--crate-name") + 1], "must-fail" if EDITED.search(folder) else "proof"


def free_gigabytes():
    with open("/proc/meminfo", encoding="ascii") as lines:
        return next(int(line.split()[1]) for line in lines if line.startswith("MemAvailable:")) / 1e6


class WrongBodies:
    """The wrong bodies, of which each crate's are tried once the libraries below it are there."""

    def __init__(self, uses, room, is_anew):
        self.uses, self.room, self.seconds, self.is_alone = uses, room, {}, False
        self.end = None if is_anew else time.monotonic() + 60 * MINUTES
        self.free, self.libraries = threading.Semaphore(BESIDE), os.path.join(room, "libraries")
        self.pool, self.trying = ThreadPoolExecutor(max(1, min(CORES, int(MEMORY / GIGABYTES)))), []
        self.edits, self.grounds = [edit for crate in uses for edit in edits_of(crate)], Grounds(uses)
        self.sums = sums_of(uses, uses)  # after the grounds, which tell whether a file is changed from then on
        today = datetime.now(timezone.utc).date()
        self.left = self.to_try([crate for crate in uses if is_anew or is_due(crate, today)])
        os.makedirs(self.libraries)

    def to_try(self, due):
        """Those that aren't known to be refused, or are of crates that are due, by crate, and says how many these are."""
        left, known = {}, 0
        for edit in self.edits:
            edit.is_noted = self.grounds.is_known(edit)
            if edit.is_noted and edit.crate not in due:
                edit.verdict = REFUSED
            else:
                left.setdefault(edit.crate, []).append(edit)
                known += edit.is_noted
        count = sum(map(len, left.values()))
        print(f"wrong bodies: {count} of {len(self.edits)} are tried: {count - known} that aren't known to be refused, and "
              f"{known} again", flush=True)
        return left

    def take(self, name, made):
        """Takes a library that rt ci has proved, and begins to try the wrong bodies that no library is missing for any
        more. One that another run has kept may be another build."""
        shutil.copytree(made, os.path.join(self.libraries, made.name), copy_function=linked)
        self.look()

    def look(self):
        for crate in list(self.left):
            below = with_all_below(crate, self.uses, [])[:-1]
            if all(os.path.isdir(os.path.join(self.libraries, f"{name}.rlib")) for name in below):
                self.trying.append(self.pool.submit(self.try_one, crate, self.left.pop(crate)))

    def try_one(self, crate, edits):
        with self.free:
            while not self.is_alone and free_gigabytes() < GIGABYTES_BESIDE:
                time.sleep(PAUSE)
            bench = Bench(crate, self.uses, self.libraries, os.path.join(self.room, crate), self.end)
            try_crate(edits, bench)
            shutil.rmtree(bench.room)
            self.seconds[crate] = bench.seconds
            for edit in edits:
                if edit.verdict == NOT_TRIED and edit.is_noted:
                    edit.verdict = REFUSED
            self.grounds.note(crate, refused_of(crate, self.edits))

    def finish(self):
        """Tries the others, by all processors."""
        self.is_alone = True
        for crate in self.left:
            print(f"wrong bodies: {crate}'s can't be tried, since a library below it isn't proved")
        self.free.release(CORES)
        for one in self.trying:
            one.result()
        self.pool.shutdown()


def passed_on(process, wrong, write):
    """Passes on what rt ci says, keeps what it has proved, has wrong bodies tried and the figures so far written. Its
    last line."""
    last = ""
    for line in process.stdout:
        print(line, end="", flush=True)
        last, proved = line, PROVED.match(line)
        if proved and proved[1] in wrong.uses:
            keep_proved(proved[1], wrong)
            write()
    return last


def keep_proved(name, wrong):
    """Keeps a crate that rt ci has proved, if no file that the proof reads was changed since the sums were made."""
    made = TOP / "crates" / name / "out"
    for path in (made / "rlib" / f"{name}.rlib", made / name):
        if path.exists() and wrong.grounds.is_as_it_was(name):
            keep(path, name, wrong.sums[name])
            if path.is_dir():
                wrong.take(name, path)


def said_of_losses(wrong):
    """Says which wrong bodies are gone that were refused once, and which crates were changed meanwhile. Whether none."""
    lost = lost_of(wrong.uses, wrong.edits, [edit for edit in wrong.edits if edit.verdict == REFUSED])
    changed = [crate for crate in wrong.uses if stamps_of(crate) != wrong.grounds.stamps[crate]]
    lost += [f"{crate} was changed meanwhile, so it isn't kept: run the gate once more" for crate in changed]
    print("".join(f"{line}\n" for line in lost), end="", flush=True)
    return not lost


def write_figures(path, costs, wrong, whole):
    """Writes what each crate cost, and what rt ci took in all, 0 where it hasn't ended, in processor seconds."""
    found = costs.by_crate()
    for crate, seconds in list(wrong.seconds.items()):
        found.setdefault(crate, {})["wrong"] = seconds
    for edit in wrong.edits:
        found.setdefault(edit.crate, {}).setdefault("bodies", 0)
        found[edit.crate]["bodies"] += 1
    path.parent.mkdir(parents=True, exist_ok=True)
    path.write_text(json.dumps({"crates": found, "rt ci": whole}, indent=1))


def main():
    parser = argparse.ArgumentParser(description="Runs rt ci, and tries the wrong bodies beside it.")
    parser.add_argument("--anew", action="store_true", help="prove and try also what was proved or refused before")
    parser.add_argument("--figures", type=Path, default=TOP / "out" / "gate.json", metavar="FILE")
    parser.add_argument("--verdict", type=Path, default=TOP / "out" / "verdict", metavar="FILE")
    asked = parser.parse_args()
    with tempfile.TemporaryDirectory(prefix="gate-") as room:
        wrong = WrongBodies(uses_of_all(), room, asked.anew)
        words = ["rt", "ci", *["--anew"] * (asked.anew and "--anew" in said_by_rt("help"))]  # some kits keep nothing
        process = subprocess.Popen(words, cwd=TOP, stdin=subprocess.DEVNULL, stdout=subprocess.PIPE,
                                   stderr=subprocess.STDOUT, text=True, errors="replace",
                                   # with 2 jobs in place of 1 hd_open_shelf takes 17 % more processor time
                                   env={**os.environ, "RT_JOBS": str(CORES)})
        os.nice(19)
        costs = Costs(process.pid)
        costs.start()
        last = passed_on(process, wrong, lambda: write_figures(asked.figures, costs, wrong, 0))
        _, status, used = os.wait4(process.pid, 0)
        wrong.finish()
    write_figures(asked.figures, costs, wrong, used.ru_utime + used.ru_stime)
    asked.verdict.parent.mkdir(parents=True, exist_ok=True)
    asked.verdict.write_text(last)
    is_refused, is_whole = said_of_all(wrong.edits), said_of_losses(wrong)
    print(last, end="")
    sys.exit(0 if is_refused and is_whole and status == 0 else 1)


if __name__ == "__main__":
    main()
