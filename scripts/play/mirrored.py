"""Two folders of a library, one on a machine that serves and one on a machine that waits, for the scripts that lose the
first: mirror.c gives the second what was synced in the first, and nothing else.

No script of its own: mirror.py and failover.py import it. Needs Linux, rt (for its clang) and Python 3.
"""

import filecmp
import os
import shutil
import subprocess

from kept import said_by_rt
from server import TOP, Trouble, begun_folder, said_by

JOURNAL = "0001.journal"


def compiled(folder):
    """The path of mirror.c as a library, which is compiled into a folder."""
    library = os.path.join(folder, "mirror.so")
    clang = os.path.join(os.path.dirname(said_by_rt("doc")), "toolchain", "bin", "clang")
    subprocess.run([clang, "-O1", "-shared", "-fPIC", "-nostdlib", "-fuse-ld=lld", "-o", library,
                    os.path.join(TOP, "scripts", "play", "mirror.c")], check=True)
    return library


class Machines:
    """The disks of two machines, a folder each, of which the first is served; and the library before a server, so that
    what it syncs is on the second too. A sync takes so many milliseconds more: the round trip between the machines."""

    def __init__(self, program, catalogue, folder, round_trip):
        self.program, self.library, self.round_trip = program, compiled(folder), round_trip
        self.first, self.second = (os.path.join(folder, name) for name in ("one", "two"))
        begun_folder(program, catalogue, self.first)
        shutil.copytree(self.first, self.second)

    def environment(self, is_late=False):
        """The environment of a server of the first machine. With a late mirror it answers before the second has what was
        synced."""
        return {**os.environ, "LD_PRELOAD": self.library, "MIRROR_FROM": self.first, "MIRROR_TO": self.second,
                "MIRROR_MICROSECONDS": str(int(self.round_trip * 1_000)), **({"MIRROR_LATE": "1"} if is_late else {})}

    def lose_first(self):
        """The first machine is gone, with its disk: the second takes its place, and a new one waits, whose disk is made
        anew from it."""
        shutil.rmtree(self.first)
        self.first, self.second = self.second, self.first
        shutil.copytree(self.first, self.second)

    def check_second(self):
        """Has journal check take the turns of the second machine again: how many there are."""
        status, printed, told = said_by([self.program, "journal", "check", "--library", self.second])
        if status:
            raise Trouble(f"on the second machine journal check ends with {status} and says {told!r}")
        counts = dict(line.split(": ") for line in printed.splitlines() if ": " in line)
        return int(counts["turns"])

    def compare(self):
        """Looks that the two folders are the same, byte by byte, as after an end that syncs everything; but for the log,
        which is cut off then, and nothing waits for that."""
        names = sorted(os.listdir(self.first))
        if names != sorted(os.listdir(self.second)):
            raise Trouble(f"the first machine has {names}, and the second {sorted(os.listdir(self.second))}")
        for name in names:
            if not name.endswith("-wal") and not filecmp.cmp(os.path.join(self.first, name),
                                                             os.path.join(self.second, name), shallow=False):
                raise Trouble(f"{name} isn't the same on both machines")
