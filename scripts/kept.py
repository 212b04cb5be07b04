"""What is proved and kept, below ~/.cache/holddesk or XDG_CACHE_HOME: libraries and programs.

A library stands in a folder of its own, whose name has a sum of all that its proof reads, so that every clone finds it
and none takes it for another. No verdict of rt ci rests on what is kept: rt ci proves each crate from nothing.
"""

import hashlib
import os
import shutil
import subprocess
import sys
import tempfile
from pathlib import Path

TOP = Path(__file__).resolve().parent.parent
ROOM = Path(os.environ.get("XDG_CACHE_HOME") or Path.home() / ".cache") / "holddesk"
PARTS = ("src", "specs", "proofs")  # what a crate's proof reads
OLDER = 2  # of each crate so many are kept that were made before


def said_by_rt(word):
    return subprocess.run(["rt", word], check=True, capture_output=True, text=True).stdout.strip()


def files_of(name, parts=PARTS, top=TOP):
    """The paths of the files that a crate's proof reads. A link among them ends the run, since no sum tells what a folder
    has that a link leads to."""
    places = [top / "crates" / name / part for part in parts]
    paths = sorted(path for place in places for path in place.rglob("*"))
    for path in (*places, *paths):
        if path.is_symlink():
            sys.exit(f"{path.relative_to(top)} is a link: put the files themselves there")
    return [path for path in paths if path.is_file()]


def copy_sources(names, room):
    """Copies what the proofs of these crates read into a folder, where nobody changes it."""
    for name in names:
        for part in PARTS:
            if (TOP / "crates" / name / part).is_dir():
                shutil.copytree(TOP / "crates" / name / part, Path(room, "crates", name, part), symlinks=True)


def sums_of(names, uses, top=TOP, parts=PARTS):
    """Of each crate, the lowest first, a sum over all that its proof reads: kit, files, and what is below it. The crates
    stand below the top, and only these parts of them count."""
    kit, sums = said_by_rt("version"), {}
    for name in names:
        files = [(str(path.relative_to(top)), path.read_bytes()) for path in files_of(name, parts, top)]
        read = [kit, name, [(use, sums.get(use)) for use in uses[name]], files]
        sums[name] = hashlib.sha256(repr(read).encode()).hexdigest()
    return sums


def place_of(name, total):
    """Where a crate of this sum is kept: a library as NAME.rlib in it, a program as NAME."""
    return ROOM / "crates" / f"{name}-{total[:32]}"


def keep(made, name, total):
    """Keeps a library's folder, or a program, of a crate of this sum, and of those made before the last ones."""
    to = place_of(name, total)
    if to.is_dir():
        return
    to.parent.mkdir(parents=True, exist_ok=True)
    with tempfile.TemporaryDirectory(dir=to.parent) as room:
        new = Path(room, "new")
        if made.is_dir():
            shutil.copytree(made, new / made.name, copy_function=linked)
        else:
            new.mkdir()
            shutil.copy(made, new)
        try:
            new.rename(to)
        except OSError:
            return  # another run has kept it
    of_name = [path for path in to.parent.glob(f"{name}-*") if path.name[:-33] == name]
    for old in sorted(of_name, key=lambda path: path.stat().st_mtime)[:-1 - OLDER]:
        shutil.rmtree(old, ignore_errors=True)


def linked(source, to):
    """Another name of a file; a copy where it can have none."""
    try:
        os.link(source, to)
    except OSError:
        shutil.copy(source, to)


def lay_out(room, name, total):
    """Puts a link to the kept crate into a folder. Whether it is kept."""
    kept = place_of(name, total)
    for made in (f"{name}.rlib", name):
        if (kept / made).exists():
            if not os.path.lexists(os.path.join(room, made)):
                os.symlink(kept / made, os.path.join(room, made))
            return True
    return False
