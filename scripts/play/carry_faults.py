#!/usr/bin/env python3
"""Looks what holddesk carry does to those that read the library meanwhile, and whether what it tells is what happened.

    python3 scripts/play/carry_faults.py [PROGRAM]

PROGRAM is crates/holddesk/out/holddesk where it isn't given. A command is held while it reads the catalogue of the
number that it has picked, by a FIFO in the place of that file; then a carry of the same library runs to its end, and
the command is let go on. A server has to serve the number that was carried to, journal check and show have to say that
the library has gone on, and a second carry, or a second beginning with an opening, has to leave the first one's files
alone, also while they are served. A link in the place of an opening isn't followed. Of a carry that fails nothing may
be told as written off; of one that doesn't, each copy once; one whose output can't be printed is done all the same, and
says so; and what is in the way is told, also where the journal can't be ended. Of a file that has its name, in a folder
that can't be synced, it is told that it is there. Needs Linux and Python 3. Status 0: all is so.
"""

import ctypes
import errno
import hashlib
import os
import stat
import subprocess
import sys
import tempfile
import time

sys.path.append(os.path.dirname(sys.path[0]))  # scripts/

from file_faults import CHECKOUT, compare_said, import_words, narrow, said_of
from server import (CATALOGUE, SECONDS, Server, Trouble, ask, begun, begun_folder, connect, parser_of, reported,
                    said_by, without_progress)

LOGIN = b"9300CNt1|COpw|"
GONE_ON = "the library went from 0001 to 0002 meanwhile: say it again\n"
UNPRINTED = "carried over, but what was carried over can't be printed\n"
WITHOUT_RIGHTS = 24  # prctl's PR_CAPBSET_DROP
OVERRIDING = (1, 2)  # CAP_DAC_OVERRIDE and CAP_DAC_READ_SEARCH: to open what the rights of a file don't allow


class Held:
    """A file of which whoever opens it next gets no byte until it is let go on. For all others it stays what it is."""

    def __init__(self, path):
        self.path, self.aside = path, f"{path}.aside"
        os.rename(path, self.aside)
        os.mkfifo(path)

    def wait(self):
        """Waits until somebody has opened it."""
        end = time.monotonic() + SECONDS
        while True:
            try:
                pipe = os.open(self.path, os.O_WRONLY | os.O_NONBLOCK)
                break
            except OSError as error:
                if error.errno != errno.ENXIO or time.monotonic() > end:
                    raise Trouble(f"nobody opens {self.path}: {error}") from error
            time.sleep(0.01)
        os.rename(self.aside, self.path)
        os.set_blocking(pipe, True)
        self.pipe = pipe

    def let_go_on(self):
        """Lets who has opened it read all of it."""
        with open(self.path, "rb") as file, open(self.pipe, "wb") as pipe:
            pipe.write(file.read())


def first_catalogue(library):
    """The catalogue of a library's first number, which is held."""
    return Held(os.path.join(library, "0001.catalogue"))


def carry_words(program, library, *more):
    """The words that carry a library's folder over to the demonstration's catalogue."""
    return [program, "carry", "--library", library, "--to", CATALOGUE, *more]


def started(words):
    """A command that runs, whose output is read when it has ended."""
    return subprocess.Popen(words, stdin=subprocess.DEVNULL, stdout=subprocess.PIPE, stderr=subprocess.PIPE, text=True)


def ended(process):
    """What a command says that was started, as said_by tells it."""
    printed, told = process.communicate(timeout=SECONDS)
    return process.returncode, printed, without_progress(told)


def carry_beside(words, held):
    """Carries a library over while somebody else is held at a file of it, and lets him go on."""
    held.wait()
    compare_said("a carry beside another command", said_of(*words), (0, ""))
    held.let_go_on()


def lend(server, *copies):
    """Lends copies to p1 at a server."""
    with connect(server.port) as terminal:
        ask(terminal, LOGIN)
        for copy in copies:
            reply = ask(terminal, CHECKOUT.replace(b"|ABa1|", b"|AB%s|" % copy.encode()))
            if not reply.startswith(b"121"):
                raise Trouble(f"copy {copy} isn't lent: {reply!r}")


def lent_folder(program, library, is_killed):
    """A library's folder, which is begun, and whose a1 is lent; its server is killed, or ends by itself."""
    begun_folder(program, CATALOGUE, library)
    with Server(program, None, 1, "--connections", "1", "--library", library) as server:
        with connect(server.port) as terminal:
            for message in (LOGIN, CHECKOUT):
                ask(terminal, message)
            if is_killed:
                server.kill()
        if not is_killed:
            server.end()
    return library


def compare_loans(program, library, number, loans):
    """Looks that this is the library's last number, and that so many copies are on loan there."""
    status, printed, told = said_by([program, "journal", "check", "--library", library])
    wanted = (0, f"checking {number} of {library}\n")
    compare_said(f"journal check of {library}", (status, told), wanted)
    if f"copies on loan: {loans}\n" not in printed:
        raise Trouble(f"{loans} loans were answered, and journal check prints {printed!r}")


def compare_start(program, room):
    """Looks that a server which has picked a number before a carry went on to the next one serves the next one."""
    library = begun_folder(program, CATALOGUE, os.path.join(room, "start"))
    held = first_catalogue(library)
    with Server(program, None, 1, "--connections", "1", "--library", library,
                meanwhile=lambda: carry_beside(carry_words(program, library), held)) as server:
        lend(server, "a1")
        server.end()
    compare_loans(program, library, "0002", 1)
    wanted = [f"serving {number} of {library}\n" for number in ("0001", "0002")]
    if server.told[:-1] != wanted:
        raise Trouble(f"a start beside a carry says {server.told}, wanted {wanted}")


def compare_readers(program, room):
    """Looks that journal check and show, which have picked a number before a carry went on, say so."""
    for number, (words, told) in enumerate(((["check"], "checking 0001 of {}\n"), (["show", "copies"], ""))):
        library = begun_folder(program, CATALOGUE, os.path.join(room, f"reader{number}"))
        held = first_catalogue(library)
        reader = started([program, "journal", *words, "--library", library])
        carry_beside(carry_words(program, library), held)
        compare_said(f"journal {words} beside a carry", ended(reader), (1, "", told.format(library) + GONE_ON))


def compare_second(program, room):
    """Looks that a second carry, which has picked its number before the first one ended, leaves the next number alone,
    which is served meanwhile."""
    library = begun_folder(program, CATALOGUE, os.path.join(room, "second"))
    held = first_catalogue(library)
    second = started(carry_words(program, library))
    held.wait()
    compare_said("a first carry", said_of(*carry_words(program, library)), (0, ""))
    with Server(program, None, 1, "--connections", "2", "--library", library) as server:
        lend(server, "a1")
        held.let_go_on()
        said = ended(second)
        lend(server, "a2")
        server.end()
    compare_loans(program, library, "0002", 2)
    compare_said("a second carry", said, (1, "", GONE_ON))


def compare_second_begin(program, room):
    """Looks that a second beginning with an opening, which found no library before the first one ended, leaves the
    library alone, which is served meanwhile."""
    library, opening = os.path.join(room, "begun"), os.path.join(room, "first.opening")
    os.mkdir(library)
    with open(CATALOGUE, "rb") as catalogue, open(opening, "w", encoding="ascii") as file:
        file.write(f"H|opening|1|0|{hashlib.sha256(catalogue.read()).hexdigest()}\n")
    words = [program, "journal", "begin", "--library", library, "--catalogue", CATALOGUE, "--opening", opening]
    held = Held(opening)
    second = started(words)
    held.wait()
    compare_said("a first beginning", said_of(*words), (0, ""))
    with Server(program, None, 1, "--connections", "2", "--library", library) as server:
        lend(server, "a1")
        held.let_go_on()
        said = ended(second)
        lend(server, "a2")
        server.end()
    compare_loans(program, library, "0002", 2)
    compare_said("a second beginning", said, (1, "", f"there is a file at {os.path.join(library, '0002.opening')}\n"))


def compare_linked(program, room):
    """Looks that a carry writes to no file to which a link leads from where its opening is to be written."""
    library, other = begun_folder(program, CATALOGUE, os.path.join(room, "linked")), os.path.join(room, "other")
    with open(other, "w", encoding="ascii") as file:
        file.write("other\n")
    os.chmod(other, 0o644)
    part = os.path.join(library, "0002.opening.part")
    os.symlink(other, part)
    compare_said("a carry beside a link", said_by(carry_words(program, library)),
                 (1, "", f"cannot write {part}: it is no regular file\n"))
    with open(other, encoding="ascii") as file:
        compare_said("what a link leads to", (file.read(), stat.S_IMODE(os.stat(other).st_mode)), ("other\n", 0o644))
    os.remove(part)
    compare_said("a carry without a link", said_of(*carry_words(program, library)), (0, ""))


def compare_second_of_files(program, room):
    """Looks that a second carry of files that are named one by one writes no opening over that of the first one."""
    catalogue, opening = os.path.join(room, "library.catalogue"), os.path.join(room, "next.opening")
    with open(CATALOGUE, "rb") as file, open(catalogue, "wb") as copy:
        copy.write(file.read())
    journal = begun(program, catalogue, os.path.join(room, "library.journal"))
    words = [program, "carry", "--catalogue", catalogue, "--journal", journal, "--to", CATALOGUE, "--into", opening]
    held = Held(catalogue)
    second = started(words)
    carry_beside(words, held)
    compare_said("a second carry of files", ended(second), (1, "", f"there is a file at {opening}\n"))


def compare_written_off(program, room):
    """Looks that nothing is told as written off where the carry fails, and else each copy once."""
    library, listed = lent_folder(program, os.path.join(room, "listed"), False), os.path.join(room, "names")
    with open(listed, "w", encoding="ascii") as file:
        file.write("a1\na2\na1\n")
    obstacle = os.path.join(library, "0002.catalogue.part")
    os.mkdir(obstacle)
    words = carry_words(program, library, "--write-off", listed)
    compare_said("a carry that can't write", said_by(words),
                 (1, "", f"cannot write {obstacle}: Is a directory (os error 21)\n"))
    os.rmdir(obstacle)
    status, printed, told = said_by(words)
    wanted = (0, "", ["written off: copy a1, on loan to p1", "turns: 1", "last number: 1"])
    compare_said("a carry that writes a loan off", (status, told, printed.splitlines()[:3]), wanted)


def compare_unprinted(program, room):
    """Looks that a carry which can't print what was carried over is done, and says so."""
    library = begun_folder(program, CATALOGUE, os.path.join(room, "unprinted"))
    with open("/dev/full", "w", encoding="ascii") as full:
        done = subprocess.run(carry_words(program, library), stdin=subprocess.DEVNULL, stdout=full,
                              stderr=subprocess.PIPE, text=True, timeout=SECONDS, check=False)
    compare_loans(program, library, "0002", 0)
    compare_said("a carry that can't print", (done.returncode, done.stderr), (0, UNPRINTED))


def compare_obstacles(program, room):
    """Looks that what is in a carry's way is told, also where the journal can't be ended behind it."""
    library, to = lent_folder(program, os.path.join(room, "obstacles"), True), os.path.join(room, "without_p1")
    with open(CATALOGUE, encoding="ascii") as file, open(to, "w", encoding="ascii") as copy:
        copy.writelines(line for line in file if not line.startswith("P|p1|"))
    words = [program, "carry", "--library", library, "--to", to]
    # a write that is refused sends a signal, which Python has ignored, and so has the program
    done = subprocess.run(words, capture_output=True, text=True, timeout=SECONDS, check=False, preexec_fn=narrow,
                          restore_signals=False)
    compare_said("a carry with a loan in its way", (done.returncode, done.stdout, done.stderr),
                 (1, "", "patron p1 has copy a1 on loan, and the new catalogue lacks them\n"))


def bound_by_rights():
    """Has a program of the superuser's bound by the rights of files, as other users' are."""
    for right in OVERRIDING:
        ctypes.CDLL(None).prctl(WITHOUT_RIGHTS, right, 0, 0, 0)


def compare_unsynced(program, room):
    """Looks that a file that has its name, in a folder which can't be read to be synced, isn't told as unwritten."""
    folder = os.path.join(room, "unsynced")
    os.mkdir(folder, stat.S_IWUSR | stat.S_IXUSR)
    done = subprocess.run([program, *import_words(folder)], capture_output=True, text=True, timeout=SECONDS,
                          check=False, preexec_fn=bound_by_rights)
    path = os.path.join(folder, "imported")
    why = "it isn't certain that the disk keeps it: Permission denied (os error 13)"
    compare_said("an import into a folder that can't be synced", (done.returncode, done.stderr),
                 (1, f"{path} has its name, but {why}\n"))
    if not os.path.exists(path):
        raise Trouble("a file that has its name isn't there")


def compare_all(program):
    """Plays all of it."""
    with tempfile.TemporaryDirectory() as room:
        for compare in (compare_start, compare_readers, compare_second, compare_second_begin, compare_linked,
                        compare_second_of_files, compare_written_off, compare_unprinted, compare_obstacles,
                        compare_unsynced):
            compare(program, room)


def main():
    asked = parser_of(__doc__).parse_args()
    reported("carry_faults", compare_all, asked.program)
    print("carry_faults: beside a carry a start, a check and a second carry lose nothing; what it tells has happened")


if __name__ == "__main__":
    main()
