#!/usr/bin/env python3
"""Plays the stored rows of messages and replies, and compares each reply byte for byte.

    python3 scripts/play/rows.py [--long] [PROGRAM]

PROGRAM is crates/holddesk/out/holddesk where it isn't given. A row is a script rows/NAME.row: `catalogue FILE`, `now
DATE` and `options WORDS` say what holddesk replay is given. `> LINE` is a line of its input; the lines that answer it
stand under it: `< LINE` whole, `<~ SESSION PART` some reply of that session with that part (several of these in a row
speak of one reply), `<* SESSION` some reply of that session. Where replay doesn't end well, `error LINE` is what it
says on standard error, and its status is 1. How many gaps a session has counted (`gaps SESSION NUMBER`) no reply tells:
that isn't compared here, but by model_rows.py, of the model.

Played are the files of rows/catalogues, each read, or refused for the cause that stands under it; each row by replay;
inputs that stop it, by a line of no session or, with --long, by their 16 MiB; and lists of a patron, cut behind a name
of each length where the reply to a 63 would be longer than it may be. Through connections of holddesk serve, which has
no --now, go the rows that end well and that replay answers alike at another present, the clock's: those of which no
stored reply tells the present. Their lines end with CR, and with CR LF, and come whole, and a byte a piece; of two rows
each line comes cut in two at each byte. Needs nothing but Python 3. Status 0: all is as it is stored.
"""

import concurrent.futures
import contextlib
import datetime
import glob
import os
import re
import socket
import subprocess
import sys
import tempfile
import time

sys.path.append(os.path.dirname(sys.path[0]))  # scripts/

from server import CATALOGUE, SECONDS, TOP, Server, Trouble, connect, parser_of, reported

ROWS = os.path.join(TOP, "rows")
NOW = "20260301    120000"
MARKS = (b"catalogue", b"now", b"options", b"error", b"status")
REPLIES = (b"<", b"<~", b"<*")
CUT_IN_TWO = ("hold-and-cancellation", "repeats-and-gaps")
PATIENCE = 20  # seconds until a reply counts as missing
PAUSE = 0.001  # seconds between the two pieces of a line, so that the server reads the first alone
OFFSET = datetime.timezone(datetime.timedelta(minutes=60))  # of the catalogues of all rows that end well

# Inputs that stop replay: a line of no session between two others, and one line without an end.
NO_SESSION = (b"", b"0 97", b"01 97", b"65 97", b"100 97", b"97", b"1", b"1\t97", b"a 97")
LONGEST_INPUT = 16_777_216

# What a file of the table of catalogues begins with where a line of it is `*`.
BEGINNING = b"H|1|lib|60|100\nB|north\nT|ta|21|1\nC|a1|ta|north\n"

# The lists: a patron with loans of 40 copies whose names are as long as they may be, and what is told of these loans.
COPIES = [f"{number}-copy-of-a-name-that-is-as-long-as-a-name-of-a-copy-may-be" for number in range(10, 50)]
LIBRARY = ["H|1|lib|60|100", "B|north", "S|t1|pw|north", "P|p1|99", "T|ta|21|1", *(f"C|{it}|ta|north" for it in COPIES)]
LOANS = ["1 9300CNt1|COpw|", *(f"1 11NN20260301    10000020260301    100000AOlib|AAp1|AB{it}|" for it in COPIES)]
LIST = "1 6300120260301    100000  Y       AOlib|AAp1|"
LISTED = "64              00120260301    100000000000000040000000000000AOlib|AAp1|AE{name}|CB0099|BLY|{password}"
LONGEST_NAME, LONGEST_REPLY = 60, 2_038


class Row:
    """A row: its name, what stands behind each mark, its lines, each with the replies that stand under it, and how many
    gaps its sessions have counted."""

    def __init__(self, name):
        self.name, self.values, self.lines, self.gaps = name, {}, [], []
        with open(os.path.join(ROWS, f"{name}.row"), "rb") as file:
            stored = [line.partition(b" ") for line in file.read().split(b"\n") if line]
        before = b""
        for mark, _, text in stored:
            if mark == b">":
                self.lines.append((text, []))
            elif mark == before == b"<~":
                self.lines[-1][1][-1].append((mark, text))
            elif mark in REPLIES:
                self.lines[-1][1].append([(mark, text)])
            elif mark == b"gaps":
                self.gaps.append(tuple(map(int, text.split())))
            elif mark in MARKS:
                self.values[mark] = text
            else:
                raise Trouble(f"the row {name} has a line that begins with {mark!r}")
            before = mark

    def value(self, mark):
        return self.values.get(mark, b"").decode("ascii")

    def catalogue(self):
        return os.path.join(ROWS, self.value(b"catalogue"))

    def options(self):
        """Its options, with where a patrons' file is."""
        return [os.path.join(ROWS, it) if it.endswith(".patrons") else it for it in self.value(b"options").split()]

    def input(self):
        return b"".join(line + b"\n" for line, _ in self.lines)

    def replies(self):
        """The replies, each as what is stored of it."""
        return [reply for _, replies in self.lines for reply in replies]

    def sessions(self):
        return sorted({line.partition(b" ")[0] for line, _ in self.lines})

    def ends_well(self):
        return b"error" not in self.values

    def tells_the_present(self):
        return any(self.values[b"now"] in text for reply in self.replies() for _, text in reply)


def is_reply(stored, line):
    """Whether a line of output is what is stored of a reply."""
    for mark, text in stored:
        session, _, part = text.partition(b" ")
        is_it = line == text if mark == b"<" else line.startswith(session + b" ") and part in line
        if not is_it:
            return False
    return True


def compare_output(row, output):
    """Compares what a row's lines are answered, as replay prints it, with the stored replies."""
    lines, wanted = output.split(b"\n"), row.replies()
    for number, stored in enumerate(wanted):
        line = lines[number] if number < len(lines) else b""
        if not is_reply(stored, line):
            texts = b" and ".join(b" ".join(it) for it in stored)
            raise Trouble(f"reply {number + 1} is {line!r}, wanted {texts!r}")
    if lines[len(wanted):] != [b""]:
        raise Trouble(f"behind the last reply is printed {lines[len(wanted):]!r}")


def replayed(program, catalogue, now, words, text):
    """What replay says of an input: its status, its output and its standard error."""
    done = subprocess.run([program, "replay", "--catalogue", catalogue, "--now", now, *words], input=text,
                          capture_output=True, timeout=SECONDS, check=False)
    return done.returncode, done.stdout, done.stderr


def replay(program, row, now=None):
    """Gives a row to replay, at its present or another, and compares."""
    status, output, said = replayed(program, row.catalogue(), now or row.value(b"now"), row.options(), row.input())
    wanted = (0, b"") if row.ends_well() else (1, row.values[b"error"] + b"\n")
    if (status, said) != wanted:
        raise Trouble(f"it ends with {status} and says {said!r}, wanted {wanted!r}")
    compare_output(row, output)


def inputs(is_long):
    """The inputs that stop replay, each with what is printed, and said on standard error."""
    found = [(b"1 97\n" + line + b"\n1 97\n", b"1 96\n", b"input line 2: no session\n") for line in NO_SESSION]
    if is_long:
        found += [(b"x" * LONGEST_INPUT, b"", b"input line 1: no session\n"),
                  (b"x" * (LONGEST_INPUT + 1), b"", b"input too long\n")]
    return found


def stop(program, text, output, said):
    """Gives replay an input that stops it, and compares."""
    wanted, found = (1, output, said), replayed(program, CATALOGUE, NOW, [], text)
    if found != wanted:
        raise Trouble(f"it ends and says {found!r}, wanted {wanted!r}")


def files():
    """The files of the table of catalogues, each with what is told of it."""
    with open(os.path.join(ROWS, "catalogues"), "rb") as table:
        lines = [line for line in table.read().split(b"\n") if line and not line.startswith(b"#")]
    found, text = [], b""
    for line in lines:
        mark, rest = line[:1], line[1:]
        if mark == b"=":
            found.append((text, rest.strip()))
            text = b""
        elif line == b"*":
            text += BEGINNING
        elif mark in b">!":
            text += rest + (b"\n" if mark == b">" else b"")
        else:
            raise Trouble(f"the table of catalogues has a line {line!r}")
    return found


def read_file(program, text, told):
    """Has replay read a catalogue file, and compares what it tells of it."""
    with tempfile.NamedTemporaryFile() as file:
        file.write(text)
        file.flush()
        said = replayed(program, file.name, NOW, [], b"")
    wanted = (0, b"", b"") if told == b"well" else (1, b"", b"catalogue %s\n" % told)
    if said != wanted:
        raise Trouble(f"it ends and says {said!r}, wanted {wanted!r}")


def wanted_list(name, password):
    """The list of a patron of this name: as many loans as fit behind what stands in front of them."""
    text = LISTED.format(name=name, password=password)
    for copy in COPIES:
        if len(text) + len(f"AU{copy}|") <= LONGEST_REPLY:
            text += f"AU{copy}|"
    return text


def cut_list(program, folder, name):
    """Asks for the list of a patron of this name without a password and with theirs."""
    patrons = os.path.join(folder, f"{name}.patrons")
    with open(patrons, "w", encoding="ascii") as file:
        file.write(f"H|patrons|1\nP|p1|otter||{name}\n")
    text = "".join(f"{line}\n" for line in [*LOANS, LIST, LIST + "ADotter|"]).encode()
    words = ["--patron-messages", "--patrons", patrons]
    status, output, said = replayed(program, os.path.join(folder, "catalogue"), NOW, words, text)
    wanted = [f"1 {wanted_list(name, password)}".encode() for password in ("", "CQY|")]
    lines = output.splitlines()
    if (status, said, len(lines), lines[-2:]) != (0, b"", len(LOANS) + 2, wanted):
        raise Trouble(f"replay ends with {status}, says {said!r} and tells {lines[-2:]!r}, wanted {wanted!r}")


def whole(line):
    return [line]


def bytes_of(line):
    return [line[at:at + 1] for at in range(len(line))]


def in_two(at):
    """How a line is cut behind so many bytes, or at its end."""
    return lambda line: [piece for piece in (line[:at], line[at:]) if piece]


WAYS = {"CR": (b"\r", whole, 0), "CR LF": (b"\r\n", whole, 0), "bytes, CR": (b"\r", bytes_of, 0),
        "bytes, CR LF": (b"\r\n", bytes_of, 0)}


def send(connection, pieces, pause):
    """Sends pieces of a line. Where the server ends the connection before the last, that is heard."""
    with contextlib.suppress(ConnectionError):
        for number, piece in enumerate(pieces):
            if number:
                time.sleep(pause)
            connection.sendall(piece)


def received(connection):
    """The bytes that come next; none where the server has ended the connection."""
    try:
        return connection.recv(4_096)
    except ConnectionError:
        return b""


def heard(connection, session, replies):
    """What a session hears, as replay prints it, and whether it has ended: so many replies, or all until its end where
    that is what is stored."""
    is_end = [(b"<", session + b" ENDED")] in replies
    said, has_ended = b"", False
    while not has_ended and (is_end or said.count(b"\r") < len(replies)):
        piece = received(connection)
        said, has_ended = said + piece, not piece
    *lines, rest = said.split(b"\r")
    if rest:
        lines.append(b"without its end: " + rest)
    if has_ended:
        lines.append(b"ENDED")
    return [session + b" " + line for line in lines], has_ended


def hear(row, connections, end, cut, pause):
    """Sends a row's lines through connections, with this end and cut so. What is heard, as replay prints it."""
    printed, ended = [], set()
    for line, replies in row.lines:
        session, _, message = line.partition(b" ")
        if session in ended:
            printed.append(session + b" ENDED")
            continue
        send(connections[session], cut(message + end), pause)
        lines, has_ended = heard(connections[session], session, replies)
        printed += lines
        if has_ended:
            ended.add(session)
    for session in connections.keys() - ended:
        connections[session].shutdown(socket.SHUT_WR)
        if said := connections[session].recv(4_096):
            printed.append(session + b" " + said)
    return b"".join(line + b"\n" for line in printed)


def serve(program, row, end, cut, pause):
    """Plays a row through connections to a server of its own, compares, and looks at how the server ends."""
    sessions = row.sessions()
    words = ["--connections", str(len(sessions)), "--idle", str(SECONDS)]
    with Server(program, row.catalogue(), len(sessions), *row.options(), *words) as server:
        with contextlib.ExitStack() as stack:
            connections = {it: stack.enter_context(connect(server.port, PATIENCE)) for it in sessions}
            compare_output(row, hear(row, connections, end, cut, pause))
        status, printed, said = server.end()
    if status or not re.fullmatch(r"closed: \d+ turns, \d+ survivors\n", printed):
        raise Trouble(f"the server ends with {status}, prints {printed!r} and says {said!r}")


def trouble_of(name, play, *given):
    """What isn't as it has to be where this is played, if anything."""
    try:
        play(*given)
        return None
    except (Trouble, OSError, subprocess.SubprocessError) as trouble:
        return f"{name}: {trouble}"


def troubles_of(play, program, cases):
    """What isn't as it has to be of each case, a name and what is given, if anything; several are played at once."""
    with concurrent.futures.ThreadPoolExecutor(os.cpu_count()) as threads:
        return list(threads.map(lambda case: trouble_of(case[0], play, program, *case[1:]), cases))


def told(count, what, failed):
    """How many were played, of what, and which failed."""
    return f"{count} {what}", [f"{len(failed)} of {count} {what} failed:", *failed] if failed else []


def played(what, play, program, cases):
    """Plays cases. How many there are, of what, and which failed."""
    return told(len(cases), what, [trouble for trouble in troubles_of(play, program, cases) if trouble])


def at_another_present(program, rows):
    """Of these rows those that replay answers alike at another present. How many rows that are, and which of them are
    answered alike though a stored reply tells the present, or otherwise though none does."""
    now = datetime.datetime.now(OFFSET).strftime("%Y%m%d    %H%M%S")
    troubles = troubles_of(replay, program, [(row.name, row, now) for row in rows])
    failed = [trouble or f"{row.name}: nothing differs" for row, trouble in zip(rows, troubles)
              if bool(trouble) != row.tells_the_present()]
    alike = [row for row, trouble in zip(rows, troubles) if not trouble]
    return alike, told(len(rows), "rows at another present", failed)


def cuts_of(row):
    """The cuts in two of a row's lines: at each byte of the longest, and of the others there too, or at their ends."""
    longest = max(len(line.partition(b" ")[2]) + 1 for line, _ in row.lines)
    return [(f"{row.name}, cut at {at}", row, b"\r", in_two(at), PAUSE) for at in range(longest)]


def played_lists(program):
    """Plays the lists."""
    with tempfile.TemporaryDirectory() as folder:
        with open(os.path.join(folder, "catalogue"), "w", encoding="ascii") as file:
            file.writelines(f"{line}\n" for line in LIBRARY)
        cases = [(f"behind {length} bytes", folder, "n" * length) for length in range(1, LONGEST_NAME + 1)]
        return played("lists", cut_list, program, cases)


def play_all(program, is_long):
    """Plays everything. What was played."""
    paths = sorted(glob.glob(os.path.join(ROWS, "*.row")))
    rows = [Row(os.path.basename(path).removesuffix(".row")) for path in paths]
    through, at_another = at_another_present(program, [row for row in rows if row.ends_well()])
    groups = [played("catalogue files", read_file, program, [(repr(it[0][-60:]), *it) for it in files()]),
              played("rows by replay", replay, program, [(row.name, row) for row in rows]), at_another,
              played("inputs that stop it", stop, program, [(f"{len(it[0])} bytes", *it) for it in inputs(is_long)]),
              played_lists(program)]
    for way, given in WAYS.items():
        cases = [(row.name, row, *given) for row in through]
        groups.append(played(f"rows through connections ({way})", serve, program, cases))
    cuts = [cut for row in rows if row.name in CUT_IN_TWO for cut in cuts_of(row)]
    groups.append(played("cuts in two of the lines of a row", serve, program, cuts))
    failed = [line for _, lines in groups for line in lines]
    if failed:
        raise Trouble("\n".join(failed))
    return ", ".join(count for count, _ in groups) + ("" if is_long else "; no input of 16 MiB (--long)")


def main():
    parser = parser_of(__doc__)
    parser.add_argument("--long", action="store_true",
                        help="give replay inputs of 16 MiB too, minutes at a program without proofs")
    asked = parser.parse_args()
    print(f"rows: {reported('rows', play_all, asked.program, asked.long)}")


if __name__ == "__main__":
    main()
