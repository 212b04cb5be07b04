#!/usr/bin/env python3
"""Looks at holddesk serve by its door, reads its log, has it end, and plays hostile clients of the door.

    python3 scripts/play/serve_door.py [PROGRAM]

PROGRAM is crates/holddesk/out/holddesk where it isn't given. A morning is played (morning.py), and each list, the state
and each refusal at the door is compared with what has to be there, and so is what holddesk show, status and stop print
(serve_door.shown). Each event has to stand in the log once, with its reason, in one line of printable ASCII, and a
password in none; so have messages of other days, and the offsets of zones. A stop ends a session and one that waits,
and leaves a journal in one file; a socket that a kill -9 left gives way, and a live one doesn't. What journal show
prints of the file is what show printed. A stop comes soon, and so does the end of a server whose journal can't be
written, also where clients keep sending, read nothing, or wait to be served. A server without descriptors waits for
some. Where nobody answers, status gives up after a minute, and stop doesn't. Clients of the door that are slow, silent,
endless or wrong come beside a terminal, whose worst reply is printed; of a program that is proved it is at most 10 ms
later than without them. Takes about a minute. Needs nothing but Python 3. Status 0: all is as it has to be.
"""

import contextlib
import os
import re
import shutil
import sqlite3
import subprocess
import sys
import tempfile
from concurrent.futures import ThreadPoolExecutor

sys.path.append(os.path.dirname(sys.path[0]))  # scripts/

import morning
from door import METRICS, PLAIN, Seen, compare_rows, heard, read, rows_at, stop
from door_clock import compare_days, compare_zones
from door_hostile import compare_hostile
from door_log import compare_broken, compare_events, compare_few_files, compare_messages, compare_quiet
from door_log import compare_unwritten
from door_refusals import compare_refusals
from door_stops import compare_flood, compare_flood_unwritten, compare_no_files, compare_patience
from door_stops import compare_unread, compare_unread_idle
from server import SECONDS, Trouble, ask, begun, connect, parser_of, reported, without_progress

SHOWN = os.path.splitext(os.path.abspath(__file__))[0] + ".shown"
MANY = 513  # holds of one title: one more than a page has
DATE, DUE = morning.NOW, morning.DUE
PAST = "2026-04-02"  # a day behind the last one of each hold that has one
LOGIN = b"9300CNt1|COpw|"
# What a journal's file shows after its server has ended as the server does: each list, and what isn't there.
SAME = ["copies", "copies --json", "copy a1", "copy none", "title ta", "title ta --json", "title none", "patron p1",
        "patron p2", "shelf north", "transits", "transit south", "overdue 2026-04-01", "overdue 2026-02-30",
        "expired 2026-04-02", "turns --after 0 --limit 5", "turns --after 1 --limit 2 --json", "command 1",
        "command 1 --json", "command 99"]


def library_of(text, path):
    """The path of a catalogue's file, which is written."""
    with open(path, "w", encoding="utf-8") as file:
        file.write(text)
    return path


def library_with_crowd(path):
    """The path of the morning's catalogue, with many patrons and a title that all of them want."""
    crowd = "".join(f"P|crowd-{number}|3\n" for number in range(1, MANY + 1))
    return library_of(f"{morning.CATALOGUE}{crowd}T|crowd|7|0|N\n", path)


def play_morning(server):
    """Plays the morning: the two terminals' connections, which stay."""
    connections = {}
    for name in morning.SEATS:  # the next one connects only now, so that seats are numbered in this order
        connections[name] = connect(server.port)
        if ask(connections[name], f"9300CN{name}|COpw|".encode()) != b"941":
            raise Trouble(f"{name} can't log in")
    for name, message, wanted in morning.MESSAGES:
        reply = ask(connections[name], message.encode())
        if reply != wanted.encode():
            raise Trouble(f"{message!r} is answered {reply!r}, wanted {wanted!r}")
    return connections


def compare_lists(path):
    """Compares each list at the door. How many there were."""
    for target, rows in (morning.SEEN | morning.WHOLE).items():
        compare_rows(path, f"/api/{target}", rows)
    turns, last = morning.TURNS, len(morning.TURNS)
    compare_rows(path, "/api/turns", turns)
    for after, limit in ((0, 1), (5, 5), (last - 1, 7), (last, 512), (last + 1, 1), (10 ** 18, 1)):
        page = turns[after:after + limit]
        more = [{"next": after + limit}] if after + limit < last else []
        for query in (f"after={after}&limit={limit}", f"limit={limit}&after={after}"):
            compare_rows(path, f"/api/turns?{query}", page + more)
    compare_rows(path, "/api/titles/tc/queue?after=1", [morning.SECOND_P2])
    compare_rows(path, f"/api/overdue?after=5&day={morning.DAY}", [morning.D1])
    return len(morning.SEEN) + len(morning.WHOLE) + 15


def compare_crowd(path, connections):
    """Has many patrons wait for a title, and compares its queue and the turns, page by page."""
    for number in range(1, MANY + 1):
        reply = ask(connections["t1"], f"15+{DATE}BW{DUE}BSnorth|BY2|AOlib|AAcrowd-{number}|AJcrowd|".encode())
        if not reply.startswith(f"161N{DATE}BW{DUE}|BR{number}|".encode()):
            raise Trouble(f"the hold of crowd-{number} is answered {reply!r}")
    for target, first, name in (("/api/titles/crowd/queue", 1, "position"), ("/api/turns", 1, "turn")):
        rows = rows_at(path, target)
        numbers = [dict(row).get(name) for row in rows[:-1]]
        if numbers != list(range(first, 513)) or rows[-1] != [("next", 512)]:
            raise Trouble(f"the first page of {target} has {numbers!r} and {rows[-1]!r}")
    [[*last]] = rows_at(path, "/api/titles/crowd/queue?after=512")
    if dict(last)["patron"] != f"crowd-{MANY}":
        raise Trouble(f"the last of the crowd is {last!r}")
    if len(rows_at(path, "/api/turns?after=512")) != len(morning.MESSAGES) + MANY - 512:
        raise Trouble("the second page of the turns isn't what is left")
    compare_expired(path)


def compare_expired(path):
    """Compares the holds past their day, of which the crowd's don't go on a page with the one before them."""
    first = rows_at(path, f"/api/expired?day={PAST}")
    [(_, place)] = first[-1]
    told = [dict(row) for row in [*first[:-1], *rows_at(path, f"/api/expired?after={place}&day={PAST}")]]
    wanted = [("tb", "p3"), *(("crowd", f"crowd-{number}") for number in range(1, MANY + 1))]
    if [(row["title"], row["patron"]) for row in told] != wanted or len(first) != 513:
        raise Trouble(f"the holds past their day on {PAST} are {told!r}, {len(first) - 1} on the first page")
    [[*last]] = rows_at(path, f"/api/expired?day=2026-03-23&after={place + 1}")
    if dict(last)["patron"] != f"crowd-{MANY}":
        raise Trouble(f"the last of the crowd past its day is {last!r}")


def figures(path):
    """The figures of the state, by name; each has its help before it, and then that it is a gauge or a counter."""
    status, media, body = read(path, "/metrics")
    if (status, media) != (200, METRICS):
        raise Trouble(f"the state is answered {status} {media}")
    found, kind, helped = {}, None, None
    for line in body.decode("ascii").splitlines():
        if told := re.fullmatch(r"# HELP (\w+) [^ ].*", line):
            helped = told[1]
        elif told := re.fullmatch(r"# TYPE (\w+) (?:gauge|counter)", line):
            kind = told[1]
        else:
            name, value = line.rsplit(" ", 1)
            if not name.partition("{")[0] == kind == helped or name in found:
                raise Trouble(f"{line!r} stands below the type of {kind} and the help of {helped}")
            found[name] = value
    return found


def tallied(counts):
    """The figures of turns that were counted so: by kind, done, refused and repeated."""
    return {f'holddesk_turns_total{{kind="{kind}",outcome="{outcome}"}}': number for kind, numbers in counts.items()
            for outcome, number in zip(("done", "refused", "repeated"), numbers)}


def compare_state(path, turns, last, counts, size):
    """Compares the state with what was played: so many turns, the last of whose commands has this number, counted so,
    in files of so many bytes. Each figure is told but how many commands survive, which would take a walk."""
    if read(path, "/health") != (200, PLAIN, b"ok\n"):
        raise Trouble("the server isn't well")
    wanted = {"holddesk_well": 1, "holddesk_connections": 2, "holddesk_workers_busy": 2, "holddesk_journal_turns": turns,
              "holddesk_last_number": last, "holddesk_numbers_left": 1_000 - last, "holddesk_journal_bytes": size,
              **tallied(counts)}
    found = figures(path)
    last_commit = found.pop("holddesk_last_commit_seconds", "not told")
    if not re.fullmatch(r"\d+\.\d{6}", last_commit) or not 0 < float(last_commit) < SECONDS:
        raise Trouble(f"the last commit took {last_commit}")
    for name in wanted.keys() | found.keys():
        if found.get(name) != str(wanted.get(name)):
            raise Trouble(f"{name} is {found.get(name)}, wanted {wanted.get(name)}")
    return len(wanted) + 1


def with_sequence(message):
    """A message with a sequence digit and its checksum."""
    text = f"{message}AY3AZ"
    return f"{text}{-sum(text.encode()) & 0xFFFF:04X}".encode()


def repeat_line(connection, message):
    """Sends a line, and the same again: each is answered the same. The reply."""
    line = with_sequence(message)
    first, again = ask(connection, line), ask(connection, line)
    if first != again:
        raise Trouble(f"{line!r} is answered {first!r}, and then {again!r}")
    return first


def compare_tallies(path, connections, size_of):
    """Has many patrons wait for a title, which takes more turns than a look counts, and lines sent twice; and compares
    the state again and again, each time with all that was played till then. How many figures it has."""
    turns, last, counts = len(morning.TURNS), max(turn["number"] or 0 for turn in morning.TURNS), dict(morning.COUNTED)
    told = [compare_state(path, turns, last, counts, size_of())]
    compare_crowd(path, connections)
    turns, last, (done, refused, repeated) = turns + MANY, last + MANY, counts["hold"]
    counts["hold"] = (done + MANY, refused, repeated)
    told.append(compare_state(path, turns, last, counts, size_of()))
    repeat_line(connections["t2"], f"15+{DATE}BSnorth|BY2|AOlib|AAp1|AJcrowd|")
    counts["hold"] = (done + MANY + 1, refused, repeated + 1)
    repeat_line(connections["t2"], f"15-{DATE}AOlib|AAp3|AJcrowd|")
    ask(connections["t2"], f"15*{DATE}BSsouth|AOlib|AAp1|AJcrowd|".encode())
    counts["hold_deletion"], counts["hold_change"] = (0, 1, 1), (1, 0, 0)
    repeat_line(connections["t1"], f"15+{DATE}AOlib|AAp1|AJcrowd|BIY|")
    ask(connections["t1"], f"11NY{DATE}{DUE}AOlib|AAp2|ABb1|AC|".encode())
    counts["cancellation"] = (1, 2, 1)
    counts["offline_checkout"] = (1, 0, 0)
    told.append(compare_state(path, turns + 8, last + 3, counts, size_of()))
    told.append(compare_state(path, turns + 8, last + 3, counts, size_of()))
    return told[0]


def printed_by(*words):
    """What a command prints, and its status."""
    done = subprocess.run(words, stdout=subprocess.PIPE, stderr=subprocess.STDOUT, timeout=SECONDS, check=False)
    return without_progress(done.stdout.decode()), done.returncode


def asked_by(program, words, path):
    """What a command says that asks at a door, and its status."""
    return printed_by(program, *words.split(), "--door", path)


def compare_journal(program, catalogue, journal, shown):
    """Compares what journal show prints of a file with what show printed of its server."""
    for words, wanted in shown.items():
        found = printed_by(program, "journal", *words.split(), "--catalogue", catalogue, "--journal", journal)
        if found != wanted:
            raise Trouble(f"holddesk journal {words} prints {found!r}, and at the door it was {wanted!r}")


def status_of(found):
    """What holddesk status has to print where these are the figures of the state."""
    lines = ["health: ok"]
    for name, value in found.items():
        kind = re.fullmatch(r'holddesk_turns_total\{kind="(\w+)",outcome="(\w+)"\}', name)
        words = f"{kind[1]} turns, {kind[2]}" if kind else name.removeprefix("holddesk_")
        if name != "holddesk_well" and not (kind and value == "0"):
            lines.append(f"{words.replace('_', ' ')}: {value}")
    return "".join(f"{line}\n" for line in lines)


def compare_clients(program, path):
    """Compares what holddesk show and status print with what is stored, or is at the door. How many commands there
    were."""
    with open(SHOWN, encoding="utf-8") as file:
        blocks = re.findall(r"^\$ (.*)\n((?:[^$=].*\n)*)= (\d)\n", file.read(), re.M)
    for words, wanted, status in [*blocks, ("status", status_of(figures(path)), "0")]:
        printed, ended = asked_by(program, words, path)
        if (printed, ended) != (wanted, int(status)):
            raise Trouble(f"holddesk {words} ends with {ended} and prints\n{printed}wanted {status} and\n{wanted}")
    return len(blocks) + 1


def kept_turns(journal, folder):
    """The turns that are in the one file of a journal, without its log."""
    alone = shutil.copy(journal, os.path.join(folder, "alone"))
    with contextlib.closing(sqlite3.connect(alone)) as connection:
        return connection.execute("SELECT count(*) FROM turn").fetchone()[0]


def compare_counted(path, counts):
    """Compares the turns that are counted since a program began: of the kinds that aren't named there are none."""
    wanted = {name: str(number) for name, number in tallied(dict.fromkeys(morning.COUNTED, (0, 0, 0)) | counts).items()}
    if (found := {name: value for name, value in figures(path).items() if "_turns_total" in name}) != wanted:
        raise Trouble(f"since it began there are {found!r}, wanted {wanted!r}")


def compare_gone(program, path, journal):
    """Moves the file of a server's journal away, and puts a copy in its place, which both have to be told; then moves it
    back."""
    for is_replaced in (False, True):
        os.rename(journal, journal + ".moved")
        if is_replaced:
            shutil.copy(journal + ".moved", journal)
        gone, status = asked_by(program, "status", path)
        os.replace(journal + ".moved", journal)
        if "the journal's file is gone" not in gone or status != 1 or asked_by(program, "status", path)[1] != 0:
            raise Trouble(f"of a server whose journal's file is gone status says {gone!r}, {status}")


def compare_end(program, catalogue, folder):
    """Has a server end with a session and one that waits, and looks at what it leaves; then kills one, and starts
    others on the same files."""
    journal = begun(program, catalogue, os.path.join(folder, "journal"))
    room, log = os.path.getsize(journal + "-wal"), rb"event=waiting connection=2 .*"
    words = ("--journal", journal)
    with Seen(program, catalogue, folder, *words, places=("--workers", "1")) as server:
        with connect(server.port) as first, connect(server.port) as second:
            server.wait_for(log)
            for message in (LOGIN, *(message.encode() for name, message, _ in morning.MESSAGES[:5] if name == "t1")):
                ask(first, message)
            printed, _ = stop(server)
            if heard(first) or heard(second):
                raise Trouble("a session is answered at a stop that asked nothing")
    kept, left = kept_turns(journal, folder), os.path.getsize(journal + "-wal")
    if (printed, kept) != ("closed: 4 turns, 4 survivors\n", 4) or left > room:
        raise Trouble(f"a stop prints {printed!r}, and leaves {kept} turns in the file and {left} bytes of its log")
    twice = with_sequence(f"11NN{DATE}{' ' * 18}AOlib|AAp3|ABa3|AC|")
    with Seen(program, catalogue, folder, *words) as server, connect(server.port) as terminal:
        if len(rows_at(server.path, "/api/turns")) != 4:
            raise Trouble("the next start hasn't the turns of the last one")
        compare_counted(server.path, {})
        for message in (LOGIN, twice):
            reply = ask(terminal, message)
        compare_counted(server.path, {"checkout": (1, 0, 0)})
        compare_gone(program, server.path, journal)
        server.process.kill()
        server.process.wait(SECONDS)
    if not os.path.exists(server.path):
        raise Trouble("a kill -9 leaves no socket's file")
    with Seen(program, catalogue, folder, *words) as server:
        with connect(server.port) as terminal:
            if [ask(terminal, message) for message in (LOGIN, twice)] != [b"941", reply]:
                raise Trouble("a line that is sent again after a kill isn't answered as before")
        compare_counted(server.path, {"checkout": (0, 0, 1)})
        shown = {f"show {words}": asked_by(program, f"show {words}", server.path) for words in SAME}
        told = asked_by(program, "stop", server.path)
        if told != ("the server has ended\n", 0) or os.path.exists(server.path):
            raise Trouble(f"holddesk stop says {told!r}, or leaves the socket's file")
        if server.end()[:2] != (0, "closed: 6 turns, 5 survivors\n"):
            raise Trouble("a start behind a kill hasn't the turns of the last one")
    compare_journal(program, catalogue, journal, shown)
    for words in ("stop", "status", "show copy a1"):
        if asked_by(program, words, server.path) != (f"no server listens at {server.path}\n", 1):
            raise Trouble(f"holddesk {words} says something else where no server listens")


def characters_of(name):
    """The characters that JSON tells a name as: in UTF-8, or where it isn't that, in Latin-1."""
    try:
        return name.decode("utf-8")
    except UnicodeDecodeError:
        return name.decode("latin-1")


def compare_names(program, folder):
    """Compares what is told of patrons whose names have each byte that may stand in a name, and of some that are UTF-8
    or all but that: cut short, too long, a half of a pair."""
    names = [bytes(byte for byte in range(first, min(first + 55, 0x100)) if byte not in b"|\x7f")
             for first in range(0x20, 0x100, 55)]
    names += ["S\u00fcd".encode("utf-8"), "S\u00fcd".encode("latin-1"), b"S\xc3", b"\xc0\xaf", b"\xed\xa0\x80",
              "\u0085\u2028\u2029\ufeff \u20ac\U0001f4da \u0635 <\u00e9>".encode("utf-8")]
    catalogue = os.path.join(folder, "names.catalogue")
    with open(catalogue, "wb") as file:
        patrons = b"".join(b"P|%s|3\n" % name for name in names)
        file.write(b"H|1|lib|0|99\nB|b\nS|t1|pw|b\n" + patrons + b"T|t|7|0\nC|c|t|b\n")
    with Seen(program, catalogue, folder, "--log", "quiet") as server, connect(server.port) as terminal:
        ask(terminal, LOGIN)
        for name in names:
            ask(terminal, f"11NN{DATE}{' ' * 18}AOlib|AA".encode() + name + b"|ABc|AC|")
            path = "/api/patrons/" + "".join(f"%{byte:02x}" for byte in name)
            [[*row]] = rows_at(server.path, path)
            [[*lent]] = rows_at(server.path, "/api/copies/c")
            if dict(row)["copy"] != "c" or dict(lent)["patron"] != characters_of(name):
                raise Trouble(f"{name!r} is told as {row!r} and {lent!r}")
            printed, _ = asked_by(program, "show copy c", server.path)
            if characters_of(name) not in printed:
                raise Trouble(f"{name!r} is shown as {printed!r}")
            ask(terminal, f"09N{DATE}{DATE}APb|AOlib|ABc|AC|".encode())
        stop(server)


def compare_seen(program, catalogue, folder):
    """Plays the morning over a journal's file, and compares all that is to be seen. What there is to tell of it."""
    journal = begun(program, catalogue, os.path.join(folder, "journal"))
    with Seen(program, catalogue, folder, "--journal", journal, "--log", "quiet") as server:
        connections = play_morning(server)
        lists = compare_lists(server.path)
        refused = compare_refusals(server.path)
        clients = compare_clients(program, server.path)
        told = compare_tallies(server.path, connections,
                               lambda: sum(os.path.getsize(journal + end) for end in ("", "-wal")))
        printed, _ = stop(server)
    if printed != f"closed: {len(morning.MESSAGES) + MANY + 8} turns, {morning.SURVIVORS + MANY + 3} survivors\n":
        raise Trouble(f"the morning ends with {printed!r}")
    return f"{lists} lists, {refused} refusals, {clients} commands, {told} figures"


def compare_all(program):
    """Compares everything. What there is to tell of it, a line each."""
    program = os.path.abspath(program)
    with contextlib.ExitStack() as stack:
        folders = [stack.enter_context(tempfile.TemporaryDirectory()) for _ in range(17)]
        library = library_with_crowd(os.path.join(folders[0], "library"))
        few = library_of(morning.CATALOGUE.replace("|60|1000", "|60|10"), os.path.join(folders[0], "few"))
        with ThreadPoolExecutor(4) as pool:  # the first of them only waits, for a minute
            plays = [pool.submit(play, program, *given) for play, *given in (
                (compare_patience, folders[16]), (compare_seen, library, folders[1]), (compare_events, few, folders[2]), (compare_messages, folders[3]),
                (compare_end, library, folders[4]), (compare_quiet, folders[5]), (compare_names, folders[6]),
                (compare_few_files, folders[0]), (compare_unwritten, library, folders[7]),
                (compare_broken, library, folders[8]), (compare_days, folders[9]), (compare_zones, folders[10]),
                (compare_flood, folders[11]), (compare_flood_unwritten, library, folders[12]),
                (compare_unread, folders[13]), (compare_unread_idle, folders[14]), (compare_no_files, folders[15]))]
            told = [play.result() for play in plays]
        return [line for line in told if line] + [compare_hostile(program, library, folders[1])]


def main():
    program = parser_of(__doc__).parse_args().program
    for line in reported("serve_door", compare_all, program):
        print(f"serve_door: {line}")


if __name__ == "__main__":
    main()
