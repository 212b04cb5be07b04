#!/usr/bin/env python3
"""Runs a small branch library for two years, a carry each night, and compares each copy and each queue with a model.

    python3 scripts/play/two_years.py [--days N] [--seed N] [PROGRAM]

PROGRAM is crates/holddesk/out/holddesk where it isn't given; N is 700. Each day holddesk serve --library answers some
messages at random, sealed as terminals seal them; on some days it is ended by kill -9 in the middle of a message, which
is sent again after the next start. Each night holddesk carry --library goes on to the next period, and is sometimes
ended by kill -9 first; every seventh night the catalogue has grown, every thirtieth something that nobody has or waits
for is taken out, and before that something that somebody has, which has to be told. Then the new opening's lines have
to be just those of the model, which knows the desk's rules for what is played here. Needs nothing but Python 3.
Status 0: nothing differs.
"""

import collections
import datetime
import glob
import hashlib
import os
import random
import re
import subprocess
import sys
import tempfile
import time

sys.path.append(os.path.dirname(sys.path[0]))  # scripts/

from server import SECONDS, Server, Trouble, ask, begun_folder, connect, parser_of, reported, said_by

DAYS = 700
SEED = 1
TURNS = 12  # messages a day
LIMIT = 200  # commands a period
BRANCHES = ("north", "south")


class Library:
    """What stands in the catalogue: copies by their title and home, patrons by their loan limit, titles."""

    def __init__(self, draw):
        self.draw, self.made = draw, 0
        self.titles, self.copies, self.patrons = {}, {}, {}
        for _ in range(6):
            self.add_patron()
            self.add_title()
        for _ in range(12):
            self.add_copy()

    def name(self, kind):
        """A name that never was."""
        self.made += 1
        return f"{kind}{self.made}"

    def add_patron(self):
        self.patrons[self.name("p")] = self.draw.randrange(1, 5)

    def add_title(self):
        self.titles[self.name("t")] = (self.draw.choice((14, 21)), self.draw.randrange(3))

    def add_copy(self):
        self.copies[self.name("c")] = (self.draw.choice(sorted(self.titles)), self.draw.choice(BRANCHES))

    def lines(self):
        """The lines of the catalogue file; the order of names is another each time."""
        def mixed(names):
            return self.draw.sample(sorted(names), len(names))

        yield f"H|1|lib|60|{LIMIT}"
        yield from (f"B|{branch}" for branch in mixed(BRANCHES))
        yield from (f"S|t-{branch}|pw|{branch}" for branch in BRANCHES)
        yield from (f"P|{patron}|{self.patrons[patron]}" for patron in mixed(self.patrons))
        yield from (f"T|{title}|{days}|{renewals}" for title in mixed(self.titles)
                    for days, renewals in [self.titles[title]])
        yield from (f"C|{copy}|{title}|{home}" for copy in mixed(self.copies) for title, home in [self.copies[copy]])

    def write(self, path):
        """Writes the catalogue file."""
        with open(path, "w", encoding="ascii") as file:
            file.writelines(f"{line}\n" for line in self.lines())
        return path


class Desk:
    """The model: where each copy is that isn't at home, the holds of each title by rising stamp, the last number."""

    def __init__(self, library):
        self.library, self.away, self.holds, self.last = library, {}, [], 0

    def hold(self, patron, title):
        """The hold of a patron on a title, if there is one."""
        return next((it for it in self.holds if (it["patron"], it["title"]) == (patron, title)), None)

    def lines(self):
        """The lines of an opening that tell it, but for the first."""
        for hold in self.holds:
            yield f"R|{hold['title']}|{hold['patron']}|{hold['stamp']}|any||{hold['pickup']}|"
        for copy, (kind, *rest) in self.away.items():
            told = rest[:2] if kind in "KW" else rest  # the branch of these is the hold's pickup
            yield "|".join([kind, copy, *map(str, told)])

    def put(self, copy, branch):
        """Takes a copy back at a branch, and says what the reply has to tell of it."""
        title, home = self.library.copies[copy]
        was = self.away.pop(copy, None)
        hold = self.hold(was[1], title) if was and was[0] == "W" else None
        if hold is None:
            hold = next((it for it in self.holds if it["title"] == title and not it["has_copy"]), None)
        if hold is None:
            if branch == home:
                return ""
            self.away[copy] = ("U", branch, home)
            return f"CLT{home}|"
        hold["has_copy"] = True
        if hold["pickup"] != branch:
            self.away[copy] = ("W", hold["patron"], branch, hold["pickup"])
            return f"CLT{hold['pickup']}|"
        taken = {it[2] for it in self.away.values() if it[0] == "K" and it[3] == branch}
        place = next(it for it in range(1, len(taken) + 2) if it not in taken)
        self.away[copy] = ("K", hold["patron"], place, branch)
        return f"CLH{place}|"


class Message:
    """A message to the desk, and what the model does by its reply."""

    def __init__(self, text, accepted, follow):
        self.text, self.accepted, self.follow = text, accepted, follow


def drawn(desk, draw, date, branch):
    """A message at random at a branch's terminal."""
    library, moment = desk.library, f"{date}    100000"
    copy, patron = draw.choice(sorted(library.copies)), draw.choice(sorted(library.patrons))
    title, home = library.copies[copy]
    away = desk.away.get(copy)

    def lend(reply):
        desk.holds[:] = [it for it in desk.holds if (it["patron"], it["title"]) != (patron, title)]
        desk.away[copy] = ("L", patron, reply.partition("|AH")[2][:8], 0)

    def renew(reply):
        desk.away[copy] = ("L", away[1], reply.partition("|AH")[2][:8], away[3] + 1)

    def take_back(reply):
        wanted = desk.put(copy, branch)
        told = re.search(r"CL[^|]*\||$", reply)[0]
        if told != wanted:
            raise Trouble(f"{reply!r} of {copy} at {branch}, and the model says {wanted!r}")

    def add(_):
        desk.holds.append({"title": title, "patron": patron, "stamp": desk.last, "pickup": branch, "has_copy": False})

    def delete(_):
        desk.holds[:] = [it for it in desk.holds if (it["patron"], it["title"]) != (patron, title)]

    if away and away[0] == "L" and draw.random() < 0.2:
        return Message(f"29NN{moment}{moment}AOlib|AA{away[1]}|AB{copy}|", "301", renew)
    if away and (away[0] == "L" or away[0] in "WU" and away[-1] == branch):
        return Message(f"09N{moment}{moment}AP{branch}|AOlib|AB{copy}|AC|", "101", take_back)
    if away and away[0] == "K":
        patron = away[1]
        return Message(f"11NN{moment}{moment}AOlib|AA{patron}|AB{copy}|AC|", "121", lend)
    held = desk.hold(patron, title)
    if held is None and (away or draw.random() < 0.4):
        return Message(f"15+{moment}BS{branch}|BY2|AOlib|AA{patron}|AJ{title}|", "161", add)
    if held is None:
        return Message(f"11NN{moment}{moment}AOlib|AA{patron}|AB{copy}|AC|", "121", lend)
    if not held["has_copy"] and draw.random() < 0.3:
        return Message(f"15-{moment}AOlib|AA{patron}|AJ{title}|", "161", delete)
    return Message(f"17{moment}AOlib|AB{copy}|", None, None)


def sealed(text, digit):
    """A message with its digit and its check number."""
    line = f"{text}AY{digit}AZ"
    return f"{line}{-sum(line.encode()) & 0xFFFF:04X}".encode()


class Branch:
    """A terminal that stands at a branch, over all days."""

    def __init__(self, name):
        self.name, self.digit, self.pending = name, 0, None

    def log_in(self, port):
        self.connection = connect(port)
        reply = ask(self.connection, f"9300CNt-{self.name}|COpw|".encode())
        if reply != b"941":
            raise Trouble(f"{self.name} is answered {reply!r} at its login")

    def send(self, desk, message, is_cut):
        """Sends a message, and has the model follow the reply; where it is cut the reply isn't waited for."""
        self.pending = message
        line = sealed(message.text, self.digit)
        if is_cut:
            self.connection.sendall(line + b"\r")
            return
        self.follow(desk, ask(self.connection, line).decode())

    def follow(self, desk, reply):
        """Has the model follow the reply to the message that was sent last."""
        message, self.pending = self.pending, None
        self.digit = (self.digit + 1) % 10
        if message.accepted and reply.startswith(message.accepted):
            desk.last += 1
            message.follow(reply)


def play_day(program, folder, desk, draw, date, branches):
    """A day of messages; on some days the server is killed in the middle of one, which is sent again. Whether it was."""
    kills = draw.random() < 0.2
    for part in range(2 if kills else 1):
        with Server(program, None, len(branches), "--connections", str(len(branches)), "--library", folder) as server:
            for branch in branches:
                branch.log_in(server.port)
                if branch.pending:
                    branch.send(desk, branch.pending, False)
            for _ in range(TURNS // (2 if kills else 1)):
                branch = draw.choice(branches)
                branch.send(desk, drawn(desk, draw, date, branch.name), False)
            if kills and part == 0:
                branch = draw.choice(branches)
                branch.send(desk, drawn(desk, draw, date, branch.name), True)
                time.sleep(draw.random() / 100)
                server.kill()
            for branch in branches:
                branch.connection.close()
            if not (kills and part == 0):
                status, _, said = server.end()
                if status:
                    raise Trouble(f"the server ends with {status} and says {said!r}")
    return kills


def newest(folder):
    """The last opening of a folder, or none."""
    return max(glob.glob(os.path.join(folder, "????.opening")), default=None)


class Nights:
    """Carries a folder over, night by night."""

    def __init__(self, program, folder):
        self.program, self.folder, self.seconds = program, folder, 0.04  # how long the last carry took

    def words(self, catalogue):
        """The words that carry it over to a catalogue."""
        return [self.program, "carry", "--library", self.folder, "--to", catalogue]

    def is_killed_in_time(self, catalogue, draw):
        """Begins to carry it over and kills that at a random moment. Whether the old library was left."""
        before = newest(self.folder)
        process = subprocess.Popen(self.words(catalogue), stdout=subprocess.DEVNULL, stderr=subprocess.DEVNULL)
        time.sleep(draw.random() * self.seconds)
        process.kill()
        process.wait(SECONDS)
        return newest(self.folder) == before

    def carry(self, catalogue):
        """Carries it over."""
        begun = time.monotonic()
        status, _, told = said_by(self.words(catalogue))
        if (status, told) != (0, ""):
            raise Trouble(f"carry ends with {status} and says {told!r}")
        self.seconds = time.monotonic() - begun


def compare_opening(folder, desk, catalogue):
    """Compares the last opening with the model. How many lines they have."""
    with open(catalogue, "rb") as file:
        digest = hashlib.sha256(file.read()).hexdigest()
    with open(newest(folder), encoding="ascii") as file:
        first, *lines = file.read().splitlines()
    if first != f"H|opening|1|{desk.last}|{digest}":
        raise Trouble(f"the opening begins with {first!r}, and the last number is {desk.last}")
    told, wanted = sorted(lines), sorted(desk.lines())
    if told != wanted:
        only, missing = sorted(set(told) - set(wanted)), sorted(set(wanted) - set(told))
        raise Trouble(f"the opening has {only} that the model hasn't, and lacks {missing}")
    return len(lines)


def grow(library):
    """Adds to the catalogue, and changes what may be changed at any time."""
    draw = library.draw
    library.add_patron()
    library.add_title()
    library.add_copy()
    library.patrons[draw.choice(sorted(library.patrons))] = draw.randrange(1, 5)
    title, copy = draw.choice(sorted(library.titles)), draw.choice(sorted(library.copies))
    library.titles[title] = (draw.choice((7, 14, 28)), draw.randrange(3))


def refuse(program, folder, desk, catalogue):
    """Takes something out that somebody has, which isn't carried over. Whether there was anything."""
    lent = [(copy, it[1]) for copy, it in desk.away.items() if it[0] == "L"]
    if not lent:
        return False
    copy, patron = desk.library.draw.choice(lent)
    facts = desk.library.copies.pop(copy)
    desk.library.write(catalogue)
    desk.library.copies[copy] = facts
    before = sorted(os.listdir(folder))
    status, _, told = said_by([program, "carry", "--library", folder, "--to", catalogue])
    why = f"copy {copy} is on loan to {patron}, and the new catalogue lacks it\n"
    if (status, told, sorted(os.listdir(folder))) != (1, why, before):
        raise Trouble(f"carry without {copy} ends with {status} and says {told!r}")
    return True


def shrink(desk):
    """Takes a copy, a patron and a title out, each where nobody has it or waits for it."""
    library = desk.library
    copies = [it for it in library.copies if it not in desk.away]
    if len(copies) > 4:
        del library.copies[library.draw.choice(sorted(copies))]
    busy = {it["patron"] for it in desk.holds} | {it[1] for it in desk.away.values() if it[0] == "L"}
    patrons = sorted(set(library.patrons) - busy)
    if len(library.patrons) > 6 and patrons:
        del library.patrons[library.draw.choice(patrons)]
    busy = {it["title"] for it in desk.holds} | {title for title, _ in library.copies.values()}
    titles = sorted(set(library.titles) - busy)
    if titles:
        del library.titles[library.draw.choice(titles)]


def play_night(nights, catalogue, draw, played):
    """Carries a folder over; on some nights that is killed first, and done again where the old library was left."""
    if draw.random() < 0.2:
        played["carries killed"] += 1
        if not nights.is_killed_in_time(catalogue, draw):
            played["of them too late"] += 1
            return
    nights.carry(catalogue)


def play(program, days, seed):
    """Plays so many days. How much was played and compared."""
    draw = random.Random(seed)
    played = collections.Counter({"days and nights": days, "servers killed": 0, "carries killed": 0, "of them too late": 0,
                                  "carries refused": 0})
    with tempfile.TemporaryDirectory() as room:
        library = Library(draw)
        desk, branches = Desk(library), [Branch(name) for name in BRANCHES]
        catalogue = library.write(os.path.join(room, "catalogue"))
        folder = begun_folder(program, catalogue, os.path.join(room, "library"))
        nights = Nights(program, folder)
        for day in range(1, days + 1):
            date = f"{datetime.date(2026, 3, 1) + datetime.timedelta(day):%Y%m%d}"
            played["servers killed"] += play_day(program, folder, desk, draw, date, branches)
            if day % 7 == 0:
                grow(library)
            if day % 30 == 0:
                played["carries refused"] += refuse(program, folder, desk, catalogue)
                shrink(desk)
            library.write(catalogue)
            try:
                play_night(nights, catalogue, draw, played)
                played["lines of openings compared"] += compare_opening(folder, desk, catalogue)
            except Trouble as trouble:
                raise Trouble(f"night {day}: {trouble}") from trouble
    played["commands"] = desk.last
    return played


def main():
    parser = parser_of(__doc__)
    parser.add_argument("--days", type=int, default=DAYS, metavar="N", help=f"how many days ({DAYS})")
    parser.add_argument("--seed", type=int, default=SEED, metavar="N", help=f"the seed of what is drawn ({SEED})")
    asked = parser.parse_args()
    played = reported("two_years", play, asked.program, asked.days, asked.seed)
    told = ", ".join(f"{count} {what}" for what, count in played.items())
    print(f"two_years: {told}: each copy and queue as in the model")


if __name__ == "__main__":
    main()
