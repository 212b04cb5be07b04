"""What a server tells of terminals whose clock is off, and by which zone it goes, for serve_door.py.

No script of its own. Needs nothing but Python 3.
"""

import datetime
import io
import os
import re
import struct
import subprocess
import time
import zoneinfo

from door import Seen, stop
from server import CATALOGUE, LOOPBACK, SECONDS, Server, Trouble, ask, begun, connect, serve_words

LOGIN = b"9300CNt1|COpw|"
AHEAD = 60  # the offset of the demonstration's catalogue, in minutes


def local_now(minutes):
    return datetime.datetime.now(datetime.timezone.utc) + datetime.timedelta(minutes=minutes)


def today(minutes):
    """The server's day, which is the same for the next half minute."""
    while (now := local_now(minutes)).date() != (now + datetime.timedelta(seconds=30)).date():
        time.sleep(1)
    return now.date()


def date_of(day):
    return f"{day:%Y%m%d}    120000"


def checkout(date):
    return f"11NN{date}{' ' * 18}AOlib|AAp1|ABa1|AC|".encode()


def compare_days(program, folder):
    """Has terminals send messages of other days, and compares what the log tells; and that the replies are those of a
    server that doesn't look at days."""
    day = today(AHEAD)
    near, far, old = (date_of(day + datetime.timedelta(days=days)) for days in (-2, 3, -400))
    after, first_day = date_of(day + datetime.timedelta(days=2)), "19700101    000000"
    gone = (day - datetime.date(1970, 1, 1)).days
    plays = [  # the messages of a connection, and after how many of them it is told of which date, how far off
        ((checkout(far), LOGIN, checkout(old), b"9900302.00"), (1, "", far, 3)),
        ((LOGIN, checkout(near), b"17" + after.encode() + b"AOlib|ABa1|", b"17" + far.encode() + b"AOlib|ABa1|",
          checkout(first_day)), (4, "t1", far, 3)),
        ((LOGIN, b"1720260229    000000AOlib|ABa1|", checkout("2026AAAA    000000"),
          b"17" + old.encode() + b"AOlib|ABa1|AY1AZ0000", b"15+" + first_day.encode() + b"AO", LOGIN), (5, "t1", first_day, gone)),
        ((LOGIN, b"63001" + first_day.encode() + b"          AOlib|AAp1|AC|"), (2, "t1", first_day, gone)),
        ((LOGIN, b"29NN" + near[:8].encode() + b"   Z120000" + b" " * 18 + b"AOlib|AAp1|ABa1|"), None)]
    replies = []
    for words in (("--days-off", "2"), ()):
        with Seen(program, CATALOGUE, folder, "--patron-messages", *words) as server:
            server.tells(rf'listening address="{LOOPBACK}:{server.port}" workers=2')
            for number, (messages, off) in enumerate(plays, 1):
                with connect(server.port) as connection:
                    server.tells(rf"opened connection={number} .*")
                    for count, message in enumerate(messages, 1):
                        reply = ask(connection, message)
                        replies.append(re.sub(rb"20\d{6}    (?!120000|130000)\d{6}", b"the present", reply))
                        if message == LOGIN:
                            server.tells(rf'logged_in connection={number} terminal="t1"')
                        if reply.startswith(b"96"):  # one of a connection, at most
                            server.tells(rf"resend_requested connection={number}")
                        if words and off and off[0] == count:
                            _, name, date, days = off
                            server.tells(rf'clock_off connection={number} terminal="{name}" date="{date}" days={days}')
                server.tells(rf"closed connection={number} .*")
            stop(server)
    at = len(replies) // 2
    if replies[:at] != replies[at:]:
        raise Trouble(f"where days are looked at the replies are {replies[:at]}, and else {replies[at:]}")


def zone_file(path, rule, seconds=3_600):
    """The path of a zone's file, which is written: a TZif file with one kind of time, and a rule."""
    block = struct.pack(">6l", 0, 0, 0, 0, 1, 4) + struct.pack(">lBB", seconds, 0, 0) + b"ABC\0"
    head = b"TZif2" + b"\0" * 15
    with open(path, "wb") as file:
        file.write(head + block + head + block + b"\n" + rule.encode() + b"\n")
    return path


def offset_now(path):
    """The offset that Python reads of a zone's file now, in minutes."""
    with open(path, "rb") as file:
        zone = zoneinfo.ZoneInfo.from_file(io.BytesIO(file.read()))
    return int(datetime.datetime.now(zone).utcoffset().total_seconds()) // 60


def compare_local(server, minutes):
    """Looks that a server's status has the local time of this offset."""
    with connect(server.port) as connection:
        told = ask(connection, b"9900302.00")[14:32].decode()
    moment = datetime.datetime.strptime(told, "%Y%m%d    %H%M%S").replace(tzinfo=datetime.timezone.utc)
    if abs(moment - local_now(minutes)) > datetime.timedelta(seconds=SECONDS):
        raise Trouble(f"{minutes} minutes ahead a status tells {told!r}")


def compare_zones(program, folder):
    """Starts servers that go by zones, over one journal, and compares which offsets are told and shown."""
    library = os.path.join(folder, "crlf.catalogue")
    with open(CATALOGUE, "rb") as file, open(library, "wb") as copy:
        copy.write(file.read().replace(b"\n", b"\r\n"))
    journal = begun(program, library, os.path.join(folder, "journal"))
    rules = ["<+0545>-5:45", "<-0930>9:30", "CET-1CEST,M3.5.0,M10.5.0/3", "NZST-12NZDT,M9.5.0,M4.1.0/3", "UTC0", "CET-1"]
    zones = [zone_file(os.path.join(folder, f"zone-{number}"), rule) for number, rule in enumerate(rules)]
    for path in [*zones, *filter(os.path.exists, ["/usr/share/zoneinfo/Europe/Berlin", "/usr/share/zoneinfo/Asia/Kolkata"])]:
        minutes = offset_now(path)
        with Seen(program, library, folder, "--zone", path, "--journal", journal) as server:
            server.read = 0
            server.tells(re.escape(f'zone file="{path}" offset={minutes:+}'))
            compare_local(server, minutes)
            stop(server)
    with Server(program, library, 1, "--journal", journal) as server:
        compare_local(server, AHEAD)
    with Seen(program, library, folder, "--zone", zones[0], "--log", "quiet") as server:
        compare_local(server, 345)
        if told := [line for line in stop(server)[1] if line.startswith("event=")]:
            raise Trouble(f"a server that is to be quiet tells {told!r}")
    compare_zone_faults(program, library, folder)


def compare_zone_faults(program, library, folder):
    """Compares the faults of zones, and of a catalogue that is refused with and without one."""
    odd = zone_file(os.path.join(folder, "odd"), "LMT-0:17:30", 1_050)
    bad = os.path.join(folder, "bad.catalogue")
    with open(bad, "w", encoding="utf-8") as file:
        file.write("H|1|lib|60|20\nB|north\nC|a|t|north\n")
    missing = os.path.join(folder, "missing")
    faults = [(library, odd, f"cannot read the zone {odd}: its offset is no number of minutes below a day\n"),
              (library, CATALOGUE, f"cannot read the zone {CATALOGUE}: invalid TZif data: the header is not valid\n"),
              (library, missing, f"cannot read the zone {missing}: No such file or directory"),
              (bad, zone_file(os.path.join(folder, "good"), "EST5"), "catalogue line 3: UNKNOWN\n")]
    for catalogue, zone, fault in faults:
        words = serve_words(program, catalogue, 1, "--zone", zone, "--log", "quiet")
        done = subprocess.run(words, capture_output=True, text=True, timeout=SECONDS, check=False)
        if (done.returncode, done.stdout) != (1, "") or not done.stderr.startswith(fault) or done.stderr.count("\n") != 1:
            raise Trouble(f"with the zone {zone} a server ends with {done.returncode} and says {done.stderr!r}")
