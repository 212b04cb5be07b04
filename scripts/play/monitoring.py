#!/usr/bin/env python3
"""Compares what the examples for monitoring name with what a server has, and tries them with promtool.

    python3 scripts/play/monitoring.py [PROGRAM]

PROGRAM is crates/holddesk/out/holddesk where it isn't given. A server with a journal and a door answers some messages.
The metrics at its door have to be those of scripts/make/make_monitoring.py, each with its type, its labels and a help,
and examples/alerts.yml and examples/dashboard.json to be what that writes. Each expression there may name no metric and
no label that a server lacks, and each metric has to be on the dashboard. Where there is promtool (Debian: prometheus),
it has to find nothing in the metrics and the rules, and each alert has to be there for series that bring it, and not for
others; where there is none, that is told as skipped. Needs Python 3. Status 0: all is so.
"""

import json
import os
import re
import shutil
import subprocess
import sys
import tempfile

sys.path.append(os.path.dirname(sys.path[0]))  # scripts/

from door import METRICS as MEDIA
from door import read
from make.make_monitoring import ALERTS, DASHBOARD, METRICS, dashboard, rules, tests
from server import CATALOGUE, SECONDS, Server, Trouble, ask, begun, connect, parser_of, reported

LINES = [b"9300CNt1|COpw|", b"11YN20260301    100000                  AOlib|AAp1|ABa1|AC|"]
NAME = re.compile(r"holddesk_[a-z_]+")
KINDS = re.compile(r'(kind|outcome)="(\w+)"')


def figures_of(program, folder):
    """What a server says at its door after some messages."""
    journal, door = begun(program, CATALOGUE, os.path.join(folder, "journal")), os.path.join(folder, "door")
    with Server(program, CATALOGUE, 1, "--journal", journal, "--door", door) as server:
        with connect(server.port) as connection:
            for line in LINES:
                ask(connection, line)
            status, media, body = read(door, "/metrics")
    if (status, media) != (200, MEDIA):
        raise Trouble(f"the metrics are answered {status} {media}")
    return body.decode("ascii")


def parsed(text):
    """The metrics of a text, in order: name, type, labels; each has a help, its type, and lines with values."""
    found = []
    for part in re.split(r"^(?=# HELP )", text, flags=re.M)[1:]:
        head = re.match(r"# HELP (\w+) [A-Z0-9][^\n]*\.\n# TYPE \1 (gauge|counter)\n", part)
        lines = part[head.end():].splitlines() if head else []
        if not lines or any(not re.fullmatch(rf"{head[1]}(\{{.*\}})? [0-9.]+", line) for line in lines):
            raise Trouble(f"no metric with a help, a type and values: {part!r}")
        found.append((head[1], head[2], tuple(re.findall(r'(\w+)="', lines[0]))))
    if text and not text.startswith("# HELP "):
        raise Trouble(f"the metrics begin with {text[:40]!r}")
    return found


def compare_names(text):
    """Compares the metrics of a server with the list, and what the examples name with both. How many there are."""
    found, wanted = parsed(text), [(it.name, it.kind, it.labels) for it in METRICS]
    if sorted(found) != sorted(wanted):
        raise Trouble(f"a server has the metrics {found}, and make_monitoring.py {wanted}")
    named, shown = set(NAME.findall(rules())), set(NAME.findall(dashboard()))
    names = {name for name, _, _ in found}
    if named - names or shown - names or names - shown:
        raise Trouble(f"of {names} the rules name {named}, and the dashboard {shown}")
    values, given = set(KINDS.findall(text)), set(KINDS.findall(rules()))
    if given - values:
        raise Trouble(f"the rules name {given - values}, and a server has {values}")
    return len(found)


def compare_files():
    """Looks that the examples are what is written of the list."""
    for path, text in ((ALERTS, rules()), (DASHBOARD, dashboard())):
        if path.read_text(encoding="utf-8") != text:
            raise Trouble(f"examples/{path.name} is another: run scripts/make/make_monitoring.py")
    json.loads(dashboard())


def see_well(words, text=None):
    """Looks that promtool finds nothing: what it prints."""
    done = subprocess.run(["promtool", *words], input=text, capture_output=True, text=True, timeout=SECONDS, check=False)
    if done.returncode:
        raise Trouble(f"promtool {' '.join(words)} ends with {done.returncode}: {done.stdout}{done.stderr}")
    return done.stdout + done.stderr


def try_promtool(text, folder):
    """Has promtool look at the metrics and the rules, and try these. How many tries there are."""
    if said := see_well(["check", "metrics"], text):
        raise Trouble(f"promtool check metrics says {said!r}")
    see_well(["check", "rules", str(ALERTS)])
    path = os.path.join(folder, "tests.yml")
    with open(path, "w", encoding="utf-8") as file:
        file.write(tests())
    see_well(["test", "rules", path])
    return len(json.loads(tests())["tests"])


def compare_all(program):
    """Compares everything: how many metrics there are, and how many tries of the rules, if there is promtool."""
    with tempfile.TemporaryDirectory() as folder:
        compare_files()
        text = figures_of(program, folder)
        return compare_names(text), try_promtool(text, folder) if shutil.which("promtool") else None


def main():
    count, tries = reported("monitoring", compare_all, parser_of(__doc__).parse_args().program)
    skipped = "skipped: no promtool" if tries is None else f"{tries} tries of rules by promtool"
    print(f"monitoring: {count} metrics, each with a help, and on the dashboard; {skipped}")


if __name__ == "__main__":
    main()
