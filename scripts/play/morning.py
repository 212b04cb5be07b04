"""A morning at a library's desk: its catalogue, what its terminals send and are answered, and what is to be seen of it.

No script of its own: serve_door.py and look_at_page.py import it. What is to be seen is written down by hand after
docs/desk-rules.md, and not taken from the program. Needs nothing but Python 3.
"""

ODD = "<b>\"O'Neil\" & \\son</b>"  # a patron whose name is none of HTML, of JSON and of a header
FILM = "Tom & \"Jerry\" 50% <2>?"
SLASH = "d/1"
UMLAUT = "M\u00fcller"
DAY = "2026-03-01"
NOW = "20260301    100000"
DUE = "20260322    235900"
CATALOGUE = f"""H|2|lib|60|1000
B|north
B|south
S|t1|pw|north
S|t2|pw|south
P|p1|3
P|p2|3
P|p3|1
P|{UMLAUT}|3
P|{ODD}|3
T|ta|21|1|N
T|tb|14|0|N
T|tc|7|2|L
T|{FILM}|7|0|N
C|a1|ta|north
C|a2|ta|north
C|a3|ta|south
C|b1|tb|north
C|c1|tc|north
C|c2|tc|south
C|{SLASH}|{FILM}|south
"""
NO_DATE = " " * 18
FEBRUARY = "20260215    100000"
# Who says what: terminal, message, reply. Each is a turn, and those that are accepted are commands, from 1.
MESSAGES = [
    ("t1", f"11YN{NOW}{NO_DATE}AOlib|AAp1|ABa1|AC|", f"121NNY{NOW}AOlib|AAp1|ABa1|AJta|AH{DUE}|"),
    ("t1", f"15+{NOW}BSnorth|BY2|AOlib|AAp2|AJta|", f"161Y{NOW}BR1|BSnorth|AOlib|AAp2|AJta|"),
    ("t2", f"15+{NOW}BW20260401    000000BSsouth|BY2|AOlib|AAp3|AJtb|",
     f"161Y{NOW}BW20260401    235900|BR1|BSsouth|AOlib|AAp3|AJtb|"),
    ("t1", f"09N{NOW}{NOW}APnorth|AOlib|ABb1|AC|", f"101YNY{NOW}AOlib|ABb1|AQnorth|AJtb|CLTsouth|"),
    ("t1", f"09N{NOW}{NOW}APnorth|AOlib|ABa2|AC|", f"101YNY{NOW}AOlib|ABa2|AQnorth|AJta|CLH1|"),
    ("t1", f"15-{NOW}AOlib|AAp2|AJta|BIY|", f"160N{NOW}AOlib|AAp2|AJta|AFDEPENDS 5|"),
    ("t1", f"11NN{FEBRUARY}{NO_DATE}AOlib|AA{UMLAUT}|ABc1|AC|",
     f"121NNY{FEBRUARY}AOlib|AA{UMLAUT}|ABc1|AJtc|AH20260222    235900|"),
    ("t1", f"11NN{FEBRUARY}{NO_DATE}AOlib|AA{ODD}|AB{SLASH}|AC|",
     f"121NNY{FEBRUARY}AOlib|AA{ODD}|AB{SLASH}|AJ{FILM}|AH20260222    235900|"),
    ("t2", f"09N{NOW}{NOW}APnorth|AOlib|ABc2|AC|", f"101YNY{NOW}AOlib|ABc2|AQsouth|AJtc|CLTsouth|"),
    ("t2", f"15+{NOW}BSsouth|BY4|AOlib|AAp1|AJtc|", f"161N{NOW}BR1|BSsouth|AOlib|AAp1|AJtc|"),
    ("t2", f"15+{NOW}BSnorth|BY3|AOlib|AAp2|ABc1|", f"161N{NOW}BR2|BSnorth|AOlib|AAp2|ABc1|AJtc|"),
    ("t2", f"11NN{NOW}{NO_DATE}AOlib|AAp3|ABa3|AC|", f"121NNY{NOW}AOlib|AAp3|ABa3|AJta|AH{DUE}|"),
    ("t2", f"11NN{NOW}{NO_DATE}AOlib|AAp3|ABb1|AC|", f"120NNN{NOW}AOlib|AAp3|ABb1|AJ|AH|AFIN TRANSIT|"),
    ("t1", f"29NN{NOW}{NO_DATE}AOlib|AAp1|ABa1|", f"301YNN{NOW}AOlib|AAp1|ABa1|AJta|AH{DUE}|"),
    ("t1", f"29NN{NOW}{NO_DATE}AOlib|AAp1|ABa1|BIY|", f"301NNN{NOW}AOlib|AAp1|ABa1|AJta|AH|AFCANCELLED 12|"),
    ("t1", f"17{NOW}AOlib|ABa1|", f"18040001{NOW}CF1|AH{DUE}|ABa1|AJta|AQnorth|"),
]
SEATS = {"t1": 1, "t2": 2}  # t1 is connected first
SURVIVORS = 11

COLUMNS = {
    "copy": "row copy title home state branch to place patron due renewals",
    "hold": "row title position patron stamp admits only pickup until copy",
    "turn": "row turn seat terminal asked day patron copy title branch until outcome number why due",
    "command": "row command terminal asked day patron copy title branch until due dependent",
}


def row(kind, word=None, **told):
    """A row of a kind: each of its members, None where nothing is told of it. Its word is another where it tells of
    what was before a command or after it."""
    members = dict.fromkeys(COLUMNS[kind].split())
    if not told.keys() <= members.keys():
        raise ValueError(told)
    return members | {"row": word or kind} | told


def copy_row(copy, title, home, state, word=None, **told):
    return row("copy", word, copy=copy, title=title, home=home, state=state, **told)


def hold_row(title, patron, word=None, **told):
    return row("hold", word, title=title, patron=patron, **told)


def turn_row(turn, terminal, asked, outcome="done", day=DAY, **told):
    return row("turn", turn=turn, seat=SEATS[terminal], terminal=terminal, asked=asked, outcome=outcome, day=day, **told)


def command_row(command, asked, terminal="t1", day=DAY, **told):
    return row("command", command=command, terminal=terminal, asked=asked, day=day, **told)


A1 = copy_row("a1", "ta", "north", "on loan", patron="p1", due="2026-03-22", renewals=0)
A2 = copy_row("a2", "ta", "north", "hold shelf", branch="north", place=1, patron="p2")
A3 = copy_row("a3", "ta", "south", "on loan", patron="p3", due="2026-03-22", renewals=0)
B1 = copy_row("b1", "tb", "north", "in transit", branch="north", to="south", patron="p3")
C1 = copy_row("c1", "tc", "north", "on loan", patron=UMLAUT, due="2026-02-22", renewals=0)
C2 = copy_row("c2", "tc", "south", "in transit", branch="north", to="south")
D1 = copy_row(SLASH, FILM, "south", "on loan", patron=ODD, due="2026-02-22", renewals=0)
HOLD_P2 = hold_row("ta", "p2", position=1, stamp=2, admits="any", pickup="north", copy="a2")
HOLD_P3 = hold_row("tb", "p3", position=1, stamp=3, admits="any", pickup="south", until="2026-04-01", copy="b1")
HOLD_P1 = hold_row("tc", "p1", position=1, stamp=9, admits="branch", pickup="south")
SECOND_P2 = hold_row("tc", "p2", position=2, stamp=10, admits="copy", only="c1", pickup="north")
TURNS = [
    turn_row(1, "t1", "checkout or renewal", patron="p1", copy="a1", title="ta", number=1, due="2026-03-22"),
    turn_row(2, "t1", "hold", patron="p2", title="ta", branch="north", number=2),
    turn_row(3, "t2", "hold", patron="p3", title="tb", branch="south", until="2026-04-01", number=3),
    turn_row(4, "t1", "checkin", copy="b1", title="tb", branch="north", number=4),
    turn_row(5, "t1", "checkin", copy="a2", title="ta", branch="north", number=5),
    turn_row(6, "t1", "cancel hold", "refused", None, patron="p2", title="ta", number=5, why="DEPENDS"),
    turn_row(7, "t1", "checkout", day="2026-02-15", patron=UMLAUT, copy="c1", title="tc", number=6, due="2026-02-22"),
    turn_row(8, "t1", "checkout", day="2026-02-15", patron=ODD, copy=SLASH, title=FILM, number=7, due="2026-02-22"),
    turn_row(9, "t2", "checkin", copy="c2", title="tc", branch="north", number=8),
    turn_row(10, "t2", "hold", patron="p1", title="tc", branch="south", number=9),
    turn_row(11, "t2", "hold", patron="p2", copy="c1", title="tc", branch="north", number=10),
    turn_row(12, "t2", "checkout", patron="p3", copy="a3", title="ta", number=11, due="2026-03-22"),
    turn_row(13, "t2", "checkout", "refused", patron="p3", copy="b1", title="tb", why="IN TRANSIT"),
    turn_row(14, "t1", "renewal", patron="p1", copy="a1", title="ta", number=12, due="2026-03-22"),
    turn_row(15, "t1", "cancel renewal", "cancelled", None, copy="a1", title="ta", number=12),
    turn_row(16, "t1", "item", "item", None, copy="a1", title="ta"),
]
COMMANDS = {
    1: [command_row(1, "checkout or renewal", patron="p1", copy="a1", title="ta", due="2026-03-22"),
        copy_row("a1", "ta", "north", "open shelf", "before", branch="north"), A1 | {"row": "after"}],
    2: [command_row(2, "hold", patron="p2", title="ta", branch="north", dependent=5),
        hold_row("ta", "p2", "before"),
        HOLD_P2 | {"row": "after", "position": None, "copy": None}],
    # without it p2 would wait for a copy, and a3 be kept from p3
    5: [command_row(5, "checkin", copy="a2", title="ta", branch="north", dependent=11),
        copy_row("a2", "ta", "north", "open shelf", "before", branch="north"), A2 | {"row": "after"},
        HOLD_P2 | {"row": "before", "position": None, "copy": None},
        HOLD_P2 | {"row": "after", "position": None}],
}
# What is asked by its path, as a browser's address has it, and the rows that are the answer.
SEEN = {
    "copies/a1": [A1],
    "copies/a2": [A2],
    "copies/b1": [B1],
    "copies/d%2F1": [D1],
    "titles/ta/queue": [HOLD_P2],
    "titles/tc/queue": [HOLD_P1, SECOND_P2],
    "titles/Tom%20%26%20%22Jerry%22%2050%25%20%3C2%3E%3F/queue": [],
    "patrons/p1": [A1, HOLD_P1],
    "patrons/p2": [HOLD_P2, SECOND_P2],
    "patrons/M%C3%BCller": [C1],
    "patrons/%3Cb%3E%22O%27Neil%22%20%26%20%5Cson%3C%2Fb%3E": [D1],
    "branches/north/shelf": [A2],
    "branches/south/shelf": [],
    "branches/south/transit": [B1, C2],
    "branches/north/transit": [],
    f"overdue?day={DAY}": [C1, D1],
    "overdue?day=2026-02-22": [],
    "overdue?day=2026-03-23": [A1, A3, C1, D1],
    "expired?day=2026-04-01": [],
    "expired?day=2026-04-02": [HOLD_P3],
    **{f"commands/{number}": rows for number, rows in COMMANDS.items()},
}
# What is asked with an escaped day, and of the library as a whole, which the page doesn't ask.
WHOLE = {
    "copies": [A1, A2, A3, B1, C1, C2, D1],
    "copies?after=5": [C2, D1],
    "transits": [B1, C2],
    "overdue?day=2026%2D03%2d01": [C1, D1],
}
# The turns by kind and outcome: done, refused, repeated.
COUNTED = {
    "checkout": (4, 1, 0), "offline_checkout": (0, 0, 0), "checkin": (3, 0, 0), "renewal": (1, 0, 0),
    "hold": (4, 0, 0), "hold_deletion": (0, 0, 0), "hold_change": (0, 0, 0), "cancellation": (1, 1, 0),
    "query": (1, 0, 0),
}
