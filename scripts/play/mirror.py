#!/usr/bin/env python3
"""Loses the machine that serves, again and again, and looks that the second one's disk has all that was answered.

    python3 scripts/play/mirror.py [--rounds N] [--round-trip MS] [PROGRAM]

PROGRAM is crates/holddesk/out/holddesk where it isn't given; N is 100. Two folders are the disks of two machines. Before
the server mirror.c is loaded, which gives the second folder what was synced in the first, and nothing else, before the
sync returns; it takes MS milliseconds more, 0.5 where they aren't given. In each round the server is started, in each
fourth round after a start that was killed before it was over; 32 terminals send commands and cancellations at random,
until the server is killed by kill -9 at a random moment; and the first folder is lost. holddesk journal check has to
take the turns of the second folder again, and each terminal's rows there have to be what it was answered, in that
order, with at most one more, whose reply it was waiting for. The next round serves the second folder.

First a mirror that is a sync behind is played: of that the loss has to be seen. At last a server ends well. Then the two
folders have to be the same, byte by byte, but for the journal's log, and the second to have all turns. Needs Linux, rt
and Python 3. Status 0: nothing was lost.
"""

import dataclasses
import faulthandler
import os
import random
import subprocess
import sys
import tempfile
import time

sys.path.append(os.path.dirname(sys.path[0]))  # scripts/

from mirrored import JOURNAL, Machines
from serve_crash import LIBRARY, Loss, Terminal, compare_rows, kill_after, opened_copy
from server import Server, Trouble, parser_of, reported, said_by, serve_words

ROUNDS, TERMINALS = 100, 32
ROUND_TRIP = 0.5  # milliseconds
SEED = 1
FEW = 10  # rounds in which the loss of a late mirror has to be seen
EACH = 4  # in each fourth round a start is killed too
LONGEST = 300  # seconds for a round: then the script ends, and prints what it waits for


def kill_start(machines, draw):
    """Kills a start at a random moment, and loses its machine."""
    words = serve_words(machines.program, None, TERMINALS, "--log", "quiet", "--library", machines.first)
    with subprocess.Popen(words, stdin=subprocess.DEVNULL, stdout=subprocess.DEVNULL, stderr=subprocess.DEVNULL,
                          env=machines.environment()) as start:
        time.sleep(draw.random() / 2)
        start.kill()
    machines.check_second()
    machines.lose_first()


def lose(machines, folder, draw, before, is_late=False):
    """Has the terminals work until their machine is lost. How many turns there are then, how many of them were answered,
    and how many weren't."""
    faulthandler.dump_traceback_later(LONGEST, exit=True)
    with Server(machines.program, None, TERMINALS, "--library", machines.first,
                environment=machines.environment(is_late)) as server:
        terminals = [Terminal(at + 1, server.port, random.Random(draw.random())) for at in range(TERMINALS)]
        kill_after(0.02 + draw.random() / 2, server, terminals)
    turns = machines.check_second()
    rows = compare_rows(opened_copy(os.path.join(machines.second, JOURNAL), folder), terminals, before)
    answered = sum(len(terminal.answered) for terminal in terminals)
    if rows != turns:
        raise Trouble(f"the second machine has {rows} rows, and journal check says {turns} turns")
    machines.lose_first()
    return turns, answered, turns - before - answered


def see_loss(program, catalogue, folder, round_trip):
    """Looks that the loss of what a late mirror lacks is seen."""
    os.mkdir(folder)
    machines, turns = Machines(program, catalogue, folder, round_trip), 0
    for number in range(FEW):
        try:
            turns, _, _ = lose(machines, folder, random.Random(SEED + number), turns, is_late=True)
        except Loss:
            return
    raise Trouble(f"nothing is lost in {FEW} rounds where the second machine is a sync behind")


def end_well(machines, folder, turns):
    """Ends a server well, and looks that both machines have the same then, and so many turns."""
    door = os.path.join(folder, "door")
    with Server(machines.program, None, TERMINALS, "--library", machines.first, "--door", door,
                environment=machines.environment()) as server:
        terminal = Terminal(1, server.port, random.Random(SEED))
        terminal.connection.close()
        ended = said_by([machines.program, "stop", "--door", door])
        if ended[0] or server.end()[0]:
            raise Trouble(f"stop says {ended!r}")
    machines.compare()
    if (found := machines.check_second()) != turns:
        raise Trouble(f"after a stop the second machine has {found} turns, wanted {turns}")


def compare_all(program, rounds, round_trip):
    """Plays all of it: how many turns were answered, and how many were there that weren't."""
    answered = more = turns = 0
    with tempfile.TemporaryDirectory() as folder:
        catalogue = dataclasses.replace(LIBRARY, terminals=TERMINALS).write(os.path.join(folder, "catalogue"))
        see_loss(program, catalogue, os.path.join(folder, "late"), round_trip)
        machines = Machines(program, catalogue, folder, round_trip)
        for number in range(rounds):
            draw = random.Random(SEED + number)
            if number % EACH == EACH - 1:
                kill_start(machines, draw)
            turns, told, untold = lose(machines, folder, draw, turns)
            answered, more = answered + told, more + untold
        faulthandler.cancel_dump_traceback_later()
        end_well(machines, folder, turns)
    return answered, more


def main():
    parser = parser_of(__doc__)
    parser.add_argument("--rounds", type=int, default=ROUNDS, metavar="N", help=f"how often ({ROUNDS})")
    parser.add_argument("--round-trip", type=float, default=ROUND_TRIP, metavar="MS",
                        help=f"milliseconds that a sync takes more ({ROUND_TRIP})")
    asked = parser.parse_args()
    answered, more = reported("mirror", compare_all, os.path.abspath(asked.program), asked.rounds, asked.round_trip)
    print(f"mirror: {asked.rounds} machines lost under {TERMINALS} terminals, {answered} turns answered, none lost; "
          f"{more} more were there")


if __name__ == "__main__":
    main()
