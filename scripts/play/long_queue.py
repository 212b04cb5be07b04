#!/usr/bin/env python3
"""Plays the holds of one title through holddesk replay, 2,000 at a time, and compares each reply with a plain list.

    python3 scripts/play/long_queue.py [PROGRAM]

PROGRAM is crates/holddesk/out/holddesk where it isn't given. Holds are put, changed and deleted at random; some deletions
are taken back, so that a hold comes back to its old place among the others; then copies come back, and go to the first
hold that is picked up at the branch, however far behind it stands, or to the first of all. Needs nothing but Python 3.
"""

import os
import random
import re
import subprocess
import sys
import tempfile

sys.path.append(os.path.dirname(sys.path[0]))  # scripts/

from measure.measure import CANCELS, DAY, LOGIN, checkin, checkout, hold, library
from server import Trouble, parser_of, reported

PATRONS, COPIES, ROUNDS = 3_000, 40, 6
HOLDS = 2_000  # at most so many at a time: some eight chunks
HERE, ELSEWHERE = 1, 2  # branches: where copies come back, and where most holds are picked up


class Queue:
    """The holds of the title as a list of patrons and pickups, and what the program is asked and has to say of them."""

    def __init__(self, draw):
        self.draw, self.holds, self.asked, self.wanted = draw, [], [], []

    def ask(self, message, wanted):
        self.asked.append(message)
        self.wanted.append(wanted)

    def add(self, patron, pickup=ELSEWHERE):
        self.holds.append((patron, pickup))
        self.ask(hold(patron, 1, pickup=pickup), f"161.*BR{len(self.holds)}[|]")

    def change(self, at, pickup):
        self.holds[at] = (self.holds[at][0], pickup)
        self.ask(hold(self.holds[at][0], 1, "*", pickup=pickup), f"161.*BR{at + 1}[|]")

    def delete(self, at):
        """Deletes a hold, and tells how it comes back to its place."""
        patron, pickup = self.holds.pop(at)
        self.ask(hold(patron, 1, "-"), "161")
        return at, patron, pickup

    def take_back(self, at, patron, pickup):
        self.holds.insert(at, (patron, pickup))
        self.ask(hold(patron, 1, "+").rstrip("\n") + CANCELS + "\n", "161")

    def play_round(self, patrons):
        """Deletes many holds, takes some of the deletions back, the last first, changes others, and puts new ones."""
        gone = [self.delete(self.draw.randrange(len(self.holds))) for _ in range(len(self.holds) // 2)]
        for was in reversed(gone[len(gone) // 2:]):
            self.take_back(*was)
        for at in self.draw.sample(range(len(self.holds)), len(self.holds) // 3):
            self.change(at, ELSEWHERE)
        while len(self.holds) < HOLDS and patrons:
            self.add(patrons.pop())

    def give(self, copy):
        """A copy comes back: the hold that gets it can't be changed any more."""
        local = [at for at, (_, pickup) in enumerate(self.holds) if pickup == HERE]
        patron, _ = self.holds.pop(local[0] if local else 0)
        self.ask(checkin(copy), "101")
        self.ask(hold(patron, 1, "*", pickup=ELSEWHERE), "160")


def played(seed):
    """A day at random: what is asked, and for each message what the reply has to be."""
    queue, patrons = Queue(random.Random(seed)), list(range(COPIES + 1, PATRONS + 1))
    queue.draw.shuffle(patrons)
    queue.ask(LOGIN, "941")
    for copy in range(1, COPIES + 1):
        queue.ask(checkout(copy, copy), "121")
    while len(queue.holds) < HOLDS:
        queue.add(patrons.pop())
    for _ in range(ROUNDS):
        queue.play_round(patrons)
    for at in sorted(queue.draw.sample(range(len(queue.holds) // 2, len(queue.holds)), COPIES // 2)):
        queue.change(at, HERE)
    for copy in range(1, COPIES + 1):
        queue.give(copy)
    return queue


def play(program):
    """Plays a day, and compares each reply. How many messages there were."""
    queue = played(1)
    with tempfile.TemporaryDirectory() as folder:
        held = library(1, COPIES, PATRONS, is_local=True)
        words = [program, "replay", "--catalogue", held.write(os.path.join(folder, "catalogue")), "--now", DAY]
        done = subprocess.run(words, input="".join(queue.asked), capture_output=True, text=True, check=True)
    replies = re.split("[\r\n]+", done.stdout.strip())
    if len(replies) != len(queue.asked):
        raise Trouble(f"{len(queue.asked)} messages have {len(replies)} replies: {done.stderr[-500:]!r}")
    for number, (message, reply, wanted) in enumerate(zip(queue.asked, replies, queue.wanted), 1):
        if not re.match(f"1 {wanted}", reply):
            raise Trouble(f"message {number}, {message!r}, is answered by {reply!r}, which isn't {wanted}")
    return len(replies)


if __name__ == "__main__":
    print(f"long queue: {reported('long queue', play, parser_of(__doc__).parse_args().program)} replies as they have to be")
