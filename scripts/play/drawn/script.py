"""The lines of a script drawn at random, one after the other. The model follows them, so that most commands are such
as the desk may accept, and most cancellations have a target."""

from drawn.messages import Messages
from model.desk import Loan, Shelf
from model.files import Fault
from model.replay import Replay
from model.turns import CANCELLED_BY

COMMANDS = (b"11", b"09", b"15+", b"15-", b"15*", b"29", b"11-")  # 11-: an off-line checkout
# How often each is sent, of which one row is drawn for a script.
WEIGHTS = ((3, 3, 3, 1, 1, 1, 1), (4, 5, 4, 2, 2, 1, 1), (1, 4, 4, 3, 3, 0, 0), (4, 4, 1, 0, 0, 3, 2),
           (2, 4, 3, 2, 1, 1, 4), (1, 6, 6, 1, 1, 1, 1))
CHANGING = (b"11", b"09", b"15", b"29")
DAMAGE = (0x00, 0x7C, 0x0D, 0xFF, 0x20, 0x59, 0x30)
NO_SESSION = (b"", b"0 97", b"65 97", b"01 97", b"1", b" 1 97", b"1  97", b"x 97", b"1\t97", b"1 ", b"64 97")
SHORT_BODIES = (b"", b"1", b"99", b"9900302.00", b"98", b"00", b"23", b"25", b"19", b"97", b"93", b"9300", b"|")


class Script:
    """The lines of sessions of a library; given is what replay is given beside them."""

    def __init__(self, draw, library, given):
        self.draw, self.library, self.lines, self.read = draw, library, [], 0
        self.messages = Messages(draw, library)
        self.sessions = draw.choice(([1, 1, 1, 2, 2, 3], [1]))
        self.weights = dict(zip(COMMANDS, draw.choice(WEIGHTS)))
        try:
            self.program = Replay(given)
        except Fault:
            self.program = None

    def session(self):
        return self.draw.choice(self.sessions)

    def add(self, session, message):
        self.lines.append(b"%d %s" % (session, message))

    def send(self, session, body):
        self.add(session, self.messages.sealed(body))

    def log_in_all(self):
        """Logs each session in, those of a terminal in turn."""
        names = list(self.library.terminals)
        for number, session in enumerate(sorted(set(self.sessions))):
            name = names[number % len(names)]
            self.add(session, b"9300CN%s|CO%s|" % (name, self.library.terminals[name][0]))

    def play(self, length, moves):
        """Adds lines until there are so many, by moves that are each drawn as often as is said."""
        while len(self.lines) < length:
            self.draw.choices(list(moves), list(moves.values()))[0]()

    def machine(self):
        """The turn machine behind the lines that there are, or None where the program has ended."""
        try:
            while self.program is not None and self.read < len(self.lines):
                self.read += 1
                self.program.read(self.lines[self.read - 1])
        except Fault:
            self.program = None
        return None if self.program is None else self.program.machine

    # Moves

    def any_command(self):
        code = self.draw.choices(COMMANDS, list(self.weights.values()))[0]
        patron, copy = self.messages.name(self.library.patrons), self.messages.name(self.library.copies)
        self.send(self.session(), self.messages.command(code, patron, copy, None, self.messages.cancels(0.04)))

    def likely_command(self):
        """A command that the desk may well accept."""
        machine = self.machine()
        if machine is None or not self.library.patrons or not self.library.copies:
            self.any_command()
            return
        likely = [it for copy, value in machine.desk.copies.items() for it in self.likely_with(copy, value)]
        for title in self.library.titles:
            for patron in self.library.patrons:
                codes = (b"15-", b"15*") if (title, patron) in machine.desk.holds else (b"15+", b"15+")
                likely += [(code, patron, None, title) for code in codes]
        code, patron, copy, title = self.draw.choices(likely, [self.weights[it[0]] + 0.05 for it in likely])[0]
        body = self.messages.command(code, patron, copy, title, self.messages.cancels(0.02))
        self.send(self.session(), body)

    def likely_with(self, copy, value):
        """The commands that may well be accepted with a copy that is there."""
        other, title = self.draw.choice(list(self.library.patrons)), self.library.copies[copy][0]
        if isinstance(value, Loan):
            return [(b"09", other, copy, None), (b"09", other, copy, None), (b"29", value.patron, copy, None),
                    (b"11", value.patron, copy, None), (b"11-", other, copy, None)]
        if isinstance(value, Shelf):
            return [(b"09", other, copy, None), (b"11", other, copy, None), (b"11", other, copy, None)]
        likely = [(b"09", other, copy, None), (b"09", other, copy, None), (b"11-", other, copy, None)]
        if value.patron is not None:
            likely += [(b"11", value.patron, copy, None), (b"15-", value.patron, None, title)]
        return likely

    def likely_cancellation(self):
        """The cancellation of a survivor, by a session that stands as its terminal."""
        machine = self.machine()
        if machine is None or not machine.survivors:
            self.any_command()
            return
        survivor = self.draw.choice(machine.survivors[-self.draw.choice((1, 3, 6, 12, 100)):])
        standing = [number for number, session in self.program.sessions.items()
                    if session.terminal == survivor.terminal]
        if not standing:
            self.any_command()
            return
        command, code = survivor.command, CANCELLED_BY[survivor.code]
        patron = getattr(command, "patron", None)
        if patron is None or self.draw.random() < 0.1:
            patron = self.messages.name(self.library.patrons)
        copy, title = getattr(command, "copy", None), getattr(command, "title", None)
        self.send(self.draw.choice(standing), self.messages.command(code, patron, copy, title, b"Y"))

    def item(self):
        self.send(self.session(), self.messages.item())

    def of_patron(self):
        self.send(self.session(), self.messages.of_patron())

    def login(self):
        self.send(self.session(), self.messages.login())

    def again(self):
        """An earlier line, most often a late one, now and then from another session."""
        if not self.lines:
            return
        changing, chance = self.late_changing(), self.draw.random()
        if chance < 0.4 and changing:
            line = self.draw.choice(changing[-3:])
        else:
            line = self.lines[-1] if chance < 0.8 else self.draw.choice(self.lines)
        if self.draw.random() < 0.3:
            line = b"%d " % self.session() + line.partition(b" ")[2]
        self.lines.append(line)

    def late_changing(self):
        """Those of the last lines that ask for a change."""
        return [line for line in self.lines[-8:] if line.partition(b" ")[2][:2] in CHANGING]

    def again_behind_another(self):
        """The last line that asked for a change, behind another command, which may be another terminal's."""
        changing = self.late_changing()
        self.likely_command()
        self.lines += changing[-1:]

    def resend(self):
        if self.draw.random() < 0.2:
            self.login()
        self.send(self.session(), b"97" + self.draw.choice([b""] * 27 + [b"AOlib|", b"x", b"|"]))

    def damaged(self):
        """A command, or an earlier line, cut or with bytes changed."""
        self.any_command()
        line = self.lines.pop()
        if self.lines and self.draw.random() < 0.3:
            line = self.draw.choice(self.lines)
        session, _, message = line.partition(b" ")
        if message:
            at, byte = self.draw.randrange(len(message)), bytes([self.draw.choice(DAMAGE)])
            end = self.draw.randrange(at, len(message)) + 1
            self.lines.append(session + b" " + self.draw.choice((
                message[:at], message[:at] + byte + message[at + 1:], message[:at] + message[at + 1:],
                message[:at] + byte + message[at:], message[:end] + message[at:], message[:at % 46])))

    def strange(self):
        """A line that no terminal would send."""
        draw, messages = self.draw, self.messages
        long = b"17" + messages.date() + b"AB" + messages.name(self.library.copies) + b"|AC"
        lengths = [1023] + [1024] * 15 + [1025]
        what = draw.choice((
            bytes(draw.choice((*DAMAGE, 0x39, 0x41)) for _ in range(draw.randrange(12))),
            messages.sealed(draw.choice(SHORT_BODIES)),
            messages.item() + b"\r" + draw.choice((b"", b"97", b"\r97", b"99")),
            long.ljust(draw.choice(lengths), b"x"),
            messages.sealed(b"99" + draw.choice((b"", b"0", b"0030", b"00302.00", b"20802.00xyz|AAp1|"))),
            b"11NN" + messages.date() * 2 + b"AA" + b"\xff" * draw.choice((400, 900, 970, 976, 977, 978)) + b"|ABx|",
            messages.sealed(draw.choice((b"97", b"9900302.00", b""))) + draw.choice((b"", b"\r", b" "))))
        self.add(draw.choice([*self.sessions, 63, 64]), what)
        if draw.random() < 0.02:
            self.lines.append(draw.choice(NO_SESSION))

    def ask_for_all(self):
        """Asks where each copy is, and what holds there are, as far as a terminal can see it."""
        for copy in self.library.copies:
            self.add(1, b"1720260301    100000AB" + copy + b"|")
        for title in self.library.titles:
            for patron in self.library.patrons:
                self.add(1, b"15*20260301    100000AA" + patron + b"|AJ" + title + b"|")
