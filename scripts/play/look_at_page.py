#!/usr/bin/env python3
"""Opens the page of a holddesk serve in a browser, takes pictures of it, and compares what its tables say.

    python3 scripts/play/look_at_page.py [PROGRAM] --into FOLDER

PROGRAM is crates/holddesk/out/holddesk where it isn't given. The morning of morning.py is played, and the page is opened
in headless Chromium (Debian: chromium), by a relay from a port of the loopback to the server's Unix socket. Each list is
looked up by the page's form, and the text of its tables compared with the model. Pictures are put into FOLDER, at
two widths, in light and in dark; at the narrow one the page may not be wider than the window, and at none may the
browser report a fault or something that the page's policy refused. Takes a minute. Needs Chromium and Python 3.
Status 0: all is as it has to be.
"""

import base64
import contextlib
import json
import os
import shutil
import socketserver
import subprocess
import sys
import tempfile
import threading
import time
from urllib.parse import unquote

sys.path.append(os.path.dirname(sys.path[0]))  # scripts/

import morning
from door import Seen, asked, stop
from serve_door import MANY, compare_crowd, library_with_crowd, play_morning
from server import LOOPBACK, SECONDS, Trouble, begun, parser_of, reported

BROWSERS = ("chromium", "chromium-browser", "google-chrome")
WIDTHS = (1280, 390)
SCHEMES = ("light", "dark")
SOON = 20  # seconds for whatever the page does
# The pictures, and what is looked up in each.
PICTURES = {"front": "", "patron": "patrons/p2", "queue": "titles/tc/queue", "overdue": f"overdue?day={morning.DAY}",
            "came": f"turns?day={morning.DAY}", "command": "commands/2", "nobody": "patrons/nobody"}
# What the form asks, by what is asked at the door: what stands before the name and behind it.
FORMS = [("copies/", ""), ("titles/", "/queue"), ("patrons/", ""), ("branches/", "/shelf"), ("branches/", "/transit"),
         ("overdue?day=", ""), ("expired?day=", ""), ("turns?day=", ""), ("commands/", "")]
CAPTIONS = {"copy": "Copies", "hold": "Holds", "turn": "Turns", "command": "Command", "before": "Before it",
            "after": "After it"}
LABELS = {"command": "Command", "dependent": "First that depends on it", "only": "Only this copy", "number": "Command",
          "stamp": "Since command", "admits": "Which copies", "pickup": "Fetched at", "to": "On the way to"}
TABLES = """[...document.querySelectorAll('#%s table')].map(table => [table.caption.textContent,
    [...table.rows].map(row => [...row.cells].map(cell => cell.textContent))])"""
# In each form control a name that a reader of the screen is told, and in each table a caption and headings.
NAMED = """[...document.querySelectorAll('select, input, button')].every(it => it.labels.length || it.textContent.trim())
    && [...document.querySelectorAll('table')].every(it => it.caption && it.querySelector('th[scope=col]'))
    && document.querySelectorAll('h1').length === 1 && document.documentElement.lang === 'en'"""


class Relay(socketserver.ThreadingTCPServer):
    """A port of the loopback from which each request goes to a Unix socket."""

    daemon_threads = True

    def __init__(self, path):
        super().__init__((LOOPBACK, 0), Passing)
        self.path = path
        threading.Thread(target=self.serve_forever, daemon=True).start()


class Passing(socketserver.StreamRequestHandler):
    """A request, and its answer."""

    def handle(self):
        head = b""
        for line in self.rfile:
            head += line
            if line == b"\r\n":
                self.wfile.write(asked(self.server.path, head))
                return


class Browser:
    """A browser without a window, and a page in it."""

    def __init__(self, program, folder):
        (to, self.to), (self.come, come) = os.pipe(), os.pipe()
        words = [program, "--headless=new", "--no-sandbox", "--disable-gpu", "--remote-debugging-pipe",
                 "--no-first-run", f"--user-data-dir={folder}", "about:blank"]
        self.process = subprocess.Popen(["bash", "-c", f'exec "$@" 3<&{to} 4>&{come}', "bash", *words],
                                        pass_fds=(to, come), stdin=subprocess.DEVNULL, stdout=subprocess.DEVNULL,
                                        stderr=subprocess.DEVNULL)
        os.close(to)
        os.close(come)
        self.rest, self.number, self.session, self.faults = b"", 0, None, []
        target = self.ask("Target.createTarget", url="about:blank")["targetId"]
        self.session = self.ask("Target.attachToTarget", targetId=target, flatten=True)["sessionId"]
        for part in ("Page", "Runtime", "Log"):
            self.ask(f"{part}.enable")

    def __enter__(self):
        return self

    def __exit__(self, *_):
        self.process.kill()
        self.process.wait(SECONDS)

    def ask(self, method, **given):
        """Has the browser do something: what it answers. Faults that it reports meanwhile are noted."""
        self.number += 1
        words = {"id": self.number, "method": method, "params": given} | ({"sessionId": self.session} if self.session else {})
        os.write(self.to, json.dumps(words).encode() + b"\0")
        while (told := self.next_word()).get("id") != self.number:
            if told.get("method") in ("Log.entryAdded", "Runtime.exceptionThrown"):
                self.faults.append(told["params"])
        if "error" in told:
            raise Trouble(f"the browser refuses {method}: {told['error']}")
        return told["result"]

    def next_word(self):
        while b"\0" not in self.rest:
            piece = os.read(self.come, 1 << 16)
            if not piece:
                raise Trouble("the browser has ended")
            self.rest += piece
        word, _, self.rest = self.rest.partition(b"\0")
        return json.loads(word)

    def value(self, script):
        """What a script gives."""
        told = self.ask("Runtime.evaluate", expression=script, returnByValue=True)
        if "exceptionDetails" in told:
            raise Trouble(f"{script} fails: {told['exceptionDetails']}")
        return told["result"].get("value")

    def wait_until(self, script):
        end = time.monotonic() + SOON
        while not self.value(script):
            if time.monotonic() > end:
                raise Trouble(f"{script} doesn't come true")
            time.sleep(0.02)

    def open(self, address, width, scheme):
        """Opens a page anew, in a window of this width."""
        self.ask("Emulation.setDeviceMetricsOverride", width=width, height=900, deviceScaleFactor=1, mobile=width < 500)
        self.ask("Emulation.setScrollbarsHidden", hidden=True)
        self.ask("Emulation.setEmulatedMedia", features=[{"name": "prefers-color-scheme", "value": scheme}])
        self.ask("Page.navigate", url="about:blank")
        self.ask("Page.navigate", url=address)
        self.wait_until("document.readyState === 'complete' && Boolean(document.querySelector('#turns table'))")
        self.wait_until("document.getElementById('said').textContent !== '\\u2026'")

    def take_picture(self, path):
        """A picture of the whole page."""
        size = self.ask("Page.getLayoutMetrics")["cssContentSize"]
        clip = {"x": 0, "y": 0, "width": size["width"], "height": size["height"], "scale": 1}
        taken = self.ask("Page.captureScreenshot", format="png", captureBeyondViewport=True, clip=clip)
        with open(path, "wb") as file:
            file.write(base64.b64decode(taken["data"]))


def tables_of(rows, captions=CAPTIONS):
    """The tables that rows are shown as, each its caption and its lines: a table for each kind, without the columns that
    are empty in all of its rows."""
    kinds = {}
    for row in rows:
        kinds.setdefault(row["row"], []).append(row)
    found = []
    for kind, some in kinds.items():
        names = dict.fromkeys(name for row in some for name in row if name != "row")
        names = [name for name in names if any(row.get(name) is not None for row in some)]
        lines = [["" if row.get(name) is None else str(row[name]) for name in names] for row in some]
        found.append([captions[kind], [[LABELS.get(name, name.capitalize()) for name in names], *lines]])
    return found


def turns_shown():
    """The rows of the turns as the page shows them: the newest first, without their seats."""
    rows = [{name: value for name, value in turn.items() if name != "seat"} for turn in reversed(morning.TURNS)]
    return [row | {"why": f"DEPENDS {row['number']}"} if row["why"] == "DEPENDS" else row for row in rows]


def compare_tables(browser, place, what, wanted):
    shown = browser.value(TABLES % place)
    if shown != wanted:
        raise Trouble(f"the page shows of {what} {shown!r}, wanted {wanted!r}")


def look_up(browser, target):
    """Looks something up by the page's form, as one does who has no mouse."""
    kind, (front, back) = next((at, form) for at, form in enumerate(FORMS)
                               if target.startswith(form[0]) and target.endswith(form[1]))
    name = unquote(target[len(front):len(target) - len(back)])
    browser.value(f"""(kind => {{ kind.selectedIndex = {kind}; kind.dispatchEvent(new Event('change'));
        document.getElementById('said').textContent = ''; document.getElementById('name').focus(); }})
        (document.getElementById('kind'))""")
    if front.endswith("day="):  # a field of a day takes no text
        browser.value(f"document.getElementById('name').value = {json.dumps(name)}")
    else:
        browser.ask("Input.insertText", text=name)
    enter = {"key": "Enter", "code": "Enter", "windowsVirtualKeyCode": 13, "text": "\r"}
    browser.ask("Input.dispatchKeyEvent", type="keyDown", **enter)
    browser.ask("Input.dispatchKeyEvent", type="keyUp", **enter)
    browser.wait_until("!['', '\\u2026'].includes(document.getElementById('said').textContent)")


def look(browser, server, address, folder, connections):
    """Takes the pictures, and compares each list. How many pictures there are."""
    for width in WIDTHS:
        for scheme in SCHEMES:
            for name, target in PICTURES.items():
                browser.open(f"{address}#{target}", width, scheme)
                browser.take_picture(os.path.join(folder, f"{name}-{width}-{scheme}.png"))
                if browser.value("document.documentElement.scrollWidth > innerWidth") or not browser.value(NAMED):
                    raise Trouble(f"{name} is wider than {width}, or something has no name")
    browser.faults = [fault for fault in browser.faults if "nobody" not in json.dumps(fault)]  # it isn't there: 404
    browser.open(address, WIDTHS[0], "light")
    compare_tables(browser, "turns", "the turns", tables_of(turns_shown(), {"turn": "The newest first"}))
    for target, rows in morning.SEEN.items():
        look_up(browser, target)
        compare_tables(browser, "found", target, tables_of(rows))
    for day, turns in ((morning.DAY, [9, 5, 4]), ("2026-02-15", [])):
        look_up(browser, f"turns?day={day}")
        compare_tables(browser, "found", day, tables_of([turn for turn in turns_shown() if turn["turn"] in turns]))
    compare_crowd(server.path, connections)
    look_up(browser, "titles/crowd/queue")
    browser.value("document.getElementById('more').click()")
    browser.wait_until(f"document.querySelectorAll('#found tbody tr').length === {MANY}")
    if browser.faults:
        raise Trouble(f"the browser reports {browser.faults!r}")
    return len(WIDTHS) * len(SCHEMES) * len(PICTURES)


def look_at_page(program, into):
    """Plays the morning, and looks. What there is to tell of it."""
    browser = next((found for name in BROWSERS if (found := shutil.which(name))), None)
    if not browser:
        raise Trouble(f"there is none of {', '.join(BROWSERS)}")
    os.makedirs(into, exist_ok=True)
    with contextlib.ExitStack() as stack:
        folder, own = (stack.enter_context(tempfile.TemporaryDirectory(ignore_cleanup_errors=True)) for _ in range(2))
        catalogue = library_with_crowd(os.path.join(folder, "library"))
        journal = begun(os.path.abspath(program), catalogue, os.path.join(folder, "journal"))
        server = stack.enter_context(Seen(program, catalogue, folder, "--journal", journal, "--log", "quiet"))
        relay = stack.enter_context(Relay(server.path))
        browser = stack.enter_context(Browser(browser, own))
        connections = play_morning(server)
        pictures = look(browser, server, f"http://{LOOPBACK}:{relay.server_address[1]}/", into, connections)
        stop(server)
    return f"{pictures} pictures in {into}, {len(morning.SEEN) + 4} tables as they have to be"


def main():
    parser = parser_of(__doc__)
    parser.add_argument("--into", required=True, metavar="FOLDER", help="where the pictures are put")
    words = parser.parse_args()
    print(f"look_at_page: {reported('look_at_page', look_at_page, words.program, words.into)}")


if __name__ == "__main__":
    main()
