"""What a door refuses, for serve_door.py, which compares it, and plays it beside a terminal, too.

No script of its own. Needs nothing but Python 3.
"""

import contextlib

from door import asked, knock, parted, request_of
from server import Trouble

# Targets that nothing has, and those that are of no form.
NOWHERE = ["/api", "/api/", "//", "/health/", "/Health", "/metrics/", "/api/copy", "/api/copies/nobody", "/index.html",
           "/api/copies/a1/", "/api/titles/ta", "/api/titles/ta/queue/", "/api/titles/nobody/queue", "/api/patrons/P1",
           "/api/branches/north", "/api/branches/west/shelf", "/api/commands/12", "/api/commands/99", "/stop/",
           "/api/commands/0", "/api/copies/%61%00", "/api/copies/a%2", "/../health", "http://desk/health", "*"]
NO_FORM = ["/?x", "/health?", "/metrics?a", "/api/copies/a1?x", "/api/copies/a1?after=x", "/api/overdue",
           "/api/overdue?day=2026-02-30", "/api/overdue?day=20260301", "/api/expired", "/api/expired?day=",
           "/api/turns?limit=0", "/api/turns?after=-1", "/api/turns?after=1&limit=1&x", "/api/turns?after=12345678901234567890", "/api/commands/x",
           "/api/commands/1?x", "/api/titles/tc/queue?after=", "/api/turns?after=1&after=2"]
UNREAD = [b"\0\r\n\r\n", b"GET\r\n\r\n", b"GET /health\r\n\r\n", b"GET /health HTTP/9.9\r\n\r\n", b"G@T / HTTP/1.1\r\n\r\n",
          b"GET /health HTTP/1.1\r\nno field\r\n\r\n", b"\x16\x03\x01\x02\x00\x01\x00\x01\xfc\x03\x03" + bytes(64)]
TOO_LONG = [b"GET /" + b"x" * 9_000, b"GET / HTTP/1.1\r\nX: " + b"y" * 9_000, b"GET / HTTP/1.1\r\n" + b"A: b\r\n" * 65 + b"\r\n"]
# Fields by which a browser says which page asks.
PAGES = ["Origin: http://elsewhere.example\r\n", "ORIGIN: null\r\n", "Sec-Fetch-Site: cross-site\r\n",
         "Host: desk\r\nsec-fetch-site: same-origin\r\n"]
MUCH = 500_000  # bytes that the door drops, so that who sends them can read the answer
ENDLESS = 8_000_000  # bytes of which it has enough
BODIES = ["Content-Length: 5\r\n", "content-length: 05\r\n", "Transfer-Encoding: chunked\r\n", "TRANSFER-ENCODING: x\r\n"]


def compare_much(path):
    """Sends more than is read of a request, and reads the answer all the same; then sends without an end, of which the
    door has enough. How many requests there were."""
    requests = ((b"GET /" + b"x" * MUCH, 431), (request_of("/stop", "POST", BODIES[0]) + bytes(MUCH), 413),
                (UNREAD[1] + bytes(MUCH), 400))
    for request, status in requests:
        with knock(path) as connection:
            try:
                connection.sendall(request)
                answer = b"".join(iter(lambda: connection.recv(65_536), b""))
            except ConnectionError as error:
                raise Trouble(f"who sends {len(request)} bytes can't read {status}: {error}") from error
        if parted(answer)[0] != status:
            raise Trouble(f"{request[:40]!r} and more is answered {answer!r}, wanted {status}")
    with knock(path) as connection, contextlib.suppress(ConnectionError):
        for _ in range(0, ENDLESS, 65_536):
            connection.sendall(bytes(65_536))
        raise Trouble("a client that sends without an end isn't dropped")
    return len(requests) + 1


def compare_refusals(path):
    """Compares what is refused at the door. How many requests there were."""
    def compare(request, status, fields=(), is_sent=True):
        found, told, _ = parted(asked(path, request), is_sent)
        if found != status or dict(fields).items() - told.items():
            raise Trouble(f"{request[:80]!r} is answered {found} {told!r}, wanted {status}")

    count = len(NOWHERE) + len(NO_FORM) + len(UNREAD) + len(TOO_LONG) + 2 * len(BODIES) + 4 * len(PAGES)
    for targets, status in ((NOWHERE, 404), (NO_FORM, 400)):
        for target in targets:
            compare(request_of(target), status)
    for request in UNREAD:
        compare(request, 400)
    for request in TOO_LONG:
        compare(request, 431)
    for body in BODIES:
        compare(request_of("/health", fields=body) + b"12345", 413)
        compare(request_of("/stop", "POST", body) + b"12345", 413)
    for page in PAGES:
        compare(request_of("/stop", "POST", page), 403)
        compare(request_of("/stop", "POST", page + "Content-Length: 0\r\n"), 403)
        compare(request_of("/stop", "GET", page), 405, {"Allow": "POST"}.items())
        compare(request_of("/health", fields=page), 200)
    for method in ("POST", "PUT", "DELETE", "OPTIONS", "TRACE", "get"):
        compare(request_of("/health", method), 405, {"Allow": "GET, HEAD"}.items())
    for method in ("GET", "PUT"):
        compare(request_of("/stop", method), 405, {"Allow": "POST"}.items())
    compare(request_of("/stop", "HEAD"), 405, {"Allow": "POST"}.items(), False)
    compare(request_of("/health", "HEAD"), 200, {"Content-Length": "3"}.items(), False)
    compare(request_of("/health") + request_of("/stop", "POST"), 200)  # what stands behind a request isn't read
    compare(request_of("/health", fields="Content-Length: 0\r\n"), 200)
    compare(b"GET /health HTTP/1.0\r\nHost: localhost\r\nConnection: close\r\n\r\n", 200)
    status, fields, page = parted(asked(path, request_of("/")))
    if status != 200 or fields["Content-Type"] != "text/html; charset=utf-8" or b"<title>Hold desk</title>" not in page:
        raise Trouble(f"the page is answered {status} {fields!r}")
    return count + 14 + compare_much(path)
