#!/usr/bin/env python3
"""Builds holddesk without any proof, with the checks of rt try, for the scripts that play against it.

    python3 scripts/unproved.py FOLDER

leaves the program in the folder, which is made where it isn't there, as holddesk, and prints its path. It takes some
minutes. Until rt try can keep the program that it builds, that is started as a server, and copied while it runs. Needs
Linux, rt and Python 3.
"""

import argparse
import os
import shlex
import shutil
import signal
import socket
import subprocess
import time

from server import CATALOGUE, FOLDER, LOOPBACK, SECONDS, Trouble, connect, reported, serve_words

BUILDING = 1_800  # seconds to build the program without proofs, on a machine that has much else to do


def free_port():
    """A port of the loopback that nobody listens on."""
    with socket.socket() as listener:
        listener.bind((LOOPBACK, 0))
        return listener.getsockname()[1]


def connection_to(server, port):
    """A connection to the server that is being built, once it listens."""
    end = time.monotonic() + BUILDING
    while time.monotonic() < end and server.poll() is None:
        try:
            return connect(port)
        except OSError:
            time.sleep(0.5)
    server.send_signal(signal.SIGINT)
    raise Trouble(f"it doesn't listen: {server.communicate(timeout=SECONDS)!r}")


def listener_at(port):
    """The process that listens at a port of the loopback."""
    with open("/proc/net/tcp", encoding="ascii") as table:
        rows = [line.split() for line in table]
    wanted = (f"0100007F:{port:04X}", "0A")
    sockets = {f"socket:[{row[9]}]" for row in rows if (row[1], row[3]) == wanted}
    for process in filter(str.isdigit, os.listdir("/proc")):
        folder = f"/proc/{process}/fd"
        try:
            if any(os.readlink(os.path.join(folder, it)) in sockets for it in os.listdir(folder)):
                return process
        except OSError:
            pass  # it has ended, or isn't ours
    raise Trouble(f"nobody listens at {port}")


def copied(words, folder):
    """The path of a copy of a running program, whose words these are."""
    *loader, program = words[:words.index("serve")]
    to = os.path.join(folder, "holddesk")
    shutil.copy(program, f"{to}.native")
    with open(to, "w", encoding="utf-8") as file:
        file.write(f'#!/bin/sh\nexec {shlex.join([*loader, f"{to}.native"])} "$@"\n')
    os.chmod(to, 0o755)
    return to


def built(folder):
    """The path of the program, which is built into the folder."""
    os.makedirs(folder, exist_ok=True)
    port = free_port()
    catalogue = os.path.relpath(CATALOGUE, FOLDER)
    server = subprocess.Popen(
        ["rt", "try", "--seconds", str(BUILDING), "--",
         *serve_words("holddesk", catalogue, 1, "--connections", "1", port=port)[1:]],
        cwd=FOLDER, stdin=subprocess.DEVNULL, stdout=subprocess.PIPE, stderr=subprocess.PIPE)
    try:
        with connection_to(server, port), open(f"/proc/{listener_at(port)}/cmdline", encoding="utf-8") as words:
            to = copied(words.read().split("\0"), os.path.abspath(folder))
        server.communicate(timeout=SECONDS)
    finally:
        if server.poll() is None:
            server.send_signal(signal.SIGINT)  # rt then ends what it started
            server.wait(SECONDS)
    return to


def main():
    parser = argparse.ArgumentParser(description=__doc__, usage=argparse.SUPPRESS,
                                     formatter_class=argparse.RawDescriptionHelpFormatter)
    parser.add_argument("folder", metavar="FOLDER", help="where the program is to be")
    print(reported("unproved", built, parser.parse_args().folder))


if __name__ == "__main__":
    main()
