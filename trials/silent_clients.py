#!/usr/bin/env python3
"""Clients that say nothing, and one that vanishes, give their worker back to others in time.

    trials/silent_clients.py

64 connections that send nothing wait before 8 workers, and a client after them has to be answered;
so do 64 that send a part of a message, and a byte more each second. A silent connection is ended after `timeout` seconds; one that asks in time isn't. A reader over HTTP,
in a network namespace whose link is cut, has to leave the only worker within 40 seconds. Ends with
status 1 if something doesn't hold. Needs root, and the built program (trials/lib/server.py).

Packages: iproute2
Rights: root
Limit: 240 s
"""

import os
import socket
import subprocess
import sys
import threading
import time

sys.dont_write_bytecode = True
from lib.checks import Checks, seconds
from lib.network import NEAR, Link, ip
from lib.server import PORTS, QUERY, Server

HERE = os.path.dirname(os.path.abspath(__file__))
ADDRESS, TIMEOUT = "127.0.23.2", 10
CROWD = 64
# How long a reader whose link is cut may keep its worker.
LONGEST = 40
# These run in a namespace each.
READER = f"""
import socket, time
line = socket.create_connection(("{NEAR}", {PORTS[1]}))
line.sendall(b"GET /?{QUERY}&pids=none HTTP/1.1\\r\\n\\r\\n")
print(line.recv(4096)[:15].decode(), flush=True)
time.sleep(600)
"""
ASKER = f"""
from lib.rtsp import options
print(options("{NEAR}", timeout=60))
"""


def try_crowd(checks):
    lines = []
    with Server(ADDRESS, timeout=TIMEOUT) as server:
        for _ in range(CROWD):
            line = socket.socket()
            line.setblocking(False)
            line.connect_ex((ADDRESS, server.ports[0]))
            lines.append(line)
        time.sleep(1)
        took = server.options(60)
        text = f"after {CROWD} silent clients a client gets its reply: {seconds(took)}"
        checks.check(took is not None and took <= TIMEOUT + 6, text)
        for line in lines:
            line.close()


def drip(lines, over):
    """Sends a byte on each connection each second, until it is over."""
    while not over.wait(1):
        for line in lines:
            try:
                line.send(b"x")
            except OSError:
                pass


def try_drips(checks):
    """Clients that begin a message, and go on with it by a byte a second."""
    with Server(ADDRESS) as server:
        lines, over = [], threading.Event()
        for _ in range(CROWD):
            line = socket.socket()
            line.setblocking(False)
            line.connect_ex((ADDRESS, server.ports[0]))
            lines.append(line)
        dripper = threading.Thread(target=drip, args=(lines, over), daemon=True)
        dripper.start()
        time.sleep(1)
        begun = time.monotonic()
        # A connect at a full listener is tried again later and later, so a new one is made each time.
        while (took := server.options(1)) is None and time.monotonic() < begun + 60:
            pass
        took = None if took is None else time.monotonic() - begun
        over.set()
        dripper.join()
        text = f"after {CROWD} clients that end no message a client gets its reply: {seconds(took)}"
        checks.check(took is not None and took <= 15, text)
        for line in lines:
            line.close()


def ended(line, longest):
    """Returns the seconds until the server ended a connection; None if it didn't."""
    begun = time.monotonic()
    line.settimeout(longest)
    try:
        line.recv(1)
    except TimeoutError:
        return None
    except OSError:
        pass
    return time.monotonic() - begun


def try_alone(checks):
    with Server(ADDRESS, timeout=TIMEOUT) as server:
        for name, port in zip(("RTSP", "HTTP"), server.ports):
            with socket.create_connection((ADDRESS, port)) as line:
                took = ended(line, TIMEOUT + 5)
            text = f"a silent connection for {name} is ended: {seconds(took)}"
            checks.check(took is not None and took > TIMEOUT - 1, text)
        client = server.client()
        for _ in range(2):
            client.ask("OPTIONS", "*")
            time.sleep(TIMEOUT * 0.8)
        served = client.ask("OPTIONS", "*").startswith("RTSP/1.0 200 ")
        checks.check(served, "one that asks in time is served on")
        client.close()
        with server.read(pids="none") as line:
            line.recv(4096)
            stays = ended(line, TIMEOUT + 4) is None
        checks.check(stays, "a reader of a stream over HTTP has nothing to say, and stays")


def python_in(link, space, text):
    """The words that run Python in a namespace; it finds trials/lib."""
    return [*link.inside(space), "env", f"PYTHONPATH={HERE}", sys.executable, "-B", "-c", text]


def try_cut_link(checks):
    with Link() as link:
        with Server(NEAR, workers=1, before=link.inside(link.near), ports=PORTS):
            words = python_in(link, link.far, READER)
            with subprocess.Popen(words, stdout=subprocess.PIPE, text=True) as reader:
                served = reader.stdout.readline().startswith("HTTP/1.1 200")
                checks.check(served, "a reader over HTTP in a namespace is served")
                ip("-n", link.far, "link", "set", "far0", "down")
                reader.kill()
            words = python_in(link, link.near, ASKER)
            done = subprocess.run(words, stdout=subprocess.PIPE, text=True, check=False)
            asked = done.stdout.strip()
            left = asked not in ("", "None") and float(asked) < LONGEST
            checks.check(left, f"with its link cut it leaves the only worker: {asked} s")


def main():
    checks = Checks()
    try_crowd(checks)
    try_drips(checks)
    try_alone(checks)
    try_cut_link(checks)
    checks.end()


if __name__ == "__main__":
    main()
