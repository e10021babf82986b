#!/usr/bin/env python3
"""A client that comes while all workers serve others can't connect until one of them is free.

    trials/all_workers_busy.py

About as many connections as there are workers wait at a listener. A client at a full one sees it
when it connects, and is let in once a worker is free. A connection that ended before it asked is
dropped and counted; one that asked before its end is served. Ends with status 1 if something doesn't hold, as
with WITHOUT=1 in the environment, where each listener has the system's own backlog (that needs gcc and
libc6-dev). Needs the built program (trials/lib/server.py), and iproute2 for ss(8).

Packages: iproute2
Limit: 120 s
"""

import signal
import socket
import subprocess
import sys
import time

sys.dont_write_bytecode = True
from lib.checks import Checks, seconds
from lib.server import Server

ADDRESS, WORKERS = "127.0.23.5", 3
ASKED = {
    "RTSP": (b"OPTIONS * RTSP/1.0\r\nCSeq: 1\r\n\r\n", b"RTSP/1.0 200 OK\r\n"),
    "HTTP": (b"GET / HTTP/1.1\r\n\r\n", b"HTTP/1.1 404 "),
}


def backlog(port):
    """The backlog of the listener at a port, by ss(8)."""
    words = ["ss", "-Hltn", f"sport = :{port}"]
    row = subprocess.run(words, capture_output=True, text=True, check=True).stdout.split()
    return int(row[2])


def come(port, count):
    """Connects one client after another, each within two seconds; returns those that could."""
    lines = []
    for _ in range(count):
        try:
            lines.append(socket.create_connection((ADDRESS, port), timeout=2))
        except TimeoutError:
            pass
    return lines


def try_full_server(checks):
    with Server(ADDRESS, workers=WORKERS) as server:
        for name, port in zip(ASKED, server.ports):
            length = backlog(port)
            checks.check(length == WORKERS, f"{name}: a backlog of {length} for {WORKERS} workers")
        busy = [server.client() for _ in range(WORKERS)]
        for client in busy:
            client.ask("OPTIONS", "*")
        waiting = come(server.ports[0], WORKERS + 4)
        text = f"after {WORKERS} at work {len(waiting)} wait, and the next can't connect"
        checks.check(WORKERS <= len(waiting) <= WORKERS + 1, text)
        for line in waiting:
            line.close()
        busy[0].close()
        took = server.options()
        text = f"a client comes in when a worker is free: {seconds(took)}"
        checks.check(took is not None and took < 4, text)
        for client in busy[1:]:
            client.close()


def come_and_end(server, port, request):
    """Makes a connection that ended its output before a worker could take it."""
    server.process.send_signal(signal.SIGSTOP)
    line = socket.create_connection((ADDRESS, port), timeout=5)
    line.sendall(request)
    line.shutdown(socket.SHUT_WR)
    server.process.send_signal(signal.SIGCONT)
    return line


def read_all(line):
    """Returns what comes until the server ends the connection, and in how many seconds."""
    begun, got = time.monotonic(), b""
    try:
        while piece := line.recv(65536):
            got += piece
    except ConnectionResetError:
        pass
    except TimeoutError:
        return got, None
    finally:
        line.close()
    return got, time.monotonic() - begun


def try_ended(checks, name, place):
    """A server of two connections. One with its end alone counts, as one that asks does."""
    request, wanted = ASKED[name]
    with Server(ADDRESS, workers=1, accepts=2) as server:
        got, took = read_all(come_and_end(server, server.ports[place], b""))
        dropped = got == b"" and took is not None and took < 1
        checks.check(dropped, f"{name}: a connection with its end alone is dropped at once: {seconds(took)}")
        time.sleep(1)
        checks.check(server.lives(), f"{name}: one of two came, and the server waits for the other")
        if server.lives():
            got, _ = read_all(come_and_end(server, server.ports[place], request))
            checks.check(got.startswith(wanted), f"{name}: a request before the end: {got[:20]}")
        status = server.status(10)
        checks.check(status == 0, f"{name}: both count, and the server ends: {status}")


def main():
    checks = Checks()
    try_full_server(checks)
    try_ended(checks, "RTSP", 0)
    try_ended(checks, "HTTP", 1)
    checks.end()


if __name__ == "__main__":
    main()
