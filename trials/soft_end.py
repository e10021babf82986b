#!/usr/bin/env python3
"""A server that a file asks to end takes no more clients, and ends when the last one has left.

    trials/soft_end.py

A viewer by RTSP and one by HTTP receive without a gap for 5 s after the file of SATIP_STOP is there. A
new server at the same ports takes a new viewer meanwhile. The old one has to end with 0 within a
second after its last viewer left. With 0 in the file it has to end within 2 s under 16 viewers. A file
without a number is told. A server that starts while the file is there ends with 7. `journal` ends with
whole journals, of which `audit` says yes, after three viewers; `tunnel` after one.

Ends with status 1 if something doesn't hold. Needs the built program (trials/lib/server.py).

Packages: none
Limit: 200 s
"""

import glob
import re
import subprocess
import sys
import time

sys.dont_write_bytecode = True
from lib.checks import Checks
from lib.rtp import datagrams, number_of, port_of, receiver_pair, skipped
from lib.rtsp import inside, over_udp
from lib.server import QUERY, Server, program

ADDRESS = "127.0.60.3"
BEFORE = ("env", "SATIP_REPEAT=1", "SATIP_STOP=FOLDER/stop")
ASKED = r"asked to end by \S+/stop; connections left: (\d+), (.*)"
ENDS = "no connection is left, so the server ends"
checks = Checks()


def start(**words):
    return Server(ADDRESS, before=BEFORE, **words)


def ask(server, text=""):
    """Asks a server to end; returns the moment."""
    with open(server.path("stop"), "w", encoding="ascii") as file:
        file.write(text)
    return time.monotonic()


def told(server, pattern, length=3):
    """Returns the groups of a line of such a text; waits for one for some seconds."""
    end = time.monotonic() + length
    while True:
        found = re.search(rf"^\S+Z: {pattern}$", server.said(), re.M)
        if found or time.monotonic() > end:
            return found and found.groups()
        time.sleep(0.05)


class Viewer:
    """A client that plays over UDP, and keeps its connection."""

    def __init__(self, server):
        self.client = server.client()
        self.sock, self.reports = receiver_pair(self.client.host)
        target = self.client.url(QUERY)
        self.target, self.session = self.client.play(target, over_udp(port_of(self.sock)))
        self.last = None

    def gaps(self, length):
        """Returns how many datagrams come within the seconds, and how many are missing."""
        count = missing = 0
        for datagram in datagrams(self.sock, length):
            count += 1
            missing += skipped(self.last, number_of(datagram)) or 0
            self.last = number_of(datagram)
        return count, missing

    def leave(self):
        self.client.tear_down(self.target, self.session)
        self.client.close()


def bytes_of(line, length):
    """Counts the bytes of a stream over HTTP that come within the seconds; None at its end."""
    count, end = 0, time.monotonic() + length
    while time.monotonic() < end:
        piece = line.recv(1 << 16)
        if not piece:
            return None
        count += len(piece)
    return count


def check_end(server, since, limit, what, status=0):
    got = server.status(10)
    took = time.monotonic() - since
    checks.check(got == status and took < limit, f"{what}: status {got} after {took:.2f} s")


def viewers_finish():
    with start(workers=4) as server:
        viewer, line = Viewer(server), server.read()
        viewer.gaps(1)
        ask(server)
        found = told(server, ASKED)
        checks.check(found == ("2", "until they end"), f"a line says that a stop was asked: {found}")
        with Server(ADDRESS, workers=4, ports=server.ports) as successor:
            checks.check(successor.lives(), "a new server has the ports")
            other = Viewer(successor)
            checks.check(other.gaps(1)[0] > 100, "it takes a new viewer")
            count, missing = viewer.gaps(5)
            checks.check(count > 1000 and missing == 0, f"RTP: {count} datagrams, {missing} missing")
            count = bytes_of(line, 2)
            checks.check(count and count > 500_000, f"HTTP: {count} bytes in 2 s")
            checks.check(server.lives(), "the old server serves those who are there")
            viewer.leave()
            line.close()
            check_end(server, time.monotonic(), 1, "the last viewer left")
            checks.check(told(server, ENDS, 0) == (), "a line says that it ends")
            checks.check(other.gaps(1)[0] > 100, "the new server goes on")


def viewers_are_cut():
    with start(workers=20) as server:
        viewers = [Viewer(server) for _ in range(8)]
        lines = [server.read() for _ in range(8)]
        for line in lines:
            bytes_of(line, 0.1)
        since = ask(server, "0\n")
        for line in lines:
            while bytes_of(line, 0.1) is not None:
                pass
            line.close()
        check_end(server, since, 2, "0 seconds, 16 viewers")
        found = told(server, ASKED, 0)
        checks.check(found == ("16", "for 0 s at most"), f"0 seconds: a line says so: {found}")
        for viewer in viewers:
            viewer.client.close()


def time_is_limited():
    with start(workers=2) as server:
        viewer = Viewer(server)
        since = ask(server, "3\n")
        checks.check(server.status(2) is None, "3 seconds: it serves for 2 s")
        check_end(server, since, 5, "3 seconds, 1 viewer")
        viewer.client.close()


def other_files():
    with start(workers=2) as server:
        since = ask(server, "soon\n")
        line = r"\S+/stop has no number of seconds up to 86400 on its first line"
        checks.check(told(server, line) == (), "no number: a line says so")
        check_end(server, since, 3, "no number, no viewer")
        words = ["env", f"SATIP_STOP={server.path('stop')}", program(), "serve", server.config, "0"]
        done = subprocess.run(words, capture_output=True, check=False, timeout=10)
        lines = done.stderr.decode().splitlines()
        right = len(lines) == 2 and "asks servers to end" in lines[0] and lines[1] == "doors fault"
        checks.check(done.returncode == 7 and right, f"a file that is there: {done.returncode}, {lines}")


def journals_are_whole():
    with start(workers=4, command="journal") as server:
        viewers = [Viewer(server) for _ in range(3)]
        viewers[0].gaps(1)
        ask(server)
        told(server, ASKED)
        for viewer in viewers:
            viewer.leave()
        check_end(server, time.monotonic(), 1, "`journal`, three viewers")
        text = b"".join(open(name, "rb").read() for name in sorted(glob.glob(server.path("journal.*"))))
        words = [program(), "audit", server.config]
        done = subprocess.run(words, input=text, capture_output=True, check=False)
        wanted = f"yes {text.count(10) - 1}\n"
        checks.check(done.stdout.decode() == wanted, f"audit: {done.stdout.decode().strip()}")


def tunnel_ends():
    with start(workers=4, command="tunnel") as server:
        client = server.client()
        client.play(client.url(QUERY), inside())
        ask(server)
        told(server, ASKED)
        end, count = time.monotonic() + 2, 0
        while time.monotonic() < end:
            count += len(client.take_frames())
        checks.check(count > 200, f"`tunnel`: {count} frames after the file is there")
        client.close()
        check_end(server, time.monotonic(), 1, "`tunnel`, one viewer")


def main():
    viewers_finish()
    viewers_are_cut()
    time_is_limited()
    other_files()
    journals_are_whole()
    tunnel_ends()
    checks.end()


if __name__ == "__main__":
    main()
