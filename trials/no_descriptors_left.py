#!/usr/bin/env python3
"""A server whose limit of descriptors is reached plays on, and takes clients in again afterwards.

    trials/no_descriptors_left.py

It lowers the limit of descriptors of a server while a client streams. The stream has to go on, a
line on standard error has to say `ulimit -n`, and a client has to come in when the limit is back.
Ends with status 1 if something doesn't hold. Needs the built program (trials/lib/server.py).

Packages: none
Limit: 60 s
"""

import os
import resource
import socket
import sys

sys.dont_write_bytecode = True
from lib.checks import Checks, seconds
from lib.rtp import arrived, port_of, receiver
from lib.rtsp import over_udp
from lib.server import QUERY, Server

ADDRESS = "127.0.23.1"
SECONDS = 3


def set_limit(pid, soft):
    """Sets the soft limit of a process's descriptors; returns the one that it had."""
    before, hard = resource.prlimit(pid, resource.RLIMIT_NOFILE)
    resource.prlimit(pid, resource.RLIMIT_NOFILE, (soft, hard))
    return before


def try_stream(checks, server):
    client = server.client()
    sock = receiver(client.host)
    client.play(client.url(QUERY), over_udp(port_of(sock)))
    usual = arrived(sock, SECONDS)
    checks.check(usual > 0, f"a client gets a stream: {usual} datagrams in {SECONDS} s")

    pid = server.process.pid
    before = set_limit(pid, len(os.listdir(f"/proc/{pid}/fd")))
    waiting = [socket.create_connection((ADDRESS, server.ports[0]), 5) for _ in range(3)]
    short = arrived(sock, SECONDS)
    checks.check(server.lives(), "the server lives with no descriptor left")
    checks.check(short > usual / 3, f"the stream goes on: {short} datagrams in {SECONDS} s")
    said = server.said().strip()
    checks.check("ulimit -n" in said, f"standard error says so: {said}")
    for line in waiting:
        line.close()

    set_limit(pid, before)
    took = server.options()
    checks.check(took is not None, f"a client comes in again: {seconds(took)}")
    after = arrived(sock, SECONDS)
    checks.check(after > usual / 3, f"the stream goes on: {after} datagrams in {SECONDS} s")


def main():
    checks = Checks()
    with Server(ADDRESS, workers=4) as server:
        try_stream(checks, server)
    checks.end()


if __name__ == "__main__":
    main()
