#!/usr/bin/env python3
"""Receivers that leave the network without a word don't disturb the stream of one that stays.

    trials/vanished_receivers.py

All receivers are in a network namespace. Of those that leave, 3 and then 40, the addresses are taken
away, so the system waits in vain for the answer of each (ARP) and holds what is sent to it. The one
that stays has to get 99 of 100 datagrams, at 80 of 100 of its pace. Ends with status 1 if it
doesn't. Needs root, and the built program (trials/lib/server.py).

Packages: iproute2
Rights: root
Limit: 90 s
"""

import subprocess
import sys

sys.dont_write_bytecode = True
from lib.checks import Checks
from lib.network import NEAR, Link, ip
from lib.rtp import PACKETS_A_DATAGRAM, datagrams, number_of, port_of, receiver
from lib.rtsp import Rtsp, over_udp
from lib.server import PACKETS_A_SECOND, PORTS, QUERY, Server

GONE = (3, 40)
SECONDS = 8
# Datagrams that may come before the others have left.
FIRST = 100
USUAL = SECONDS * PACKETS_A_SECOND // PACKETS_A_DATAGRAM - FIRST
# The word with which this script runs itself in the namespace of the receivers.
INSIDE = "inside"


def receive(near, gone):
    """Prints how many datagrams came to the receiver that stays, and how many were sent to it."""
    living = Rtsp(NEAR)
    sock = receiver(living.host, 1 << 20)
    target, _ = living.play(living.url(QUERY), over_udp(port_of(sock)))
    hosts = [f"10.23.0.{100 + place}" for place in range(gone)]
    for host in hosts:
        ip("addr", "add", host + "/24", "dev", "far0")
        other = Rtsp(NEAR, source=host)
        other.play(target, over_udp(5004))
        other.close()
    for host in hosts:
        ip("addr", "del", host + "/24", "dev", "far0")
    ip("-n", near, "neigh", "flush", "dev", "near0")
    numbers = [number_of(it) for it in datagrams(sock, SECONDS)][FIRST:]
    print(len(numbers), (numbers[-1] - numbers[0]) % 65536 + 1)


def try_gone(checks, gone):
    with Link() as link:
        with Server(NEAR, before=link.inside(link.near), ports=PORTS) as server:
            words = [*link.inside(link.far), sys.executable, __file__, INSIDE, link.near, str(gone)]
            done = subprocess.run(words, capture_output=True, text=True, check=False)
            came, wanted = map(int, done.stdout.split() or (0, 1))
            text = f"with {gone} vanished receivers {came} of {wanted} datagrams come {done.stderr}"
            checks.check(came >= wanted * 0.99, text)
            checks.check(wanted >= USUAL * 0.8, f"of {USUAL} at its pace {wanted} were sent")
            print(server.said().strip())


def main():
    checks = Checks()
    for gone in GONE:
        try_gone(checks, gone)
    checks.end()


if __name__ == "__main__":
    if sys.argv[1:2] == [INSIDE]:
        receive(sys.argv[2], int(sys.argv[3]))
    else:
        main()
