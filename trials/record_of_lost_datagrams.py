#!/usr/bin/env python3
"""`record` writes the packets of a stream in order, and tells each gap of lost or late datagrams.

    trials/record_of_lost_datagrams.py [PACKETS]

The recording's packets are numbered, so what was written is seen to be its packets in order, each
at most once and unchanged, with none missing but where a line `gap FROM COUNT` tells it. PACKETS are
recorded each time: 20000 without the word, 6 seconds of the stream. First over loopback, then
through a relay that repeats, delays and loses datagrams, then while a host with another address
sends RTP to the same port, and at last from servers that are not there, take no connection or don't
answer. Ends with status 1 if something doesn't hold. Needs the built program
(trials/lib/server.py).

Packages: none
Limit: 180 s
"""

import heapq
import itertools
import random
import re
import socket
import sys
import threading

sys.dont_write_bytecode = True
from lib.checks import Checks
from lib.recorded import Recorded, check_recorded
from lib.rtp import PACKETS_A_DATAGRAM, numbered, port_of, receiver
from lib.server import PACKETS_A_SECOND, Server, free_ports, plain_packets

ADDRESS, STRANGER = "127.0.0.1", "127.0.0.2"
SECONDS = 60
# What the relay does, and whether datagrams are missing then: one that comes late is put in its
# place as long as none is 64 or more ahead of it.
RELAYS = (
    ("repeats 5 of 100", {"repeated": 0.05}, False),
    ("lets 25 of 100 come up to 60 places late", {"late": 0.25, "places": 60}, False),
    ("loses 2 of 100", {"lost": 0.02}, True),
    ("lets 25 of 100 come up to 200 places late", {"late": 0.25, "places": 200}, True),
    ("does all of it", {"lost": 0.02, "repeated": 0.05, "late": 0.25, "places": 60}, True),
)


class Disturbance:
    """Which datagrams go on when one comes: some twice, some not at all, some after others."""

    def __init__(self, lost=0.0, repeated=0.0, late=0.0, places=0):
        self.lost, self.repeated, self.late, self.places = lost, repeated, late, places
        self.draws, self.order, self.waiting, self.came = random.Random(1), itertools.count(), [], 0

    def copies(self):
        if self.draws.random() < self.lost:
            return 0
        return 2 if self.draws.random() < self.repeated else 1

    def pass_on(self, datagram):
        self.came += 1
        for _ in range(self.copies()):
            is_late = self.draws.random() < self.late
            due = self.came + (self.draws.randint(1, self.places) if is_late else 0)
            heapq.heappush(self.waiting, (due, next(self.order), datagram))
        while self.waiting and self.waiting[0][0] <= self.came:
            yield heapq.heappop(self.waiting)[2]


class Relay:
    """Hands a client's requests on to a server as its own, and the datagrams with a disturbance."""

    def __init__(self, server_port, disturbance):
        self.disturbance, self.client_port = disturbance, 0
        self.listener = socket.create_server((ADDRESS, 0))
        self.address = f"{ADDRESS}:{port_of(self.listener)}"
        self.server = socket.create_connection((ADDRESS, server_port))
        self.sock = receiver(ADDRESS)
        self.sock.setblocking(True)
        for work in (self.hand_on_requests, self.hand_on_datagrams):
            threading.Thread(target=work, daemon=True).start()

    def hand_on_requests(self):
        self.client, _ = self.listener.accept()
        threading.Thread(target=self.hand_on_replies, daemon=True).start()
        while request := self.client.recv(65536):
            self.server.sendall(re.sub(rb"client_port=(\d+)-\d+", self.own_ports, request))
        self.server.shutdown(socket.SHUT_WR)

    def own_ports(self, told):
        self.client_port = int(told.group(1))
        port = port_of(self.sock)
        return f"client_port={port}-{port + 1}".encode()

    def hand_on_replies(self):
        while reply := self.server.recv(65536):
            self.client.sendall(reply)
        self.client.close()

    def hand_on_datagrams(self):
        while True:
            for datagram in self.disturbance.pass_on(self.sock.recv(2048)):
                self.sock.sendto(datagram, (ADDRESS, self.client_port))


class StrangersRelay(Relay):
    """A relay next to which a host with another address sends datagrams, the first ones before any
    of the server."""

    def __init__(self, server_port):
        self.stranger, self.sent = receiver(STRANGER), 0
        super().__init__(server_port, Disturbance())

    def send_strange(self, count):
        for number in range(self.sent, self.sent + count):
            head = bytes((0x80, 33)) + number.to_bytes(2, "big") + bytes(4) + b"odd!"
            datagram = head + plain_packets(PACKETS_A_DATAGRAM)
            self.stranger.sendto(datagram, (ADDRESS, self.client_port))
        self.sent += count

    def own_ports(self, told):
        ports = super().own_ports(told)
        self.send_strange(100)
        return ports

    def hand_on_datagrams(self):
        while True:
            self.sock.sendto(self.sock.recv(2048), (ADDRESS, self.client_port))
            self.send_strange(1)


def try_relays(checks, count):
    recording = numbered(PACKETS_A_SECOND * max(SECONDS, 3 * count // PACKETS_A_SECOND))
    with Server(ADDRESS, recording=recording) as server:
        recorded = Recorded(f"{ADDRESS}:{server.ports[0]}", count)
        check_recorded(checks, "loopback", recorded, recording, count, False)
        for where, rule, may_miss in RELAYS:
            relay = Relay(server.ports[0], Disturbance(**rule))
            recorded = Recorded(relay.address, count)
            check_recorded(checks, f"a relay that {where}", recorded, recording, count, may_miss)
        relay = StrangersRelay(server.ports[0])
        recorded = Recorded(relay.address, count)
        where = f"{relay.sent} datagrams of another host"
        check_recorded(checks, where, recorded, recording, count, False)
        checks.check(relay.sent > 100, f"{where}: they came before and between the server's")


def ended_well(recorded, status, lines, shortest, longest):
    """Whether it ended in time with this status and these lines, and no output."""
    said = bool(re.fullmatch(lines + "\n", recorded.errors)) and recorded.output == b""
    return recorded.status == status and said and shortest <= recorded.seconds <= longest


def try_absent(checks):
    port, _ = free_ports(ADDRESS)
    recorded = Recorded(f"{ADDRESS}:{port}", 1)
    well = ended_well(recorded, 13, "connection: .*refused.*\npeer fault", 0, 2)
    checks.check(well, f"no server: {recorded.ended()}")

    with socket.create_server((ADDRESS, 0), backlog=0) as listener:
        port = port_of(listener)
        # this one waits in the queue, so the next gets no answer to its SYN
        with socket.create_connection((ADDRESS, port)):
            recorded = Recorded(f"{ADDRESS}:{port}", 1)
        well = ended_well(recorded, 13, "connection: .*timed out.*\npeer fault", 9.5, 12)
        checks.check(well, f"a server that takes no connection: {recorded.ended()}")

    with socket.create_server((ADDRESS, 0), backlog=8) as listener:
        recorded = Recorded(f"{ADDRESS}:{port_of(listener)}", 1)
        well = ended_well(recorded, 12, "silent", 9.5, 60)
        checks.check(well, f"a server that doesn't answer: {recorded.ended()}")


def main():
    checks = Checks()
    try_relays(checks, int(sys.argv[1]) if len(sys.argv) > 1 else 20000)
    try_absent(checks)
    checks.end()


if __name__ == "__main__":
    main()
