#!/usr/bin/env python3
"""Each packet of a recording comes through connections of `tunnel`, in order and none missing.

    trials/tunnel_connections.py [SECONDS]

The recording's packets are numbered. They go, for SECONDS each, 6 without the word, to one
connection; to eight, one of which stops reading; to one that sends receiver reports between its
requests; to one that sends a message byte by byte; and to one in parallel with 62 that stop reading,
each of which the server has to end.A transport over UDP has to be refused with 461.

20 sessions of 34 Mbit/s, each silent for some seconds, are played by a request on another
connection: none may be closed, and each first frame has to come within 100 ms. One session at 60, 80
and 100 Mbit/s for 20 s may miss nothing. Ends with status 1 if something doesn't hold. Needs the
built program (trials/lib/server.py).

Packages: none
Limit: 400 s
"""

import select
import sys
import threading
import time

sys.dont_write_bytecode = True
from lib.checks import Checks
from lib.rtp import PACKET, clocked, missing_runs, number_of, numbered, payload
from lib.rtsp import BLANK, inside, over_udp
from lib.server import PACKETS_A_SECOND, QUERY, Server

ADDRESS = "127.0.0.1"
# A server has at most 64 workers, so it serves 64 connections at once.
STOPPED = 62
# An empty receiver report, on the channel of RTCP.
REPORT = bytes.fromhex("2401000880c9000100000001")
# The seconds between two bytes of a slow message. The server finds that nothing came after 50 ms.
BETWEEN = 0.02
# The sessions that a request on another connection plays, and the rates of one session in Mbit/s.
PLAYS, RATES = 20, (60, 80, 100)


class Reader(threading.Thread):
    """A connection that plays for some seconds, and then tears its session down."""

    def __init__(self, server, length, target=None, stops_after=None, sends=b"", drips=False):
        super().__init__(daemon=True)
        self.drips, self.over = drips, threading.Event()
        self.client, self.length = server.client(), length
        self.stops_after, self.sends = stops_after, sends
        self.target, self.session = self.client.play(target or self.client.url(QUERY), inside())
        self.packets, self.numbers, self.reports, self.fault = b"", [], 0, None

    def run(self):
        try:
            self.read()
        except OSError as error:
            self.fault = str(error)

    def drip(self):
        """Sends a message byte by byte until the reader is over, and then ends it."""
        self.client.line.sendall(b"OPTIONS * RTSP/1.0\r\nCSeq: 900\r\nX: ")
        while not self.over.wait(BETWEEN):
            self.client.line.sendall(b"x")
        self.client.line.sendall(BLANK)

    def read(self):
        begun = time.monotonic()
        dripper = threading.Thread(target=self.drip, daemon=True)
        if self.drips:
            dripper.start()
        while time.monotonic() < begun + self.length:
            if self.stops_after and time.monotonic() > begun + self.stops_after:
                time.sleep(0.1)
                continue
            if self.sends:
                self.client.line.sendall(self.sends)
            self.keep(self.client.take_frames())
        if self.drips:
            self.over.set()
            dripper.join()
            while self.client.cut_reply() is None:
                self.client.receive()
        if not self.stops_after:
            self.client.tear_down(self.target, self.session)
            self.keep(self.client.frames)

    def keep(self, frames):
        packets, numbers = payload(frames, 0)
        self.packets += packets
        self.numbers += numbers
        self.reports += sum(place == 1 for place, _ in frames)


def rises(numbers):
    return all((b - a) % 65536 == 1 for a, b in zip(numbers, numbers[1:]))


def check_whole(checks, where, reader, recording):
    count, length = len(reader.packets) // PACKET, reader.length
    checks.check(reader.fault is None, f"{where}: it ended well ({reader.fault or 'TEARDOWN: 200'})")
    enough = count > PACKETS_A_SECOND * length * 0.8
    checks.check(enough, f"{where}: {count} packets in {length} s, {reader.reports} reports")
    missing = missing_runs(reader.packets, recording)
    checks.check(missing == [], f"{where}: they are the recording's, in order, none missing")
    checks.check(rises(reader.numbers), f"{where}: the datagrams' numbers rise by one")


def run_all(readers):
    for reader in readers:
        reader.start()
    for reader in readers:
        reader.join(60)


def try_connections(checks, recording, length):
    with Server(ADDRESS, workers=12, recording=recording, command="tunnel") as server:
        alone = Reader(server, length)
        run_all([alone])
        check_whole(checks, "one connection", alone, recording)

        slow = Reader(server, length + 6, stops_after=0.5)
        others = [Reader(server, length + 4, slow.target) for _ in range(7)]
        run_all([slow, *others])
        for place, other in enumerate(others, 1):
            check_whole(checks, f"reader {place} of 7 next to one that stops", other, recording)
        slow.client.close()

        talker = Reader(server, length, sends=REPORT)
        run_all([talker])
        check_whole(checks, "a connection that sends reports", talker, recording)

        slow_asker = Reader(server, length, drips=True)
        run_all([slow_asker])
        check_whole(checks, "a connection that sends a message byte by byte", slow_asker, recording)

        client = server.client()
        reply = client.ask("SETUP", client.url(QUERY), over_udp(1400))
        checks.check(reply.startswith("RTSP/1.0 461 "), f"UDP: {reply.splitlines()[0]}")
        client.close()
        checks.check(server.lives(), "the server lives")


def is_ended(client, longest):
    """Whether the server ends this connection within the seconds."""
    client.line.settimeout(longest)
    try:
        while client.line.recv(262144):
            pass
        return True
    except TimeoutError:
        return False
    except OSError:
        return True


def try_stopped_readers(checks, recording, length):
    """One reader next to as many connections that stop reading as the other workers serve."""
    with Server(ADDRESS, workers=64, recording=recording, command="tunnel") as server:
        reader = Reader(server, length + 14)
        stopped = [server.client() for _ in range(STOPPED)]
        for client in stopped:
            client.play(reader.target, inside())
        run_all([reader])
        check_whole(checks, f"a reader next to {STOPPED} that stop", reader, recording)
        ended = sum(is_ended(client, 10) for client in stopped)
        checks.check(ended == STOPPED, f"{ended} of {STOPPED} that stopped were ended")
        checks.check(server.lives(), "the server lives after those that stopped")


class Frames:
    """What comes on a connection: frames on channel 0, by their count, gaps and bytes."""

    def __init__(self, client):
        self.line, self.rest = client.line, client.buffer
        self.first = self.last = None
        self.count = self.bytes = self.gaps = 0
        self.is_ended = False

    def read_for(self, length, until_first=False):
        """Reads for some seconds, or until the first frame."""
        end = time.monotonic() + length
        self.line.setblocking(False)
        while time.monotonic() < end and not self.is_ended:
            if select.select([self.line], [], [], 0.05)[0]:
                self.read()
            if until_first and self.first:
                return

    def read(self):
        try:
            piece = self.line.recv(1 << 20)
        except BlockingIOError:
            return
        except OSError:
            piece = b""
        self.is_ended = not piece
        text, place = self.rest + piece, 0
        while len(text) >= place + 4:
            if text[place] != 36:
                # A reply, without a body.
                over = text.find(BLANK, place)
                if over < 0:
                    break
                place = over + len(BLANK)
                continue
            over = place + 4 + int.from_bytes(text[place + 2 : place + 4], "big")
            if len(text) < over:
                break
            if text[place + 1] == 0:
                self.keep(text[place + 4 : over])
            place = over
        self.rest = text[place:]

    def keep(self, datagram):
        number = number_of(datagram)
        self.gaps += self.last is not None and number != (self.last + 1) % 65536
        self.first, self.last = self.first or time.monotonic(), number
        self.count, self.bytes = self.count + 1, self.bytes + len(datagram) - 12


def fast(megabits, seconds):
    """A server of a recording of this rate, which repeats."""
    recording = clocked(int(megabits * 1e6 / 8 / PACKET * seconds), megabits)
    before = ("env", "SATIP_PACE=recording", "SATIP_REPEAT=1")
    return Server(ADDRESS, workers=4, recording=recording, command="tunnel", before=before)


def try_plays_from_elsewhere(checks):
    """Sessions that are played by a request on another connection, after some silence."""
    closed, late, longest = 0, 0, 0
    with fast(34, 6) as server:
        for place in range(PLAYS):
            silent, other = server.client(), server.client()
            target, session = silent.set_up(silent.url(QUERY), inside())
            frames = Frames(silent)
            time.sleep(2 + 0.05 * place)
            begun = time.monotonic()
            other.must("PLAY", target, f"Session: {session}")
            frames.read_for(2, until_first=True)
            took = (frames.first or begun + 2) - begun
            frames.read_for(1)
            closed, late, longest = closed + frames.is_ended, late + (took > 0.1), max(longest, took)
            other.tear_down(target, session)
            silent.close()
            other.close()
    checks.check(closed == 0, f"{closed} of {PLAYS} silent sessions were closed when they played")
    text = f"{late} of {PLAYS} first frames came after 100 ms, the last after {longest * 1000:.0f} ms"
    checks.check(late == 0, text)


def try_rate(checks, megabits, length):
    with fast(megabits, 4) as server:
        client = server.client()
        client.play(client.url(QUERY), inside())
        frames = Frames(client)
        frames.read_for(length)
        client.close()
    rate = frames.bytes * 8 / length / 1e6
    text = f"{megabits} Mbit/s: {rate:.1f} came for {length} s, {frames.gaps} gaps"
    checks.check(not frames.is_ended and frames.gaps == 0 and rate > megabits * 0.5, text)


def main():
    length = int(sys.argv[1]) if len(sys.argv) > 1 else 6
    recording = numbered(PACKETS_A_SECOND * (8 * length + 60))
    checks = Checks()
    try_connections(checks, recording, length)
    try_stopped_readers(checks, recording, length)
    try_plays_from_elsewhere(checks)
    for megabits in RATES:
        try_rate(checks, megabits, 20)
    checks.end()


if __name__ == "__main__":
    main()
