"""Says in one line whether a server is well, with the statuses of monitoring plugins.

It asks OPTIONS. With QUERY, what follows `?` in a line of the playlist of `satipctl channels`, it
also creates a stream, receives transport packets of it, and ends it: over UDP, or inside the
connection of a `satip tunnel`. Instead of an address it takes the path of a configuration.

Status 0: well. Status 1: it answers, but slowly, with a packet missing, or it refuses the stream as
it is full (503). Status 2: no answer, another refusal, or too few packets in time.
"""

import select
import time

from .client import Refused, Rtsp, inside, options, over_udp, pair_of_ports, server_of

RTP_HEADER, PACKET = 12, 188
STATES = ("OK", "WARNING", "CRITICAL")


def add_words(words):
    words.add_argument("server", metavar="ADDRESS[:PORT] | CONFIG")
    words.add_argument("query", metavar="QUERY", nargs="?")
    words.add_argument("--packets", type=int, default=100, help="transport packets, 100 if not given")
    words.add_argument("--limit", metavar="SECONDS", type=float, default=10, help="for each of both")
    words.add_argument("--slow", metavar="SECONDS", type=float, default=1, help="status 1 above it")


def run(given):
    server = server_of(given.server)
    try:
        took = options(server, given.limit)
    except OSError as error:
        return say(2, f"no answer to OPTIONS: {error}")
    numbers = f"options={took:.4f}s;{given.slow:g};{given.limit:g}"
    if given.query is None:
        return say(int(took > given.slow), f"OPTIONS answered in {took:.3f} s", numbers)
    stream = Stream(given.packets)
    begun = time.monotonic()
    try:
        receive(server, given.query, stream, begun + given.limit)
    except Refused as refused:
        return say(1 if " 503 " in str(refused) else 2, f"refused: {refused}", numbers)
    except OSError as error:
        told = f"{stream.count} of {given.packets} packets: {error}"
        return say(2, told, f"{numbers} packets={stream.count}")
    all_in = time.monotonic() - begun
    numbers += f" stream={all_in:.4f}s packets={stream.count} missing={stream.missing}"
    told = f"OPTIONS answered in {took:.3f} s, {stream.count} packets in {all_in:.3f} s"
    told += f", {stream.missing} datagrams missing" if stream.missing else ""
    return say(int(took > given.slow or stream.missing > 0), told, numbers)


def say(status, told, numbers=""):
    print(f"SATIP {STATES[status]} - {told}" + (f" | {numbers}" if numbers else ""))
    return status


class Stream:
    """Counts the packets of RTP datagrams, and the sequence numbers that are missing."""

    def __init__(self, wanted):
        self.wanted, self.count, self.missing, self.last = wanted, 0, 0, None

    def take(self, data):
        number = int.from_bytes(data[2:4], "big")
        if self.last is not None:
            self.missing += (number - self.last - 1) % 65536
        self.last = number
        self.count += (len(data) - RTP_HEADER) // PACKET

    def take_frame(self, channel, data):
        if channel == 0:
            self.take(data)

    def is_full(self):
        return self.count >= self.wanted


def receive(server, query, stream, until):
    """Creates the stream, receives its packets and ends it."""
    timeout = max(until - time.monotonic(), 0.1)
    with Rtsp(*server, timeout, stream.take_frame) as client:
        target = f"{client.base}?{query}"
        first, second = pair_of_ports(server[0])
        with first, second:
            try:
                url, session = client.set_up(target, over_udp(first.getsockname()[1]))
                sources = [first, client.line]
            except Refused as refused:
                # That of `tunnel`.
                if " 461 " not in str(refused):
                    raise
                url, session = client.set_up(target, inside())
                sources = [client.line]
            try:
                client.must("PLAY", url, f"Session: {session}")
                take_all(client, sources, stream, until)
            finally:
                client.ask("TEARDOWN", url, f"Session: {session}")


def take_all(client, sources, stream, until):
    while not stream.is_full():
        left = until - time.monotonic()
        ready = select.select(sources, (), (), left)[0] if left > 0 else []
        if not ready:
            raise TimeoutError("no more within the limit")
        for source in ready:
            if source is client.line:
                client.receive()
                client.cut_reply()
            else:
                stream.take(source.recv(65536))
