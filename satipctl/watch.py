"""What a running server does, from two readings of its status file and its description."""

import os
import re
import time
from dataclasses import asdict, dataclass

from . import configuration, place, status_file, system
from .client import Rtsp, server_of

PACKET_BITS = 188 * 8
# A server writes its status once a second.
PERIOD = 1.0
SES1 = re.compile(
    r"a=control:stream=(\d+)\r\na=fmtp:33 ver=1\.0;src=(\d+);tuner=([^;]*);pids=(\S+)\r\na=(\w+)"
)


@dataclass
class Stream:
    """A living stream, as DESCRIBE lists it."""

    number: int
    front_end: int
    tuning: str
    pids: str
    plays: bool


@dataclass
class Viewer:
    """Who gets packets: a destination of RTP or a connection. Rates are in bit/s; an age that isn't
    known is None."""

    address: str
    kind: str
    age: float | None
    rate: float
    bytes: int
    refused: int


@dataclass
class Front:
    """A front end with its rate in bit/s. `multiplex` and `pids` are those of its streams, if they are
    described, else the number of its multiplex in the configuration, and None."""

    number: int
    file: str | None
    multiplex: str | None
    pids: str | None
    rate: float
    packets: int
    restarts: int
    behind: float | None


def add_words(words):
    place.add_words(words)
    words.add_argument("--status-file", metavar="FILE", help="the server's SATIP_STATUS")
    words.add_argument("--no-describe", action="store_true", help="asks the server nothing")


def streams_of(description):
    """The streams of a description."""
    for number, src, tuner, pids, direction in SES1.findall(description):
        fields = tuner.split(",")
        told = f"{fields[4]} MHz {fields[5]}, {fields[6]}, {fields[10]} kS/s, position {src}"
        tuned = len(fields) > 10 and fields[4]
        plays = direction == "sendonly"
        yield Stream(int(number), int(fields[0]), told if tuned else "untuned", pids, plays)


def describe(server):
    """The streams of a server; None if it doesn't answer, as if all workers are busy."""
    try:
        with Rtsp(*server, timeout=2) as client:
            return list(streams_of(client.ask("DESCRIBE", client.base, "Accept: application/sdp")))
    except OSError:
        return None


def is_report_port(address, all_addresses):
    """Whether a destination gets the reports of another one: RTCP goes to the port after RTP's."""
    host, _, port = address.rpartition(":")
    return int(port) % 2 == 1 and f"{host}:{int(port) - 1}" in all_addresses


def union(streams):
    """The PIDs that at least one of the streams has, as a text."""
    told = {pid for it in streams for pid in it.pids.split(",")} - {"none"}
    if "all" in told:
        return "all"
    return ",".join(sorted(told, key=int)) or "none"


def multiplex(front, streams):
    """What a front end is tuned to: by its streams or, if none is described, by its configuration."""
    if streams:
        return streams[0].tuning
    return None if front.mux is None else f"mux.{front.mux}"


class Reading:
    """A status and the one before it, whose differences are what happened meanwhile."""

    def __init__(self, before, now, streams):
        self.before, self.now, self.streams = before, now, streams
        self.seconds = now.uptime - before.uptime

    def rate(self, now, before):
        """Bits a second from two counts of bytes; the count of who is new began at 0."""
        return max(now - before, 0) * 8 / self.seconds if self.seconds > 0 else 0.0

    def viewers(self):
        """Destinations and connections that got something since the reading before."""
        old = {it.address: it.bytes for it in self.before.destinations}
        addresses = {it.address for it in self.now.destinations}
        for it in self.now.destinations:
            if it.bytes is None:
                continue
            lost, rate = sum(it.refused.values()), self.rate(it.bytes, old.get(it.address, 0))
            lost_before = sum(
                sum(other.refused.values())
                for other in self.before.destinations
                if other.address == it.address
            )
            if not is_report_port(it.address, addresses) and (rate > 0 or lost > lost_before):
                yield Viewer(it.address, "RTP", None, rate, it.bytes, lost)
        sent = {it.address: it.sent for it in self.before.connections}
        for it in self.now.connections:
            rate = self.rate(it.sent, sent.get(it.address, 0))
            yield Viewer(it.address, it.kind.upper(), it.age, rate, it.sent, 0)

    def uncounted(self):
        """Destinations of which the system tells no counts, so some may have left."""
        addresses = {it.address for it in self.now.destinations if it.bytes is None}
        return sorted(it for it in addresses if not is_report_port(it, addresses))

    def fronts(self):
        old = {it.number: it.packets for it in self.before.front_ends}
        for it in self.now.front_ends:
            own = [stream for stream in self.streams or () if stream.front_end == it.number]
            packets = max(it.packets - old.get(it.number, 0), 0)
            rate = packets * PACKET_BITS / self.seconds if self.seconds > 0 else 0.0
            yield Front(
                it.number, it.file, multiplex(it, own), union(own) if own else None,
                rate, it.packets, it.restarts, it.behind,
            )

    def sent_rate(self):
        """What leaves to all clients in bit/s; it isn't known how much is RTP without a status file."""
        if self.now.totals is None:
            return sum(it.rate for it in self.viewers())
        now, before = self.now.totals, self.before.totals
        return self.rate(now.sent + now.bytes, before.sent + before.bytes)

    def to_json(self):
        now = self.now
        return {
            "version": now.version,
            "started": now.started,
            "uptime": now.uptime,
            "open": len(now.connections),
            "totals": now.totals and asdict(now.totals),
            "rate": self.sent_rate(),
            "uncounted": self.uncounted(),
            "front_ends": [asdict(it) for it in self.fronts()],
            "streams": None if self.streams is None else [asdict(it) for it in self.streams],
            "viewers": [asdict(it) for it in self.viewers()],
        }


def read(given):
    """The status of a server: from its status file or, if there is none, from the system."""
    path = place.status_file(given)
    if os.path.exists(path) or not os.path.exists(given.config):
        return status_file.read(path)
    return system.read(*configuration.read(given.config).server()[1:])


class Watch:
    """Reads a server's status again and again."""

    def __init__(self, given):
        self.given, self.server = given, None
        if not given.no_describe and os.path.exists(given.config):
            self.server = server_of(os.path.join(".", given.config))
        self.last = read(given)

    def next(self):
        """The next reading: waits until the server has written another status."""
        if self.last.version is None:
            time.sleep(PERIOD)
        # It raises Fault if it isn't written any more.
        while (now := read(self.given)).uptime == self.last.uptime:
            time.sleep(PERIOD / 10)
        is_same = now.started == self.last.started and now.uptime > self.last.uptime
        before = self.last if is_same and now.version == self.last.version else now
        self.last = now
        return Reading(before, now, describe(self.server) if self.server else None)


def rate_text(rate):
    return f"{rate / 1e6:.2f} Mbit/s" if rate >= 1e5 else f"{rate / 1e3:.1f} kbit/s"


def bytes_text(count):
    for unit in ("B", "kB", "MB", "GB"):
        if count < 1000:
            return f"{count:.0f} {unit}" if unit == "B" else f"{count:.1f} {unit}"
        count /= 1000
    return f"{count:.1f} TB"


def age_text(seconds):
    if seconds is None:
        return ""
    minutes, rest = divmod(int(seconds), 60)
    hours, minutes = divmod(minutes, 60)
    return f"{hours}:{minutes:02}:{rest:02}"


def behind_text(seconds):
    return "" if seconds is None else f"{seconds:.2f} s"
