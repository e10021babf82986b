"""Writes what a running server does as text for Prometheus.

Without a word it prints the metrics once. With --listen it serves them to Prometheus; with
--textfile it writes them every 15 seconds to a file of node_exporter's textfile collector, which
is replaced as a whole. The status file is found as by `satipctl status`, and what the system knows
is taken if there is none. Metrics that aren't known are left out; satip_up is 0 if all are.
"""

import os
import time

from . import watch
from .client import server_of
from .command import Fault, library

PORT = 9554


def add_words(words):
    watch.add_words(words)
    way = words.add_mutually_exclusive_group()
    way.add_argument("--listen", metavar="ADDRESS:PORT", help=f"serves them; as 127.0.0.1:{PORT}")
    way.add_argument("--textfile", metavar="FILE.prom", help="writes them to a file, again and again")
    words.add_argument("--every", metavar="SECONDS", type=float, default=15, help="of --textfile")


def run(given):
    client = library("prometheus_client", "python3-prometheus-client")
    registry = client.CollectorRegistry(auto_describe=False)
    registry.register(Collector(given))
    if given.listen:
        address, _, port = given.listen.rpartition(":")
        if not port.isdigit():
            raise Fault(f"{given.listen}: no ADDRESS:PORT")
        client.start_http_server(int(port), address or "127.0.0.1", registry)
        while True:
            time.sleep(3600)
    while given.textfile:
        client.write_to_textfile(given.textfile, registry)
        time.sleep(given.every)
    print(client.generate_latest(registry).decode(), end="")
    return 0


class Collector:
    """Reads the status when Prometheus asks."""

    def __init__(self, given):
        self.given = given
        self.server = None if given.no_describe else given.config
        self.core = library("prometheus_client.core", "python3-prometheus-client")

    def collect(self):
        try:
            status = watch.read(self.given)
        except Fault:
            yield self.gauge("up", "Whether there is a server.", 0)
            return
        yield self.gauge("up", "Whether there is a server.", 1)
        yield self.gauge("connections", "Connections that are open.", len(status.connections))
        if status.totals is not None:
            yield from self.of_server(status, status.totals)
        yield from self.of_connections(status)
        yield from self.of_destinations(status)
        yield from self.of_front_ends(status)
        yield from self.of_streams()

    def gauge(self, name, told, value=None, labels=None):
        return self.core.GaugeMetricFamily(f"satip_{name}", told, value=value, labels=labels)

    def counter(self, name, told, value=None, labels=None):
        return self.core.CounterMetricFamily(f"satip_{name}", told, value=value, labels=labels)

    def of_server(self, status, totals):
        """What the server counts of all clients, also of those that left."""
        info = self.core.InfoMetricFamily("satip", "The program.")
        info.add_metric((), {"version": status.version})
        yield info
        yield self.gauge("uptime_seconds", "Seconds since the start.", status.uptime)
        yield self.counter("connections_accepted", "Connections that were accepted.", totals.taken)
        yield self.by_cause("connections_refused", "Connections that were refused.", totals.refused)
        yield self.counter("sent_bytes", "Bytes sent over all connections.", totals.sent)
        yield self.counter("received_bytes", "Bytes received over all connections.", totals.received)
        yield self.counter("sent_datagrams", "Datagrams that the system took.", totals.datagrams)
        yield self.counter("sent_datagram_bytes", "Bytes of these datagrams.", totals.bytes)
        yield self.by_cause("lost_datagrams", "Datagrams that the system refused.", totals.lost)
        yield self.counter("lines", "Lines on standard error.", totals.lines)

    def by_cause(self, name, told, counts):
        family = self.counter(name, told, labels=("cause",))
        for cause, count in counts.items():
            family.add_metric((cause,), count)
        return family

    def of_connections(self, status):
        labels = ("client", "kind")
        sent = self.counter("connection_sent_bytes", "Bytes sent to a client.", labels=labels)
        received = self.counter("connection_received_bytes", "Bytes received.", labels=labels)
        for it in status.connections:
            sent.add_metric((it.address, it.kind), it.sent)
            received.add_metric((it.address, it.kind), it.received)
        yield from (sent, received)

    def of_destinations(self, status):
        labels = ("destination",)
        count = self.counter("datagrams", "Datagrams to the last 128 destinations.", labels=labels)
        size = self.counter("datagram_bytes", "Bytes of these datagrams.", labels=labels)
        told = "Datagrams to these destinations that the system refused."
        refused = self.counter("datagrams_refused", told, labels=(*labels, "cause"))
        for it in status.destinations:
            if it.bytes is None:
                continue
            count.add_metric((it.address,), it.datagrams)
            size.add_metric((it.address,), it.bytes)
            for cause, lost in it.refused.items():
                refused.add_metric((it.address, cause), lost)
        yield from (count, size, refused)

    def of_front_ends(self, status):
        labels = ("front_end", "recording")
        packets = self.counter("front_end_packets", "Transport packets read.", labels=labels)
        restarts = self.counter("front_end_restarts", "New starts of a recording.", labels=labels)
        behind = self.gauge("front_end_behind_seconds", "Seconds behind its rate.", labels=labels)
        for it in status.front_ends:
            names = str(it.number), it.file or ""
            packets.add_metric(names, it.packets)
            restarts.add_metric(names, it.restarts)
            if it.behind is not None:
                behind.add_metric(names, it.behind)
        yield from (packets, restarts, behind)

    def of_streams(self):
        """Streams by front end and state, if the server was asked and answers; those that aren't tuned
        have front end 0."""
        try:
            streams = watch.describe(server_of(os.path.join(".", self.server))) if self.server else None
        except Fault:
            streams = None
        if streams is None:
            return
        family = self.gauge("streams", "Streams that live.", labels=("front_end", "state"))
        for number in sorted({it.front_end for it in streams}):
            plays = [it.plays for it in streams if it.front_end == number]
            family.add_metric((str(number), "playing"), sum(plays))
            family.add_metric((str(number), "paused"), len(plays) - sum(plays))
        yield family
