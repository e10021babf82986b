"""What the system says of a server that writes no status file: its connections and destinations.

It is read from ss(8). Bytes to a destination of UDP aren't counted by the system, and only root sees
which destinations are the server's.
"""

import re
import subprocess
import time

from .command import Fault
from .status_file import Connection, Destination, Status

PROCESS = re.compile(r"\bpid=(\d+)")
COUNTED = re.compile(r"\b(bytes_sent|bytes_received):(\d+)")


def ask(*words):
    """The lines of ss, each cut into its fields: two counts, the local and the other address, more."""
    try:
        ran = subprocess.run(("ss", "-nHO", *words), capture_output=True, text=True, check=True)
    except FileNotFoundError as error:
        raise Fault("ss isn't installed: apt-get install iproute2") from error
    except subprocess.CalledProcessError as error:
        raise Fault(f"ss: {error.stderr.strip()}") from error
    return [fields for line in ran.stdout.splitlines() if len(fields := line.split(None, 4)) >= 4]


def connections(ports):
    """The connections to a server's ports; their ages aren't known."""
    kinds = dict(zip(ports, ("rtsp", "http")))
    choice = " or ".join(f"sport = :{port}" for port in ports)
    for _, _, own, other, *more in ask("-ti", "state", "established", f"( {choice} )"):
        counts = dict(COUNTED.findall(more[0] if more else ""))
        sent, received = (int(counts.get(name, 0)) for name in ("bytes_sent", "bytes_received"))
        yield Connection(other, kinds[int(own.rpartition(":")[2])], None, sent, received)


def processes(fields):
    """The numbers of the processes that have a socket."""
    return set(PROCESS.findall(" ".join(fields)))


def destinations(port):
    """The connected sockets of UDP of the process that listens at a port of TCP."""
    listening = [processes(more) for _, _, _, _, *more in ask("-tlp", f"sport = :{port}")]
    if not listening:
        raise Fault(f"nothing listens at port {port}, and there is no status file", 1)
    servers = set().union(*listening)
    for _, _, _, other, *more in ask("-up", "state", "established"):
        if servers & processes(more):
            yield Destination(other, None, None, {})


def read(rtsp_port, http_port):
    """A status without counts of the server; its `uptime` is a moment between asking and answer."""
    asked = time.monotonic()
    found = list(connections((rtsp_port, http_port)))
    return Status(
        version=None,
        started=None,
        uptime=(asked + time.monotonic()) / 2,
        connections=found,
        destinations=list(destinations(rtsp_port)),
    )
