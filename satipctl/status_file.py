"""Reads the status file of a server, which SATIP_STATUS names.

SYSTEM.md describes it, under "The status file". No other module knows the names of its keys.
"""

import json
import os
import time
from dataclasses import dataclass, field

from .command import Fault

# A server writes it once a second, later if its machine is busy.
PATIENCE = 5


@dataclass
class Destination:
    """An address and a port of UDP; `refused` counts datagrams by their cause. Counts that aren't
    known are None."""

    address: str
    datagrams: int | None
    bytes: int | None
    refused: dict[str, int]


@dataclass
class Connection:
    """A TCP connection: its kind is `rtsp` or `http`, its age in seconds, if it is known."""

    address: str
    kind: str
    age: float | None
    sent: int
    received: int


@dataclass
class FrontEnd:
    """What a front end plays: its recording and the number of its multiplex, None if it plays none;
    `behind` is how many seconds it is later than its recording's clock, None if it follows none."""

    number: int
    mux: int | None
    file: str | None
    packets: int
    restarts: int
    behind: float | None


@dataclass
class Totals:
    """Counts since the start, of all clients, also those that left; refused ones by their cause."""

    taken: int
    refused: dict[str, int]
    sent: int
    received: int
    datagrams: int
    bytes: int
    lost: dict[str, int]
    lines: int


@dataclass
class Status:
    """What a server did; without a status file it has no version, no start and no totals."""

    version: str | None
    started: str | None
    uptime: float
    totals: Totals | None = None
    connections: list[Connection] = field(default_factory=list)
    destinations: list[Destination] = field(default_factory=list)
    front_ends: list[FrontEnd] = field(default_factory=list)


def totals_of(data):
    taken, sent = data["connections"], data["datagrams"]
    return Totals(
        taken=taken["taken"],
        refused=taken["refused"],
        sent=taken["sent"],
        received=taken["received"],
        datagrams=sent["sent"],
        bytes=sent["bytes"],
        lost=sent["refused"],
        lines=data["lines"]["told"],
    )


def address_of(data):
    return f"{data['address']}:{data['port']}"


def front_end_of(data):
    behind = data["behind_ms"]
    return FrontEnd(
        data["number"], data["mux"], data["recording"], data["packets"], data["restarts"],
        None if behind is None else behind / 1000,
    )


def from_json(data):
    """A status from the JSON of the file; raises KeyError if a key is missing."""
    return Status(
        version=data["version"],
        started=data["started"],
        uptime=data["uptime_s"],
        totals=totals_of(data),
        connections=[
            Connection(address_of(it), it["kind"], it["age_s"], it["sent"], it["received"])
            for it in data["connections"]["list"]
        ],
        destinations=[
            Destination(address_of(it), it["datagrams"], it["bytes"], it["refused"])
            for it in data["destinations"]
        ],
        front_ends=[front_end_of(it) for it in data["front_ends"]],
    )


def not_written(path, seconds):
    return Fault(f"{path}: not written for {seconds:.0f} s; has the server ended?", 1)


def read(path):
    """The status in a file; raises Fault if there is none, or if it isn't written any more."""
    try:
        with open(path, encoding="utf-8") as file:
            status = from_json(json.load(file))
            age = time.time() - os.fstat(file.fileno()).st_mtime
    except FileNotFoundError as error:
        raise Fault(f"{path}: no status file; is the server started with SATIP_STATUS={path}?") from error
    except OSError as error:
        raise Fault(f"{path}: {error.strerror}") from error
    except (ValueError, KeyError, TypeError) as error:
        raise Fault(f"{path}: no status file of this version: {error!r}") from error
    if age > PATIENCE:
        raise not_written(path, age)
    return status
