"""Looks at the packets at the front of a recording: their form, and the rate that their clock gives."""

from dataclasses import dataclass

PACKET, SYNC, HEAD = 188, 0x47, 1 << 20
CLOCK_HZ = 27_000_000
# The program clock reference begins again after 2^33 ticks of 90 kHz.
WRAP = (1 << 33) * 300


@dataclass
class Head:
    """What is wrong with the packets, or None; and their rate in bit/s, or None."""

    fault: str | None
    rate: int | None


def clock(packet):
    """The PID and the clock of a packet with a program clock reference, or None."""
    has_field = packet[3] & 0x20 and packet[4] >= 7 and packet[5] & 0x10
    if not has_field:
        return None
    base = int.from_bytes(packet[6:11], "big") >> 7
    return (packet[1] & 0x1F) << 8 | packet[2], base * 300 + ((packet[10] & 1) << 8 | packet[11])


def look(path):
    """What the first MiB of a recording says."""
    with open(path, "rb") as file:
        head = file.read(HEAD)
    if len(head) < PACKET:
        return Head("no packet of 188 bytes", None)
    places = range(0, len(head) - PACKET + 1, PACKET)
    wrong = next((it for it in places if head[it] != SYNC), None)
    if wrong is not None:
        told = "no transport packets of 188 bytes" if wrong == 0 else f"no packet begins at byte {wrong}"
        return Head(told, None)
    return Head(None, rate_of(head, places))


def rate_of(head, places):
    """The rate between the first and the last reference of the first PID that has one."""
    pid = first = last = None
    for place in places:
        found = clock(head[place : place + PACKET])
        if found and pid in (None, found[0]):
            pid = found[0]
            first = first or (place, found[1])
            last = place, found[1]
    if first is None or last[0] == first[0]:
        return None
    ticks = (last[1] - first[1]) % WRAP
    return round((last[0] - first[0]) * 8 * CLOCK_HZ / ticks) if ticks else None
