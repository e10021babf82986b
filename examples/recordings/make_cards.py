#!/usr/bin/env python3
"""Makes card_1.ts and card_2.ts: a test card with a moving clock and a tone, 4.08 s each.

    examples/recordings/make_cards.py [FOLDER]

FOLDER is that of this script without the word. The files are what tools/run.sh plays. Each is at
most 400 kB, and a repeat of it plays on without a fault: the continuity counter of each PID goes on
at the end where it began, and the first packet says that the clock breaks. Repeated by
SATIP_REPEAT=1 and SATIP_PACE=recording it plays in real time. At a break the pump takes 20 ms for
64 packets, so that many null packets stand at the end as make up for it.

Prints for each file its size, rate and length by its clock. Needs the Debian packages python3 and
ffmpeg.
PIDs: 0 PAT, 17 SDT, 4096 PMT, 256 picture (MPEG-2), 257 sound (MPEG-1 layer II).
"""

import os
import subprocess
import sys

PACKET, NULL_PID = 188, 8191
RATE, SECONDS = 760_000, 4.08
# The packets that a pump gives between two pauses, and the seconds of a pause after a break.
BURST, PAUSE = 64, 0.02
MOST_BYTES = 400_000
NULL = bytes((0x47, 0x1F, 0xFF, 0x10)) + b"\xff" * 184
TABLES = 0, 17, 4096
CARDS = (("Card 1", 440, "null"), ("Card 2", 660, "hue=h=150"))


def encoded(name, tone, look):
    """A test card as FFmpeg makes it, at a constant rate."""
    words = ["ffmpeg", "-hide_banner", "-loglevel", "error", "-bitexact"]
    words += ["-f", "lavfi", "-i", f"testsrc=size=480x360:rate=25:decimals=2,{look}"]
    words += ["-f", "lavfi", "-i", f"sine=frequency={tone}:sample_rate=48000", "-t", str(SECONDS)]
    words += ["-c:v", "mpeg2video", "-pix_fmt", "yuv420p", "-g", "17", "-bf", "0", "-threads", "1"]
    words += ["-b:v", "500k", "-maxrate", "520k", "-bufsize", "260k", "-flags", "+bitexact"]
    words += ["-c:a", "mp2", "-ac", "1", "-b:a", "64k", "-metadata", f"service_name={name}"]
    words += ["-metadata", "service_provider=satip", "-f", "mpegts", "-muxrate", str(RATE)]
    words += ["-pat_period", "0.1", "-sdt_period", "0.5", "-muxdelay", "0.5", "-fflags", "+bitexact", "-"]
    stream = subprocess.run(words, stdout=subprocess.PIPE, check=True).stdout
    return [stream[at : at + PACKET] for at in range(0, len(stream), PACKET)]


def pid_of(packet):
    return (packet[1] & 0x1F) << 8 | packet[2]


def has_payload(packet):
    return bool(packet[3] & 0x10)


def payload(packet):
    """What a packet carries after an adaptation field that only stuffs it; None if it can't be split."""
    stuffing = packet[4] + 1 if packet[3] & 0x20 else 0
    begins, flags = packet[1] & 0x40, packet[5] if stuffing > 1 else 0
    carried = packet[4 + stuffing :]
    return None if begins or flags or len(carried) < 2 else carried


def halves(packet):
    """Two packets that carry the payload of one."""
    carried = payload(packet)
    for part in (carried[: len(carried) // 2], carried[len(carried) // 2 :]):
        stuffing = bytes((0,)) + b"\xff" * (184 - len(part) - 2)
        yield packet[:3] + bytes((packet[3] | 0x30, len(stuffing))) + stuffing + part


def lacking(packets, pid):
    """How many packets with payload a PID lacks until its counter is where it began."""
    return -sum(has_payload(it) for it in packets if pid_of(it) == pid) % 16


def repeat_table(packets, pid):
    """Repeats a table's packet at null packets, evenly, until its counter is where it began."""
    count, table = lacking(packets, pid), next(it for it in packets if pid_of(it) == pid)
    free = [at for at, it in enumerate(packets) if pid_of(it) == NULL_PID]
    for turn in range(count):
        packets[free[(2 * turn + 1) * len(free) // (2 * count)]] = table


def split_payload(packets, pid):
    """Splits packets in two, the second in a null packet's place, until the counter is where it began."""
    count, last, at = lacking(packets, pid), None, 0
    while count and at < len(packets):
        if pid_of(packets[at]) == pid:
            last = at
        elif pid_of(packets[at]) == NULL_PID and last is not None and payload(packets[last]):
            packets[last], packets[at] = halves(packets[last])
            count, last = count - 1, None
        at += 1
    if count:
        sys.exit(f"PID {pid}: no null packets are left for {count} more")


def number(packets):
    """Packets whose counters begin at 0 and go on."""
    counters = {}
    for packet in packets:
        pid = pid_of(packet)
        counter = counters.get(pid, 0)
        if pid != NULL_PID:
            counters[pid] = (counter + has_payload(packet)) % 16
            # A packet without payload has the counter of the one before it.
            counter = counter if has_payload(packet) else (counter - 1) % 16
            packet = packet[:3] + bytes((packet[3] & 0xF0 | counter,)) + packet[4:]
        yield packet


def mark_break(packets):
    """Says in the first packet with a clock reference that the clock breaks there."""
    at = next(at for at, it in enumerate(packets) if reference(it) is not None)
    packet = packets[at]
    packets[at] = packet[:5] + bytes((packet[5] | 0x80,)) + packet[6:]


def reference(packet):
    """The clock reference of a packet in ticks of 27 MHz, or None (ISO 13818-1, 2.4.3.5)."""
    if not packet[3] & 0x20 or packet[4] < 7 or not packet[5] & 0x10:
        return None
    return (int.from_bytes(packet[6:11], "big") >> 7) * 300 + ((packet[10] & 1) << 8 | packet[11])


def wanted():
    """The count of packets with which a repeat takes SECONDS."""
    return round(BURST + (SECONDS - PAUSE) * RATE / (8 * PACKET))


def made(packets):
    while len(packets) > wanted() and pid_of(packets[-1]) == NULL_PID:
        packets.pop()
    packets += [NULL] * (wanted() - len(packets))
    if len(packets) != wanted():
        sys.exit(f"{len(packets)} packets, and {wanted()} at most can be played in {SECONDS} s")
    for pid in TABLES:
        repeat_table(packets, pid)
    for pid in sorted({pid_of(it) for it in packets} - {*TABLES, NULL_PID}):
        split_payload(packets, pid)
    mark_break(packets)
    return list(number(packets))


def measured(packets):
    """The rate by the first and the last clock reference."""
    found = [(at, reference(it)) for at, it in enumerate(packets) if reference(it) is not None]
    (first, begun), (last, ended) = found[0], found[-1]
    return (last - first) * PACKET * 8 * 27_000_000 / (ended - begun)


def main():
    folder = sys.argv[1] if len(sys.argv) > 1 else os.path.dirname(os.path.abspath(__file__))
    for place, card in enumerate(CARDS, 1):
        packets = made(encoded(*card))
        path, rate = os.path.join(folder, f"card_{place}.ts"), measured(packets)
        length, played = len(packets) * PACKET * 8 / rate, (len(packets) - BURST) * PACKET * 8 / rate + PAUSE
        print(f"{path}: {len(packets) * PACKET} bytes, {rate:.0f} bit/s, {length:.2f} s, repeated each {played:.3f} s")
        if len(packets) * PACKET > MOST_BYTES:
            sys.exit(f"over {MOST_BYTES} bytes")
        with open(path, "wb") as file:
            file.write(b"".join(packets))


if __name__ == "__main__":
    main()
