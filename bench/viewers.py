#!/usr/bin/env python3
"""Measures how often `satip serve` and `satip tunnel` wake up, and their CPU, while 1, 16 and 60 viewers
play, each on a connection of its own.

    python3 bench/viewers.py PROGRAM [OTHER [PARTS [SECONDS]]]

A recording plays at 4.8 Mbit/s to all. A row has, of PROGRAM and then of OTHER, the median of PARTS,
5 without the word, of SECONDS each, 6 without it: voluntary context switches of all threads a second,
and CPU, by /proc/PID/task/*. The two play by turns. Last is OTHER by PROGRAM, wake-ups and CPU.

Needs python3 alone."""

import os
import select
import statistics
import sys
import time

sys.dont_write_bytecode = True
from idle import wake_ups
from lib.rtp import port_of, receiver
from lib.rtsp import inside, over_udp
from lib.server import QUERY, Server, busy_processors, cpu_seconds, use_program

ADDRESS, VIEWERS, PARTS, SECONDS = "127.0.0.1", (1, 16, 60), 5, 6
# After PLAY the waits of a connection are short for a while.
SETTLE = 4


class Viewers:
    """Connections that play one stream; what comes is dropped."""

    def __init__(self, server, command, count):
        self.clients, self.socks, self.poll = [], [], select.epoll()
        target = None
        for _ in range(count):
            client = server.client()
            sock = receiver(ADDRESS) if command == "serve" else client.line
            how = over_udp(port_of(sock)) if command == "serve" else inside()
            target, _ = client.play(target or client.url(QUERY), how)
            sock.setblocking(False)
            self.poll.register(sock, select.EPOLLIN)
            self.clients.append(client)
            self.socks.append(sock)
        self.by_file = {sock.fileno(): sock for sock in self.socks}

    def read_for(self, seconds):
        end = time.monotonic() + seconds
        while time.monotonic() < end:
            for file, _ in self.poll.poll(0.1):
                try:
                    self.by_file[file].recv(1 << 20)
                except BlockingIOError:
                    pass

    def close(self):
        self.poll.close()
        for line in (*self.clients, *self.socks):
            line.close()


def measure(program, command, count, seconds):
    """The wake-ups a second, and the CPU in processors."""
    use_program([program])
    with Server(ADDRESS, workers=min(count + 2, 64), seconds=60, command=command) as server:
        pid, viewers = server.process.pid, Viewers(server, command, count)
        viewers.read_for(SETTLE)
        woken, used, begun = wake_ups(pid), cpu_seconds(pid), time.monotonic()
        viewers.read_for(seconds)
        took = time.monotonic() - begun
        found = (wake_ups(pid) - woken) / took, (cpu_seconds(pid) - used) / took
        viewers.close()
    return found


def compare(programs, command, count, parts, seconds):
    found = [[] for _ in programs]
    for part in range(parts):
        for place in sorted(range(len(programs)), reverse=part % 2 == 1):
            found[place].append(measure(programs[place], command, count, seconds))
    rows = [tuple(map(statistics.median, zip(*each))) for each in found]
    cells = [f"{woken:.0f}; {100 * used:.2f} %" for woken, used in rows]
    if len(rows) == 2:
        cells.append("; ".join(f"{after / before:.3f}" for before, after in zip(*rows)))
    print(f"| `{command}`, {count} | {' | '.join(cells)} |", flush=True)


def main():
    if len(sys.argv) < 2:
        sys.exit("usage: bench/viewers.py PROGRAM [OTHER [PARTS [SECONDS]]]")
    programs = [os.path.abspath(it) for it in sys.argv[1:3]]
    parts = int(sys.argv[3]) if len(sys.argv) > 3 else PARTS
    seconds = float(sys.argv[4]) if len(sys.argv) > 4 else SECONDS
    print(f"the machine kept {busy_processors():.1f} of {os.cpu_count()} processors busy\n")
    for command in ("serve", "tunnel"):
        for count in VIEWERS:
            compare(programs, command, count, parts, seconds)


if __name__ == "__main__":
    main()
