#!/usr/bin/env python3
"""Measures how soon a server that plays nothing gives the first bytes of a stream, on loopback.

    python3 bench/first_packet.py [PROGRAM [TIMES]]

A row is the time from SETUP, which PLAY follows at once, to the first datagram of `serve`, and to the
first frame of `tunnel`; and that from GET to the first packet of `serve`. It has the median and the
longest of TIMES, 100 without the word. Before each one nothing was played for a third of a second.

PROGRAM is SATIP_PROGRAM or crates/satip/out/satip without the word, which `tools/program_alone.sh`
builds. Needs python3 alone."""

import os
import select
import statistics
import sys
import time

TOP = os.path.dirname(os.path.dirname(os.path.abspath(__file__)))
sys.path.insert(0, os.path.join(TOP, "trials"))
sys.dont_write_bytecode = True
from lib.rtp import port_of, receiver
from lib.rtsp import inside, over_udp
from lib.server import QUERY, Server, busy_processors, use_program

ADDRESS, TIMES, IDLE, LONGEST = "127.0.0.1", 100, 1 / 3, 5


def over_rtp(server):
    """The seconds from SETUP to the first datagram."""
    client, sock = server.client(), receiver(ADDRESS)
    begun = time.monotonic()
    target, session = client.play(client.url(QUERY), over_udp(port_of(sock)))
    select.select([sock], [], [], LONGEST)
    took = time.monotonic() - begun
    client.tear_down(target, session)
    client.close()
    sock.close()
    return took


def over_frames(server):
    """The seconds from SETUP to the first frame."""
    client = server.client()
    begun = time.monotonic()
    target, session = client.play(client.url(QUERY), inside())
    client.take_frames()
    took = time.monotonic() - begun
    client.tear_down(target, session)
    client.close()
    return took


def over_http(server):
    """The seconds from GET to the first packet."""
    begun = time.monotonic()
    with server.read() as line:
        text = b""
        while len(text.partition(b"\r\n\r\n")[2]) < 188:
            text += line.recv(65536)
        return time.monotonic() - begun


def measure(name, command, once, times):
    took = []
    with Server(ADDRESS, seconds=30, command=command) as server:
        for _ in range(times):
            time.sleep(IDLE)
            took.append(once(server))
    print(f"| {name} | {1e3 * statistics.median(took):.1f} ms | {1e3 * max(took):.1f} ms |", flush=True)


def main():
    use_program(sys.argv[1:2])
    times = int(sys.argv[2]) if len(sys.argv) > 2 else TIMES
    print(f"the machine kept {busy_processors():.1f} of {os.cpu_count()} processors busy\n")
    print(f"| {times} times | median | longest |\n|---|---|---|", flush=True)
    measure("`serve`, SETUP and PLAY", "serve", over_rtp, times)
    measure("`serve`, GET", "serve", over_http, times)
    measure("`tunnel`, SETUP and PLAY", "tunnel", over_frames, times)


if __name__ == "__main__":
    main()
