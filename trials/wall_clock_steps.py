#!/usr/bin/env python3
"""Steps of the wall clock end no session, delay no timeout, and don't show in RTCP reports.

    trials/wall_clock_steps.py

The wall clock that a server sees is stepped a day ahead and then two days back while a client
streams. Its stream has to go on, and so has the time in its sender reports. A silent client's
session has to end in time all the same. Ends with status 1 if something doesn't hold, as with
STEP_ALL=1 in the environment, where the monotonic clock steps too. Needs the built program
(trials/lib/server.py).

Packages: gcc libc6-dev
Limit: 90 s
"""

import datetime
import os
import struct
import sys
import tempfile
import time

sys.dont_write_bytecode = True
from lib.checks import Checks, seconds
from lib.rtp import arrived, port_of, receiver_pair
from lib.rtsp import over_udp
from lib.server import QUERY, Server, preload

ADDRESS, TIMEOUT, DAY = "127.0.23.3", 10, 86400
NTP_AHEAD = 2208988800


def step_to(path, ahead):
    """Sets how many seconds the server's wall clock is ahead."""
    with open(path, "r+b" if os.path.exists(path) else "wb") as file:
        file.write(struct.pack("=q", ahead))


def report_time(rtcp):
    """Returns the Unix time in the next sender report (RFC 3550, 6.4.1), less the true one."""
    rtcp.setblocking(False)
    try:
        while True:
            rtcp.recv(2048)
    except BlockingIOError:
        rtcp.settimeout(5)
    report = rtcp.recv(2048)
    assert report[1] == 200
    return struct.unpack(">I", report[8:12])[0] - NTP_AHEAD - time.time()


def try_steps(checks, rtp, rtcp, step):
    usual, before = arrived(rtp, 1), report_time(rtcp)
    text = f"{usual} datagrams in 1 s, and reports {before / DAY:.2f} days ahead"
    checks.check(usual > 0 and abs(before - DAY) < 5, f"a client gets a stream, {text}")
    for name, ahead in (("a day forward", 2 * DAY), ("two days back", 0)):
        step_to(step, ahead)
        arrived(rtp, 0.5)
        count = arrived(rtp, 1)
        checks.check(count > 0, f"{name}: the stream goes on, {count} datagrams in 1 s")
        shift = report_time(rtcp) - before if count else None
        text = f"the time of the reports goes on, off by {shift and round(shift, 1)} s"
        checks.check(shift is not None and abs(shift) < 3, f"{name}: {text}")


def try_server(checks, server, step):
    moment = datetime.datetime.fromisoformat(server.said().split("Z: ready")[0] + "+00:00")
    ahead = moment.timestamp() - time.time()
    text = f"the server sees a wall clock that is {ahead / DAY:.2f} days ahead"
    checks.check(abs(ahead - DAY) < 60, text)
    client = server.client()
    rtp, rtcp = receiver_pair(client.host)
    client.play(client.url(QUERY), over_udp(port_of(rtp)))
    begun = time.monotonic()
    try_steps(checks, rtp, rtcp, step)
    time.sleep(max(0, begun + TIMEOUT + 4 - time.monotonic()))
    arrived(rtp, 1)
    left = arrived(rtp, 2)
    text = f"a session whose client was silent for longer than {TIMEOUT} s has ended"
    checks.check(left == 0, f"{text}: {left} datagrams in 2 s")
    took = server.options()
    checks.check(server.lives() and took is not None, f"a client comes in: {seconds(took)}")


def main():
    checks = Checks()
    with tempfile.TemporaryDirectory(prefix="satip-") as folder:
        step = os.path.join(folder, "step")
        step_to(step, DAY)
        library = preload("step_wall_clock", folder)
        stepped = ("env", f"LD_PRELOAD={library}", f"STEP_FILE={step}")
        with Server(ADDRESS, workers=4, timeout=TIMEOUT, before=stepped) as server:
            try_server(checks, server, step)
    checks.end()


if __name__ == "__main__":
    main()
