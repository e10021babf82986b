#!/usr/bin/env python3
"""Four servers are drained by HAProxy's socket, ended softly and started again, and no viewer loses a byte.

    trials/servers_drained_behind_haproxy.py [--readers 80]

It starts four servers with SATIP_STOP and HAProxy by examples/haproxy.cfg, as
trials/four_servers_behind_haproxy.py does, and readers that stay for 4 to 8 seconds and then ask again.
Each server in turn is drained by HAProxy's socket and asked to end by its file. It has to end with
status 0 when its last reader has left, and is started again. It checks that

- each reader got a piece of the recording whole, byte for byte, on each of its connections,
- no connection was ended or refused by a server or by HAProxy,
- no reader came to a server that was drained.

Ends with status 1 if something doesn't hold. Needs the built program (trials/lib/server.py), and the
ports 18554 and 18875 of these addresses.

Packages: haproxy ffmpeg
Limit: 180 s
"""

import argparse
import os
import random
import sys
import time

sys.dont_write_bytecode = True
from lib.balanced import SERVERS, Reader, Run, ask_socket, balanced
from lib.checks import Checks
from lib.server import PORTS, wait_for

SHORTEST, LONGEST = 4, 8
# A server ends with its last reader, and a connection's end takes it up to 500 ms.
END, BETWEEN = LONGEST + 10, 3


class Visitor(Reader):
    """A reader that leaves by itself after some seconds, and comes again."""

    def __init__(self, recording, draw):
        super().__init__(recording)
        self.draw, self.cut, self.visits = draw, 0, []

    def connect(self, selector):
        super().connect(selector)
        self.until = self.begun + self.draw.uniform(SHORTEST, LONGEST)

    def take(self, selector):
        if time.monotonic() < self.until:
            super().take(selector)
            # The connection ended, or no stream began.
            self.cut += self.sock is None
            return
        self.visits.append((self.begun, self.server))
        self.leave(selector)


class SoftRun(Run):
    """Servers that end by a file."""

    def stop_file(self, name):
        return os.path.join(self.folder, f"{name}.stop")

    def start_server(self, name):
        super().start_server(name, SATIP_STOP=self.stop_file(name), SATIP_REPEAT="1")

    def set_state(self, name, state):
        ask_socket(self.folder, f"set server satip/{name} state {state}")


def renew(checks, run, name):
    """Ends a server softly and starts it again; returns when it was drained, and until when."""
    run.set_state(name, "drain")
    begun, served = time.monotonic(), sum(it.server == name for it in run.readers)
    with open(run.stop_file(name), "w", encoding="ascii"):
        pass
    process = run.servers[name]
    ended = run.go_on(END, lambda: process.poll() is not None)
    took = time.monotonic() - begun
    text = f"{name}, with {served} readers, ended with status {process.returncode} after {took:.1f} s"
    checks.check(ended and process.returncode == 0, text)
    os.remove(run.stop_file(name))
    if not ended:
        run.kill_server(name)
    run.start_server(name)
    wait_for(SERVERS[name], PORTS[0], run.servers[name])
    until = time.monotonic()
    run.set_state(name, "ready")
    run.go_on(BETWEEN)
    return name, begun, until


def try_it(checks, run):
    served = run.go_on(30, run.all_served)
    checks.check(served, f"{sum(it.is_served() for it in run.readers)} readers have a stream")
    drained = [renew(checks, run, name) for name in SERVERS]
    run.go_on(LONGEST)
    faults = [fault for it in run.readers for fault in it.faults]
    visits = [visit for it in run.readers for visit in it.visits]
    cut, megabytes = sum(it.cut for it in run.readers), sum(it.bytes for it in run.readers) / 1e6
    text = f"{megabytes:.0f} MB in {len(visits)} visits are the recording's, byte for byte"
    checks.check(not faults and megabytes > 0, text)
    for fault in faults[:5]:
        print(f"    {fault}")
    checks.check(cut == 0, f"{cut} visits were ended or refused")
    late = [
        name
        for name, begun, until in drained
        for came, server in visits
        if server == name and begun + 0.1 < came < until
    ]
    checks.check(not late, f"{len(late)} came to a server that was drained")


def main():
    words = argparse.ArgumentParser(description="Drains servers behind HAProxy, one after another.")
    words.add_argument("--readers", type=int, default=80)
    given = words.parse_args()
    checks, draw = Checks(), random.Random(1)
    with balanced(SoftRun) as (run, recording):
        run.readers = [Visitor(recording, draw) for _ in range(given.readers)]
        try_it(checks, run)
    checks.end()


if __name__ == "__main__":
    main()
