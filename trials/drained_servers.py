#!/usr/bin/env python3
"""Servers behind HAProxy hand their ports to new ones by soft ends alone, and no reader loses a byte.

    trials/drained_servers.py [--readers READERS]

Two servers with SATIP_STOP run behind HAProxy with examples/haproxy.cfg, each with readers that compare
every byte with the recording. One server after the other is asked to end, and a new one is started at
its ports at once. Its readers stay with the old one, which ends when they leave by themselves; readers
that come meanwhile get a stream. Nothing but the soft end tells HAProxy of it.

Ends with status 1 if a reader loses its stream or a byte. Needs the built program
(trials/lib/server.py).

Packages: haproxy ffmpeg
Limit: 240 s
"""

import argparse
import sys
import time

sys.dont_write_bytecode = True
from lib.balanced import Reader, Run, balanced
from lib.checks import Checks, seconds

USED = ("satip1", "satip2")


class Drained(Run):
    """Servers that can be asked to end; the old ones are kept."""

    def __init__(self, folder):
        super().__init__(folder)
        self.old = []

    def start_server(self, name):
        stop_file = f"{self.folder}/{name}.{len(self.old)}.stop"
        super().start_server(name, SATIP_STOP=stop_file)
        self.servers[name].stop_file = stop_file

    def replace(self, name):
        """Asks a server to end, and starts a new one as soon as it gives up the ports."""
        old = self.servers[name]
        with open(old.stop_file, "w", encoding="ascii"):
            pass
        begun = time.monotonic()
        self.old.append(old)
        while time.monotonic() < begun + 10:
            self.start_server(name)
            self.go_on(1)
            if self.servers[name].poll() is None:
                return time.monotonic() - begun
        return None

    def stop(self):
        super().stop()
        for process in self.old:
            if process.poll() is None:
                process.kill()
                process.wait()


def add_readers(run, recording, count):
    """Readers that come now; returns whether each gets a stream."""
    new = [Reader(recording) for _ in range(count)]
    run.readers += new
    return run.go_on(20, lambda: all(it.is_served() for it in new)), new


def leave(run, readers):
    for reader in readers:
        run.selector.unregister(reader.sock)
        reader.sock.close()
        reader.sock, reader.again_at = None, float("inf")


def try_it(run, recording, count, checks):
    well, first = add_readers(run, recording, count)
    checks.check(well, f"{count} readers have a stream")
    # One that HAProxy sent to a server that isn't there yet has asked again before.
    before = {id(it): it.connections for it in first}
    run.go_on(3)
    for name in USED:
        took = run.replace(name)
        checks.check(took is not None, f"{name}: a new server has the ports after {seconds(took)}")
        well, _ = add_readers(run, recording, 4)
        checks.check(well, f"{name}: 4 readers that come then get a stream")
        run.go_on(3)
        alive = [it for it in run.old if it.poll() is None]
        checks.check(len(alive) == len(run.old), f"{name}: {len(alive)} old servers finish their readers")
    kept = [it for it in first if it.connections == before[id(it)] and it.is_served()]
    checks.check(len(kept) == count, f"{len(kept)} of the {count} kept the stream that they began with")
    faults = [fault for it in run.readers for fault in it.faults]
    megabytes = sum(it.bytes for it in run.readers) / 1e6
    checks.check(not faults, f"{megabytes:.0f} MB came, compared byte for byte {faults[:3]}")
    gap = max(it.longest_gap for it in first)
    checks.check(gap < 1, f"the longest time without a byte was {gap:.2f} s")
    leave(run, run.readers)
    begun = time.monotonic()
    run.go_on(10, lambda: all(it.poll() is not None for it in run.old))
    took, statuses = time.monotonic() - begun, [it.poll() for it in run.old]
    checks.check(statuses == [0, 0], f"they end with {statuses} {seconds(took)} after their readers left")


def main():
    words = argparse.ArgumentParser(description="Replaces servers behind HAProxy by soft ends.")
    words.add_argument("--readers", type=int, default=40)
    given = words.parse_args()
    checks = Checks()
    with balanced(Drained, USED) as (run, recording):
        try_it(run, recording, given.readers, checks)
    checks.end()


if __name__ == "__main__":
    main()
