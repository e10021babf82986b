#!/usr/bin/env python3
"""Four servers behind HAProxy serve many readers by HTTP, and only those of a killed one are cut.

    trials/four_servers_behind_haproxy.py [--readers 200] [--seconds 10]

It starts four servers at 127.0.1.11 to 127.0.1.14, HAProxy by examples/haproxy.cfg at 127.0.1.10,
and the readers. After some seconds it kills the second server, starts it again 3 seconds later, as
systemd's Restart does, and goes on for as many seconds once all readers are back. It checks that

- each reader got a piece of the recording whole, byte for byte, on each of its connections,
- only the readers of the killed server lost their stream,
- each of them came back by the balancer and got a stream again,
- the balancer's exporter tells Prometheus of each server, and its socket answers.

Ends with status 1 if something doesn't hold. Needs the built program (trials/lib/server.py), and the
ports 18554 and 18875 of these addresses.

Packages: haproxy ffmpeg
Limit: 180 s
"""

import argparse
import os
import re
import sys
import urllib.request

sys.dont_write_bytecode = True
from lib.balanced import SERVERS, Reader, Run, ask_socket, balanced

KILLED = "satip2"
EXPORTER = "http://127.0.0.1:8405/metrics"


def is_told(folder):
    """Whether the exporter and the socket tell of each server; says what they tell."""
    with urllib.request.urlopen(EXPORTER, timeout=5) as reply:
        told = reply.read().decode()
    up = re.findall(r'^haproxy_server_status{proxy="satip",server="(\w+)",state="UP"} 1', told, re.M)
    listed = re.findall(r"^\d+ satip \d+ (\w+) ", ask_socket(folder, "show servers state"), re.M)
    print(f"the exporter tells that {len(up)} servers are up, the socket names {len(listed)}")
    return sorted(up) == sorted(listed) == sorted(SERVERS)


def spread(readers):
    count = {name: 0 for name in SERVERS}
    for reader in readers:
        count[reader.server] += 1
    return ", ".join(f"{name} {number}" for name, number in count.items())


def cpu_seconds(process):
    with open(f"/proc/{process.pid}/stat", encoding="ascii") as file:
        fields = file.read().rsplit(")", 1)[1].split()
    return (int(fields[11]) + int(fields[12])) / os.sysconf("SC_CLK_TCK")


def measure(run, seconds):
    """Goes on for some seconds, and says what that cost."""
    parts = {"HAProxy": [run.balancer], "the servers": list(run.servers.values())}
    before = {name: sum(map(cpu_seconds, part)) for name, part in parts.items()}
    bytes_before = sum(reader.bytes for reader in run.readers)
    run.go_on(seconds)
    gigabytes = (sum(reader.bytes for reader in run.readers) - bytes_before) / 1e9
    used = {name: sum(map(cpu_seconds, part)) - before[name] for name, part in parts.items()}
    told = ", ".join(f"{name} {it / gigabytes:.2f}" for name, it in used.items())
    print(f"{gigabytes * 8000 / seconds:.0f} Mbit/s to all; seconds of CPU a gigabyte: {told}")


def try_it(run, seconds):
    """Returns whether all holds; says what was seen."""
    if not run.go_on(30, run.all_served):
        served = sum(reader.is_served() for reader in run.readers)
        sys.exit(f"only {served} of {len(run.readers)} readers got a stream")
    print(f"{len(run.readers)} readers have a stream: {spread(run.readers)}")
    measure(run, seconds)
    told = is_told(run.folder)
    losing = [reader for reader in run.readers if reader.server == KILLED]
    before = {id(reader): reader.connections for reader in run.readers}
    run.kill_server(KILLED)
    print(f"{KILLED} is killed, with {len(losing)} readers")
    run.go_on(3)
    run.start_server(KILLED)
    back = run.go_on(30, run.all_served)
    print(f"{KILLED} serves again: {spread(run.readers) if back else 'not all readers are back'}")
    run.go_on(seconds)
    return judge(run.readers, losing, before) and back and told


def judge(readers, losing, before):
    others = [reader for reader in readers if reader not in losing]
    cut = [reader for reader in others if reader.connections != before[id(reader)]]
    gap = max((reader.longest_gap for reader in losing), default=0)
    other_gap = max((reader.longest_gap for reader in others), default=0)
    megabytes = sum(reader.bytes for reader in readers) / 1e6
    print(f"{megabytes:.0f} MB came, compared byte for byte")
    print(f"readers of {KILLED}: the longest without a byte {gap:.1f} s")
    print(f"the other {len(others)}: {len(cut)} lost their stream, {other_gap:.1f} s")
    faults = [fault for reader in readers for fault in reader.faults]
    for fault in faults[:10]:
        print(f"FAULT: {fault}")
    return not faults and not cut


def main():
    words = argparse.ArgumentParser(description="Tries several servers behind HAProxy.")
    words.add_argument("--readers", type=int, default=200)
    words.add_argument("--seconds", type=float, default=10)
    given = words.parse_args()
    with balanced(Run) as (run, recording):
        run.readers = [Reader(recording) for _ in range(given.readers)]
        sys.exit(0 if try_it(run, given.seconds) else 1)


if __name__ == "__main__":
    main()
