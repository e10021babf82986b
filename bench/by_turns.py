#!/usr/bin/env python3
"""Compares `satip serve` of two programs, by turns, so that what else runs meets both alike.

    python3 bench/by_turns.py PROGRAM OTHER [PARTS [SECONDS]]

Each sends to 1, 16 and 60 receivers on loopback, PARTS times of SECONDS each: 7 of 3 s without the
words. Who is first changes with each part. A row has the median CPU for a million packets of each,
and the median of OTHER by PROGRAM within a part. To compare settings, OTHER is a script that sets a
variable, as SATIP_STATUS, and executes PROGRAM.

Needs the Debian package ffmpeg."""

import os
import statistics
import sys
import tempfile

sys.dont_write_bytecode = True
from serve import ADDRESS, RECEIVERS, make_recording, serve_to
from lib.server import Server, busy_processors, use_program

PARTS, SECONDS = 7, 3


def servers(programs, recording):
    """A server of each program."""
    for path in programs:
        use_program([path])
        yield Server(ADDRESS, fronts=2, recording=recording)


def compare(count, both, parts, seconds):
    """Prints a row: the two servers send to `count` receivers by turns."""
    spent, missing = [[], []], [0, 0]
    for part in range(parts):
        for place in (0, 1) if part % 2 == 0 else (1, 0):
            each, receivers, _ = serve_to(count, both[place], seconds, False)
            spent[place].append(1e6 * each)
            missing[place] += receivers.missing
    first, other = map(statistics.median, spent)
    ratio = statistics.median(after / before for before, after in zip(*spent))
    print(f"| {count} | {first:.3f} s | {other:.3f} s | {ratio:.3f} | {missing[0]}; {missing[1]} |", flush=True)


def main():
    if len(sys.argv) < 3:
        sys.exit("usage: bench/by_turns.py PROGRAM OTHER [PARTS [SECONDS]]")
    programs = [os.path.abspath(it) for it in sys.argv[1:3]]
    parts = int(sys.argv[3]) if len(sys.argv) > 3 else PARTS
    seconds = int(sys.argv[4]) if len(sys.argv) > 4 else SECONDS
    print(f"the machine kept {busy_processors():.1f} of {os.cpu_count()} processors busy\n")
    print("| receivers | PROGRAM | OTHER | OTHER by PROGRAM | missing of each |\n|---|---|---|---|---|", flush=True)
    with tempfile.TemporaryDirectory() as folder:
        recording = make_recording(folder, (len(RECEIVERS) * parts + 1) * (seconds + 1))
        both = []
        try:
            both += servers(programs, recording)
            for count in RECEIVERS:
                compare(count, both, parts, seconds)
        finally:
            for server in both:
                server.close()


if __name__ == "__main__":
    main()
