#!/usr/bin/env python3
"""Measures what journals cost: the CPU of `satip journal` and of `satip serve`, each to 16
receivers, and the CPU, time and memory of `satip audit` on journals of 16, 32 and 60 MiB.

    python3 bench/journal.py [PROGRAM [SECONDS]]

SECONDS, 6 without the word, is how long each server is measured. CPU is that of all threads, by
/proc/PID/task/*/schedstat, the least of five rounds; an audit's is what the system tells of it when
it ended. The journals of an audit are those of a server with one receiver that was killed when they
had the size. The first line says how many processors the machine kept busy before.

PROGRAM is SATIP_PROGRAM or crates/satip/out/satip without the word, which `tools/program_alone.sh`
builds. Needs python3 alone."""
import glob
import os
import subprocess
import sys
import time

TOP = os.path.dirname(os.path.dirname(os.path.abspath(__file__)))
sys.path.insert(0, os.path.join(TOP, "trials"))
sys.dont_write_bytecode = True
from lib.rtp import PACKET, Receivers
from lib.server import QUERY, Server, cpu_seconds, words_of_bench

ADDRESS = "127.0.0.1"
RECEIVERS, ROUNDS = 16, 5
MEBIBYTES = (16, 32, 60)


def play(server, count):
    receivers, client = Receivers(ADDRESS, count), server.client()
    client.play_to(receivers.ports(), QUERY)
    return receivers, client


def seconds_a_million(command, seconds):
    """CPU seconds of a server for a million packets that came to its receivers."""
    server = Server(ADDRESS, workers=20, seconds=4 * seconds + 20, command=command)
    receivers, client = play(server, RECEIVERS)
    try:
        receivers.read_for(1)
        before, payload = cpu_seconds(server.process.pid), receivers.payload
        receivers.read_for(seconds)
        used = cpu_seconds(server.process.pid) - before
        return 1e6 * used * PACKET / (receivers.payload - payload), receivers.missing
    finally:
        receivers.close()
        client.close()
        server.close()


def written(folder):
    return sum(os.path.getsize(name) for name in glob.glob(f"{folder}/journal.*"))


def audit(program, mebibytes):
    """Prints what an audit of journals of this size uses, and its verdict."""
    server = Server(ADDRESS, workers=2, seconds=120, command="journal")
    folder = server.folder.name
    receivers, client = play(server, 1)
    try:
        while written(folder) < mebibytes << 20:
            receivers.read_for(0.1)
        server.process.kill()
        server.process.wait()
        text = f"{folder}/journals"
        with open(text, "wb") as whole:
            for name in sorted(glob.glob(f"{folder}/journal.*")):
                with open(name, "rb") as part:
                    whole.write(part.read())
        with open(text, "rb") as input_file:
            begun = time.monotonic()
            auditing = subprocess.Popen(
                [program, "audit", server.config], stdin=input_file, stdout=subprocess.PIPE
            )
            told = auditing.stdout.read().decode().strip()
            _, _, usage = os.wait4(auditing.pid, 0)
            took = time.monotonic() - begun
        if not told.startswith("yes "):
            sys.exit(f"the verdict: {told}")
        size, cpu = os.path.getsize(text), usage.ru_utime + usage.ru_stime
        print(
            f"audit of {size / (1 << 20):.1f} MiB: {told}, {cpu:.2f} s of CPU, {took:.2f} s, "
            f"{usage.ru_maxrss / 1024:.0f} MiB at most, {1e9 * cpu / size:.1f} s a gigabyte",
            flush=True,
        )
    finally:
        receivers.close()
        client.close()
        server.close()


def measure_journals(seconds):
    """What `journal` and `serve` use, by turns."""
    told = {"serve": [], "journal": []}
    for _ in range(ROUNDS):
        for command, rounds in told.items():
            rounds.append(seconds_a_million(command, seconds))
    plain, journaled = (min(used for used, _ in it) for it in told.values())
    missing, lost = (sum(it for _, it in rounds) for rounds in told.values())
    print(
        f"{RECEIVERS} receivers: factor {journaled / plain:.2f}: journal {journaled:.3f} s of CPU "
        f"a million packets, serve {plain:.3f} s; missing {lost} and {missing}",
        flush=True,
    )


def main():
    program, seconds = words_of_bench(6)
    measure_journals(seconds)
    for mebibytes in MEBIBYTES:
        audit(program, mebibytes)


if __name__ == "__main__":
    main()
