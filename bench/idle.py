#!/usr/bin/env python3
"""Measures what `satip serve` costs while nothing plays: how often its threads wake up, and CPU.

    python3 bench/idle.py [PROGRAM [SECONDS]]

A row is a server with one front end and no client, one with 16 front ends and no client, and the
latter with 8 clients that keep their connections and send OPTIONS each 5 s. SECONDS, 30 without the
word, is how long each is watched. A wake-up is a voluntary context switch of a thread, by
/proc/PID/task/*/status; CPU is by /proc/PID/task/*/schedstat.

PROGRAM is SATIP_PROGRAM or crates/satip/out/satip without the word, which `tools/program_alone.sh`
builds. Needs python3 alone."""

import os
import re
import sys
import time

TOP = os.path.dirname(os.path.dirname(os.path.abspath(__file__)))
sys.path.insert(0, os.path.join(TOP, "trials"))
sys.dont_write_bytecode = True
from lib.server import Server, cpu_seconds, resident_megabytes, words_of_bench

ADDRESS = "127.0.0.1"
SECONDS, CLIENTS, EACH = 30.0, 8, 5
# Before that the server opens its recordings and answers who asked whether it is there.
SETTLE = 2
SWITCHES = re.compile(r"^voluntary_ctxt_switches:\s*(\d+)", re.M)


def wake_ups(pid):
    """How often the threads of a process have gone on after a wait; they live as long as it does."""
    count = 0
    for thread in os.listdir(f"/proc/{pid}/task"):
        with open(f"/proc/{pid}/task/{thread}/status", encoding="ascii") as file:
            count += int(SWITCHES.search(file.read()).group(1))
    return count


def wait(seconds, clients):
    """Lets the seconds pass; each client sends OPTIONS at once and then each 5 s."""
    end, place = time.monotonic() + seconds, 0
    while (left := end - time.monotonic()) > 0:
        if clients:
            clients[place % len(clients)].must("OPTIONS", "*")
            place += 1
        time.sleep(min(left, EACH / len(clients) if clients else left))


def measure(name, fronts, clients, seconds):
    with Server(ADDRESS, workers=CLIENTS + 1, fronts=fronts) as server:
        pid, asking = server.process.pid, [server.client() for _ in range(clients)]
        wait(SETTLE, asking)
        woken, used, begun = wake_ups(pid), cpu_seconds(pid), time.monotonic()
        wait(seconds, asking)
        took = time.monotonic() - begun
        woken, used = (wake_ups(pid) - woken) / took, (cpu_seconds(pid) - used) / took
        memory = resident_megabytes(pid)
        for client in asking:
            client.close()
    print(f"| {name} | {woken:.1f} | {100 * used:.3f} % | {memory:.1f} MB |", flush=True)


def main():
    _, seconds = words_of_bench(SECONDS)
    print("\n| | wake-ups a second | of a processor | resident |\n|---|---|---|---|", flush=True)
    measure("no client, 1 front end", 1, 0, seconds)
    measure("no client, 16 front ends", 16, 0, seconds)
    measure(f"{CLIENTS} clients that send OPTIONS each {EACH} s, 16 front ends", 16, CLIENTS, seconds)


if __name__ == "__main__":
    main()
