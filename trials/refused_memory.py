#!/usr/bin/env python3
"""A run that is refused one request for memory ends with status 70 and a prefix of its output.

    trials/refused_memory.py

It refuses the requests one after another, one in each run, of `replay` (a SETUP, a tick,
its PLAY, six packets and a second tick of examples/session.script), of `audit`
(examples/session.journal), of `stress` (1000 events), and of `record` and `journal`. A replay ends
as with all memory, or with status 70 and a prefix of its output; an audit and a stress run with
status 70 have none. A record with status 70 sent nothing to its server. A journal with status 70
leaves the files of an earlier run as they are. Ends with status 1 if a run ends otherwise, or if no
request was refused. Needs the built program (trials/lib/server.py).

Packages: gcc libc6-dev
Limit: 300 s
"""

import collections
import glob
import os
import socket
import subprocess
import sys
import tempfile
import threading

sys.dont_write_bytecode = True
from lib.checks import Checks
from lib.refusal import refused
from lib.rtp import port_of
from lib.server import QUERY, TOP, configuration, free_ports, preload, program

ADDRESS = "127.0.0.1"
CONFIG = f"{TOP}/examples/satip.toml"
OLD = b"start 0\n"


def session():
    """The SETUP, the PLAY, the first packets and both ticks of the example."""
    kept, counts = [], {"rtsp": 0, "packet": 0}
    with open(f"{TOP}/examples/session.script", "rb") as file:
        for line in file:
            kind = line.split(b" ")[0].decode()
            counts[kind] = counts.get(kind, 0) + 1
            most = {"tick": 99, "rtsp": 2, "packet": 6}.get(kind, 0)
            if counts[kind] <= most:
                kept.append(line)
    return b"".join(kept)


def is_right(status, output, whole, is_replay):
    """Whether a run ends as it may."""
    if status == 0:
        return output == whole
    return status == 70 and (whole.startswith(output) if is_replay else output == b"")


def try_command(checks, library, words, given):
    """A run with each request refused in turn."""
    name = words[1]
    whole = subprocess.run(words, input=given, capture_output=True, check=True).stdout
    counts, number = {0: 0, 70: 0}, 1
    while (ran := refused(library, number, words, given)) is not None:
        status, output, errors = ran
        if not is_right(status, output, whole, name == "replay"):
            checks.check(False, f"{name}, request {number}: status {status}, {errors[:80]}")
        counts[status] = counts.get(status, 0) + 1
        number += 1
    text = f"{number - 1} requests: {counts[0]} ended with status 0, {counts[70]} with status 70"
    checks.check(number > 1 and sum(counts.values()) == counts[0] + counts[70], f"{name}: {text}")


class Hearer:
    """A server that takes a request and then ends the connection without a reply."""

    def __init__(self):
        self.listener, self.heard = socket.create_server((ADDRESS, 0)), []
        threading.Thread(target=self.hear, daemon=True).start()

    def hear(self):
        while True:
            line, _ = self.listener.accept()
            with line:
                self.heard.append(line.recv(65536))


def try_record(checks, library):
    """A recording with each request refused in turn, from a server that hears what it sends."""
    hearer, ends, number = Hearer(), collections.Counter(), 1
    words = [program(), "record", f"{ADDRESS}:{port_of(hearer.listener)}", f"{QUERY}&pids=all", "1000"]
    while (ran := refused(library, number, words, b"")) is not None:
        status, output, errors = ran
        heard = b"".join(hearer.heard)
        hearer.heard.clear()
        if status == 70 and (heard or output):
            checks.check(False, f"record, request {number}: status 70 after {heard[:20]}")
        if status not in (13, 14, 70):
            checks.check(False, f"record, request {number}: status {status}, {errors[:80]}")
        ends[status] += 1
        number += 1
    text = f"{number - 1} requests: {ends[70]} ended with status 70, and nothing was sent"
    checks.check(ends[70] > 0, f"record: {text}")


def try_journal(checks, library):
    """A server with journals with each request refused in turn, next to the files of an earlier run."""
    number, untouched, emptied = 1, 0, 0
    while number < 500:
        with tempfile.TemporaryDirectory(prefix="satip-") as folder:
            for job in range(4):
                with open(f"{folder}/journal.{job}", "wb") as file:
                    file.write(OLD)
            with open(f"{folder}/satip.toml", "w", encoding="ascii") as file:
                file.write(configuration(ADDRESS, free_ports(ADDRESS), workers=1, files=()))
            ran = journal_refused(library, number, folder)
            if ran is None:
                break
            texts = [open(it, "rb").read() for it in sorted(glob.glob(f"{folder}/journal.*"))]
            untouched += ran == 70 and texts == [OLD] * 4
            emptied += ran == 70 and texts != [OLD] * 4
        number += 1
    text = f"{untouched + emptied} runs ended with status 70, {emptied} of them with a file emptied"
    checks.check(untouched > 0 and not emptied, f"journal: {text}")


def journal_refused(library, number, folder):
    """The status of `journal` with one request refused, 0 if it serves all the same; None if it makes
    fewer requests before it serves."""
    mark = f"{folder}/mark"
    env = {**os.environ, "REFUSE_NTH": str(number), "REFUSE_MARK": mark, "LD_PRELOAD": library}
    words = [program(), "journal", "satip.toml", "0"]
    with subprocess.Popen(words, cwd=folder, env=env, stderr=subprocess.DEVNULL) as process:
        try:
            return process.wait(0.5)
        except subprocess.TimeoutExpired:
            process.kill()
    return 0 if os.path.exists(mark) else None


def main():
    checks = Checks()
    with open(f"{TOP}/examples/session.journal", "rb") as file:
        journal = file.read()
    with tempfile.TemporaryDirectory(prefix="satip-") as folder:
        library = preload("refuse_nth", folder)
        try_command(checks, library, [program(), "replay", CONFIG], session())
        try_command(checks, library, [program(), "audit", CONFIG], journal)
        try_command(checks, library, [program(), "stress", "7", "1000"], b"")
        try_record(checks, library)
        try_journal(checks, library)
    checks.end()


if __name__ == "__main__":
    main()
