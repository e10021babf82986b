#!/usr/bin/env python3
"""`audit` judges the journals of servers that end, are killed, or whose files fail.

    trials/journals_and_audit.py

Each journal has to have whole lines alone, and the verdict is `yes` with the number of entries if
nothing was lost. Each line of journal.N has the number N of its job. If a digit of a place or of
what was answered is changed, it is never `yes`. strace(1) makes the calls that create and write a
journal fail. A server that can't begin leaves the files of an earlier run as they are. Ends with
status 1 if something doesn't hold. Needs the built program (trials/lib/server.py).

Packages: strace
Limit: 180 s
"""

import contextlib
import glob
import os
import signal
import socket
import subprocess
import sys

sys.dont_write_bytecode = True
from lib.checks import Checks
from lib.server import Server, program

ADDRESS = "127.0.0.1"
WORKERS = 2
# An injected fault, the call and the journal that it is for, the status, and whether nothing is lost.
FAULTS = (
    ("openat fails", "openat:error=EACCES", 6, False),
    ("openat is interrupted once", "openat:error=EINTR:when=1", 0, True),
    ("write fails", "write:error=ENOSPC", 6, False),
    ("write is interrupted once", "write:error=EINTR:when=1", 0, True),
)
# How many digits of a record are its event, by the first two: a tick, an ask and a stop. With another
# event it may be another legal history.
EVENTS = {b"02": 18, b"05": 6, b"08": 2}


def serve(accepts, before=()):
    """A server that journals, without a multiplex, each of whose workers ends after some connections."""
    return Server(ADDRESS, WORKERS, accepts=accepts, files=(), command="journal", before=before)


def journals(server):
    return [open(name, "rb").read() for name in sorted(glob.glob(server.path("journal.*")))]


def verdict(server, texts):
    words = [program(), "audit", server.config]
    done = subprocess.run(words, input=b"".join(texts), capture_output=True, check=False)
    return done.stdout.decode().strip()


def is_yes(server, texts):
    """Whether the verdict is `yes` with the number of entries, whatever the order is."""
    entries = b"".join(texts).count(b"\n") - 1
    return all(verdict(server, it) == f"yes {entries}" for it in (texts, texts[::-1]))


def judged_digits(line):
    """The places in an entry's line that decide the verdict: its place, and what was answered; of a
    longer event than those of EVENTS, the second half of its record."""
    words = line.split(b" ")
    place = len(words[0]) + 1
    caller = place + len(words[1]) + 1
    record = caller + len(words[2]) + 1
    event = record + EVENTS.get(words[3][:2], len(words[3]) // 2)
    return [*range(place, caller - 1), *range(event, len(line))]


def changed(text):
    """Yields the text with each digit that decides the verdict changed, one at a time."""
    begin = 0
    for line in text.split(b"\n"):
        places = judged_digits(line) if line.startswith(b"entry ") else []
        for at in (begin + it for it in places):
            other = b"1" if text[at] == 0x30 else b"0"
            yield text[:at] + other + text[at + 1 :]
        begin += len(line) + 1


def callers(text):
    """The numbers of the jobs that a journal's lines name."""
    return {int(line.split(b" ")[2]) for line in text.splitlines() if line.startswith(b"entry ")}


def ask(server, count):
    """Sends some requests, on a connection each; none if the server has ended."""
    for _ in range(count):
        if server.lives():
            server.options()


def try_ended(checks):
    with serve(1) as server:
        ask(server, WORKERS)
        checks.check(server.status(20) == 0, "a server whose doors end has status 0")
        texts = journals(server)
        checks.check(is_yes(server, texts), "its journals are one history")
        named = {int(it.rsplit(".", 1)[1]): open(it, "rb").read() for it in glob.glob(server.path("journal.*"))}
        own = all(callers(text) <= {job} for job, text in named.items()) and len(named) > WORKERS
        checks.check(own, f"each line of journal.N is of job N, in {len(named)} journals")
        told = [verdict(server, [text]) for text in changed(b"".join(texts))]
        never = told and not any(text.startswith("yes") for text in told)
        checks.check(never, f"{len(told)} digits of them changed in turn: never yes")


def try_killed(checks):
    with serve(0) as server:
        ask(server, 5)
        server.process.send_signal(signal.SIGKILL)
        server.process.wait()
        texts = journals(server)
        whole = all(not text or text.endswith(b"\n") for text in texts)
        whole = whole and len(texts) == WORKERS + 3
        checks.check(whole, "the journals of a killed server are whole lines")
        checks.check(is_yes(server, texts), "they are one history")


def try_fault(checks, name, fault, status, kept):
    """A server of which the calls for one journal fail."""
    before = ["strace", "-f", "-qq", "-o", os.devnull, "-P", "journal.2"]
    before += ["-P", "FOLDER/journal.2", "-e", f"inject={fault}"]
    with serve(1, before) as server:
        ask(server, WORKERS)
        found = server.status(30)
        said = server.said().strip().split("\n")[-1]
        told = found == status and (status == 0 or said == "output fault")
        checks.check(told, f"{name}: status {found}")
        text = "one history" if kept else "not all entries are there"
        checks.check(is_yes(server, journals(server)) == kept, f"{name}: {text}")


def try_unable(checks, name, status, spoil):
    """A server that can't begin, in the folder of an earlier run."""
    with serve(1) as server:
        ask(server, WORKERS)
        server.status(20)
        texts = journals(server)
        with spoil(server):
            words = [program(), "journal", "satip.toml", "1"]
            ran = subprocess.run(words, cwd=server.folder.name, capture_output=True, timeout=20, check=False)
        checks.check(ran.returncode == status, f"{name}: status {ran.returncode}")
        checks.check(journals(server) == texts, f"{name}: the journals of the earlier run stay")


@contextlib.contextmanager
def wrong_configuration(server):
    with open(server.config, "r+", encoding="ascii") as file:
        text = file.read().replace(f"workers = {WORKERS}", "workers = 0")
        file.seek(0)
        file.write(text)
        file.truncate()
    yield


def taken_port(server):
    return socket.create_server((ADDRESS, server.ports[0]))


def main():
    checks = Checks()
    try_ended(checks)
    try_killed(checks)
    for fault in FAULTS:
        try_fault(checks, *fault)
    try_unable(checks, "a wrong configuration", 3, wrong_configuration)
    try_unable(checks, "a port that is taken", 7, taken_port)
    checks.end()


if __name__ == "__main__":
    main()
