"""Asks a server to end after its viewers, shows who is still there, and waits for its end.

It writes the server's stop file (SATIP_STOP): the server then takes no more connections, closes its
listeners, and ends when the last connection has. With --after it ends that many seconds later at
the latest, and at once with 0. The stop file is removed when the server has ended.

The files and the process are those of the server that --stop-file, --status-file and --pid name;
else of SATIP_STOP, SATIP_STATUS and MAINPID, as a unit of systemd has them; else of the unit that
serves by CONFIG (/run/satip for satip.toml, /run/satip-NAME for NAME.toml).

The status is the server's, if systemd knows it, else 0 once it has ended. It is 1 if the server
didn't end in time, and 2 if there is none. A server that runs by satip.service and is to stay
ended is better asked by `systemctl stop satip`, which does the same.
"""

import os
import re
import subprocess
import sys
import time

from . import place, status_file
from .command import Fault

PAUSE, PATIENCE, LONGEST = 0.2, 5, 86400
UNIT = re.compile(r"/([^/]+\.service)$", re.M)


def add_words(words):
    place.add_words(words)
    words.add_argument("--after", metavar="SECONDS", type=seconds, help="the latest end, 0 to 86400")
    words.add_argument("--limit", metavar="SECONDS", type=float, help="waits this long at most")
    words.add_argument("--stop-file", metavar="FILE", help="the server's SATIP_STOP")
    words.add_argument("--status-file", metavar="FILE", help="the server's SATIP_STATUS")
    words.add_argument("--pid", type=int, default=int(os.environ.get("MAINPID") or 0))


def seconds(text):
    if not text.isascii() or not text.isdigit() or int(text) > LONGEST:
        raise ValueError(text)
    return int(text)


def variables(pid):
    """The environment that a process was started with."""
    try:
        with open(f"/proc/{pid}/environ", "rb") as file:
            words = file.read().split(b"\0")
    except OSError:
        return {}
    pairs = (word.decode(errors="replace").partition("=") for word in words)
    return {name: value for name, _, value in pairs}


def is_at(pid, path):
    """Whether a process has this file as its SATIP_STOP, from its own folder on."""
    told = variables(pid).get("SATIP_STOP")
    try:
        own = told and os.path.join(os.readlink(f"/proc/{pid}/cwd"), told)
    except OSError:
        return False
    return bool(own) and os.path.realpath(own) == os.path.realpath(path)


def is_server(pid):
    """Whether a process is a server, and not its parent's shell with the same environment."""
    try:
        with open(f"/proc/{pid}/cmdline", "rb") as file:
            return file.read().split(b"\0")[1:2] in ([b"serve"], [b"tunnel"], [b"journal"])
    except OSError:
        return False


def process_of(given, path):
    """The number of the server's process."""
    if given.pid:
        return given.pid
    numbers = [int(it) for it in os.listdir("/proc") if it.isdigit()]
    found = [it for it in numbers if is_server(it) and is_at(it, path)]
    if not found:
        raise Fault(f"no server with SATIP_STOP={path} runs, or it is another user's")
    return found[0]


def unit_of(pid):
    """The unit of systemd whose main process this is, or None."""
    try:
        with open(f"/proc/{pid}/cgroup", encoding="ascii") as file:
            found = UNIT.search(file.read())
    except OSError:
        return None
    return found.group(1) if found and number_of(found.group(1), "MainPID") == pid else None


def number_of(unit, name):
    """A property of a unit, or None if systemd doesn't say it."""
    words = ["systemctl", "show", "--value", "--property", name, unit]
    try:
        return int(subprocess.run(words, capture_output=True, text=True, check=False).stdout)
    except (OSError, ValueError):
        return None


def ask(path, after):
    """Writes the stop file as a whole."""
    made = f"{path}.{os.getpid()}"
    with open(made, "w", encoding="ascii") as file:
        file.write("" if after is None else f"{after}\n")
    os.rename(made, path)


def has_ended(pid):
    """Whether a process is no more, or only waits for its parent to look."""
    try:
        with open(f"/proc/{pid}/stat", "rb") as file:
            return file.read().rpartition(b") ")[2][:1] in (b"Z", b"X")
    except OSError:
        return True


def left(path):
    """Who is still connected; None if it isn't known."""
    try:
        return sorted(f"{it.address} ({it.kind})" for it in status_file.read(path).connections)
    except Fault:
        return None


def run(given):
    path, status_path = place.stop_file(given), place.status_file(given)
    pid = process_of(given, path)
    unit = unit_of(pid)
    limit = given.limit
    if limit is None and given.after is not None:
        limit = given.after + PATIENCE
    until = time.monotonic() + limit if limit is not None else None
    ask(path, given.after)
    try:
        if not follow(pid, status_path, until):
            print(f"process {pid} hasn't ended within {limit:g} s", file=sys.stderr)
            return 1
    finally:
        remove(path)
    status = number_of(unit, "ExecMainStatus") if unit else None
    print("ended" if status is None else f"ended with status {status}", flush=True)
    return status or 0


def follow(pid, status_path, until):
    """Says who is still there whenever that changes; returns whether the server ended in time."""
    told = None
    while not has_ended(pid):
        if until is not None and time.monotonic() > until:
            return False
        here = left(status_path)
        if here is not None and here != told:
            names = ", ".join(here[:5]) + (", .." if len(here) > 5 else "")
            print(f"{len(here)} connections{': ' if here else ''}{names}", flush=True)
            told = here
        time.sleep(PAUSE)
    return True


def remove(path):
    """A server doesn't start while the file is there."""
    try:
        os.remove(path)
    except FileNotFoundError:
        pass
