"""A Debian system in a folder, booted by its systemd in namespaces of the kernel (boot.sh).

Needs root, a mirror of Debian and cgroup version 2, and the Debian packages debootstrap, iproute2 and
util-linux. If SATIP_SYSTEM names a system that debootstrap made with PARTS, a copy of it is used.
"""

import os
import subprocess
import sys
import time
from typing import NamedTuple

from .checks import missing
from .server import LIB, QUERY, TOP, program

SUITE, MIRROR = "bookworm", "http://deb.debian.org/debian"
PARTS = "systemd,systemd-sysv,dbus,init-system-helpers"
# What the package depends on, and iproute2, which it recommends.
PARTS += ",python3,python3-jsonschema,python3-prometheus-client,python3-rich,iproute2"


# Reads a stream for some seconds, and prints whether each packet follows the one before, how many
# there were, and whether it left by itself and not by the end of the connection.
VIEWER = f"""
import socket, sys, time
line = socket.create_connection(("127.0.0.1", int(sys.argv[1])), 5)
line.sendall(b"GET /?{QUERY}&pids=all HTTP/1.1\\r\\nHost: satip\\r\\n\\r\\n")
data, until = b"", time.monotonic() + float(sys.argv[2])
while time.monotonic() < until:
    piece = line.recv(65536)
    if not piece:
        break
    data += piece
data = data.partition(b"\\r\\n\\r\\n")[2]
size = int(sys.argv[3])
numbers = [int.from_bytes(data[at + 4 : at + 12], "big") for at in range(0, len(data) - 187, 188)]
whole = all((a + 1) % size == b for a, b in zip(numbers, numbers[1:]))
print(whole and bool(numbers), len(numbers), time.monotonic() >= until)
"""


def run(*words, **more):
    more = {"check": True, "capture_output": True, "text": True, **more}
    return subprocess.run(words, **more)


class System:
    """A booted Debian system in a folder."""

    def __init__(self, root):
        self.log = open(f"{root}.log", "w+b")
        self.boot = subprocess.Popen(
            [f"{LIB}/boot.sh", root], stdin=subprocess.DEVNULL, stdout=self.log, stderr=self.log
        )
        self.group = f"satip-trial-{self.boot.pid}"
        for _ in range(150):
            time.sleep(0.2)
            if self.init() and self.says("systemctl", "is-system-running") in ("running", "degraded"):
                return
        self.close()
        sys.exit(f"the system didn't boot: {open(self.log.name).read()[-1000:]}")

    def init(self):
        """The number of its first process, or None."""
        try:
            path = f"/proc/{self.boot.pid}/task/{self.boot.pid}/children"
            with open(path, encoding="ascii") as file:
                return next(iter(file.read().split()), None)
        except FileNotFoundError:
            return None

    def inside(self, *words):
        """Runs a command in the system."""
        enter = ["nsenter", "--target", self.init(), "--all", "--root", "--wd"]
        clean = ["env", "-i", "PATH=/usr/sbin:/usr/bin:/sbin:/bin", "LC_ALL=C.UTF-8"]
        clean += ["DEBIAN_FRONTEND=noninteractive"]
        return run(*enter, *clean, *words, check=False)

    def says(self, *words):
        return self.inside(*words).stdout.strip()

    def service(self, name, unit="satip.service"):
        """A property of a unit."""
        return self.says("systemctl", "show", "--value", "--property", name, unit)

    def wait_until_active(self, not_pid="0", unit="satip.service", limit=15):
        """Waits until the service runs as another process; returns the seconds, or None."""
        return self.wait_until(
            lambda: self.service("ActiveState", unit) == "active"
            and self.service("MainPID", unit) != not_pid,
            limit,
        )

    def wait_until(self, holds, limit=15):
        """Waits until something holds; returns the seconds, or None."""
        begun = time.monotonic()
        while time.monotonic() < begun + limit:
            if holds():
                return time.monotonic() - begun
            time.sleep(0.2)
        return None

    def words_of_client(self, script, *words):
        """The words that run a Python script of a client in the system's network."""
        here = os.path.dirname(LIB)
        enter = ["nsenter", "--target", self.init(), "--net", "env", f"PYTHONPATH={here}"]
        return [*enter, sys.executable, "-B", "-c", script, *words]

    def read(self, script):
        """Runs a client in the system's network until it ends well; returns what it printed."""
        for _ in range(20):
            ran = run(*self.words_of_client(script), check=False)
            if ran.returncode == 0:
                return ran.stdout.strip()
            time.sleep(0.2)
        return ran.stderr.strip()[-200:]

    def close(self):
        self.boot.kill()
        self.boot.wait()
        self.log.close()
        time.sleep(0.5)
        for folder, _, _ in os.walk(f"{cgroup_mount()}/{self.group}", topdown=False):
            os.rmdir(folder)


class Seen(NamedTuple):
    """What a viewer saw: whether its packets followed each other, how many, and whether it left by
    itself and not by the server's end."""

    is_whole: bool
    count: int
    stays: bool

    def is_served(self):
        return self.is_whole and self.stays


class Viewer:
    """A client in the system's network that reads a stream over HTTP for some seconds. The recording
    has `size` numbered packets."""

    def __init__(self, system, port, length, size):
        words = system.words_of_client(VIEWER, str(port), str(length), str(size))
        self.process = subprocess.Popen(words, stdout=subprocess.PIPE, text=True)

    def ends(self):
        """Waits until it has seen enough; returns what it saw."""
        whole, count, stays = (self.process.communicate()[0].split() or ["False", "0", "False"])[:3]
        return Seen(whole == "True", int(count), stays == "True")


def cgroup_mount():
    """Where cgroup version 2 is mounted."""
    with open("/proc/mounts", encoding="ascii") as mounts:
        words = [line.split() for line in mounts]
    return next((it[1] for it in words if it[2] == "cgroup2"), None) or missing("cgroup version 2")


def make_system(folder):
    """Makes a system that isn't booted; returns its folder."""
    root = f"{folder}/system"
    if "SATIP_SYSTEM" in os.environ:
        run("cp", "-a", os.environ["SATIP_SYSTEM"], root)
        return root
    words = ("debootstrap", "--variant=minbase", f"--include={PARTS}", SUITE, root, MIRROR)
    ran = run(*words, check=False)
    if ran.returncode != 0:
        print(ran.stdout[-500:])
        missing("a mirror of Debian")
    return root


def make_package(folder, *commit):
    """Makes the package of the built program in a folder, as of a commit or the last one; returns its
    name."""
    packager = {"DEBFULLNAME": "The satip authors", "DEBEMAIL": "satip@example.org"}
    words = f"{TOP}/tools/make_deb.sh", program(), *commit
    return run(*words, cwd=folder, env=packager | os.environ).stdout.strip()
