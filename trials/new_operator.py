#!/usr/bin/env python3
"""A new operator installs the package, serves, watches, changes and upgrades, and no viewer misses a byte.

    trials/new_operator.py

All of it on a fresh Debian system, as by trials/install_package.py, from the packages alone: install,
`satipctl check` of a configuration with a fault and of one without, start by systemctl, a viewer over
HTTP and one by `satip record`, `satipctl status`, `metrics` and `probe`, a recording that is replaced by
rename, an upgrade to a newer package under a viewer, and the change to the new program, as a second
unit at the same ports. It prints how long each step took. Ends with status 1 if something doesn't hold.

Needs the built program (trials/lib/server.py), and what trials/install_package.py needs.

Packages: binutils debootstrap dpkg-dev git iproute2 util-linux
Rights: root
Files: LICENSE-MIT LICENSE-APACHE
Limit: 600 s
"""

import json
import os
import re
import shutil
import subprocess
import sys
import tempfile
import time

sys.dont_write_bytecode = True
from lib.checks import Checks
from lib.rtp import numbered
from lib.server import PACKETS_A_SECOND, QUERY, TOP, configuration
from lib.system import System, Viewer, cgroup_mount, make_package, make_system

# Packets of the first recording, which is played for longer than a viewer stays, and of the second.
LONG, SHORT = 60000, 100
RATE = PACKETS_A_SECOND * 188 * 8
PORTS = 554, 8875
# Seconds that the old server gives its viewers; the unit's own 10 are too few for the trial's.
LEAVE = 60


class Operator:
    """What an operator does, a step after another, with its time."""

    def __init__(self, checks, system, root):
        self.checks, self.system, self.root, self.took = checks, system, root, []

    def step(self, name, *words, status=0):
        """Runs a command, whose status has to be this one; returns what it printed."""
        begun = time.monotonic()
        ran = self.system.inside(*words)
        self.took.append((name, time.monotonic() - begun))
        said = (ran.stdout + ran.stderr).strip()
        told = f"{name}: `{' '.join(words)}` ends with {ran.returncode} after {self.took[-1][1]:.1f} s"
        self.checks.check(ran.returncode == status, f"{told} {said[-200:] if ran.returncode != status else ''}")
        return said

    def check(self, holds, text):
        self.checks.check(holds, text)

    def write(self, place, text):
        with open(f"{self.root}/{place}", "wb") as file:
            file.write(text if isinstance(text, bytes) else text.encode())

    def configure(self):
        """Edits the configuration, once with a fault."""
        text = configuration("127.0.0.1", PORTS, files=("/srv/a.ts",))
        self.write("etc/satip.toml", text.replace("workers = 8", "workers = 65"))
        said = self.step("check of a fault", "satipctl", "check", status=2)
        self.check("satip.toml:5: fault: workers is 65; allowed is 1 to 64" in said, f"it says {said[:80]}")
        self.write("etc/satip.toml", text)
        os.makedirs(f"{self.root}/etc/satip")
        self.write("etc/satip/next.toml", text)
        # The recordings of the trial have no clock, so `check` warns.
        said = self.step("check", "satipctl", "check", status=1)
        self.check("a server would start" in said, f"it says {said.splitlines()[-1]}")

    def exposure(self):
        """What systemd says of the unit: 0 is nothing exposed, 10 is all."""
        said = self.system.says("systemd-analyze", "security", "satip")
        told = re.search(r"exposure level for satip.service: ([\d.]+)", said)
        self.check(told and float(told.group(1)) < 2, f"systemd-analyze security: {told and told.group(1)}")

    def record(self):
        """The program's own client, by RTSP and RTP."""
        words = f"satip record 127.0.0.1 '{QUERY}&pids=all' 2000 > /root/got.ts"
        self.step("record", "sh", "-c", words)
        size = os.path.getsize(f"{self.root}/root/got.ts")
        self.check(size == 2000 * 188, f"it has {size // 188} packets")

    def status(self):
        """What satipctl says while a viewer watches."""
        told = json.loads(self.step("status", "satipctl", "status", "--json"))
        rates = [it["rate"] for it in told["viewers"] if it["kind"] == "HTTP" and it["rate"] > 0]
        near = len(rates) == 1 and 0.5 < rates[0] / RATE < 1.5
        self.check(near, f"status has a viewer over HTTP of {[round(it / 1e6, 2) for it in rates]} Mbit/s")
        self.check(told["version"] is not None, f"of satip {told['version']}, by its status file")
        said = self.step("metrics", "satipctl", "metrics")
        self.check('satip_streams{front_end="1",state="playing"} 1.0' in said, "metrics say that one stream plays")
        said = self.step("probe", "satipctl", "probe", "127.0.0.1", f"{QUERY}&pids=all")
        self.check(said.startswith("SATIP OK"), f"probe says {said}")

    def replace(self):
        """Another recording takes the name of the one that plays."""
        viewer = self.view(3, LONG)
        time.sleep(1)
        self.write("srv/b.ts", numbered(SHORT))
        self.step("changed recording", "mv", "/srv/b.ts", "/srv/a.ts")
        told = viewer.ends()
        self.check(told.is_whole, f"who watches sees the old recording whole: {told}")
        told = self.view(2, SHORT).ends()
        self.check(told.is_whole, f"the next viewer sees the new one: {told}")

    def upgrade(self, package):
        """A newer package under a viewer, and the new program instead of the old one."""
        before = self.system.says("dpkg-query", "-W", "-f", "${Version}", "satip")
        viewer, old = self.view(14, SHORT), self.system.service("MainPID")
        time.sleep(1)
        said = self.step("upgrade", "dpkg", "-i", f"/root/{package}")
        now = self.system.says("dpkg-query", "-W", "-f", "${Version}", "satip")
        newer = self.system.inside("dpkg", "--compare-versions", now, "gt", before).returncode == 0
        self.check(newer, f"{before} is upgraded to {now}")
        self.check("serves on until it is restarted" in said, "dpkg says that the old one serves on")
        self.check(self.system.service("MainPID") == old, "and so it does")
        self.step("end the old one", "systemctl", "stop", "--no-block", "satip")
        self.step("start the new one", "systemctl", "start", "satip@next")
        told = self.view(2, SHORT).ends()
        self.check(told.is_served(), f"a new viewer is served by it: {told}")
        told = viewer.ends()
        self.check(told.is_served(), f"the old viewer misses nothing in 14 s: {told}")
        took = self.system.wait_until(lambda: self.system.service("ActiveState") == "inactive")
        self.check(took is not None, "the old server ends after its last viewer")

    def view(self, length, size):
        return Viewer(self.system, PORTS[1], length, size)

    def all_of_it(self, old, new):
        self.step("install", "dpkg", "-i", f"/root/{old}")
        self.configure()
        self.step("start", "systemctl", "enable", "--now", "satip")
        self.exposure()
        viewer = self.view(12, LONG)
        time.sleep(1)
        self.record()
        self.status()
        told = viewer.ends()
        self.check(told.is_served(), f"a viewer misses nothing in 12 s: {told}")
        self.replace()
        self.upgrade(new)
        self.step("remove", "dpkg", "-r", "satip")


def commit_before(commit):
    words = ["git", "-C", TOP, "rev-parse", "--short=8", f"{commit}~1"]
    return subprocess.run(words, capture_output=True, text=True, check=True).stdout.strip()


def drop_in(root):
    """Gives viewers more time, and plays recordings without a clock at the usual pace."""
    for unit in ("satip.service", "satip@next.service"):
        os.makedirs(f"{root}/etc/systemd/system/{unit}.d")
        with open(f"{root}/etc/systemd/system/{unit}.d/own.conf", "w", encoding="ascii") as file:
            file.write(f"[Service]\nEnvironment=SATIP_LEAVE={LEAVE} SATIP_PACE=\n")


def main():
    checks = Checks()
    cgroup_mount()
    with tempfile.TemporaryDirectory(prefix="satip-") as folder:
        old, new = make_package(folder, commit_before("HEAD")), make_package(folder)
        root = make_system(folder)
        with open(f"{root}/srv/a.ts", "wb") as file:
            file.write(numbered(LONG))
        for package in (old, new):
            shutil.copy(f"{folder}/{package}", f"{root}/root")
        drop_in(root)
        system = System(root)
        try:
            operator = Operator(checks, system, root)
            operator.all_of_it(old, new)
        finally:
            system.close()
        print("\n".join(f"{took:6.1f} s  {name}" for name, took in operator.took))
    checks.end()


if __name__ == "__main__":
    main()
