#!/usr/bin/env python3
"""Units start when they serve, stop softly, hand ports over without a cut, and come again after signals.

    trials/units_of_systemd.py

The package is installed on a fresh Debian system, as by trials/install_package.py. Two instances of
satip@.service with the same ports follow each other while a viewer reads: it misses no byte, and a
new viewer is served meanwhile. A stop that is asked for stays one, SIGHUP and SIGKILL don't, and a
stop file that is left behind stops no later start. An upgrade cuts no viewer. A recording that is
replaced by rename is played by the next tuning. `journal` runs as an instance, and `audit` judges
what it wrote. A configuration that can't be served is told by systemctl, and served once mended.

Needs the built program (trials/lib/server.py), and what trials/install_package.py needs.

Packages: binutils debootstrap dpkg-dev git iproute2 util-linux
Rights: root
Files: LICENSE-MIT LICENSE-APACHE
Limit: 600 s
"""

import os
import shutil
import sys
import tempfile
import time

sys.dont_write_bytecode = True
from lib.checks import Checks, seconds
from lib.rtp import numbered
from lib.server import configuration
from lib.system import System, Viewer, cgroup_mount, make_package, make_system

PORTS = 554, 8875
# Packets of a recording that is played for longer than a viewer stays.
LONG = 40000


class Trial:
    def __init__(self, checks, system, root):
        self.checks, self.system, self.root = checks, system, root

    def check(self, holds, text):
        self.checks.check(holds, text)

    def start(self, unit):
        begun = time.monotonic()
        ran = self.system.inside("systemctl", "start", unit)
        return ran.returncode == 0, time.monotonic() - begun

    def viewer(self, length, size=LONG):
        return Viewer(self.system, PORTS[1], length, size)

    def stays(self, unit, state, length=4):
        """Whether a unit comes to a state, and is in it for some seconds."""
        self.system.wait_until(lambda: self.system.service("ActiveState", unit) == state, limit=3)
        until = time.monotonic() + length
        while time.monotonic() < until:
            if self.system.service("ActiveState", unit) != state:
                return False
            time.sleep(0.3)
        return True

    def hand_over(self):
        """A new server takes the ports while the old one finishes its viewer."""
        well, took = self.start("satip@old")
        self.check(well, f"satip@old is started after {seconds(took)}")
        told = self.system.inside("satipctl", "probe", "/etc/satip/old.toml")
        self.check(told.returncode == 0, f"it answers then: {told.stdout.strip()}")
        old = self.viewer(12)
        time.sleep(2)
        ran = self.system.inside("systemctl", "stop", "--no-block", "satip@old")
        well, took = self.start("satip@new")
        self.check(ran.returncode == 0 and well, f"satip@new has the ports after {seconds(took)}")
        state = self.system.service("ActiveState", "satip@old")
        self.check(state == "deactivating", f"satip@old is {state}")
        new = self.viewer(3)
        told, also = new.ends(), old.ends()
        self.check(told.is_served(), f"a new viewer is served: {told}")
        whole = also.is_served() and also.count > 30000
        self.check(whole, f"the old viewer misses nothing in 12 s: {also}")
        took = self.system.wait_until(
            lambda: self.system.service("ActiveState", "satip@old") == "inactive"
        )
        self.check(took is not None, f"satip@old ends {seconds(took)} after its last viewer")
        status = self.system.service("ExecMainStatus", "satip@old")
        self.check(status == "0", f"its status is {status}")
        self.check(self.stays("satip@old", "inactive"), "it stays ended")

    def stop_by_satipctl(self):
        ran = self.system.inside("satipctl", "stop", "--after", "3", "/etc/satip/new.toml")
        self.check(ran.returncode == 0, f"satipctl stop: {ran.stdout.strip()} {ran.stderr.strip()}")
        self.check(self.stays("satip@new", "inactive"), "an end that is asked for stays one")
        left = self.system.inside("test", "-e", "/run/satip-new/stop").returncode == 0
        self.check(not left, "no stop file is left")

    def left_behind(self):
        """A stop file by hand, which nobody removes."""
        well, _ = self.start("satip@new")
        ran = self.system.inside("sh", "-c", "echo 0 > /run/satip-new/stop")
        took = self.system.wait_until(
            lambda: self.system.service("ActiveState", "satip@new") == "inactive"
        )
        self.check(well and ran.returncode == 0 and took is not None, f"it ends after {seconds(took)}")
        self.check(self.stays("satip@new", "inactive"), "a stop file that is left is no crash loop")
        well, took = self.start("satip@new")
        self.check(well, f"and stops no later start, which takes {seconds(took)}")

    def signals(self):
        for name in ("HUP", "KILL"):
            pid = self.system.service("MainPID", "satip@new")
            self.system.inside("systemctl", "kill", "--kill-whom=main", f"--signal={name}", "satip@new")
            took = self.system.wait_until_active(pid, "satip@new")
            self.check(took is not None, f"after SIG{name} it is active again in {seconds(took)}")

    def upgrade(self, package):
        """The package is installed once more under a viewer."""
        viewer, pid = self.viewer(8), self.system.service("MainPID", "satip@new")
        time.sleep(1)
        ran = self.system.inside("dpkg", "-i", f"/root/{package}")
        told = viewer.ends()
        same = ran.returncode == 0 and self.system.service("MainPID", "satip@new") == pid
        self.check(same and "serves on until" in ran.stdout, "an upgrade restarts nothing, and says so")
        self.check(told.is_served(), f"a viewer misses nothing of it: {told}")

    def recording(self):
        """A recording of other packets takes the name of the one that plays."""
        viewer = self.viewer(4)
        time.sleep(1)
        with open(f"{self.root}/srv/b.ts", "wb") as file:
            file.write(numbered(100))
        os.rename(f"{self.root}/srv/b.ts", f"{self.root}/srv/a.ts")
        told = viewer.ends()
        self.check(told.is_whole, f"who watches sees the old recording: {told}")
        time.sleep(1)
        told = self.viewer(3, size=100).ends()
        self.check(told.is_whole, f"the next tuning plays the new one: {told}")

    def journal(self):
        folder = "/var/lib/satip-book"
        well, _ = self.start("satip@book")
        self.check(well, "an instance with SATIP_COMMAND=journal is started")
        told = self.viewer(3, size=100).ends()
        ran = self.system.inside("systemctl", "stop", "satip@book")
        status = self.system.service("ExecMainStatus", "satip@book")
        self.check(ran.returncode == 0 and status == "0", f"it ends with status {status} after {told}")
        judge = f"cat {folder}/journal.* | satip audit /etc/satip/book.toml"
        told = self.system.says("sh", "-c", judge)
        self.check(told.startswith("yes "), f"audit says {told}")

    def mended(self):
        """A configuration that can't be served yet."""
        path = f"{self.root}/etc/satip/late.toml"
        text = configuration("127.0.0.1", (8554, 8876), files=("/srv/a.ts",))
        with open(path, "w", encoding="ascii") as file:
            file.write(text.replace("workers = 8", "workers = 65"))
        well, took = self.start("satip@late")
        self.check(not well, f"systemctl start fails after {seconds(took)}")
        said = self.system.says("journalctl", "--no-pager", "-o", "cat", "-u", "satip@late")
        line = "late.toml:5: fault: workers is 65; allowed is 1 to 64"
        self.check(line in said, f"the journal of the system has the line: {line}")
        with open(path, "w", encoding="ascii") as file:
            file.write(text)
        took = self.system.wait_until_active(unit="satip@late")
        self.check(took is not None, f"mended, it is active after {seconds(took)}")
        self.system.inside("systemctl", "stop", "satip@late")


def drop_in(root, instance, *lines):
    folder = f"{root}/etc/systemd/system/satip@{instance}.service.d"
    os.makedirs(folder)
    with open(f"{folder}/own.conf", "w", encoding="ascii") as file:
        file.write("\n".join(("[Service]", *lines, "")))


def configure(root):
    os.makedirs(f"{root}/etc/satip")
    for name in ("old", "new", "book"):
        with open(f"{root}/etc/satip/{name}.toml", "w", encoding="ascii") as file:
            file.write(configuration("127.0.0.1", PORTS, files=("/srv/a.ts",)))
    drop_in(root, "old", "Environment=SATIP_LEAVE=30", "Environment=SATIP_PACE=")
    drop_in(root, "new", "Environment=SATIP_PACE=")
    drop_in(root, "book", "Environment=SATIP_PACE=", "Environment=SATIP_COMMAND=journal")


def main():
    checks = Checks()
    cgroup_mount()
    with tempfile.TemporaryDirectory(prefix="satip-") as folder:
        package = make_package(folder)
        root = make_system(folder)
        with open(f"{root}/srv/a.ts", "wb") as file:
            file.write(numbered(LONG))
        shutil.copy(f"{folder}/{package}", f"{root}/root")
        configure(root)
        system = System(root)
        try:
            ran = system.inside("dpkg", "-i", f"/root/{package}")
            checks.check(ran.returncode == 0, f"{package} installs")
            trial = Trial(checks, system, root)
            trial.hand_over()
            trial.stop_by_satipctl()
            trial.left_behind()
            trial.signals()
            trial.upgrade(package)
            trial.recording()
            system.inside("systemctl", "stop", "satip@new")
            trial.journal()
            trial.mended()
        finally:
            system.close()
    checks.end()


if __name__ == "__main__":
    main()
