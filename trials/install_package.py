#!/usr/bin/env python3
"""The Debian package installs, serves by systemd, upgrades and is removed on a fresh Debian system.

    trials/install_package.py

tools/make_deb.sh makes the package, twice the same, and lintian has to find no error in it.
debootstrap makes a fresh system in a scratch folder, which its own systemd boots in namespaces of the
kernel. The package is installed there, which has to start nothing. Then satip.service serves a
recording at port 554 as a user that isn't root, comes again when it is killed, and serves on as the
same process when the package is installed once more. When the package is removed the service
ends and the configuration stays; when it is purged nothing is left.

Ends with status 1 if something doesn't hold. Needs root, a mirror of Debian, cgroup version 2, and
the built program (trials/lib/server.py).

Packages: binutils debootstrap dpkg-dev git iproute2 lintian util-linux
Rights: root
Files: LICENSE-MIT LICENSE-APACHE
Limit: 600 s
"""

import filecmp
import glob
import os
import shutil
import sys
import tempfile
import time

sys.dont_write_bytecode = True
from lib.checks import Checks, seconds
from lib.server import PACKETS_A_SECOND, QUERY, configuration, plain_packets, program
from lib.system import System, cgroup_mount, make_package, make_system, run

PORTS = 554, 8875
# This runs in the system's network namespace.
READER = f"""
import socket
from lib.rtsp import options
took = options("127.0.0.1", {PORTS[0]})
line = socket.create_connection(("127.0.0.1", {PORTS[1]}), 5)
line.sendall(b"GET /?{QUERY}&pids=all HTTP/1.1\\r\\nHost: satip\\r\\n\\r\\n")
count = 0
while count < 400000:
    count += len(line.recv(65536))
print(took, count)
"""


def check_package(checks, folder):
    package = make_package(folder)
    os.mkdir(f"{folder}/again")
    make_package(f"{folder}/again")
    same = filecmp.cmp(f"{folder}/{package}", f"{folder}/again/{package}", shallow=False)
    checks.check(same, f"{package}: made twice it is the same, byte for byte")
    said = run("lintian", package, cwd=folder, check=False).stdout.splitlines()
    errors = [line for line in said if line.startswith(("E:", "W:"))]
    checks.check(errors == [], f"{package}: lintian finds no error and no warning {errors}")
    for line in said:
        print(f"     {line}")
    version = run(program(), "--version").stdout.split()[1]
    own = package.split("_")[1]
    checks.check(own == version or own.startswith(f"{version}~git2"), f"its version is {own}")
    return package, version


def check_installed(checks, system, package, version):
    ran = system.inside("dpkg", "-i", f"/root/{package}")
    said = (ran.stdout + ran.stderr).strip().splitlines()
    checks.check(ran.returncode == 0, f"it installs: {said[-1:]}")
    told = system.says("satip", "--version")
    checks.check(told == f"satip {version}", f"the program runs: {told}")
    kept = system.says("dpkg-query", "-W", "-f", "${Conffiles}", "satip").split()[:1]
    checks.check(kept == ["/etc/satip.toml"], f"the configuration is kept by dpkg: {kept}")
    states = system.service("ActiveState"), system.service("UnitFileState")
    checks.check(states == ("inactive", "disabled"), f"it starts nothing: {states}")
    said = system.inside("systemd-analyze", "verify", "--man=no", "satip.service")
    lines = [it for it in (said.stdout + said.stderr).splitlines() if "satip" in it]
    checks.check(lines == [], f"systemd-analyze verify has nothing to say of the unit {lines}")
    said = system.says("zcat", "/usr/share/doc/satip/changelog.gz").splitlines()
    lines = [line.strip() for line in said if line.startswith("  *")]
    checks.check(len(lines) == 2, f"the changelog says commit and kit: {lines}")


def check_served(checks, system, root):
    text = configuration("127.0.0.1", PORTS, files=("/srv/a.ts",))
    with open(f"{root}/etc/satip.toml", "w", encoding="ascii") as file:
        file.write(text)
    ran = system.inside("satipctl", "check", "--user", "nobody")
    checks.check(ran.returncode in (0, 1), f"satipctl check: {ran.stdout.strip()} {ran.stderr.strip()}")
    begun = time.monotonic()
    ran = system.inside("systemctl", "enable", "--now", "satip")
    took = time.monotonic() - begun
    checks.check(ran.returncode == 0, f"systemctl enable --now satip {ran.stderr.strip()}")
    ran = system.inside("satipctl", "probe", "/etc/satip.toml")
    checks.check(ran.returncode == 0, f"started after {seconds(took)} is answering: {ran.stdout.strip()}")
    got = system.read(READER)
    checks.check(is_stream(got), f"a client gets a stream: {got}")
    pid = system.service("MainPID")
    user = system.says("stat", "-c", "%u", f"/proc/{pid}")
    checks.check(user not in ("", "0"), f"it isn't root: user {user}")
    said = system.says("journalctl", "--no-pager", "-o", "cat", "-u", "satip")
    ready = [line for line in said.splitlines() if "ready at " in line]
    checks.check(len(ready) == 1, f"the journal of the system says: {ready}")
    return text, pid


def check_goes_on(checks, system, package, root, text, pid):
    """The service when it is killed, and when the package is installed once more."""
    system.inside("systemctl", "kill", "--signal=KILL", "satip")
    took = system.wait_until_active(pid)
    checks.check(took is not None, f"killed, it is active again after {seconds(took)}")
    pid = system.service("MainPID")
    ran = system.inside("dpkg", "-i", f"/root/{package}")
    time.sleep(1)
    same = ran.returncode == 0 and system.service("MainPID") == pid
    checks.check(same, "installed once more, the process serves on")
    checks.check("serves on until it is restarted" in ran.stdout, "dpkg says so, and how to restart it")
    ran = system.inside("systemctl", "restart", "satip")
    checks.check(ran.returncode == 0 and system.service("MainPID") != pid, "systemctl restart satip")
    with open(f"{root}/etc/satip.toml", encoding="ascii") as file:
        checks.check(file.read() == text, "the edited configuration stays")
    got = system.read(READER)
    checks.check(is_stream(got), f"a client gets a stream: {got}")


def is_stream(got):
    """Whether a client had its OPTIONS answered and read a stream."""
    words = got.split()
    return len(words) == 2 and words[0] != "None" and words[1].isdigit()


def left(root):
    """The files of the package that are there."""
    files = ["usr/bin/satip", "usr/share/man/man1/satip.1.gz", "lib/systemd/system/satip.service"]
    files += ["usr/bin/satipctl", "usr/lib/satip", "lib/systemd/system/satip@.service"]
    files += ["usr/share/doc/satip", "etc/satip.toml"]
    files += ["etc/systemd/system/multi-user.target.wants/satip.service"]
    there = [it for it in files if os.path.lexists(f"{root}/{it}")]
    states = glob.glob(f"{root}/var/lib/**/*satip*", recursive=True)
    return there + [os.path.relpath(it, root) for it in states]


def check_removed(checks, system, root):
    ran = system.inside("dpkg", "-r", "satip")
    state = system.service("ActiveState")
    checks.check(ran.returncode == 0 and state != "active", f"removed, the service is {state}")
    there = [it for it in left(root) if it.startswith(("usr", "lib", "etc/satip"))]
    checks.check(there == ["etc/satip.toml"], f"removed, the configuration stays: {there}")
    ran = system.inside("dpkg", "-P", "satip")
    checks.check(ran.returncode == 0 and left(root) == [], f"purged, nothing is left {left(root)}")


def main():
    checks = Checks()
    cgroup_mount()
    with tempfile.TemporaryDirectory(prefix="satip-") as folder:
        package, version = check_package(checks, folder)
        root = make_system(folder)
        with open(f"{root}/srv/a.ts", "wb") as file:
            file.write(plain_packets(PACKETS_A_SECOND * 60))
        shutil.copy(f"{folder}/{package}", f"{root}/root")
        system = System(root)
        try:
            check_installed(checks, system, package, version)
            text, pid = check_served(checks, system, root)
            check_goes_on(checks, system, package, root, text, pid)
            check_removed(checks, system, root)
        finally:
            system.close()
    checks.end()


if __name__ == "__main__":
    main()
