#!/usr/bin/env python3
"""tools/run.sh shows a stream from a clean clone with the kit and python3 alone, and names what is missing.

    trials/first_run.py

It runs in a clone of this repository's last commit, in a network namespace, with a PATH that has
neither ffmpeg nor curl. The clone has the built program (trials/lib/server.py), as if it had built
it. Each thing that run.sh needs is missing once. Ends with status 1 if something doesn't hold. Needs
the kit's rt.

Packages: git iproute2 util-linux
Rights: root
Limit: 300 s
"""

import os
import re
import shutil
import signal
import subprocess
import sys
import tempfile
import time

sys.dont_write_bytecode = True
from lib.checks import Checks, missing
from lib.server import TOP, program

WITHOUT = {"ffmpeg", "ffprobe", "ffplay", "curl"}
WATCHED = re.compile(r"^a viewer got 2000 packets in [\d.]+ s, in order, none missing", re.M)
LIMIT = 60


class Clone:
    """A clean clone with a program, and a folder to run in."""

    def __init__(self, folder, rt):
        self.folder, self.rt = folder, rt
        self.top, self.work = os.path.join(folder, "clone"), os.path.join(folder, "work")
        os.mkdir(self.work)
        subprocess.run(["git", "clone", "--quiet", TOP, self.top], check=True)
        out = os.path.join(self.top, "crates/satip/out")
        os.mkdir(out)
        shutil.copy(program(), os.path.join(out, "satip"))
        subprocess.run([os.path.join(self.top, "tools/kept_program.sh"), "keep"], check=True)
        self.paths = 0

    def path(self, *without):
        """A folder with the machine's commands but for these, and the kit's rt."""
        self.paths += 1
        bin_ = os.path.join(self.folder, f"bin{self.paths}")
        os.mkdir(bin_)
        for name in os.listdir("/usr/bin"):
            if name not in WITHOUT and name not in without:
                os.symlink(f"/usr/bin/{name}", os.path.join(bin_, name))
        if "rt" not in without:
            with open(os.path.join(bin_, "rt"), "w", encoding="ascii") as file:
                file.write(f'#!/bin/sh\nexec {self.rt} "$@"\n')
            os.chmod(os.path.join(bin_, "rt"), 0o755)
        return bin_

    def start(self, *words, path=None, before="true", **environment):
        """Starts run.sh in a network namespace of its own, after a command."""
        script = f'{shutil.which("ip")} link set lo up && {before} && PATH=$NEW_PATH exec "$@"'
        words = ["unshare", "--net", "/bin/sh", "-c", script, "-", f"{self.top}/tools/run.sh", *words]
        kept = {name: value for name, value in os.environ.items() if name != "SATIP_PROGRAM"}
        environment = {**kept, **environment, "NEW_PATH": path or self.path()}
        pipe = {"stdout": subprocess.PIPE, "stderr": subprocess.STDOUT, "text": True}
        return subprocess.Popen(words, cwd=self.work, env=environment, start_new_session=True, **pipe)

    def run(self, *words, **how):
        """Runs it to its end; returns its status, what it said, and its seconds."""
        begun, process = time.monotonic(), self.start(*words, **how)
        try:
            said, _ = process.communicate(timeout=LIMIT)
        except subprocess.TimeoutExpired:
            os.killpg(process.pid, signal.SIGKILL)
            said = process.communicate()[0] + "\nit didn't end"
        return process.returncode, said, time.monotonic() - begun


def check_stream(checks, clone):
    status, said, _ = clone.run("--check")
    checks.check(status == 0, f"--check ends with status {status}")
    checks.check(len(WATCHED.findall(said)) == 2, "a viewer by RTSP and one over HTTP got 2000 packets")
    checks.check("were proved and built" in said or "was proved and built" in said, "it built nothing")
    for wanted in ("vlc channels.m3u", "ffplay ", "curl "):
        checks.check(wanted in said, f"it says how to open it by {wanted.split()[0]}")
    for line in WATCHED.findall(said) or [said[-600:]]:
        print(f"    {line}")


def check_own_recording(checks, clone):
    """One recording of two names, of which one isn't there."""
    shutil.copy(os.path.join(clone.top, "examples/recordings/card_2.ts"), os.path.join(clone.work, "own.ts"))
    status, said, _ = clone.run("--check", "own.ts")
    with open(os.path.join(clone.work, "channels.m3u"), encoding="utf-8") as file:
        names = set(re.findall(r",(\w+)$", file.read(), re.M))
    checks.check(status == 0 and "own.ts: transport stream, 0.7" in said, "own.ts is played, and its rate is said")
    checks.check(names == {"own"}, f"the playlist has {sorted(names)} alone")


def check_taken_ports(checks, clone):
    code = "import socket,time; s=socket.create_server((\"127.0.0.1\",554)); time.sleep(50)"
    status, said, _ = clone.run("--check", before=f"{{ python3 -c '{code}' & sleep 1; }}")
    told = "Port 554 is taken" in said and "18554 is used" in said
    checks.check(status == 0 and told, "another server has port 554: it takes 18554 and says so")


def check_ctrl_c(checks, clone):
    begun, process = time.monotonic(), clone.start()
    said, ready = [], None
    for line in process.stdout:
        said.append(line)
        if "are written" in line:
            ready = time.monotonic() - begun
        if "until Ctrl-C" in line:
            os.killpg(process.pid, signal.SIGINT)
    status = process.wait(LIMIT)
    checks.check(ready is not None and ready < 10, f"the second run serves after {ready or 0:.1f} s")
    checks.check(status == 0, f"Ctrl-C ends it with status {status}")
    again = any("SATIP_PACE=recording SATIP_REPEAT=1" in line for line in said)
    checks.check(again, "it says how to start the server again")


def check_no_stream(checks, clone):
    status, said, _ = clone.run("--check", SATIP_PROGRAM="/bin/false")
    text = f"a server that ends at once is status {status}: {said.strip().splitlines()[-1]}"
    checks.check(status == 1, text)


def check_missing(checks, clone):
    """Each thing that it needs is missing once; it says so before anything is proved."""
    out = os.path.join(clone.top, "crates/satip/out")
    cases = [
        ("python3", ("--check",), {"path": clone.path(*python_names())}, "apt-get install python3"),
        ("rt", ("--check",), {"path": clone.path("rt")}, "the kit's rt"),
        ("a recording", ("--check", "nothing.ts"), {}, "nothing.ts: left out"),
        ("an address", ("--check", "--address", "192.0.2.9"), {}, "192.0.2.9"),
        ("a program", ("--check",), {"SATIP_PROGRAM": "/nothing"}, "/nothing"),
    ]
    for name, words, how, wanted in cases:
        check_case(checks, name, clone.run(*words, **how), wanted)
    os.remove(os.path.join(out, "satip.sources"))
    for package, *names in (("git", "git"), ("findutils", "find"), ("mawk", "awk", "mawk", "gawk")):
        ran = clone.run("--check", path=clone.path(*names))
        check_case(checks, names[0], ran, f"apt-get install {package}")
    with open(os.path.join(clone.work, "satip.toml"), "w", encoding="ascii") as file:
        file.write("# somebody's\n")
    check_case(checks, "room for satip.toml", clone.run("--check"), "satip.toml")


def python_names():
    return [name for name in os.listdir("/usr/bin") if name.startswith("python3")]


def check_case(checks, name, ran, wanted):
    status, said, took = ran
    lines = [line for line in said.splitlines() if line.startswith("missing: ")]
    holds = status == 2 and len(lines) == 1 and wanted in said and "proved first" not in said
    checks.check(holds, f"without {name}: status {status} after {took:.1f} s, {(lines or said.splitlines()[-1:] or ['-'])[0]}")


def main():
    rt, checks = shutil.which("rt"), Checks()
    if not rt:
        missing("rt")
    if not os.path.exists(program()):
        missing("crates/satip/out/satip")
    with tempfile.TemporaryDirectory(prefix="satip-") as folder:
        clone = Clone(folder, os.path.realpath(rt))
        check_stream(checks, clone)
        check_own_recording(checks, clone)
        check_taken_ports(checks, clone)
        check_ctrl_c(checks, clone)
        check_no_stream(checks, clone)
        check_missing(checks, clone)
    checks.end()


if __name__ == "__main__":
    main()
