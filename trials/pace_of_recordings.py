#!/usr/bin/env python3
"""Recordings of 1.5, 8 and 30 Mbit/s play at their own rate, and FFmpeg and VLC play one cleanly.

    trials/pace_of_recordings.py

With SATIP_PACE=recording a client's rate over 10 s has to be within 2 % of the recording's. FFmpeg
and VLC have to play the one of 8 Mbit/s for 30 s without a discontinuity. As root VLC runs as
nobody. Ends with status 1 if something doesn't hold. Needs the built program
(trials/lib/server.py).

Packages: ffmpeg vlc-bin vlc-plugin-base
Limit: 300 s
"""

import os
import re
import subprocess
import sys
import tempfile
import time

sys.dont_write_bytecode = True
from lib.checks import Checks
from lib.server import QUERY, Server

ADDRESS = "127.0.0.1"
RATES = (1500, 8000, 30000)
PLAYED = 8000
UNCLEAN = re.compile(r"discontinu|corrupt|non.monoton|invalid", re.I)
LATE = re.compile(r"called too late|too late to be displayed", re.I)


def recording(folder, rate):
    """A test picture with a tone, in a stream of a constant rate in kbit/s."""
    path, picture = f"{folder}/{rate}.ts", f"{rate * 80 // 100 - 300}k"
    words = ["ffmpeg", "-hide_banner", "-loglevel", "error", "-y"]
    words += ["-f", "lavfi", "-i", "testsrc2=size=720x576:rate=25"]
    words += ["-f", "lavfi", "-i", "sine=frequency=440:sample_rate=48000", "-t", "45"]
    words += ["-c:v", "mpeg2video", "-pix_fmt", "yuv420p", "-g", "12", "-b:v", picture]
    words += ["-minrate", picture, "-maxrate", picture, "-bufsize", picture]
    words += ["-c:a", "mp2", "-b:a", "192k", "-f", "mpegts", "-muxrate", f"{rate}k"]
    subprocess.run([*words, "-pat_period", "0.1", path], check=True)
    with open(path, "rb") as file:
        return file.read()


def paced(text):
    return Server(ADDRESS, recording=text, before=("env", "SATIP_PACE=recording"))


def measured(server):
    """The rate of a client in kbit/s, over 10 s from the third second on."""
    with server.read() as line:
        line.recv(1)
        end = time.monotonic() + 2
        while time.monotonic() < end:
            line.recv(65536)
        begun, count = time.monotonic(), 0
        while time.monotonic() < begun + 10:
            count += len(line.recv(65536))
        return count * 8 / (time.monotonic() - begun) / 1000


def check_rate(checks, rate, text):
    with paced(text) as server:
        found = measured(server)
    off = 100 * (found - rate) / rate
    text = f"{rate} kbit/s: a client measured {found:.0f} kbit/s, {off:+.2f} %"
    checks.check(abs(off) <= 2, text)


def url_of(server):
    return f"http://{ADDRESS}:{server.ports[1]}/?{QUERY}&pids=all"


def check_ffmpeg(checks, text):
    with paced(text) as server:
        words = ["ffmpeg", "-hide_banner", "-nostats", "-loglevel", "warning"]
        words += ["-i", url_of(server), "-t", "30", "-f", "null", "-"]
        ran = subprocess.run(words, capture_output=True, text=True, check=False)
    found = [line for line in ran.stderr.splitlines() if UNCLEAN.search(line)]
    clean = ran.returncode == 0 and not found
    checks.check(clean, f"FFmpeg: 30 s without a discontinuity {found[:3]}")


def check_vlc(checks, text):
    with paced(text) as server:
        user = ["setpriv", "--reuid", "nobody", "--clear-groups", "env", "HOME=/tmp"]
        words = user if os.geteuid() == 0 else []
        words += ["cvlc", "--intf", "dummy", "--vout", "dummy", "--aout", "dummy"]
        words += ["--no-interact", "-vv", "--run-time", "30", url_of(server), "vlc://quit"]
        ran = subprocess.run(
            ["timeout", "60", *words], capture_output=True, text=True, errors="replace", check=False
        )
    lines = ran.stderr.splitlines()
    checks.check("using video decoder module" in ran.stderr, "VLC: it plays")
    found = [line for line in lines if "discontinu" in line.lower()]
    late = sum(bool(LATE.search(line)) for line in lines)
    text = f"VLC: 30 s without a discontinuity, {late} lines that something was late {found[:3]}"
    checks.check(not found, text)


def main():
    checks = Checks()
    with tempfile.TemporaryDirectory(prefix="satip-") as folder:
        for rate in RATES:
            text = recording(folder, rate)
            check_rate(checks, rate, text)
            if rate == PLAYED:
                check_ffmpeg(checks, text)
                check_vlc(checks, text)
    checks.end()


if __name__ == "__main__":
    main()
