#!/usr/bin/env python3
"""FFmpeg and GStreamer play a stream of `tunnel` inside their RTSP connections.

    trials/players_in_a_tunnel.py

Another connection creates a stream, and each player joins it for 12 seconds. Each has to write a
file in which FFmpeg finds a picture. VLC as Debian has it opens no rtsp:// by TCP. Ends with status
1 if one of them has none. Needs the built program (trials/lib/server.py).

Packages: ffmpeg gstreamer1.0-tools gstreamer1.0-plugins-base gstreamer1.0-plugins-good
Packages: gstreamer1.0-plugins-bad
Limit: 120 s
"""

import os
import subprocess
import sys
import tempfile

sys.dont_write_bytecode = True
from lib.checks import Checks
from lib.rtsp import inside
from lib.server import QUERY, TOP, Server

SECONDS = 12


def has_picture(path):
    words = ["ffmpeg", "-v", "error", "-i", path, "-frames:v", "1", "-f", "null", "-"]
    if not os.path.exists(path) or os.path.getsize(path) == 0:
        return False
    return subprocess.run(words, capture_output=True, check=False).returncode == 0


def players(url, folder):
    """For each player the command that writes what it gets to a file, and the file."""
    ffmpeg, gst = f"{folder}/ffmpeg.ts", f"{folder}/gst.ts"
    return (
        (["ffmpeg", "-v", "error", "-rtsp_transport", "tcp", "-i", url]
         + ["-t", str(SECONDS), "-c", "copy", ffmpeg], ffmpeg),
        (["gst-launch-1.0", "-q", "-e", "rtspsrc", f"location={url}", "protocols=tcp"]
         + ["!", "rtpmp2tdepay", "!", "filesink", f"location={gst}"], gst),
    )


def make_recording(folder):
    path = f"{folder}/news.ts"
    subprocess.run([f"{TOP}/tools/make_recording.sh", path, "60"], check=True)
    with open(path, "rb") as file:
        return file.read()


def main():
    checks = Checks()
    with tempfile.TemporaryDirectory(prefix="satip-") as folder:
        recording = make_recording(folder)
        with Server("127.0.0.1", recording=recording, command="tunnel") as server:
            creator = server.client()
            url, _ = creator.set_up(creator.url(QUERY), inside())
            for words, path in players(url, folder):
                interrupted = ["timeout", "--signal=INT", str(SECONDS + 6), *words]
                subprocess.run(interrupted, capture_output=True, check=False)
                size = os.path.getsize(path) if os.path.exists(path) else 0
                checks.check(has_picture(path), f"{words[0]}: {size} bytes with a picture")
            checks.check(server.lives(), "the server lives after the players")
    checks.end()


if __name__ == "__main__":
    main()
