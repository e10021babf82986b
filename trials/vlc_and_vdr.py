#!/usr/bin/env python3
"""VLC plays the second entry of the playlist of satipctl, and VDR records from its second line.

    trials/vlc_and_vdr.py

It makes two recordings with pictures of different sizes, a configuration by satipctl new-config,
and starts a server at 127.0.0.1. VLC opens the whole playlist, is told to go to the next entry, and
has to show pictures of the second size. VDR gets a timer for channel 2 of its channels.conf, and
what it records has to have pictures of the second size too. As root VLC runs as nobody. Ends with
status 1 if one of them hasn't. Needs the built program (trials/lib/server.py).

Packages: ffmpeg vlc-bin vlc-plugin-base vdr vdr-plugin-satip
Limit: 240 s
"""

import glob
import json
import os
import socket
import subprocess
import sys
import tempfile
import time

sys.dont_write_bytecode = True
from lib.server import TOP, program, wait_for

sys.path.insert(0, os.path.join(TOP, "tools"))
from channels import read

SIZES = {"first.ts": (720, 576), "second.ts": (544, 576)}
WANTED = SIZES["second.ts"]
SVDRP_PORT = 16419
IS_ROOT = os.geteuid() == 0


def make_recording(path, size):
    words = ["ffmpeg", "-loglevel", "error", "-y"]
    words += ["-f", "lavfi", "-i", f"testsrc2=size={size[0]}x{size[1]}:rate=25"]
    words += ["-f", "lavfi", "-i", "sine=frequency=440:sample_rate=48000", "-t", "150"]
    words += ["-c:v", "mpeg2video", "-pix_fmt", "yuv420p", "-b:v", "2500k", "-g", "12"]
    words += ["-c:a", "mp2", "-f", "mpegts", "-muxrate", "4812800", "-pat_period", "0.1", path]
    subprocess.run(words, check=True)


def picture_size(path):
    """Returns the size of a picture, or of a stream's first picture; None if it has none."""
    words = ["ffprobe", "-v", "error", "-select_streams", "v:0", "-show_streams", "-of", "json"]
    words.append(path)
    ran = subprocess.run(words, capture_output=True, check=False)
    streams = json.loads(ran.stdout or "{}").get("streams", [])
    return (streams[0].get("width"), streams[0].get("height")) if streams else None


def try_vlc(folder):
    """Returns whether VLC showed pictures of the second entry."""
    pictures = f"{folder}/pictures"
    os.mkdir(pictures)
    os.chmod(pictures, 0o777)
    words = ["runuser", "-u", "nobody", "--"] if IS_ROOT else []
    words += ["env", f"HOME={pictures}", "vlc", "-I", "rc", "--rc-fake-tty"]
    words += ["--vout", "dummy", "--aout", "dummy", "--video-filter", "scene"]
    words += ["--scene-ratio", "10", "--scene-format", "png", "--scene-path", pictures]
    words.append(f"{folder}/channels.m3u")
    silent = {"stdout": subprocess.DEVNULL, "stderr": subprocess.DEVNULL}
    vlc = subprocess.Popen(words, stdin=subprocess.PIPE, text=True, **silent)
    for command, seconds in (("", 8), ("next", 15), ("quit", 0)):
        print(command, file=vlc.stdin, flush=True)
        time.sleep(seconds)
    try:
        vlc.wait(timeout=20)
    except subprocess.TimeoutExpired:
        vlc.kill()
    sizes = [picture_size(it) for it in sorted(glob.glob(f"{pictures}/*.png"))]
    print(f"VLC: {sizes.count(WANTED)} pictures of the second entry, {len(sizes)} in all")
    return WANTED in sizes


class Svdrp:
    """VDR's own protocol: a command, and lines up to the first with a space after its number."""

    def __init__(self, vdr):
        wait_for("127.0.0.1", SVDRP_PORT, vdr)
        line = socket.create_connection(("127.0.0.1", SVDRP_PORT), timeout=20)
        self.lines = line.makefile("rw", newline="\r\n")
        self.lines.readline()

    def ask(self, command):
        self.lines.write(command + "\r\n")
        self.lines.flush()
        told = []
        while not told or told[-1][3:4] == "-":
            line = self.lines.readline()
            if not line:
                break
            told.append(line.rstrip())
        return told


def start_vdr(folder, server):
    conf, video = f"{folder}/vdr", f"{folder}/video"
    os.makedirs(conf)
    os.makedirs(video)
    texts = {
        "sources.conf": "S19.2E Astra\n",
        "svdrphosts.conf": "127.0.0.1\n",
        "setup.conf": "UpdateChannels = 0\n",
        "channels.conf": channels(folder, "--vdr"),
    }
    for name, text in texts.items():
        with open(f"{conf}/{name}", "w", encoding="utf-8") as file:
            file.write(text)
    words = ["vdr", "-D-", "-c", conf, "-v", video, "--no-kbd", "-p", str(SVDRP_PORT)]
    words += ["-u", "root"] if IS_ROOT else []
    words += ["-P", f"satip -d 1 -s {server.address}:{server.rtsp_port}|DVBS2-2|satip"]
    return subprocess.Popen(words, stdout=subprocess.DEVNULL, stderr=subprocess.DEVNULL)


def try_vdr(folder, server):
    """Returns whether VDR recorded pictures of the second line."""
    vdr = start_vdr(folder, server)
    try:
        svdrp = Svdrp(vdr)
        now = time.time()
        begin, end = (time.strftime("%H%M", time.localtime(it)) for it in (now, now + 180))
        day = time.strftime("%Y-%m-%d", time.localtime(now))
        told = svdrp.ask(f"NEWT 1:2:{day}:{begin}:{end}:50:99:Try:")
        time.sleep(20)
        tuned = [it for it in svdrp.ask("PLUG satip INFO") if "Stream:" in it or "Signal:" in it]
        svdrp.ask("DELT 1 FORCE")
    finally:
        vdr.kill()
        vdr.wait()
    for line in told + tuned:
        print(f"VDR: {line}")
    sizes = [picture_size(it) for it in glob.glob(f"{folder}/video/**/*.ts", recursive=True)]
    print(f"VDR: recorded pictures of {sizes}")
    return WANTED in sizes


def channels(folder, form):
    words = [f"{TOP}/bin/satipctl", "channels", f"{folder}/satip.toml", form]
    return subprocess.run(words, cwd=folder, text=True, capture_output=True, check=True).stdout


def main():
    with tempfile.TemporaryDirectory(prefix="satip-") as folder:
        os.chmod(folder, 0o755)
        for name, size in SIZES.items():
            make_recording(f"{folder}/{name}", size)
        config = [f"{TOP}/bin/satipctl", "new-config", "--address", "127.0.0.1", *SIZES]
        subprocess.run(config, cwd=folder, check=True, stdout=subprocess.DEVNULL)
        with open(f"{folder}/channels.m3u", "w", encoding="utf-8") as file:
            file.write(channels(folder, "--m3u"))
        server = read(f"{folder}/satip.toml")[1]
        serving = subprocess.Popen([program(), "serve", "satip.toml", "0"], cwd=folder)
        try:
            wait_for(server.address, server.rtsp_port, serving)
            played = [try_vlc(folder), try_vdr(folder, server)]
        finally:
            serving.kill()
            serving.wait()
    sys.exit(0 if all(played) else 1)


if __name__ == "__main__":
    main()
