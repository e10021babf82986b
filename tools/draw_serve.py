#!/usr/bin/env python3
"""Draws docs/serve.svg: what one sees of a server, from a real run.

    tools/draw_serve.py [--to PICTURE]

It makes two recordings, a configuration by satipctl new-config, starts the server, prints its
channels by satipctl channels, and takes a stream by curl. Each line of the picture is one that a
command wrote, but for the prompts and for the scratch folder's name, which is told as ~.

Needs the Debian packages ffmpeg and curl, and crates/satip/out/satip (`tools/program_alone.sh` builds
it) or SATIP_PROGRAM. Ports from 18554 and 18875 on of 127.0.0.1 are to be free.
"""

import argparse
import os
import signal
import socket
import subprocess
import sys
import tempfile
import time
from xml.sax.saxutils import escape

sys.dont_write_bytecode = True
TOP = os.path.dirname(os.path.dirname(os.path.abspath(__file__)))
sys.path[:0] = [os.path.join(TOP, "trials"), TOP]
from lib.server import program
from satipctl.channels import read

COLUMNS, LINE_HEIGHT, CHARACTER_WIDTH, EDGE = 100, 18, 7.8, 14
STYLES = {"prompt": "#9ece6a", "told": "#c0caf5"}
NAMES = {"news.ts": "News", "film.ts": "Film"}


def make_recordings(folder):
    made = f"{folder}/made.ts"
    subprocess.run([f"{TOP}/tools/make_recording.sh", made, "30"], check=True)
    for file, name in NAMES.items():
        words = ["ffmpeg", "-loglevel", "error", "-y", "-i", made, "-c", "copy"]
        words += ["-metadata", f"service_name={name}", "-muxrate", "4812800", f"{folder}/{file}"]
        subprocess.run(words, check=True)
    os.remove(made)


class Screen:
    """The lines of a terminal, each with its style."""

    def __init__(self, folder):
        self.folder, self.lines = folder, []

    def put(self, style, text):
        for line in text.replace(self.folder, "~").expandtabs().splitlines():
            rest = line.rstrip()
            while len(rest) > COLUMNS:
                cut = rest.rfind(" ", COLUMNS // 2, COLUMNS) + 1 or COLUMNS
                self.lines.append((style, rest[:cut]))
                rest = "    " + rest[cut:]
            self.lines.append((style, rest))

    def run(self, command, environment, status=0):
        """A command, as one would type it in the folder, and what it wrote; how it is to end."""
        self.put("prompt", f"$ {command}")
        ran = subprocess.run(
            ["bash", "-c", command], cwd=self.folder, env=environment, text=True, timeout=60,
            stdin=subprocess.DEVNULL, stdout=subprocess.PIPE, stderr=subprocess.STDOUT, check=False,
        )
        if ran.returncode != status:
            sys.exit(f"{command}: status {ran.returncode}\n{ran.stdout}")
        self.put("told", ran.stdout)

    def svg(self):
        width = round(COLUMNS * CHARACTER_WIDTH + 2 * EDGE)
        height = len(self.lines) * LINE_HEIGHT + 2 * EDGE
        yield f'<svg xmlns="http://www.w3.org/2000/svg" width="{width}" height="{height}"'
        yield f'  viewBox="0 0 {width} {height}" font-family="monospace" font-size="13">'
        yield "<title>satip: recordings, a configuration, a server and its client</title>"
        yield '<rect width="100%" height="100%" rx="6" fill="#1a1b26"/>'
        for place, (style, line) in enumerate(self.lines, 1):
            spot = f'x="{EDGE}" y="{EDGE + place * LINE_HEIGHT - 5}" fill="{STYLES[style]}"'
            yield f'<text {spot} xml:space="preserve">{escape(line)}</text>'
        yield "</svg>"


def serve(screen, folder, environment, port):
    """The server, once it listens; what it told by then is on the screen."""
    screen.put("prompt", "$ SATIP_REPEAT=1 satip serve satip.toml 0 &")
    with open(f"{folder}/told", "w", encoding="utf-8") as told:
        server = subprocess.Popen(
            ["satip", "serve", "satip.toml", "0"], cwd=folder, stderr=told,
            env={**environment, "SATIP_REPEAT": "1"},
        )
    for _ in range(50):
        time.sleep(0.2)
        try:
            socket.create_connection(("127.0.0.1", port), timeout=1).close()
            break
        except OSError:
            continue
    time.sleep(0.5)
    if server.poll() is not None:
        sys.exit(f"the server ended with status {server.returncode}")
    with open(f"{folder}/told", encoding="utf-8") as told:
        screen.put("told", told.read())
    return server


def session(screen, environment):
    screen.run("satipctl new-config --address 127.0.0.1 news.ts film.ts", environment)
    config, address = read(f"{screen.folder}/satip.toml")
    server = serve(screen, screen.folder, environment, address.rtsp_port)
    try:
        screen.run("satipctl channels satip.toml", environment)
        freq = config["mux"][0]["freq"]
        url = address.url("http", f"freq={freq}&pol=h&msys=dvbs2&sr=22000&pids=all")
        # 124 is what timeout(1) tells of a command that it ended.
        screen.run(f"timeout 3 curl -s '{url}' > stream.ts", environment, status=124)
        look = "ffprobe -hide_banner stream.ts 2>&1 | grep -E 'service_name|Stream'"
        screen.run(look, environment)
    finally:
        server.kill()
        server.wait()


def main():
    words = argparse.ArgumentParser(description="Draws what one sees of a server.")
    words.add_argument("--to", metavar="PICTURE", default=f"{TOP}/docs/serve.svg")
    given = words.parse_args()
    signal.signal(signal.SIGTERM, lambda *_: sys.exit(1))
    with tempfile.TemporaryDirectory(prefix="satip-") as folder:
        screen = Screen(folder)
        make_recordings(folder)
        os.mkdir(f"{folder}/bin")
        os.symlink(program(), f"{folder}/bin/satip")
        os.symlink(f"{TOP}/bin/satipctl", f"{folder}/bin/satipctl")
        path = f"{folder}/bin:{os.environ['PATH']}"
        session(screen, {**os.environ, "PATH": path})
    with open(given.to, "w", encoding="utf-8") as file:
        file.write("\n".join(screen.svg()) + "\n")
    print(f"{given.to}: {len(screen.lines)} lines")


if __name__ == "__main__":
    main()
