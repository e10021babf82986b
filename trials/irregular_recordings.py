#!/usr/bin/env python3
"""A server starts without a recording that is missing, a FIFO, a directory, a device or a socket.

    trials/irregular_recordings.py

A line has its multiplex and its name, wherever it is among others, and also after a symbolic link;
OPTIONS is answered, and the other recordings play. A front end that is tuned to it gets no packet,
and the next one plays it once a file is there. Ends with status 1 if something doesn't hold, as with
WITHOUT=1 in the environment, where each looks like a regular file (that needs gcc and libc6-dev).
Needs the built program (trials/lib/server.py).

Packages: none
Limit: 200 s
"""

import os
import socket
import subprocess
import sys
import tempfile
import time

sys.dont_write_bytecode = True
from lib.checks import Checks
from lib.rtsp import options
from lib.server import QUERIES, configuration, free_ports, plain_packets, program_words

ADDRESS = "127.0.23.6"
IRREGULAR = ("missing.ts", "fifo.ts", "folder.ts", "/dev/zero", "/dev/null", "socket.ts", "link.ts")


def make_files(folder):
    """Makes the names that are refused, a recording, and a link to it."""
    os.mkfifo(os.path.join(folder, "fifo.ts"))
    os.mkdir(os.path.join(folder, "folder.ts"))
    with socket.socket(socket.AF_UNIX) as sock:
        sock.bind(os.path.join(folder, "socket.ts"))
    os.symlink("fifo.ts", os.path.join(folder, "link.ts"))
    with open(os.path.join(folder, "a.ts"), "wb") as file:
        file.write(plain_packets(32000))
    os.symlink("a.ts", os.path.join(folder, "same.ts"))


class Started:
    """A server of files in a folder that are there or not."""

    def __init__(self, folder, files):
        self.ports = free_ports(ADDRESS)
        with open(os.path.join(folder, "satip.toml"), "w", encoding="ascii") as file:
            file.write(configuration(ADDRESS, self.ports, fronts=2, files=files))
        words = [*program_words(folder), "serve", "satip.toml", "0"]
        self.errors = open(os.path.join(folder, "errors"), "w+", encoding="utf-8")
        self.process = subprocess.Popen(words, cwd=folder, stderr=self.errors)
        end = time.monotonic() + 10
        while "ready at" not in self.said() and time.monotonic() < end:
            time.sleep(0.1)

    def said(self):
        with open(self.errors.name, encoding="utf-8") as file:
            return file.read()

    def packets(self, query, length=1.5):
        """Whether packets of a multiplex come over HTTP within some seconds."""
        head = f"GET /?{query}&pids=all HTTP/1.1\r\nHost: satip\r\n\r\n".encode()
        with socket.create_connection((ADDRESS, self.ports[1]), length) as line:
            line.sendall(head)
            text, end = b"", time.monotonic() + length
            while time.monotonic() < end:
                try:
                    piece = line.recv(65536)
                except TimeoutError:
                    break
                if not piece:
                    break
                text += piece
        return len(text.partition(b"\r\n\r\n")[2]) > 188

    def close(self):
        self.process.kill()
        self.process.wait()
        self.errors.close()


def try_irregular(checks, folder, name):
    for place, files in ((1, (name,)), (2, ("a.ts", name, "same.ts"))):
        server = Started(folder, files)
        line = f"recording of mux.{place}, {name}, can't be played: "
        said = server.said().splitlines()
        told = len(said) == 2 and line in said[0] and ": ready at " in said[1]
        count = f"recordings {len(files)}, of which {len(files) - 1} can be played"
        told = told and count in said[1] and f"mux.{place} {name}, can't be played" in said[1]
        checks.check(told, f"{name}: {said}")
        answered = options(ADDRESS, server.ports[0]) is not None
        plays = len(files) == 1 or server.packets(QUERIES[0])
        silent = not server.packets(QUERIES[place - 1], 0.7)
        checks.check(answered and plays and silent, f"{name}: OPTIONS and the other recordings")
        server.close()


def try_late(checks, folder):
    """A recording that comes after the start."""
    server, path = Started(folder, ("a.ts", "late.ts")), os.path.join(folder, "late.ts")
    silent = not server.packets(QUERIES[1], 0.7)
    checks.check(silent, "late.ts: no packet comes before the file is there")
    time.sleep(1)
    os.link(os.path.join(folder, "a.ts"), path)
    checks.check(server.packets(QUERIES[1]), "late.ts: the next client gets it")
    os.remove(path)
    server.close()


def main():
    checks = Checks()
    with tempfile.TemporaryDirectory(prefix="satip-") as folder:
        make_files(folder)
        for name in IRREGULAR:
            try_irregular(checks, folder, name)
        try_late(checks, folder)
        server = Started(folder, ("a.ts", "same.ts"))
        said = server.said().strip()
        served = "recordings 2, of which 2 can be played" in said
        checks.check(served and server.packets(QUERIES[1]), f"regular files are served: {said}")
        server.close()
    checks.end()


if __name__ == "__main__":
    main()
