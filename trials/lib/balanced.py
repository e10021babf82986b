"""Servers behind HAProxy by examples/haproxy.cfg, and readers that compare each byte of their streams.

Needs the built program, and the Debian packages haproxy and ffmpeg.
"""

import contextlib
import mmap
import os
import re
import resource
import selectors
import socket
import subprocess
import tempfile
import time

from .rtp import PACKET
from .server import PORTS, QUERY, TOP, configuration, program, wait_for

BALANCER = ("127.0.1.10", PORTS[1])
SERVERS = {f"satip{number}": f"127.0.1.1{number}" for number in range(1, 5)}
RECORDING_SECONDS = 120
# A stretch of a stream this long is at one place of the recording alone.
STRETCH = 64 * PACKET


class Reader:
    """Connections to the balancer, one after another; what comes is compared with the recording."""

    def __init__(self, recording):
        self.recording = recording
        self.connections = self.bytes = 0
        self.faults, self.served_by = [], []
        self.longest_gap, self.last, self.again_at = 0.0, None, 0.0
        self.sock = None

    def connect(self, selector):
        self.sock = socket.create_connection(BALANCER, timeout=10)
        self.sock.sendall(f"GET /?{QUERY}&pids=all HTTP/1.1\r\nHost: satip\r\n\r\n".encode())
        self.sock.setblocking(False)
        self.begun, self.place, self.head = time.monotonic(), None, b""
        self.server = None
        self.connections += 1
        selector.register(self.sock, selectors.EVENT_READ, self)

    def leave(self, selector):
        selector.unregister(self.sock)
        self.sock.close()
        self.sock, self.again_at = None, time.monotonic() + 0.2

    def take(self, selector):
        try:
            data = self.sock.recv(1 << 18)
        except BlockingIOError:
            return
        except ConnectionError:
            data = b""
        if not data:
            self.leave(selector)
        elif self.server is None:
            self.take_head(data, selector)
        elif self.place is None:
            self.find(data)
        else:
            self.compare(data)

    def take_head(self, data, selector):
        """Takes the reply's head; if it begins no stream, as 503, the reader asks again."""
        self.head += data
        head, found, rest = self.head.partition(b"\r\n\r\n")
        if not found:
            return
        served = re.search(rb"(?im)^x-served-by: *(\S+)", head)
        if not head.startswith(b"HTTP/1.1 200 ") or served is None:
            self.leave(selector)
            return
        self.server, self.head = served.group(1).decode(), b""
        self.served_by.append(self.server)
        self.find(rest)

    def find(self, data):
        """Looks up where in the recording the stream begins."""
        self.head += data
        if len(self.head) < STRETCH:
            return
        self.place = self.recording.find(self.head[:STRETCH])
        if self.place < 0 or self.place % PACKET:
            self.faults.append(f"{self.server}: what came first isn't in the recording")
            self.place = 0
        self.compare(self.head)

    def compare(self, data):
        end = self.place + len(data)
        if self.recording[self.place : end] != data and not self.faults:
            self.faults.append(f"{self.server}: not the recording's bytes near {self.place}")
        moment = time.monotonic()
        if self.last is not None:
            self.longest_gap = max(self.longest_gap, moment - self.last)
        self.last, self.place, self.bytes = moment, end, self.bytes + len(data)

    def is_served(self):
        return self.sock is not None and self.place is not None


class Run:
    """What was started, so that all of it is stopped."""

    def __init__(self, folder):
        self.folder = folder
        self.servers, self.balancer = {}, None
        self.selector = selectors.DefaultSelector()
        self.readers = []

    def start_server(self, name, **variables):
        config = f"{name}.toml"
        with open(f"{self.folder}/{config}", "w", encoding="ascii") as file:
            file.write(configuration(SERVERS[name], workers=64))
        words = [program(), "serve", config, "0"]
        more = {"env": {**os.environ, **variables}, "stderr": subprocess.DEVNULL}
        self.servers[name] = subprocess.Popen(words, cwd=self.folder, **more)

    def start_balancer(self):
        with open(f"{TOP}/examples/haproxy.cfg", encoding="ascii") as file:
            text = file.read().replace("192.168.1.", "127.0.1.").replace("/run/haproxy", self.folder)
        text = text.replace(":8875", ":18875").replace("port 554", "port 18554")
        with open(f"{self.folder}/haproxy.cfg", "w", encoding="ascii") as file:
            file.write(text)
        words = ["haproxy", "-db", "-f", "haproxy.cfg"]
        self.balancer = subprocess.Popen(words, cwd=self.folder, stderr=subprocess.DEVNULL)

    def kill_server(self, name):
        self.servers[name].kill()
        self.servers[name].wait()

    def stop(self):
        for reader in self.readers:
            if reader.sock:
                reader.sock.close()
        for it in [self.balancer, *self.servers.values()]:
            if it is not None and it.poll() is None:
                it.kill()
                it.wait()

    def go_on(self, seconds, until=lambda: False):
        """Reads for some seconds, or until something holds; returns whether it held."""
        end = time.monotonic() + seconds
        while time.monotonic() < end and not until():
            for key, _ in self.selector.select(0.05):
                key.data.take(self.selector)
            for reader in self.readers:
                if reader.sock is None and reader.again_at <= time.monotonic():
                    reader.connect(self.selector)
        return until()

    def all_served(self):
        return all(reader.is_served() for reader in self.readers)


def ask_socket(folder, line):
    """What HAProxy's statistics socket answers to a line."""
    with socket.socket(socket.AF_UNIX, socket.SOCK_STREAM) as sock:
        sock.settimeout(5)
        sock.connect(f"{folder}/admin.sock")
        sock.sendall(f"{line}\n".encode())
        return b"".join(iter(lambda: sock.recv(65536), b"")).decode()


@contextlib.contextmanager
def balanced(make_run, names=tuple(SERVERS)):
    """Servers and the balancer, over a recording; yields what was started, and the recording."""
    most = resource.getrlimit(resource.RLIMIT_NOFILE)[1]
    resource.setrlimit(resource.RLIMIT_NOFILE, (min(most, 65536), most))
    with tempfile.TemporaryDirectory(prefix="satip-") as folder:
        words = [f"{TOP}/tools/make_recording.sh", f"{folder}/a.ts", str(RECORDING_SECONDS)]
        subprocess.run(words, check=True)
        run = make_run(folder)
        try:
            for name in names:
                run.start_server(name)
                wait_for(SERVERS[name], PORTS[0], run.servers[name])
            run.start_balancer()
            wait_for(*BALANCER, run.balancer)
            with open(f"{folder}/a.ts", "rb") as file:
                yield run, mmap.mmap(file.fileno(), 0, access=mmap.ACCESS_READ)
        finally:
            run.stop()
