"""The server of the trials, of bench/ and of tools/: the built program and its configuration.

The program is crates/satip/out/satip, or the one that SATIP_PROGRAM names. With WITHOUT=1 in the
environment it runs with without_edge.c, so that a trial shows that it fails without what it looks
for. Needs python3, and the Debian packages gcc and libc6-dev for WITHOUT.
"""

import os
import random
import re
import signal
import socket
import subprocess
import sys
import tempfile
import time

from .rtsp import Rtsp, options
from satipctl.new_config import multiplex

FREQUENCIES = ("11361.75", "11422.75", "11464.25", "11494.25")
QUERIES = [f"src=1&freq={freq}&pol=h&msys=dvbs2&sr=22000" for freq in FREQUENCIES]
QUERY = QUERIES[0]
LIB = os.path.dirname(os.path.abspath(__file__))
TOP = os.path.dirname(os.path.dirname(LIB))
BUILT = os.path.join(TOP, "crates", "satip", "out", "satip")
PORTS = 18554, 18875
# 64 packets each 20 ms: the pace of a recording without SATIP_PACE=recording.
PACKETS_A_SECOND = 3200
PLAIN_HEAD, PAYLOAD = b"\x47\x01\x00\x10", 184
FRONT_END = """\
[[frontend]]
sources = [1]
systems = ["dvbs", "dvbs2"]
"""


# A trial that is ended leaves no server, folder or namespace.
signal.signal(signal.SIGTERM, lambda *_: sys.exit(1))


def configuration(address, ports=PORTS, workers=8, timeout=60, fronts=1, files=("a.ts",)):
    """A configuration with a multiplex for each file, those that QUERIES ask for."""
    head = (
        f'address = "{address}"\nrtsp_port = {ports[0]}\nhttp_port = {ports[1]}\n'
        f"timeout = {timeout}\nworkers = {workers}\n"
    )
    muxes = [multiplex(freq, file) for freq, file in zip(FREQUENCIES, files)]
    return head + FRONT_END * fronts + "".join(muxes)


def plain_packets(count):
    """Packets of PID 256 with random payloads, the same in each run; each second of them is the same."""
    noise = random.Random(1).randbytes(PAYLOAD * PACKETS_A_SECOND)
    each = (PLAIN_HEAD + noise[at : at + PAYLOAD] for at in range(0, len(noise), PAYLOAD))
    whole, rest = divmod(count, PACKETS_A_SECOND)
    second = b"".join(each)
    return second * whole + second[: rest * (len(PLAIN_HEAD) + PAYLOAD)]


def free_ports(address):
    """Two ports of an address at which nothing listens."""
    with socket.socket() as first, socket.socket() as second:
        first.bind((address, 0))
        second.bind((address, 0))
        return first.getsockname()[1], second.getsockname()[1]


def preload(name, folder):
    """Compiles NAME.c of this folder for LD_PRELOAD; returns the library's path."""
    library, source = os.path.join(folder, f"{name}.so"), os.path.join(LIB, f"{name}.c")
    subprocess.run(["cc", "-O2", "-shared", "-fPIC", "-o", library, source, "-ldl"], check=True)
    return library


def program():
    """The path of the program."""
    return os.path.abspath(os.environ.get("SATIP_PROGRAM", BUILT))


def use_program(words):
    """Takes the first word as the program, if there is one; returns the program's path."""
    if words:
        os.environ["SATIP_PROGRAM"] = words[0]
    return program()


def program_words(folder):
    """The words that run the program, with without_edge.c if WITHOUT is in the environment."""
    if "WITHOUT" not in os.environ:
        return [program()]
    return ["env", f"LD_PRELOAD={preload('without_edge', folder)}", program()]


def wait_for(address, port, process):
    """Waits until a process listens there; ends the trial if it doesn't within 20 seconds."""
    for _ in range(100):
        if process.poll() is not None:
            sys.exit(f"{address}:{port}: its process ended with status {process.returncode}")
        try:
            socket.create_connection((address, port), timeout=1).close()
            return
        except OSError:
            time.sleep(0.2)
    sys.exit(f"nothing listens at {address}:{port}")


def cpu_seconds(pid):
    """What all threads of a process have run for; they live as long as it does."""
    spent = 0
    for thread in os.listdir(f"/proc/{pid}/task"):
        with open(f"/proc/{pid}/task/{thread}/schedstat", encoding="ascii") as file:
            spent += int(file.read().split()[0])
    return spent / 1e9


def busy_processors(seconds=2):
    """How many processors the whole machine keeps busy, over these seconds."""

    def spent():
        with open("/proc/stat", encoding="ascii") as file:
            ticks = [int(word) for word in file.readline().split()[1:9]]
        # The fourth and fifth are those of no work.
        return sum(ticks) - ticks[3] - ticks[4]

    before = spent()
    time.sleep(seconds)
    return (spent() - before) / seconds / os.sysconf("SC_CLK_TCK")


def words_of_bench(usual):
    """The program and the number that a script of bench/ was given; says how busy the machine is."""
    program_path = use_program(sys.argv[1:2])
    print(f"the machine kept {busy_processors():.1f} of {os.cpu_count()} processors busy", flush=True)
    return program_path, type(usual)(sys.argv[2]) if len(sys.argv) > 2 else usual


def resident_megabytes(pid):
    with open(f"/proc/{pid}/status", encoding="ascii") as file:
        return int(re.search(r"VmRSS:\s*(\d+)", file.read()).group(1)) / 1024


class Server:
    """A server in a scratch folder, by `serve` or another command that serves.

    It plays `recording`, or packets of PID 256 for some seconds. Words of `before` come before the
    program, as those of env(1), of a namespace or of strace(1); FOLDER in them is the scratch
    folder. Without `ports` it has free ones.
    """

    def __init__(
        self,
        address,
        workers=8,
        timeout=60,
        fronts=1,
        seconds=60,
        before=(),
        ports=None,
        accepts=0,
        files=("a.ts",),
        recording=None,
        command="serve",
    ):
        self.folder = tempfile.TemporaryDirectory(prefix="satip-")
        self.address, self.ports = address, ports or free_ports(address)
        for name in files:
            with open(self.path(name), "wb") as file:
                file.write(recording or plain_packets(PACKETS_A_SECOND * seconds))
        self.config = self.path("satip.toml")
        with open(self.config, "w", encoding="ascii") as file:
            file.write(configuration(address, self.ports, workers, timeout, fronts, files))
        self.errors = open(self.path("errors"), "w+", encoding="utf-8")
        folder = os.path.realpath(self.folder.name)
        words = [word.replace("FOLDER", folder) for word in before]
        words += [*program_words(folder), command, "satip.toml", str(accepts)]
        self.process = subprocess.Popen(words, cwd=self.folder.name, stderr=self.errors)
        for _ in range(200):
            if not self.lives() or ": ready at " in self.said():
                break
            time.sleep(0.1)
        if not self.lives():
            print(f"the server ended at once: {self.said().strip()[-200:]}", flush=True)

    def __enter__(self):
        return self

    def __exit__(self, *_):
        self.close()

    def path(self, name):
        return os.path.join(self.folder.name, name)

    def client(self, **words):
        return Rtsp(self.address, self.ports[0], **words)

    def options(self, timeout=5):
        """Returns the seconds until a new client had its OPTIONS answered, or None."""
        return options(self.address, self.ports[0], timeout)

    def read(self, query=QUERY, pids="all", timeout=5):
        """Opens a connection that reads a multiplex over HTTP."""
        line = socket.create_connection((self.address, self.ports[1]), timeout)
        line.sendall(f"GET /?{query}&pids={pids} HTTP/1.1\r\nHost: satip\r\n\r\n".encode())
        return line

    def lives(self):
        return self.process.poll() is None

    def said(self):
        """What it wrote to standard error."""
        with open(self.errors.name, encoding="utf-8") as file:
            return file.read()

    def status(self, seconds):
        """The status with which it ends within the seconds; None if it doesn't."""
        try:
            return self.process.wait(seconds)
        except subprocess.TimeoutExpired:
            return None

    def close(self):
        self.process.kill()
        self.process.wait()
        self.errors.close()
        self.folder.cleanup()
