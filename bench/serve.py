#!/usr/bin/env python3
"""Measures `satip serve` on loopback, and plain loops that only send at the same pace: by sendto
from one socket, and from a connected socket for each receiver; a pump and a ticker that only send
and pause as the specification asks of a server; and a loop that only pauses. Beside them GStreamer's
RTSP server sends the same recording (bench/gst_server.py), if its packages are installed. It counts
the calls of the system by kind, too.

    python3 bench/serve.py [PROGRAM [SECONDS]]

CPU is that of all threads of the server, by /proc/PID/task/*/schedstat. Packets are counted by the
bytes that came; what is late or missing is read off the RTP numbers. Servers and loops send by turns
in five rounds, and a row has the least of each. SECONDS, 6 without the word, is how long each of
them sends. The first line says how many processors the machine kept busy before.

PROGRAM is SATIP_PROGRAM or crates/satip/out/satip without the word, which `tools/program_alone.sh`
builds. Needs the right to trace it, and the Debian packages gcc, libc6-dev, strace and ffmpeg. For
GStreamer those of bench/gst_server.py."""

import collections
import os
import re
import subprocess
import sys
import tempfile
import threading
import time

TOP = os.path.dirname(os.path.dirname(os.path.abspath(__file__)))
sys.path.insert(0, os.path.join(TOP, "trials"))
sys.dont_write_bytecode = True
from lib.rtp import Receivers
from lib.rtsp import Rtsp, over_udp
from lib.server import QUERY, Server, cpu_seconds, free_ports, resident_megabytes, words_of_bench

ADDRESS = "127.0.0.1"
RECEIVERS, ROUNDS = (1, 16, 60), 5
LOOPS = ("one", "connected", "jobs")

IDLE_SECONDS, CALLS_SECONDS, PAUSES_A_SECOND = 5, 5, 50
# Clients that ask for OPTIONS side by side; one worker more serves the one that streams.
ASKERS = 8


def serve_to(count, server, seconds, counts_calls):
    """CPU seconds of the server for each packet that came, its receivers, and its memory."""
    receivers, client, pid = Receivers(ADDRESS, count), server.client(), server.process.pid
    target, sessions = client.play_to(receivers.ports(), QUERY)
    before, packets = cpu_seconds(pid), receivers.packets()
    receivers.read_for(seconds)
    used, packets = cpu_seconds(pid) - before, receivers.packets() - packets
    memory = resident_megabytes(pid)
    if counts_calls:
        print(f"{count} receivers: calls a second: {calls(pid, receivers.read_for)}")
    client.tear_down(target, *sessions)
    receivers.close()
    client.close()
    return used / packets, receivers, memory


def loop_to(count, loop, kind, seconds):
    """CPU seconds of a plain loop for each packet."""
    receivers = Receivers(ADDRESS, count)
    words = [loop, kind, str(seconds), *map(str, receivers.ports())]
    with subprocess.Popen(words, stdout=subprocess.PIPE, text=True) as sends:
        while sends.poll() is None:
            receivers.read_for(0.2)
        told = sends.stdout.read().split()
    receivers.close()
    return float(told[3]) / int(told[1])


class GStreamer:
    """GStreamer's RTSP server with a recording, or `process` None where it isn't installed."""

    def __init__(self, recording):
        self.port = free_ports(ADDRESS)[0]
        words = [os.path.join(TOP, "bench", "gst_server.py"), ADDRESS, str(self.port), recording]
        quiet = {"stdout": subprocess.PIPE, "stderr": subprocess.DEVNULL, "text": True}
        self.process = subprocess.Popen(words, **quiet)
        if self.process.stdout.readline() != "ready\n":
            print("GStreamer's server isn't measured: bench/gst_server.py says what it needs")
            self.close()
            self.process = None

    def serve_to(self, count, seconds):
        """CPU seconds of the server for each packet that came, and its receivers."""
        receivers, client = Receivers(ADDRESS, count), Rtsp(ADDRESS, self.port, 20)
        target, sessions = f"rtsp://{ADDRESS}:{self.port}/ts", []
        for port in receivers.ports():
            reply = client.must("SETUP", f"{target}/stream=0", over_udp(port))
            sessions.append(re.search(r"^Session: *([^;\s]+)", reply, re.M).group(1))
        for session in sessions:
            client.must("PLAY", target, f"Session: {session}")
        receivers.read_for(1)
        before, packets = cpu_seconds(self.process.pid), receivers.packets()
        receivers.read_for(seconds)
        used = cpu_seconds(self.process.pid) - before
        packets = receivers.packets() - packets
        client.tear_down(target, *sessions)
        receivers.close()
        client.close()
        return used / packets, receivers

    def close(self):
        if self.process:
            self.process.kill()
            self.process.wait()


def measure_pauses(loop, seconds):
    words = [loop, "one", str(seconds)]
    least = min(
        float(subprocess.run(words, check=True, capture_output=True, text=True).stdout.split()[3])
        for _ in range(ROUNDS)
    )
    each = 1e6 * least / (seconds * PAUSES_A_SECOND)
    print(f"a loop that only pauses: {each:.1f} microseconds of CPU a pause of 20 ms", flush=True)


def calls(pid, wait):
    """Returns the system calls a second by kind, most frequent first; `wait` lets seconds pass."""
    with tempfile.NamedTemporaryFile("r") as table:
        # it ends well where timeout interrupts it, and lets the program go on
        words = ["timeout", "--signal=INT", str(CALLS_SECONDS)]
        words += ["strace", "-c", "-f", "-o", table.name, "-p", str(pid)]
        with subprocess.Popen(words, stderr=subprocess.DEVNULL) as counts:
            while counts.poll() is None:
                wait(0.2)
        rows = [line.split() for line in table.read().splitlines()]
    rows = [row for row in rows if len(row) >= 5 and row[3].isdigit() and row[-1] != "total"]
    rows.sort(key=lambda row: -int(row[3]))
    return ", ".join(f"{row[-1]} {int(row[3]) / CALLS_SECONDS:.0f}" for row in rows)


def measure_idle(server):
    before = cpu_seconds(server.pid)
    time.sleep(IDLE_SECONDS)
    used = (cpu_seconds(server.pid) - before) / IDLE_SECONDS
    memory = resident_megabytes(server.pid)
    print(f"no client: {used:.4f} s of CPU a second, resident {memory:.1f} MB")
    print(f"no client: calls a second: {calls(server.pid, time.sleep)}")


def measure_sending(server, gstreamer, loop, seconds):
    for count in RECEIVERS:
        served, loops, told = [], {kind: [] for kind in LOOPS}, collections.Counter()
        beside, missed = [], 0
        for turn in range(ROUNDS):
            each, receivers, memory = serve_to(count, server, seconds, turn == 0)
            served.append(each)
            for kind, spent in loops.items():
                spent.append(loop_to(count, loop, kind, seconds))
            if gstreamer.process:
                each, theirs = gstreamer.serve_to(count, seconds)
                beside.append(each)
                missed += theirs.missing
            told.update(datagrams=receivers.datagrams)
            told.update(late=receivers.late, missing=receivers.missing)
        least, one, connected, jobs = (1e6 * min(it) for it in (served, *loops.values()))
        print(
            f"{count} receivers: factor {least / one:.2f} ({least / connected:.2f} over connected "
            f"sockets, {least / jobs:.2f} over the threads alone): {least:.3f} s of CPU a million "
            f"packets, a loop of sendto {one:.3f} s, over connected sockets {connected:.3f} s, the "
            f"threads {jobs:.3f} s; datagrams {told['datagrams']}, "
            f"late {told['late']}, missing {told['missing']}; resident {memory:.1f} MB",
            flush=True,
        )
        if beside:
            other = 1e6 * min(beside)
            told = f"{other:.3f} s of CPU a million packets, missing {missed}"
            print(f"{count} receivers: GStreamer's server {told}; serve by it {least / other:.2f}", flush=True)


def measure_requests(server, seconds):
    counts = [0] * ASKERS
    end = time.monotonic() + seconds

    def ask(place):
        client = server.client()
        while time.monotonic() < end:
            client.ask("OPTIONS", "*", "User-Agent: bench")
            counts[place] += 1
        client.close()

    threads = [threading.Thread(target=ask, args=(place,)) for place in range(ASKERS)]
    for thread in threads:
        thread.start()
    for thread in threads:
        thread.join()
    print(f"{ASKERS} connections: {sum(counts) / seconds:,.0f} OPTIONS a second")


def make_recording(folder, seconds):
    path = os.path.join(folder, "made.ts")
    words = [os.path.join(TOP, "tools", "make_recording.sh"), path, str(seconds)]
    subprocess.run(words, check=True)
    with open(path, "rb") as file:
        return file.read()


def main():
    _, seconds = words_of_bench(6)
    with tempfile.TemporaryDirectory() as folder:
        loop = os.path.join(folder, "sendto_loop")
        source = os.path.join(TOP, "bench", "sendto_loop.c")
        subprocess.run(["gcc", "-O2", "-pthread", "-o", loop, source], check=True)
        recording = make_recording(folder, 6 * seconds + 30)
        server = Server(ADDRESS, workers=ASKERS + 1, fronts=2, recording=recording)
        gstreamer = GStreamer(os.path.join(folder, "made.ts"))
        try:
            measure_pauses(loop, seconds)
            measure_idle(server.process)
            measure_sending(server, gstreamer, loop, seconds)
            measure_requests(server, seconds)
        finally:
            gstreamer.close()
            server.close()


if __name__ == "__main__":
    main()
