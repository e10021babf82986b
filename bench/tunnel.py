#!/usr/bin/env python3
"""Measures `satip tunnel` on loopback to 1, 8 and 16 connections, and a plain loop that only sends
the same frames at the same pace on the same number of TCP connections. Then one of eight stops
reading, and what the others miss is counted.

    python3 bench/tunnel.py [PROGRAM [SECONDS]]

CPU is that of all threads of the server, by /proc/PID/task/*/schedstat. Packets are counted by the
bytes that came; what is missing is read off the RTP numbers. Server and loop send by turns in five
rounds, and a row has the least of each. SECONDS, 6 without the word, is how long each of them
sends. The first line says how many processors the machine kept busy before.

PROGRAM is SATIP_PROGRAM or crates/satip/out/satip without the word, which `tools/program_alone.sh`
builds. Needs the Debian packages gcc and libc6-dev."""
import os
import select
import socket
import subprocess
import sys
import tempfile
import time

TOP = os.path.dirname(os.path.dirname(os.path.abspath(__file__)))
sys.path.insert(0, os.path.join(TOP, "trials"))
sys.dont_write_bytecode = True
from lib.rtp import PACKET, RTP_HEADER, number_of
from lib.rtsp import inside
from lib.server import QUERY, Server, cpu_seconds, free_ports, resident_megabytes, words_of_bench

ADDRESS = "127.0.0.1"
CONNECTIONS, ROUNDS = (1, 8, 16), 5


class Readers:
    """Connections that play one stream, read by one thread; those that are left out don't read."""

    def __init__(self, server, count):
        self.clients = [server.client() for _ in range(count)]
        target = self.clients[0].url(QUERY)
        for client in self.clients:
            target, _ = client.play(target, inside())
        self.poll = select.epoll()
        self.by_file = {client.line.fileno(): client for client in self.clients}
        self.last, self.payload, self.missing, self.ended = {}, 0, 0, 0
        for client in self.clients:
            client.line.setblocking(False)
            self.poll.register(client.line, select.EPOLLIN)

    def leave_out(self, client):
        self.poll.unregister(client.line)

    def read_for(self, seconds):
        end = time.monotonic() + seconds
        while time.monotonic() < end:
            for file, _ in self.poll.poll(0.1):
                self.read(file, self.by_file[file])

    def read(self, file, client):
        try:
            client.receive()
        except BlockingIOError:
            return
        except OSError:
            self.ended += 1
            self.poll.unregister(client.line)
            return
        while frame := client.cut_frame():
            self.count(file, *frame)

    def count(self, file, channel, data):
        if channel != 0:
            return
        number = number_of(data)
        last = self.last.get(file)
        if last is not None:
            self.missing += (number - last - 1) & 0xFFFF
        self.last[file] = number
        self.payload += len(data) - RTP_HEADER

    def close(self):
        for client in self.clients:
            client.close()
        self.poll.close()


def measure(server, count, seconds):
    """CPU seconds of the server for each packet that came, and the readers."""
    readers, pid = Readers(server, count), server.process.pid
    readers.read_for(1)
    before, payload = cpu_seconds(pid), readers.payload
    readers.read_for(seconds)
    used = cpu_seconds(pid) - before
    packets = (readers.payload - payload) // PACKET
    readers.close()
    return used / packets, readers


def loop_to(loop, count, seconds):
    """CPU seconds of the plain loop for each packet."""
    port, _ = free_ports(ADDRESS)
    words = [loop, str(seconds), str(port), str(count)]
    with subprocess.Popen(words, stdout=subprocess.PIPE, text=True) as sends:
        time.sleep(0.3)
        socks = [socket.create_connection((ADDRESS, port)) for _ in range(count)]
        open_socks = {sock.fileno(): sock for sock in socks}
        while open_socks:
            for file in select.select(list(open_socks), [], [])[0]:
                if not open_socks[file].recv(262144):
                    del open_socks[file]
        told = sends.stdout.read().split()
    for sock in socks:
        sock.close()
    return float(told[3]) / int(told[1])


def measure_slow(server, seconds):
    """Eight connections, one of which stops reading."""
    readers = Readers(server, 8)
    readers.read_for(1)
    readers.leave_out(readers.clients[3])
    readers.read_for(2 * seconds)
    print(
        f"8 connections, one of which stops reading: the other seven got "
        f"{readers.payload // PACKET} packets and miss {readers.missing} datagrams; "
        f"{readers.ended} of them ended"
    )
    readers.close()


def measure_rounds(server, loop, count, seconds):
    """The least of each of five rounds, in which the server and the loop send by turns."""
    served, plain, missing = [], [], 0
    for _ in range(ROUNDS):
        each, readers = measure(server, count, seconds)
        served.append(each)
        missing += readers.missing
        plain.append(loop_to(loop, count, seconds))
    least, floor = 1e6 * min(served), 1e6 * min(plain)
    memory = resident_megabytes(server.process.pid)
    print(
        f"{count:2} connections: factor {least / floor:.2f}: {least:.3f} s of CPU a million "
        f"packets, a loop of send {floor:.3f} s; missing {missing}; {memory:.1f} MB",
        flush=True,
    )


def main():
    _, seconds = words_of_bench(6)
    with tempfile.TemporaryDirectory() as folder:
        loop = os.path.join(folder, "send_loop")
        source = os.path.join(TOP, "bench", "send_loop.c")
        subprocess.run(["gcc", "-O2", "-o", loop, source], check=True)
        server = Server(ADDRESS, workers=20, seconds=20 * seconds + 60, command="tunnel")
        try:
            for count in CONNECTIONS:
                measure_rounds(server, loop, count, seconds)
            measure_slow(server, seconds)
        finally:
            server.close()


if __name__ == "__main__":
    main()
