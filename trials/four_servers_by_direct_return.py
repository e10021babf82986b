#!/usr/bin/env python3
"""Four servers share one address by nftables, and answer their clients directly.

    trials/four_servers_by_direct_return.py [--clients 16] [--seconds 5]

One network of namespaces has a balancer with the address 10.77.0.10, four servers that have this
address on their loopback device alone, and a machine with an address for each client. The balancer
loads examples/direct_return.nft, which gives each packet to a server by the hash of its source
address; the servers answer the clients directly. Each client has to get RTP from 10.77.0.10 in order
with none missing, and the balancer has to pass requests and acknowledgements alone. Ends with status
1 if something doesn't hold.

Needs root, a kernel with nf_tables, and the built program (trials/lib/server.py). The namespaces are
gone when it ends.

Packages: iproute2 nftables procps ffmpeg
Rights: root
Files: examples/direct_return.nft
Limit: 90 s
"""

import argparse
import os
import re
import subprocess
import sys
import tempfile
import time

sys.dont_write_bytecode = True
from lib.rtp import number_of, port_of, receiver, skipped
from lib.rtsp import Rtsp, over_udp
from lib.server import QUERY, TOP, configuration, program

ADDRESS, RTSP_PORT, HTTP_PORT = "10.77.0.10", 554, 8875
SERVERS = range(1, 5)
NAME = f"satip{os.getpid()}-"
# Bytes of requests and acknowledgements that a client sends at most; a second of RTP has 600,000.
MOST_PASSED = 4000


def run(*words, **more):
    return subprocess.run(words, check=True, text=True, capture_output=True, **more).stdout


def inside(space, *words):
    return ("ip", "netns", "exec", f"{NAME}{space}", *words)


def mac(number):
    """The hardware address of a machine, as examples/direct_return.nft has it."""
    return f"02:00:00:00:77:{number:02x}"


def add_machine(space, number, *addresses):
    """A namespace with one device, e0, at the network's bridge."""
    run("ip", "netns", "add", f"{NAME}{space}")
    outer = f"v{number}"
    peer = ("peer", "name", "e0", "netns", f"{NAME}{space}")
    run(*inside("n", "ip", "link", "add", outer, "type", "veth", *peer))
    run(*inside("n", "ip", "link", "set", outer, "master", "b0", "up"))
    run(*inside(space, "ip", "link", "set", "e0", "address", mac(number), "up"))
    run(*inside(space, "ip", "link", "set", "lo", "up"))
    for address in addresses:
        run(*inside(space, "ip", "address", "add", f"{address}/16", "dev", "e0"))


def add_server(number):
    """It has the shared address on lo, and answers no ARP for it."""
    space = f"s{number}"
    for key, value in (("arp_ignore", 1), ("arp_announce", 2)):
        add = ("sysctl", "-q", "-w", f"net.ipv4.conf.all.{key}={value}")
        run(*inside(space, *add))
    run(*inside(space, "ip", "address", "add", f"{ADDRESS}/32", "dev", "lo"))


def rules():
    """Returns the rules of the example, for this network's address."""
    with open(f"{TOP}/examples/direct_return.nft", encoding="utf-8") as file:
        return file.read().replace("192.168.1.10", ADDRESS)


def build(clients):
    run("ip", "netns", "add", f"{NAME}n")
    run(*inside("n", "ip", "link", "add", "b0", "type", "bridge"))
    run(*inside("n", "ip", "link", "set", "b0", "up"))
    add_machine("b", 9, ADDRESS)
    for number in SERVERS:
        add_machine(f"s{number}", 10 + number, f"10.77.0.{10 + number}")
        add_server(number)
    add_machine("c", 99, *clients)
    run(*inside("b", "nft", "-f", "-"), input=rules())


def tear_down():
    for line in run("ip", "netns", "list").splitlines():
        if line.startswith(NAME):
            subprocess.run(["ip", "netns", "del", line.split()[0]], check=False)


class Guest:
    """A client with a separate address, and a socket for RTP there."""

    def __init__(self, own):
        self.client, self.sock = Rtsp(ADDRESS, RTSP_PORT, 10, source=own), receiver(own)
        url = self.client.url(QUERY)
        self.stream, self.session = self.client.set_up(url, over_udp(port_of(self.sock)))
        self.came = self.missing = 0
        self.sources, self.last = set(), None

    def play(self):
        self.client.must("PLAY", self.stream, f"Session: {self.session}")

    def take(self):
        """Takes all datagrams that wait."""
        while True:
            try:
                data, (source, _) = self.sock.recvfrom(2048)
            except BlockingIOError:
                return
            number = number_of(data)
            gap = skipped(self.last, number)
            self.missing += 1 if gap is None else gap
            self.last, self.came = number, self.came + 1
            self.sources.add(source)


def watch(own_addresses, seconds):
    """Runs in the clients' namespace; returns whether each got its stream whole."""
    guests = [Guest(own) for own in own_addresses]
    for guest in guests:
        guest.play()
    end = time.monotonic() + seconds
    while time.monotonic() < end:
        time.sleep(0.02)
        for guest in guests:
            guest.take()
    whole = [it.came > 0 and it.missing == 0 and it.sources == {ADDRESS} for it in guests]
    came, missing = sum(it.came for it in guests), sum(it.missing for it in guests)
    print(f"{sum(whole)} of {len(guests)} clients got their stream whole from {ADDRESS}: "
          f"{came} datagrams, {missing} late or missing", flush=True)
    return all(whole)


def serve(folder):
    with open(f"{folder}/satip.toml", "w", encoding="ascii") as file:
        file.write(configuration(ADDRESS, (RTSP_PORT, HTTP_PORT), workers=64))
    words = (program(), "serve", "satip.toml", "0")
    return [subprocess.Popen(inside(f"s{it}", *words), cwd=folder) for it in SERVERS]


def passed():
    """Returns how many bytes the balancer passed on."""
    told = run(*inside("b", "nft", "list", "table", "netdev", "satip"))
    count = sum(map(int, re.findall(r"counter packets \d+ bytes (\d+)", told)))
    print(f"the balancer passed {count} bytes")
    return count


def asked():
    """Returns how many connections each server has."""
    counts = []
    for number in SERVERS:
        told = run(*inside(f"s{number}", "ss", "-Htn", "state", "established"))
        counts.append(len(told.splitlines()))
    return counts


def try_it(given, folder):
    clients = [f"10.77.1.{number}" for number in range(1, given.clients + 1)]
    subprocess.run([f"{TOP}/tools/make_recording.sh", f"{folder}/a.ts", "60"], check=True)
    build(clients)
    servers = serve(folder)
    try:
        time.sleep(2)
        words = [sys.executable, os.path.abspath(__file__), "--watch", str(given.seconds), *clients]
        watching = subprocess.Popen(inside("c", *words))
        time.sleep(max(given.seconds - 1, 1))
        print("connections of the servers:", asked())
        whole = watching.wait() == 0
        return passed() < MOST_PASSED * given.clients and whole
    finally:
        for it in servers:
            it.terminate()
            it.wait()


def main():
    if sys.argv[1:2] == ["--watch"]:
        sys.exit(0 if watch(sys.argv[3:], float(sys.argv[2])) else 1)
    words = argparse.ArgumentParser(description="Tries direct return by nftables.")
    words.add_argument("--clients", type=int, default=16)
    words.add_argument("--seconds", type=float, default=5)
    given = words.parse_args()
    if os.geteuid() != 0:
        sys.exit("network namespaces need root")
    with tempfile.TemporaryDirectory(prefix="satip-") as folder:
        try:
            sys.exit(0 if try_it(given, folder) else 1)
        except subprocess.CalledProcessError as error:
            sys.exit(f"{' '.join(error.cmd)}: {error.stderr.strip()}")
        finally:
            tear_down()


if __name__ == "__main__":
    main()
