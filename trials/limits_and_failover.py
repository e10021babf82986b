#!/usr/bin/env python3
"""A full server refuses the 61st viewer and answers its check, and a killed one's viewers come back.

    trials/limits_and_failover.py

In network namespaces. First a server with 64 workers loads examples/limits.nft: 60 connections of ten
addresses are answered, the 61st and the ninth of one address are refused at once, the address that
checks gets in, and who comes after one has left does too. Then four servers with 8 workers share an
address by examples/direct_return.nft and examples/failover.py. One of them has as many viewers as
workers. Another is killed: its viewers have to come back, and all others must not lose a datagram.
examples/ipvs.sh is loaded if the kernel has IPVS.

Packages: iproute2 nftables procps ffmpeg
Rights: root
Limit: 180 s
"""

import json
import os
import re
import subprocess
import sys
import tempfile
import time

sys.dont_write_bytecode = True
from four_servers_by_direct_return import (
    ADDRESS,
    HTTP_PORT,
    RTSP_PORT,
    SERVERS,
    Guest,
    build,
    inside,
    mac,
    run,
    tear_down,
)
from lib.checks import Checks, seconds
from lib.network import FAR, NEAR, Link, ip
from lib.rtsp import Rtsp, options
from lib.server import TOP, Server, configuration, program

WORKERS, CLIENTS, AGENT_PORT, OWN = 8, 16, 8554, "10.77.0.9"
FAILOVER = os.path.join(TOP, "examples", "failover.py")
# Until a viewer that gets nothing asks again, and how long all of them watch.
SILENT, WATCHED = 2, 25
MOST, MOST_OF_ONE = 60, 8


def address(number):
    return f"10.23.0.{number}"


def is_refused(source):
    """Whether a connection from there is refused within a second."""
    begun = time.monotonic()
    try:
        Rtsp(NEAR, RTSP_PORT, 5, source=source).close()
    except ConnectionRefusedError:
        return time.monotonic() - begun < 1
    except OSError:
        return False
    return False


def viewer(source):
    client = Rtsp(NEAR, RTSP_PORT, 5, source=source)
    client.must("OPTIONS", "*")
    return client


def is_let_in(source, patience):
    end = time.monotonic() + patience
    while time.monotonic() < end:
        try:
            viewer(source).close()
            return True
        except OSError:
            time.sleep(0.2)
    return False


def fill():
    """Runs in the clients' namespace: what a server with the limits does."""
    checks = Checks()
    one = [viewer(address(30)) for _ in range(MOST_OF_ONE)]
    checks.check(is_refused(address(30)), "the ninth connection of an address is refused at once")
    for client in one:
        client.close()
    time.sleep(1)
    viewers = [viewer(address(10 + number // 6)) for number in range(MOST)]
    checks.check(len(viewers) == MOST, f"{len(viewers)} connections of ten addresses are answered")
    checks.check(is_refused(address(20)), "the 61st is refused at once")
    took = options(NEAR, RTSP_PORT, 5)
    checks.check(took is not None and took < 2, f"the check is answered after {seconds(took)}")
    viewers.pop().close()
    checks.check(is_let_in(address(20), 5), "after one has left the next is let in")
    for client in viewers:
        client.must("OPTIONS", "*")
    checks.check(True, f"the other {len(viewers)} are answered still")
    checks.end()


def try_limits(checks):
    with Link() as link:
        for number in (*range(10, 21), 30):
            ip("-n", link.far, "addr", "add", f"{address(number)}/24", "dev", "far0")
        with open(f"{TOP}/examples/limits.nft", encoding="utf-8") as file:
            rules = file.read().replace("192.168.1.9 ", f"{FAR} ")
        before = link.inside(link.near)
        run(*before, "nft", "-f", "-", input=rules)
        with Server(NEAR, workers=64, before=before, ports=(RTSP_PORT, HTTP_PORT)) as server:
            words = [*link.inside(link.far), sys.executable, os.path.abspath(__file__), "--fill"]
            status = subprocess.run(words, check=False).returncode
            checks.check(server.lives() and status == 0, "limits.nft: all of it holds")


class Viewer:
    """A client that asks again if nothing comes."""

    def __init__(self, own):
        self.own, self.guest = own, None
        self.joined = self.missing = self.came = 0
        self.gap, self.last = 0.0, time.monotonic()

    def join(self):
        self.last = time.monotonic()
        try:
            self.guest = Guest(self.own)
            self.guest.play()
            self.joined += 1
        except OSError:
            self.leave()

    def leave(self):
        if self.guest:
            self.missing += self.guest.missing
            self.guest.client.close()
            self.guest.sock.close()
        self.guest = None

    def watch(self):
        moment, before = time.monotonic(), self.guest.came if self.guest else 0
        if self.guest:
            self.guest.take()
        if self.guest and self.guest.came > before:
            self.came, self.last = self.came + 1, moment
        self.gap = max(self.gap, moment - self.last)
        if moment - self.last > SILENT:
            self.leave()
            self.join()


def watch(own_addresses):
    """Runs in the clients' namespace: all watch, and one JSON line says how it went."""
    viewers = [Viewer(own) for own in own_addresses]
    for it in viewers:
        it.join()
    print("playing", flush=True)
    end = time.monotonic() + WATCHED
    while time.monotonic() < end:
        time.sleep(0.02)
        for it in viewers:
            it.watch()
    told = {}
    for it in viewers:
        plays = it.guest is not None and time.monotonic() - it.last < 1
        it.leave()
        told[it.own] = {"joined": it.joined, "plays": plays, "missing": it.missing, "gap": it.gap}
    print(json.dumps(told), flush=True)


def viewers_of(number):
    """The addresses that have a connection to a server."""
    told = run(*inside(f"s{number}", "ss", "-Htn", "state", "established", "sport", f"= :{RTSP_PORT}"))
    return sorted(set(re.findall(r"(10\.77\.1\.\d+):\d+", told)))


def state_of(number):
    """What a server's agent tells the balancer."""
    code = f"import socket; print(socket.create_connection(('10.77.0.{10 + number}', {AGENT_PORT}), 5, source_address=('{OWN}', 0)).recv(9).decode())"
    return run(*inside("b", "python3", "-c", code)).strip()


def start(folder):
    """Starts servers, agents and the balancer's script."""
    with open(f"{folder}/satip.toml", "w", encoding="ascii") as file:
        file.write(configuration(ADDRESS, (RTSP_PORT, HTTP_PORT), workers=WORKERS))
    servers, agents = {}, []
    for it in SERVERS:
        words = inside(f"s{it}", program(), "serve", "satip.toml", "0")
        servers[it] = subprocess.Popen(words, cwd=folder, stderr=subprocess.DEVNULL)
        words = (FAILOVER, "tell", f"{ADDRESS}:{RTSP_PORT}", f"10.77.0.{10 + it}:{AGENT_PORT}")
        agents.append(subprocess.Popen(inside(f"s{it}", *words)))
    time.sleep(2)
    run(*inside("b", "ip", "address", "add", f"{OWN}/16", "dev", "e0"))
    words = [FAILOVER, "balance", "--device", "e0", "--mac", mac(9), "--own", OWN]
    words += [f"10.77.0.{10 + it}:{AGENT_PORT}={mac(10 + it)}" for it in SERVERS]
    agents.append(subprocess.Popen(inside("b", *words)))
    time.sleep(1)
    return servers, agents


def judge(checks, told, of_killed, of_full):
    lost = [told[own] for own in of_killed]
    back = [it for it in lost if it["plays"] and it["joined"] > 1]
    gap = max((it["gap"] for it in lost), default=0)
    checks.check(len(back) == len(lost), f"{len(back)} of {len(lost)} viewers of the killed server came back; {gap:.1f} s at most without a packet")
    others = {own: it for own, it in told.items() if own not in of_killed}
    kept = [own for own, it in others.items() if it["plays"] and it["joined"] == 1 and not it["missing"]]
    checks.check(len(kept) == len(others), f"{len(kept)} of {len(others)} viewers of the others lost nothing")
    checks.check(set(of_full) <= set(kept), f"the {len(of_full)} of the full server are among them")


def try_failover(checks, folder):
    clients = [f"10.77.1.{number}" for number in range(1, CLIENTS + 1)]
    subprocess.run([f"{TOP}/tools/make_recording.sh", f"{folder}/a.ts", "60"], check=True)
    build(clients)
    servers, agents = start(folder)
    try:
        words = [sys.executable, os.path.abspath(__file__), "--watch", *clients]
        watching = subprocess.Popen(inside("c", *words), stdout=subprocess.PIPE, text=True)
        watching.stdout.readline()
        time.sleep(3)
        spread = {it: viewers_of(it) for it in SERVERS}
        print("viewers of the servers:", {it: len(own) for it, own in spread.items()})
        full = max(SERVERS, key=lambda it: len(spread[it]))
        state = state_of(full)
        checks.check(state == "full", f"a server with {len(spread[full])} viewers and {WORKERS} workers is told as {state}")
        killed = min((it for it in SERVERS if spread[it] and it != full), key=lambda it: len(spread[it]))
        servers[killed].kill()
        told = json.loads(watching.stdout.readline())
        judge(checks, told, spread[killed], spread[full])
    finally:
        for it in (*servers.values(), *agents):
            it.terminate()
            it.wait()


def try_ipvs():
    with tempfile.TemporaryDirectory(prefix="satip-"):
        words = ["unshare", "--net", "sh", f"{TOP}/examples/ipvs.sh"]
        ran = subprocess.run(words, capture_output=True, text=True, check=False)
    told = ran.stderr.strip().splitlines() or ["it loads"]
    print(f"examples/ipvs.sh, of which nothing is judged: {told[0]}")


def main():
    if sys.argv[1:] == ["--fill"]:
        fill()
    if sys.argv[1:2] == ["--watch"]:
        watch(sys.argv[2:])
        return
    checks = Checks()
    try_ipvs()
    try_limits(checks)
    with tempfile.TemporaryDirectory(prefix="satip-") as folder:
        try:
            try_failover(checks, folder)
        finally:
            tear_down()
    checks.end()


if __name__ == "__main__":
    main()
