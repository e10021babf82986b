#!/usr/bin/python3
"""`satipctl status`, `metrics`, `page` and `stop` say of a running server what its clients really did.

    trials/watched_server.py [--keep PICTURE]

A server with SATIP_STATUS and SATIP_STOP has three viewers: two over UDP, one over HTTP. One more has
left, and the datagrams of another are refused, since nobody listens at its port. What satipctl says
of each is compared with what the viewers counted meanwhile, in some seconds; both may differ by 10 %.
A server that writes no status file is shown by what the system knows: the viewer by HTTP, all
destinations and the streams. The page is drawn by Chromium, if it is installed, and kept in PICTURE.
Then the server is asked to end: it ends with status 0 when the last viewer has left.

Needs the built program (trials/lib/server.py).

Packages: iproute2 prometheus python3-prometheus-client
Rights: root
"""

import argparse
import json
import os
import re
import shutil
import subprocess
import sys
import tempfile
import threading
import time
import urllib.request

sys.dont_write_bytecode = True
from lib.checks import Checks, seconds
from lib.rtp import Receivers, port_of, receiver
from lib.rtsp import over_udp
from lib.server import PACKETS_A_SECOND, QUERIES, TOP, Server, free_ports

SATIPCTL = os.path.join(TOP, "bin", "satipctl")
ADDRESS = "127.0.0.1"
# Of the payload: 64 packets each 20 ms. A datagram has 12 bytes more for 1316.
RATE = PACKETS_A_SECOND * 188 * 8
RTP_RATE = RATE * 1328 / 1316
READINGS = 5


def ctl(*words):
    return subprocess.run((SATIPCTL, *words), capture_output=True, text=True, check=False)


def is_told(server):
    return os.path.exists(server.path("status"))


def is_near(rate, expected, part=0.1):
    return abs(rate / expected - 1) < part


class Reader:
    """Reads a stream over HTTP, and counts its bytes."""

    def __init__(self, server, query):
        self.line, self.count = server.read(query), 0
        self.thread = threading.Thread(target=self.read, daemon=True)
        self.thread.start()

    def read(self):
        try:
            while piece := self.line.recv(65536):
                self.count += len(piece)
        except OSError:
            pass

    def address(self):
        return "%s:%d" % self.line.getsockname()


class Play:
    """The server's clients: see the head of this file."""

    def __init__(self, server):
        self.receivers = Receivers(ADDRESS, 2)
        self.ports = [port_of(it) for it in self.receivers.socks]
        self.client = server.client()
        self.target, self.sessions = self.client.play_to(self.ports, QUERIES[0])
        self.reader = Reader(server, QUERIES[1])
        with receiver(ADDRESS) as left:
            self.left = port_of(left)
            target, session = self.client.play(self.client.url(QUERIES[0]), over_udp(self.left))
            time.sleep(0.3)
            self.client.tear_down(target, session)
        with receiver(ADDRESS) as closed:
            self.closed = port_of(closed)
        self.refused = server.client()
        self.refused.play(self.target, over_udp(self.closed))
        self.stopped = threading.Event()
        self.thread = threading.Thread(target=self.receive, daemon=True)
        self.thread.start()

    def receive(self):
        while not self.stopped.is_set():
            self.receivers.read_for(0.2)

    def leave(self):
        self.stopped.set()
        self.thread.join()
        self.client.tear_down(self.target, *self.sessions)
        self.client.close()
        self.refused.close()


def readings(server, play):
    """What `status --watch` says in some seconds, and what the viewers counted between each."""
    words = [SATIPCTL, "status", "--json", "--watch", "--status-file", server.path("status")]
    status = subprocess.Popen([*words, server.config], stdout=subprocess.PIPE, text=True)
    told, counted = [], []
    for _ in range(READINGS + 1):
        told.append(json.loads(status.stdout.readline()))
        counted.append((time.monotonic(), play.receivers.payload, play.reader.count))
    status.kill()
    status.wait()
    status.stdout.close()
    took = counted[-1][0] - counted[0][0]
    return told[1:], [(last - first) * 8 / took for first, last in zip(counted[0], counted[-1])][1:]


def check_status(checks, server, play):
    all_told, (by_rtp, by_http) = readings(server, play)
    told = all_told[-1]
    rates = [
        viewer["rate"]
        for it in all_told
        for viewer in it["viewers"]
        if viewer["address"] == play.reader.address()
    ]
    rate = sum(rates) / READINGS
    checks.check(is_near(rate, by_http), f"satipctl says {rate / 1e6:.3f} Mbit/s of a viewer by HTTP")
    print(f"     which counted {by_http / 1e6:.3f} Mbit/s; those by RTP {by_rtp / 2e6:.3f} Mbit/s each")
    streams = [(it["tuning"].split()[0], it["plays"]) for it in told["streams"] or ()]
    checks.check(len(streams) == 2 and all(it[1] for it in streams), f"streams: {streams}")
    # That of DESCRIBE is open too.
    checks.check(told["open"] in (3, 4), f"{told['open']} connections are open")
    if told["version"] is None:
        ports = {int(it.rpartition(":")[2]) for it in told["uncounted"]}
        all_of_them = {*play.ports, play.left, play.closed}
        checks.check(ports == all_of_them, f"destinations of RTP: {sorted(ports)}")
    else:
        check_counted(checks, play, all_told, by_rtp / 2, by_http)


def mean(all_told, kind, key, value):
    """The mean rate of a viewer or a front end, over all readings."""
    return sum(it["rate"] for told in all_told for it in told[kind] if it[key] == value) / len(all_told)


def check_counted(checks, play, all_told, by_rtp, by_http):
    """What the status file alone tells; the rates are those that a viewer of each kind counted."""
    viewers = {it["address"]: it for it in all_told[-1]["viewers"]}
    for port in play.ports:
        rate = mean(all_told, "viewers", "address", f"{ADDRESS}:{port}")
        near = is_near(rate, by_rtp * RTP_RATE / RATE)
        checks.check(near, f"a viewer by RTP gets {rate / 1e6:.3f} Mbit/s")
    checks.check(f"{ADDRESS}:{play.left}" not in viewers, "the one that left isn't there")
    lost = viewers.get(f"{ADDRESS}:{play.closed}", {"refused": 0})["refused"]
    checks.check(lost > 100, f"{lost} datagrams of the one without a port are refused")
    others = sum(viewers[f"{ADDRESS}:{it}"]["refused"] for it in play.ports)
    checks.check(others == 0, "none of the others")
    for number, counted in ((1, by_rtp), (2, by_http)):
        rate = mean(all_told, "front_ends", "number", number)
        checks.check(is_near(rate, counted), f"front end {number} reads {rate / 1e6:.3f} Mbit/s")


def check_metrics(checks, server, play):
    ran = ctl("metrics", "--status-file", server.path("status"), server.config)
    checks.check(ran.returncode == 0, f"satipctl metrics {ran.stderr.strip()}")
    words = ("promtool", "check", "metrics")
    said = subprocess.run(words, input=ran.stdout, capture_output=True, text=True, check=False)
    checks.check((said.returncode, said.stderr) == (0, ""), f"promtool finds nothing {said.stderr}")
    if is_told(server):
        found = re.findall(r"satip_datagrams_refused_total\{.*:%d\"\} (\S+)" % play.closed, ran.stdout)
        checks.check(sum(map(float, found)) > 100, f"datagrams refused: {found}")
    plays = [f'satip_streams{{front_end="{it}",state="playing"}} 1.0' in ran.stdout for it in (1, 2)]
    checks.check(all(plays), "a stream plays on each of two front ends")


def check_page(checks, server, picture):
    port = free_ports(ADDRESS)[0]
    words = [SATIPCTL, "page", "--listen", f"{ADDRESS}:{port}", "--status-file", server.path("status")]
    page = subprocess.Popen([*words, server.config], stdout=subprocess.PIPE, text=True)
    try:
        url = page.stdout.readline().strip()
        time.sleep(4)
        with urllib.request.urlopen(f"{url}status.json", timeout=5) as answer:
            told = json.load(answer)
        # A busy machine sends by fits.
        rates = [it["rate"] for it in told["viewers"] if it["rate"] > RATE / 3]
        # The one without a port is sent datagrams too.
        count = 4 if is_told(server) else 1
        checks.check(len(rates) == count, f"{url} has {len(rates)} viewers of the rate")
        checks.check(all(it["minute"] for it in told["viewers"]), "each has its minute")
        if not shutil.which("chromium"):
            print("     chromium isn't installed, so the page isn't drawn")
            return
        words = ["chromium", "--headless", "--no-sandbox", "--hide-scrollbars", "--window-size=1200,860"]
        words += ["--virtual-time-budget=3000", f"--screenshot={picture}", url]
        dom = ["chromium", "--headless", "--no-sandbox", "--virtual-time-budget=3000", "--dump-dom", url]
        try:
            subprocess.run(words, stderr=subprocess.DEVNULL, timeout=60, check=True)
            shown = subprocess.run(dom, capture_output=True, text=True, timeout=60, check=True).stdout
        except subprocess.TimeoutExpired:
            print("     chromium took over a minute on this busy machine, so the page isn't looked at")
            return
        checks.check(os.path.getsize(picture) > 10000, f"Chromium draws it: {picture}")
        rows = shown.count("<tr tabindex")
        checks.check("Mbit/s</td>" in shown and rows >= 5, f"it shows {rows} lines")
    finally:
        page.kill()
        page.wait()
        page.stdout.close()


def check_stop(checks, server, play):
    files = ["--stop-file", server.path("stop"), "--status-file", server.path("status")]
    words = [SATIPCTL, "stop", *files, "--pid", str(server.process.pid), server.config]
    stop = subprocess.Popen(words, stdout=subprocess.PIPE, stderr=subprocess.STDOUT, text=True)
    time.sleep(2.5)
    checks.check(server.lives() and server.options(1) is None, "asked to end, it takes no one more")
    before = play.reader.count
    time.sleep(1)
    rate = (play.reader.count - before) * 8
    checks.check(rate > RATE / 3, f"a viewer goes on at {rate / 1e6:.2f} Mbit/s")
    play.leave()
    begun = time.monotonic()
    play.reader.line.shutdown(2)
    status = server.status(5)
    took = time.monotonic() - begun
    checks.check(status == 0, f"it ends with {status} {seconds(took)} after the last viewer left")
    said = stop.communicate(timeout=10)[0].splitlines()
    checks.check(stop.returncode == 0, f"satipctl stop ends with {stop.returncode}: {said}")
    if is_told(server):
        counts = [int(it.split()[0]) for it in said if " connections" in it]
        checks.check(counts[:1] == [3], f"it showed who was there: {counts}")
    checks.check(said[-1:] == ["ended"], "it says the end")
    checks.check(not os.path.exists(server.path("stop")), "the stop file is removed")


def main():
    words = argparse.ArgumentParser(description="Compares what satipctl says with what clients did.")
    words.add_argument("--keep", metavar="PICTURE")
    given = words.parse_args()
    checks = Checks()
    names = ("SATIP_STATUS=FOLDER/status", "SATIP_STOP=FOLDER/stop", "SATIP_REPEAT=1")
    with tempfile.TemporaryDirectory(prefix="satip-") as folder:
        picture = os.path.abspath(given.keep or f"{folder}/page.png")
        with Server(ADDRESS, timeout=600, fronts=2, files=("a.ts", "b.ts"), before=("env", *names)) as server:
            play = Play(server)
            time.sleep(2)
            check_status(checks, server, play)
            check_metrics(checks, server, play)
            check_page(checks, server, picture)
            check_stop(checks, server, play)
            print(server.said())
    checks.end()


if __name__ == "__main__":
    main()
