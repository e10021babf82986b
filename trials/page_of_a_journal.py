#!/usr/bin/env python3
"""`satipctl journal page` shows the sessions, refusals and gaps that clients made.

    trials/page_of_a_journal.py [--keep FOLDER]

A server with two front ends journals for some 40 seconds, while clients create streams and join
them, are refused, vanish, read over HTTP, select no PIDs for a while, and play a recording to its
end. The data of the page has to say what the clients saw: each session with its stream, its owner
and its end, each refusal with its cause, the gaps within half a second, and the datagrams that
arrived. With --keep the journals and the page, run.html, are put in FOLDER, and the page's URL is
printed. Ends with status 1 if something doesn't hold. Needs the built program (trials/lib/server.py).

Packages: curl ffmpeg
Limit: 180 s
"""

import argparse
import glob
import json
import os
import re
import shutil
import subprocess
import sys
import tempfile
import threading
import time

sys.dont_write_bytecode = True
from lib.checks import Checks
from lib.rtp import port_of, receiver_pair
from lib.rtsp import over_udp
from lib.server import QUERIES, Server, program

ADDRESS = "127.0.0.1"
TOP = os.path.dirname(os.path.dirname(os.path.abspath(__file__)))
TIMEOUT = 10
KEEP_ALIVE = 3
BITS_A_SECOND = 600000
NEAR = 500
DATA = re.compile(r'<script type="application/json" id="run">(.*?)</script>', re.S)
MOST_BYTES, MOST_SECONDS = 5000000, 10


def moment():
    return int(time.time() * 1000)


def make_recording(path, seconds):
    """A recording with a picture, at a rate that a journal of a minute can bear."""
    words = [
        "ffmpeg",
        "-loglevel",
        "error",
        "-y",
        "-f",
        "lavfi",
        "-i",
        "testsrc2=size=320x240:rate=25",
    ]
    words += [
        "-t",
        str(seconds),
        "-c:v",
        "mpeg2video",
        "-b:v",
        "350k",
        "-maxrate",
        "400k",
        "-bufsize",
        "400k",
    ]
    words += ["-f", "mpegts", "-muxrate", str(BITS_A_SECOND), "-pcr_period", "20", path]
    subprocess.run(words, check=True)


class Viewer:
    """An RTSP client at an address of its own, and the moments at which RTP came to it."""

    def __init__(self, server, host):
        self.host, self.server = host, server
        self.rtsp = server.client(source=host)
        self.rtp, self.rtcp = receiver_pair(host)
        self.arrivals, self.name, self.stream, self.heard = [], None, None, 0
        self.is_over = False
        self.thread = threading.Thread(target=self.receive, daemon=True)
        self.thread.start()

    def receive(self):
        self.rtp.settimeout(0.1)
        while not self.is_over:
            try:
                self.rtp.recv(2048)
                self.arrivals.append(moment())
            except (TimeoutError, BlockingIOError):
                pass

    def set_up(self, target):
        self.stream, self.name = self.rtsp.set_up(target, over_udp(port_of(self.rtp)))
        self.heard = time.monotonic()

    def ask(self, method, query=""):
        target = self.stream + (f"?{query}" if query else "")
        self.heard = time.monotonic()
        return self.rtsp.must(method, target, f"Session: {self.name}")

    def keep_alive(self):
        if time.monotonic() - self.heard > KEEP_ALIVE:
            self.ask("OPTIONS")

    def close(self):
        self.is_over = True
        self.thread.join()
        self.rtsp.close()


class Play:
    """What the clients do, one after another, and what they saw."""

    def __init__(self, server):
        self.server, self.viewers, self.all = server, [], []
        self.refused, self.gaps, self.ends = [], [], {}

    def viewer(self, host, target):
        viewer = Viewer(self.server, host)
        viewer.set_up(target)
        self.viewers.append(viewer)
        self.all.append(viewer)
        return viewer

    def rest(self, seconds):
        """Waits, while the viewers keep their sessions alive."""
        end = time.monotonic() + seconds
        while time.monotonic() < end:
            for viewer in self.viewers:
                viewer.keep_alive()
            time.sleep(0.05)

    def leave(self, viewer):
        viewer.ask("TEARDOWN")
        self.ends[viewer.name] = "TEARDOWN"
        self.viewers.remove(viewer)

    def refuse(self, status, word, host, method, target, *headers):
        """Sends a request that has to be refused with a status."""
        client = self.server.client(source=host)
        reply = client.ask(method, target, *headers)
        client.close()
        self.refused.append((status, word, int(reply.split()[1])))

    def refuse_get(self, status, word, url):
        """Asks for a stream over HTTP, which has to be refused with a status."""
        words = ["curl", "-s", "-o", os.devnull, "-w", "%{http_code}", url]
        told = subprocess.run(words, capture_output=True, check=False).stdout
        self.refused.append((status, word, int(told)))

    def run(self):
        base = f"rtsp://{ADDRESS}:{self.server.ports[0]}/"
        self.server.options(20)
        self.rest(0.5)
        first = self.viewer("127.0.0.20", f"{base}?{QUERIES[0]}&pids=all")
        first.ask("PLAY")
        self.rest(1.5)
        second = self.viewer("127.0.0.21", first.stream)
        self.rest(0.7)
        second.ask("PLAY")
        self.with_reader(base)
        self.vanish(first)
        self.select_none(first)
        self.rest(2)
        self.leave(first)
        self.rest(1.5)
        self.retune(base)
        self.rest(2)
        self.leave(second)
        self.late()
        self.rest(1)

    def with_reader(self, base):
        """A reader over HTTP has the second front end, so a third multiplex is refused."""
        url = f"http://{ADDRESS}:{self.server.ports[1]}/?{QUERIES[1]}&pids=all"
        reader = subprocess.Popen(["curl", "-s", "-o", os.devnull, url])
        self.rest(2)
        third = f"{base}?{QUERIES[2]}&pids=all"
        ports = over_udp(17000)
        self.refuse(503, "no front end is available", "127.0.0.30", "SETUP", third, ports)
        self.refuse(
            400, "the syntax of freq is wrong", "127.0.0.30", "SETUP", f"{base}?freq=here", ports
        )
        self.refuse(404, "stream 9 doesn't live", "127.0.0.30", "SETUP", f"{base}stream=9", ports)
        url = f"http://{ADDRESS}:{self.server.ports[1]}/"
        self.refuse_get(503, "no front end is available", f"{url}?{QUERIES[2]}&pids=all")
        self.refuse_get(404, "the target isn't there", url)
        player = subprocess.Popen(
            [
                "ffmpeg",
                "-loglevel",
                "quiet",
                "-y",
                "-i",
                f"{base}stream=1",
                "-t",
                "4",
                "-c",
                "copy",
                "-f",
                "null",
                "-",
            ]
        )
        self.rest(6)
        reader.kill()
        reader.wait()
        player.wait(20)

    def vanish(self, first):
        """A client joins, plays, and says no more."""
        gone = self.viewer("127.0.0.22", first.stream)
        gone.ask("PLAY")
        gone.rtsp.close()
        self.viewers.remove(gone)
        self.ends[gone.name] = "timeout"
        self.gone = gone
        self.rest(2)

    def select_none(self, first):
        first.ask("PLAY", "pids=none")
        begun = moment()
        self.rest(2.5)
        first.ask("PLAY", "pids=all")
        for viewer in (*self.viewers, self.gone):
            self.gaps.append((viewer.name, begun, moment(), "no PID was selected"))

    def retune(self, base):
        """The recording of the second multiplex ends, and its viewer goes on to the third."""
        words = [
            program(),
            "record",
            f"{ADDRESS}:{self.server.ports[0]}",
            f"{QUERIES[1]}&pids=all",
            "900",
        ]
        subprocess.run(words, stdout=subprocess.DEVNULL, stderr=subprocess.DEVNULL, check=True)
        zapper = self.viewer("127.0.0.23", f"{base}?{QUERIES[1]}&pids=all")
        zapper.ask("PLAY")
        self.rest(7.5)
        ended = "the recording had ended"
        self.gaps.append((zapper.name, zapper.arrivals[-1], moment(), ended))
        zapper.ask("PLAY", QUERIES[2])
        self.rest(3)
        self.leave(zapper)

    def late(self):
        """The client that vanished comes again, after its session has ended."""
        self.rest(1)
        headers = f"Session: {self.gone.name}"
        self.refuse(454, "the session ended at", "127.0.0.22", "PLAY", self.gone.stream, headers)


def serve(folder):
    """Runs the clients against a server that journals; returns what they saw."""
    paced = ("env", "SATIP_PACE=recording")
    files = ("a.ts", "b.ts", "c.ts")
    for name, seconds in zip(files, (90, 5, 30)):
        make_recording(os.path.join(folder, name), seconds)
    words = {"timeout": TIMEOUT, "fronts": 2, "files": files, "before": paced, "command": "journal"}
    with Server(ADDRESS, recording=b"G" + bytes(187), **words) as server:
        for name in files:
            shutil.move(os.path.join(folder, name), server.path(name))
        play = Play(server)
        play.run()
        for viewer in play.all:
            viewer.close()
        server.process.kill()
        server.process.wait()
        for name in (*glob.glob(server.path("journal.*")), server.config):
            shutil.copy(name, folder)
    return play


def page_of(folder, name, *words):
    """Makes the page of the journals of a folder; returns its data, its text and the seconds taken."""
    begun, path = time.monotonic(), os.path.join(folder, name)
    words = [os.path.join(TOP, "bin", "satipctl"), "journal", "page", *words]
    words += sorted(glob.glob(os.path.join(folder, "journal.*")))
    with open(path, "wb") as page:
        subprocess.run(words, stdout=page, check=True)
    with open(path, encoding="utf-8") as page:
        text = page.read()
    return json.loads(DATA.search(text).group(1)), text, time.monotonic() - begun


def needs_nothing(text):
    """Whether a page refers to nothing outside itself."""
    outside = r'(?:src|href)=|url\(["\']?(?!#)|@import|https?://(?!www\.w3\.org/2000/svg)'
    return not re.search(outside, DATA.sub("", text))


def outline(data):
    """What a page of all lines and one of samples have to agree on."""
    keys = ("id", "at", "plays", "until", "why", "segments")
    sessions = [[session[key] for key in keys] for session in data["sessions"]]
    spells = [[(it["mux"], it["tune"]) for it in front["spells"]] for front in data["fronts"]]
    return sessions, spells, data["counts"]["refused"]


def check_sample(checks, data, sampled):
    """A page that read a part of the pumps' journals says the same of sessions and tunings."""
    checks.check(
        sampled["remarks"] and not data["remarks"], "a page of samples says that it is one"
    )
    is_same = outline(data) == outline(sampled)
    checks.check(is_same, "it has the same sessions, tunings and refusals")
    counts = [it["counts"]["datagrams"] for it in (data, sampled)]
    text = f"of {counts[0]} datagrams it knows {counts[1]}, by the reports"
    checks.check(0.97 * counts[0] < counts[1] <= counts[0], text)


def check_sessions(checks, play, data):
    shown = {it["id"]: it for it in data["sessions"]}
    for viewer in play.all:
        session, stream = shown.get(viewer.name), int(viewer.stream.rpartition("=")[2])
        checks.check(session is not None, f"the session of {viewer.host} is shown")
        if session is None:
            continue
        is_same = (session["peer"], session["stream"]) == (viewer.host, stream)
        checks.check(
            is_same and session["plays"] is not None, f"{viewer.host}: stream {stream}, playing"
        )
        why = play.ends[viewer.name]
        checks.check(session["why"].startswith(why), f"{viewer.host}: it ended by {why}")
        checks.check(
            session["joined"] == (viewer.host in ("127.0.0.21", "127.0.0.22")),
            f"{viewer.host}: owner or joined",
        )
        came, sent = len(viewer.arrivals), session["total"]
        checks.check(came == sent, f"{viewer.host}: {sent} datagrams were sent, {came} came")
    kinds = [it["kind"] for it in data["sessions"]]
    checks.check(kinds.count("HTTP") == 1, "the reader over HTTP is a session")
    checks.check(
        len(kinds) == len(play.all) + 3, "so are curl, ffmpeg and `satip record`, and no others"
    )
    second = shown[play.all[1].name]
    checks.check(
        second["owns"] is not None and second["owns"] > second["at"],
        "the joined session owned the stream at last",
    )
    reader = next(it for it in data["sessions"] if it["kind"] == "HTTP")
    checks.check(reader["segments"][0][2:4] == [2, 2], "the reader has the second front end")
    checks.check(reader["why"] == "the reader closed its connection", "the reader's end is shown")


def check_refusals(checks, play, data):
    shown = [it for it in data["entries"] if it[3] == "refused"]
    checks.check(
        len(shown) == len(play.refused) == data["counts"]["refused"],
        f"{len(play.refused)} refusals are shown",
    )
    for (wanted, word, told), row in zip(play.refused, shown):
        cause = data["texts"][row[9]]
        checks.check(wanted == told == row[8] and word in cause, f"{told}: {cause}")
        heads = f"RTSP/1.0 {told} ", f"HTTP/1.1 {told} "
        is_there = data["texts"][row[7]].startswith(heads)
        checks.check(is_there, f"{told}: its reply is there as text")


def is_near(data, gap, begun, ended):
    """Whether a gap of the page began and ended when a client saw it."""
    start = data["start"]
    return abs(start + gap[0] - begun) < NEAR and abs(start + gap[1] - ended) < NEAR


def check_gaps(checks, play, data):
    shown = {it["id"]: it["gaps"] for it in data["sessions"] if it["kind"] == "RTSP"}
    for name, begun, ended, cause in play.gaps:
        near = [gap[2] for gap in shown[name] if is_near(data, gap, begun, ended)]
        checks.check(near == [cause], f"session {name}: {ended - begun} ms without RTP, {near}")
    known = {name for name, *_ in play.gaps}
    others = [gap for name, gaps in shown.items() if name not in known for gap in gaps]
    late = [gap for gap in others if "no tick" in gap[2]]
    checks.check(others == late, "no other gap of an RTSP session, but where no tick was made")
    checks.check(not [it for it in data["gaps"] if it[2] == "missing"], "no line is missing")


def check_fronts(checks, data):
    fronts = {it["number"]: [spell["mux"] for spell in it["spells"]] for it in data["fronts"]}
    checks.check(fronts == {1: [1], 2: [2, 2, 2, 3]}, f"the front ends' multiplexes: {fronts}")
    ended = [
        spell for front in data["fronts"] for spell in front["spells"] if spell["ended"] is not None
    ]
    checks.check(
        any(spell["mux"] == 2 for spell in ended), "the end of the second recording is shown"
    )


def main():
    parser = argparse.ArgumentParser(
        description=__doc__, formatter_class=argparse.RawDescriptionHelpFormatter
    )
    parser.add_argument("--keep", metavar="FOLDER")
    options = parser.parse_args()
    checks = Checks()
    with tempfile.TemporaryDirectory(prefix="satip-") as scratch:
        folder = options.keep or scratch
        os.makedirs(folder, exist_ok=True)
        play = serve(folder)
        data, text, took = page_of(folder, "run.html")
        sampled, _, _ = page_of(folder, "sampled.html", "--sampled-above", "2")
        small = len(text) < MOST_BYTES and took < MOST_SECONDS
        checks.check(small, f"the page is made in {took:.1f} s and has {len(text)} bytes")
        checks.check(needs_nothing(text), "it needs nothing else")
        check_sample(checks, data, sampled)
        check_sessions(checks, play, data)
        check_refusals(checks, play, data)
        check_gaps(checks, play, data)
        check_fronts(checks, data)
        if options.keep:
            place = next(row[0] for row in data["entries"] if row[3] == "refused")
            print(f"page: file://{os.path.abspath(folder)}/run.html#{place}")
    checks.end()


if __name__ == "__main__":
    main()
