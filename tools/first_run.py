#!/usr/bin/env python3
"""Serves recordings, is the first viewer, and says what to open: what tools/run.sh does once the
program is there.

    tools/first_run.py [--look] [--check] [--address ADDRESS] [RECORDING..]

tools/run.sh says what the words and statuses are. With --look it only looks for what is missing. The
program is the one that SATIP_PROGRAM names. Needs python3 (3.11) alone.
"""

import argparse
import contextlib
import http.client
import io
import os
import shlex
import shutil
import signal
import socket
import subprocess
import sys
import time
import tomllib

sys.dont_write_bytecode = True
TOP = os.path.dirname(os.path.dirname(os.path.abspath(__file__)))
sys.path.insert(0, TOP)
from satipctl import channels, new_config, packets, recordings  # noqa: E402

CARDS = [os.path.join(TOP, "examples/recordings", name) for name in ("card_1.ts", "card_2.ts")]
CONFIG, PLAYLIST = "satip.toml", "channels.m3u"
MARK = "# Written by tools/run.sh, which writes it anew at each run.\n"
PACKET, WATCHED = 188, 2000
USUAL_PORTS, OTHER_PORTS = (554, 8875), (18554, 18875)
PLAYED = {"SATIP_PACE": "recording", "SATIP_REPEAT": "1"}
# A viewer's packets are looked for in the first bytes of a recording.
HEAD = 32 << 20
START, PATIENCE = 10, 120


class Missing(Exception):
    """What this can't be done without."""


class NoStream(Exception):
    """Why a viewer didn't get what it asked for."""


class Whole(recordings.Programme):
    """A recording whose tables weren't read: all of its packets."""

    def pids(self):
        return ["all"]


def whole(path):
    name = os.path.splitext(os.path.basename(path))[0]
    return Whole(number=1, name=name, provider="", pmt_pid=0, pcr_pid=0)


def head_of(path):
    with open(path, "rb") as file:
        return file.read(HEAD)


def probe(path):
    """The recording in a file: by ffprobe, or by its packets alone if that isn't installed."""
    if shutil.which("ffprobe"):
        recording = recordings.probe(path)
        recording.programmes = recording.programmes or [whole(path)]
        return recording
    try:
        head = packets.look(path)
    except OSError as error:
        raise recordings.NoRecording(error.strerror) from error
    if head.fault:
        raise recordings.NoRecording(head.fault)
    seconds = os.path.getsize(path) * 8 / head.rate if head.rate else 0
    return recordings.Recording(path, head.rate or 0, seconds, [whole(path)])


def chosen(given):
    """The recordings; says of each what it is."""
    found, _ = new_config.taken([os.path.relpath(it) for it in given.recordings or CARDS], probe)
    if not found:
        raise Missing("a recording that can be played")
    return found


def ports(address):
    """The ports to listen at; says where they aren't the usual ones."""
    found = [new_config.free_port(address, *it) for it in zip(USUAL_PORTS, OTHER_PORTS)]
    if None in found:
        raise Missing(f"a free port of {address}, or it isn't an address of this machine")
    for usual, port in zip(USUAL_PORTS, found):
        if port != usual:
            print(f"Port {usual} is taken or may not be opened here, so {port} is used.")
    return found


def is_ours(path):
    try:
        with open(path, encoding="utf-8") as file:
            return file.readline() == MARK
    except (OSError, UnicodeDecodeError):
        return False


def look_for_room():
    """Sees that what is written here is written over nobody's files."""
    for name in (CONFIG, PLAYLIST):
        if os.path.lexists(name) and not is_ours(CONFIG):
            raise Missing(f"room for {name}: one that this didn't write is here; start it in another folder")
    if not os.access(".", os.W_OK):
        raise Missing(f"a folder that may be written: {os.getcwd()} may not")


def write_files(address, both, found):
    """Writes configuration and playlist; returns the server and its channels."""
    text = new_config.config_text(address, *both, found)
    server = channels.Server(address, *both)
    rows = []
    for number, (mux, recording) in enumerate(zip(tomllib.loads(text)["mux"], found), 1):
        rows += [channels.Channel(0, number, mux, recording, it) for it in recording.programmes]
    for number, row in enumerate(rows, 1):
        row.number = number
    with open(CONFIG, "w", encoding="utf-8") as file:
        file.write(MARK + text)
    with open(PLAYLIST, "w", encoding="utf-8") as file:
        file.writelines(f"{line}\n" for line in channels.m3u(server, rows))
    return server, rows


@contextlib.contextmanager
def serving(program, server):
    """The server, until it is no more needed."""
    process = subprocess.Popen([program, "serve", CONFIG, "0"], env={**os.environ, **PLAYED})
    try:
        wait_for(process, server)
        yield process
    finally:
        process.terminate()
        process.wait()


def wait_for(process, server):
    end = time.monotonic() + START
    while time.monotonic() < end:
        if process.poll() is not None:
            raise NoStream(f"the server ended with status {process.returncode}")
        try:
            socket.create_connection((server.address, server.rtsp_port), timeout=1).close()
            return
        except OSError:
            time.sleep(0.05)
    raise NoStream(f"nothing listens at {server.address}:{server.rtsp_port} after {START} s")


def query_of(channel):
    """Asks for all packets of a channel's multiplex."""
    return channel.query().rsplit("&pids=", 1)[0] + "&pids=all"


def is_in_order(got, path):
    """Whether these are packets of the recording that follow each other, over its end too."""
    head = head_of(path)
    if len(head) < HEAD:
        head = head[: len(head) // PACKET * PACKET]
        head *= 2 + len(got) // max(len(head), 1)
    return head.find(got) % PACKET == 0


def told(got, seconds, channel, way):
    """What a viewer says of what it got."""
    count = len(got) // PACKET
    text = f"a viewer got {count} packets in {seconds:.1f} s"
    if len(got) < WATCHED * PACKET:
        raise NoStream(f"{text}, and no more ({way})")
    if not is_in_order(got, channel.recording.path):
        raise NoStream(f"{text}, but not those of {channel.recording.path} in order ({way})")
    return f"{text}, in order, none missing ({way}, {channel.programme.name})"


def watch_by_rtsp(program, server, channel):
    """Records from the server, by the program's own client."""
    where = f"{server.address}:{server.rtsp_port}"
    words = [program, "record", where, query_of(channel), str(WATCHED)]
    begun = time.monotonic()
    ran = subprocess.run(words, stdin=subprocess.DEVNULL, capture_output=True, check=False)
    said = ran.stderr.decode(errors="replace").strip().splitlines()
    if ran.returncode or said:
        raise NoStream(f"satip record ended with status {ran.returncode}: {(said or ['-'])[-1]}")
    return told(ran.stdout, time.monotonic() - begun, channel, "RTSP and RTP")


def watch_by_http(server, channel):
    begun = time.monotonic()
    line = http.client.HTTPConnection(server.address, server.http_port, timeout=PATIENCE)
    try:
        line.request("GET", f"/?{query_of(channel)}")
        reply = line.getresponse()
        if reply.status != http.client.OK:
            raise NoStream(f"HTTP: {reply.status} {reply.reason}")
        got = reply.read(WATCHED * PACKET)
    except (OSError, http.client.HTTPException) as error:
        raise NoStream(f"HTTP: {error}") from error
    finally:
        line.close()
    return told(got, time.monotonic() - begun, channel, "HTTP")


def say_what_to_open(server, rows):
    url = shlex.quote(server.url("http", rows[0].query()))
    print(f"Open it, each channel by {PLAYLIST} or the first by its URL:")
    print(f"    vlc {PLAYLIST}")
    print(f"    ffplay {url}")
    print(f"    curl {url} > stream.ts", flush=True)


def start_line(program):
    path = os.path.relpath(program)
    words = [f"{name}={value}" for name, value in PLAYED.items()]
    return " ".join([*words, shlex.quote(path if "/" in path else f"./{path}"), "serve", CONFIG, "0"])


def serve_until_asked(process):
    print("It serves until Ctrl-C.", flush=True)
    try:
        process.wait()
    except KeyboardInterrupt:
        print()
        return
    raise NoStream(f"the server ended with status {process.returncode}")


def run(given):
    look_for_room()
    if given.look:
        with contextlib.redirect_stdout(io.StringIO()) as said:
            try:
                chosen(given)
            except Missing:
                sys.stderr.write(said.getvalue())
                raise
            ports(given.address)
        return
    program = os.path.abspath(os.environ["SATIP_PROGRAM"])
    found = chosen(given)
    server, rows = write_files(given.address, ports(given.address), found)
    print(f"{CONFIG} and {PLAYLIST} are written: {len(rows)} channels.", flush=True)
    with serving(program, server) as process:
        print(watch_by_rtsp(program, server, rows[0]), flush=True)
        print(watch_by_http(server, rows[-1]), flush=True)
        say_what_to_open(server, rows)
        if not given.check:
            serve_until_asked(process)
    print(f"The server is ended. To start it again:\n    {start_line(program)}")


def main():
    signal.signal(signal.SIGTERM, lambda *_: sys.exit(1))
    words = argparse.ArgumentParser(description="Serves recordings and watches them.")
    words.add_argument("--look", action="store_true", help="only looks for what is missing")
    words.add_argument("--check", action="store_true", help="ends after the viewer")
    words.add_argument("--address", default="127.0.0.1", help="an address of this machine")
    words.add_argument("recordings", metavar="RECORDING", nargs="*", help="a transport stream")
    try:
        run(words.parse_args())
    except Missing as what:
        print(f"missing: {what}", file=sys.stderr)
        sys.exit(2)
    except NoStream as why:
        print(f"no stream: {why}", file=sys.stderr)
        sys.exit(1)
    except KeyboardInterrupt:
        sys.exit(130)


if __name__ == "__main__":
    main()
