#!/usr/bin/env python3
"""Measures `satip serve` to receivers of RTP at the rates of real recordings, on loopback.

    python3 bench/receivers.py [PROGRAM [SECONDS]]

FFmpeg makes a recording of 5 and one of 20 Mbit/s, and each is played at its own rate
(SATIP_PACE=recording) to 1, 16 and 60 receivers, each time for SECONDS, which is 7 without the
word. CPU is that of all threads of the server, by /proc/PID/task/*/schedstat. Packets are counted
by the bytes that came, since a datagram that a tick sends off has less than seven; what is missing
is read off the RTP numbers.

PROGRAM is SATIP_PROGRAM or crates/satip/out/satip without the word, which `tools/program_alone.sh`
builds. Needs the Debian package ffmpeg."""

import os
import subprocess
import sys
import tempfile
import time

TOP = os.path.dirname(os.path.dirname(os.path.abspath(__file__)))
sys.path.insert(0, os.path.join(TOP, "trials"))
sys.dont_write_bytecode = True
from lib.rtp import PACKET, Receivers
from lib.server import QUERY, Server, cpu_seconds, resident_megabytes, use_program

ADDRESS = "127.0.0.1"
MEGABITS = (5, 20)
RECEIVERS = (1, 16, 60)


def make_recording(path, megabits):
    """Half a minute of a test picture with a tone, in a stream of a constant rate."""
    picture = f"{megabits * 800 - 300}k"
    words = ["ffmpeg", "-hide_banner", "-loglevel", "error", "-y"]
    words += ["-f", "lavfi", "-i", "testsrc2=size=720x576:rate=25"]
    words += ["-f", "lavfi", "-i", "sine=frequency=440:sample_rate=48000", "-t", "30"]
    words += ["-c:v", "mpeg2video", "-pix_fmt", "yuv420p", "-g", "12", "-b:v", picture]
    words += ["-minrate", picture, "-maxrate", picture, "-bufsize", picture]
    words += ["-c:a", "mp2", "-b:a", "192k", "-f", "mpegts", "-muxrate", f"{megabits}M", path]
    subprocess.run(words, check=True)


def measure(count, server, seconds):
    """Prints one row: the server plays to `count` receivers."""
    receivers, client, pid = Receivers(ADDRESS, count), server.client(), server.process.pid
    target, sessions = client.play_to(receivers.ports(), QUERY)
    receivers.read_for(1)
    cpu, payload, begun = cpu_seconds(pid), receivers.payload, time.monotonic()
    receivers.read_for(seconds)
    took = time.monotonic() - begun
    cpu = (cpu_seconds(pid) - cpu) / took
    payload = (receivers.payload - payload) / took
    memory = resident_megabytes(pid)
    client.tear_down(target, *sessions)
    receivers.close()
    client.close()
    print(
        f"{count:3} receivers: {8 * payload / 1e6:7.1f} Mbit/s, {100 * cpu:5.2f} % of a processor: "
        f"{100 * cpu / count:.3f} % a receiver, {1e8 * cpu / payload / 8:.4f} % a Mbit/s, "
        f"{1e6 * cpu * PACKET / payload:.2f} s a million packets; {memory:.1f} MB; "
        f"missing {receivers.missing} of {receivers.datagrams + receivers.missing}",
        flush=True,
    )


def main():
    use_program(sys.argv[1:2])
    seconds = float(sys.argv[2]) if len(sys.argv) > 2 else 7
    paced = ("env", "SATIP_PACE=recording", "SATIP_REPEAT=1")
    with tempfile.TemporaryDirectory() as folder:
        for megabits in MEGABITS:
            make_recording(f"{folder}/a.ts", megabits)
            with open(f"{folder}/a.ts", "rb") as file:
                recording = file.read()
            with Server(ADDRESS, before=paced, recording=recording) as server:
                print(f"a recording of {megabits} Mbit/s:")
                for count in RECEIVERS:
                    measure(count, server, seconds)


if __name__ == "__main__":
    main()
