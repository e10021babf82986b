#!/usr/bin/env python3
"""Measures `satip record` on loopback, and FFmpeg's `-c copy` of the same stream.

    python3 bench/record.py [PROGRAM [PACKETS]]

A server of this script plays a recording of 100 Mbit/s, which FFmpeg makes, evenly: a datagram of
seven packets every 105 microseconds, those that are due sent once a millisecond. Each client is run
once; PACKETS are 1000000 without the word, 15 seconds of the stream. For each it prints CPU seconds
of the process (wait4) and its most memory (VmHWM), and how many packets were lost: seven for each
datagram that a line `gap FROM COUNT` or FFmpeg's `RTP: missed COUNT packets` tells. What they write
goes to a file.

PROGRAM is SATIP_PROGRAM or crates/satip/out/satip without the word, which `tools/program_alone.sh`
builds. Needs the Debian package ffmpeg. Without it the recording is random bytes in packets, and
`satip record` is measured alone."""

import os
import random
import re
import shutil
import socket
import struct
import subprocess
import sys
import tempfile
import threading
import time

TOP = os.path.dirname(os.path.dirname(os.path.abspath(__file__)))
sys.path.insert(0, os.path.join(TOP, "trials"))
sys.dont_write_bytecode = True
from lib.rtp import PACKET, PACKETS_A_DATAGRAM
from lib.server import QUERY, words_of_bench

ADDRESS = "127.0.0.1"
BIT_RATE = 100_000_000
PAYLOAD = PACKET * PACKETS_A_DATAGRAM
DATAGRAMS_A_SECOND = BIT_RATE / 8 / PAYLOAD
SDP = (
    "v=0\r\no=- 1 1 IN IP4 127.0.0.1\r\ns=bench\r\nt=0 0\r\n"
    "m=video 0 RTP/AVP 33\r\nc=IN IP4 0.0.0.0\r\na=control:stream=1\r\n"
)


def make_recording(path, packets):
    """A picture with noise at 90 Mbit/s in a stream of 100 Mbit/s."""
    seconds = packets * PACKET * 8 / BIT_RATE + 1
    picture = "testsrc2=size=1920x1080:rate=25,noise=alls=60:allf=t"
    coded = "-c:v mpeg2video -pix_fmt yuv420p -g 1 -b:v 90M -minrate 90M -maxrate 90M -bufsize 20M"
    words = ["ffmpeg", "-hide_banner", "-loglevel", "error", "-f", "lavfi", "-i", picture]
    words += ["-t", str(seconds), *coded.split(), "-f", "mpegts", "-muxrate", str(BIT_RATE), path]
    subprocess.run(words, check=True)


def make_noise(path, packets):
    noise = random.Random(1).randbytes(184 * 1000)
    thousand = b"".join(
        bytes((0x47, 1, 0, 0x10 | place % 16)) + noise[184 * place : 184 * (place + 1)]
        for place in range(1000)
    )
    with open(path, "wb") as file:
        for _ in range(packets // 1000 + 1):
            file.write(thousand)


class Player:
    """An RTSP server that plays a recording to one client at a time: over and over, or up to a
    number of datagrams, after which it ends the connection."""

    def __init__(self, recording):
        with open(recording, "rb") as file:
            text = file.read()
        self.payloads = [text[at : at + PAYLOAD] for at in range(0, len(text), PAYLOAD)]
        self.listener = socket.create_server((ADDRESS, 0))
        self.port = self.listener.getsockname()[1]
        self.sock = socket.socket(socket.AF_INET, socket.SOCK_DGRAM)
        self.sock.bind((ADDRESS, 0))
        self.limit, self.sent, self.plays = 0, 0, False
        threading.Thread(target=self.serve, daemon=True).start()

    def expect(self, limit):
        """Sends the next client `limit` datagrams, or all it wants without a limit."""
        self.limit, self.sent = limit, 0

    def serve(self):
        while True:
            line, _ = self.listener.accept()
            try:
                self.talk(line)
            except OSError:
                pass
            self.plays = False
            line.close()

    def talk(self, line):
        text, port = b"", 0
        while True:
            while b"\r\n\r\n" not in text:
                piece = line.recv(65536)
                if not piece:
                    return
                text += piece
            head, _, text = text.partition(b"\r\n\r\n")
            head = head.decode()
            method = head.split(" ", 1)[0]
            if method == "SETUP":
                port = int(re.search(r"client_port=(\d+)", head).group(1))
            line.sendall(self.reply(method, head, port).encode())
            if method == "PLAY":
                self.plays = True
                threading.Thread(target=self.play, args=(line, port), daemon=True).start()
            if method == "TEARDOWN":
                self.plays = False

    def reply(self, method, head, port):
        cseq = re.search(r"CSeq: *(\d+)", head, re.I).group(1)
        lines = [f"CSeq: {cseq}", "Session: 1;timeout=60"]
        body = ""
        if method == "OPTIONS":
            lines.append("Public: OPTIONS, DESCRIBE, SETUP, PLAY, TEARDOWN")
        if method == "SETUP":
            own = self.sock.getsockname()[1]
            ports = f"client_port={port}-{port + 1};server_port={own}-{own + 1}"
            lines += [f"Transport: RTP/AVP;unicast;{ports}", "com.ses.streamID: 1"]
        if method == "DESCRIBE":
            body = SDP
            lines += ["Content-Type: application/sdp", f"Content-Length: {len(body)}",
                      f"Content-Base: rtsp://{ADDRESS}:{self.port}/"]
        return "\r\n".join(["RTSP/1.0 200 OK", *lines, "", body])

    def play(self, line, port):
        begun = time.perf_counter()
        while self.plays and not (self.limit and self.sent >= self.limit):
            due = int((time.perf_counter() - begun) * DATAGRAMS_A_SECOND)
            while self.sent < due:
                number = self.sent
                stamp = int(number * 90000 / DATAGRAMS_A_SECOND) & 0xFFFFFFFF
                header = struct.pack(">BBHII", 0x80, 33, number & 0xFFFF, stamp, 1)
                payload = self.payloads[number % len(self.payloads)]
                self.sock.sendto(header + payload, (ADDRESS, port))
                self.sent += 1
            time.sleep(0.001)
        if self.plays:
            time.sleep(1)
            line.shutdown(socket.SHUT_RDWR)


def most_memory(pid):
    """The most MB that a process had; None where it has ended."""
    try:
        with open(f"/proc/{pid}/status", encoding="ascii") as file:
            told = re.search(r"VmHWM:\s*(\d+)", file.read())
    except FileNotFoundError:
        return None
    return int(told.group(1)) / 1024 if told else None


class Measured:
    """A client that was run to its end."""

    def __init__(self, words, output, player, limit):
        player.expect(limit)
        with open(output, "wb") as out, tempfile.TemporaryFile() as errors:
            client = subprocess.Popen(words, stdin=subprocess.DEVNULL, stdout=out, stderr=errors)
            self.memory = 0
            pid = 0
            while not pid:
                # wait4 tells the memory of the process that started it, too
                self.memory = most_memory(client.pid) or self.memory
                time.sleep(0.1)
                pid, status, used = os.wait4(client.pid, os.WNOHANG)
            client.returncode = os.waitstatus_to_exitcode(status)
            errors.seek(0)
            self.errors = errors.read().decode(errors="replace")
        self.status = client.returncode
        self.cpu = used.ru_utime + used.ru_stime
        self.bytes, self.sent = os.path.getsize(output), player.sent

    def show(self, name, lost):
        packets = self.sent * PACKETS_A_DATAGRAM
        each = 1e6 * self.cpu / packets
        print(f"{name}: {self.cpu:.2f} s of CPU ({each:.2f} s a million packets), "
              f"{self.memory:.1f} MB; {packets} packets sent, {lost} lost; "
              f"{self.bytes} bytes written; status {self.status}", flush=True)


def measure_record(program, player, count, output):
    words = [program, "record", f"{ADDRESS}:{player.port}", QUERY + "&pids=all", str(count)]
    record = Measured(words, output, player, None)
    gaps = [int(told) for told in re.findall(r"^gap \d+ (\d+)$", record.errors, re.M)]
    record.show("satip record", PACKETS_A_DATAGRAM * sum(gaps))
    well = record.status == 0 and record.bytes == PACKET * count
    if not well:
        print(record.errors[-300:])
    return well


def measure_ffmpeg(player, count, output):
    words = ["ffmpeg", "-hide_banner", "-nostats", "-loglevel", "warning", "-rtsp_transport", "udp"]
    words += ["-i", f"rtsp://{ADDRESS}:{player.port}/", "-map", "0", "-c", "copy"]
    words += ["-f", "mpegts", "-y", output]
    copy = Measured(words, output, player, count // PACKETS_A_DATAGRAM)
    missed = [int(told) for told in re.findall(r"RTP: missed (\d+) packets", copy.errors)]
    copy.show("ffmpeg -c copy", PACKETS_A_DATAGRAM * sum(missed))


def main():
    program, count = words_of_bench(1_000_000)
    has_ffmpeg = shutil.which("ffmpeg") is not None
    with tempfile.TemporaryDirectory() as folder:
        recording, output = os.path.join(folder, "a.ts"), os.path.join(folder, "out.ts")
        (make_recording if has_ffmpeg else make_noise)(recording, count)
        player = Player(recording)
        well = measure_record(program, player, count, output)
        if has_ffmpeg:
            measure_ffmpeg(player, count, output)
        else:
            print("ffmpeg isn't installed, so `satip record` was measured alone")
    sys.exit(0 if well else 1)


if __name__ == "__main__":
    main()
