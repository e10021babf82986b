"""A client of a running server: RTSP, and RTP over UDP. For `probe`, `wait`, `status` and `hold`, and
for the trials (trials/lib/rtsp.py)."""

import re
import socket
import time

from . import configuration

RTSP_PORT = 554
BLANK = b"\r\n\r\n"
LENGTH = re.compile(rb"Content-Length: *(\d+)", re.I)
# What one call receives at most: a burst of frames, or a reply, whose smaller buffer costs less.
FRAMES, REPLY = 262144, 16384


class Refused(ConnectionError):
    """A request that has another status than 200."""


def server_of(text):
    """The RTSP address and port of ADDRESS, ADDRESS:PORT or the path of a configuration."""
    if "/" in text or text.endswith(".toml"):
        address, port, _ = configuration.read(text).server()
        return "127.0.0.1" if address == "0.0.0.0" else address, port
    return address_of(text)


def address_of(text):
    """The address and the port of ADDRESS or ADDRESS:PORT; raises ValueError if it is neither."""
    address, colon, port = text.partition(":")
    number = int(port) if colon else RTSP_PORT
    if not address or not 0 < number < 65536:
        raise ValueError(text)
    return address, number


def over_udp(port):
    """The Transport header of a client that takes RTP at a UDP port and RTCP at the next one."""
    return f"Transport: RTP/AVP;unicast;client_port={port}-{port + 1}"


def inside(channel=0):
    """The Transport header of a client that takes RTP inside its RTSP connection, on a channel, and
    RTCP on the next one."""
    return f"Transport: RTP/AVP/TCP;unicast;interleaved={channel}-{channel + 1}"


class Rtsp:
    """One connection, on which requests are sent one after another.

    Frames between replies go to `take_frame`, with their channel and their bytes. It connects from
    the address `source`, if it is given.
    """

    def __init__(self, address, port=RTSP_PORT, timeout=5, take_frame=None, source=""):
        own = (source, 0) if source else None
        self.line = socket.create_connection((address, port), timeout, source_address=own)
        self.take_frame = take_frame or (lambda channel, data: None)
        self.base = f"rtsp://{address}:{port}/"
        self.count, self.buffer = 0, b""

    def __enter__(self):
        return self

    def __exit__(self, *_):
        self.close()

    def close(self):
        self.line.close()

    def ask(self, method, target, *headers):
        """Sends a request; returns its reply as text."""
        self.count += 1
        first = f"{method} {target} RTSP/1.0\r\nCSeq: {self.count}"
        self.line.sendall("\r\n".join((first, *headers, "\r\n")).encode())
        while (reply := self.cut_reply()) is None:
            self.receive(REPLY)
        return reply

    def receive(self, most=FRAMES):
        """Reads what has come."""
        piece = self.line.recv(most)
        if not piece:
            raise ConnectionError("the server ended the connection")
        self.buffer += piece

    def must(self, method, target, *headers):
        """Sends a request that has to be answered with 200."""
        reply = self.ask(method, target, *headers)
        if not reply.startswith("RTSP/1.0 200 "):
            raise Refused(f"{method}: {reply.splitlines()[0]}")
        return reply

    def set_up(self, target, transport):
        """Creates a stream; returns its URL and the session."""
        head = self.must("SETUP", target, transport)
        session = re.search(r"Session: *([0-9a-f]+)", head, re.I)
        stream = re.search(r"streamID: *([0-9]+)", head, re.I)
        if not session or not stream:
            raise Refused("SETUP: no session or no stream in the reply")
        return f"{self.base}stream={stream.group(1)}", session.group(1)

    def cut_frame(self):
        """Takes the channel and the bytes of a whole frame from the front of the buffer, or returns None."""
        if len(self.buffer) < 4 or not self.buffer.startswith(b"$"):
            return None
        end = 4 + int.from_bytes(self.buffer[2:4], "big")
        if len(self.buffer) < end:
            return None
        frame = self.buffer[1], self.buffer[4:end]
        self.buffer = self.buffer[end:]
        return frame

    def cut_reply(self):
        """Takes the frames before the next reply, and the reply if it is whole, else returns None."""
        while frame := self.cut_frame():
            self.take_frame(*frame)
        if self.buffer.startswith(b"$") or BLANK not in self.buffer:
            return None
        end = self.buffer.index(BLANK) + len(BLANK)
        told = LENGTH.search(self.buffer, 0, end)
        end += int(told.group(1)) if told else 0
        if len(self.buffer) < end:
            return None
        reply, self.buffer = self.buffer[:end], self.buffer[end:]
        return reply.decode(errors="replace")


def pair_of_ports(address):
    """Two UDP sockets at an even port and the next one, of the address that `address` is reached from."""
    with socket.socket(socket.AF_INET, socket.SOCK_DGRAM) as look:
        look.connect((address, 9))
        own = look.getsockname()[0]
    for _ in range(64):
        first = socket.socket(socket.AF_INET, socket.SOCK_DGRAM)
        first.bind((own, 0))
        port = first.getsockname()[1]
        if port % 2 == 0:
            second = socket.socket(socket.AF_INET, socket.SOCK_DGRAM)
            try:
                second.bind((own, port + 1))
                return first, second
            except OSError:
                second.close()
        first.close()
    raise ConnectionError("no pair of UDP ports is free")


def options(server, timeout):
    """The seconds until a new client had its OPTIONS answered; raises OSError if it hadn't."""
    begun = time.monotonic()
    with Rtsp(*server, timeout) as client:
        client.must("OPTIONS", "*")
    return time.monotonic() - begun
