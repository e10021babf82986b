"""The RTSP client of the trials, of bench/ and of tools/: that of satipctl, which keeps frames.

Needs python3 alone.
"""

import os
import sys

TOP = os.path.dirname(os.path.dirname(os.path.dirname(os.path.abspath(__file__))))
sys.path[:0] = [TOP]
from satipctl import client
from satipctl.client import BLANK, inside, over_udp  # noqa: F401

RTSP_PORT = 18554


class Rtsp(client.Rtsp):
    """One connection, on which requests are sent one after another.

    Frames that come between replies are kept in `frames`, each with its channel, until they are
    taken.
    """

    def __init__(self, address, port=RTSP_PORT, timeout=5, source=""):
        self.frames = []
        super().__init__(address, port, timeout, lambda *frame: self.frames.append(frame), source)
        self.host = self.line.getsockname()[0]

    def url(self, query):
        """The URL that creates a stream with all PIDs."""
        return f"{self.base}?{query}&pids=all"

    def play(self, target, transport):
        """Creates a stream, or joins one, and plays it; returns the stream's URL and the session."""
        stream, session = self.set_up(target, transport)
        self.must("PLAY", stream, f"Session: {session}")
        return stream, session

    def play_to(self, ports, query):
        """Creates a stream that each port joins, and plays it; returns its URL and the sessions."""
        target, sessions = self.url(query), []
        for port in ports:
            target, session = self.set_up(target, over_udp(port))
            sessions.append(session)
        for session in sessions:
            self.must("PLAY", target, f"Session: {session}")
        return target, sessions

    def tear_down(self, target, *sessions):
        """Ends sessions, the last one first."""
        for session in reversed(sessions):
            self.must("TEARDOWN", target, f"Session: {session}")

    def take_frames(self):
        """Returns the frames that came, and drops replies between them; waits until there is a frame."""
        while not self.frames:
            if self.cut_reply() is None and not self.frames:
                self.receive()
        taken, self.frames = self.frames, []
        return taken


def options(address, port=RTSP_PORT, timeout=5):
    """Returns the seconds until a new client had its OPTIONS answered; None if it wasn't in time."""
    try:
        return client.options((address, port), timeout)
    except OSError:
        return None
