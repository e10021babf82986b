"""Creates a stream of a running `satip tunnel`, and keeps it until it is stopped.

Players that ask for a description first, as FFmpeg and GStreamer do, then have a stream to join.
QUERY is what follows `?` in a line of the playlist of `satipctl channels`. It prints the URL to
play, `rtsp://ADDRESS:PORT/stream=N`, and asks for OPTIONS every 10 seconds.
"""

import time

from .client import Rtsp, address_of, inside

PERIOD = 10


def add_words(words):
    words.add_argument("server", metavar="ADDRESS[:PORT]", type=address_of, help="the RTSP port, or 554")
    words.add_argument("query", metavar="QUERY", help="the tuning and the PIDs")


def run(given):
    with Rtsp(*given.server) as client:
        target, session = client.set_up(f"{client.base}?{given.query}", inside())
        try:
            print(target, flush=True)
            while True:
                time.sleep(PERIOD)
                client.ask("OPTIONS", client.base, f"Session: {session}")
        except KeyboardInterrupt:
            client.must("TEARDOWN", target, f"Session: {session}")
    return 0
