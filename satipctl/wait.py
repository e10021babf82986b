"""Waits until a server answers OPTIONS, as after its start.

The status is 0 once it answers, and 1 if it didn't within the limit. Instead of an address it takes
the path of a configuration, and asks at its address and RTSP port.
"""

import sys
import time

from .client import options, server_of

PAUSE = 0.1


def add_words(words):
    words.add_argument("server", metavar="ADDRESS[:PORT] | CONFIG")
    words.add_argument("--limit", metavar="SECONDS", type=float, default=30)


def run(given):
    server, begun = server_of(given.server), time.monotonic()
    name = f"{server[0]}:{server[1]}"
    while (left := begun + given.limit - time.monotonic()) > 0:
        try:
            options(server, min(left, 5))
            print(f"{name}: ready after {time.monotonic() - begun:.1f} s")
            return 0
        except OSError as error:
            fault = error
            time.sleep(PAUSE)
    print(f"{name}: not ready within {given.limit:g} s: {fault}", file=sys.stderr)
    return 1
