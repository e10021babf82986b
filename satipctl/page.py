"""Serves one live page of a running server: front ends, streams and viewers, each with its minute.

The page needs nothing from outside, and asks for new numbers once a second. Arrow keys move from
line to line. Without --listen it is at 127.0.0.1:8880, for this machine alone; it has no login, so
put a proxy in front of it before it listens elsewhere. The status file is found as by
`satipctl status`, and what the system knows is shown if there is none.
"""

import collections
import http.server
import json
import os
import threading
import time

from . import watch
from .command import Fault

USUAL = "127.0.0.1:8880"
PAGE = os.path.join(os.path.dirname(os.path.abspath(__file__)), "page.html")
MINUTE = 60
POLICY = "default-src 'none'; script-src 'unsafe-inline'; style-src 'unsafe-inline'; connect-src 'self'"


def add_words(words):
    watch.add_words(words)
    words.add_argument("--listen", metavar="ADDRESS:PORT", default=USUAL, help=USUAL)


class History:
    """The last reading, with the rates of the last minute of each viewer and front end."""

    def __init__(self, given):
        self.given, self.seen, self.data = given, None, {"fault": "no reading yet"}
        self.rates = {}

    def follow(self):
        """Reads once a second, for ever."""
        while True:
            try:
                self.seen = self.seen or watch.Watch(self.given)
                self.data = self.with_minutes(self.seen.next().to_json())
            except Fault as fault:
                self.seen, self.data = None, {"fault": str(fault)}
                time.sleep(1)

    def with_minutes(self, data):
        lines = {f"viewer {it['address']}": it for it in data["viewers"]}
        lines |= {f"front {it['number']}": it for it in data["front_ends"]}
        lines["all"] = data
        self.rates = {key: self.rates.get(key) or collections.deque(maxlen=MINUTE) for key in lines}
        for key, it in lines.items():
            self.rates[key].append(round(it["rate"]))
            it["minute"] = list(self.rates[key])
        return data


def handler(history):
    with open(PAGE, "rb") as file:
        page = file.read()

    class Handler(http.server.BaseHTTPRequestHandler):
        def do_GET(self):
            if self.path == "/":
                self.answer("text/html; charset=utf-8", page)
            elif self.path == "/status.json":
                self.answer("application/json", json.dumps(history.data).encode())
            else:
                self.send_error(404)

        def answer(self, kind, body):
            self.send_response(200)
            self.send_header("Content-Type", kind)
            self.send_header("Content-Length", str(len(body)))
            self.send_header("Content-Security-Policy", POLICY)
            self.send_header("Cache-Control", "no-store")
            self.end_headers()
            self.wfile.write(body)

        def log_message(self, *_):
            pass

    return Handler


def run(given):
    address, _, port = given.listen.rpartition(":")
    if not port.isdigit():
        raise Fault(f"{given.listen}: no ADDRESS:PORT")
    history = History(given)
    server = http.server.ThreadingHTTPServer((address or "127.0.0.1", int(port)), handler(history))
    threading.Thread(target=history.follow, daemon=True).start()
    print(f"http://{server.server_address[0]}:{server.server_address[1]}/", flush=True)
    server.serve_forever()
    return 0
