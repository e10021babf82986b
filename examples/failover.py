#!/usr/bin/env python3
"""Takes dead servers out of the direct return of examples/direct_return.nft, and lets full ones be.

    failover.py tell ADDRESS:PORT LISTEN:PORT
    failover.py balance --device DEVICE --mac MAC --own ADDRESS AGENT:PORT=MAC..

`tell` runs on each server's machine. It listens at LISTEN:PORT, an address of this machine alone, and
tells in one line how the server at ADDRESS:PORT is, which is asked for OPTIONS:

    up      it answers
    full    it is connected to but doesn't answer within 2 s, as all its workers serve others
    down    the connection is refused

`balance` runs on the balancer, after direct_return.nft was loaded. It asks each server's agent every 2
seconds, and writes the map of clients to servers anew when a server went down or came back. A server
is down if its agent says so, or can't be reached twice. The clients of one that is down are spread
over those that answer; a full server keeps its clients and gets none. All others stay where they are.
A server that is back has its clients again, which are cut once more.

DEVICE and MAC are the balancer's. ADDRESS is one that it has alone, since the servers have the common
one too. AGENT:PORT=MAC is an agent and its server's hardware address, in the order of
direct_return.nft. A line on standard output tells each change.

Needs the Debian packages python3 and, for `balance`, nftables and the right to change its rules. A server
that hangs counts as full.
"""

import argparse
import concurrent.futures
import datetime
import socket
import socketserver
import subprocess
import time

PATIENCE, EACH, MISSES = 2, 2, 2
OPTIONS = b"OPTIONS * RTSP/1.0\r\nCSeq: 1\r\n\r\n"
RULE = """\
flush chain netdev satip to_server
add rule netdev satip to_server ether saddr set {mac} ether daddr set \
jhash ip saddr mod {count} seed 0x5a71 map {{ {places} }} counter fwd to "{device}"
"""


def pair(text):
    """The host and the port of HOST:PORT."""
    host, _, port = text.rpartition(":")
    return host, int(port)


def health(server):
    """How the server at this host and port is."""
    try:
        with socket.create_connection(server, timeout=PATIENCE) as line:
            line.sendall(OPTIONS)
            return "up" if line.recv(4096).startswith(b"RTSP/1.0 200") else "full"
    except TimeoutError:
        return "full"
    except OSError:
        return "down"


def tell(server, listen):
    """Tells each connection how the server is."""

    class Told(socketserver.BaseRequestHandler):
        def handle(self):
            self.request.sendall(f"{health(server)}\n".encode())

    socketserver.ThreadingTCPServer.allow_reuse_address = True
    with socketserver.ThreadingTCPServer(listen, Told) as agents:
        agents.serve_forever()


class Server:
    """A server by its agent and its hardware address."""

    def __init__(self, text):
        self.name, _, self.mac = text.partition("=")
        self.state, self.misses = "up", 0

    def told(self, own):
        """What its agent tells, empty if it can't be reached."""
        try:
            with socket.create_connection(pair(self.name), PATIENCE, source_address=(own, 0)) as line:
                line.settimeout(2 * PATIENCE)
                return line.recv(64).decode().strip()
        except OSError:
            return ""

    def look(self, own):
        """Asks its agent; returns whether it went down or came back."""
        told, before = self.told(own), self.state
        self.misses = 0 if told else self.misses + 1
        if told in ("up", "full", "down"):
            self.state = told
        elif self.misses >= MISSES:
            self.state = "down"
        return (self.state == "down") != (before == "down")


class Places:
    """The places of the hash. A server has as many as there are others, so that they can be spread."""

    def __init__(self, servers):
        self.servers = servers
        self.owners = [it for it in servers for _ in range(max(len(servers) - 1, 1))]
        self.now = list(self.owners)

    def renew(self):
        """Gives the places of those that are down to those that answer."""
        alive = [it for it in self.servers if it.state != "down"]
        free = [it for it in alive if it.state == "up"] or alive
        for place, owner in enumerate(self.owners):
            if owner.state != "down":
                self.now[place] = owner
            elif self.now[place].state == "down" and free:
                self.now[place] = min(free, key=self.now.count)

    def write(self, given):
        told = ", ".join(f"{place} : {it.mac}" for place, it in enumerate(self.now))
        rule = RULE.format(mac=given.mac, count=len(self.now), places=told, device=given.device)
        subprocess.run(["nft", "-f", "-"], input=rule, text=True, check=True)


def balance(given):
    servers = [Server(it) for it in given.servers]
    places = Places(servers)
    places.write(given)
    with concurrent.futures.ThreadPoolExecutor(len(servers)) as threads:
        while True:
            news = list(threads.map(lambda it: it.look(given.own), servers))
            for server in (it for it, is_new in zip(servers, news) if is_new):
                moment = datetime.datetime.now(datetime.timezone.utc).strftime("%FT%TZ")
                told = "down" if server.state == "down" else "back"
                print(f"{moment} {server.name} is {told}", flush=True)
            if any(news):
                places.renew()
                places.write(given)
            time.sleep(EACH)


def main():
    words = argparse.ArgumentParser(description="Takes dead servers out of a direct return.")
    kinds = words.add_subparsers(dest="kind", required=True)
    telling = kinds.add_parser("tell", help="tells how this machine's server is")
    telling.add_argument("server", metavar="ADDRESS:PORT", type=pair)
    telling.add_argument("listen", metavar="LISTEN:PORT", type=pair)
    balancing = kinds.add_parser("balance", help="writes the balancer's map")
    balancing.add_argument("--device", required=True)
    balancing.add_argument("--mac", required=True)
    balancing.add_argument("--own", metavar="ADDRESS", required=True)
    balancing.add_argument("servers", metavar="AGENT:PORT=MAC", nargs="+")
    given = words.parse_args()
    if given.kind == "tell":
        tell(given.server, given.listen)
    else:
        balance(given)


if __name__ == "__main__":
    main()
