#!/usr/bin/env python3
"""RTP, RTCP reports, `record` and `tunnel` cross a link between two network namespaces.

    trials/two_network_namespaces.py

Servers are in one namespace, clients in another one, with a link (veth) between them, so what they
send leaves the host's loopback device. The recording's packets are numbered.

A client over UDP, and one of `tunnel`, have to get each packet in order, and a sender report, SDES
and SES1 each 200 ms: of the stream's SSRC, with the true time, and with the counts of what came.
`record` has to write 20000 packets with none missing. Then nftables drops 2 of 100 datagrams, and
`record` has to tell each gap. Ends with status 1 if something doesn't hold. Needs root, and the
built program (trials/lib/server.py).

Packages: iproute2 nftables
Rights: root
Limit: 120 s
"""

import json
import struct
import subprocess
import sys
import time

sys.dont_write_bytecode = True
from lib.checks import Checks
from lib.network import NEAR, Link
from lib.recorded import Recorded, check_recorded
from lib.rtp import PACKET, PACKETS_A_DATAGRAM, RTP_HEADER, missing_runs, number_of, numbered
from lib.rtp import port_of, receiver_pair
from lib.rtsp import Rtsp, inside, over_udp
from lib.server import PACKETS_A_SECOND, PORTS, QUERY, Server

SECONDS = 5
COUNT = 20000
NTP_AHEAD = 2208988800
# The word with which this script runs itself in the clients' namespace.
INSIDE = "inside"
LOSS = """\
table ip loss {
    chain input {
        type filter hook input priority 0; policy accept;
        meta l4proto udp numgen random mod 100 < 2 drop
    }
}
"""


def take_udp(rtp, rtcp):
    """Returns the datagrams and reports that come over UDP, and where they come from."""
    media, reports, sources, end = [], [], set(), time.monotonic() + SECONDS
    while time.monotonic() < end:
        time.sleep(0.002)
        for sock, kept in ((rtp, media), (rtcp, reports)):
            try:
                while True:
                    data, source = sock.recvfrom(2048)
                    kept.append((time.time(), data))
                    sources.add(source)
            except BlockingIOError:
                pass
    return media, reports, sorted(sources)


def take_frames(client):
    """Returns the datagrams and reports that come as frames."""
    media, reports, end = [], [], time.monotonic() + SECONDS
    while time.monotonic() < end:
        for channel, data in client.take_frames():
            (reports if channel else media).append((time.time(), data))
    return media, reports


def report_facts(media, report):
    """What a compound of SR, SDES and APP says, against what came before it."""
    moment, data = report
    kinds, at = [], 0
    while at < len(data):
        kinds.append(data[at + 1])
        at += 4 + 4 * int.from_bytes(data[at + 2 : at + 4], "big")
    ssrc, seconds, fraction, _, packets, octets = struct.unpack(">IIIIII", data[4:28])
    came = [it for when, it in media if when <= moment]
    return {
        "whole": kinds == [200, 202, 204] and at == len(data),
        "ssrc": ssrc == int.from_bytes(media[0][1][8:12], "big"),
        "off": seconds + fraction / 2**32 - NTP_AHEAD - moment,
        "packets": packets - len(came),
        "octets": octets - sum(len(it) - RTP_HEADER for it in came),
        "ses1": data[data.find(b"SES1") :].partition(b"ver=")[2].rstrip(b"\0").decode(),
    }


def facts(media, reports):
    payload = b"".join(data[RTP_HEADER:] for _, data in media)
    count = len(payload) // PACKET
    last = max(int.from_bytes(payload[at + 4 : at + 12], "big") for at in (0, PACKET * (count - 1)))
    numbers = [number_of(data) for _, data in media]
    return {
        "packets": count,
        "missing": missing_runs(payload, numbered(last + 1)),
        "rises": all((b - a) % 65536 == 1 for a, b in zip(numbers, numbers[1:])),
        "reports": [report_facts(media, report) for report in reports],
    }


def be_client(kind):
    """Plays in the clients' namespace; prints what came as JSON."""
    client = Rtsp(NEAR)
    if kind == "tunnel":
        client.play(client.url(QUERY), inside())
        found = facts(*take_frames(client))
    else:
        rtp, rtcp = receiver_pair(client.host)
        client.play(client.url(QUERY), over_udp(port_of(rtp)))
        media, reports, sources = take_udp(rtp, rtcp)
        found = {**facts(media, reports), "sources": sources}
    client.close()
    print(json.dumps(found))


def check_reports(checks, where, reports):
    count = len(reports)
    usual = SECONDS * 5
    checks.check(0.8 * usual <= count <= usual + 2, f"{where}: {count} reports in {SECONDS} s")
    whole = count > 0 and all(it["whole"] and it["ssrc"] for it in reports)
    checks.check(whole, f"{where}: each is a sender report of the stream's SSRC, SDES and SES1")
    off = max((abs(it["off"]) for it in reports), default=99)
    checks.check(off < 0.5, f"{where}: their time is true, {off:.2f} s off at most")
    for name in ("packets", "octets"):
        off = [it[name] for it in reports]
        most = 12 * (1 if name == "packets" else PACKETS_A_DATAGRAM * PACKET)
        near = bool(off) and max(map(abs, off)) <= most
        checks.check(near, f"{where}: their {name} are what came, off by {set(off)}")
    texts = {it["ses1"] for it in reports}
    named = len(texts) == 1 and "src=1;" in min(texts) and min(texts).endswith("pids=all")
    checks.check(named, f"{where}: SES1 says ver={min(texts, default='')}")


def check_client(checks, where, found):
    enough = found["packets"] > PACKETS_A_SECOND * SECONDS * 0.8
    checks.check(enough, f"{where}: {found['packets']} packets in {SECONDS} s")
    checks.check(found["missing"] == [], f"{where}: they are the recording's, in order, none missing")
    checks.check(found["rises"], f"{where}: the datagrams' numbers rise by one")
    check_reports(checks, where, found["reports"])


def run_client(link, kind):
    words = [*link.inside(link.far), sys.executable, __file__, INSIDE, kind]
    done = subprocess.run(words, stdout=subprocess.PIPE, text=True, check=True)
    return json.loads(done.stdout)


def try_serve(checks, link, recording):
    with Server(NEAR, before=link.inside(link.near), ports=PORTS, recording=recording) as server:
        found = run_client(link, "udp")
        check_client(checks, "serve", found)
        hosts = {host for host, _ in found["sources"]}
        checks.check(hosts == {NEAR}, f"serve: datagrams and reports come from {hosts}")
        address = f"{NEAR}:{PORTS[0]}"
        recorded = Recorded(address, COUNT, link.inside(link.far))
        check_recorded(checks, "record", recorded, recording, COUNT, False)
        words = [*link.inside(link.far), "nft", "-f", "-"]
        subprocess.run(words, input=LOSS, text=True, check=True)
        recorded = Recorded(address, COUNT, link.inside(link.far))
        where = "record, with 2 of 100 datagrams dropped"
        check_recorded(checks, where, recorded, recording, COUNT, True)
        checks.check(server.lives(), "the server lives")


def try_tunnel(checks, link, recording):
    before = link.inside(link.near)
    with Server(NEAR, before=before, ports=PORTS, recording=recording, command="tunnel") as server:
        check_client(checks, "tunnel", run_client(link, "tunnel"))
        checks.check(server.lives(), "the server lives")


def main():
    recording = numbered(PACKETS_A_SECOND * 60)
    checks = Checks()
    with Link() as link:
        try_serve(checks, link, recording)
        try_tunnel(checks, link, recording)
    checks.end()


if __name__ == "__main__":
    if sys.argv[1:2] == [INSIDE]:
        be_client(sys.argv[2])
    else:
        main()
