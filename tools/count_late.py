#!/usr/bin/env python3
"""Counts the RTP datagrams of a running server that come late, twice or not in their place.

    tools/count_late.py ADDRESS RTSP_PORT QUERY RECEIVERS SECONDS

The first receiver asks for a new stream with the query, as
'src=1&freq=11361.75&pol=h&msys=dvbs2&sr=22000', with all PIDs; the others join it. All requests go
over one connection. A datagram that comes late was missing in its place, and counts as both. Ends
with status 1 if one was late or missing. Needs python3 alone.
"""

import os
import sys

sys.dont_write_bytecode = True
TOP = os.path.dirname(os.path.dirname(os.path.abspath(__file__)))
sys.path.insert(0, os.path.join(TOP, "trials"))
from lib.rtp import Receivers
from lib.rtsp import Rtsp


def main():
    if len(sys.argv) != 6:
        sys.exit(__doc__)
    address, port, query = sys.argv[1], int(sys.argv[2]), sys.argv[3].removesuffix("&pids=all")
    client = Rtsp(address, port)
    receivers = Receivers(client.host, int(sys.argv[4]))
    target, sessions = client.play_to(receivers.ports(), query)
    receivers.read_for(float(sys.argv[5]))
    client.tear_down(target, *sessions)
    came, late, missing = receivers.datagrams, receivers.late, receivers.missing
    print(f"datagrams {came} late {late} missing {missing}")
    sys.exit(1 if late or missing or not came else 0)


if __name__ == "__main__":
    main()
