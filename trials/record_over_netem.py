#!/usr/bin/env python3
"""`record` tells each gap of a link that delays, repeats, reorders and loses datagrams by tc netem.

    trials/record_over_netem.py [PACKETS]

The link is between two network namespaces. The recording's packets are numbered, and PACKETS are
recorded each time: 20000 without the word. Ends with status 1 if something doesn't hold. Needs root,
a kernel with netem, and the built program (trials/lib/server.py).

Packages: iproute2
Rights: root
Limit: 180 s
"""

import subprocess
import sys

sys.dont_write_bytecode = True
from lib.checks import Checks, missing
from lib.network import NEAR, Link
from lib.recorded import Recorded, check_recorded
from lib.rtp import numbered
from lib.server import PACKETS_A_SECOND, PORTS, Server

SECONDS = 60
# What the link does, and whether datagrams are missing then.
LINKS = (
    ("delays each by 20 to 40 ms", "delay 30ms 10ms", False),
    ("repeats 5 of 100", "duplicate 5%", False),
    ("lets 25 of 100 overtake others", "delay 10ms reorder 25% 50%", False),
    ("loses 2 of 100", "loss 2%", True),
    ("does all of it", "delay 30ms 10ms duplicate 5% loss 2%", True),
)


def disturb(link, rule):
    """Sets what happens to what leaves the server's end of the link."""
    words = ["tc", "-n", link.near, "qdisc", "replace", "dev", "near0", "root", "netem"]
    ran = subprocess.run([*words, *rule.split()], capture_output=True, text=True, check=False)
    if "qdisc kind is unknown" in ran.stderr:
        missing("netem in the kernel")
    if ran.returncode != 0:
        sys.exit(ran.stderr)


def main():
    count = int(sys.argv[1]) if len(sys.argv) > 1 else 20000
    checks = Checks()
    with Link() as link:
        disturb(link, LINKS[0][1])
        recording = numbered(PACKETS_A_SECOND * max(SECONDS, 3 * count // PACKETS_A_SECOND))
        with Server(NEAR, before=link.inside(link.near), ports=PORTS, recording=recording):
            for where, rule, may_miss in LINKS:
                disturb(link, rule)
                recorded = Recorded(f"{NEAR}:{PORTS[0]}", count, link.inside(link.far))
                where = f"a link that {where}"
                check_recorded(checks, where, recorded, recording, count, may_miss)
    checks.end()


if __name__ == "__main__":
    main()
