"""Runs of `satip record`, and the facts that hold of what it wrote. Needs python3 alone."""

import re
import subprocess
import tempfile
import time

from .rtp import PACKET, PACKETS_A_DATAGRAM, missing_runs
from .server import QUERY, program_words


class Recorded:
    """One run of `satip record`, with the words before it."""

    def __init__(self, address, count, before=()):
        with tempfile.TemporaryDirectory(prefix="satip-") as folder:
            words = [*before, *program_words(folder), "record", address, f"{QUERY}&pids=all"]
            begun = time.monotonic()
            ran = subprocess.run([*words, str(count)], capture_output=True, timeout=300, check=False)
        self.seconds = time.monotonic() - begun
        self.status, self.output, self.errors = ran.returncode, ran.stdout, ran.stderr.decode()

    def ended(self):
        return f"status {self.status} after {self.seconds:.1f} s {self.errors.strip()[-60:]}"


def told_runs(errors):
    """How many datagrams each run of gaps has; None if there is another line."""
    runs, end = [], None
    for line in errors.splitlines():
        told = re.fullmatch(r"gap (\d+) (\d+)", line)
        if not told:
            return None
        first, count = map(int, told.groups())
        if first == end:
            runs[-1] += count
        else:
            runs.append(count)
        end = (first + count) % 65536
    return runs


def are_told(missing, told):
    """Whether each run of missing packets is one of missing datagrams."""
    return len(missing) == len(told) and all(
        count <= packets <= PACKETS_A_DATAGRAM * count for packets, count in zip(missing, told)
    )


def check_recorded(checks, where, recorded, recording, count, may_miss):
    """Checks that the output is the numbered recording's packets in order, each gap told."""
    packets = len(recorded.output) // PACKET
    whole = recorded.status == 0 and len(recorded.output) == PACKET * count
    checks.check(whole, f"{where}: {packets} packets of {count}, status {recorded.status}")
    missing, told = missing_runs(recorded.output, recording), told_runs(recorded.errors)
    checks.check(missing is not None, f"{where}: they are the recording's, in order and unchanged")
    checks.check(told is not None, f"{where}: standard error has lines of gaps alone")
    if missing is None or told is None:
        print(recorded.errors[-300:])
        return
    text = f"{sum(missing)} packets are missing at {len(missing)} places, "
    text += f"{sum(told)} datagrams are told at {len(told)}"
    checks.check(are_told(missing, told), f"{where}: {text}")
    wanted = "some are missing" if may_miss else "none is missing"
    checks.check(bool(missing) == may_miss, f"{where}: {wanted}")
