"""Says what is wrong with a configuration, before a server starts by it.

It looks at the form of the file (with line and column), at keys that are unknown or out of their
limits, at each recording (there, readable, transport packets, rate), at both ports, and at the
variables of the environment that a server reads. With --wait-for-ports it waits that long for a
server that is about to end. It prints the rates of recordings. A warning is what a server ignores, or a viewer would miss: a server
starts without a recording that can't be played.

The status is 0 if nothing was found, 1 if there are warnings, 2 if a server would not start. File
names count from the folder that this is started in, as for `satip serve`.
"""

import errno
import os
import pwd
import socket
import stat
import subprocess
import sys
import time

from . import configuration, packets
from .configuration import Finding
from .recordings import EVEN_PACE, rate_text

VARIABLES = {"SATIP_PACE": "recording", "SATIP_REPEAT": "1"}
# A client's frequency may miss a multiplex by this much.
NEAR_KHZ = 2000
ADVICE = {
    errno.EADDRINUSE: "another program has it",
    errno.EACCES: "a port below 1024 needs root or CAP_NET_BIND_SERVICE",
    errno.EADDRNOTAVAIL: "the address isn't one of this machine",
}


def add_words(words):
    words.add_argument("config", metavar="CONFIG", nargs="?", default=configuration.USUAL)
    words.add_argument("--user", help="the user that has to be able to read the recordings")
    words.add_argument("--no-ports", action="store_true", help="for a server that runs already")
    words.add_argument("--wait-for-ports", metavar="SECONDS", type=float, default=0)
    words.add_argument("--allow-warnings", action="store_true", help="status 0 if there are only these")
    words.add_argument("--quiet", action="store_true", help="says nothing if nothing is wrong")


def run(given):
    config = configuration.read(given.config)
    found, rates = configuration.findings(config), []
    # What follows needs values of the right kind.
    if all(it.is_warning for it in found):
        found += same_tunings(config) + unreached(config)
        faults, rates = recordings(config, reader_of(given.user))
        found += faults
        found += [] if given.no_ports else ports_within(config, given.wait_for_ports)
        found += environment()
    for finding in found:
        print(finding.told(given.config), file=sys.stderr)
    status = max((1 if it.is_warning else 2 for it in found), default=0)
    if not given.quiet:
        print(*rates, sep="\n", end="\n" * bool(rates))
    if status or not given.quiet:
        print(f"{given.config}: {summary(config, found, status)}")
    return 0 if status == 1 and given.allow_warnings else status


def summary(config, found, status):
    if status == 2:
        return "a server would not start"
    told = f"front ends {len(config.get('frontend'))}, multiplexes {len(config.muxes())}"
    if status:
        return f"a server would start, with {len(found)} warning{'s' * (len(found) > 1)}; {told}"
    return f"well; {told}"


def kilohertz(freq):
    whole, _, rest = freq.partition(".")
    return int(whole) * 1000 + int(rest[:3].ljust(3, "0"))


def same_tunings(config):
    """Multiplexes that an earlier one hides from every client that asks for their frequency."""
    found, earlier = [], []
    for place, mux in enumerate(config.muxes()):
        khz = kilohertz(mux["freq"])
        key = mux["src"], mux["pol"], mux["msys"], mux["sr"]
        near = [it for it, other, at in earlier if other == key and abs(at - khz) <= NEAR_KHZ]
        if near:
            told = f"mux.{place + 1} is never played: mux.{near[0] + 1} is within 2 MHz of it"
            found.append(Finding(config.line_of("mux", place, "freq"), told, is_warning=True))
        earlier.append((place, key, khz))
    return found


def unreached(config):
    """Multiplexes that no front end receives."""
    found, fronts = [], config.get("frontend")
    for place, mux in enumerate(config.muxes()):
        if not any(mux["src"] in it["sources"] and mux["msys"] in it["systems"] for it in fronts):
            told = f"mux.{place + 1} is never played: no front end has its src and msys"
            found.append(Finding(config.line_of("mux", place), told, is_warning=True))
    return found


def reader_of(user):
    """Says of a path whether the user that a server will run as can read it."""
    if user is None and os.geteuid() != 0:
        return lambda path: os.access(path, os.R_OK)
    # The unit's user is any user.
    try:
        entry = pwd.getpwnam(user or "nobody")
    except KeyError:
        raise configuration.Fault(f"no user {user}") from None
    if os.geteuid() != 0 and entry.pw_uid != os.geteuid():
        raise configuration.Fault("only root can look as another user")
    if entry.pw_uid == os.geteuid():
        return lambda path: os.access(path, os.R_OK)
    groups = os.getgrouplist(entry.pw_name, entry.pw_gid)

    def can_read(path):
        words = ["test", "-r", path]
        ids = {"user": entry.pw_uid, "group": entry.pw_gid, "extra_groups": groups}
        return subprocess.run(words, check=False, **ids).returncode == 0

    return can_read


def recordings(config, can_read):
    """What is wrong with the recordings, and lines with the rates of the others."""
    found, rates = [], []
    for place, mux in enumerate(config.muxes()):
        line, name = config.line_of("mux", place, "file"), f"mux.{place + 1}, {mux['file']}"
        rate, fault = recording(mux["file"], can_read)
        if fault:
            found.append(Finding(line, f"recording of {name}: {fault}", is_warning=True))
        else:
            rates.append(f"{name}: {rate_text(rate)}")
    return found, rates


def recording(path, can_read):
    """The rate of a recording, and what is wrong with it or None."""
    try:
        mode = os.stat(path).st_mode
    except (OSError, ValueError) as error:
        return None, getattr(error, "strerror", None) or "no name of a file"
    if not stat.S_ISREG(mode):
        return None, "no regular file"
    if not can_read(path):
        return None, "it can't be read by the user of a server"
    try:
        head = packets.look(path)
    except OSError as error:
        return None, error.strerror
    if head.fault or head.rate is None:
        return None, head.fault or "no program clock references, so its own rate isn't known"
    if os.environ.get("SATIP_PACE") is None and not 0.9 < EVEN_PACE / head.rate < 1.1:
        told = f"{rate_text(head.rate)}, and it plays at {rate_text(EVEN_PACE)} without SATIP_PACE"
        return head.rate, told
    return head.rate, None


def ports_within(config, seconds):
    """What is wrong with the ports, if another program still has them after the seconds."""
    until = time.monotonic() + seconds
    while (found := ports(config)) and time.monotonic() < until:
        time.sleep(0.2)
    return found


def ports(config):
    """Opens both ports as a server does, and closes them."""
    found, opened = [], []
    address, *numbers = config.server()
    for key, number in zip(("rtsp_port", "http_port"), numbers):
        sock = socket.socket(socket.AF_INET, socket.SOCK_STREAM)
        opened.append(sock)
        try:
            sock.setsockopt(socket.SOL_SOCKET, socket.SO_REUSEADDR, 1)
            sock.bind((plain(address), number))
            sock.listen(1)
        except OSError as error:
            why = ADVICE.get(error.errno, error.strerror)
            line = config.line_of("address" if error.errno == errno.EADDRNOTAVAIL else key)
            found.append(Finding(line, f"{key} {number} of {address}: {why}"))
    for sock in opened:
        sock.close()
    return found


def plain(address):
    """An address without leading zeros, which the system would read as octal."""
    return ".".join(str(int(it)) for it in address.split("."))


def environment():
    """Variables with which a server doesn't start, or writes no status file."""
    found = []
    for name, value in VARIABLES.items():
        if os.environ.get(name, "") not in ("", value):
            found.append(Finding(None, f"{name} has no value but {value}"))
    stop = os.environ.get("SATIP_STOP")
    if stop and os.path.exists(stop):
        found.append(Finding(None, f"the stop file {stop} is there, so a server doesn't start"))
    status = os.environ.get("SATIP_STATUS")
    folder = os.path.dirname(status or "") or "."
    if status and not os.path.isdir(folder):
        told = f"the folder of SATIP_STATUS, {folder}, isn't there, so no status file is written"
        found.append(Finding(None, told, is_warning=True))
    return found
