#!/usr/bin/env python3
"""Every system call of serving may fail by each error of its manual page, and the server serves on.

    trials/failing_system_calls.py [--jobs 3] [CALL..]

For each call and error strace(1) makes each 11th such call of each thread fail, and of calls that
are rare each second one, for 4 seconds. Meanwhile one client streams over RTP, and others come and
go over RTSP and HTTP. The server has to live, the stream has to go on, and a client that comes
afterwards has to be served. It prints a table: of each error how many calls failed, 0 if the server
doesn't make the call.

An error of `read`, `openat`, `statx` and `lseek` may be the recording's own: then its stream ends,
and the client that comes afterwards tunes to it again. EBADF, EINVAL and ENOTSOCK of `accept4` are
faults of the listener: one that comes twice in a row ends a worker (trials/fault_lines.py), which
these runs never do. JOBS runs are made in parallel. Ends with status 1 if one fails. Needs the built
program (trials/lib/server.py) and the right to trace it.

Packages: strace
Limit: 1500 s
"""

import argparse
import concurrent.futures
import signal
import subprocess
import sys
import threading
import time

sys.dont_write_bytecode = True
from lib.rtp import datagrams, port_of, receiver
from lib.rtsp import over_udp
from lib.server import QUERIES, QUERY, Server

ADDRESS = "127.0.0.1"
SECONDS = 4
# The errors of each call: those that its manual page names, and of a socket those that socket(7),
# ip(7) and tcp(7) add.
ERRORS = {
    "accept4": "EAGAIN EBADF ECONNABORTED EFAULT EINVAL ENOTSOCK EINTR EMFILE ENFILE ENOBUFS ENOMEM"
    " EOPNOTSUPP EPERM EPROTO ENOSR ESOCKTNOSUPPORT EPROTONOSUPPORT ETIMEDOUT ENETDOWN ENOPROTOOPT"
    " EHOSTDOWN ENONET EHOSTUNREACH ENETUNREACH",
    "recvfrom": "EAGAIN EBADF ECONNREFUSED ECONNRESET EFAULT EINTR EINVAL ENOMEM ENOTCONN ENOTSOCK"
    " ETIMEDOUT EHOSTUNREACH",
    "sendto": "EACCES EAGAIN EALREADY EBADF ECONNREFUSED ECONNRESET EDESTADDRREQ EFAULT EINTR EINVAL"
    " EISCONN EMSGSIZE ENOBUFS ENOMEM ENOTCONN ENOTSOCK EOPNOTSUPP EPIPE EPERM EHOSTUNREACH"
    " ENETUNREACH ENETDOWN ETIMEDOUT",
    "poll": "EFAULT EINTR EINVAL ENOMEM",
    "epoll_create1": "EINVAL EMFILE ENFILE ENOMEM",
    "epoll_wait": "EBADF EFAULT EINTR EINVAL",
    "epoll_ctl": "EBADF EEXIST EINVAL ELOOP ENOENT ENOMEM ENOSPC EPERM",
    "read": "EAGAIN EBADF EFAULT EINTR EINVAL EIO EISDIR",
    "openat": "EACCES EBADF EINTR EINVAL EISDIR ELOOP EMFILE ENAMETOOLONG ENFILE ENODEV ENOENT ENOMEM"
    " ENOTDIR ENXIO EOVERFLOW EPERM",
    "statx": "EACCES EBADF EFAULT EINVAL ELOOP ENAMETOOLONG ENOENT ENOMEM ENOTDIR",
    "lseek": "EBADF EINVAL ENXIO EOVERFLOW ESPIPE",
    "socket": "EACCES EAFNOSUPPORT EINVAL EMFILE ENFILE ENOBUFS ENOMEM EPROTONOSUPPORT",
    "bind": "EACCES EADDRINUSE EBADF EINVAL ENOTSOCK EADDRNOTAVAIL EFAULT",
    "connect": "EACCES EPERM EADDRINUSE EADDRNOTAVAIL EAFNOSUPPORT EAGAIN EALREADY EBADF ECONNREFUSED"
    " EFAULT EINPROGRESS EINTR EISCONN ENETUNREACH ENOTSOCK EPROTOTYPE ETIMEDOUT",
    "setsockopt": "EBADF EFAULT EINVAL ENOPROTOOPT ENOTSOCK ENOMEM EDOM",
    "getsockopt": "EBADF EFAULT EINVAL ENOPROTOOPT ENOTSOCK ENOMEM EDOM",
    "ioctl": "EBADF EFAULT EINVAL ENOTTY",
    "shutdown": "EBADF EINVAL ENOTCONN ENOTSOCK",
    "clock_nanosleep": "EFAULT EINTR EINVAL EOPNOTSUPP",
    "write": "EAGAIN EBADF EDQUOT EFAULT EFBIG EINTR EINVAL EIO ENOSPC EPERM EPIPE",
    "close": "EBADF EINTR EIO ENOSPC EDQUOT",
}
RARE = ("openat", "statx", "lseek", "socket", "bind", "connect", "setsockopt", "getsockopt")
RARE += ("ioctl", "shutdown", "close")
# An error of these may be the recording's own.
OF_RECORDINGS = ("read", "openat", "statx", "lseek")
GOOD = "survived, the stream goes on"
OWN = "survived, the recording's stream ends"


class Player:
    """A client that streams over RTP; its thread keeps the moments of what comes."""

    def __init__(self, server, query=QUERY):
        self.client = server.client(timeout=4)
        self.sock, self.times, self.on = receiver(self.client.host, 1 << 20), [], True
        target = over_udp(port_of(self.sock))
        self.target, self.session = self.client.play(self.client.url(query), target)
        self.client.close()
        threading.Thread(target=self.receive, daemon=True).start()

    def receive(self):
        while self.on:
            for _ in datagrams(self.sock, 0.2):
                self.times.append(time.monotonic())
        self.sock.close()

    def end(self, server):
        """Tears the session down, if the server answers."""
        self.on = False
        try:
            client = server.client(timeout=1)
            client.tear_down(self.target, self.session)
            client.close()
        except OSError:
            pass

    def count_since(self, moment):
        return sum(when >= moment for when in self.times)


def read_half_a_second(server, query, timeout):
    """How many bytes an HTTP client gets in half a second."""
    with server.read(query, timeout=timeout) as line:
        count, end = 0, time.monotonic() + 0.5
        while time.monotonic() < end:
            part = line.recv(65536)
            if not part:
                break
            count += len(part)
        return count


def come_and_go(server, end):
    """Clients one after another, whose faults don't matter."""
    turn = 0
    while time.monotonic() < end:
        turn += 1
        try:
            if turn % 3 == 0:
                guest = Player(server, QUERIES[1])
                time.sleep(0.2)
                guest.end(server)
            elif turn % 3 == 1:
                for method in ("OPTIONS", "DESCRIBE"):
                    client = server.client(timeout=1)
                    client.ask(method, client.base)
                    client.close()
            else:
                read_half_a_second(server, QUERIES[1], 1)
        except (OSError, AttributeError):
            pass


def is_served(server):
    """Whether a client is served within 15 s."""
    end = time.monotonic() + 15
    while time.monotonic() < end:
        try:
            if server.options(2) is not None and read_half_a_second(server, QUERY, 2) > 18800:
                return True
        except OSError:
            pass
        time.sleep(0.2)
    return False


def inject(server, call, error):
    """Has the call fail while clients come and go; returns the moment of the last second, or None if
    strace ended early."""
    when = "1+2" if call in RARE else "7+11"
    words = ["strace", "-f", "-q", "-o", server.path("calls"), "-p", str(server.process.pid)]
    words += ["-e", f"trace={call}", "-e", f"inject={call}:error={error}:when={when}"]
    with subprocess.Popen(words, stderr=subprocess.DEVNULL) as strace:
        end = time.monotonic() + SECONDS
        guests = [threading.Thread(target=come_and_go, args=(server, end)) for _ in range(3)]
        for guest in guests:
            guest.start()
        time.sleep(SECONDS - 1)
        last_second = time.monotonic()
        time.sleep(1)
        if strace.poll() is not None and server.lives():
            last_second = None
        strace.send_signal(signal.SIGINT)
    for guest in guests:
        guest.join()
    return last_second


def run_one(call, error):
    """Returns how many calls failed, and the outcome of a run with a separate server."""
    repeats = ("env", "SATIP_REPEAT=1")
    with Server(ADDRESS, fronts=2, seconds=2, before=repeats, files=("a.ts", "b.ts")) as server:
        player = Player(server)
        patience = time.monotonic() + 10
        while not player.times and time.monotonic() < patience:
            time.sleep(0.1)
        last_second = inject(server, call, error)
        if last_second is None:
            return 0, "FAILED: strace ended early"
        streams = player.count_since(last_second) >= 10
        lives = server.lives()
        player.end(server)
        served = is_served(server)
        with open(server.path("calls"), encoding="utf-8", errors="replace") as lines:
            failed = sum("(INJECTED)" in line for line in lines)
    if lives and served and streams:
        return failed, GOOD
    if lives and served and call in OF_RECORDINGS:
        return failed, OWN
    words = "lives" if lives else "ended", "streams" if streams else "stopped"
    return failed, f"FAILED: {' '.join(words)} {'served' if served else 'unserved'}"


def print_row(call, results):
    """The row of a call for each outcome; returns whether none is a failure."""
    outcomes = list(dict.fromkeys(outcome for _, _, outcome in results))
    for outcome in outcomes:
        errors = " ".join(f"{error}({count})" for error, count, it in results if it == outcome)
        print(f"| {call} | {errors} | {outcome} |", flush=True)
    return all(it in (GOOD, OWN) for it in outcomes)


def main():
    words = argparse.ArgumentParser(description="Makes system calls of `serve` fail.")
    words.add_argument("--jobs", type=int, default=3)
    words.add_argument("calls", metavar="CALL", nargs="*", help="a system call, all without a word")
    given = words.parse_args()
    unknown = [call for call in given.calls if call not in ERRORS]
    if unknown:
        words.error(f"no errors are known of {unknown[0]}")
    well, count = True, 0
    with concurrent.futures.ThreadPoolExecutor(given.jobs) as pool:
        runs = {
            call: [(error, pool.submit(run_one, call, error)) for error in ERRORS[call].split()]
            for call in given.calls or ERRORS
        }
        for call, parts in runs.items():
            results = [(error, *part.result()) for error, part in parts]
            well, count = print_row(call, results) and well, count + len(results)
    print(f"{count} errors of {len(runs)} calls: {'all survived' if well else 'FAILED'}")
    sys.exit(0 if well else 1)


if __name__ == "__main__":
    main()
