#!/usr/bin/env python3
"""Each fault that a server goes on after is told by one line on standard error, with its advice.

    trials/fault_lines.py

strace(1) makes system calls fail: the listener of one worker, reads of one recording, datagrams of
one pump, the rewind of one recording, accept4 and the opening of a recording when no descriptor is left, sends of a stream over
HTTP when there is no memory, writes to standard error, and the start of threads. One recording is
taken away, a client closes its port, and a configuration isn't there, or isn't TOML. Standard error is
the journal's stream once. Each line has to come once, with its time, its cause and, if the table of
docs/USING.md has brackets, its advice; one that counts has to come again after a minute. Clients
of the rest have to be served meanwhile. If the server ends, the line of its status is the last. If
threads can't be started, it has to serve by those that it has. A shortage that passes ends no
stream. A line that no process reads holds up its job alone.

Ends with status 1 if something doesn't hold, as with WITHOUT=1 in the environment (that needs gcc
and libc6-dev), where no such line is written. Needs the built program (trials/lib/server.py) and the
right to trace it.

Packages: strace
Limit: 300 s
"""

import datetime
import os
import re
import signal
import socket
import subprocess
import sys
import time

sys.dont_write_bytecode = True
from lib.checks import Checks, seconds
from lib.rtp import arrived, port_of, receiver_pair
from lib.rtsp import over_udp
from lib.server import (
    QUERIES,
    QUERY,
    Server,
    configuration,
    free_ports,
    plain_packets,
    program,
)

ADDRESS = "127.0.23.4"
NOT_BEGUN = r"(\d+) of (\d+) jobs have not begun, .*\(.*ulimit -u.*\)"
REFUSED = re.compile(
    r"datagrams refused since the start: [\d.]+:\d+, no room (\d+) \(.*wmem_max\)"
)
UNHEARD = re.compile(r"datagrams refused since the start: [\d.]+:(\d+), unheard (\d+) \(.*\)")
checks = Checks()


def start(**words):
    return Server(ADDRESS, **words)


class Player:
    """A client that plays a multiplex, and has closed its connection."""

    def __init__(self, server, query=QUERY):
        client = server.client()
        self.sock, self.reports = receiver_pair(client.host)
        self.server = server
        self.target, self.session = client.play(client.url(query), over_udp(port_of(self.sock)))
        client.close()

    def goes_on(self, length=2):
        arrived(self.sock, 0.3)
        return arrived(self.sock, length) > 50

    def tear_down(self):
        client = self.server.client()
        client.tear_down(self.target, self.session)
        client.close()


class Reader:
    """A client that reads a multiplex over HTTP."""

    def __init__(self, server):
        self.line = server.read()

    def goes_on(self, length=2):
        """Whether more bytes come within the seconds than a connection holds."""
        count, end = 0, time.monotonic() + length
        while time.monotonic() < end:
            piece = self.line.recv(1 << 16)
            if not piece:
                return False
            count += len(piece)
        return count > 500_000


class Injection:
    """strace(1) while it makes a call of a server fail, in all its threads or in one."""

    def __init__(self, server, call, fault, *words, thread=None, trace=None):
        self.log = server.path(f"{call}.log")
        pid = str(thread or server.process.pid)
        whose = ["-p", pid] if thread else ["-f", "-p", pid]
        traced = ["-e", f"trace={trace or call}", "-e", f"inject={call}:{fault}"]
        self.strace = subprocess.Popen(
            ["strace", "-qq", "-yy", "-s", "80", "-o", self.log, *whose, *traced, *words],
            stderr=subprocess.DEVNULL,
        )
        while tracer_of(pid) == 0 and self.strace.poll() is None:
            time.sleep(0.05)
        time.sleep(0.3)

    def end(self):
        """Ends the tracing; returns the lines of the calls that were traced."""
        self.strace.send_signal(signal.SIGINT)
        self.strace.wait()
        with open(self.log) as file:
            return file.read().splitlines()


def tracer_of(pid):
    with open(f"/proc/{pid}/status") as file:
        return int(re.search(r"TracerPid:\s*(\d+)", file.read()).group(1))


def threads_that(server, call, pattern, length=2.5):
    """Returns the threads that make such a call in that time, those that make most first."""
    log = server.path("threads.log")
    words = ["strace", "-f", "-qq", "-yy", "-o", log, "-e", f"trace={call}"]
    with subprocess.Popen([*words, "-p", str(server.process.pid)]) as strace:
        time.sleep(length)
        strace.send_signal(signal.SIGINT)
    with open(log) as file:
        made = [line.split()[0] for line in file if re.search(pattern, line)]
    return sorted(set(made), key=made.count, reverse=True)


def thread_count(server, wanted):
    """Returns how many threads it has, when it has that many or after 5 seconds."""
    end = time.monotonic() + 5
    while True:
        count = len(os.listdir(f"/proc/{server.process.pid}/task"))
        if count == wanted or time.monotonic() > end:
            return count
        time.sleep(0.1)


def workers_of(server):
    """Returns the threads that wait at both listeners."""
    return threads_that(server, "poll", r"poll\(\[.*TCP:.*TCP:.*\], 2, ", 6)


def come_until(server, holds):
    """Makes connections that say nothing, one after another, until something holds."""
    for _ in range(40):
        if holds():
            return
        try:
            socket.create_connection((ADDRESS, server.ports[0]), timeout=1).close()
        except OSError:
            pass
        time.sleep(0.2)


def lines_of(server):
    """Returns the lines that have a moment, but the first: moment and text."""
    parted = [re.fullmatch(r"(\d{4}-\d\d-\d\dT[\d:]+Z): (.*)", line) for line in server.said().splitlines()]
    return [(line.group(1), line.group(2)) for line in parted if line][1:]


def told(server, pattern, length=5):
    """Returns the lines of such a pattern; waits for one for some seconds."""
    end = time.monotonic() + length
    while True:
        found = [line for line in lines_of(server) if re.fullmatch(pattern, line[1])]
        if found or time.monotonic() > end:
            return found
        time.sleep(0.1)


def check_line(server, pattern, what, length=5):
    """Checks that one such line comes within the seconds, with its time."""
    found = told(server, pattern, length)
    checks.check(len(found) == 1, f"{what}: one line tells it: {found}")
    for moment, _ in found:
        off = time.time() - datetime.datetime.fromisoformat(moment.replace("Z", "+00:00")).timestamp()
        checks.check(-1 <= off < 8, f"{what}: with its time: {off:.1f} s ago")


def check_rest(server, player, what):
    checks.check(player.goes_on(), f"{what}: a stream goes on")
    took = server.options()
    checks.check(took is not None, f"{what}: a client comes in: {seconds(took)}")


def one_worker_fails():
    with start(workers=3) as server:
        player = Player(server)
        count = thread_count(server, 5)
        checks.check(count == 5, f"3 workers, a pump and the ticker are {count} threads")
        what = "a worker's listener fails"
        fault = Injection(server, "accept4", "error=EBADF", thread=workers_of(server)[0])
        come_until(server, lambda: lines_of(server))
        check_line(server, r"a worker ends, .*: Bad file descriptor.* \(start satip anew.*\)", what)
        fault.end()
        check_rest(server, player, what)


def status_comes_last():
    with start(workers=2, accepts=1) as server:
        fault = Injection(server, "accept4", "error=EBADF", thread=workers_of(server)[0])
        what = "one worker served its client, one failed"
        took = server.options()
        come_until(server, lambda: not server.lives())
        status = server.status(5)
        fault.end()
        checks.check(took is not None, f"{what}: {seconds(took)}")
        checks.check(status == 7, f"{what}: status {status}")
        check_line(server, r"a worker ends, its listener failed: .*", what)
        last = server.said().splitlines()[-1]
        checks.check(last == "doors fault", f"{what}: the last line is '{last}'")


def one_recording_fails():
    with start(workers=4, fronts=2, files=("a.ts", "b.ts")) as server:
        failing, other = Player(server), Player(server, QUERIES[1])
        checks.check(failing.goes_on() and other.goes_on(), "two recordings play")
        fault = Injection(server, "read", "error=EIO", "-P", server.path("a.ts"))
        what = "a recording can't be read on"
        line = r"recording a\.ts can't be read on, .*[Ii]nput/output error.* \(.* disk: .*\)"
        check_line(server, line, what)
        checks.check(not failing.goes_on(1), f"{what}: its stream ends")
        check_rest(server, other, what)
        checks.check(len(told(server, "recording a.*")) == 1, f"{what}: it is told once")
        fault.end()
        failing.tear_down()
        checks.check(Player(server).goes_on(), f"{what}: it plays again when it can be read")


def one_recording_goes():
    with start(workers=4, fronts=2, files=("a.ts", "b.ts")) as server:
        other = Player(server)
        what = "a recording is taken away"
        os.remove(server.path("b.ts"))
        gone = Player(server, QUERIES[1])
        line = r"recording b\.ts can't be played: .*[Nn]o such file.* \(put it back, .*\)"
        check_line(server, line, what)
        check_rest(server, other, what)
        gone.tear_down()
        what = "it is asked for again within a minute"
        Player(server, QUERIES[1]).tear_down()
        checks.check(len(told(server, line)) == 1, f"{what}: one line tells it")


def a_fifo_is_no_recording():
    with start(workers=4, fronts=2, files=("a.ts", "b.ts")) as server:
        other = Player(server)
        what = "a FIFO is in a recording's place"
        os.remove(server.path("b.ts"))
        os.mkfifo(server.path("b.ts"))
        Player(server, QUERIES[1])
        line = r"recording b\.ts can't be played: it is not a regular file \(put it back, .*\)"
        check_line(server, line, what)
        check_rest(server, other, what)


def a_rewind_fails():
    """Of recordings of 1600 packets and one more: 16 are read at once."""
    for count in (1600, 1601):
        repeats = ("env", "SATIP_REPEAT=1")
        recording = plain_packets(count)
        with start(workers=4, recording=recording, before=repeats) as server:
            player = Player(server)
            what = f"the rewind of a recording of {count} packets fails"
            checks.check(player.goes_on(), f"{what}: it repeats before")
            fault = Injection(server, "lseek", "error=EIO:when=1")
            line = r"recording a\.ts can't be read on, .*[Ii]nput/output error.* \(.* disk: .*\)"
            check_line(server, line, what)
            checks.check(not player.goes_on(1), f"{what}: its stream ends")
            fault.end()


def no_program_listens():
    with start(workers=4, before=("env", "SATIP_REPEAT=1")) as server:
        player = Player(server)
        port = port_of(player.sock)
        player.sock.close()
        found = told(server, UNHEARD.pattern)
        ports = [int(UNHEARD.fullmatch(text).group(1)) for _, text in found]
        checks.check(ports == [port], f"a client has closed its port {port}: one line tells it: {found}")


def configurations():
    """A configuration that can't be opened, isn't a file, or isn't TOML."""
    with start(workers=1) as server:
        bad = server.path("bad.toml")
        with open(bad, "w", encoding="ascii") as file:
            file.write('address = "127.0.0.1"\nworkers = = 2\n')
        gone = server.path("gone.toml")
        for path, pattern, status in (
            (gone, rf"{gone}: .*[Nn]o such file.*\ninput fault\n", 5),
            (server.folder.name, rf"{server.folder.name}: .*[Ii]s a directory.*\ninput fault\n", 5),
            (bad, rf"{bad}: line 2: .+\nconfiguration: not toml\n", 3),
        ):
            done = subprocess.run([program(), "serve", path, "1"], capture_output=True, check=False)
            said = done.stderr.decode()
            right = done.returncode == status and re.fullmatch(pattern, said)
            checks.check(right, f"a configuration: status {done.returncode}, {said!r}")


def standard_error_is_the_journal():
    """A socket stands for the journal's stream."""
    ours, theirs = socket.socketpair()
    stat = os.fstat(theirs.fileno())
    with start(workers=1) as server:
        for number, sign in ((stat.st_ino, b"<6>ready at "), (stat.st_ino + 1, b"20")):
            stream = f"{stat.st_dev}:{number}"
            config = server.path("other.toml")
            with open(config, "w", encoding="ascii") as file:
                file.write(configuration(ADDRESS, free_ports(ADDRESS), files=()))
            words = [program(), "serve", config, "0"]
            env = {**os.environ, "JOURNAL_STREAM": stream}
            with subprocess.Popen(words, stderr=theirs, env=env) as process:
                said = ours.recv(4096)
                process.kill()
            checks.check(said.startswith(sign), f"JOURNAL_STREAM={stream}: {said!r}")

def no_descriptors():
    with start(workers=4) as server:
        player = Player(server)
        fault = Injection(server, "accept4", "error=EMFILE:when=1+2")
        what = "accept4 has no descriptor"
        took = [server.options() for _ in range(5)]
        checks.check(None not in took, f"{what}: clients come in between")
        check_line(server, r"connections can't be taken: .*Too many open files.*ulimit -n.*", what)
        check_rest(server, player, what)
        failed = sum("EMFILE" in line for line in fault.end())
        checks.check(failed > 1, f"{what}: {failed} calls failed")


def no_descriptor_for_a_recording():
    with start(workers=4) as server:
        paths = ("-P", "a.ts", "-P", os.path.realpath(server.path("a.ts")))
        fault = Injection(server, "openat", "error=EMFILE:when=1..5", *paths)
        what = "a recording can't be opened when no descriptor is left"
        player = Player(server)
        checks.check(player.goes_on(4), f"{what}: its stream begins when there are some")
        failed = sum("EMFILE" in line for line in fault.end())
        checks.check(failed == 5, f"{what}: {failed} calls failed")
        checks.check(lines_of(server) == [], f"{what}: no line tells it")


def no_memory_for_a_stream():
    with start(workers=4, before=("env", "SATIP_REPEAT=1")) as server:
        reader = Reader(server)
        what = "sends of a stream fail when there is no memory"
        checks.check(reader.goes_on(), f"{what}: it plays before")
        worker = threads_that(server, "sendto", "<TCP")[0]
        fault = Injection(server, "sendto", "error=ENOMEM", thread=worker)
        time.sleep(0.3)
        failed = sum("ENOMEM" in line for line in fault.end())
        checks.check(failed > 1, f"{what}: {failed} calls failed")
        checks.check(reader.goes_on(), f"{what}: it goes on after them")


def slow_standard_error():
    with start(workers=4, fronts=2, files=("a.ts", "b.ts")) as server:
        players = [Player(server), Player(server, QUERIES[1])]
        pump = threads_that(server, "sendto", "<UDP")[0]
        slow = ("-e", "inject=write:delay_enter=8000000")
        fault = Injection(
            server, "sendto", "error=EAGAIN:when=2+2", *slow, thread=pump, trace="sendto,write"
        )
        what = "a line on standard error takes 8 seconds"
        going = [player.goes_on(1) for player in players]
        checks.check(any(going), f"{what}: the other pump's stream goes on")
        took = server.options()
        checks.check(took is not None, f"{what}: a client comes in: {seconds(took)}")
        fault.end()


def no_standard_error():
    with start(workers=4) as server:
        player = Player(server)
        gone = ("-e", "inject=write:error=EPIPE:signal=SIGPIPE")
        shortage = "error=EMFILE:when=1+2"
        fault = Injection(server, "accept4", shortage, *gone, trace="accept4,write")
        for _ in range(3):
            server.options()
        what = "no process reads standard error"
        lost = sum("EPIPE" in line for line in fault.end())
        checks.check(lost > 0 and lines_of(server) == [], f"{what}: {lost} line is lost")
        check_rest(server, player, what)


def few_threads(which, wanted):
    """No thread can be started, or only the first that each thread asks for. 4 workers, a front
    end and the ticker are 6 jobs."""
    faults = ["-e", "trace=clone,clone3", "-e", f"inject=clone,clone3:error=EAGAIN{which}"]
    before = ("strace", "-D", "-f", "-qq", "-o", "/dev/null", *faults)
    with start(workers=4, before=before) as server:
        count = thread_count(server, wanted)
        what = f"{count - 1} of 5 threads can be started"
        checks.check(count == wanted, f"{what}: {count} run")
        took = server.options()
        checks.check(took is not None, f"{what}: a client is served: {seconds(took)}")
        check_line(server, NOT_BEGUN, what, 10)
        counts = [re.fullmatch(NOT_BEGUN, text).groups() for _, text in told(server, NOT_BEGUN, 0)]
        checks.check(counts == [(str(6 - count), "6")], f"{what}: the line counts {counts}")
        took = server.options()
        checks.check(took is not None, f"{what}: another is served: {seconds(took)}")


class Refusals:
    """Each second datagram of one pump is refused, for longer than a minute."""

    what = "datagrams are refused"

    def __init__(self):
        repeats = ("env", "SATIP_REPEAT=1")
        self.server = start(workers=4, timeout=200, before=repeats)
        self.player = Player(self.server)
        pump = threads_that(self.server, "sendto", "<UDP")[0]
        fault = "error=EAGAIN:when=2+2"
        self.begun = time.monotonic()
        self.fault = Injection(self.server, "sendto", fault, thread=pump, trace="sendto,write")

    def check_first(self):
        check_line(self.server, REFUSED, self.what)
        check_rest(self.server, self.player, self.what)

    def check_second(self):
        time.sleep(max(0, self.begun + 64 - time.monotonic()))
        counts = [int(REFUSED.fullmatch(text).group(1)) for _, text in told(self.server, REFUSED)]
        checks.check(len(counts) == 2, f"{self.what}: two lines in 64 s, of {counts} datagrams")
        refused, wanted = 0, []
        for line in self.fault.end():
            refused += "(INJECTED)" in line
            if "datagrams refused" in line:
                wanted.append(refused)
        checks.check(counts == wanted, f"{self.what}: that many were, by strace: {wanted}")
        late = told(self.server, NOT_BEGUN, 0)
        checks.check(late == [], f"where all threads are started no line tells of jobs: {late}")
        check_rest(self.server, self.player, self.what)


def main():
    refusals = Refusals()
    try:
        refusals.check_first()
        one_worker_fails()
        status_comes_last()
        one_recording_fails()
        one_recording_goes()
        a_fifo_is_no_recording()
        a_rewind_fails()
        no_program_listens()
        configurations()
        standard_error_is_the_journal()
        no_descriptors()
        no_descriptor_for_a_recording()
        no_memory_for_a_stream()
        slow_standard_error()
        no_standard_error()
        few_threads("", 1)
        few_threads(":when=2+", 3)
        refusals.check_second()
    finally:
        refusals.server.close()
    checks.end()


if __name__ == "__main__":
    main()
