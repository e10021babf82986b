#!/usr/bin/env python3
"""Measures `satip replay`, `satip talk` and `satip stress` on generated input, and prints a table.

    python3 bench/replay.py [--counts] [PROGRAM [WORD..]]

With --counts it prints only instructions, and only of a made event of stress, of OPTIONS in talk, and
of a mixed line and a PLAY of replay, which other work on the machine doesn't change. Packets have
random payloads, the same in each run. PROGRAM is SATIP_PROGRAM or crates/satip/out/satip without the word, which `tools/program_alone.sh`
builds. With words, only the rows with one of them in their names are measured. Needs the Debian
package valgrind for the counts of instructions. Writes nothing into the repository."""

import os
import random
import re
import shutil
import subprocess
import sys
import tempfile
import time
from functools import partial

TOP = os.path.dirname(os.path.dirname(os.path.abspath(__file__)))
sys.path.insert(0, os.path.join(TOP, "trials"))
sys.dont_write_bytecode = True
from lib.server import busy_processors, use_program

INPUT_LIMIT = 67108864
RUNS = 5

FIRST_MUX = "src=1&freq=11361.75&pol=h&msys=dvbs2&sr=22000"
SECOND_MUX = "src=1&freq=12402&pol=v&msys=dvbs&sr=27500"


def configuration():
    """The example, with sessions that outlive the script."""
    with open(os.path.join(TOP, "examples", "satip.toml")) as file:
        return file.read().replace("timeout = 60", "timeout = 3600")


def call(kind, number, text):
    """The script line of a text of this kind, from this client and with this draw."""
    draw = f"{number:08x}{number:08x}{number:04x}"
    return f"{kind} 10.0.0.{number} {draw} {text.encode().hex()}\n"


def rtsp(number, method, target, headers=""):
    return call("rtsp", number, f"{method} rtsp://192.168.1.10/{target} RTSP/1.0\r\nCSeq: 9\r\n{headers}\r\n")


def session(count, number):
    """An id: how many sessions had been made with it, and its drawn word."""
    return f"{count:08x}{number:08x}"


def named(number, count=None):
    return f"Session: {session(count or number, number)}\r\n"


def transport(number):
    return f"Transport: RTP/AVP;unicast;client_port={5000 + 2 * number}-{5001 + 2 * number}\r\n"


def setup(number, target, headers=""):
    return rtsp(number, "SETUP", target, transport(number) + headers)


def play(number, stream, pids=""):
    return rtsp(number, "PLAY", f"stream={stream}{pids}", named(number))


def opening():
    """Seven sessions of three streams, two of which share a front end."""
    lines = [setup(1, f"?{FIRST_MUX}&pids=100"), setup(2, f"?{SECOND_MUX}&pids=100,200")]
    lines.append(setup(3, f"?{FIRST_MUX}&pids=200"))
    lines += [setup(number, f"stream={1 + number % 3}") for number in range(4, 8)]
    streams = [1, 2, 3] + [1 + number % 3 for number in range(4, 8)]
    return "".join(lines + [play(1 + place, stream) for place, stream in enumerate(streams)])


def crowd(count, pid_of):
    """Sessions with a stream each, all on the first front end, which select one PID each."""
    lines = [setup(number, f"?{FIRST_MUX}&pids={pid_of(number)}") for number in range(1, count + 1)]
    return "".join(lines + [play(number, number) for number in range(1, count + 1)])


def one_selects(count):
    """A crowd of which one session selects the packets."""
    return crowd(count, lambda number: 100 if number == 1 else 300 + number)


def sixteen_sets():
    """A crowd of 64 sessions, of which four select each of the PIDs from 100 to 115."""
    return crowd(64, lambda number: 100 + number % 16)


def packet(front, place):
    """A packet of the front end's first tuning: the two streams of the first multiplex share it."""
    return packet_of(front, 100 if place % 2 else 200, place)


# Payloads of packets, one after another: digits that no processor predicts.
PAYLOAD, PAYLOADS = 184, 4096
NOISE = random.Random(1).randbytes(PAYLOAD * PAYLOADS)


def packet_of(front, pid, place):
    head = bytes([0x47, pid >> 8, pid & 255, 0x10 | place % 16])
    begun = PAYLOAD * (place % PAYLOADS)
    return f"packet {front} 1 {(head + NOISE[begun : begun + PAYLOAD]).hex()}\n"


SESSIONS = 7
GUEST = 100


class Lines:
    """Lines of each kind, after the opening. The guest is one session more, created and ended again."""

    def __init__(self):
        self.made = SESSIONS
        self.counts = {}

    def next(self, kind):
        place = self.counts.get(kind, 0)
        self.counts[kind] = place + 1
        return getattr(self, kind)(place)

    def tick(self, place):
        return f"tick {place + 1}\n"

    def packet(self, place):
        return packet(1 + place % 2, place)

    def one_pid(self, place):
        return packet_of(1, 100, place)

    def sixteen_pids(self, place):
        return packet_of(1, 100 + place % 16, place)

    def ask(self, place):
        return f"ask {1 + place % 2}\n"

    def ended(self, place):
        return f"ended {1 + place % 2} 9\n"

    def options(self, place):
        return rtsp(1, "OPTIONS", "", named(1))

    def describe(self, place):
        return rtsp(1, "DESCRIBE", "", named(1))

    def setup(self, place):
        return setup(1, "stream=1", named(1))

    def play(self, place):
        return play(1, 1, f"?pids={100 + place % 7},{200 + place % 5}")

    def play_alone(self, place):
        return play(1, 1, f"?pids=100,{200 + place % 5}")

    def join(self, place):
        self.made += 1
        return setup(GUEST, "stream=1")

    def teardown(self, place):
        return rtsp(GUEST, "TEARDOWN", "", named(GUEST, self.made))

    def get(self, place):
        self.made += 1
        return call("http", GUEST, f"GET /?{SECOND_MUX}&pids=100 HTTP/1.1\r\n\r\n")

    def pull(self, place):
        return f"pull {session(self.made, GUEST)}\n"

    def close(self, place):
        return f"close {session(self.made, GUEST)}\n"


REQUESTS = ["options", "describe", "join", "play", "teardown", "get", "pull", "setup", "pull", "close"]


def mixed(place):
    """Of a hundred lines 50 packets, 45 asks, 2 ticks and 3 of the others."""
    if place % 2 == 0:
        return "packet"
    if place % 50 == 1:
        return "tick"
    if place % 100 in (11, 45, 79):
        return REQUESTS[(place // 100 * 3 + (place % 100) // 34) % len(REQUESTS)]
    return "ask"


def halves(place):
    """Of a thousand lines 500 packets, then ticks, of which the first sends what is held, and a PLAY."""
    return "packet" if place % 1000 < 500 else "play" if place % 1000 == 999 else "tick"


def eighth(place):
    """One in eight a packet, and a PLAY after each thousand."""
    return "packet" if place % 8 == 0 else "play" if place % 1000 == 999 else "tick"


def in_turn(*kinds):
    return lambda place: kinds[place % len(kinds)]


def script(lines, kind_at, opened=(), opening_lines=None):
    """Lines after the opening and these, each of the kind that its place has."""
    made = Lines()
    parts = [opening_lines or opening()] + [made.next(kind) for kind in opened]
    parts += [made.next(kind_at(place)) for place in range(lines)]
    text = "".join(parts).encode()
    assert len(text) <= INPUT_LIMIT, len(text)
    return text


# name, how many lines, and what they are
ROWS = [
    ("replay, 500 packets and 500 ticks by turns", 300_000, halves, ()),
    ("replay, one line in eight a packet, the others ticks", 900_000, eighth, ()),
    ("replay, half of the lines packets, half asks", 300_000, in_turn("packet", "ask"), ()),
    ("replay, mixed: 50 % packets, 45 % asks, 2 % ticks, 3 % others", 300_000, mixed, ()),
    ("replay, tick", 300_000, in_turn("tick"), ()),
    ("replay, packet", 150_000, in_turn("packet"), ()),
    ("replay, ask", 300_000, in_turn("ask"), ()),
    ("replay, ended", 300_000, in_turn("ended"), ()),
    ("replay, OPTIONS", 50_000, in_turn("options"), ()),
    ("replay, DESCRIBE", 50_000, in_turn("describe"), ()),
    ("replay, SETUP of a session that lives", 50_000, in_turn("setup"), ()),
    ("replay, PLAY with two PIDs", 50_000, in_turn("play"), ()),
    ("replay, SETUP that joins and its TEARDOWN, in turn", 50_000, in_turn("join", "teardown"), ()),
    ("replay, http and close, in turn", 50_000, in_turn("get", "close"), ()),
    ("replay, pull of an empty queue", 300_000, in_turn("pull"), ("get",)),
    ("replay, close of a session that is gone", 300_000, in_turn("close"), ()),
]

# the same where more sessions live than an event touches: name, how many lines, what they are, and the opening
CROWD_KINDS = (
    ("packet that one selects", "one_pid"),
    ("OPTIONS", "options"),
    ("PLAY with two PIDs", "play_alone"),
)
CROWDS = [
    (f"replay, {name}, {count} sessions", 50_000, in_turn(kind), one_selects(count))
    for name, kind in CROWD_KINDS
    for count in (1, 8, 64)
] + [("replay, packet that four select, 64 sessions", 50_000, in_turn("sixteen_pids"), sixteen_sets())]

STRESS = 1_000_000


def run(words, folder, output):
    """CPU seconds and the peak of memory in kB."""
    peak = 0
    with open(os.path.join(folder, "in"), "rb") as given, open(output, "wb") as out:
        child = subprocess.Popen(words, cwd=folder, stdin=given, stdout=out)
        ended = 0
        while ended == 0:
            time.sleep(0.005)
            peak = max(peak, peak_kb(child.pid))
            ended, status, used = os.wait4(child.pid, os.WNOHANG)
        child.returncode = os.waitstatus_to_exitcode(status)
    assert child.returncode == 0, child.returncode
    return used.ru_utime + used.ru_stime, peak


def peak_kb(pid):
    """What the kernel saw at most; the usage of an ended child would count this script's own memory."""
    with open(f"/proc/{pid}/status") as file:
        found = re.search(r"VmHWM:\s*(\d+)", file.read())
    return int(found.group(1)) if found else 0


def instructions(words, text, folder):
    """How many instructions callgrind counts."""
    with open(os.path.join(folder, "in"), "wb") as file:
        file.write(text)
    with open(os.path.join(folder, "in"), "rb") as given:
        counting = ["valgrind", "--tool=callgrind", "--callgrind-out-file=/dev/null", *words]
        done = subprocess.run(counting, cwd=folder, stdin=given, stdout=subprocess.DEVNULL,
                              stderr=subprocess.PIPE, check=True)
    counted = [line for line in done.stderr.decode().splitlines() if "Collected" in line]
    return int(counted[0].split(":")[1])


def count_each(words, short, folder, unit):
    """The instructions a line, or another unit, between two short texts."""
    few, many = short
    counted = instructions(words, many, folder) - instructions(words, few, folder)
    return counted / (many.count(unit) - few.count(unit))


def count_event(program, folder):
    """The instructions of a made event."""
    many, few = 40_000, 10_000
    words = [program, "stress", "7"]
    counted = instructions([*words, str(many)], b"", folder) - instructions([*words, str(few)], b"", folder)
    return counted / (many - few)


def measure(name, words, text, short, folder, unit):
    """A row of the table: the least time for a text, the output dropped or in a file, and the instructions
    a line (or another unit) between two short ones."""
    units = text.count(unit)
    with open(os.path.join(folder, "in"), "wb") as given:
        given.write(text)
    used, peak = min(run(words, folder, os.devnull) for _ in range(RUNS))
    out = os.path.join(folder, "out")
    stored, _ = min(run(words, folder, out) for _ in range(RUNS))
    each = "-"
    if shutil.which("valgrind"):
        each = f"{count_each(words, short, folder, unit):,.0f}"
    print(f"| {name}: {units:,}, {len(text) / 1e6:.1f} MB in, {os.path.getsize(out) / 1e6:.1f} MB out | {used:.2f} s | "
          f"{stored:.2f} s | {each} | {peak / 1024:.1f} MB |", flush=True)


def stress_row(program, folder, name):
    """The row of made events, which have no input."""
    words = [program, "stress", "7"]
    open(os.path.join(folder, "in"), "wb").close()
    used, peak = min(run([*words, str(STRESS)], folder, os.devnull) for _ in range(RUNS))
    each = "-"
    if shutil.which("valgrind"):
        each = f"{count_event(program, folder):,.0f}"
    print(f"| {name}: {STRESS:,} | {used:.2f} s | - | {each} | {peak / 1024:.1f} MB |", flush=True)


def options(count):
    return b"".join(b"OPTIONS * RTSP/1.0\r\nCSeq: %d\r\n\r\n" % number for number in range(1, count + 1))


def replay_row(program, folder, name, lines, kind_at, opened=(), opening_lines=None):
    """Prints the row of a script with this number of lines."""
    short = tuple(script(count, kind_at, opened, opening_lines) for count in (1_000, 4_000))
    text = script(lines, kind_at, opened, opening_lines)
    measure(name, [program, "replay", "bench.toml"], text, short, folder, b"\n")


def talk_row(program, folder, name):
    """The row of a connection's requests."""
    short = (options(1_000), options(3_000))
    measure(name, [program, "talk"], options(200_000), short, folder, b"OPTIONS")


def rows(program, folder):
    """The name of each row, and what measures it."""
    for row in ROWS:
        yield row[0], partial(replay_row, program, folder, *row)
    for name, lines, kind_at, opened in CROWDS:
        yield name, partial(replay_row, program, folder, name, lines, kind_at, (), opened)
    for name, row in (("talk, OPTIONS", talk_row), ("stress, made events", stress_row)):
        yield name, partial(row, program, folder, name)


def print_counts(program, folder):
    """The instructions that the aims of docs/SPEED.md name."""
    print("| | instructions each |\n|---|---|", flush=True)
    print(f"| stress, a made event | {count_event(program, folder):,.0f} |", flush=True)
    talked = count_each([program, "talk"], (options(1_000), options(3_000)), folder, b"OPTIONS")
    print(f"| talk, OPTIONS | {talked:,.0f} |", flush=True)
    for name, kind_at in (("a mixed line", mixed), ("PLAY with two PIDs", in_turn("play"))):
        short = tuple(script(count, kind_at) for count in (1_000, 4_000))
        counted = count_each([program, "replay", "bench.toml"], short, folder, b"\n")
        print(f"| replay, {name} | {counted:,.0f} |", flush=True)


def main():
    given = sys.argv[1:]
    counts = given[:1] == ["--counts"]
    given = given[counts:]
    program = use_program(given[:1])
    wanted = given[1:] or [""]
    with tempfile.TemporaryDirectory() as folder:
        with open(os.path.join(folder, "bench.toml"), "w") as file:
            file.write(configuration())
        if counts:
            print_counts(program, folder)
            return
        found = [row for name, row in rows(program, folder) if any(word in name for word in wanted)]
        if not found:
            sys.exit("no row has one of these words in its name")
        print(f"the machine kept {busy_processors():.1f} of {os.cpu_count()} processors busy\n")
        print("| run | CPU | into a file | instructions each | memory at most |\n|---|---|---|---|---|", flush=True)
        for row in found:
            row()


if __name__ == "__main__":
    main()
