#!/usr/bin/env python3
"""Measures satipctl journal page on the journals of an hour.

    python3 bench/journal_page.py [--seconds SECONDS] [--packets PACKETS] [--keep FOLDER]

Writes journals as a server with two front ends would: three RTSP sessions, one of them joined, one
that a timeout ends and one that begins again, some refused requests, and PACKETS packets a second
of each front end, 300 without the word. Then it runs satipctl journal page on them, and prints the
bytes of the journals, the seconds that it took and the bytes of the page. It ends with status 1 if
the page has 5 MB or more or took 10 seconds or more. An hour takes some 2.5 GB of the temporary
folder. With --keep the journals stay in FOLDER.

Needs the Debian package python3."""
import argparse
import os
import subprocess
import sys
import tempfile
import time

TOP = os.path.dirname(os.path.dirname(os.path.abspath(__file__)))
START = 1796018400000
TICK_MS, KEEP_ALIVE_MS, REPORT_MS, TIMEOUT_MS = 40, 30000, 200, 60000
MUXES = {1: (11361750, "11361.75"), 2: (12402000, "12402")}
PIDS = (0, 256, 257, 4096)


def number(value, width):
    return f"{value:0{2 * width}x}"


def ip_digits(ip):
    return "".join(number(int(part), 1) for part in ip.split("."))


class Session:
    def __init__(self, count, ip, port, front, stream):
        self.name, self.ssrc = f"{count:08x}{count * 7919:08x}", number(0x51000000 + count, 4)
        self.ip, self.port, self.front, self.stream = ip_digits(ip), port, front, stream
        self.plays, self.held, self.sent, self.reported, self.cseq = False, 0, 0, 0, 0


class Journals:
    """Four jobs: a worker, the pumps of two front ends, the ticker."""

    def __init__(self, folder):
        names = [os.path.join(folder, f"journal.{job}") for job in range(4)]
        self.files = [open(name, "w", buffering=1 << 20) for name in names]
        self.files[0].write(f"start {START}\n")
        self.place, self.made, self.sessions = 0, 0, []

    def put(self, job, record):
        self.files[job].write(f"entry {self.place} {job} {record}\n")
        self.place += 1

    def request(self, ip, session, method, stream, query, status, reply, has_ports=False):
        session.cseq += 1
        named = "" if has_ports else session.name
        record = "00" + ip_digits(ip) + number(self.made, 4) + session.ssrc + "0000"
        record += "01" + number(session.cseq, 4) + "00" + number(method, 1)
        record += "01" + number(stream, 2) if stream else "00"
        record += ("01" + named) if named else "00"
        record += query + (
            f"01{number(session.port, 2)}{number(session.port + 1, 2)}" if has_ports else "00"
        )
        text = f"RTSP/1.0 {status}\r\nCSeq: {session.cseq}\r\n{reply}\r\n".encode()
        record += (
            "00"
            + number(int(status.split()[0]), 2)
            + "00"
            + number(len(text), 4)
            + text.hex()
            + "0000"
        )
        self.put(0, record)

    def set_up(self, ip, port, front, stream, mux, joins):
        self.made += 1
        session = Session(self.made, ip, port, front, stream)
        reply = f"Session: {session.name};timeout=60\r\n"
        reply += f"Transport: RTP/AVP;unicast;client_port={port}-{port + 1}\r\ncom.ses.streamID: {stream}\r\n"
        asked = stream if joins else None
        self.request(ip, session, 2, asked, EMPTY if joins else tuning(mux), "200 OK", reply, True)
        self.request(ip, session, 3, stream, EMPTY, "200 OK", f"Session: {session.name}\r\n")
        session.plays, session.mux = True, mux
        self.sessions.append(session)
        return session

    def end(self, session, ip):
        self.request(ip, session, 4, session.stream, EMPTY, "200 OK", "")
        self.sessions.remove(session)

    def datagram(self, session, count):
        length = 12 + 188 * count
        head = session.ip + number(session.port, 2) + number(length, 4)
        head += "8021" + number(session.sent % 65536, 2) + "00000000" + session.ssrc
        session.held, session.sent = 0, session.sent + 1
        return head + BODY[: 376 * count]

    def packets(self, front, mux, tune, count):
        listeners = [it for it in self.sessions if it.front == front and it.plays]
        for index in range(count):
            sent = []
            for session in listeners:
                session.held += 1
                if session.held == 7:
                    sent.append(self.datagram(session, 7))
            packet = number(0x47000010 | PIDS[index % 4] << 8, 4) + FILL
            record = "03" + number(front, 2) + number(tune, 8) + packet
            record += "0300" + number(mux, 2) + number(tune, 8) + "00000000"
            self.put(front, record + number(len(sent), 2) + "".join(sent))

    def tick(self, now):
        sent = [self.datagram(it, it.held) for it in self.sessions if it.held]
        for session in self.sessions:
            if now >= session.reported + REPORT_MS:
                session.reported = now
                sent.append(report(session))
        self.put(
            3, "02" + number(now, 8) + "0200" + "00000000" + number(len(sent), 2) + "".join(sent)
        )


EMPTY = "00" * 10 + "00" + "00" + "00"
FILL = "ff" * 184
BODY = ("47010010" + FILL) * 7


def tuning(mux):
    query = "00" + "0101" + "01" + number(MUXES[mux][0], 4) + "0100" + "00" + "0101" + "00" + "00"
    return query + "01" + number(22000, 4) + "00" + "01" + "00" + "00"


def report(session):
    text = f"ver=1.0;src=1;tuner={session.front},240,1,15,{MUXES[session.mux][1]},h,dvbs2,,,,22000,;pids=all"
    text = text.encode()
    body = (
        "80c80006"
        + session.ssrc
        + "00" * 12
        + number(session.sent, 4)
        + number(session.sent * 1316, 4)
    )
    body += "81ca0005" + session.ssrc + "010c" + b"192.168.1.10".hex() + "0000"
    body += "80cc0010" + session.ssrc + b"SES1".hex() + "0000" + number(len(text), 2) + text.hex()
    return session.ip + number(session.port + 1, 2) + number(len(body) // 2, 4) + body


def write_run(folder, seconds, packets):
    """An hour of two front ends; a third session joins, one vanishes, one comes again."""
    run, credit, last = Journals(folder), 0.0, {}
    events = schedule(seconds * 1000)
    for now in range(TICK_MS, seconds * 1000 + 1, TICK_MS):
        while events and events[0][0] <= now:
            events.pop(0)[1](run)
        for session in run.sessions:
            if (
                not getattr(session, "vanished", False)
                and now - last.get(session, 0) >= KEEP_ALIVE_MS
            ):
                last[session] = now
                run.request(
                    "192.168.1.2", session, 0, None, EMPTY, "200 OK", f"Session: {session.name}\r\n"
                )
        credit += packets * TICK_MS / 1000
        for front in (1, 2):
            if any(it.front == front for it in run.sessions):
                run.packets(front, front, 1, int(credit))
        credit -= int(credit)
        run.tick(START + now)
    run.put(0, "080201000000000000")
    for file in run.files:
        file.close()


def schedule(length):
    """What clients do, at moments from the start: (moment, what)."""

    def refuse(run):
        session = Session(0, "192.168.1.99", 1700, 1, 1)
        run.request(
            "192.168.1.99",
            session,
            2,
            None,
            tuning(2),
            "503 Service Unavailable",
            "Content-Length: 17\r\n\r\nNo-More:frontends",
            True,
        )

    def begin(run):
        run.first = run.set_up("192.168.1.20", 1400, 1, 1, 1, False)
        run.second = run.set_up("192.168.1.21", 1500, 2, 2, 2, False)

    def vanish(run):
        run.third.vanished = True

    def lose(run):
        run.sessions.remove(run.third)

    steps = [
        (0.002, begin),
        (0.1, lambda run: setattr(run, "third", run.set_up("192.168.1.22", 1600, 1, 1, 1, True))),
    ]
    steps += [
        (0.3, refuse),
        (0.5, refuse),
        (0.6, vanish),
        (0.8, lambda run: run.end(run.second, "192.168.1.21")),
    ]
    steps += [(0.85, lambda run: run.set_up("192.168.1.21", 1500, 2, 2, 2, False))]
    timed = [(share * length, what) for share, what in steps]
    lost = 0.6 * length - 0.6 * length % KEEP_ALIVE_MS + TIMEOUT_MS
    return sorted([*timed, (max(lost, 0.6 * length + 1), lose)], key=lambda it: it[0])


def measure(folder):
    journals = [os.path.join(folder, f"journal.{job}") for job in range(4)]
    size = sum(os.path.getsize(name) for name in journals)
    begun = time.monotonic()
    command = [os.path.join(TOP, "bin", "satipctl"), "journal", "page", *journals]
    page = subprocess.run(command, stdout=subprocess.PIPE, check=True).stdout
    took = time.monotonic() - begun
    print(f"{size} bytes of journals: {took:.1f} s, a page of {len(page)} bytes")
    return took < 10 and len(page) < 5000000


def main():
    parser = argparse.ArgumentParser(
        description=__doc__, formatter_class=argparse.RawDescriptionHelpFormatter
    )
    parser.add_argument("--seconds", type=int, default=3600)
    parser.add_argument("--packets", type=int, default=300)
    parser.add_argument("--keep", metavar="FOLDER")
    options = parser.parse_args()
    with tempfile.TemporaryDirectory() as scratch:
        folder = options.keep or scratch
        os.makedirs(folder, exist_ok=True)
        write_run(folder, options.seconds, options.packets)
        return 0 if measure(folder) else 1


if __name__ == "__main__":
    sys.exit(main())
