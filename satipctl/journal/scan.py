"""Scans journals once, fast: counts what is plenty, and keeps the lines that say more.

`scan` reads the files of a run. Of packets, ticks and pulls it keeps places and counts; the lines
of requests, ends, changes of a front end's work and changed reports are kept to be read in full.
The journals of pumps are sampled if they have more bytes than a limit. Used by
page.py."""
import bisect
import os
from array import array

from .entries import Start, Wrong, read_line

SAMPLED_ABOVE = 1 << 28
WINDOW = 1 << 16
PUMP_KINDS = (b"03", b"04", b"05")
NOTED_KINDS = (b"00", b"01", b"07", b"08")
# Where a packet's answer begins in its record, in digits, and how many an answer `read` has.
PACKET_ANSWER = 2 + 4 + 16 + 2 * 188
READ_DIGITS = 2 + 2 + 4 + 16
BARE_PACKET = PACKET_ANSWER + READ_DIGITS + 8 + 4
NOTHING_MORE = b"0" * 12
# Of a pull, which may have 24000 digits of packets, this beginning of its line is looked at.
LONGEST_PULL_HEAD = 100


class Sender:
    """What one SSRC sent: the places of its RTP datagrams, and what its reports said."""

    def __init__(self):
        self.places = array("Q")
        self.report_places, self.report_counts = array("Q"), array("Q")
        self.text = b""


class Pulls:
    """The pulls of an HTTP session: places and packets of each, 0 for an empty queue."""

    def __init__(self):
        self.places, self.counts = array("Q"), array("Q")


class File:
    """A journal: its size, how much of it was read, its wrong lines."""

    def __init__(self, name, size):
        self.name, self.size, self.read, self.lines = name, size, 0, 0
        self.sampled, self.wrong = False, []
        self.places = array("Q")


class Scan:
    """What was found in the journals of a run."""

    def __init__(self):
        self.files, self.starts, self.notes = [], [], []
        self.is_sampled = False
        self.tick_places, self.ticks = array("Q"), array("Q")
        self.fronts, self.estimates = {}, {}
        self.senders, self.pulls = {}, {}
        self.works, self.tunes = {}, {}

    def line(self, line):
        """Takes one line; returns the place of its entry, or None for a start."""
        words = line[:LONGEST_PULL_HEAD].split(b" ", 3)
        if words[-1][:2] != b"06":
            words = line.split(b" ", 3)
        if len(words) != 4 or words[0] != b"entry":
            self.starts.append(read_start(line))
            return None
        place, record = int(words[1]), words[3]
        kind = record[:2]
        if kind == b"03":
            self.packet(place, record, line)
        elif kind == b"02":
            self.tick(place, record, line)
        elif kind == b"06":
            self.pull(place, record, line)
        elif kind == b"05":
            self.work(place, record[2:6], record[6:-13], line)
        elif kind == b"04":
            self.works[record[2:6]] = record[22:-13]
            self.notes.append((place, line))
        elif kind in NOTED_KINDS:
            self.notes.append((place, line))
        else:
            raise Wrong("no line of a journal")
        return place

    def packet(self, place, record, line):
        front, tune = record[2:6], record[6:22]
        try:
            self.fronts[front].append(place)
        except KeyError:
            self.fronts[front] = array("Q", (place,))
        if self.tunes.get(front) != tune:
            self.tunes[front] = tune
            self.works[front] = None
        end = PACKET_ANSWER + (READ_DIGITS if record[400:402] == b"00" else 4)
        self.work(place, front, record[PACKET_ANSWER:end], line)
        has_more = len(record) != BARE_PACKET + 1 or record[-13:-1] != NOTHING_MORE
        if has_more and not self.is_sampled:
            self.datagrams(place, record, end + 8)

    def work(self, place, front, answer, line):
        if self.works.get(front) != answer:
            self.works[front] = answer
            self.notes.append((place, line))

    def tick(self, place, record, line):
        self.tick_places.append(place)
        self.ticks.append(int(record[2:18], 16))
        if len(record) > 35 and self.datagrams(place, record, 30):
            self.notes.append((place, line))

    def pull(self, place, record, line):
        session, word = record[2:18], record[20:22]
        if session not in self.pulls:
            self.pulls[session] = Pulls()
            self.notes.append((place, line))
        elif word == b"02":
            self.notes.append((place, line))
        if word != b"02":
            pulls = self.pulls[session]
            pulls.places.append(place)
            pulls.counts.append(int(record[22:38], 16) // 188 if word == b"00" else 0)

    def datagrams(self, place, record, at):
        """Takes the datagrams at the end of a record; whether a report said something new."""
        has_news, count, at = False, int(record[at : at + 4], 16), at + 4
        for _ in range(count):
            length, begin = int(record[at + 12 : at + 20], 16), at + 20
            at = begin + 2 * length
            start = record[begin : begin + 4]
            if start == b"8021" and not self.is_sampled:
                self.sender(record[begin + 16 : begin + 24]).places.append(place)
            elif start == b"80c8":
                sender = self.sender(record[begin + 8 : begin + 16])
                sender.report_places.append(place)
                sender.report_counts.append(int(record[begin + 40 : begin + 48], 16))
                if sender.text != record[begin + 56 : at]:
                    sender.text, has_news = record[begin + 56 : at], True
        if at != len(record) - 1:
            raise Wrong("the record ends too early or too late")
        return has_news

    def sender(self, ssrc):
        if ssrc not in self.senders:
            self.senders[ssrc] = Sender()
        return self.senders[ssrc]


def read_start(line):
    read = read_line(line.decode("ascii", "replace"))
    if not isinstance(read, Start):
        raise Wrong("no line of a journal")
    return read.now


def take(found, file, line):
    """Gives a line to the scan, and keeps a fault of it; returns the place of a right entry."""
    file.lines += 1
    file.read += len(line)
    try:
        if not line.endswith(b"\n"):
            raise Wrong("the line has no end")
        place = found.line(line)
        if place is not None:
            file.places.append(place)
        return place
    except (Wrong, ValueError, OverflowError) as fault:
        what = fault if isinstance(fault, Wrong) else "no line of a journal"
        file.wrong.append((file.lines, what))
        return None


def scan_whole(found, file, source):
    for line in source:
        take(found, file, line)


def is_of_pump(path):
    """Whether a file begins with entries that only pumps make."""
    with open(path, "rb") as source:
        lines = [source.readline(1 << 20).split(b" ", 3) for _ in range(3)]
    lines = [words for words in lines if words != [b""]]
    return bool(lines) and all(len(it) == 4 and it[3][:2] in PUMP_KINDS for it in lines)


def whole_line_at(source, at):
    """The first whole line that begins after a byte, with where it begins; an empty one at the end."""
    source.seek(max(at - 1, 0))
    if at:
        source.readline()
    return source.tell(), source.readline()


def work_of(line):
    """Front end and answer of a pump's line; None twice if it is none."""
    record = line.split(b" ", 3)[-1]
    begin = {b"03": PACKET_ANSWER, b"04": 22, b"05": 6}.get(record[:2])
    if begin is None:
        return None, None
    read = record[begin + 2 : begin + 4] == b"00"
    return record[2:6], record[begin : begin + (READ_DIGITS if read else 4)]


def find_changes(found, file, source, low, high):
    """Takes the lines between two at which a front end's work changes, by halving."""
    (low_at, low_work), (high_at, high_work) = low, high
    if low_work == high_work:
        return
    middle_at, line = whole_line_at(source, (low_at + high_at) // 2)
    if middle_at >= high_at or not line:
        middle_at, line = whole_line_at(source, low_at + 1)
        if middle_at >= high_at:
            return
    middle = middle_at, work_of(line)
    find_changes(found, file, source, low, middle)
    if middle[1] != low_work:
        take(found, file, line)
    find_changes(found, file, source, middle, high)


def scan_sampled(found, file, source, wanted):
    """Reads parts of a pump's journal, some `wanted` bytes in all, and finds where its work changes.

    Each part estimates the packets from its begin to the begin of the next."""
    file.sampled = True
    step = max(WINDOW, file.size * WINDOW // wanted)
    last = None
    for begin in range(0, file.size, step):
        at, line = whole_line_at(source, begin)
        if not line:
            break
        if last:
            find_changes(found, file, source, last, (at, work_of(line)))
            source.seek(at + len(line))
        rest = source.read(WINDOW) + source.readline()
        lines = [line, *rest.splitlines(keepends=True)]
        places = [take(found, file, line) for line in lines]
        fronts, length = {work_of(line)[0] for line in lines} - {None}, len(line) + len(rest)
        last = at + length - len(lines[-1]), work_of(lines[-1])
        packets = sum(it.split(b" ", 3)[-1][:2] == b"03" for it in lines)
        packets *= min(step, file.size - begin) / length
        first = next((it for it in places if it is not None), None)
        if first is not None and len(fronts) == 1:
            found.estimates.setdefault(fronts.pop(), []).append((first, packets))


def scan(paths, standard_input, limit=SAMPLED_ABOVE):
    """Scans the journals. Those of pumps, if they have more bytes together than the limit, are
    sampled: a third of the limit is read of them."""
    found = Scan()
    sizes = {path: os.path.getsize(path) for path in paths if os.path.isfile(path)}
    pumps = sum(size for path, size in sizes.items() if is_of_pump(path))
    found.is_sampled = pumps > limit
    for path in paths:
        file = File(os.path.basename(path), sizes.get(path, 0))
        found.files.append(file)
        with open(path, "rb", buffering=1 << 18) as source:
            if found.is_sampled and path in sizes and is_of_pump(path):
                scan_sampled(found, file, source, max(limit * file.size // pumps // 3, WINDOW))
            else:
                scan_whole(found, file, source)
    if not paths:
        found.files.append(File("standard input", 0))
        scan_whole(found, found.files[0], standard_input)
    in_order(found)
    return found


def in_order(found):
    """Puts what was found in order of places; journals may come in any order."""
    found.notes.sort(key=lambda note: note[0])
    pairs = sorted(zip(found.tick_places, found.ticks))
    found.tick_places = array("Q", (place for place, _ in pairs))
    found.ticks = array("Q")
    latest = min(found.starts, default=0)
    for _, now in pairs:
        latest = max(latest, min(now, (1 << 48) - 1))
        found.ticks.append(latest)
    for key, places in found.fronts.items():
        found.fronts[key] = array("Q", sorted(places))
    for sender in found.senders.values():
        sender.places = array("Q", sorted(sender.places))
    for file in found.files:
        file.size = file.size or file.read


class Times:
    """The server's clock at each place, by the ticks before it."""

    def __init__(self, found):
        self.places, self.nows = found.tick_places, found.ticks
        first = self.nows[0] if self.nows else 0
        self.start = min(found.starts, default=first)
        self.end = self.nows[-1] if self.nows else self.start
        self.moments = array("Q", (self.start, *self.nows))

    def at(self, place):
        index = bisect.bisect_right(self.places, place)
        return self.nows[index - 1] if index else self.start

    def place_of(self, moment):
        """The place of the first tick at a moment or later; past all places if there is none."""
        index = bisect.bisect_left(self.nows, moment)
        return self.places[index] if index < len(self.places) else 1 << 64


def missing_places(found):
    """Runs (first, count) of places below the greatest that no line has; None if sampled."""
    if found.is_sampled:
        return None
    places = array("Q")
    for file in found.files:
        places.extend(file.places)
    runs, expected = [], 0
    for place in sorted(places):
        if place > expected:
            runs.append((expected, place - expected))
        expected = max(expected, place + 1)
    return runs
