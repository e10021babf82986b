"""Reads the lines of journals into entries, and words them.

docs/PROTOCOL.md, "Lines of journals", says what a line and its record hold. `read_line` reads a
whole line; a line that is none of a journal raises `Wrong`. `event_text`, `answer_text` and the
others word an entry. Frequencies are in MHz, symbol rates in kS/s. Used by the
other modules here."""
import ipaddress
import re
from typing import NamedTuple

PACKET = 188
METHODS = ("OPTIONS", "DESCRIBE", "SETUP", "PLAY", "TEARDOWN")
KEYS = ("fe", "src", "freq", "pol", "ro", "msys", "mtype", "plts", "sr", "fec")
KEYS += ("pids", "addpids", "delpids")
POLS = ("h", "v", "l", "r")
ROLL_OFFS = ("0.35", "0.25", "0.20")
SYSTEMS = ("dvbs", "dvbs2")
MODULATIONS = ("qpsk", "8psk")
FECS = ("12", "23", "34", "56", "78", "89", "35", "45", "910")
REFUSALS = ("no message", "too long", "no CSeq", "version", "method")
HTTP_REFUSALS = ("no message", "too long", "version", "method", "target", "not found")
NO_ID = "session without an id"


class Wrong(Exception):
    """A line that is none of a journal."""


class Draw(NamedTuple):
    word: int
    ssrc: int
    first: int


class Request(NamedTuple):
    """An RTSP request. `session` is an id, NO_ID or None; `refusal` is a text or None."""

    peer: str
    draw: Draw
    cseq: int | None
    refusal: str | None
    method: str
    stream: int | None
    session: str | None
    query: dict
    ports: tuple | None


class Get(NamedTuple):
    peer: str
    draw: Draw
    refusal: str | None
    query: dict


class Tick(NamedTuple):
    now: int


class Packet(NamedTuple):
    front: int
    tune: int
    pid: int


class Ended(NamedTuple):
    front: int
    tune: int


class Ask(NamedTuple):
    front: int


class Pull(NamedTuple):
    session: str


class Close(NamedTuple):
    session: str


class Stop(NamedTuple):
    pass


class Replied(NamedTuple):
    status: int
    closing: bool


class Got(NamedTuple):
    """The answer to a GET: the status of its refusal, or None and the new session."""

    status: int | None
    session: str | None


class Beat(NamedTuple):
    word: str


class Work(NamedTuple):
    """The work of a front end: `read` has a multiplex and a tune number."""

    word: str
    mux: int
    tune: int


class Pulled(NamedTuple):
    word: str
    count: int


class Closed(NamedTuple):
    word: str


class Datagram(NamedTuple):
    ip: str
    port: int
    content: bytes


class Start(NamedTuple):
    now: int


class Entry(NamedTuple):
    place: int
    caller: int
    event: tuple
    answer: tuple
    reply: bytes
    datagrams: list


class Record:
    """The bytes of a record, of which each method takes one value from the front."""

    def __init__(self, digits):
        if re.fullmatch("([0-9a-f]{2})*", digits) is None:
            raise Wrong("the record isn't in pairs of lower-case digits")
        self.rest = bytes.fromhex(digits)

    def take(self, count):
        if count > len(self.rest):
            raise Wrong("the record ends too early")
        front, self.rest = self.rest[:count], self.rest[count:]
        return front

    def number(self, width):
        return int.from_bytes(self.take(width), "big")

    def variant(self, count):
        place = self.number(1)
        if place >= count:
            raise Wrong(f"variant {place} of {count}")
        return place

    def one_of(self, choices):
        return choices[self.variant(len(choices))]

    def flag(self):
        return self.one_of((False, True))

    def optional(self, read):
        return read() if self.flag() else None

    def u16(self):
        return self.number(2)

    def u32(self):
        return self.number(4)

    def u64(self):
        return self.number(8)

    def pids(self):
        return ",".join(str(self.u16()) for _ in range(self.u16())) or "no PIDs"

    def session(self):
        return self.take(8).hex()

    def ip(self):
        return str(ipaddress.IPv4Address(self.take(4)))

    def draw(self):
        return Draw(self.u32(), self.u32(), self.u16())

    def ports(self):
        return self.u16(), self.u16()

    def frequency(self):
        return f"{self.u32() / 1000:.3f}".rstrip("0").rstrip(".")

    def fault(self):
        return self.one_of(("syntax of {}", "range of {}")).format(self.one_of(KEYS))

    def refusal(self):
        place = self.variant(8)
        if place < len(REFUSALS):
            return REFUSALS[place]
        if place == 5:
            return f"requires {self.take(self.u16())!r}"
        return "target" if place == 6 else f"query, {self.fault()}"

    def http_refusal(self):
        place = self.variant(7)
        return HTTP_REFUSALS[place] if place < 6 else f"query, {self.fault()}"

    def query(self):
        change = {
            "fe": self.optional(self.u16),
            "src": self.optional(lambda: self.number(1)),
            "freq": self.optional(self.frequency),
            "pol": self.optional(lambda: self.one_of(POLS)),
            "ro": self.optional(lambda: self.one_of(ROLL_OFFS)),
            "msys": self.optional(lambda: self.one_of(SYSTEMS)),
            "mtype": self.optional(lambda: self.one_of(MODULATIONS)),
            "plts": self.optional(lambda: self.one_of(("off", "on"))),
            "sr": self.optional(self.u32),
            "fec": self.optional(lambda: self.one_of(FECS)),
        }
        kind = self.one_of((None, "all", "none", "these"))
        change["pids"] = self.pids() if kind == "these" else kind
        change["addpids"] = self.optional(self.pids)
        change["delpids"] = self.optional(self.pids)
        return {key: value for key, value in change.items() if value is not None}

    def request(self):
        peer, draw = self.ip(), self.draw()
        cseq = self.optional(self.u32)
        refusal = self.optional(self.refusal)
        method = self.one_of(METHODS)
        stream = self.optional(self.u16)
        named = self.one_of((None, "named", NO_ID))
        session = self.session() if named == "named" else named
        query = self.query()
        ports = self.optional(self.ports)
        return Request(peer, draw, cseq, refusal, method, stream, session, query, ports)

    def get(self):
        return Get(self.ip(), self.draw(), self.optional(self.http_refusal), self.query())

    def packet(self):
        front, tune, packet = self.u16(), self.u64(), self.take(PACKET)
        return Packet(front, tune, int.from_bytes(packet[1:3], "big") & 0x1FFF)

    def event(self):
        readers = (
            self.request,
            self.get,
            lambda: Tick(self.u64()),
            self.packet,
            lambda: Ended(self.u16(), self.u64()),
            lambda: Ask(self.u16()),
            lambda: Pull(self.session()),
            lambda: Close(self.session()),
            Stop,
        )
        return self.one_of(readers)()

    def got(self):
        return Got(self.u16(), None) if self.flag() else Got(None, self.session())

    def work(self):
        word = self.one_of(("read", "nothing to do", "stopping"))
        return Work(word, self.u16(), self.u64()) if word == "read" else Work(word, 0, 0)

    def pulled(self):
        word = self.one_of(("bytes", "nothing waits", "no such session"))
        return Pulled(word, self.u64() if word == "bytes" else 0)

    def answer(self):
        readers = (
            lambda: Replied(self.u16(), self.flag()),
            self.got,
            lambda: Beat(self.one_of(("going", "stopping"))),
            self.work,
            self.pulled,
            lambda: Closed(self.one_of(("closed", "no such session"))),
        )
        return self.one_of(readers)()

    def datagram(self):
        ip, port = self.ip(), self.u16()
        return Datagram(ip, port, self.take(self.u32()))

    def entry(self, place, caller):
        event, answer = self.event(), self.answer()
        reply = self.take(self.u32())
        datagrams = [self.datagram() for _ in range(self.u16())]
        if self.rest:
            raise Wrong(f"bytes after the record: {len(self.rest)}")
        return Entry(place, caller, event, answer, reply, datagrams)


def decimal(word):
    if re.fullmatch("0|[1-9][0-9]*", word) is None:
        raise Wrong(f"{word!r} is no number")
    return int(word)


def read_line(line):
    """The `Start` or the `Entry` of a line."""
    words = line.rstrip("\n").split(" ")
    if len(words) == 2 and words[0] == "start":
        return Start(decimal(words[1]))
    if len(words) == 4 and words[0] == "entry":
        return Record(words[3]).entry(decimal(words[1]), decimal(words[2]))
    raise Wrong("no line of a journal")


def query_text(query):
    return "&".join(f"{key}={value}" for key, value in query.items())


def request_text(request):
    words = [f"request refused: {request.refusal}" if request.refusal else request.method]
    words += [] if request.cseq is None else [f"CSeq {request.cseq}"]
    words += [] if request.stream is None else [f"stream {request.stream}"]
    named = request.session and request.session != NO_ID
    session = f"session {request.session}" if named else request.session
    ports = f"ports {request.ports[0]}-{request.ports[1]}" if request.ports else None
    return ", ".join(words + [word for word in (session, query_text(request.query), ports) if word])


def event_text(event):
    """What happened, in one line."""
    match event:
        case Request(peer=peer, draw=draw) | Get(peer=peer, draw=draw):
            by = f"by {peer}, draw {draw.word}, {draw.ssrc}, {draw.first}"
            if isinstance(event, Request):
                return f"{request_text(event)}, {by}"
            words = [f"GET refused: {event.refusal}" if event.refusal else "GET"]
            return ", ".join([word for word in (*words, query_text(event.query)) if word] + [by])
        case Tick(now):
            return f"tick at {now}"
        case Packet(front, tune, pid):
            return f"packet of PID {pid}, front end {front}, tune {tune}"
        case Ended(front, tune):
            return f"end of the recording, front end {front}, tune {tune}"
        case Ask(front):
            return f"question of front end {front}"
        case Pull(session):
            return f"pull of session {session}"
        case Close(session):
            return f"close of session {session}"
    return "stop"


def answer_text(answer):
    """What was answered, in one line."""
    match answer:
        case Replied(status, closing):
            return f"replied {status}" + (", closing" if closing else "")
        case Got(status, session):
            return f"session {session}" if status is None else f"refused {status}"
        case Work("read", mux, tune):
            return f"read multiplex {mux} for tune {tune}"
        case Pulled("bytes", count):
            return f"{count} bytes"
    return answer.word


def reply_line(reply):
    """The status line and the length of a reply; None where there is none."""
    words = ["reply:"]
    if reply.startswith((b"RTSP/", b"HTTP/")):
        words.append(reply.split(b"\r\n")[0].decode("ascii", "replace") + ",")
    return " ".join(words + [f"{len(reply)} bytes"]) if reply else None


def datagram_text(datagram):
    return f"datagram to {datagram.ip}:{datagram.port}, {len(datagram.content)} bytes"
