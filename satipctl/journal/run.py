"""Rebuilds from a scan of journals what a server did: sessions, streams, front ends, refusals.

A journal has events and answers, not the server's state, so this follows the rules of
docs/PROTOCOL.md. The front end of a stream is what a report or a description says of it; if there
is none, as for a reader over HTTP, it is the one whose tuning began then or has the same multiplex.
Used by page.py."""
import bisect
import re

from .entries import NO_ID, Ask, Beat, Close, Closed, Ended, Get, Got, Packet, Pull, Pulled
from .entries import Replied, Request, Stop, Tick, Work, Wrong, read_line
from .scan import Times

TUNING_KEYS = ("fe", "src", "freq", "pol", "ro", "msys", "mtype", "plts", "sr", "fec")
ANSWERS = {Request: Replied, Get: Got, Tick: Beat, Packet: Work, Ended: Work, Ask: Work}
ANSWERS |= {Pull: Pulled, Close: Closed, Stop: Beat}
CAUSES = {
    "Not-Owner:stream": "only the owner of a stream may change it",
    "No-More:frontends": "no front end is available: each is tuned to another multiplex, or none fits",
    "No-More:sessions": "no more sessions: 64 live",
    "No-More:pids": "more than 256 PIDs",
}
STATUSES = {
    400: "the request is malformed",
    404: "no such stream or target",
    413: "the message is too long",
    455: "SETUP names a session and no stream",
    461: "no acceptable transport",
    501: "the method isn't served",
    505: "the version isn't served",
    551: "a required option isn't served",
}
REFUSALS = {
    "no message": "what came is no message",
    "too long": "the message is too long",
    "no CSeq": "there is no number in CSeq",
    "version": "the version isn't served",
    "method": "the method isn't served",
    "target": "the target isn't one of the server's",
    "not found": "the target isn't there",
}
# A front end's work follows a request within this many milliseconds.
SETTLED = 1000


class Setting:
    """A tuning of a stream, from a moment on, and the front end that has it."""

    def __init__(self, place, at, tuning):
        self.place, self.at, self.until, self.tuning = place, at, None, tuning
        self.front = self.is_locked = self.spell = None

    @property
    def multiplex(self):
        return tuple(
            self.tuning.get(key, 1 if key == "src" else None)
            for key in ("src", "freq", "pol", "msys", "sr")
        )


class Stream:
    def __init__(self, number):
        self.number, self.sessions, self.settings = number, [], []
        self.pids, self.selections = set(), []

    def change(self, query, place, at):
        """Takes the query of a SETUP, a PLAY or a GET."""
        given = {key: query[key] for key in TUNING_KEYS if key in query}
        old = self.settings[-1].tuning if self.settings else {}
        new = {**old, **given}
        if given and new != old:
            if self.settings:
                self.settings[-1].until = at
            self.settings.append(Setting(place, at, new))
        self.change_pids(query, at)

    def change_pids(self, query, at):
        added, removed = numbers(query.get("addpids", "")), numbers(query.get("delpids", ""))
        if "pids" in query:
            self.pids = None if query["pids"] == "all" else numbers(query["pids"])
        if self.pids is not None:
            self.pids = (self.pids | added) - removed
        self.selections.append((at, self.pids))

    def setting_at(self, moment):
        return next((it for it in reversed(self.settings) if it.at <= moment), None)

    def pids_at(self, moment):
        """The PIDs that are selected at a moment; None for all."""
        return next((pids for at, pids in reversed(self.selections) if at <= moment), set())


class Session:
    def __init__(self, name, kind, event, ports, stream, place, at):
        self.name, self.kind, self.peer, self.ports = name, kind, event.peer, ports
        self.ssrc, self.stream, self.place, self.at = b"%08x" % event.draw.ssrc, stream, place, at
        self.plays = at if kind == "HTTP" else None
        self.heard, self.until, self.why = at, None, ""
        self.joined, self.owns = bool(stream.sessions), None
        self.expires = self.increments = None


class Spell:
    """A tuning of a front end: what its pump was told to read."""

    def __init__(self, front, at, work, note):
        self.front, self.at, self.until, self.note = front, at, None, note
        self.mux, self.tune, self.ended = work.mux, work.tune, None


class Note:
    """An entry that the page can show."""

    def __init__(self, entry, at, kind, session=None, cause=None):
        self.entry, self.at, self.kind, self.session, self.cause = entry, at, kind, session, cause


def numbers(text):
    return {int(word) for word in text.split(",") if word.isdigit()}


def refusal_text(refusal):
    """The cause of a message that is refused for its text."""
    kind, _, key = refusal.removeprefix("query, ").partition(" of ")
    if refusal.startswith("query, "):
        return f"the syntax of {key} is wrong" if kind == "syntax" else f"{key} is out of range"
    return REFUSALS.get(refusal, refusal)


def body_of(reply):
    return reply.partition(b"\r\n\r\n")[2].decode("ascii", "replace").strip()


def header_of(reply, name):
    found = re.search(rb"(?im)^%s: *([^\r\n]*)" % name, reply)
    return found.group(1).decode("ascii", "replace") if found else ""


def clock_text(moment):
    seconds, milliseconds = divmod(moment, 1000)
    return f"{seconds // 3600 % 24:02}:{seconds // 60 % 60:02}:{seconds % 60:02}.{milliseconds:03}"


class Run:
    """The history of a run, rebuilt entry after entry."""

    def __init__(self, found):
        self.found, self.times = found, Times(found)
        self.living, self.sessions, self.streams, self.all_streams = {}, [], {}, []
        self.by_ssrc, self.by_name = {}, {}
        self.notes, self.spells, self.refusals = [], {}, []
        self.timeout, self.stopped, self.wrong = timeout_of(found.notes), None, []
        for place, line in found.notes:
            self.expire(place)
            self.take(place, line)
        self.expire(1 << 64)
        self.place_streams()

    def take(self, place, line):
        try:
            entry = read_line(line.decode("ascii", "replace"))
            if not isinstance(entry.answer, ANSWERS[type(entry.event)]):
                raise Wrong("the answer isn't one of its event")
        except Wrong as wrong:
            self.wrong.append((place, wrong))
            return
        at = self.times.at(entry.place)
        match entry.event:
            case Request():
                self.request(entry, at)
            case Get():
                self.get(entry, at)
            case Tick():
                self.tick(entry, at)
            case Packet() | Ask() | Ended():
                self.work(entry, at)
            case Pull(session):
                self.pulled(entry, at, self.living.get(session))
            case Close(session):
                ended = self.living.get(session)
                self.note(entry, at, "close", self.by_name.get(session))
                if ended and entry.answer.word == "closed":
                    self.end(ended, at, "the reader closed its connection")
            case Stop():
                self.stopped = at
                self.note(entry, at, "stop")

    def note(self, entry, at, kind, session=None, cause=None):
        self.notes.append(Note(entry, at, kind, session, cause))
        if cause:
            self.refusals.append(self.notes[-1])

    # Requests

    def request(self, entry, at):
        event, status = entry.event, entry.answer.status
        self.count_flushed(entry)
        session = self.living.get(event.session)
        session = session if session and session.kind == "RTSP" else None
        if session and not event.refusal:
            session.heard = at
        if status != 200:
            cause = self.cause(event, status, body_of(entry.reply))
            self.note(entry, at, "refused", session or self.by_name.get(event.session), cause)
            return
        if event.method == "SETUP":
            session = self.set_up(entry, session, at)
        if session and event.method in ("SETUP", "PLAY"):
            session.stream.change(event.query, entry.place, at)
        if session and event.method == "PLAY" and session.plays is None:
            session.plays = at
        if event.method == "DESCRIBE":
            self.described(entry.reply, at)
        self.note(entry, at, event.method, session)
        if session and event.method == "TEARDOWN":
            self.end(session, at, "TEARDOWN")

    def count_flushed(self, entry):
        """Counts the datagrams that left because a request ended a session or retuned its stream."""
        for datagram in entry.datagrams:
            sender = self.found.senders.get(datagram.content[8:12].hex().encode())
            if sender and datagram.content[:2] == b"\x80\x21" and not self.found.is_sampled:
                bisect.insort(sender.places, entry.place)

    def set_up(self, entry, session, at):
        event = entry.event
        if session:
            session.peer, session.ports = event.peer, event.ports
            return session
        name = header_of(entry.reply, b"Session").partition(";")[0].strip()
        number = header_of(entry.reply, b"com.ses.streamID")
        number = int(number) if number.isdigit() else 0
        if event.stream is None and number in self.streams:
            for lost in list(self.streams[number].sessions):
                self.end(lost, at, "unknown: the journals lack its end")
        return self.begin(name, "RTSP", entry, event.ports, number, at)

    def begin(self, name, kind, entry, ports, number, at):
        if number not in self.streams:
            self.streams[number] = Stream(number)
            self.all_streams.append(self.streams[number])
        stream = self.streams[number]
        session = Session(name, kind, entry.event, ports, stream, entry.place, at)
        session.owns = None if stream.sessions else at
        stream.sessions.append(session)
        self.sessions.append(session)
        self.living[name] = self.by_name[name] = self.by_ssrc[session.ssrc] = session
        return session

    def get(self, entry, at):
        if entry.answer.status is not None:
            cause = self.cause(entry.event, entry.answer.status, body_of(entry.reply))
            self.note(entry, at, "refused", None, cause)
            return
        number = next(n for n in range(1, len(self.streams) + 2) if n not in self.streams)
        session = self.begin(entry.answer.session, "HTTP", entry, None, number, at)
        session.stream.change(entry.event.query, entry.place, at)
        session.expires = self.expiry_of_pulls(session)
        self.note(entry, at, "GET", session)

    def cause(self, event, status, body):
        if event.refusal:
            return refusal_text(event.refusal)
        if body in CAUSES:
            return CAUSES[body]
        if body:
            word, _, key = body.partition(":")
            words = {
                "Check-Syntax": "the syntax of {} is wrong or it is missing",
                "Out-of-Range": "{} is out of range",
            }
            return words.get(word, f"{word} {{}}").format(key)
        if status == 454:
            return self.cause_of_session(event)
        if status == 404 and getattr(event, "stream", None) is not None:
            return f"stream {event.stream} doesn't live"
        return STATUSES.get(status, "the journal names no cause")

    def cause_of_session(self, event):
        if event.session is None:
            return f"{event.method} names no session"
        if event.session in self.living:
            return "the stream isn't the session's"
        ended = self.by_name.get(event.session)
        if ended and ended.until is not None:
            return f"the session ended at {clock_text(ended.until)}: {ended.why}"
        return event.session if event.session == NO_ID else "no such session was ever made"

    # HTTP readers

    def pulled(self, entry, at, session):
        self.note(entry, at, "pull", self.by_name.get(entry.event.session))
        if session and entry.answer.word == "no such session":
            self.end(session, at, "its queue was full: the reader was too slow")

    def expiry_of_pulls(self, session):
        """The moment at which an HTTP session's timeout ends it, if a pull is ever that late."""
        pulls = self.found.pulls.get(session.name.encode())
        heard = session.at
        for place in pulls.places if pulls and self.timeout else ():
            at = self.times.at(place)
            if at >= heard + self.timeout:
                break
            heard = at
        return heard + self.timeout if self.timeout else None

    # Ends

    def deadline(self, session):
        if session.kind == "HTTP":
            return session.expires
        return session.heard + self.timeout if self.timeout else None

    def expire(self, place):
        """Ends the sessions whose timeout came with a tick before a place."""
        while True:
            due = [(self.deadline(it), it) for it in self.living.values()]
            due = [(self.times.place_of(at), it.place, it) for at, it in due if at is not None]
            if not due or min(due)[0] >= min(place, 1 << 64):
                return
            tick, _, session = min(due)
            at = self.times.at(tick)
            quiet = (at - (self.deadline(session) - self.timeout)) / 1000
            what = "no request" if session.kind == "RTSP" else "its reader took nothing"
            self.notes.append(Note((tick, session), at, "timeout", session))
            self.end(session, at, f"timeout: {what} for {quiet:.0f} s")

    def end(self, session, at, why):
        session.until, session.why = at, why
        self.living.pop(session.name, None)
        stream = session.stream
        was_owner = stream.sessions[0] is session
        stream.sessions.remove(session)
        if stream.sessions and was_owner:
            stream.sessions[0].owns = at
        if not stream.sessions:
            self.streams.pop(stream.number)
            for setting in stream.settings[-1:]:
                setting.until = at

    # Front ends

    def work(self, entry, at):
        front, work = entry.event.front, entry.answer
        spells = self.spells.setdefault(front, [])
        same = spells and work.word == "read" and spells[-1].tune == work.tune
        if isinstance(entry.event, Ended) and spells and spells[-1].tune == entry.event.tune:
            spells[-1].ended = at
            self.note(entry, at, "recording ended")
        elif isinstance(entry.event, Packet) and spells and same:
            self.note(entry, at, "first packet")
        if work.word == "read" and not same:
            if spells and spells[-1].until is None:
                spells[-1].until = at
            spells.append(Spell(front, at, work, len(self.notes)))
            self.note(entry, at, "tuned")
        elif (
            work.word != "read" and spells and spells[-1].until is None and spells[-1].ended is None
        ):
            spells[-1].until = at

    def tick(self, entry, at):
        """Looks at the reports of a tick for the front ends of streams."""
        said = None
        for datagram in entry.datagrams:
            session = self.by_ssrc.get(datagram.content[4:8].hex().encode())
            if session and datagram.content[:2] == b"\x80\xc8" and session.until is None:
                said = session
                self.says(session.stream, datagram.content)
        if said:
            self.note(entry, at, "report", said)

    def described(self, reply, at):
        for part in reply.split(b"m=video")[1:]:
            number = re.search(rb"a=control:stream=(\d+)", part)
            stream = self.streams.get(int(number.group(1))) if number else None
            if stream:
                self.says(stream, part)

    def says(self, stream, text):
        """Takes the front end of a stream from its SES1 text."""
        found = re.search(rb"tuner=(\d+),(\d+),", text)
        if found and stream.settings and int(found.group(1)):
            stream.settings[-1].front = int(found.group(1))
            stream.settings[-1].is_locked = found.group(2) != b"0"

    def place_streams(self):
        """Gives each setting its front end and that front end's tuning."""
        settings = [it for stream in self.all_streams for it in stream.settings]
        settings.sort(key=lambda it: it.place)
        names, self.starts = {}, {}
        for setting in settings:
            self.attach(setting, names)
        taken = {it.spell for it in settings if it.spell}
        for setting in settings:
            if setting.front is None:
                self.guess(setting, taken, names)
        self.multiplexes = {mux: setting for setting, mux in names.values()}
        self.free_fronts(settings)

    def spell_at(self, front, moment):
        """The last tuning of a front end that began by a moment, or the first one."""
        starts = self.starts.setdefault(front, [it.at for it in self.spells.get(front, ())])
        index = max(bisect.bisect_right(starts, moment) - 1, 0)
        return self.spells[front][index] if starts else None

    def attach(self, setting, names):
        if setting.front is None or setting.is_locked is False:
            return
        until = self.times.end if setting.until is None else setting.until
        spell = self.spell_at(setting.front, min(setting.at + SETTLED // 2, until))
        if spell and spell.at <= until and (spell.until is None or spell.until >= setting.at):
            setting.spell = spell
            names[setting.multiplex] = setting, spell.mux

    def guess(self, setting, taken, names):
        """The front end of a setting that no report speaks of.

        It is one that has the same multiplex, or the first whose tuning begins then."""
        known, found = names.get(setting.multiplex), []
        for front in (it for it in self.spells if self.spells[it]):
            old = self.spell_at(front, setting.at)
            is_there = old.at <= setting.at and (old.until is None or old.until > setting.at)
            if known and is_there and old.mux == known[1]:
                found.append((0, front, old))
            index = bisect.bisect_left(self.starts[front], setting.at)
            for new in self.spells[front][index : index + 1]:
                if new.at <= setting.at + SETTLED and new not in taken:
                    found.append((new.at, front, new))
        if found:
            _, setting.front, setting.spell = min(found, key=lambda it: it[:2])
            taken.add(setting.spell)
            names.setdefault(setting.multiplex, (setting, setting.spell.mux))

    def free_fronts(self, settings):
        """Ends each tuning of a front end when the last stream there has left it."""
        users = {}
        for setting in settings:
            if setting.spell:
                users.setdefault(setting.spell, []).append(setting.until)
        for spell, ends in users.items():
            if None not in ends:
                spell.until = max(ends) if spell.until is None else min(max(ends), spell.until)


def timeout_of(notes):
    """The timeout in milliseconds that the first SETUP was told; None if there was none."""
    words = b";timeout=".hex().encode()
    for _, line in notes:
        at = line.find(words)
        if at >= 0:
            digits = re.match(rb"(3[0-9])+", line[at + len(words) :])
            return int(bytes.fromhex(digits.group(0).decode())) * 1000 if digits else None
    return None


def silences(run, session, wanted):
    """The times (from, to) of at least so many milliseconds in which a playing session got nothing."""
    if session.plays is None:
        return []
    until = session.until if session.until is not None else run.times.end
    found, last = [], session.plays
    for moment in [*moments(run, session), until]:
        if moment - last >= wanted and last <= until:
            found.append((last, min(moment, until)))
        last = max(last, moment)
    return found


def silence_cause(run, session, begin, end):
    """Why a session got nothing from one moment to another, as far as the journals say it."""
    ticks = run.times.moments
    near = ticks[max(bisect.bisect_left(ticks, begin) - 1, 0) : bisect.bisect_right(ticks, end) + 1]
    pauses = [min(after, end) - max(before, begin) for before, after in zip(near, near[1:])]
    if max(pauses, default=0) > (end - begin) / 2:
        return "the server made no tick in that time"
    middle = (begin + end) // 2
    setting = session.stream.setting_at(middle)
    if session.stream.pids_at(middle) == set():
        return "no PID was selected"
    if (
        setting
        and setting.spell
        and setting.spell.ended is not None
        and setting.spell.ended <= middle
    ):
        return "the recording had ended"
    if setting and setting.is_locked is False:
        return "no multiplex is configured for the tuning"
    return "no packet of the selected PIDs left"


def moments(run, session):
    """The moments at which a session got something, once each."""
    return sorted({at for at, _ in increments(run, session)})


def increments(run, session):
    """The moments at which a session got something, with how many datagrams or pulled packets."""
    if session.increments is None:
        session.increments = found_increments(run, session)
    return session.increments


def found_increments(run, session):
    if session.kind == "HTTP":
        pulls = run.found.pulls.get(session.name.encode())
        pairs = zip(pulls.places, pulls.counts) if pulls else ()
        return per_tick(run, [it for it in pairs if it[1]])
    sender = run.found.senders.get(session.ssrc)
    if not sender:
        return []
    if run.found.is_sampled:
        counts = [0, *sender.report_counts]
        more = [(new - old) % (1 << 32) for old, new in zip(counts, counts[1:])]
        return per_tick(run, [it for it in zip(sender.report_places, more) if it[1]])
    return counted(run, sender.places)


def per_tick(run, pairs):
    """The counts at places, put together for each tick that they follow."""
    found = {}
    for place, count in pairs:
        at = run.times.at(place)
        found[at] = found.get(at, 0) + count
    return list(found.items())


def counted(run, places):
    """How many of these places follow each tick."""
    nows, ticks = run.times.nows, run.times.places
    if not ticks or not places:
        return [(run.times.start, len(places))] if places else []
    low = bisect.bisect_left(places, ticks[0])
    found = [(run.times.start, low)] if low else []
    index = max(bisect.bisect_right(ticks, places[0]) - 1, 0)
    while low < len(places):
        end = ticks[index + 1] if index + 1 < len(ticks) else 1 << 64
        high = bisect.bisect_left(places, end, low)
        if high > low:
            found.append((nows[index], high - low))
        low, index = high, index + 1
    return found
