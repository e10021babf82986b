"""Makes a page of what a server did, from its journals.

Reads the journals of a run, or standard input, and writes one page that needs nothing else: a band
for each front end with its tunings, a bar for each session under its stream (owner or joined, when
it played, why it ended), the refused requests with their causes, datagrams a second, and gaps. An
entry shows its request and its reply as text.

A gap is a time of --silence milliseconds or more, 1000 without the word, in which a playing session
got nothing, a time without a tick, or a run of places that no line has. If the journals of pumps
have more than 256 MiB together, or the MiB of --sampled-above, parts of them are read, and the page
says so; --whole reads all. The page has at most 5 MB: it counts the entries and sessions that it
leaves out.

A line that is none of a journal is told on standard error, and the status is then 1. Whether the
entries are one history isn't looked at: `satip audit` does that.
"""
import bisect
import json
import os
import sys

from .entries import Request, answer_text, datagram_text, event_text, query_text
from .run import Run, increments, silence_cause, silences
from .scan import SAMPLED_ABOVE, missing_places, scan

TEMPLATE = os.path.join(os.path.dirname(os.path.abspath(__file__)), "page.html")
STEPS = (1000, 2000, 5000, 10000, 20000, 60000, 120000, 300000, 600000, 1800000, 3600000)
MOST_BUCKETS = 3600
MOST_BYTES = 4900000
# Entries that tell what a client or the server did, and those of which there are many alike.
FIRST_KINDS = ("refused", "SETUP", "PLAY", "TEARDOWN", "GET")
FIRST_KINDS += ("timeout", "close", "stop", "tuned", "recording ended")
MOST_ENTRIES, MOST_SESSIONS, MOST_GAPS = 3000, 2000, 2000
MOST_RUNS = 200
LATE_TICK = 1000


def evenly(items, count):
    """At most so many of the items, evenly taken."""
    if len(items) <= count:
        return items
    return [items[index * len(items) // count] for index in range(count)]


class Buckets:
    """Counts over time, in steps that a page can hold."""

    def __init__(self, run):
        self.run, length = run, run.times.end - run.times.start
        steps = (it for it in STEPS if length <= it * MOST_BUCKETS)
        self.step = next(steps, length // MOST_BUCKETS + 1)
        self.count = length // self.step + 1
        bounds = [run.times.start + index * self.step for index in range(self.count + 1)]
        self.bounds = [run.times.place_of(bound) for bound in bounds]
        self.bounds[0] = 0

    def a_second(self, counts):
        """The first bucket that has a count, and what each from there on has a second."""
        if not counts:
            return 0, []
        first, kept = min(counts), [
            counts.get(index, 0) for index in range(min(counts), max(counts) + 1)
        ]
        return first, [round(count * 1000 / self.step, 1 if count < 10 else None) for count in kept]

    def of_moments(self, pairs):
        counts = {}
        for at, count in pairs:
            index = (at - self.run.times.start) // self.step
            counts[index] = counts.get(index, 0) + count
        return self.a_second(counts)

    def of_places(self, places):
        cuts = [bisect.bisect_left(places, bound) for bound in self.bounds]
        counts = enumerate(high - low for low, high in zip(cuts, cuts[1:]))
        return self.a_second({index: count for index, count in counts if count})

    def of_estimates(self, windows, spells):
        """Spreads each window's packets over the time up to the next, as far as a recording played."""
        start, end, counts = self.run.times.start, self.run.times.end, {}
        ends = [it.until if it.ended is None else it.ended for it in spells]
        played = [(it.at, end if until is None else until) for it, until in zip(spells, ends)]
        moments = [self.run.times.at(place) for place, _ in windows] + [end]
        for (_, packets), begin, until in zip(windows, moments, moments[1:]):
            times = [
                (max(begin, at), min(until, to)) for at, to in played if at < until and to > begin
            ]
            whole = sum(to - at for at, to in times)
            for at, to in times if whole else [(begin, begin + 1)]:
                self.spread(counts, at - start, to - start, packets / (whole or 1))
        return self.a_second({index: round(count) for index, count in counts.items()})

    def spread(self, counts, begin, end, a_millisecond):
        for index in range(begin // self.step, (end - 1) // self.step + 1):
            part = min((index + 1) * self.step, end) - max(index * self.step, begin)
            counts[index] = counts.get(index, 0) + part * a_millisecond


# Texts of entries


def request_text(event):
    """A request as text, from the fields that its record has."""
    lines = [f"from {event.peer}"]
    if event.refusal:
        return "\n".join([f"refused as text: {event.refusal}", *lines])
    query = query_text(event.query)
    if not isinstance(event, Request):
        return "\n".join([f"GET /?{query}", *lines])
    target = "/" if event.stream is None else f"/stream={event.stream}"
    lines = [f"{event.method} {target}{'?' + query if query else ''}", f"CSeq: {event.cseq}"]
    lines += [f"Session: {event.session}"] if event.session else []
    lines += [f"Transport: client_port={event.ports[0]}-{event.ports[1]}"] if event.ports else []
    return "\n".join([*lines, f"from {event.peer}"])


def reply_text(entry):
    """The reply as it was sent; of packets how many bytes."""
    if not entry.reply:
        return ""
    if entry.reply.startswith((b"RTSP/", b"HTTP/")):
        return entry.reply.decode("ascii", "replace").replace("\r\n", "\n").rstrip("\n")
    return f"{len(entry.reply)} bytes of transport packets"


def title_of(note, event):
    if note.kind == "refused" and event.refusal:
        return "request"
    if isinstance(event, Request):
        return event.method
    return "GET" if note.kind == "refused" else note.kind


def reports_in(entry):
    """What the reports of a tick say, one line each."""
    for datagram in entry.datagrams:
        _, _, text = datagram.content.partition(b"SES1")
        if datagram.content.startswith(b"\x80\xc8") and text:
            length = int.from_bytes(text[2:4], "big")
            yield f"to {datagram.ip}: {text[4:4 + length].decode('ascii', 'replace')}"


class Texts:
    """Texts by number, each once."""

    def __init__(self):
        self.numbers = {}

    def number(self, text):
        return self.numbers.setdefault(text, len(self.numbers))


def entry_row(run, note, texts, numbers):
    """An entry for the page: place, moment, job, kind, title, session, texts, cause."""
    at, session = note.at - run.times.start, numbers.get(note.session, -1)
    if note.kind == "timeout":
        place, ended = note.entry
        request, answer = f"tick at {note.at}", f"session {ended.name} ended\n{ended.why}"
        return [
            place,
            at,
            None,
            "timeout",
            "timeout",
            session,
            texts.number(request),
            texts.number(answer),
            0,
            None,
        ]
    entry = note.entry
    event, status = entry.event, getattr(entry.answer, "status", None)
    is_asked = note.kind in FIRST_KINDS[:5] or isinstance(event, Request)
    first = request_text(event) if is_asked else event_text(event)
    if note.kind == "tuned":
        first = f"front end {event.front}: {answer_text(entry.answer)}\n{first}"
    elif note.kind == "report":
        first = "\n".join([*reports_in(entry), first])
    lines = [reply_text(entry) or f"answer: {answer_text(entry.answer)}"]
    lines += [datagram_text(it) for it in entry.datagrams]
    cause = texts.number(note.cause) if note.cause else None
    row = [entry.place, at, entry.caller, note.kind, title_of(note, event), session]
    return row + [texts.number(first), texts.number("\n".join(lines)), status, cause]


def chosen(notes, most):
    """The notes that the page has: those of FIRST_KINDS first, each kind with an even share."""
    kinds = {}
    for note in notes:
        kinds.setdefault(note.kind, []).append(note)
    kept = []
    for are_first in (True, False):
        groups = sorted(
            (it for kind, it in kinds.items() if (kind in FIRST_KINDS) == are_first), key=len
        )
        for index, group in enumerate(groups):
            kept += evenly(group, (most - len(kept)) // (len(groups) - index))
    return sorted(kept, key=place_of)


def kept_sessions(run, most):
    """The sessions that the page has: the longest ones, and others evenly taken."""
    if len(run.sessions) <= most:
        return run.sessions
    by_length = sorted(
        run.sessions, key=lambda it: it.at - (run.times.end if it.until is None else it.until)
    )
    others = sorted(by_length[most // 2 :], key=lambda it: it.place)
    return sorted(
        by_length[: most // 2] + evenly(others, most - most // 2), key=lambda it: it.place
    )


def place_of(note):
    return note.entry[0] if note.kind == "timeout" else note.entry.place


# Parts of the page


def segments(run, session):
    """What a session's stream was tuned to while it lived: (from, to, front end, multiplex, query)."""
    end = run.times.end if session.until is None else session.until
    rows = []
    for setting in session.stream.settings:
        until = end if setting.until is None else min(setting.until, end)
        begin = max(setting.at, session.at)
        if until >= begin and (until > begin or setting.at == session.at):
            mux = setting.spell.mux if setting.spell else None
            times = begin - run.times.start, until - run.times.start
            rows.append([*times, setting.front, mux, query_text(setting.tuning)])
    return rows


def put_in_lanes(sessions):
    """Gives each session a lane of its stream number, so that no two of a lane overlap."""
    lanes, ends = {}, {}
    for session in sessions:
        rows = ends.setdefault(session.stream.number, [])
        lane = next(
            (index for index, end in enumerate(rows) if end is not None and end < session.at),
            len(rows),
        )
        rows[lane:] = [session.until, *rows[lane + 1 :]]
        lanes[session] = lane
    return lanes


def session_row(run, session, lane, buckets, silence):
    start, pairs = run.times.start, increments(run, session)
    first, rate = buckets.of_moments(pairs)
    gaps = silences(run, session, silence)
    return {
        "id": session.name,
        "kind": session.kind,
        "peer": session.peer,
        "ports": list(session.ports) if session.ports else None,
        "stream": session.stream.number,
        "lane": lane,
        "at": session.at - start,
        "plays": None if session.plays is None else session.plays - start,
        "until": None if session.until is None else session.until - start,
        "why": session.why,
        "joined": session.joined,
        "owns": None if session.owns is None else session.owns - start,
        "segments": segments(run, session),
        "gaps": [[a - start, b - start, silence_cause(run, session, a, b)] for a, b in gaps],
        "total": sum(count for _, count in pairs),
        "first": first,
        "rate": rate,
    }


def front_rows(run, buckets, numbers):
    """The front ends with their tunings; `numbers` has the rows of the entries on the page."""
    start, rows = run.times.start, []
    fronts = set(run.spells) | {int(front, 16) for front in run.found.fronts}
    for front in sorted(fronts):
        spells = [
            {
                "at": it.at - start,
                "until": None if it.until is None else it.until - start,
                "mux": it.mux,
                "tune": it.tune,
                "ended": None if it.ended is None else it.ended - start,
                "entry": numbers.get(run.notes[it.note], -1),
            }
            for it in run.spells.get(front, ())
        ]
        key = b"%04x" % front
        sampled = run.found.is_sampled and key in run.found.estimates
        places = run.found.fronts.get(key, ())
        if sampled:
            first, rate = buckets.of_estimates(run.found.estimates[key], run.spells.get(front, ()))
        else:
            first, rate = buckets.of_places(places)
        rows.append(
            {"number": front, "spells": spells, "first": first, "rate": rate, "estimated": sampled}
        )
    return rows


def run_gaps(run, silence):
    """Gaps of the whole run: ticks that came late, and places that no line has."""
    start, nows = run.times.start, run.times.nows
    late = [(a, b) for a, b in zip((start, *nows), nows) if b - a >= max(silence, LATE_TICK)]
    rows = [
        [a - start, b - start, "late", f"no tick for {(b - a) / 1000:.1f} s"]
        for a, b in evenly(late, MOST_GAPS)
    ]
    runs = missing_places(run.found) or []
    for first, count in evenly(runs, MOST_RUNS):
        at = run.times.at(first) - start
        text = (
            f"place {first} has no line"
            if count == 1
            else f"places {first} to {first + count - 1} have no line"
        )
        rows.append([at, at, "missing", text])
    return rows


def remarks(run, counts):
    """What the page doesn't have, and why."""
    found, lines = run.found, []
    for file in found.files:
        if file.sampled:
            share = f"{file.read * 100 // max(file.size, 1)} % of {file.size >> 20} MiB"
            lines.append(f"{file.name}: {share} were read. Its packets a second are estimates.")
        if file.wrong:
            lines.append(f"{file.name}: lines that are none of a journal: {len(file.wrong)}.")
    if found.is_sampled:
        lines.append("Datagrams a second are the counts of the RTCP reports.")
        lines.append("Whether lines are missing wasn't looked at.")
    if run.wrong:
        lines.append(f"Entries that are none of a journal: {len(run.wrong)}.")
    for what, shown, there in counts:
        if shown < there:
            lines.append(f"The page has {shown} of {there} {what}.")
    if len(found.starts) != 1:
        lines.append(f"Start lines: {len(found.starts)}; a run has one.")
    return lines


def all_counts(run, buckets):
    """Counts of the whole run, with what the page leaves out."""
    sent = [pair for it in run.sessions if it.kind == "RTSP" for pair in increments(run, it)]
    first, rate = buckets.of_moments(sent)
    return {
        "first": first,
        "rate": rate,
        "sessions": len(run.sessions),
        "joined": sum(it.joined for it in run.sessions),
        "timeouts": sum(it.why.startswith("timeout") for it in run.sessions),
        "refused": len(run.refusals),
        "datagrams": sum(count for _, count in sent),
    }


def page_data(run, buckets, silence, scale):
    """All that the page shows; a scale below 1 takes fewer entries and sessions."""
    texts = Texts()
    texts.number("")
    kept = kept_sessions(run, int(MOST_SESSIONS * scale))
    lanes, numbers = put_in_lanes(kept), {session: index for index, session in enumerate(kept)}
    notes = chosen(run.notes, int(MOST_ENTRIES * scale))
    rows = [entry_row(run, note, texts, numbers) for note in notes]
    counts = [
        ("sessions", len(kept), len(run.sessions)),
        ("entries that say more than a packet, a pull or a tick", len(notes), len(run.notes)),
    ]
    tunings = {mux: it.tuning for mux, it in run.multiplexes.items()}
    lines = sum(file.lines for file in run.found.files)
    return {
        "start": run.times.start,
        "length": run.times.end - run.times.start,
        "stopped": None if run.stopped is None else run.stopped - run.times.start,
        "step": buckets.step,
        "silence": silence,
        "lines": None if run.found.is_sampled else lines,
        "bytes": sum(file.size for file in run.found.files),
        "files": [[file.name, file.size, file.read, file.lines] for file in run.found.files],
        "remarks": remarks(run, counts),
        "multiplexes": {mux: mux_text(tuning) for mux, tuning in tunings.items()},
        "fronts": front_rows(run, buckets, {note: index for index, note in enumerate(notes)}),
        "sessions": [session_row(run, it, lanes[it], buckets, silence) for it in kept],
        "counts": all_counts(run, buckets),
        "gaps": run_gaps(run, silence),
        "entries": rows,
        "texts": list(texts.numbers),
    }


def mux_text(tuning):
    place = f"position {tuning.get('src', 1)}"
    words = f"{tuning.get('freq')} MHz {tuning.get('pol')}", tuning.get("msys")
    return ", ".join([*words, f"{tuning.get('sr')} kS/s", place])


def page(data):
    with open(TEMPLATE, encoding="utf-8") as file:
        template = file.read()
    text = json.dumps(data, separators=(",", ":")).replace("<", "\\u003c")
    return template.replace("RUN_DATA", text)


def add_words(parser):
    parser.add_argument("--silence", type=int, default=1000, metavar="MS", help="the least gap")
    parser.add_argument("--sampled-above", type=int, default=SAMPLED_ABOVE >> 20, metavar="MIB")
    parser.add_argument("--whole", action="store_true", help="read all, however long it takes")
    parser.add_argument("journals", nargs="*", metavar="JOURNAL", help="standard input if none")


def run(options):
    limit = 1 << 64 if options.whole else options.sampled_above << 20
    found = scan(options.journals, sys.stdin.buffer, limit)
    made = Run(found)
    buckets, scale = Buckets(made), 1.0
    text = page(page_data(made, buckets, options.silence, scale))
    while len(text) > MOST_BYTES and scale > 0.01:
        scale /= 2
        text = page(page_data(made, buckets, options.silence, scale))
    sys.stdout.write(text)
    wrong = []
    for file in found.files:
        read = " of those read" if file.sampled else ""
        wrong += [f"{file.name}: line {line}{read}: {it}" for line, it in file.wrong]
    wrong += [f"entry {place}: {it}" for place, it in made.wrong]
    print(*wrong[:20], sep="\n", end="\n" if wrong else "", file=sys.stderr)
    return 1 if wrong else 0
