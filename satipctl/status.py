"""Shows front ends, streams and viewers of a running server, with their bit rates.

It reads the server's status file twice, a second apart, and asks DESCRIBE for the tunings and PIDs of
streams. The file is the one that --status-file or SATIP_STATUS names, else that of the unit that
serves by CONFIG: /run/satip/status for satip.toml, /run/satip-NAME/status for NAME.toml. An RTP
viewer is a destination of datagrams; it has no age, as its session isn't in the file. Lines with lost
datagrams are red on a terminal.

If there is no such file it shows what the system knows of the server of CONFIG, by ss: connections
with their rates and, for root, the last 128 destinations, without theirs.

The status is 0, 1 if the file isn't written any more, and 2 if it can't be read.
"""

import itertools
import json
import os
import sys

from . import watch
from .command import library
from .watch import age_text, behind_text, bytes_text, rate_text


class Lossy(str):
    """A line that says that something was lost."""


def add_words(words):
    watch.add_words(words)
    words.add_argument("--watch", action="store_true", help="once a second, until it is stopped")
    words.add_argument("--json", action="store_true", help="one JSON object, a line for each second")


def run(given):
    seen = watch.Watch(given)
    if given.json:
        return in_lines(given, seen, lambda reading: json.dumps(reading.to_json()))
    if not given.watch:
        for line in text(seen.next()):
            print(painted(line))
        return 0
    if not sys.stdout.isatty():
        return in_lines(given, seen, lambda reading: "\n".join([*text(reading), ""]))
    return live(seen)


def painted(line):
    """The line, red on a terminal if something was lost."""
    is_red = isinstance(line, Lossy) and sys.stdout.isatty() and not os.environ.get("NO_COLOR")
    return f"\x1b[31m{line}\x1b[0m" if is_red else line


def in_lines(given, seen, told):
    while True:
        print(told(seen.next()), flush=True)
        if not given.watch:
            return 0


def live(seen):
    """One screen that changes."""
    rich_live = library("rich.live", "python3-rich")
    rich_text = library("rich.text", "python3-rich")
    with rich_live.Live(auto_refresh=False, screen=True) as screen:
        while True:
            shown = rich_text.Text()
            for line in text(seen.next()):
                shown.append(f"{line}\n", "red" if isinstance(line, Lossy) else None)
            screen.update(shown, refresh=True)


def table(head, rows, kinds=()):
    """Columns as wide as their widest cell; `kinds` are str or Lossy, for each row."""
    rows = [head, *rows]
    widths = [max(map(len, column)) for column in zip(*rows)]
    for row, kind in itertools.zip_longest(rows, (str, *kinds), fillvalue=str):
        yield kind("  ".join(cell.ljust(width) for cell, width in zip(row, widths)).rstrip())


def text(reading):
    """The lines for people."""
    viewers = sorted(reading.viewers(), key=lambda it: (it.kind, it.address))
    yield from head(reading)
    yield ""
    if reading.streams is None:
        yield "streams: the server was not asked, or didn't answer"
    else:
        rows = [
            (str(it.number), str(it.front_end or ""), it.tuning, "plays" if it.plays else "pauses")
            for it in reading.streams
        ]
        yield from table(("stream", "front end", "multiplex", "state"), rows)
    yield ""
    rows = [
        (it.address, it.kind, age_text(it.age), rate_text(it.rate), bytes_text(it.bytes), str(it.refused or ""))
        for it in viewers
    ]
    kinds = [Lossy if it.refused else str for it in viewers]
    yield from table(("viewer", "kind", "since", "rate", "sent", "refused"), rows, kinds)


def head(reading):
    """The totals and the front ends."""
    now, totals = reading.now, reading.now.totals
    if totals is None:
        yield f"no status file, so this is what the system knows; connections {len(now.connections)}"
        if reading.uncounted():
            yield f"destinations of RTP, also some that left: {', '.join(reading.uncounted())}"
        return
    yield f"satip {now.version}, up {age_text(now.uptime)}, since {now.started}"
    yield f"sends {rate_text(reading.sent_rate())}; sent {bytes_text(totals.sent + totals.bytes)}"
    yield f"connections: open {len(now.connections)}, taken {totals.taken}" + counts(
        "refused", totals.refused
    )
    kind = Lossy if any(totals.lost.values()) else str
    yield kind(f"datagrams: sent {totals.datagrams}" + counts("refused", totals.lost))
    yield ""
    yield from table(
        ("front end", "multiplex", "PIDs", "recording", "rate", "restarts", "behind"),
        [front_row(it) for it in reading.fronts()],
    )


def front_row(front):
    pids = front.pids or ""
    return (
        str(front.number), front.multiplex or "", pids if len(pids) < 30 else f"{pids[:27]}..",
        front.file or "idle", rate_text(front.rate), str(front.restarts), behind_text(front.behind),
    )


def counts(name, by_cause):
    """The counts that aren't 0, after a name."""
    told = [f"{cause.replace('_', ' ')} {count}" for cause, count in by_cause.items() if count]
    return f", {name}: {', '.join(told)}" if told else ""
