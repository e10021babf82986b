"""Prints the entries of a journal for people.

Reads the journals, or standard input, and writes for each line `start NOW` the moment, and for each
line `entry PLACE CALLER HEX` the place, the number of the job, the event with its fields, the
answer, the status line and the length of the reply, and address and length of each datagram.
With --by-place the entries of all journals come in order of their places.

PROTOCOL.md, "Lines of journals", says what a record is. A line that is none of these, or whose
record ends too early or too late, is told on standard error, and the status is then 1. Whether the
entries are one history isn't looked at. Frequencies are in MHz, symbol rates in kS/s.
`satipctl journal page` makes a page of the same entries.
"""
import fileinput
import sys

from .entries import (
    Start,
    Wrong,
    answer_text,
    datagram_text,
    event_text,
    read_line,
    reply_line,
)


def printed(line):
    """The place of an entry, or None for a start, and what is printed of the line."""
    read = read_line(line)
    if isinstance(read, Start):
        return None, f"start at {read.now} ms"
    lines = [f"{read.place}  job {read.caller}  {event_text(read.event)}"]
    lines += [f"answer: {answer_text(read.answer)}"]
    lines += [reply_line(read.reply)] if read.reply else []
    lines += [datagram_text(datagram) for datagram in read.datagrams]
    return read.place, "\n    ".join(lines)


def add_words(parser):
    parser.add_argument("--by-place", action="store_true", help="entries in order of their places")
    parser.add_argument("journals", nargs="*", metavar="JOURNAL", help="standard input if none")


def run(options):
    status, kept = 0, []
    with fileinput.input(options.journals or ("-",), encoding="ascii", errors="replace") as lines:
        for line in lines:
            try:
                place, text = printed(line)
            except Wrong as wrong:
                print(f"{lines.filename()}: line {lines.filelineno()}: {wrong}", file=sys.stderr)
                status = 1
                continue
            if options.by_place and place is not None:
                kept.append((place, text))
            else:
                print(text)
    for _, text in sorted(kept, key=lambda entry: entry[0]):
        print(text)
    return status
