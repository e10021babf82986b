#!/usr/bin/env python3
"""Prints a line as `rt ci` proves each crate, and how long the rest may take.

    rt ci 2>&1 | tools/proof_progress.py --log LOG CRATES

CRATES is the crates.txt of what is proved. Copies standard input, which rt prints, to LOG. A line
is `25 of 52 proved, satip_state, some 15 minutes left`. On a terminal each is written over the one
before it. What rt says of a crate that isn't proved is printed whole, and the last line of its run.

The minutes come from the seconds of tools/proof_seconds.txt, for as many processors as there are,
and from how fast the crates so far were proved. Needs python3 alone. Ends with status 1 if rt said
that a crate isn't proved, else 0.
"""

import argparse
import os
import re
import sys
import time

SECONDS = os.path.join(os.path.dirname(os.path.abspath(__file__)), "proof_seconds.txt")
# A crate that the list doesn't have.
USUAL = 60
PROVED = re.compile(r"rt: (\w+) (proved|is kept: .*)\n")
NOT_PROVED = re.compile(r"rt: \w+(: its tests are)? NOT PROVED")
# The speed of a machine is known after that many seconds of the list; before that it is taken as that
# of the run from nothing of kit 13f on four processors, whose crates were these seconds and a quarter.
ENOUGH, EARLY, LEAST, MOST = 60, 1.25, 0.2, 20
# A crate of the longest chain has more than one processor, since others wait for it. With this factor
# the minutes of that run were 1.2 off on average, and 4.4 at most.
BESIDE = 1.4


def crates_of(path):
    """The crates of a crates.txt, each with those below it."""
    crates = {}
    with open(path, encoding="utf-8") as file:
        for line in file:
            head, colon, below = line.partition("#")[0].partition(":")
            if colon:
                crates[head.split()[0]] = below.split()
    return {name: [it for it in below if it in crates] for name, below in crates.items()}


def seconds_of(crates):
    with open(SECONDS, encoding="utf-8") as file:
        lines = [line.split() for line in file if not line.startswith("#")]
    known = {name: int(count) for name, count in lines}
    return {name: known.get(name, USUAL) for name in crates}


class Progress:
    """What is proved, and since when."""

    def __init__(self, crates, processors):
        self.crates, self.processors = crates, processors
        self.seconds = seconds_of(crates)
        self.begun, self.kept = time.monotonic(), 0
        self.proved = set()
        self.whole = self.left()

    def add(self, name, is_kept):
        """Counts a crate. One that an earlier run proved says nothing of this machine's speed."""
        before = self.left()
        self.proved.add(name)
        if is_kept:
            self.kept += before - self.left()

    def left(self):
        """Seconds for the crates that aren't proved: the longest chain, or their share of work."""
        chain = {}

        def longest(name):
            if name not in chain:
                own = 0 if name in self.proved else self.seconds[name]
                chain[name] = own + max(map(longest, self.crates[name]), default=0)
            return chain[name]

        work = sum(self.seconds[name] for name in self.crates if name not in self.proved)
        longest_chain = max(map(longest, self.crates), default=0)
        return max(work / self.processors, longest_chain / min(BESIDE, self.processors))

    def minutes(self):
        """The minutes that the rest may take, by the speed so far."""
        done = self.whole - self.kept - self.left()
        speed = (time.monotonic() - self.begun) / done if done >= ENOUGH else EARLY
        return self.left() * min(max(speed, LEAST), MOST) / 60

    def line(self, name):
        told = f"{len(self.proved)} of {len(self.crates)} proved, {name}"
        if len(self.proved) == len(self.crates):
            return told
        minutes = round(self.minutes())
        left = "less than a minute" if minutes < 1 else f"some {minutes} minute{'s' * (minutes > 1)}"
        return f"{told}, {left} left"


class Lines:
    """Lines for a person: over each other on a terminal, else one after another."""

    def __init__(self):
        self.over = sys.stdout.isatty()

    def say(self, text):
        print(f"\r\x1b[K{text}" if self.over else text, end="" if self.over else "\n", flush=True)

    def end(self):
        if self.over:
            print(flush=True)


def follow(source, log, progress, lines):
    """Says what rt proves; returns whether it said that a crate isn't proved."""
    failed, of_crate = False, []
    for line in source:
        log.write(line)
        log.flush()
        # What rt prints of a crate begins so, and ends with whether it is proved.
        of_crate = [line] if line.startswith("== ") else [*of_crate, line]
        proved = PROVED.fullmatch(line)
        if proved and proved[1] in progress.crates:
            progress.add(proved[1], proved[2] != "proved")
            lines.say(progress.line(proved[1]))
        elif NOT_PROVED.match(line):
            failed = True
            lines.end()
            print("".join(of_crate), end="", flush=True)
        if proved or NOT_PROVED.match(line):
            of_crate = []
    lines.end()
    return failed


def main():
    words = argparse.ArgumentParser(description="Prints how far rt ci is.")
    words.add_argument("--log", required=True, help="gets what rt prints")
    words.add_argument("crates", metavar="CRATES", help="the crates.txt of what is proved")
    given = words.parse_args()
    progress = Progress(crates_of(given.crates), os.cpu_count() or 1)
    with open(given.log, "w", encoding="utf-8") as log:
        sys.exit(follow(sys.stdin, log, progress, Lines()))


if __name__ == "__main__":
    main()
