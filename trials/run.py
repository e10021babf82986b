#!/usr/bin/env python3
"""Runs trials one after another, and writes their results to docs/TRIALS.md.

    trials/run.py [--list] [--no-table] [NAME..]

Without a name it runs all trials; --list says what each shows, and runs none. It prints for each
trial `pass`, `fail` or `missing: NAME`, and how many seconds it took. What a trial wrote is in
/tmp/satip-trials/NAME.log, and the last lines are printed if it fails. The rows of the table of
other trials are kept, and with --no-table the whole page is.

A trial is an executable .py or .sh file of this folder. Its head begins with a sentence that says
what it shows, and has lines that are read here:

    Packages: NAME..    Debian packages that it needs, or none
    Files: PATH..       files that have to be built before it
    Rights: root        it needs them
    Limit: N s          it is ended after that time, 300 s without the line

A trial passes by status 0. By status 77 something is missing on this machine, which its last line
names; that is no failure. Ends with status 1 if a trial fails, 2 if there is no such trial. Needs
python3 and dpkg, and git and rt for the columns of commit and kit.
"""

import argparse
import datetime
import os
import re
import signal
import subprocess
import sys
import tempfile
import time

sys.dont_write_bytecode = True
from lib.checks import MISSING

HERE = os.path.dirname(os.path.abspath(__file__))
TOP = os.path.dirname(HERE)
PAGE = os.path.join(TOP, "docs", "TRIALS.md")
LOGS = os.path.join(tempfile.gettempdir(), "satip-trials")
USUAL_LIMIT, PATIENCE = 300, 10
LINES_OF_A_FAILURE = 15
COLUMNS = ("date", "commit", "kit", "trial", "result", "seconds")
HEAD = """\
# Trials

`trials/run.py` runs the trials and writes this page. A trial runs the built program against real clients, networks and faults. Trials aren't part of the gate.

A trial passes, fails, or misses what its result names: a package, a right, a file, or a part of the kernel. Each row is the last run of its trial.

## Wrong bodies

`trials/try_edits.py` gave the prover 767 wrong bodies, and it refused all. A must-fail edit of `crates/*/must-fail` is tried by the gate, 59 of them; the
others are in `trials/edits`. Of the refusals, 144 say little of a contract: 128 are goals that the search left open at its limit, and 16 miss a name that
the edit took away. The other 623 each name the clause that is false of the wrong body. `trials/try_edits.py --table` prints the list, from
`trials/edits/results.jsonl`.
"""


class Trial:
    """A trial and what the head of its file says."""

    def __init__(self, file):
        self.file, self.name = file, os.path.splitext(file)[0]
        with open(os.path.join(HERE, file), encoding="utf-8") as text:
            self.lines = [re.sub(r"^#( |$)", "", line.rstrip()) for line in text][1:60]
        self.packages = [it for it in self.words("Packages") if it != "none"]
        self.files, self.rights = self.words("Files"), self.words("Rights")
        self.limit = int(next(iter(self.words("Limit")), USUAL_LIMIT))

    def words(self, name):
        found = [line.split()[1:] for line in self.lines if line.startswith(f"{name}:")]
        return [word for words in found for word in words]

    def shows(self):
        """The first sentence of its head."""
        first = next((line for line in self.lines if line.strip('" ')), "")
        return first.strip('" ').removesuffix(".")

    def missing(self):
        """Returns what it needs and this machine hasn't, by name."""
        if "root" in self.rights and os.geteuid() != 0:
            return "root"
        for path in self.files:
            if not os.path.exists(os.path.join(TOP, path)):
                return path
        return next((name for name in self.packages if not is_installed(name)), None)

    def run(self):
        """Runs it; returns its result and its seconds."""
        name = self.missing()
        if name:
            return f"missing: {name}", 0
        begun = time.monotonic()
        with open(self.log(), "wb") as log:
            process = subprocess.Popen(
                [os.path.join(HERE, self.file)], cwd=TOP, stdin=subprocess.DEVNULL,
                stdout=log, stderr=subprocess.STDOUT, start_new_session=True,
            )
            status = ended(process, self.limit)
        return self.result(status), round(time.monotonic() - begun)

    def result(self, status):
        if status is None:
            return f"fail: over {self.limit} s"
        last = next(iter(self.said()[-1:]), "")
        if status == MISSING and last.startswith("missing: "):
            return last
        return "pass" if status == 0 else "fail"

    def log(self):
        return os.path.join(LOGS, f"{self.name}.log")

    def said(self):
        with open(self.log(), encoding="utf-8", errors="replace") as log:
            return log.read().splitlines()


def is_installed(package):
    words = ["dpkg-query", "-W", "-f", "${db:Status-Status}", package]
    ran = subprocess.run(words, capture_output=True, text=True, check=False)
    return ran.stdout == "installed"


def ended(process, limit):
    """Returns the status of a process; ends its group after the limit, and then returns None."""
    status = None
    try:
        status = process.wait(limit)
    except subprocess.TimeoutExpired:
        os.killpg(process.pid, signal.SIGTERM)
        try:
            process.wait(PATIENCE)
        except subprocess.TimeoutExpired:
            pass
    finally:
        try:
            os.killpg(process.pid, signal.SIGKILL)
        except ProcessLookupError:
            pass
        process.wait()
    return status


def all_trials():
    files = [it for it in sorted(os.listdir(HERE)) if it.endswith((".py", ".sh")) and it != "run.py"]
    return [Trial(it) for it in files if os.access(os.path.join(HERE, it), os.X_OK)]


def chosen(trials, names):
    """Returns the trials of these names, with or without their endings; all without a name."""
    by_name = {it.name: it for it in trials} | {it.file: it for it in trials}
    unknown = [name for name in names if os.path.basename(name) not in by_name]
    if unknown:
        print(f"no trial is called {unknown[0]}; --list names them", file=sys.stderr)
        sys.exit(2)
    return [by_name[os.path.basename(name)] for name in names] or trials


def first_word_of(*words):
    """The first word that a command prints, or -."""
    try:
        ran = subprocess.run(words, cwd=TOP, capture_output=True, text=True, check=False)
    except FileNotFoundError:
        return "-"
    return next(iter(ran.stdout.split()), "-")


def commit():
    """The commit of this tree, with + if a file of it was changed."""
    changed = first_word_of("git", "status", "--porcelain", "-uno", "--", ".", ":!docs/TRIALS.md")
    return first_word_of("git", "rev-parse", "--short=8", "HEAD") + ("" if changed == "-" else "+")


def old_rows():
    """The rows of the page, by trial."""
    rows = {}
    if os.path.exists(PAGE):
        with open(PAGE, encoding="utf-8") as page:
            for line in page:
                cells = [cell.strip() for cell in line.strip().strip("|").split("|")]
                if len(cells) == len(COLUMNS) and cells[0] not in ("date", "---"):
                    rows[cells[3].strip("`")] = cells
    return rows


def table(*rows):
    return "".join(f"| {' | '.join(row)} |\n" for row in rows)


def write_page(trials, rows):
    """Writes what each trial shows, and the last result of each."""
    results = [rows[it.name] for it in trials if it.name in rows]
    with open(PAGE, "w", encoding="utf-8") as page:
        page.write(f"{HEAD}\n## What each shows\n\n| trial | what it shows |\n|---|---|\n")
        page.write(table(*((f"`{it.name}`", it.shows()) for it in trials)))
        page.write(f"\n## Results\n\n{table(COLUMNS)}|{'---|' * len(COLUMNS)}\n")
        page.write(table(*results))


def run_all(trials):
    """Runs the trials; yields the row of each."""
    os.makedirs(LOGS, exist_ok=True)
    kit, at = first_word_of("rt", "version"), commit()
    for trial in trials:
        result, seconds = trial.run()
        print(f"{trial.name}: {result}, {seconds} s", flush=True)
        if result.startswith("fail"):
            for line in trial.said()[-LINES_OF_A_FAILURE:]:
                print(f"    {line[:160]}")
            print(f"    all of it: {trial.log()}", flush=True)
        today = datetime.date.today().isoformat()
        yield trial.name, [today, at, kit, f"`{trial.name}`", result, str(seconds)]


def main():
    words = argparse.ArgumentParser(description="Runs trials and writes docs/TRIALS.md.")
    words.add_argument("--list", action="store_true", help="says what each trial shows")
    words.add_argument("--no-table", action="store_true", help="leaves docs/TRIALS.md as it is")
    words.add_argument("names", metavar="NAME", nargs="*", help="a trial, all without a name")
    given = words.parse_args()
    trials = all_trials()
    wanted = chosen(trials, given.names)
    if given.list:
        for trial in wanted:
            print(f"{trial.name}: {trial.shows()}")
        return
    well = True
    for name, row in run_all(wanted):
        well = well and not row[4].startswith("fail")
        if not given.no_table:
            write_page(trials, old_rows() | {name: row})
    sys.exit(0 if well else 1)


if __name__ == "__main__":
    main()
