#!/usr/bin/env python3
"""Tries the edits, wrong bodies that the prover must refuse, and writes a page of the results.

    python3 trials/try_edits.py [--gate | --outside] [--jobs N] [--page FILE] [--anew] [--table]
                                [--kept FOLDER] [--libraries FOLDER] [CRATE..]
    python3 trials/try_edits.py --read [CRATE..]

crates/CRATE/must-fail/NAME.edit is an edit of the gate, which `rt ci` tries. trials/edits/CRATE has
those outside the gate. The script tries both, with --gate the first alone, with --outside the
second. It copies the crates into a scratch folder, takes each library that is needed from what
`rt ci` kept on the machine, or builds it once, with its statements alone. It goes from crate to
crate: it proves the crate as it is, and tries its edits over copies of that work.

Edits of bodies of different functions are tried in one check. A body is judged by its own contract
and by those of what it calls, and no edit of a body changes a contract. Such an edit counts as
refused if its own function is, in a line on that function. One whose function is proved is tried
alone, and from nothing if it isn't refused then. N checks run side by side, each with one job;
without --jobs it is as many as the processors and the memory allow.

It prints a row for each edit: the crate, the edit, the function and the clause that the prover
refuses first, seconds by the clock, and a mark. Edits that are tried together share the seconds of
their check. The clause has the name that the prover gives its goal. Marks:

    NOT REFUSED      the crate is proved with the edit: the contract is too weak
    NOT TRIED        the edit can't be applied or read, its check was killed, or the crate or a
                     library below isn't proved
    name             it is refused only for a name that the edit took away
    prover limit     the prover met a limit of its own, which says nothing of the edit
    search limit     the search for a proof reached its limit in each goal that it left open

A run that was stopped goes on where it was. The folder --kept has the result of each edit, by the
content of the edit, of its crate and of all crates below, and by the kit; the libraries, by their
content, in another folder with --libraries; and the proved crate whose edits are being tried. It is
satip-edits-KIT in the folder of temporary files. A result NOT TRIED isn't kept. --anew takes no
kept result.

If no crate is named and neither --gate nor --outside is given, the rows are written to
trials/edits/results.jsonl. So a run on another machine tries what changed since. --page writes the
rows to FILE as a page. --table tries nothing, and prints results.jsonl as a page.

--read only applies each edit, has `rattle fmt` read the result, compares the bodies, and proves
nothing.

It loads `rt` as a module, of whose functions it uses those that try edits; another kit may need
other names. It isn't executable, so that trials/run.py doesn't take it for a trial. Ends with
status 0 if each edit is refused (with --read: can be applied), 1 if not, 2 if there is no such
crate, and 130 if it was stopped. Needs python3, git, and the kit's `rt` in PATH."""

import argparse
import collections
import contextlib
import datetime
import hashlib
import importlib.machinery
import importlib.util
import json
import os
import re
import shutil
import subprocess
import sys
import tempfile
import threading
import time

sys.dont_write_bytecode = True
TOP = os.path.dirname(os.path.dirname(os.path.abspath(__file__)))
CRATES = os.path.join(TOP, "crates")
EDITS = os.path.join(TOP, "trials", "edits")
RESULTS = os.path.join(TOP, "trials", "edits", "results.jsonl")
ONE_JOB = ["--jobs", "1"]
FAILED, UNTRIED = "NOT REFUSED", "NOT TRIED"
# The columns of a printed row, those of a line of the page, and the memory of a check over kept
# work, as a part of what a check from nothing takes.
WIDTH, COLUMNS, OVER = 150, 160, 0.7
HEAD = """\
# Edits

`trials/try_edits.py` tries the edits. Each is a wrong body, which the prover must refuse.
The gate tries those with a *yes*. The others are in `trials/edits`. A mark says where a refusal says little of the contract; the script explains each.
"""
# What the prover prints: a goal without a proof, a failed term of a proof file, and its own limits.
OPEN = re.compile(r"(?:fn|struct|impl|trait) (\S+): no proof: .*did not prove `([^`]+)`")
TERM = re.compile(r"(?:\./)?proofs/(\S+)\.antt:\d+:\d+: error: `([^`]+)`: ")
BROKEN = re.compile(r"(?:fn|struct|impl|trait) (\S+): (?:not proved|no proof: (?!it calls))")
GOAL = re.compile(r"note: \S+:\d+:\d+: it is not proved that")
SEARCH_LIMIT = "gave up at one of its limits"
# What a line of the prover is about: a place in a source, or a function's proof file.
AT_SOURCE = re.compile(r"(?:note: )?(?:\./)?(src/\S+\.rt):(\d+):\d+: ")
AT_PROOF = re.compile(r"(?:note: )?(?:\./)?proofs/(\S+)/(?:Answers|Invariants|Proof)\.antt:")
JUDGED = re.compile(r"fn (\S+): (.*)")
NAME_OF_GOAL = re.compile(r"\(`([^`]+)`\)")
FUNCTION = re.compile(r"(\s*)(?:pub(?:\(\w+\))? )?(?:const )?fn (\w+)")
# A proof file that names what an edit took away, in rt's words.
NAMED = re.compile(
    r"(?:note: )?(?:\./)?proofs/.*(has no field|is not in scope|has no `|was not admitted)"
)
PROVER_LIMIT = re.compile(r"(resource|step) limit|a limit of (this|rattle|antt)|no verdict, since")

Edit = collections.namedtuple("Edit", "crate name file gate")
Row = collections.namedtuple("Row", "crate edit gate refused seconds mark")
# The body that an edit changes: its file, its function's name, the first line of its head and its
# last line, counted from 1, and the lines of the edited file.
Body = collections.namedtuple("Body", "path name first last lines")
said = threading.local()


def flags_of(crate):
    """The flags of a check of the crate: a crate of tests has no body outside of them."""
    return [*ONE_JOB, *["--test"] * crate.name.endswith("_tests")]


def load_rt():
    """The kit's rt as a module, whose checks leave what they print and their seconds in `said`."""
    file = shutil.which("rt")
    if not file:
        sys.exit("try_edits.py: there is no rt in PATH")
    loader = importlib.machinery.SourceFileLoader("rt", os.path.realpath(file))
    rt = importlib.util.module_from_spec(importlib.util.spec_from_loader("rt", loader))
    sys.modules["rt"] = rt
    loader.exec_module(rt)
    plain = rt.checked

    def checked(*given):
        begun = time.monotonic()
        ran = plain(*given)
        said.text, said.seconds = ran.stdout, time.monotonic() - begun
        return ran

    rt.checked = checked
    return rt


def edits_in(folder, crate, is_gate):
    """The edits of a folder, in the order of their names."""
    names = sorted(os.listdir(folder)) if os.path.isdir(folder) else []
    names = [it.removesuffix(".edit") for it in names if it.endswith(".edit")]
    return [Edit(crate, it, f"{folder}/{it}.edit", is_gate) for it in names]


def edits_by_crate(given):
    """The edits by crate, of all crates if none is named."""
    found = {}
    for crate in sorted({*os.listdir(CRATES), *os.listdir(EDITS)}):
        gate = [] if given.outside else edits_in(f"{CRATES}/{crate}/must-fail", crate, True)
        outside = [] if given.gate else edits_in(f"{EDITS}/{crate}", crate, False)
        if gate or outside:
            found[crate] = gate + outside
    for name in given.crates:
        if name not in found:
            print(f"try_edits.py: there is no edit of a crate {name}", file=sys.stderr)
            sys.exit(2)
    return {crate: found[crate] for crate in given.crates or found}


def copy_crates(room):
    """Copies what a check reads of the repository, without edits and what was built."""

    def left_out(folder, names):
        # A folder proofs/out is of the module `out`.
        return {"out", "must-fail"} & {*names} if os.path.dirname(folder) == CRATES else ()

    shutil.copytree(CRATES, f"{room}/crates", ignore=left_out)
    for name in ("crates.txt", "HANDLES"):
        shutil.copy(f"{TOP}/{name}", room)


def crates_in(rt, room):
    """The crates of the copy by name, lowest first, as `rt ci` takes them."""
    os.chdir(room)
    os.environ.pop("RT_SECONDS", None)
    # The first call sets a signal's handler, which only the main thread may.
    rt.rtlib.guarded()
    rt.Crate.cuts_libraries = True
    rt.Crate.allowed = rt.handles_of(room)
    # Nothing of the copy is kept, so no stamp is compared.
    rt.Crate.stamp = lambda crate: ""
    rt.rtlib.Crate = rt.Crate
    crates = sorted(rt.rtlib.crates_below(room), key=lambda it: len(it.below()))
    return {it.name: it for it in crates}


def own_sum(crate):
    """A sum of what the crate itself has."""
    found = hashlib.sha256()
    for part in ("src", "specs", "proofs"):
        for at, folders, names in os.walk(f"{crate.folder}/{part}"):
            folders.sort()
            for path in (f"{at}/{it}" for it in sorted(names)):
                found.update(os.path.relpath(path, crate.folder).encode() + b"\0")
                with open(path, "rb") as file:
                    found.update(file.read())
    found.update(repr(sorted(crate.of_kit)).encode())
    return found.hexdigest()


def sums_of(crates):
    """A sum of each crate with all crates below. The crates come lowest first."""
    sums = {}
    for crate in crates.values():
        text = own_sum(crate) + "".join(sorted(it.name + sums[it.name] for it in crate.deps))
        sums[crate.name] = hashlib.sha256(text.encode()).hexdigest()[:24]
    return sums


def kept_rows(file):
    """What a file says of edits, by what they were tried on. Its last line may be cut."""
    rows = {}
    if not os.path.exists(file):
        return rows
    with open(file, encoding="utf-8") as lines:
        for line in lines:
            with contextlib.suppress(ValueError, KeyError, TypeError):
                row = json.loads(line)
                rows[row["on"]] = row["refused"], row["seconds"], row["mark"]
    return rows


class Results:
    """The rows that earlier runs kept, by what they were tried on. A new one is kept at once."""

    def __init__(self, folder, kit):
        os.makedirs(folder, exist_ok=True)
        self.file, self.kit = f"{folder}/results.jsonl", kit
        self.rows = {**kept_rows(RESULTS), **kept_rows(self.file)}
        self.alone = threading.Lock()

    def name_of(self, edit, crate_sum):
        with open(edit.file, "rb") as file:
            text = f"{self.kit}\n{crate_sum}\n".encode() + file.read()
        return hashlib.sha256(text).hexdigest()[:24]

    def find(self, edit, crate_sum):
        """The row of an edit, or None."""
        found = self.rows.get(self.name_of(edit, crate_sum))
        return found and Row(edit.crate, edit.name, edit.gate, *found)

    def json_of(self, edit, crate_sum, row):
        return json.dumps({"on": self.name_of(edit, crate_sum), **row._asdict()})

    def keep(self, edit, crate_sum, row):
        with self.alone, open(self.file, "a", encoding="utf-8") as file:
            # A line that a stopped run cut stays alone.
            file.write("\n" + self.json_of(edit, crate_sum, row))

    def save(self, run, edits):
        """Writes what was tried of these edits to the file of the repository."""
        tried = (it for crate in sorted(edits) for it in edits[crate])
        rows = ((it, run.rows[it]) for it in tried if run.rows[it].mark != UNTRIED)
        lines = [self.json_of(it, run.sums[it.crate], row) + "\n" for it, row in rows]
        with open(RESULTS, "w", encoding="utf-8") as file:
            file.writelines(lines)


class Run:
    """A run over a copy of the crates: its libraries, its kept work and its rows."""

    def __init__(self, rt, crates, results, kept, libraries):
        self.rt, self.crates, self.sums = rt, crates, sums_of(crates)
        self.results, self.kept, self.rows = results, kept, {}
        self.printing = threading.Lock()
        # What `rt ci` kept on this machine.
        self.store = rt.Kept([*crates.values()])
        for crate in crates.values():
            if crate.makes_rlib():
                folder = f"{libraries}/{crate.name}.{self.sums[crate.name]}"
                crate.rlib = f"{folder}/{crate.name}.rlib"

    def library(self, crate, given):
        """Takes or builds a library that isn't there; says whether it is proved."""
        if not all(given[it.name, "library"] for it in crate.below()):
            return False
        to, here = os.path.dirname(crate.rlib), f"{crate.folder}/out/rlib"
        os.makedirs(os.path.dirname(to), exist_ok=True)
        if not os.path.isfile(f"{crate.rlib}/format"):
            if not self.take_kept(crate, here, to) and not self.build(crate, to):
                return False
        # What rt ci kept is found by the content of the libraries below, where rt looks for them.
        os.makedirs(os.path.dirname(here), exist_ok=True)
        os.symlink(to, here)
        self.store.is_built(crate)
        return True

    def take_kept(self, crate, here, to):
        """Moves a library that an earlier `rt ci` kept to its place; says whether there is one."""
        if not self.store.give(crate, False, self.store.key(crate)):
            return False
        self.move(here, to)
        return True

    def build(self, crate, to):
        """Builds a library in its place; says whether it is proved."""
        with tempfile.TemporaryDirectory(prefix=".new-", dir=os.path.dirname(to)) as room:
            words = [*crate.words(ONE_JOB, keeps=False), "--statements"]
            words = [self.rt.rtlib.RATTLE, "build", *words, "-o", f"{room}/{crate.name}.rlib"]
            how = {"stdin": subprocess.DEVNULL, "stdout": subprocess.PIPE, "errors": "replace"}
            how = {**how, "stderr": subprocess.STDOUT, "cwd": crate.folder}
            ran = subprocess.run([*self.rt.rtlib.guarded(), *words], check=False, **how)
            if ran.returncode:
                print(f"{crate.name}: NOT PROVED\n{ran.stdout[-2000:]}", file=sys.stderr)
                return False
            self.move(room, to)
            os.mkdir(room)
        return True

    def move(self, room, to):
        """Moves a folder, unless another run has put its own there meanwhile."""
        try:
            os.rename(room, to)
        except OSError:
            shutil.rmtree(room)

    def seed(self, crate, given):
        """The folder with the work of the crate as it is, which it proves if it isn't there, or
        why there is none."""
        lacking = [it.name for it in crate.below() if not given[it.name, "library"]]
        if lacking:
            return None, f"{lacking[0]} isn't proved"
        folder = f"{self.kept}/seeds/{crate.name}.{self.sums[crate.name]}"
        if not os.path.isdir(folder):
            os.makedirs(os.path.dirname(folder), exist_ok=True)
            room = tempfile.mkdtemp(prefix=".new-", dir=os.path.dirname(folder))
            if self.rt.checked(crate, {}, flags_of(crate), room).returncode:
                shutil.rmtree(room, ignore_errors=True)
                return None, f"{crate.name} itself isn't proved"
            os.rename(room, folder)
        return folder, ""

    def try_edits(self, crate, edits, given):
        """Tries the edits of a crate, those of different functions together."""
        seed, _ = given[crate.name, "seed"]
        bodies = {edit: body_of_edit(self.rt, crate, edit) for edit in edits} if seed else {}
        left = [edit for edit in edits if bodies.get(edit)]
        for edit in edits:
            if edit not in left:
                self.try_edit(crate, edit, given)
        while left:
            batch = {bodies[edit][:2]: edit for edit in reversed(left)}
            judged = self.judge_parts(crate, {it: bodies[it] for it in batch.values()}, seed)
            for edit in judged or batch.values():
                left.remove(edit)
                if judged and judged[edit]:
                    self.results.keep(edit, self.sums[crate.name], judged[edit])
                    self.show(judged[edit], edit)
                else:
                    self.try_edit(crate, edit, given)

    def judge_parts(self, crate, batch, seed):
        """Tries edits of different functions as `judge` does, and each half of them if that judges
        none: one that can't be compiled keeps all from being judged."""
        judged = self.judge(crate, batch, seed)
        if judged or len(batch) == 1:
            return judged
        parts, half = [*batch.items()], len(batch) // 2
        first, second = (
            self.judge_parts(crate, dict(part), seed) for part in (parts[:half], parts[half:])
        )
        return {**first, **second}

    def judge(self, crate, batch, seed):
        """Tries edits of different functions in one check. Gives the row of each edit that is
        refused in its own function, and None for one whose function is proved. An edit of a
        function that calls another one of them may be left out."""
        texts = {}
        for body in batch.values():
            if body.path not in texts:
                with open(f"{crate.folder}/{body.path}", encoding="utf-8") as file:
                    texts[body.path] = file.read().split("\n")
            texts[body.path][body.first - 1 : body.last] = body.lines[body.first - 1 : body.last]
        texts = {path: "\n".join(lines) for path, lines in texts.items()}
        over = tempfile.mkdtemp(prefix=".over-", dir=self.kept)
        try:
            self.rt.linked(seed, f"{over}/seed")
            ran = self.rt.checked(crate, texts, flags_of(crate), f"{over}/seed")
        finally:
            shutil.rmtree(over, ignore_errors=True)
        lines = ran.stdout.rstrip("\n").split("\n")
        if ran.returncode != 1 or not lines[-1].startswith("logic=not-proved"):
            return {}
        if any(self.rt.unread(line, texts) for line in lines):
            return {}
        found = {edit: lines_about(crate.name, body, lines) for edit, body in batch.items()}
        share = said.seconds / max(1, sum(bool(about) for about, _ in found.values()))
        return {
            edit: self.row_of(crate, edit, about, share) if about else None
            for edit, (about, is_proved) in found.items()
            if about or is_proved
        }

    def row_of(self, crate, edit, about, seconds):
        """The row of an edit that is refused by these lines, the last of which is the verdict."""
        text, verdict = "\n".join(about), JUDGED.match(about[-1])
        named = all(NAMED.match(line) for line in about[:-1])
        goals = [found[1] for line in about if (found := NAME_OF_GOAL.search(line))]
        where = refusal_in(crate.name, text)
        if goals and ": " not in where:
            where = f"{verdict[1].removeprefix(f'{crate.name}::')}: {goals[0]}"
        mark = "name" if named else mark_of(text, "")
        return Row(crate.name, edit.name, edit.gate, where, round(seconds), mark)

    def try_edit(self, crate, edit, given):
        """Tries an edit over the crate's own work, and from nothing if that doesn't refuse it."""
        seed, why = given[crate.name, "seed"]
        end, row = None, Row(crate.name, edit.name, edit.gate, why, 0, UNTRIED)
        if seed:
            over = tempfile.mkdtemp(prefix=".over-", dir=self.kept)
            try:
                self.rt.linked(seed, f"{over}/seed")
                end, row = self.tried(crate, edit, f"{over}/seed")
            finally:
                shutil.rmtree(over, ignore_errors=True)
        if end in (self.rt.MISSED, self.rt.UNSURE):
            _, row = self.tried(crate, edit, None)
        if row.mark != UNTRIED:
            self.results.keep(edit, self.sums[crate.name], row)
        self.show(row, edit)

    def tried(self, crate, edit, over):
        """What an edit's try came to, in rt's word, and its row, whose place is by what the prover
        printed."""
        rt = self.rt
        said.text, said.seconds = "", 0
        end, told = rt.must_fail(crate, edit.file, flags_of(crate), over)
        where = told.partition(": ")[2].split("\n")[0]
        mark = FAILED if end == rt.MISSED else UNTRIED
        if end in (rt.REFUSED, rt.AT_LIMIT):
            where = refusal_in(crate.name, said.text) or where
            mark = "prover limit" if end == rt.AT_LIMIT else mark_of(said.text, told)
        return end, Row(crate.name, edit.name, edit.gate, where, round(said.seconds), mark)

    def show(self, row, edit):
        """Prints a row and keeps it for the page."""
        self.rows[edit] = row
        end = f"{row.mark or 'refused'}, {row.seconds} s: {row.refused}"
        with self.printing:
            print(f"{row.crate} {row.edit}: {end}"[:WIDTH], flush=True)

    def end(self, crate, given):
        """Removes the kept work of a crate whose edits were tried."""
        seed, _ = given[crate.name, "seed"]
        if seed:
            shutil.rmtree(seed, ignore_errors=True)

    def tasks(self, edits):
        """The tasks for rt's lanes: each library that is needed, and for each crate its own proof,
        its edits, and the end."""
        chosen = [it for it in self.crates.values() if edits.get(it.name)]
        needed = {below.name for it in chosen for below in it.below()}
        tasks = {}
        for crate in self.crates.values():
            if crate.name in needed:
                waits = [(it.name, "library") for it in crate.below()]
                call = lambda given, jobs, it=crate: self.library(it, given)
                tasks[crate.name, "library"] = waits, crate.count(rb"\n"), self.rt.need(crate), call
        for crate in chosen:
            tasks.update(self.tasks_of(crate, edits[crate.name]))
        return tasks

    def tasks_of(self, crate, edits):
        """The tasks of a crate's edits."""
        lines, need, tasks = crate.count(rb"\n"), self.rt.need(crate), {}
        waits = [(it.name, "library") for it in crate.below()]
        # No line of its own: it comes right before its edits.
        tasks[crate.name, "seed"] = waits, 0, need, lambda given, jobs: self.seed(crate, given)
        call = lambda given, jobs: self.try_edits(crate, edits, given)
        tasks[crate.name, "edits"] = [(crate.name, "seed")], lines * len(edits), need, call
        end = lambda given, jobs: self.end(crate, given)
        tasks[crate.name, "end"] = [*tasks], 0, 0, end
        return tasks


def body_of_edit(rt, crate, edit):
    """The body that an edit changes, or None if it can't be applied or changes more than one."""
    texts, _ = rt.read_edit(edit.file, crate.folder)
    if not texts or len(texts) != 1:
        return None
    (path, text), = texts.items()
    lines = text.split("\n")
    with open(f"{crate.folder}/{path}", encoding="utf-8") as file:
        was = file.read().split("\n")
    if len(was) != len(lines) or not path.endswith(".rt"):
        return None
    changed = [at for at, line in enumerate(lines) if line != was[at]]
    head = next((at for at in range(changed[0], -1, -1) if FUNCTION.match(was[at])), None)
    if head is None:
        return None
    indent, name = FUNCTION.match(was[head]).groups()
    # The body begins where a line of the function's own indentation ends in a brace.
    opens = lambda line: line.endswith("{") and line.startswith(indent) and line[len(indent)] != " "
    begin = next((at for at in range(head, len(was)) if opens(was[at])), len(was))
    end = next((at for at in range(begin, len(was)) if was[at] == f"{indent}}}"), len(was))
    if not all(begin < at < end for at in changed):
        return None
    return Body(path, name, head + 1, end + 1, lines)


def lines_about(crate, body, lines):
    """The lines of the prover that refuse a body, with its verdict at their end, and whether it is
    proved. Neither if the prover didn't judge it, or judged several functions of that name."""
    module = body.path.removeprefix("src/").removesuffix(".rt").split("/")
    module = [] if module in (["lib"], ["main"]) else module
    begin, end = "::".join([crate, *module]) + "::", f"::{body.name}"
    about, verdicts = [], {}
    for line in lines:
        if found := JUDGED.match(line):
            if found[1].startswith(begin) and found[1].endswith(end):
                verdicts[found[1]] = line
        elif not (": error" in line or line.startswith("note: ")):
            continue
        elif found := AT_SOURCE.match(line):
            if found[1] == body.path and body.first <= int(found[2]) <= body.last:
                about.append(line)
        elif found := AT_PROOF.match(line):
            place = found[1].split("/")
            if place[: len(module)] == module and place[-1] == body.name:
                about.append(line)
    if len(verdicts) != 1:
        return [], False
    (verdict,) = verdicts.values()
    is_proved = JUDGED.match(verdict)[2].startswith("proved")
    return ([*about, verdict] if about and not is_proved else []), is_proved


def refusal_in(crate, text):
    """The function and the goal that the prover refuses first."""
    for line in text.split("\n"):
        if found := OPEN.match(line):
            return f"{found[1].removeprefix(f'{crate}::')}: {found[2]}"
        if found := TERM.match(line):
            place = re.sub(r"/(Answers|Invariants|Proof)$", "", found[1])
            return f"{place.replace('/', '::')}: {found[2]}"
    if found := re.search(rf"^{BROKEN.pattern}", text, re.M):
        return found[1].removeprefix(f"{crate}::")
    return next((line for line in text.split("\n") if ": error" in line), "")


def mark_of(text, told):
    """Why a refusal says little of the contract, or nothing."""
    if "only because a proof file names" in told:
        return "name"
    lines = text.split("\n")
    goals = [line for line in lines if GOAL.match(line)]
    if any(SEARCH_LIMIT not in line for line in goals):
        return ""
    terms = [line for line in lines if TERM.match(line)]
    if any(not PROVER_LIMIT.search(line) for line in terms):
        return ""
    if PROVER_LIMIT.search(text):
        return "prover limit"
    return "search limit" if goals else ""


def line_of(row):
    """A row as the table has it."""
    gate, mark = "yes" if row.gate else "", f" {row.mark} |" if row.mark else " |"
    begin, end = f"| `{row.edit}` | {gate} | ", f" | {row.seconds} |{mark}"
    # A cell has no bar, and a line of a document has an end.
    where = row.refused.replace("|", "/")
    room = COLUMNS - len(begin) - len(end) - 2
    where = where if len(where) <= room else where[: room - 2] + ".."
    return begin + (f"`{where}`" if where else "") + end


def page_of(rows, **run):
    """A page: with what it ran, the counts, and a table for each crate."""
    marks = collections.Counter(row.mark for row in rows if row.mark)
    counts = ", ".join(f"{count} {mark}" for mark, count in sorted(marks.items())) or "none"
    head = run | {"edits": len(rows), "of the gate": sum(row.gate for row in rows), "marks": counts}
    head["minutes of their checks"] = round(sum(row.seconds for row in rows) / 60)
    text = [HEAD, f"| {' | '.join(head)} |", "|---" * len(head) + "|"]
    text += [f"| {' | '.join(map(str, head.values()))} |"]
    for crate in sorted({row.crate for row in rows}):
        text += ["", f"## {crate}", "", "| edit | gate | refused at | seconds | mark |"]
        text += ["|---|---|---|---|---|", *(line_of(row) for row in rows if row.crate == crate)]
    return "\n".join(text) + "\n"


def print_table():
    """Prints the results that the repository has."""
    with open(RESULTS, encoding="utf-8") as file:
        told = [json.loads(line) for line in file]
    print(page_of([Row(*(it[name] for name in Row._fields)) for it in told]), end="")
    return 0


def output_of(*words):
    ran = subprocess.run(words, cwd=TOP, capture_output=True, text=True, errors="replace")
    return ran.stdout.strip()


def commit():
    """The commit of this tree, with + if a file of it was changed."""
    parts = ("crates", "crates.txt", "trials/edits")
    changed = output_of("git", "status", "--porcelain", "--", *parts)
    return output_of("git", "rev-parse", "--short=8", "HEAD") + ("+" if changed else "")


def rows_of(run, edits, given):
    """The rows of all edits, in their order: those that are kept, and those tried now."""
    left = {}
    for edit in (it for crate in edits for it in edits[crate]):
        if edit.crate not in run.crates:
            run.show(Row(*edit[:2], edit.gate, "there is no such crate", 0, UNTRIED), edit)
            continue
        row = None if given.anew else run.results.find(edit, run.sums[edit.crate])
        if row:
            run.show(row, edit)
        else:
            left.setdefault(edit.crate, []).append(edit)
    if left:
        run.rt.in_lanes(run.tasks(left))
    return [run.rows[it] for crate in edits for it in edits[crate]]


def try_all(rt, edits, given):
    """Tries the edits, prints their rows, and keeps them."""
    kit = output_of("rt", "version")
    usual = os.path.join(tempfile.gettempdir(), f"satip-edits-{(kit.split() or ['kit'])[0]}")
    kept = os.path.abspath(given.kept or usual)
    libraries = os.path.abspath(given.libraries or f"{kept}/libraries")
    results = Results(kept, kit)
    with tempfile.TemporaryDirectory(prefix="satip-edits-") as room:
        copy_crates(room)
        run = Run(rt, crates_in(rt, room), results, kept, libraries)
        rows = rows_of(run, edits, given)
        os.chdir(TOP)
    if given.page:
        today = datetime.date.today().isoformat()
        with open(given.page, "w", encoding="utf-8") as page:
            page.write(page_of(rows, date=today, commit=commit(), kit=kit))
    if given.is_whole:
        results.save(run, edits)
    bad = [row for row in rows if row.mark in (FAILED, UNTRIED)]
    print(f"{len(rows) - len(bad)} refused, {len(bad)} not; {sum(bool(it.mark) for it in rows)} marked")
    return 1 if bad else 0


def places_of(old):
    """The source files that have a text once."""
    found = []
    for at, _, names in os.walk(f"{TOP}/crates"):
        for name in names:
            if name.endswith(".rt") and "/src" in at:
                with open(f"{at}/{name}", encoding="utf-8") as file:
                    if file.read().count(old) == 1:
                        found.append(os.path.relpath(f"{at}/{name}", TOP))
    return found


def fault_of(rt, folder, edit, bodies):
    """Why an edit can't be tried, or None. Bodies are those seen so far."""
    texts, why = rt.read_edit(edit, folder)
    if why:
        with open(edit, encoding="utf-8") as file:
            olds = [line[len("old: "):].rstrip("\n") for line in file if line.startswith("old: ")]
        return f"{why}; files that have it once: {' '.join(places_of(olds[0])) if olds else 'none'}"
    body = (folder, *sorted((path, " ".join(text.split())) for path, text in texts.items()))
    if body in bodies:
        return f"it has the body of {bodies[body]}"
    bodies[body] = os.path.relpath(edit, TOP)
    for path, text in texts.items():
        with tempfile.TemporaryDirectory(prefix="satip-edit-") as room:
            file = f"{room}/{os.path.basename(path)}"
            with open(file, "w", encoding="utf-8") as it:
                it.write(text)
            ran = subprocess.run([rt.rtlib.RATTLE, "fmt", file], capture_output=True, text=True)
            if ran.returncode:
                return f"the edited {path} can't be read: {ran.stderr.strip()[:100]}"
    return None


def read_all(rt, edits):
    """Says which edits can't be tried; proves nothing."""
    bodies, bad, count = {}, 0, 0
    for edit in (it for crate in edits for it in edits[crate]):
        why = fault_of(rt, f"{CRATES}/{edit.crate}", edit.file, bodies)
        count += 1
        if why:
            bad += 1
            print(f"{os.path.relpath(edit.file, TOP)}: {why}")
    print(f"{count} edits read; {bad} can't be tried")
    return 1 if bad else 0


def main():
    parser = argparse.ArgumentParser(description=__doc__.partition("\n")[0])
    parser.add_argument("crates", nargs="*", metavar="CRATE")
    which = parser.add_mutually_exclusive_group()
    which.add_argument("--gate", action="store_true")
    which.add_argument("--outside", action="store_true")
    parser.add_argument("--jobs", type=int, metavar="N")
    for name, what in (("--page", "FILE"), ("--kept", "FOLDER"), ("--libraries", "FOLDER")):
        parser.add_argument(name, metavar=what)
    for name in ("--anew", "--table", "--read"):
        parser.add_argument(name, action="store_true")
    given = parser.parse_args()
    if given.table:
        return print_table()
    rt, edits = load_rt(), edits_by_crate(given)
    if given.read:
        return read_all(rt, edits)
    if given.jobs:
        os.environ["RT_JOBS"] = str(given.jobs)
    given.is_whole = not (given.crates or given.gate or given.outside)
    given.page = os.path.abspath(given.page) if given.page else None
    try:
        return try_all(rt, edits, given)
    except KeyboardInterrupt:
        print("try_edits.py: stopped. What was tried is kept", file=sys.stderr)
        return 130


if __name__ == "__main__":
    sys.exit(main())
