#!/usr/bin/env python3
"""Prints docs/LAYERS.md from crates.txt and the heads of the crates' root files.

    tools/print_crates.py           prints the page
    tools/print_crates.py --write   writes it to docs/LAYERS.md
    tools/print_crates.py --svg     draws the crates to docs/crates.svg (tools/draw_crates.py)
    tools/print_crates.py --check   compares both with what is in docs/

The lines of crates.txt that begin with `#` and are followed by crates are the groups. The first
lines of `src/lib.rt` or `src/main.rt`, which begin with `//!`, are the head of a crate: what it
does, then at most one part each after `Contract:`, `Only tested:` and `Trusted:`. Of the crates of
a line the page leaves out those that another one of the line uses. It ends with status 1 if
a crate has no head, a line of the page is too wide, or --check finds a difference. It needs python3
alone."""
import os
import re
import sys
import textwrap

from draw_crates import picture

TOP = os.path.dirname(os.path.dirname(os.path.abspath(__file__)))
PAGE = f"{TOP}/docs/LAYERS.md"
PICTURE = f"{TOP}/docs/crates.svg"
WIDTH = 160
PARTS = ("Contract", "Only tested", "Trusted")
START = """# The crates, by group

Lower groups come first, and a crate uses crates above it on this page alone. [ARCHITECTURE.md](ARCHITECTURE.md) says what each group is for.

`tools/print_crates.py` prints this page: groups and uses from `crates.txt`, the rest from the head comments of the crates' root files.
Edit those, and print it again.

- *Uses*: a crate's line in `crates.txt`, without the crates that another one of the line uses.
  The prefix `satip_` is left out. Crates of the kit are named last.
- *Contract* is what the crates above rely on. The clauses are in the crate's `src`, their words in its `specs`.
- *Only tested* is what no contract says. *Trusted* is what neither a contract nor a test shows.
"""


def read_groups(path):
    """The groups of crates.txt in order: a name, and the crates with the crates that each uses."""
    groups = []
    with open(path, encoding="utf-8") as file:
        lines = [line.strip() for line in file]
    for line in lines:
        if line.startswith("#"):
            groups.append((line[1:].strip(), []))
        elif ":" in line:
            name, uses = line.split(":")
            groups[-1][1].append((name.split()[0], uses.split()))
    return [(name, crates) for name, crates in groups if crates]


def reached(name, uses):
    """The crates that a crate uses, and those that these use, and so on."""
    below = set()
    waiting = list(uses.get(name, []))
    while waiting:
        other = waiting.pop()
        if other not in below:
            below.add(other)
            waiting += uses.get(other, [])
    return below


def highest(name, uses):
    """The crates of a line that no other crate of that line reaches, the project's own first."""
    line = uses[name]
    below = set().union(*(reached(other, uses) for other in line))
    kept = [other for other in line if other not in below]
    return sorted(kept, key=lambda it: not it.startswith("satip"))


def read_head(name):
    """The parts of a crate's head comment: a dictionary, with what it does as `does`."""
    folder = f"{TOP}/crates/{name}/src"
    root = next(it for it in (f"{folder}/lib.rt", f"{folder}/main.rt") if os.path.exists(it))
    words = []
    with open(root, encoding="utf-8") as file:
        for line in file:
            if not line.startswith("//!"):
                break
            words.append(line[3:].strip())
    pieces = re.split(rf"(?:^| )({'|'.join(PARTS)}): ", " ".join(words))
    head = dict(zip(pieces[1::2], pieces[2::2]))
    return {"does": pieces[0], **head}


def table(crates, uses, heads):
    """A row for each crate: its name, what it does and what it uses."""
    yield "| crate | what it does | uses |"
    yield "|---|---|---|"
    for name, _ in crates:
        on = ", ".join(it.removeprefix("satip_") for it in highest(name, uses)) or "-"
        yield f"| `{name}` | {heads[name]['does'].rstrip('.')} | {on} |"


def details(crates, heads):
    """The contracts of a group, and what is tested or trusted, a crate each."""
    for name, _ in crates:
        said = [(part, heads[name][part]) for part in PARTS if part in heads[name]]
        if said:
            text = " ".join(f"*{part}:* {words}" for part, words in said)
            yield from textwrap.wrap(
                f"- `{name}`. {text}",
                WIDTH,
                subsequent_indent="  ",
                break_on_hyphens=False,
                break_long_words=False,
            )


def read(path):
    """The text of a file, or nothing if it isn't there."""
    if not os.path.exists(path):
        return ""
    with open(path, encoding="utf-8") as file:
        return file.read()


def write(path, text):
    with open(path, "w", encoding="utf-8") as file:
        file.write(text)


def drawing():
    """The text of docs/crates.svg."""
    uses = {name: of for _, crates in read_groups(f"{TOP}/crates.txt") for name, of in crates}
    kept = {name: highest(name, uses) for name in uses}
    does = {name: read_head(name)["does"] for name in uses}
    return picture(uses, kept, does, read(f"{TOP}/docs/ARCHITECTURE.md"))


def page():
    """The lines of docs/LAYERS.md."""
    groups = read_groups(f"{TOP}/crates.txt")
    uses = {name: of for _, crates in groups for name, of in crates}
    heads = {name: read_head(name) for name in uses}
    lines = START.rstrip("\n").split("\n")
    for group, crates in groups:
        lines += ["", f"## {group[0].upper()}{group[1:]}", "", *table(crates, uses, heads)]
        said = list(details(crates, heads))
        lines += ["", *said] if said else []
    return lines, [name for name in heads if not heads[name]["does"]]


def main():
    lines, bare = page()
    for name in bare:
        print(f"{name} has no head", file=sys.stderr)
    wide = [line for line in lines if len(line) > WIDTH]
    for line in wide:
        print(f"{len(line)} columns: {line}", file=sys.stderr)
    text = "\n".join(lines) + "\n"
    differs = False
    if sys.argv[1:] == ["--write"]:
        write(PAGE, text)
    elif sys.argv[1:] == ["--svg"]:
        write(PICTURE, drawing())
    elif sys.argv[1:] == ["--check"]:
        for path, wanted, option in ((PAGE, text, "--write"), (PICTURE, drawing(), "--svg")):
            if read(path) != wanted:
                differs = True
                print(f"{os.path.relpath(path, TOP)} differs: tools/print_crates.py {option}", file=sys.stderr)
    else:
        print(text, end="")
    sys.exit(1 if bare or wide or differs else 0)


if __name__ == "__main__":
    main()
