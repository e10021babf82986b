#!/usr/bin/env python3
"""Checks that the pages name only what is there, and counts what makes them hard to read.

    tools/check_docs.py
    tools/check_docs.py --count [PAGE..]

The pages are the *.md files at the top and in docs/. Without words it checks them:

- a path between backticks is a file or a folder, from the top or from crates/;
- a link leads to a file, from the folder of its page, and to a heading if it names one;
- a name before a path is a word of that file, as in `Entry`, `crates/satip_base/src/entry.rt`;
- so is each name before a colon and a path: `choose`, `blocked`: `satip_fronts/specs/Choice.antt`;
- a crate `satip_..` is one of crates.txt;
- a quote after a path and a colon is in that file, word for word.

It prints a line for each fault, and ends with status 1 if there is one.

With --count it prints a line for each page, or for those named: its bytes, its lines over 160
columns, its sentences over 35 words, and how often it has each of the words in WORDS, which the
project writes otherwise. Blocks of code don't count, nor code between backticks as words of WORDS.
Then it ends with status 0. It needs python3 alone."""
import os
import re
import sys

TOP = os.path.dirname(os.path.dirname(os.path.abspath(__file__)))
PATH = re.compile(r"`((?:crates|satip_\w+|tools|trials|bench|docs|examples)/[\w./-]+)`")
FILE = r"`((?:crates/)?satip_\w+/[\w./-]+\.(?:rt|antt|edit))`"
NAMED = re.compile(r"`([\w:-]+)`, (?:by `[^`]*` of )?" + FILE)
LISTED = re.compile(r"((?:`[\w:-]+`, )*`[\w:-]+`)(?: and the others)?: " + FILE)
QUOTE = re.compile(r"`(crates/[\w./-]+)`:\n\n```text\n(.*?)```", re.S)
LINK = re.compile(r"\]\(([\w./-]*)(?:#([\w-]+))?\)")
CRATE = re.compile(r"`(satip_\w+)(?:::[\w:]+)?`")
COLUMNS = 160
LONGEST = 35
WORDS = {
    "behind": r"behind",
    "where": r"where",
    "stand": r"stands?|stood|standing",
    "tell": r"tells?|told|telling",
    "come": r"comes?|came",
    "so many": r"(?:so|as) many",
    "a beginning of": r"beginnings? of",
    "of its own": r"of (?:its|their|our) own",
    "made": r"made",
    "anew": r"anew",
    "beside": r"beside",
    "likewise": r"likewise",
    "in the place of": r"in (?:the )?place of",
    "nobody": r"nobody|somebody",
    "found a session": r"founds|founding",
    "rows": r"rows?",
    "to be had": r"to be had|heard of",
}


def place_of(path):
    """The file or folder of this name, or None."""
    places = (f"{TOP}/{path}", f"{TOP}/crates/{path}")
    return next((it for it in places if os.path.exists(it)), None)


def is_free(name):
    """Whether it stands for any crate, or for what only a build makes."""
    parts = name.split("/")
    return "NAME" in parts or "satip_c" in parts or "out" in parts


def named(text):
    """Each name that stands before a file, with the file."""
    yield from NAMED.findall(text)
    for listed, path in LISTED.findall(text):
        yield from ((name, path) for name in re.findall(r"[\w:-]+", listed))


def has_word(place, name):
    """Whether a file has a name, or the last part of `a::b`, as a word of its own."""
    with open(place, encoding="utf-8") as file:
        word = re.escape(name.split("::")[-1])
        return re.search(rf"(?<![\w-]){word}(?![\w-])", file.read()) is not None


def crates():
    with open(f"{TOP}/crates.txt", encoding="utf-8") as file:
        lines = [line.split("#")[0] for line in file]
    return {line.split(":")[0].split()[0] for line in lines if ":" in line}


def faults(text, names):
    """What a text names that isn't there."""
    paths = [it for it in PATH.findall(text) if not is_free(it)]
    yield from (f"no file {it}" for it in paths if not place_of(it))
    for name, path in named(text):
        place = place_of(path)
        if place and not has_word(place, name):
            yield f"no {name} in {path}"
    kinds = [it for it in CRATE.findall(text) if not is_free(it)]
    yield from (f"no crate {it}" for it in kinds if it not in names)


def headings(place):
    """The names by which a link reaches the headings of a page."""
    with open(place, encoding="utf-8") as file:
        lines = [line.lstrip("#").strip() for line in file if line.startswith("#")]
    return {re.sub(r"[^\w -]", "", line.lower()).replace(" ", "-") for line in lines}


def broken(text, page):
    """The links of a page that lead nowhere."""
    folder = os.path.dirname(page)
    for path, heading in LINK.findall(text):
        place = f"{TOP}/{folder}/{path}" if path else f"{TOP}/{page}"
        if not os.path.exists(place):
            yield f"no page {path}"
        elif heading and heading not in headings(place):
            yield f"no heading {heading} in {path or page}"


def misquoted(text):
    """The quotes that a text says otherwise than the file."""
    for path, quote in QUOTE.findall(text):
        with open(f"{TOP}/{path}", encoding="utf-8") as file:
            said = file.read()
        for part in quote.strip("\n").split("\n\n"):
            if part not in said:
                yield f"{path} doesn't say: {part.splitlines()[0]}"


def prose(text):
    """The lines of a page without its blocks of code."""
    return re.sub(r"^```.*?^```$", "", text, flags=re.S | re.M).splitlines()


def sentences(lines):
    """The sentences of a page: a heading, an item of a list and a cell of a table end one."""
    joined = []
    for line in lines:
        begins = not line.strip() or re.match(r"\s*(?:[-*#|]|\d+\.) ?", line)
        if begins or not joined:
            joined += line.split("|") if line.startswith("|") else [line]
        else:
            joined[-1] += " " + line.strip()
    for text in joined:
        yield from re.split(r"(?<=[.!?:])[*)\"]* +(?=[A-Z`*\[(])", text)


def counts(text):
    """The wide lines and the long sentences of a page, and how often it has each of the words."""
    lines = prose(text)
    wide = [line for line in lines if len(line) > COLUMNS]
    long = [it for it in sentences(lines) if len(it.split()) > LONGEST]
    words = " ".join(re.sub(r"`[^`]*`", "", line) for line in lines)
    found = {name: len(re.findall(rf"\b(?:{it})\b", words, re.I)) for name, it in WORDS.items()}
    return wide, long, {name: count for name, count in found.items() if count}


def print_counts(pages):
    """Prints a line for each page, and one for all."""
    sums = [0, 0, 0, 0]
    for page, text in pages:
        wide, long, found = counts(text)
        row = [len(text.encode()), len(wide), len(long), sum(found.values())]
        sums = [a + b for a, b in zip(sums, row)]
        words = ", ".join(f"{name} {count}" for name, count in found.items())
        print(f"{page}: {numbers(row)}" + (f": {words}" if words else ""))
    print(f"all: {numbers(sums)}")


def numbers(row):
    size, wide, long, words = row
    return f"{size} bytes, {wide} wide lines, {long} long sentences, {words} words of the table"


def check(pages):
    """Prints what the pages name that isn't there, and returns how much that is."""
    names, count = crates(), 0
    for page, text in pages:
        for number, line in enumerate(text.splitlines(), 1):
            for fault in [*faults(line, names), *broken(line, page)]:
                print(f"{page}:{number}: {fault}")
                count += 1
        for fault in misquoted(text):
            print(f"{page}: {fault}")
            count += 1
    print(f"{count} things that aren't there")
    return count


def read_pages():
    """Each page with its text."""
    for folder in ("", "docs/"):
        for name in sorted(os.listdir(f"{TOP}/{folder}")):
            if name.endswith(".md"):
                with open(f"{TOP}/{folder}{name}", encoding="utf-8") as file:
                    yield folder + name, file.read()


def main():
    if sys.argv[1:2] == ["--count"]:
        wanted = sys.argv[2:]
        print_counts([it for it in read_pages() if not wanted or it[0] in wanted])
    else:
        sys.exit(min(check(list(read_pages())), 1))


if __name__ == "__main__":
    main()
