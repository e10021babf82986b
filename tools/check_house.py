#!/usr/bin/env python3
"""Prints the marks of the layout, each with its aim, and what misses it.

    tools/check_house.py

Crates, the longest chain of crates, and dependency paths (`rt` of kit 13b hashes a crate once for
each path of crates.txt); crates that are too large (a wish up to 2,000
lines) or too small; definitions with many arguments;
names of crates that are near each other; and wide lines of documents. It ends with status 1 where
a mark is missed. It needs python3 alone."""
import functools
import itertools
import os
import re
import sys

TOP = os.path.dirname(os.path.dirname(os.path.abspath(__file__)))
FUNCTION = re.compile(r"(?m)^\s*(?:pub(?:\([a-z]+\))?\s+)?fn ")
# Names that the specification or the field gives: protocols, a command, and two parts of a server.
GIVEN = {"ts", "rtp", "rtcp", "rtsp", "http", "sdp", "tune", "turn", "tunnel"}
LARGE, LARGE_TESTS, LARGEST, FUNCTIONS, SMALL = 1500, 1700, 2000, 110, 150
SMALL_ALLOWED = ("satip_sdp", "satip")


def read_crates():
    """Each crate of crates.txt with the crates of the repository that it lists."""
    listed = {}
    with open(f"{TOP}/crates.txt", encoding="utf-8") as file:
        for line in file:
            head, colon, deps = line.split("#")[0].partition(":")
            if colon:
                listed[head.split()[0]] = deps.split()
    return {crate: [dep for dep in deps if dep in listed] for crate, deps in listed.items()}


CRATES = read_crates()


@functools.lru_cache(None)
def paths(crate):
    """How many dependency paths lead down from a crate, itself counted."""
    return 1 + sum(map(paths, CRATES[crate]))


@functools.lru_cache(None)
def chain(crate):
    """How many crates the longest chain from a crate has, itself counted."""
    return 1 + max(map(chain, CRATES[crate]), default=0)


def texts(crate, part, ending):
    """The files of a part of a crate, each with its text."""
    for folder, _, names in os.walk(f"{TOP}/crates/{crate}/{part}"):
        for name in sorted(names):
            if name.endswith(ending):
                path = os.path.join(folder, name)
                with open(path, encoding="utf-8") as file:
                    yield path, file.read()


@functools.lru_cache(None)
def size(crate):
    """The lines and the functions of a crate's sources."""
    sources = [text for _, text in texts(crate, "src", ".rt")]
    return sum(it.count("\n") for it in sources), sum(len(FUNCTION.findall(it)) for it in sources)


def is_tests(crate):
    """Whether the crate has only tests or test doubles."""
    doubles = ("satip_memory", "satip_memory_desk", "satip_fixtures", "satip_solo")
    return crate.endswith("_tests") or crate in doubles


def distance(first, second):
    """The least count of letters changed, put in or taken out that makes one of the other."""
    row = list(range(len(second) + 1))
    for at, letter in enumerate(first, 1):
        before, row[0] = row[0], at
        for to, other in enumerate(second, 1):
            before, row[to] = row[to], min(row[to] + 1, row[to - 1] + 1, before + (letter != other))
    return row[-1]


def near_names():
    """Pairs of names at most two letters apart, but for pairs that are given."""
    names = [crate.removeprefix("satip_") for crate in CRATES]
    for first, second in itertools.combinations(names, 2):
        if not {first, second} <= GIVEN and distance(first, second) <= 2:
            yield f"{first} and {second}"


def arguments(type_text):
    """How many explicit arguments a type has: those between its arrows, and named ones."""
    depth, count, start = 0, 0, 0
    text = type_text.strip()
    parts, last = [], 0
    for at, letter in enumerate(text):
        depth += letter in "({[" and 1 or letter in ")}]" and -1 or 0
        if letter == "→" and depth == 0:
            parts.append(text[last:at].strip())
            last = at + 1
    for part in parts:
        groups = re.findall(r"\(([^():]*) : [^()]*(?:\([^()]*\)[^()]*)*\)", part)
        is_named = re.match(r"^(\s*[({][^:]*:.*[)}]\s*)+$", part, re.S)
        if part.startswith("{") and not groups:
            continue
        count += sum(len(names.split()) for names in groups) if is_named else 1
    return count


def many_arguments():
    """Definitions and records of specs/ with more than eight explicit arguments."""
    for crate in CRATES:
        for path, text in texts(crate, "specs", ".antt"):
            text = re.sub(r"(?m)^\s*--.*$", "", text)
            for item in re.split(r"\n(?=\S)", text):
                head = re.match(r"(?:(?:abbrev|unfoldable|opaque|pub)\s+)*(?:(record)\s+)?([^\s:(){}]+)\s*(.*)", item, re.S)
                if not head or head[2] in ("use", "mod", "data", "pub", "ruleset"):
                    continue
                if head[1]:
                    count = sum(len(names.split()) for names in re.findall(r"\(([^():]+) : ", head[3].split(" where")[0]))
                elif head[3].startswith(":"):
                    count = arguments(head[3][1:])
                else:
                    continue
                if count > 8:
                    yield f"{os.path.relpath(path, TOP)}: {head[2]} {count}"


def wide_lines():
    """Documents with lines over 160 columns."""
    pages = ["README.md", *sorted(f"docs/{name}" for name in os.listdir(f"{TOP}/docs") if name.endswith(".md"))]
    for page in pages:
        with open(f"{TOP}/{page}", encoding="utf-8") as file:
            count = sum(len(line.rstrip("\n")) > 160 for line in file)
        if count:
            yield f"{page} {count}"


def marks():
    """Each mark: its name, what is found, its aim, and what misses it."""
    product = [crate for crate in CRATES if not is_tests(crate)]
    users = {crate: [other for other in CRATES if crate in CRATES[other]] for crate in CRATES}
    large = [f"{it} {size(it)[0]}" for it in CRATES if size(it)[0] > (LARGE_TESTS if is_tests(it) else LARGE)]
    largest = [f"{it} {size(it)[0]}" for it in CRATES if size(it)[0] > LARGEST]
    many = [f"{it} {size(it)[1]}" for it in product if size(it)[1] > FUNCTIONS]
    small = [f"{it} {size(it)[0]}" for it in product if size(it)[0] < SMALL and it not in SMALL_ALLOWED]
    lone = [it for it in product if len(users[it]) == 1 and size(it)[1] <= 6 and it not in SMALL_ALLOWED]
    total = sum(map(paths, CRATES))
    for name, found, most, misses in (
        ("crates", len(CRATES), 75, []),
        ("longest chain", max(map(chain, CRATES)), 12, []),
        ("paths from satip", paths("satip"), 10000, []),
        ("paths in all", total, 60000, []),
        ("crates over 1,500 lines, of tests 1,700", len(large), None, large),
        ("crates over 2,000 lines", len(largest), 0, largest),
        ("crates over their functions", len(many), 0, many),
        ("product crates under 150 lines", len(small), 0, small),
        ("crates with one user and at most six functions", len(lone), 0, lone),
        ("definitions over eight arguments", *(lambda it: (len(it), 0, it))(list(many_arguments()))),
        ("names at most two letters apart", *(lambda it: (len(it), 0, it))(list(near_names()))),
        ("document lines over 160 columns", *(lambda it: (sum(int(x.split()[-1]) for x in it), 0, it))(list(wide_lines()))),
    ):
        yield name, found, most, misses


def main():
    missed = False
    for name, found, most, misses in marks():
        missed |= most is not None and found > most
        print(f"{name:48} {found:6}  {'a wish: 0' if most is None else f'at most {most}'}")
        if "--all" in sys.argv:
            for it in misses:
                print(f"    {it}")
    return 1 if missed else 0


if __name__ == "__main__":
    sys.exit(main())
