"""Draws the crates as a house: docs/crates.svg, for tools/print_crates.py.

A storey is the length of the longest chain from a crate down. A room is a product crate, with what it
does. A line joins a crate with each that it uses, but for those that are implied. Two coloured lines go
through the rooms as the two walks of docs/ARCHITECTURE.md do, with a number in each room. Lines go
behind rooms. It needs python3 alone."""
import functools
import re
import textwrap
from html import escape

WIDTH, MARGIN, LEFT = 1120, 12, 40
ROW, ROOM, GAP, BETWEEN = 5, 206, 10, 34
PAD, NAME, LINE, LETTERS = 8, 15, 13, 32
DOUBLES = ("satip_memory", "satip_memory_desk", "satip_fixtures", "satip_solo")
WALKS = (("The way of one SETUP", "setup", "a SETUP"), ("The way of one transport packet", "packet", "a packet"))
STYLE = """
  text { font: 11px sans-serif; fill: #24292f; }
  .name { font-weight: bold; font-size: 12px; }
  .storey { font-size: 13px; fill: #6e7781; }
  .room { fill: #ffffff; stroke: #8c959f; }
  .use { fill: none; stroke: #afb8c1; }
  .setup { fill: none; stroke: #0969da; stroke-width: 2.5; }
  .packet { fill: none; stroke: #bc4c00; stroke-width: 2.5; }
  .setup-number { fill: #0969da; }
  .packet-number { fill: #bc4c00; }
  .number { fill: #ffffff; font-size: 9px; font-weight: bold; text-anchor: middle; }
  .ground { fill: #f6f8fa; }
  @media (prefers-color-scheme: dark) {
    text { fill: #e6edf3; }
    .storey { fill: #9198a1; }
    .room { fill: #151b23; stroke: #656c76; }
    .use { stroke: #3d444d; }
    .setup { stroke: #4493f8; }
    .packet { stroke: #f0883e; }
    .setup-number { fill: #1f6feb; }
    .packet-number { fill: #bd561d; }
    .number { fill: #ffffff; }
    .ground { fill: #0d1117; }
  }
"""


def is_product(name):
    """Whether a crate is neither tests nor a double of tests."""
    return name not in DOUBLES and not name.endswith("_tests") and name != "satip_program_rows"


def storeys(uses):
    """The product crates by storey, the lowest first."""
    @functools.lru_cache(None)
    def height(name):
        return 1 + max((height(it) for it in uses[name] if it in uses), default=0)
    found = {}
    for name in filter(is_product, uses):
        found.setdefault(height(name), []).append(name)
    return [found[it] for it in sorted(found)]


def rows_of(uses, kept):
    """The rows of rooms, the lowest first, each with its storey. A room stands near those that it uses."""
    place, rows = {}, []
    for number, names in enumerate(storeys(uses), 1):
        below = {it: [place[other] for other in kept[it] if other in place] for it in names}
        names.sort(key=lambda it: (sum(below[it]) / len(below[it]) if below[it] else 0.5, it))
        count = -(-len(names) // ROW)
        for at in range(count):
            row = names[at::count]
            rows.append((number, row))
            for index, name in enumerate(row):
                place[name] = (index + 0.5) / len(row)
    return rows


def walk(text, heading, names):
    """The crates that a walk of ARCHITECTURE goes through, in order."""
    block = text.split(f"## {heading}\n", 1)[1].split("```", 2)[1]
    found = [it for it in re.findall(r"\bsatip_\w+", block) if it in names]
    return [it for at, it in enumerate(found) if at == 0 or found[at - 1] != it]


class House:
    """The rooms by their corners, and what is drawn of them."""

    def __init__(self, uses, kept, does):
        self.uses, self.kept, self.rows = uses, kept, rows_of(uses, kept)
        self.lines = {it: textwrap.wrap(does[it].rstrip("."), LETTERS) for _, row in self.rows for it in row}
        self.rooms, self.labels, y = {}, {}, MARGIN + 34
        for number, row in reversed(self.rows):
            height = PAD * 2 + NAME + LINE * max(len(self.lines[it]) for it in row)
            span = len(row) * ROOM + (len(row) - 1) * GAP
            start = LEFT + (WIDTH - LEFT - MARGIN - span) / 2
            for index, name in enumerate(row):
                self.rooms[name] = (start + index * (ROOM + GAP), y, height)
            self.labels.setdefault(number, y + height / 2)
            y += height + BETWEEN
        self.height = y - BETWEEN + MARGIN

    def top(self, name, share=0.5):
        x, y, _ = self.rooms[name]
        return x + ROOM * share, y

    def foot(self, name, share=0.5):
        x, y, height = self.rooms[name]
        return x + ROOM * share, y + height

    def middle(self, name, shift):
        x, y, height = self.rooms[name]
        return x + ROOM / 2 + shift, y + height / 2 + shift / 2

    def used(self):
        """A line for each use that isn't implied."""
        for name in self.rooms:
            lower = [it for it in self.kept[name] if it in self.rooms]
            for index, other in enumerate(sorted(lower, key=lambda it: self.rooms[it][0])):
                x, y = self.foot(name, (index + 1) / (len(lower) + 1))
                to_x, to_y = self.top(other)
                bend = (to_y - y) / 2
                yield f'<path class="use" d="M{x:.0f} {y:.0f}C{x:.0f} {y + bend:.0f} {to_x:.0f} {to_y - bend:.0f} {to_x:.0f} {to_y:.0f}"/>'

    def walked(self, names, kind, shift):
        """The line of a walk."""
        points = [self.middle(it, shift) for it in names]
        yield f'<polyline class="{kind}" points="{" ".join(f"{x:.0f},{y:.0f}" for x, y in points)}"/>'

    def numbered(self, walks):
        """The numbers of the walks, beside the names of the rooms that they go through."""
        right = {it: x + ROOM - 4 for it, (x, _, _) in self.rooms.items()}
        for names, kind, _ in walks:
            for name in dict.fromkeys(names):
                text = " ".join(str(at) for at, it in enumerate(names, 1) if it == name)
                y, wide = self.rooms[name][1] + 5, 8 + 5 * len(text)
                right[name] -= wide + 3
                yield f'<rect class="{kind}-number" x="{right[name]:.0f}" y="{y:.0f}" width="{wide}" height="12" rx="6"/>'
                yield f'<text class="number" x="{right[name] + wide / 2:.1f}" y="{y + 9:.0f}">{text}</text>'

    def drawn_rooms(self):
        """The rooms, with their words."""
        for name, (x, y, height) in self.rooms.items():
            yield f'<rect class="room" x="{x:.0f}" y="{y:.0f}" width="{ROOM}" height="{height}" rx="4"/>'
            yield f'<text class="name" x="{x + PAD:.0f}" y="{y + PAD + 10:.0f}">{escape(name.removeprefix("satip_"))}</text>'
            for at, line in enumerate(self.lines[name], 1):
                yield f'<text x="{x + PAD:.0f}" y="{y + PAD + 11 + NAME + LINE * (at - 1):.0f}">{escape(line)}</text>'


def picture(uses, kept, does, architecture):
    """The text of docs/crates.svg."""
    house = House(uses, kept, does)
    walks = [(walk(architecture, heading, house.rooms), kind, said) for heading, kind, said in WALKS]
    head = f'<svg xmlns="http://www.w3.org/2000/svg" viewBox="0 0 {WIDTH} {house.height:.0f}" role="img">'
    lines = [head, "<title>The crates of satip by storey</title>", f"<style>{STYLE}</style>",
             f'<rect class="ground" width="{WIDTH}" height="{house.height:.0f}"/>']
    x = LEFT
    for _, kind, said in walks:
        lines.append(f'<path class="{kind}" d="M{x} 20h30"/><text x="{x + 36}" y="24">the way of {said}</text>')
        x += 170
    lines.append(f'<path class="use" d="M{x} 20h30"/><text x="{x + 36}" y="24">uses, but for what is implied; a storey is the longest chain down</text>')
    lines += house.used()
    for (names, kind, _), shift in zip(walks, (-6, 6)):
        lines += house.walked(names, kind, shift)
    lines += house.drawn_rooms()
    lines += house.numbered(walks)
    for number, y in house.labels.items():
        lines.append(f'<text class="storey" x="12" y="{y + 4:.0f}">{number}</text>')
    return "\n".join([*lines, "</svg>", ""])
