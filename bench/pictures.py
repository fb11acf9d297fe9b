#!/usr/bin/env python3
"""Draws docs/parts.svg, the crates in the layers of crates.txt with what each uses, docs/line.svg, how a line gets its word, docs/speeds.svg, our
time beside others', from bench/speeds.csv, and docs/logins.svg from bench/logins.csv; and writes the table of docs/SPEED.md from the rows of
bench/speeds.csv. The pictures have a ground of their own, for light and for dark viewers.

usage: bench/pictures.py         (it writes all five)
       bench/pictures.py check   (it ends with 1 where one of them isn't what it would write)
"""
import csv
import os
import re
import sys
from html import escape

HERE = os.path.dirname(os.path.abspath(__file__))
TOP = os.path.dirname(HERE)
sys.path.insert(0, os.path.join(TOP, "checks"))
import layers  # noqa: E402

STYLE = (
    "<style>text{font:13px system-ui,sans-serif;fill:#1f2328}.small{font-size:11px;fill:#59636e}.line{stroke:#8c959f}"
    ".ground{fill:#ffffff}.band{fill:#f6f8fa}.tip{fill:#8c959f}.box{fill:#ddf4ff;stroke:#0969da}.bar{fill:#0969da}"
    "@media(prefers-color-scheme:dark){text{fill:#f0f6fc}.small{fill:#9198a1}.ground{fill:#0d1117}.band{fill:#151b23}"
    ".line{stroke:#656c76}.tip{fill:#656c76}.box{fill:#0c2d6b;stroke:#4493f8}.bar{fill:#4493f8}}</style>"
)
# The end of an arrow.
TIP = '<defs><marker id="tip" viewBox="0 0 8 8" refX="7" refY="4" markerWidth="7" markerHeight="7" orient="auto"><path class="tip" d="M0 0 8 4 0 8z"/></marker></defs>'


def picture(width, height, parts):
    head = f'<svg xmlns="http://www.w3.org/2000/svg" viewBox="0 0 {width} {height}" width="{width}" height="{height}">'
    ground = f'<rect class="ground" width="{width}" height="{height}"/>'
    return "\n".join([head, STYLE, ground, *parts, "</svg>", ""])


def text(x, y, words, kind="", anchor="start"):
    name = f' class="{kind}"' if kind else ""
    return f'<text x="{x}" y="{y}"{name} text-anchor="{anchor}">{escape(words, quote=False)}</text>'


def rows_of(layer, uses):
    """The crates of a layer in rows: a crate is above those of its layer that it uses, and a row has at most seven."""
    height = {}

    def level(name):
        if name not in height:
            height[name] = 1 + max((level(use) for use in uses[name] if use in layer), default=-1)
        return height[name]

    rows = {}
    for name in layer:
        rows.setdefault(level(name), []).append(name)
    return [names[place:place + 7] for _, names in sorted(rows.items(), reverse=True) for place in range(0, len(names), 7)]


class Drawing:
    """Crates in rows, from top to bottom, and a path for each crate that others use: through each row between, its own place."""

    def __init__(self, rows, arrows):
        self.row = {name: number for number, row in enumerate(rows) for name in row}
        self.rows = [list(row) for row in rows]
        self.steps = []
        for name, its in arrows.items():
            for use in its:
                self.lead(name, use)
        self.order()
        self.place = self.spread()

    def lead(self, name, use):
        """The steps from a crate to one that it uses. Paths to the same crate become one where they meet."""
        at = name
        for number in range(self.row[name] + 1, self.row[use]):
            step = (use, number)
            if step not in self.row:
                self.row[step] = number
                self.rows[number].append(step)
            if (at, step) not in self.steps:
                self.steps.append((at, step))
            at = step
        if (at, use) not in self.steps:
            self.steps.append((at, use))

    def order(self):
        """Orders each row by where the steps of the row above, then of the row below, lead."""
        for turn in range(40):
            for row in self.rows if turn % 2 else reversed(self.rows):
                spots = {one: number / (len(its) + 1) for its in self.rows for number, one in enumerate(its, 1)}
                row.sort(key=lambda one: self.middle(one, spots, turn % 2))

    def middle(self, one, spots, is_down):
        near = [spots[a if is_down else b] for a, b in self.steps if (b if is_down else a) == one]
        return sum(near) / len(near) if near else spots[one]

    @staticmethod
    def half(one):
        """Half of what a box or a path takes of a row."""
        return 66 if isinstance(one, str) else 13

    def spread(self):
        """Where each is: as near to its neighbours as the order of the row allows."""
        place = {}
        for row in self.rows:
            right = 0
            for one in row:
                place[one] = right + self.half(one)
                right += 2 * self.half(one)
            for one in row:
                place[one] -= right / 2
        for turn in range(60):
            for row in self.rows if turn % 2 else reversed(self.rows):
                self.relax(row, place)
        least = min(place[one] - self.half(one) for one in place)
        return {one: x - least for one, x in place.items()}

    def relax(self, row, place):
        near = {one: [place[b if a == one else a] for a, b in self.steps if one in (a, b)] for one in row}
        wished = [sum(near[one]) / len(near[one]) if near[one] else place[one] for one in row]
        for first, one in enumerate(row):
            low = place[row[first - 1]] + self.half(row[first - 1]) + self.half(one) if first else -520 + self.half(one)
            high = place[row[first + 1]] - self.half(row[first + 1]) - self.half(one) if first + 1 < len(row) else 520 - self.half(one)
            place[one] = min(max(wished[first], low), max(high, low))


def parts_picture():
    """The crates in layers, and an arrow to each that a crate uses, where no other arrow implies it. Tests are left out."""
    all_layers = [layer for layer in layers.layers(TOP) if layer[0] != "tests"]
    uses = layers.uses_of(all_layers)
    banded = [(title, rows_of(layer, uses)) for title, layer in reversed(all_layers)]
    drawing = Drawing([row for _, rows in banded for row in rows], layers.direct(uses))
    left, bands, tops, y = 120, [], [], 12
    width = left + max(drawing.place[one] + drawing.half(one) for one in drawing.place) + 20
    for title, rows in banded:
        bands.append(f'<rect class="band" x="6" y="{y}" width="{width - 12:.0f}" height="{60 * len(rows) + 4}" rx="6"/>')
        bands.append(text(14, y + 20, title, "small"))
        for _ in rows:
            tops.append(y + 14)
            y += 60
        y += 12
    boxes, lines = [], []
    for one, row in drawing.row.items():
        x = left + drawing.place[one]
        if isinstance(one, str):
            boxes.append(f'<rect class="box" x="{x - 59:.0f}" y="{tops[row]}" width="118" height="32" rx="5"/>')
            boxes.append(text(f"{x:.0f}", tops[row] + 21, one, anchor="middle"))
        else:
            lines.append(f'<line class="line" x1="{x:.0f}" y1="{tops[row]}" x2="{x:.0f}" y2="{tops[row] + 32}"/>')
    for a, b in drawing.steps:
        end = ' marker-end="url(#tip)"' if isinstance(b, str) else ""
        lines.append(f'<line class="line" x1="{left + drawing.place[a]:.0f}" y1="{tops[drawing.row[a]] + 32}" '
                     f'x2="{left + drawing.place[b]:.0f}" y2="{tops[drawing.row[b]]}"{end}/>')
    return picture(round(width), y, [TIP, *bands, *lines, *boxes])


# How a line gets its word: what is done, what is taken, what may come out already there.
STEPS = (
    ("line", "correct horse<tab>$2b$12$..", "toolong"),
    ("password and text", "cut at the last tab", "badline, password-too-long"),
    ("scheme", "by the text's identifier: bcrypt", "no-scheme"),
    ("cost and salt", "read, and held to the bounds: cost 12", "too-costly, or a fault of the text, as bcrypt-cost"),
    ("hash", "computed of password, cost and salt", "zero-byte, not-ascii; out of memory ends the run (5)"),
    ("word", "the hash is compared with that of the text", "match, mismatch"),
)


def line_picture():
    """The way of a line through `pwtool check`, from top to bottom: a step, what it does, and the words that may end the way there."""
    left, wide = 10, 190
    parts = [text(left, 20, "How a line gets its word"), text(left + wide + 340, 20, "words with which the way may end here", "small")]
    for place, (step, done, words) in enumerate(STEPS):
        y = 34 + 54 * place
        parts.append(f'<rect class="box" x="{left}" y="{y}" width="{wide}" height="32" rx="5"/>')
        parts.append(text(left + wide // 2, y + 21, step, anchor="middle"))
        parts.append(text(left + wide + 16, y + 21, done))
        parts.append(text(left + wide + 340, y + 21, words, "small"))
        if place + 1 < len(STEPS):
            x = left + wide // 2
            parts.append(f'<line class="line" x1="{x}" y1="{y + 32}" x2="{x}" y2="{y + 54}" marker-end="url(#tip)"/>')
    return picture(820, 40 + 54 * len(STEPS), [TIP, *parts])


def speeds():
    with open(os.path.join(HERE, "speeds.csv"), encoding="utf-8", newline="") as file:
        return list(csv.DictReader(file))


def speeds_picture():
    rows = speeds()
    left, unit, most_drawn = 300, 220, 2
    height = 60 + 26 * len(rows)
    drawn = [text(10, 20, "Our time, where the other's is 1: shorter is faster. The pale part goes from the least to the most of the cases.")]
    for part in (0, 0.25, 0.5, 0.75, 1, 1.25, 1.5, 1.75, most_drawn):
        x = left + unit * part
        drawn.append(f'<line class="line" x1="{x}" y1="34" x2="{x}" y2="{height - 20}" stroke-width="{2 if part == 1 else 0.5}"/>')
        drawn.append(text(x, height - 5, f"{part:g}", "small", "middle"))
    for place, row in enumerate(rows):
        y = 42 + 26 * place
        least, most = float(row["least"]), float(row["most"])
        if most > most_drawn:
            sys.exit(f"pictures.py: {row['what']} is above {most_drawn}")
        drawn.append(text(10, y + 13, row["what"]))
        drawn.append(f'<rect class="bar" x="{left}" y="{y}" width="{unit * least:.0f}" height="16"/>')
        if most > least:
            drawn.append(f'<rect class="bar" opacity="0.5" x="{left + unit * least:.0f}" y="{y}" width="{unit * (most - least):.0f}" height="16"/>')
        told = row["least"] if least == most else f"{row['least']} to {row['most']}"
        drawn.append(text(left + unit * most_drawn + 12, y + 13, f"{told} of {row['peer']}"))
    return picture(920, height, drawn)


TABLE = re.compile(r"\| Ours beside the peer \|.*?\n\n", re.S)


def speeds_table():
    """The rows as docs/SPEED.md has them."""
    lines = ["| Ours beside the peer | Peer | Our time, where the peer's is 1 | Machine | Commit |", "|---|---|---|---|---|"]
    for row in speeds():
        told = row["least"] if row["least"] == row["most"] else f"{row['least']} to {row['most']}"
        lines.append(f"| {row['what']} | {row['peer']} | {told} | {row['machine']} | {row['commit'] or '-'} |")
    return "\n".join(lines) + "\n\n"


def speeds_page(page):
    """docs/SPEED.md with the table of bench/speeds.csv."""
    if not TABLE.search(page):
        sys.exit("pictures.py: docs/SPEED.md has no table of bench/speeds.csv")
    return TABLE.sub(lambda _: speeds_table(), page, count=1)


def main():
    # logins.py draws by this file.
    import logins
    with open(os.path.join(TOP, "docs", "SPEED.md"), encoding="utf-8") as file:
        page = file.read()
    files = {"parts.svg": parts_picture(), "line.svg": line_picture(), "speeds.svg": speeds_picture(), "logins.svg": logins.drawn(logins.rows()),
             "SPEED.md": speeds_page(page)}
    other = 0
    for name, made in files.items():
        path = os.path.join(TOP, "docs", name)
        if sys.argv[1:] == ["check"]:
            with open(path, encoding="utf-8") as file:
                if file.read() != made:
                    print(f"pictures.py: docs/{name} isn't what crates.txt, bench/speeds.csv and bench/logins.csv give: run bench/pictures.py")
                    other = 1
        else:
            with open(path, "w", encoding="utf-8") as file:
                file.write(made)
    return other


if __name__ == "__main__":
    sys.exit(main())
