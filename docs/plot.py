#!/usr/bin/env python3
"""plot.py: draws lookup.svg and hashes.svg out of lookup.csv and hashes.csv, all beside this file.

lookup: times of a lookup and pages opened against n, from the file that `bench --csv` writes. A column of panels for each S,
hits above misses, both axes logarithmic. hashes: pages opened against k, from the file that `bench --hashes` writes.
A panel for each S.
"""

import csv
import math
import pathlib

# What is drawn: column, name in the legend, colour, dashes, mark.
LOOKUPS = [
    ("proved_us", "proved store, us", "#0072b2", "", "circle"),
    ("model_us", "plain model, us", "#d55e00", "", "square"),
    ("fast_us", "optimised Rust, us", "#009e73", "", "triangle"),
    ("pages_opened", "pages opened", "#666666", "5 4", "diamond"),
]
HASHES = [
    ("lookup miss, in order", "miss, keys 1, 2, ..", "#d55e00", "", "square"),
    ("lookup miss, random", "miss, random keys", "#0072b2", "", "circle"),
    ("lookup hit, in order", "hit, keys 1, 2, ..", "#d55e00", "5 4", "diamond"),
    ("lookup hit, random", "hit, random keys", "#0072b2", "5 4", "triangle"),
]
CALLS = [("lookup hit", "hit"), ("lookup miss", "miss")]

# Sizes in pixels: a panel, what is left of it, above the first row, and between panels.
WIDTH, HEIGHT = 260, 230
LEFT, TOP, GAP_X, GAP_Y, RIGHT, BOTTOM = 70, 84, 44, 44, 24, 56
FONT = "font-family='DejaVu Sans, Arial, sans-serif'"
MINUS = "\u2212"


class Axis:
    """Logarithmic, from one power of ten to another, drawn from pixel `low` to pixel `high`."""

    def __init__(self, values, low, high):
        self.first = math.floor(math.log10(min(values)))
        self.last = math.ceil(math.log10(max(values)))
        self.low, self.high = low, high

    def at(self, value):
        part = (math.log10(value) - self.first) / (self.last - self.first)
        return self.low + part * (self.high - self.low)

    def marks(self):
        """Pixels of the grid's lines, and what stands beside them."""
        return [(self.at(10.0**exponent), power(exponent)) for exponent in range(self.first, self.last + 1)]


class Steps:
    """Whole numbers, from the least to the greatest with half a step on both sides."""

    def __init__(self, values, low, high):
        self.values = sorted(set(values))
        self.low, self.high = low, high

    def at(self, value):
        part = (value - self.values[0] + 0.5) / (self.values[-1] - self.values[0] + 1)
        return self.low + part * (self.high - self.low)

    def marks(self):
        return [(self.at(value), f"{value}") for value in self.values]


def text(x, y, words, size=12, anchor="middle", more=""):
    return f"<text x='{x:.1f}' y='{y:.1f}' font-size='{size}' text-anchor='{anchor}' {FONT} {more}>{words}</text>"


def power(exponent):
    """A power of ten as a label: plain where it is short."""
    if -2 <= exponent <= 3:
        return f"{10.0 ** exponent:g}"
    sign = MINUS if exponent < 0 else ""
    return f"10<tspan dy='-5' font-size='9'>{sign}{abs(exponent)}</tspan>"


def line(x1, y1, x2, y2, colour, width=1.0):
    return f"<line x1='{x1:.1f}' y1='{y1:.1f}' x2='{x2:.1f}' y2='{y2:.1f}' stroke='{colour}' stroke-width='{width}'/>"


def mark(kind, x, y, colour):
    points = {
        "square": [(-3, -3), (3, -3), (3, 3), (-3, 3)],
        "triangle": [(0, -4), (3.8, 3), (-3.8, 3)],
        "diamond": [(0, -4), (4, 0), (0, 4), (-4, 0)],
    }
    if kind == "circle":
        return f"<circle cx='{x:.1f}' cy='{y:.1f}' r='3.2' fill='{colour}'/>"
    corners = " ".join(f"{x + dx:.1f},{y + dy:.1f}" for dx, dy in points[kind])
    return f"<polygon points='{corners}' fill='{colour}'/>"


def curve(points, colour, dashes, kind):
    path = " ".join(f"{x:.1f},{y:.1f}" for x, y in points)
    dash = f" stroke-dasharray='{dashes}'" if dashes else ""
    lines = f"<polyline points='{path}' fill='none' stroke='{colour}' stroke-width='1.8'{dash}/>"
    return [lines] + [mark(kind, x, y, colour) for x, y in points]


def legend(series, width):
    parts = []
    step = (width - LEFT - RIGHT) / len(series)
    for i, (_, name, colour, dashes, kind) in enumerate(series):
        x = LEFT + i * step
        parts += curve([(x, 46), (x + 34, 46)], colour, dashes, kind)
        parts.append(text(x + 42, 50, name, anchor="start"))
    return parts


def panel(points, axes, labels_left, labels_below):
    """Grid, labels and curves; `points` has a list for each of the series."""
    x_axis, y_axis = axes
    parts = []
    for x, label in x_axis.marks():
        parts.append(line(x, y_axis.low, x, y_axis.high, "#dddddd"))
        if labels_below:
            parts.append(text(x, y_axis.low + 18, label))
    for y, label in y_axis.marks():
        parts.append(line(x_axis.low, y, x_axis.high, y, "#dddddd"))
        if labels_left:
            parts.append(text(x_axis.low - 8, y + 4, label, anchor="end"))
    parts.append(
        f"<rect x='{x_axis.low}' y='{y_axis.high}' width='{WIDTH}' height='{HEIGHT}' fill='none' stroke='#444444'/>"
    )
    for (_, _, colour, dashes, kind), own in points:
        parts += curve([(x_axis.at(x), y_axis.at(y)) for x, y in own], colour, dashes, kind)
    return parts


def draw(title, series, panels, x_kind, names):
    """`panels` has a row of panels for each line of them: a heading, and rows of a table. `names` are those of the axes."""
    x_name, x_words, y_words = names
    width = LEFT + len(panels[0]) * WIDTH + (len(panels[0]) - 1) * GAP_X + RIGHT
    height = TOP + len(panels) * HEIGHT + (len(panels) - 1) * GAP_Y + BOTTOM
    rows = [row for line_of in panels for _, own in line_of for row in own]
    # No lookup of a small volume may open a page.
    values = [row[column] for row in rows for column, *_ in series if row[column] > 0]
    parts = [
        f"<svg xmlns='http://www.w3.org/2000/svg' width='{width}' height='{height}' viewBox='0 0 {width} {height}'>",
        f"<rect width='{width}' height='{height}' fill='white'/>",
        text(width / 2, 24, title, size=15),
    ]
    parts += legend(series, width)
    for down, line_of in enumerate(panels):
        top = TOP + down * (HEIGHT + GAP_Y)
        for across, (heading, own) in enumerate(line_of):
            left = LEFT + across * (WIDTH + GAP_X)
            axes = x_kind([row[x_name] for row in rows], left, left + WIDTH), Axis(values, top + HEIGHT, top)
            points = [(one, [(row[x_name], row[one[0]]) for row in own if row[one[0]] > 0]) for one in series]
            parts += panel(points, axes, across == 0, down == len(panels) - 1)
            parts.append(text(left + WIDTH / 2, top - 8, heading, size=13))
        middle = top + HEIGHT / 2
        turn = f"transform='rotate(-90 18 {middle})'"
        parts.append(text(18, middle, y_words, size=13, more=turn))
    parts.append(text(LEFT + (width - LEFT - RIGHT) / 2, height - 12, x_words, size=13))
    return "\n".join(parts + ["</svg>", ""])


def read(file):
    with open(file, newline="") as lines:
        return list(csv.DictReader(lines))


def lookups(file):
    rows = read(file)
    for row in rows:
        row["n"] = int(row["n"])
        for name, *_ in LOOKUPS:
            row[name] = float(row[name])
    sizes = sorted({row["S"] for row in rows}, key=int)
    own = lambda size, call: [row for row in rows if row["S"] == size and row["call"] == call]
    panels = [[(f"S = {size}, {name}", own(size, call)) for size in sizes] for call, name in CALLS]
    title = "A lookup against the number of records n (every tenth an update)"
    return draw(title, LOOKUPS, panels, Axis, ("n", "records n", "microseconds; pages"))


def hashes(file):
    """The rows of one S and k become one, with a column for each kind of lookup and of keys."""
    found = {}
    for row in read(file):
        of_k = found.setdefault(row["S"], {}).setdefault(int(row["k"]), {"k": int(row["k"])})
        of_k[f"{row['call']}, {row['keys']}"] = float(row["pages_opened"])
    panels = [[(f"S = {size}", list(found[size].values())) for size in sorted(found, key=int)]]
    title = "Pages opened by a lookup against the number of hash functions k (100,000 records)"
    return draw(title, HASHES, panels, Steps, ("k", "hash functions k", "pages opened"))


def main():
    beside = pathlib.Path(__file__).resolve().parent
    for name, plot in [("lookup", lookups), ("hashes", hashes)]:
        (beside / f"{name}.svg").write_text(plot(beside / f"{name}.csv"), encoding="utf-8")


main()
