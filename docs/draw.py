#!/usr/bin/env python3
"""draw.py: the drawings of LAYOUT.md, volume.svg and filters.svg, beside this file.

volume.svg has the areas of the chip with their blocks and the pages of the RAM, filters.svg the way of a
filter from RAM to a full set. The numbers of their examples are computed by document 01's rules.
"""

import pathlib

FONT = "font-family='DejaVu Sans, Arial, sans-serif'"
INK, GREY, PALE = "#222222", "#666666", "#f2f2f2"
MINUS, TIMES, FLOOR, ROOF = "\u2212", "\u00d7", ("\u230a", "\u230b"), ("\u2308", "\u2309")

# One colour for each fourth of a filter, one for each kind of item.
FOURTHS = ["#bfdcf2", "#c9e8d6", "#fbe3b5", "#f3cfe0"]
RECORDS, ENTRIES, DELETIONS, INDEX, WORK = "#d5e8d4", "#dae8fc", "#f8cecc", "#fff2cc", PALE

WIDTH = 1040
LEFT, RIGHT = 70, 1000


# ---- document 01's rules, for the examples


def area_blocks(S, R, D):
    return [R, (R + 1) // 2, D, 1, S // 4, S // 4, R // (4 * S) * (S // 4), 1 + S // 2 + D // S * (S // 4)]


def set_pages(i):
    power = 1
    while power < i - 1:
        power *= 2
    return 16 * power


# ---- shapes


def text(x, y, words, size=13, anchor="middle", colour=INK, more=""):
    return f"<text x='{x:g}' y='{y:g}' font-size='{size}' text-anchor='{anchor}' fill='{colour}' {FONT} {more}>{words}</text>"


def bold(x, y, words, size=14, anchor="middle"):
    return text(x, y, words, size, anchor, more="font-weight='bold'")


def box(x, y, width, height, fill, stroke=INK, line=1.2, dash=""):
    dashes = f" stroke-dasharray='{dash}'" if dash else ""
    return (
        f"<rect x='{x:g}' y='{y:g}' width='{width:g}' height='{height:g}' fill='{fill}' stroke='{stroke}' stroke-width='{line}'{dashes}/>"
    )


def line(x1, y1, x2, y2, colour=GREY, width=1.2, dash=""):
    dashes = f" stroke-dasharray='{dash}'" if dash else ""
    return f"<line x1='{x1:g}' y1='{y1:g}' x2='{x2:g}' y2='{y2:g}' stroke='{colour}' stroke-width='{width}'{dashes}/>"


def arrow(x1, y1, x2, y2, colour=INK):
    return (
        f"<line x1='{x1:g}' y1='{y1:g}' x2='{x2:g}' y2='{y2:g}' stroke='{colour}' stroke-width='1.5' marker-end='url(#head)'/>"
    )


def picture(height, parts):
    head = (
        "<defs><marker id='head' markerWidth='10' markerHeight='8' refX='9' refY='4' orient='auto'>"
        f"<path d='M0,0 L10,4 L0,8 z' fill='{INK}'/></marker></defs>"
    )
    return "\n".join(
        [
            f"<svg xmlns='http://www.w3.org/2000/svg' width='{WIDTH}' height='{height}' viewBox='0 0 {WIDTH} {height}'>",
            f"<rect width='{WIDTH}' height='{height}' fill='white'/>",
            head,
            *parts,
            "</svg>",
            "",
        ]
    )


# ---- the volume

# Name, what it holds, blocks, colour, width in the drawing (not to scale).
AREAS = [
    ("RA", "records", "R", RECORDS, 140),
    ("KA", "entries", f"{ROOF[0]}R/2{ROOF[1]}", ENTRIES, 110),
    ("DA", "deletions", "D", DELETIONS, 90),
    ("L1", "filters", "1", INDEX, 70),
    ("side A", "sets 2, 4, ..", "S/4", INDEX, 100),
    ("side B", "sets 3, 5, ..", "S/4", INDEX, 100),
    ("full sets", "S/4 blocks each", f"{FLOOR[0]}R/(4S){FLOOR[1]} {TIMES} S/4", INDEX, 125),
    ("index over DA", "L1, sides, full sets", f"1 + S/2 + {FLOOR[0]}D/S{FLOOR[1]} {TIMES} S/4", INDEX, 195),
]

# Name, what it holds at most between calls, colour.
PAGES = [
    ("RA", f"S/4 {MINUS} 1 records", RECORDS),
    ("KA", f"S/2 {MINUS} 1 entries", ENTRIES),
    ("DA", f"S {MINUS} 1 deletions", DELETIONS),
    ("SKA", "7 filters", INDEX),
    ("work", "zero", WORK),
    ("SKA of DA", "6 filters", INDEX),
]

# Of each page, the area that it is programmed to.
TARGETS = [0, 1, 2, 3, None, 7]


def chip(top):
    """The areas in a row, and their middles."""
    S, R, D = 16, 64, 1
    blocks = area_blocks(S, R, D)
    bar = top + 62
    x, first, middles, parts = LEFT, 0, [], []
    for (name, holds, count, colour, width), example in zip(AREAS, blocks):
        middle = x + width / 2
        parts += [
            text(middle, top + 30, count),
            text(middle, top + 50, str(example), colour=GREY),
            box(x, bar, width, 54, colour),
            bold(middle, bar + 23, name),
            text(middle, bar + 42, holds, size=12),
            text(x, bar + 70, str(first), size=11, colour=GREY),
        ]
        middles.append(middle)
        x += width
        first += example
    parts += [
        text(LEFT, top, "The areas in order, not to scale, with their blocks and the number of their first block", anchor="start"),
        text(RIGHT, top, f"e.g. S = {S}, R = {R}, D = {D}: B = {first}", anchor="end", colour=GREY),
        text(x, bar + 70, str(first), size=11, colour=GREY),
        bold(LEFT - 12, bar + 32, "Chip", anchor="end"),
        text(LEFT - 12, top + 30, "blocks", size=12, anchor="end"),
        text(LEFT - 12, top + 50, "e.g.", size=12, anchor="end", colour=GREY),
    ]
    return parts, bar + 54, middles


def ram(top, ends, middles):
    """The six pages, and arrows to where they are programmed."""
    width = (RIGHT - LEFT) / len(PAGES)
    parts = [
        bold(LEFT - 12, top + 32, "RAM", anchor="end"),
        text(LEFT, top + 94, "Six pages of 4S bytes, with what each holds at most between two calls and its first byte", anchor="start"),
        text(LEFT + width, top - 36, "a full page", size=12),
        text(LEFT + width, top - 20, "is programmed", size=12),
        text(LEFT + 3.5 * width + 30, top - 36, "eight filters: a flush,", size=12, anchor="start"),
        text(LEFT + 3.5 * width + 30, top - 20, "one sector to each of four pages of L1", size=12, anchor="start"),
    ]
    for k, (name, holds, colour) in enumerate(PAGES):
        x = LEFT + k * width
        parts += [
            box(x, top, width, 54, colour),
            bold(x + width / 2, top + 23, name),
            text(x + width / 2, top + 42, holds, size=12),
            text(x, top + 70, f"{4 * k}S" if k else "0", size=11, colour=GREY),
        ]
        if TARGETS[k] is not None:
            parts.append(arrow(x + width / 2, top - 4, middles[TARGETS[k]], ends + 4))
    parts.append(text(LEFT + len(PAGES) * width, top + 70, f"{4 * len(PAGES)}S", size=11, colour=GREY))
    return parts


def zoom(top):
    """Block, page and sector."""
    page, sector, spare = 460, 720, 866
    parts = [
        text(LEFT + 160, top, "a block: 16 pages, 64S bytes"),
        text(page + 90, top, "a page: 4 sectors, 4S bytes"),
        text((sector + RIGHT) / 2, top, "a sector: S bytes and a spare byte"),
    ]
    y = top + 14
    for k in range(16):
        parts += [box(LEFT + k * 20, y, 20, 40, "white" if k != 9 else PALE), text(LEFT + k * 20 + 10, y + 25, str(k), size=10)]
    for k in range(4):
        parts += [box(page + k * 45, y, 45, 40, "white" if k != 2 else PALE), text(page + k * 45 + 22, y + 25, str(k), size=11)]
    parts += [
        box(sector, y, 140, 40, PALE),
        text(sector + 70, y + 25, "main area", size=11),
        box(spare, y, RIGHT - spare, 40, "white"),
        text((spare + RIGHT) / 2, y + 18, "spare area", size=11),
        text((spare + RIGHT) / 2, y + 33, "FF: fresh", size=11),
    ]
    for edge in (y, y + 40):
        parts += [line(LEFT + 320, edge, page, edge, dash="3 3"), line(page + 180, edge, sector, edge, dash="3 3")]
    return parts


def volume():
    parts, ends, middles = chip(34)
    return picture(456, parts + ram(246, ends, middles) + zoom(384))


# ---- the way of a filter


def filter_of_page(x, y):
    """A page of entries and its filter."""
    parts = [
        bold(x, y, "1  A page of KA is full", anchor="start"),
        box(x, y + 16, 240, 34, ENTRIES),
        text(x + 120, y + 38, "S/2 entries, in RAM", size=12),
        arrow(x + 120, y + 52, x + 120, y + 78),
        text(x + 128, y + 70, "k bits for each key", size=12, anchor="start"),
    ]
    for i, colour in enumerate(FOURTHS):
        parts += [box(x + i * 60, y + 82, 60, 34, colour), text(x + i * 60 + 30, y + 132, f"i = {i}", size=11)]
    for at in (131, 149, 171):  # a key's bits with k = 3, all in the fourth that its first hash picks
        parts.append(line(x + at, y + 84, x + at, y + 114, INK, 2.4))
    parts += [
        text(x, y + 152, "one filter: m = 4S bits, four fourths;", size=12, anchor="start"),
        text(x, y + 168, "a key's k bits lie in the same fourth", size=12, anchor="start"),
    ]
    return parts


def ska_page(x, y):
    """Eight filters side by side, a sector for each fourth."""
    parts = [bold(x, y, "2  SKA page, in RAM", anchor="start")]
    for i, colour in enumerate(FOURTHS):
        for s in range(8):
            parts.append(box(x + s * 22, y + 16 + i * 25, 22, 25, colour, line=0.8))
        parts.append(text(x + 182, y + 33 + i * 25, f"sector {i}", size=11, anchor="start"))
    parts.append(box(x + 2 * 22, y + 16, 22, 100, "none", line=2.8))
    parts += [text(x + s * 22 + 11, y + 130, str(s), size=10) for s in range(8)]
    parts += [
        text(x, y + 152, "a column: a filter, S bits in each", size=12, anchor="start"),
        text(x, y + 168, "sector; eight filters fill the page", size=12, anchor="start"),
    ]
    return parts


def level_one(x, y):
    """Sixteen flushes side by side, four pages for each fourth."""
    parts = [bold(x, y, "3  L1, one block on flash", anchor="start")]
    cell = 17
    for i, colour in enumerate(FOURTHS):
        for t in range(16):
            parts.append(box(x + t * cell, y + 16 + i * 25, cell, 25, colour, line=0.6))
        for p in range(4):
            parts.append(box(x + p * 4 * cell, y + 16 + i * 25, 4 * cell, 25, "none", line=1.6))
        parts.append(text(x + 16 * cell + 8, y + 33 + i * 25, f"pages {4 * i} .. {4 * i + 3}", size=11, anchor="start"))
    flush, row = 6, 2
    parts.append(box(x + flush * cell, y + 16, cell, 100, "none", line=2.8))
    parts.append(f"<circle cx='{x + flush * cell + cell / 2:g}' cy='{y + 16 + row * 25 + 12.5:g}' r='4' fill='{INK}'/>")
    parts += [text(x + t * cell + cell / 2, y + 130, str(t), size=10) for t in range(16)]
    page, sector = 4 * row + flush // 4, flush % 4
    parts += [
        text(x, y + 152, "a column: a flush, one sector to each of four pages;", size=12, anchor="start"),
        text(x, y + 168, f"the dot: flush {flush}, i = {row}, page {page}, sector {sector}", size=12, anchor="start"),
    ]
    return parts


def rounds(top):
    """S = 16: four rounds, sets on side A, B, A, and the full one."""
    S = 16
    column, first, wide, high = 213, 148, 186, 50
    lanes = {"L1": top + 24, "side A": top + 108, "side B": top + 186, "full sets": top + 264}
    parts = [
        bold(LEFT, top, "4  After flush 15: a set out of L1 and the set before it", anchor="start"),
        text(RIGHT, top, f"S = {S}: a full set after {S // 4} rounds", size=12, anchor="end", colour=GREY),
    ]
    for name, y in lanes.items():
        parts.append(text(first - 16, y + high / 2 + 5, name, anchor="end"))
        parts.append(line(first - 6, y + high + 14, RIGHT + 6, y + high + 14, "#cccccc", 1))
    before = None
    for k in range(S // 4):
        x, i = first + k * column, k + 2
        pages, filters = set_pages(i), 128 * (i - 1)
        lane = "full sets" if i == S // 4 + 1 else "side A" if i % 2 == 0 else "side B"
        y = lanes[lane]
        parts += [
            box(x, lanes["L1"], wide, high, INDEX),
            text(x + wide / 2, lanes["L1"] + 21, f"round {k + 1}: 16 flushes"),
            text(x + wide / 2, lanes["L1"] + 39, "128 filters; then erased", size=12),
            box(x, y, wide, high, INDEX, line=2.4 if lane == "full sets" else 1.2),
            bold(x + wide / 2, y + 20, f"set {i}: {pages} pages"),
            text(x + wide / 2, y + 38, f"{filters} filters, w = {4 * S // pages}", size=12),
            arrow(x + wide - 24, lanes["L1"] + high, x + wide - 24, y - 2),
        ]
        if before:
            x0, y0 = before
            if y0 < y:
                parts.append(arrow(x0 + wide, y0 + high / 2 + 8, x - 2, y + 12))
            else:
                parts.append(arrow(x0 + wide, y0 + high / 2 - 8, x - 2, y + high - 12))
            parts.append(text(x0 + wide / 2, y0 + high + 11, f"erased when set {i} is there", size=10, colour=GREY))
        before = (x, y)
    parts.append(text(before[0] + wide / 2, before[1] + high + 11, "stays; the next is set 2", size=10, colour=GREY))
    return parts


def set_page(top):
    """One page of a set."""
    bits = f"page p of P: bits pw to pw + w {MINUS} 1 of every filter of the set, w = 4S / P"
    pages = f"P is 16 {TIMES} the least power of two from i {MINUS} 1 on"
    parts = [
        bold(LEFT, top, "A page of set i", anchor="start"),
        text(LEFT + 130, top, f"{bits}; {pages}", size=11.5, anchor="start"),
    ]
    y = top + 14
    for x, width, words, colour in [
        (LEFT, 140, "filter 0: w bits", INDEX),
        (210, 140, "filter 1: w bits", INDEX),
        (350, 150, ". . .", INDEX),
        (500, 240, f"filter 128 (i {MINUS} 1) {MINUS} 1: w bits", INDEX),
        (740, 260, "zeros, if there is a rest", WORK),
    ]:
        parts += [box(x, y, width, 32, colour), text(x + width / 2, y + 21, words, size=12)]
    return parts


def filters():
    parts = filter_of_page(LEFT, 34) + ska_page(352, 34) + level_one(640, 34)
    parts += [arrow(314, 133, 346, 133), arrow(592, 100, 634, 100)]
    return picture(674, parts + rounds(248) + set_page(620))


def main():
    beside = pathlib.Path(__file__).resolve().parent
    for name, drawn in (("volume", volume()), ("filters", filters())):
        (beside / f"{name}.svg").write_text(drawn, encoding="utf-8")


main()
