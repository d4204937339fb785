#!/usr/bin/env python3
"""Draws rows of bench/peers: a chart each, with the systems beside each other.

usage: bench/plot.py ROWS SVG

ROWS is what bench/peers --rows writes. Both axes are logarithmic, with equal factors at equal distances. Each system has a mark, a kind
of line, and its name at the end of the line, so that a drawing without colours says the same.
"""
import itertools
import math
import sys
from typing import NamedTuple
from xml.sax.saxutils import escape


class Row(NamedTuple):
    """What was measured of one system at one size: the chart, what its sizes are, and the unit of the value."""
    chart: str
    size_name: str
    unit: str
    system: str
    size: int
    value: float


class Style(NamedTuple):
    """A system's line: its colour, its dashes, and the mark at each size."""
    colour: str
    dashes: str
    mark: str


STYLES = {
    "toolbus": Style("#111111", "", "disc"),
    "Erlang": Style("#a2330a", "9 4", "square"),
    "Go": Style("#0b5d8f", "2 4", "triangle"),
    "D-Bus": Style("#4b2e83", "10 4 2 4", "diamond"),
    "MQTT": Style("#7a5200", "14 5", "plus"),
    "NATS": Style("#1b6b3a", "6 3 2 3 2 3", "valley"),
}
OTHER = Style("#555555", "4 3", "cross")

WIDTH, HEIGHT, COLUMNS = 470, 330, 2
LEFT, RIGHT, TOP, BOTTOM = 70, 78, 44, 56
MARK = 4.5
# How far apart the sizes that are named below a chart are at least.
NAME_WIDTH = 42


def put_rows(rows, file):
    for row in rows:
        file.write("\t".join(map(str, row)) + "\n")


def rows_in(lines):
    for line in lines:
        chart, size_name, unit, system, size, value = line.rstrip("\n").split("\t")
        yield Row(chart, size_name, unit, system, int(size), float(value))


# Axes.

class Axis(NamedTuple):
    """From the least to the greatest number, along so many units of the drawing."""
    least: float
    most: float
    start: float
    end: float

    def at(self, number):
        share = math.log(number / self.least) / math.log(self.most / self.least)
        return self.start + share * (self.end - self.start)


def round_numbers(least, most):
    """1, 2, and 5 with all powers of ten, from the last one up to the least number to the first one from the greatest number on."""
    numbers = [factor * 10.0**power for power in range(-9, 13) for factor in (1, 2, 5)]
    below = max(number for number in numbers if number <= least)
    above = min(number for number in numbers if number >= most and number > below)
    return [number for number in numbers if below <= number <= above]


def short(number):
    """A number as on an axis: with k for thousands and M for millions, where that is as exact."""
    for limit, letter in ((1_000_000, "M"), (1_000, "k")):
        if number >= limit and number % limit == 0:
            return f"{number / limit:g}{letter}"
    return f"{number:,g}" if number < 1_000 else f"{number:,.0f}"


# Pieces of the drawing.

def text(x, y, what, anchor="middle", more=""):
    return f'<text x="{x:.1f}" y="{y:.1f}" text-anchor="{anchor}"{more}>{escape(what)}</text>'


def stroke(points, style, width=2):
    path = " ".join(f"{x:.1f},{y:.1f}" for x, y in points)
    dashes = f' stroke-dasharray="{style.dashes}"' if style.dashes else ""
    return f'<polyline points="{path}" fill="none" stroke="{style.colour}" stroke-width="{width}"{dashes}/>'


def polygon(points, style):
    path = " ".join(f"{x:.1f},{y:.1f}" for x, y in points)
    return f'<polygon points="{path}" fill="white" stroke="{style.colour}" stroke-width="1.5"/>'


def mark(x, y, style):
    if style.mark == "disc":
        return f'<circle cx="{x:.1f}" cy="{y:.1f}" r="{MARK}" fill="{style.colour}"/>'
    if style.mark == "square":
        return polygon([(x - MARK, y - MARK), (x + MARK, y - MARK), (x + MARK, y + MARK), (x - MARK, y + MARK)], style)
    if style.mark == "triangle":
        return polygon([(x, y - MARK - 1), (x + MARK + 1, y + MARK), (x - MARK - 1, y + MARK)], style)
    if style.mark == "valley":
        return polygon([(x, y + MARK + 1), (x + MARK + 1, y - MARK), (x - MARK - 1, y - MARK)], style)
    if style.mark == "plus":
        arm = MARK + 1.5
        return f'<path d="M{x - arm:.1f} {y:.1f}h{2 * arm}M{x:.1f} {y - arm:.1f}v{2 * arm}" stroke="{style.colour}" stroke-width="2"/>'
    if style.mark == "diamond":
        return polygon([(x, y - MARK - 1.5), (x + MARK + 1.5, y), (x, y + MARK + 1.5), (x - MARK - 1.5, y)], style)
    return (f'<path d="M{x - MARK:.1f} {y - MARK:.1f}l{2 * MARK} {2 * MARK}m0 {-2 * MARK}l{-2 * MARK} {2 * MARK}"'
            f' stroke="{style.colour}" stroke-width="2"/>')


def apart(heights, least=14):
    """The heights of names, moved down where two would stand over each other."""
    placed = []
    for height, name in sorted((height, name) for name, height in heights.items()):
        placed.append((max(height, placed[-1][0] + least) if placed else height, name))
    return placed


def grid(across, up, sizes, size_name, unit):
    for number in round_numbers(up.least, up.most):
        y = up.at(number)
        yield f'<path d="M{across.start - 8:.1f} {y:.1f}H{across.end + 8:.1f}" stroke="#dddddd"/>'
        yield text(across.start - 12, y + 4, short(number), "end")
    named = None
    for size in reversed(sizes):
        x = across.at(size)
        yield f'<path d="M{x:.1f} {up.start:.1f}v5" stroke="#555555"/>'
        if named is None or named - x >= NAME_WIDTH:
            named = x
            yield text(x, up.start + 19, short(size))
    yield f'<path d="M{across.start - 8:.1f} {up.end:.1f}V{up.start:.1f}H{across.end + 8:.1f}" fill="none" stroke="#555555"/>'
    yield text((across.start + across.end) / 2, up.start + 38, size_name)
    middle = (up.start + up.end) / 2
    yield text(16, middle, unit, more=f' transform="rotate(-90 16 {middle:.1f})"')


def panel(rows):
    """One chart."""
    sizes = sorted({row.size for row in rows})
    values = [row.value for row in rows]
    numbers = round_numbers(min(values), max(values))
    across = Axis(sizes[0], max(sizes[-1], sizes[0] + 1), LEFT + 8, WIDTH - RIGHT - 8)
    up = Axis(numbers[0], numbers[-1], HEIGHT - BOTTOM, TOP)
    yield text(LEFT, 24, rows[0].chart, "start", ' font-weight="bold"')
    yield from grid(across, up, sizes, rows[0].size_name, rows[0].unit)
    ends = {}
    for system in dict.fromkeys(row.system for row in rows):
        style = STYLES.get(system, OTHER)
        points = [(across.at(row.size), up.at(row.value)) for row in rows if row.system == system]
        yield stroke(points, style)
        yield from (mark(x, y, style) for x, y in points)
        ends[system] = points[-1][1]
    for y, system in apart(ends):
        colour = STYLES.get(system, OTHER).colour
        yield text(WIDTH - RIGHT + 10, y + 4, system, "start", f' fill="{colour}"')


def draw(rows):
    """The drawing of all rows."""
    charts = [list(group) for _, group in itertools.groupby(rows, lambda row: row.chart)]
    lines = -(-len(charts) // COLUMNS)
    wide, high = COLUMNS * WIDTH, max(lines, 1) * HEIGHT
    pieces = [f'<svg xmlns="http://www.w3.org/2000/svg" viewBox="0 0 {wide} {high}" width="{wide}" height="{high}"'
              ' font-family="sans-serif" font-size="13" fill="#111111">',
              f'<rect width="{wide}" height="{high}" fill="white"/>']
    for place, chart in enumerate(charts):
        x, y = place % COLUMNS * WIDTH, place // COLUMNS * HEIGHT
        pieces += [f'<g transform="translate({x} {y})">', *panel(chart), "</g>"]
    return "\n".join([*pieces, "</svg>", ""])


def main():
    if len(sys.argv) != 3:
        sys.exit(__doc__)
    with open(sys.argv[1]) as file:
        rows = list(rows_in(file))
    with open(sys.argv[2], "w") as file:
        file.write(draw(rows))


if __name__ == "__main__":
    main()
