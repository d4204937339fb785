#!/usr/bin/env python3
"""Draws docs/floors.svg, the floors of the crates, and docs/threads.svg, the threads of a run.

tests/order calls it: `tests/order --write` writes both drawings. The floors come from crates.txt; the threads are the tables below.
"""
from typing import NamedTuple
from xml.sax.saxutils import escape

FONT = "font-family='system-ui, sans-serif' font-size='13'"
HEAD = "<svg xmlns='http://www.w3.org/2000/svg' viewBox='0 0 {width} {height}' width='{width}' height='{height}' role='img' {font}>"
ARROW = (
    "<defs><marker id='head' viewBox='0 0 8 8' refX='8' refY='4' markerWidth='8' markerHeight='8' orient='auto'>"
    "<path d='M0 0 L8 4 L0 8 z'/></marker></defs>"
)
FLOOR_WIDTH, NAMES, LINE = 790, 240, 19
LETTER = 7.0


class Box(NamedTuple):
    """A box at a place: its lines of text, and how it is filled."""
    x: int
    y: int
    width: int
    height: int
    fill: str
    lines: list


class Arrow(NamedTuple):
    """An arrow over some points, with its text at a place."""
    points: str
    text: str
    x: int
    y: int
    dashed: bool = False


PROGRAM, THREAD, BUS = "#eeeeee", "#dcebf7", "#fdf0d0"
BOXES = [
    Box(10, 110, 120, 170, PROGRAM, ["tools", "at most sixteen"]),
    Box(250, 110, 130, 50, THREAD, ["16 readers", "a thread for each"]),
    Box(250, 230, 130, 50, THREAD, ["16 writers", "a thread for each"]),
    Box(480, 110, 150, 170, BUS, ["the shared bus", "one core, one log", "one thread at a time"]),
    Box(480, 10, 150, 50, THREAD, ["ticker", "a thread"]),
    Box(250, 10, 130, 50, PROGRAM, ["clock"]),
    Box(480, 340, 150, 50, THREAD, ["stepper", "a thread"]),
    Box(720, 110, 130, 50, THREAD, ["log's writer", "the caller's thread"]),
    Box(720, 230, 130, 50, PROGRAM, ["standard output"]),
]
ARROWS = [
    Arrow("130,135 250,135", "lines, end", 190, 128),
    Arrow("250,255 130,255", "starts, lines, ends", 190, 248),
    Arrow("380,135 480,135", "inputs", 430, 128),
    Arrow("480,255 380,255", "output", 410, 248),
    Arrow("380,35 480,35", "time", 430, 28),
    Arrow("555,60 555,110", "ticks", 580, 90),
    Arrow("555,340 555,280", "steps", 580, 315),
    Arrow("630,135 720,135", "entries", 675, 128),
    Arrow("785,160 785,230", "lines", 808, 200),
    Arrow("300,160 300,230", "write short lines", 240, 190, True),
    Arrow("350,160 350,200 440,200 440,365 480,365", "make steps", 400, 215, True),
]


def text(x, y, words, anchor="middle", more=""):
    return f"<text x='{x}' y='{y}' text-anchor='{anchor}'{more}>{escape(words)}</text>"


def picture(width, height, title, parts):
    head = HEAD.format(width=width, height=height, font=FONT)
    ground = f"<rect width='{width}' height='{height}' fill='white'/>"
    return "\n".join([head, f"<title>{escape(title)}</title>", ARROW, ground, *parts, "</svg>"]) + "\n"


def rows_of(names, width):
    """Breaks names into rows of at most this width."""
    rows = [[]]
    for name in names:
        if rows[-1] and len("  ".join([*rows[-1], name])) * LETTER > width:
            rows.append([])
        rows[-1].append(name)
    return ["  ".join(row) for row in rows]


def floors(crates):
    """Draws the floors, the lowest at the bottom."""
    parts, y = [], 10
    for name, names in reversed(crates):
        rows = rows_of(names, FLOOR_WIDTH - NAMES - 30)
        height = LINE * len(rows) + 13
        parts.append(f"<rect x='10' y='{y}' width='{FLOOR_WIDTH - 20}' height='{height}' rx='4' fill='#f4f4f4' stroke='#555555'/>")
        parts.append(text(22, y + LINE, name, "start", " font-weight='bold'"))
        mono = " font-family='ui-monospace, monospace' font-size='12' xml:space='preserve'"
        parts += [text(NAMES, y + LINE * (at + 1), row, "start", mono) for at, row in enumerate(rows)]
        y += height + 6
    parts.append(text(12, y + 12, "A crate uses only crates of its own floor and of the floors below.", "start"))
    return picture(FLOOR_WIDTH, y + 24, "The floors of the crates", parts)


def box(it):
    parts = [f"<rect x='{it.x}' y='{it.y}' width='{it.width}' height='{it.height}' rx='4' fill='{it.fill}' stroke='#333333'/>"]
    top = it.y + it.height / 2 + 4 - 9 * (len(it.lines) - 1)
    weights = [" font-weight='bold'", *[""] * (len(it.lines) - 1)]
    return parts + [text(it.x + it.width / 2, top + 18 * at, line, more=weights[at]) for at, line in enumerate(it.lines)]


def arrow(it):
    dashes = " stroke-dasharray='5 4'" if it.dashed else ""
    line = f"<polyline points='{it.points}' fill='none' stroke='black'{dashes} marker-end='url(#head)'/>"
    return [line, text(it.x, it.y, it.text, more=" font-size='12'")]


def threads():
    """Draws the threads of a run, with what they give each other."""
    parts = [part for it in ARROWS for part in arrow(it)] + [part for it in BOXES for part in box(it)]
    parts.append(text(12, 345, "Blue: the 35 threads of a run. Each has a handle of the bus.", "start"))
    parts.append(text(12, 365, "Dashed: what the thread of a reader does for others.", "start"))
    return picture(860, 400, "The threads of a run", parts)
