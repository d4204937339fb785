"""The rows that a chart for a terminal must have for a log, by the tables in the README.md of crates/tb_chart and crates/tb_chart_draw."""
from __future__ import annotations

import re
from typing import NamedTuple

from model import Bus

LEAST_WIDTH, MOST_WIDTH = 8, 18
PLACE = re.compile(r"(?:process |lane )?\d+")
# The byte of an arrow, and whether it goes from the process to the other end.
ARROWS = {
    "create": ("=", True), "execute": ("=", True), "snd-eval": ("-", True), "snd-do": ("-", True), "snd-ack-event": ("~", True),
    "snd-terminate": ("=", True), "snd-note": (".", True), "rec-note": (".", False), "rec-connect": ("=", False),
    "rec-disconnect": ("=", False), "rec-value": ("~", False), "rec-event": ("-", False),
}
RULES = {"tick": "-", "noticks": "-", "shutdown": "=", "finish": "=", "halt": "="}


class Lifeline(NamedTuple):
    """The head of a lifeline: its name, or None for any name, and the process or the lane. Notes have no such place."""
    name: str | None
    place: str

    def is_one(self, name: str, place: str) -> bool:
        number = self.place.removeprefix("process ")
        return self.name in (None, name) and place in (self.place, number)


class Figure(NamedTuple):
    """What a row shows: an arrow between two lifelines, a mark on one, or a rule across all."""
    byte: str
    start: Lifeline | None = None
    end: Lifeline | None = None


class Figures:
    """The figure of each entry of a log. The bus is that at the end of the log."""

    def __init__(self, bus: Bus):
        self.bus = bus

    def figure(self, entry: str) -> Figure | None:
        """The figure of an entry, or None if the chart doesn't show it."""
        word, *rest = entry.split(" ")
        if word in RULES:
            return Figure(RULES[word])
        if word == "msg":
            return Figure("-", self.process(rest[0]), self.process(rest[1]))
        if word in ARROWS:
            return self.arrow(word, rest)
        if word in ("line", "gone", "cut"):
            return mark("*" if word == "line" else "X", rest[0])
        if word == "out":
            return mark("*", rest[0]) if rest[1] == "start" else None
        if word == "drop":
            return mark("x", rest[2]) if rest[1] == "line" else None
        return None if word == "quiet" else Figure("*", self.process(rest[0]), self.process(rest[0]))

    def arrow(self, word: str, rest: list[str]) -> Figure:
        byte, is_from_process = ARROWS[word]
        process, other = self.process(rest[0]), self.other(word, rest[1:])
        return Figure(byte, process, other) if is_from_process else Figure(byte, other, process)

    def process(self, place: str) -> Lifeline:
        number = int(place.partition(".")[0])
        return Lifeline(self.bus.names[number], f"process {number}")

    def other(self, word: str, terms: list[str]) -> Lifeline:
        """The other end of an arrow: the notes, the new process, or the tool with the number in the first term."""
        if word.endswith("note"):
            return Lifeline("notes", "")
        if word == "create":
            return self.process(terms[0])
        lane, name = self.bus.seats[int(re.match(r"\w+\((\d+)\)", terms[0])[1])]
        return Lifeline(name, f"lane {lane}")


def mark(byte: str, lane: str) -> Figure:
    """A mark on a lifeline of a lane, whatever the name of this lifeline."""
    return Figure(byte, Lifeline(None, f"lane {lane}"), Lifeline(None, f"lane {lane}"))


class Chart:
    """The text of a chart, as it is read. `last` is the number of the last entry that is shown, perhaps by the row of another tick."""

    def __init__(self, text: str, last: int):
        lines = text.splitlines()
        names, places = (lines + ["", ""])[:2]
        rows = [re.match(r" *(\d+) ", it) for it in lines[2:] if it != places]
        self.rows = {int(it[1]): it.string for it in rows if it}
        self.left = len(str(last)) + 1
        longest = max(map(len, names.split() + PLACE.findall(places)), default=0)
        self.width = min(MOST_WIDTH, max(LEAST_WIDTH, longest + 2))
        count = -(-(max(len(names), len(places)) - self.left) // self.width)
        self.heads = [(self.cell(names, it).strip(), self.cell(places, it).strip()) for it in range(count)]

    def start(self, column: int) -> int:
        return self.left + column * self.width

    def cell(self, line: str, column: int) -> str:
        return line[self.start(column):self.start(column + 1)]

    def columns(self, lifeline: Lifeline) -> list[int]:
        return [column for column, head in enumerate(self.heads) if lifeline.is_one(*head)]

    def wanted(self, figure: Figure) -> list[str]:
        """How the lifelines of a row with this figure look. There is more than one way if several lifelines are meant."""
        if figure.start is None:
            return [figure.byte * self.width * len(self.heads)]
        starts, ends = self.columns(figure.start), self.columns(figure.end)
        if figure.start == figure.end:
            return [self.drawn(figure.byte, it, it) for it in starts]
        return [self.drawn(figure.byte, start, end) for start in starts for end in ends]

    def drawn(self, byte: str, start: int, end: int) -> str:
        """The lifelines with an arrow from one column to another, or with a mark on one."""
        row = [" "] * (self.width * len(self.heads))
        middles = [column * self.width + self.width // 2 for column in range(len(self.heads))]
        for it in middles:
            row[it] = "|"
        first, last = sorted((middles[start], middles[end]))
        if first == last:
            row[first] = byte
        else:
            row[first + 1:last] = byte * (last - first - 1)
            row[last - 1 if start < end else first + 1] = ">" if start < end else "<"
        return "".join(row)

    def found(self, number: int) -> str | None:
        """The lifelines of the row with this number, or None if there is no such row."""
        row = self.rows.get(number)
        return None if row is None else row.ljust(self.start(len(self.heads)))[self.left:self.start(len(self.heads))]


def first_fault(text: str, bus: Bus, entries: list[str]) -> str | None:
    """The first row that isn't as the log requires, or None. Of ticks in a row, only the first has a row."""
    figures = Figures(bus)
    shown = {number: it for number, it in enumerate(map(figures.figure, entries), 1) if it}
    chart, is_after_tick = Chart(text, max(shown, default=1)), False
    if extra := set(chart.rows) - set(shown):
        return f"row {min(extra)}: the chart shows an entry that it shouldn't"
    for number, figure in shown.items():
        is_tick, found = entries[number - 1] in ("tick", "noticks"), chart.found(number)
        wanted = chart.wanted(figure)
        if found not in wanted and not (found is None and is_tick and is_after_tick):
            return f"row {number}, `{entries[number - 1]}`: wanted one of {wanted}, found {found!r}"
        is_after_tick = is_tick
    return None
