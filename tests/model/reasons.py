"""What each process waits for on a bus: a line for each offer, with the first condition of its atom that fails.

The conditions are those of docs/RULES.md, in the order in which crates/tb_why/README.md names them. They are worked out here once more,
without the effects of model.py.
"""
from __future__ import annotations

import re
from collections.abc import Callable
from typing import NamedTuple

from model import Act, Bus, Call, LEAVING, LIVE, Lane, MOST_ALIVE, MOST_NOTES, Offer, Process, WAITING, fits_params, oldest
from scripts import Source
from terms import Expr, Name, Pattern, Result, Variable, all_taken, has_type, is_within_limits, printed, text_of

NO_VALUE = "an argument has no value, or they are together too large"
NO_PATTERN = "an expression in its pattern has no value"
NO_NOTE = "no note in its queue matches; a note that came before its subscribe isn't there"
BARRED = (": each way is barred: by an if without else that is false, by a test that is neither true nor false, or by a call with an argument "
          "that has no value of its type")
AT_STAGE = {WAITING: "waits for rec-connect", LIVE: "isn't leaving", LEAVING: "is leaving"}


class Line(NamedTuple):
    """A line of `why`: how it begins, and its sentence. The atom between the two isn't compared, nor is a nearest message after `; `."""
    start: str
    sentence: str = ""

    def is_like(self, line: str) -> bool:
        if not self.sentence:
            return line == self.start
        return line.startswith(self.start) and re.search(rf": {re.escape(self.sentence)}(?:; .*)?$", line) is not None

    def text(self) -> str:
        return f"{self.start} .. : {self.sentence}" if self.sentence else self.start


class Why:
    """What each process of a bus waits for. `is_last`: the bus shuts down by its next step."""

    def __init__(self, bus: Bus, source: Source, is_last: bool):
        self.bus, self.source, self.is_last = bus, source, is_last

    def lines(self) -> list[Line]:
        if not self.bus.processes:
            return [Line("no process is left")]
        return [line for process in self.bus.processes.values() for line in self.lines_of(process)]

    def lines_of(self, process: Process) -> list[Line]:
        found = [Line(f"{self.place(process, it)}: ", self.sentence(process, it)) for it in process.offers()]
        return found or [Line(f"process {process.number} ({process.body.name}){BARRED}")]

    def place(self, process: Process, offer: Offer) -> str:
        return f"process {process.number} ({process.body.name}) at {self.source.place(process.body, offer.atom.number)}"

    def sentence(self, process: Process, offer: Offer) -> str:
        """The reason of an offer, or that it has none."""
        act = process.act(offer)
        if not self.bus.is_ready(process, offer):
            return self.times(act, offer.atom.age)
        reason = REASONS[act.word](self, process, *act.args) if act.word in REASONS else None
        return reason or ("it could happen when the bus shut down" if self.is_last else "it can happen next")

    # Times.

    def times(self, act: Act, age: int) -> str:
        """How long an atom still waits, by those of its times whose values need no variables."""
        counts = {word: self.bus.ticks if word.startswith("abs-") else age for word, _ in act.times}
        known = [(word, limit - counts[word]) for word, limit in act.times if isinstance(limit, int)]
        opens = max([-age, *(it for word, it in known if word.endswith("delay"))])
        closes = min([2**63, *(it for word, it in known if word.endswith("timeout"))])
        if closes < -age:
            return f"its time ended {counted(-closes, 'tick')} ago, before it was offered"
        if opens > closes:
            return "its times never hold: no tick is after its delay and within its time-out"
        if closes < 0:
            return f"its time ended {counted(-closes, 'tick')} ago"
        if opens <= 0:
            return "its times don't hold"
        least = "" if len(known) == len(act.times) else "at least "
        return f"{least}{counted(opens, 'more tick')}" + (", and no more ticks come" if self.bus.has_no_ticks else "")

    # Messages.

    def send(self, process: Process, *exprs: Expr) -> str | None:
        terms = process.values(exprs)
        if terms is None:
            return NO_VALUE
        return self.partner(process, "rec-msg", lambda other, act: matches(other.patterns(act.args), terms),
                            "receives it", "no other process receives it")

    def receive(self, process: Process, *exprs: Expr) -> str | None:
        patterns = process.patterns(exprs)
        if patterns is None:
            return NO_PATTERN
        return self.partner(process, "snd-msg", lambda other, act: matches(patterns, other.values(act.args)),
                            "sends what matches", "no other process sends what matches")

    def partner(self, process: Process, word: str, fits: Callable[[Process, Act], bool], does: str, nobody: str) -> str | None:
        """Whether an offer of another process fits. If one does, but isn't ready, the first such offer."""
        later = None
        for other in self.bus.processes.values():
            for offer in other.offers() if other is not process else ():
                act = other.act(offer)
                if act.word == word and fits(other, act):
                    if self.bus.is_ready(other, offer):
                        return None
                    later = later or f"{self.place(other, offer)} {does}, but its times don't hold (see its own line)"
        return later or nobody

    # Notes.

    def snd_note(self, process: Process, *exprs: Expr) -> str | None:
        note = process.values(exprs)
        if note is None:
            return NO_VALUE
        full = [it for it in self.bus.processes.values() if len(it.notes) >= MOST_NOTES and it.wants(note)]
        return f"the queue of process {full[0].number} ({full[0].body.name}) is full" if full else None

    def rec_note(self, process: Process, *exprs: Expr) -> str | None:
        patterns = process.patterns(exprs)
        if patterns is None:
            return NO_PATTERN
        return NO_NOTE if oldest(process.notes, patterns) is None else None

    def no_note(self, process: Process, *exprs: Expr) -> str | None:
        patterns = process.patterns(exprs)
        if patterns is None:
            return NO_PATTERN
        at = oldest(process.notes, patterns)
        return None if at is None else f"note {at + 1} of its queue matches"

    def subscribe(self, process: Process, *exprs: Expr) -> str | None:
        return NO_PATTERN if process.patterns(exprs) is None else None

    # Values and processes.

    def delta(self, process: Process) -> str:
        return "it never happens"

    def assign(self, process: Process, variable: Variable, expr: Expr) -> str | None:
        terms = process.values((expr,))
        if terms is None:
            return NO_VALUE
        return None if has_type(terms[0], process.body.sorts[variable.name]) else "the value hasn't the type of the variable"

    def printf(self, process: Process, *exprs: Expr) -> str | None:
        terms = process.values(exprs)
        if terms is None:
            return NO_VALUE
        fault = printed(terms)[1]
        return f"printf has no text: {fault}" if fault else None

    def create(self, process: Process, call: Call, result: Result) -> str | None:
        actuals = process.values(call.args)
        if actuals is None:
            return NO_VALUE
        if len(self.bus.processes) >= MOST_ALIVE:
            return "10,000 processes are alive"
        if not fits_params(self.bus.script.bodies[call.process], actuals):
            return "the values haven't the types of the parameters"
        return None

    def shutdown(self, process: Process, expr: Expr) -> str | None:
        return NO_VALUE if process.values((expr,)) is None else None

    # Tools.

    def execute(self, process: Process, tool: Name, result: Result) -> str | None:
        if not any(it.is_free() for it in self.bus.lanes):
            return "no lane is free"
        return None if is_within_limits(Name(tool.word, (self.bus.next_tool,))) else "the term of the tool is too large"

    def rec_connect(self, process: Process, result: Result) -> str | None:
        return None if self.bus.first_at(process.body.sorts[result.name], WAITING) else "no tool of this name waits for rec-connect"

    def rec_disconnect(self, process: Process, tool: Expr) -> str | None:
        if isinstance(tool, Result):
            return None if self.bus.first_at(process.body.sorts[tool.name], LEAVING) else "no tool of this name is leaving"
        return self.on_lane(process, (tool,), (LEAVING,), lambda lane, terms: None)

    def ask(self, process: Process, tool: Expr, expr: Expr) -> str | None:
        """`snd-eval` or `snd-do`: no evaluation is open."""
        def reason(lane: Lane, terms: tuple) -> str | None:
            if not lane.tool.is_open:
                return None
            if lane.tool.answer is None:
                return f"an evaluation is open on lane {lane.number}; rec-value closes it"
            return f"an evaluation is open until rec-value takes the answer that has come on lane {lane.number}"
        return self.on_lane(process, (tool, expr), (LIVE,), reason)

    def acknowledge(self, process: Process, tool: Expr, *exprs: Expr) -> str | None:
        def reason(lane: Lane, terms: tuple) -> str | None:
            return None if terms[1:] in lane.tool.received else f"no event with these terms is received and not yet acknowledged on lane {lane.number}"
        return self.on_lane(process, (tool, *exprs), (LIVE,), reason)

    def terminate(self, process: Process, tool: Expr, expr: Expr) -> str | None:
        return self.on_lane(process, (tool, expr), (LIVE,), lambda lane, terms: None)

    def rec_value(self, process: Process, tool: Expr, expr: Expr) -> str | None:
        patterns = process.patterns((expr,))

        def reason(lane: Lane, terms: tuple) -> str | None:
            if lane.tool.answer is not None:
                is_well = matches(patterns, (lane.tool.answer,))
                return None if is_well else f"an answer that doesn't match has come on lane {lane.number}: {text_of(lane.tool.answer)}"
            if lane.tool.stage == LEAVING:
                return nothing_left(lane)
            missing = "no answer, a line snd-value(..), has come" if lane.tool.is_open else "no evaluation is open"
            return f"{missing} on lane {lane.number}"
        return self.taken_from(process, tool, patterns, reason)

    def rec_event(self, process: Process, tool: Expr, *exprs: Expr) -> str | None:
        patterns = process.patterns(exprs)

        def reason(lane: Lane, terms: tuple) -> str | None:
            if oldest(lane.tool.events, patterns) is not None:
                return None
            waits = f"no event that matches, a line snd-event(..), waits on lane {lane.number}"
            return nothing_left(lane) if lane.tool.stage == LEAVING else waits
        return self.taken_from(process, tool, patterns, reason)

    def taken_from(self, process: Process, tool: Expr, patterns: tuple[Pattern, ...] | None,
                   reason: Callable[[Lane, tuple], str | None]) -> str | None:
        """T has a value, the patterns exist, and T is live or leaving; then the reason on its lane."""
        if process.values((tool,)) is not None and patterns is None:
            return NO_PATTERN
        return self.on_lane(process, (tool,), (LIVE, LEAVING), reason)

    def on_lane(self, process: Process, exprs: tuple, stages: tuple[str, ...], reason: Callable[[Lane, tuple], str | None]) -> str | None:
        """The values exist, a lane has the tool T, and T is at one of these stages; then the reason on its lane."""
        terms = process.values(exprs)
        if terms is None:
            return NO_VALUE
        lane = self.bus.lane_of(terms[0])
        if lane is None:
            return "no lane has this tool"
        if lane.tool.stage not in stages:
            return f"the tool of lane {lane.number} {AT_STAGE[lane.tool.stage]}"
        return reason(lane, terms)


def counted(number: int, word: str) -> str:
    return f"{number} {word}{'' if number == 1 else 's'}"


def matches(patterns: tuple | None, terms: tuple | None) -> bool:
    return patterns is not None and terms is not None and all_taken(patterns, terms) is not None


def nothing_left(lane: Lane) -> str:
    return f"the tool of lane {lane.number} is leaving, and nothing that matches is left of it"


REASONS: dict[str, Callable[..., str | None]] = {
    "delta": Why.delta, ":=": Why.assign, "printf": Why.printf, "snd-msg": Why.send, "rec-msg": Why.receive, "snd-note": Why.snd_note,
    "rec-note": Why.rec_note, "no-note": Why.no_note, "subscribe": Why.subscribe, "unsubscribe": Why.subscribe, "create": Why.create,
    "execute": Why.execute, "rec-connect": Why.rec_connect, "rec-disconnect": Why.rec_disconnect, "snd-eval": Why.ask, "snd-do": Why.ask,
    "snd-ack-event": Why.acknowledge, "snd-terminate": Why.terminate, "rec-value": Why.rec_value, "rec-event": Why.rec_event,
    "shutdown": Why.shutdown,
}
