"""The rules of processes, the bus, its tools, and simulations, as docs/RULES.md has them: a plain list of steps, with no index.

Each rule is a function. The rules of terms are in terms.py. Calls of processes and `let` within a process aren't here: bench/walkers has
them.
"""
from __future__ import annotations

from collections.abc import Callable, Iterator
from dataclasses import dataclass, field
from typing import NamedTuple

from terms import (Expr, FALSE, Name, Result, Store, TRUE, Term, all_taken, first_value, has_type, is_within_limits, patterns_of, printed,
                   text_of, texts_of, value_of, values_of)

LANES, MOST_ALIVE, MOST_NOTES = 16, 10_000, 65_536
WAITING, LIVE, LEAVING = "waiting", "live", "leaving"
ENDED, AT_STEPS, AT_EVENTS = "", "toolbus: limit: steps\n", "toolbus: limit: events\n"
NUMBER_TIMES: dict[str, Callable[[int, int], bool]] = {
    "delay": lambda count, limit: count >= limit,
    "timeout": lambda count, limit: count <= limit,
}


# Scripts.

class Call(NamedTuple):
    """The process that a `create` starts, by its position among the definitions, and its arguments."""
    process: int
    args: tuple


class Act(NamedTuple):
    """An atom as the script has it: its word, its arguments, and its times. The first argument of `create` is a `Call`."""
    word: str
    args: tuple = ()
    times: tuple[tuple[str, Expr], ...] = ()


@dataclass(frozen=True)
class Atom:
    """An atom of a process term: its number, and its age."""
    number: int
    age: int = 0


@dataclass(frozen=True)
class Two:
    """An operator with both its sides."""
    op: str
    x: Atom | Two | If
    y: Atom | Two | If


@dataclass(frozen=True)
class If:
    """A test, its first side, and its `else` side, if there is one."""
    test: Expr
    x: Atom | Two | If
    y: Atom | Two | If | None


ProcessTerm = Atom | Two | If


class Body(NamedTuple):
    """A definition: its name, its parameters, the types of all its variables, its process term, and its atoms."""
    name: str
    params: tuple[str, ...]
    sorts: dict[str, str]
    term: ProcessTerm
    acts: list[Act]


class Script(NamedTuple):
    """The tools with their commands, the definitions, and the roots. No command is None."""
    tools: dict[str, str | None]
    bodies: list[Body]
    roots: list[Call]


# Offers and ages.

class Offer(NamedTuple):
    """An atom with its age, and the process term that is left (None if nothing is)."""
    atom: Atom
    left: ProcessTerm | None


def offers(term: ProcessTerm, store: Store) -> Iterator[Offer]:
    """The offers of a process term in a store, in the order of the source."""
    if isinstance(term, Atom):
        yield Offer(term, None)
    elif isinstance(term, If):
        side = {TRUE: term.x, FALSE: term.y}.get(value_of(term.test, store))
        if side is not None:
            yield from offers(side, store)
    else:
        for atom, left in offers(term.x, store):
            yield Offer(atom, after_first(term, left))
        if term.op != ".":
            for atom, left in offers(term.y, store):
                yield Offer(atom, after_second(term, left))


def after_first(term: Two, left: ProcessTerm | None) -> ProcessTerm | None:
    """What is left of the whole if this is left of its first side."""
    if term.op == "+":
        return left
    if term.op == ">>":
        return None if left is None else Two(">>", left, term.y)
    rest = term if term.op == "*" else term.y
    return rest if left is None else Two("||" if term.op == "||" else ".", left, rest)


def after_second(term: Two, left: ProcessTerm | None) -> ProcessTerm | None:
    """What is left of the whole if this is left of its second side. Only `||` keeps the first side."""
    if term.op != "||":
        return left
    return term.x if left is None else Two("||", term.x, left)


def aged(term: ProcessTerm) -> ProcessTerm:
    """The process term one tick later."""
    if isinstance(term, Atom):
        return Atom(term.number, term.age + 1)
    if isinstance(term, If):
        return If(term.test, aged(term.x), term.y and aged(term.y))
    if term.op == ".":
        return Two(".", aged(term.x), term.y)
    if term.op == "*":
        return Two("+", Two(".", aged(term.x), term), aged(term.y))
    return Two(term.op, aged(term.x), aged(term.y))


# The parts of a bus.

@dataclass
class Process:
    """A process on the bus."""
    number: int
    body: Body
    term: ProcessTerm
    store: Store
    subscriptions: list[tuple] = field(default_factory=list)
    notes: list[tuple] = field(default_factory=list)

    def offers(self) -> Iterator[Offer]:
        return offers(self.term, self.store)

    def act(self, offer: Offer) -> Act:
        return self.body.acts[offer.atom.number - 1]

    def values(self, exprs: tuple) -> tuple | None:
        return values_of(exprs, self.store)

    def patterns(self, exprs: tuple) -> tuple | None:
        return patterns_of(exprs, self.store, self.body.sorts)

    def place(self, offer: Offer) -> str:
        return f"{self.number}.{offer.atom.number}"

    def wants(self, note: tuple) -> bool:
        return any(all_taken(it, note) is not None for it in self.subscriptions)


@dataclass
class Tool:
    """A tool on a lane. `is_open`: an evaluation is open. `answer`: the value that has come, or None."""
    number: int
    name: str
    stage: str
    is_open: bool = False
    answer: Term | None = None
    events: list[tuple] = field(default_factory=list)
    received: list[tuple] = field(default_factory=list)

    def term(self) -> Name:
        return Name(self.name, (self.number,))


@dataclass
class Lane:
    """A lane. Its output queue has the texts of its items."""
    number: int
    is_up: bool = False
    has_ended: bool = False
    tool: Tool | None = None
    queue: list[str] = field(default_factory=list)

    def is_free(self) -> bool:
        return not self.is_up and self.tool is None and not self.queue

    def start(self, command: str) -> None:
        self.is_up, self.has_ended = True, False
        self.queue.append(f"start {text_of(command)}")

    def send(self, word: str, terms: tuple) -> None:
        self.queue.append(text_of(Name(word, terms)))

    def end(self) -> None:
        self.queue.append("end")
        self.has_ended = True

    def clear(self) -> None:
        """Discards the pending output, unless the lane had ended and its queue was empty."""
        if not self.has_ended or self.queue:
            self.queue = []
            self.end()

    def depart(self) -> None:
        """The tool is leaving. If it was waiting, it is forgotten."""
        if self.tool and self.tool.stage == WAITING:
            self.tool = None
        elif self.tool:
            self.tool.stage = LEAVING


class Input(NamedTuple):
    """An input: `tick`, `noticks`, or one of a lane: `gone`, `cut`, or the kind of a line with its terms."""
    word: str
    lane: int = 0
    terms: tuple = ()

    def text(self) -> str:
        """Its text in a feed and in a log."""
        if self.word in ("tick", "noticks"):
            return self.word
        if self.word in ("gone", "cut"):
            return f"{self.word} {self.lane}"
        line = "?" if self.word == "bad" else text_of(Name(f"snd-{self.word}", self.terms))
        return f"line {self.lane} {line}"


def no_change() -> None:
    """What most steps do in addition: nothing."""


class Effect(NamedTuple):
    """What an atom does by itself: the terms in the log, what the variables take, and the change of the bus."""
    terms: tuple = ()
    binds: Store = {}
    change: Callable[[], object] = no_change


class Step(NamedTuple):
    """A step: its words, the process that takes it, who proceeds, the change of the bus, and whether it shuts the bus down."""
    words: str
    last: int
    moves: tuple[tuple[Process, ProcessTerm | None, Store], ...] = ()
    change: Callable[[], object] = no_change
    is_end: bool = False


class Bus:
    """The state of a bus. For charts, it also has the names of all processes that there were, and the lane and the name of each tool."""

    def __init__(self, script: Script, commands: list[str]):
        self.script = script
        self.processes: dict[int, Process] = {}
        self.next_process = self.next_tool = 1
        self.last = self.ticks = 0
        self.has_no_ticks = self.is_down = False
        self.lanes = [Lane(number) for number in range(1, LANES + 1)]
        self.names: dict[int, str] = {}
        self.seats: dict[int, tuple[int, str]] = {}
        for root in script.roots:
            self.open(root.process, root.args)
        for lane, command in zip(self.lanes, commands):
            lane.start(command)

    def open(self, position: int, actuals: tuple) -> None:
        """A new process, the last one, with the next number."""
        body = self.script.bodies[position]
        store = {name: first_value(sort) for name, sort in body.sorts.items()}
        store.update(zip(body.params, actuals))
        self.processes[self.next_process] = Process(self.next_process, body, body.term, store)
        self.names[self.next_process] = body.name
        self.next_process += 1

    def seat(self, lane: Lane, name: str, stage: str) -> None:
        """A new tool on a lane, with the next number."""
        lane.tool = Tool(self.next_tool, name, stage)
        self.seats[self.next_tool] = (lane.number, name)
        self.next_tool += 1

    def shut_down(self, reason: Term) -> None:
        self.is_down = True
        for lane in self.lanes:
            if lane.is_up and not lane.has_ended:
                lane.send("rec-terminate", (reason,))
                lane.end()

    # What the conditions of atoms ask.

    def lane_of(self, term: Term) -> Lane | None:
        """The lane of the tool with this term."""
        return next((it for it in self.lanes if it.tool and it.tool.term() == term), None)

    def first_at(self, name: str, stage: str) -> Lane | None:
        """The lane of the tool with the smallest number that has this name and is at this stage."""
        found = [it for it in self.lanes if it.tool and (it.tool.name, it.tool.stage) == (name, stage)]
        return min(found, key=lambda it: it.tool.number, default=None)

    def free_lane(self) -> Lane | None:
        return next((it for it in self.lanes if it.is_free()), None)

    def is_ready(self, process: Process, offer: Offer) -> bool:
        """Each time of the atom holds."""
        return all(self.holds(word, offer.atom.age, value_of(it, process.store)) for word, it in process.act(offer).times)

    def holds(self, word: str, age: int, limit: Term | None) -> bool:
        count = self.ticks if word.startswith("abs-") else age
        return isinstance(limit, int) and NUMBER_TIMES[word.removeprefix("abs-")](count, limit)

    # The steps.

    def first_step(self) -> Step | None:
        """The first of the steps, or None if there is none."""
        if self.is_down:
            return None
        if not self.processes:
            return Step("finish", self.last, (), lambda: self.shut_down(Name("finish")), True)
        step = next(self.steps_of_processes(), None)
        if step is None and self.has_no_ticks:
            return Step("halt", self.last, (), lambda: self.shut_down(Name("halt")), True)
        return step

    def steps_of_processes(self) -> Iterator[Step]:
        """The steps of the processes, beginning after the one that took the last step."""
        for number in sorted(self.processes, key=lambda it: (it <= self.last, it)):
            process = self.processes[number]
            for offer in process.offers():
                if self.is_ready(process, offer):
                    yield from self.steps_of(process, offer)

    def steps_of(self, process: Process, offer: Offer) -> Iterator[Step]:
        """The steps that an offered atom that is ready begins."""
        act = process.act(offer)
        if act.word == "snd-msg":
            yield from self.handshakes(process, offer)
            return
        effect = EFFECTS[act.word](self, process, *act.args) if act.word in EFFECTS else None
        if effect is not None:
            word = LOGGED.get(act.word, act.word)
            words = f"{word} {process.place(offer)}" + (f" {texts_of(effect.terms)}" if effect.terms else "")
            yield Step(words, process.number, ((process, offer.left, effect.binds),), effect.change, act.word == "shutdown")

    def handshakes(self, sender: Process, sent: Offer) -> Iterator[Step]:
        """The steps of a `snd-msg` with each ready and matching `rec-msg` that another process offers."""
        terms = sender.values(sender.act(sent).args)
        if terms is None:
            return
        for receiver in self.processes.values():
            for offer in receiver.offers() if receiver is not sender else ():
                if receiver.act(offer).word != "rec-msg" or not self.is_ready(receiver, offer):
                    continue
                patterns = receiver.patterns(receiver.act(offer).args)
                binds = None if patterns is None else all_taken(patterns, terms)
                if binds is not None:
                    words = f"msg {sender.place(sent)} {receiver.place(offer)} {texts_of(terms)}"
                    yield Step(words, sender.number, ((sender, sent.left, {}), (receiver, offer.left, binds)))

    def take(self, step: Step) -> None:
        """Makes a step: first its change, and then the processes proceed."""
        step.change()
        for process, left, binds in step.moves:
            process.store.update(binds)
            if left is None:
                del self.processes[process.number]
            else:
                process.term = left
        self.last = step.last

    # The inputs.

    def deliver(self, given: Input) -> str:
        """Accepts or drops an input. Returns the words of its entry."""
        reason = self.drop_reason(given)
        if reason:
            return f"drop {reason} {given.text()}"
        self.accept(given)
        return given.text()

    def drop_reason(self, given: Input) -> str | None:
        """The first reason that applies to an input, or None."""
        if self.is_down:
            return "down"
        if not given.lane:
            return None
        lane, is_line = self.lanes[given.lane - 1], given.word not in ("gone", "cut")
        if not lane.is_up or is_line and lane.has_ended:
            return "not-live"
        if given.word == "bad":
            return "bad"
        if given.word == "connect":
            return "named" if lane.tool else None if given.terms[0].word in self.script.tools else "stranger"
        if is_line and lane.tool is None:
            return "not-live"
        if given.word == "value" and (not lane.tool.is_open or lane.tool.answer is not None):
            return "unasked"
        return None

    def accept(self, given: Input) -> None:
        """The change by an input that isn't dropped."""
        if given.word == "tick":
            self.ticks += 1
            for process in self.processes.values():
                process.term = aged(process.term)
        elif given.word == "noticks":
            self.has_no_ticks = True
        else:
            self.accept_on(self.lanes[given.lane - 1], given)

    def accept_on(self, lane: Lane, given: Input) -> None:
        if given.word == "value":
            lane.tool.answer = given.terms[0]
        elif given.word == "event":
            lane.tool.events.append(given.terms)
        elif given.word == "connect":
            self.seat(lane, given.terms[0].word, WAITING)
        else:
            lane.clear()
            lane.depart()
            lane.is_up = lane.is_up and given.word != "gone"


# What each atom does that happens by itself. None: it can't happen.

def tau(bus: Bus, process: Process) -> Effect:
    return Effect()


def assign(bus: Bus, process: Process, variable: Expr, expr: Expr) -> Effect | None:
    """`V := e`: the value has V's type."""
    terms = process.values((expr,))
    if terms is None or not has_type(terms[0], process.body.sorts[variable.name]):
        return None
    return Effect(terms, {variable.name: terms[0]})


def printf(bus: Bus, process: Process, *exprs: Expr) -> Effect | None:
    """`printf(S, e, ..)`: the values have a text by the format."""
    terms = process.values(exprs)
    text = printed(terms)[0] if terms else None
    return None if text is None else Effect((text,))


def snd_note(bus: Bus, process: Process, *exprs: Expr) -> Effect | None:
    """`snd-note(e, ..)`: each process that wants the note has capacity for it, and gets a copy."""
    note = process.values(exprs)
    if note is None:
        return None
    queues = [it.notes for it in bus.processes.values() if it.wants(note)]

    def change() -> None:
        for queue in queues:
            queue.append(note)
    return Effect(note, {}, change) if all(len(it) < MOST_NOTES for it in queues) else None


def oldest(items: list[tuple], patterns: tuple) -> int | None:
    """The position of the oldest list of terms that matches."""
    return next((position for position, it in enumerate(items) if all_taken(patterns, it) is not None), None)


def rec_note(bus: Bus, process: Process, *exprs: Expr) -> Effect | None:
    """`rec-note(p, ..)`: takes the oldest note in the process's own queue that matches."""
    patterns = process.patterns(exprs)
    at = None if patterns is None else oldest(process.notes, patterns)
    if at is None:
        return None
    return Effect(process.notes[at], all_taken(patterns, process.notes[at]), lambda: process.notes.pop(at))


def no_note(bus: Bus, process: Process, *exprs: Expr) -> Effect | None:
    """`no-note(p, ..)`: no note in the process's own queue matches."""
    patterns = process.patterns(exprs)
    return Effect() if patterns is not None and oldest(process.notes, patterns) is None else None


def subscribe(bus: Bus, process: Process, *exprs: Expr) -> Effect | None:
    """`subscribe(p, ..)`: appends the patterns, if no equal list is there."""
    patterns = process.patterns(exprs)

    def change() -> None:
        if patterns not in process.subscriptions:
            process.subscriptions.append(patterns)
    return None if patterns is None else Effect(change=change)


def unsubscribe(bus: Bus, process: Process, *exprs: Expr) -> Effect | None:
    """`unsubscribe(p, ..)`: removes an equal list, if one is there. The notes stay."""
    patterns = process.patterns(exprs)

    def change() -> None:
        if patterns in process.subscriptions:
            process.subscriptions.remove(patterns)
    return None if patterns is None else Effect(change=change)


def fits_params(body: Body, actuals: tuple) -> bool:
    return all(has_type(it, body.sorts[name]) for name, it in zip(body.params, actuals))


def create(bus: Bus, process: Process, call: Call, result: Expr) -> Effect | None:
    """`create(N(e, ..), V?)`: fewer than 10,000 processes are alive, and the values have the types of N's parameters."""
    actuals = process.values(call.args)
    if actuals is None or len(bus.processes) >= MOST_ALIVE or not fits_params(bus.script.bodies[call.process], actuals):
        return None
    number = bus.next_process
    return Effect((number,), {result.name: number}, lambda: bus.open(call.process, actuals))


def execute(bus: Bus, process: Process, tool: Expr, result: Expr) -> Effect | None:
    """`execute(n, V?)`: starts the command on the lowest free lane. The term of the new tool is within the limits."""
    lane, term = bus.free_lane(), Name(tool.word, (bus.next_tool,))
    if lane is None or not is_within_limits(term):
        return None

    def change() -> None:
        lane.start(bus.script.tools[tool.word])
        bus.seat(lane, tool.word, LIVE)
    return Effect((term,), {result.name: term}, change)


def rec_connect(bus: Bus, process: Process, result: Expr) -> Effect | None:
    """`rec-connect(V?)`: makes the waiting tool of V's name with the smallest number live."""
    lane = bus.first_at(process.body.sorts[result.name], WAITING)
    if lane is None:
        return None

    def change() -> None:
        lane.tool.stage = LIVE
    return Effect((lane.tool.term(),), {result.name: lane.tool.term()}, change)


def rec_disconnect(bus: Bus, process: Process, tool: Expr) -> Effect | None:
    """`rec-disconnect(T)`: releases T, which is leaving. With `V?`, it is the one of V's name with the smallest number."""
    if isinstance(tool, Result):
        lane = bus.first_at(process.body.sorts[tool.name], LEAVING)
        return released(lane, {tool.name: lane.tool.term()}) if lane else None
    lane, _ = spoken_to(bus, process, (tool,), (LEAVING,))
    return released(lane, {}) if lane else None


def released(lane: Lane, binds: Store) -> Effect:
    """The tool leaves its lane, with its events."""
    def change() -> None:
        lane.tool = None
    return Effect((lane.tool.term(),), binds, change)


def spoken_to(bus: Bus, process: Process, exprs: tuple, stages: tuple[str, ...]) -> tuple[Lane | None, tuple]:
    """The lane of the tool T, which is the first of these values, with all values. There is no lane if T is at none of these stages."""
    terms = process.values(exprs)
    lane = bus.lane_of(terms[0]) if terms else None
    return (lane, terms) if lane and lane.tool.stage in stages else (None, ())


def snd_eval(bus: Bus, process: Process, tool: Expr, expr: Expr) -> Effect | None:
    """`snd-eval(T, e)`: T is live, and no evaluation is open for it. Opens one, and queues the request."""
    lane, terms = spoken_to(bus, process, (tool, expr), (LIVE,))
    if lane is None or lane.tool.is_open:
        return None

    def change() -> None:
        lane.tool.is_open = True
        lane.send("rec-eval", terms[1:])
    return Effect(terms, {}, change)


def snd_do(bus: Bus, process: Process, tool: Expr, expr: Expr) -> Effect | None:
    """`snd-do(T, e)`: T is live, and no evaluation is open for it. Queues the order."""
    lane, terms = spoken_to(bus, process, (tool, expr), (LIVE,))
    return None if lane is None or lane.tool.is_open else Effect(terms, {}, lambda: lane.send("rec-do", terms[1:]))


def rec_value(bus: Bus, process: Process, tool: Expr, expr: Expr) -> Effect | None:
    """`rec-value(T, p)`: T is live or leaving; its value has come and matches. Closes the evaluation."""
    lane, terms = spoken_to(bus, process, (tool,), (LIVE, LEAVING))
    patterns = process.patterns((expr,))
    if lane is None or patterns is None or lane.tool.answer is None:
        return None
    values = (lane.tool.answer,)
    binds = all_taken(patterns, values)

    def change() -> None:
        lane.tool.is_open, lane.tool.answer = False, None
    return None if binds is None else Effect(terms + values, binds, change)


def rec_event(bus: Bus, process: Process, tool: Expr, *exprs: Expr) -> Effect | None:
    """`rec-event(T, p, ..)`: T is live or leaving. Takes its oldest event that matches, which is then the last of the received events."""
    lane, terms = spoken_to(bus, process, (tool,), (LIVE, LEAVING))
    patterns = process.patterns(exprs)
    at = None if lane is None or patterns is None else oldest(lane.tool.events, patterns)
    if at is None:
        return None
    event = lane.tool.events[at]
    return Effect(terms + event, all_taken(patterns, event), lambda: lane.tool.received.append(lane.tool.events.pop(at)))


def snd_ack_event(bus: Bus, process: Process, tool: Expr, *exprs: Expr) -> Effect | None:
    """`snd-ack-event(T, e, ..)`: T is live, and one of its received events has exactly these terms. Forgets the oldest such event."""
    lane, terms = spoken_to(bus, process, (tool, *exprs), (LIVE,))
    if lane is None or terms[1:] not in lane.tool.received:
        return None

    def change() -> None:
        lane.tool.received.remove(terms[1:])
        lane.send("rec-ack-event", terms[1:])
    return Effect(terms, {}, change)


def snd_terminate(bus: Bus, process: Process, tool: Expr, expr: Expr) -> Effect | None:
    """`snd-terminate(T, e)`: T is live. Queues the request to end and the end of the input. The tool leaves the lane."""
    lane, terms = spoken_to(bus, process, (tool, expr), (LIVE,))

    def change() -> None:
        lane.send("rec-terminate", terms[1:])
        lane.end()
        lane.tool = None
    return None if lane is None else Effect(terms, {}, change)


def shutdown(bus: Bus, process: Process, expr: Expr) -> Effect | None:
    """`shutdown(e)`: shuts the bus down for this reason."""
    terms = process.values((expr,))
    return None if terms is None else Effect(terms, {}, lambda: bus.shut_down(terms[0]))


EFFECTS: dict[str, Callable[..., Effect | None]] = {
    "tau": tau, ":=": assign, "printf": printf, "snd-note": snd_note, "rec-note": rec_note, "no-note": no_note, "subscribe": subscribe,
    "unsubscribe": unsubscribe, "create": create, "execute": execute, "rec-connect": rec_connect, "rec-disconnect": rec_disconnect,
    "snd-eval": snd_eval, "snd-do": snd_do, "rec-value": rec_value, "rec-event": rec_event, "snd-ack-event": snd_ack_event,
    "snd-terminate": snd_terminate, "shutdown": shutdown,
}
LOGGED = {":=": "set"}


# The simulation.

class Limits(NamedTuple):
    """The limit of steps, and that of entries."""
    steps: int
    events: int


class Simulation:
    """A simulation. `entries` are the words of its log, and `status` is the line of its status.

    `source` gives the next input of the feed, or None at its end; `feed` are the inputs that it gave. `before_end` is called before a step
    that shuts the bus down.
    """

    def __init__(self, bus: Bus, source: Callable[[Bus], Input | None], limits: Limits, before_end: Callable[[Bus], object]):
        self.bus, self.source, self.limits, self.before_end = bus, source, limits, before_end
        self.entries: list[str] = []
        self.feed: list[Input] = []
        self.steps = 0
        self.status: str | None = None
        while self.status is None:
            self.turn()

    def turn(self) -> None:
        """The first turn that applies: an output, the end, a step, or `quiet` and then an input."""
        sending = next((it for it in self.bus.lanes if it.queue), None)
        if sending:
            self.log(lambda: f"out {sending.number} {sending.queue.pop(0)}")
            return
        if self.bus.is_down:
            self.status = ENDED
            return
        step = self.bus.first_step()
        if step is None:
            self.log(lambda: "quiet")
            self.log(self.delivered)
        elif self.steps == self.limits.steps:
            self.status = AT_STEPS
        else:
            self.log(lambda: self.taken(step))

    def log(self, event: Callable[[], str]) -> None:
        """Makes the event with an entry, if the log has capacity for it."""
        if len(self.entries) < self.limits.events:
            self.entries.append(event())
        else:
            self.status = AT_EVENTS

    def taken(self, step: Step) -> str:
        if step.is_end:
            self.before_end(self.bus)
        self.bus.take(step)
        self.steps += 1
        return step.words

    def delivered(self) -> str:
        """Delivers the next input of the feed, or the end of ticks."""
        given = self.source(self.bus)
        if given is not None:
            self.feed.append(given)
        return self.bus.deliver(given or Input("noticks"))
