"""Random scripts with their texts, and random inputs. The seed alone determines them."""
from __future__ import annotations

import random
from collections.abc import Callable

from model import Act, Atom, Body, Bus, Call, If, Input, Lane, MOST_ALIVE, ProcessTerm, Script, Two
from terms import Expr, Hole, MOST_SIZE, Name, Result, Term, Variable, text_of

# Each process has these variables, and half of the processes have the parameter.
SORTS = {"T": "ed", "U": "fx", "V": "term", "W": "term", "K": "int"}
PARAM = "N"
TOOLS = ("T", "U")
TERMS = ("V", "W")

# How often each atom comes: in processes of any kind, and in those of processes that exchange lines with tools.
ANY = {
    "tau": 4, "snd-msg": 20, "rec-msg": 20, "snd-note": 6, "rec-note": 6, "no-note": 3, "subscribe": 5, "unsubscribe": 2, "create": 4,
    "execute": 6, "rec-connect": 4, "rec-disconnect": 3, "snd-eval": 4, "rec-value": 4, "snd-do": 2, "rec-event": 3, "snd-ack-event": 1,
    "snd-terminate": 2, ":=": 4, "printf": 3, "shutdown": 1, "delta": 1,
}
WITH_TOOLS = {
    "tau": 1, "snd-msg": 4, "rec-msg": 4, "snd-note": 2, "rec-note": 2, "no-note": 1, "subscribe": 2, "create": 1, "execute": 4,
    "rec-connect": 6, "rec-disconnect": 4, "snd-eval": 30, "rec-value": 36, "snd-do": 3, "rec-event": 30, "snd-ack-event": 24,
    "snd-terminate": 1, ":=": 1, "printf": 1, "delta": 1,
}
# Within a star, these atoms have a delay: without it, they would take all steps.
OFTEN_POSSIBLE = {
    "tau", "snd-note", "no-note", "subscribe", "unsubscribe", "create", "execute", "snd-do", ":=", "printf", "shutdown",
}
# Some of these atoms have a delay, so that one side of a message waits for the other.
MESSAGES = {"snd-msg", "rec-msg"}
TIMES = ("delay", "timeout", "abs-delay", "abs-timeout")
OPERATORS = {".": 9, "+": 5, "*": 4, "||": 4, ">>": 3, "if": 2}
LETTERS = "abc"
FORMATS = ("b", "%t", "x%d", "%s%t", "%%%d", "a%", "%q")
# One of the processes takes each tool that connects, and releases each one that ends, so that lanes are used again.
SERVER_ACTS = [
    Act("rec-connect", (Result("T"),)), Act("rec-connect", (Result("U"),)), Act("rec-disconnect", (Result("T"),), (("delay", 1),)),
    Act("delta"),
]
SERVER = Body("Server", (), SORTS, Two("*", Two("+", Atom(1), Two("+", Atom(2), Atom(3))), Atom(4)), SERVER_ACTS)


# Takes something once, and then one of two again and again.
TAKER = Two(".", Atom(1), Two("*", Two("+", Atom(2), Atom(3)), Atom(4)))


def in_order(count: int) -> ProcessTerm:
    """So many atoms, one after another."""
    term: ProcessTerm = Atom(count)
    for number in range(count - 1, 0, -1):
        term = Two(".", Atom(number), term)
    return term


class Maker:
    """Makes a random script."""

    def __init__(self, seed: str):
        self.random = random.Random(seed)
        self.acts: list[Act] = []
        self.has_param: list[bool] = []
        self.is_repeated = False

    def below(self, number: int) -> int:
        return self.random.randrange(number)

    def happens(self, chance: float) -> bool:
        return self.random.random() < chance

    def pick(self, weights: dict[str, int]) -> str:
        return self.random.choices(list(weights), list(weights.values()))[0]

    def script(self) -> Script:
        """A script of processes of any kind, or one of processes with tools and a server."""
        self.has_param = [self.happens(0.5) for _ in range(2 + self.below(4))]
        has_tools = self.happens(0.7)
        bodies = [self.body(position, has_tools) for position in range(len(self.has_param))]
        roots = [self.root(self.below(len(bodies))) for _ in range(2 + self.below(5))]
        if has_tools and self.happens(0.8):
            roots.insert(0, Call(len(bodies), ()))
            bodies.append(SERVER)
        return Script({"ed": "go", "fx": None}, bodies, roots)

    def queues(self) -> Script:
        """A script in which several notes and several events wait, before processes take those that match, one at a tick."""
        notes = [Act("snd-note", (self.value(),)) for _ in range(6)]
        sender = Body("P0", (), SORTS, in_order(6), notes)
        note_acts = [Act("subscribe", (Hole("term"),)), self.late("rec-note"), self.late("rec-note"), Act("delta")]
        tool = Variable("T")
        event_acts = [Act("rec-connect", (Result("T"),)), self.late("rec-event", tool), self.late("rec-event", tool), Act("delta")]
        takers = [Body(f"P{number}", (), SORTS, TAKER, acts) for number, acts in ((1, note_acts), (2, event_acts))]
        return Script({"ed": "go", "fx": None}, [sender, *takers], [Call(1, ()), Call(0, ()), Call(2, ())])

    def late(self, word: str, *tool: Expr) -> Act:
        return Act(word, (*tool, self.pattern()), (("delay", 1 + self.below(2)),))

    def root(self, process: int) -> Call:
        return Call(process, (self.below(4),) if self.has_param[process] else ())

    def body(self, position: int, has_tools: bool) -> Body:
        self.acts = []
        weights = WITH_TOOLS if has_tools else ANY
        self.is_repeated = has_tools or self.happens(0.5)
        term = self.branches(weights) if self.is_repeated else self.term(weights, 2 + self.below(3))
        has_param = self.has_param[position]
        sorts = {PARAM: "int", **SORTS} if has_param else SORTS
        return Body(f"P{position}", (PARAM,) if has_param else (), sorts, term, self.acts)

    def atom(self, act: Act) -> Atom:
        self.acts.append(act)
        return Atom(len(self.acts))

    def branches(self, weights: dict[str, int]) -> ProcessTerm:
        """Some branches again and again, or two such processes side by side."""
        term = self.repeated(weights)
        return Two("||", term, self.repeated(weights)) if self.happens(0.4) else term

    def repeated(self, weights: dict[str, int]) -> ProcessTerm:
        term = self.term(weights, self.below(3) // 2)
        for _ in range(self.below(6)):
            term = Two("+", term, self.term(weights, self.below(3) // 2))
        return Two("*", term, self.atom(Act("delta")))

    def term(self, weights: dict[str, int], height: int) -> ProcessTerm:
        if height == 0 or self.happens(0.15):
            return self.atom(self.act(self.pick(weights)))
        op = self.pick(OPERATORS)
        if op == "if":
            test = Name("equal", (Variable("K"), self.below(3)))
            x = self.term(weights, height - 1)
            return If(test, x, self.term(weights, height - 1) if self.happens(0.6) else None)
        x = self.term(weights, height - 1)
        return Two(op, x, self.term(weights, height - 1))

    def act(self, word: str) -> Act:
        """An atom with random arguments, and sometimes with times."""
        is_late = self.is_repeated and word in OFTEN_POSSIBLE or word in MESSAGES and self.happens(0.2)
        times: list[tuple[str, Expr]] = [("delay", 1 + self.below(3))] if is_late else []
        while len(times) < 2 and self.happens(0.2):
            times.append((self.random.choice(TIMES), self.below(5) if self.happens(0.8) else Variable("K")))
        return Act(word, tuple(self.args(word)), tuple(times))

    def args(self, word: str) -> list[Expr | Call]:
        """The arguments of an atom of this word."""
        if word in ("snd-msg", "rec-msg"):
            return [Name(self.random.choice("mmmn")), self.sent() if word == "snd-msg" else self.received()]
        if word in ("no-note", "subscribe", "unsubscribe"):
            return [self.random.choice((Hole("term"), Name("a"), self.value()))]
        if word in ("snd-eval", "snd-do", "snd-ack-event", "snd-terminate"):
            return [self.tool(), self.value()]
        if word in ("rec-value", "rec-event"):
            return [self.tool(), self.pattern()]
        made: dict[str, Callable[[], list]] = {
            "snd-note": lambda: [self.value()],
            "rec-note": lambda: [self.pattern()],
            "create": self.created,
            "execute": lambda: [Name("ed"), Result("T")],
            "rec-connect": lambda: [Result(self.random.choice(TOOLS))],
            "rec-disconnect": lambda: [Result(self.random.choice(TOOLS)) if self.happens(0.5) else self.tool()],
            ":=": self.assigned,
            "printf": self.printed,
            "shutdown": lambda: [self.value()],
        }
        return made[word]() if word in made else []

    def created(self) -> list[Expr | Call]:
        """A process, and the variable for its number. The value for a parameter can lack the type `int`."""
        process = self.below(len(self.has_param))
        actual = self.random.choice((self.below(4), Variable("K"), Variable("V")))
        return [Call(process, (actual,) if self.has_param[process] else ()), Result("K")]

    def assigned(self) -> list[Expr]:
        """A variable, and a value that can lack its type."""
        if self.happens(0.5):
            return [Variable("K"), self.random.choice((Name("add", (Variable("K"), 1)), Variable("V"), Variable("W")))]
        return [Variable(self.random.choice(TERMS)), self.value()]

    def printed(self) -> list[Expr]:
        """A format with arguments. They fit or don't."""
        text_format = Variable("V") if self.happens(0.1) else self.random.choice(FORMATS)
        choices = (Name("a"), 1, "q\n", Variable("V"), Variable("K"))
        return [text_format] + [self.random.choice(choices) for _ in range(self.below(3))]

    def tool(self) -> Expr:
        """A tool: a variable, or a term that one or several processes share."""
        if self.happens(0.4):
            return Variable(self.random.choice(TOOLS))
        number = Variable("K") if self.happens(0.05) else self.random.choice((1, 1, 1, 1, 1, 2, 2, 2, 3, 4))
        return Name(self.random.choice(("ed", "ed", "ed", "ed", "ed", "fx")), (number,))

    def value(self) -> Expr:
        """A value. Some have none, such as the sum of a name and a number."""
        if self.happens(0.7):
            return Name(self.random.choice(LETTERS))
        return self.random.choice((
            Variable("V"), Variable("W"), Variable("K"), self.below(3), "s", (1, Name("a")),
            Name("f", (Name(self.random.choice(LETTERS)),)), Name("add", (Variable("V"), 1)),
        ))

    def pattern(self) -> Expr:
        """A pattern with or without result variables and placeholders."""
        if self.happens(0.35):
            return Result(self.random.choice(TERMS))
        if self.happens(0.45):
            return Hole(self.random.choice(("term", "term", "term", "int")))
        return Name("f", (Result("V"),)) if self.happens(0.15) else self.value()

    def sent(self) -> Expr:
        return self.tool() if self.happens(0.3) else self.value()

    def received(self) -> Expr:
        return Result(self.random.choice(TOOLS)) if self.happens(0.3) else self.pattern()


# Scripts at a limit.

def crowd() -> Script:
    """A process that creates others, with so many processes that it comes to the limit of 10,000."""
    acts = [Act("create", (Call(1, ()), Result("K"))), Act("delta")]
    creator = Body("P0", (), SORTS, Two("*", Atom(1), Atom(2)), acts)
    other = Body("P1", (), SORTS, Atom(1), [Act("delta")])
    return Script({"ed": "go", "fx": None}, [creator, other], [Call(0, ())] + [Call(1, ())] * (MOST_ALIVE - 5))


def long_tool() -> Script:
    """A tool whose term is too large."""
    name = "l" * (MOST_SIZE - 1)
    acts = [Act("execute", (Name(name), Result("L"))), Act("snd-note", (Variable("L"),))]
    return Script({name: "go"}, [Body("P0", (), {"L": name}, Two("||", Atom(1), Atom(2)), acts)], [Call(0, ())])


def long_texts() -> Script:
    """Values that are together too large, and a format whose text is too long."""
    two = (Variable("V"), Variable("V"))
    words = ("snd-msg", "snd-note", "printf", "rec-msg")
    acts = [Act(":=", (Variable("V"), '"' * 40_000)), *(Act(it, two) for it in words), Act("printf", ("%t", Variable("V")))]
    waits = Two("||", Atom(2), Two("||", Atom(3), Two("||", Atom(4), Two("||", Atom(5), Atom(6)))))
    return Script({}, [Body("P0", (), {"V": "term"}, Two(".", Atom(1), waits), acts)], [Call(0, ())])


def full_queue() -> Script:
    """A process that sends notes to itself, until its queue is full."""
    acts = [Act("subscribe", (Hole("term"),)), Act("snd-note", (Name("n"),)), Act("delta")]
    return Script({}, [Body("P0", (), {"V": "term"}, Two(".", Atom(1), Two("*", Atom(2), Atom(3))), acts)], [Call(0, ())])


AT_LIMITS = (crowd, long_tool, long_texts, full_queue)


# The texts of scripts.

def act_text(act: Act, script: Script) -> str:
    """The text of an atom with its times."""
    times = "".join(f" {word}({text_of(it)})" for word, it in act.times)
    if act.word == ":=":
        return f"{text_of(act.args[0])} := {text_of(act.args[1])}{times}"
    args = ", ".join(call_text(it, script) if isinstance(it, Call) else text_of(it) for it in act.args)
    return f"{act.word}({args}){times}" if args else f"{act.word}{times}"


def call_text(call: Call, script: Script) -> str:
    return text_of(Name(script.bodies[call.process].name, call.args))


def term_text(term: ProcessTerm, body: Body, script: Script) -> str:
    """The text of a process term. Each atom begins a line."""
    if isinstance(term, Atom):
        return "\n" + act_text(body.acts[term.number - 1], script)
    if isinstance(term, If):
        other = f" else {term_text(term.y, body, script)}" if term.y else ""
        return f"if {text_of(term.test)} then {term_text(term.x, body, script)}{other} fi"
    return f"({term_text(term.x, body, script)}) {term.op} ({term_text(term.y, body, script)})"


class Source:
    """The text of a script, and the line of each atom: of atom 1 of a definition, it is the one after `first_lines`."""

    def __init__(self, script: Script):
        self.text = "".join(tool_text(name, command) for name, command in script.tools.items())
        self.first_lines: dict[str, int] = {}
        for body in script.bodies:
            params = ", ".join(f"{it} : {body.sorts[it]}" for it in body.params)
            names = ", ".join(f"{name} : {sort}" for name, sort in body.sorts.items() if name not in body.params)
            self.text += f"process {body.name}{f'({params})' if params else ''} is let {names} in "
            self.first_lines[body.name] = self.text.count("\n") + 1
            self.text += f"{term_text(body.term, body, script)} endlet\n"
        self.text += f"toolbus({', '.join(call_text(it, script) for it in script.roots)})\n"

    def place(self, body: Body, number: int) -> str:
        """The line and the column of an atom."""
        return f"{self.first_lines[body.name] + number}:1"


def tool_text(name: str, command: str | None) -> str:
    return f"tool {name} is {{{f' command = {text_of(command)} ' if command else ' '}}}\n"


# Inputs.

class Inputs:
    """Gives some random inputs. Most inputs are chosen by the state of the bus, so that most are accepted, or none is."""

    def __init__(self, seed: str, most: int):
        self.random = random.Random(seed)
        self.left = self.random.randrange(most)
        self.by_state = self.random.random() < 0.8

    def __call__(self, bus: Bus) -> Input | None:
        if self.left == 0:
            return None
        self.left -= 1
        if not self.by_state or self.random.random() < 0.08:
            return self.any()
        chances = [it for lane in bus.lanes for it in self.chances(lane)]
        return Input("tick") if not chances or self.random.random() < 0.1 else self.random.choice(chances)

    def term(self) -> Term:
        letter = Name(self.random.choice("a" + LETTERS))
        return Name("f", (letter,)) if self.random.random() < 0.1 else letter

    def any(self) -> Input:
        """An input that the bus may drop."""
        lane = self.random.choice((1, 1, 1, 2, 2, 3, 4))
        word = self.random.choice(("tick", "tick", "connect", "value", "event", "event", "disconnect", "gone", "cut", "bad"))
        if word == "tick":
            return Input(word)
        tool = Name(self.random.choice(("ed", "fx", "zz")))
        return Input(word, lane, {"connect": (tool,), "value": (self.term(),), "event": (self.term(), 1)}.get(word, ()))

    def chances(self, lane: Lane) -> list[Input]:
        """Inputs that can come on a lane, each as often as it is likely."""
        if not lane.is_up:
            return []
        if lane.has_ended:
            return [Input("gone", lane.number)] * 3
        if lane.tool is None:
            return [Input("connect", lane.number, (Name(self.random.choice(("ed", "ed", "ed", "ed", "fx"))),))] * 6
        found = [Input("event", lane.number, (self.term(),))] * 4
        if lane.tool.is_open and lane.tool.answer is None:
            found += [Input("value", lane.number, (self.term(),))] * 8
        if self.random.random() < 0.04:
            found += [Input(word, lane.number) for word in ("disconnect", "gone", "cut")]
        return found
