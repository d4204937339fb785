"""Compares the steps of a log with the interfaces of its tools, as `toolbus iface` prints them (docs/RULES.md).

Each line that a step sends to a tool must match a pattern `to` of this tool. Each line that a step takes from it must match a pattern `from`.
"""
import os
import re
import sys

sys.path.append(os.path.join(os.path.dirname(os.path.dirname(os.path.abspath(__file__))), "kits", "python"))
from toolbus import Appl, read_term, same, write_term  # noqa: E402

TO = {"snd-eval": "rec-eval", "snd-do": "rec-do", "snd-ack-event": "rec-ack-event", "snd-terminate": "rec-terminate"}
FROM = {"rec-value": "snd-value", "rec-event": "snd-event"}
STRING_OR_HOLE = re.compile(r'"(?:[^"\\]|\\.)*"|<[^<>]*>')
STARTS = ("execute", "rec-connect")


class Hole(str):
    """The type of a hole."""


def pattern_of(text):
    """Reads the text of a pattern. Each hole in it becomes a `Hole`."""
    holes = [it[1:-1] for it in STRING_OR_HOLE.findall(text) if it[0] == "<"]
    term = read_term(STRING_OR_HOLE.sub(lambda it: it[0] if it[0][0] == '"' else '"<>"', text))
    return filled(term, iter(holes))


def filled(term, holes):
    """The pattern in which the strings `<>` are holes of these types, in their order."""
    if isinstance(term, Appl):
        return Appl(term.name, *[filled(it, holes) for it in term.args])
    if isinstance(term, list):
        return [filled(it, holes) for it in term]
    return Hole(next(holes)) if term == "<>" else term


def matches(pattern, term):
    if isinstance(pattern, Hole):
        return has_type(pattern, term)
    if isinstance(pattern, Appl) and isinstance(term, Appl):
        return pattern.name == term.name and matches(list(pattern.args), list(term.args))
    if isinstance(pattern, list) and isinstance(term, list):
        return len(pattern) == len(term) and all(map(matches, pattern, term))
    return not isinstance(pattern, (Appl, list)) and same(pattern, term)


def has_type(name, term):
    plain = {"int": int, "bool": bool, "str": str, "list": list, "term": object}.get(name)
    if plain:
        return isinstance(term, plain) and not (name == "int" and isinstance(term, bool))
    if name.startswith("list("):
        return isinstance(term, list) and all(has_type(name[5:-1], it) for it in term)
    return isinstance(term, Appl) and term.name == name and len(term.args) == 1 and has_type("int", term.args[0])


def steps(log):
    """Yields the word of each step, and its terms if it has a place."""
    for line in log.splitlines():
        _, word, *rest = line.split(" ", 3)
        if word in ("finish", "halt"):
            yield word, []
        elif word != "msg" and rest and re.fullmatch(r"\d+\.\d+", rest[0]):
            yield word, read_term(f"[{rest[1]}]") if rest[1:] else []


def exchanges(log):
    """Yields each line that a step sends to a tool or takes from one: the name of the tool, `to` or `from`, and the line."""
    tools = set()
    for word, terms in steps(log):
        if word in STARTS:
            tools.add(terms[0].name)
        if word in TO:
            yield terms[0].name, "to", Appl(TO[word], *terms[1:])
        elif word in FROM:
            yield terms[0].name, "from", Appl(FROM[word], *terms[1:])
        elif word == "rec-connect":
            yield terms[0].name, "from", Appl("snd-connect", Appl(terms[0].name))
        elif word in ("shutdown", "finish", "halt"):
            for name in sorted(tools):
                yield name, "to", Appl("rec-terminate", *(terms or [Appl(word)]))


def interface_of(lines):
    """The patterns `to` and `from` of the lines of an interface."""
    return {way: [pattern_of(it.partition(" ")[2]) for it in lines if it.startswith(f"{way} ")] for way in ("to", "from")}


def mismatches(log, lines_of):
    """The exchanges of a log that match no pattern. `lines_of` gives the lines of the interface of a tool."""
    known, found = {}, []
    for name, way, line in exchanges(log):
        if name not in known:
            known[name] = interface_of(lines_of(name))
        if not any(matches(it, line) for it in known[name][way]):
            found.append(f"no pattern of {name}: {way} {write_term(line)}")
    return found
