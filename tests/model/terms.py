"""The rules of terms, expressions, and patterns, as docs/RULES.md has them.

A term is a Python `int`, a `str`, a `Name`, or a tuple of terms, which is a list. An expression is likewise, and its parts can also be a
`Variable`, a `Result`, or a `Hole`.
"""
from __future__ import annotations

from dataclasses import dataclass
from typing import Any

Term = Any
Expr = Any
Pattern = Any
Store = dict[str, Term]

MOST_SIZE, MOST_DEPTH = 65_536, 64
ESCAPES = {"\\": "\\\\", '"': '\\"', "\n": "\\n", "\r": "\\r", "\t": "\\t"}


@dataclass(frozen=True)
class Name:
    """A name with or without arguments. Its arguments are terms, expressions, or patterns."""
    word: str
    parts: tuple = ()


@dataclass(frozen=True)
class Variable:
    """`V` in an expression."""
    name: str


@dataclass(frozen=True)
class Result:
    """`V?` in an expression."""
    name: str


@dataclass(frozen=True)
class Hole:
    """`<int>` in an expression, or in a pattern."""
    sort: str


@dataclass(frozen=True)
class Fixed:
    """A part of a pattern without result variables and placeholders. It matches this term only."""
    term: Term


@dataclass(frozen=True)
class Take:
    """`V?` in a pattern, with V's type."""
    name: str
    sort: str


TRUE, FALSE = Name("true"), Name("false")
FIRST_VALUES = {"term": Name("none"), "int": 0, "str": "", "bool": FALSE, "list": ()}


def text_of(part: Expr) -> str:
    """The text of a term or an expression, without whitespace between its tokens."""
    if isinstance(part, int):
        return str(part)
    if isinstance(part, str):
        return '"' + "".join(ESCAPES.get(it, it) for it in part) + '"'
    if isinstance(part, tuple):
        return f"[{texts_of(part)}]"
    if isinstance(part, Variable):
        return part.name
    if isinstance(part, Result):
        return f"{part.name}?"
    if isinstance(part, Hole):
        return f"<{part.sort}>"
    return f"{part.word}({texts_of(part.parts)})" if part.parts else part.word


def texts_of(parts: tuple | list) -> str:
    return ",".join(map(text_of, parts))


def parts_of(part: Expr) -> tuple:
    if isinstance(part, Name):
        return part.parts
    return part if isinstance(part, tuple) else ()


def size_of(term: Term) -> int:
    """The number of nodes of a term, plus the bytes of its names and strings."""
    word = term if isinstance(term, str) else term.word if isinstance(term, Name) else ""
    return 1 + len(word.encode()) + sum(map(size_of, parts_of(term)))


def depth_of(term: Term) -> int:
    """One, and one more than the greatest depth of the parts."""
    return 1 + max(map(depth_of, parts_of(term)), default=0)


def is_within_limits(term: Term) -> bool:
    return size_of(term) <= MOST_SIZE and depth_of(term) <= MOST_DEPTH


def has_type(term: Term, sort: str) -> bool:
    """Whether a term has a type. A type that isn't in the table is the name of a tool, and its terms are `n(k)`."""
    if sort == "term":
        return True
    if sort == "bool":
        return term in (TRUE, FALSE)
    if sort in FIRST_VALUES:
        return isinstance(term, type(FIRST_VALUES[sort]))
    return isinstance(term, Name) and term.word == sort and len(term.parts) == 1 and isinstance(term.parts[0], int)


def first_value(sort: str) -> Term:
    """The first value of a variable of a type."""
    return FIRST_VALUES[sort] if sort in FIRST_VALUES else Name(sort, (0,))


def added(a: Term, b: Term) -> Term | None:
    """The sum of two numbers, if it needs no more than 64 bits."""
    if not isinstance(a, int) or not isinstance(b, int):
        return None
    return a + b if -2**63 <= a + b < 2**63 else None


def is_equal(a: Term, b: Term) -> Term:
    return TRUE if a == b else FALSE


# The functions of random scripts. Each has two arguments.
FUNCTIONS = {"add": added, "equal": is_equal}


def value_of(expr: Expr, store: Store) -> Term | None:
    """The value of an expression in a store, or None if it has none."""
    if isinstance(expr, Variable):
        return store[expr.name]
    if isinstance(expr, (Result, Hole)):
        return None
    parts = tuple(value_of(it, store) for it in parts_of(expr))
    if None in parts:
        return None
    if isinstance(expr, Name) and parts and expr.word in FUNCTIONS:
        return FUNCTIONS[expr.word](*parts)
    term = with_parts(expr, parts)
    return term if is_within_limits(term) else None


def with_parts(part: Expr, parts: tuple) -> Expr:
    if isinstance(part, Name):
        return Name(part.word, parts)
    return parts if isinstance(part, tuple) else part


def values_of(exprs: tuple, store: Store) -> tuple | None:
    """The values of the arguments of an atom. Together they have a size of at most 65,536."""
    terms = tuple(value_of(it, store) for it in exprs)
    return None if None in terms or sum(map(size_of, terms)) > MOST_SIZE else terms


def has_holes(expr: Expr) -> bool:
    """Whether a result variable or a placeholder is in an expression."""
    return isinstance(expr, (Result, Hole)) or any(map(has_holes, parts_of(expr)))


def pattern_of(expr: Expr, store: Store, sorts: dict[str, str]) -> Pattern | None:
    """The pattern of an expression. There is none if a part without result variables and placeholders has no value."""
    if not has_holes(expr):
        term = value_of(expr, store)
        return None if term is None else Fixed(term)
    if isinstance(expr, Result):
        return Take(expr.name, sorts[expr.name])
    if isinstance(expr, Hole):
        return expr
    parts = tuple(pattern_of(it, store, sorts) for it in parts_of(expr))
    return None if None in parts else with_parts(expr, parts)


def patterns_of(exprs: tuple, store: Store, sorts: dict[str, str]) -> tuple | None:
    patterns = tuple(pattern_of(it, store, sorts) for it in exprs)
    return None if None in patterns else patterns


def taken(pattern: Pattern, term: Term) -> Store | None:
    """What the result variables take if a pattern matches a term, and otherwise None."""
    if isinstance(pattern, Fixed):
        return {} if pattern.term == term else None
    if isinstance(pattern, Hole):
        return {} if has_type(term, pattern.sort) else None
    if isinstance(pattern, Take):
        return {pattern.name: term} if has_type(term, pattern.sort) else None
    is_alike = type(pattern) is type(term) and (isinstance(term, tuple) or pattern.word == term.word)
    return all_taken(parts_of(pattern), parts_of(term)) if is_alike else None


def all_taken(patterns: tuple, terms: tuple) -> Store | None:
    """Likewise for a list of patterns. If a result variable comes again, both need equal terms."""
    if len(patterns) != len(terms):
        return None
    found: Store = {}
    for pattern, term in zip(patterns, terms):
        binds = taken(pattern, term)
        if binds is None or any(found.setdefault(name, it) != it for name, it in binds.items()):
            return None
    return found


def printed(terms: tuple) -> tuple[str | None, str]:
    """The text of a `printf`, or None with what is wrong."""
    text_format, *rest = terms
    if not isinstance(text_format, str):
        return None, "the format is no string"
    text, pieces, used = "", iter(text_format), 0
    for piece in pieces:
        if piece != "%":
            text += piece
            continue
        letter = next(pieces, None)
        if letter is None:
            return None, "the format ends with %"
        wrong = "" if letter == "%" else directive_fault(letter, rest[used:used + 1])
        if wrong:
            return None, wrong
        text += "%" if letter == "%" else rest[used] if letter == "s" else text_of(rest[used])
        used += letter != "%"
    if used < len(rest):
        return None, f"nothing prints argument {used + 1}"
    return (text, "") if is_within_limits(text) else (None, "it is too long")


def directive_fault(letter: str, argument: list) -> str:
    """Why a letter behind `%` prints nothing, given its argument, if there is one."""
    if letter not in "dst":
        return f"%{letter} is no directive"
    if not argument:
        return f"%{letter} has no argument"
    kind, wanted = {"d": (int, "a number"), "s": (str, "a string"), "t": (object, "")}[letter]
    if isinstance(argument[0], kind):
        return ""
    return f"%{letter} takes {wanted}, but is given {text_of(argument[0])} (%t takes any term)"
