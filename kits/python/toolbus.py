"""A kit for tools of the ToolBus: terms, and an event loop.

    from toolbus import Tool

    tool = Tool()

    @tool.eval("plus")
    def plus(a, b):
        return a + b

    tool.run()

A term is a Python value:

    a number              int
    a string              str
    true, false           True, False
    a list                list
    any other name        Appl("plus", 1, 2), or Appl("none") without arguments

In Python 1 == True, so compare terms by `same` if one can be a number and the other true or false.
"""
from __future__ import annotations

import os
import re
import select
import sys
import threading
import time
from dataclasses import dataclass
from functools import partial
from typing import Any, Callable, Dict, List, Optional, Sequence, Tuple, TypeVar, Union, overload

__all__ = ["Appl", "BusGone", "LATER", "Line", "NoHandler", "Term", "TermError", "Tool", "read_line", "read_term", "same", "write_term"]

MOST_SIZE = 65_536
MOST_DEPTH = 64
MOST_LINE_BYTES = 65_536
LEAST_NUMBER, MOST_NUMBER = -(2**63), 2**63 - 1


@dataclass(frozen=True, init=False)
class Appl:
    """A name with its arguments: `Appl("plus", 1, 2)` is the term plus(1,2), and `Appl("none")` is none."""

    name: str
    args: Tuple[Term, ...]

    def __init__(self, name: str, *args: Term) -> None:
        object.__setattr__(self, "name", name)
        object.__setattr__(self, "args", args)

    def __repr__(self) -> str:
        return f"Appl({', '.join(map(repr, (self.name, *self.args)))})"

    def __str__(self) -> str:
        return write_term(self)


Term = Union[int, str, bool, List[Any], Appl]


def _named(truth: bool) -> Appl:
    return Appl("true" if truth else "false")


class TermError(ValueError):
    """An error in the text of a term or of a line, or a value that has no text.

    `kind` is "syntax", "real", "integer", "large", "deep" or "value". For the first three, `at` is the byte, counted from 0.
    """

    def __init__(self, kind: str, message: str, at: Optional[int] = None) -> None:
        super().__init__(message)
        self.kind = kind
        self.at = at


class BusGone(Exception):
    """The bus has closed the tool's output."""


class NoHandler(LookupError):
    """The bus sent rec-eval, and the tool has no handler for its term."""


# Reading

_SPACE = re.compile(rb"[\t\n\r ]*")
_NUMBER = re.compile(rb"(-?)0*([0-9]+)")
_POINT = re.compile(rb"\.[0-9]")
_NAME = re.compile(rb"[a-z][A-Za-z0-9_-]*")
_PIECES = re.compile(
    rb'(?:[\t\x20!#-\x5b\x5d-\x7f]+|\\["\\nrt]|[\xc2-\xdf][\x80-\xbf]'
    rb"|\xe0[\xa0-\xbf][\x80-\xbf]|\xed[\x80-\x9f][\x80-\xbf]|[\xe1-\xec\xee\xef][\x80-\xbf]{2}"
    rb"|\xf0[\x90-\xbf][\x80-\xbf]{2}|\xf4[\x80-\x8f][\x80-\xbf]{2}|[\xf1-\xf3][\x80-\xbf]{3})*"
)
_PIECE_BEGUN = re.compile(
    rb"\\|[\xc2-\xdf]|\xe0[\xa0-\xbf]?|\xed[\x80-\x9f]?|[\xe1-\xec\xee\xef][\x80-\xbf]?"
    rb"|\xf0(?:[\x90-\xbf][\x80-\xbf]?)?|\xf4(?:[\x80-\x8f][\x80-\xbf]?)?|[\xf1-\xf3][\x80-\xbf]{0,2}|"
)
_ESCAPE = re.compile(r'\\(["\\nrt])')
_ESCAPED = {'"': '"', "\\": "\\", "n": "\n", "r": "\r", "t": "\t"}
_MOST_DIGITS = 19


class _Open:
    """A list, or a name with arguments, that isn't closed yet."""

    def __init__(self, name: Optional[str]) -> None:
        self.name = name
        self.end = b"]" if name is None else b")"
        self.parts: List[Term] = []

    def closed(self) -> Term:
        return self.parts if self.name is None else Appl(self.name, *self.parts)


class _Reader:
    """Reads one term from left to right. It doesn't recurse, because a text can nest deeper than Python's stack."""

    def __init__(self, text: bytes) -> None:
        self.text = text
        self.at = 0
        self.size = 0
        self.depth = 0

    def syntax_error(self, at: int) -> TermError:
        found = f"found {self.text[at:at + 1]!r}" if at < len(self.text) else "found the end of the text"
        return TermError("syntax", f"syntax error at byte {at}: {found}", at)

    def next_byte(self) -> bytes:
        """Skips whitespace, and returns the next byte, or no byte at the end."""
        self.at = _SPACE.match(self.text, self.at).end()  # type: ignore[union-attr]
        return self.text[self.at : self.at + 1]

    def number(self) -> int:
        match = _NUMBER.match(self.text, self.at)
        if match is None:
            raise self.syntax_error(self.at + 1)
        if _POINT.match(self.text, match.end()):
            raise TermError("real", f"real number at byte {self.at}: a number must be whole", self.at)
        number = int(match[1] + match[2]) if len(match[2]) <= _MOST_DIGITS else MOST_NUMBER + 1
        if not LEAST_NUMBER <= number <= MOST_NUMBER:
            raise TermError("integer", f"number out of range at byte {self.at}: the range is {LEAST_NUMBER} to {MOST_NUMBER}", self.at)
        self.at = match.end()
        return number

    def string(self) -> str:
        start = self.at + 1
        end = _PIECES.match(self.text, start).end()  # type: ignore[union-attr]
        if self.text[end : end + 1] != b'"':
            raise self.syntax_error(_PIECE_BEGUN.match(self.text, end).end())  # type: ignore[union-attr]
        self.at = end + 1
        string = _ESCAPE.sub(lambda escape: _ESCAPED[escape[1]], self.text[start:end].decode("utf-8"))
        self.size += len(string.encode("utf-8"))
        return string

    def name(self) -> Union[Term, _Open]:
        """Reads a name, and the bracket that begins its arguments."""
        match = _NAME.match(self.text, self.at)
        if match is None:
            raise self.syntax_error(self.at)
        self.at = match.end()
        self.size += len(match[0])
        name = match[0].decode("ascii")
        if self.next_byte() == b"(":
            self.at += 1
            return _Open(name)
        return name == "true" if name in ("true", "false") else Appl(name)

    def list(self) -> Union[Term, _Open]:
        """Reads an empty list, or the bracket that begins another list."""
        self.at += 1
        if self.next_byte() != b"]":
            return _Open(None)
        self.at += 1
        return []

    def head(self) -> Union[Term, _Open]:
        """Reads a term without parts, or the beginning of a term with parts."""
        byte = self.next_byte()
        self.size += 1
        if byte.isdigit() or byte == b"-":
            return self.number()
        if byte == b'"':
            return self.string()
        return self.list() if byte == b"[" else self.name()

    def close(self, term: Term, above: List[_Open]) -> Term:
        """Adds a term to the innermost open one, and closes all that end behind it. Returns the last term that is closed."""
        while above:
            above[-1].parts.append(term)
            byte = self.next_byte()
            if byte not in (b",", above[-1].end):
                raise self.syntax_error(self.at)
            self.at += 1
            if byte == b",":
                break
            term = above.pop().closed()
        return term

    def term(self) -> Term:
        """Reads the whole text."""
        above: List[_Open] = []
        while True:
            self.depth = max(self.depth, len(above) + 1)
            head = self.head()
            if isinstance(head, _Open):
                above.append(head)
                continue
            term = self.close(head, above)
            if not above:
                break
        if self.next_byte():
            raise self.syntax_error(self.at)
        return term


def _bytes_of(text: Union[bytes, str]) -> bytes:
    return text.encode("utf-8", "surrogatepass") if isinstance(text, str) else bytes(text)


def read_term(text: Union[bytes, str]) -> Term:
    """Returns the term that the text reads as. Raises TermError if the text isn't a term or exceeds a limit."""
    reader = _Reader(_bytes_of(text))
    term = reader.term()
    if reader.size > MOST_SIZE:
        raise TermError("large", f"the term is too large: its size is {reader.size}, the limit is {MOST_SIZE}")
    if reader.depth > MOST_DEPTH:
        raise TermError("deep", f"the term is too deep: its depth is {reader.depth}, the limit is {MOST_DEPTH}")
    return term


# Writing

_NO_STRING = re.compile("[\x00-\x08\x0b\x0c\x0e-\x1f\ud800-\udfff]")
_WHOLE_NAME = re.compile(r"[a-z][A-Za-z0-9_-]*\Z")
_ESCAPES = str.maketrans({"\\": "\\\\", '"': '\\"', "\n": "\\n", "\r": "\\r", "\t": "\\t"})


class _Writer:
    """Writes terms, and adds up their size."""

    def __init__(self) -> None:
        self.size = 0

    def string(self, string: str) -> str:
        wrong = _NO_STRING.search(string)
        if wrong is not None:
            raise TermError("value", f"a string can't have the character {wrong[0]!r}, at index {wrong.start()}")
        self.size += len(string.encode("utf-8"))
        return f'"{string.translate(_ESCAPES)}"'

    def parts(self, parts: Sequence[Term], depth: int) -> str:
        return ",".join([self.term(part, depth) for part in parts])

    def name(self, name: str) -> str:
        if not isinstance(name, str) or _WHOLE_NAME.match(name) is None:
            raise TermError("value", f"{name!r} isn't a name: a name is a lower-case letter, then letters, digits, - and _")
        self.size += len(name)
        return name

    def term(self, term: Term, depth: int) -> str:
        """Returns the text of a term of at most this depth."""
        if depth == 0:
            raise TermError("deep", f"the term is too deep: the limit is {MOST_DEPTH}")
        self.size += 1
        if isinstance(term, bool):
            return self.name(_named(term).name)
        if isinstance(term, int):
            if not LEAST_NUMBER <= term <= MOST_NUMBER:
                raise TermError("value", f"{term} is out of range: the range is {LEAST_NUMBER} to {MOST_NUMBER}")
            return str(int(term))
        if isinstance(term, str):
            return self.string(term)
        if isinstance(term, (list, tuple)):
            return f"[{self.parts(term, depth - 1)}]"
        if isinstance(term, Appl):
            name = self.name(term.name)
            return f"{name}({self.parts(term.args, depth - 1)})" if term.args else name
        raise TermError("value", f"{term!r} isn't a term: use int, str, bool, list or Appl")


def _texts(parts: Sequence[Term]) -> str:
    """Returns the texts of terms that are within the limits together, separated by commas."""
    writer = _Writer()
    text = writer.parts(parts, MOST_DEPTH)
    if writer.size > MOST_SIZE:
        raise TermError("large", f"the term is too large: its size is {writer.size}, the limit is {MOST_SIZE}")
    return text


def write_term(term: Term) -> str:
    """Returns the text of a term. Raises TermError if the value isn't a term or exceeds a limit."""
    return _texts([term])


def same(one: Term, other: Term) -> bool:
    """Returns whether two terms are equal. Unlike ==, it distinguishes 1 from True."""
    return write_term(one) == write_term(other)


# Lines

_TO_TOOL = {"rec-eval": 1, "rec-do": 1, "rec-ack-event": None, "rec-terminate": 1}
_FROM_TOOL = {"snd-value": 1, "snd-event": None, "snd-connect": 1, "snd-disconnect": 0}


@dataclass(frozen=True)
class Line:
    """A line between the bus and a tool: its word, as `rec-eval`, and the terms in it."""

    word: str
    terms: Tuple[Term, ...]

    def __str__(self) -> str:
        return f"{self.word}({_texts(self.terms)})" if self.terms else self.word


def _check_shape(word: str, terms: Tuple[Term, ...], words: Dict[str, Optional[int]]) -> None:
    if word not in words:
        raise TermError("value", f"the line begins with {word}: it must begin with {', '.join(words)}")
    wanted = words[word]
    if wanted is None and not terms:
        raise TermError("value", f"{word} takes one term or more")
    if wanted is not None and len(terms) != wanted:
        raise TermError("value", f"{word} takes {('no term', 'one term')[wanted]}, the line has {len(terms)}")
    if word == "snd-connect" and not (isinstance(terms[0], bool) or isinstance(terms[0], Appl) and not terms[0].args):
        raise TermError("value", "snd-connect takes a name without arguments and without quotes")


def read_line(text: Union[bytes, str], from_tool: bool = False) -> Line:
    """Returns the line to a tool, or from a tool, that a text without a newline is.

    Raises TermError if the text isn't such a line. The limits apply to the terms in the line, without its word.
    """
    raw = _bytes_of(text)
    if from_tool and len(raw) > MOST_LINE_BYTES:
        raise TermError("large", f"the line is too long: it has {len(raw)} bytes, the limit is {MOST_LINE_BYTES}")
    reader = _Reader(raw)
    term = reader.term()
    if not isinstance(term, Appl):
        raise TermError("value", "the line doesn't begin with a word such as snd-value")
    line = Line(term.name, term.args)
    _check_shape(line.word, line.terms, _FROM_TOOL if from_tool else _TO_TOOL)
    if reader.depth - 1 > MOST_DEPTH:
        raise TermError("deep", f"a term in the line is too deep: its depth is {reader.depth - 1}, the limit is {MOST_DEPTH}")
    if reader.size - 1 - len(line.word) > MOST_SIZE:
        raise TermError("large", f"the terms in the line are too large together: the limit of their size is {MOST_SIZE}")
    return line


# The event loop

LATER = object()
"""A handler of `eval` returns this if the tool calls `Tool.value` later."""

Handler = TypeVar("Handler", bound=Callable[..., Any])


class Handlers:
    """The handlers for one word, such as rec-eval, and the decorator that adds a handler."""

    def __init__(self) -> None:
        self._named: Dict[str, Callable[..., Any]] = {}
        self._general: Optional[Callable[..., Any]] = None

    @overload
    def __call__(self, what: str) -> Callable[[Handler], Handler]: ...

    @overload
    def __call__(self, what: Handler) -> Handler: ...

    def __call__(self, what: Any) -> Any:
        if not isinstance(what, str):
            self._general = what
            return what

        def named(handler: Handler) -> Handler:
            self._named[what] = handler
            return handler

        return named

    def handle(self, terms: Tuple[Term, ...], otherwise: Callable[[], Any]) -> Any:
        """Calls the handler for the name of the first term, else the one for all terms, else `otherwise`."""
        first = _named(terms[0]) if isinstance(terms[0], bool) else terms[0]
        if isinstance(first, Appl) and first.name in self._named:
            return self._named[first.name](*first.args, *terms[1:])
        return otherwise() if self._general is None else self._general(*terms)


class Tool:
    """A tool on the bus: handlers for the lines that come in, and calls for the lines that go out.

    Four decorators add handlers:

        eval         for rec-eval; the kit sends the result as snd-value, unless it is LATER
        do           for rec-do
        ack_event    for rec-ack-event; optional
        terminate    for rec-terminate; optional, called before the loop ends

    `@tool.eval` adds a handler for all terms, and `@tool.eval("plus")` one for terms with this name, which takes precedence. The
    first is called with the terms of the line. The second is called with the arguments of the first term, then the other terms.

    The tool takes over the standard input and output. From then on, `print` writes to the standard error, `input` reads
    nothing, and programs that the tool starts inherit neither pipe of the bus.
    """

    def __init__(self, input_fd: int = 0, output_fd: int = 1) -> None:
        self.eval = Handlers()
        self.do = Handlers()
        self.ack_event = Handlers()
        self.terminate = Handlers()
        self.reason: Optional[Term] = None
        self._input = os.dup(input_fd)
        self._output = os.dup(output_fd)
        self._writing = threading.Lock()
        self._unread = bytearray()
        self._searched = 0
        self._ended = False
        if (input_fd, output_fd) == (0, 1):
            self._guard_standard_streams()

    @staticmethod
    def _guard_standard_streams() -> None:
        nothing = os.open(os.devnull, os.O_RDONLY)
        os.dup2(nothing, 0)
        os.close(nothing)
        os.dup2(2, 1)
        sys.stdout.flush()
        sys.stdout = sys.stderr

    # Lines to the bus. Every thread can call these methods.

    def value(self, term: Term) -> None:
        """Sends snd-value, after a handler of `eval` returned LATER."""
        self._send("snd-value", term)

    def event(self, *terms: Term) -> None:
        """Sends snd-event with one term or more."""
        self._send("snd-event", *terms)

    def connect(self, name: str) -> None:
        """Sends snd-connect. If `--connect` started the tool, this line must come first."""
        self._send("snd-connect", Appl(name))

    def disconnect(self) -> None:
        """Sends snd-disconnect. The loop ends."""
        self._send("snd-disconnect")
        self._ended = True

    def log(self, *values: object) -> None:
        """Writes a line to the standard error, in the manner of print."""
        print(f"{os.path.basename(sys.argv[0])}:", *values, file=sys.stderr, flush=True)

    def _send(self, word: str, *terms: Term) -> None:
        _check_shape(word, terms, _FROM_TOOL)
        line = str(Line(word, terms)).encode("utf-8")
        if len(line) > MOST_LINE_BYTES:
            raise TermError("large", f"the line is too long: it has {len(line)} bytes, the limit is {MOST_LINE_BYTES}")
        left = memoryview(line + b"\n")
        with self._writing:
            try:
                while left:
                    left = left[os.write(self._output, left) :]
            except BrokenPipeError:
                raise BusGone("the bus has closed the tool's output") from None

    # Lines from the bus

    def run(self) -> Optional[Term]:
        """Handles lines until rec-terminate, and returns its term. If the input ends first, returns None.

        Passes on errors in handlers. Ctrl-C ends the tool without a traceback.
        """
        try:
            while self.step():
                pass
        except BusGone as gone:
            self.log(gone)
        except KeyboardInterrupt:
            raise SystemExit(130) from None
        return self.reason

    def step(self, timeout: Optional[float] = None) -> bool:
        """Handles one line, and waits for it at most `timeout` seconds. Returns False if the tool must end."""
        text = None if self._ended else self._next_line(timeout)
        if text is not None:
            try:
                line = read_line(text)
            except TermError as error:
                self.log(f"ignored a line that no bus sends: {error}: {text!r}")
            else:
                self._handle(line)
        return not self._ended

    def _next_line(self, timeout: Optional[float]) -> Optional[bytes]:
        until = None if timeout is None else time.monotonic() + timeout
        while True:
            end = self._unread.find(b"\n", self._searched)
            if end >= 0:
                return self._taken(end, 1)
            self._searched = len(self._unread)
            left = None if until is None else max(0.0, until - time.monotonic())
            if not select.select([self._input], [], [], left)[0]:
                return None
            piece = os.read(self._input, 65_536)
            self._unread += piece
            if not piece:
                self._ended = True
                return self._taken(len(self._unread), 0) if self._unread else None

    def _taken(self, end: int, newline: int) -> bytes:
        line = bytes(self._unread[:end])
        del self._unread[: end + newline]
        self._searched = 0
        return line

    def _handle(self, line: Line) -> None:
        if line.word == "rec-eval":
            self._answer(line)
        elif line.word == "rec-do":
            self.do.handle(line.terms, lambda: self.log(f"no handler for {line}: add one by @tool.do"))
        elif line.word == "rec-ack-event":
            self.ack_event.handle(line.terms, lambda: None)
        else:
            self._ended = True
            self.reason = line.terms[0]
            self.terminate.handle(line.terms, lambda: None)

    def _answer(self, line: Line) -> None:
        def unknown() -> None:
            raise NoHandler(f"no handler for {line}: add one by @tool.eval")

        answer = self.eval.handle(line.terms, unknown)
        if answer is None:
            raise TermError("value", f"the handler for {line} returned None: it must return a term, or LATER")
        if answer is not LATER:
            self.value(answer)
