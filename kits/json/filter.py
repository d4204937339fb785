#!/usr/bin/env python3
"""A filter between the bus and a tool that reads and writes JSON, a value on each line.

usage: filter.py TOOL [ARGUMENT..]

It starts TOOL, and passes on the lines of both. README.md, beside this file, has the mapping of terms and JSON. It needs toolbus.py, the kit
for Python, in its own directory or in ../python. A line of the tool that isn't such JSON is reported on the standard error and dropped.
The filter ends as the tool does, with its status.
"""
import json
import os
import subprocess
import sys
import threading

sys.dont_write_bytecode = True
HERE = os.path.dirname(os.path.realpath(__file__))
sys.path[:0] = [HERE, os.path.join(HERE, "..", "python")]
from toolbus import Appl, TermError, read_line, write_term  # noqa: E402


def to_json(term):
    """The value of JSON for a term."""
    if isinstance(term, Appl):
        return {term.name: [to_json(arg) for arg in term.args]}
    return [to_json(member) for member in term] if isinstance(term, list) else term


def from_json(value):
    """The term for a value of JSON. Raises TermError if there is none."""
    if isinstance(value, list):
        return [from_json(member) for member in value]
    if not isinstance(value, dict):
        return value
    (name, args), *others = value.items() if value else [("", None)]
    if others or not isinstance(args, list):
        raise TermError("value", 'an object must have one name, and the array of its arguments, such as {"plus":[1,2]}')
    return Appl(name, *map(from_json, args))


def without_repetition(pairs):
    """The object with these names. Raises TermError if a name comes twice."""
    if len(dict(pairs)) < len(pairs):
        raise TermError("value", "an object has the same name twice")
    return dict(pairs)


def line_to_tool(text):
    """The line of JSON for a line of the bus."""
    line = read_line(text)
    value = to_json(Appl(line.word, *line.terms))
    return json.dumps(value, ensure_ascii=False, separators=(",", ":")).encode("utf-8")


def line_from_tool(text):
    """The line to the bus for a line of JSON. Raises ValueError, such as TermError, if there is none."""
    try:
        term = from_json(json.loads(text.decode("utf-8"), object_pairs_hook=without_repetition))
        written = write_line(term)
    except RecursionError:
        raise TermError("deep", "the JSON is too deep") from None
    return str(read_line(written, from_tool=True)).encode("utf-8")


def write_line(term):
    """The text of a line. The limits apply to the terms in it."""
    if not isinstance(term, Appl):
        raise TermError("value", 'the line must be an object, such as {"snd-value":[1]}')
    return f"{term.name}({','.join(map(write_term, term.args))})" if term.args else term.name


def passed(lines, into, translate):
    """Passes on lines, as long as both sides take them."""
    try:
        for line in lines:
            text = line.rstrip(b"\n")
            try:
                into.write(translate(text) + b"\n")
                into.flush()
            except ValueError as error:
                print(f"filter.py: dropped a line: {error}: {text.decode('utf-8', 'backslashreplace')}", file=sys.stderr, flush=True)
    except BrokenPipeError:
        pass


def main():
    if len(sys.argv) < 2:
        sys.exit(__doc__)
    try:
        tool = subprocess.Popen(sys.argv[1:], stdin=subprocess.PIPE, stdout=subprocess.PIPE)
    except OSError as error:
        sys.exit(f"filter.py: {error}")

    def read_bus():
        passed(sys.stdin.buffer, tool.stdin, line_to_tool)
        try:
            tool.stdin.close()
        except BrokenPipeError:
            pass

    threading.Thread(target=read_bus, daemon=True).start()
    passed(tool.stdout, sys.stdout.buffer, line_from_tool)
    os._exit(ended(tool))


def ended(tool):
    """The status of a tool whose output has ended. If it goes on, it is left to go on."""
    try:
        return abs(tool.wait(0.5))
    except subprocess.TimeoutExpired:
        return 0


if __name__ == "__main__":
    main()
