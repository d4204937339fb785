"""Tests of the filter for JSON, beside the table of dialogues."""
from __future__ import annotations

import os
import subprocess
import sys
import unittest

sys.path.insert(0, os.path.join(os.path.dirname(os.path.abspath(__file__)), "..", "json"))
import filter as json_filter  # noqa: E402

FILTER = json_filter.__file__
TO_TOOL = [
    ("rec-eval(-7)", '{"rec-eval":[-7]}'),
    ("rec-eval(9223372036854775807)", '{"rec-eval":[9223372036854775807]}'),
    (r'rec-do("a\n\"b\" \\ é")', r'{"rec-do":["a\n\"b\" \\ é"]}'),
    ("rec-do([true,false,[],none])", '{"rec-do":[[true,false,[],{"none":[]}]]}'),
    ("rec-eval(true(1))", '{"rec-eval":[{"true":[1]}]}'),
    ("rec-eval(plus(1,f(2)))", '{"rec-eval":[{"plus":[1,{"f":[2]}]}]}'),
    ('rec-ack-event(bid(7),"x")', '{"rec-ack-event":[{"bid":[7]},"x"]}'),
    ("rec-terminate(done)", '{"rec-terminate":[{"done":[]}]}'),
]
FROM_TOOL = [
    ('{"snd-value":[-7]}', "snd-value(-7)"),
    (' { "snd-value" : [ { "plus" : [ 1 , 2 ] } ] } ', "snd-value(plus(1,2))"),
    ('{"snd-value":["\\u00e9\\/\\ud83d\\ude00\\t"]}', 'snd-value("é/😀\\t")'),
    ('{"snd-value":[{"true":[]}]}', "snd-value(true)"),
    ('{"snd-value":[[true,{"none":[]}]]}', "snd-value([true,none])"),
    ('{"snd-event":[{"bid":[7]},"x"]}', 'snd-event(bid(7),"x")'),
    ('{"snd-connect":[{"ed":[]}]}', "snd-connect(ed)"),
    ('{"snd-disconnect":[]}', "snd-disconnect"),
    ('{"snd-value":[' + 63 * "[" + "1" + 63 * "]" + "]}", "snd-value(" + 63 * "[" + "1" + 63 * "]" + ")"),
    ('{"snd-value":["' + 65_000 * "a" + '"]}', 'snd-value("' + 65_000 * "a" + '")'),
]
NO_LINES = [
    "", "{", "snd-value(1)", "null", "1", "[]", "{}", '"snd-value"', '{"snd-value":[null]}', '{"snd-value":[1.5]}', '{"snd-value":[1.0]}',
    '{"snd-value":[1e3]}', '{"snd-value":[NaN]}', '{"snd-value":[9223372036854775808]}', '{"snd-value":[' + 5_000 * "9" + "]}",
    '{"snd-value":[]}', '{"snd-value":[1,2]}', '{"snd-value":1}', '{"snd-value":{}}', '{"snd-value":[{}]}', '{"snd-value":[{"a":[],"b":[]}]}',
    '{"snd-value":[{"a":[],"a":[]}]}', '{"snd-value":[1],"snd-value":[2]}', '{"snd-value":[{"A":[]}]}', '{"snd-value":[{"a b":[]}]}',
    '{"snd-value":["\\u0001"]}', '{"snd-value":["\\ud800"]}', '{"snd-event":[]}', '{"snd-connect":["ed"]}', '{"snd-disconnect":[1]}',
    '{"rec-eval":[1]}', '{"snd-value":[' + 64 * "[" + "1" + 64 * "]" + "]}", 100_000 * "[", '{"snd-value":["' + 65_536 * "a" + '"]}',
]


class Mapping(unittest.TestCase):
    def test_lines_to_the_tool(self):
        for text, wanted in TO_TOOL:
            with self.subTest(text=text):
                self.assertEqual(json_filter.line_to_tool(text.encode("utf-8")).decode("utf-8"), wanted)

    def test_lines_from_the_tool(self):
        for text, wanted in FROM_TOOL:
            with self.subTest(text=text[:80]):
                self.assertEqual(json_filter.line_from_tool(text.encode("utf-8")).decode("utf-8"), wanted)

    def test_lines_without_a_term(self):
        for text in NO_LINES:
            with self.subTest(text=text[:80]):
                with self.assertRaises(ValueError):
                    json_filter.line_from_tool(text.encode("utf-8"))

    def test_bytes_that_are_no_text(self):
        with self.assertRaises(ValueError):
            json_filter.line_from_tool(b'{"snd-value":["\xff"]}')


class Filter(unittest.TestCase):
    """The filter between two pipes."""

    def ran(self, tool, text):
        done = subprocess.run([sys.executable, FILTER, *tool], input=text, capture_output=True, timeout=60)
        return done.stdout, done.stderr, done.returncode

    def test_it_reports_and_drops_a_wrong_line(self):
        tool = ["sh", "-c", """echo null; read -r line; echo '{"snd-event":[1]}'; cat >/dev/null"""]
        said, error, status = self.ran(tool, b"rec-do(1)\n")
        self.assertEqual((said, status), (b"snd-event(1)\n", 0))
        self.assertRegex(error, rb"\Afilter.py: dropped a line: .*: null\n\Z")

    def test_it_ends_as_the_tool_does(self):
        self.assertEqual(self.ran(["sh", "-c", "cat >/dev/null; exit 3"], b""), (b"", b"", 3))

    def test_it_ends_though_the_bus_goes_on(self):
        with subprocess.Popen([sys.executable, FILTER, "sh", "-c", "exit 4"], stdin=subprocess.PIPE, stdout=subprocess.PIPE) as it:
            self.assertEqual((it.stdout.read(), it.wait(60)), (b"", 4))

    def test_a_tool_that_cannot_start(self):
        said, error, status = self.ran(["./no-such-tool"], b"")
        self.assertEqual((said, error.startswith(b"filter.py: "), status), (b"", True, 1))


if __name__ == "__main__":
    unittest.main()
