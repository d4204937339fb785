"""Tests of the kit for Python, beside the tables."""
from __future__ import annotations

import os
import subprocess
import sys
import threading
import time
import unittest

sys.path.insert(0, os.path.join(os.path.dirname(os.path.abspath(__file__)), "..", "python"))
from toolbus import LATER, Appl, BusGone, NoHandler, TermError, Tool, read_term, same, write_term  # noqa: E402

KIT = os.path.join(os.path.dirname(os.path.abspath(__file__)), "..", "python")


def nested(levels):
    term = 1
    for _ in range(levels - 1):
        term = [term]
    return term


class Values(unittest.TestCase):
    def test_values_have_their_texts(self):
        for value, text in [
            (True, "true"), (False, "false"), (0, "0"), (-(2**63), "-9223372036854775808"), ("", '""'), ([], "[]"),
            ('a"\\\n\r\té😀', '"a\\"\\\\\\n\\r\\té😀"'), ((1, [2]), "[1,[2]]"), (Appl("a"), "a"), (Appl("f", True, Appl("g", "x")), 'f(true,g("x"))'),
            (Appl("true", 1), "true(1)"), ("\x7f", '"\x7f"'),
        ]:
            with self.subTest(text=text):
                self.assertEqual(write_term(value), text)

    def test_texts_have_their_values(self):
        for text, value in [
            ("true", True), ("false", False), ("-7", -7), ('"a\\n"', "a\n"), ("[1,[]]", [1, []]), ("none", Appl("none")),
            ("f(true,g(2))", Appl("f", True, Appl("g", 2))), ("true(1)", Appl("true", 1)), (b"1", 1),
        ]:
            with self.subTest(text=text):
                got = read_term(text)
                self.assertEqual(got, value)
                self.assertIs(type(got), type(value))

    def test_values_without_a_text(self):
        around = []
        around.append(around)
        for value, kind in [
            (1.5, "value"), (None, "value"), (b"a", "value"), ({1}, "value"), ({"a": 1}, "value"), (2**63, "value"), (-(2**63) - 1, "value"),
            ("\x00", "value"), ("\x1f", "value"), ("\x0b", "value"), ("a\ud800", "value"), (Appl("A"), "value"), (Appl(""), "value"),
            (Appl("a b"), "value"), (Appl("é"), "value"), (Appl("a\n"), "value"), (Appl("-"), "value"), ([1, [None]], "value"),
            (nested(65), "deep"), (around, "deep"), ("a" * 65_536, "large"), ([0] * 65_536, "large"), ("é" * 32_768, "large"),
        ]:
            with self.subTest(value=repr(value)[:40]):
                with self.assertRaises(TermError) as raised:
                    write_term(value)
                self.assertEqual(raised.exception.kind, kind)

    def test_limits_are_within(self):
        for value in [nested(64), "a" * 65_535, [0] * 65_535]:
            self.assertEqual(read_term(write_term(value)), value)

    def test_truth_values_are_no_numbers(self):
        self.assertFalse(same(1, True))
        self.assertFalse(same(Appl("f", 0), Appl("f", False)))
        self.assertTrue(same([1, "a"], (1, "a")))


class Loop(unittest.TestCase):
    """A tool between two pipes."""

    def setUp(self):
        tool_reads, self.to_tool = os.pipe()
        self.from_tool, tool_writes = os.pipe()
        self.tool = Tool(tool_reads, tool_writes)
        os.close(tool_reads)
        os.close(tool_writes)
        self.tool.log = lambda *values: self.logged.append(" ".join(map(str, values)))
        self.logged = []

    def tearDown(self):
        for end in (self.to_tool, self.from_tool, self.tool._input, self.tool._output):
            try:
                os.close(end)
            except OSError:
                pass

    def tell(self, text):
        os.write(self.to_tool, text.encode("utf-8"))

    def said(self):
        os.set_blocking(self.from_tool, False)
        try:
            return os.read(self.from_tool, 1 << 20).decode("utf-8")
        except BlockingIOError:
            return ""

    def test_a_value_goes_out_in_a_line(self):
        self.tool.eval("plus")(lambda a, b: a + b)
        self.tell("rec-eval(plus(1,2))\n")
        self.assertTrue(self.tool.step())
        self.assertEqual(self.said(), "snd-value(3)\n")

    def test_a_handler_for_a_name_goes_first(self):
        self.tool.eval(lambda term: "general")
        self.tool.eval("f")(lambda *args: len(args))
        self.tell('rec-eval(f)\nrec-eval(f(1,2))\nrec-eval(g)\nrec-eval("f")\nrec-eval(true)\n')
        for _ in range(5):
            self.tool.step()
        self.assertEqual(self.said(), 'snd-value(0)\nsnd-value(2)\nsnd-value("general")\nsnd-value("general")\nsnd-value("general")\n')

    def test_true_has_a_name_too(self):
        self.tool.eval("true")(lambda: "yes")
        self.tool.eval(lambda term: term)
        self.tell("rec-eval(true)\nrec-eval(false)\n")
        self.tool.step()
        self.tool.step()
        self.assertEqual(self.said(), 'snd-value("yes")\nsnd-value(false)\n')

    def test_an_answer_later(self):
        self.tool.eval(lambda term: LATER)
        self.tell("rec-eval(1)\n")
        self.tool.step()
        self.assertEqual(self.said(), "")
        self.tool.value(7)
        self.assertEqual(self.said(), "snd-value(7)\n")

    def test_a_question_without_a_handler_is_an_error(self):
        self.tell("rec-eval(1)\n")
        self.assertRaises(NoHandler, self.tool.step)

    def test_a_handler_that_returns_nothing_is_an_error(self):
        self.tool.eval(lambda term: None)
        self.tell("rec-eval(1)\n")
        self.assertRaises(TermError, self.tool.step)
        self.assertEqual(self.said(), "")

    def test_other_lines_need_no_handler(self):
        self.tell("rec-do(1)\nrec-ack-event(a)\nrec-terminate(bye)\n")
        self.assertEqual(self.tool.run(), Appl("bye"))
        self.assertEqual(self.logged, ["no handler for rec-do(1): add one by @tool.do"])

    def test_what_is_no_line_is_told_and_left_out(self):
        self.tell("hello\nrec-do(\nrec-terminate(1)\n")
        self.assertEqual(self.tool.run(), 1)
        self.assertEqual(len(self.logged), 2)
        self.assertIn("syntax error at byte 7", self.logged[1])

    def test_the_end_of_the_input_ends_the_loop(self):
        self.tool.do(lambda term: self.tool.event(term))
        self.tell("rec-do(1)\nrec-do(2)")
        os.close(self.to_tool)
        self.assertIsNone(self.tool.run())
        self.assertEqual(self.said(), "snd-event(1)\nsnd-event(2)\n")

    def test_lines_in_pieces(self):
        self.tool.do(lambda term: self.tool.event(term))
        self.tell("rec-d")
        self.assertTrue(self.tool.step(0))
        self.tell("o(1)\nrec-do(2)\nrec")
        self.tool.step(0)
        self.tool.step(0)
        self.assertEqual(self.said(), "snd-event(1)\nsnd-event(2)\n")
        self.tell("-do(3)")
        self.tool.step(0)
        self.tell("\n")
        self.tool.step(0)
        self.assertEqual(self.said(), "snd-event(3)\n")

    def test_a_time_out(self):
        start = time.monotonic()
        self.assertTrue(self.tool.step(0.05))
        self.assertGreaterEqual(time.monotonic() - start, 0.04)

    def test_nothing_is_handled_behind_terminate(self):
        self.tool.do(lambda term: self.tool.event(term))
        self.tell("rec-terminate(1)\nrec-do(2)\n")
        self.assertFalse(self.tool.step())
        self.assertFalse(self.tool.step())
        self.assertEqual(self.said(), "")

    def test_connect_and_disconnect(self):
        self.tool.connect("ed")
        self.tool.disconnect()
        self.assertIsNone(self.tool.run())
        self.assertEqual(self.said(), "snd-connect(ed)\nsnd-disconnect\n")

    def test_a_line_that_the_bus_would_drop_is_an_error(self):
        for call in [
            lambda: self.tool.event(), lambda: self.tool.connect("Ed"), lambda: self.tool.connect("ed(1)"), lambda: self.tool.event(1.5),
            lambda: self.tool.event("a" * 65_524), lambda: self.tool.event(nested(65)), lambda: self.tool.value(None),
        ]:
            self.assertRaises(TermError, call)
        self.assertEqual(self.said(), "")
        self.tool.event(nested(64))
        self.assertEqual(len(self.said()), len("snd-event()\n") + 2 * 63 + 1)

    def test_the_longest_line(self):
        sender = threading.Thread(target=self.tool.event, args=("a" * 65_523,))
        sender.start()
        line = b""
        while not line.endswith(b"\n"):
            line += os.read(self.from_tool, 1 << 20)
        sender.join()
        self.assertEqual(len(line), 65_537)

    def test_a_bus_that_is_gone(self):
        os.close(self.from_tool)
        self.assertRaises(BusGone, lambda: self.tool.event(1))


class Process(unittest.TestCase):
    """A tool as a program."""

    def run_tool(self, text, lines=""):
        start = time.monotonic()
        ran = subprocess.run([sys.executable, "-c", text], input=lines, capture_output=True, text=True, timeout=30, env={**os.environ, "PYTHONPATH": KIT})
        return ran, time.monotonic() - start

    def test_print_goes_to_the_standard_error(self):
        ran, _ = self.run_tool("import toolbus\ntool = toolbus.Tool()\nprint('debug')\ntool.event(1)\ntool.log('a', 2)")
        self.assertEqual(ran.stdout, "snd-event(1)\n")
        self.assertIn("debug\n", ran.stderr)
        self.assertIn("-c: a 2\n", ran.stderr)

    def test_a_program_that_the_tool_starts_leaves_the_bus_alone(self):
        ran, _ = self.run_tool(
            "import subprocess, toolbus\ntool = toolbus.Tool()\nprint(subprocess.run(['cat'], check=True))\nsubprocess.run(['echo', 'noise'])\n"
            "tool.event(1)\ntool.do(tool.event)\ntool.run()", "rec-do(2)\n")
        self.assertEqual(ran.stdout, "snd-event(1)\nsnd-event(2)\n")
        self.assertIn("noise\n", ran.stderr)

    def test_a_program_in_the_background_keeps_no_lane_up(self):
        text = "import subprocess, toolbus\ntool = toolbus.Tool()\nsubprocess.Popen(['sleep', '20'])\n"
        tool = subprocess.Popen([sys.executable, "-c", text], stdin=subprocess.DEVNULL, stdout=subprocess.PIPE, stderr=subprocess.DEVNULL,
                                env={**os.environ, "PYTHONPATH": KIT})
        start = time.monotonic()
        tool.communicate(timeout=15)
        self.assertLess(time.monotonic() - start, 10)

    def test_an_error_in_a_handler_ends_the_tool(self):
        ran, _ = self.run_tool("import toolbus\ntool = toolbus.Tool()\ntool.eval(lambda term: 1 / 0)\ntool.run()", "rec-eval(1)\nrec-eval(2)\n")
        self.assertEqual((ran.returncode, ran.stdout), (1, ""))
        self.assertIn("ZeroDivisionError", ran.stderr)


if __name__ == "__main__":
    unittest.main()
