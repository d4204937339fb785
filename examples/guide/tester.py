"""A test runner: it takes its time, and finds the calls of `double` with a wrong result."""
import sys
import time

sys.path.insert(0, "../../kits/python")
from toolbus import Appl, Tool

tool = Tool()


@tool.eval("test")
def test(text):
    time.sleep(0.5)
    names = {}
    exec(text, names)
    return [Appl("double", n) for n in (0, 1, 2) if names["double"](n) != n + n]


tool.run()
