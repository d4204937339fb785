#!/usr/bin/env python3
"""A compiler: it says in which line a text of Python has an error. It takes its time, as for a large text."""
import sys
import time

sys.path.insert(0, "../kits/python")
from toolbus import Appl, Tool

tool = Tool()


@tool.eval("check")
def check(text):
    time.sleep(0.5)
    try:
        compile(text, "text", "exec")
    except SyntaxError as error:
        return [Appl("error", error.lineno)]
    return []


tool.run()
