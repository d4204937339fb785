#!/usr/bin/env python3
"""A worker that squares numbers, and has a fault: the third job ends it."""
import sys

sys.path.insert(0, "../kits/python")
from toolbus import Tool

tool = Tool()
jobs = []


@tool.eval("square")
def square(number):
    jobs.append(number)
    if len(jobs) == 3:
        sys.exit("worker.py: a fault in the third job")
    return number * number


tool.run()
