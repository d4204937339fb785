#!/usr/bin/env python3
"""A slow tool: for `job(N)` it takes N tenths of a second, and answers N. While it works it reads, so it ends at once by rec-terminate."""
import sys
import time

sys.path.insert(0, "../kits/python")
from toolbus import LATER, Tool

tool = Tool()
jobs = []


@tool.eval("job")
def job(tenths):
    jobs.append((time.monotonic() + tenths / 10, tenths))
    return LATER


def left():
    """Returns the seconds until the job is done, or None if there is no job."""
    return max(0.0, jobs[0][0] - time.monotonic()) if jobs else None


while tool.step(left()):
    if left() == 0:
        tool.value(jobs.pop(0)[1])
