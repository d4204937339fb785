#!/usr/bin/env python3
"""An editor, with a person who saves a text, goes on typing, mends what is marked, and quits once nothing is."""
import sys

sys.path.insert(0, "../kits/python")
from toolbus import Appl, Tool

tool = Tool()
to_save = ["a = 1\nb = = 2\n", "a = 1\nb = 2\n"]
to_type = ["c = 3\n", "d = 4\n"]


def save():
    tool.event(Appl("saved", to_save.pop(0)))


@tool.ack_event
def go_on(*terms):
    if to_type:
        tool.event(Appl("typed", to_type.pop(0)))


@tool.do("mark")
def mark(errors):
    tool.log("errors:", *errors)
    if errors:
        save()
    else:
        tool.event(Appl("quit"))


save()
tool.run()
