#!/usr/bin/env python3
"""The calculator's tool, by the kit for Python."""
import sys

sys.path.insert(0, "../kits/python")
from toolbus import Appl, Tool

tool = Tool()
buttons = [Appl("plus", 1, 2), Appl("plus", 20, 22)]


def press():
    tool.event(Appl("button", buttons.pop(0)) if buttons else Appl("quit"))


@tool.eval("plus")
def plus(a, b):
    return a + b


@tool.ack_event("button")
def pressed(button):
    press()


press()
tool.run()
