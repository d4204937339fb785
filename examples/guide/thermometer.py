#!/usr/bin/env python3
"""A thermometer: it sends a reading, and the next one as soon as the bus acknowledges the last."""
import sys

sys.path.insert(0, "../../kits/python")
from toolbus import Appl, Tool

tool = Tool()
readings = [17, 18, 21]


def measure():
    tool.event(Appl("degrees", readings.pop(0)) if readings else Appl("empty"))


@tool.ack_event
def acknowledged(*terms):
    measure()


measure()
tool.run()
