#!/usr/bin/env python3
"""The master of an auction: once two bidders are there it offers one item, and the next one when that is sold; then it leaves."""
import sys

sys.path.insert(0, "../kits/python")
from toolbus import Appl, Tool

tool = Tool()
items = [("vase", 50), ("lamp", 20)]
bidders = []


def offer():
    if items:
        tool.event(Appl("offer", *items.pop(0)))
    else:
        tool.disconnect()


@tool.do("bidder")
def bidder(name):
    tool.log(f"{name} has come")
    bidders.append(name)
    if len(bidders) == 2:
        offer()


@tool.ack_event("offer")
def is_sold(item, start):
    offer()


tool.run()
