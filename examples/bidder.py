#!/usr/bin/env python3
"""A bidder: bidder.py NAME [late] WHEN=BID..

WHEN is an item that is offered, a price, `last-call` or `refused`. It makes each BID once. With `late` it connects after two seconds.
"""
import sys
import time

sys.path.insert(0, "../kits/python")
from toolbus import Appl, Tool

tool = Tool()
name, *plan = sys.argv[1:]
bids = dict(rule.split("=") for rule in plan if "=" in rule)


def bid(when, item):
    if when in bids:
        tool.event(Appl("bid", item, int(bids.pop(when))))


@tool.eval("name")
def my_name():
    return name


@tool.do("offer")
def offer(item, price):
    bid(item, item)


@tool.do("highest")
def highest(item, who, price):
    bid(str(price), item)


@tool.do("last-call")
def last_call(item, price):
    bid("last-call", item)


@tool.do("answer")
def answer(item, price, how):
    bid(how.name, item)


@tool.do("sold")
def sold(item, who, price):
    if who == name:
        tool.log(f"{name} has bought the {item} for {price}")


if "late" in plan:
    time.sleep(2)
tool.connect("bidder")
tool.run()
