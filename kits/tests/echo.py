"""Says what it was told."""
import os
import sys

sys.path.insert(0, os.path.join(os.path.dirname(os.path.abspath(__file__)), "..", "python"))
from toolbus import Appl, Tool  # noqa: E402

tool = Tool()


@tool.eval
def value(term):
    return term


@tool.eval("look-up")
def look_up(word, place):
    return Appl("found", word, place)


@tool.eval("status")
def status():
    return Appl("ready")


@tool.do
def did(term):
    tool.event(Appl("did", term))


@tool.do("say")
def say(text):
    print(text)
    tool.event(Appl("said"))


@tool.ack_event
def acked(*terms):
    tool.event(Appl("acked", list(terms)))


@tool.ack_event("bid")
def acked_bid(price, *others):
    tool.event(Appl("bid-acked", price, list(others)))


@tool.terminate
def ends(reason):
    tool.event(Appl("ends", reason))


tool.run()
