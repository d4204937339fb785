#!/usr/bin/env python3
"""One who chats: it is told who it is, answers once to each whom it knows, and leaves at 'bye'."""
import sys

sys.path.insert(0, "../kits/python")
from toolbus import Appl, Tool

tool = Tool()
ANSWERS = {"ann": {"": "hello all", "cy": "bye"}, "bob": {"ann": "hello ann"}, "cy": {"bob": "hello bob"}}
answers = {}


def answer(who):
    if who in answers:
        tool.event(Appl("say", answers.pop(who)))


@tool.do("you-are")
def you_are(name):
    answers.update(ANSWERS[name])
    answer("")


@tool.do("heard")
def heard(who, text):
    tool.log(f"{who}: {text}")
    if text == "bye":
        tool.event(Appl("leave"))
    else:
        answer(who)


tool.run()
