"""A tool that adds two numbers."""
from toolbus import Appl, Tool

tool = Tool()


@tool.eval("plus")
def plus(a, b):
    return a + b


@tool.eval
def other(term):
    return Appl("unknown")


tool.run()
