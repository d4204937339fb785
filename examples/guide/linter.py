"""A linter: it finds the lines that end with a blank."""
import sys

sys.path.insert(0, "../../kits/python")
from toolbus import Appl, Tool

tool = Tool()


@tool.eval("check")
def check(text):
    return [Appl("blank", number) for number, line in enumerate(text.splitlines(), 1) if line.endswith(" ")]


tool.run()
