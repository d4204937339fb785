"""An editor, with a person who saves a text, reads what is found in it, and saves a better one."""
import sys

sys.path.insert(0, "../../kits/python")
from toolbus import Appl, Tool, write_term

tool = Tool()
texts = ["def double(n):\n    return n * 3 \n", "def double(n):\n    return n * 2\n"]
answers = []


def save():
    tool.event(Appl("saved", texts.pop(0)) if texts else Appl("quit"))


@tool.do("show")
def show(who, errors):
    tool.log(who, "found", write_term(errors))
    answers.append(who)
    if len(answers) % 2 == 0:
        save()


save()
tool.run()
