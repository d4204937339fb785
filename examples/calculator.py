#!/usr/bin/env python3
"""The calculator's tool: two buttons are pressed, what it is asked it works out, and then it quits."""
import re
import sys

buttons = iter(["plus(1,2)", "plus(20,22)"])


def put(term):
    print(term, flush=True)


def press():
    button = next(buttons, None)
    put(f"snd-event(button({button}))" if button else "snd-event(quit)")


press()
for line in sys.stdin:
    asked = re.fullmatch(r"rec-eval\(plus\((-?\d+),(-?\d+)\)\)", line.strip())
    if asked:
        put(f"snd-value({int(asked[1]) + int(asked[2])})")
    elif line.startswith("rec-ack-event("):
        press()
    elif line.startswith("rec-terminate("):
        break
