#!/usr/bin/env python3
"""A dictionary: answers each word with what it means, where it knows it."""
import re
import sys

MEANINGS = {"bus": "a carriage for all", "tool": "a thing to work with"}

for line in sys.stdin:
    asked = re.fullmatch(r'rec-eval\("([^"\\]*)"\)', line.strip())
    if asked:
        meaning = MEANINGS.get(asked[1])
        print(f'snd-value(meaning("{meaning}"))' if meaning else "snd-value(unknown)", flush=True)
    elif line.startswith("rec-terminate("):
        break
