import sys

for line in sys.stdin:
    if line.startswith("rec-eval("):
        print("snd-value(3)")
    elif line.startswith("rec-terminate("):
        break
