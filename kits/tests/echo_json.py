"""Says what it was told, in JSON. It runs behind json/filter.py, and needs no kit."""
import json
import sys


def send(word, *terms):
    print(json.dumps({word: list(terms)}), flush=True)


def evaluate(term):
    name, args = next(iter(term.items())) if isinstance(term, dict) else (None, [])
    if name == "look-up":
        return {"found": args}
    return {"ready": []} if name == "status" else term


def act(term):
    if isinstance(term, dict) and "say" in term:
        print(*term["say"], file=sys.stderr)
        send("snd-event", {"said": []})
    else:
        send("snd-event", {"did": [term]})


def acknowledged(first, *others):
    if isinstance(first, dict) and "bid" in first:
        send("snd-event", {"bid-acked": [*first["bid"], list(others)]})
    else:
        send("snd-event", {"acked": [[first, *others]]})


HANDLERS = {
    "rec-eval": lambda term: send("snd-value", evaluate(term)),
    "rec-do": act,
    "rec-ack-event": acknowledged,
    "rec-terminate": lambda reason: send("snd-event", {"ends": [reason]}),
}
for line in sys.stdin:
    [(word, terms)] = json.loads(line).items()
    HANDLERS[word](*terms)
