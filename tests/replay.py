"""The rules of a bus (docs/RULES.md), as far as one script of one process and one tool needs them: which entries may come.

The script is SCRIPT. Its process starts a tool, sends it a, receives that the tool has closed its input, sends it b, and releases it.
If the tool is lost before that, the process releases it at once.
"""

SCRIPT = """tool t is { command = "sh tool.sh" }
process P is let T : t in
  execute(t, T?)
  . ( snd-do(T, a)
      . ( rec-event(T, shut)
          . ( snd-do(T, b) . rec-disconnect(T?)
            + rec-disconnect(T?) )
        + rec-disconnect(T?) )
    + rec-disconnect(T?) )
endlet
toolbus(P)
"""

# Where the process stands: what it may do, and where it stands then. Places are those of the atoms in the text.
NOWHERE = "gone"
STEPS = {
    "begun": [("execute 1.1 t(1)", "has one")],
    "has one": [("snd-do 1.2 t(1),a", "told a"), ("rec-disconnect 1.8 t(1)", NOWHERE)],
    "told a": [("rec-event 1.3 t(1),shut", "heard"), ("rec-disconnect 1.7 t(1)", NOWHERE)],
    "heard": [("snd-do 1.4 t(1),b", "told b"), ("rec-disconnect 1.6 t(1)", NOWHERE)],
    "told b": [("rec-disconnect 1.5 t(1)", NOWHERE)],
    NOWHERE: [],
}
SAYS = "line 1 snd-event(shut)"


class Bus:
    def __init__(self):
        self.place = "begun"
        self.is_up = self.has_ended = self.is_down = self.no_ticks = False
        self.stage = ""
        self.events = 0
        self.out = []

    def can(self, step):
        word = step.split(" ")[0]
        if word == "execute":
            return not self.is_up and not self.stage and not self.out
        if word == "snd-do":
            return self.stage == "live"
        if word == "rec-event":
            return self.stage in ("live", "leaving") and self.events > 0
        return self.stage == "leaving"

    def steps(self):
        """All steps that may come next, `finish` and `halt` among them."""
        if self.is_down:
            return []
        if self.place == NOWHERE:
            return ["finish"]
        return [step for step, _ in STEPS[self.place] if self.can(step)] or ["halt"] * self.no_ticks

    def reply(self, said):
        """Why this input is dropped; nothing where it is taken."""
        if self.is_down:
            return "drop down "
        if said in ("tick", "noticks"):
            return ""
        if not self.is_up or (said == SAYS and (self.has_ended or not self.stage)):
            return "drop not-live "
        return ""

    def next(self):
        """All entries that may come next."""
        found = self.steps()
        if not found and not self.is_down:
            found = ["quiet"]
        found += [self.reply(said) + said for said in ("tick", "noticks", SAYS, "gone 1", "cut 1")]
        return found + [f"out 1 {item}" for item in self.out[:1]]

    def flush(self):
        if not self.has_ended or self.out:
            self.out = ["end"]
        self.has_ended = True
        self.stage = "leaving" if self.stage else ""

    def go_down(self, reason):
        self.is_down = True
        if self.is_up and not self.has_ended:
            self.out += [f"rec-terminate({reason})", "end"]
            self.has_ended = True

    def take(self, entry):
        """Goes on by an entry that may come next."""
        if entry in ("quiet", "tick") or entry.startswith("drop "):
            return
        if entry == "noticks":
            self.no_ticks = True
        elif entry.startswith("out "):
            self.out.pop(0)
        elif entry in ("finish", "halt"):
            self.go_down(entry)
        elif entry == SAYS:
            self.events += 1
        elif entry in ("gone 1", "cut 1"):
            self.flush()
            self.is_up = self.is_up and entry != "gone 1"
        else:
            self.step(entry)

    def step(self, entry):
        self.place = dict(STEPS[self.place])[entry]
        word, _, terms = entry.partition(" ")
        if word == "execute":
            self.is_up, self.has_ended, self.stage, self.out = True, False, "live", ['start "sh tool.sh"']
        elif word == "snd-do":
            self.out.append(f"rec-do({terms.rpartition(',')[2]})")
        elif word == "rec-event":
            self.events -= 1
        else:
            self.stage, self.events = "", 0


def fault_of(text):
    """What is wrong with a text that is to be the front of a log; and the bus behind its whole lines."""
    bus, lines = Bus(), text.split("\n")
    rest = lines.pop()
    for number, line in enumerate(lines, 1):
        wanted = [f"{number} {entry}" for entry in bus.next()]
        if line not in wanted:
            return f"line {number} may not come: {line}", bus
        bus.take(line.partition(" ")[2])
    if not any(f"{len(lines) + 1} {entry}".startswith(rest) for entry in bus.next()):
        return f"what stands behind the last line begins none: {rest}", bus
    return "", bus
