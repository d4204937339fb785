"""A tool of tests/soak. It acts at random, by a seed and a rate in the file `settings`, and records in a file of its own the lines that
it writes and reads. Its last output can end within a line.
"""
import os
import random
import sys
import threading
import time

from tool import put

KINDS = ["plain"] * 6 + ["ask"] * 3 + ["tell"] * 2 + ["ack"] * 2


class Player:
    def __init__(self):
        with open("settings") as file:
            seed, rate = file.read().split()
        self.name = f"p{time.time_ns()}-{os.getpid()}"
        self.chance = random.Random(f"{seed} {self.name}")
        self.rate = float(rate)
        self.notes = open(f"{self.name}.txt", "w", buffering=1)
        self.lock = threading.Lock()
        self.number = 0
        self.spoken = 0

    def note(self, mark, text=""):
        with self.lock:
            self.notes.write(f"{mark} {text}\n")

    def put(self, text, means):
        """Writes a line, perhaps in pieces, and notes what the log is to show of it. No other thread writes in between."""
        data = text.encode() + b"\n"
        with self.lock:
            self.notes.write(f"said {means}\n")
            cut = self.chance.randrange(len(data)) if self.chance.random() < 0.05 else 0
            try:
                put(data[:cut])
                if cut:
                    time.sleep(self.chance.random() * 0.01)
                put(data[cut:])
            except BrokenPipeError:
                os._exit(0)

    def event(self, kind, what="x"):
        self.number += 1
        self.spoken += 1
        text = f"{kind},{self.number},{what}"
        self.put(f"snd-event({text})", f"snd-event({text})")

    def listen(self):
        """Answers each question, and ends once it is told to, or its input has ended."""
        for line in sys.stdin:
            line = line.rstrip("\n")
            self.note("heard", line)
            if line.startswith("rec-eval("):
                if self.chance.random() < 0.02:
                    time.sleep(0.05)
                self.put(f"snd-value({line[9:]}", f"snd-value({line[9:]}")
        self.note("end")
        os._exit(0)

    def speak(self):
        """Says something; how much in a second is given."""
        if self.chance.random() < 0.02:
            self.put("snd-event(", "?")
        elif self.chance.random() < 0.0003:
            self.event("plain", '"' + "a" * self.chance.randrange(20000) + '"')
        else:
            self.event(self.chance.choice(KINDS))

    def play(self):
        self.event("plain", self.name)
        threading.Thread(target=self.listen, daemon=True).start()
        begun, length = time.monotonic(), self.chance.uniform(2, 20)
        while time.monotonic() - begun < length:
            for _ in range(self.chance.randrange(1, 40)):
                self.speak()
            time.sleep(max(0, begun + self.spoken / self.rate - time.monotonic()))
        self.leave()

    def leave(self):
        """Ends in one of four ways."""
        way = self.chance.randrange(4)
        if way == 0:
            self.event("end")
            time.sleep(60)
        elif way == 1:
            self.put("snd-disconnect", "snd-disconnect")
            self.put("snd-event(late)", "snd-event(late)")
        elif way == 2:
            with self.lock:
                self.notes.write("said ?\n")
                put(b"snd-event(")
                os._exit(0)
        os._exit(0)


Player().play()
