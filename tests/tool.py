"""What the tools of tests/hostile and tests/soak share: they write and read whole lines. It is copied next to a tool."""
import os
import signal
import sys
import time


def put(data):
    """Writes all of these bytes."""
    while data:
        data = data[os.write(1, data):]


def say(text):
    put(text.encode() + b"\n")


def event(what):
    say(f"snd-event({what})")


def hear():
    """The next line; nothing at the end."""
    return sys.stdin.readline().rstrip("\n")


def hear_all():
    while hear():
        pass


def stay():
    """Lives on, whatever is said to it or closed."""
    signal.signal(signal.SIGPIPE, signal.SIG_IGN)
    while True:
        time.sleep(60)
