"""What the tests with real programs share: the built program, its runs, and the children that are left after a run."""
import ctypes
import os
import subprocess
import sys
import tempfile
import time
from typing import NamedTuple

TESTS = os.path.dirname(os.path.abspath(__file__))
TOP = os.path.dirname(TESTS)
BUILT = os.path.join(TOP, "crates", "toolbus", "out", "toolbus")
SET_CHILD_SUBREAPER = 36


class Run(NamedTuple):
    """A run of the program that has ended. `left` are the children that it hasn't waited for."""
    status: int
    out: str
    err: str
    seconds: float
    left: list


def built(words):
    """The program that the words name, or the one that was built where they name none."""
    program = os.path.abspath(words[0]) if words else BUILT
    if not os.access(program, os.X_OK):
        sys.exit(f"{program} isn't built yet; `make build` builds it")
    return program


def adopt():
    """From here on a child that the program leaves, or doesn't wait for, comes to this process."""
    if ctypes.CDLL(None, use_errno=True).prctl(SET_CHILD_SUBREAPER, 1, 0, 0, 0) != 0:
        sys.exit("this test needs Linux: it asks to be the parent of the children that are left")


def state_of(pid):
    """The letter of a process's state, and the command that it was started with."""
    try:
        with open(f"/proc/{pid}/stat") as file:
            state = file.read().rpartition(")")[2].split()[0]
        with open(f"/proc/{pid}/cmdline", "rb") as file:
            return state, file.read().replace(b"\0", b" ").decode("utf-8", "replace").strip()
    except OSError:
        return "", ""


def children_of(pid):
    found = []
    for name in os.listdir("/proc"):
        if name.isdigit():
            try:
                with open(f"/proc/{name}/stat") as file:
                    parent = int(file.read().rpartition(")")[2].split()[1])
            except OSError:
                continue
            if parent == pid:
                found.append(int(name))
    return found


def left_behind():
    """The children that came to this process, as pairs of a state and a command; each is ended and waited for."""
    left = []
    for pid in children_of(os.getpid()):
        left.append(state_of(pid))
        try:
            os.kill(pid, 9)
            os.waitpid(pid, 0)
        except OSError:
            pass
    return left


def start(words, folder, err, env=None, own_group=False):
    """Starts the program. Its standard error is a file: what a tool leaves behind has it too, and would hold up a reader."""
    return subprocess.Popen(words, cwd=folder, stdin=subprocess.DEVNULL, stdout=subprocess.PIPE, stderr=err, env=env,
                            start_new_session=own_group)


def text_of(file):
    file.seek(0)
    return file.read().decode("utf-8", "replace")


def run(words, folder, seconds, env=None):
    """Runs the program to its end, or ends it after so many seconds; its status is then that of the signal."""
    begun = time.monotonic()
    with tempfile.TemporaryFile() as err:
        child = start(words, folder, err, env)
        try:
            out, _ = child.communicate(timeout=seconds)
        except subprocess.TimeoutExpired:
            child.kill()
            out, _ = child.communicate()
        taken = time.monotonic() - begun
        return Run(child.returncode, out.decode("utf-8", "replace"), text_of(err), taken, left_behind())


def verdict(program, folder, script, log, connects=()):
    """Returns what `verify` prints of a log in the folder: `trace` or the line of its error, without the newline."""
    words = [program, "verify", script, log] + [word for command in connects for word in ("--connect", command)]
    done = subprocess.run(words, cwd=folder, stdin=subprocess.DEVNULL, capture_output=True, text=True, errors="replace")
    return (done.stdout + done.stderr).rstrip("\n")


def write(path, text):
    with open(path, "w") as file:
        file.write(text)
