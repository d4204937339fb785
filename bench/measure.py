"""What the benches share: runs of a built program, and lines that show them."""
import os
import subprocess
import sys
import time

TOP = os.path.dirname(os.path.dirname(os.path.abspath(__file__)))
BUILT = os.path.join(TOP, "crates", "toolbus", "out", "toolbus")
RUNS = 3
ENDED, LIMIT = 0, 4


def built(words):
    """The program that the words name, or the one that was built where they name none."""
    program = os.path.abspath(words[0]) if words else BUILT
    if not os.access(program, os.X_OK):
        sys.exit(f"bench: {program} isn't built yet; `make build` builds it")
    return program


def run_once(program, words):
    """The seconds, the peak of memory in KiB, and the exit status."""
    begun = time.perf_counter()
    child = subprocess.Popen([program, *words], stdout=subprocess.DEVNULL, stderr=subprocess.DEVNULL)
    _, status, usage = os.wait4(child.pid, 0)
    seconds = time.perf_counter() - begun
    child.returncode = os.waitstatus_to_exitcode(status)
    return seconds, usage.ru_maxrss, child.returncode


def best_of_runs(program, words, wanted=ENDED):
    runs = [run_once(program, words) for _ in range(RUNS)]
    for _, _, status in runs:
        if status != wanted:
            sys.exit(f"bench: {' '.join(words)} ended with {status}, and {wanted} was wanted")
    return min(seconds for seconds, _, _ in runs), max(peak for _, peak, _ in runs)


def growth(number, before):
    """How many times a number is that of the line above, where there is one."""
    return f"{number / before:.2f}" if before else ""


def show(title, seconds, peak, grown="", each=""):
    print(f"{title:<46}{seconds:8.3f} s {peak / 1024:7.1f} MiB  {grown:>5}  {each}", flush=True)


def write(path, pieces):
    with open(path, "w") as file:
        file.writelines(pieces)
