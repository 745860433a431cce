"""How long the built program takes, and how many instructions: what the scripts beside this one share."""
import os
import re
import subprocess
import sys
import time

TOP = os.path.dirname(os.path.dirname(os.path.abspath(__file__)))
PROGRAM = os.path.join(TOP, "crates/ghes/out/ghes")
MIB = 1024 * 1024


def timed(words, out=os.devnull):
    """The least of five times in seconds, and the peak memory in bytes. The output goes to a file."""
    times = []
    for _ in range(5):
        with open(out, "wb") as text:
            begin = time.monotonic()
            child = subprocess.Popen([PROGRAM, *words], stdout=text)
            _, status, usage = os.wait4(child.pid, 0)
            times.append(time.monotonic() - begin)
        if status != 0:
            sys.exit(f"status {status} of {' '.join(words)}")
    return min(times), usage.ru_maxrss * 1024


def callgrind(words, out=os.devnull):
    """Runs under valgrind, and answers what it says."""
    return subprocess.run(
        ["valgrind", "--tool=callgrind", f"--callgrind-out-file={out}", PROGRAM, *words],
        stdout=subprocess.DEVNULL, stderr=subprocess.PIPE, text=True).stderr


def instructions(words):
    """How many instructions a run takes."""
    return int(re.search(r"Collected : (\d+)", callgrind(words)).group(1))
