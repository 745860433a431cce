#!/usr/bin/env python3
"""What the map of a machine costs, with an injection table of 512 KiB and of 1 MiB.

Build the program first: `rt run` in crates/map_bench. The machine has 64 sources, and all places of areas below the last
register are taken. Where valgrind is installed it counts instructions for each entry, reading included.
"""
import os
import re
import shutil
import subprocess
import sys
import time

TOP = os.path.dirname(os.path.dirname(os.path.abspath(__file__)))
PROGRAM = os.path.join(TOP, "crates/map_bench/out/map_bench")
HALF = (512 * 1024 - 48) // 32
WHOLE = (1024 * 1024 - 48) // 32


def timed(entries):
    """The least of nine times in seconds."""
    times = []
    for _ in range(9):
        begin = time.monotonic()
        subprocess.run([PROGRAM, str(entries)], stdout=subprocess.DEVNULL, check=True)
        times.append(time.monotonic() - begin)
    return min(times)


def instructions(entries):
    """How many instructions a run takes."""
    told = subprocess.run(
        ["valgrind", "--tool=callgrind", f"--callgrind-out-file={os.devnull}", PROGRAM, str(entries)],
        stdout=subprocess.DEVNULL, stderr=subprocess.PIPE, text=True, check=True).stderr
    return int(re.search(r"Collected : (\d+)", told).group(1))


def main():
    if not os.access(PROGRAM, os.X_OK):
        sys.exit("build the program first: `rt run` in crates/map_bench")
    half, whole = timed(HALF), timed(WHOLE)
    print(f"{WHOLE} entries in 1 MiB: {whole * 1000:.0f} ms, 1 MiB against 512 KiB: {whole / half:.2f} times")
    if shutil.which("valgrind"):
        half, whole = instructions(HALF), instructions(WHOLE)
        print(f"  instructions: {(whole - half) / (WHOLE - HALF):.0f} for each entry, 1 MiB against 512 KiB: {whole / half:.2f} times")


if __name__ == "__main__":
    main()
