"""How many instructions a packet of 164 bytes costs through pool and chain, and how long it takes with contexts in threads.

Build the program first: `rt run` in crates/chain_bench. The instructions want valgrind.
"""
import os
import re
import subprocess
import time

TOP = os.path.dirname(os.path.dirname(os.path.abspath(__file__)))
PROGRAM = os.path.join(TOP, "crates/chain_bench/out/chain_bench")
SLOTS = 4


def instructions(packets):
    """How many instructions so many packets take, each claimed, filled, pushed, taken and given back on one thread."""
    told = subprocess.run(
        ["valgrind", "--tool=callgrind", f"--callgrind-out-file={os.devnull}", PROGRAM, "0", str(SLOTS), str(packets)],
        stdout=subprocess.DEVNULL, stderr=subprocess.PIPE, text=True, check=True).stderr
    return int(re.search(r"Collected : (\d+)", told).group(1))


def seconds(contexts, packets):
    """How long a run takes in which each of so many contexts pushes so many packets beside the decoder."""
    began = time.monotonic()
    told = subprocess.run([PROGRAM, str(contexts), str(SLOTS), str(packets)], capture_output=True, text=True, check=True).stdout
    assert told == f"{max(contexts, 1) * packets} packets, in order\n", told
    return time.monotonic() - began


def main():
    cost = (instructions(11_000) - instructions(1_000)) / 10_000
    print(f"claim, push, take and give of a packet of 164 bytes: {cost:.0f} instructions")
    for contexts in (0, 1, 2, 3):
        packets = 1_000_000
        took = seconds(contexts, packets) - seconds(contexts, 0)
        what = f"{contexts} pushing threads and a decoder" if contexts else "one thread that pushes and takes"
        print(f"{what}, {SLOTS} slots: {took / (max(contexts, 1) * packets) * 1e9:.0f} ns a packet")


if __name__ == "__main__":
    main()
