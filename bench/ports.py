"""How many instructions a block costs at the port of a source: raise, status read, two copies, clear.

Build the program first: `rt run` in crates/port_bench. It wants valgrind.
"""
import os
import re
import subprocess

TOP = os.path.dirname(os.path.dirname(os.path.abspath(__file__)))
PROGRAM = os.path.join(TOP, "crates/port_bench/out/port_bench")
BLOCKS = 1000


def instructions(length, blocks):
    """How many instructions a run takes, with so many blocks of this length."""
    words = [str(length), str(blocks)]
    told = subprocess.run(
        ["valgrind", "--tool=callgrind", f"--callgrind-out-file={os.devnull}", PROGRAM, *words],
        stdout=subprocess.DEVNULL, stderr=subprocess.PIPE, text=True, check=True).stderr
    return int(re.search(r"Collected : (\d+)", told).group(1))


def main():
    for length in (20, 164, 4096):
        one, two = (instructions(length, blocks) for blocks in (BLOCKS, 2 * BLOCKS))
        print(f"a block of {length} bytes: {(two - one) / BLOCKS:.0f} instructions")


if __name__ == "__main__":
    main()
