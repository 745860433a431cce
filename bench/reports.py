"""How many instructions the report of a block of one memory error costs.

Build the program first: `rt run` in crates/report_bench. It wants valgrind.
"""
import os
import re
import subprocess

TOP = os.path.dirname(os.path.dirname(os.path.abspath(__file__)))
PROGRAM = os.path.join(TOP, "crates/report_bench/out/report_bench")
FEW, MANY = 1_000, 11_000


def instructions(reports):
    """How many instructions a run takes that makes so many reports."""
    told = subprocess.run(
        ["valgrind", "--tool=callgrind", f"--callgrind-out-file={os.devnull}", PROGRAM, str(reports)],
        stdout=subprocess.DEVNULL, stderr=subprocess.PIPE, text=True, check=True).stderr
    return int(re.search(r"Collected : (\d+)", told).group(1))


def main():
    each = (instructions(MANY) - instructions(FEW)) / (MANY - FEW)
    print(f"the report of a block of one memory error: {each:.0f} instructions")


if __name__ == "__main__":
    main()
