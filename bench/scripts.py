"""How many instructions a byte of a script costs to be read, for lines that raise a block and for calls.

Build the program first: `rt run` in crates/script_bench. It wants valgrind.
"""
import os
import re
import subprocess

TOP = os.path.dirname(os.path.dirname(os.path.abspath(__file__)))
PROGRAM = os.path.join(TOP, "crates/script_bench/out/script_bench")
LINES = 10_000


def run(shape, sources, reads):
    """How many bytes the script has, and how many instructions a run takes that reads it so often over so many sources."""
    done = subprocess.run(
        ["valgrind", "--tool=callgrind", f"--callgrind-out-file={os.devnull}", PROGRAM, *map(str, (shape, LINES, sources, reads))],
        stdout=subprocess.PIPE, stderr=subprocess.PIPE, text=True, check=True)
    size = int(re.match(r"(\d+) bytes", done.stdout).group(1))
    return size, int(re.search(r"Collected : (\d+)", done.stderr).group(1))


def main():
    for shape, line in (("raise", "raise 1 HEX` of 164 bytes"), ("bare", "raise 1 HEX` of 20 bytes"), ("nmi", "nmi 1`")):
        for sources in (1, 64):
            size, one = run(shape, sources, 1)
            _, two = run(shape, sources, 2)
            print(f"a byte of lines `{line}, over {sources} sources: {(two - one) / size:.1f} instructions")


if __name__ == "__main__":
    main()
