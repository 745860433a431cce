"""How many instructions a look into the report cache costs, where the cache has changed and where it has not.

Build the program first: `rt run` in crates/look_bench. It wants valgrind.
"""
import os
import re
import subprocess

TOP = os.path.dirname(os.path.dirname(os.path.abspath(__file__)))
PROGRAM = os.path.join(TOP, "crates/look_bench/out/look_bench")
# The length of the block that is looked for, what it is, where the four reports differ, and in words.
ADDRESS, ELSEWHERE = "0", "24"
KINDS = (
    (20, "other", ADDRESS, "of another length"),
    (164, "other", ADDRESS, "that differs from each report in its last byte"),
    (164, "0", ADDRESS, "that hits in the first place"),
    (164, "3", ADDRESS, "that hits in the last of four places"),
    (164, "3", ELSEWHERE, "that hits in the last of four places, where all have its physical address"),
)


def instructions(length, what, offset, reports, each, last):
    """How many instructions a run takes, with so many looks after each report, and so many more after the last."""
    words = [str(length), str(reports), str(each), str(last), what, offset]
    told = subprocess.run(
        ["valgrind", "--tool=callgrind", f"--callgrind-out-file={os.devnull}", PROGRAM, *words],
        stdout=subprocess.DEVNULL, stderr=subprocess.PIPE, text=True, check=True).stderr
    return int(re.search(r"Collected : (\d+)", told).group(1))


def main():
    for length, what, offset, said in KINDS:
        # Of four reports each takes a place of its own; of more than four each one more takes the first place.
        few, many = (instructions(length, what, offset, 4, 0, looks) for looks in (1000, 2000))
        print(f"a look for a block {said}: {(many - few) / 1000:.0f} instructions", end="")
        if what == "other":
            none, one = (instructions(length, what, offset, 1000, each, 0) for each in (0, 1))
            print(f", {(one - none) / 1000:.0f} where the cache has changed", end="")
        print()


if __name__ == "__main__":
    main()
