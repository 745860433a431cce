#!/usr/bin/env python3
"""Times replays of the built program: run by hand, `bench/replay.py` at the top of the checkout.

It makes scripts of 8 and 16 MiB of `nmi` lines, and of `raise`, `nmi`, `work` lines of a bare block and of a memory
block, and prints for each the time, the bytes of script a second and the peak memory, and how the time grows from half
to whole. A machine has at most 65,536 blocks, so that the script of bare blocks ends at 3.75 MiB. Where valgrind is
installed it counts instructions for a byte that is read and for each unit of lines from script to text, on 1 and 2 MiB,
so that the start is left out, and lists where those of a block with a memory section go.
"""
import os
import re
import shutil
import subprocess
import sys
import tempfile

from measure import MIB, PROGRAM, TOP, callgrind, instructions, timed

TABLE = os.path.join(TOP, "crates/ghes/data/hest.bin")
# A corrected memory error in one data entry, 164 bytes. NNNNNNNN stands for digits that no other unit has, so that no block is a
# duplicate of one before it.
MEMORY = (
    "1200000000000000000000009000000002000000" "1411bca5646fde4eb8633e83ed7c83b1"
    "020000000102000050000000" + "00" * 36 + "06400000000000000000000000000000"
    "NNNNNNNN12000000" "00f0ffffffffffff" + "00" * 40 + "0200000000000000"
)
BLOCKS = 65_536
# Lines, and how many instructions they may take from script to text.
SHAPES = {
    "nmi lines": ("nmi 1\n", 900),
    "raise, nmi, work": ("raise 1 NNNNNNNN00000000000000000000000002000000\nnmi 1\nwork\n", 6_500),
    "raise, nmi, work of a memory block": (f"raise 1 {MEMORY}\nnmi 1\nwork\n", 12_000),
}


def script(folder, unit, size, end=""):
    """A script of about `size` bytes, of whole units and this end. Answers its path, its bytes and its units."""
    count = size // len(unit)
    path = os.path.join(folder, f"{len(unit)}-{size}{end}")
    with open(path, "w") as out:
        if "NNNNNNNN" in unit:
            out.writelines(unit.replace("NNNNNNNN", f"{number + 1:08x}") for number in range(count))
        else:
            out.write(unit * count)
        out.write(end)
    return path, count * len(unit), count


def largest(unit):
    """The size of a script of these lines: 16 MiB, or as many lines as blocks are taken."""
    return min(16 * MIB, BLOCKS * len(unit)) if "raise" in unit else 16 * MIB


def words(path):
    """The words that replay a script."""
    return ["replay", TABLE, "-", path]


def profile(folder, unit):
    """Where the instructions of 1,000 units go: those of the lines of a block, and the functions with the most of their own."""
    path, _, units = script(folder, unit, 1000 * len(unit))
    out = os.path.join(folder, "callgrind")
    callgrind(words(path), out)
    for inclusive, pattern, most in [("yes", r"cper_text::body::add_block ", 1), ("no", r"\S+", 10)]:
        listing = subprocess.run(["callgrind_annotate", f"--inclusive={inclusive}", out], stdout=subprocess.PIPE, text=True).stdout
        lines = re.findall(rf"^\s*([\d,]+) \([^)]*\)\s+(\S*{pattern}.*)$", listing, re.MULTILINE)
        for count, name in [line for line in lines if "PROGRAM TOTALS" not in line[1]][:most]:
            print(f"  {int(count.replace(',', '')) / units:.0f} a unit, {'with' if inclusive == 'yes' else 'without'} its calls: {name[:90]}")


def main():
    if not os.access(PROGRAM, os.X_OK):
        sys.exit("build the program first: ./ghes replay crates/ghes/data/hest.bin - crates/ghes/data/script")
    with tempfile.TemporaryDirectory() as folder:
        for name, (unit, wanted) in SHAPES.items():
            half, _, _ = script(folder, unit, largest(unit) // 2)
            whole, size, _ = script(folder, unit, largest(unit))
            half_time, _ = timed(words(half))
            whole_time, memory = timed(words(whole))
            print(f"{name}: {size / MIB:.2f} MiB, {whole_time:.2f} s, {size / whole_time / 1e6:.0f} MB/s, peak {memory / MIB:.0f} MiB"
                  f" ({memory / size:.1f} times the script), against a half of it: {whole_time / half_time:.2f} times")
            if shutil.which("valgrind"):
                less, less_size, less_units = script(folder, unit, MIB)
                more, more_size, more_units = script(folder, unit, 2 * MIB)
                count = instructions(words(more)) - instructions(words(less))
                # A last line that asks for nothing: the script is read, and no line is executed.
                bad = [script(folder, unit, size, "x")[0] for size in (MIB, 2 * MIB)]
                read = instructions(words(bad[1])) - instructions(words(bad[0]))
                print(f"  instructions: {read / (more_size - less_size):.0f} a byte to read the script,"
                      f" {count / (more_units - less_units):.0f} for {unit.count(chr(10))} line(s) in all, wanted at most {wanted}")
        if shutil.which("callgrind_annotate"):
            profile(folder, SHAPES["raise, nmi, work of a memory block"][0])


main()
