"""How many instructions one call of a context costs, and how long it takes beside others.

Build the program first: `rt run` in crates/nmi_bench. The instructions want valgrind. A source has a read ack register of 32 bits and
blocks of 164 bytes, and there are 16 slots. Counted is all below one call, with its accesses of memory. It makes two copies, each in
one move.
"""
import os
import re
import subprocess
import time

TOP = os.path.dirname(os.path.dirname(os.path.abspath(__file__)))
PROGRAM = os.path.join(TOP, "crates/nmi_bench/out/nmi_bench")
CALL = "nmi_bench::caller::nmi_call*"
STEPS = "nmi_bench::steps::steps_of_a_call*"
# What is counted, whether the blocks were reported before, and whether a block stands at each call.
KINDS = {
    "queued": (CALL, "new", 1),
    "duplicate": (CALL, "told", 1),
    "no block": (CALL, "new", 0),
    "the steps of a call in firmware memory alone": (STEPS, "steps", 0),
}


def words(told, where, contexts, blocks, calls):
    return [PROGRAM, told, where, str(contexts), str(blocks), str(calls)]


def instructions(counted, told, blocks, calls):
    """How many instructions the calls of one context take, on one thread."""
    said = subprocess.run(
        ["valgrind", "--tool=callgrind", f"--callgrind-out-file={os.devnull}", f"--toggle-collect={counted}",
         *words(told, "alone", 1, blocks, calls)],
        stdout=subprocess.DEVNULL, stderr=subprocess.PIPE, text=True, check=True).stderr
    return int(re.search(r"Collected : (\d+)", said).group(1))


def seconds(told, contexts, blocks, calls):
    """The least of five times."""
    times = []
    for _ in range(5):
        begin = time.monotonic()
        subprocess.run(words(told, "threads", contexts, blocks, calls), stdout=subprocess.DEVNULL, check=True)
        times.append(time.monotonic() - begin)
    return min(times)


def main():
    for name, (counted, told, each) in KINDS.items():
        few, many = (instructions(counted, told, each * size, size) for size in (1000, 2000))
        print(f"{name}: {(many - few) / 1000:.0f} instructions a call")
    size = 200_000
    for name, told in (("duplicate", "told"), ("queued, beside the decoder", "new")):
        for contexts in (1, 2, 3, 4):
            # The same blocks without calls are the start, which is left out.
            spent = seconds(told, contexts, size, size) - seconds(told, contexts, size, 0)
            print(f"{name}, {contexts} in threads: {spent / size * 1e9:.0f} ns a call")


if __name__ == "__main__":
    main()
