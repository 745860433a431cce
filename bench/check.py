#!/usr/bin/env python3
"""Times listings of the built program: run by hand, `bench/check.py` at the top of the checkout.

It makes tables of 512 KiB and of 1 MiB, of the shortest structures and of generic sources with different ids in no
order, and prints for each the time of `check`, the peak memory, and how the time grows from half to whole. Where
valgrind is installed it counts instructions for each structure, so that the start is left out.
"""
import os
import shutil
import struct
import sys
import tempfile

from measure import MIB, PROGRAM, instructions, timed

KIB = 1024


def machine_check(number):
    """A structure of type 2, the shortest, of 20 bytes."""
    return struct.pack("<HH16x", 2, number % 65536)


def generic(number):
    """A disabled generic source of 64 bytes. The ids of 65,536 in a row are different."""
    return struct.pack("<HH60x", 9, number * 40503 % 65536)


SHAPES = {"structures of 20 bytes": machine_check, "disabled generic sources": generic}


def table(folder, structure, size):
    """A table of at most `size` bytes, of as many structures as fit. Answers its path, its bytes and their number."""
    count = (size - 40) // len(structure(0))
    body = b"".join(structure(number) for number in range(count))
    length = 40 + len(body)
    head = struct.pack("<4sIBB6s8sI4sII", b"HEST", length, 1, 0, b"GHESRT", b"REPLAY01", 1, b"GHES", 1, count)
    whole = bytearray(head + body)
    whole[9] = -sum(whole) % 256
    path = os.path.join(folder, f"{structure.__name__}-{size}")
    with open(path, "wb") as out:
        out.write(whole)
    return path, length, count


def main():
    if not os.access(PROGRAM, os.X_OK):
        sys.exit("build the program first: ./ghes check crates/ghes/data/server.bin -")
    with tempfile.TemporaryDirectory() as folder:
        out = os.path.join(folder, "listing")
        for name, structure in SHAPES.items():
            half, _, half_count = table(folder, structure, 512 * KIB)
            whole, size, count = table(folder, structure, MIB)
            half_time, _ = timed(["check", half, "-"], out)
            whole_time, memory = timed(["check", whole, "-"], out)
            print(f"{name}: {count} in {size} bytes, {whole_time * 1000:.0f} ms, peak {memory / MIB:.1f} MiB, a listing of"
                  f" {os.path.getsize(out) / MIB:.1f} MiB, 1 MiB against 512 KiB: {whole_time / half_time:.2f} times")
            if shutil.which("valgrind"):
                more = instructions(["check", whole, "-"]) - instructions(["check", half, "-"])
                print(f"  instructions: {more / (count - half_count):.0f} for each structure")


main()
