#!/usr/bin/env python3
"""Measures the bench in memory by the words of the program `measures` beside plain tools, in one run, and prints a table.

Usage: python3 bench/bench.py [PROGRAM]

PROGRAM is crates/measures/out/measures unless another is named; `rt run` in crates/measures makes it. Each command runs
nine times, and the least time counts. The start of a process alone is measured too (the program with no word). `cp` copies
a file of 64 MiB, and `cat` reads it. The time of `join` is what it takes more than `list`, which lays the same memory. Memory of `layout` is
the greatest resident set, told by a process that holds little itself. A wish that is not met ends the run with 1.
"""
import os
import sys
import tempfile

from files import measure, resident

HERE = os.path.dirname(os.path.abspath(__file__))
PROGRAM = os.path.join(HERE, "..", "crates", "measures", "out", "measures")
IMAGE = 67_108_864
MEBIBYTE = 2**20
WORDS = ["layout", "image", "small", "slot", "walk", "list", "join", "log", "log_reads", "commits", "feed"]
OPENS = 20
COMMITS = 20_000


def main():
    program = os.path.abspath(sys.argv[1] if len(sys.argv) > 1 else PROGRAM)
    with tempfile.TemporaryDirectory() as folder:
        path, copy = os.path.join(folder, "a"), os.path.join(folder, "b")
        with open(path, "wb") as file:
            file.write(b"\x77" * IMAGE)
        cp = measure(["cp", path, copy], copy)
        cat = measure(["cat", path], copy)
        start = measure([program], copy)
        took = {word: measure([program, word], copy) for word in WORDS}
    join = took["join"] - took["list"]
    log = (took["log"] - took["log_reads"]) / OPENS
    commits = COMMITS / (took["commits"] - start) * 1_000
    memory = resident([program, "layout"])
    rows = [
        ("start of the program alone", f"{start:.1f} ms", "", True),
        ("cp of 64 MiB", f"{cp:.0f} ms", "", True),
        ("layout: 16 devices, 512 MiB in sum", f"{took['layout']:.1f} ms", "20 ms", took["layout"] < 20),
        ("image: 64 MiB written, synced, read", f"{took['image'] / cp:.1f} times cp", "6 times", took["image"] < 6 * cp),
        ("slot: an image of 64 MiB set", f"{took['slot'] / cp:.1f} times cp", "8 times", took["slot"] < 8 * cp),
        ("small: 1,000 writes with syncs", f"{took['small']:.1f} ms", "50 ms", took["small"] < 50),
        ("walk: 65,536 descriptors in 256 segments", f"{took['walk']:.1f} ms", "100 ms", took["walk"] < 100),
        ("join: a list of one block of 64 MiB", f"{join / cp:.1f} times cp", "3 times", join < 3 * cp),
        ("log: a full bank of 1 MiB opened, once of 20", f"{log:.2f} ms", "20 ms", log < 20),
        ("log_reads: made, and read 20 times", f"{took['log_reads']:.1f} ms", "", True),
        ("feed: a delivery of 64 MiB in pieces", f"{took['feed'] / cat:.1f} times cat", "1.5 times", took["feed"] < 1.5 * cat),
        ("commits: of one of 16 variables of 64 bytes", f"{commits:,.0f} a second", "", True),
    ]
    if memory is not None:
        rows.append(("memory of layout", f"{memory / MEBIBYTE:.1f} MiB", "16 MiB", memory < 16 * MEBIBYTE))
    print("| What | Measured | Wanted under |\n|---|---|---|")
    for what, measured, wanted, met in rows:
        print(f"| {what} | {measured}{'' if met else ' (missed)'} | {wanted} |")
    sys.exit(0 if all(met for *_, met in rows) else 1)


if __name__ == "__main__":
    main()
