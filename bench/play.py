#!/usr/bin/env python3
"""Measures a play of the built program: a capsule of 48 MiB is dropped, asked for and booted, against `sha256sum`
of that file, in one run.

Usage: python3 bench/play.py [PROGRAM]

PROGRAM is crates/capsule_tool/out/capsule_tool unless another is named. Each command runs nine times, and the
least time counts.
"""
import hashlib
import os
import struct
import subprocess
import sys
import tempfile
import time
import uuid

SIZE = 48 * 1024 * 1024
HERE = os.path.dirname(os.path.abspath(__file__))
PROGRAM = os.path.join(HERE, "..", "crates", "capsule_tool", "out", "capsule_tool")
RUNS = 9
FMP = uuid.UUID("6dcbd5ed-e82d-4c44-bda1-7194199ad92a").bytes_le
TYPE = uuid.UUID("aaaaaaaa-0000-0000-0000-000000000001")
BOARD = """bank = 65536
result_max = 15
digests = ["{digest}"]
[[device]]
name = "sys"
type = "{type}"
index = 1
instance = 0
fw_type = 1
capacity = 67108864
version = 3
floor = 2
flags = 0
"""
SCRIPT = "drop a.cap {path}\nsignal\nboot\n"
WANTED = "1 drop ok 1\n2 signal ok\n  try file:a.cap 0 0 sys 0 4 Capsule0000\n3 boot ok\ndone 3\n"


def make(folder):
    """Writes board, script and a capsule of SIZE bytes with one version 3 image."""
    payload = bytes(range(256)) * ((SIZE - 108) // 256 + 1)
    image = b"MSS1" + struct.pack("<III", 16, 4, 3) + payload[: SIZE - 108]
    item = struct.pack("<I16sB3sIIQQ", 3, TYPE.bytes_le, 1, bytes(3), len(image), 0, 0, 0) + image
    body = struct.pack("<IHHQ", 1, 0, 1, 16) + item
    with open(os.path.join(folder, "c"), "wb") as file:
        file.write(FMP + struct.pack("<III", 28, 0x50000, 28 + len(body)) + body)
    with open(os.path.join(folder, "board"), "w", encoding="ascii") as file:
        file.write(BOARD.format(digest=hashlib.sha256(image).hexdigest(), type=TYPE))
    with open(os.path.join(folder, "script"), "w", encoding="ascii") as file:
        file.write(SCRIPT.format(path="c"))


def measure(command, folder):
    """The least milliseconds of a command, and what it prints."""
    best, text = float("inf"), ""
    for _ in range(RUNS):
        start = time.perf_counter()
        done = subprocess.run(command, cwd=folder, check=True, stdout=subprocess.PIPE)
        best, text = min(best, time.perf_counter() - start), done.stdout.decode("ascii")
    return best * 1000, text


def main():
    if sys.argv[1:2] == ["make"]:
        make(sys.argv[2])
        return
    program = os.path.abspath(sys.argv[1] if len(sys.argv) > 1 else PROGRAM)
    with tempfile.TemporaryDirectory() as folder:
        subprocess.run([sys.executable, __file__, "make", folder], check=True)
        digest, _ = measure(["sha256sum", "c"], folder)
        play, text = measure([program, "play", "board", "script"], folder)
        if text != WANTED:
            sys.exit(f"the play printed\n{text}")
        print(f"{os.path.getsize(os.path.join(folder, 'c'))} bytes: sha256sum {digest:.0f} ms, play {play:.0f} ms, {play / digest:.1f} times")


if __name__ == "__main__":
    main()
