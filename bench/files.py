#!/usr/bin/env python3
"""Measures the built program on capsules of 64 MiB against plain tools, in one run.

Usage: python3 bench/files.py [PROGRAM]

PROGRAM is crates/capsule_tool/out/capsule_tool unless another is named. Four files are made: capsules of one
item and of 65,535 items, with pads and without; and `make` joins a payload to one. Each command runs nine times, and the least time counts; a ratio is that of the
program to its yardstick. `dd bs=64M` is the yardstick of a program that reads a whole file into fresh memory;
`dd` and `cp` in sum are that of one that keeps a file and then writes it. Memory is the greatest resident set,
told by a process that holds little itself, since a process that is started counts what the one that starts it
holds.
"""
import os
import struct
import subprocess
import sys
import tempfile
import time

LIMIT = 67_108_864
FMP = bytes.fromhex("edd5cb6d2de8444cbda17194199ad92a")
HERE = os.path.dirname(os.path.abspath(__file__))
PROGRAM = os.path.join(HERE, "..", "crates", "capsule_tool", "out", "capsule_tool")
RUNS = 9
TIME = "/usr/bin/time"
LARGE_PAGES = "glibc.malloc.hugetlb=1"


def capsule(items, image_bytes, pad_bytes):
    """An FMP capsule of this many version 1 images of this many bytes, each with a pad of so many zeros."""
    body = struct.pack("<IHH", 1, 0, items)
    first = 8 + 8 * items
    body += b"".join(struct.pack("<Q", first + k * (32 + image_bytes + pad_bytes)) for k in range(items))
    image = struct.pack("<I16sB3sII", 1, b"\xaa" * 16, 1, bytes(3), image_bytes, 0) + b"\x77" * image_bytes
    image += bytes(pad_bytes)
    body += image * items
    return FMP + struct.pack("<III", 28, 0x50000, 28 + len(body)) + body


def measure(command, copy, out=os.devnull, env=None, folder=None):
    """The least milliseconds of a command, run in a folder. The copy that the last run made is removed before each run."""
    best = float("inf")
    for _ in range(RUNS):
        if os.path.isfile(copy):
            os.remove(copy)
        with open(out, "wb") as sink:
            start = time.perf_counter()
            status = subprocess.call(command, stdout=sink, stderr=subprocess.DEVNULL, env=env, cwd=folder)
            best = min(best, time.perf_counter() - start)
        if status != 0:
            sys.exit(f"{command} ended with status {status}")
    return best * 1000


def resident(command, folder=None):
    """The greatest resident set of a command that runs in a folder, in bytes, by /usr/bin/time, or None where that is
    not there."""
    if not os.path.exists(TIME):
        return None
    timed = [TIME, "-f", "%M", *command]
    told = subprocess.run(timed, stdout=subprocess.DEVNULL, stderr=subprocess.PIPE, text=True, cwd=folder)
    return int(told.stderr.split()[-1]) * 1024


def compare(program, path, copy):
    """Prints what the program takes on a file, and what plain tools take."""
    size = os.path.getsize(path)
    cat = measure(["cat", path], copy)
    whole = measure(["dd", f"if={path}", "of=/dev/null", "bs=64M"], copy)
    cp = measure(["cp", path, copy], copy)
    print(f"  cat {cat:.0f} ms, dd bs=64M {whole:.0f} ms, cp {cp:.0f} ms")
    check = measure([program, "check", path], copy)
    print(f"  check {check:.0f} ms: {check / cat:.1f} times cat, {check / cp:.1f} times cp")
    rebuild = measure([program, "rebuild", path], copy, copy)
    print(f"  rebuild {rebuild:.0f} ms: {rebuild / cp:.1f} times cp, {rebuild / (whole + cp):.1f} times dd and cp in sum")
    large = measure([program, "rebuild", path], copy, copy, dict(os.environ, GLIBC_TUNABLES=LARGE_PAGES))
    print(f"  rebuild with large pages {large:.0f} ms: {large / cp:.1f} times cp")
    digest = measure(["sha256sum", path], copy)
    show = measure([program, "show", path], copy, copy)
    print(f"  show {show:.0f} ms: {show / digest:.1f} times sha256sum, which takes {digest:.0f} ms")
    for word in ["check", "show", "rebuild"]:
        memory = resident([program, word, path])
        if memory is not None:
            print(f"  memory of {word}: {memory / 2**20:.1f} MiB, {memory / size:.2f} times the file")


def recipe():
    """The recipe of a capsule of one item, whose payload is the file `payload`."""
    return """guid = "6dcbd5ed-e82d-4c44-bda1-7194199ad92a"
flags = 0x50000
[[item]]
header = 3
type = "aaaaaaaa-0000-0000-0000-000000000001"
index = 1
instance = 0
auth = false
fw_version = 4
lowest = 3
payload = "payload"
"""


def compare_make(program, folder):
    """Prints what the program takes to make a capsule of nearly 64 MiB, and what plain tools take on its payload."""
    payload, copy = os.path.join(folder, "payload"), os.path.join(folder, "b.cap")
    with open(payload, "wb") as file:
        file.write(b"\x77" * (LIMIT - 108))
    with open(os.path.join(folder, "recipe.toml"), "w", encoding="utf-8") as file:
        file.write(recipe())
    whole = measure(["dd", f"if={payload}", "of=/dev/null", "bs=64M"], copy)
    cp = measure(["cp", payload, copy], copy)
    make = measure([program, "make", "recipe.toml"], copy, copy, folder=folder)
    print(f"a payload of {LIMIT - 108} bytes: dd bs=64M {whole:.0f} ms, cp {cp:.0f} ms")
    print(f"  make {make:.0f} ms: {make / (whole + cp):.1f} times dd and cp in sum")
    memory = resident([program, "make", "recipe.toml"], folder)
    if memory is not None:
        print(f"  memory of make: {memory / 2**20:.1f} MiB, {memory / (LIMIT - 108):.2f} times the payload")


def main():
    if sys.argv[1:2] == ["make"]:
        with open(sys.argv[2], "wb") as file:
            file.write(capsule(*map(int, sys.argv[3:6])))
        return
    program = os.path.abspath(sys.argv[1] if len(sys.argv) > 1 else PROGRAM)
    with tempfile.TemporaryDirectory() as folder:
        for items, image_bytes, pad_bytes in [(1, LIMIT - 76, 0), (1, LIMIT - 80, 4), (65_535, 984, 0), (65_535, 980, 4)]:
            path, copy = os.path.join(folder, "a.cap"), os.path.join(folder, "b.cap")
            numbers = [str(items), str(image_bytes), str(pad_bytes)]
            subprocess.run([sys.executable, __file__, "make", path, *numbers], check=True)
            print(f"{items} items, each with a pad of {pad_bytes} bytes, {os.path.getsize(path)} bytes")
            compare(program, path, copy)
        compare_make(program, folder)


if __name__ == "__main__":
    main()
