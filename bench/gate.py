#!/usr/bin/env python3
"""Runs the gate (`rt ci`) and says how much processor time each crate took in it: its proof, its tests, its must-fail
edits. It looks at the running checks twice a second, so a row may lack half a second a check.

  python3 bench/gate.py            prints the table
  python3 bench/gate.py --write    writes it into docs/GATE.md too, where the gate passed"""
import os
import re
import subprocess
import sys
import time
from pathlib import Path

STAGES = ("proof", "tests", "edits")
TICKS = os.sysconf("SC_CLK_TCK")


def crate_and_stage(pid):
    """The crate that a running check is of and its stage, or None for another process."""
    words = Path(f"/proc/{pid}/cmdline").read_bytes().decode(errors="replace").split("\0")
    if "--crate-name" not in words or not words[0].endswith("/rattle"):
        return None
    crate = words[words.index("--crate-name") + 1]
    if "rt-edit-" in os.readlink(f"/proc/{pid}/cwd"):
        return crate, "edits"
    return crate, "tests" if "--test" in words else "proof"


def seconds(pid):
    """When the process was started, and the processor time that it and its ended children took."""
    fields = Path(f"/proc/{pid}/stat").read_text(encoding="utf-8").rpartition(") ")[2].split()
    return fields[19], sum(map(int, fields[11:15])) / TICKS


def sample(taken):
    """Notes what each running check has taken so far."""
    for pid in filter(str.isdigit, os.listdir("/proc")):
        try:
            place = crate_and_stage(pid)
            if place:
                started, spent = seconds(pid)
                key = (pid, started)
                taken[key] = (place, max(spent, taken.get(key, (place, 0))[1]))
        except (OSError, ValueError, IndexError):
            continue


def table(taken, wall):
    """The rows of the table, a crate a row, by what they took."""
    rows = {}
    for (crate, stage), spent in taken.values():
        rows.setdefault(crate, dict.fromkeys(STAGES, 0.0))[stage] += spent
    order = sorted(rows, key=lambda crate: -sum(rows[crate].values()))
    lines = ["| Crate | Proof | Tests | Edits | In all |", "|---|---|---|---|---|"]
    for crate in order:
        parts = [f"{rows[crate][stage] / 60:.1f}" for stage in STAGES]
        lines.append(f"| `{crate}` | {' | '.join(parts)} | {sum(rows[crate].values()) / 60:.1f} |")
    sums = [sum(row[stage] for row in rows.values()) / 60 for stage in STAGES]
    lines.append(f"| all | {' | '.join(f'{it:.0f}' for it in sums)} | {sum(sums):.0f} |")
    lines.append("")
    lines.append(f"On {os.cpu_count()} processors the gate took {wall / 60:.0f} minutes.")
    return "\n".join(lines)


def main():
    taken, begun = {}, time.monotonic()
    gate = subprocess.Popen(["rt", "ci"], stdout=subprocess.PIPE, stderr=subprocess.STDOUT)
    log = Path("/tmp") / f"gate-{os.getpid()}.log"
    os.set_blocking(gate.stdout.fileno(), False)
    with log.open("wb") as kept:
        while gate.poll() is None:
            sample(taken)
            kept.write(gate.stdout.read() or b"")
            kept.flush()
            time.sleep(0.5)
        kept.write(gate.stdout.read() or b"")
    text = log.read_text(encoding="utf-8", errors="replace")
    print(text, end="")
    rows = table(taken, time.monotonic() - begun)
    print(rows)
    page = Path("docs/GATE.md")
    if "--write" in sys.argv[1:] and gate.returncode == 0:
        parts = re.split(r"(?s)(?<=<!-- made by bench/gate.py -->\n).*", page.read_text(encoding="utf-8"))
        page.write_text(parts[0] + rows + "\n", encoding="utf-8")
    sys.exit(gate.returncode)


if __name__ == "__main__":
    main()
