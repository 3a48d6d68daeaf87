#!/usr/bin/env python3
"""Runs the gate and tells what each crate costs of it, in processor seconds.

    python3 bench/gate.py

It runs `rt ci` at the top of the repository, passes on what that prints, and looks twice a second at the processes below it. What a
prover's process has used counts for the crate that it names, as proof, as proof of the tests, or as edits. The table comes last, in
Markdown. The status is that of the gate.
"""

import os
import re
import subprocess
import sys
import time
from collections import Counter
from pathlib import Path

TICKS = os.sysconf("SC_CLK_TCK")
KINDS = ["proof", "tests", "edits"]


def fields(process):
    """What /proc tells of a process behind its name: its parent, its times, its begin; None where it has ended."""
    try:
        return Path(f"/proc/{process}/stat").read_text().rpartition(")")[2].split()
    except OSError:
        return None


def below(root):
    """The processes that descend from one, with what /proc tells of them."""
    children = {}
    for name in os.listdir("/proc"):
        if name.isdigit() and (told := fields(name)):
            children.setdefault(int(told[1]), []).append((int(name), told))
    found, left = [], [root]
    while left:
        mine = children.get(left.pop(), [])
        found += mine
        left += [process for process, _ in mine]
    return found


def share(process):
    """The crate that a process works for, and at what; None where it is no prover's."""
    try:
        words = Path(f"/proc/{process}/cmdline").read_text().split("\0")
        folder = os.readlink(f"/proc/{process}/cwd")
    except OSError:
        return None
    if not words[0].endswith("/rattle") or "--crate-name" not in words:
        return None
    kind = "edits" if "rt-edit" in folder else "tests" if "--test" in words else "proof"
    return words[words.index("--crate-name") + 1], kind


def main():
    begin = time.monotonic()
    gate = subprocess.Popen(["rt", "ci"])
    used = {}
    while gate.poll() is None:
        for process, told in below(gate.pid):
            if whose := share(process):
                used[process, told[19]] = whose, (int(told[11]) + int(told[12])) / TICKS
        time.sleep(0.5)
    seconds = Counter()
    for whose, spent in used.values():
        seconds[whose] += spent
    listed = re.findall(r"^(\w+)[^:\n#]*:", Path("crates.txt").read_text(), re.MULTILINE)
    print("\n| Crate | Proof | Tests | Edits | All |\n|---|---|---|---|---|")
    for crate in listed:
        row = [seconds[crate, kind] for kind in KINDS]
        print(f"| `{crate}` | {row[0]:.0f} | {row[1]:.0f} | {row[2]:.0f} | {sum(row):.0f} |")
    total = [sum(seconds[crate, kind] for crate in listed) for kind in KINDS]
    print(f"| all | {total[0]:.0f} | {total[1]:.0f} | {total[2]:.0f} | {sum(total):.0f} |")
    print(f"\n{sum(total) / 60:.0f} processor minutes in {(time.monotonic() - begin) / 60:.0f} minutes")
    sys.exit(gate.returncode)


main()
