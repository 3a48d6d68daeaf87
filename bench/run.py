#!/usr/bin/env python3
"""Times the built program: nanoseconds for a retired instruction, a checkpoint, and a cut with its recovery.

    python3 bench/run.py

It takes crates/sls_run/out/sls_run, which the gate or `rt run` leaves there, and proves and builds it first where it is not
there. Each number is the time of a job with many such lines, less that of the same job with none, over their count; of
several tries the shortest counts.
"""

import subprocess
import sys
import time
from pathlib import Path

CRATE = Path(__file__).resolve().parent.parent / "crates" / "sls_run"
PROGRAM = CRATE / "out" / "sls_run"
TRIES = 5

LOOP = ["0000006F"]  # jal x0, 0
COUNT = [  # counts up in its page, and puts each count
    "04002283", "00128293", "04502023", "00200513", "04000593", "00400613", "00200893", "00000073", "FE1FF06F",
]

# what is timed: the program's words, the lines that are repeated, and how often each does what is timed
JOBS = [
    ("retired instruction, a jump", LOOP, ["run 2000000"], 2_000_000),
    ("retired instruction, loads, stores and puts", COUNT, ["run 2000000"], 2_000_000),
    ("checkpoint, nothing stored", LOOP, ["checkpoint"] * 4_000, 4_000),
    ("checkpoint, after a round of the program", COUNT, ["run 9", "checkpoint"] * 2_000, 2_000),
    ("cut and recovery, nothing stored", LOOP, ["cut 7"] * 4_000, 4_000),
    ("cut and recovery, after a round of the program", COUNT, ["run 9", "cut 7"] * 2_000, 2_000),
]


def seconds(words, lines):
    """The shortest time of several runs of a job."""
    text = "\n".join(["cores 1", *(f"code {word}" for word in words), *lines, "end"]) + "\n"
    times = []
    for _ in range(TRIES):
        begin = time.perf_counter()
        ran = subprocess.run([PROGRAM, "run"], input=text.encode(), stdout=subprocess.PIPE, check=False)
        times.append(time.perf_counter() - begin)
        if ran.returncode != 0 or not ran.stdout.endswith(b"done\n"):
            sys.exit(f"a job ended with status {ran.returncode}: {ran.stdout[-80:]!r}")
    return min(times)


def main():
    if not PROGRAM.exists():
        first = (CRATE / "stdin").read_bytes()
        subprocess.run(["rt", "run", "--", "run"], cwd=CRATE, input=first, check=True, stdout=subprocess.DEVNULL)
    for name, words, lines, count in JOBS:
        spent = seconds(words, lines) - seconds(words, [])
        print(f"{1e9 * spent / count:12.1f} ns  {name}")


main()
