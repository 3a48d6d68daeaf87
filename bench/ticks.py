#!/usr/bin/env python3
"""Times ticks of the kernel: nanoseconds by kind of tick, and for what is asked before each.

    python3 bench/ticks.py [FOLDER]

It copies the crates to FOLDER, or to one that it removes again, puts bench/ticks.txt beside the modules of tick_tests,
has `rt test` prove and build that, and runs it several times; of each number the least counts.

A tick is timed with what is asked before it: the pages that it needs, and whether they are there, since whoever ticks
owes that. What asking takes is the difference to ticks before which it is asked once more.
"""

import shutil
import subprocess
import sys
import tempfile
from pathlib import Path

ROOT = Path(__file__).resolve().parent.parent
TEST = "ticks::nanoseconds_by_kind_of_tick"
TRIES = 7

# of what is timed under a name: the ticks of a round, and how many of them are of the kind; the others are arithmetic
ROUNDS = {"arithmetic": (32, 32), "load": (32, 31), "store": (32, 31), "signal": (9, 3), "call": (6, 2)}
NAMES = {"signal": "signal, wait and yield", "call": "call and serve"}

LIBRARY = """//! Nanoseconds of ticks.
#![tactic(auto)]

#[cfg(test)]
mod begun;
#[cfg(test)]
mod beside;
#[cfg(test)]
mod machine;
#[cfg(test)]
mod pages;
#[cfg(test)]
mod programs;
#[cfg(test)]
mod ticks;
"""

INVARIANT = """use Rattle.kernel_calls.specs.Kernel.{{IsHeld}}
use Rattle.tick_tests.proofs.machine.Kernel.{name}.Given as goal

abbrev pub invariant-loop : goal.invariant-loop
invariant-loop g l = IsHeld l.self.calls l.self.accepted l.self.nvm
"""


def copy_to(folder):
    """Copies the crates without what checks left, with the ticks that are timed in the place of tests."""
    for name in ["crates.txt", "HANDLES"]:
        shutil.copy(ROOT / name, folder)
    shutil.copytree(ROOT / "crates", folder / "crates", ignore=shutil.ignore_patterns("out"))
    crate = folder / "crates" / "tick_tests"
    for tests in ["byte_tests", "tests", "thread_tests"]:
        (crate / "src" / f"{tests}.rt").unlink()
    (crate / "src" / "lib.rt").write_text(LIBRARY)
    shutil.copy(ROOT / "bench" / "ticks.txt", crate / "src" / "ticks.rt")
    for name in ["many", "many_that_ask", "many_that_look"]:
        proofs = crate / "proofs" / "machine" / "Kernel" / name
        proofs.mkdir(parents=True)
        (proofs / "Invariants.antt").write_text(INVARIANT.format(name=name))
    return crate


def build(folder):
    """The program that was proved and built in a folder."""
    crate = folder / "crates" / "tick_tests"
    if not crate.exists():
        crate = copy_to(folder)
        subprocess.run(["rt", "test", "--jobs", "1"], cwd=crate, check=True)
    return crate / "out" / "tick_tests_tests"


def least(program):
    """Of each kind the nanoseconds of a tick, of one before which it is asked twice, and of one that looks twice."""
    times = {}
    for _ in range(TRIES):
        ran = subprocess.run([program, TEST], capture_output=True, text=True, check=True)
        for kind, count, *spent in filter(None, map(str.split, ran.stdout.splitlines())):
            if kind in ROUNDS:
                times.setdefault(kind, []).append([int(nanoseconds) / int(count) for nanoseconds in spent])
    return {kind: [min(column) for column in zip(*tries)] for kind, tries in times.items()}


def report(times):
    """Prints of each kind what a tick takes, and what is asked before it."""
    parts = {}
    for kind, (once, asked, looked) in times.items():
        parts[kind] = [2 * once - looked, asked - once, looked - asked]
    print("      tick       need     looked at    kind")
    for kind, found in parts.items():
        ticks, own = ROUNDS[kind]
        plain = parts["arithmetic"]
        tick, need, look = ((ticks * a - (ticks - own) * b) / own for a, b in zip(found, plain))
        print(f"{tick:10.1f} {need:10.1f} {look:12.1f}    {NAMES.get(kind, kind)}")


def main():
    if len(sys.argv) > 1:
        folder = Path(sys.argv[1])
        folder.mkdir(exist_ok=True)
        report(least(build(folder)))
        return
    with tempfile.TemporaryDirectory() as folder:
        report(least(build(Path(folder))))


main()
