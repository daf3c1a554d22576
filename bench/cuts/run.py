#!/usr/bin/env python3
"""Times the proved search for paths that share no node, on random graphs.

Each line asks for so many paths, between so many starts and ends that are chosen anew for each answer, and tells how many
answers there are in a second of wall time and in one of a processor. What it takes to make the graph is taken off."""

import os
import subprocess
import sys
import time

TOP = os.path.dirname(os.path.dirname(os.path.dirname(os.path.abspath(__file__))))
CRATE = os.path.join(TOP, "crates", "cuts_bench")
PROGRAM = os.path.join(CRATE, "out", "cuts_bench")

# nodes, edges, paths that are wanted, starts and ends that are listed
CASES = [
    (300, 3000, 20, 25),
    (2000, 20000, 50, 60),
    (2000, 20000, 50, 50),
    (20000, 200000, 50, 60),
]


def run(case, rounds):
    """What the program prints, its wall time and its processor time in seconds."""
    start = time.monotonic()
    child = subprocess.Popen([PROGRAM, *map(str, case), str(rounds)], stdout=subprocess.PIPE, text=True)
    printed = child.stdout.read().strip()
    _, status, usage = os.wait4(child.pid, 0)
    took = time.monotonic() - start
    child.returncode = os.waitstatus_to_exitcode(status)
    if child.returncode != 0:
        sys.exit(f"the program ended with status {child.returncode}")
    return printed, took, usage.ru_utime + usage.ru_stime


def main():
    if not os.path.exists(PROGRAM):
        subprocess.run(["rt", "run"], cwd=CRATE, check=False, stdout=subprocess.DEVNULL)
    print(f"{os.cpu_count()} processors, load {os.getloadavg()[0]:.1f}")
    for case in CASES:
        nodes, edges, _, listed = case
        rounds = 40_000_000 // (nodes + edges) // 10
        _, took_one, worked_one = run(case, 1)
        printed, took, worked = run(case, rounds + 1)
        wall = rounds / max(took - took_one, 0.001)
        processor = rounds / max(worked - worked_one, 0.001)
        print(f"{nodes} nodes, {edges} edges, {listed} starts and ends: {printed}; {wall:.0f} a second, {processor:.0f} a second of a processor")


if __name__ == "__main__":
    main()
