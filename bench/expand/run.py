#!/usr/bin/env python3
"""Times the expansion of a block type whose one interconnect is a `complete`, and tells what memory it takes.

Each line is one size: how many edges there are, what `expand` took, what the whole program took of wall time and of a
processor, and the most memory that it held at once. The largest size is the largest that is expanded, 2^22 edges."""

import os
import subprocess
import sys
import time

TOP = os.path.dirname(os.path.dirname(os.path.dirname(os.path.abspath(__file__))))
CRATE = os.path.join(TOP, "crates", "expand_bench")
PROGRAM = os.path.join(CRATE, "out", "expand_bench")

# input pins, output pins
CASES = [(256, 256), (1024, 1024), (2048, 2048)]


def run(case):
    """What the program prints, its wall time, its processor time in seconds and its memory in MiB."""
    start = time.monotonic()
    child = subprocess.Popen([PROGRAM, *map(str, case)], stdout=subprocess.PIPE, stderr=subprocess.PIPE, text=True)
    edges = child.stdout.read().strip()
    took = child.stderr.read().strip()
    _, status, usage = os.wait4(child.pid, 0)
    wall = time.monotonic() - start
    child.returncode = os.waitstatus_to_exitcode(status)
    if child.returncode != 0:
        sys.exit(f"the program ended with status {child.returncode}: {took}")
    return edges, took, wall, usage.ru_utime + usage.ru_stime, usage.ru_maxrss / 1024


def main():
    if not os.path.exists(PROGRAM):
        subprocess.run(["rt", "run"], cwd=CRATE, check=False, stdout=subprocess.DEVNULL)
    print(f"{os.cpu_count()} processors, load {os.getloadavg()[0]:.1f}")
    for case in CASES:
        edges, took, wall, processor, memory = run(case)
        print(f"{edges}: expand {took}, in all {wall:.1f} s, {processor:.1f} s of a processor, {memory:.0f} MiB")


if __name__ == "__main__":
    main()
