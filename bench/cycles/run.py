#!/usr/bin/env python3
"""Times the proved search for the least cycle of a graph: of a chain of nodes, of one ring, and of rings of a size.

Each line tells what was found for so many nodes, and the wall and processor time of all three."""

import os
import subprocess
import sys
import time

TOP = os.path.dirname(os.path.dirname(os.path.dirname(os.path.abspath(__file__))))
CRATE = os.path.join(TOP, "crates", "cycles_bench")
PROGRAM = os.path.join(CRATE, "out", "cycles_bench")

# nodes, and the size of a ring
CASES = [(65536, 4), (1_000_000, 7), (4_000_000, 1000)]


def main():
    if not os.path.exists(PROGRAM):
        subprocess.run(["rt", "run"], cwd=CRATE, check=False, stdout=subprocess.DEVNULL)
    print(f"{os.cpu_count()} processors, load {os.getloadavg()[0]:.1f}")
    for case in CASES:
        start = time.monotonic()
        child = subprocess.Popen([PROGRAM, *map(str, case)], stdout=subprocess.PIPE, text=True)
        printed = ", ".join(child.stdout.read().splitlines())
        _, status, usage = os.wait4(child.pid, 0)
        took = time.monotonic() - start
        child.returncode = os.waitstatus_to_exitcode(status)
        if child.returncode != 0:
            sys.exit(f"the program ended with status {child.returncode}")
        print(f"{case[0]} nodes: {printed}; {took:.2f} s, {usage.ru_utime + usage.ru_stime:.2f} s of a processor, {usage.ru_maxrss // 1024} MB")


if __name__ == "__main__":
    main()
