#!/usr/bin/env python3
"""Times the proved annealing, on blocks with nets that a generator of numbers makes.

Each line tells what the places cost before and after, and how long it takes with that many moves, in seconds of wall time and
of a processor. What the same takes without moves, the descent from the first places alone, stands in a line of its own."""

import os
import subprocess
import sys
import time

TOP = os.path.dirname(os.path.dirname(os.path.dirname(os.path.abspath(__file__))))
CRATE = os.path.join(TOP, "crates", "anneal_bench")
PROGRAM = os.path.join(CRATE, "out", "anneal_bench")

# blocks, sites, the length of a row, nets, seed, moves
CASES = [
    (2000, 3000, 55, 2500, 1, 0),
    (2000, 3000, 55, 2500, 1, 1_000_000),
    (2000, 3000, 55, 2500, 1, 10_000_000),
    (20000, 30000, 173, 25000, 1, 0),
    (20000, 30000, 173, 25000, 1, 10_000_000),
]


def main():
    if not os.path.exists(PROGRAM):
        subprocess.run(["rt", "run"], cwd=CRATE, check=False, stdout=subprocess.DEVNULL)
    print(f"{os.cpu_count()} processors, load {os.getloadavg()[0]:.1f}")
    for case in CASES:
        start = time.monotonic()
        child = subprocess.Popen([PROGRAM, *map(str, case)], stdout=subprocess.PIPE, text=True)
        printed = child.stdout.read().strip()
        _, status, usage = os.wait4(child.pid, 0)
        took = time.monotonic() - start
        if os.waitstatus_to_exitcode(status) != 0:
            sys.exit("the program failed")
        blocks, sites, _, nets, _, moves = case
        print(f"{blocks} blocks, {sites} sites, {nets} nets, {moves} moves: {printed}; {took:.2f} s, {usage.ru_utime + usage.ru_stime:.2f} s of a processor")


if __name__ == "__main__":
    main()
