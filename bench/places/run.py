#!/usr/bin/env python3
"""Times the proved search for first places, on blocks and sites of some kinds.

Each line places all blocks of a task again and again, and tells how long one placing takes, in milliseconds of wall time
and of a processor. What it takes to start the program and to make the task is taken off."""

import os
import subprocess
import sys
import time

TOP = os.path.dirname(os.path.dirname(os.path.dirname(os.path.abspath(__file__))))
CRATE = os.path.join(TOP, "crates", "places_bench")
PROGRAM = os.path.join(CRATE, "out", "places_bench")

# kinds, blocks and sites of each kind, how many kinds in front of its own a block fits. Where there are many sites each block
# finds a free one. Where there are few, the last blocks fit sites on which earlier ones stand: a search moves these.
CASES = [
    (20, 1000, 2500, 1),
    (20, 4000, 10000, 1),
    (20, 16000, 40000, 1),
    (20, 1000, 1250, 1),
    (20, 2000, 2500, 1),
    (20, 4000, 5000, 1),
    (20, 500, 625, 20),
    (20, 1000, 1250, 20),
    (20, 2000, 2500, 20),
    (20, 1000, 999, 20),
]


def run(case, rounds):
    """The first line that the program prints, its wall time and its processor time in seconds."""
    start = time.monotonic()
    child = subprocess.Popen([PROGRAM, *map(str, case), str(rounds)], stdout=subprocess.PIPE, text=True)
    printed = child.stdout.read().splitlines()[0]
    _, status, usage = os.wait4(child.pid, 0)
    took = time.monotonic() - start
    child.returncode = os.waitstatus_to_exitcode(status)
    if child.returncode != 0:
        sys.exit(f"the program ended with status {child.returncode}")
    return printed, took, usage.ru_utime + usage.ru_stime


def main():
    if not os.path.exists(PROGRAM):
        subprocess.run(["rt", "run"], cwd=CRATE, check=False, stdout=subprocess.DEVNULL)
    print(f"{os.cpu_count()} processors, load {os.getloadavg()[0]:.1f}")
    for case in CASES:
        kinds, blocks, sites, span = case
        _, took_one, worked_one = run(case, 1)
        rounds = max(2, min(200, int(1 / max(worked_one, 0.005))))
        printed, took, worked = run(case, rounds + 1)
        wall = 1000 * (took - took_one) / rounds
        processor = 1000 * (worked - worked_one) / rounds
        print(f"{kinds * blocks} blocks, {kinds * sites} sites, {kinds} kinds, span {span}: {printed}; {wall:.1f} ms, {processor:.1f} ms of a processor")


if __name__ == "__main__":
    main()
