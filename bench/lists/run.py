#!/usr/bin/env python3
"""Times the proved lists of positions and the proved queue by cost.

Each line goes round again and again, and tells how long one unlink and its relink take, or one push and its pop (with every
fourth item lowered between), in nanoseconds of wall time and of a processor. What it takes to start the program and to make
the lists or the queue is taken off."""

import os
import subprocess
import sys
import time

TOP = os.path.dirname(os.path.dirname(os.path.dirname(os.path.abspath(__file__))))
CRATE = os.path.join(TOP, "crates", "lists_bench")
PROGRAM = os.path.join(CRATE, "out", "lists_bench")

# positions, how many a list has at most
LISTS = [(10_000, 10), (1_000_000, 10), (1_000_000, 1_000)]
# items, span of the costs
QUEUES = [(10_000, 65_535), (100_000, 65_535), (1_000_000, 65_535)]


def run(positions, most, list_rounds, items, span, queue_rounds):
    """How many unlinks and pops the program tells, its wall time and its processor time in seconds."""
    words = [positions, most, list_rounds, items, span, queue_rounds]
    start = time.monotonic()
    child = subprocess.Popen([PROGRAM, *map(str, words)], stdout=subprocess.PIPE, text=True)
    unlinks, _, pops, _ = child.stdout.read().split()
    _, status, usage = os.wait4(child.pid, 0)
    took = time.monotonic() - start
    child.returncode = os.waitstatus_to_exitcode(status)
    if child.returncode != 0:
        sys.exit(f"the program ended with status {child.returncode}")
    return int(unlinks) + int(pops), took, usage.ru_utime + usage.ru_stime


def measure(title, what, rounds, words):
    """Prints the nanoseconds of each step, from the times of one round and of all. `words` gives the program's, from rounds."""
    steps_one, took_one, worked_one = run(*words(1))
    steps, took, worked = run(*words(rounds + 1))
    wall = 1e9 * (took - took_one) / (steps - steps_one)
    processor = 1e9 * (worked - worked_one) / (steps - steps_one)
    print(f"{title}: {steps} of {what}; {wall:.1f} ns each, {processor:.1f} ns of a processor")


def main():
    if not os.path.exists(PROGRAM):
        subprocess.run(["rt", "run"], cwd=CRATE, check=False, stdout=subprocess.DEVNULL)
    print(f"{os.cpu_count()} processors, load {os.getloadavg()[0]:.1f}")
    for positions, most in LISTS:
        measure(
            f"{positions} positions in lists of {most}",
            "unlink and relink",
            40_000_000 // positions,
            lambda rounds: (positions, most, rounds, 0, 0, 0),
        )
    for items, span in QUEUES:
        measure(
            f"{items} items, span {span}",
            "push and pop",
            20_000_000 // items,
            lambda rounds: (0, 1, 0, items, span, rounds),
        )


if __name__ == "__main__":
    main()
