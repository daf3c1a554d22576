#!/usr/bin/env python3
"""Times the proved reader of FASM text on a file of 60 MiB, beside the proved reader of element text on one of that size.

Each reads its file in this one run. For each the wall time, the processor time and the peak memory are printed, and then
the ratio: the reader of FASM takes at most the time of the reader of elements."""

import os
import subprocess
import sys
import tempfile
import time

TOP = os.path.dirname(os.path.dirname(os.path.dirname(os.path.abspath(__file__))))
SIZE = 60 * 1024 * 1024


def write_fasm(path):
    """Features of one bit, and each tenth line a table of 64 bits in one of three bases."""
    with open(path, "w", encoding="ascii") as out:
        size = 0
        number = 0
        while size < SIZE:
            for _ in range(9):
                size += out.write(f"CLB_X{number % 97}Y{number % 89}.SLICE{number % 2}.FF{number % 8}.ZINI\n")
                number += 1
            value = number * 0x9E3779B97F4A7C15 % 2**64
            text = (f"64'b{value:064b}", f"64'h{value:016x}", f"{value}")[number % 3]
            size += out.write(f"CLB_X{number % 97}Y{number % 89}.ALUT.INIT[63:0] = {text}\n")


def write_elements(path):
    """Small elements, each with three attributes and some text, in groups of ten."""
    with open(path, "w", encoding="ascii") as out:
        size = out.write("<all>\n")
        number = 0
        while size < SIZE:
            size += out.write(f'<group id="{number}">\n')
            for _ in range(10):
                size += out.write(f'<wire id="{number}" from="clb.O[{number % 8}]" to="io.I[{number % 4}]">net {number}</wire>\n')
                number += 1
            size += out.write("</group>\n")
        out.write("</all>\n")


def program(crate):
    folder = os.path.join(TOP, "crates", crate)
    path = os.path.join(folder, "out", crate)
    if not os.path.exists(path):
        subprocess.run(["rt", "run"], cwd=folder, check=False, stdout=subprocess.DEVNULL)
    return path


def run(command):
    """The wall time and the processor time in seconds, and the peak memory in MiB, of a command that has
    to succeed."""
    start = time.monotonic()
    child = subprocess.Popen(command, stdout=subprocess.DEVNULL)
    _, status, usage = os.wait4(child.pid, 0)
    took = time.monotonic() - start
    child.returncode = os.waitstatus_to_exitcode(status)
    if child.returncode != 0:
        sys.exit(f"{command[0]} ended with status {child.returncode}")
    return took, usage.ru_utime + usage.ru_stime, usage.ru_maxrss / 1024


def main():
    with tempfile.TemporaryDirectory() as folder:
        worked = []
        for crate, write in (("fasm_bench", write_fasm), ("elem_bench", write_elements)):
            path = os.path.join(folder, crate)
            write(path)
            mib = os.path.getsize(path) / 1024 / 1024
            took, busy, memory = run([program(crate), path])
            worked.append(busy)
            print(f"{crate}: {mib:.1f} MiB, {took:.2f} s, {busy:.2f} s of a processor, {memory:.0f} MiB")
        print(f"FASM to elements: processor time {worked[0] / worked[1]:.2f}")


if __name__ == "__main__":
    main()
