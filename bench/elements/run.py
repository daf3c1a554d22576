#!/usr/bin/env python3
"""Times the proved reader of element text beside xmllint, on a file of 60 MiB of small elements.

Each reads the same file in this one run. For each the wall time, the processor time and the peak memory are printed,
then the ratios. xmllint (Debian's package libxml2-utils) is passed over where it is missing."""

import os
import shutil
import subprocess
import sys
import tempfile
import time

TOP = os.path.dirname(os.path.dirname(os.path.dirname(os.path.abspath(__file__))))
CRATE = os.path.join(TOP, "crates", "elem_bench")
PROGRAM = os.path.join(CRATE, "out", "elem_bench")
SIZE = 60 * 1024 * 1024


def write_file(path):
    """Small elements, each with three attributes and some text, in groups of ten."""
    with open(path, "w", encoding="ascii") as out:
        size = out.write("<all>\n")
        number = 0
        while size < SIZE:
            size += out.write(f'<group id="{number}">\n')
            for _ in range(10):
                size += out.write(f'<wire id="{number}" from="clb.O[{number % 8}]" to="io.I[{number % 4}]">net {number}</wire>\n')
                number += 1
            size += out.write("</group>\n")
        out.write("</all>\n")


def run(command):
    """The wall time and the processor time in seconds, and the peak memory in MiB, of a command that has
    to succeed."""
    start = time.monotonic()
    child = subprocess.Popen(command, stdout=subprocess.DEVNULL)
    _, status, usage = os.wait4(child.pid, 0)
    took = time.monotonic() - start
    child.returncode = os.waitstatus_to_exitcode(status)
    if child.returncode != 0:
        sys.exit(f"{command[0]} ended with status {child.returncode}")
    return took, usage.ru_utime + usage.ru_stime, usage.ru_maxrss / 1024


def main():
    if not os.path.exists(PROGRAM):
        subprocess.run(["rt", "run"], cwd=CRATE, check=False, stdout=subprocess.DEVNULL)
    with tempfile.TemporaryDirectory() as folder:
        path = os.path.join(folder, "elements.xml")
        write_file(path)
        mib = os.path.getsize(path) / 1024 / 1024
        print(f"file: {mib:.1f} MiB, {os.cpu_count()} processors")
        took, worked, memory = run([PROGRAM, path])
        print(f"proved reader: {took:.2f} s, {worked:.2f} s of a processor, {memory:.0f} MiB, {memory / mib:.1f} times the file")
        xmllint = shutil.which("xmllint")
        if xmllint is None:
            print("xmllint: not installed, passed over")
            return
        other, busy, room = run([xmllint, "--noout", "--huge", path])
        print(f"xmllint --noout: {other:.2f} s, {busy:.2f} s of a processor, {room:.0f} MiB, {room / mib:.1f} times the file")
        print(f"reader to xmllint: time {took / other:.2f}, processor {worked / busy:.2f}, memory {memory / room:.2f}")


if __name__ == "__main__":
    main()
