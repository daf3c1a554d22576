#!/usr/bin/env python3
"""Times `trace` on an architecture file of 60 MiB beside xmllint.

The bulk of the file is what architecture files carry and `trace` passes over: segments, switches, and delays inside the
interconnects. Each reads the same file in this one run. For each the wall time, the processor time and the peak memory
are printed, then the ratios. xmllint (Debian's package libxml2-utils) is passed over where it is missing."""

import os
import shutil
import subprocess
import sys
import tempfile
import time

TOP = os.path.dirname(os.path.dirname(os.path.dirname(os.path.abspath(__file__))))
CRATE = os.path.join(TOP, "crates", "vtr_main")
PROGRAM = os.path.join(CRATE, "out", "vtr_main")
SIZE = 60 * 1024 * 1024

FRONT = """<architecture><models/><device><sizing R_minW_nmos="8926" R_minW_pmos="16067"/></device>
"""
BACK = """<complexblocklist><pb_type name="blk">
<input name="i" num_pins="2"/><output name="o" num_pins="1"/>
<pb_type name="lut" num_pb="1" blif_model=".names" class="lut">
<input name="in" num_pins="1"/><output name="out" num_pins="1"/></pb_type>
<interconnect><mux name="m" input="blk.i[0] blk.i[1]" output="lut.in"/>
<direct name="d" input="lut.out" output="blk.o">
"""
END = """</direct></interconnect></pb_type></complexblocklist></architecture>
"""


def write_file(path):
    """Two thirds of the file are segments and switches, the last third is delays inside an interconnect."""
    with open(path, "w", encoding="ascii") as out:
        size = out.write(FRONT)
        number = 0
        size += out.write("<segmentlist>\n")
        while size < SIZE * 2 // 3:
            size += out.write(
                f'<segment name="s{number}" freq="0.{number % 100}" length="{number % 16}" Rmetal="101" Cmetal="22.5e-15">'
                '<sb type="pattern">1 1 1 1 1</sb><cb type="pattern">1 1 1 1</cb></segment>\n'
            )
            number += 1
        size += out.write("</segmentlist>\n")
        size += out.write(BACK)
        while size < SIZE:
            size += out.write(f'<delay_constant max="{number}e-12" in_port="lut.out" out_port="blk.o"/>\n')
            number += 1
        out.write(END)


def run(command):
    """The wall time and the processor time in seconds, and the peak memory in MiB, of a command that has
    to succeed."""
    start = time.monotonic()
    child = subprocess.Popen(command, stdout=subprocess.DEVNULL)
    _, status, usage = os.wait4(child.pid, 0)
    took = time.monotonic() - start
    child.returncode = os.waitstatus_to_exitcode(status)
    if child.returncode != 0:
        sys.exit(f"{command[0]} ended with status {child.returncode}")
    return took, usage.ru_utime + usage.ru_stime, usage.ru_maxrss / 1024


def main():
    if not os.path.exists(PROGRAM):
        subprocess.run(["rt", "run"], cwd=CRATE, check=False, stdout=subprocess.DEVNULL)
    with tempfile.TemporaryDirectory() as folder:
        path = os.path.join(folder, "large.xml")
        write_file(path)
        chosen = os.path.join(folder, "p.txt")
        with open(chosen, "w", encoding="ascii") as out:
            out.write("mode blk default\n")
        mib = os.path.getsize(path) / 1024 / 1024
        print(f"file: {mib:.1f} MiB, {os.cpu_count()} processors, load {os.getloadavg()[0]:.1f}")
        took, worked, memory = run([PROGRAM, "trace", path, "blk", chosen])
        print(f"trace: {took:.2f} s, {worked:.2f} s of a processor, {memory:.0f} MiB, {memory / mib:.1f} times the file")
        xmllint = shutil.which("xmllint")
        if xmllint is None:
            print("xmllint: not installed, passed over")
            return
        other, busy, room = run([xmllint, "--noout", "--huge", path])
        print(f"xmllint --noout: {other:.2f} s, {busy:.2f} s of a processor, {room:.0f} MiB, {room / mib:.1f} times the file")
        print(f"trace to xmllint: time {took / other:.2f}, processor {worked / busy:.2f}, memory {memory / room:.2f}")


if __name__ == "__main__":
    main()
