#!/usr/bin/env python3
"""Times `trace` on a chain of LUTs that pass their input on, in one block type.

Each line is one chain: how many LUTs it has, how long the text of its programming is, the wall time and the processor
time of the whole program, and the most memory that it held at once. The programming sets every LUT, so that the first
pin of the block type reaches every LUT of the chain: the last line that is printed is tested for that."""

import os
import subprocess
import sys
import tempfile
import time

TOP = os.path.dirname(os.path.dirname(os.path.dirname(os.path.abspath(__file__))))
CRATE = os.path.join(TOP, "crates", "vtr_main")
PROGRAM = os.path.join(CRATE, "out", "vtr_main")

# how many LUTs
CASES = [1 << 15, 1 << 18]


# how many instances of one child a pb_type may have
MOST = 65536


def luts(count):
    """The LUTs of the chain in order, as the name of a child and an index: no child has more than `MOST` instances."""
    return [(f"lut{place // MOST}", place % MOST) for place in range(count)]


def write_architecture(path, count):
    """A block type with `count` LUTs of one input, each of which the one before feeds."""
    sizes = [min(MOST, count - start) for start in range(0, count, MOST)]
    with open(path, "w", encoding="ascii") as out:
        out.write(
            '<architecture><complexblocklist><pb_type name="row"><input name="i" num_pins="1"/>'
            '<output name="o" num_pins="1"/>\n'
        )
        for part, size in enumerate(sizes):
            out.write(
                f'<pb_type name="lut{part}" num_pb="{size}" blif_model=".names" class="lut">'
                '<input name="in" num_pins="1"/><output name="out" num_pins="1"/></pb_type>\n'
            )
        out.write("<interconnect>")
        source = "row.i"
        for part, size in enumerate(sizes):
            lut = f"lut{part}"
            out.write(f'<direct name="to_{part}" input="{source}" output="{lut}[0].in"/>\n')
            out.write(f'<direct name="in_{part}" input="{lut}[{size - 2}:0].out" output="{lut}[{size - 1}:1].in"/>\n')
            source = f"{lut}[{size - 1}].out"
        out.write(f'<direct name="last" input="{source}" output="row.o"/></interconnect>\n')
        out.write("</pb_type></complexblocklist></architecture>\n")


def write_programming(path, count):
    """Each LUT is used, passes its input on, and takes the edge from the one before it."""
    with open(path, "w", encoding="ascii") as out:
        out.write("mode row default\n")
        source = "row.i[0]"
        for child, index in luts(count):
            lut = f"row/default:{child}[{index}]"
            out.write(f"pin {lut}.in[0] default {source}\nused {lut}\nlut {lut} wire 0\n")
            source = f"{lut}.out[0]"
        out.write(f"pin row.o[0] default {source}\n")


def run(folder, count):
    """The last line that the program prints, its wall time, its processor time in seconds and its memory in MiB."""
    answers = os.path.join(folder, "answers")
    start = time.monotonic()
    with open(answers, "w", encoding="ascii") as out:
        child = subprocess.Popen([PROGRAM, "trace", "row.xml", "row", "row.prog"], cwd=folder, stdout=out)
        _, status, usage = os.wait4(child.pid, 0)
    wall = time.monotonic() - start
    child.returncode = os.waitstatus_to_exitcode(status)
    with open(answers, encoding="ascii") as text:
        lines = text.read().splitlines()
    if child.returncode != 0:
        sys.exit(f"the program ended with status {child.returncode}: {lines[-1:]}")
    child_name, index = luts(count)[-1]
    if lines[-1] != f"row/default:{child_name}[{index}].in[0] row.i[0]":
        sys.exit(f"a wrong answer: {lines[-1]}")
    return wall, usage.ru_utime + usage.ru_stime, usage.ru_maxrss / 1024


def main():
    if not os.path.exists(PROGRAM):
        subprocess.run(["rt", "run"], cwd=CRATE, check=False, stdout=subprocess.DEVNULL)
    print(f"{os.cpu_count()} processors, load {os.getloadavg()[0]:.1f}")
    with tempfile.TemporaryDirectory() as folder:
        for count in CASES:
            write_architecture(os.path.join(folder, "row.xml"), count)
            write_programming(os.path.join(folder, "row.prog"), count)
            size = os.path.getsize(os.path.join(folder, "row.prog")) / 1e6
            wall, processor, memory = run(folder, count)
            print(f"{count} LUTs, {size:.1f} MB: {wall:.1f} s, {processor:.1f} s of a processor, {memory:.0f} MiB")


if __name__ == "__main__":
    main()
