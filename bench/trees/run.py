#!/usr/bin/env python3
"""Times `vtr refute` on a refutation tree of about 60 MiB, over a block of 2^16 pins.

The block has 32,766 LUTs of one input, each of which can take it from two inputs of the block, and an output pad into
whose pin nothing leads. The task is to hold one output, which can't be met: a cut of that one pin shows it anywhere. The
tree branches on the edges of all LUTs' inputs, one below the other, 32,000 levels deep, with a cut in two of three
children; and at the bottom on those of the last ones in all three children, so that most of its lines are there. A tree
whose bottom has one level less is about a third of it.

For each the lines, the size, the wall time, the time of a processor and the peak memory are printed, and what is left
when the time of a tree of two lines is taken away. A word on the command line is a folder in which the files are left."""

import os
import subprocess
import sys
import tempfile
import time

TOP = os.path.dirname(os.path.dirname(os.path.dirname(os.path.abspath(__file__))))
CRATE = os.path.join(TOP, "crates", "vtr_main")
PROGRAM = os.path.join(CRATE, "out", "vtr_main")
LUTS = 32766
LEVELS = 32000
BOTTOM = 12

ARCHITECTURE = f"""<architecture><complexblocklist>
<pb_type name="logic_block"><input name="i" num_pins="2"/><output name="o" num_pins="1"/>
<mode name="with_lookup_tables">
<pb_type name="lookup_table" blif_model=".names" num_pb="{LUTS}"><input name="input_pin" num_pins="1"/><output name="out" num_pins="1"/></pb_type>
<pb_type name="output_pad" blif_model=".output" num_pb="1"><input name="outpad" num_pins="1"/></pb_type>
<interconnect><complete name="c" input="logic_block.i" output="lookup_table.input_pin"/></interconnect>
</mode></pb_type></complexblocklist></architecture>
"""
NETLIST = ".model m\n.inputs x\n.outputs y\n.names x y\n1 1\n.end\n"
MODE = "with_lookup_tables"
CUT = f"cut 0 logic_block/{MODE}:output_pad[0].outpad[0]\n"


def branch(lut):
    return f"branch edge logic_block/{MODE}:lookup_table[{lut}].input_pin[0] {MODE} 3\n"


def bottom(lut, levels):
    """All three children of each branch, so many levels deep."""
    if levels == 0:
        return [CUT]
    below = bottom(lut + 1, levels - 1)
    return [branch(lut)] + below + below + below


def write_tree(path, levels, depth):
    lines = 1
    with open(path, "w", encoding="ascii") as out:
        out.write("branch mode logic_block 1\n")
        for lut in range(levels):
            out.write(branch(lut) + CUT + CUT)
            lines += 3
        rest = bottom(levels, depth)
        out.writelines(rest)
    return lines + len(rest)


def run(command):
    """What a command says that has to succeed, its wall time and its time of a processor in seconds, and its peak memory in MiB."""
    start = time.monotonic()
    child = subprocess.Popen(command, stdout=subprocess.PIPE, text=True)
    told = child.stdout.read().strip()
    _, status, usage = os.wait4(child.pid, 0)
    took = time.monotonic() - start
    child.returncode = os.waitstatus_to_exitcode(status)
    if child.returncode != 0:
        sys.exit(f"status {child.returncode}: {told}")
    return told, took, usage.ru_utime + usage.ru_stime, usage.ru_maxrss / 1024


def compare(folder):
    files = {"b.xml": ARCHITECTURE, "m.blif": NETLIST, "atoms.txt": "out:y\n"}
    for name, text in files.items():
        with open(os.path.join(folder, name), "w", encoding="ascii") as out:
            out.write(text)
    print(f"{os.cpu_count()} processors, load {os.getloadavg()[0]:.1f}")
    alone = None
    for levels, depth in ((0, 0), (LEVELS, BOTTOM - 1), (LEVELS, BOTTOM)):
        tree = os.path.join(folder, f"tree{levels}_{depth}.txt")
        lines = write_tree(tree, levels, depth)
        names = [os.path.join(folder, name) for name in ("b.xml", "m.blif")]
        told, took, worked, memory = run([PROGRAM, "refute", *names, "logic_block", os.path.join(folder, "atoms.txt"), tree])
        mib = os.path.getsize(tree) / 1024 / 1024
        alone = worked if alone is None else alone
        print(f"{lines} lines, {mib:.1f} MiB: {told}, {took:.2f} s, {worked:.2f} s of a processor, {memory:.0f} MiB; of the tree alone {worked - alone:.2f} s")


def main():
    if not os.path.exists(PROGRAM):
        subprocess.run(["rt", "run"], cwd=CRATE, check=False, stdout=subprocess.DEVNULL)
    if len(sys.argv) > 1:
        compare(sys.argv[1])
        return
    with tempfile.TemporaryDirectory() as folder:
        compare(folder)


if __name__ == "__main__":
    main()
