#!/usr/bin/env python3
"""Times the proved reader of routing graph files beside xmllint, on a file of 60 MiB as VPR writes it.

The graph is that of a square grid of logic blocks with channels of 100 tracks: each wire of a channel leads on
into the channels around its switch block and into pins beside it, and each output pin into every fifth track.
Edges between wires, and from pins to wires, have features in their metadata; edges into pins have none. `timing`,
`segment`, `channels`, `segments` and the other parts that the reader passes over are there as VPR writes them.

Each reads the same file in this one run; the proved reader reads the architecture too, and builds the graph of
wires. For each the wall time, the processor time and the peak memory are printed, then the ratios. xmllint
(Debian's package libxml2-utils) is passed over where it is missing. A word on the command line is a folder in
which the two files are left."""

import os
import shutil
import subprocess
import sys
import tempfile
import time

TOP = os.path.dirname(os.path.dirname(os.path.dirname(os.path.abspath(__file__))))
CRATE = os.path.join(TOP, "crates", "rr_bench")
PROGRAM = os.path.join(CRATE, "out", "rr_bench")
SIZE = 60 * 1024 * 1024
SIDE = 17
TRACKS = 100
INPUTS = 40
OUTPUTS = 20
CLOCK = INPUTS + OUTPUTS
PINS = CLOCK + 1
# in each place: the sources of the outputs, the sinks of the inputs and of the clock, the pins, two channels
NODES = OUTPUTS + 2 + PINS + 2 * TRACKS

ARCHITECTURE = f"""<architecture>
<models/>
<tiles>
<tile name="clb" area="0">
<sub_tile name="clb" capacity="1">
<equivalent_sites><site pb_type="clb" pin_mapping="direct"/></equivalent_sites>
<input name="I" num_pins="{INPUTS}"/><output name="O" num_pins="{OUTPUTS}"/><clock name="clk" num_pins="1"/>
<fc in_type="frac" in_val="0.15" out_type="frac" out_val="0.2"/>
<pinlocations pattern="spread"/>
</sub_tile>
</tile>
</tiles>
<layout>
<fixed_layout name="square" width="{SIDE}" height="{SIDE}">
<fill type="clb" priority="1"/>
</fixed_layout>
</layout>
<complexblocklist>
<pb_type name="clb">
<input name="I" num_pins="{INPUTS}"/><output name="O" num_pins="{OUTPUTS}"/><clock name="clk" num_pins="1"/>
<pb_type name="lut" blif_model=".names" num_pb="{OUTPUTS}" class="lut">
<input name="in" num_pins="4" port_class="lut_in"/><output name="out" num_pins="1" port_class="lut_out"/>
</pb_type>
<interconnect>
<complete name="into" input="clb.I" output="lut[{OUTPUTS - 1}:0].in"/>
<direct name="out" input="lut[{OUTPUTS - 1}:0].out" output="clb.O"/>
</interconnect>
</pb_type>
</complexblocklist>
</architecture>
"""


def heads(out):
    """The parts before the nodes."""
    size = out.write('<?xml version="1.0"?>\n')
    size += out.write('<rr_graph tool_comment="Generated from a square grid" tool_name="vpr" tool_version="8.1.0">\n')
    size += out.write("<channels>\n")
    size += out.write(f'<channel chan_width_max="{TRACKS}" x_max="{TRACKS}" x_min="{TRACKS}" y_max="{TRACKS}" y_min="{TRACKS}"/>\n')
    for kind in ("x_list", "y_list"):
        for index in range(SIDE):
            size += out.write(f'<{kind} index="{index}" info="{TRACKS}"/>\n')
    size += out.write("</channels>\n<switches>\n")
    for number, (name, delay) in enumerate((("0", "5.8e-11"), ("ipin_cblock", "7.2e-11"), ("__vpr_delayless_switch__", "0"))):
        size += out.write(f'<switch id="{number}" name="{name}" type="mux">\n')
        size += out.write(f'<timing Cin="7.7e-16" Cinternal="0" Cout="4e-15" R="551" Tdel="{delay}"/>\n')
        size += out.write('<sizing buf_size="27.6" mux_trans_size="2.6"/>\n</switch>\n')
    size += out.write('</switches>\n<segments>\n<segment id="0" name="L1">\n')
    size += out.write('<timing C_per_meter="2.2e-14" R_per_meter="101"/>\n</segment>\n</segments>\n')
    size += out.write('<block_types>\n<block_type height="1" id="0" name="EMPTY" width="1">\n</block_type>\n')
    size += out.write('<block_type height="1" id="1" name="clb" width="1">\n<pin_class type="INPUT">\n')
    for bit in range(INPUTS):
        size += out.write(f'<pin ptc="{bit}">clb.I[{bit}]</pin>\n')
    size += out.write("</pin_class>\n")
    for bit in range(OUTPUTS):
        size += out.write(f'<pin_class type="OUTPUT">\n<pin ptc="{INPUTS + bit}">clb.O[{bit}]</pin>\n</pin_class>\n')
    size += out.write(f'<pin_class type="INPUT">\n<pin ptc="{CLOCK}">clb.clk[0]</pin>\n</pin_class>\n</block_type>\n</block_types>\n<grid>\n')
    for x in range(SIDE):
        for y in range(SIDE):
            size += out.write(f'<grid_loc block_type_id="1" height_offset="0" layer="0" width_offset="0" x="{x}" y="{y}"/>\n')
    return size + out.write("</grid>\n")


def first_node(x, y):
    return (x * SIDE + y) * NODES


def source(x, y, bit):
    return first_node(x, y) + bit


def sink(x, y, of_clock):
    return first_node(x, y) + OUTPUTS + of_clock


def pin(x, y, ptc):
    return first_node(x, y) + OUTPUTS + 2 + ptc


def wire(x, y, vertical, track):
    return first_node(x, y) + OUTPUTS + 2 + PINS + vertical * TRACKS + track


def node(out, number, kind, x, y, ptc, rest="", loc=""):
    return out.write(
        f'<node capacity="1"{rest} id="{number}" type="{kind}">\n'
        f'<loc layer="0" ptc="{ptc}"{loc} xhigh="{x}" xlow="{x}" yhigh="{y}" ylow="{y}"/>\n'
        '<timing C="0" R="0"/>\n</node>\n'
    )


def channel(out, number, kind, x, y, track):
    way = "INC_DIR" if track % 2 == 0 else "DEC_DIR"
    return out.write(
        f'<node capacity="1" direction="{way}" id="{number}" type="{kind}">\n'
        f'<loc layer="0" ptc="{track}" xhigh="{x}" xlow="{x}" yhigh="{y}" ylow="{y}"/>\n'
        '<timing C="1.42e-14" R="101"/>\n<segment segment_id="0"/>\n</node>\n'
    )


def nodes(out):
    size = out.write("<rr_nodes>\n")
    for x in range(SIDE):
        for y in range(SIDE):
            for bit in range(OUTPUTS):
                size += node(out, source(x, y, bit), "SOURCE", x, y, bit + 1)
            size += node(out, sink(x, y, 0), "SINK", x, y, 0)
            size += node(out, sink(x, y, 1), "SINK", x, y, OUTPUTS + 1)
            for ptc in range(PINS):
                side = ' side="RIGHT"' if ptc % 2 == 0 else ' side="TOP"'
                kind = "OPIN" if INPUTS <= ptc < CLOCK else "IPIN"
                size += node(out, pin(x, y, ptc), kind, x, y, ptc, loc=side)
            for track in range(TRACKS):
                size += channel(out, wire(x, y, 0, track), "CHANX", x, y, track)
            for track in range(TRACKS):
                size += channel(out, wire(x, y, 1, track), "CHANY", x, y, track)
    return size + out.write("</rr_nodes>\n")


def plain_edge(out, start, end, switch):
    return out.write(f'<edge sink_node="{end}" src_node="{start}" switch_id="{switch}"/>\n')


def edge(out, start, end, features):
    return out.write(
        f'<edge sink_node="{end}" src_node="{start}" switch_id="0">\n<metadata>\n'
        f'<meta name="fasm_features">{features}</meta>\n</metadata>\n</edge>\n'
    )


def edges_at(out, x, y):
    """The edges that leave the nodes of one place."""
    size = 0
    for bit in range(OUTPUTS):
        size += plain_edge(out, source(x, y, bit), pin(x, y, INPUTS + bit), 2)
    for ptc in range(INPUTS):
        size += plain_edge(out, pin(x, y, ptc), sink(x, y, 0), 2)
    size += plain_edge(out, pin(x, y, CLOCK), sink(x, y, 1), 2)
    for bit in range(OUTPUTS):
        for track in range(bit % 5, TRACKS, 5):
            way = track % 2
            size += edge(out, pin(x, y, INPUTS + bit), wire(x, y, way, track), f"CB_X{x}Y{y}.W{way}_{track}.O{bit}")
    for vertical in range(2):
        for track in range(TRACKS):
            start = wire(x, y, vertical, track)
            ends = ((x + 1, y, 0, track), (x, y + 1, 1, track), (x, y, 1 - vertical, (track * 7 + 3) % TRACKS))
            for to_x, to_y, way, to_track in ends:
                if to_x < SIDE and to_y < SIDE:
                    name = f"SB_X{to_x}Y{to_y}.W{way}_{to_track}.FROM_{vertical}_{track}"
                    size += edge(out, start, wire(to_x, to_y, way, to_track), name)
            for step in range(3):
                ptc = (track * 3 + step * 13 + vertical) % (INPUTS + 1)
                size += plain_edge(out, start, pin(x, y, CLOCK if ptc == INPUTS else ptc), 1)
    return size


def write_graph(path):
    """The file, up to the place at which it has its size; the edges go place by place."""
    with open(path, "w", encoding="ascii") as out:
        size = heads(out) + nodes(out) + out.write("<rr_edges>\n")
        for x in range(SIDE):
            for y in range(SIDE):
                if size < SIZE:
                    size += edges_at(out, x, y)
        out.write("</rr_edges>\n</rr_graph>\n")
    if size < SIZE:
        sys.exit(f"the grid is too small: {size} bytes")


def run(command):
    """The wall time and the processor time in seconds, and the peak memory in MiB, of a command that has
    to succeed."""
    start = time.monotonic()
    child = subprocess.Popen(command, stdout=subprocess.PIPE, text=True)
    told = child.stdout.read().strip()
    _, status, usage = os.wait4(child.pid, 0)
    took = time.monotonic() - start
    child.returncode = os.waitstatus_to_exitcode(status)
    if child.returncode != 0:
        sys.exit(f"{command[0]} ended with status {child.returncode}")
    return told, took, usage.ru_utime + usage.ru_stime, usage.ru_maxrss / 1024


def compare(folder):
    architecture = os.path.join(folder, "square.xml")
    graph = os.path.join(folder, "square.rr")
    with open(architecture, "w", encoding="ascii") as out:
        out.write(ARCHITECTURE)
    write_graph(graph)
    mib = os.path.getsize(graph) / 1024 / 1024
    print(f"file: {mib:.1f} MiB, {os.cpu_count()} processors, load {os.getloadavg()[0]:.1f}")
    told, took, worked, memory = run([PROGRAM, architecture, graph])
    print(told)
    print(f"proved reader: {took:.2f} s, {worked:.2f} s of a processor, {memory:.0f} MiB, {memory / mib:.1f} times the file")
    xmllint = shutil.which("xmllint")
    if xmllint is None:
        print("xmllint: not installed, passed over")
        return
    _, other, busy, room = run([xmllint, "--noout", "--huge", graph])
    print(f"xmllint --noout: {other:.2f} s, {busy:.2f} s of a processor, {room:.0f} MiB, {room / mib:.1f} times the file")
    print(f"reader to xmllint: time {took / other:.2f}, processor {worked / busy:.2f}, memory {memory / room:.2f}")


def main():
    if not os.path.exists(PROGRAM):
        subprocess.run(["rt", "run"], cwd=CRATE, check=False, stdout=subprocess.DEVNULL)
    if len(sys.argv) > 1:
        compare(sys.argv[1])
        return
    with tempfile.TemporaryDirectory() as folder:
        compare(folder)


if __name__ == "__main__":
    main()
