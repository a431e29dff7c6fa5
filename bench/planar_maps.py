#!/usr/bin/env python3
"""Times bench/planar_maps.c, the way through all 3-connected planar maps in memory, and beside it `list` of PROGRAM, one run after the other.

    bench/planar_maps.py [--first N] [--last N] [--class CLASS] [--runs K] [PROGRAM]

Compiles planar_maps.c and peak_memory.c with gcc in a folder of its own, and tries the numbers of simple perfect rectangles of the orders 9 to 13.
Then prints a markdown table for the orders from 13 to 16, or those named: the members, seconds of wall, processor and user time, and the memory at
the peak. Each time is the least of K runs, by default 3, or of one that took more than 10 s; the memory is the greatest. The kernel parts user from
system time by samples of some milliseconds, so the user time of a shorter run says nothing. With PROGRAM, the path of the built program
crates/bk_main/out/bk_main, the last column says whether both wrote the same codes in the same order.
"""
import argparse
import sys
import tempfile

from resources import built_program, compiled, completed, number_from_one, print_head, print_row

# The numbers of simple perfect squared rectangles by order (Bouwkamp and Duijvestijn).
PERFECT = {9: 2, 10: 6, 11: 22, 12: 67, 13: 213}
# A run of more seconds isn't repeated.
LONG = 10


class Least:
    """What runs of a command took: the least seconds of wall, processor and user time, the greatest number of kilobytes, and the lines written."""

    def __init__(self, peak, command, runs):
        self.wall = self.processor = self.user = float("inf")
        self.kilobytes = 0
        for _ in range(runs):
            run = completed(peak, command)
            self.lines = [line.partition(" ;")[0] for line in run.text.splitlines() if not line.startswith(";")]
            self.wall, self.user = min(self.wall, run.wall), min(self.user, run.user)
            self.processor = min(self.processor, run.processor)
            self.kilobytes = max(self.kilobytes, run.kilobytes)
            if run.wall > LONG:
                break

    def cells(self):
        return [f"{self.wall:.3f}", f"{self.processor:.3f}", f"{self.user:.3f}", f"{self.kilobytes / 1024:.1f}"]


def try_numbers(peak, maps):
    """Ends the script if the numbers of known orders come out otherwise."""
    for order, members in PERFECT.items():
        found = len(Least(peak, [maps, str(order)], 1).lines)
        if found != members:
            sys.exit(f"order {order}: {found} codes and not {members}")


def row(peak, program, order, asked):
    """The cells of an order."""
    maps = Least(peak, [program, str(order), asked.kind], asked.runs)
    cells = [order, len(maps.lines), *maps.cells()]
    if asked.program:
        listed = Least(peak, [asked.program, "list", "--order", str(order), "--class", asked.kind], asked.runs)
        cells += [*listed.cells(), likeness(listed.lines, maps.lines)]
    return cells


def likeness(ones, others):
    return "yes" if ones == others else "in another order" if sorted(ones) == sorted(others) else "NO"


def words():
    parser = argparse.ArgumentParser(description=__doc__, formatter_class=argparse.RawDescriptionHelpFormatter)
    parser.add_argument("program", nargs="?", type=built_program, metavar="PROGRAM")
    parser.add_argument("--first", type=number_from_one, default=13, metavar="N")
    parser.add_argument("--last", type=number_from_one, default=16, metavar="N")
    parser.add_argument("--class", dest="kind", choices=["perfect", "imperfect", "simple"], default="perfect", metavar="CLASS")
    parser.add_argument("--runs", type=number_from_one, default=3, metavar="K")
    return parser.parse_args()


def main():
    asked = words()
    with tempfile.TemporaryDirectory() as folder:
        peak, maps = compiled("peak_memory", folder), compiled("planar_maps", folder)
        try_numbers(peak, maps)
        heads = ["order", "members", "maps: wall s", "processor s", "user s", "peak MiB"]
        if asked.program:
            heads += ["list: wall s", "processor s", "user s", "peak MiB", "same codes"]
        print_head(heads)
        for order in range(asked.first, asked.last + 1):
            print_row(row(peak, maps, order, asked))


if __name__ == "__main__":
    main()
