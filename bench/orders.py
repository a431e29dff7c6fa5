#!/usr/bin/env python3
"""Times `bouwkamp list` of each order by two programs in one run, and counts their instructions.

    bench/orders.py [--orders N..] [--runs K] BEFORE AFTER

BEFORE and AFTER are built programs, crates/bk_main/out/bk_main of two clones. Prints a markdown table, a row for each order, by default 2 to 11. The
times are of the processor, in milliseconds: the least and the median of K runs, by default 200, which take turns. Callgrind (valgrind) counts the
instructions, and counts each byte of a `rep stosb` as one.
"""
import argparse
import statistics
import tempfile

from resources import built_program, compiled, completed, counted, number_from_one, print_head, print_row


def times_of(peak, commands, runs):
    """Of each command the milliseconds of its runs, turn by turn."""
    times = [[] for _ in commands]
    for _ in range(runs):
        for command, its in zip(commands, times):
            its.append(1000 * completed(peak, command).processor)
    return times


def main():
    """Prints the table, a line for each order."""
    parser = argparse.ArgumentParser(description=__doc__, formatter_class=argparse.RawDescriptionHelpFormatter)
    parser.add_argument("before", type=built_program, metavar="BEFORE")
    parser.add_argument("after", type=built_program, metavar="AFTER")
    parser.add_argument("--orders", type=number_from_one, nargs="+", default=range(2, 12), metavar="N")
    parser.add_argument("--runs", type=number_from_one, default=200, metavar="K")
    given = parser.parse_args()
    print_head(["order", "least before", "after", "median before", "after", "instructions before", "after"])
    with tempfile.TemporaryDirectory() as folder:
        peak = compiled("peak_memory", folder)
        for order in given.orders:
            commands = [[program, "list", "--order", str(order)] for program in (given.before, given.after)]
            before, after = times_of(peak, commands, given.runs)
            counts = [counted(command) for command in commands]
            times = (min(before), min(after), statistics.median(before), statistics.median(after))
            print_row([order, *(f"{it:.3f}" for it in times), *(f"{it:,}" for it in counts)])


if __name__ == "__main__":
    main()
