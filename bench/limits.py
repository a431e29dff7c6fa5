#!/usr/bin/env python3
"""Times `bouwkamp list --limit 1` from the start and after entries of a catalogue, beside the whole listing, in one run.

    bench/limits.py [--order N] [--runs K] PROGRAM

PROGRAM is the built program, crates/bk_main/out/bk_main. The entries are the first, a middle one and the last, and the last whose word begins
with each number of squares at the top. Prints a markdown table: seconds, and how much that is of the whole listing. N is by default 16. The times
are of the processor, the least of K runs, by default 5, which take turns.
"""
import argparse
import sys
import tempfile

from resources import built_program, compiled, completed, measured, number_from_one, print_head, print_row


def words_listed(peak, program, order):
    """The words of the members of an order, ascending."""
    run = completed(peak, [program, "list", "--order", str(order)])
    return [line.split(" ; ")[1] for line in run.text.splitlines() if not line.startswith(";")] or sys.exit(f"order {order} has no members")


def count_of(word):
    """How many squares the first move hangs."""
    return int("".join(c for c in word.split(".")[0] if c.isdigit()))


def places(words):
    """What is timed: a name, and the place of the entry after which one is asked for, from 0."""
    last = len(words) - 1
    yield "the first entry", 0
    yield "the middle entry", last // 2
    for place in range(last):
        if count_of(words[place]) != count_of(words[place + 1]):
            yield f"the last entry that begins with {count_of(words[place])} squares", place
    yield "the last entry", last


def least(peak, commands, runs):
    """The least processor time of each command, run turn by turn."""
    times = [[measured(peak, command).processor for command in commands] for _ in range(runs)]
    return [min(its) for its in zip(*times)]


def main():
    """Prints the table."""
    parser = argparse.ArgumentParser(description=__doc__, formatter_class=argparse.RawDescriptionHelpFormatter)
    parser.add_argument("program", type=built_program, metavar="PROGRAM")
    parser.add_argument("--order", type=number_from_one, default=16, metavar="N")
    parser.add_argument("--runs", type=number_from_one, default=5, metavar="K")
    given = parser.parse_args()
    with tempfile.TemporaryDirectory() as folder:
        peak = compiled("peak_memory", folder)
        words = words_listed(peak, given.program, given.order)
        whole = [given.program, "list", "--order", str(given.order)]
        rows = [("the whole listing", whole), ("one, from the start", [*whole, "--limit", "1"])]
        for name, place in places(words):
            rows.append((f"one, after {name}", [*whole, "--limit", "1", "--from", words[place]]))
        times = least(peak, [command for _, command in rows], given.runs)
    print_head([f"order {given.order}", "seconds", "of the whole"])
    for (name, _), seconds in zip(rows, times):
        print_row([name, f"{seconds:.3f}", f"{100 * seconds / times[0]:.0f} %"])


if __name__ == "__main__":
    main()
