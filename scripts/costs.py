#!/usr/bin/env python3
"""Prints what the proof of each crate costs: the seconds of one proof of it; how many crates are below it, and the seconds with them, which the first
check in a fresh clone takes on one processor; how many are above it, and the seconds with them, which a change of it costs the gate. Then the lines of
code with contracts, of definitions and of proofs, and the numbers of edits and of tests.

The seconds are an estimate, as scripts/build.py makes it: by scripts/seconds.txt, or by the lines of the crate.

    scripts/costs.py [CRATE..]
"""
import sys

from running import heed_closed_pipes
from sources import LINES_A_SECOND, above, files_of, lines_of, text_of, works_of

HEAD = ("crate", "seconds", "below", "with them", "above", "with them", "src", "specs", "proofs", "edits", "tests")


def rounded(seconds):
    """Returns an estimate, to two digits."""
    places = 10 ** max(0, len(str(round(seconds))) - 2)
    return round(seconds / places) * places


def sizes(crate):
    """Returns the lines of code, of definitions and of proofs, and the numbers of edits and of tests."""
    tests = sum(text_of(it).count("#[test]") for it in files_of(crate, "src", ".rt"))
    return [*lines_of(crate), len(files_of(crate, "must-fail", ".edit")), tests]


def rows(names):
    """Returns the row of each of these crates."""
    over = above()
    under = {it: {name for name, found in over.items() if it in found} for it in over}
    seconds = {it: work / LINES_A_SECOND for it, work in works_of(over).items()}
    for crate in names or over:
        own, row = seconds[crate], [crate, rounded(seconds[crate])]
        for found in (under[crate], over[crate]):
            row += [len(found), rounded(own + sum(seconds[it] for it in found))]
        yield [*row, *sizes(crate)]


def main(names):
    heed_closed_pipes()
    unknown = [it for it in names if it not in above()]
    if unknown:
        sys.exit(f"crates.txt has no crate {unknown[0]}")
    table = [HEAD, *rows(names)]
    if not names:
        table.append([f"all {len(table) - 1}", *[""] * 5, *(sum(it[k] for it in table[1:]) for k in range(6, 11))])
    wide = max(len(row[0]) for row in table)
    for row in table:
        print(f"{row[0]:{wide}}", *(f"{it:>9,}" if isinstance(it, int) else f"{it:>9}" for it in row[1:]))
    return 0


if __name__ == "__main__":
    sys.exit(main(sys.argv[1:]))
