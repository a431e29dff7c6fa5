#!/usr/bin/env python3
"""Times `bouwkamp alike` and `bouwkamp pair` on as many items as they keep, of one size and of as many sizes, and on a catalogue.

    bench/groups.py [--order N] [--items K] PROGRAM

PROGRAM is the built program, crates/bk_main/out/bk_main. The items are made here, K of each kind, by default 16,384: the rectangle of 33 by 32
again and again; rectangles of different sizes, each tiled by Euclid's algorithm on its width and height; and the codes of the catalogue of order N, by default
16, which bench/planar_maps.c makes, compiled with gcc. Prints a markdown table: seconds of processor time, microseconds an item, the largest resident set less
that of an empty input as bytes an item, and the last line. The time is the least of three runs, or of one that took more than 10 s.
"""
import argparse
import resource
import sys
import tempfile
from math import gcd

from resources import built_program, code_of, compiled, completed, number_from_one, print_head, print_row

NINE = "[18,15][7,8][14,4][10,1][9]"
# A run of more seconds isn't repeated.
LONG = 10
RUNS = 3


def of_different_sizes(count):
    """Codes of so many rectangles of which no two are alike in size, each of at most 200 squares."""
    codes = []
    height = 1
    while True:
        height += 1
        for width in range(height + 1, 3 * height):
            if gcd(width, height) == 1:
                squares = cut(width, height)
                if len(squares) <= 200:
                    codes.append(code_of(squares))
                    if len(codes) == count:
                        return codes


def cut(width, height):
    """The squares that Euclid's algorithm cuts from a rectangle: the greatest that fits, at the left or at the top, as long as something is left."""
    squares = []
    x = y = 0
    while width and height:
        side = min(width, height)
        squares.append((x, y, side))
        if width > height:
            x, width = x + side, width - side
        else:
            y, height = y + side, height - side
    return squares


def catalogue(peak, order, folder):
    """The codes of a catalogue, by the way through all 3-connected planar maps."""
    run = completed(peak, [compiled("planar_maps", folder), str(order)])
    return [line.split(" ")[2] for line in run.text.splitlines()] or sys.exit(f"order {order} has no members")


def row(peak, program, command, name, codes):
    """A row of the table."""
    asked = [program, *command.split()]
    with tempfile.NamedTemporaryFile("w", suffix=".txt") as file:
        file.write("".join(f"{code}\n" for code in codes))
        file.flush()
        run = completed(peak, asked, file.name)
        seconds = run.processor
        for _ in range(RUNS - 1):
            if seconds <= LONG:
                seconds = min(seconds, completed(peak, asked, file.name).processor)
    empty = completed(peak, asked)
    items, last = len(codes), (run.text.splitlines() or ["no line"])[-1]
    memory = 1024 * (run.kilobytes - empty.kilobytes) / items
    print_row([f"`{command}`", name, f"{items:,}", f"{seconds:.2f}", f"{1e6 * seconds / items:.1f}", f"{memory:,.0f}", f"`{last}`"])
    return seconds


def main():
    parser = argparse.ArgumentParser(description=__doc__.partition("\n")[0])
    parser.add_argument("--order", type=number_from_one, default=16)
    parser.add_argument("--items", type=number_from_one, default=16_384)
    parser.add_argument("program", type=built_program)
    words = parser.parse_args()
    resource.setrlimit(resource.RLIMIT_CORE, (0, 0))
    print_head(["command", "items", "number", "seconds", "microseconds an item", "bytes an item", "last line"])
    with tempfile.TemporaryDirectory() as folder:
        peak = compiled("peak_memory", folder)
        inputs = [
            (f"order {words.order}", catalogue(peak, words.order, folder)),
            ("of different sizes", of_different_sizes(words.items)),
            ("of one size", [NINE] * words.items),
        ]
        for name, codes in inputs:
            grouped = row(peak, words.program, "alike", name, codes)
            paired = row(peak, words.program, "pair", name, codes)
            print(f"pair against alike, {name}: {paired / max(grouped, 0.01):.1f}", file=sys.stderr)


if __name__ == "__main__":
    main()
