#!/usr/bin/env python3
"""Times `bouwkamp verify` over a shuffled list of all members of an order, each in its eight images and by several factors.

    bench/verify.py PROGRAM [ORDER]

PROGRAM is the built program, crates/bk_main/out/bk_main, and ORDER is by default 16. The list is made here from the codes that `list` writes. `check`
over the same lines and `list` are timed beside it. Prints a line for each of the three, the ratio of the times, and the memory. The memory of a run
is its largest resident set; an entry's is what a list with all entries takes more than one with none. The times are of the processor.
"""
import argparse
import random
import tempfile

from resources import built_program, code_of, compiled, completed, measured, number_from_one


def laid(code):
    """The squares of a code, by column, level and side."""
    width = sum(code[0])
    outline = [(0, width, 0)]
    squares = []
    for group in code:
        at = min(range(len(outline)), key=lambda i: (outline[i][2], outline[i][0]))
        x, gap, level = outline.pop(at)
        assert gap == sum(group)
        pieces = []
        for side in group:
            squares.append((x, level, side))
            pieces.append((x, side, level + side))
            x += side
        outline[at:at] = pieces
        joined = []
        for piece in outline:
            if joined and joined[-1][2] == piece[2]:
                last = joined.pop()
                piece = (last[0], last[1] + piece[1], piece[2])
            joined.append(piece)
        outline = joined
    assert len(outline) == 1
    return width, outline[0][2], squares


def images(width, height, squares):
    """The squares in the eight images."""
    for exchanged in (False, True):
        for right in (False, True):
            for down in (False, True):
                turned = [(width - x - s if right else x, height - y - s if down else y, s) for x, y, s in squares]
                yield [(y, x, s) for x, y, s in turned] if exchanged else turned


def main():
    parser = argparse.ArgumentParser(description=__doc__, formatter_class=argparse.RawDescriptionHelpFormatter)
    parser.add_argument("program", type=built_program, metavar="PROGRAM")
    parser.add_argument("order", nargs="?", type=number_from_one, default=16, metavar="ORDER")
    asked = parser.parse_args()
    order, verify = asked.order, [asked.program, "verify", "--order", str(asked.order)]
    with tempfile.TemporaryDirectory() as folder:
        peak = compiled("peak_memory", folder)
        listing = completed(peak, [asked.program, "list", "--order", str(order)])
        codes = [line.split(" ")[2] for line in listing.text.splitlines() if not line.startswith(";")]
        with open(f"{folder}/lines", "w", encoding="utf-8") as file:
            file.writelines(f"{line}\n" for line in shuffled_images(codes))
        verifying = measured(peak, verify, file.name)
        checking = completed(peak, [asked.program, "check"], file.name)
        empty = measured(peak, verify)
    memory = 1024 * (verifying.kilobytes - empty.kilobytes) / max(1, len(codes))
    print(f"list --order {order}: {listing.processor:.2f} s, {len(codes)} members")
    print(f"check of {8 * len(codes)} lines: {checking.processor:.2f} s")
    last = (verifying.text.splitlines() or ["no line"])[-1]
    print(f"verify --order {order} of them: {verifying.processor:.2f} s, status {verifying.status}, {last}")
    print(f"verify against check and list together: {verifying.processor / (listing.processor + checking.processor):.2f}")
    print(f"memory at the peak: {verifying.kilobytes} KB with {len(codes)} entries kept, {empty.kilobytes} KB with none, {memory:.0f} bytes an entry")


def shuffled_images(codes):
    """The codes of all images, each by a factor by chance, in an order by chance."""
    random.seed(1)
    lines = []
    for code in codes:
        groups = [[int(side) for side in group.split(",")] for group in code[1:-1].split("][")]
        for image in images(*laid(groups)):
            lines.append(code_of(image, random.choice((1, 1, 2, 3, 10, 1000))))
    random.shuffle(lines)
    return lines


if __name__ == "__main__":
    main()
