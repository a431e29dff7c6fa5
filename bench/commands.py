#!/usr/bin/env python3
"""Measures how many lines a second each command of the program answers, and prints a markdown table.

    bench/commands.py [--command NAME].. [--seconds S] [--runs K] [--instructions] PROGRAM [OTHER]

PROGRAM is the built program, crates/bk_main/out/bk_main, and not the script ./bouwkamp, of which the start would be counted too. With OTHER, say a
build after a change, both are measured in the same run, turn by turn on the same input, and the last column says how many times as many lines OTHER
answers in a second of processor time.

The inputs are made here, the same each time: the catalogues that PROGRAM lists, with their words and networks; codes of 200 squares in several
shapes; words of 100 to 200 squares; random networks. An input is repeated until PROGRAM takes about S seconds of processor time for it, which are
by default 0.5. The times are the least of K runs, by default 3. For `list` a line is a member; `list`, `alike`, `pair` and `verify` get their input
once. A command that a program doesn't know has the cell `-`.

With --instructions callgrind counts the instructions a line, those of an empty input taken away, over a part of the input. It counts each byte of
a `rep stosb` as one.
"""
import argparse
import os
import random
import re
import subprocess
import sys
import tempfile
import time
from dataclasses import dataclass
from functools import lru_cache
from math import isqrt

from resources import built_program, code_of, counted, number_from_one, print_head, print_row

# A repeated input isn't made longer than so many bytes.
LONGEST_INPUT = 1 << 26
# Callgrind takes about fifty times as long: it gets the lines for which PROGRAM takes so many seconds.
SECONDS_COUNTED = 0.05
# The status that says that the command line asks nothing.
ASKS_NOTHING = 2
# The statuses that say that each line was answered.
ANSWERS = (0, 1)


# ---- inputs ----

def output(program, *words, lines=()):
    """The lines that a program writes for a command and lines to read, without comments."""
    text = "".join(f"{line}\n" for line in lines)
    run = subprocess.run([program, *words], input=text, stdout=subprocess.PIPE, stderr=subprocess.DEVNULL, text=True)
    if run.returncode != 0:
        sys.exit(f"{program} {' '.join(words)}: status {run.returncode}")
    return [line for line in run.stdout.splitlines() if not line.startswith(";")]


@lru_cache(maxsize=None)
def entries(program, order):
    """The entries of the catalogue of an order, each a code and a word."""
    return [line.split(" ; ") for line in output(program, "list", "--order", str(order))]


def catalogue(program, order):
    return [code for code, _ in entries(program, order)]


def scaled(codes):
    """The codes without order and size, each with its sides multiplied by another number from 1 to 97."""
    multiples = [1 + 41 * i % 97 for i in range(len(codes))]
    return [re.sub(r"\d+", lambda side: str(int(side[0]) * multiple), code.split()[-1]) for code, multiple in zip(codes, multiples)]


def words_of(program, codes):
    return output(program, "word", lines=codes)


def nets_of(program, codes):
    return [line.partition(" ;")[0] for line in output(program, "net", lines=codes)]


def rows(groups):
    """A code of 200 squares of one side in so many groups, one under the other."""
    row = "[" + ",".join(["1"] * (200 // groups)) + "]"
    return [row * groups]


def jumbled_squares(chance, width, height):
    """Squares that fill a rectangle: each at the first free place from the top, of a side by chance. As columns, levels and sides."""
    depth = [0] * width
    while (level := min(depth)) < height:
        left = depth.index(level)
        free = 1
        while left + free < width and depth[left + free] == level:
            free += 1
        side = chance.randint(1, min(free, height - level, 5))
        depth[left:left + side] = [level + side] * side
        yield left, level, side


@lru_cache(maxsize=None)
def jumbled(order, count=10):
    """Codes of tilings by chance, all of this order or up to a twentieth less."""
    chance = random.Random(order)
    width = isqrt(order * 23 // 5)  # (a square covers 4.6 cells on the average)
    codes = []
    while len(codes) < count:
        squares = list(jumbled_squares(chance, width, width))
        if order * 19 // 20 <= len(squares) <= order:
            codes.append(code_of(squares))
    return codes


def random_nets(nodes, wires, count=5):
    """Networks by chance without a loose node: a tree, and further wires."""
    chance = random.Random(1000 * nodes + wires)
    nets = []
    for _ in range(count):
        pairs = [(chance.randrange(node), node) for node in range(1, nodes)]
        pairs += [chance.sample(range(nodes), 2) for _ in range(wires - len(pairs))]
        chance.shuffle(pairs)
        nets.append(f"{nodes} " + " ".join(f"{a}-{b}" for a, b in pairs))
    return nets


def codes_to_read(program):
    """Names and lines of the codes that most commands get."""
    for order in (9, 11, 12, 13):
        yield f"catalogue of order {order}", catalogue(program, order)
    yield "order 12, 1 to 97 times as large", scaled(catalogue(program, 12))
    for groups in (1, 10, 50, 100, 200):
        yield f"200 squares in {groups} group{'s' * (groups > 1)}", rows(groups)
    yield "190 to 200 squares, jumbled", jumbled(200)


def codes_to_draw(program):
    yield "catalogue of order 9", catalogue(program, 9)
    yield "catalogue of order 11", catalogue(program, 11)
    yield "200 squares in 10 groups", rows(10)
    yield "190 to 200 squares, jumbled", jumbled(200)


def nets_to_read(program):
    yield "catalogue of order 12", nets_of(program, catalogue(program, 12))
    yield "190 to 200 squares, jumbled", nets_of(program, jumbled(200))
    for nodes, wires in ((10, 16), (30, 50), (60, 100), (20, 200), (100, 200), (180, 200)):
        yield f"{nodes} nodes, {wires} wires", random_nets(nodes, wires)


def words_to_read(program):
    for order in (9, 12):
        yield f"catalogue of order {order}", [word for _, word in entries(program, order)]
    for order in (100, 150, 200):
        yield f"{order * 19 // 20} to {order} squares, jumbled", words_of(program, jumbled(order, 5))
    yield "200 squares in 10 groups", words_of(program, rows(10))


def catalogue_once(program):
    yield "catalogue of order 13", catalogue(program, 13)


# Each command with its inputs, which are repeated.
COMMANDS = {
    "check": codes_to_read,
    "canon": codes_to_read,
    "images": codes_to_read,
    "net": codes_to_read,
    "dual": codes_to_read,
    "word": codes_to_read,
    "draw": codes_to_draw,
    "flow": nets_to_read,
    "solve": words_to_read,
}
# Each command whose answer hangs on the whole of its input, which so isn't repeated.
COMMANDS_ONCE = {
    "alike": catalogue_once,
    "pair": catalogue_once,
    "verify --order 13": catalogue_once,
}
ORDERS_LISTED = (9, 10, 11, 12)


@dataclass
class Job:
    """What is measured: the words of the command, what its input is called, its lines, and for how many lines they count."""

    words: str
    name: str
    lines: list
    count: int

    def over(self, lines):
        """The same with other lines."""
        return Job(self.words, self.name, lines, len(lines))

    def command(self, program):
        return [program, *self.words.split()]


def jobs(program, asked):
    """All that is asked for, each job with whether its lines may be repeated."""
    for words, inputs in (COMMANDS | COMMANDS_ONCE).items():
        if asked and words.split()[0] not in asked:
            continue
        for name, lines in inputs(program):
            yield Job(words, name, lines, len(lines)), words in COMMANDS
    for order in ORDERS_LISTED if not asked or "list" in asked else ():
        yield Job(f"list --order {order}", f"order {order}", [], len(entries(program, order))), False


# ---- measuring ----

class Taken:
    """The seconds of wall and processor time that a run took, and its status."""

    def __init__(self, command, source):
        with open(source, "rb") as lines:
            start = time.perf_counter()
            run = subprocess.Popen(command, stdin=lines, stdout=subprocess.DEVNULL, stderr=subprocess.DEVNULL)
            _, status, used = os.wait4(run.pid, 0)
            self.wall = time.perf_counter() - start
        run.returncode = self.status = os.waitstatus_to_exitcode(status)
        self.processor = used.ru_utime + used.ru_stime
        if self.status not in (*ANSWERS, ASKS_NOTHING):
            sys.exit(f"{' '.join(command)}: status {self.status}")


def write_lines(path, lines):
    with open(path, "w", encoding="ascii") as file:
        file.writelines(f"{line}\n" for line in lines)


def repeated(program, job, seconds, path):
    """The job with its lines repeated until the program takes about so many seconds of processor time."""
    copies, size = 1, sum(len(line) + 1 for line in job.lines)
    while True:
        longer = job.over(job.lines * copies)
        write_lines(path, longer.lines)
        taken = Taken(job.command(program), path)
        if taken.status == ASKS_NOTHING or taken.processor > seconds / 2 or copies * size > LONGEST_INPUT // 16:
            return longer
        copies *= min(16, max(2, round(seconds / max(taken.processor, 1e-6))))


def least_times(programs, job, runs, path):
    """For each program the least wall and processor time of the runs, which take turns, or nothing where it doesn't know the command."""
    write_lines(path, job.lines)
    taken = [[Taken(job.command(program), path) for program in programs] for _ in range(runs)]
    return [None if any(it.status == ASKS_NOTHING for it in its) else (min(it.wall for it in its), min(it.processor for it in its))
            for its in zip(*taken)]


def instructions(program, job, path):
    """The instructions of one run."""
    write_lines(path, job.lines)
    return counted(job.command(program), path, allowed=ANSWERS)


def instructions_a_line(program, job, seconds, path):
    """The instructions a line: over all lines of an input that stands once, else over as many as are quickly counted."""
    if not job.lines:
        return instructions(program, job, path) // job.count
    few = min(job.count, max(1, int(job.count * SECONDS_COUNTED / max(seconds, 1e-6))))
    whole = instructions(program, job.over(job.lines[:few]), path)
    return (whole - instructions(program, job.over([]), path)) // few


# ---- the table ----

def number(lines, seconds):
    return f"{lines / seconds:,.0f}" if seconds > 0 and lines / seconds >= 100 else f"{lines / max(seconds, 1e-6):,.2f}"


def row(programs, job, asked, path):
    """The cells of a job."""
    times = least_times(programs, job, asked.runs, path)
    cells = [f"`{job.words}`", job.name, f"{job.count:,}"]
    for program, it in zip(programs, times):
        cells += ["-", "-"] if it is None else [number(job.count, it[0]), number(job.count, it[1])]
        if asked.instructions:
            cells.append("-" if it is None else f"{instructions_a_line(program, job, times[0][1], path):,}")
    if len(programs) == 2:
        cells.append("-" if None in times else f"{times[0][1] / max(times[1][1], 1e-6):.2f}")
    return cells


def heads(asked):
    titles = ["command", "input", "lines"]
    for name in ("", "OTHER: ")[:2 if asked.other else 1]:
        titles += [f"{name}lines/s, wall", f"{name}lines/s, processor"]
        if asked.instructions:
            titles.append(f"{name}instructions a line")
    return titles + ["times as fast"] * bool(asked.other)


def words():
    parser = argparse.ArgumentParser(description=__doc__, formatter_class=argparse.RawDescriptionHelpFormatter)
    parser.add_argument("program", type=built_program, metavar="PROGRAM")
    parser.add_argument("other", nargs="?", type=built_program, metavar="OTHER")
    parser.add_argument("--command", action="append", choices=sorted({it.split()[0] for it in [*COMMANDS, *COMMANDS_ONCE, "list"]}), metavar="NAME")
    parser.add_argument("--seconds", type=float, default=0.5, metavar="S")
    parser.add_argument("--runs", type=number_from_one, default=3, metavar="K")
    parser.add_argument("--instructions", action="store_true")
    return parser.parse_args()


def main():
    asked = words()
    programs = [asked.program] + [asked.other] * bool(asked.other)
    print_head(heads(asked))
    with tempfile.TemporaryDirectory() as folder:
        path = f"{folder}/lines"
        for job, may_repeat in jobs(asked.program, asked.command):
            measured = repeated(asked.program, job, asked.seconds, path) if may_repeat else job
            print_row(row(programs, measured, asked, path))


if __name__ == "__main__":
    main()
