#!/usr/bin/env python3
"""Runs the gate in one piece, and writes how long it took and how it ended into docs/GATE.md, between the two marks there. Then prints when the proof of
each crate was done, in seconds from the start.

Each run proves all from nothing: what a toolchain keeps of earlier runs isn't used (`--anew`, if the toolchain knows it). The status is the gate's.

    scripts/gate_times.py
"""
import os
import re
import resource
import shutil
import subprocess
import sys
import textwrap
import time

from sources import TOP, text_of, write_text

PAGE = "docs/GATE.md"
BEGIN, END = "<!-- times: begin -->\n", "<!-- times: end -->\n"
# No line of a document is longer.
WIDTH = 120


def told_by(word):
    """Returns what the toolchain's command says to a word."""
    return subprocess.run(["rt", word], stdin=subprocess.DEVNULL, stdout=subprocess.PIPE, stderr=subprocess.STDOUT, text=True, check=False).stdout


def gate():
    """Returns the command that runs the gate from nothing."""
    return ["rt", "ci", "--anew"] if "--anew" in told_by("help") else ["rt", "ci"]


def run_gate():
    """Runs the gate. Returns its status, its last lines, for each crate when its proof was done, in seconds from the start, and the whole time."""
    began, done, last = time.monotonic(), {}, []
    ran = subprocess.Popen(gate(), cwd=TOP, stdin=subprocess.DEVNULL, stdout=subprocess.PIPE, stderr=subprocess.STDOUT, text=True)
    for line in ran.stdout:
        print(line, end="", flush=True)
        found = re.fullmatch(r"(?:rt: )?(\w+) proved\n", line)
        if found:
            done.setdefault(found[1], time.monotonic() - began)
        last = [*last[-1:], line.rstrip("\n")]
    return ran.wait(), last, done, time.monotonic() - began


def summary(last, wall):
    """Returns the lines for the page: how long a run took, and how it ended."""
    used = resource.getrusage(resource.RUSAGE_CHILDREN)
    spent = used.ru_utime + used.ru_stime
    told = f"One run of `rt ci`, from nothing, on {time.strftime('%-d %B %Y')}, on {len(os.sched_getaffinity(0))} processors: {wall / 60:.0f} minutes, "
    told += f"{spent / 60:.0f} processor minutes, with {told_by('version').split()[0]}. It ended with:"
    yield textwrap.fill(told, WIDTH, break_on_hyphens=False) + "\n\n"
    yield from (textwrap.fill(it, WIDTH, initial_indent="    ", subsequent_indent="    ", break_on_hyphens=False) + "\n" for it in last)


def write(text):
    """Writes the text between the marks of the page."""
    front, _, rest = text_of(PAGE).partition(BEGIN)
    write_text(PAGE, front + BEGIN + text + END + rest.partition(END)[2])


def main(words):
    if words:
        sys.exit(__doc__)
    if not shutil.which("rt"):
        sys.exit("there is no `rt` on the PATH")
    if not os.access(f"{TOP}/{PAGE}", os.W_OK):
        sys.exit(f"{PAGE} can't be written")
    status, last, done, wall = run_gate()
    write("".join(summary(last, wall)))
    for crate, at in sorted(done.items(), key=lambda it: it[1]):
        print(f"{at:8.0f} s  {crate}")
    return status


if __name__ == "__main__":
    sys.exit(main(sys.argv[1:]))
