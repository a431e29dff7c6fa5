"""Measures what a run of a command takes: time, and memory at the peak, by bench/peak_memory.c, and instructions, by callgrind (valgrind). And what
else several scripts need: words of a command line, the code of squares, and the rows of a table.

It isn't called by itself: the other scripts of bench/ import it.
"""
import argparse
import os
import re
import shutil
import subprocess
import sys
import tempfile
from dataclasses import dataclass

HERE = os.path.dirname(os.path.abspath(__file__))


def built_program(word):
    """Returns the path of the program that a word of the command line names."""
    if not os.path.isfile(word) or not os.access(word, os.X_OK):
        raise argparse.ArgumentTypeError(f"{word} is no program")
    return os.path.abspath(word)


def number_from_one(word):
    """Returns the number from 1 on that a word of the command line is."""
    if not word.isdecimal() or int(word) < 1:
        raise argparse.ArgumentTypeError(f"{word} is no number from 1 on")
    return int(word)


def tool(name):
    """Returns a command that a script calls. Ends the script if it isn't there."""
    if not shutil.which(name):
        sys.exit(f"there is no `{name}` on the PATH")
    return name


def compiled(name, folder, *words):
    """Compiles a program of this folder with gcc, and returns the path of what was built."""
    built = f"{folder}/{name}"
    if subprocess.run([tool("gcc"), "-O2", *words, "-o", built, f"{HERE}/{name}.c"], check=False).returncode != 0:
        sys.exit(f"bench/{name}.c can't be compiled")
    return built


@dataclass
class Resources:
    """Seconds of wall, of processor and of user time, kilobytes at the peak, the status, and what was written."""

    wall: float
    processor: float
    user: float
    kilobytes: int
    status: int
    text: str


def measured(peak, command, path=os.devnull):
    """Runs a command over a file, where `peak` is bench/peak_memory.c as it was compiled."""
    with open(path, "rb") as source, tempfile.NamedTemporaryFile("r") as told:
        run = subprocess.run([peak, told.name, *command], stdin=source, stdout=subprocess.PIPE, stderr=subprocess.DEVNULL, text=True, check=False)
        wall, processor, user, kilobytes = told.read().split()
    return Resources(float(wall), float(processor), float(user), int(kilobytes), run.returncode, run.stdout)


def completed(peak, command, path=os.devnull):
    """Runs a command over a file as `measured` does. Ends the script if its status isn't 0."""
    run = measured(peak, command, path)
    if run.status != 0:
        sys.exit(f"{' '.join(command)}: status {run.status}")
    return run


def counted(command, path=os.devnull, told=os.devnull, allowed=(0,)):
    """Returns how many instructions callgrind counts in the run of a command over a file; what else it counts it writes into another. Ends the script
    if the status isn't one of those allowed."""
    counting = [tool("valgrind"), "--tool=callgrind", f"--callgrind-out-file={told}", *command]
    with open(path, "rb") as source:
        run = subprocess.run(counting, stdin=source, stdout=subprocess.DEVNULL, stderr=subprocess.PIPE, text=True, errors="replace", check=False)
    found = re.search(r"Collected : (\d+)", run.stderr)
    if run.returncode not in allowed or found is None:
        sys.exit(f"{' '.join(counting)}: status {run.returncode}")
    return int(found[1])


def code_of(squares, factor=1):
    """Returns the code of squares by column, level and side, each side by a factor."""
    text = ""
    last = None
    for x, y, side in sorted(squares, key=lambda it: (it[1], it[0])):
        text += "," if last == (y, x) else "][" if last else "["
        text += str(side * factor)
        last = (y, x + side)
    return text + "]"


def print_row(cells):
    """Prints a row of a table. Ends the script if nobody reads on, as behind `| head`."""
    try:
        print("| " + " | ".join(map(str, cells)) + " |", flush=True)
    except BrokenPipeError:
        os.dup2(os.open(os.devnull, os.O_WRONLY), sys.stdout.fileno())
        sys.exit(1)


def print_head(titles):
    """Prints the first two rows of a table."""
    print_row(titles)
    print_row(["---"] * len(titles))
