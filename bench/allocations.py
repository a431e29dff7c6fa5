#!/usr/bin/env python3
"""Refuses each allocation of `flow`, `solve`, `word`, `alike`, `pair` and `verify` in turn, and says what the program then does; and counts those of
the other commands, which make none.

    bench/allocations.py PROGRAM

PROGRAM is the built program, crates/bk_main/out/bk_main. Each command gets a line that it can answer without memory, or with what it has already, and
then one that needs memory. bench/refuse_memory.c, compiled with gcc, refuses the allocation of one number, from 1 on, until no run makes as many.
Before the run itself the program allocates for its command line. Prints a line for each command and ending: the numbers of the refused allocations,
the status, and how many of the two answers are written. The status is 1 if an ending isn't the stated one: status 6 and no answer, or those to the
earlier lines only.

Each other command is run to its end, and then its command line with another first word, as long, which is a usage error (status 2): that run
allocates for the command line only. Prints a line for each command: the status, and the allocations of both runs. The status is 1 if the first isn't 0,
or the two numbers differ.
"""
import os
import subprocess
import sys
import tempfile

from resources import compiled

NINE = "[18,15][7,8][14,4][10,1][9]"
TOWER = "[1]" * 200
LADDER = "101 " + " ".join(f"{node}-{node + 1} {node}-{node + 1}" for node in range(100))
OUT_OF_MEMORY = 6

# Each command with its words, and two lines.
COMMANDS = [
    (["flow"], ["4 0-1 0-2 1-2 1-3 2-3", LADDER]),
    (["solve"], ["2u.2aa.2ue.2eue.1e", "1" + ".1" * 199]),
    (["word"], [NINE, TOWER]),
    (["alike"], ["[1", NINE]),
    (["pair"], ["[1", NINE]),
    (["verify", "--order", "9"], ["[1", NINE]),
]

# Each command that needs no memory, with its words, and its lines if it reads any.
NEED_NO_MEMORY = [
    *(([command], [NINE, TOWER]) for command in ("check", "canon", "images", "net", "dual", "draw")),
    (["list", "--order", "12", "--class", "simple"], []),
    (["list", "--order", "10", "--class", "simple", "--from", "2u.2aa", "--limit", "5"], []),
    (["trial", "--seed", "1", "--count", "20"], []),
    (["help"], []),
]
USAGE_ERROR = 2


class Run:
    """One run over two lines, with the allocation of one number refused, or none at 0."""

    def __init__(self, program, shim, folder, words, lines, refused):
        counted = f"{folder}/counted"
        ran = subprocess.run(
            [program, *words],
            input="".join(f"{line}\n" for line in lines),
            stdout=subprocess.PIPE,
            stderr=subprocess.DEVNULL,
            text=True,
            check=False,
            cwd=folder,
            env={"LD_PRELOAD": f"./{os.path.basename(shim)}", "REFUSED": str(refused), "COUNTED": counted},
        )
        self.status, self.text = ran.returncode, ran.stdout
        if not os.path.exists(counted):
            sys.exit(f"{program} says no number of allocations: status {ran.returncode}")
        with open(counted, encoding="utf-8") as file:
            self.allocations = int(file.read())


def stands(text, answers):
    """How many of the answers the text is, one after the other, or None if it is something else."""
    return next((count for count in range(len(answers) + 1) if text == "".join(answers[:count])), None)


def endings(program, shim, folder, words, lines):
    """The endings by the number of the refused allocation: the status, and how many answers are written."""
    whole = Run(program, shim, folder, words, lines, 0)
    first = Run(program, shim, folder, words, lines[:1], 0).text.splitlines(keepends=True)[:1]
    answers = [*first, whole.text[len("".join(first)) :]]
    for refused in range(1, whole.allocations + 1):
        run = Run(program, shim, folder, words, lines, refused)
        yield refused, run.status, stands(run.text, answers)


def print_endings(program, shim, folder):
    """The table of the commands that need memory, and whether each ending is the stated one."""
    fine = True
    print("| command | refused allocations | status | answers written |\n|---|---|---|---|")
    for words, lines in COMMANDS:
        seen = {}
        for refused, status, count in endings(program, shim, folder, words, lines):
            seen.setdefault((status, count), []).append(refused)
            fine = fine and status == OUT_OF_MEMORY and count in (0, 1)
        for (status, count), numbers in seen.items():
            span = f"{numbers[0]} to {numbers[-1]}" if len(numbers) > 1 else f"{numbers[0]}"
            print(f"| `{' '.join(words)}` | {span} | {status} | {'other text' if count is None else count} |")
    return fine


def print_counts(program, shim, folder):
    """The table of the commands that need no memory, and whether none allocates more than for its command line."""
    fine = True
    print("\n| command | status | allocations | for the command line |\n|---|---|---|---|")
    for words, lines in NEED_NO_MEMORY:
        run = Run(program, shim, folder, words, lines, 0)
        alone = Run(program, shim, folder, [words[0][:-1] + "x", *words[1:]], lines, 0)
        fine = fine and run.status == 0 and alone.status == USAGE_ERROR and run.allocations == alone.allocations
        print(f"| `{' '.join(words)}` | {run.status} | {run.allocations} | {alone.allocations} |")
    return fine


def main(words):
    if len(words) != 1 or not os.path.isfile(words[0]) or not os.access(words[0], os.X_OK):
        sys.exit(__doc__)
    program = os.path.abspath(words[0])
    with tempfile.TemporaryDirectory() as folder:
        shim = compiled("refuse_memory", folder, "-shared", "-fPIC")
        tables = [print_endings(program, shim, folder), print_counts(program, shim, folder)]
    return 0 if all(tables) else 1


if __name__ == "__main__":
    sys.exit(main(sys.argv[1:]))
