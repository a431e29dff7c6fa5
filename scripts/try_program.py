#!/usr/bin/env python3
"""Runs the built program and looks at its status and at both output streams.

Each case gives the program its arguments and an input, and says the status, the text of the standard output and that of standard error. Tried are
the statuses 0, 1, 2, 3, 4, 7 and 8, an empty argument, arguments that are no text, an input that can't be read, streams that are closed, outputs
that can't be written, the longest input of empty lines, a small stack, and few seconds. And it counts, by the time, how many searches for members a
listing makes.
Prints a line for each case that differs and then how many were tried. The status is 1 if something differs.

    scripts/try_program.py [PROGRAM]

PROGRAM is by default crates/bk_main/out/bk_main, as ./bouwkamp builds it. It isn't tried if it isn't built from the sources as they are; one that is
named is taken as it is.
"""
import os
import resource
import subprocess
import sys
from dataclasses import dataclass

from proving import PROGRAM, can_be_tried

INPUT, OUTPUT, ERRORS = 0, 1, 2
USAGE = "usage: bouwkamp COMMAND [--NAME VALUE]...\n"
NINE = "[18,15][7,8][14,4][10,1][9]\n"
NINE_OK = "ok 9 33x32 perfect simple\n"
# The program takes at most so many bytes.
MOST_BYTES = 1 << 30
# So many line feeds are handed over at once.
BLOCK = 1 << 20
# So much of a text is shown if it differs.
WIDEST = 300
# A stack of so many bytes, which `ulimit -s 320` gives, suffices for all commands.
SMALL_STACK = 320 << 10
# So many seconds of a processor are more than ten times what the greatest catalogue takes, and less than a tenth of what it would take if each member
# were searched for anew, or if no table of members were kept.
FEW_SECONDS = 5
# A case that takes longer is ended, and so differs.
SECONDS = 120
# The greatest catalogue takes hardly twice as long as one search for all members.
MOST_SEARCHES = 10


@dataclass
class Case:
    """Arguments and an input, and what the program must do with them. An input is a text, or a path that is opened; a stream may be closed."""

    name: str
    arguments: list
    status: int
    out: str = ""
    err: str = ""
    text: str = ""
    path: str = ""
    out_path: str = ""
    err_path: str = ""
    closed: int | None = None


CASES = [
    Case("all lines answered", ["check"], 0, out=NINE_OK, text=NINE),
    Case("no lines", ["check"], 0),
    Case("a refused line", ["check"], 1, out=NINE_OK + "no gap 2 15 16\n", text=NINE + "[18,15][7,9]\n"),
    Case("no arguments", [], 2, err=USAGE, text=NINE),
    Case("an empty argument", [""], 2, err=USAGE, text=NINE),
    Case("an empty argument behind a command", ["check", ""], 2, err=USAGE, text=NINE),
    Case("an empty argument before a command", ["", "check"], 2, err=USAGE, text=NINE),
    Case("arguments in another order", ["--order", "9", "list"], 2, err=USAGE),
    Case("an order as an option", ["list", "--order", "9", "--limit", "0"], 0, out="; limit order 9 listed 0\n"),
    Case("an input that can't be read", ["check"], 3, path="/"),
    Case("a closed input", ["check"], 3, closed=INPUT),
    Case("a closed input that isn't read", ["list", "--order", "2"], 0, out="; end order 2 listed 0\n", closed=INPUT),
    Case("an output that can't be written", ["check"], 4, text=NINE, out_path="/dev/full"),
    Case("a closed output", ["check"], 4, text=NINE, closed=OUTPUT),
    Case("errors that can't be written", [], 2, err_path="/dev/full"),
    Case("closed errors", [], 2, closed=ERRORS),
    Case("an argument that is no text", [b"check", b"\xff"], 8, text=NINE),
    Case("an argument alone that is no text", [b"\xff"], 8, text=NINE),
    Case("an argument before a command that is no text", [b"\xff", b"check"], 8, text=NINE),
    Case("an argument that ends in the middle of a character", [b"check", b"\xc3"], 8, text=NINE),
    Case("a value that is no text", ["list", "--order", "9", "--from", b"2u.2aa\x80"], 8),
    Case("half a pair of surrogates", ["help", b"\xed\xa0\x80"], 8),
]


def opened(path, flags):
    """A descriptor of the path, or a pipe where there is no path."""
    return os.open(path, flags) if path else subprocess.PIPE


def run(program, case):
    """Runs the program on a case, and gives its status and what it wrote on both streams."""
    streams = [opened(case.path, os.O_RDONLY), opened(case.out_path, os.O_WRONLY), opened(case.err_path, os.O_WRONLY)]
    close = None if case.closed is None else lambda: os.close(case.closed)
    child = subprocess.Popen([program, *case.arguments], stdin=streams[0], stdout=streams[1], stderr=streams[2], preexec_fn=close)
    for descriptor in streams:
        if descriptor != subprocess.PIPE:
            os.close(descriptor)
    try:
        out, err = child.communicate(case.text.encode(), timeout=SECONDS)
    except subprocess.TimeoutExpired:
        child.kill()
        out, err = child.communicate()
    return child.returncode, (out or b"").decode(errors="replace"), (err or b"").decode(errors="replace")


def run_on_line_feeds(program, count):
    """Runs `check` on so many line feeds, which are empty lines, and gives its status and what it wrote."""
    child = subprocess.Popen([program, "check"], stdin=subprocess.PIPE, stdout=subprocess.PIPE, stderr=subprocess.PIPE)
    try:
        for _ in range(count // BLOCK):
            child.stdin.write(b"\n" * BLOCK)
        child.stdin.write(b"\n" * (count % BLOCK))
    except BrokenPipeError:
        pass
    out, err = child.communicate()
    return child.returncode, out.decode(errors="replace"), err.decode(errors="replace")


def run_within(program, *arguments, stack=None, text=""):
    """Runs the program for a few seconds at most, on a stack of so many bytes if that is said, and gives its status and what it wrote."""

    def limit():
        resource.setrlimit(resource.RLIMIT_CPU, (FEW_SECONDS, FEW_SECONDS))
        if stack:
            resource.setrlimit(resource.RLIMIT_STACK, (stack, stack))

    ran = subprocess.run([program, *arguments], input=text, capture_output=True, text=True, errors="replace", preexec_fn=limit, check=False)
    return ran.returncode, ran.stdout, ran.stderr


def within_limits(program):
    """Returns what the greatest catalogue and the comparison with it come to in few seconds, on any stack and on a small one, each beside what it must
    come to."""
    whole = run_within(program, "list", "--order", "16")
    lines = whole[1].splitlines()
    listed = whole[0], lines[-1] if lines else "", whole[2]
    codes = "".join(line + "\n" for line in lines if not line.startswith(";"))
    same = (0, "; end order 16 members 9016 missing 0 foreign 0 repeated 0 refused 0\n", "")
    return [
        ("list --order 16 in few seconds", (0, "; end order 16 listed 9016", ""), listed),
        ("list --order 16 on a small stack", whole, run_within(program, "list", "--order", "16", stack=SMALL_STACK)),
        ("verify --order 16 on a small stack", same, run_within(program, "verify", "--order", "16", stack=SMALL_STACK, text=codes)),
    ]


def processor_seconds(program, *arguments):
    """Runs the program for a few seconds at most, and gives how many seconds of a processor that took."""
    before = resource.getrusage(resource.RUSAGE_CHILDREN)
    run_within(program, *arguments)
    after = resource.getrusage(resource.RUSAGE_CHILDREN)
    return after.ru_utime - before.ru_utime + after.ru_stime - before.ru_stime


def searches(program):
    """Returns as how many searches the greatest catalogue takes, beside what it may take. Its first entry takes one search for all members; with a
    search for each member the catalogue would take thousands."""
    one = min(processor_seconds(program, "list", "--order", "16", "--limit", "1") for _ in range(3))
    many = processor_seconds(program, "list", "--order", "16") / max(one, 1e-6)
    few = f"as long as at most {MOST_SEARCHES} searches"
    return [("the time of list --order 16", few, few if many <= MOST_SEARCHES else f"as long as {many:.0f} searches, or longer")]


def short(said):
    """Returns what was said, or a status and two texts, with no more of a long text than its beginning."""
    if isinstance(said, str):
        return said
    return tuple(it if isinstance(it, int) or len(it) <= WIDEST else f"{it[:WIDEST]}.. ({len(it)} bytes)" for it in said)


def main(words):
    given = "".join(words[:1])
    if len(words) > 1 or given.startswith("-"):
        sys.exit(__doc__)
    program = os.path.abspath(given or PROGRAM)
    if not can_be_tried(given):
        sys.exit(f"{program} isn't built from the sources as they are (./bouwkamp help builds it)\n0 cases, 1 differ")
    tried = [(case.name, (case.status, case.out, case.err), run(program, case)) for case in CASES]
    tried.append(("as many line feeds as are taken", (0, "", ""), run_on_line_feeds(program, MOST_BYTES)))
    tried.append(("one byte more", (7, "", ""), run_on_line_feeds(program, MOST_BYTES + 1)))
    tried += within_limits(program)
    tried += searches(program)
    different = [(name, wanted, found) for name, wanted, found in tried if wanted != found]
    for name, wanted, found in different:
        print(f"{name}: wanted {short(wanted)}, found {short(found)}")
    print(f"{len(tried)} cases, {len(different)} differ")
    return 1 if different else 0


if __name__ == "__main__":
    sys.exit(main(sys.argv[1:]))
