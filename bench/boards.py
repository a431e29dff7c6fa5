#!/usr/bin/env python3
"""Counts the boards of the search by nets in `list` of an order: how often callgrind sees the search go on from one.

    bench/boards.py [--function NAME] [--first N] [--last N] [--class CLASS] PROGRAM

Runs `list` of PROGRAM, the built program crates/bk_main/out/bk_main, at the orders from 12 to 16, or those named, under callgrind (valgrind).
Counted are all calls of the function NAME, by default `meet_all` of bk_free_search: one for each board that the search goes on from, the empty one and
those with just the last square left among them; for each of the latter there is a call of `meet_with_last`. Prints a markdown table: the order, the
calls, and the instructions of the whole run. A function that the compiler puts into its callers can't be counted: then the script says which functions
of the crates of the search were called, how often, and ends with 1.
"""
import argparse
import collections
import re
import sys
import tempfile

from resources import built_program, counted, number_from_one, print_head, print_row

# Where the search and what it calls are.
SEARCH = re.compile(r"bk_(free_search|found|packed|play|short|walk)::")


def called(command):
    """Returns the number of calls of each function in the run of a command, and the number of instructions."""
    with tempfile.NamedTemporaryFile("r") as told:
        instructions = counted(command, told=told.name)
        return calls_in(told), instructions


def calls_in(lines):
    """Returns the number of calls of each function that callgrind wrote. A function that calls itself has two names there, and one here."""
    names, calls, callee = {}, collections.Counter(), None
    for line in lines:
        named = re.match(r"(c?fn)=\((\d+)\)(?: (.*))?", line)
        if named and named[3]:
            names[named[2]] = re.sub(r"'\d+$", "", named[3])
        if named and named[1] == "cfn":
            callee = named[2]
        times = re.match(r"calls=(\d+)", line)
        if times:
            calls[names[callee]] += int(times[1])
    return calls


def is_named(function, name):
    """Whether a function of the program, as bk_x::y::T::f::<..>, has this name: its last words, or all."""
    plain = re.sub(r"::<.*$", "", function)
    return plain == name or plain.endswith(f"::{name}")


def words():
    parser = argparse.ArgumentParser(description=__doc__, formatter_class=argparse.RawDescriptionHelpFormatter)
    parser.add_argument("program", type=built_program, metavar="PROGRAM")
    parser.add_argument("--function", default="meet_all", metavar="NAME")
    parser.add_argument("--first", type=number_from_one, default=12, metavar="N")
    parser.add_argument("--last", type=number_from_one, default=16, metavar="N")
    parser.add_argument("--class", dest="kind", choices=["perfect", "imperfect", "simple"], default="perfect", metavar="CLASS")
    return parser.parse_args()


def main():
    asked = words()
    print_head(["order", f"calls of `{asked.function}`", "instructions"])
    for order in range(asked.first, asked.last + 1):
        calls, instructions = called([asked.program, "list", "--order", str(order), "--class", asked.kind])
        found = sum(number for function, number in calls.items() if is_named(function, asked.function))
        if found == 0:
            for function, number in calls.most_common():
                if SEARCH.match(function):
                    print(f"{function}: {number:,}", file=sys.stderr)
            sys.exit(f"order {order}: no call of {asked.function}")
        print_row([order, f"{found:,}", f"{instructions:,}"])


if __name__ == "__main__":
    main()
