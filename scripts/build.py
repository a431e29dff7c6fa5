#!/usr/bin/env python3
"""Proves and builds the program `bouwkamp`: each crate that it stands on after those below, as many side by side as there are processors and
memory.

Contents decide what is done, and not times: the program and each library have a sum of all that they were made from, and one whose sum is still right
is not made again. If the program is right already, nothing is said, written or locked, and no toolchain is needed.

Each crate is proved by the prover's own command, over the libraries of the crates below, and those with the longest chains of crates above them go
first. One process proves a crate: several are sooner done, but are a sixth more work or more. What is proved stays as a library in the crate's folder
out/rlib/, so a build that was stopped goes on where it was. Beside the libraries lie the sums of `rt` too: so `rt check` takes those of a build, and
a build takes those of `rt check`. A library of a build has statements only, and is made anew if one below it is another than it was proved over. A
crate is proved from nothing, whatever a check kept of it (out/incremental/): the prover doesn't take that for a library of statements only. The
program that is there stays until the new one takes its place. Standard error
says which crates are being proved, how many are done and how long it has taken.

The status is 0 if the program is in crates/bk_main/out/bk_main, made from what is there now. A build that a signal stops ends by that signal.

With --for CRATE only the crates below that one are proved, so that `rt check` there begins with it at once; no program is built. With --measure, if
all are proved in this run, scripts/seconds.txt gets the seconds that each took; by these the next builds know which crates have long chains above.

    scripts/build.py [--jobs N] [--for CRATE | --measure]
"""
import argparse
import fcntl
import os
import sys
import threading
import time
from concurrent.futures import FIRST_COMPLETED, ThreadPoolExecutor, wait

from proving import NAME, OUT, Toolchain, build, is_built, read_crates
from running import lock, scratch, stoppable, tell
from sources import LINES_A_SECOND, TOP, named_by_crate

LOG = f"{OUT}/build.log"
# The seconds that a proof of each crate took.
SECONDS = f"{TOP}/scripts/seconds.txt"
# What a check may hold in memory, in bytes: with less free, fewer run side by side.
MEMORY_OF_A_CHECK = 3_000_000_000
# After so many seconds without a crate that is done, a line says what is at work.
QUIET = 30


def free_memory():
    """Returns the bytes of memory that are free."""
    with open("/proc/meminfo", encoding="utf-8") as file:
        return next((1024 * int(line.split()[1]) for line in file if line.startswith("MemAvailable:")), MEMORY_OF_A_CHECK)


def minutes_and_seconds(seconds):
    """Returns a time as a person writes it."""
    minutes, seconds = divmod(round(seconds), 60)
    return f"{minutes} min {seconds:02} s" if minutes else f"{seconds} s"


class Progress:
    """What is said on standard error: a line for each crate that is done, and now and then what is at work."""

    def __init__(self, count):
        self.began, self.count, self.done, self.last, self.ended = time.monotonic(), count, 0, time.monotonic(), threading.Event()
        self.at_work = ()
        self.turn = threading.Lock()
        threading.Thread(target=self.keep_telling, daemon=True).start()

    def tell(self, text):
        with self.turn:
            self.last = time.monotonic()
            tell(text)

    def so_far(self):
        names = self.at_work
        time_so_far = minutes_and_seconds(time.monotonic() - self.began)
        return f"{self.done} of {self.count} done, {time_so_far}" + (f", proving {' '.join(names)}" if names else "")

    def is_done(self, name, is_proved):
        self.done += is_proved
        self.tell(f"{name} is {'' if is_proved else 'not '}proved ({self.so_far()})")

    def keep_telling(self):
        while not self.ended.wait(1):
            if time.monotonic() - self.last >= QUIET:
                self.tell(self.so_far())


def prove(crates, toolchain, jobs, log, progress):
    """Proves those of these crates that aren't proved yet, on so many processors, each after those below it, and first those with the longest chains
    above. Returns whether all passed."""
    proved, running = {it for it in crates if it.is_proved(toolchain)}, {}
    waiting = sorted(proved.symmetric_difference(crates), key=lambda it: -it.chain)
    progress.done = len(proved)
    # (nobody waits for its threads when a signal stops the build)
    pool = ThreadPoolExecutor(jobs)  # pylint: disable=consider-using-with
    while True:
        ready = [it for it in waiting if proved.issuperset(it.named)]
        for it in ready[: jobs - len(running)]:
            running[pool.submit(it.prove, toolchain)] = it
            waiting.remove(it)
        if not running:
            return not waiting and len(proved) == len(crates)
        progress.at_work = sorted(it.name for it in running.values())
        for it in wait(running, return_when=FIRST_COMPLETED).done:
            crate, (is_proved, text) = running.pop(it), it.result()
            log.write(f"== {crate.name}\n{text}")
            log.flush()
            proved |= {crate} if is_proved else set()
            progress.at_work = sorted(other.name for other in running.values())
            progress.is_done(crate.name, is_proved)


def keep_seconds(crates):
    """Writes the seconds that the proof of each crate took, if all were proved in this run."""
    if all(it.seconds for it in crates):
        with open(SECONDS, "w", encoding="utf-8") as file:
            file.write("# How many seconds the proof of each crate took, in a build by `scripts/build.py --measure`.\n")
            file.writelines(f"{it.name} {it.seconds:.0f}\n" for it in crates)


def prove_and_build(crates, top, toolchain, jobs, asked, log):
    """Proves the crates below one, and unless no more is asked builds that one, which is the program. Returns whether all passed."""
    left = sum(it.work for it in (*crates, top) if not it.is_proved(toolchain))
    progress = Progress(len(crates))
    what = f"proving the crates below {top.name}" if asked.crate else "proving and building the program"
    minutes = max(1, round(left / LINES_A_SECOND / 60 / jobs))
    progress.tell(f"{what}, {len(crates)} crates on {jobs} processor{'s' * (jobs > 1)}: about {minutes} minute{'s' * (minutes > 1)}")
    if not prove(crates, toolchain, jobs, log, progress):
        progress.tell(f"not all crates are proved; what the checks printed is in {LOG}")
        return False
    if asked.measure:
        keep_seconds(crates)
    if asked.crate:
        progress.tell(f"all crates below {top.name} are proved ({progress.so_far()})")
        return True
    progress.tell(f"all crates are proved, now the program is built ({progress.so_far()})")
    if not build(top, toolchain, log):
        progress.tell(f"the build failed; what it printed is in {LOG}")
        return False
    progress.ended.set()
    progress.tell(f"the program is built ({progress.so_far()})")
    return True


def is_done(asked, crates, top, toolchain):
    """Returns whether all that is asked is there already."""
    return all(it.is_proved(toolchain) for it in crates) if asked.crate else is_built(top)


def build_in_turn(asked, toolchain):
    """Does what is asked once no other build of this checkout runs. Returns whether it is done."""
    os.makedirs(OUT, exist_ok=True)
    with open(f"{OUT}/build.lock", "w", encoding="utf-8") as turn:
        lock(turn, fcntl.LOCK_EX, "another build of this checkout to end")
        # (which may have done what is asked here; and the text may have changed meanwhile)
        *crates, top = read_crates(toolchain, asked.crate or NAME)
        if is_done(asked, crates, top, toolchain):
            return True
        jobs = max(1, min(asked.jobs, free_memory() // MEMORY_OF_A_CHECK))
        with scratch(jobs), open(LOG, "w", encoding="utf-8") as log:
            return prove_and_build(crates, top, toolchain, jobs, asked, log)


def asked_by(words):
    """Returns what the command line asks."""
    parser = argparse.ArgumentParser(description="Proves and builds the program `bouwkamp`, as the head of the script says.")
    parser.add_argument("--jobs", type=int, default=len(os.sched_getaffinity(0)), metavar="N", help="prove on so many processors")
    one = parser.add_mutually_exclusive_group()
    one.add_argument("--for", dest="crate", choices=[*named_by_crate()], metavar="CRATE", help="prove the crates below this one, and build no program")
    one.add_argument("--measure", action="store_true", help="measure how long each crate takes")
    return parser.parse_args(words)


def main():
    asked, toolchain = asked_by(sys.argv[1:]), Toolchain()
    *crates, top = read_crates(toolchain, asked.crate or NAME)
    if is_done(asked, crates, top, toolchain):
        return 0
    if not toolchain.is_there:
        tell("the program isn't built from what is here, and there is no `rt` on the PATH to build it with")
        return 1
    try:
        return 0 if build_in_turn(asked, toolchain) else 1
    except OSError as error:
        where = f": {os.path.relpath(error.filename, TOP)}" if error.filename else ""
        tell(f"the build failed: {error.strerror}{where}")
        return 1


if __name__ == "__main__":
    sys.exit(stoppable(main))
