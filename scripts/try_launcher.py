#!/usr/bin/env python3
"""Tries the launcher ./bouwkamp, with scripts/build.py, in small checkouts of its own: from wherever it is called, whoever calls it, and whatever
changed since the last build.

A toolchain that is only a stand-in takes the prover's place. It takes what it is told to prove for proved, and what it links is a script that says
what it was built from, with its words and its input. So no proof is made, and nothing of this checkout is touched.
Prints a line for each case that isn't as it must be, and at the end how many cases passed. What needs root, to be somebody else, isn't tried by
others. The status is 1 if a case failed.

    scripts/try_launcher.py [WORD..]

With words only the cases whose names have one of them are tried.
"""
import hashlib
import os
import shutil
import signal
import subprocess
import sys
import tempfile
import time

from stand_in import CRATES, ODD, RT, SLOW, Failed, Place, Said, can_be_another, is_answer, is_built, is_refused, must, runs_in, somebody_else, write

# ---- cases


def first_start(place):
    is_built(place.call("0"))
    must(sorted(place.proved()) == sorted([*CRATES]), "not each crate was proved once")
    must(os.listdir(f"{place.room}/scratch") == [], "files are left in TMPDIR")


def second_start(place):
    place.build()
    is_answer(place.call("0"))
    must(place.proved() == [], "something was proved again")


def status_and_words(place):
    place.build()
    is_answer(place.call("7", "a b", "*"), words="7|a b|*", status=7)


def without_python(place):
    place.build()
    is_answer(place.call("0", path=("rt", "tools")))


def links_to_the_file(place):
    place.build()
    os.symlink(f"{ODD}/checkout/bouwkamp", f"{place.room}/one")
    os.makedirs(f"{place.room}/far/away")
    os.symlink("../../one", f"{place.room}/far/away/two")
    os.symlink(f"{place.room}/far/away/two", f"{place.room}/three")
    for name in ("one", "far/away/two", "three"):
        is_answer(place.call("0", call=f"{place.room}/{name}"))
        is_answer(place.call("0", call=f"./{name}"))


def links_to_folders(place):
    place.build()
    os.symlink(f"{place.room}/{ODD}", f"{place.room}/folder")
    os.makedirs(f"{place.room}/deep/er")
    os.symlink(f"../../{ODD}/checkout/bouwkamp", f"{place.room}/deep/er/link")
    os.symlink("deep/er", f"{place.room}/shallow")
    is_answer(place.call("0", call=f"{place.room}/folder/checkout/bouwkamp"))
    is_answer(place.call("0", call="shallow/link"))
    is_answer(place.call("0", call="./link", at=f"{place.room}/shallow"))


def found_by_path(place):
    place.build()
    os.makedirs(f"{place.room}/own")
    os.symlink(f"{place.top}/bouwkamp", f"{place.room}/own/squares")
    path = place.path("rt", "tools", "python", "own")
    said = subprocess.run(["sh", "-c", "squares 0"], cwd="/", env={"PATH": path}, input="input", capture_output=True, text=True, check=False)
    is_answer(Said(said.returncode, said.stdout, said.stderr))


def with_cdpath(place):
    place.build()
    before = place.looks()
    for value in ("/", ".", place.room, f"{place.room}:{place.top}", f"{place.top}/..", f"{place.room}/{ODD}"):
        for call, at in (("./bouwkamp", place.top), ("checkout/bouwkamp", os.path.dirname(place.top)), ("../bouwkamp", f"{place.top}/scripts")):
            is_answer(place.call("0", call=call, at=at, CDPATH=value))
    must(place.looks() == before, "files changed")


def moved(place):
    place.build()
    os.rename(place.top, f"{place.room}/elsewhere")
    place.top = f"{place.room}/elsewhere"
    is_answer(place.call("0", path=("tools", "python")))
    must(place.proved() == [], "something was proved again")


def copied(place):
    place.build()
    shutil.copytree(place.top, f"{place.room}/copy", symlinks=True)
    shutil.rmtree(place.top)
    place.top = f"{place.room}/copy"
    is_answer(place.call("0"))
    must(place.proved() == [], "something was proved again")


def copied_without_rt(place):
    place.build()
    shutil.copytree(place.top, f"{place.room}/copy", symlinks=True)
    place.top = f"{place.room}/copy"
    is_answer(place.call("0", path=("tools", "python")))
    before = place.looks()
    is_answer(place.call("0", path=("tools",)))
    must(place.looks() == before, "the second call wrote something")


def with_another_rt(place):
    place.build()
    write(f"{place.room}/other/rt", "#!/bin/sh\n", 0o755)
    is_answer(place.call("0", path=("other", "tools", "python")))


def modes_changed(place):
    place.build()
    for at, _, names in os.walk(place.top):
        for it in names:
            os.chmod(f"{at}/{it}", 0o755)
    is_answer(place.call("0", path=("tools", "python")))


def seen_gone(place):
    place.build()
    os.remove(f"{place.top}/crates/bk_main/out/seen")
    is_answer(place.call("0"))
    is_answer(place.call("0", path=("tools",)))


def source_touched(place):
    place.build()
    os.utime(place.source("bk_low"))
    is_answer(place.call("0"))
    must(place.proved() == [], "something was proved again")
    is_answer(place.call("0", path=("tools",)))


def source_changed(place):
    place.build()
    write(place.source("bk_main"), "two")
    is_built(place.call("0"), "two")
    must(place.proved() == ["bk_main"], "not only the changed crate was proved")
    write(place.source("bk_side"), "two")
    is_built(place.call("0"), "two")
    must(sorted(place.proved()) == ["bk_main", "bk_side"], "not only the changed crate and that above were proved")


def source_changed_with_its_times(place):
    place.build()
    was = os.stat(place.source("bk_main"))
    write(place.source("bk_main"), "two")
    os.utime(place.source("bk_main"), ns=(was.st_atime_ns, was.st_mtime_ns))
    is_built(place.call("0"), "two")


def source_added_and_removed(place):
    place.build()
    more = f"{place.top}/crates/bk_mid/proofs/More.antt"
    write(more, "")
    is_built(place.call("0"))
    must(sorted(place.proved()) == ["bk_main", "bk_mid"], "not only the changed crate and that above were proved")
    os.remove(more)
    is_built(place.call("0"))


def changed_while_proved(place):
    place.build()
    write(f"{place.kit}/seconds", "1")
    write(place.source("bk_mid"), "two")
    child = place.start("0")
    child.stderr.readline()
    time.sleep(0.3)
    write(place.source("bk_mid"), "three")
    out, err = child.communicate("input", timeout=SLOW)
    must(child.returncode == 70 and out == "" and "bk_mid is not proved" in err, "the call came to", (child.returncode, err))
    os.remove(f"{place.kit}/seconds")
    is_built(place.call("0"))


def crates_below_one(place):
    words = ["python3", f"{place.top}/scripts/build.py", "--for", "bk_side"]
    env = {"PATH": place.path("rt", "tools", "python"), "TMPDIR": f"{place.room}/scratch"}
    said = subprocess.run(words, env=env, capture_output=True, text=True, check=False)
    must(said.returncode == 0 and place.proved() == ["bk_low"], "the build came to", said)
    is_built(place.call("0"))
    must(sorted(place.proved()) == ["bk_main", "bk_mid", "bk_side"], "what was proved before was proved again")


def libraries_of_rt(place):
    """A library is taken over if the sum of `rt` beside it is right; and beside each that a build makes this sum is written."""
    write(f"{place.kit}/bin/rt", RT, 0o755)
    rlib = f"{place.top}/crates/bk_low/out/rlib"
    os.makedirs(f"{rlib}/bk_low.rlib")
    write(f"{rlib}/stamp", hashlib.sha256(b"oneone").hexdigest())
    is_built(place.call("0"))
    must(sorted(place.proved()) == ["bk_main", "bk_mid", "bk_side"], "the library of `rt` was not taken over")
    write(place.source("bk_low"), "two")
    is_built(place.call("0"))
    must(sorted(place.proved()) == sorted([*CRATES]), "a library of other text was taken over")
    with open(f"{rlib}/stamp", encoding="utf-8") as file:
        must(file.read() == hashlib.sha256(b"twotwo").hexdigest(), "the sum beside the library isn't that of `rt`")


def checked_before(place):
    """What a check kept of a crate isn't in the way of a build."""
    write(f"{place.top}/crates/bk_mid/out/incremental/kept", "")
    is_built(place.call("0"))
    must(sorted(place.proved()) == sorted([*CRATES]), "not each crate was proved")


def another_toolchain(place):
    place.build()
    write(f"{place.kit}/KIT-ID", "stand-in 2\n")
    is_built(place.call("0"))
    must(len(place.proved()) == len(CRATES), "not each crate was proved")


def program_replaced(place):
    place.build()
    write(f"{place.top}/crates/bk_main/out/bk_main", "#!/bin/sh\necho another\n", 0o755)
    is_built(place.call("0"))


def changed_without_rt(place):
    place.build()
    write(place.source("bk_low"), "two")
    said = place.call("0", path=("tools", "python"))
    is_refused(said, "no `rt` on the PATH")
    must(len(said.err.splitlines()) == 1, "standard error has", said.err)


def refused_by_the_prover(place):
    place.build()
    write(place.source("bk_mid"), "two")
    write(f"{place.kit}/refuses", "")
    is_refused(place.call("0"), "build.log")
    os.remove(f"{place.kit}/refuses")
    is_built(place.call("0"))


def four_at_once(place):
    write(f"{place.kit}/seconds", "0.3")
    children = [place.start("0") for _ in range(4)]
    found = [(*it.communicate("input", timeout=SLOW), it.returncode) for it in children]
    must(all(it[0] == "one|0|input" and it[2] == 0 for it in found), "the calls came to", found)
    must(sorted(place.proved()) == sorted([*CRATES]), "not each crate was proved once")
    must(sum("the program is built" in it[1] for it in found) == 1, "not one of them built it")


def stopped_by(number, place):
    """Stops a build by a signal to all that run in it, and looks at what is left."""
    write(f"{place.kit}/seconds", "0.5")
    child = place.start("0")
    line = " "
    while line and "bk_low is proved" not in line:
        line = child.stderr.readline()
    write(f"{place.kit}/seconds", "30")
    time.sleep(0.3)
    began = time.monotonic()
    os.killpg(child.pid, number)
    out, err = child.communicate(timeout=SLOW)
    must(time.monotonic() - began < 10, "it took long to stop")
    must(child.returncode in (-number, 128 + number) and out == "", "it ended with", child.returncode)
    must(len(err.splitlines()) == 1 and "was stopped" in err, "standard error has", err)
    time.sleep(0.2)
    must(not runs_in(child.pid), "something still runs")
    must(os.listdir(f"{place.room}/scratch") == [], "files are left in TMPDIR")
    place.proved()
    os.remove(f"{place.kit}/seconds")
    is_built(place.call("0"))
    must("bk_low" not in place.proved(), "what was proved before was proved again")


def stopped_by_interrupt(place):
    stopped_by(signal.SIGINT, place)


def stopped_by_terminate(place):
    stopped_by(signal.SIGTERM, place)


def stopped_while_it_waits(place):
    write(f"{place.kit}/seconds", "2")
    first = place.start("0")
    first.stderr.readline()
    second = place.start("0")
    must("waiting for another build" in second.stderr.readline(), "the second build doesn't say that it waits")
    os.killpg(second.pid, signal.SIGINT)
    _, err = second.communicate(timeout=SLOW)
    must(second.returncode in (-2, 130) and len(err.splitlines()) == 1, "it ended with", (second.returncode, err))
    os.remove(f"{place.kit}/seconds")
    first.communicate("input", timeout=SLOW)
    must(first.returncode == 0, "the first ended with", first.returncode)


def read_only(place):
    """A checkout that nobody may write in. (Root may write anywhere, so root does this as somebody else.)"""
    place.build()
    shutil.rmtree(f"{place.top}/scripts/__pycache__", ignore_errors=True)
    os.remove(f"{place.top}/crates/bk_main/out/seen")
    for at, _, names in os.walk(place.top, topdown=False):
        for it in [*(f"{at}/{name}" for name in names), at]:
            os.chmod(it, os.stat(it).st_mode & ~0o222)
    try:
        before = place.looks()
        for path in (("rt", "tools", "python"), ("tools", "python")):
            is_answer(place.call("0", path=path, user=somebody_else()))
        must(place.looks() == before, "something was written")
        os.chmod(place.source("bk_low"), 0o644)
        write(place.source("bk_low"), "two")
        is_refused(place.call("0", user=somebody_else()), "Permission denied")
    finally:
        for at, _, _ in os.walk(place.top):
            os.chmod(at, 0o755)


def as_another_user(place):
    place.build()
    before = place.looks()
    is_answer(place.call("0", user=somebody_else()))
    is_answer(place.call("0", user=somebody_else(), path=("tools", "python")))
    os.utime(place.source("bk_low"))
    before = place.looks()
    is_answer(place.call("0", user=somebody_else(), path=("tools", "python")))
    must(place.looks() == before, "something was written")
    write(place.source("bk_low"), "two")
    is_refused(place.call("0", user=somebody_else()), "Permission denied")


def copied_by_another_user(place):
    """All at once: a copy that is read-only, of another user, without rt."""
    place.build()
    shutil.copytree(place.top, f"{place.room}/copy", symlinks=True)
    place.top = f"{place.room}/copy"
    before = place.looks()
    is_answer(place.call("0", user=somebody_else(), path=("tools", "python")))
    must(place.looks() == before, "something was written")


CASES = [
    first_start,
    second_start,
    status_and_words,
    without_python,
    links_to_the_file,
    links_to_folders,
    found_by_path,
    with_cdpath,
    moved,
    copied,
    copied_without_rt,
    with_another_rt,
    modes_changed,
    seen_gone,
    source_touched,
    source_changed,
    source_changed_with_its_times,
    source_added_and_removed,
    changed_while_proved,
    crates_below_one,
    libraries_of_rt,
    checked_before,
    another_toolchain,
    program_replaced,
    changed_without_rt,
    refused_by_the_prover,
    four_at_once,
    stopped_by_interrupt,
    stopped_by_terminate,
    stopped_while_it_waits,
]
AS_ANOTHER = [as_another_user, copied_by_another_user]


def try_case(case):
    """Tries a case in a folder of its own. Returns what is wrong, or None."""
    with tempfile.TemporaryDirectory(prefix="launcher.") as room:
        os.chmod(room, 0o755)
        place = Place(room)
        try:
            case(place)
        except (Failed, subprocess.TimeoutExpired) as why:
            return str(why)
        finally:
            place.end()
    return None


def main(words):
    is_other = can_be_another()
    cases = [*CASES, *([read_only] if is_other or os.geteuid() else []), *(AS_ANOTHER if is_other else [])]
    cases = [it for it in cases if not words or any(word in it.__name__ for word in words)]
    if not cases:
        sys.exit(f"no case has one of the words {' '.join(words)}")
    wrong = 0
    for case in cases:
        why = try_case(case)
        if why is not None:
            wrong += 1
            print(f"{case.__name__.replace('_', ' ')}: {why}")
    if not is_other:
        print("not tried, since only root can be somebody else: another user")
    print(f"{len(cases) - wrong} passed, {wrong} failed")
    return 1 if wrong else 0


if __name__ == "__main__":
    sys.exit(main(sys.argv[1:]))
