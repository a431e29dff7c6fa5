#!/usr/bin/env python3
"""Proves a crate from nothing, and says where the time went: how long each module of the proof took, by the times of the files that the prover keeps
in the crate's folder out/incremental/. The crates below are built first, if they aren't. Other work on the machine makes all times longer.

A function F has a module `F.Lts`, in which its code is run step by step, one `F.Answers` with the written answers to its goals, and one `F.Proof`, in
which tactics look for the others. Modules with no function are lemmas and definitions.

    scripts/proof_times.py CRATE [HOW_MANY]
"""
import os
import re
import shutil
import subprocess
import sys
from collections import Counter

from running import heed_closed_pipes
from sources import TOP, named_by_crate


def files_in(folder):
    """Returns the files that the prover keeps in a folder, each with the time of its last change, the oldest first."""
    found = [f"{at}/{name}" for at, _, names in os.walk(folder) for name in names if name.endswith(".oantt")]
    return sorted((os.stat(it).st_mtime, it) for it in found)


def module_of(path):
    """Returns the name of the module that a file is of."""
    return re.sub(r"^Rattle-|(\.decls)?\.oantt$", "", os.path.basename(path))


def modules_of(crate):
    """Proves the crate. Returns its modules with the seconds that each took, from one file to the next."""
    folder = f"{TOP}/crates/{crate}"
    # (a folder that isn't there would be filled with what other checkouts keep on this machine)
    shutil.rmtree(f"{folder}/out/incremental", ignore_errors=True)
    os.makedirs(f"{folder}/out/incremental")
    status = subprocess.run(["rt", "check", "--jobs", "1"], cwd=folder, stdin=subprocess.DEVNULL, check=False).returncode
    if status != 0:
        sys.exit(f"`rt check` in crates/{crate}: status {status}")
    files, found = files_in(f"{folder}/out/incremental"), Counter()
    for (before, _), (after, path) in zip(files, files[1:]):
        found[module_of(path)] += after - before
    return found


def main(words):
    if len(words) not in (1, 2) or not all(it.isdecimal() for it in words[1:]):
        sys.exit(__doc__)
    if words[0] not in named_by_crate():
        sys.exit(f"crates.txt has no crate {words[0]}")
    if not shutil.which("rt"):
        sys.exit("there is no `rt` on the PATH")
    if not os.access(f"{TOP}/crates/{words[0]}", os.W_OK):
        sys.exit(f"crates/{words[0]} can't be written")
    heed_closed_pipes()
    modules = modules_of(words[0])
    kinds, named = Counter(), re.compile(r"-proofs\..+\.(Lts|Answers|Proof)$")
    for module, seconds in modules.items():
        found = named.search(module)
        kinds[found[1] if found else "other modules"] += seconds
    for kind, seconds in kinds.most_common():
        print(f"{seconds:8.1f} s  {kind}")
    for module, seconds in modules.most_common(int(words[1]) if len(words) > 1 else 20):
        print(f"{seconds:8.1f} s  {module}")


if __name__ == "__main__":
    main(sys.argv[1:])
