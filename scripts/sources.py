"""The crates of the repository, as crates.txt and their folders show them: names, groups, what each stands on, and files."""
import os
import sys

TOP = os.path.dirname(os.path.dirname(os.path.abspath(__file__)))
# The files of a crate, by folder and ending.
PARTS = (("src", ".rt"), ("specs", ".antt"), ("proofs", ".antt"))
# A line of code takes a processor about as long to prove as so many lines of definitions and proofs.
LINES_FOR_ONE_OF_CODE = 70
# To read the libraries of a crate and to write its own takes about as long as to prove so many.
LINES_FOR_A_CRATE = 30000
# So many lines of definitions and proofs a processor proves in a second: an estimate.
LINES_A_SECOND = 1000


def text_of(path):
    """Returns the text of a file, by its path from the top of the repository."""
    with open(f"{TOP}/{path}", encoding="utf-8") as file:
        return file.read()


def write_text(path, text):
    """Writes a file, by its path from the top of the repository, with the folders above it. Ends the script if that can't be done."""
    try:
        os.makedirs(os.path.dirname(f"{TOP}/{path}"), exist_ok=True)
        with open(f"{TOP}/{path}", "w", encoding="utf-8") as file:
            file.write(text)
    except OSError as why:
        sys.exit(f"{path}: {why.strerror}")


def named_by_crate():
    """Returns for each crate of crates.txt, in its order, the names on its line: crates of the repository and of the toolchain."""
    found = {}
    for line in text_of("crates.txt").splitlines():
        front, _, rest = line.partition("#")[0].partition(":")
        if front.split():
            found[front.split()[0]] = rest.split()
    return found


def groups():
    """Returns the crates of each group; the comments in crates.txt name the groups."""
    found, group = {}, None
    for line in text_of("crates.txt").splitlines():
        if line.startswith("# "):
            group = line[2:]
        elif line.strip() and not line.startswith("#"):
            found.setdefault(group, []).append(line.split(":")[0].split()[0])
    return found


def above():
    """Returns for each crate the crates that stand on it, whether directly or not."""
    named = named_by_crate()
    found = {name: set() for name in named}

    def add(crate, name):
        for below in named[name]:
            if below in found and crate not in found[below]:
                found[below].add(crate)
                add(crate, below)

    for name in named:
        add(name, name)
    return found


def files_of(crate, part, ending):
    """Returns the files of one part of a crate, by their paths from the top of the repository."""
    folders = os.walk(f"{TOP}/crates/{crate}/{part}")
    found = [f"{folder}/{it}" for folder, _, names in folders for it in names if it.endswith(ending)]
    return sorted(os.path.relpath(it, TOP) for it in found)


def lines_of(crate):
    """Returns how many lines of code, of definitions and of proofs a crate has."""
    return [sum(text_of(it).count("\n") for it in files_of(crate, *part)) for part in PARTS]


def work_of(code, definitions, proofs):
    """Returns how much work a crate of so many lines is to prove, in lines of definitions and proofs."""
    return LINES_FOR_A_CRATE + code * LINES_FOR_ONE_OF_CODE + definitions + proofs


def measured():
    """Returns the seconds that a proof of each crate took, as scripts/seconds.txt has them."""
    lines = (line.partition("#")[0].split() for line in text_of("scripts/seconds.txt").splitlines())
    return {it[0]: float(it[1]) for it in lines if it}


def works_of(crates):
    """Returns how much work each of these crates is to prove, in lines of definitions and proofs: by what was measured, and else by its lines."""
    by_lines = {it: work_of(*lines_of(it)) for it in crates}
    seconds = {it: took for it, took in measured().items() if it in by_lines}
    lines_a_second = sum(by_lines[it] for it in seconds) / sum(seconds.values()) if seconds else 1
    return by_lines | {it: took * lines_a_second for it, took in seconds.items()}
