#!/usr/bin/env python3
"""Compares README.md, docs/, bench/, examples/ and share/ with the sources and with what the built program says.

- Each example is run: a line `$ COMMAND` of an indented block, with what is below it as its output; each row of the tables of commands, of refusals
  and of notations; and each line of the block in examples/README.md, which prints nothing if the stored answers are right. All examples of a page run
  one after another in one folder of their own, which is removed. If there is a `mawk`, it is `awk` there, since it knows least.
- Each crate, file, contract, lemma, definition and link that a page names must be there.
- The inventories of README.md and docs/ARCHITECTURE.md have a row for each crate of crates.txt, in its group.
- What is made from the sources or from README.md is as it would be made now: docs/DEFINITIONS.md, and the completion and the manual page in share/.
- docs/CLAIM.md shows the definitions that what it claims stands on, as they are now (scripts/claim.py).
- What a public contract rests on stands in specs/Lib.antt under what the crate says (scripts/headings.py).
- No line is wider than 120 columns, but for those of tables. Each row of a table has as many cells as its head.
- What the scripts of scripts/, bench/ and examples/ import is there (scripts/imports.py).
- Each library that a line of crates.txt names is named in a file of its crate, a mutant among them.

Prints what differs, and at the end how many examples and names were tried and how many differ; the status is 1 if something does. With --write what
is made is made anew first.

    scripts/check_docs.py [--write] [PROGRAM]

PROGRAM is by default crates/bk_main/out/bk_main, as ./bouwkamp builds it. No example is tried if it isn't built from the sources as they are, and that
counts as a difference. One that is named is taken as it is.
"""
import functools
import os
import re
import shutil
import signal
import subprocess
import sys
import tempfile

from claim import wrong_claim
from headings import wrong_headings
from imports import wrong_imports
from proving import PROGRAM, can_be_tried
from share import FILES, rows
from sources import PARTS, TOP, files_of, groups, named_by_crate, text_of, write_text

WIDEST = 120
# An example that takes longer is a fault.
SECONDS = 120
ITEM = r"\b(?:fn|struct|enum|trait|const|type|mod)\s+{0}\b|^\s*{0}\s*[,({{]"


def pages():
    """Returns the documents, by their paths from the top of the repository."""
    inner = [f"{it}/{name}" for it in ("docs", "bench", "examples") for name in sorted(os.listdir(f"{TOP}/{it}"))]
    return ["README.md", *(it for it in inner if it.endswith(".md"))]


def without_blocks(text):
    """Returns the text without its indented and fenced blocks, whose lines are left empty."""
    kept, is_fenced = [], False
    for line in text.split("\n"):
        is_fence = line.startswith("```")
        is_fenced ^= is_fence
        kept.append("" if is_fenced or is_fence or line.startswith("    ") else line)
    return "\n".join(kept)


# ---- examples


class Runner:
    """Runs commands of a page, one after another, in a folder of its own, in which ./bouwkamp is the program."""

    def __init__(self, program, folder):
        self.folder, self.assigned, self.env = folder, [], {**os.environ, "PATH": f"{folder}/.tools:{os.environ['PATH']}"}
        os.symlink(os.path.abspath(program), f"{folder}/bouwkamp")
        for name in ("examples", "bench", "scripts", "docs", "crates"):
            os.symlink(f"{TOP}/{name}", f"{folder}/{name}")
        if shutil.which("mawk"):
            os.mkdir(f"{folder}/.tools")
            os.symlink(shutil.which("mawk"), f"{folder}/.tools/awk")

    def says(self, command, text=""):
        """Returns what a command prints over this input. What an assignment sets is set for all later commands."""
        if re.fullmatch(r"[A-Z]\w*=\S+", command):
            self.assigned.append(command)
            return ""
        return output_of(["bash", "-c", "\n".join([*self.assigned, command])], text, cwd=self.folder, env=self.env)


def output_of(command, text, **how):
    """Returns what a command prints over this input. It has a session of its own, so that all it started ends with it if it takes too long."""
    streams = {"stdin": subprocess.PIPE, "stdout": subprocess.PIPE, "stderr": subprocess.STDOUT, "text": True, "errors": "replace"}
    with subprocess.Popen(command, start_new_session=True, **streams, **how) as child:
        try:
            return child.communicate(text, timeout=SECONDS)[0]
        except subprocess.TimeoutExpired:
            os.killpg(child.pid, signal.SIGKILL)
            return f"{child.communicate()[0]}(nothing more after {SECONDS} seconds)\n"
        except KeyboardInterrupt:
            os.killpg(child.pid, signal.SIGKILL)
            raise


def blocks(text):
    """Returns the commands of a page with what is said to be their output."""
    found, lines = [], text.split("\n")
    for at, line in enumerate(lines):
        if line.startswith("    $ "):
            behind = lines[at + 1 :]
            last = next((k for k, it in enumerate(behind) if not it.startswith("    ") or it.startswith("    $ ")), len(behind))
            found.append((line[6:], "".join(f"{it[4:]}\n" for it in behind[:last])))
    return found


def table_examples(text):
    """Returns the examples of README's tables: the command, the line, and what it answers."""
    command = None
    for name, _, line, answer in rows(text, "| command | what it answers | line | answer |"):
        command = name.strip("`") or command
        if answer.endswith("`"):
            yield command, line.strip("`"), answer.strip("`")
    for _, when, example in rows(text, "| text | when | example |"):
        named = re.match(r"`(\w+)`", when)
        shown = re.fullmatch(r"`(.*)`: `(.*)`", example)
        if shown:
            yield named[1] if named else "check", shown[1], shown[2]


def notations(text):
    """Returns the rows of the table of notations in docs/RECIPES.md: an example, and the command that makes it readable."""
    return [(command.strip("`"), example.strip("`")) for _, example, command in rows(text, "| notation | example | make it readable by |")]


def stored_examples(text):
    """Returns the commands of examples/README.md, which hold a command against a stored answer."""
    return [line.strip() for line in text.split("\n") if line.startswith("    ./bouwkamp")]


def wanted_examples(page, text):
    """Returns the examples of a page: the command, what it must print, and its input."""
    found = [(command, output, "") for command, output in blocks(text)]
    found += [(f"./bouwkamp {command}", f"{answer}\n", f"{line}\n") for command, line, answer in table_examples(text)]
    return found + ([(command, "", "") for command in stored_examples(text)] if page == "examples/README.md" else [])


def wrong_examples(program, tried):
    """Says which examples differ from what the program says, and counts them."""
    for page in pages():
        text = text_of(page)
        with tempfile.TemporaryDirectory() as folder:
            runner = Runner(program, folder)
            for command, example in notations(text):
                tried["examples"] += 1
                said = runner.says(f"{command} | ./bouwkamp check", f"{example}\n")
                if not said.startswith("ok "):
                    yield f"{page}: {command} makes {example} to what `check` answers by {said!r}"
            for command, output, line in wanted_examples(page, text):
                tried["examples"] += 1
                said = runner.says(command, line)
                if said != output:
                    yield f"{page}: {command} {line.strip()}\n  is said to print: {output!r}\n  and prints: {said!r}"
    yield from (f"examples/README.md: no line tries {it}" for it in untried(text_of("examples/README.md")))


def untried(text):
    """Returns the stored answers that no line of examples/README.md names."""
    found = [f"{folder}/{it}" for folder, _, names in os.walk(f"{TOP}/examples") for it in names if it.endswith(".out")]
    return sorted(it for it in (os.path.relpath(it, TOP) for it in found) if it not in text)


# ---- names


@functools.cache
def identifiers():
    """Returns all names in the sources, with those of files."""
    found = set()
    for crate in named_by_crate():
        for path in (it for part in PARTS for it in files_of(crate, *part)):
            found.update(re.findall(r"[A-Za-z_]\w*", text_of(path)), [os.path.basename(path).rpartition(".")[0]])
    for folder in ("scripts", "bench"):
        for name in os.listdir(f"{TOP}/{folder}"):
            if name.endswith((".py", ".c")):
                found.update(re.findall(r"[A-Za-z_]\w*", text_of(f"{folder}/{name}")))
    return found


def is_file(name):
    """Whether a file or a folder of this name is there, from the top or among the crates, with its ending or without."""
    return any(os.path.exists(f"{TOP}/{folder}{name}{ending}") for folder in ("", "crates/") for ending in ("", ".antt", ".rt"))


@functools.cache
def code_of(crate):
    return "\n".join(text_of(it) for it in files_of(crate, "src", ".rt"))


def is_item(name):
    """Whether a name as bk_flow::solve or bk_walk::Walk::advance is that of an item of the crate."""
    crate, *items = name.split("::")
    return crate in named_by_crate() and all(re.search(ITEM.format(it), code_of(crate), re.MULTILINE) for it in items)


def is_known(code):
    """Whether what a page has between backticks is there, if it has the form of a name."""
    code = code.removesuffix("()")
    if re.fullmatch(r"bk_\w+", code):
        return code in named_by_crate()
    if re.fullmatch(r"(bk_\w+|crates|docs|bench|scripts|examples)/[\w./-]*", code):
        return is_file(code) or "/out/" in code or "NAME" in code
    if re.fullmatch(r"bk_\w+(::\w+)+", code):
        return is_item(code)
    if re.fullmatch(r"[A-Za-z]\w*(::\w+)*", code) and (re.search(r"[a-z0-9]_[a-z]|[a-z][A-Z]|::", code)):
        return all(it in identifiers() for it in code.split("::"))
    return True


def anchors(page):
    """Returns the anchors of a page's headings."""
    heads = re.findall(r"^#+ (.*)$", text_of(page), re.MULTILINE)
    return {re.sub(r"[^\w\- ]", "", it.lower()).replace(" ", "-") for it in heads}


def is_link(page, target):
    path, _, anchor = target.partition("#")
    found = os.path.normpath(f"{os.path.dirname(page)}/{path}") if path else page
    return os.path.exists(f"{TOP}/{found}") and (not anchor or anchor in anchors(found))


def wrong_names(tried):
    """Says what the pages name that isn't there, and counts what they name."""
    for page in pages():
        text = without_blocks(text_of(page))
        names, links = re.findall(r"`([^`\n]+)`", text), re.findall(r"\]\(([^()\s]+)\)", text)
        tried["names"] += len(names) + len(links)
        yield from (f"{page}: `{it}` isn't there" for it in names if not is_known(it))
        yield from (f"{page}: the link to {it} leads nowhere" for it in links if "://" not in it and not is_link(page, it))


def wrong_inventories():
    """Says which crates the inventories lack, have twice or have in another group."""
    for page in ("README.md", "docs/ARCHITECTURE.md"):
        found, group = {}, None
        for line in text_of(page).split("\n"):
            head = re.match(r"\| \*\*(.*?)\*\* \|", line)
            group = head[1] if head else group
            row = re.match(r"\| `(bk_\w+)` \|", line)
            if row:
                found.setdefault(row[1], []).append(group)
        for wanted, crates in groups().items():
            for crate in crates:
                if len(found.get(crate, [])) != 1:
                    yield f"{page}: {crate} has {len(found.get(crate, []))} rows"
                elif wanted and found[crate] != [wanted]:
                    yield f"{page}: {crate} is in {found[crate][0]}, and in {wanted} by crates.txt"


def needless_libraries():
    """Says which libraries crates.txt names that no file of the crate does: each makes the proofs of all crates above dearer."""
    for crate, named in named_by_crate().items():
        words = {it for part in (*PARTS, ("must-fail", ".edit")) for file in files_of(crate, *part) for it in re.findall(r"\w+", text_of(file))}
        yield from (f"crates.txt: {crate} needs no {it}" for it in named if it not in words)


def wide_lines():
    for page in pages():
        lines = text_of(page).split("\n")
        yield from (f"{page}:{k}: {len(it)} columns" for k, it in enumerate(lines, 1) if len(it) > WIDEST and not it.startswith("|"))


def cells_of(line):
    """Returns how many cells a line of a table has. A `|` ends one between backticks too, unless a backslash is before it."""
    return len(re.findall(r"(?<!\\)\|", line.rstrip().removeprefix("|").removesuffix("|"))) + 1


def uneven_rows():
    """Says which rows of tables have other numbers of cells than the first line of their table."""
    for page in pages():
        wanted = None
        for k, line in enumerate(without_blocks(text_of(page)).split("\n"), 1):
            wanted = (wanted or cells_of(line)) if line.startswith("|") else None
            if wanted and cells_of(line) != wanted:
                yield f"{page}:{k}: {cells_of(line)} cells, and {wanted} in the head of the table"


# ---- what is made


def first_sentence(path):
    """Returns the first sentence of the comment at the head of a file."""
    head = []
    for line in text_of(path).split("\n"):
        if not line.startswith("--"):
            break
        head.append(line[2:].strip())
    return re.split(r"(?<=[^.])\.(?:\s|$)", " ".join(head))[0]


def definitions():
    """Returns the table of the files that hold definitions."""
    for group, crates in groups().items():
        found = [(crate, it) for crate in crates for it in files_of(crate, "specs", ".antt") if not it.endswith("/Lib.antt")]
        if group and found:
            yield f"\n## {group}\n"
        if found:
            yield "\n| file | what it defines |\n|---|---|\n"
        for crate, path in found:
            yield f"| [`{crate}/specs/{os.path.basename(path)}`](../{path}) | {first_sentence(path)} |\n"


def made():
    """Returns what is made: each file with its text now and what it would be."""
    page, begin, end = "docs/DEFINITIONS.md", "<!-- definitions: begin -->\n", "<!-- definitions: end -->\n"
    text = text_of(page)
    front, rest = text.split(begin)
    yield page, text, front + begin + "".join(definitions()) + end + rest.split(end)[1]
    for path, make in FILES.items():
        yield path, text_of(path) if os.path.exists(f"{TOP}/{path}") else "", make()


def wrong_files(is_written):
    """Says which files aren't as they would be made now; or makes them."""
    for path, text, wanted in made():
        if text != wanted and is_written:
            write_text(path, wanted)
        elif text != wanted:
            yield f"{path} would be another now: scripts/check_docs.py --write"


def differences(is_written, given, tried):
    """Says all that differs, and counts what was tried. What is made is made anew first, if it is to be."""
    yield from wrong_files(is_written)
    yield from wrong_claim(is_written)
    yield from wrong_names(tried)
    yield from wrong_inventories()
    yield from needless_libraries()
    yield from wrong_headings()
    yield from wide_lines()
    yield from uneven_rows()
    yield from wrong_imports()
    if can_be_tried(given):
        yield from wrong_examples(given or PROGRAM, tried)
    else:
        yield f"{given or PROGRAM} isn't built from the sources as they are (./bouwkamp help builds it), so no example was tried"


def main(words):
    given, tried, count = [it for it in words if it != "--write"], {"examples": 0, "names": 0}, 0
    if len(given) > 1 or any(it.startswith("-") for it in given):
        sys.exit(__doc__)
    try:
        for count, it in enumerate(differences("--write" in words, "".join(given), tried), 1):
            print(it, flush=True)
    except BrokenPipeError:
        # (nobody reads on, as behind `| head`)
        os.dup2(os.open(os.devnull, os.O_WRONLY), sys.stdout.fileno())
        return 1
    print(f"{tried['examples']} examples, {tried['names']} names, {count} differ")
    return 1 if count else 0


if __name__ == "__main__":
    sys.exit(main(sys.argv[1:]))
