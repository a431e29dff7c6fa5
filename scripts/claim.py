#!/usr/bin/env python3
"""What one has to believe: the definitions that a definition of specs/ stands on, down to those of the standard library.

    scripts/claim.py                       writes the definitions in docs/CLAIM.md anew
    scripts/claim.py NAME.. [--text]       counts the definitions under these, as bk_top.Running.Lists; --text prints them

A name is looked up as the imports say, so what only a tactic uses isn't seen. A type of the code that a definition names is shown as the code has it.
`wrong_claim` is called by scripts/check_docs.py: docs/CLAIM.md must show the definitions as they are now, quote only what stands in the sources, and
explain each name of the standard library that a definition uses.
"""
import functools
import re
import sys

from running import heed_closed_pipes
from sources import files_of, named_by_crate, text_of, write_text

PAGE = "docs/CLAIM.md"
BEGIN, END = "<!-- claim: begin -->\n", "<!-- claim: end -->\n"
# The parts of the page, with what each of them is about. A definition is shown once, in the first part that needs it.
PARTS = (("Which lines `check` accepts", "bk_answer.Checked.IsChecked"), ("What `list` writes", "bk_top.Running.Lists"))
HEAD = re.compile(r"^(?:abbrev pub|pub record|pub data|pub abbrev)\s+([^\s:({]+)", re.MULTILINE)
USE = re.compile(r"^use\s+([\w.◌]+)\.\{([^}]*)\}", re.MULTILINE)
WORD = re.compile(r"[^\W\d]['\w]*|[^\s\w(){}\[\];,.:\"'`]+")
DECLARED = re.compile(r"Rattle\.(bk_\w+)\.specs\.declared\.(?:\w+\.)*?(\w+?)(?:\.TheVariants)?")


def names_in(text, imports):
    """Returns what the names that a text imports stand for: for each the module and its name there."""
    found = {}
    for module, items in imports.findall(text):
        for item in filter(None, (it.strip() for it in items.split(","))):
            first, *other = item.split(" as ")
            found[(other or [first])[0].strip()] = (module, first.strip())
    return found


class Module:
    """A file of definitions: the comment at its head, its definitions in order, each with its comment, and what its names mean."""

    def __init__(self, path):
        text = text_of(path)
        self.path, self.names, self.texts = path, names_in(text, USE), {}
        for block in text.split("\n\n"):
            head = HEAD.search(block)
            if head:
                self.texts[head[1]] = block.strip("\n")
        self.head = text.partition("\nuse ")[0]


class Declared:
    """A type or a constant of the code, as a file of definitions names it."""

    def __init__(self, crate, name):
        self.names, self.head = {}, ""
        is_seen = r"(?:pub(?:\(crate\))? )?"
        body = rf"{is_seen}(?:struct|enum) {name}(?:<.*>)?(?:;| \{{\n(?:.*\n)*?\}})|{is_seen}const {name}: .*;"
        for self.path in files_of(crate, "src", ".rt"):
            found = re.search(rf"(?:^//.*\n)*(?:^#.*\n)*^(?:{body})", text_of(self.path), re.MULTILINE)
            if found:
                self.texts = {name: re.sub(r"^ *#.*\n", "", found[0], flags=re.MULTILINE)}
                return
        raise LookupError(f"no type or constant {name} in {crate}")


@functools.cache
def modules():
    """Returns the files of definitions, by the names that imports give them."""
    found = {}
    for crate in named_by_crate():
        for path in files_of(crate, "specs", ".antt"):
            found["Rattle." + path.removeprefix("crates/").removesuffix(".antt").replace("/", ".")] = Module(path)
    return found


@functools.cache
def declared(crate, name):
    return Declared(crate, name)


def where(module, name):
    """Returns the file that defines what a name of an import stands for, and its name there; none where that is in the standard library."""
    found = modules().get(module)
    if found:
        constructed = next((it for it, text in found.texts.items() if re.search(rf"^  {name} :", text, re.MULTILINE)), None)
        return (found, name) if name in found.texts else (found, constructed) if constructed else None
    named = DECLARED.fullmatch(module)
    if not named:
        return None
    name = name if named[2] == "TheConstants" else named[2]
    return declared(named[1], name), name


def uses(module, name):
    """Returns what a definition uses, in the order of its text: each as a file and a name there, or as a name of the standard library."""
    found = []
    text = re.sub(r'"[^"\n]*"|--.*', "", module.texts[name]) if isinstance(module, Module) else ""
    for word in WORD.findall(text):
        for form in (word, f"◌{word}◌"):
            if form != name and form in module.texts:
                found.append((module, form))
            elif form in module.names:
                found.append(where(*module.names[form]) or form)
    return list(dict.fromkeys(found))


def below(root):
    """Returns the definitions under one, those first that stand on nothing, and the names of the standard library that they use."""
    crate, *path, name = root.split(".") if "." in root else ("", root)
    module = modules().get(".".join(["Rattle", crate, "specs", *path]))
    if not module or name not in module.texts:
        raise LookupError(f"there is no definition {root}: CRATE.FILE.NAME, as bk_top.Running.Lists")
    order, seen, library = [], set(), set()

    def visit(one):
        if one not in seen:
            seen.add(one)
            for it in uses(*one):
                if isinstance(it, str):
                    library.add(it)
                else:
                    visit(it)
            order.append(one)

    visit((module, name))
    return order, library


def in_files(definitions):
    """Returns the definitions by files, each file once and after those that it stands on, and in each the order of the file."""
    wanted = {}
    for module, name in definitions:
        wanted.setdefault(module, set()).add(name)
    order, seen = [], set()

    def visit(module):
        if module not in seen:
            seen.add(module)
            for name in module.texts:
                for it in uses(module, name) if name in wanted[module] else []:
                    if not isinstance(it, str) and it[0] in wanted:
                        visit(it[0])
            order.append((module, [it for it in module.texts if it in wanted[module]]))

    for module in reversed(wanted):
        visit(module)
    return order


def by_path(files):
    """Returns the texts of the definitions of each file, behind the comment at its head; those of one path that follow each other together."""
    found = []
    for module, names in files:
        if not found or found[-1][0] != module.path:
            found.append((module.path, [module.head] if module.head else []))
        found[-1][1].extend(module.texts[it] for it in names)
    return found


def shown():
    """Returns the last part of the page: all definitions of its parts, by files."""
    done, lines = set(), []
    for title, root in PARTS:
        all_below = below(root)[0]
        more = [it for it in all_below if it not in done]
        done.update(more)
        before = f", of which {len(all_below) - len(more)} are above" if len(more) < len(all_below) else ""
        lines += [f"## {title}", "", f"What `{root}` stands on: {len(all_below)} definitions and types{before}.", ""]
        for path, pieces in by_path(in_files(more)):
            lines += [f"### [{path.removeprefix('crates/')}](../{path})", "", "```text", "\n\n".join(pieces), "```", ""]
    return "\n".join(lines)


def wrong_quotes(text):
    """Says which indented blocks stand in no source."""
    sources = None
    for block in re.findall(r"(?:^    .*\n)+", text, re.MULTILINE):
        if sources is None:
            paths = [it for crate in named_by_crate() for part in (("src", ".rt"), ("specs", ".antt")) for it in files_of(crate, *part)]
            sources = ["\n".join(it.strip() for it in text_of(path).split("\n")) for path in paths]
        quoted = "\n".join(it.strip() for it in block.strip("\n").split("\n"))
        if not any(quoted in it for it in sources):
            yield f"{PAGE}: no source has this:\n{block}"


def unexplained(text):
    """Says which names of the standard library the definitions use, and the page doesn't explain."""
    explained = set(WORD.findall(" ".join(re.findall(r"`([^`\n]+)`", text)).replace("\\|", "|")))
    names = set().union(*(below(root)[1] for _, root in PARTS))
    yield from (f"{PAGE}: {it.strip('◌')} isn't explained" for it in sorted(names) if it.strip("◌") not in explained)


def wrong_claim(is_written):
    """Says what of the page isn't as it should be; its definitions are written anew first, if it is to be."""
    by_hand, begin, rest = text_of(PAGE).partition(BEGIN)
    made, end, behind = rest.partition(END)
    if not begin or not end:
        yield f"{PAGE}: the marks of the definitions aren't there"
    elif is_written:
        write_text(PAGE, by_hand + begin + shown() + end + behind)
    elif made != shown():
        yield f"{PAGE}: the definitions are others now: scripts/claim.py"
    yield from wrong_quotes(by_hand)
    yield from unexplained(by_hand)


def main(words):
    heed_closed_pipes()
    roots = [it for it in words if it != "--text"]
    if any(it.startswith("-") for it in roots) or words and not roots:
        sys.exit(__doc__)
    if not roots:
        found = [*wrong_claim(True)]
        print("\n".join(found or [f"{PAGE} is written"]))
        return 1 if found else 0
    try:
        order = list(dict.fromkeys(it for root in roots for it in below(root)[0]))
    except LookupError as why:
        sys.exit(why.args[0])
    if "--text" in words:
        print("\n\n".join(f"-- {module.path}\n{module.texts[name]}" for module, name in order))
    crates = {}
    for module, name in order:
        crates.setdefault(module.path.split("/")[1], []).append(name)
    for crate, names in sorted(crates.items()):
        print(f"{crate}: {len(names)}: {' '.join(names)}")
    print(f"{len(order)} definitions and types in {len({it[0].path for it in order})} files")
    return 0


if __name__ == "__main__":
    sys.exit(main(sys.argv[1:]))
