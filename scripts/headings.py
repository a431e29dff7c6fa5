#!/usr/bin/env python3
"""Whether each definition that a public contract rests on is where a reader looks for it.

In specs/Lib.antt of a crate the files of definitions stand under headings: what the crate says, and how its code keeps it. A contract of a function that
a crate exports rests on the definitions that it names, and on all below those (scripts/claim.py). None of them is to stand under how the code keeps it.
`wrong_headings` is called by scripts/check_docs.py.

    scripts/headings.py
"""
import functools
import os
import re
import sys

from claim import WORD, Module, names_in, uses, where
from sources import files_of, named_by_crate, text_of

KEPT = "-- How its code keeps it."
IMPORT = re.compile(r"ghost use (Rattle\.[\w.]+)\.\{([^}]*)\}")
OWNER = re.compile(r"(?:pub )?(impl|trait)(?:<[^{]*?>)?\s+(?:[\w<>, ]+ (for) )?(\w+)")
FUNCTION = re.compile(r"^( *)(pub )?(?:const )?fn (\w+)[^{;]*?\n((?:(?!\1[{}])(?!.*;$).*\n)*)", re.MULTILINE)


def exported_by(crate):
    """Returns the names that a crate hands out: those that the file at its top uses in public or declares."""
    top = next(it for it in files_of(crate, "src", ".rt") if os.path.basename(it) in ("lib.rt", "main.rt"))
    used = re.findall(r"^pub use ([^;]+);", text_of(top), re.MULTILINE)
    return {it for item in used for it in re.findall(r"\w+", item)} | set(re.findall(r"^pub (?:fn|struct|enum|trait) (\w+)", text_of(top), re.MULTILINE))


def public_contracts(crate):
    """Returns each function that a crate exports, with the text of its clauses and what the names there stand for."""
    exported = exported_by(crate)
    for path in files_of(crate, "src", ".rt"):
        text = text_of(path)
        names, owner = names_in(text, IMPORT), None
        for block in re.split(r"^(?=(?:pub )?(?:impl|trait)\b)|(?<=^\}\n)", text, flags=re.MULTILINE):
            owner = OWNER.match(block)
            for _, is_public, name, clauses in FUNCTION.findall(block):
                of_trait = owner and (owner[1] == "trait" or owner[2])
                if (is_public or of_trait) and (owner[3] if owner else name) in exported:
                    yield f"{owner[3]}::{name}" if owner else name, clauses, names


@functools.cache
def below(module, name):
    """Returns the definitions under one, and that one."""
    found, waiting = set(), [(module, name)]
    while waiting:
        one = waiting.pop()
        if one not in found and not isinstance(one, str):
            found.add(one)
            waiting.extend(uses(*one))
    return {it for it in found if isinstance(it[0], Module)}


@functools.cache
def kept(crate):
    """Returns the files of definitions that a crate has under how its code keeps it."""
    return set(re.findall(r"^pub mod (\w+)", text_of(f"crates/{crate}/specs/Lib.antt").partition(KEPT)[2], re.MULTILINE))


def wrong_headings():
    """Says which definitions stand under how the code keeps it though a public contract rests on them, each with one such contract."""
    found = {}
    for crate in named_by_crate():
        for function, clauses, names in public_contracts(crate):
            for word in {form for it in WORD.findall(clauses) for form in (it, f"◌{it}◌")} & names.keys():
                for module, name in below(*where(*names[word])) if where(*names[word]) else ():
                    _, home, _, *path = module.path.removesuffix(".antt").split("/")
                    if path[0] in kept(home):
                        found.setdefault((module.path, name), f"{crate}::{function}")
    yield from (f"{path}: {name} is under how the code keeps it, and {function} rests on it" for (path, name), function in sorted(found.items()))


if __name__ == "__main__":
    told = [*wrong_headings()]
    print("\n".join(told) if told else "all headings are right")
    sys.exit(1 if told else 0)
