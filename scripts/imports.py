"""What the scripts take from one another must be there.

Of each script of scripts/, bench/ and examples/ every import is looked up: in the file of this name beside the script, or else in the standard library.
"""
import ast
import glob
import os
import sys

from sources import TOP, text_of


def defined(path):
    """Returns the names that a script defines at its outermost level."""
    items = ast.parse(text_of(path)).body
    assigned = [it for item in items if isinstance(item, ast.Assign) for it in item.targets]
    return {it.name for it in items if hasattr(it, "name")} | {it.id for it in assigned if isinstance(it, ast.Name)}


def imported(path):
    """Returns each module that a script imports, with the names that it takes from it."""
    for item in ast.walk(ast.parse(text_of(path))):
        if isinstance(item, ast.Import):
            yield from ((it.name, []) for it in item.names)
        if isinstance(item, ast.ImportFrom):
            yield item.module, [it.name for it in item.names]


def wrong_imports():
    """Says which scripts import what isn't there."""
    for path in sorted(os.path.relpath(it, TOP) for folder in ("scripts", "bench", "examples") for it in glob.glob(f"{TOP}/{folder}/*.py")):
        for module, names in imported(path):
            beside = f"{os.path.dirname(path)}/{module}.py"
            if os.path.exists(f"{TOP}/{beside}"):
                yield from (f"{path}: {beside} has no {it}" for it in names if it not in defined(beside))
            elif module.partition(".")[0] not in sys.stdlib_module_names:
                yield f"{path}: there is no module {module}"
