"""What proves the crates, what each library and the program are made from, and whether they are right."""
import functools
import hashlib
import importlib.machinery
import importlib.util
import os
import shutil
import threading
import time

from running import COMMANDS, at_work
from sources import PARTS, TOP, files_of, named_by_crate, works_of

NAME = "bk_main"
OUT = f"{TOP}/crates/{NAME}/out"
PROGRAM = f"{OUT}/{NAME}"
# The sum of what the program was made from with its own, and the identity of the toolchain that made it.
MADE_FROM = f"{OUT}/made_from"
MADE_BY = f"{OUT}/made_by"
CHANGED = "bouwkamp: something was changed while it was proved\n"


def bytes_of(path):
    """Returns the bytes of a file, none if it isn't there or can't be read."""
    try:
        with open(path, "rb") as file:
            return file.read()
    except OSError:
        return b""


def write(path, content):
    """Writes the bytes of a file."""
    with open(path, "wb") as file:
        file.write(content)


class Toolchain:
    """Where the prover, its libraries and its linker lie, and what they are."""

    def __init__(self):
        rt = shutil.which("rt")
        self.folder = os.path.dirname(os.path.dirname(os.path.realpath(rt))) if rt else ""
        self.identity = bytes_of(f"{self.folder}/KIT-ID") if rt else b""
        self.is_there = bool(self.identity)
        # With no toolchain on the PATH the program that is there may still be right: then that which made it is asked about.
        self.identity = self.identity or bytes_of(MADE_BY)
        # (what `rt` knows of crates is no matter for two threads at once)
        self.turn = threading.Lock()

    @functools.cached_property
    def crate_of_rt(self):
        """Returns what makes a crate as `rt` knows it, from the crate's folder."""
        loader = importlib.machinery.SourceFileLoader("rt", f"{self.folder}/bin/rt")
        made = importlib.util.module_from_spec(importlib.util.spec_from_loader("rt", loader))
        loader.exec_module(made)
        return functools.partial(made.rtlib.Crate, root=TOP, known={})

    def stamp(self, crate):
        """Returns the sum by which `rt` knows whether the library of a crate is right, or nothing if this toolchain's `rt` has none."""
        with self.turn:
            try:
                return self.crate_of_rt(crate.folder).stamp().encode()
            except (Exception, SystemExit):  # pylint: disable=broad-exception-caught
                return b""

    def library(self, name):
        """Returns where a library of the toolchain lies."""
        return f"{self.folder}/rlibs/{name}.rlib"

    def build(self, crate, *words):
        """Returns the command that proves a crate by one process and then makes what the words say."""
        own = [f"--extern={it.name}={it.library}" for it in crate.named]
        given = [f"--extern={it}={self.library(it)}" for it in ("std", *crate.of_toolchain)]
        folders = [f"{self.folder}/rlibs", *(os.path.dirname(it.library) for it in crate.below)]
        return [
            *(f"{self.folder}/bin/rattle", "build", "--crate-name", crate.name, crate.root, *given, *own),
            *(f"-Ldependency={it}" for it in folders),
            *("--antt-project", f"{self.folder}/rattle/logic/antt-project.json", "--logic-built", f"{self.folder}/logic_built"),
            *("--jobs", "1", "--links", f"{crate.name}=", *words),
        ]

    def link(self, made, program):
        """Returns the command that links what was made to a program."""
        libraries = [f"{self.folder}/c/{it}" for it in ("libos_c.a", "liblibc_c.a")]
        words = ["--target", "x86_64-unknown-linux-gnu", "--toolchain", f"{self.folder}/toolchain", "-o", program]
        return [f"{self.folder}/bin/rattle-link", *words, made, *libraries]


class Crate:
    """A crate, those of the repository that its line in crates.txt names, and all below it."""

    def __init__(self, name, named, of_toolchain):
        self.name, self.named, self.of_toolchain = name, named, of_toolchain
        self.below = list(dict.fromkeys(it for one in named for it in (*one.below, one)))
        self.folder = f"{TOP}/crates/{name}"
        self.root = "src/main.rt" if os.path.exists(f"{self.folder}/src/main.rt") else "src/lib.rt"
        self.library = f"{self.folder}/out/rlib/{name}.rlib"
        # The seconds that its proof took, if it was proved in this run.
        self.sum, self.work, self.seconds = None, 0, None
        # How much work the longest chain of crates is that begins with this one and goes up.
        self.chain = 0

    def sum_now(self, toolchain):
        """Returns the sum of all that the library of the crate is made from."""
        found = hashlib.sha256(toolchain.identity + repr(([(it.name, it.sum) for it in self.named], self.of_toolchain)).encode())
        for file in sorted(it for part in PARTS for it in files_of(self.name, *part)):
            found.update(repr((file, bytes_of(f"{TOP}/{file}"))).encode())
        return found.hexdigest()

    def kept(self, name):
        """Returns a file beside the library: `made_from` has the build's sum of what it was made from, and `stamp` that of `rt`."""
        return f"{self.folder}/out/rlib/{name}"

    def made_from(self):
        """Returns the sum of all that the library is made from, and that of the libraries below it as they were built: it fits only these."""
        over = hashlib.sha256(b"".join(bytes_of(f"{it.library}/format") for it in self.below))
        return f"{self.sum} {over.hexdigest()}".encode()

    def is_proved(self, toolchain):
        """Returns whether the library is there, made from what is there now. One that `rt` made fits any libraries below it."""
        if not os.path.isdir(self.library):
            return False
        made_from, stamp = bytes_of(self.kept("made_from")), bytes_of(self.kept("stamp"))
        return made_from == self.made_from() if made_from else bool(stamp) and stamp == toolchain.stamp(self)

    def prove(self, toolchain):
        """Proves the crate over the libraries below it. Returns whether it is proved, and what was printed."""
        with at_work(self):
            if self.is_proved(toolchain):
                return True, ""
            shutil.rmtree(os.path.dirname(self.library), ignore_errors=True)
            os.makedirs(os.path.dirname(self.library))
            stamp, began = toolchain.stamp(self), time.monotonic()
            passed, text = COMMANDS.run(toolchain.build(self, "--statements", "-o", self.library), self.folder)
            self.seconds = time.monotonic() - began
            if not passed or self.was_changed(toolchain):
                return False, text + CHANGED * passed
            write(self.kept("made_from"), self.made_from())
            if stamp and stamp == toolchain.stamp(self):
                write(self.kept("stamp"), stamp)
            return True, text

    def was_changed(self, toolchain):
        """Returns whether the crate or a library below it isn't any more what it was when the build began."""
        return self.sum_now(toolchain) != self.sum or not all(it.is_proved(toolchain) for it in self.below)


def read_crates(toolchain, top=NAME):
    """Returns the crates that one stands on, the lowest first, and that one last."""
    listed, found = named_by_crate(), {}

    def add(name):
        ours = [it for it in listed[name] if it in listed]
        for it in ours:
            if it not in found:
                add(it)
        found[name] = Crate(name, [found[it] for it in ours], [it for it in listed[name] if it not in listed])
        found[name].sum = found[name].sum_now(toolchain)

    add(top)
    crates = [*found.values()]
    for name, work in works_of(found).items():
        found[name].work = work
    for crate in reversed(crates):
        crate.chain = crate.work + max((it.chain for it in crates if crate in it.named), default=0)
    return crates


def made_from(program):
    """Returns the sum of all that the program is made from, and that of the program that is there."""
    return f"{program.sum} {hashlib.sha256(bytes_of(PROGRAM)).hexdigest()}"


def is_built(program):
    """Returns whether the program is there, made from what is there now, and nobody put another in its place."""
    return os.access(PROGRAM, os.X_OK) and bytes_of(MADE_FROM).decode() == made_from(program)


def is_right():
    """Returns whether the program that is there is made from the sources as they are now. It isn't built here."""
    return is_built(read_crates(Toolchain())[-1])


def can_be_tried(given):
    """Returns whether a program that is named can be run; or, if none is, whether that of this checkout is right."""
    return os.path.isfile(given or PROGRAM) and os.access(given or PROGRAM, os.X_OK) and (bool(given) or is_right())


def build(program, toolchain, log):
    """Proves the program, builds and links it, and puts it in the place of the one before. Returns whether that was done."""
    made, new = f"{PROGRAM}.o", f"{PROGRAM}.new"
    with at_work(program):
        for command in (
            toolchain.build(program, "--toolchain", f"{toolchain.folder}/toolchain", "-o", made),
            toolchain.link(made, new),
        ):
            passed, text = COMMANDS.run(command, program.folder)
            log.write(text)
            if not passed:
                return False
        if program.was_changed(toolchain):
            log.write(CHANGED)
            return False
        os.replace(new, PROGRAM)
        write(MADE_BY, toolchain.identity)
        write(MADE_FROM, made_from(program).encode())
    return True
