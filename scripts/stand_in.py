"""A stand-in for a checkout and its toolchain, in which scripts/try_launcher.py tries the launcher: what it proves it takes for proved, and what it
links is a script that says what it was built from, with its words and its input."""
import os
import shutil
import signal
import subprocess
import sys
from dataclasses import dataclass

from sources import TOP

NOBODY = 65534
# All that the launcher and the stand-ins call, beside python3.
TOOLS = "sh cat dirname find mkdir mv printf readlink sed sha256sum sleep".split()
CRATES = {"bk_low": "", "bk_mid": "bk_low", "bk_side": "bk_low", "bk_main": "bk_mid bk_side"}
# A blank, a quote, a dollar sign, a line feed: a folder may be named so.
ODD = "a b'\"$x\n y"
SLOW = 60
PROVER = """#!/bin/sh
# Takes what it is told to prove for proved, after as many seconds as a file says. It refuses the words that the prover refuses together.
kit=$(dirname "$0")/..
name= to= of= statements= kept=
while [ $# -gt 0 ]; do
    case $1 in
        --crate-name) name=$2 of=$3 ;;
        -o) to=$2 ;;
        --statements) statements=1 ;;
        --incremental) kept=1 ;;
    esac
    shift
done
[ -z "$statements" ] || [ -z "$kept" ] || exit 2
echo "$name" >>"$kit/proved"
[ ! -e "$kit/seconds" ] || sleep "$(cat "$kit/seconds")"
[ ! -e "$kit/refuses" ] || exit 1
case $to in
    *.rlib) mkdir -p "$to" ;;
    *) cat "$of" >"$to" ;;
esac
"""
LINKER = """#!/bin/sh
# Makes a script that says what it was built from, its words and its input, and ends with the status that its first word names.
to= from=
while [ $# -gt 0 ]; do
    case $1 in
        -o) to=$2 from=$3 ;;
    esac
    shift
done
{
    echo '#!/bin/sh'
    printf 'printf "%%s|" %s "$@"; cat; exit "$1"\\n' "$(cat "$from")"
} >"$to"
chmod +x "$to"
"""


RT = """
import hashlib


class rtlib:
    class Crate:
        def __init__(self, folder, root, known):
            self.files = [f"{root}/crates/bk_low/src/lib.rt", f"{folder}/src/lib.rt"]

        def stamp(self):
            found = hashlib.sha256()
            for it in self.files:
                with open(it, "rb") as file:
                    found.update(file.read())
            return found.hexdigest()
"""


def heed_interrupts():
    """Lets ^C stop what is started, as at a terminal. What a shell starts in the background, as a gate may be, inherits that it is passed over."""
    signal.signal(signal.SIGINT, signal.SIG_DFL)


class Failed(Exception):
    """A case isn't as it must be."""


def must(holds, text, found=""):
    """Fails the case if something doesn't hold."""
    if not holds:
        raise Failed(f"{text} {found!r}" if found != "" else text)


def write(path, text, mode=0o644):
    """Writes a file, with the folders above it."""
    os.makedirs(os.path.dirname(path), exist_ok=True)
    with open(path, "w", encoding="utf-8") as file:
        file.write(text)
    os.chmod(path, mode)


@dataclass
class Said:
    """What a call of the launcher came to."""

    status: int
    out: str
    err: str


class Place:
    """A folder with a checkout, a stand-in for the toolchain, and the tools that are on the PATH."""

    def __init__(self, room):
        self.room, self.top, self.kit, self.children = room, f"{room}/{ODD}/checkout", f"{room}/kit", []
        for name in TOOLS + ["chmod"]:
            os.makedirs(f"{room}/tools", exist_ok=True)
            os.symlink(shutil.which(name), f"{room}/tools/{name}")
        os.makedirs(f"{room}/python")
        os.symlink(python_for_all(), f"{room}/python/python3")
        write(f"{self.kit}/KIT-ID", "stand-in 1\n")
        for name, text in (("rt", ""), ("rattle", PROVER), ("rattle-link", LINKER)):
            write(f"{self.kit}/bin/{name}", text or "#!/bin/sh\n", 0o755)
        os.makedirs(f"{room}/scratch")
        self.make_checkout()

    def make_checkout(self):
        """Makes the checkout: this launcher and these scripts, with crates that have next to nothing in them."""
        os.makedirs(self.top)
        shutil.copy2(f"{TOP}/bouwkamp", self.top)
        names = [it for it in os.listdir(f"{TOP}/scripts") if it.endswith((".py", ".txt"))]
        for it in names:
            os.makedirs(f"{self.top}/scripts", exist_ok=True)
            shutil.copy2(f"{TOP}/scripts/{it}", f"{self.top}/scripts")
        write(f"{self.top}/crates.txt", "".join(f"{it}: {below}\n" for it, below in CRATES.items()))
        for it in CRATES:
            write(self.source(it), "one")

    def source(self, crate):
        """Returns the file of code of a crate."""
        return f"{self.top}/crates/{crate}/src/{'main' if crate == 'bk_main' else 'lib'}.rt"

    def path(self, *names):
        """Returns a PATH of these of the folders here."""
        return ":".join({"rt": f"{self.kit}/bin"}.get(it, f"{self.room}/{it}") for it in names)

    def start(self, *words, call=None, at=None, path=("rt", "tools", "python"), user=(), **env):
        """Starts the launcher, as a leader of a group of its own."""
        given = {"PATH": self.path(*path), "TMPDIR": f"{self.room}/scratch", **env}
        how = {"stdin": subprocess.PIPE, "stdout": subprocess.PIPE, "stderr": subprocess.PIPE, "start_new_session": True}
        how["preexec_fn"] = heed_interrupts
        self.children.append(subprocess.Popen([*user, call or f"{self.top}/bouwkamp", *words], cwd=at or self.room, env=given, text=True, **how))
        return self.children[-1]

    def end(self):
        """Ends what a case that failed has left running."""
        for child in self.children:
            if child.returncode is None:
                os.killpg(child.pid, signal.SIGKILL)
                child.communicate()

    def call(self, *words, **how):
        """Calls the launcher on an input, and returns what it came to."""
        child = self.start(*words, **how)
        out, err = child.communicate("input", timeout=SLOW)
        return Said(child.returncode, out, err)

    def proved(self):
        """Returns the crates that the stand-in took for proved since the last call of this."""
        try:
            with open(f"{self.kit}/proved", encoding="utf-8") as file:
                return file.read().split()
        except FileNotFoundError:
            return []
        finally:
            write(f"{self.kit}/proved", "", 0o666)

    def looks(self):
        """Returns what the files of the checkout look like."""
        return sorted((it, os.lstat(it).st_size, os.lstat(it).st_mtime_ns) for at, _, names in os.walk(self.top) for it in [at, *(f"{at}/{x}" for x in names)])

    def build(self):
        """Has the program built."""
        is_built(self.call("0"))
        self.proved()


def python_for_all():
    """Returns a python3 that anybody can run, or else this one."""
    found = [it for it in ("/usr/bin/python3", "/usr/local/bin/python3") if os.access(it, os.X_OK)]
    return found[0] if found else os.path.realpath(sys.executable)


def is_answer(said, text="one", words="0", status=0):
    """Fails unless the program ran, built from this text, with these words, and nothing else was said."""
    must(said.status == status, "the status is", said.status)
    must(said.out == f"{text}|{words}|input", "the output is", said.out)
    must(said.err == "", "standard error has", said.err)


def is_built(said, text="one"):
    """Fails unless the program was built and then ran."""
    must(said.status == 0 and said.out == f"{text}|0|input", "the call came to", said)
    must("the program is built" in said.err and "Traceback" not in said.err, "standard error has", said.err)


def is_refused(said, word):
    """Fails unless the launcher said in one line, or at the end of what a build says, why it starts nothing."""
    must(said.status == 70 and said.out == "", "the call came to", said)
    lines = said.err.splitlines()
    must(lines and word in lines[-1] and "Traceback" not in said.err, "standard error has", said.err)


def somebody_else():
    """Returns the words by which root does something as nobody; others are nobody else."""
    as_nobody = [shutil.which("setpriv") or "setpriv", f"--reuid={NOBODY}", f"--regid={NOBODY}", "--clear-groups"]
    return () if os.geteuid() else as_nobody


def can_be_another():
    """Returns whether commands can be run as nobody, who can start a python3."""
    words = [*somebody_else(), python_for_all(), "-c", "pass"]
    try:
        return os.geteuid() == 0 and subprocess.run(words, cwd="/", capture_output=True, check=False).returncode == 0
    except OSError:
        return False


def runs_in(group):
    """Returns whether a process of this group still runs."""
    for name in filter(str.isdigit, os.listdir("/proc")):
        try:
            with open(f"/proc/{name}/stat", encoding="utf-8", errors="replace") as file:
                state, _, its_group, *_ = file.read().rpartition(")")[2].split()
        except OSError:
            continue
        if int(its_group) == group and state != "Z":
            return True
    return False
