"""How the build runs commands, waits for its turn, and ends when a signal stops it; and how other scripts do when nobody reads on."""
import contextlib
import fcntl
import os
import shutil
import signal
import subprocess
import sys
import tempfile
import threading

# The signals that stop a build.
SIGNALS = (signal.SIGINT, signal.SIGTERM, signal.SIGHUP)
# Where files lie in memory, if anywhere, and how many bytes of them a check may write there on the way.
IN_MEMORY = "/dev/shm"
SCRATCH_OF_A_CHECK = 1_000_000_000


class Stopped(BaseException):
    """A signal stopped the build."""


def stop(number, _):
    """Stops what runs in the main thread. A second signal isn't heard on the way out."""
    for it in SIGNALS:
        signal.signal(it, signal.SIG_IGN)
    raise Stopped(number)


def heed_closed_pipes():
    """Lets a script whose output nobody reads any more, as behind `| head`, end by the signal that says so. It must write to no command's input."""
    signal.signal(signal.SIGPIPE, signal.SIG_DFL)


def tell(text):
    """Says something to whoever runs the build."""
    print(f"bouwkamp: {text}", file=sys.stderr, flush=True)


def stoppable(main):
    """Returns what a call gives. If a signal stops it, one line says so, and the process ends by that signal."""
    for it in SIGNALS:
        if signal.getsignal(it) != signal.SIG_IGN:
            signal.signal(it, stop)
    try:
        return main()
    except Stopped as it:
        tell("the build was stopped; what is proved stays, and the next build goes on from there")
        signal.signal(it.args[0], signal.SIG_DFL)
        return os.kill(os.getpid(), it.args[0])


class Commands:
    """Runs commands, and ends all that still run when no more may."""

    def __init__(self):
        self.running, self.turn, self.may_start = set(), threading.Lock(), True

    def run(self, command, folder):
        """Runs a command. Returns whether its status is 0, and what it printed."""
        how = {"cwd": folder, "stdin": subprocess.DEVNULL, "stdout": subprocess.PIPE, "stderr": subprocess.STDOUT}
        with self.turn:
            if not self.may_start:
                return False, ""
            child = subprocess.Popen(command, text=True, errors="replace", **how)
            self.running.add(child)
        text, _ = child.communicate()
        with self.turn:
            self.running.discard(child)
        return child.returncode == 0, text

    def end(self):
        """Ends all commands that run, and waits until they are gone. From then on none is started."""
        with self.turn:
            self.may_start = False
            left = [*self.running]
        for it in left:
            it.kill()
        for it in left:
            it.wait()


COMMANDS = Commands()


@contextlib.contextmanager
def scratch(jobs):
    """Makes a folder for what so many checks write on the way: in memory if there is room, unless TMPDIR says where. At the end all commands end, and
    it is removed."""
    in_memory = "TMPDIR" not in os.environ and os.access(IN_MEMORY, os.W_OK) and shutil.disk_usage(IN_MEMORY).free >= jobs * SCRATCH_OF_A_CHECK
    folder = tempfile.mkdtemp(prefix="bouwkamp.", dir=IN_MEMORY if in_memory else None)
    try:
        os.environ["TMPDIR"] = folder
        yield
    finally:
        COMMANDS.end()
        shutil.rmtree(folder, ignore_errors=True)


def lock(file, how, whom):
    """Locks a file or a folder that is open, and says whom it waits for if it has to. Some file systems have no locks; nothing is locked there."""
    try:
        fcntl.flock(file, how | fcntl.LOCK_NB)
    except BlockingIOError:
        tell(f"waiting for {whom}")
        fcntl.flock(file, how)
    except OSError:
        pass


@contextlib.contextmanager
def at_work(crate):
    """Keeps `rt` out of the crate's folder meanwhile, and has it change nothing in those below. It locks these folders too, and in the same order."""
    held = []
    try:
        for it in sorted([*crate.below, crate], key=lambda it: os.path.realpath(it.folder)):
            held.append(os.open(it.folder, os.O_RDONLY))
            lock(held[-1], fcntl.LOCK_EX if it is crate else fcntl.LOCK_SH, f"another command to end in crates/{it.name}")
        yield
    finally:
        for it in held:
            os.close(it)
