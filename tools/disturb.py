"""Runs a program with requests for memory refused, reads and writes failing, or threads that can't be started, one run in a fraction of a millisecond.

For tools/hostile, tools/sweeps.py and tools/refuse_tests. `library` compiles disturb.c, and a `Program` is a program that is loaded once and then
run as often as is asked for, each time in a process of its own. Needs gcc and a program that is linked dynamically.
"""
import contextlib
import os
import re
import resource
import shutil
import signal
import struct
import subprocess

MEMORY, READS, WRITES, SAYINGS, THREADS, NEVER = 0, 1, 2, 3, 4, -1
SHORT, NOTHING = -1, -2
EVERY = (1 << 62) - 1
ORDER, TOLD = struct.Struct("<6q"), struct.Struct("<11q")
HERE = os.path.dirname(os.path.realpath(__file__))
SECONDS = 20  # of a processor
FIRST_ALL = 500
# the line that may stand behind the text of a fault: how it is put is the program's own
HELP = re.compile(rb"  [ -~]+\n")


class Broken(Exception):
    """The program cannot be run so."""


def library(room):
    """Compiles disturb.c into this folder and returns where it is."""
    if not shutil.which("gcc"):
        raise Broken("gcc is not there, which compiles tools/disturb.c: install it")
    made = f"{room}/disturb.so"
    ran = subprocess.run(["gcc", "-O2", "-shared", "-fPIC", "-o", made, f"{HERE}/disturb.c", "-ldl"], capture_output=True, text=True)
    if ran.returncode:
        raise Broken(f"gcc did not compile tools/disturb.c: {ran.stderr.strip()[:400]}")
    return made


def quiet(stack=None):
    """No core dumps, and as much stack as is told, in KiB."""
    resource.setrlimit(resource.RLIMIT_CORE, (0, 0))
    if stack:
        resource.setrlimit(resource.RLIMIT_STACK, (stack << 10, stack << 10))


class Run:
    """What came of a run: its status (below 0: the signal that ended it), what it wrote and said, and how many requests for memory, reads,
    writes, sayings and threads there were."""

    def __init__(self, status, out, err, seen=(), marks=()):
        self.status, self.out, self.err, self.seen, self.marks = status, out, err, seen, marks

    @property
    def fault(self):
        """What it said, without the line of help that may stand behind a fault of the input."""
        first, _, behind = self.err.partition(b"\n")
        return first + b"\n" if HELP.fullmatch(behind) else self.err

    def __eq__(self, other):
        return (self.status, self.out, self.err) == (other.status, other.out, other.err)

    def __str__(self):
        ended = f"status {self.status}" if self.status >= 0 else f"signal {-self.status}"
        return f"{ended}, {len(self.out)} bytes written, said: {self.err[:120].decode(errors='replace').strip()!r}"


class Tally:
    """How many runs there were of a row or a part, and which were wrong."""

    def __init__(self, name):
        self.name, self.places, self.wrong, self.shown, self.says = name, 0, 0, [], ""

    def count(self, is_right, what, run):
        self.places += 1
        if not is_right:
            self.wrong += 1
            if len(self.shown) < 10:
                self.shown.append(f"  {self.name}: {what}: {run}")


class Program:
    """A program with its words, loaded and waiting in a folder of its own."""

    def __init__(self, words, library, room, mark=0, stack=None):
        self.room, self.words = room, words
        os.makedirs(room, exist_ok=True)
        self.gives(b"")
        theirs, self.orders = os.pipe()
        self.replies, answers = os.pipe()
        env = {"PATH": "/usr/bin:/bin", "LANG": "C.UTF-8", "LD_PRELOAD": library, "DISTURB_FDS": f"{theirs},{answers}", "DISTURB_ROOM": room}
        if mark:
            env["DISTURB_MARK"] = str(mark)
        how = {"stdin": subprocess.DEVNULL, "stdout": subprocess.DEVNULL, "stderr": subprocess.DEVNULL, "cwd": room}
        self.process = subprocess.Popen(words, env=env, pass_fds=(theirs, answers), preexec_fn=lambda: quiet(stack), **how)
        os.close(theirs)
        os.close(answers)

    def __enter__(self):
        return self

    def __exit__(self, *_):
        os.close(self.orders)
        os.close(self.replies)
        self.process.kill()
        self.process.wait()

    def gives(self, text):
        """From here on each run reads this text."""
        with open(f"{self.room}/in", "wb") as it:
            it.write(text)

    def read(self, name):
        with open(f"{self.room}/{name}", "rb") as it:
            return it.read()

    def run(self, kind=NEVER, how=1, then=None, first=1, last=None, seconds=SECONDS):
        """Runs it once. Of the calls of this kind the first that is told fails in one way, and those after it, up to the last, in another."""
        last = first if last is None else last
        with contextlib.suppress(BrokenPipeError):
            os.write(self.orders, ORDER.pack(kind, how, how if then is None else then, first, last, seconds))
        told = os.read(self.replies, TOLD.size)
        if len(told) != TOLD.size:
            raise Broken(f"{self.words[0]} cannot be run so: it is linked statically, or never reaches the place where it is to wait")
        status, *seen, marks = TOLD.unpack(told)[:7]
        status = os.waitstatus_to_exitcode(status)
        return Run(status, self.read("out"), self.read("err"), seen, TOLD.unpack(told)[7 : 7 + marks])


def spread(count, most):
    """The places from 1 to `count`, or where they are more than `most`, the first ones and then an even stride."""
    if count <= most:
        return range(1, count + 1), ""
    first = min(FIRST_ALL, most // 2)
    stride = -(-(count - first) // (most - first))
    return [*range(1, first + 1), *range(first + 1, count + 1, stride)], f" (the first {first} and then one of {stride})"


def lowered():
    """Ends at the first Ctrl-C without a trace."""
    signal.signal(signal.SIGINT, signal.SIG_DFL)
